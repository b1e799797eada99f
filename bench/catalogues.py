"""Catalogues and texts of any size, the same for the same seed."""

import random
import string

PARTS = 5

# A message of every catalogue.
KNOWN = "a known message"
KNOWN_TRANSLATION = "eine bekannte Meldung"

# Another, which has a plural.
COUNTED = ("%d known file", "%d known files")
COUNTED_TRANSLATIONS = ("%d bekannte Datei", "%d bekannte Dateien", "%d der bekannten Dateien")

HEADER = (
    'msgid ""\n'
    'msgstr ""\n'
    '"Content-Type: text/plain; charset=UTF-8\\n"\n'
    '"Plural-Forms: nplurals=3; plural=n%10==1 && n%100!=11 ? 0 : n%10>=2 && "\n'
    '"n%10<=4 && (n%100<10 || n%100>=20) ? 1 : 2;\\n"\n'
)

WORDS = (
    "open close file folder window message error warning value number list item save load "
    "print copy paste select option server network user password cannot find invalid missing"
).split()
TRANSLATED = (
    "öffnen schließen Datei Ordner Fenster Nachricht Fehler Warnung Wert Zahl Liste Eintrag "
    "speichern laden drucken kopieren einfügen wählen Größe Verbindung Benutzer ungültig fehlt"
).split()


def phrase(chance, words):
    return " ".join(chance.choice(words) for _ in range(chance.randint(2, 9)))


def texts(keyword, text, prefix):
    """A keyword with its text, which is cut after each line end."""
    lines = [line + "\\n" for line in text.split("\n")]
    lines[-1] = lines[-1][:-2]
    if len(lines) == 1:
        return f'{prefix}{keyword} "{lines[0]}"\n'
    return f'{prefix}{keyword} ""\n' + "".join(f'{prefix}"{line}"\n' for line in lines)


def comments(chance, number):
    """The comments of a message, and its references and flags but `fuzzy`."""
    out = []
    if chance.random() < 0.25:
        out.append(f"# {phrase(chance, WORDS)}\n")
    if chance.random() < 0.2:
        out.append(f"#. {phrase(chance, WORDS)}\n")
    if chance.random() < 0.7:
        out.append(f"#: {' '.join(place(chance) for _ in range(number % 3 + 1))}\n")
    return out


def place(chance):
    return f"src/{chance.choice(WORDS)}.c:{chance.randint(1, 5000)}"


def flags(chance, is_fuzzy):
    names = (["fuzzy"] if is_fuzzy else []) + (["c-format"] if chance.random() < 0.2 else [])
    return f"#, {', '.join(names)}\n" if names else ""


def forms(chance, count):
    """So many forms; one in ten has a second line."""
    between = "\n" if chance.random() < 0.1 else " "
    halves = [(phrase(chance, TRANSLATED), phrase(chance, TRANSLATED)) for _ in range(count)]
    return [between.join(pair) for pair in halves]


def shared_beginning(number):
    """A msgid with a beginning that all share."""
    return "a long beginning that all of these messages share " * 3 + str(number)


def shared_hash(number):
    """A msgid with the hash that all share, where a hash is 16 times the one before plus a byte."""
    return "".join("Aq" if number >> bit & 1 else "Ba" for bit in range(20))


# Msgids that somebody chose to make a tool slow.
CHOSEN = {"shared beginning": shared_beginning, "shared hash": shared_hash}

def random_texts(chance, count, size):
    """So many texts of so many letters."""
    return ["".join(chance.choices(string.ascii_letters, k=size)) for _ in range(count)]


def write_flags(path, count, size, seed):
    """An entry with so many flags of so many letters, in any order, on one line."""
    chance = random.Random(seed)
    write_entry(path, f"#, {','.join(random_texts(chance, count, size))}\n")


def write_comments(path, count, seed):
    """An entry with so many comments, in any order."""
    chance = random.Random(seed)
    write_entry(path, "".join(f"# {text}\n" for text in random_texts(chance, count, 16)))


def write_entry(path, head):
    """The known message, with this before it."""
    with open(path, "w", encoding="utf-8") as out:
        out.write(HEADER + f'\n{head}msgid "{KNOWN}"\nmsgstr "{KNOWN_TRANSLATION}"\n')


# What makes msgfmt refuse a catalogue that ends with it, and the status of GNU's.
REFUSED = {
    "duplicate": (f'msgid "{KNOWN}"\nmsgstr "x"\n', 1),
    "not UTF-8": ('msgid "x\\377"\nmsgstr "x"\n', 0),
    "out of order": ('msgid_plural "x"\nmsgstr "x"\n', 1),
    "unterminated": ('msgid "x\nmsgstr "x"\n', 1),
}


def message(chance, number, chosen=None):
    """A message: of 100, 3 are obsolete, 5 fuzzy, 5 untranslated, 8 have a plural, 10 a context."""
    prefix = "#~ " if chance.random() < 0.03 else ""
    is_fuzzy = chance.random() < 0.05
    is_plural = chance.random() < 0.08
    id = f"{phrase(chance, WORDS)} {number} {phrase(chance, WORDS)}"
    if chosen is not None:
        id = chosen(number)
    out = comments(chance, number) if not prefix else []
    out.append(flags(chance, is_fuzzy))
    if is_fuzzy:
        out.append(texts("msgid", phrase(chance, WORDS), "#~| " if prefix else "#| "))
    if chance.random() < 0.1:
        out.append(texts("msgctxt", chance.choice(WORDS), prefix))
    out.append(texts("msgid", id, prefix))
    translations = forms(chance, 3 if is_plural else 1)
    if chance.random() < 0.05:
        translations = [""] * len(translations)
    if is_plural:
        out.append(texts("msgid_plural", id + "s", prefix))
        out += [texts(f"msgstr[{i}]", form, prefix) for i, form in enumerate(translations)]
    else:
        out.append(texts("msgstr", translations[0], prefix))
    return "".join(out)


def known_messages():
    """The messages of every catalogue."""
    out = [f'\nmsgid "{KNOWN}"\nmsgstr "{KNOWN_TRANSLATION}"\n']
    out.append(f'\nmsgid "{COUNTED[0]}"\nmsgid_plural "{COUNTED[1]}"\n')
    out += [f'msgstr[{i}] "{form}"\n' for i, form in enumerate(COUNTED_TRANSLATIONS)]
    return "".join(out)


def write_catalogue(path, count, seed, chosen=None, last=""):
    """A catalogue of so many messages besides its header and the known ones, whose msgids may be chosen."""
    chance = random.Random(seed)
    with open(path, "w", encoding="utf-8") as out:
        out.write(HEADER + known_messages())
        for number in range(count):
            out.write("\n" + message(chance, number, chosen))
        out.write("\n" + last)


def write_parts(paths, count, seed):
    """The messages of a catalogue, dealt out to several: one in ten to two, in other words."""
    chance = random.Random(seed)
    files = [open(path, "w", encoding="utf-8") for path in paths]
    for out in files:
        out.write(HEADER)
    for number in range(count):
        state = chance.getstate() if number % 10 == 0 else None
        files[number % len(files)].write("\n" + message(chance, number))
        if state is not None:
            again = random.Random()
            again.setstate(state)
            other = message(again, number).replace("ö", "oe")
            files[(number + 1) % len(files)].write("\n" + other)
    for out in files:
        out.close()


def write_shares(paths, count, seed):
    """The messages of a catalogue, dealt out to several, each to one, and the header to the first."""
    chance = random.Random(seed)
    files = [open(path, "w", encoding="utf-8") for path in paths]
    files[0].write(HEADER)
    for number in range(count):
        files[number % len(files)].write("\n" + message(chance, number))
    for out in files:
        out.close()


def obsolete(text):
    """A catalogue of which all messages but the header are obsolete."""
    header, entries = text.split("\n\n", 1)
    lines = entries.replace("#~ ", "").replace("#~| ", "#| ").split("\n")
    return header + "\n\n" + "\n".join(marked(line) for line in lines)


def marked(line):
    """A line of an entry that is made obsolete, without its references."""
    if line.startswith("#| "):
        return "#~| " + line[3:]
    return "" if line.startswith("#:") else line if line[:1] in ("", "#") else "#~ " + line


def with_previous(text):
    """A catalogue in which each message that has none gets previous texts."""
    header, *entries = text.rstrip("\n").split("\n\n")
    marked = [entry if "#| " in entry or "#~" in entry else previous(entry) for entry in entries]
    return "\n\n".join([header] + marked) + "\n"


def previous(entry):
    """An entry that is fuzzy, with the line of its msgid as the previous one too."""
    lines = entry.split("\n")
    at = next((i for i, line in enumerate(lines) if line[:1] not in ("", "#")), len(lines))
    id = next((line for line in lines if line.startswith("msgid ") and line != 'msgid ""'), 'msgid "x"')
    notes = [line for line in lines[:at] if not line.startswith("#,")]
    return "\n".join(notes + ["#, fuzzy", "#| " + id] + lines[at:])


# Shapes of a catalogue that a tool might find hard.
SHAPES = {
    "no empty lines": lambda text: text.replace("\n\n", "\n"),
    "all obsolete": obsolete,
    "all with previous texts": with_previous,
}

# Catalogues with the known message alone: spelt with an escape, and obsolete.
TWIN = HEADER + f'\n#~ msgid "{KNOWN}"\n#~ msgstr "x"\n'
ESCAPED = HEADER + '\nmsgid "\\141' + KNOWN[1:] + '"\nmsgstr "x"\n'


def write_template(path, count, seed):
    """A text of so many lines for envsubst, each with two references."""
    chance = random.Random(seed)
    with open(path, "w", encoding="utf-8") as out:
        for _ in range(count):
            out.write(f"{phrase(chance, WORDS)} $USER {phrase(chance, WORDS)} ${{BENCH}}\n")
