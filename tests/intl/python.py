"""Compares pokit_gettext with Python's gettext.GNUTranslations on MO files: each message of each file, with counts.

    python.py FOLDER LISTED_FILES

FOLDER has the catalogues of trace.c. The last line counts what passed and failed."""
import copy
import decimal
import fractions
import gc
import gettext
import io
import os
import pickle
import struct
import subprocess
import sys
import warnings

import pokit_gettext

COUNTS = [0, 1, 2, 3, 5, 11, 21, 100, 101, 1000000]
passed = failed = skipped = 0


def check(holds, name):
    global passed, failed
    if holds:
        passed += 1
    else:
        failed += 1
        print("failed:", name)


def opened(class_, path):
    with open(path, "rb") as file:
        try:
            return class_(file)
        except (OSError, ValueError, LookupError, IndexError, UnicodeError) as fault:
            return fault


def has_forms(one, other, msgid, asked):
    """Whether plural forms are the same. Where a count's form is missing, GNUTranslations has none, and C the first."""
    for n in COUNTS:
        if (msgid, one.plural(n)) in one._catalog:
            wanted = asked(one, n)
        else:
            wanted = one._catalog[msgid, 0]
        if asked(other, n) != wanted:
            return False
    return True


def is_same(one, other):
    """Whether the two answer the same to each message that GNUTranslations has."""
    if one.info() != other.info() or one.charset() != other.charset():
        return False
    if one._catalog != other._catalog.copy():
        return False
    for key, text in one._catalog.items():
        msgid, form = key if isinstance(key, tuple) else (key, None)
        context, separator, rest = msgid.partition("\x04")
        if "\x04" in rest:
            continue
        if not separator:
            if one.gettext(msgid) != other.gettext(msgid):
                return False
            if form == 0 and not has_forms(one, other, msgid, lambda t, n: t.ngettext(msgid, "s", n)):
                return False
        else:
            if one.pgettext(context, rest) != other.pgettext(context, rest):
                return False
            if form == 0 and not has_forms(one, other, msgid, lambda t, n: t.npgettext(context, rest, "s", n)):
                return False
        if other.gettext(msgid + "!") != one.gettext(msgid + "!"):
            return False
    return True


def try_file(path):
    global skipped
    one, other = opened(gettext.GNUTranslations, path), opened(pokit_gettext.Translations, path)
    if isinstance(one, Exception):
        skipped += 1
        return
    check(isinstance(other, pokit_gettext.Translations) and is_same(one, other), path)


def try_damaged():
    for bytes_, text in ((b"", "file too short"), (b"\0" * 28, "bad magic number")):
        try:
            pokit_gettext.Translations(io.BytesIO(bytes_))
            check(False, text)
        except OSError as fault:
            check(fault.strerror == text, text)


def file_of(messages, order="<"):
    """The file of messages in the order that they have."""
    strings = [original for original, _ in messages] + [translation for _, translation in messages]
    count, at, table, texts = len(messages), 28 + 16 * len(messages), b"", b""
    for text in strings:
        table += struct.pack(order + "2I", len(text), at + len(texts))
        texts += text + b"\0"
    return struct.pack(order + "7I", 0x950412de, 0, count, 28, 28 + 8 * count, 0, at) + table + texts


HEADER = (b"", b"Content-Type: text/plain; charset=UTF-8\nPlural-Forms: nplurals=2; plural=n != 1;\n")
OUT_OF_ORDER = [HEADER, (b"menu\4Close", b"Zu"), (b"Close", "Schließen".encode()), (b"menu\4Open", b"Auf"),
                (b"Open", "Öffnen".encode()), (b"file\0files", b"eine\0mehr"), (b"abc", b"1"), (b"ab", b"2")]


def try_out_of_order():
    """Files whose keys are out of order, as Babel writes them; with one key twice, and cut."""
    for order in "<>":
        for messages in (OUT_OF_ORDER, [HEADER] + OUT_OF_ORDER[:0:-1], OUT_OF_ORDER[:3], OUT_OF_ORDER[:1]):
            file = file_of(messages, order)
            one, other = gettext.GNUTranslations(io.BytesIO(file)), pokit_gettext.Translations(io.BytesIO(file))
            check(is_same(one, other), "out of order")
            check(answers(copy.deepcopy(other)) == answers(pickle.loads(pickle.dumps(other))) == answers(one), "its copies")
        other = pokit_gettext.Translations(io.BytesIO(file_of(OUT_OF_ORDER[::-1], order)))
        check(answers(other) == ["Öffnen", "mehr", "Auf"], "the header last")
        many = [(b"o%06d" % i, b"t%d" % i) for i in range(20000)]
        other = pokit_gettext.Translations(io.BytesIO(file_of(many[::-1], order)))
        check(all(other.gettext("o%06d" % i) == "t%d" % i for i in range(0, 20000, 99)), "the last first")
        twice = file_of(OUT_OF_ORDER + [(b"Open\0Open all", b"Alle")], order)
        for file, text in ((twice, "string out of order"), (file_of(OUT_OF_ORDER, order)[:-1], "string without a final NUL")):
            try:
                pokit_gettext.Translations(io.BytesIO(file))
                check(False, text)
            except OSError as fault:
                check(fault.strerror == text, text)


def try_translation(folder):
    """gettext.translation with the class, several languages as fallbacks, and copies."""
    for languages in (["de_AT"], ["fr", "de"], ["de", "fr"], ["pl"]):
        one = gettext.translation("app", folder, languages)
        other = gettext.translation("app", folder, languages, class_=pokit_gettext.Translations)
        for asked in ("Open", "Close", "Print", "absent", "", "öäü", "file"):
            check(one.gettext(asked) == other.gettext(asked), asked)
            check(one.pgettext("menu", asked) == other.pgettext("menu", asked), asked)
        for n in COUNTS:
            check(one.ngettext("file", "files", n) == other.ngettext("file", "files", n), "file")
            check(one.npgettext("menu", "item", "items", n) == other.npgettext("menu", "item", "items", n), "item")


MESSAGES = ["Open", "file", "menu\x04Open", "menu\x04item", "absent", "", "\ud800", "file\0files", "a\x04b\x04c", None,
            0, 1.5, b"Open", b"file", "menu", ("file", 0), ("file", 1), ("file", 9), (b"file", 0), (None, 0), ("Open",),
            [], {}, ["file"]]
ALL_COUNTS = COUNTS + [True, -1, -2, -11, 2 ** 64 - 1, 2 ** 64, 2 ** 70 + 1, 0.0, 1.0, 1.5, -0.5, 2.0, 1e300,
                       float("inf"), float("nan"), decimal.Decimal("1.5"), fractions.Fraction(3, 2), 1j, "1", b"1",
                       None, [], (1,)]
WITHOUT_FORMS = ("Open", ""), ("menu", "Open")  # which ngettext of GNUTranslations doesn't find


def outcome(asked, *arguments):
    """A value, or the kind of an exception."""
    try:
        return asked(*arguments)
    except Exception as fault:
        return type(fault)


def try_arguments(folder):
    """What isn't a text or a count is answered, or refused, as GNUTranslations does."""
    for languages in (["de"], ["pl"], ["fr", "pl", "de"]):
        one = gettext.translation("app", folder, languages)
        other = gettext.translation("app", folder, languages, class_=pokit_gettext.Translations)
        for message in MESSAGES:
            what = "%s %r" % (languages, message)
            check(outcome(one.gettext, message) == outcome(other.gettext, message), what)
            for context in ["menu", "absent", b"menu", None, 1, [], "a\x04b"]:
                check(outcome(one.pgettext, context, message) == outcome(other.pgettext, context, message), what)
                if (context, message) != WITHOUT_FORMS[1]:
                    for n in ALL_COUNTS:
                        check(outcome(one.npgettext, context, message, "s", n)
                              == outcome(other.npgettext, context, message, "s", n), "%s %r %r" % (what, context, n))
            if message not in WITHOUT_FORMS[0]:
                for n in ALL_COUNTS:
                    check(outcome(one.ngettext, message, "s", n) == outcome(other.ngettext, message, "s", n),
                          "%s %r" % (what, n))
        check(one.ngettext("absent", None, 2) is None and other.ngettext("absent", None, 2) is None, "no plural")


def try_catalogue(folder):
    """_catalog and plural, which programs take from GNUTranslations."""
    for language in ("de", "pl", "fr"):
        one = gettext.translation("app", folder, [language])
        other = gettext.translation("app", folder, [language], class_=pokit_gettext.Translations)
        check(other._catalog == one._catalog and other._catalog.copy() == one._catalog, language)
        check(set(other._catalog) == set(one._catalog) and len(other._catalog) == len(one._catalog), language)
        check(bool(other._catalog), language)
        for key in MESSAGES + [("file", 1.0), ("file", True), ("file", None), ("file", 0, 0), ("Open", 0)]:
            check(outcome(lambda: other._catalog[key]) == outcome(lambda: one._catalog[key]), "%r" % (key,))
            check(outcome(other._catalog.get, key, 7) == outcome(one._catalog.get, key, 7), "%r" % (key,))
            check(outcome(lambda: key in other._catalog) == outcome(lambda: key in one._catalog), "%r" % (key,))
        for n in ALL_COUNTS:
            check(outcome(other.plural, n) == outcome(one.plural, n), "plural of %r" % (n,))
        check(other.plural.__code__ == one.plural.__code__, "the code of a rule")
        merged = pokit_gettext.Translations()
        merged._catalog, merged.plural = other._catalog.copy(), other.plural
        merged._catalog["Open"] = "changed"
        check(merged.gettext("Open") == "changed", "a catalogue that was merged")
        check(other.gettext("Open") == one.gettext("Open"), "what it was made of")
        for n in COUNTS:
            check(merged.ngettext("file", "files", n) == one.ngettext("file", "files", n), "a count of it")
    unopened = [outcome(class_().gettext, "Open") for class_ in (gettext.GNUTranslations, pokit_gettext.Translations)]
    check(unopened[0] == unopened[1], "no file")


def answers(translations):
    return [translations.gettext("Open"), translations.ngettext("file", "files", 5),
            translations.pgettext("menu", "Open")]


def try_copies(folder):
    """Copies that outlive what they were made of, and those of another process."""
    for language in ("de", "pl"):
        wanted = answers(gettext.translation("app", folder, [language]))
        with open("%s/%s/LC_MESSAGES/app.mo" % (folder, language), "rb") as file:
            bytes_ = file.read()
        for is_used in (False, True):
            for copied in (copy.copy, copy.deepcopy, lambda it: pickle.loads(pickle.dumps(it))):
                one = pokit_gettext.Translations(io.BytesIO(bytes_))
                if is_used:
                    one.plural(1)
                other = copied(one)
                del one
                gc.collect()
                in_its_place = [bytearray(b"x" * len(bytes_)) for _ in range(1000)]
                check(answers(other) == wanted and other.plural(1) == 0 and in_its_place, "a copy")
        dumped = pickle.dumps(pokit_gettext.Translations(io.BytesIO(bytes_)))
        code = "import pickle, sys; print(ascii(pickle.load(sys.stdin.buffer).gettext('Open')))"
        told = subprocess.run([sys.executable, "-c", code], input=dumped, stdout=subprocess.PIPE).stdout
        check(told.decode().strip() == ascii(wanted[0]), "a copy in another process")
    room = pokit_gettext.Translations(io.BytesIO(bytes_))._catalog.room
    check(outcome(copy.deepcopy, room) == outcome(pickle.dumps, room) == ValueError, "no address is copied")


def both_of(messages):
    bytes_ = file_of(messages)
    return [class_(io.BytesIO(bytes_)) for class_ in (gettext.GNUTranslations, pokit_gettext.Translations)]


def try_headers():
    """Files without a header or Plural-Forms, lines of a header that go on, and a context that has an EOT."""
    forms = (b"file\0files", b"Datei\0Dateien")
    for header in ((), ((b"", b"Content-Type: text/plain; charset=UTF-8\n"),)):
        for translations in both_of([*header, forms]):
            check([translations.plural(n) for n in COUNTS] == [int(n != 1) for n in COUNTS], "no Plural-Forms")
            check([translations.ngettext("file", "files", n) for n in (0, 1, 2)] == ["Dateien", "Datei", "Dateien"],
                  "a count without Plural-Forms")
    for translations in both_of([(b"", b"Content-Type: text/plain; charset=UTF-8\nX-Note: one\n  two \n\nthree\n")]):
        check(translations.info()["x-note"] == "one\ntwo\nthree", "a header's line that goes on")
    for translations in both_of([(b"", b"Content-Type: text/plain; charset=UTF-8\n"), (b"a\4b\4c", b"found"),
                                 (b"a\4b\4d\0ds", b"one\0more")]):
        check(translations.pgettext("a\4b", "c") == "found" and translations.pgettext("a", "b\4c") == "found",
              "a context with an EOT")
        check(translations.npgettext("a\4b", "d", "ds", 2) == "more", "a context with an EOT, a count")
        check(translations.pgettext("a\4b", "e") == "e", "a context with an EOT that isn't there")


def header_of(charset):
    return b"", b"Content-Type: text/plain; charset=%s\nPlural-Forms: nplurals=2; plural=n != 1;\n" % charset


def within_a_letter():
    """A file whose last translation begins within the letter that the one before it is, and one with bytes between its
    strings that are no text."""
    texts = [(b"a", "ö".encode()), (b"b", b"")]
    bytes_ = bytearray(file_of([header_of(b"UTF-8"), *texts]))
    entry = 28 + 8 * 5
    bytes_[entry:entry + 8] = struct.pack("<2I", 1, struct.unpack_from("<I", bytes_, entry - 4)[0] + 1)
    between = file_of([header_of(b"UTF-8"), (b"a\0\xff\xfe", "ö".encode())])
    return bytes(bytes_), between


def try_charsets():
    """What isn't of its charset, or in a charset that Python lacks, is refused when it is opened."""
    letters = (b"", b"Open", "Öffnen".encode(), b"\326ffnen", b"\xff", b"\x81", b"\xa4", b"\x83\x65",
               b"\x1b$B$\"\x1b(B")
    charsets = (b"UTF-8", b"utf8", b"ASCII", b"", b"ISO-8859-1", b"ISO-8859-3", b"CP1252", b"KOI8-R", b"SHIFT_JIS",
                b"EUC-JP", b"ISO-2022-JP", b"UTF-16", b"zlib", b"rot13", b"base64", b"CHARSET", b"no-such", b"UTF-8; x=y")
    files = list(within_a_letter()) + [file_of([(b"a", text)]) for text in letters]
    for charset in charsets:
        for text in letters:
            files.append(file_of([header_of(charset), (b"Open", text), (b"Read", b"Lesen")]))
            files.append(file_of([header_of(charset), (b"k" + text, b"Lesen")]))
            files.append(file_of([header_of(charset), (b"k\0" + text, b"one\0" + text)]))
            files.append(file_of([header_of(charset), (b"k\0" + text, b"one\0two")]))
    for bytes_ in files:
        one, other = (outcome(class_, io.BytesIO(bytes_))
                      for class_ in (gettext.GNUTranslations, pokit_gettext.Translations))
        if isinstance(one, type):
            check(other == one, "%r: %r and not %r" % (bytes_[-60:], other, one))
        else:
            check(not isinstance(other, type) and is_same(one, other), "%r" % bytes_[-60:])


def try_missing_library():
    """It is told where the library was looked for, and what names it."""
    asked = [sys.executable, "-c", "import pokit_gettext"]
    for named, wanted in (("/nowhere/libpokit.so.0", ("/nowhere/libpokit.so.0",)), ("", ("libpokit.so.0", "/empty"))):
        told = subprocess.run(asked, env={**os.environ, "POKIT_LIBRARY": named, "LD_LIBRARY_PATH": "/empty"},
                              stderr=subprocess.PIPE).stderr.decode().splitlines()
        if not named and not told:
            print("skipped  a library that isn't named (the machine has one)")
            continue
        check(told and told[-1].startswith("ImportError")
              and all(it in told[-1] for it in (*wanted, "POKIT_LIBRARY")), "no library")


warnings.simplefilter("ignore")
try_headers()
try_charsets()
try_missing_library()
try_damaged()
try_out_of_order()
try_translation(sys.argv[1])
try_arguments(sys.argv[1])
try_catalogue(sys.argv[1])
try_copies(sys.argv[1])
with open(sys.argv[2]) as listed:
    for line in listed:
        try_file(line.rstrip("\n"))
if skipped:
    print("skipped  %d files that GNUTranslations doesn't open" % skipped)
print("%d passed, %d failed" % (passed, failed))
sys.exit(failed > 0)
