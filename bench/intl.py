"""Times Python's gettext with pokit_gettext beside GNUTranslations: intl.py FILE.mo"""
import gettext
import sys
import time

import pokit_gettext

ROUNDS, ASKED = 15, 2000


def quarter(times):
    return sorted(times)[len(times) // 4]


def opening(class_):
    start = time.process_time()
    with open(sys.argv[1], "rb") as file:
        opened = class_(file)
    return time.process_time() - start, opened


def asking(call, messages):
    start = time.process_time()
    for message in messages:
        call(message)
    return (time.process_time() - start) / len(messages)


classes = (pokit_gettext.Translations, gettext.GNUTranslations)
opened = [opening(class_)[1] for class_ in classes]
ids = [key[0] if isinstance(key, tuple) else key for key in opened[1]._catalog][: 3 * ASKED : 3]
rows = [
    ("opening, ms", 1e3, lambda by: opening(classes[by])[0]),
    ("present, us", 1e6, lambda by: asking(opened[by].gettext, ids)),
    ("absent, us", 1e6, lambda by: asking(opened[by].gettext, [id + "!" for id in ids])),
    ("plural, us", 1e6, lambda by: asking(lambda id: opened[by].ngettext(id, "s", len(id)), ids)),
]
print("\n%-24s %8s %8s" % ("Python", "pokit", "gettext"))
for name, scale, measure in rows:
    times = [[], []]
    for _ in range(ROUNDS):
        for by in (0, 1):
            times[by].append(measure(by) * scale)
    print("%-24s %8.2f %8.2f" % (name, quarter(times[0]), quarter(times[1])))
