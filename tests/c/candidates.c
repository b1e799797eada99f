/* The names of locales and the paths of their catalogues, beside rows that were worked out by hand: those of
 * tool_tests::locales, which the program's look-up answers, and what only C sees. */
#include "files.h"

/* A locale, LANGUAGE, and the candidates, each once, with a comma after each. */
static const struct row {
    const char *locale;
    const char *language;
    const char *names;
} rows[] = {
    {"de", "", "de,"},
    {"de_AT.UTF-8@euro", "", "de_AT.UTF-8@euro,de_AT@euro,de@euro,de_AT,de,"},
    {"de_AT@", "", "de_AT@,de@,de_AT,de,"},
    {"de_AT.UTF-8", "", "de_AT.UTF-8,de_AT,de,"},
    {"de@a.b_c", "", "de@a.b_c,de,"},
    {"sr_RS@la", "", "sr_RS@la,sr@la,sr_RS,sr,"},
    {".UTF-8", "", ".UTF-8,,"},
    {"@x", "", "@x,,"},
    {"de", "@x", "@x,,"},
    {"C", "", ""},
    {"POSIX", "", ""},
    {"C.UTF-8", "", "C.UTF-8,C,"},
    {"de/AT", "", ""},
    {"", "", ""},
    {"", "fr", ""},
    {"de_AT", "fr:de_AT:de", "fr,de_AT,de,"},
    {"C", "fr", ""},
    {"de", "fr:C:de", "fr,"},
    {"de", "C:fr", ""},
    {"de", "fr:POSIX", "fr,"},
    {"de", ":", ""},
    {"de", ":a/b::fr:", "fr,"},
    {"de", "../etc:fr", "fr,"},
    {"de", "de_AT:fr:de", "de_AT,de,fr,"},
};

static size_t ask(const struct row *row, pokit_position *position, char *name, size_t size)
{
    return pokit_candidate((const uint8_t *)row->locale, strlen(row->locale), (const uint8_t *)row->language,
                           strlen(row->language), position, (uint8_t *)name, size);
}

/* Whether a name, and a comma, is one of those before. */
static int is_listed(const char *names, const char *name)
{
    size_t len = strlen(name);
    const char *at;
    for (at = names; *at != 0; at = strchr(at, ',') + 1)
        if (strncmp(at, name, len) == 0)
            return 1;
    return 0;
}

/* The candidates of a row, each once, as its last field has them, and how many there are with the repeats. */
static uint32_t list(const struct row *row, char *names)
{
    pokit_position position = {0, 0};
    char name[64];
    size_t len;
    uint32_t count = 0;
    *names = 0;
    for (; (len = ask(row, &position, name, sizeof name)) != POKIT_END; count++) {
        check(len < sizeof name - 1, "the length of a name");
        name[len] = ',';
        name[len + 1] = 0;
        if (!is_listed(names, name))
            strcat(names, name);
    }
    return count;
}

static int is_same(pokit_position one, pokit_position other)
{
    return one.offset == other.offset && one.given == other.given;
}

/* What a call at a position writes, and how it moves it. */
static void check_position(const struct row *row, pokit_position position)
{
    pokit_position after = position, again = position;
    char name[64], before[64];
    size_t len = ask(row, &after, name, 0);
    memset(before, '#', sizeof before);
    memset(name, '#', sizeof name);
    if (len == POKIT_END || len > 0)
        check(ask(row, &again, name, len == POKIT_END ? sizeof name : len - 1) == len
              && memcmp(name, before, sizeof name) == 0, "a name that doesn't fit, and none, write nothing");
    check(len == POKIT_END ? is_same(after, position) : !is_same(after, position), "a position moves, or is the last");
    check(len == POKIT_END || len == 0 || is_same(again, after), "a name that doesn't fit moves it too");
    again = position;
    if (len != POKIT_END)
        check(ask(row, &again, name, len) == len && memcmp(name + len, before, sizeof name - len) == 0
              && is_same(again, after), "no byte after a name is written");
}

static void check_row(const struct row *row)
{
    static const pokit_position far_off[] = {{SIZE_MAX, 0}, {SIZE_MAX, UINT32_MAX}, {1000, 3}};
    char names[256];
    uint32_t count = list(row, names), i;
    pokit_position position = {0, 0};
    check_text(names, row->names, row->locale);
    check(count % 5 == 0, row->locale);
    for (i = 0; i <= count; i++) {
        check_position(row, position);
        ask(row, &position, names, 0);
    }
    for (i = 0; *row->language != 0 && i < sizeof far_off / sizeof *far_off; i++) {
        position = far_off[i];
        check(ask(row, &position, names, 0) == POKIT_END, "a position behind LANGUAGE");
    }
}

/* The paths of a domain, each with a comma after it; and as many, of the same lengths, where none fits. */
static void check_paths(const char *folder, const char *domain, const char *locale, const char *language,
                        const char *wanted)
{
    char path[256], none[1], paths[1024] = "";
    pokit_walk walk = {{0, 0}, 0}, narrow = {{0, 0}, 0};
    size_t len;
    do {
        len = pokit_path(folder, "LC_MESSAGES", domain, locale, language, &walk, path, sizeof path);
        check(pokit_path(folder, "LC_MESSAGES", domain, locale, language, &narrow, none, 1) == len && *none == 0,
              "a path that doesn't fit");
        check(len == strlen(path), "the length of a path");
        if (len != 0)
            strcat(strcat(paths, path), ",");
    } while (len != 0);
    check_text(paths, wanted, wanted);
}

/* A walk over LANGUAGE of `parts` parts: how many paths there are. */
static long walked(int parts, const char *part)
{
    char *language = (char *)malloc((size_t)parts * strlen(part) + 1), path[256];
    pokit_walk walk = {{0, 0}, 0};
    long count = 0;
    int i;
    if (language == NULL)
        exit(2);
    for (i = 0; i < parts; i++)
        memcpy(language + (size_t)i * strlen(part), part, strlen(part) + 1);
    while (pokit_path("/d", "LC_MESSAGES", "w", "de", language, &walk, path, sizeof path) != 0)
        count++;
    free(language);
    return count;
}

static void paths(void)
{
    char path[40], first[40];
    pokit_walk walk = {{0, 0}, 0};
    size_t size, len;
    check_paths("/d", "w", "de_AT.UTF-8", NULL, "/d/de_AT.UTF-8/LC_MESSAGES/w.mo,/d/de_AT/LC_MESSAGES/w.mo,"
                "/d/de/LC_MESSAGES/w.mo,");
    check_paths("/d", "w", "de", "fr:pl_PL", "/d/fr/LC_MESSAGES/w.mo,/d/pl_PL/LC_MESSAGES/w.mo,"
                "/d/pl/LC_MESSAGES/w.mo,");
    check_paths("/d", "w", "sr_RS.U@la", "", "/d/sr_RS.U@la/LC_MESSAGES/w.mo,/d/sr_RS@la/LC_MESSAGES/w.mo,"
                "/d/sr@la/LC_MESSAGES/w.mo,/d/sr_RS/LC_MESSAGES/w.mo,/d/sr/LC_MESSAGES/w.mo,");
    check_paths("/d", "w", "de_AT@xx", "", "/d/de_AT@xx/LC_MESSAGES/w.mo,/d/de@xx/LC_MESSAGES/w.mo,"
                "/d/de_AT/LC_MESSAGES/w.mo,/d/de/LC_MESSAGES/w.mo,");
    check_paths("/d", "w", "de", "de_AT:de", "/d/de_AT/LC_MESSAGES/w.mo,/d/de/LC_MESSAGES/w.mo,"
                "/d/de/LC_MESSAGES/w.mo,");
    check_paths("/d", "w", "de", "@x", "/d/@x/LC_MESSAGES/w.mo,");
    check_paths("", "w", "de", "", "/de/LC_MESSAGES/w.mo,");
    check_paths("/d", "w", "..", NULL, "");
    check_paths("/d", "w", ".", NULL, "");
    check_paths("/d", "w", "de", "..:.:fr", "/d/fr/LC_MESSAGES/w.mo,");
    check_paths("/d", "w", "de", ".x:...", "/d/.x/LC_MESSAGES/w.mo,/d/.../LC_MESSAGES/w.mo,");
    check_paths("/d", "w", "de", "..@x", "/d/..@x/LC_MESSAGES/w.mo,/d/@x/LC_MESSAGES/w.mo,");
    check_paths("/d", "w", "..", "fr", "/d/fr/LC_MESSAGES/w.mo,");
    check_paths("/d", "w", NULL, "fr", "");
    check_paths("/d", "", "de", NULL, "");
    check_paths("/d", "../w", "de", NULL, "");
    check(walked(100000, "de_AT:") == 200000, "a long walk");
    check(walked(100000, ":") == 0 && walked(100000, "a/b:") == 0, "a long walk past parts that don't count");
    len = pokit_path("/d", "LC_MESSAGES", "w", "de", NULL, &walk, first, sizeof first);
    check(len == strlen("/d/de/LC_MESSAGES/w.mo"), "a path");
    check(pokit_path("/d", "LC_MESSAGES", "w", "de", NULL, &walk, path, sizeof path) == 0 && *path == 0, "no path more");
    for (size = 1; size < sizeof path; size++) {
        pokit_walk anew = {{0, 0}, 0};
        memset(path, '#', sizeof path);
        check(pokit_path("/d", "LC_MESSAGES", "w", "de", NULL, &anew, path, size) == len, "a path's length");
        check_text(path, size > len ? first : "", "a path that fits, or not");
        check(size > len || path[size] == '#', "no byte outside of the room for a path");
    }
}

int main(void)
{
    size_t i;
    for (i = 0; i < sizeof rows / sizeof *rows; i++)
        check_row(&rows[i]);
    paths();
    return counts();
}
