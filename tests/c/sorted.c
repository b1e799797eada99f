/* Files whose keys are out of order: the file in order that pokit_sorted_file makes, beside one that is laid out here;
 * equal keys, other faults, room that is too short, and every truncation of such a file and change of one of its bytes. */
#include "files.h"

enum { MOST = 64 };

static uint32_t sorted(const uint8_t *bytes, size_t len, size_t places, uint8_t *made, size_t size)
{
    static pokit_listed_message list[MOST];
    memset(list, 0, sizeof list);
    return pokit_sort(bytes, len, places == 0 ? NULL : list, places, size == 0 ? NULL : made, size);
}

/* What makes a key: an original up to its first NUL. */
static size_t key_len(const struct message *m)
{
    const void *nul = memchr(m->original, 0, m->original_len);
    return nul == NULL ? m->original_len : (size_t)((const char *)nul - m->original);
}

static int compare(const void *a, const void *b)
{
    const struct message *one = (const struct message *)a, *other = (const struct message *)b;
    size_t len = key_len(one), other_len = key_len(other);
    int order = memcmp(one->original, other->original, len < other_len ? len : other_len);
    return order != 0 ? order : (len > other_len) - (len < other_len);
}

/* As Babel has them: by their msgids, whatever their contexts. The last key is below that of the fourth. */
static const struct message babel[] = {
    {TEXT(""), TEXT("Plural-Forms: nplurals=2; plural=n != 1;\n")},
    {TEXT("Close"), TEXT("Zu")},
    {TEXT("menu\4Close"), TEXT("Men\303\274 zu")},
    {TEXT("menu\4Open"), TEXT("Men\303\274 auf")},
    {TEXT("Open\0Open all"), TEXT("Auf\0Alle auf")},
};
enum { BABEL = sizeof babel / sizeof *babel };

/* Whether the file of some messages becomes that of the same messages in order, and how it is answered. */
static void becomes(const struct message *messages, uint32_t count, int big, const char *name)
{
    struct message in_order[MOST];
    struct file file = file_of(messages, count, big), wanted;
    uint8_t *bytes = copy_of(&file, file.len), *made = (uint8_t *)malloc(file.len + 1);
    pokit_catalog *catalog = (pokit_catalog *)malloc(sizeof *catalog);
    uint32_t i, len;
    if (count > 0)
        memcpy(in_order, messages, count * sizeof *messages);
    qsort(in_order, count, sizeof *in_order, compare);
    wanted = file_of(in_order, count, big);
    check(pokit_message_count(bytes, file.len) == count, name);
    len = sorted(bytes, file.len, count, made, 0);
    check(len == wanted.len, name);
    memset(made, 7, file.len + 1);
    check(sorted(bytes, file.len, count, made, len - 1) == len && made[0] == 7 && made[len - 1] == 7, name);
    check(sorted(bytes, file.len, count, made, len) == len && memcmp(made, wanted.bytes, len) == 0 && made[len] == 7, name);
    check(pokit_open(catalog, made, len, NULL) == POKIT_OK && pokit_len(catalog) == count, name);
    for (i = 0; i < count; i++) {
        const char *eot = (const char *)memchr(messages[i].original, 4, key_len(&messages[i]));
        const char *id = eot == NULL ? messages[i].original : eot + 1;
        char context[20] = "";
        if (eot != NULL)
            memcpy(context, messages[i].original, (size_t)(eot - messages[i].original));
        check_text(eot == NULL ? pokit_gettext(catalog, id) : pokit_pgettext(catalog, context, id), messages[i].translation, name);
    }
    if (count > 0) {
        memset(made, 7, file.len);
        check(sorted(bytes, file.len, count - 1, made, file.len) == 0 && made[0] == 7, name);
    }
    free(catalog);
    free(made);
    free(bytes);
}

static void rows(int big)
{
    struct file file = file_of(babel, BABEL, big);
    pokit_catalog *catalog = (pokit_catalog *)malloc(sizeof *catalog);
    uint8_t made[1000];
    uint32_t message = 9, len;
    check(pokit_open(catalog, file.bytes, file.len, &message) == POKIT_NOT_SORTED && message == 4, "the fault of Babel's");
    becomes(babel, BABEL, big, "Babel's messages");
    becomes(babel, 4, big, "messages in order");
    becomes(babel, 1, big, "one message");
    becomes(babel, 0, big, "no message");
    len = sorted(file.bytes, file.len, BABEL, made, sizeof made);
    check(pokit_open(catalog, made, len, NULL) == POKIT_OK, "opened");
    check_text(pokit_ngettext(catalog, "Open", "Open all", 2), "Alle auf", "a plural");
    check_text(pokit_pgettext(catalog, "menu", "Open"), "Men\303\274 auf", "a context");
    check_text(pokit_pgettext(catalog, "bar", "Open"), "Open", "another context");
    free(catalog);
}

/* Messages in many orders, and with prefixes of one another. */
static void orders(void)
{
    static const char *const keys[] = {"", "a", "a\4a", "a\4b", "aa", "ab", "abc", "b", "b\4a", "ba", "c", "\303\274", "d", "e",
                                       "f", "g", "h", "i", "j", "k", "l", "m", "n", "o", "p", "q", "r", "s", "t", "u", "v", "w",
                                       "x", "y", "z", "zz", "zzz", "zzzz", "zzzzz", "zzzzzz"};
    enum { KEYS = sizeof keys / sizeof *keys };
    struct message messages[KEYS], moved;
    uint32_t seed = 1, i, j, round;
    for (round = 0; round < 200; round++) {
        for (i = 0; i < KEYS; i++) {
            messages[i].original = keys[round % 2 == 0 ? i : KEYS - 1 - i];
            messages[i].original_len = (uint32_t)strlen(messages[i].original);
            messages[i].translation = keys[i];
            messages[i].translation_len = (uint32_t)strlen(keys[i]);
        }
        for (i = KEYS - 1; i > 0 && round > 1; i--) {
            seed = seed * 1664525 + 1013904223;
            j = (seed >> 8) % (i + 1);
            moved = messages[i];
            messages[i] = messages[j];
            messages[j] = moved;
        }
        becomes(messages, KEYS - round % 25, (int)(round % 2), "an order");
    }
}

/* No file: two messages with one key, in neighbouring places and not, and with other plurals; another fault. */
static void none(int big)
{
    static const struct message equal[] = {
        {TEXT("b"), TEXT("1")}, {TEXT("a\0as"), TEXT("2")}, {TEXT("c"), TEXT("3")}, {TEXT("a\0others"), TEXT("4")},
    };
    struct file file = file_of(equal, 4, big), bad;
    pokit_catalog *catalog = (pokit_catalog *)malloc(sizeof *catalog);
    uint8_t made[1000];
    uint32_t message;
    memset(made, 7, sizeof made);
    check(sorted(file.bytes, file.len, 4, made, sizeof made) == 0 && made[0] == 7, "equal keys");
    check(pokit_open(catalog, file.bytes, file.len, &message) == POKIT_NOT_SORTED && message == 1, "their fault");
    file = file_of(equal, 3, big);
    check(sorted(file.bytes, file.len, 3, made, sizeof made) > 0, "the same without the last");
    memset(made, 7, sizeof made);
    bad = file;
    bad.bytes[file.len - 1] = 'x';
    check(sorted(bad.bytes, bad.len, 3, made, sizeof made) == 0 && made[0] == 7, "no NUL");
    check(sorted(file.bytes, file.len - 1, 3, made, sizeof made) == 0 && made[0] == 7, "a string outside");
    bad = file;
    put_word(&bad, 4, 0x20000);
    check(sorted(bad.bytes, bad.len, 3, made, sizeof made) == 0, "a revision");
    put_word(&bad, 4, 0x10001);
    check(sorted(bad.bytes, bad.len, 3, made, sizeof made) > 0, "a revision that is known");
    bad = file;
    put_word(&bad, 8, 0xffffffff);
    check(sorted(bad.bytes, bad.len, 3, made, sizeof made) == 0, "a count");
    check(pokit_message_count(bad.bytes, bad.len) == 0xffffffff && pokit_message_count(bad.bytes, 27) == 0, "what is counted");
    bad.bytes[0] ^= 1;
    check(sorted(bad.bytes, bad.len, 3, made, sizeof made) == 0 && pokit_message_count(bad.bytes, bad.len) == 0, "no magic number");
    check(pokit_sort(NULL, 0, NULL, 0, NULL, 0) == 0, "nothing at all");
    check(sorted(bad.bytes, 0, 0, made, sizeof made) == 0 && pokit_message_count(bad.bytes, 0) == 0, "no bytes");
    free(catalog);
}

/* Strings that overlap: each of the five originals is an end of the first, and all translations are one. The file in
 * order has each string by itself. */
static void overlapping(int big)
{
    struct file file;
    uint8_t made[1000];
    pokit_catalog *catalog = (pokit_catalog *)malloc(sizeof *catalog);
    uint32_t i, len;
    memset(&file, 0, sizeof file);
    file.big = big;
    put_word(&file, 0, 0x950412de);
    put_word(&file, 8, 5);
    put_word(&file, 12, 28);
    put_word(&file, 16, 68);
    memcpy(file.bytes + 108, "eeeee", 6);
    file.len = 114;
    for (i = 0; i < 5; i++) {
        put_word(&file, 28 + 8 * i, 5 - i);
        put_word(&file, 32 + 8 * i, 108 + i);
        put_word(&file, 68 + 8 * i, 5);
        put_word(&file, 72 + 8 * i, 108);
    }
    len = sorted(file.bytes, file.len, 5, made, sizeof made);
    check(len == 28 + 16 * 5 + 2 + 3 + 4 + 5 + 6 + 5 * 6, "overlapping strings");
    check(pokit_open(catalog, made, len, NULL) == POKIT_OK && pokit_len(catalog) == 5, "their file");
    check_text(pokit_gettext(catalog, "eee"), "eeeee", "their messages");
    free(catalog);
}

/* Whatever the bytes are: a file is made where it is valid, or out of order without equal keys, and is valid. */
static void made_of(const struct file *file, size_t len, pokit_catalog *catalog, uint8_t *made, size_t size)
{
    uint8_t *bytes = copy_of(file, len);
    enum pokit_error error = pokit_open(catalog, bytes, len, NULL);
    uint32_t count = pokit_message_count(bytes, len);
    uint32_t got = sorted(bytes, len, MOST, made, size);
    if (error == POKIT_OK)
        check(got > 0 && count == pokit_len(catalog), "a valid file");
    else if (error != POKIT_NOT_SORTED)
        check(got == 0, "another fault");
    if (got > 0 && got <= size)
        check(pokit_open(catalog, made, got, NULL) == POKIT_OK && pokit_len(catalog) == count, "a file in order");
    free(bytes);
}

static void changes(int big)
{
    static const uint8_t values[] = {0, 1, 4, 27, 28, 'a', 'z', 0x7f, 0x80, 0xff};
    struct file file = file_of(babel, BABEL, big);
    pokit_catalog *catalog = (pokit_catalog *)malloc(sizeof *catalog);
    uint8_t *made = (uint8_t *)malloc(file.len);
    size_t at, i;
    for (at = 0; at <= file.len; at++)
        made_of(&file, at, catalog, made, file.len);
    for (at = 0; at < file.len; at++) {
        uint8_t before = file.bytes[at];
        for (i = 0; i < sizeof values; i++) {
            file.bytes[at] = values[i];
            made_of(&file, file.len, catalog, made, file.len);
        }
        for (i = 0; i < 8; i++) {
            file.bytes[at] = (uint8_t)(before ^ 1 << i);
            made_of(&file, file.len, catalog, made, file.len);
        }
        file.bytes[at] = before;
    }
    free(made);
    free(catalog);
}

int main(void)
{
    int big;
    for (big = 0; big < 2; big++) {
        rows(big);
        none(big);
        overlapping(big);
        changes(big);
    }
    orders();
    return counts();
}
