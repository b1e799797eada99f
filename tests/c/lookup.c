/* Asks catalogues through include/pokit.h: rows worked out by hand, every kind of damaged file, what may be NULL, and
 * glibc's dcngettext on the same file.
 *
 *     lookup FOLDER
 *
 * FOLDER/xx/LC_MESSAGES/NAME.mo are catalogues that tests/c/run has compiled. The last line counts what passed and
 * failed. */
#ifndef _GNU_SOURCE
#define _GNU_SOURCE
#endif
#include <libintl.h>
#include <locale.h>

#include "files.h"

static const char polish[] = "Content-Type: text/plain; charset=UTF-8\n"
                             "Plural-Forms: nplurals=3; plural=n==1 ? 0 : n%10>=2 && n%10<=4 && (n%100<10 || n%100>=20) ? 1 : 2;\n";
static const struct message messages[] = {
    {TEXT(""), TEXT(polish)},
    {TEXT("Open"), TEXT("Otworz")},
    {TEXT("book\0books"), TEXT("ksiazka\0ksiazki\0ksiazek")},
    {TEXT("button\4Open"), TEXT("Otworz (przycisk)")},
    {TEXT("empty"), TEXT("")},
    {TEXT("zebra"), TEXT("zebra!")},
};
enum { COUNT = sizeof messages / sizeof *messages };

static pokit_catalog catalog, other;

static void rows(int big)
{
    struct file file = file_of(messages, COUNT, big);
    uint32_t message = 99;
    pokit_query query;
    pokit_answer answer;
    const pokit_catalog *chain[2];

    check(pokit_open(&catalog, file.bytes, file.len, &message) == POKIT_OK && message == 0, "open");
    check(pokit_len(&catalog) == COUNT, "len");
    check_text(pokit_gettext(&catalog, "Open"), "Otworz", "a message");
    check_text(pokit_gettext(&catalog, ""), polish, "the header entry");
    check_text(pokit_gettext(&catalog, "zebra"), "zebra!", "the last message");
    check_text(pokit_gettext(&catalog, "empty"), "", "an empty translation");
    check_text(pokit_gettext(&catalog, "absent"), "absent", "no message");
    check_text(pokit_pgettext(&catalog, "button", "Open"), "Otworz (przycisk)", "a message with a context");
    check_text(pokit_pgettext(&catalog, "menu", "Open"), "Open", "another context");
    check_text(pokit_pgettext(&catalog, "", "Open"), "Open", "an empty context");
    check_text(pokit_gettext(&catalog, "button\4Open"), "button\4Open", "a byte 4 in a msgid");
    check_text(pokit_ngettext(&catalog, "book", "books", 1), "ksiazka", "one");
    check_text(pokit_ngettext(&catalog, "book", "books", 3), "ksiazki", "three");
    check_text(pokit_ngettext(&catalog, "book", "books", 5), "ksiazek", "five");
    check_text(pokit_ngettext(&catalog, "book", "books", 112), "ksiazek", "a hundred and twelve");
    check_text(pokit_ngettext(&catalog, "book", "books", 4294967297), "ksiazek", "a count of more than 32 bits");
    check_text(pokit_ngettext(&catalog, "book", "books", 4294967298), "ksiazek", "another one");
    check_text(pokit_ngettext(&catalog, "book", "books", 4294967303), "ksiazki", "a third one");
    check_text(pokit_ngettext(&catalog, "cat", "cats", 1), "cat", "no message, one");
    check_text(pokit_ngettext(&catalog, "cat", "cats", 0), "cats", "no message, none");
    check_text(pokit_ngettext(&catalog, "Open", "Opens", 5), "Otworz", "fewer forms than the rule has");
    check_text(pokit_npgettext(&catalog, "button", "Open", "Opens", 1), "Otworz (przycisk)", "context and plural");
    check(pokit_gettext(&catalog, NULL) == NULL, "no msgid");
    check_text(pokit_pgettext(&catalog, NULL, "Open"), "Otworz", "no context");
    check_text(pokit_ngettext(&catalog, "book", NULL, 5), "ksiazka", "no plural");

    query = pokit_query_of(NULL, NULL, NULL, 0);
    query.id = pokit_bytes_of("Opened", 4);
    answer = pokit_look(&catalog, query);
    check(answer.found && answer.text.len == 6 && memcmp(answer.text.ptr, "Otworz", 7) == 0, "bytes with a length");
    check(answer.comparisons >= 1 && answer.comparisons <= 3, "comparisons among six messages");
    check(answer.text.ptr >= file.bytes && answer.text.ptr < file.bytes + file.len, "a text of the file");
    query.id = pokit_bytes_of("Open\0", 5);
    answer = pokit_look(&catalog, query);
    check(!answer.found && answer.comparisons == 0 && answer.text.len == 5, "a NUL in a msgid");
    query.id.ptr = NULL;
    query.id.len = 0;
    answer = pokit_look(&catalog, query);
    check(answer.found && answer.text.len == sizeof polish - 1, "a pointer of no bytes");
    query = pokit_query_of(NULL, "book", "books", 22);
    answer = pokit_look(&catalog, query);
    check(answer.found && answer.steps > 0 && answer.steps <= catalog.instruction_count, "steps");

    check(pokit_open(&other, file.bytes, 0, NULL) == POKIT_TOO_SHORT, "no bytes");
    chain[0] = &other;
    chain[1] = &catalog;
    check_text((const char *)pokit_look_chain(chain, 2, pokit_query_of(NULL, "book", "books", 3)).text.ptr, "ksiazki", "a chain");
    check_text((const char *)pokit_look_chain(chain, 1, pokit_query_of(NULL, "book", "books", 3)).text.ptr, "books", "a chain that has it not");
    check_text((const char *)pokit_look_chain(chain, 0, pokit_query_of(NULL, "book", NULL, 3)).text.ptr, "book", "an empty chain");
}

/* The first fault of a file in which one word or one byte has been changed. */
static void refused(const struct file *file, size_t len, enum pokit_error wanted, uint32_t wanted_message, const char *name)
{
    uint8_t *bytes = copy_of(file, len);
    uint32_t message = 99;
    check(pokit_open(&other, bytes, len, &message) == wanted && message == wanted_message, name);
    check(pokit_len(&other) == 0, name);
    check_text(pokit_ngettext(&other, "book", "books", 3), "books", name);
    free(bytes);
}

static void damaged(int big)
{
    static const struct message unsorted[] = {{TEXT(""), TEXT("")}, {TEXT("b"), TEXT("B")}, {TEXT("a"), TEXT("A")}};
    static const struct message twice[] = {{TEXT("a"), TEXT("A")}, {TEXT("a\0as"), TEXT("B")}};
    struct file whole = file_of(messages, COUNT, big), file;
    size_t len;

    file = whole;
    refused(&file, 0, POKIT_TOO_SHORT, 0, "no byte");
    refused(&file, 27, POKIT_TOO_SHORT, 0, "27 bytes");
    file.bytes[1] ^= 1;
    refused(&file, file.len, POKIT_BAD_MAGIC, 0, "magic number");
    file = whole;
    put_word(&file, 4, 0x20000);
    refused(&file, file.len, POKIT_BAD_REVISION, 0, "major revision 2");
    file = whole;
    put_word(&file, 8, 0xffffffff);
    refused(&file, file.len, POKIT_TABLE_OUTSIDE, 0, "too many messages");
    file = whole;
    put_word(&file, 12, 0xfffffff0);
    refused(&file, file.len, POKIT_TABLE_OUTSIDE, 0, "originals outside");
    file = whole;
    put_word(&file, 16, (uint32_t)file.len);
    refused(&file, file.len, POKIT_TABLE_OUTSIDE, 0, "translations outside");
    file = whole;
    put_word(&file, 28 + 8 * 2, 0xffffffff);
    refused(&file, file.len, POKIT_STRING_OUTSIDE, 2, "length of 32 bits");
    file = whole;
    put_word(&file, 28 + 8 * COUNT + 8 * 3 + 4, (uint32_t)file.len);
    refused(&file, file.len, POKIT_STRING_OUTSIDE, 3, "translation outside");
    file = whole;
    put_word(&file, 28 + 8 * 1, 3);
    refused(&file, file.len, POKIT_NO_TERMINATOR, 1, "no NUL");
    file = whole;
    refused(&file, file.len - 1, POKIT_NO_TERMINATOR, COUNT - 1, "no last NUL");
    refused(&file, file.len - 2, POKIT_STRING_OUTSIDE, COUNT - 1, "no last byte");
    file = file_of(unsorted, 3, big);
    refused(&file, file.len, POKIT_NOT_SORTED, 2, "keys out of order");
    file = file_of(twice, 2, big);
    refused(&file, file.len, POKIT_NOT_SORTED, 1, "a key twice");
    for (len = 0; len < whole.len; len++) {
        enum pokit_error error;
        uint8_t *bytes = copy_of(&whole, len);
        error = pokit_open(&other, bytes, len, NULL);
        check(error >= POKIT_TOO_SHORT && error <= POKIT_NOT_SORTED, "a prefix of a file");
        free(bytes);
    }
    /* a byte changed anywhere: refused, or answered within the file */
    for (len = 0; len < whole.len; len++) {
        uint8_t *bytes = copy_of(&whole, whole.len);
        bytes[len] ^= 0x81;
        if (pokit_open(&other, bytes, whole.len, NULL) == POKIT_OK)
            check(pokit_look(&other, pokit_query_of(NULL, "book", "books", 7)).comparisons <= 3, "a byte changed");
        free(bytes);
    }
}

static void words(void)
{
    int error;
    check_text(pokit_error_text(POKIT_OK), "no fault", "words");
    for (error = POKIT_TOO_SHORT; error <= POKIT_NOT_SORTED; error++)
        check(pokit_error_text((enum pokit_error)error)[0] != 0, "words");
}

/* What stands in one string of a table of the file. */
static const char *string_at(const uint8_t *bytes, uint32_t table_word, uint32_t i)
{
    uint32_t table, offset;
    memcpy(&table, bytes + table_word, 4);
    memcpy(&offset, bytes + table + 8 * (size_t)i + 4, 4);
    return (const char *)bytes + offset;
}

/* All messages of a catalogue of this machine's byte order, and counts from 0 to 200, against glibc. */
static void as_glibc(const char *folder, const char *name)
{
    char path[4096];
    FILE *in;
    static uint8_t bytes[1 << 16];
    size_t len;
    uint32_t i, n;
    snprintf(path, sizeof path, "%s/xx/LC_MESSAGES/%s.mo", folder, name);
    in = fopen(path, "rb");
    if (in == NULL) {
        printf("skipped: no catalogue %s\n", name);
        return;
    }
    len = fread(bytes, 1, sizeof bytes, in);
    fclose(in);
    check(pokit_open(&catalog, bytes, len, NULL) == POKIT_OK, name);
    bindtextdomain(name, folder);
    bind_textdomain_codeset(name, "UTF-8");
    for (i = 0; i < pokit_len(&catalog); i++) {
        const char *original = string_at(bytes, 12, i), *eot = strchr(original, 4);
        const char *plural = original + strlen(original) + 1;
        if (eot == NULL) {
            check_text(pokit_gettext(&catalog, original), dcgettext(name, original, LC_MESSAGES), original);
            for (n = 0; n <= 200; n++)
                check_text(pokit_ngettext(&catalog, original, plural, n), dcngettext(name, original, plural, n, LC_MESSAGES), original);
        } else {
            /* glibc has the key of a context and a msgid as one string */
            char context[256];
            snprintf(context, sizeof context, "%.*s", (int)(eot - original), original);
            check_text(pokit_pgettext(&catalog, context, eot + 1), dcgettext(name, original, LC_MESSAGES), original);
        }
    }
    check_text(pokit_gettext(&catalog, "no such message"), dcgettext(name, "no such message", LC_MESSAGES), name);
}

int main(int argc, char **argv)
{
    int big;
    for (big = 0; big <= 1; big++) {
        rows(big);
        damaged(big);
    }
    words();
    setenv("LANGUAGE", "xx", 1);
    if (argc == 2 && setlocale(LC_ALL, "C.UTF-8") != NULL) {
        as_glibc(argv[1], "german");
        as_glibc(argv[1], "polish");
        as_glibc(argv[1], "arabic");
    } else {
        printf("skipped: glibc's dcngettext: no catalogues, or no locale C.UTF-8\n");
    }
    return counts();
}
