/* System-dependent messages, one by one and in an expanded file: a file in both byte orders, what it lacks, room that is
 * too short, and every truncation of it and change of one of its bytes. */
#include "files.h"

static const pokit_platform_text texts[] = {
    {{(const uint8_t *)"PRIi64", 6}, {(const uint8_t *)"li", 2}},
    {{(const uint8_t *)"PRIu64", 6}, {(const uint8_t *)"lu", 2}},
};

/* The words of a file of two such messages, of which the second has a name without a text; and the strings after
 * them. */
static const uint32_t words[] = {
    0x950412de, 1, 0, 28, 28, 0, 28, 2, 48, 2, 64, 72, /* the file header; 2 names, 2 messages */
    7, 132, 5, 139,                                    /* the names */
    80, 112, 100, 100,                                 /* where the originals and the translations are described */
    144, 1, 0, 4, 0xffffffff,                          /* "%", PRIu64, " kB" */
    149, 8, 0xffffffff,                                /* "nothing" */
    144, 1, 1, 4, 0xffffffff                           /* "%", NONE, " kB" */
};
static const char strings[] = "PRIu64\0NONE\0% kB\0nothing";
enum { LEN = sizeof words + sizeof strings, TEXTS = sizeof texts / sizeof *texts };

static void write_file(uint8_t *file, int is_big)
{
    for (size_t i = 0; i < sizeof words; i++)
        file[i] = (uint8_t)(words[i / 4] >> 8 * (is_big ? 3 - i % 4 : i % 4));
    memcpy(file + sizeof words, strings, sizeof strings);
}

static uint32_t ask(const uint8_t *file, size_t len, uint32_t index, char *room, size_t size, pokit_ends *ends)
{
    ends->original = ends->translation = 7;
    return pokit_system_message(file, len, texts, TEXTS, index, (uint8_t *)room, size, ends);
}

/* The messages of the file as it is. */
static void rows(const uint8_t *file)
{
    char room[20] = "...................";
    pokit_ends ends;
    check(pokit_system_count(file, LEN) == 2, "count");
    check(ask(file, LEN, 0, room, sizeof room, &ends) == POKIT_WRITTEN && ends.original == 6 && ends.translation == 13
              && memcmp(room, "%lu kBnothing...", 16) == 0, "message");
    check(ask(file, LEN, 0, room, 13, &ends) == POKIT_WRITTEN, "exact room");
    check(ask(file, LEN, 0, room, 12, &ends) == POKIT_NO_ROOM && ends.original == 7, "no room");
    check(ask(file, LEN, 0, room, 0, &ends) == POKIT_NO_ROOM, "none at all");
    check(ask(file, LEN, 1, room, sizeof room, &ends) == POKIT_NO_MESSAGE && ends.original == 7, "name without a text");
    check(ask(file, LEN, 2, room, sizeof room, &ends) == POKIT_NO_MESSAGE, "index");
    uint32_t written = pokit_system_message(file, LEN, texts, 0, 0, (uint8_t *)room, sizeof room, &ends);
    check(written == POKIT_NO_MESSAGE, "no texts");
}

/* The expanded file, in a list of so many places and room of so many bytes. */
static uint32_t expand(const uint8_t *bytes, size_t len, size_t places, size_t size, uint8_t *file, size_t file_size)
{
    static pokit_listed_message list[64];
    static uint8_t room[1000];
    for (size_t i = 0; i < 64; i++)
        list[i].original = list[i].translation = pokit_bytes_of(room, 0);
    return pokit_expanded_file(bytes, len, texts, TEXTS, list, places, room, size, file, file_size);
}

/* That of the file as it is: 28 bytes, 16 for the message, "%lu kB" and "nothing". */
static void expanded_rows(const uint8_t *file)
{
    enum { EXPANDED = 28 + 16 + 7 + 8 };
    pokit_catalog *catalog = (pokit_catalog *)malloc(sizeof *catalog);
    uint8_t made[100];
    memset(made, 7, sizeof made);
    check(expand(file, LEN, 2, 13, made, 0) == EXPANDED && made[0] == 7, "how long the expanded file is");
    check(expand(file, LEN, 2, 13, made, EXPANDED - 1) == EXPANDED && made[0] == 7, "no room for the expanded file");
    check(expand(file, LEN, 2, 12, made, sizeof made) == 0 && made[0] == 7, "no room for its strings");
    check(expand(file, LEN, 1, 13, made, sizeof made) == 0 && made[0] == 7, "no place for its messages");
    check(expand(file, LEN, 2, 13, made, sizeof made) == EXPANDED && made[EXPANDED] == 7, "the expanded file");
    check(pokit_open(catalog, made, EXPANDED, NULL) == POKIT_OK && pokit_len(catalog) == 1
              && strcmp(pokit_gettext(catalog, "%lu kB"), "nothing") == 0, "its message");
    check(pokit_system_count(made, EXPANDED) == 0, "no system-dependent messages");
    free(catalog);
}

/* Whether a file that is expanded can be opened, where the bytes can. */
static int expands(const uint8_t *bytes, size_t len)
{
    static pokit_catalog catalog;
    static uint8_t made[3000];
    bool is_file = pokit_open(&catalog, bytes, len, NULL) == POKIT_OK;
    uint32_t wanted = expand(bytes, len, 64, 1000, made, sizeof made);
    return wanted == 0 || (is_file && (wanted > sizeof made || pokit_open(&catalog, made, wanted, NULL) == POKIT_OK));
}

/* Whether answers on any bytes are such as the header says. */
static int is_fine(const uint8_t *bytes, size_t len)
{
    char room[300];
    uint32_t count = pokit_system_count(bytes, len);
    for (uint32_t i = 0; i < count && i < 4; i++)
        for (size_t size = 0; size <= sizeof room; size += 100) {
            pokit_ends ends;
            uint32_t written = ask(bytes, len, i, room, size, &ends);
            if (written == POKIT_WRITTEN ? ends.original > ends.translation || ends.translation > size
                                         : written > POKIT_NO_ROOM || ends.original != 7 || ends.translation != 7)
                return 0;
        }
    return expands(bytes, len);
}

int main(void)
{
    for (int is_big = 0; is_big < 2; is_big++) {
        /* (where it ends, a sanitizer sees a read behind it) */
        for (size_t len = 0; len <= LEN; len++) {
            uint8_t whole[LEN], *file = (uint8_t *)malloc(len + (len == 0));
            write_file(whole, is_big);
            memcpy(file, whole, len);
            check(is_fine(file, len), "a truncation");
            free(file);
        }
        uint8_t *file = (uint8_t *)malloc(LEN);
        write_file(file, is_big);
        rows(file);
        expanded_rows(file);
        for (size_t at = 0; at < LEN; at++) {
            uint8_t was = file[at];
            int fine = 1;
            for (int byte = 0; byte < 256; byte++) {
                file[at] = (uint8_t)byte;
                fine = fine && is_fine(file, LEN);
            }
            file[at] = was;
            check(fine, "changes of a byte");
        }
        file[is_big ? 7 : 4] = 0;
        check(pokit_system_count(file, LEN) == 0, "minor revision 0");
        free(file);
    }
    return counts();
}
