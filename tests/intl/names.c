/* The names that system-dependent strings have: a message for each, whose text has to be what <inttypes.h> has for it.
 *
 *     names FOLDER
 */
#include "catalogues.h"
#include <inttypes.h>
#include <libintl.h>
#include <locale.h>

/* A name, the msgid that a program has where its source says `"%" NAME " files"`, and the translation of it. */
struct name {
    const char *name, *msgid, *text;
};
#define NAME(name) {#name, "%" name " of " #name, #name ": %" name "."}

static const struct name names[] = {
    NAME(PRId8), NAME(PRId16), NAME(PRId32), NAME(PRId64), NAME(PRIdLEAST8), NAME(PRIdLEAST16),
    NAME(PRIdLEAST32), NAME(PRIdLEAST64), NAME(PRIdFAST8), NAME(PRIdFAST16), NAME(PRIdFAST32),
    NAME(PRIdFAST64), NAME(PRIdMAX), NAME(PRIdPTR),
    NAME(PRIi8), NAME(PRIi16), NAME(PRIi32), NAME(PRIi64), NAME(PRIiLEAST8), NAME(PRIiLEAST16),
    NAME(PRIiLEAST32), NAME(PRIiLEAST64), NAME(PRIiFAST8), NAME(PRIiFAST16), NAME(PRIiFAST32),
    NAME(PRIiFAST64), NAME(PRIiMAX), NAME(PRIiPTR),
    NAME(PRIo8), NAME(PRIo16), NAME(PRIo32), NAME(PRIo64), NAME(PRIoLEAST8), NAME(PRIoLEAST16),
    NAME(PRIoLEAST32), NAME(PRIoLEAST64), NAME(PRIoFAST8), NAME(PRIoFAST16), NAME(PRIoFAST32),
    NAME(PRIoFAST64), NAME(PRIoMAX), NAME(PRIoPTR),
    NAME(PRIu8), NAME(PRIu16), NAME(PRIu32), NAME(PRIu64), NAME(PRIuLEAST8), NAME(PRIuLEAST16),
    NAME(PRIuLEAST32), NAME(PRIuLEAST64), NAME(PRIuFAST8), NAME(PRIuFAST16), NAME(PRIuFAST32),
    NAME(PRIuFAST64), NAME(PRIuMAX), NAME(PRIuPTR),
    NAME(PRIx8), NAME(PRIx16), NAME(PRIx32), NAME(PRIx64), NAME(PRIxLEAST8), NAME(PRIxLEAST16),
    NAME(PRIxLEAST32), NAME(PRIxLEAST64), NAME(PRIxFAST8), NAME(PRIxFAST16), NAME(PRIxFAST32),
    NAME(PRIxFAST64), NAME(PRIxMAX), NAME(PRIxPTR),
    NAME(PRIX8), NAME(PRIX16), NAME(PRIX32), NAME(PRIX64), NAME(PRIXLEAST8), NAME(PRIXLEAST16),
    NAME(PRIXLEAST32), NAME(PRIXLEAST64), NAME(PRIXFAST8), NAME(PRIXFAST16), NAME(PRIXFAST32),
    NAME(PRIXFAST64), NAME(PRIXMAX), NAME(PRIXPTR)};
enum { COUNT = sizeof names / sizeof names[0], HASHED = 127 };

static size_t put_text(struct mo_file *file, const char *text)
{
    size_t at = file->len, len = strlen(text) + 1;
    memcpy(file->bytes + at, text, len);
    file->len += len;
    return at;
}

/* Describes a string of two parts that stand one after the other, with the name of an index between them. */
static void put_system_string(struct mo_file *file, size_t at, const char *before, const char *after, uint32_t name)
{
    char text[64];
    size_t before_len = strlen(before), after_len = strlen(after) + 1;
    memcpy(text, before, before_len);
    memcpy(text + before_len, after, after_len);
    size_t static_at = file->len;
    memcpy(file->bytes + static_at, text, before_len + after_len);
    file->len += before_len + after_len;
    const uint32_t words[] = {(uint32_t)static_at, (uint32_t)before_len, name, (uint32_t)after_len, 0xffffffff};
    for (size_t i = 0; i < 5; i++)
        put_word(file, at + 4 * i, words[i]);
}

/* A file of minor revision 1 that has no messages but these. After its header are the names, the places where the
 * strings are described, what describes them, and an empty hash table, which glibc wants. */
static struct mo_file system_file(void)
{
    const size_t segments = 48, originals = segments + 8 * COUNT, translations = originals + 4 * COUNT;
    const size_t described = translations + 4 * COUNT, hash_table = described + 2 * 20 * COUNT;
    const uint32_t words[] = {0x950412de, 1, 0, 28, 28, HASHED, (uint32_t)hash_table, COUNT, (uint32_t)segments, COUNT,
                              (uint32_t)originals, (uint32_t)translations};
    struct mo_file file = {.len = hash_table + 4 * HASHED};
    for (size_t i = 0; i < sizeof words / sizeof words[0]; i++)
        put_word(&file, 4 * i, words[i]);
    for (uint32_t i = 0; i < COUNT; i++) {
        char after[40], before[40];
        size_t original = described + 40 * i, translation = original + 20;
        put_word(&file, segments + 8 * i, (uint32_t)strlen(names[i].name) + 1);
        put_word(&file, segments + 8 * i + 4, (uint32_t)put_text(&file, names[i].name));
        put_word(&file, originals + 4 * i, (uint32_t)original);
        put_word(&file, translations + 4 * i, (uint32_t)translation);
        snprintf(after, sizeof after, " of %s", names[i].name);
        snprintf(before, sizeof before, "%s: %%", names[i].name);
        put_system_string(&file, original, "%", after, i);
        put_system_string(&file, translation, before, ".", i);
    }
    return file;
}

int main(int argc, char **argv)
{
    if (argc != 2)
        return 2;
    write_messages(argv[1], "de/LC_MESSAGES/names.mo", system_file());
    setenv("LANGUAGE", "de", 1);
    if (setlocale(LC_ALL, "C.UTF-8") == NULL) {
        puts("skipped  names of system-dependent strings (the machine has no locale C.UTF-8)");
        return counts();
    }
    bindtextdomain("names", argv[1]);
    check(COUNT == 84, "84 names");
    for (size_t i = 0; i < COUNT; i++)
        check(strcmp(dgettext("names", names[i].msgid), names[i].text) == 0, names[i].name);
    return counts();
}
