/* Messages with system-dependent strings: prints what a program gets, or asks files of which a byte was changed, and
 * counts those that answered. */
#include <inttypes.h>
#include <libintl.h>
#include <locale.h>
#include <stdio.h>
#include <stdlib.h>
#include <string.h>

#define BYTES "%" PRIu64 " bytes"
#define ONE_FILE "%" PRId32 " file"
#define MORE_FILES "%" PRId32 " files"

static void show(void)
{
    puts(gettext("plain"));
    puts(gettext(BYTES));
    puts(ngettext(ONE_FILE, MORE_FILES, 1));
    puts(ngettext(ONE_FILE, MORE_FILES, 5));
    puts(gettext("%" PRIXPTR " and %" PRIi8 ", %" PRIuFAST16));
    puts(gettext("%lu kept"));
    puts(gettext("%d digits"));
    puts(gettext("%" PRIoMAX));
    puts(gettext("%" PRIx64 " isn't there"));
}

/* Writes the file with one byte of it changed as that of another domain, and asks that for a message. */
static int answers_to(const char *folder, unsigned char *bytes, size_t len, size_t at, unsigned char byte)
{
    char path[4096], domain[32];
    unsigned char was = bytes[at];
    snprintf(domain, sizeof domain, "d%zu-%u", at, byte);
    snprintf(path, sizeof path, "%s/de/LC_MESSAGES/%s.mo", folder, domain);
    FILE *file = fopen(path, "wb");
    if (file == NULL)
        return 0;
    bytes[at] = byte;
    fwrite(bytes, 1, len, file);
    fclose(file);
    bytes[at] = was;
    bindtextdomain(domain, folder);
    /* (a text may be cut by a NUL, and no text is as long as the file) */
    size_t text = strlen(dgettext(domain, BYTES)), form = strlen(dngettext(domain, ONE_FILE, MORE_FILES, 5));
    remove(path);
    return text < len && form < len;
}

static int count_changes(const char *folder)
{
    static unsigned char bytes[1 << 14];
    char path[4096];
    int passed = 0, failed = 0;
    snprintf(path, sizeof path, "%s/de/LC_MESSAGES/system.mo", folder);
    FILE *file = fopen(path, "rb");
    size_t len = file != NULL ? fread(bytes, 1, sizeof bytes, file) : 0;
    if (file != NULL)
        fclose(file);
    for (size_t at = 0; at < len; at++) {
        const unsigned char changes[] = {0, 1, 255, (unsigned char)(bytes[at] + 1), (unsigned char)(bytes[at] ^ 128)};
        for (size_t i = 0; i < sizeof changes; i++) {
            if (answers_to(folder, bytes, len, at, changes[i]))
                passed++;
            else
                failed++;
        }
    }
    printf("%d passed, %d failed\n", passed, failed + (len == 0));
    return failed != 0;
}

int main(int count, char **arguments)
{
    if (count < 2 || setlocale(LC_ALL, "C.UTF-8") == NULL || bindtextdomain("system", arguments[1]) == NULL
        || textdomain("system") == NULL || setenv("LANGUAGE", "de", 1) != 0)
        return 1;
    if (count > 2)
        return count_changes(arguments[1]);
    show();
    return 0;
}
