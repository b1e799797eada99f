/* Looks a message up, waits for a line on standard input, and looks others up: with WITH_POKIT by libpokit.so.0, else by
 * the functions of libintl. The argument is a folder of catalogues. */
#include <stdio.h>
#ifdef WITH_POKIT
#include <pokit.h>

static unsigned char file[100000];
static pokit_catalog catalog;

static int begin(const char *folder)
{
    char path[4096];
    snprintf(path, sizeof path, "%s/de/LC_MESSAGES/shelf.mo", folder);
    FILE *from = fopen(path, "rb");
    size_t length = from ? fread(file, 1, sizeof file, from) : 0;
    return pokit_open(&catalog, file, length, NULL) == POKIT_OK;
}

static const char *one(const char *msgid) { return pokit_gettext(&catalog, msgid); }
static const char *many(unsigned long n) { return pokit_ngettext(&catalog, "%d book", "%d books", n); }
#else
#include <libintl.h>
#include <locale.h>

static int begin(const char *folder)
{
    return setlocale(LC_ALL, "") && bindtextdomain("shelf", folder) && textdomain("shelf");
}

static const char *one(const char *msgid) { return gettext(msgid); }
static const char *many(unsigned long n) { return ngettext("%d book", "%d books", n); }
#endif

int main(int count, char **words)
{
    if (count != 2 || !begin(words[1]))
        return 2;
    puts(one("Bookshelf"));
    fflush(stdout);
    getchar();
    puts(many(3));
    puts(one("Bookshelf"));
    return 0;
}
