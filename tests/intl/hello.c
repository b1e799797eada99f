/* A program with a few messages, of which each line of output is one: for static programs, other C libraries, GNU
 * libintl's names and set-user-id programs.
 *
 *     hello FOLDER LOCALE
 */
#define _GNU_SOURCE
#include <locale.h>
#include <stdio.h>

#ifdef LIBINTL_NAMES
#define NAME(name) libintl_##name
#else
#define NAME(name) name
#endif
char *NAME(gettext)(const char *msgid);
char *NAME(dgettext)(const char *domain, const char *msgid);
char *NAME(dcgettext)(const char *domain, const char *msgid, int category);
char *NAME(ngettext)(const char *msgid, const char *plural, unsigned long count);
char *NAME(dngettext)(const char *domain, const char *msgid, const char *plural, unsigned long count);
char *NAME(dcngettext)(const char *domain, const char *msgid, const char *plural, unsigned long count, int category);
char *NAME(textdomain)(const char *domain);
char *NAME(bindtextdomain)(const char *domain, const char *folder);
char *NAME(bind_textdomain_codeset)(const char *domain, const char *codeset);

int main(int argc, char **argv)
{
    if (argc != 3 || setlocale(LC_ALL, argv[2]) == NULL)
        return 2;
    printf("%s\n", NAME(bindtextdomain)("app", argv[1]) != NULL ? NAME(textdomain)("app") : "");
    printf("%s\n", NAME(bind_textdomain_codeset)("app", "UTF-8"));
    printf("%s, %s\n", NAME(gettext)("Open"), NAME(gettext)("menu\004Open"));
    printf("%s, %s\n", NAME(dgettext)("app", "Close"), NAME(dcgettext)("app", "Open", LC_TIME));
    printf("%s, %s\n", NAME(ngettext)("file", "files", 1), NAME(dngettext)("app", "file", "files", 2));
    printf("%s\n", NAME(dcngettext)("app", "nothing", "nothing at all", 2, LC_MESSAGES));
    NAME(bindtextdomain)("latin", argv[1]);
    NAME(bind_textdomain_codeset)("latin", "UTF-8");
    printf("%s\n", NAME(dgettext)("latin", "Open"));
    return 0;
}
