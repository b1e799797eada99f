/* Asks its catalogue through the C library: a message, and one with a count. */
#include <libintl.h>
#include <locale.h>
#include <stdio.h>
#include <stdlib.h>

int main(int argc, char **argv)
{
    int count = argc > 1 ? atoi(argv[1]) : 1;
    setlocale(LC_ALL, "");
    bindtextdomain("bookshelf", LOCALEDIR);
    textdomain("bookshelf");
    puts(gettext("Bookshelf"));
    printf(ngettext("%d book", "%d books", count), count);
    putchar('\n');
    return 0;
}
