/* Looks three messages up in a catalogue, which is mapped and checked once.
 *
 *     cc -o lookup lookup.c -lpokit
 *     ./lookup locale/de/LC_MESSAGES/bookshelf.mo 3 */
#include <fcntl.h>
#include <pokit.h>
#include <stdio.h>
#include <stdlib.h>
#include <sys/mman.h>
#include <sys/stat.h>
#include <unistd.h>

static pokit_catalog catalog;

int main(int argc, char **argv)
{
    struct stat status;
    uint32_t message;
    enum pokit_error error;
    int count = argc > 2 ? atoi(argv[2]) : 1;
    int file = argc > 1 ? open(argv[1], O_RDONLY) : -1;

    if (file < 0 || fstat(file, &status) != 0) {
        fprintf(stderr, "usage: lookup FILE.mo [COUNT]\n");
        return 1;
    }
    void *bytes = mmap(NULL, (size_t)status.st_size, PROT_READ, MAP_PRIVATE, file, 0);
    close(file);
    if (bytes == MAP_FAILED) {
        perror(argv[1]);
        return 1;
    }
    error = pokit_open(&catalog, bytes, (size_t)status.st_size, &message);
    if (error != POKIT_OK) {
        fprintf(stderr, "lookup: %s: %s", argv[1], pokit_error_text(error));
        if (error >= POKIT_STRING_OUTSIDE)
            fprintf(stderr, " (message %lu)", (unsigned long)message);
        fputs("\n", stderr);
        return 1;
    }
    puts(pokit_gettext(&catalog, "Search by author"));
    puts(pokit_pgettext(&catalog, "button", "Open"));
    printf(pokit_ngettext(&catalog, "%d book", "%d books", (uint64_t)count), count);
    puts("");
    return 0;
}
