/* Looks a message up in the catalogues of the user's languages, as gettext does.
 *
 *     chain FOLDER DOMAIN MSGID */
#include <fcntl.h>
#include <locale.h>
#include <pokit.h>
#include <stdio.h>
#include <stdlib.h>
#include <sys/mman.h>
#include <sys/stat.h>
#include <unistd.h>

enum { MOST = 8 };

/* Whether a file could be mapped and is a catalogue. */
static int open_file(pokit_catalog *catalog, const char *path)
{
    struct stat status;
    int file = open(path, O_RDONLY | O_CLOEXEC), is_open;
    void *bytes;

    if (file < 0)
        return 0;
    is_open = fstat(file, &status) == 0 && S_ISREG(status.st_mode);
    bytes = is_open ? mmap(NULL, (size_t)status.st_size, PROT_READ, MAP_PRIVATE, file, 0) : MAP_FAILED;
    close(file);
    return bytes != MAP_FAILED && pokit_open(catalog, bytes, (size_t)status.st_size, NULL) == POKIT_OK;
}

int main(int argc, char **argv)
{
    static pokit_catalog catalogs[MOST];
    const pokit_catalog *members[MOST];
    char path[4096];
    pokit_walk walk = {{0, 0}, 0};
    size_t count = 0;

    if (argc != 4) {
        fprintf(stderr, "usage: chain FOLDER DOMAIN MSGID\n");
        return 1;
    }
    setlocale(LC_ALL, "");
    while (count < MOST && pokit_path(argv[1], "LC_MESSAGES", argv[2], setlocale(LC_MESSAGES, NULL), getenv("LANGUAGE"),
                                      &walk, path, sizeof path) != 0)
        if (open_file(&catalogs[count], path)) {
            members[count] = &catalogs[count];
            count++;
        }
    puts((const char *)pokit_look_chain(members, count, pokit_query_of(NULL, argv[3], NULL, 0)).text.ptr);
    return 0;
}
