/* Catalogues that the tests of the drop-in write, and counted checks. */
#ifndef CATALOGUES_H
#define CATALOGUES_H

#include <errno.h>
#include <stdbool.h>
#include <stdint.h>
#include <stdio.h>
#include <stdlib.h>
#include <string.h>
#include <sys/stat.h>

static int passed, failed;

static inline void check(bool holds, const char *name)
{
    if (holds) {
        passed++;
    } else {
        failed++;
        printf("failed: %s\n", name);
    }
}

/* The last line, which counts what passed and failed, and the status of the program. */
static inline int counts(void)
{
    printf("%d passed, %d failed\n", passed, failed);
    return failed != 0;
}

/* Texts with the NULs in them. */
struct message {
    const char *original, *translation;
    uint32_t original_len, translation_len;
};
#define MESSAGE(o, t) {o, t, sizeof o - 1, sizeof t - 1}
#define HEADER(charset, rule) \
    MESSAGE("", "Content-Type: text/plain; charset=" charset "\nPlural-Forms: " rule ";\n")
#define GERMAN "nplurals=2; plural=n != 1"

struct mo_file {
    uint8_t bytes[1 << 14];
    size_t len;
};

static inline void put_word(struct mo_file *file, size_t at, uint32_t w)
{
    for (size_t i = 0; i < 4; i++)
        file->bytes[at + i] = (uint8_t)(w >> 8 * i);
}

static inline void put_string(struct mo_file *file, size_t entry, const char *text, uint32_t len)
{
    put_word(file, entry, len);
    put_word(file, entry + 4, (uint32_t)file->len);
    memcpy(file->bytes + file->len, text, len);
    file->len += len + 1;
}

/* The file of some messages, in the order that they have. */
static inline struct mo_file file_of(const struct message *messages, uint32_t count)
{
    struct mo_file file = {.len = 28 + 16 * (size_t)count};
    put_word(&file, 0, 0x950412de);
    put_word(&file, 8, count);
    put_word(&file, 12, 28);
    put_word(&file, 16, 28 + 8 * count);
    put_word(&file, 24, 28 + 16 * count);
    for (uint32_t i = 0; i < count; i++)
        put_string(&file, 28 + 8 * i, messages[i].original, messages[i].original_len);
    for (uint32_t i = 0; i < count; i++)
        put_string(&file, 28 + 8 * (count + i), messages[i].translation, messages[i].translation_len);
    return file;
}
#define FILE_OF(messages) file_of(messages, sizeof messages / sizeof messages[0])

static inline void make_folders(const char *path)
{
    char name[4096];
    for (size_t i = 1; path[i] != 0 && i < sizeof name; i++)
        if (path[i] == '/') {
            memcpy(name, path, i);
            name[i] = 0;
            mkdir(name, 0777);
        }
}

/* Writes a file beside what stands at the path, and renames it over that. */
static inline void write_file(const char *path, const void *bytes, size_t len)
{
    char beside[4096];
    make_folders(path);
    snprintf(beside, sizeof beside, "%s.new", path);
    FILE *out = fopen(beside, "wb");
    if (out == NULL || fwrite(bytes, 1, len, out) != len || fclose(out) != 0 || rename(beside, path) != 0) {
        perror(path);
        exit(2);
    }
}

/* FOLDER/NAME, which stays until the next call. */
static inline const char *below(const char *folder, const char *name)
{
    static char path[4096];
    snprintf(path, sizeof path, "%s/%s", folder, name);
    return path;
}

/* Writes the file of some messages, FOLDER/NAME. */
static inline void write_messages(const char *folder, const char *name, struct mo_file file)
{
    write_file(below(folder, name), file.bytes, file.len);
}

#endif
