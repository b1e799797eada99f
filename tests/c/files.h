/* Counted checks, and MO files that are made word by word. */
#ifndef FILES_H
#define FILES_H

#include <pokit.h>
#include <stdio.h>
#include <stdlib.h>

static int passed, failed;

static inline void check(int holds, const char *name)
{
    if (holds) {
        passed++;
    } else {
        failed++;
        printf("failed: %s\n", name);
    }
}

static inline void check_text(const char *got, const char *wanted, const char *name)
{
    check(got != NULL && strcmp(got, wanted) == 0, name);
}

/* The last line, which counts what passed and failed, and the status of the program. */
static inline int counts(void)
{
    printf("%d passed, %d failed\n", passed, failed);
    return failed != 0;
}

/* A file that is made word by word. */
struct file {
    uint8_t bytes[8192];
    size_t len;
    int big;
};

static inline void put_word(struct file *file, size_t at, uint32_t w)
{
    int i;
    for (i = 0; i < 4; i++)
        file->bytes[at + (size_t)i] = (uint8_t)(w >> 8 * (file->big ? 3 - i : i));
}

/* The file of some messages, each with the lengths of its two strings, without padding. */
struct message {
    const char *original;
    uint32_t original_len;
    const char *translation;
    uint32_t translation_len;
};

static inline void put_string(struct file *file, size_t entry, const char *text, uint32_t len)
{
    put_word(file, entry, len);
    put_word(file, entry + 4, (uint32_t)file->len);
    memcpy(file->bytes + file->len, text, len);
    file->bytes[file->len + len] = 0;
    file->len += len + 1;
}

static inline struct file file_of(const struct message *messages, uint32_t count, int big)
{
    struct file file;
    uint32_t i;
    memset(&file, 0, sizeof file);
    file.big = big;
    put_word(&file, 0, 0x950412de);
    put_word(&file, 8, count);
    put_word(&file, 12, 28);
    put_word(&file, 16, 28 + 8 * count);
    put_word(&file, 24, 28 + 16 * count);
    file.len = 28 + 16 * count;
    for (i = 0; i < count; i++)
        put_string(&file, 28 + 8 * i, messages[i].original, messages[i].original_len);
    for (i = 0; i < count; i++)
        put_string(&file, 28 + 8 * count + 8 * i, messages[i].translation, messages[i].translation_len);
    return file;
}

/* A copy of its exact length, so that a read after its end is seen. */
static inline uint8_t *copy_of(const struct file *file, size_t len)
{
    uint8_t *bytes = (uint8_t *)malloc(len + (len == 0));
    if (bytes == NULL)
        exit(2);
    memcpy(bytes, file->bytes, len);
    return bytes;
}

#define TEXT(s) s, sizeof s - 1

#endif
