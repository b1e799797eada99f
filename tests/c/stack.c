/* How much of the stack each call takes, in threads whose stack was filled before: what include/pokit.h says. */
#ifndef _GNU_SOURCE
#define _GNU_SOURCE
#endif
#include <limits.h>
#include <pthread.h>
#include <sys/mman.h>

#include "files.h"

enum { ROOM = 256 * 1024, FILLED = 0xa5 };

/* What each call may take, in bytes. */
enum { TO_OPEN = 1024, TO_OPEN_FAR = 9 * 1024, TO_LOOK = 1024, TO_LOOK_FAR = 17 * 1024, TO_MAKE_A_PATH = 6 * 1024, TO_SORT = 4 * 1024 };

static pokit_catalog catalog;
static struct file file;
static const char *rule;

static void *open_file(void *unused)
{
    (void)unused;
    return pokit_open(&catalog, file.bytes, file.len, NULL) == POKIT_OK ? &catalog : NULL;
}

static void *look(void *unused)
{
    (void)unused;
    return (void *)(uintptr_t)pokit_ngettext(&catalog, "book", "books", 5);
}

static void *path(void *unused)
{
    static char name[4096];
    pokit_walk walk = {{0, 0}, 0};
    (void)unused;
    return pokit_path("/d", "LC_MESSAGES", "w", "de_AT.UTF-8", "fr:pl", &walk, name, sizeof name) != 0 ? name : NULL;
}

/* A file of many messages, in whatever order, whose originals are numbers. */
enum { MANY = 100000, DIGITS = 6 };
static uint8_t out_of_order[28 + MANY * (16 + DIGITS + 2)];
static pokit_listed_message list[MANY];

static void put(size_t at, uint32_t word)
{
    memcpy(out_of_order + at, &word, 4);
}

static void make_out_of_order(void)
{
    static const uint32_t words[] = {0x950412de, 0, MANY, 28, 28 + 8 * MANY, 0, 0};
    static uint32_t order[MANY];
    uint32_t seed = 1, i, at = 28 + 16 * MANY;
    for (i = 0; i < 7; i++)
        put(4 * i, words[i]);
    for (i = 0; i < MANY; i++) {
        uint32_t other = (seed = seed * 1664525 + 1013904223) / 256 % (i + 1);
        order[i] = order[other];
        order[other] = i;
    }
    for (i = 0; i < MANY; i++) {
        char number[DIGITS + 1];
        snprintf(number, sizeof number, "%0*u", DIGITS, (unsigned)order[i] % 1000000);
        put(28 + 8 * i, DIGITS);
        put(32 + 8 * i, at);
        put(28 + 8 * (MANY + i), 0);
        put(32 + 8 * (MANY + i), at + DIGITS);
        memcpy(out_of_order + at, number, DIGITS + 1);
        at += DIGITS + 1;
        list[i].original = list[i].translation = pokit_bytes_of(NULL, 0);
    }
}

static void *sort(void *unused)
{
    (void)unused;
    return pokit_sorted_file(out_of_order, sizeof out_of_order, list, MANY, out_of_order, 0) != 0 ? list : NULL;
}

static void *nothing(void *unused)
{
    (void)unused;
    return &catalog;
}

/* How many bytes of the stack of a thread a call has written. */
static size_t taken_by(void *(*call)(void *))
{
    uint8_t *room = (uint8_t *)mmap(NULL, ROOM, PROT_READ | PROT_WRITE, MAP_PRIVATE | MAP_ANONYMOUS, -1, 0);
    pthread_attr_t attributes;
    pthread_t thread;
    void *answer = NULL;
    size_t untouched = 0;
    if (room == MAP_FAILED)
        exit(2);
    memset(room, FILLED, ROOM);
    pthread_attr_init(&attributes);
    pthread_attr_setstack(&attributes, room, ROOM);
    check(pthread_create(&thread, &attributes, call, NULL) == 0 && pthread_join(thread, &answer) == 0, "a thread");
    check(answer != NULL, "its call");
    while (untouched < ROOM && room[untouched] == FILLED)
        untouched++;
    munmap(room, ROOM);
    return ROOM - untouched;
}

static void check_most(const char *name, void *(*call)(void *), size_t most)
{
    size_t alone = taken_by(nothing), taken = taken_by(call);
    taken = taken > alone ? taken - alone : 0;
    check(taken <= most, name);
    if (taken > most)
        printf("%s with %s: %lu bytes of the stack, and not %lu\n", name, rule, (unsigned long)taken, (unsigned long)most);
}

/* A catalogue with a plural expression of `terms` terms. */
static void make(const char *name, int terms)
{
    static char header[8192];
    struct message messages[] = {{TEXT(""), NULL, 0}, {TEXT("book\0books"), TEXT("b\0bs")}};
    int i;
    rule = name;
    strcpy(header, "Plural-Forms: nplurals=2; plural=n");
    for (i = 1; i < terms; i++)
        strcat(header, "+n");
    strcat(header, ">1;\n");
    messages[0].translation = header;
    messages[0].translation_len = (uint32_t)strlen(header);
    file = file_of(messages, 2, 0);
}

int main(void)
{
    make("a rule of 3 nodes", 1);
    check_most("pokit_open", open_file, TO_OPEN);
    check_most("pokit_ngettext", look, TO_LOOK);
    check_most("pokit_path", path, TO_MAKE_A_PATH);
    make("a rule of 127 nodes", 63);
    check_most("pokit_open", open_file, TO_OPEN);
    check_most("pokit_ngettext", look, TO_LOOK);
    make("a rule of 4,001 nodes", 2000);
    check_most("pokit_open", open_file, TO_OPEN_FAR);
    check_most("pokit_ngettext", look, TO_LOOK_FAR);
    rule = "no rule";
    make_out_of_order();
    check_most("pokit_sorted_file", sort, TO_SORT);
    return counts();
}
