/*
 * Stands before malloc and its kin (by LD_PRELOAD), counts the allocations that a program asks for,
 * and lets the one of number FAIL_AT fail; where FAIL_ON isn't empty, all after it too. Where COUNT
 * names a file, the number of allocations is written to it at the end.
 */
#include <errno.h>
#include <stddef.h>
#include <stdio.h>
#include <stdlib.h>

extern void *__libc_malloc(size_t size);
extern void *__libc_calloc(size_t count, size_t size);
extern void *__libc_realloc(void *old, size_t size);
extern void *__libc_memalign(size_t alignment, size_t size);

static int counting;
static int fail_on;
static unsigned long fail_at;
static unsigned long allocations;

static int fails(void)
{
    if (!counting)
        return 0;
    allocations++;
    if (allocations == fail_at || (fail_on && fail_at != 0 && allocations > fail_at)) {
        errno = ENOMEM;
        return 1;
    }
    return 0;
}

void *malloc(size_t size)
{
    return fails() ? NULL : __libc_malloc(size);
}

void *calloc(size_t count, size_t size)
{
    return fails() ? NULL : __libc_calloc(count, size);
}

void *realloc(void *old, size_t size)
{
    return fails() ? NULL : __libc_realloc(old, size);
}

void *aligned_alloc(size_t alignment, size_t size)
{
    return fails() ? NULL : __libc_memalign(alignment, size);
}

void *memalign(size_t alignment, size_t size)
{
    return fails() ? NULL : __libc_memalign(alignment, size);
}

int posix_memalign(void **place, size_t alignment, size_t size)
{
    void *made = fails() ? NULL : __libc_memalign(alignment, size);

    if (made == NULL)
        return ENOMEM;
    *place = made;
    return 0;
}

__attribute__((constructor)) static void begin(void)
{
    const char *number = getenv("FAIL_AT");
    const char *on = getenv("FAIL_ON");

    fail_at = number == NULL ? 0 : strtoul(number, NULL, 10);
    fail_on = on != NULL && *on != '\0';
    counting = 1;
}

__attribute__((destructor)) static void end(void)
{
    const char *name = getenv("COUNT");
    FILE *file;

    counting = 0;
    if (name == NULL)
        return;
    file = fopen(name, "w");
    if (file == NULL)
        return;
    fprintf(file, "%lu\n", allocations);
    fclose(file);
}
