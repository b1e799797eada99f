/* The drop-in when calls of the system fail: each mmap, open, mprotect, calloc, realloc, iconv_open and creation of a thread
 * in turn, alone and with all after it. A text is the translation or the msgid then, and the translation when calls work
 * again. Each file is read by parts, and every other read is interrupted. What was read can't be written to. It also
 * counts what is called for a message that was loaded: nothing, and the lock isn't taken.
 *
 *     faults FOLDER LOCALE
 */
#define _GNU_SOURCE
#include "catalogues.h"
#include <fcntl.h>
#include <iconv.h>
#include <pthread.h>
#include <sys/mman.h>
#include <sys/wait.h>
#include <unistd.h>

static int calls, first_failing = -1, last_failing = -1;

static bool fails(int error)
{
    int call = calls++;
    if (call < first_failing || call > last_failing)
        return false;
    errno = error;
    return true;
}

/* A read that a signal interrupts every other time, and that else has at most 100 bytes. */
static ssize_t read_a_part(int fd, void *to, size_t len)
{
    static bool is_interrupted;
    is_interrupted = !is_interrupted;
    errno = EINTR;
    return is_interrupted ? -1 : read(fd, to, len < 100 ? len : 100);
}

#define read(...) read_a_part(__VA_ARGS__)
#define mmap(...) (fails(ENOMEM) ? MAP_FAILED : mmap(__VA_ARGS__))
#define mprotect(...) (fails(ENOMEM) ? -1 : mprotect(__VA_ARGS__))
#define open(...) (fails(EMFILE) ? -1 : open(__VA_ARGS__))
#define calloc(...) (fails(ENOMEM) ? NULL : calloc(__VA_ARGS__))
#define realloc(...) (fails(ENOMEM) ? NULL : realloc(__VA_ARGS__))
#define iconv_open(...) (fails(ENOMEM) ? (iconv_t)-1 : iconv_open(__VA_ARGS__))
#define pthread_create(...) (fails(EAGAIN) ? EAGAIN : pthread_create(__VA_ARGS__))
#include "../../intl/intl.c"
#undef read
#undef pthread_create

static const struct message german[] = {HEADER("UTF-8", GERMAN), MESSAGE("Open", "Öffnen"), MESSAGE("file\0files", "a\0b")};
static const struct message latin[] = {HEADER("ISO-8859-1", GERMAN), MESSAGE("Open", "\326ffnen")};
static const struct message unsorted[] = {HEADER("UTF-8", GERMAN), MESSAGE("menu\004Open", "Auf"), MESSAGE("Open", "Öffnen")};
/* A file with a system-dependent message, whose strings are "%", PRIu64 and " kB", and "many": the words of the file
 * header, of the name, and where the strings are described; and the strings. */
static const uint32_t system_words[] = {0x950412de, 1, 0, 28, 28, 0, 28, 1, 48, 1, 56, 60, 7, 96, 64, 84,
                                        103, 1, 0, 4, 0xffffffff, 108, 5, 0xffffffff};
static const char system_strings[] = "PRIu64\0% kB\0many";
#define SYSTEM "%" PRIu64 " kB"
static const char *folder;

static bool is_right(const char *domain, const char *msgid, const char *wanted, bool in_any_case)
{
    const char *text = dgettext(domain, msgid);
    return (text == msgid && !in_any_case) || strcmp(text, wanted) == 0;
}

static bool all_right(bool in_any_case)
{
    errno = 7;
    const char *plural = dngettext("app", "file", "files", 2);
    return is_right("app", "Open", "Öffnen", in_any_case) && is_right("latin", "Open", "Öffnen", in_any_case) &&
           is_right("system", SYSTEM, "many", in_any_case) && is_right("unsorted", "Open", "Öffnen", in_any_case) &&
           is_right("absent", "Open", "Open", true) && strcmp(plural, in_any_case || *plural == 'b' ? "b" : "files") == 0 &&
           errno == 7;
}

static void *ask(void *result)
{
    bindtextdomain("app", folder);
    bindtextdomain("latin", folder);
    bindtextdomain("system", folder);
    bindtextdomain("unsorted", folder);
    *(bool *)result = all_right(false);
    first_failing = last_failing = -1;
    bindtextdomain("app", folder);
    bindtextdomain("latin", folder);
    bindtextdomain("system", folder);
    bindtextdomain("unsorted", folder);
    *(bool *)result = *(bool *)result && all_right(true);
    return NULL;
}

/* What a child comes to whose calls from `first` to `last` fail: 0, 1 where a text is wrong, 2 where none failed. */
static int outcome(int first, int last, bool in_thread)
{
    bool right = false;
    int status = 3;
    pid_t child = fork();
    if (child == 0) {
        pthread_t thread;
        alarm(60);
        calls = 0;
        first_failing = first;
        last_failing = last;
        if (in_thread && pthread_create(&thread, NULL, ask, &right) == 0)
            pthread_join(thread, NULL);
        else
            ask(&right);
        _exit(!right ? 1 : calls <= first ? 2 : 0);
    }
    waitpid(child, &status, 0);
    return WIFEXITED(status) ? WEXITSTATUS(status) : 3;
}

static void try_faults(bool in_thread, bool all_after)
{
    char name[100];
    for (int i = 0; i < 200; i++) {
        int result = outcome(i, all_after ? 1 << 30 : i, in_thread);
        snprintf(name, sizeof name, "call %d%s fails%s", i, all_after ? " and all after it" : "", in_thread ? " in a thread" : "");
        check(result == 0 || result == 2, name);
        if (result == 2)
            return;
    }
    check(false, "200 calls");
}

/* Once a message was answered, asking again calls none of these functions, and doesn't wait for a thread that has the
 * lock. */
static void count_calls(void)
{
    bool right;
    ask(&right);
    int before = calls;
    alarm(60);
    lock = number + 1;
    right = right && all_right(true);
    lock = 0;
    check(right && calls == before, "no call and no lock for what was loaded");
}

/* Whether the system refuses to write the bytes. */
static bool is_read_only(int zeros, const void *at, size_t len)
{
    return read(zeros, (void *)(uintptr_t)at, 1) < 0 && errno == EFAULT &&
           read(zeros, (char *)(uintptr_t)at + len - 1, 1) < 0 && errno == EFAULT;
}

/* The catalogues and their bytes are in pages that nobody can write to: also those of a file that was expanded, and
 * of one that was put in order. */
static void try_to_write(void)
{
    int zeros = open("/dev/zero", O_RDONLY), count = 0;
    bool right = zeros >= 0;
    for (size_t i = 0; i < BUCKETS; i++)
        for (const struct file *it = files[i]; it != NULL; it = it->next)
            if (it->catalog != NULL) {
                right = right && is_read_only(zeros, it->catalog, sizeof *it->catalog) &&
                        is_read_only(zeros, it->catalog->bytes.ptr, it->catalog->bytes.len);
                count++;
            }
    close(zeros);
    check(right && count == 4, "what was read can't be written to");
}

static void write_system(void)
{
    struct mo_file file = {.len = sizeof system_words + sizeof system_strings};
    for (size_t i = 0; i < sizeof system_words / 4; i++)
        put_word(&file, 4 * i, system_words[i]);
    memcpy(file.bytes + sizeof system_words, system_strings, sizeof system_strings);
    write_messages(folder, "de/LC_MESSAGES/system.mo", file);
}

int main(int argc, char **argv)
{
    if (argc != 3)
        return 2;
    folder = argv[1];
    write_messages(folder, "de/LC_MESSAGES/app.mo", FILE_OF(german));
    write_messages(folder, "de/LC_MESSAGES/latin.mo", FILE_OF(latin));
    write_messages(folder, "de/LC_MESSAGES/unsorted.mo", FILE_OF(unsorted));
    write_system();
    setenv("LANGUAGE", "de", 1);
    if (setlocale(LC_ALL, argv[2]) == NULL) {
        printf("skipped  failing calls (the machine has no locale %s)\n", argv[2]);
        return counts();
    }
    fflush(stdout);
    for (int i = 0; i < 4; i++)
        try_faults(i % 2 == 1, i / 2 == 1);
    count_calls();
    try_to_write();
    return counts();
}
