/* What must not wait for ever: threads that load a library whose constructor asks for a message, while others ask or bind,
 * signal handlers and threads that fork while a message is looked for, and one that is cancelled then. Each case runs in
 * a child, which has a minute.
 *
 *     hangs FOLDER LIBRARY
 *
 * LIBRARY is made of plugin.c, and calls plugin_starts when it is loaded. A case says what happens there, or in `open`,
 * `mmap` or `iconv_open`, which the drop-in takes from this program. */
#define _GNU_SOURCE
#include "catalogues.h"
#include <dlfcn.h>
#include <fcntl.h>
#include <iconv.h>
#include <libintl.h>
#include <locale.h>
#include <pthread.h>
#include <semaphore.h>
#include <signal.h>
#include <stdarg.h>
#include <stdatomic.h>
#include <sys/mman.h>
#include <sys/syscall.h>
#include <sys/wait.h>
#include <unistd.h>

enum { SECONDS = 60 };

/* What a thread does, or what happens somewhere. */
typedef void *step(void *unused);

static const struct message german[] = {HEADER("UTF-8", GERMAN), MESSAGE("Open", "Öffnen")};
static const struct message latin[] = {HEADER("ISO-8859-1", GERMAN), MESSAGE("Open", "\326ffnen")};
static const char *folder, *library, *domain;
static step *at_start, *at_open, *at_mmap, *at_iconv_open;
static sem_t has_started, may_go_on;
static atomic_bool was_wrong;

static void expect(bool holds)
{
    was_wrong = was_wrong || !holds;
}

/* Does what a case wants somewhere, once. */
static void happen(step **what)
{
    step *now = *what;
    *what = NULL;
    if (now != NULL)
        now(NULL);
}

void plugin_starts(void)
{
    happen(&at_start);
}

int open(const char *path, int flags, ...)
{
    va_list arguments;
    va_start(arguments, flags);
    int mode = va_arg(arguments, int);
    va_end(arguments);
    if (strstr(path, ".mo") != NULL)
        happen(&at_open);
    return (int)syscall(SYS_openat, AT_FDCWD, path, flags, mode);
}

void *mmap(void *at, size_t len, int protection, int flags, int fd, off_t offset)
{
    happen(&at_mmap);
    return (void *)syscall(SYS_mmap, at, len, protection, flags, fd, offset);
}

iconv_t iconv_open(const char *to, const char *from)
{
    union {
        void *found;
        iconv_t (*call)(const char *, const char *);
    } next = {dlsym(RTLD_NEXT, "iconv_open")};
    happen(&at_iconv_open);
    return next.call(to, from);
}

static pthread_t in_thread(step *what)
{
    pthread_t thread;
    if (pthread_create(&thread, NULL, what, NULL) != 0)
        exit(2);
    return thread;
}

static void *ask(void *unused)
{
    expect(strcmp(dgettext(domain, "Open"), "Öffnen") == 0);
    return unused;
}

static void *rebind(void *unused)
{
    expect(strcmp(bindtextdomain("other", folder), folder) == 0 &&
           strcmp(bind_textdomain_codeset("other", "UTF-8"), "UTF-8") == 0 && strcmp(textdomain("other"), "other") == 0);
    return unused;
}

static void *load(void *unused)
{
    expect(dlopen(library, RTLD_NOW) != NULL);
    return unused;
}

static void *load_asking(void *unused)
{
    at_start = ask;
    pthread_join(in_thread(load), NULL);
    return unused;
}

/* What a constructor does when others have had the time to wait for the loader. */
static void *ask_later(void *unused)
{
    sem_post(&has_started);
    sem_wait(&may_go_on);
    usleep(200000);
    return ask(unused);
}

static void load_beside(step *other, bool in_first_thread)
{
    pthread_t threads[2];
    at_start = ask_later;
    threads[0] = in_thread(load);
    sem_wait(&has_started);
    sem_post(&may_go_on);
    if (in_first_thread) {
        other(NULL);
    } else {
        threads[1] = in_thread(other);
        pthread_join(threads[1], NULL);
    }
    pthread_join(threads[0], NULL);
}

static void *load_beside_the_first_asking(void *unused)
{
    load_beside(ask, true);
    return unused;
}

static void *load_beside_another_asking(void *unused)
{
    load_beside(ask, false);
    return unused;
}

static void *load_beside_another_binding(void *unused)
{
    load_beside(rebind, false);
    return unused;
}

static void *wait_for_asking(void *unused)
{
    pthread_join(in_thread(ask), NULL);
    return unused;
}

static void *wait_for_binding(void *unused)
{
    pthread_join(in_thread(rebind), NULL);
    return unused;
}

static void *load_waiting_for_asking(void *unused)
{
    at_start = wait_for_asking;
    return load(unused);
}

static void *load_waiting_for_binding(void *unused)
{
    at_start = wait_for_binding;
    return load(unused);
}

/* A handler: the child asks, and goes on with what was stopped, as the parent does, which waits for it. */
static void fork_and_ask(int signal)
{
    int status = signal;
    pid_t child = fork();
    if (child == 0) {
        alarm(SECONDS);
        expect(dgettext(domain, "Open") != NULL);
    } else {
        expect(waitpid(child, &status, 0) == child && status == 0);
    }
}

static void *raise_signal(void *unused)
{
    signal(SIGUSR1, fork_and_ask);
    raise(SIGUSR1);
    return unused;
}

static void *fork_while_asking(void *unused)
{
    at_open = raise_signal;
    ask(NULL);
    expect(at_open == NULL);
    return ask(unused);
}

static void *fork_while_binding(void *unused)
{
    static char name[1 << 17];
    memset(name, 'x', sizeof name - 1);
    at_mmap = raise_signal;
    expect(strcmp(bindtextdomain("other", name), name) == 0 && at_mmap == NULL);
    return ask(unused);
}

static void *fork_while_converting(void *unused)
{
    at_iconv_open = raise_signal;
    ask(NULL);
    expect(at_iconv_open == NULL);
    return ask(unused);
}

/* A thread that is to be cancelled ends after its calls, with the lock given back. */
static void *ask_cancelled(void *unused)
{
    pthread_cancel(pthread_self());
    ask(NULL);
    rebind(NULL);
    at_start = ask; /* tells that the calls have returned */
    pthread_testcancel();
    expect(false);
    return unused;
}

static void *ask_beside_a_cancelled_thread(void *unused)
{
    void *result = NULL;
    pthread_join(in_thread(ask_cancelled), &result);
    expect(result == PTHREAD_CANCELED && at_start == ask);
    rebind(NULL);
    return ask(unused);
}

static void *stop(void *unused)
{
    sem_post(&has_started);
    sem_wait(&may_go_on);
    return unused;
}

/* The child may leave the message as it is. */
static void *fork_beside_another_converting(void *unused)
{
    int status = 1;
    at_iconv_open = stop;
    pthread_t asking = in_thread(ask);
    sem_wait(&has_started);
    pid_t child = fork();
    if (child == 0) {
        alarm(SECONDS);
        const char *text = dgettext(domain, "Open");
        _exit(strcmp(text, "Open") != 0 && strcmp(text, "Öffnen") != 0);
    }
    expect(waitpid(child, &status, 0) == child && status == 0);
    sem_post(&may_go_on);
    pthread_join(asking, NULL);
    return ask(unused);
}

static void try(const char *name, step *what)
{
    char text[200];
    int status = 1;
    pid_t child = fork();
    if (child == 0) {
        alarm(SECONDS);
        what(NULL);
        _exit(was_wrong);
    }
    waitpid(child, &status, 0);
    snprintf(text, sizeof text, "%s (%s)%s", name, domain, WIFSIGNALED(status) ? ": it waits for ever" : "");
    check(status == 0, text);
    fflush(stdout);
}

static void try_all(const char *name, bool is_converted)
{
    domain = name;
    try("a thread loads a library that asks", load_asking);
    try("one thread loads a library that asks, the first one asks", load_beside_the_first_asking);
    try("one thread loads a library that asks, another one asks", load_beside_another_asking);
    try("one thread loads a library that asks, another one binds", load_beside_another_binding);
    try("a library waits for a thread that binds", load_waiting_for_binding);
    try("a signal handler forks while a message is looked for", fork_while_asking);
    try("a signal handler forks while a folder is bound", fork_while_binding);
    try("a thread that is to be cancelled asks", ask_beside_a_cancelled_thread);
    if (is_converted) {
        try("a signal handler forks while a message is converted", fork_while_converting);
        try("a thread forks while another one converts", fork_beside_another_converting);
    } else {
        /* (iconv_open waits for the loader there, with glibc's own functions too) */
        try("a library waits for a thread that asks", load_waiting_for_asking);
    }
}

int main(int argc, char **argv)
{
    if (argc != 3)
        return 2;
    folder = argv[1];
    library = argv[2];
    write_messages(folder, "de/LC_MESSAGES/app.mo", FILE_OF(german));
    write_messages(folder, "de/LC_MESSAGES/latin.mo", FILE_OF(latin));
    setenv("LANGUAGE", "de", 1);
    if (setlocale(LC_ALL, "C.UTF-8") == NULL) {
        puts("skipped  what must not wait (the machine has no locale C.UTF-8)");
        return counts();
    }
    sem_init(&has_started, 0, 0);
    sem_init(&may_go_on, 0, 0);
    bindtextdomain("app", folder);
    bindtextdomain("latin", folder);
    fflush(stdout);
    try_all("app", false);
    try_all("latin", true);
    return counts();
}
