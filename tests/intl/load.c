/* Threads that ask while others rebind, tell of changes and fork: each answer is one that some setting has.
 *
 *     load FOLDER ROUNDS
 */
#define _GNU_SOURCE
#include "catalogues.h"
#include <libintl.h>
#include <locale.h>
#include <pthread.h>
#include <stdatomic.h>
#include <sys/wait.h>
#include <unistd.h>

enum { ASKING = 4, SMALL = 1 << 14 };

static const struct message a[] = {HEADER("UTF-8", GERMAN), MESSAGE("Open", "A: Öffnen"), MESSAGE("file\0files", "A\0AA")};
static const struct message b[] = {HEADER("UTF-8", GERMAN), MESSAGE("Open", "B: Öffnen"), MESSAGE("file\0files", "B\0BB")};
static const struct message latin[] = {HEADER("ISO-8859-1", GERMAN), MESSAGE("One", "\344"), MESSAGE("Open", "\326ffnen")};
static const char *folder_a, *folder_b;
static atomic_bool is_over;
static atomic_int wrong;

static bool is_one_of(const char *text, const char *first, const char *second)
{
    return strcmp(text, first) == 0 || strcmp(text, second) == 0;
}

static void ask(void)
{
    if (!is_one_of(gettext("Open"), "A: Öffnen", "B: Öffnen") || !is_one_of(ngettext("file", "files", 2), "AA", "BB") ||
        strcmp(gettext("absent"), "absent") != 0 || strcmp(dgettext("latin", "Open"), "Öffnen") != 0 ||
        strcmp(dgettext("latin", "One"), "ä") != 0 || strcmp(dgettext("nowhere", "Open"), "Open") != 0)
        wrong++;
}

static void *ask_always(void *unused)
{
    while (!is_over)
        ask();
    return unused;
}

static void *ask_once(void *unused)
{
    ask();
    return unused;
}

static void *rebind_always(void *unused)
{
    extern int _nl_msg_cat_cntr;
    for (int i = 0; !is_over; i++) {
        const char *folder = i % 2 == 0 ? folder_b : folder_a;
        if (strcmp(bindtextdomain("app", folder), folder) != 0)
            wrong++;
        if (i % 16 == 0)
            __atomic_fetch_add(&_nl_msg_cat_cntr, 1, __ATOMIC_RELAXED);
        if (i % 64 == 0)
            textdomain("app");
    }
    return unused;
}

static void fork_once(void)
{
    int status = 1;
    pid_t child = fork();
    if (child == 0) {
        alarm(60);
        ask();
        if (dgettext("first", "Open") == NULL || bindtextdomain("first", folder_a) == NULL)
            wrong++;
        ask();
        _exit(wrong != 0);
    }
    if (waitpid(child, &status, 0) != child || status != 0)
        wrong++;
}

/* A child that a thread of a small stack has forked stays on that stack. */
static void *fork_in_small_thread(void *unused)
{
    fork_once();
    return unused;
}

static void ask_in_children_of_small_threads(void)
{
#ifdef __SANITIZE_THREAD__
    puts("skipped  children of small threads (the thread sanitizer allows no thread there)");
    (void)fork_in_small_thread;
#else
    pthread_t thread;
    pthread_attr_t attributes;
    pthread_attr_init(&attributes);
    pthread_attr_setstacksize(&attributes, SMALL);
    if (pthread_create(&thread, &attributes, fork_in_small_thread, NULL) != 0)
        exit(2);
    pthread_join(thread, NULL);
    check(wrong == 0, "first calls in a child that a thread of 16 KB forked");
#endif
}

/* The first call of all is made in threads of small stacks, some at a time. */
static void ask_in_small_threads(void)
{
    pthread_t threads[8];
    pthread_attr_t attributes;
    pthread_attr_init(&attributes);
    for (size_t i = 0; i < 8; i++) {
        pthread_attr_setstacksize(&attributes, SMALL << i % 3);
        if (pthread_create(&threads[i], &attributes, ask_once, NULL) != 0)
            exit(2);
    }
    for (size_t i = 0; i < 8; i++)
        pthread_join(threads[i], NULL);
    check(wrong == 0, "first calls in threads of 16 to 64 KB");
}

static void ask_under_load(int rounds)
{
    pthread_t asking[ASKING], rebinding;
    for (size_t i = 0; i < ASKING; i++)
        pthread_create(&asking[i], NULL, ask_always, NULL);
    pthread_create(&rebinding, NULL, rebind_always, NULL);
    for (int i = 0; i < rounds; i++) {
        fork_once();
        ask();
    }
    is_over = true;
    pthread_join(rebinding, NULL);
    for (size_t i = 0; i < ASKING; i++)
        pthread_join(asking[i], NULL);
    check(wrong == 0, "threads that ask, rebind and fork");
}

int main(int argc, char **argv)
{
    char names[2][4096];
    if (argc != 3)
        return 2;
    snprintf(names[0], sizeof names[0], "%s/A", argv[1]);
    snprintf(names[1], sizeof names[1], "%s/B", argv[1]);
    folder_a = names[0];
    folder_b = names[1];
    write_messages(folder_a, "de/LC_MESSAGES/app.mo", FILE_OF(a));
    write_messages(folder_b, "de/LC_MESSAGES/app.mo", FILE_OF(b));
    write_messages(folder_a, "de/LC_MESSAGES/latin.mo", FILE_OF(latin));
    setenv("LANGUAGE", "xx:de", 1);
    if (setlocale(LC_ALL, "C.UTF-8") == NULL) {
        puts("skipped  threads (the machine has no locale C.UTF-8)");
        return counts();
    }
    bindtextdomain("app", folder_a);
    bindtextdomain("latin", folder_a);
    textdomain("app");
    ask_in_children_of_small_threads();
    ask_in_small_threads();
    ask_under_load(atoi(argv[2]));
    return counts();
}
