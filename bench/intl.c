/* How long a message takes through the drop-in for libintl and through glibc, both in this process. Run it by
 * bench/lookup; it prints times of the processor in nanoseconds for a call, of all threads together divided by the
 * calls.
 *
 *     intl FOLDER LIBRARY
 *
 * takes FOLDER/xx/LC_MESSAGES/bench.mo, which bench/lookup.c has written, and loads LIBRARY, libpokit_intl.so. Each round
 * is a child, in which the two take turns; of the rounds the one is shown that a quarter stay below. */
#define _GNU_SOURCE
#include <dlfcn.h>
#include <fcntl.h>
#include <libintl.h>
#include <locale.h>
#include <pokit.h>
#include <pthread.h>
#include <stdio.h>
#include <stdlib.h>
#include <sys/mman.h>
#include <sys/stat.h>
#include <sys/wait.h>
#include <time.h>
#include <unistd.h>

enum { ROUNDS = 15, MOST_MESSAGES = 20000, MOST_THREADS = 4 };

typedef char *look_up(const char *domain, const char *msgid, const char *plural, unsigned long count, int category);
typedef char *look_up_one(const char *domain, const char *msgid, int category);
typedef char *bind(const char *domain, const char *folder);

static struct {
    look_up *plural;
    look_up_one *one;
    bind *folder, *codeset;
} who[2];

static const char *ids[MOST_MESSAGES], *absent[MOST_MESSAGES];
static uint32_t messages;
static volatile char sink;

struct run {
    int by, with_plural;
    const char **asked;
    double time;
};

static double now(void)
{
    struct timespec t;
    clock_gettime(CLOCK_THREAD_CPUTIME_ID, &t);
    return (double)t.tv_sec * 1e9 + (double)t.tv_nsec;
}

static void *ask_all(void *argument)
{
    struct run *run = argument;
    double start = now();
    for (uint32_t i = 0; i < messages; i++) {
        uint32_t k = (uint32_t)((uint64_t)i * 7919 % messages);
        sink = *(run->with_plural ? who[run->by].plural("bench", run->asked[k], "plural", k, LC_MESSAGES)
                                  : who[run->by].one("bench", run->asked[k], LC_MESSAGES));
    }
    run->time = (now() - start) / messages;
    return NULL;
}

static double in_threads(int threads, int by, const char **asked, int with_plural)
{
    struct run runs[MOST_THREADS];
    pthread_t made[MOST_THREADS];
    double sum = 0;
    for (int i = 0; i < threads; i++)
        runs[i] = (struct run){by, with_plural, asked, 0};
    for (int i = 1; i < threads; i++)
        pthread_create(&made[i], NULL, ask_all, &runs[i]);
    ask_all(&runs[0]);
    for (int i = 1; i < threads; i++)
        pthread_join(made[i], NULL);
    for (int i = 0; i < threads; i++)
        sum += runs[i].time;
    return sum / threads;
}

static int by_number(const void *a, const void *b)
{
    double x = *(const double *)a, y = *(const double *)b;
    return (x > y) - (x < y);
}

static double quarter(double *times)
{
    qsort(times, ROUNDS, sizeof *times, by_number);
    return times[ROUNDS / 4];
}

/* A round, in a child: how long the first call takes, then the first of each message, then each again. */
static void measure(double (*times)[2][3][ROUNDS], int round, const char **asked, int with_plural, int threads)
{
    pid_t child = fork();
    if (child != 0) {
        waitpid(child, NULL, 0);
        return;
    }
    for (int turn = 0; turn < 2; turn++) {
        int by = (turn + round) % 2;
        double start = now();
        sink = *who[by].one("bench", "", LC_MESSAGES);
        (*times)[by][0][round] = now() - start;
        (*times)[by][1][round] = in_threads(threads, by, asked, with_plural);
        (*times)[by][2][round] = in_threads(threads, by, asked, with_plural);
    }
    _exit(0);
}

static void row(const char *name, const char **asked, int with_plural, int threads)
{
    double(*times)[2][3][ROUNDS] = mmap(NULL, sizeof *times, PROT_READ | PROT_WRITE, MAP_SHARED | MAP_ANONYMOUS, -1, 0);
    if (times == MAP_FAILED)
        exit(1);
    fflush(stdout);
    for (int round = 0; round < ROUNDS; round++)
        measure(times, round, asked, with_plural, threads);
    printf("%-24s %8d", name, threads);
    for (int kind = 1; kind < 3; kind++)
        printf(" %10.0f %8.0f", quarter((*times)[0][kind]), quarter((*times)[1][kind]));
    printf(" %10.0f %8.0f\n", quarter((*times)[0][0]) / 1000, quarter((*times)[1][0]) / 1000);
    munmap(times, sizeof *times);
}

/* A run of `ls --help` in German, in milliseconds. */
static double start_ls(const char *preload)
{
    struct timespec from, to;
    clock_gettime(CLOCK_MONOTONIC, &from);
    pid_t child = fork();
    if (child == 0) {
        int null = open("/dev/null", O_WRONLY);
        dup2(null, 1);
        setenv("LANGUAGE", "de", 1);
        if (preload != NULL)
            setenv("LD_PRELOAD", preload, 1);
        execlp("ls", "ls", "--help", (char *)NULL);
        _exit(127);
    }
    waitpid(child, NULL, 0);
    clock_gettime(CLOCK_MONOTONIC, &to);
    return (double)(to.tv_sec - from.tv_sec) * 1e3 + (double)(to.tv_nsec - from.tv_nsec) / 1e6;
}

static void start_row(const char *library)
{
    double times[2][ROUNDS];
    for (int round = 0; round < ROUNDS; round++)
        for (int turn = 0; turn < 2; turn++) {
            int by = (turn + round) % 2;
            times[by][round] = 1e9;
            for (int i = 0; i < 20; i++) {
                double time = start_ls(by == 0 ? library : NULL);
                times[by][round] = time < times[by][round] ? time : times[by][round];
            }
        }
    printf("a run of ls --help, milliseconds: with the drop-in %.2f, without %.2f\n", quarter(times[0]), quarter(times[1]));
}

static void read_ids(const char *folder)
{
    char path[4096];
    uint32_t w[3];
    struct stat info;
    snprintf(path, sizeof path, "%s/xx/LC_MESSAGES/bench.mo", folder);
    FILE *in = fopen(path, "rb");
    if (in == NULL || stat(path, &info) != 0)
        exit(1);
    char *bytes = malloc((size_t)info.st_size);
    if (bytes == NULL || fread(bytes, 1, (size_t)info.st_size, in) != (size_t)info.st_size)
        exit(1);
    fclose(in);
    memcpy(w, bytes + 8, sizeof w);
    for (uint32_t i = 1; i < w[0] && messages < MOST_MESSAGES; i++) {
        uint32_t at;
        memcpy(&at, bytes + w[1] + 8 * (size_t)i + 4, 4);
        char *other = malloc(strlen(bytes + at) + 2);
        ids[messages] = bytes + at;
        absent[messages++] = strcat(strcpy(other, bytes + at), "!");
    }
}

int main(int argc, char **argv)
{
    if (argc != 3)
        return 2;
    void *library = dlopen(argv[2], RTLD_NOW | RTLD_LOCAL);
    if (library == NULL)
        return 1;
    who[0].plural = (look_up *)dlsym(library, "dcngettext");
    who[0].one = (look_up_one *)dlsym(library, "dcgettext");
    who[0].folder = (bind *)dlsym(library, "bindtextdomain");
    who[0].codeset = (bind *)dlsym(library, "bind_textdomain_codeset");
    who[1].plural = dcngettext;
    who[1].one = dcgettext;
    who[1].folder = bindtextdomain;
    who[1].codeset = bind_textdomain_codeset;
    setenv("LANGUAGE", "xx", 1);
    if (setlocale(LC_ALL, "C.UTF-8") == NULL)
        return 1;
    read_ids(argv[1]);
    for (int by = 0; by < 2; by++) {
        who[by].folder("bench", argv[1]);
        who[by].codeset("bench", "UTF-8");
    }
    printf("\n%-24s %8s %10s %8s %10s %8s %10s %8s\n", "the drop-in for libintl", "threads", "first", "glibc", "again", "glibc",
           "opening", "glibc");
    for (int threads = 1; threads <= MOST_THREADS; threads *= 4) {
        row("present", ids, 0, threads);
        row("absent", absent, 0, threads);
        row("present, plural", ids, 1, threads);
    }
    puts("nanoseconds, but for opening, which is the first call of all: microseconds");
    start_row(argv[2]);
    return 0;
}
