/* How long a look-up takes: pokit's, glibc's, and that of a plain C search by the same rules, on one file of 10,000
 * messages. Run it by bench/lookup; it prints times of the processor, in nanoseconds for a look-up and in microseconds for
 * opening, each the one that a tenth of the rounds stay below, since other programs on the machine disturb the rest.
 *
 *     lookup FOLDER
 *
 * writes FOLDER/xx/LC_MESSAGES/bench.mo and asks every message of it in an order of no regularity. */
#define _GNU_SOURCE
#include <libintl.h>
#include <locale.h>
#include <pokit.h>
#include <stdio.h>
#include <stdlib.h>
#include <sys/stat.h>
#include <time.h>

enum { MESSAGES = 10000, ROUNDS = 41 };

static const char header[] = "Content-Type: text/plain; charset=UTF-8\n"
                             "Plural-Forms: nplurals=3; plural=n%10==1 && n%100!=11 ? 0 : n%10>=2 && n%10<=4 && "
                             "(n%100<10 || n%100>=20) ? 1 : 2;\n";

static char *ids[MESSAGES], *absent[MESSAGES], *plurals[MESSAGES];
static pokit_catalog catalog;
static uint8_t *file;
static size_t file_len;

/* The plain C search: the rules of pokit, with no proof. */
struct plain {
    const uint8_t *bytes;
    size_t len;
    uint32_t count, originals, translations;
    int swap;
};

static uint32_t word(const struct plain *p, size_t at)
{
    uint32_t w;
    memcpy(&w, p->bytes + at, 4);
    return p->swap ? __builtin_bswap32(w) : w;
}

static const char *text_at(const struct plain *p, uint32_t table, uint32_t i)
{
    return (const char *)p->bytes + word(p, table + 8 * (size_t)i + 4);
}

static int plain_open(struct plain *p, const uint8_t *bytes, size_t len)
{
    uint32_t magic, i;
    p->bytes = bytes;
    p->len = len;
    if (len < 28)
        return 1;
    memcpy(&magic, bytes, 4);
    if (magic != 0x950412de && magic != 0xde120495)
        return 2;
    p->swap = magic == 0xde120495;
    if (word(p, 4) >> 16 > 1)
        return 3;
    p->count = word(p, 8);
    p->originals = word(p, 12);
    p->translations = word(p, 16);
    if (p->originals + 8 * (uint64_t)p->count > len || p->translations + 8 * (uint64_t)p->count > len)
        return 4;
    for (i = 0; i < 2 * p->count; i++) {
        size_t entry = (i & 1 ? p->translations : p->originals) + 8 * (size_t)(i / 2);
        uint64_t end = (uint64_t)word(p, entry) + word(p, entry + 4);
        if (end >= len || bytes[end] != 0)
            return 5;
    }
    for (i = 0; i + 1 < p->count; i++)
        if (strcmp(text_at(p, p->originals, i), text_at(p, p->originals, i + 1)) >= 0)
            return 7;
    return 0;
}

static int has_separator(const char *text, size_t len)
{
    return memchr(text, 4, len) != NULL;
}

static uint64_t plain_value(const pokit_catalog *of, uint64_t n)
{
    uint64_t values[4096], *top = values, right;
    const pokit_instruction *it = of->instructions, *end = it + of->instruction_count;
    for (; it < end; it++) {
        switch (it->kind) {
        case 0: *top++ = n; continue;
        case 1: *top++ = it->number; continue;
        case 2: *top++ = (uint64_t)it->number << 32 | it[1].number; it++; continue;
        case 3: top[-1] = !top[-1]; continue;
        case 5:
            if ((top[-1] != 0) == (it->operation == 0)) {
                top[-1] = it->operation == 0;
                it += it->count;
            }
            continue;
        case 6: it += *--top ? 0 : it->count; continue;
        case 7: it += it->count; continue;
        }
        right = *--top;
        switch (it->operation) {
        case 0: case 1: top[-1] = right != 0; break;
        case 2: top[-1] = top[-1] == right; break;
        case 3: top[-1] = top[-1] != right; break;
        case 4: top[-1] = top[-1] < right; break;
        case 5: top[-1] = top[-1] > right; break;
        case 6: top[-1] = top[-1] <= right; break;
        case 7: top[-1] = top[-1] >= right; break;
        case 8: top[-1] += right; break;
        case 9: top[-1] -= right; break;
        case 10: top[-1] *= right; break;
        case 11: if (right == 0) return 0; top[-1] /= right; break;
        default: if (right == 0) return 0; top[-1] %= right;
        }
    }
    return top[-1];
}

static const char *plain_look(const struct plain *p, const char *id, const char *plural, uint64_t n)
{
    uint32_t low = 0, high = p->count;
    if (has_separator(id, strlen(id)))
        return id;
    while (low < high) {
        uint32_t middle = low + (high - low) / 2;
        int order = strcmp(text_at(p, p->originals, middle), id);
        if (order == 0) {
            const char *text = text_at(p, p->translations, middle);
            const char *end = text + word(p, p->translations + 8 * (size_t)middle);
            uint64_t form = plural ? plain_value(&catalog, n) : 0;
            const char *at = text;
            if (form >= catalog.nplurals)
                form = 0;
            while (form-- > 0) {
                at += strlen(at) + 1;
                if (at > end)
                    return text;
            }
            return at;
        }
        if (order < 0)
            low = middle + 1;
        else
            high = middle;
    }
    return plural && n != 1 ? plural : id;
}

/* A file of messages, whose msgids have words in common, as those of a program have. */
static int by_key(const void *a, const void *b)
{
    return strcmp(*(char *const *)a, *(char *const *)b);
}

static void put_word(uint8_t **at, uint32_t w)
{
    memcpy(*at, &w, 4);
    *at += 4;
}

static void make_file(void)
{
    static const char *const verbs[] = {"Open", "Cannot read", "Save", "Delete", "The option", "Error while moving", "Print", "Select"};
    static const char *const nouns[] = {"file", "folder", "the selected layer", "device", "palette", "image", "window", "brush"};
    uint32_t count = MESSAGES + 1, i, at;
    uint8_t *out;
    for (i = 0; i < MESSAGES; i++) {
        unsigned mixed = i * 2654435761u >> 7;
        asprintf(&ids[i], "%s %s %u of %u", verbs[i % 8], nouns[i / 8 % 8], i / 64, mixed % 1000);
    }
    qsort(ids, MESSAGES, sizeof *ids, by_key);
    for (i = 0; i < MESSAGES; i++) {
        asprintf(&absent[i], "%s!", ids[i]);
        asprintf(&plurals[i], "%ss", ids[i]);
    }
    file = malloc(4 << 20);
    out = file;
    put_word(&out, 0x950412de);
    put_word(&out, 0);
    put_word(&out, count);
    put_word(&out, 28);
    put_word(&out, 28 + 8 * count);
    put_word(&out, 0);
    put_word(&out, 28 + 16 * count);
    at = 28 + 16 * count;
    for (i = 0; i < 2 * count; i++) {
        const char *id = i % count ? ids[i % count - 1] : "";
        uint32_t len = (uint32_t)(i < count ? (i ? 2 * strlen(id) + 2 : 0) : (i % count ? 3 * strlen(id) + 11 : strlen(header)));
        put_word(&out, len);
        put_word(&out, at);
        at += len + 1;
    }
    for (i = 0; i < count; i++)
        out += i ? sprintf((char *)out, "%s%c%ss", ids[i - 1], 0, ids[i - 1]) + 1 : sprintf((char *)out, "%s", "") + 1;
    for (i = 0; i < count; i++) {
        const char *id = i ? ids[i - 1] : "";
        out += i ? sprintf((char *)out, "xx %s%cyy %s%czz %s", id, 0, id, 0, id) + 1 : sprintf((char *)out, "%s", header) + 1;
    }
    file_len = (size_t)(out - file);
}

static double now(void)
{
    struct timespec t;
    clock_gettime(CLOCK_THREAD_CPUTIME_ID, &t);
    return (double)t.tv_sec * 1e9 + (double)t.tv_nsec;
}

static int by_number(const void *a, const void *b)
{
    double x = *(const double *)a, y = *(const double *)b;
    return (x > y) - (x < y);
}

static struct plain plain;
static volatile char sink;

/* What is timed: 0 pokit, 1 plain C, 2 glibc; with messages that are there or not, with a plural or without. The first byte
 * of each answer is read, as a program does that shows it: the text has to come from memory in any case. */
static double look_all(int who, char **asked, int with_plural)
{
    double start = now();
    for (uint32_t i = 0; i < MESSAGES; i++) {
        uint32_t k = (uint32_t)((uint64_t)i * 7919 % MESSAGES);
        const char *id = asked[k];
        if (who == 0)
            sink = *(with_plural ? pokit_ngettext(&catalog, id, plurals[k], k) : pokit_gettext(&catalog, id));
        else if (who == 1)
            sink = *plain_look(&plain, id, with_plural ? plurals[k] : NULL, k);
        else
            sink = *(with_plural ? dcngettext("bench", id, plurals[k], k, LC_MESSAGES) : dcgettext("bench", id, LC_MESSAGES));
    }
    return (now() - start) / MESSAGES;
}

static double lowest_tenth(double *times, int count)
{
    qsort(times, (size_t)count, sizeof *times, by_number);
    return times[count / 10];
}

static void row(const char *name, char **asked, int with_plural)
{
    double times[3][ROUNDS], first = 0;
    for (int round = 0; round < ROUNDS; round++)
        for (int who = 0; who < 3; who++) {
            times[who][round] = look_all(who, asked, with_plural);
            if (who == 2 && round == 0)
                first = times[who][round];
        }
    printf("%-24s %8.0f %8.0f %8.0f %8.0f\n", name, lowest_tenth(times[0], ROUNDS), lowest_tenth(times[1], ROUNDS), first, lowest_tenth(times[2], ROUNDS));
}

int main(int argc, char **argv)
{
    char path[4096];
    double times[2][ROUNDS];
    if (argc != 2)
        return 2;
    make_file();
    snprintf(path, sizeof path, "%s/xx", argv[1]);
    mkdir(path, 0777);
    snprintf(path, sizeof path, "%s/xx/LC_MESSAGES", argv[1]);
    mkdir(path, 0777);
    snprintf(path, sizeof path, "%s/xx/LC_MESSAGES/bench.mo", argv[1]);
    FILE *out = fopen(path, "wb");
    if (out == NULL || fwrite(file, 1, file_len, out) != file_len || fclose(out) != 0)
        return 1;
    for (int round = 0; round < ROUNDS; round++) {
        double start = now();
        if (pokit_open(&catalog, file, file_len, NULL) != POKIT_OK)
            return 1;
        times[0][round] = now() - start;
        start = now();
        if (plain_open(&plain, file, file_len) != 0)
            return 1;
        times[1][round] = now() - start;
    }
    setenv("LANGUAGE", "xx", 1);
    if (setlocale(LC_ALL, "C.UTF-8") == NULL)
        fprintf(stderr, "lookup: no locale C.UTF-8: glibc's column is no look-up\n");
    bindtextdomain("bench", argv[1]);
    bind_textdomain_codeset("bench", "UTF-8");
    for (uint32_t k = 0; k < MESSAGES; k++)
        if (strcmp(pokit_ngettext(&catalog, ids[k], plurals[k], k), plain_look(&plain, ids[k], plurals[k], k)) != 0) {
            fprintf(stderr, "lookup: pokit and the plain search differ on '%s'\n", ids[k]);
            return 1;
        }
    printf("%-24s %8s %8s %8s %8s\n", "nanoseconds", "pokit", "plain C", "glibc*", "glibc");
    row("present", ids, 0);
    row("absent", absent, 0);
    row("present, plural", ids, 1);
    row("absent, plural", absent, 1);
    printf("%-24s %8.0f %8.0f\n", "opening, microseconds", lowest_tenth(times[0], ROUNDS) / 1000, lowest_tenth(times[1], ROUNDS) / 1000);
    puts("* the first look-up of each message, before glibc has it in its cache");
    if (strcmp(dcngettext("bench", ids[7], plurals[7], 2, LC_MESSAGES), pokit_ngettext(&catalog, ids[7], plurals[7], 2)) != 0)
        puts("glibc didn't open the file: its columns are no look-ups");
    return 0;
}
