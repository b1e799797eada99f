/* Runs a trace of libintl's calls: see the file `trace`.
 *
 *     trace FOLDER FILE [glibc]
 *
 * writes the trace's catalogues below FOLDER and compares each answer with the one in FILE; with `glibc`, with glibc's
 * where the line has that too. Each call has to leave errno as it was, and to give the same pointer twice. */
#define _GNU_SOURCE
#include "catalogues.h"
#include <libintl.h>
#include <locale.h>
#include <unistd.h>

extern int _nl_msg_cat_cntr;

static const struct message german[] = {
    HEADER("UTF-8", GERMAN), MESSAGE("Close", "Schließen"),  MESSAGE("Open", "Öffnen"),
    MESSAGE("file\0files", "Datei\0Dateien"), MESSAGE("menu\004Open", "Auf"),
    MESSAGE("menu\004item\0items", "Punkt\0Punkte"), MESSAGE("same", "same"), MESSAGE("snowman", "☃ …")};
static const struct message austrian[] = {HEADER("UTF-8", GERMAN), MESSAGE("Open", "Aufmachen")};
static const struct message valencian[] = {HEADER("UTF-8", GERMAN), MESSAGE("Open", "Obri")};
static const struct message french[] = {HEADER("UTF-8", "nplurals=2; plural=n > 1"), MESSAGE("Open", "Ouvrir"),
                                        MESSAGE("Print", "Imprimer"), MESSAGE("file\0files", "fichier\0fichiers")};
static const struct message other[] = {HEADER("UTF-8", GERMAN), MESSAGE("Open", "Öffnen (B)")};
static const struct message time_of_day[] = {HEADER("UTF-8", GERMAN), MESSAGE("Open", "Ouvrir (LC_TIME)")};
static const struct message standard[] = {HEADER("UTF-8", GERMAN), MESSAGE("Open", "Öffnen (messages)")};
static const struct message english[] = {HEADER("UTF-8", GERMAN), MESSAGE("Open", "Open!")};
static const struct message latin[] = {HEADER("ISO-8859-1", GERMAN), MESSAGE("Open", "\326ffnen"),
                                       MESSAGE("file\0files", "St\374ck\0St\374cke")};
static const struct message template[] = {HEADER("CHARSET", GERMAN), MESSAGE("Open", "Vorlage")};
static const struct message headless[] = {MESSAGE("Open", "Ohne Kopf"), MESSAGE("file\0files", "eine\0viele")};
static const struct message euro[] = {HEADER("ISO-8859-15", GERMAN), MESSAGE("Price", "\244 \275uvre")};
static const struct message half[] = {HEADER("ISO-8859-1", GERMAN), MESSAGE("Half", "\275 \374ber")};
static const struct message bare[] = {HEADER("UTF-8", GERMAN), MESSAGE("Close", "Schließen"), MESSAGE("Price", "€ œuvre")};
static const struct message broken[] = {HEADER("UTF-8", GERMAN), MESSAGE("Open", "Schon \326ffnen"),
                                        MESSAGE("Read", "Lesen")};
static const struct message polish[] = {
    HEADER("UTF-8", "nplurals=3; plural=n==1 ? 0 : n%10>=2 && n%10<=4 && (n%100<10 || n%100>=20) ? 1 : 2"),
    MESSAGE("file\0files", "plik\0pliki\0plików")};

#define WRITE(name, messages) write_messages(folder, name, FILE_OF(messages))

#define CATEGORY(name) {#name, name}
static const struct {
    const char *name;
    int category;
} categories[] = {CATEGORY(LC_CTYPE), CATEGORY(LC_NUMERIC), CATEGORY(LC_TIME), CATEGORY(LC_COLLATE), CATEGORY(LC_MONETARY),
                  CATEGORY(LC_MESSAGES), CATEGORY(LC_PAPER), CATEGORY(LC_NAME), CATEGORY(LC_ADDRESS),
                  CATEGORY(LC_TELEPHONE), CATEGORY(LC_MEASUREMENT), CATEGORY(LC_IDENTIFICATION)};

/* A catalogue for each category, in which `Which` is the category's name and that of the language. */
static void write_categories(const char *folder)
{
    static const char *const languages[] = {"de", "fr"};
    for (size_t i = 0; i < 2 * sizeof categories / sizeof categories[0]; i++) {
        char name[100], text[100];
        const char *category = categories[i / 2].name, *language = languages[i % 2];
        struct message messages[] = {HEADER("UTF-8", GERMAN), MESSAGE("Which", "")};
        snprintf(name, sizeof name, "A/%s/%s/category.mo", language, category);
        messages[1].translation_len = (uint32_t)snprintf(text, sizeof text, "%s %s", category, language);
        messages[1].translation = text;
        write_messages(folder, name, FILE_OF(messages));
    }
}

static void write_catalogues(const char *folder)
{
    WRITE("A/de/LC_MESSAGES/app.mo", german);
    WRITE("A/de_AT/LC_MESSAGES/app.mo", austrian);
    WRITE("A/ca@valencia/LC_MESSAGES/app.mo", valencian);
    WRITE("A/fr/LC_MESSAGES/app.mo", french);
    WRITE("A/fr/LC_TIME/app.mo", time_of_day);
    WRITE("A/C/LC_MESSAGES/app.mo", english);
    WRITE("A/en/LC_MESSAGES/app.mo", english);
    WRITE("A/pl/LC_MESSAGES/app.mo", polish);
    WRITE("A/de/LC_MESSAGES/messages.mo", standard);
    WRITE("A/de/LC_MESSAGES/latin.mo", latin);
    WRITE("A/de/LC_MESSAGES/euro.mo", euro);
    WRITE("A/de/LC_MESSAGES/half.mo", half);
    WRITE("A/de/LC_MESSAGES/bare.mo", bare);
    WRITE("A/de/LC_MESSAGES/template.mo", template);
    WRITE("A/de/LC_MESSAGES/headless.mo", headless);
    WRITE("A/de/LC_MESSAGES/broken.mo", broken);
    WRITE("B/de/LC_MESSAGES/app.mo", other);
    WRITE("relative/locale/de/LC_MESSAGES/app.mo", other);
    WRITE("relative/locale/fr/LC_MESSAGES/app.mo", french);
    write_categories(folder);
}

static int category_of(const char *name)
{
    for (size_t i = 0; i < sizeof categories / sizeof categories[0]; i++)
        if (strcmp(categories[i].name, name) == 0)
            return categories[i].category;
    return strcmp(name, "LC_ALL") == 0 ? LC_ALL : 77;
}

/* The byte that two hexadecimal digits after a backslash stand for. */
static char byte_of(const char *digits)
{
    const char two[] = {digits[0], digits[1], 0};
    return (char)strtoul(two, NULL, 16);
}

/* A word of a line: `-` is NULL, `""` is empty, `@` stands for the folder, `~` for a blank, `^` for EOT and `\d6` for
 * the byte of that number. */
static char *word_of(const char *folder, const char *word)
{
    static char rooms[8][4096];
    static int used;
    char *to = rooms[used++ % 8], *at = to;
    if (strcmp(word, "-") == 0)
        return NULL;
    if (strcmp(word, "\"\"") == 0)
        word = "";
    for (; *word != 0; word++)
        if (*word == '@' && at == to)
            at += sprintf(at, "%s", folder);
        else if (*word == '\\' && word[1] != 0 && word[2] != 0)
            *at++ = byte_of(word + 1), word += 2;
        else
            *at++ = *word == '~' ? ' ' : *word == '^' ? '\004' : *word;
    *at = 0;
    return to;
}

/* Sets the locale of the thread, or the program's again. Each one is kept, since texts of it may still be in use. */
static bool use_locale(const char *name)
{
    static locale_t made[100];
    static int used;
    if (name == NULL || used == 100)
        return uselocale(LC_GLOBAL_LOCALE) != 0;
    made[used] = newlocale(LC_ALL_MASK, name, NULL);
    return uselocale(made[used++]) != 0;
}

static const char *setting(const char *call, char **w)
{
    if (strcmp(call, "textdomain") == 0)
        return textdomain(w[1]);
    if (strcmp(call, "bindtextdomain") == 0)
        return bindtextdomain(w[1], w[2]);
    if (strcmp(call, "codeset") == 0)
        return bind_textdomain_codeset(w[1], w[2]);
    if (strcmp(call, "setlocale") == 0)
        return setlocale(category_of(w[1]), w[2]);
    if (strcmp(call, "uselocale") == 0)
        return use_locale(w[1]) ? "set" : NULL;
    if (strcmp(call, "setenv") == 0)
        return (w[2] != NULL ? setenv(w[1], w[2], 1) : unsetenv(w[1])) == 0 ? "set" : NULL;
    if (strcmp(call, "chdir") == 0)
        return chdir(w[1]) == 0 ? "set" : NULL;
    _nl_msg_cat_cntr++;
    return "set";
}

static const char *asked(const char *call, char **w)
{
    if (strcmp(call, "gettext") == 0)
        return gettext(w[1]);
    if (strcmp(call, "dgettext") == 0)
        return dgettext(w[1], w[2]);
    if (strcmp(call, "dcgettext") == 0)
        return dcgettext(w[1], w[2], category_of(w[3]));
    if (strcmp(call, "ngettext") == 0)
        return ngettext(w[1], w[2], strtoul(w[3], NULL, 10));
    if (strcmp(call, "dngettext") == 0)
        return dngettext(w[1], w[2], w[3], strtoul(w[4], NULL, 10));
    if (strcmp(call, "dcngettext") == 0)
        return dcngettext(w[1], w[2], w[3], strtoul(w[4], NULL, 10), category_of(w[5]));
    return NULL;
}

/* Whether what a call answered is what stands after the arrow: `msgid` and `plural` are the pointers given. */
static bool is_answer(const char *got, const char *wanted, char **w, bool has_domain)
{
    if (wanted == NULL || got == NULL)
        return wanted == got;
    if (strcmp(wanted, "msgid") == 0)
        return got == w[1 + has_domain];
    if (strcmp(wanted, "plural") == 0)
        return got == w[2 + has_domain];
    return strcmp(got, wanted) == 0;
}

/* One line: CALL WORD.. -> ANSWER [| glibc: ANSWER]. Returns false at a locale that the machine lacks. */
static bool run_line(const char *folder, char *line, int number, bool glibc)
{
    char *arrow = strstr(line, " -> "), *other_answer = strstr(line, " | glibc: "), name[5000], *w[7] = {0}, *at;
    const char *got, *again;
    int n = 0;
    if (line[0] == '#' || arrow == NULL)
        return true;
    snprintf(name, sizeof name, "%d: %s", number, line);
    *arrow = 0;
    if (other_answer != NULL)
        *other_answer = 0;
    char *wanted = word_of(folder, other_answer != NULL && glibc ? other_answer + 10 : arrow + 4);
    for (at = strtok(line, " "); at != NULL && n < 6; at = strtok(NULL, " "))
        w[n++] = word_of(folder, at);
    errno = 7;
    got = asked(w[0], w);
    again = asked(w[0], w);
    bool kept = errno == 7 && got == again, has_domain = w[0][0] == 'd';
    if (strstr(w[0], "gettext") == NULL) {
        got = setting(w[0], w);
        kept = true;
        if (strcmp(w[0], "setlocale") == 0 && got == NULL && wanted != NULL)
            return false;
    }
    check(kept && is_answer(got, wanted, w, has_domain), name);
    if (!kept || !is_answer(got, wanted, w, has_domain))
        printf("         got %s\n", got != NULL ? got : "NULL");
    return true;
}

int main(int argc, char **argv)
{
    char line[4096];
    if (argc < 3)
        return 2;
    write_catalogues(argv[1]);
    FILE *in = fopen(argv[2], "r");
    if (in == NULL)
        return 2;
    for (int number = 1; fgets(line, sizeof line, in) != NULL; number++) {
        line[strcspn(line, "\n")] = 0;
        if (!run_line(argv[1], line, number, argc > 3)) {
            printf("skipped  the trace from line %d on (the machine lacks a locale)\n", number);
            break;
        }
    }
    fclose(in);
    return counts();
}
