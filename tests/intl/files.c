/* What stands in a catalogue's place, or becomes of it while it is in use. Each is tried in a child.
 *
 *     files FOLDER
 *
 * POKIT_INTL_LOG names FOLDER/log, which has to tell of each file that is refused or put in order by its path. */
#define _GNU_SOURCE
#include "catalogues.h"
#include <dlfcn.h>
#include <fcntl.h>
#include <libintl.h>
#include <locale.h>
#include <sys/wait.h>
#include <unistd.h>

static const struct message german[] = {HEADER("UTF-8", GERMAN), MESSAGE("Close", "Schließen"), MESSAGE("Open", "Öffnen")};
static const struct message changed[] = {HEADER("UTF-8", GERMAN), MESSAGE("Open", "Aufmachen")};
/* By their msgids, whatever their contexts, as Babel has them; and with one key twice. */
static const struct message out_of_order[] = {
    HEADER("UTF-8", GERMAN), MESSAGE("menu\004Close", "Zu"), MESSAGE("Close", "Schließen"), MESSAGE("menu\004Open", "Auf"),
    MESSAGE("Open", "Öffnen"), MESSAGE("file\0files", "eine\0mehr"),
};
static const struct message one_key_twice[] = {
    HEADER("UTF-8", GERMAN), MESSAGE("menu\004Close", "Zu"), MESSAGE("Open", "Öffnen"), MESSAGE("Open\0Open all", "Auf"),
};
static const char *folder, *path, *log_path;
static struct mo_file sound;

static bool answers(const char *wanted)
{
    return strcmp(dgettext("files", "Open"), wanted) == 0;
}

static void put(const char *at)
{
    write_file(at, sound.bytes, sound.len);
}

/* Each returns whether all was as it has to be. */
static bool is_sound(void)
{
    put(path);
    return answers("Öffnen");
}

static bool is_cut_while_in_use(void)
{
    put(path);
    bool right = answers("Öffnen") && truncate(path, 0) == 0;
    return right && answers("Öffnen") && strcmp(dgettext("files", "Close"), "Schließen") == 0;
}

static bool is_overwritten_while_in_use(void)
{
    put(path);
    bool right = answers("Öffnen");
    int fd = open(path, O_WRONLY);
    for (size_t i = 0; i < sound.len; i++)
        right = right && write(fd, "\377", 1) == 1;
    close(fd);
    return right && answers("Öffnen") && strcmp(dgettext("files", "Close"), "Schließen") == 0;
}

static bool is_renamed_over(void)
{
    struct mo_file other = FILE_OF(changed);
    put(path);
    bool right = answers("Öffnen");
    write_file(path, other.bytes, other.len);
    return right && answers("Öffnen");
}

static bool is_removed(void)
{
    put(path);
    return answers("Öffnen") && unlink(path) == 0 && answers("Öffnen");
}

static bool is_missing(void)
{
    return answers("Open");
}

static bool is_empty(void)
{
    write_file(path, "", 0);
    return answers("Open");
}

static bool is_cut(void)
{
    write_file(path, sound.bytes, sound.len / 2);
    return answers("Open");
}

static bool is_fifo(void)
{
    return mkfifo(path, 0666) == 0 && answers("Open");
}

static bool is_folder(void)
{
    return mkdir(path, 0777) == 0 && answers("Open");
}

static bool is_device(void)
{
    return symlink("/dev/zero", path) == 0 && answers("Open");
}

static bool is_terminal(void)
{
    return symlink("/dev/tty", path) == 0 && answers("Open");
}

static bool is_link_to_itself(void)
{
    return symlink(path, path) == 0 && answers("Open");
}

static bool is_link_to_a_file(void)
{
    char beside[4096];
    snprintf(beside, sizeof beside, "%s.target", path);
    put(beside);
    return symlink(beside, path) == 0 && answers("Öffnen");
}

/* 300 MB and 2 TB without a block. */
static bool is_huge(off_t size)
{
    put(path);
    return truncate(path, size) != 0 || answers("Open");
}

static bool is_large(void)
{
    return is_huge(300000000);
}

static bool is_enormous(void)
{
    return is_huge((off_t)2 << 40);
}

/* A file of some 4 MB, whose messages are "000000", "000001" .. with texts that say so. */
static bool has_many_messages(void)
{
    enum { COUNT = 65536, LEN = 32 };
    static uint8_t bytes[28 + COUNT * (16 + 8 + LEN)];
    const uint32_t words[] = {0x950412de, 0, COUNT, 28, 28 + 8 * COUNT, 0, 28};
    uint32_t at = 28 + 16 * COUNT;
    memcpy(bytes, words, sizeof words);
    for (uint32_t i = 0; i < COUNT; i++) {
        const uint32_t strings[2][2] = {{6, at}, {LEN - 1, at + 7}};
        memcpy(bytes + 28 + 8 * i, strings[0], 8);
        memcpy(bytes + 28 + 8 * (COUNT + i), strings[1], 8);
        at += (uint32_t)sprintf((char *)bytes + at, "%06u", i) + 1;
        at += (uint32_t)sprintf((char *)bytes + at, "the text of the message %07u", i) + 1;
    }
    write_file(path, bytes, at);
    return strcmp(dgettext("files", "000000"), "the text of the message 0000000") == 0 &&
           strcmp(dgettext("files", "065535"), "the text of the message 0065535") == 0 &&
           strcmp(dgettext("files", "065536"), "065536") == 0;
}

/* Bytes after the last string are no fault. */
static bool is_longer(void)
{
    put(path);
    return truncate(path, 1 << 20) == 0 && answers("Öffnen");
}

static bool has_no_descriptor(void)
{
    put(path);
    while (open("/dev/null", O_RDONLY) >= 0)
        ;
    bool right = answers("Open");
    close(5);
    return right && answers("Öffnen");
}

static bool has_long_names(void)
{
    static char name[70000];
    memset(name, 'x', sizeof name - 1);
    memcpy(name, folder, strlen(folder));
    bool right = strcmp(dgettext(name + 1, "Open"), "Open") == 0;
    bindtextdomain("files", name);
    right = right && answers("Open");
    bindtextdomain("files", folder);
    setenv("LANGUAGE", name + 60000, 1);
    textdomain("files");
    right = right && answers("Open");
    memcpy(name + 60000, "xx:de:", 6);
    name[60300] = 0;
    setenv("LANGUAGE", name + 60000, 1);
    put(path);
    textdomain("files");
    return right && answers("Öffnen");
}

/* A line is added to what the log has. */
static bool is_added_to_the_log(void)
{
    char line[5000];
    write_file(log_path, "before\n", 7);
    write_file(path, "", 0);
    bool right = answers("Open");
    FILE *in = fopen(log_path, "r");
    right = right && in != NULL && fgets(line, sizeof line, in) != NULL && strcmp(line, "before\n") == 0;
    right = right && fgets(line, sizeof line, in) != NULL && strncmp(line, path, strlen(path)) == 0;
    return right && fgets(line, sizeof line, in) == NULL;
}

/* libc's own function of a setting, which is asked past the drop-in. */
static void *of_libc(const char *name)
{
    void *libc = dlopen("libc.so.6", RTLD_LAZY | RTLD_NOLOAD);
    return libc != NULL ? dlsym(libc, name) : NULL;
}

static bool is_told(const char *function, const char *domain, const char *wanted)
{
    union {
        void *found;
        char *(*of_two)(const char *, const char *);
        char *(*of_one)(const char *);
    } of = {of_libc(function)};
    const char *got = of.found == NULL ? NULL : domain != NULL ? of.of_two(domain, NULL) : of.of_one(NULL);
    return got != NULL && strcmp(got, wanted) == 0;
}

/* What is set is passed on to libc, for what asks it from inside. */
static bool is_passed_on(void)
{
    bool right = strcmp(bindtextdomain("passed", folder), folder) == 0;
    right = right && strcmp(bind_textdomain_codeset("passed", "ISO-8859-15"), "ISO-8859-15") == 0;
    right = right && strcmp(textdomain("passed"), "passed") == 0;
    return right && is_told("bindtextdomain", "passed", folder) &&
           is_told("bind_textdomain_codeset", "passed", "ISO-8859-15") && is_told("textdomain", NULL, "passed");
}

static bool is_out_of_order(void)
{
    struct mo_file file = FILE_OF(out_of_order);
    write_file(path, file.bytes, file.len);
    const char *text = dgettext("files", "Open");
    return answers("Öffnen") && dgettext("files", "Open") == text && strcmp(dgettext("files", "menu\004Open"), "Auf") == 0 &&
           strcmp(dgettext("files", "Close"), "Schließen") == 0 && strcmp(dgettext("files", "menu\004Close"), "Zu") == 0 &&
           strcmp(dngettext("files", "file", "files", 1), "eine") == 0 && strcmp(dngettext("files", "file", "files", 5), "mehr") == 0 &&
           strcmp(dgettext("files", "absent"), "absent") == 0 && strncmp(dgettext("files", ""), "Content-Type", 12) == 0;
}

static bool has_one_key_twice(void)
{
    struct mo_file file = FILE_OF(one_key_twice);
    write_file(path, file.bytes, file.len);
    return answers("Open");
}

static bool is_out_of_order_and_cut(void)
{
    struct mo_file file = FILE_OF(out_of_order);
    write_file(path, file.bytes, file.len - 1);
    return answers("Open");
}

/* 100,000 messages, the last first. */
static bool is_large_and_out_of_order(void)
{
    enum { MANY = 100000, LEN = 7, STRINGS = 28 + 16 * MANY };
    static char file[STRINGS + 2 * MANY * (LEN + 1)];
    const uint32_t words[] = {0x950412de, 0, MANY, 28, 28 + 8 * MANY, 0, STRINGS};
    memcpy(file, words, sizeof words);
    for (uint32_t i = 0; i < 2 * MANY; i++) {
        const uint32_t entry[] = {LEN, STRINGS + i * (LEN + 1)};
        memcpy(file + 28 + 8 * i, entry, sizeof entry);
        snprintf(file + entry[1], LEN + 1, "%c%06d", i < MANY ? 'o' : 't', (int)(MANY - 1 - i % MANY));
    }
    write_file(path, file, sizeof file);
    return strcmp(dgettext("files", "o000000"), "t000000") == 0 && strcmp(dgettext("files", "o099999"), "t099999") == 0 &&
           strcmp(dgettext("files", "o054321"), "t054321") == 0 && answers("Open");
}

/* The last line of the log that names the path, without the path. */
static const char *told(void)
{
    static char line[5000], last[5000];
    FILE *in = fopen(log_path, "r");
    last[0] = 0;
    while (in != NULL && fgets(line, sizeof line, in) != NULL)
        if (strncmp(line, path, strlen(path)) == 0)
            strcpy(last, line + strlen(path));
    if (in != NULL)
        fclose(in);
    last[strcspn(last, "\n")] = 0;
    return last;
}

static void try(const char *name, bool (*holds)(void), const char *line)
{
    int status = 1;
    rmdir(path);
    unlink(path);
    unlink(log_path);
    pid_t child = fork();
    if (child == 0) {
        alarm(60);
        _exit(!holds());
    }
    waitpid(child, &status, 0);
    check(status == 0, name);
    check(strcmp(told(), line) == 0, name);
    if (strcmp(told(), line) != 0)
        printf("         told '%s'\n", told());
}

int main(int argc, char **argv)
{
    if (argc != 2)
        return 2;
    folder = argv[1];
    path = strdup(below(folder, "de/LC_MESSAGES/files.mo"));
    log_path = strdup(below(folder, "log"));
    make_folders(path);
    sound = FILE_OF(german);
    setenv("POKIT_INTL_LOG", log_path, 1);
    setenv("LANGUAGE", "de", 1);
    if (setlocale(LC_ALL, "C.UTF-8") == NULL) {
        puts("skipped  files (the machine has no locale C.UTF-8)");
        return counts();
    }
    bindtextdomain("files", folder);
    fflush(stdout);
    try("a file", is_sound, "");
    try("cut while in use", is_cut_while_in_use, "");
    try("overwritten while in use", is_overwritten_while_in_use, "");
    try("renamed over while in use", is_renamed_over, "");
    try("removed while in use", is_removed, "");
    try("missing", is_missing, "");
    try("empty", is_empty, ": file too short");
    try("cut", is_cut, ": string outside the file, message 0");
    try("a FIFO", is_fifo, ": not a regular file");
    try("a folder", is_folder, ": not a regular file");
    try("a device", is_device, ": not a regular file");
    if (access("/dev/tty", R_OK) == 0 && open("/dev/tty", O_RDONLY | O_NOCTTY) >= 0)
        try("a terminal", is_terminal, ": not a regular file");
    try("a link to itself", is_link_to_itself, ": can't be opened");
    try("a link to a file", is_link_to_a_file, "");
    try("300 MB", is_large, ": too large");
    try("2 TB", is_enormous, ": too large");
    try("4 MB of messages", has_many_messages, "");
    try("1 MB after the last string", is_longer, "");
    try("keys out of order", is_out_of_order, ": string out of order, put in order, message 2");
    try("one key twice", has_one_key_twice, ": string out of order, message 2");
    try("out of order and cut", is_out_of_order_and_cut, ": string without a final NUL, message 5");
    try("100,000 messages, the last first", is_large_and_out_of_order, ": string out of order, put in order, message 1");
    try("no descriptor is left", has_no_descriptor, "");
    try("long names", has_long_names, "");
    try("a log with a line", is_added_to_the_log, ": file too short");
    if (of_libc("textdomain") != NULL)
        try("settings that are passed on", is_passed_on, "");
    return counts();
}
