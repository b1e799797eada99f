/* Which form of a message a count selects, and how many nodes of the rule's expression are evaluated for it: rows that
 * were worked out by hand. */
#include "files.h"

/* A rule, the two forms of a message, a count, and its answer. */
static const struct row {
    const char *header;
    const char *forms;
    uint32_t forms_len;
    uint64_t count;
    const char *text;
    uint32_t steps;
} rows[] = {
    {"nplurals=2; plural=n-1", TEXT("x\0y"), 0, "x", 3}, /* its value is 2^64 - 1 */
    {"nplurals=2; plural=10/n", TEXT("x\0y"), 0, "x", 3}, /* it has no value */
    {"nplurals=2; plural=n && 10/n", TEXT("x\0y"), 0, "x", 2},
    {"nplurals=2; plural=n && 10/n", TEXT("x\0y"), 2, "y", 5},
    {"nplurals=0; plural=0;", TEXT("x\0y"), 0, "x", 1},
    {"nplurals=0; plural=0;", TEXT("x\0y"), 1, "x", 1},
    {"nplurals=3; plural=n;", TEXT("a\0"), 0, "a", 1},
    {"nplurals=3; plural=n;", TEXT("a\0"), 1, "", 1},
    {"nplurals=3; plural=n;", TEXT("a\0"), 2, "a", 1}, /* there is no such form */
    {"nplurals=3; plural=n;", TEXT("a\0"), 3, "a", 1}, /* a value above nplurals */
    {"nplurals=2; plural=(n;", TEXT("x\0y"), 1, "x", 3}, /* that of the default rule */
    {"nplurals=2; plural=(n;", TEXT("x\0y"), 0, "y", 3},
};

static pokit_catalog catalog;

/* Checks what is answered for a count under a rule. */
static void check_row(const char *header, const char *forms, uint32_t forms_len, uint64_t count, const char *text, uint32_t steps)
{
    struct message messages[] = {{TEXT(""), NULL, 0}, {TEXT("f\0fs"), NULL, 0}};
    struct file file;
    pokit_answer answer;
    messages[0].translation = header;
    messages[0].translation_len = (uint32_t)strlen(header);
    messages[1].translation = forms;
    messages[1].translation_len = forms_len;
    file = file_of(messages, 2, 0);
    check(pokit_open(&catalog, file.bytes, file.len, NULL) == POKIT_OK, header);
    answer = pokit_look(&catalog, pokit_query_of(NULL, "f", "fs", count));
    check(answer.found && answer.steps == steps, header);
    check_text((const char *)answer.text.ptr, text, header);
}

int main(void)
{
    char blanks[1200];
    size_t i;
    for (i = 0; i < sizeof rows / sizeof *rows; i++)
        check_row(rows[i].header, rows[i].forms, rows[i].forms_len, rows[i].count, rows[i].text, rows[i].steps);
    /* 1,100 blanks belong to the expression, and are no nodes */
    snprintf(blanks, sizeof blanks, "nplurals=2; plural=%1100sn==1;\n", "");
    check_row(blanks, TEXT("x\0y"), 1, "y", 3);
    check_row(blanks, TEXT("x\0y"), 2, "x", 3);
    return counts();
}
