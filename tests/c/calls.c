/* The calls for other languages, chains of catalogues, and what a query leaves out: rows that were worked out by hand. */
#include "files.h"

static const char header[] = "Content-Type: text/plain; charset=UTF-8\nPlural-Forms: nplurals=2; plural=n != 1;\n";
static const struct message english[] = {
    {TEXT(""), TEXT(header)},
    {TEXT("a"), TEXT("A")},
    {TEXT("book\0books"), TEXT("Book\0Books")},
    {TEXT("menu\4Open"), TEXT("OPEN")},
};
static const struct message others[] = {{TEXT(""), TEXT("charset=ISO-8859-2;x")}, {TEXT("b"), TEXT("B")}};

static pokit_catalog one, two, closed;

static void open_all(void)
{
    static struct file file[2];
    file[0] = file_of(english, 4, 0);
    file[1] = file_of(others, 2, 1);
    check(pokit_open(&one, file[0].bytes, file[0].len, NULL) == POKIT_OK, "open");
    check(pokit_open(&two, file[1].bytes, file[1].len, NULL) == POKIT_OK, "open another");
    check(pokit_open(&closed, "", 0, NULL) == POKIT_TOO_SHORT, "open none");
}

static void plain(void)
{
    pokit_answer answer;
    check_text(pokit_lookup(&one, NULL, 0, "a", 1, NULL, 0, 0, NULL), "A", "a message");
    check_text(pokit_lookup(&one, NULL, 9, "abc", 1, NULL, 9, 7, &answer), "A", "a length");
    check(answer.found && answer.text.len == 1 && answer.steps == 0 && answer.comparisons > 0, "its answer");
    check_text(pokit_lookup(&one, NULL, 0, "book", 4, "books", 5, 1, NULL), "Book", "one");
    check_text(pokit_lookup(&one, NULL, 0, "book", 4, "books", 5, 2, &answer), "Books", "two");
    check(answer.steps > 0, "steps");
    check_text(pokit_lookup(&one, "menu", 4, "Open", 4, NULL, 0, 0, NULL), "OPEN", "a context");
    check(pokit_lookup(&one, "", 0, "Open", 4, NULL, 0, 0, NULL) == NULL, "an empty context");
    check(pokit_lookup(&one, NULL, 0, "no", 2, "nos", 3, 2, &answer) == NULL, "no message");
    check(!answer.found && answer.text.len == 3 && memcmp(answer.text.ptr, "nos", 3) == 0, "its plural");
    check(pokit_lookup(&one, NULL, 0, "a\0", 2, NULL, 0, 0, NULL) == NULL, "a NUL in a msgid");
    check(pokit_lookup(&closed, NULL, 0, "a", 1, NULL, 0, 0, &answer) == NULL && answer.text.len == 1, "a closed catalogue");
    check_text(pokit_lookup(&one, NULL, 0, NULL, 5, NULL, 0, 0, NULL), header, "no msgid");
}

/* What isn't given isn't read, and any byte but 0 is yes. */
static void queries(void)
{
    pokit_query query;
    memset(&query, 0xff, sizeof query);
    query.id = pokit_bytes_of("a", 1);
    query.has_context = query.has_plural = 0;
    check_text((const char *)pokit_look(&one, query).text.ptr, "A", "pointers of what isn't given");
    query.has_plural = 0x80;
    query.plural = pokit_bytes_of("books", 5);
    query.id = pokit_bytes_of("book", 4);
    query.count = 5;
    check_text((const char *)pokit_look(&one, query).text.ptr, "Books", "another yes");
}

/* Where a text is: in the file, whose translations begin at byte 73, or in the query. */
static void place(const pokit_catalog *catalog, pokit_query query, uint32_t wanted, size_t offset, size_t len,
                  const uint8_t *text, const char *name)
{
    pokit_located located;
    pokit_bytes found;
    memset(&located, 0xff, sizeof located);
    pokit_catalog_look(catalog, &query, &located);
    check(located.place == wanted && located.offset == offset && located.len == len, name);
    found = pokit_located_text(catalog, &query, &located);
    check(found.ptr == text && found.len == (wanted == POKIT_TRANSLATION ? len : strlen((const char *)text)), name);
    check(text[found.len] == 0, name);
}

static void places(void)
{
    static const struct message messages[] = {{TEXT("a"), TEXT("")}, {TEXT("book\0books"), TEXT("Book\0Books")}};
    struct file file = file_of(messages, 2, 0);
    pokit_query absent = pokit_query_of(NULL, "no", "", 2);
    check(pokit_open(&closed, file.bytes, file.len, NULL) == POKIT_OK, "open places");
    place(&closed, pokit_query_of(NULL, "a", NULL, 0), POKIT_TRANSLATION, 73, 0, file.bytes + 73, "an empty text");
    place(&closed, pokit_query_of(NULL, "book", "books", 1), POKIT_TRANSLATION, 74, 4, file.bytes + 74, "the first form");
    place(&closed, pokit_query_of(NULL, "book", "books", 2), POKIT_TRANSLATION, 79, 5, file.bytes + 79, "the second form");
    place(&closed, absent, POKIT_PLURAL, 0, 0, absent.plural.ptr, "an empty plural");
    absent.count = 1;
    place(&closed, absent, POKIT_MSGID, 0, 0, absent.id.ptr, "a msgid");
    check(pokit_open(&closed, "", 0, NULL) == POKIT_TOO_SHORT, "close places");
}

static void chains(void)
{
    const pokit_catalog *all[] = {NULL, &two, &closed, &one};
    pokit_chain_answer answer = pokit_look_chain(all, 4, pokit_query_of(NULL, "a", NULL, 0));
    uint64_t compared = pokit_look(&two, pokit_query_of(NULL, "a", NULL, 0)).comparisons
                        + pokit_look(&one, pokit_query_of(NULL, "a", NULL, 0)).comparisons;
    check(answer.found && answer.asked == 4 && answer.comparisons == compared && compared > 2, "the last one answers");
    check_text((const char *)answer.text.ptr, "A", "its text");
    answer = pokit_look_chain(all, 4, pokit_query_of(NULL, "b", NULL, 0));
    check(answer.found && answer.asked == 2, "the second one answers");
    answer = pokit_look_chain(all, 4, pokit_query_of(NULL, "book", "books", 5));
    check(answer.found && answer.asked == 4 && answer.steps > 0, "a plural");
    answer = pokit_look_chain(all, 3, pokit_query_of(NULL, "book", "books", 5));
    check(!answer.found && answer.asked == 3 && answer.comparisons > 0 && answer.steps == 0, "none answers");
    check_text((const char *)answer.text.ptr, "books", "the plural");
    answer = pokit_look_chain(all, 4, pokit_query_of("x\4", "a", NULL, 0));
    check(!answer.found && answer.asked == 0 && answer.comparisons == 0, "a context that can't be a key asks none");
    answer = pokit_look_chain(all, 4, pokit_query_of(NULL, "a\4", NULL, 0));
    check(!answer.found && answer.asked == 0, "a msgid that can't be a key asks none");
    answer = pokit_look_chain(NULL, 0, pokit_query_of(NULL, "a", NULL, 0));
    check(!answer.found && answer.asked == 0 && answer.text.len == 1, "an empty chain");
}

static void names(void)
{
    static const struct message bare[] = {{TEXT(""), TEXT("Language: de\n")}};
    struct file file = file_of(bare, 1, 0);
    pokit_bytes charset = pokit_charset(&one);
    uint32_t error;
    check(charset.len == 5 && memcmp(charset.ptr, "UTF-8", 5) == 0, "a charset");
    charset = pokit_charset(&two);
    check(charset.len == 10 && memcmp(charset.ptr, "ISO-8859-2", 10) == 0, "another one");
    check(pokit_charset(&closed).len == 0, "the charset of none");
    check(pokit_open(&closed, file.bytes, file.len, NULL) == POKIT_OK && pokit_charset(&closed).len == 0, "no charset");
    check_text(pokit_version(), POKIT_VERSION, "the version");
    check(pokit_catalog_size() == sizeof(pokit_catalog), "the size");
    for (error = POKIT_OK; error < POKIT_NOT_SORTED; error++)
        check(strcmp(pokit_error_text(error), pokit_error_text(error + 1)) != 0, "a text for each fault");
    check_text(pokit_error_text(99), "unknown fault", "an unknown fault");
}

int main(void)
{
    open_all();
    plain();
    queries();
    places();
    chains();
    names();
    return counts();
}
