/* pokit_inline.h: the bodies of the functions that are inline in C. pokit.h includes it, and says what they are for. */
#ifndef POKIT_INLINE_H
#define POKIT_INLINE_H

#if UINTPTR_MAX != 0xffffffffffffffff || SIZE_MAX != 0xffffffffffffffff
#error "libpokit is for machines with pointers of 64 bits"
#endif

/* The structs are those that the library was compiled with. */
typedef char pokit_platform_text_has_32_bytes[sizeof(pokit_platform_text) == 32 ? 1 : -1];
typedef char pokit_listed_message_has_32_bytes[sizeof(pokit_listed_message) == 32 ? 1 : -1];
typedef char pokit_ends_has_16_bytes[sizeof(pokit_ends) == 16 ? 1 : -1];
typedef char pokit_bytes_has_16_bytes[sizeof(pokit_bytes) == 16 ? 1 : -1];
typedef char pokit_instruction_has_8_bytes[sizeof(pokit_instruction) == 8 ? 1 : -1];
typedef char pokit_catalog_has_32800_bytes[sizeof(pokit_catalog) == 32800 ? 1 : -1];
typedef char pokit_query_has_64_bytes[sizeof(pokit_query) == 64 ? 1 : -1];
typedef char pokit_located_has_32_bytes[sizeof(pokit_located) == 32 ? 1 : -1];
typedef char pokit_position_has_16_bytes[sizeof(pokit_position) == 16 ? 1 : -1];

/* The contracts of these functions, which Frama-C proves. */
#ifdef __FRAMAC__
#include "pokit.acsl.h"
#endif

POKIT_FUNCTION const char *pokit_version(void)
{
    return POKIT_VERSION;
}

POKIT_FUNCTION size_t pokit_catalog_size(void)
{
    return sizeof(pokit_catalog);
}

POKIT_FUNCTION pokit_bytes pokit_bytes_of(const void *ptr, size_t len)
{
    pokit_bytes bytes;
    bytes.ptr = ptr != NULL ? (const uint8_t *)ptr : (const uint8_t *)"";
    bytes.len = ptr != NULL ? len : 0;
    return bytes;
}

POKIT_FUNCTION pokit_bytes pokit_bytes_of_string(const char *string)
{
    return pokit_bytes_of(string, string != NULL ? strlen(string) : 0);
}

POKIT_FUNCTION enum pokit_error pokit_open(pokit_catalog *catalog, const void *bytes, size_t len, uint32_t *message)
{
    uint32_t unused;
    pokit_bytes file = pokit_bytes_of(bytes, len);
    catalog->bytes = pokit_bytes_of(NULL, 0);
    catalog->nplurals = 0;
    catalog->instruction_count = 0;
    if (message == NULL)
        message = &unused;
    *message = 0;
    return (enum pokit_error)pokit_catalog_open(catalog, file.ptr, file.len, message);
}

/* Sets the places of a list to messages of no bytes. */
static inline void pokit_empty(pokit_listed_message *list, size_t places)
{
    const uint8_t *none = (const uint8_t *)"";
    size_t i;
    /*@ loop invariant 0 <= i <= places;
        loop invariant \forall integer k; 0 <= k < i ==> list[k].original.ptr == none && list[k].original.len == 0;
        loop invariant \forall integer k; 0 <= k < i ==> list[k].translation.ptr == none && list[k].translation.len == 0;
        loop assigns i, list[0 .. places - 1];
        loop variant places - i; */
    for (i = 0; i < places; i++) {
        list[i].original.ptr = none;
        list[i].original.len = 0;
        list[i].translation.ptr = none;
        list[i].translation.len = 0;
    }
}

POKIT_FUNCTION uint32_t pokit_sort(const void *bytes, size_t len, pokit_listed_message *list, size_t places,
                                   uint8_t *file, size_t file_size)
{
    pokit_bytes from = pokit_bytes_of(bytes, len);
    pokit_listed_message none;
    uint8_t nothing = 0;
    pokit_empty(&none, 1);
    pokit_empty(list, places);
    return pokit_sorted_file(from.ptr, from.len, list != NULL ? list : &none, places, file != NULL ? file : &nothing,
                             file_size);
}

POKIT_FUNCTION uint32_t pokit_len(const pokit_catalog *catalog)
{
    return catalog->instruction_count != 0 ? pokit_catalog_len(catalog) : 0;
}

/* The query with all of its fields set, and pointers that aren't NULL. */
static inline pokit_query pokit_whole(pokit_query query)
{
    query.has_context = query.has_context != 0;
    query.has_plural = query.has_plural != 0;
    query.id = pokit_bytes_of(query.id.ptr, query.id.len);
    query.context = query.has_context ? pokit_bytes_of(query.context.ptr, query.context.len) : pokit_bytes_of(NULL, 0);
    query.plural = query.has_plural ? pokit_bytes_of(query.plural.ptr, query.plural.len) : pokit_bytes_of(NULL, 0);
    query.count = query.has_plural ? query.count : 1;
    return query;
}

/* The answer where there is no translation. */
static inline pokit_answer pokit_untranslated(pokit_query query)
{
    pokit_answer answer;
    answer.text = query.has_plural && query.count != 1 ? query.plural : query.id;
    answer.comparisons = 0;
    answer.steps = 0;
    answer.found = false;
    return answer;
}

/* The text that a look-up has located: a part of the file, or a text of the query. */
static inline pokit_bytes pokit_located_text(const pokit_catalog *catalog, const pokit_query *query,
                                             const pokit_located *located)
{
    pokit_bytes text;
    if (located->place != POKIT_TRANSLATION)
        return located->place == POKIT_PLURAL ? query->plural : query->id;
    text.ptr = catalog->bytes.ptr + located->offset;
    text.len = located->len;
    return text;
}

POKIT_FUNCTION pokit_answer pokit_look(const pokit_catalog *catalog, pokit_query query)
{
    pokit_query whole = pokit_whole(query);
    pokit_located located;
    pokit_answer answer;
    if (catalog->instruction_count == 0)
        return pokit_untranslated(whole);
    pokit_catalog_look(catalog, &whole, &located);
    answer.text = pokit_located_text(catalog, &whole, &located);
    answer.comparisons = located.comparisons;
    answer.steps = located.steps;
    answer.found = located.place == POKIT_TRANSLATION;
    return answer;
}

/* Whether a text contains the byte 0 or 4, which no key has. */
static inline bool pokit_has_separator(pokit_bytes text)
{
    return memchr(text.ptr, 0, text.len) != NULL || memchr(text.ptr, 4, text.len) != NULL;
}

POKIT_FUNCTION pokit_chain_answer pokit_look_chain(const pokit_catalog *const *catalogs, size_t count,
                                                   pokit_query query)
{
    pokit_query whole = pokit_whole(query);
    pokit_answer answer = pokit_untranslated(whole);
    pokit_chain_answer chain;
    chain.comparisons = 0;
    chain.asked = 0;
    if (pokit_has_separator(whole.context) || pokit_has_separator(whole.id))
        count = 0;
    /*@ loop invariant chain.asked <= count && pokit_is_last(catalogs, query, chain.asked, answer);
        loop invariant chain.comparisons == pokit_compared_by(catalogs, query, chain.asked) <= 32 * chain.asked;
        loop assigns answer, chain.comparisons, chain.asked;
        loop variant count - chain.asked; */
    while (chain.asked < count && !answer.found) {
        const pokit_catalog *member = catalogs[chain.asked++];
        if (member != NULL) {
            answer = pokit_look(member, whole);
            chain.comparisons += answer.comparisons;
        }
    }
    chain.text = answer.text;
    chain.steps = answer.steps;
    chain.found = answer.found;
    return chain;
}

POKIT_FUNCTION const char *pokit_lookup(const pokit_catalog *catalog, const char *context, size_t context_len,
                                        const char *msgid, size_t msgid_len, const char *plural, size_t plural_len,
                                        uint64_t count, pokit_answer *answer)
{
    pokit_query query;
    pokit_answer found;
    query.context = pokit_bytes_of(context, context_len);
    query.id = pokit_bytes_of(msgid, msgid_len);
    query.plural = pokit_bytes_of(plural, plural_len);
    query.count = count;
    query.has_context = context != NULL;
    query.has_plural = plural != NULL;
    found = pokit_look(catalog, query);
    if (answer != NULL)
        *answer = found;
    return found.found ? (const char *)found.text.ptr : NULL;
}

POKIT_FUNCTION pokit_query pokit_query_of(const char *context, const char *msgid, const char *plural, uint64_t count)
{
    pokit_query query;
    query.context = pokit_bytes_of_string(context);
    query.id = pokit_bytes_of_string(msgid);
    query.plural = pokit_bytes_of_string(plural);
    query.count = count;
    query.has_context = context != NULL;
    query.has_plural = plural != NULL;
    return query;
}

POKIT_FUNCTION const char *pokit_npgettext(const pokit_catalog *catalog, const char *context, const char *msgid,
                                           const char *plural, uint64_t count)
{
    if (msgid == NULL)
        return NULL;
    return (const char *)pokit_look(catalog, pokit_query_of(context, msgid, plural, count)).text.ptr;
}

POKIT_FUNCTION const char *pokit_ngettext(const pokit_catalog *catalog, const char *msgid, const char *plural,
                                          uint64_t count)
{
    return pokit_npgettext(catalog, NULL, msgid, plural, count);
}

POKIT_FUNCTION const char *pokit_pgettext(const pokit_catalog *catalog, const char *context, const char *msgid)
{
    return pokit_npgettext(catalog, context, msgid, NULL, 1);
}

POKIT_FUNCTION const char *pokit_gettext(const pokit_catalog *catalog, const char *msgid)
{
    return pokit_npgettext(catalog, NULL, msgid, NULL, 1);
}

/* How many bytes the name of a charset has that is the value of a header's field. */
static inline size_t pokit_charset_len(const char *value)
{
    return strcspn(value, " \t\r\n;");
}

/* The charset that the text of a header entry names. */
static inline pokit_bytes pokit_named_charset(const char *text)
{
    const char *field = strstr(text, "charset=");
    if (field == NULL)
        return pokit_bytes_of(NULL, 0);
    /*@ assert first: pokit_is_first_charset(text, field); */
    field += sizeof "charset=" - 1;
    return pokit_bytes_of(field, pokit_charset_len(field));
}

POKIT_FUNCTION pokit_bytes pokit_charset(const pokit_catalog *catalog)
{
    pokit_query query = pokit_query_of(NULL, "", NULL, 0);
    pokit_answer header = pokit_look(catalog, query);
    /*@ assert asked: pokit_asks_header(query); */
    return header.found ? pokit_named_charset((const char *)header.text.ptr) : pokit_bytes_of(NULL, 0);
}

/* The candidate at a position, as pokit_candidate answers it, with the position after it in its own copy. */
static inline size_t pokit_candidate_at(pokit_bytes locale, pokit_bytes language, size_t offset, uint32_t given,
                                        uint8_t *name, size_t size)
{
    pokit_position position;
    position.offset = offset;
    position.given = given;
    return pokit_candidate(locale.ptr, locale.len, language.ptr, language.len, &position, name, size);
}

/* Whether the candidate at a position, of `len` bytes, names no folder in another one: it is empty, "." or "..". */
static inline bool pokit_leads_out(pokit_bytes locale, pokit_bytes language, size_t offset, uint32_t given, size_t len)
{
    uint8_t name[2] = {0, 0};
    if (len > sizeof name)
        return false;
    pokit_candidate_at(locale, language, offset, given, name, sizeof name);
    return len == 0 || (name[0] == '.' && name[len - 1] == '.');
}

/* Whether the candidate at a position is one of those of the same language before it; that after its fifth is of the
 * next one. Of L_T.C@M they are L_T.C@M, L_T@M, L@M, L_T and L. Two are equal where the parts are missing in which they
 * differ, and then one is as long as one before it: the second as the first, the third and the fourth as the second,
 * the fifth as the third or the fourth. */
static inline bool pokit_is_repeated(pokit_bytes locale, pokit_bytes language, size_t offset, uint32_t given,
                                     size_t len)
{
    uint8_t unused;
    if (given == 0 || given > 4)
        return false;
    return pokit_candidate_at(locale, language, offset, given / 2, &unused, 0) == len
           || (given == 4 && pokit_candidate_at(locale, language, offset, 3, &unused, 0) == len);
}

/* The next candidate that is a folder's name which its language hasn't had before, as pokit_candidate answers it. */
static inline size_t pokit_next_name(pokit_bytes locale, pokit_bytes language, pokit_position *next, uint8_t *name,
                                     size_t size)
{
    pokit_position at;
    size_t len;
    /*@ loop invariant pokit_are_same{Pre,Here}(locale, language);
        loop invariant pokit_left_from{Pre,Here}(locale, language, next)
          <= pokit_left_from{Pre,Pre}(locale, language, next);
        loop assigns at, len, *next, name[0 .. size - 1];
        loop variant pokit_left_at{Pre}(locale, language, *next); */
    do {
        at = *next;
        len = pokit_candidate(locale.ptr, locale.len, language.ptr, language.len, next, name, size);
        if (len == POKIT_END)
            return POKIT_END;
    } while (pokit_leads_out(locale, language, at.offset, at.given, len)
             || pokit_is_repeated(locale, language, at.offset, at.given, len));
    return len;
}

/* Writes FOLDER/NAME/CATEGORY/DOMAIN.mo and a NUL, but for the name, which is in its place. */
static inline void pokit_write_around(char *path, const char *folder, size_t folder_len, size_t name_len,
                                      const char *category, size_t category_len, const char *domain, size_t domain_len)
{
    char *rest = path + folder_len + 1 + name_len;
    memcpy(path, folder, folder_len);
    path[folder_len] = '/';
    *rest++ = '/';
    memcpy(rest, category, category_len);
    rest += category_len;
    *rest++ = '/';
    memcpy(rest, domain, domain_len);
    rest += domain_len;
    memcpy(rest, ".mo", sizeof ".mo" - 1);
    rest[sizeof ".mo" - 1] = 0;
}

POKIT_FUNCTION size_t pokit_path(const char *folder, const char *category, const char *domain, const char *locale,
                                 const char *language, pokit_walk *walk, char *path, size_t size)
{
    pokit_bytes locale_bytes = pokit_bytes_of_string(locale), language_bytes;
    size_t before = strlen(folder) + 1, category_len = strlen(category), domain_len = strlen(domain);
    size_t around = before + category_len + domain_len + sizeof "//.mo" - 1;
    char *name = path + (before < size ? before : 0);
    size_t room = around < size ? size - around - 1 : 0, len = POKIT_END;
    if (walk->next.offset == 0 && walk->next.given == 0)
        walk->language_len = language != NULL ? strlen(language) : 0;
    language_bytes = pokit_bytes_of(language, walk->language_len);
    if (domain_len != 0 && strchr(domain, '/') == NULL)
        len = pokit_next_name(locale_bytes, language_bytes, &walk->next, (uint8_t *)name, room);
    path[0] = 0;
    if (len == POKIT_END)
        return 0;
    if (len > room)
        return around + len;
    pokit_write_around(path, folder, before - 1, len, category, category_len, domain, domain_len);
    return around + len;
}

POKIT_FUNCTION const char *pokit_error_text(uint32_t error)
{
    switch (error) {
    case POKIT_OK: return "no fault";
    case POKIT_TOO_SHORT: return "file too short";
    case POKIT_BAD_MAGIC: return "bad magic number";
    case POKIT_BAD_REVISION: return "unknown revision";
    case POKIT_TABLE_OUTSIDE: return "table outside the file";
    case POKIT_STRING_OUTSIDE: return "string outside the file";
    case POKIT_NO_TERMINATOR: return "string without a final NUL";
    case POKIT_NOT_SORTED: return "string out of order";
    default: return "unknown fault";
    }
}

#endif
