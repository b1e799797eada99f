/* pokit.acsl.h: what is proved of the functions of pokit.h, for Frama-C. pokit.h includes it there.
 *
 * The exports of libpokit are proved by Rattle, in crates/pokit_c. Here their clauses are retold by hand: a contract of
 * an export has the names of its clauses, and an axiom says which clause or definition it follows from. */

/* Texts. */

/*@ predicate pokit_readable{L}(pokit_bytes b) = b.ptr != \null && \valid_read(b.ptr + (0 .. b.len - 1));

    // bytes of a caller, who may give NULL for none
    predicate pokit_given{L}(pokit_bytes b) = b.ptr == \null || \valid_read(b.ptr + (0 .. b.len - 1));

    predicate pokit_string_or_null{L}(char *s) = s == \null || valid_read_string(s);

    // a C string that is a part of a path: the lengths of six can be added
    predicate pokit_part{L}(char *s) = valid_read_string(s) && strlen(s) < 0x1000000000000000;

    // what is written isn't the string's
    predicate pokit_is_apart{L}(pokit_walk *walk, char *path, integer size, char *s) =
      \separated(path + (0 .. size - 1), s + (0 .. strlen(s))) && \separated(walk, s + (0 .. strlen(s)));

    // what a text is taken for: itself, or no bytes where it is NULL
    predicate pokit_taken_for(char *ptr, integer len, pokit_bytes b) =
      ptr != \null ? (char *)b.ptr == ptr && b.len == len : b.ptr != \null && b.len == 0;

    logic integer pokit_length(pokit_bytes b) = b.ptr == \null ? 0 : b.len;

    predicate pokit_same_text{L1,L2}(pokit_bytes a, pokit_bytes b) =
      pokit_length(a) == pokit_length(b)
      && \forall integer i; 0 <= i < pokit_length(a) ==> \at(a.ptr[i], L1) == \at(b.ptr[i], L2);

    predicate pokit_same{L1,L2}(uint8_t *ptr, integer len) =
      \forall integer i; 0 <= i < len ==> \at(ptr[i], L1) == \at(ptr[i], L2);

    predicate pokit_separates{L}(pokit_bytes b) =
      \exists integer i; 0 <= i < pokit_length(b) && (b.ptr[i] == 0 || b.ptr[i] == 4);
*/

/* (the proof has its own, in tests/acsl/string.h) */
#ifndef POKIT_PROOF
/*@ predicate pokit_literal{L}(char *s) = valid_read_string(s); */
#endif

/* Queries. */

/*@ predicate pokit_is_query{L}(pokit_query q) =
      pokit_given(q.id) && (q.has_context != 0 ==> pokit_given(q.context))
      && (q.has_plural != 0 ==> pokit_given(q.plural));

    // that of plain arguments
    predicate pokit_asks_bytes{L}(pokit_query q, char *context, integer context_len, char *msgid, integer msgid_len,
                                  char *plural, integer plural_len, integer count) =
      pokit_taken_for(msgid, msgid_len, q.id)
      && pokit_taken_for(context, context_len, q.context) && (q.has_context != 0 <==> context != \null)
      && pokit_taken_for(plural, plural_len, q.plural) && (q.has_plural != 0 <==> plural != \null)
      && q.count == count;

    // that of C strings
    predicate pokit_asks{L}(pokit_query q, char *context, char *msgid, char *plural, integer count) =
      pokit_asks_bytes(q, context, strlen(context), msgid, strlen(msgid), plural, strlen(plural), count);

    predicate pokit_same_query{L1,L2}(pokit_query a, pokit_query b) =
      pokit_same_text{L1,L2}(a.id, b.id)
      && (a.has_context != 0 <==> b.has_context != 0)
      && (a.has_context != 0 ==> pokit_same_text{L1,L2}(a.context, b.context))
      && (a.has_plural != 0 <==> b.has_plural != 0)
      && (a.has_plural != 0 ==> a.count == b.count);

    predicate pokit_is_no_key{L}(pokit_query q) =
      pokit_separates(q.id) || (q.has_context != 0 && pokit_separates(q.context));

    // the text where there is no translation
    predicate pokit_is_untranslated(pokit_query q, pokit_bytes text) =
      q.has_plural != 0 && q.count != 1 ? pokit_taken_for((char *)q.plural.ptr, q.plural.len, text)
                                        : pokit_taken_for((char *)q.id.ptr, q.id.len, text);
*/

/* What is proved of the exports, in the words of crates/pokit_c. */

/*@ predicate pokit_same_catalog{L1,L2}(pokit_catalog *c) =
      \at(c->bytes.ptr, L1) == \at(c->bytes.ptr, L2) && \at(c->bytes.len, L1) == \at(c->bytes.len, L2)
      && \at(c->nplurals, L1) == \at(c->nplurals, L2) && \at(c->instruction_count, L1) == \at(c->instruction_count, L2)
      && (\forall integer i; 0 <= i < \at(c->bytes.len, L1) ==>
            \at(c->bytes.ptr[i], L1) == \at(c->bytes.ptr[i], L2))
      && (\forall integer i; 0 <= i < \at(c->instruction_count, L1) ==>
            \at(c->instructions[i].kind, L1) == \at(c->instructions[i].kind, L2)
            && \at(c->instructions[i].operation, L1) == \at(c->instructions[i].operation, L2)
            && \at(c->instructions[i].count, L1) == \at(c->instructions[i].count, L2)
            && \at(c->instructions[i].number, L1) == \at(c->instructions[i].number, L2));

    axiomatic Pokit {
      // the fault of a file, 0 for none, and its message
      logic integer pokit_fault{L}(uint8_t *bytes, integer len) reads bytes[0 .. len - 1];
      logic integer pokit_fault_message{L}(uint8_t *bytes, integer len) reads bytes[0 .. len - 1];

      // IsOpened
      predicate pokit_is_open{L}(pokit_catalog *c) reads *c, c->bytes.ptr[0 .. c->bytes.len - 1];
      logic integer pokit_messages{L}(pokit_catalog *c) reads *c, c->bytes.ptr[0 .. c->bytes.len - 1];

      // answered, where the text is, and what it costs
      predicate pokit_translates{L}(pokit_catalog *c, pokit_query q)
        reads *c, c->bytes.ptr[0 .. c->bytes.len - 1], q.id.ptr[0 .. q.id.len - 1],
          q.context.ptr[0 .. q.context.len - 1];
      logic integer pokit_comparisons{L}(pokit_catalog *c, pokit_query q)
        reads *c, c->bytes.ptr[0 .. c->bytes.len - 1], q.id.ptr[0 .. q.id.len - 1],
          q.context.ptr[0 .. q.context.len - 1];
      logic integer pokit_steps{L}(pokit_catalog *c, pokit_query q)
        reads *c, c->bytes.ptr[0 .. c->bytes.len - 1], q.id.ptr[0 .. q.id.len - 1],
          q.context.ptr[0 .. q.context.len - 1];
      logic integer pokit_offset{L}(pokit_catalog *c, pokit_query q)
        reads *c, c->bytes.ptr[0 .. c->bytes.len - 1], q.id.ptr[0 .. q.id.len - 1],
          q.context.ptr[0 .. q.context.len - 1];
      logic integer pokit_text_len{L}(pokit_catalog *c, pokit_query q)
        reads *c, c->bytes.ptr[0 .. c->bytes.len - 1], q.id.ptr[0 .. q.id.len - 1],
          q.context.ptr[0 .. q.context.len - 1];

      // follows from pokit_catalog_open's fault: HasFault and IsFirstFault have it first, and its index is 0
      axiom pokit_short{L}: \forall uint8_t *bytes, integer len; len < 28 ==>
        pokit_fault{L}(bytes, len) == POKIT_TOO_SHORT && pokit_fault_message{L}(bytes, len) == 0;
      // follows from IsOpened's few and program_is: the program of a tree isn't empty
      axiom pokit_open_instructions{L}: \forall pokit_catalog *c;
        pokit_is_open{L}(c) ==> 0 < c->instruction_count <= 4096;
      // IsOpened is about the bytes, nplurals, and the instructions that are counted
      axiom pokit_open_same{L1,L2}: \forall pokit_catalog *c;
        pokit_same_catalog{L1,L2}(c) ==> pokit_is_open{L1}(c) ==> pokit_is_open{L2}(c);
      // follows from pokit_catalog_look's answered and comparisons: functions of what IsOpened and query_view say; and
      // where the text is, since the export has no state
      axiom pokit_look_same{L1,L2}: \forall pokit_catalog *c, pokit_query p, q;
        pokit_same_catalog{L1,L2}(c) ==> pokit_same_query{L1,L2}(p, q) ==>
          (pokit_translates{L1}(c, p) <==> pokit_translates{L2}(c, q))
          && pokit_comparisons{L1}(c, p) == pokit_comparisons{L2}(c, q)
          && pokit_steps{L1}(c, p) == pokit_steps{L2}(c, q)
          && pokit_offset{L1}(c, p) == pokit_offset{L2}(c, q)
          && pokit_text_len{L1}(c, p) == pokit_text_len{L2}(c, q);
      // follows from its bound: there are less than 2^32 messages
      axiom pokit_look_bound{L}: \forall pokit_catalog *c, pokit_query q; 0 <= pokit_comparisons{L}(c, q) <= 32;
      // follows from its answered: untranslated has 0 steps
      axiom pokit_look_untranslated{L}: \forall pokit_catalog *c, pokit_query q;
        !pokit_translates{L}(c, q) ==> pokit_steps{L}(c, q) == 0;
      // its no_key; and follows from its answered: forms_found is None
      axiom pokit_look_no_key{L}: \forall pokit_catalog *c, pokit_query q;
        pokit_is_no_key{L}(q) ==> !pokit_translates{L}(c, q) && pokit_comparisons{L}(c, q) == 0;

      // names_from: how many candidates there are from a position on; of the first its length and its bytes
      logic integer pokit_left{L}(uint8_t *locale, integer locale_len, uint8_t *language, integer language_len,
                                  integer offset, integer given)
        reads locale[0 .. locale_len - 1], language[0 .. language_len - 1];
      logic integer pokit_candidate_len{L}(uint8_t *locale, integer locale_len, uint8_t *language, integer language_len,
                                           integer offset, integer given)
        reads locale[0 .. locale_len - 1], language[0 .. language_len - 1];
      logic integer pokit_candidate_byte{L}(uint8_t *locale, integer locale_len, uint8_t *language,
                                            integer language_len, integer offset, integer given, integer i)
        reads locale[0 .. locale_len - 1], language[0 .. language_len - 1];
      // where LANGUAGE is unset
      logic integer pokit_locale_left{L}(uint8_t *locale, integer locale_len, integer offset, integer given)
        reads locale[0 .. locale_len - 1];

      // a length
      axiom pokit_left_some{L}: \forall uint8_t *a, *b, integer m, n, o, g; 0 <= pokit_left{L}(a, m, b, n, o, g);
      // names_from: no bytes are no part of a path; no bytes of LANGUAGE aren't looked at
      axiom pokit_left_no_locale{L}: \forall uint8_t *a, *b, integer m, n, o, g;
        m <= 0 ==> pokit_left{L}(a, m, b, n, o, g) == 0;
      axiom pokit_left_unset{L}: \forall uint8_t *a, *b, integer m, n, o, g;
        n <= 0 ==> pokit_left{L}(a, m, b, n, o, g) == pokit_locale_left{L}(a, m, o, g);
      // follows from candidates_of_name: each is at most as long as the locale, or as a part of LANGUAGE
      axiom pokit_candidate_short{L}: \forall uint8_t *a, *b, integer m, n, o, g;
        0 <= m && 0 <= n ==> 0 <= pokit_candidate_len{L}(a, m, b, n, o, g) <= m + n;
      // names_from is a function of the texts and the position
      axiom pokit_left_same{L1,L2}: \forall uint8_t *a, *b, integer m, n, o, g;
        pokit_same{L1,L2}(a, m) ==> pokit_same{L1,L2}(b, n) ==>
          pokit_left{L1}(a, m, b, n, o, g) == pokit_left{L2}(a, m, b, n, o, g);
      axiom pokit_candidate_len_same{L1,L2}: \forall uint8_t *a, *b, integer m, n, o, g;
        pokit_same{L1,L2}(a, m) ==> pokit_same{L1,L2}(b, n) ==>
          pokit_candidate_len{L1}(a, m, b, n, o, g) == pokit_candidate_len{L2}(a, m, b, n, o, g);
      axiom pokit_candidate_byte_same{L1,L2}: \forall uint8_t *a, *b, integer m, n, o, g, i;
        pokit_same{L1,L2}(a, m) ==> pokit_same{L1,L2}(b, n) ==>
          pokit_candidate_byte{L1}(a, m, b, n, o, g, i) == pokit_candidate_byte{L2}(a, m, b, n, o, g, i);
    }
*/

/*@ requires \valid(catalog) && \valid(message) && bytes != \null && \valid_read(bytes + (0 .. len - 1));
    requires \separated(catalog, message) && \separated(catalog, bytes + (0 .. len - 1))
      && \separated(message, bytes + (0 .. len - 1));
    assigns *catalog, *message, \result \from *catalog, bytes, len, bytes[0 .. len - 1];
    ensures fault: \result == \old(pokit_fault(bytes, len)) && \result <= POKIT_NOT_SORTED;
    ensures message: *message == (\result != 0 ? \old(pokit_fault_message(bytes, len)) : 0);
    ensures opened: \result == 0 ==> pokit_is_open(catalog);
    ensures same: \result == 0 ==> catalog->bytes.ptr == bytes && catalog->bytes.len == len;
    ensures unchanged: \result != 0 ==> catalog->bytes == \old(catalog->bytes)
      && catalog->nplurals == \old(catalog->nplurals)
      && catalog->instruction_count == \old(catalog->instruction_count)
      && \forall integer i; 0 <= i < 4096 ==> catalog->instructions[i] == \old(catalog->instructions[i]);
*/
uint32_t pokit_catalog_open(pokit_catalog *catalog, const uint8_t *bytes, size_t len, uint32_t *message);

/*@ requires \valid_read(catalog) && pokit_is_open(catalog) && pokit_readable(catalog->bytes);
    assigns \result \from *catalog, catalog->bytes.ptr[0 .. catalog->bytes.len - 1];
    ensures \result == pokit_messages(catalog);
*/
uint32_t pokit_catalog_len(const pokit_catalog *catalog);

/*@ requires \valid_read(catalog) && pokit_is_open(catalog) && pokit_readable(catalog->bytes);
    requires \valid_read(query) && pokit_readable(query->id) && pokit_readable(query->context)
      && pokit_readable(query->plural);
    requires \valid(located) && \separated(located, query) && \separated(located, catalog)
      && \separated(located, catalog->bytes.ptr + (0 .. catalog->bytes.len - 1));
    assigns *located \from *catalog, catalog->bytes.ptr[0 .. catalog->bytes.len - 1], *query;
    ensures answered: located->place == POKIT_TRANSLATION <==> pokit_translates(catalog, *query);
    ensures text: located->place == POKIT_TRANSLATION ==>
      located->offset == pokit_offset(catalog, *query) && located->len == pokit_text_len(catalog, *query);
    ensures terminated: located->place == POKIT_TRANSLATION ==>
      located->offset + located->len < catalog->bytes.len
      && strlen((char *)catalog->bytes.ptr + located->offset) == located->len;
    ensures of_query: located->place != POKIT_TRANSLATION ==>
      located->place == (query->has_plural != 0 && query->count != 1 ? POKIT_PLURAL : POKIT_MSGID)
      && located->offset == 0 && located->len == 0;
    ensures comparisons: located->comparisons == pokit_comparisons(catalog, *query);
    ensures steps: located->steps == pokit_steps(catalog, *query);
*/
void pokit_catalog_look(const pokit_catalog *catalog, const pokit_query *query, pokit_located *located);

/*@ requires locale != \null && \valid_read(locale + (0 .. locale_len - 1));
    requires language != \null && \valid_read(language + (0 .. language_len - 1));
    requires \valid(position) && name != \null && \valid(name + (0 .. size - 1));
    requires \separated(name + (0 .. size - 1), locale + (0 .. locale_len - 1))
      && \separated(name + (0 .. size - 1), language + (0 .. language_len - 1))
      && \separated(name + (0 .. size - 1), position);
    requires \separated(position, locale + (0 .. locale_len - 1))
      && \separated(position, language + (0 .. language_len - 1));
    assigns *position, name[0 .. size - 1], \result
      \from *position, locale[0 .. locale_len - 1], locale_len, language[0 .. language_len - 1], language_len, size;
    ensures found:
      \old(pokit_left(locale, locale_len, language, language_len, position->offset, position->given)) != 0 ==>
      \result < POKIT_END && \result ==
        \old(pokit_candidate_len(locale, locale_len, language, language_len, position->offset, position->given));
    ensures later:
      \old(pokit_left(locale, locale_len, language, language_len, position->offset, position->given)) != 0 ==>
      pokit_left{Pre}(locale, locale_len, language, language_len, position->offset, position->given) ==
        \old(pokit_left(locale, locale_len, language, language_len, position->offset, position->given)) - 1;
    ensures text: \result <= size && \result != POKIT_END ==> \forall integer i; 0 <= i < \result ==> name[i] ==
      \old(pokit_candidate_byte(locale, locale_len, language, language_len, position->offset, position->given, i));
    ensures rest: \forall integer i; (\result <= size && \result != POKIT_END ? \result : 0) <= i < size ==>
      name[i] == \old(name[i]);
    ensures end:
      \old(pokit_left(locale, locale_len, language, language_len, position->offset, position->given)) == 0 ==>
      \result == POKIT_END && position->offset == \old(position->offset) && position->given == \old(position->given);
*/
size_t pokit_candidate(const uint8_t *locale, size_t locale_len, const uint8_t *language, size_t language_len,
                       pokit_position *position, uint8_t *name, size_t size);

/*@ axiomatic PokitSystem {
      // system_count
      logic integer pokit_system_messages{L}(uint8_t *bytes, integer len) reads bytes[0 .. len - 1];
    }
*/

/*@ requires bytes != \null && \valid_read(bytes + (0 .. len - 1));
    assigns \result \from bytes, len, bytes[0 .. len - 1];
    ensures count: \result == pokit_system_messages(bytes, len);
*/
uint32_t pokit_system_count(const uint8_t *bytes, size_t len);

/*@ requires bytes != \null && \valid_read(bytes + (0 .. len - 1));
    requires texts != \null && \valid_read(texts + (0 .. count - 1));
    requires \forall integer i; 0 <= i < count ==> pokit_readable(texts[i].name) && pokit_readable(texts[i].text);
    requires room != \null && \valid(room + (0 .. size - 1)) && \valid(ends);
    requires \separated(room + (0 .. size - 1), bytes + (0 .. len - 1)) && \separated(ends, bytes + (0 .. len - 1))
      && \separated(room + (0 .. size - 1), texts + (0 .. count - 1)) && \separated(ends, texts + (0 .. count - 1))
      && \separated(room + (0 .. size - 1), ends);
    requires \forall integer i; 0 <= i < count ==>
      \separated(room + (0 .. size - 1), texts[i].name.ptr + (0 .. texts[i].name.len - 1))
      && \separated(room + (0 .. size - 1), texts[i].text.ptr + (0 .. texts[i].text.len - 1))
      && \separated(ends, texts[i].name.ptr + (0 .. texts[i].name.len - 1))
      && \separated(ends, texts[i].text.ptr + (0 .. texts[i].text.len - 1));
    assigns room[0 .. size - 1], *ends, \result
      \from bytes, len, bytes[0 .. len - 1], texts, count, texts[0 .. count - 1], index, room, size, *ends;
    ensures which: \result <= POKIT_NO_ROOM;
    // follows from written's IsExpanded
    ensures inside: \result == POKIT_WRITTEN ==> ends->original <= ends->translation <= size;
    ensures unchanged: \result != POKIT_WRITTEN ==>
      ends->original == \old(ends->original) && ends->translation == \old(ends->translation);
*/
uint32_t pokit_system_message(const uint8_t *bytes, size_t len, const pokit_platform_text *texts, size_t count,
                              uint32_t index, uint8_t *room, size_t size, pokit_ends *ends);

/*@ requires bytes != \null && \valid_read(bytes + (0 .. len - 1));
    requires texts != \null && \valid_read(texts + (0 .. count - 1));
    requires \forall integer i; 0 <= i < count ==> pokit_readable(texts[i].name) && pokit_readable(texts[i].text);
    requires list != \null && \valid(list + (0 .. places - 1));
    requires \forall integer i; 0 <= i < places ==>
      pokit_readable(list[i].original) && pokit_readable(list[i].translation);
    requires room != \null && \valid(room + (0 .. size - 1));
    requires file != \null && \valid(file + (0 .. file_size - 1));
    requires \separated(list + (0 .. places - 1), room + (0 .. size - 1), file + (0 .. file_size - 1),
      bytes + (0 .. len - 1)) && \separated(list + (0 .. places - 1), texts + (0 .. count - 1))
      && \separated(room + (0 .. size - 1), texts + (0 .. count - 1))
      && \separated(file + (0 .. file_size - 1), texts + (0 .. count - 1));
    assigns list[0 .. places - 1], room[0 .. size - 1], file[0 .. file_size - 1], \result
      \from bytes, len, bytes[0 .. len - 1], texts, count, texts[0 .. count - 1], places, size, file_size;
    ensures small: file_size < \result ==> \forall integer i; 0 <= i < file_size ==> file[i] == \old(file[i]);
    ensures unchanged: \result == 0 ==> \forall integer i; 0 <= i < file_size ==> file[i] == \old(file[i]);
*/
uint32_t pokit_expanded_file(const uint8_t *bytes, size_t len, const pokit_platform_text *texts, size_t count,
                             pokit_listed_message *list, size_t places, uint8_t *room, size_t size, uint8_t *file,
                             size_t file_size);

/*@ requires bytes != \null && \valid_read(bytes + (0 .. len - 1));
    assigns \result \from bytes, len, bytes[0 .. len - 1];
    ensures short: len < 28 ==> \result == 0;
*/
uint32_t pokit_message_count(const uint8_t *bytes, size_t len);

/*@ requires bytes != \null && \valid_read(bytes + (0 .. len - 1));
    requires list != \null && \valid(list + (0 .. places - 1));
    requires \forall integer i; 0 <= i < places ==>
      pokit_readable(list[i].original) && pokit_readable(list[i].translation);
    requires file != \null && \valid(file + (0 .. file_size - 1));
    requires \separated(list + (0 .. places - 1), file + (0 .. file_size - 1), bytes + (0 .. len - 1));
    assigns list[0 .. places - 1], file[0 .. file_size - 1], \result
      \from bytes, len, bytes[0 .. len - 1], places, file_size;
    // follows from file's IsWrittenIfItFits
    ensures small: file_size < \result ==> \forall integer i; 0 <= i < file_size ==> file[i] == \old(file[i]);
    ensures unchanged: \result == 0 ==> \forall integer i; 0 <= i < file_size ==> file[i] == \old(file[i]);
*/
uint32_t pokit_sorted_file(const uint8_t *bytes, size_t len, pokit_listed_message *list, size_t places, uint8_t *file,
                           size_t file_size);

/* What is proved of the functions of pokit.h. */

/*@ predicate pokit_is_catalog{L}(pokit_catalog *c) =
      \valid_read(c) && (c->instruction_count != 0 ==> pokit_is_open(c) && pokit_readable(c->bytes));

    // a part of the file
    predicate pokit_is_part{L}(pokit_catalog *c, char *text, integer len) =
      \base_addr(text) == \base_addr(c->bytes.ptr) && 0 <= text - (char *)c->bytes.ptr
      && text - (char *)c->bytes.ptr + len < c->bytes.len;

    predicate pokit_finds{L}(pokit_catalog *c, pokit_query q) =
      c != \null && c->instruction_count != 0 && pokit_translates(c, q);

    logic integer pokit_compared{L}(pokit_catalog *c, pokit_query q) =
      c != \null && c->instruction_count != 0 ? pokit_comparisons(c, q) : 0;

    logic integer pokit_stepped{L}(pokit_catalog *c, pokit_query q) =
      c != \null && c->instruction_count != 0 ? pokit_steps(c, q) : 0;

    // the text of the translation that the export finds
    predicate pokit_is_translation{L}(pokit_catalog *c, pokit_query q, char *text, integer len) =
      text == (char *)c->bytes.ptr + pokit_offset(c, q) && len == pokit_text_len(c, q);

    predicate pokit_is_text{L}(pokit_catalog *c, pokit_query q, pokit_bytes text) =
      (pokit_finds(c, q) ==> pokit_is_part(c, (char *)text.ptr, text.len) && strlen((char *)text.ptr) == text.len
        && pokit_is_translation(c, q, (char *)text.ptr, text.len))
      && (!pokit_finds(c, q) ==> pokit_is_untranslated(q, text));

    predicate pokit_is_answer{L}(pokit_catalog *c, pokit_query q, pokit_answer a) =
      (a.found != 0 <==> pokit_finds(c, q))
      && pokit_is_text(c, q, a.text)
      && a.comparisons == pokit_compared(c, q)
      && a.steps == pokit_stepped(c, q);
*/

/*@ assigns \result \from \nothing;
    ensures pokit_literal(\result);
*/
POKIT_FUNCTION const char *pokit_version(void);

/*@ assigns \nothing;
    ensures \result == 32800;
*/
POKIT_FUNCTION size_t pokit_catalog_size(void);

/*@ assigns \nothing;
    ensures pokit_taken_for((char *)ptr, len, \result);
*/
POKIT_FUNCTION pokit_bytes pokit_bytes_of(const void *ptr, size_t len);

/*@ requires pokit_string_or_null(string);
    assigns \nothing;
    ensures pokit_taken_for(string, strlen(string), \result);
*/
POKIT_FUNCTION pokit_bytes pokit_bytes_of_string(const char *string);

/*@ requires \valid(catalog) && (message == \null || \valid(message));
    requires bytes == \null || \valid_read((char *)bytes + (0 .. len - 1));
    requires \separated(catalog, message) && \separated(catalog, (char *)bytes + (0 .. len - 1))
      && \separated(message, (char *)bytes + (0 .. len - 1));
    assigns *catalog, *message;
    ensures pokit_is_catalog(catalog);
    ensures catalog->instruction_count != 0 <==> \result == POKIT_OK;
    ensures unopened: \result != POKIT_OK ==> catalog->bytes.len == 0 && catalog->nplurals == 0
      && \forall integer i; 0 <= i < 4096 ==> catalog->instructions[i] == \old(catalog->instructions[i]);
    ensures \result == POKIT_OK ==> (char *)catalog->bytes.ptr == (char *)bytes && catalog->bytes.len == len;
    ensures \result == (bytes != \null ? \old(pokit_fault((uint8_t *)bytes, len)) : POKIT_TOO_SHORT);
    ensures message != \null ==> *message ==
      (bytes != \null && \result != POKIT_OK ? \old(pokit_fault_message((uint8_t *)bytes, len)) : 0);
*/
POKIT_FUNCTION enum pokit_error pokit_open(pokit_catalog *catalog, const void *bytes, size_t len, uint32_t *message);

/*@ requires \valid(list + (0 .. places - 1));
    assigns list[0 .. places - 1];
    ensures \forall integer i; 0 <= i < places ==>
      pokit_readable(list[i].original) && pokit_readable(list[i].translation);
*/
static inline void pokit_empty(pokit_listed_message *list, size_t places);

/*@ requires bytes == \null || \valid_read((char *)bytes + (0 .. len - 1));
    requires \valid(list + (0 .. places - 1)) && (list == \null ==> places == 0);
    requires \valid(file + (0 .. file_size - 1)) && (file == \null ==> file_size == 0);
    requires \separated(list + (0 .. places - 1), file + (0 .. file_size - 1), (char *)bytes + (0 .. len - 1));
    assigns list[0 .. places - 1], file[0 .. file_size - 1];
    ensures small: file_size < \result ==> \forall integer i; 0 <= i < file_size ==> file[i] == \old(file[i]);
    ensures unchanged: \result == 0 ==> \forall integer i; 0 <= i < file_size ==> file[i] == \old(file[i]);
*/
POKIT_FUNCTION uint32_t pokit_sort(const void *bytes, size_t len, pokit_listed_message *list, size_t places,
                                   uint8_t *file, size_t file_size);

/*@ requires pokit_is_catalog(catalog);
    assigns \nothing;
    ensures \result == (catalog->instruction_count != 0 ? pokit_messages(catalog) : 0);
*/
POKIT_FUNCTION uint32_t pokit_len(const pokit_catalog *catalog);

/*@ requires pokit_is_query(query);
    assigns \nothing;
    ensures pokit_readable(\result.id) && pokit_readable(\result.context) && pokit_readable(\result.plural);
    ensures pokit_taken_for((char *)query.id.ptr, query.id.len, \result.id);
    ensures query.has_plural != 0 ==> pokit_taken_for((char *)query.plural.ptr, query.plural.len, \result.plural);
    ensures query.has_context == 0 ==> \result.context.len == 0;
    ensures pokit_same_query{Here,Here}(query, \result);
*/
static inline pokit_query pokit_whole(pokit_query query);

/*@ assigns \nothing;
    ensures \result.text == (query.has_plural != 0 && query.count != 1 ? query.plural : query.id);
    ensures \result.found == 0 && \result.comparisons == 0 && \result.steps == 0;
*/
static inline pokit_answer pokit_untranslated(pokit_query query);

/*@ requires \valid_read(catalog) && \valid_read(query) && \valid_read(located);
    requires located->place == POKIT_TRANSLATION ==>
      pokit_readable(catalog->bytes) && located->offset + located->len < catalog->bytes.len;
    assigns \nothing;
    ensures located->place == POKIT_TRANSLATION ==>
      \result.ptr == catalog->bytes.ptr + located->offset && \result.len == located->len;
    ensures located->place == POKIT_PLURAL ==> \result == query->plural;
    ensures located->place == POKIT_MSGID ==> \result == query->id;
*/
static inline pokit_bytes pokit_located_text(const pokit_catalog *catalog, const pokit_query *query,
                                             const pokit_located *located);

/*@ requires pokit_is_catalog(catalog) && pokit_is_query(query);
    assigns \nothing;
    ensures pokit_is_answer(catalog, query, \result);
*/
POKIT_FUNCTION pokit_answer pokit_look(const pokit_catalog *catalog, pokit_query query);

/*@ requires pokit_readable(text);
    assigns \nothing;
    ensures \result != 0 <==> pokit_separates(text);
*/
static inline bool pokit_has_separator(pokit_bytes text);

/*@ requires pokit_string_or_null(context) && pokit_string_or_null(msgid) && pokit_string_or_null(plural);
    assigns \nothing;
    ensures pokit_is_query(\result) && pokit_asks(\result, context, msgid, plural, count);
*/
POKIT_FUNCTION pokit_query pokit_query_of(const char *context, const char *msgid, const char *plural, uint64_t count);

/*@ logic integer pokit_compared_by{L}(pokit_catalog **catalogs, pokit_query q, integer count) =
      count <= 0 ? 0 : pokit_compared_by(catalogs, q, count - 1) + pokit_compared(catalogs[count - 1], q);

    // what the last of those that were asked answers, of which none before it has a translation
    predicate pokit_is_last{L}(pokit_catalog **catalogs, pokit_query q, integer asked, pokit_answer a) =
      (\forall integer i; 0 <= i < asked - 1 ==> !pokit_finds(catalogs[i], q))
      && (a.found != 0 <==> asked > 0 && pokit_finds(catalogs[asked - 1], q))
      && (a.found != 0 ==> pokit_is_text(catalogs[asked - 1], q, a.text))
      && (a.found == 0 ==> pokit_is_untranslated(q, a.text))
      && a.steps == (a.found != 0 ? pokit_stepped(catalogs[asked - 1], q) : 0);
*/

/*@ requires \valid_read(catalogs + (0 .. count - 1)) && count < 0x400000000000000;
    requires \forall integer i; 0 <= i < count ==> catalogs[i] == \null || pokit_is_catalog(catalogs[i]);
    requires pokit_is_query(query);
    assigns \nothing;
    ensures asked: \result.asked <= count;
    ensures no_key: pokit_is_no_key(query) ==> \result.asked == 0;
    ensures all: \result.found == 0 && !pokit_is_no_key(query) ==> \result.asked == count;
    ensures last: \forall pokit_answer a; a.text == \result.text && a.found == \result.found && a.steps == \result.steps
      ==> pokit_is_last(catalogs, query, \result.asked, a);
    ensures comparisons: \result.comparisons == pokit_compared_by(catalogs, query, \result.asked);
*/
POKIT_FUNCTION pokit_chain_answer pokit_look_chain(const pokit_catalog *const *catalogs, size_t count,
                                                   pokit_query query);

/*@ requires pokit_is_catalog(catalog);
    requires context == \null || \valid_read(context + (0 .. context_len - 1));
    requires msgid == \null || \valid_read(msgid + (0 .. msgid_len - 1));
    requires plural == \null || \valid_read(plural + (0 .. plural_len - 1));
    requires answer == \null || \valid(answer) && \separated(answer, catalog)
      && \separated(answer, catalog->bytes.ptr + (0 .. catalog->bytes.len - 1))
      && \separated(answer, context + (0 .. context_len - 1)) && \separated(answer, msgid + (0 .. msgid_len - 1));
    assigns *answer, \result \from *catalog, catalog->bytes.ptr[0 .. catalog->bytes.len - 1],
      context, context[0 .. context_len - 1], context_len, msgid, msgid[0 .. msgid_len - 1], msgid_len,
      plural, plural_len, count;
    ensures found: \forall pokit_query q;
      pokit_asks_bytes(q, context, context_len, msgid, msgid_len, plural, plural_len, count) ==>
        (\result != \null <==> \old(pokit_finds(catalog, q)));
    ensures part: \result != \null ==> valid_read_string(\result)
      && \let text = \result; \old(pokit_is_part(catalog, text, strlen(text)));
    ensures text: \forall pokit_query q;
      pokit_asks_bytes(q, context, context_len, msgid, msgid_len, plural, plural_len, count) ==> \result != \null ==>
        \let text = \result; \let len = strlen(\result); \old(pokit_is_translation(catalog, q, text, len));
    ensures answer_found: answer != \null ==> (answer->found != 0 <==> \result != \null);
    ensures answer_part: answer != \null && \result != \null ==>
      (char *)answer->text.ptr == \result && answer->text.len == strlen(\result);
    ensures answer_untranslated: answer != \null && \result == \null ==>
      (plural != \null && count != 1 ? pokit_taken_for(plural, plural_len, answer->text)
                                     : pokit_taken_for(msgid, msgid_len, answer->text));
    ensures answer_cost: \forall pokit_query q;
      pokit_asks_bytes(q, context, context_len, msgid, msgid_len, plural, plural_len, count) ==> answer != \null ==>
        answer->comparisons == \old(pokit_compared(catalog, q)) && answer->steps == \old(pokit_stepped(catalog, q));
*/
POKIT_FUNCTION const char *pokit_lookup(const pokit_catalog *catalog, const char *context, size_t context_len,
                                        const char *msgid, size_t msgid_len, const char *plural, size_t plural_len,
                                        uint64_t count, pokit_answer *answer);

/*@ // what gettext and its kin answer
    predicate pokit_is_message{L}(pokit_catalog *c, char *context, char *msgid, char *plural, integer count,
                                  char *text) =
      msgid == \null ? text == \null :
        valid_read_string(text)
        && \forall pokit_query q; pokit_asks(q, context, msgid, plural, count) ==>
             (pokit_finds(c, q) ==>
               pokit_is_part(c, text, strlen(text)) && pokit_is_translation(c, q, text, strlen(text)))
             && (!pokit_finds(c, q) ==> text == (plural != \null && count != 1 ? plural : msgid));
*/

/*@ requires pokit_is_catalog(catalog);
    requires pokit_string_or_null(context) && pokit_string_or_null(msgid) && pokit_string_or_null(plural);
    assigns \result \from *catalog, catalog->bytes.ptr[0 .. catalog->bytes.len - 1], context, context[0 ..],
      msgid, msgid[0 ..], plural, plural[0 ..], count;
    ensures pokit_is_message(catalog, context, msgid, plural, count, \result);
*/
POKIT_FUNCTION const char *pokit_npgettext(const pokit_catalog *catalog, const char *context, const char *msgid,
                                           const char *plural, uint64_t count);

/*@ requires pokit_is_catalog(catalog) && pokit_string_or_null(msgid) && pokit_string_or_null(plural);
    assigns \result \from *catalog, catalog->bytes.ptr[0 .. catalog->bytes.len - 1], msgid, msgid[0 ..], plural,
      plural[0 ..], count;
    ensures pokit_is_message(catalog, \null, msgid, plural, count, \result);
*/
POKIT_FUNCTION const char *pokit_ngettext(const pokit_catalog *catalog, const char *msgid, const char *plural,
                                          uint64_t count);

/*@ requires pokit_is_catalog(catalog) && pokit_string_or_null(context) && pokit_string_or_null(msgid);
    assigns \result \from *catalog, catalog->bytes.ptr[0 .. catalog->bytes.len - 1], context, context[0 ..], msgid,
      msgid[0 ..];
    ensures pokit_is_message(catalog, context, msgid, \null, 1, \result);
*/
POKIT_FUNCTION const char *pokit_pgettext(const pokit_catalog *catalog, const char *context, const char *msgid);

/*@ requires pokit_is_catalog(catalog) && pokit_string_or_null(msgid);
    assigns \result \from *catalog, catalog->bytes.ptr[0 .. catalog->bytes.len - 1], msgid, msgid[0 ..];
    ensures pokit_is_message(catalog, \null, msgid, \null, 1, \result);
*/
POKIT_FUNCTION const char *pokit_gettext(const pokit_catalog *catalog, const char *msgid);

/*@ // the query for the header entry
    predicate pokit_asks_header(pokit_query q) =
      q.id.ptr != \null && q.id.len == 0 && q.has_context == 0 && q.has_plural == 0;

    lemma pokit_header_same{L}: \forall pokit_catalog *c, pokit_query p, q;
      pokit_asks_header(p) ==> pokit_asks_header(q) ==>
        (pokit_finds{L}(c, p) <==> pokit_finds{L}(c, q)) && pokit_offset{L}(c, p) == pokit_offset{L}(c, q);

    predicate pokit_is_charset_at{L}(char *s) =
      s[0] == 'c' && s[1] == 'h' && s[2] == 'a' && s[3] == 'r' && s[4] == 's' && s[5] == 'e' && s[6] == 't'
      && s[7] == '=';

    predicate pokit_ends_charset(char c) = c == ' ' || c == '\t' || c == '\r' || c == '\n' || c == ';' || c == 0;

    // where the first "charset=" of a text is
    predicate pokit_is_first_charset{L}(char *s, char *field) =
      \base_addr(field) == \base_addr(s) && 0 <= field - s && field - s + 8 <= strlen(s) && pokit_is_charset_at(field)
      && \forall integer i; 0 <= i < field - s ==> !pokit_is_charset_at(s + i);

    predicate pokit_is_up_to_its_end{L}(char *s, integer len) =
      pokit_ends_charset(s[len]) && \forall integer i; 0 <= i < len ==> !pokit_ends_charset(s[i]);

    // what follows the first "charset=" of a text, up to what ends it; no bytes where there is none
    predicate pokit_is_charset_of{L}(char *s, pokit_bytes b) =
      (b.len == 0 && \forall integer i; 0 <= i && i + 8 <= strlen(s) ==> !pokit_is_charset_at(s + i))
      || (pokit_is_first_charset(s, (char *)b.ptr - 8) && pokit_is_up_to_its_end((char *)b.ptr, b.len));
*/

/*@ requires valid_read_string(value);
    assigns \nothing;
    ensures ends: pokit_is_up_to_its_end(value, \result);
    ensures short: 0 <= \result <= strlen(value);
*/
static inline size_t pokit_charset_len(const char *value);

/*@ requires valid_read_string(text);
    assigns \nothing;
    ensures charset: pokit_is_charset_of(text, \result);
    ensures part: \result.len != 0 ==> \base_addr((char *)\result.ptr) == \base_addr(text)
      && 0 <= (char *)\result.ptr - text && (char *)\result.ptr - text + \result.len <= strlen(text);
    ensures pokit_readable(\result);
*/
static inline pokit_bytes pokit_named_charset(const char *text);

/*@ requires pokit_is_catalog(catalog);
    assigns \nothing;
    ensures \result.len != 0 ==> pokit_is_part(catalog, (char *)\result.ptr, \result.len);
    ensures pokit_readable(\result);
    ensures none: \forall pokit_query q; pokit_asks_header(q) ==> !pokit_finds(catalog, q) ==> \result.len == 0;
    ensures field: \forall pokit_query q; pokit_asks_header(q) ==> pokit_finds(catalog, q) ==>
      pokit_is_charset_of((char *)catalog->bytes.ptr + pokit_offset(catalog, q), \result);
*/
POKIT_FUNCTION pokit_bytes pokit_charset(const pokit_catalog *catalog);

/*@ assigns \result \from error;
    ensures pokit_literal(\result);
*/
POKIT_FUNCTION const char *pokit_error_text(uint32_t error);

/*@ // how long the candidate at a position is, or POKIT_END
    logic integer pokit_len_at{L}(pokit_bytes a, pokit_bytes b, integer offset, integer given) =
      pokit_left(a.ptr, a.len, b.ptr, b.len, offset, given) != 0
        ? pokit_candidate_len(a.ptr, a.len, b.ptr, b.len, offset, given) : POKIT_END;

    logic integer pokit_byte_at{L}(pokit_bytes a, pokit_bytes b, integer offset, integer given, integer i) =
      pokit_candidate_byte(a.ptr, a.len, b.ptr, b.len, offset, given, i);

    // whether a candidate of this length is empty, "." or ".."
    predicate pokit_is_outside{L}(pokit_bytes a, pokit_bytes b, integer offset, integer given, integer len) =
      len == 0 || (len == 1 && pokit_byte_at(a, b, offset, given, 0) == '.')
      || (len == 2 && pokit_byte_at(a, b, offset, given, 0) == '.' && pokit_byte_at(a, b, offset, given, 1) == '.');

    // whether it has the length of one before it in which only parts are left out that differ
    predicate pokit_has_twin{L}(pokit_bytes a, pokit_bytes b, integer offset, integer given, integer len) =
      (given == 1 && pokit_len_at(a, b, offset, 0) == len)
      || ((given == 2 || given == 3) && pokit_len_at(a, b, offset, 1) == len)
      || (given == 4 && (pokit_len_at(a, b, offset, 2) == len || pokit_len_at(a, b, offset, 3) == len));
*/

/*@ requires pokit_readable(locale) && pokit_readable(language) && name != \null && \valid(name + (0 .. size - 1));
    requires \separated(name + (0 .. size - 1), locale.ptr + (0 .. locale.len - 1))
      && \separated(name + (0 .. size - 1), language.ptr + (0 .. language.len - 1));
    assigns name[0 .. size - 1], \result \from locale, locale.ptr[0 .. locale.len - 1], language,
      language.ptr[0 .. language.len - 1], offset, given, size;
    ensures len: \result == \old(pokit_len_at(locale, language, offset, given));
    ensures text: \result <= size && \result != POKIT_END ==> \forall integer i; 0 <= i < \result ==>
      name[i] == \old(pokit_byte_at(locale, language, offset, given, i));
    ensures rest: \forall integer i; (\result <= size && \result != POKIT_END ? \result : 0) <= i < size ==>
      name[i] == \old(name[i]);
*/
static inline size_t pokit_candidate_at(pokit_bytes locale, pokit_bytes language, size_t offset, uint32_t given,
                                        uint8_t *name, size_t size);

/*@ requires pokit_readable(locale) && pokit_readable(language);
    requires len == pokit_len_at(locale, language, offset, given) && len < POKIT_END;
    assigns \nothing;
    ensures outside: \result != 0 <==> pokit_is_outside(locale, language, offset, given, len);
*/
static inline bool pokit_leads_out(pokit_bytes locale, pokit_bytes language, size_t offset, uint32_t given, size_t len);

/*@ requires pokit_readable(locale) && pokit_readable(language) && len < POKIT_END;
    assigns \nothing;
    ensures twin: \result != 0 <==> pokit_has_twin(locale, language, offset, given, len);
*/
static inline bool pokit_is_repeated(pokit_bytes locale, pokit_bytes language, size_t offset, uint32_t given,
                                     size_t len);

/*@ // a candidate that is passed over neither for what it is nor for one before it
    predicate pokit_is_chosen{L}(pokit_bytes a, pokit_bytes b, integer offset, integer given, integer len) =
      pokit_len_at(a, b, offset, given) == len && !pokit_is_outside(a, b, offset, given, len)
      && !pokit_has_twin(a, b, offset, given, len);

    predicate pokit_are_same{L1,L2}(pokit_bytes a, pokit_bytes b) =
      pokit_same{L1,L2}(a.ptr, a.len) && pokit_same{L1,L2}(b.ptr, b.len);

    // a name that isn't empty, "." or ".."
    predicate pokit_names_folder{L}(char *name, integer len) =
      0 < len && !(len == 1 && name[0] == '.') && !(len == 2 && name[0] == '.' && name[1] == '.');

    // how many candidates of these texts there are from a position on
    logic integer pokit_left_from{L1,L2}(pokit_bytes a, pokit_bytes b, pokit_position *at) =
      pokit_left{L1}(a.ptr, a.len, b.ptr, b.len, \at(at->offset, L2), \at(at->given, L2));

    logic integer pokit_left_at{L}(pokit_bytes a, pokit_bytes b, pokit_position at) =
      pokit_left(a.ptr, a.len, b.ptr, b.len, at.offset, at.given);
*/

/*@ requires pokit_readable(locale) && pokit_readable(language);
    requires \valid(next) && name != \null && \valid(name + (0 .. size - 1));
    requires \separated(name + (0 .. size - 1), locale.ptr + (0 .. locale.len - 1))
      && \separated(name + (0 .. size - 1), language.ptr + (0 .. language.len - 1))
      && \separated(name + (0 .. size - 1), next);
    requires \separated(next, locale.ptr + (0 .. locale.len - 1))
      && \separated(next, language.ptr + (0 .. language.len - 1));
    assigns *next, name[0 .. size - 1], \result
      \from *next, locale, locale.ptr[0 .. locale.len - 1], language, language.ptr[0 .. language.len - 1], size;
    ensures short: \result == POKIT_END || \result <= locale.len + language.len;
    ensures later: \result != POKIT_END ==>
      pokit_left_from{Pre,Post}(locale, language, next) < \old(pokit_left_from{Pre,Pre}(locale, language, next));
    ensures chosen: \result != POKIT_END ==> \exists size_t offset, uint32_t given;
      pokit_is_chosen{Pre}(locale, language, offset, given, \result)
      && pokit_left{Pre}(locale.ptr, locale.len, language.ptr, language.len, offset, given) ==
        pokit_left_from{Pre,Post}(locale, language, next) + 1;
    ensures folder: \result != POKIT_END && \result <= size ==> pokit_names_folder((char *)name, \result);
*/
static inline size_t pokit_next_name(pokit_bytes locale, pokit_bytes language, pokit_position *next, uint8_t *name,
                                     size_t size);

/*@ requires folder_len < 0x1000000000000000 && category_len < 0x1000000000000000 && domain_len < 0x1000000000000000
      && name_len < 0x2000000000000000;
    requires \valid(path + (0 .. folder_len + name_len + category_len + domain_len + 6));
    requires \valid_read(folder + (0 .. folder_len - 1)) && \valid_read(category + (0 .. category_len - 1))
      && \valid_read(domain + (0 .. domain_len - 1));
    requires \separated(path + (0 .. folder_len + name_len + category_len + domain_len + 6),
                        folder + (0 .. folder_len - 1));
    requires \separated(path + (0 .. folder_len + name_len + category_len + domain_len + 6),
                        category + (0 .. category_len - 1));
    requires \separated(path + (0 .. folder_len + name_len + category_len + domain_len + 6),
                        domain + (0 .. domain_len - 1));
    assigns path[0 .. folder_len], path[folder_len + 1 + name_len ..
      folder_len + name_len + category_len + domain_len + 6] \from folder[0 .. folder_len - 1], folder_len, name_len,
      category[0 .. category_len - 1], category_len, domain[0 .. domain_len - 1], domain_len;
    ensures ends: path[folder_len + name_len + category_len + domain_len + 6] == 0;
*/
static inline void pokit_write_around(char *path, const char *folder, size_t folder_len, size_t name_len,
                                      const char *category, size_t category_len, const char *domain, size_t domain_len);

/*@ // how many candidates of these texts a walk has before it
    logic integer pokit_to_come{L1,L2}(char *locale, char *language, pokit_walk *walk) =
      pokit_left{L1}((uint8_t *)locale, locale == \null ? 0 : strlen{L1}(locale), (uint8_t *)language,
                     language == \null ? 0 : strlen{L1}(language),
                     \at(walk->next.offset, L2), \at(walk->next.given, L2));

    // a walk that begins, or goes on with the same LANGUAGE
    predicate pokit_is_walk{L}(pokit_walk *walk, char *language) =
      (walk->next.offset == 0 && walk->next.given == 0) || language == \null || walk->language_len == strlen(language);

    // how many bytes a path has around the name
    logic integer pokit_around{L}(char *folder, char *category, char *domain) =
      strlen(folder) + strlen(category) + strlen(domain) + 6;
*/

/*@ requires pokit_part(folder) && pokit_part(category) && pokit_part(domain);
    requires (locale == \null || pokit_part(locale)) && (language == \null || pokit_part(language));
    requires \valid(walk) && 0 < size && \valid(path + (0 .. size - 1)) && \separated(walk, path + (0 .. size - 1));
    requires pokit_is_apart(walk, path, size, folder) && pokit_is_apart(walk, path, size, category)
      && pokit_is_apart(walk, path, size, domain);
    requires (locale != \null ==> pokit_is_apart(walk, path, size, locale))
      && (language != \null ==> pokit_is_apart(walk, path, size, language));
    requires pokit_is_walk(walk, language);
    assigns *walk, path[0 .. size - 1];
    ensures empty: \result == 0 || \result >= size ==> path[0] == 0;
    ensures ends: 0 < \result < size ==> path[\result] == 0;
    ensures longer: \result == 0 || \result > \old(pokit_around(folder, category, domain));
    ensures folder: 0 < \result < size ==> pokit_names_folder(path + \old(strlen(folder)) + 1,
      \result - \old(pokit_around(folder, category, domain)));
    ensures walk: (walk->next.offset == 0 && walk->next.given == 0) || language == \null
      || walk->language_len == \old(strlen(language));
    ensures later: \result != 0 ==>
      pokit_to_come{Pre,Post}(locale, language, walk) < \old(pokit_to_come{Pre,Pre}(locale, language, walk));
*/
POKIT_FUNCTION size_t pokit_path(const char *folder, const char *category, const char *domain, const char *locale,
                                 const char *language, pokit_walk *walk, char *path, size_t size);
