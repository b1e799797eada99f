/* pokit.h: look up the messages of GNU gettext's MO files. pokit(3) has a table of its functions.
 *
 *     #include <pokit.h>                    link with -lpokit
 *
 *     static pokit_catalog catalog;         33 KB: static or allocated, not on a small stack
 *     if (pokit_open(&catalog, bytes, len, NULL) != POKIT_OK) { ... }
 *     puts(pokit_gettext(&catalog, "Bookshelf"));
 *     printf(pokit_ngettext(&catalog, "%d book", "%d books", (uint64_t)n), n);
 *
 * First stand the functions with what they return, then the structs, and then what else there is to know. The bodies of
 * the functions that are inline in C are in pokit_inline.h. */
#ifndef POKIT_H
#define POKIT_H

#define POKIT_VERSION_MAJOR 0
#define POKIT_VERSION_MINOR 2
#define POKIT_VERSION "0.2"

#include <stddef.h>
#include <stdint.h>
#include <string.h>
#ifndef __cplusplus
#include <stdbool.h>
#endif

/* What a function of this header is: inline in C, and an export in libpokit.so. */
#ifndef POKIT_FUNCTION
#define POKIT_FUNCTION static inline
#endif

/* The answer is a format where argument `n` is one. */
#if defined __GNUC__ && !defined __FRAMAC__
#define POKIT_FORMAT_ARG(n) __attribute__((format_arg(n)))
#else
#define POKIT_FORMAT_ARG(n)
#endif

#ifdef __cplusplus
extern "C" {
#endif

/* Why bytes are no MO file. The first of these that holds is reported; of the last three, the first message for which
 * it holds. */
enum pokit_error {
    POKIT_OK = 0,
    POKIT_TOO_SHORT = 1,      /* shorter than the 28 bytes of the file header */
    POKIT_BAD_MAGIC = 2,      /* the magic number is that of neither byte order */
    POKIT_BAD_REVISION = 3,   /* the major revision isn't 0 or 1 */
    POKIT_TABLE_OUTSIDE = 4,  /* a table of strings ends after the file's end */
    POKIT_STRING_OUTSIDE = 5, /* a string ends after the file's end */
    POKIT_NO_TERMINATOR = 6,  /* no NUL follows a string */
    POKIT_NOT_SORTED = 7      /* a key isn't above the one before it */
};

typedef struct pokit_bytes pokit_bytes;
typedef struct pokit_catalog pokit_catalog;
typedef struct pokit_query pokit_query;
typedef struct pokit_answer pokit_answer;
typedef struct pokit_chain_answer pokit_chain_answer;
typedef struct pokit_walk pokit_walk;

/* Opens the `len` bytes of a file: POKIT_OK, or its fault. Then `*message` is the index of the message that has it,
 * counted from 0, for POKIT_STRING_OUTSIDE and those after it, and 0 for the faults before, which no message has; and
 * the catalogue is one that isn't open: it has no message. `catalog` isn't NULL. `bytes` may be, and is then a file of
 * no bytes; `message` may be NULL too. */
POKIT_FUNCTION enum pokit_error pokit_open(pokit_catalog *catalog, const void *bytes, size_t len, uint32_t *message);

/* The text of a fault, as "file too short". */
POKIT_FUNCTION const char *pokit_error_text(uint32_t error);

/* The translation of a message, as a C string; or the msgid where there is none, or where the catalogue isn't open.
 * Where `msgid` is NULL the answer is NULL. */
POKIT_FORMAT_ARG(2)
POKIT_FUNCTION const char *pokit_gettext(const pokit_catalog *catalog, const char *msgid);

/* The same of a message with a context, which may be NULL: there is none. */
POKIT_FORMAT_ARG(3)
POKIT_FUNCTION const char *pokit_pgettext(const pokit_catalog *catalog, const char *context, const char *msgid);

/* The plural form of a count; or the msgid where there is none, and for a count that isn't 1 the plural. The plural may
 * be NULL: no form is asked for, and the count isn't read. */
POKIT_FORMAT_ARG(2) POKIT_FORMAT_ARG(3)
POKIT_FUNCTION const char *pokit_ngettext(const pokit_catalog *catalog, const char *msgid, const char *plural,
                                          uint64_t count);
POKIT_FORMAT_ARG(3) POKIT_FORMAT_ARG(4)
POKIT_FUNCTION const char *pokit_npgettext(const pokit_catalog *catalog, const char *context, const char *msgid,
                                           const char *plural, uint64_t count);

/* The answer to a query of bytes with lengths: its text, whether that is a translation, and what the look-up cost. Where
 * there is no translation the text is the msgid, or the plural for a count that isn't 1. A context or a msgid that holds
 * a byte 0 or 4 has none. Pointers of the query may be NULL, for no bytes. */
POKIT_FUNCTION pokit_answer pokit_look(const pokit_catalog *catalog, pokit_query query);

/* The query of C strings. The context may be NULL, and so may the plural. */
POKIT_FUNCTION pokit_query pokit_query_of(const char *context, const char *msgid, const char *plural, uint64_t count);

/* The answer of the first of `count` catalogues that has a translation. For a context or a msgid that holds a byte 0 or
 * 4 none is asked. A member that is NULL, or that isn't open, has no message. */
POKIT_FUNCTION pokit_chain_answer pokit_look_chain(const pokit_catalog *const *catalogs, size_t count,
                                                   pokit_query query);

/* The translation, which a NUL follows and which has none inside, or NULL where there is none: for other languages, with
 * plain arguments. A context or a plural that is NULL isn't there. `answer` may be NULL; else it is what pokit_look
 * answers. */
POKIT_FUNCTION const char *pokit_lookup(const pokit_catalog *catalog, const char *context, size_t context_len,
                                        const char *msgid, size_t msgid_len, const char *plural, size_t plural_len,
                                        uint64_t count, pokit_answer *answer);

/* How many messages a catalogue has, its header entry among them: 0 where it isn't open. */
POKIT_FUNCTION uint32_t pokit_len(const pokit_catalog *catalog);

/* The charset of the texts, as "UTF-8": what follows the first "charset=" of the header entry, up to a blank, a line's
 * end or a semicolon. It is a part of the file, and no NUL follows it. No bytes where the header entry names none. */
POKIT_FUNCTION pokit_bytes pokit_charset(const pokit_catalog *catalog);

/* Writes the path of the next catalogue for a locale and LANGUAGE: its length, or 0 after the last one ("Paths"). */
POKIT_FUNCTION size_t pokit_path(const char *folder, const char *category, const char *domain, const char *locale,
                                 const char *language, pokit_walk *walk, char *path, size_t size);

/* How many bytes a catalogue has, for those who can't see the struct. They are aligned to 8. */
POKIT_FUNCTION size_t pokit_catalog_size(void);

/* The version of this header; of libpokit.so, that of the library. */
POKIT_FUNCTION const char *pokit_version(void);

/* Bytes, and those of a C string; no bytes where the pointer is NULL, and then one that isn't. */
POKIT_FUNCTION pokit_bytes pokit_bytes_of(const void *ptr, size_t len);
POKIT_FUNCTION pokit_bytes pokit_bytes_of_string(const char *string);

/* Bytes that belong to somebody else. */
struct pokit_bytes {
    const uint8_t *ptr;
    size_t len;
};

/* An instruction of the program that computes a plural expression, as plural_rule's Instruction documents it:
 * `operation` is its operator. */
typedef struct pokit_instruction {
    uint8_t kind;
    uint8_t operation;
    uint16_t count;
    uint32_t number;
} pokit_instruction;

/* A catalogue: 32,800 bytes. A program only reads it by the functions of this header. Each look-up relies on it and on
 * its bytes being as pokit_open left them. It may be copied and moved. */
struct pokit_catalog {
    pokit_bytes bytes;
    uint64_t nplurals;
    uint32_t instruction_count; /* how many instructions the program has; 0 in a catalogue that isn't open */
    pokit_instruction instructions[4096];
};

/* What is asked. A query of all zeros asks for the empty msgid, which is the header entry. A context, a plural and a
 * count that aren't given are not read. */
struct pokit_query {
    pokit_bytes context;
    pokit_bytes id;
    pokit_bytes plural;
    uint64_t count;
    uint8_t has_context; /* whether a context is given: 0 is no, and anything else yes */
    uint8_t has_plural;  /* whether a plural and a count are */
};

/* What is answered. */
struct pokit_answer {
    pokit_bytes text;     /* a NUL follows it where it is a translation */
    uint32_t comparisons; /* how many keys were compared with the query's */
    uint32_t steps;       /* how many nodes of the plural expression were evaluated */
    bool found;           /* whether it is a translation */
};

/* What a chain of catalogues answers. */
struct pokit_chain_answer {
    pokit_bytes text;     /* a NUL follows it where it is a translation */
    uint64_t comparisons; /* how many keys were compared, in all catalogues that were asked */
    size_t asked;         /* how many members were asked: where there is a translation, the last of them has it */
    uint32_t steps;       /* how many nodes of the answering catalogue's plural expression were evaluated */
    bool found;           /* whether it is a translation */
};

/* Where a walk over the candidates of a locale and LANGUAGE is. All zeros are its beginning. */
typedef struct pokit_position {
    size_t offset;  /* how many bytes of LANGUAGE it has passed */
    uint32_t given; /* how many candidates of the next language were given */
} pokit_position;

/* Where a walk over paths is. All zeros are its beginning, and pokit_path sets the rest. */
struct pokit_walk {
    pokit_position next;
    size_t language_len;
};

/* What there is to know.
 *
 * pokit_open checks the bytes of a file of any origin, in either byte order, and reports its first fault by name. After
 * that a look-up makes at most floor(log2 N) + 1 comparisons among N messages and evaluates each node of the plural
 * expression at most once. Nothing is allocated and nothing is to be freed; there is no locale, no errno and no global
 * state. The library is proved to meet its contracts; the inline functions aren't part of that proof, and have one of
 * their own, with Frama-C (pokit.acsl.h).
 *
 * Who owns what. The caller owns the catalogue and the bytes. A catalogue refers to the bytes, so they outlive it and
 * don't change while it is in use. The text of an answer is a part of these bytes, or the msgid or plural of the
 * caller; it is never freed, and lives as long as what it is a part of.
 *
 * Files. Map a file, or read it into memory. A program that replaces a catalogue which others may have mapped writes a
 * new file beside the old one and renames it over the old one: what is mapped then stays as it was checked. A file
 * that is written in place changes bytes that were checked, and a look-up may then read outside of them.
 *
 * Threads. A look-up changes nothing but the answer, so any number of threads may ask one catalogue at a time, once
 * the call of pokit_open has returned. pokit_open writes the catalogue and is called by one thread.
 *
 * Stack. pokit_open takes less than 1 KB of the stack where the plural expression has at most 240 bytes, and up to
 * 9 KB where it has more. A look-up takes less than 1 KB where the program of the expression has at most 128
 * instructions, which is more than any language needs, and up to 17 KB where it has more. pokit_sorted_file takes some
 * 3 KB for 100,000 messages.
 *
 * Charsets. A text is the bytes of the file: nothing is converted.
 *
 * Paths. pokit_path writes the path FOLDER/NAME/CATEGORY/DOMAIN.mo of the next candidate of a locale and LANGUAGE, with
 * a NUL, and answers its length, or 0 after the last one. `walk` is all zeros before the first call, and the texts are
 * the same ones in all calls. Where the path doesn't fit into `size` bytes, of which there is at least one, its length
 * is answered and the path is empty. Passed over are names that are empty, "." or "..", and each that its language has
 * stood for before; a name that two languages stand for, as "de" in "de_AT:de_CH", comes for each. A walk takes time in
 * proportion to LANGUAGE, and for each path to the other texts. The locale and LANGUAGE may be NULL: they are unset. A
 * domain that is empty or has a slash has no path. A common folder is "/usr/share/locale", a common category
 * "LC_MESSAGES". Neither `path` nor `walk` overlaps the texts or the other; each text has less than 2^60 bytes.
 *
 * Other languages. libpokit.so exports the functions that are marked with POKIT_FUNCTION here, which are inline in C, and
 * those of libpokit.a.
 *
 * Works from C99 and from C++11, where a pointer and a size_t have 64 bits: on x86-64 Linux, where all tests run, and
 * on aarch64 Linux, where they were run under qemu. */

/* Which text an answer is. */
enum pokit_place {
    POKIT_MSGID = 0,      /* the msgid of the query */
    POKIT_PLURAL = 1,     /* its plural */
    POKIT_TRANSLATION = 2 /* a form of the translation, which is in the file */
};

/* Where the text of an answer is, as pokit_catalog_look says it. */
typedef struct pokit_located {
    size_t offset;        /* where the text begins in the file; 0 where it is the msgid or the plural */
    size_t len;           /* how many bytes it has there, and after them a NUL; 0 where it is the msgid or the plural */
    uint32_t comparisons; /* how many keys were compared with the query's */
    uint32_t steps;       /* how many nodes of the plural expression were evaluated */
    uint32_t place;       /* which text it is, an enum pokit_place */
} pokit_located;

/* What a platform has in place of a name in system-dependent strings: for PRIu64 it may be "lu". */
typedef struct pokit_platform_text {
    pokit_bytes name;
    pokit_bytes text;
} pokit_platform_text;

/* A message of a file, as pokit_expanded_file and pokit_sorted_file list them. */
typedef struct pokit_listed_message {
    pokit_bytes original;
    pokit_bytes translation;
} pokit_listed_message;

/* Where the strings of a system-dependent message end in the room that they were written to. */
typedef struct pokit_ends {
    size_t original;    /* the end of the original, which begins at 0 */
    size_t translation; /* the end of the translation, which begins where the original ends */
} pokit_ends;

/* What has become of such a message. */
enum pokit_written {
    POKIT_WRITTEN = 0,
    POKIT_NO_MESSAGE = 1, /* a text that it needs isn't given, or a string of it isn't well formed */
    POKIT_NO_ROOM = 2
};

/* The exports of libpokit.a, which are proved. No pointer is NULL, not even that of no bytes: the functions above see to
 * that. */

uint32_t pokit_catalog_open(pokit_catalog *catalog, const uint8_t *bytes, size_t len, uint32_t *message);
uint32_t pokit_catalog_len(const pokit_catalog *catalog);
void pokit_catalog_look(const pokit_catalog *catalog, const pokit_query *query, pokit_located *located);

/* The next candidate of a locale ("de_DE.UTF-8") and the value of LANGUAGE, of which no bytes are an unset one: the
 * names of locales whose catalogues are looked for, the first to be asked first. They are five for each language in
 * LANGUAGE, or for the locale where LANGUAGE is unset: of L_T.C@M the name itself, L_T@M, L@M, L_T and L; some may be
 * equal. There are none without a locale, in C and POSIX, and in a locale whose name has a slash; a part of LANGUAGE
 * that is empty or has a slash has none, and C or POSIX in LANGUAGE ends the list. The result is the length of the
 * name, and `position` is then that of the one after it; or POKIT_END where there is none more. A name of no more than
 * `size` bytes is written to the beginning of `name`, without a NUL; else `name` stays as it is. A locale without a
 * language, as "@euro", has empty names among its candidates: pass them over, and "." and "..", which lead out of a
 * folder. A call takes time in proportion to the locale's name and to the part of LANGUAGE that it passes. */
#define POKIT_END SIZE_MAX
size_t pokit_candidate(const uint8_t *locale, size_t locale_len, const uint8_t *language, size_t language_len,
                       pokit_position *position, uint8_t *name, size_t size);

/* System-dependent messages. Strings of a file whose minor revision is 1 or above may have names in them, as PRIu64,
 * for which each platform has texts of its own. Such messages stand in tables of their own, where no look-up finds
 * them. pokit_system_count says how many a file has. pokit_system_message completes one, counted from 0, by texts:
 * it writes the original and then the translation to the beginning of `room`, without a NUL after either, and says
 * where they end. Else the result is an enum pokit_written, `ends` is as it was, and what the room has is left open.
 * No more than `size` bytes are written. The bytes of the file may be any, and each call takes time in proportion to
 * what it writes and to the number of texts; a string has 256 segments at most. A program that wants them found
 * opens an expanded file, as the drop-in for libintl does. */
uint32_t pokit_system_count(const uint8_t *bytes, size_t len);
uint32_t pokit_system_message(const uint8_t *bytes, size_t len, const pokit_platform_text *texts, size_t count,
                              uint32_t index, uint8_t *room, size_t size, pokit_ends *ends);

/* Expands a file into one without system-dependent messages: the messages of the file, and those that
 * pokit_system_message completes and whose keys the file lacks, in rising order of their keys. The result is how long
 * the new file is; where it has no more than `file_size` bytes it stands at the beginning of `file`, and
 * pokit_catalog_open takes it. Else `file` stays as it is, so that a call with no room at all says how much is wanted.
 * The result is 0 where there is no such file: the bytes aren't an MO file; `list` has fewer places than the messages
 * of the file and pokit_system_count together; `room` is too short for the strings that are completed; or the new file
 * would have 2^32 bytes or more. What `list` and `room` have is left open; before the call no pointer in the list is
 * NULL. A call takes time in proportion to both files, and for each system-dependent message to the places. */
uint32_t pokit_expanded_file(const uint8_t *bytes, size_t len, const pokit_platform_text *texts, size_t count,
                             pokit_listed_message *list, size_t places, uint8_t *room, size_t size, uint8_t *file,
                             size_t file_size);

/* Puts the messages of a file in rising order of their keys. pokit_open refuses a file with POKIT_NOT_SORTED whose keys
 * are out of order, as `pybabel compile` writes it of a catalogue with contexts. Where it has no other fault, and no two
 * of its messages have one key, the file of the same messages in order is made: the result is how long it is; where it
 * has no more than `file_size` bytes it stands at the beginning of `file`, and pokit_catalog_open takes it. Else `file`
 * stays as it is, so that a call with no room at all says how much is wanted. Of a valid file too a file in order is
 * made. The result is 0 where there is none: the bytes have another fault; two messages have one key; `list` has fewer
 * places than pokit_message_count says; or the new file would have 2^32 bytes or more. The new file is in the byte order
 * of the old one, and has none of its system-dependent messages. What `list` has is left open; before the call no
 * pointer in it is NULL. A call takes time in proportion to both files, and n log n comparisons of keys for n messages.
 *
 * pokit_message_count says how many messages a file has by its file header, which may be false: it is true where
 * pokit_open succeeds or says POKIT_NOT_SORTED. It is 0 for bytes that have no file header. */
uint32_t pokit_message_count(const uint8_t *bytes, size_t len);
uint32_t pokit_sorted_file(const uint8_t *bytes, size_t len, pokit_listed_message *list, size_t places, uint8_t *file,
                           size_t file_size);

/* The same in a list whose places may have any values. `bytes` may be NULL, and is then a file of no bytes; `list` where
 * it has no places, and `file` where it has no bytes: so pokit_sort(bytes, len, list, places, NULL, 0) says how long the
 * file in order is. */
POKIT_FUNCTION uint32_t pokit_sort(const void *bytes, size_t len, pokit_listed_message *list, size_t places,
                                   uint8_t *file, size_t file_size);

#include "pokit_inline.h"

#ifdef __cplusplus
}
#endif

#endif
