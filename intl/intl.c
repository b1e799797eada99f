/* A drop-in for libintl over libpokit: gettext and its kin, as glibc and GNU libintl have them, for programs that exist.
 * pokit-intl(7) documents what a user meets.
 *
 * A catalogue is read into pages of our own, checked there, and the pages are made read-only: what libpokit relies on
 * holds whatever becomes of the file. What was read stays for ever, and so does every text that was answered.
 *
 * A view is what a call names: domain, category, locale and codeset. Its chain has the catalogues that were found so
 * far, and is found anew when the stamp has changed. Views, chains, links and texts are never changed once another
 * thread can see them, but for atomic pointers that go from NULL to what was found. So a message of a catalogue that
 * was loaded is answered without a lock and without a write. All else is done under one lock, but for what may wait for
 * another thread that wants a message: it loads libraries (iconv_open, dlsym) or may do so (iconv, malloc). */
#define _GNU_SOURCE
#include <errno.h>
#include <fcntl.h>
#include <inttypes.h>
#include <iconv.h>
#include <langinfo.h>
#include <limits.h>
#include <locale.h>
#include <pokit.h>
#include <pthread.h>
#include <signal.h>
#include <stdatomic.h>
#include <stdio.h>
#include <stdlib.h>
#include <sys/mman.h>
#include <sys/stat.h>
#include <sys/syscall.h>
#include <unistd.h>
#ifdef POKIT_INTL_FORWARD
#include <dlfcn.h>
#endif

#ifndef POKIT_LOCALEDIR
#define POKIT_LOCALEDIR "/usr/share/locale"
#endif

#define EXPORT __attribute__((visibility("default")))

#include "memory.inc"

#include "expanded.inc"

#include "files.inc"

#include "charsets.inc"

#include "views.inc"

enum {
    SMALL_RULE = 128, /* instructions of a plural expression that libpokit evaluates on 1 KB of stack */
    EOT = 4           /* stands between context and msgid */
};

static const char default_domain[] = "messages";
static _Atomic(const char *) current_domain = default_domain;

/* What is asked of a catalogue, and what it answers. */
struct question {
    const pokit_catalog *catalog;
    const char *context, *msgid, *plural;
    size_t context_len, msgid_len;
    uint64_t count;
    pokit_answer answer;
};

static void *look(void *argument)
{
    struct question *it = argument;
    pokit_lookup(it->catalog, it->context, it->context_len, it->msgid, it->msgid_len, it->plural, 0, it->count,
                 &it->answer);
    return NULL;
}

/* The translation in a catalogue of a chain, or NULL. */
static const char *answer_of(const struct link *link, struct question *question)
{
    question->catalog = link->catalog;
    question->answer.found = false;
    if (question->plural != NULL && link->catalog->instruction_count > SMALL_RULE)
        on_large_stack(look, question);
    else
        look(question);
    if (!question->answer.found)
        return NULL;
    if (link->conversion != NULL)
        return converted(link->conversion, question->answer.text);
    return (const char *)question->answer.text.ptr;
}

static const char *translation(const char *domain, const char *msgid, const char *plural, uint64_t count, int category)
{
    struct question question = {.msgid = msgid, .msgid_len = strlen(msgid), .plural = plural, .count = count};
    const char *separator = memchr(msgid, EOT, question.msgid_len), *text = NULL;
    struct chain *chain = chain_of(domain, category);
    struct link *link;
    if (chain == NULL)
        return NULL;
    if (separator != NULL) {
        question.context = msgid;
        question.context_len = (size_t)(separator - msgid);
        question.msgid = separator + 1;
        question.msgid_len -= question.context_len + 1;
    }
    link = link_at(chain, &chain->first);
    while (link != NULL && link != &end && (text = answer_of(link, &question)) == NULL)
        link = link_at(chain, &link->next);
    return text;
}

/* The translation, or the msgid or plural. `has_plural` isn't `plural != NULL`: libintl takes a plural that is NULL. */
static char *answer(const char *domain, const char *msgid, const char *plural, bool has_plural, uint64_t count,
                    int category)
{
    int error = errno;
    const char *text = NULL;
    if (domain == NULL)
        domain = atomic_load_explicit(&current_domain, memory_order_acquire);
    if (msgid != NULL && category_name(category) != NULL)
        text = translation(domain, msgid, has_plural ? "" : NULL, count, category);
    if (text == NULL)
        text = has_plural && count != 1 ? plural : msgid;
    errno = error;
    return (char *)(uintptr_t)text;
}

EXPORT char *gettext(const char *msgid)
{
    return answer(NULL, msgid, NULL, false, 1, LC_MESSAGES);
}

EXPORT char *dgettext(const char *domain, const char *msgid)
{
    return answer(domain, msgid, NULL, false, 1, LC_MESSAGES);
}

EXPORT char *dcgettext(const char *domain, const char *msgid, int category)
{
    return answer(domain, msgid, NULL, false, 1, category);
}

EXPORT char *ngettext(const char *msgid, const char *plural, unsigned long count)
{
    return answer(NULL, msgid, plural, true, count, LC_MESSAGES);
}

EXPORT char *dngettext(const char *domain, const char *msgid, const char *plural, unsigned long count)
{
    return answer(domain, msgid, plural, true, count, LC_MESSAGES);
}

EXPORT char *dcngettext(const char *domain, const char *msgid, const char *plural, unsigned long count, int category)
{
    return answer(domain, msgid, plural, true, count, category);
}

/* libc's own functions of settings. */
enum setter { TEXTDOMAIN, BINDTEXTDOMAIN, BIND_TEXTDOMAIN_CODESET, SETTERS };

/* One of them, or NULL. They are looked for when the library is loaded, or where a setting comes before that: without
 * the lock, since dlsym may wait for a thread that loads another library. */
static void *setter_of(enum setter which)
{
#ifdef POKIT_INTL_FORWARD
    static const char *const names[SETTERS] = {"textdomain", "bindtextdomain", "bind_textdomain_codeset"};
    static _Atomic(void *) found[SETTERS];
    void *setter = atomic_load_explicit(&found[which], memory_order_relaxed);
    if (setter == NULL) {
        setter = dlsym(RTLD_NEXT, names[which]);
        atomic_store_explicit(&found[which], setter, memory_order_relaxed);
    }
    return setter;
#else
    (void)which;
    return NULL;
#endif
}

/* Tells libc's own function of a setting, for what asks it from inside libc, as argp does for a program's texts. This is
 * done under the lock, so that no thread is in there while another one forks. */
static void forward(void *setter, const char *domain, const char *value)
{
    union {
        void *found;
        char *(*of_two)(const char *, const char *);
        char *(*of_one)(const char *);
    } next = {setter};
    if (next.found != NULL && value != NULL)
        next.of_two(domain, value);
    else if (next.found != NULL)
        next.of_one(domain);
}

__attribute__((constructor)) static void start(void)
{
    pthread_atfork(before_fork, after_fork, start_child);
    if (syscall(SYS_gettid) == getpid())
        is_first_inside = &is_inside;
    for (enum setter which = TEXTDOMAIN; which < SETTERS; which++)
        setter_of(which);
}

EXPORT char *textdomain(const char *domain)
{
    const char *chosen = atomic_load_explicit(&current_domain, memory_order_acquire);
    if (domain == NULL)
        return (char *)(uintptr_t)chosen;
    void *setter = setter_of(TEXTDOMAIN);
    if (!enter())
        return NULL;
    chosen = domain[0] == 0 ? default_domain : interned(domain);
    if (chosen != NULL) {
        atomic_store_explicit(&current_domain, chosen, memory_order_release);
        atomic_fetch_add_explicit(&changes, 1, memory_order_release);
        forward(setter, chosen, NULL);
    }
    leave();
    return (char *)(uintptr_t)chosen;
}

static struct binding *add_binding(const char *domain)
{
    struct binding *it = take(sizeof *it);
    const char *name = interned(domain);
    if (it == NULL || name == NULL)
        return NULL;
    it->domain = name;
    it->next = bindings;
    bindings = it;
    return it;
}

/* Sets the folder or the codeset of a domain. Returns it, or NULL where memory is missing. */
static const char *bind(const char *domain, const char *value, bool is_folder)
{
    const char *kept, **place;
    struct binding *it;
    void *setter = setter_of(is_folder ? BINDTEXTDOMAIN : BIND_TEXTDOMAIN_CODESET);
    if (!enter())
        return NULL;
    kept = interned(value);
    it = binding_of(domain);
    it = it != NULL || kept == NULL ? it : add_binding(domain);
    if (it == NULL)
        kept = NULL;
    if (kept != NULL) {
        place = is_folder ? &it->folder : &it->codeset;
        if (*place != kept)
            atomic_fetch_add_explicit(&changes, 1, memory_order_release);
        *place = kept;
        forward(setter, domain, kept);
    }
    leave();
    return kept;
}

static const char *bound(const char *domain, bool is_folder)
{
    const char *value = NULL;
    if (enter()) {
        const struct binding *it = binding_of(domain);
        if (it != NULL)
            value = is_folder ? it->folder : it->codeset;
        leave();
    }
    return value != NULL || !is_folder ? value : POKIT_LOCALEDIR;
}

EXPORT char *bindtextdomain(const char *domain, const char *folder)
{
    const char *value = NULL;
    if (domain != NULL && domain[0] != 0)
        value = folder != NULL ? bind(domain, folder, true) : bound(domain, true);
    return (char *)(uintptr_t)value;
}

EXPORT char *bind_textdomain_codeset(const char *domain, const char *codeset)
{
    const char *value = NULL;
    if (domain != NULL && domain[0] != 0)
        value = codeset != NULL ? bind(domain, codeset, false) : bound(domain, false);
    return (char *)(uintptr_t)value;
}

/* The names of GNU libintl, which its header puts in place of those above. */
#define SAME_AS(name) EXPORT __attribute__((alias(#name)))
SAME_AS(gettext) char *libintl_gettext(const char *msgid);
SAME_AS(dgettext) char *libintl_dgettext(const char *domain, const char *msgid);
SAME_AS(dcgettext) char *libintl_dcgettext(const char *domain, const char *msgid, int category);
SAME_AS(ngettext) char *libintl_ngettext(const char *msgid, const char *plural, unsigned long count);
SAME_AS(dngettext)
char *libintl_dngettext(const char *domain, const char *msgid, const char *plural, unsigned long count);
SAME_AS(dcngettext)
char *libintl_dcngettext(const char *domain, const char *msgid, const char *plural, unsigned long count, int category);
SAME_AS(textdomain) char *libintl_textdomain(const char *domain);
SAME_AS(bindtextdomain) char *libintl_bindtextdomain(const char *domain, const char *folder);
SAME_AS(bind_textdomain_codeset) char *libintl_bind_textdomain_codeset(const char *domain, const char *codeset);
