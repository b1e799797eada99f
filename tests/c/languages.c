/* The plural rules of languages, as the GNU gettext manual and Unicode's list of plural rules give them: the form of
 * each count from 0 to 200 is the one that the language has, given without an expression. */
#include "files.h"

static int within(int n, int first, int last)
{
    return first <= n && n <= last;
}

static int one(int n)
{
    (void)n;
    return 0;
}

static int singular(int n)
{
    return n != 1;
}

static int none_singular(int n)
{
    return n >= 2;
}

static int zero_alone(int n)
{
    return n != 0;
}

static int last_digit_one(int n)
{
    return n % 10 != 1;
}

static int icelandic(int n)
{
    return n % 10 != 1 || n % 100 == 11;
}

static int filipino(int n)
{
    return !within(n, 1, 3) && (n % 10 == 4 || n % 10 == 6 || n % 10 == 9);
}

static int tamazight(int n)
{
    return !within(n, 0, 1) && !within(n, 11, 99);
}

static int irish(int n)
{
    return n == 1 ? 0 : n == 2 ? 1 : 2;
}

static int irish_five(int n)
{
    if (n == 1 || n == 2)
        return n - 1;
    return n <= 6 ? 2 : n <= 10 ? 3 : 4;
}

static int zero_one(int n)
{
    return n < 2 ? n : 2;
}

static int tachelhit(int n)
{
    return n < 2 ? 0 : within(n, 2, 10) ? 1 : 2;
}

static int latvian(int n)
{
    if (n == 0)
        return 2;
    return n % 10 == 1 && n % 100 != 11 ? 0 : 1;
}

static int romanian(int n)
{
    if (n == 1)
        return 0;
    return n == 0 || within(n % 100, 1, 19) ? 1 : 2;
}

static int lithuanian(int n)
{
    if (n % 10 == 0 || within(n % 100, 11, 19))
        return 2;
    return n % 10 == 1 ? 0 : 1;
}

static int russian(int n)
{
    if (within(n % 100, 11, 14))
        return 2;
    return n % 10 == 1 ? 0 : within(n % 10, 2, 4) ? 1 : 2;
}

static int czech(int n)
{
    return n == 1 ? 0 : within(n, 2, 4) ? 1 : 2;
}

static int polish(int n)
{
    if (n == 1)
        return 0;
    return within(n % 10, 2, 4) && !within(n % 100, 12, 14) ? 1 : 2;
}

static int slovenian(int n)
{
    switch (n % 100) {
    case 1:
        return 0;
    case 2:
        return 1;
    case 3:
    case 4:
        return 2;
    default:
        return 3;
    }
}

static int welsh(int n)
{
    if (n == 1 || n == 2)
        return n - 1;
    return n == 8 || n == 11 ? 3 : 2;
}

static int cornish(int n)
{
    return within(n, 1, 3) ? n - 1 : 3;
}

static int manx(int n)
{
    if (n % 10 == 1 || n % 10 == 2)
        return n % 10 - 1;
    return n % 20 == 0 ? 2 : 3;
}

static int gaelic(int n)
{
    if (n % 10 == 1 || n % 10 == 2)
        return n < 20 ? n % 10 - 1 : 3;
    return within(n, 3, 19) ? 2 : 3;
}

static int maltese(int n)
{
    if (n == 1)
        return 0;
    return n == 0 || within(n % 100, 2, 10) ? 1 : within(n % 100, 11, 19) ? 2 : 3;
}

static int hebrew(int n)
{
    if (n == 1 || n == 2)
        return n - 1;
    return n > 10 && n % 10 == 0 ? 2 : 3;
}

static int breton(int n)
{
    int teen = n % 100 / 10, is_other = teen == 1 || teen == 7 || teen == 9;
    switch (n % 10) {
    case 1:
        return is_other ? 4 : 0;
    case 2:
        return is_other ? 4 : 1;
    case 3:
    case 4:
    case 9:
        return is_other ? 4 : 2;
    default:
        return 4;
    }
}

static int arabic(int n)
{
    if (n <= 2)
        return n;
    return within(n % 100, 3, 10) ? 3 : n % 100 >= 11 ? 4 : 5;
}

static const struct language {
    const char *name;
    const char *header;
    uint64_t nplurals;
    int (*form)(int n);
} languages[] = {
    {"Japanese, Korean, Chinese, Vietnamese, Thai",
     "nplurals=1; plural=0;",
     1, one},
    {"English, German, Dutch, Swedish, Danish",
     "nplurals=2; plural=n != 1;",
     2, singular},
    {"Spanish, Italian, Greek, Finnish, Hungarian",
     "nplurals=2; plural=(n!=1);",
     2, singular},
    {"French, Brazilian Portuguese",
     "nplurals=2; plural=n>1;",
     2, none_singular},
    {"Turkish, Tajik",
     "nplurals=2; plural=(n > 1);",
     2, none_singular},
    {"Javanese",
     "nplurals=2; plural=(n != 0);",
     2, zero_alone},
    {"Macedonian",
     "nplurals=2; plural= n==1 || n%10==1 ? 0 : 1;",
     2, last_digit_one},
    {"Icelandic",
     "nplurals=2; plural=(n%10!=1 || n%100==11);",
     2, icelandic},
    {"Filipino",
     "nplurals=2; plural=n != 1 && n != 2 && n != 3 && (n % 10 == 4 || n % 10 == 6 || n % 10 == 9);",
     2, filipino},
    {"Tamazight",
     "nplurals=2; plural=n >= 2 && (n < 11 || n > 99);",
     2, tamazight},
    {"Irish",
     "nplurals=3; plural=n==1 ? 0 : n==2 ? 1 : 2;",
     3, irish},
    {"Irish, five forms",
     "nplurals=5; plural=n==1 ? 0 : n==2 ? 1 : n<7 ? 2 : n<11 ? 3 : 4;",
     5, irish_five},
    {"Mandinka, Lagu",
     "nplurals=3; plural=(n==0 ? 0 : n==1 ? 1 : 2);",
     3, zero_one},
    {"Tachelhit",
     "nplurals=3; plural=n<=1 ? 0 : n<=10 ? 1 : 2;",
     3, tachelhit},
    {"Latvian",
     "nplurals=3; plural=n%10==1 && n%100!=11 ? 0 : n != 0 ? 1 : 2;",
     3, latvian},
    {"Romanian",
     "nplurals=3; plural=n==1 ? 0 : (n==0 || (n%100 > 0 && n%100 < 20)) ? 1 : 2;",
     3, romanian},
    {"Lithuanian",
     "nplurals=3; plural=n%10==1 && n%100!=11 ? 0 : n%10>=2 && (n%100<10 || n%100>=20) ? 1 : 2;",
     3, lithuanian},
    {"Russian, Ukrainian, Serbian, Croatian",
     "nplurals=3; plural=n%10==1 && n%100!=11 ? 0 : n%10>=2 && n%10<=4 && (n%100<10 || n%100>=20) ? 1 : 2;",
     3, russian},
    {"Belarusian",
     "nplurals=3; plural=(n%10==1 && n%100!=11 ? 0 : n%10>=2 && n%10<=4 && (n%100<12 || n%100>14) ? 1 : 2);",
     3, russian},
    {"Czech, Slovak",
     "nplurals=3; plural=(n==1) ? 0 : (n>=2 && n<=4) ? 1 : 2;",
     3, czech},
    {"Polish",
     "nplurals=3; plural=n==1 ? 0 : n%10>=2 && n%10<=4 && (n%100<10 || n%100>=20) ? 1 : 2;",
     3, polish},
    {"Slovenian",
     "nplurals=4; plural=n%100==1 ? 0 : n%100==2 ? 1 : n%100==3 || n%100==4 ? 2 : 3;",
     4, slovenian},
    {"Upper Sorbian",
     "nplurals=4; plural=(n%100==1 ? 0 : n%100==2 ? 1 : n%100<=4 && n%100>=3 ? 2 : 3);",
     4, slovenian},
    {"Welsh",
     "nplurals=4; plural=(n==1) ? 0 : (n==2) ? 1 : (n != 8 && n != 11) ? 2 : 3;",
     4, welsh},
    {"Cornish",
     "nplurals=4; plural=(n==1) ? 0 : (n==2) ? 1 : (n == 3) ? 2 : 3;",
     4, cornish},
    {"Manx",
     "nplurals=4; plural=n%10==1 ? 0 : n%10==2 ? 1 : n%20==0 ? 2 : 3;",
     4, manx},
    {"Scottish Gaelic",
     "nplurals=4; plural=(n==1 || n==11) ? 0 : (n==2 || n==12) ? 1 : (n > 2 && n < 20) ? 2 : 3;",
     4, gaelic},
    {"Maltese",
     "nplurals=4; plural=n==1 ? 0 : n==0 || (n%100>1 && n%100<11) ? 1 : (n%100>10 && n%100<20) ? 2 : 3;",
     4, maltese},
    {"Hebrew",
     "nplurals=4; plural=n==1 ? 0 : n==2 ? 1 : n>10 && n%10==0 ? 2 : 3;",
     4, hebrew},
    {"Breton",
     "nplurals=5; plural=n%10==1 && n%100!=11 && n%100!=71 && n%100!=91 ? 0 : n%10==2 && n%100!=12 && n%100!=72 && n%100!=92 ? 1 : (n%10==3 || n%10==4 || n%10==9) && (n%100<10 || n%100>19) && (n%100<70 || n%100>79) && (n%100<90 || n%100>99) ? 2 : n!=0 && n%1000000==0 ? 3 : 4;",
     5, breton},
    {"Arabic",
     "nplurals=6; plural=n==0 ? 0 : n==1 ? 1 : n==2 ? 2 : n%100>=3 && n%100<=10 ? 3 : n%100>=11 ? 4 : 5;",
     6, arabic},
};

/* The first count up to 200 that isn't answered by the form of the language, or 201. */
static int first_wrong(const pokit_catalog *catalog, const struct language *language)
{
    int n;
    for (n = 0; n <= 200; n++) {
        pokit_answer answer = pokit_look(catalog, pokit_query_of(NULL, "f", "fs", (uint64_t)n));
        if (!answer.found || answer.text.len != 1 || answer.text.ptr[0] != '0' + language->form(n))
            return n;
    }
    return n;
}

int main(void)
{
    static pokit_catalog catalog;
    static const char forms[] = "0\0001\0002\0003\0004\0005";
    size_t i;
    for (i = 0; i < sizeof languages / sizeof *languages; i++) {
        const struct language *language = languages + i;
        struct message messages[] = {{TEXT(""), NULL, 0}, {TEXT("f\0fs"), forms, 0}};
        struct file file;
        char name[100];
        int wrong;
        messages[0].translation = language->header;
        messages[0].translation_len = (uint32_t)strlen(language->header);
        messages[1].translation_len = 2 * (uint32_t)language->nplurals - 1;
        file = file_of(messages, 2, 0);
        check(pokit_open(&catalog, file.bytes, file.len, NULL) == POKIT_OK, language->name);
        check(catalog.nplurals == language->nplurals, language->name);
        wrong = first_wrong(&catalog, language);
        snprintf(name, sizeof name, "%s at %d", language->name, wrong);
        check(wrong == 201, name);
    }
    return counts();
}
