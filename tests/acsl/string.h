/* The functions of the C library that pokit.h calls, for WP, in the place of Frama-C's string.h: that one asks that no
 * pointer dangles, which WP can't say, casts to unsigned char, and doesn't tell that what strstr finds ends inside of
 * the string. */
#ifndef __FC_STRING_H_
#define __FC_STRING_H_
#include <stddef.h>

/*@ axiomatic Strings {
      // where the first NUL is, or a negative number
      logic integer strlen{L}(char *s) reads s[0 ..];
      axiom strlen_ends{L}: \forall char *s; 0 <= strlen(s) ==> s[strlen(s)] == 0;
      axiom strlen_first{L}: \forall char *s, integer i; 0 <= i && s[i] == 0 ==> 0 <= strlen(s) <= i;
      axiom strlen_shift{L}: \forall char *s, integer i; 0 <= i <= strlen(s) ==> strlen(s + i) == strlen(s) - i;
    }

    lemma strlen_same{L1,L2}: \forall char *s;
      0 <= strlen{L1}(s) ==> (\forall integer i; 0 <= i <= strlen{L1}(s) ==> \at(s[i], L1) == \at(s[i], L2)) ==>
        strlen{L1}(s) == strlen{L2}(s);

    // (a string that is empty is told apart for the provers)
    predicate valid_read_string{L}(char *s) =
      (s[0] == 0 || 0 <= strlen(s)) && \valid_read(s + (0 .. strlen(s)));
*/

/*@ // the length of a literal's string, where the provers find it by looking
    logic integer pokit_literal_len{L}(char *s) =
      s[0] == 0 ? 0 : s[1] == 0 ? 1 : s[2] == 0 ? 2 : s[3] == 0 ? 3 : s[4] == 0 ? 4 : s[5] == 0 ? 5 : s[6] == 0
      ? 6 : s[7] == 0 ? 7 : s[8] == 0 ? 8 : s[9] == 0 ? 9 : s[10] == 0 ? 10 : s[11] == 0 ? 11 : s[12] == 0 ? 12
      : s[13] == 0 ? 13 : s[14] == 0 ? 14 : s[15] == 0 ? 15 : s[16] == 0 ? 16 : s[17] == 0 ? 17 : s[18] == 0 ?
      18 : s[19] == 0 ? 19 : s[20] == 0 ? 20 : s[21] == 0 ? 21 : s[22] == 0 ? 22 : s[23] == 0 ? 23 : s[24] == 0
      ? 24 : s[25] == 0 ? 25 : s[26] == 0 ? 26 : 27;

    predicate pokit_literal{L}(char *s) =
      \valid_read(s + (0 .. pokit_literal_len(s))) && s[pokit_literal_len(s)] == 0;

    // whether a string begins with a literal of 8 letters at most
    predicate pokit_begins_with{L}(char *s, char *part) =
      (0 < pokit_literal_len(part) ==> s[0] == part[0]) && (1 < pokit_literal_len(part) ==> s[1] == part[1]) &&
      (2 < pokit_literal_len(part) ==> s[2] == part[2]) && (3 < pokit_literal_len(part) ==> s[3] == part[3]) &&
      (4 < pokit_literal_len(part) ==> s[4] == part[4]) && (5 < pokit_literal_len(part) ==> s[5] == part[5]) &&
      (6 < pokit_literal_len(part) ==> s[6] == part[6]) && (7 < pokit_literal_len(part) ==> s[7] == part[7]);

    // whether a letter is one of those of a literal, of 5 at most
    predicate pokit_is_among{L}(char c, char *letters) =
      (0 < pokit_literal_len(letters) && c == letters[0]) || (1 < pokit_literal_len(letters) && c == letters[1]) || (2 <
      pokit_literal_len(letters) && c == letters[2]) || (3 < pokit_literal_len(letters) && c == letters[3]) || (4 <
      pokit_literal_len(letters) && c == letters[4]);
*/

/*@ requires valid_read_string(s);
    assigns \result \from indirect: s[0 ..];
    ensures \result == strlen(s);
*/
size_t strlen(const char *s);

/*@ requires valid_read_string(s) && 0 < c < 128;
    assigns \result \from s, indirect: s[0 ..], indirect: c;
    ensures \result == \null <==> \forall integer i; 0 <= i < strlen(s) ==> s[i] != c;
*/
char *strchr(const char *s, int c);

/*@ requires valid_read_string(s);
    requires pokit_literal(part) && pokit_literal_len(part) <= 8;
    assigns \result \from s, indirect: s[0 ..], indirect: part[0 ..];
    ensures \result == \null ==>
      \forall integer i; 0 <= i && i + pokit_literal_len(part) <= strlen(s) ==> !pokit_begins_with(s + i, part);
    ensures \result != \null ==>
      \exists integer i; 0 <= i && i + pokit_literal_len(part) <= strlen(s) && \result == s + i
        && pokit_begins_with(s + i, part) && \forall integer j; 0 <= j < i ==> !pokit_begins_with(s + j, part);
*/
char *strstr(const char *s, const char *part);

/*@ requires valid_read_string(s);
    requires pokit_literal(reject) && pokit_literal_len(reject) <= 5;
    assigns \result \from indirect: s[0 ..], indirect: reject[0 ..];
    ensures 0 <= \result <= strlen(s);
    ensures s[\result] == 0 || pokit_is_among(s[\result], reject);
    ensures \forall integer i; 0 <= i < \result ==> s[i] != 0 && !pokit_is_among(s[i], reject);
*/
size_t strcspn(const char *s, const char *reject);

/*@ requires \valid_read((char *)s + (0 .. n - 1)) && 0 <= c < 128;
    assigns \result \from s, indirect: ((char *)s)[0 .. n - 1], indirect: c;
    ensures \result == \null <==> \forall integer i; 0 <= i < n ==> ((char *)s)[i] != c;
*/
void *memchr(const void *s, int c, size_t n);

/*@ requires \valid_read((char *)a + (0 .. n - 1)) && \valid_read((char *)b + (0 .. n - 1));
    assigns \result \from indirect: ((char *)a)[0 .. n - 1], indirect: ((char *)b)[0 .. n - 1];
    ensures \result == 0 <==> \forall integer i; 0 <= i < n ==> ((char *)a)[i] == ((char *)b)[i];
*/
int memcmp(const void *a, const void *b, size_t n);

/*@ requires \valid((char *)to + (0 .. n - 1)) && \valid_read((char *)from + (0 .. n - 1));
    requires \separated((char *)to + (0 .. n - 1), (char *)from + (0 .. n - 1));
    assigns ((char *)to)[0 .. n - 1] \from ((char *)from)[0 .. n - 1];
    assigns \result \from to;
    ensures \result == to;
    ensures \forall integer i; 0 <= i < n ==> ((char *)to)[i] == \old(((char *)from)[i]);
*/
void *memcpy(void *to, const void *from, size_t n);
#endif
