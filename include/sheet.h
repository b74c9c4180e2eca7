/* Sighting-sheet rules as decision diagrams: the fourteen operations, from C.

   Link libsheet.a, which `c/library` builds (x86-64 Linux). The library calls nothing but memcpy and memset, keeps nothing from one
   call to the next, and has no memory of its own: it reads and writes what is lent, and its stack. A call takes less than 65,536 bytes of
   stack: the most that was measured is 49,400, of an example over 20 questions. No proof speaks of it.

   A term word is steps x 32 + field. Field 0 stands for zero, the fields of a sheet are numbered from 1.

   A store is lent words: n (the number of fields), q (the number of questions), used (the number of entries), order (0 or 1), then q questions
   of two term words each, left first, then entries of three words: question number (1 to q), yes handle, no handle. Handle 0 is never, 1 is
   always, and the i-th entry, counted from 0, is handle i + 2.

   The questions ascend strictly in the store's order. Order 0 compares left field, right field, left steps, right steps; order 1, that of the
   older books, compares left field, left steps, right field, right steps; the first that differs decides. A list may ascend in both orders, so
   the order cannot be told from the list: word 3 alone says it.

   sheet_open takes the list as the store has it. sheet_open_raw takes it as it stands on paper, up to 64 equations, turned round, with steps on
   both sides, doubled and in whatever order: it simplifies each, drops always and never, leaves doubles out and sorts the rest. It is proved
   that the list it writes has exactly the questions that the equations simplify to, and is the only list with them that ascends in the order;
   and that sheet_open, given that list, is accepted and leaves the same words.

   A store has room for as many entries as its words give, up to a limit. The deck logger has a smaller book, with its own open and build:

                                             fields   questions   entries
     sheet_logger_open, sheet_logger_build   6        8           200
     all other operations on stores          16       20          4,096

   620 words are enough for any store of the logger's, and more are no hindrance. A logger's store can be given to every other operation: what
   the logger's open or build accepts, sheet_open or sheet_build would have done just so on the same words. The other way round it is not so: a
   store with more than 6 fields, 8 questions or 200 used entries is 22 for the logger's build, sound as it may be. After the same accepted
   opening, the same builds in the same order by both, nothing else writing, on stores of any two lengths, give the same handles and the same
   used entries, as long as each build is accepted by both or by neither. This is proved.

   A rule is rows of four words: kind, a, b, c. Rows count from 0; the last row is the rule. Kinds:
     0 never; 1 always; 2 the equation of the term words a and b; 3 not row a; 4 rows a and b; 5 if row a then row b else row c.
   References go to lower rows, and columns that a kind does not use are 0.

   A sheet is n words of 16 bits, field 1 first: a count, 0 to 65,534, or 65,535 (SHEET_BLANK), which is no count and means that the field
   was not counted. sheet_read alone looks for blanks. A filling of a sheet gives each blank a natural number of any size, each by itself, and
   leaves the counts as they are.

   A table of diagrams, which another tool has made and sheet_check_normal_form checks, is entries of four words: left term word, right term
   word, yes handle, no handle. Handles are numbered as in a store: 0 is never, 1 is always, and the i-th entry, counted from 0, is handle
   i + 2. There is no list of questions and no n beside a table: n is 16, and here alone steps go up to 4,095. Its equations have to be
   simplified: the left field is larger than the right one, at most one side has steps, and the left side has none if the right field is 0.

   Numbers. An answer's number is 0 if the call was accepted. A call is refused in just the conditions that stand at it, and the first of them,
   in the order in which they stand there, is the answer's number. Then the result is 0 and NOTHING IS CHANGED: when the call returns, every
   word that was lent is as it was.

     11  n is above 16, for the logger above 6          31  the rule has no words
     12  the list's words are odd in number             32  the rule's words are no multiple of four
     13  more than 20 questions, for the logger 8       33  the rule has more than 256 rows
     14  a field is above n, or steps above 1,023       34  unknown kind, nonzero unused column, reference not lower
     15  not a simplified question                      35  a field is above n, or steps above 1,023
     16  not strictly above the one before, by order    36  an equation neither always nor never nor on the list
     17  more than 64 raw equations                     41  a handle is at or above used + 2
     18  the order is neither 0 nor 1                   51  used plus the new entries exceeds the store's room
     21  the store is shorter than 4 + 2q words         52  nothing satisfies the handle
     22  the store is not sound (more on it below)      53  writing back would take more than 256 rows
     23  the slice has the wrong length
     81  a table's words are no multiple of four, it has more than 4,096 entries, or the root is at or above entries + 2
     82  a field of a table is above 16, steps above 4,095, or an equation not simplified
     83  a handle of a table is not lower than its entry's own
     84  two entries of a table are equal in all four words
     85  an entry of a table is not reachable from the root
     86  one of the rules of document 000's Definition 28 applies

   22 is given, among others, for fewer than 4 words, for a word 3 that is neither 0 nor 1, and for a list that does not ascend in the order
   that word 3 names; by the logger's build also for a store with more than 6 fields, 8 questions or 200 used entries. The room that 51
   speaks of is what the words give, 4,096 entries at most, and 200 at most for the logger.

   What C must keep. The functions are proved for whatever words are lent: no content of a store, list, rule, sheet or table, no handle and no
   length makes them read or write outside what was lent. Nothing proves what stands on C's side of a call, so the caller sees to it that
     - a pointer is aligned for its type, and what lies there may be read, and written where the parameter is not const, for as many elements
       (not bytes) as the length beside it says;
     - what a call may write overlaps nothing else that is lent to the same call;
     - nothing else writes what was lent, and nothing else reads what the call may write, until the call returns.
   With the length 0 the pointer is not looked at: NULL is allowed. */
#ifndef SHEET_H
#define SHEET_H

#include <stddef.h>
#include <stdint.h>

#ifdef __cplusplus
extern "C" {
#endif

/* On a sheet: the field was not counted. */
#define SHEET_BLANK 65535

typedef struct {
    uint32_t number;
    uint32_t result;
} sheet_answer;

typedef struct {
    uint32_t number;
    uint32_t result;
    uint32_t left;
    uint32_t right;
    int32_t gap;
} sheet_simplified;

/* Simplifies the equation of two term words. The result is 0 never, 1 always or 2 a question: then left and right are the question's term
   words, and gap is right steps minus left steps, so that left count = right count + gap. They are 0 otherwise.
   Refusals: 35, with n taken as 16. */
sheet_simplified sheet_simplify(uint32_t a, uint32_t b);

/* Opens a store for n fields and a list of questions, two term words each, that stand in an order: writes n, the number of questions, no
   entries, the order, the list, and zeros in all the rest. The result is 0.
   Refusals: 11, 18, 12, 13, then question by question 14, 15, 16, then 21. */
sheet_answer sheet_open(uint32_t n, uint32_t order, const uint32_t *list, size_t list_len, uint32_t *store, size_t store_len);

/* Opens a store for n fields and a list of equations as they come, two term words each: simplifies each, drops always and never, leaves doubles
   out, sorts the rest into the order, and writes n, the number q of questions that remain, no entries, the order, these questions, and zeros in
   all the rest. q is not known before the call, and is word 1 after it; 4 + 2 x (equations) words are always enough. The result is 0.
   Refusals: 11, 18, 12, 17 (more than 64 equations, all counted), then equation by equation 14 (of its terms as they are given, though it may
   be always or never), then 13 (more than 20 questions remain), then 21 (of the q that remain). 15 and 16 are not given. */
sheet_answer sheet_open_raw(uint32_t n, uint32_t order, const uint32_t *list, size_t list_len, uint32_t *store, size_t store_len);

/* Adds the finished diagram of a rule. The result is its handle.
   Refusals: 22, 31, 32, 33, then row by row 34, 35, 36, then 51. */
sheet_answer sheet_build(uint32_t *store, size_t store_len, const uint32_t *rule, size_t rule_len);

/* The deck logger's open: as sheet_open, for 6 fields and 8 questions at most. The result is 0.
   Refusals: 11 (n is above 6), 18, 12, 13 (more than 8 questions), then question by question 14, 15, 16, then 21. */
sheet_answer sheet_logger_open(uint32_t n, uint32_t order, const uint32_t *list, size_t list_len, uint32_t *store, size_t store_len);

/* The deck logger's build: as sheet_build, in a store within the logger's limits. The result is the rule's handle.
   Refusals: 22 (not sound, or more than 6 fields, 8 questions or 200 used entries), 31, 32, 33, then row by row 34, 35, 36, then 51 (more
   entries than 200, or than the words give room for). */
sheet_answer sheet_logger_build(uint32_t *store, size_t store_len, const uint32_t *rule, size_t rule_len);

/* Adds the finished diagram of "not a". The result is its handle.
   Refusals: 22, 41, 51. */
sheet_answer sheet_negate(uint32_t *store, size_t store_len, uint32_t a);

/* Adds the finished diagram of "a and b". The result is its handle. The two handles may be the same.
   Refusals: 22, 41 from the first handle on, 51. */
sheet_answer sheet_join(uint32_t *store, size_t store_len, uint32_t a, uint32_t b);

/* Adds the finished diagram of "if a then b else c". The result is its handle. Handles may be the same.
   Refusals: 22, 41 from the first handle on, 51. */
sheet_answer sheet_choose(uint32_t *store, size_t store_len, uint32_t a, uint32_t b, uint32_t c);

/* The verdict of a handle: the result is 0 if no choice of counts satisfies it, 1 if every one does, 2 if some do and some don't.
   Refusals: 22, 41. */
sheet_answer sheet_verdict(const uint32_t *store, size_t store_len, uint32_t a);

/* Writes the least sheet that satisfies a handle, field 1 compared first. What the sheet held is not looked at, and SHEET_BLANK is never written:
   no count is above 16,384. sheet_len is n. The result is 0.
   Refusals: 22, 41, 23 (sheet_len is not n), 52. */
sheet_answer sheet_example(const uint32_t *store, size_t store_len, uint32_t a, uint16_t *sheet, size_t sheet_len);

/* Reads a sheet on which some fields may not be counted (SHEET_BLANK): the result is 1 if every filling of the blanks satisfies the handle, 0 if
   none does, 2 if some do and some don't. Without blanks the sheet is its own one filling, and the result is 1 or 0; of a sheet of blanks only
   it is the verdict. sheet_len is n.
   Refusals: 22, 41, 23 (sheet_len is not n). */
sheet_answer sheet_read(const uint32_t *store, size_t store_len, uint32_t a, const uint16_t *sheet, size_t sheet_len);

/* Writes a rule for a handle. The result is the number of its rows, four words each; the words after them are not changed.
   Refusals: 22, 41, 53, 23 (rule_len is below four words a row). */
sheet_answer sheet_write_back(const uint32_t *store, size_t store_len, uint32_t a, uint32_t *rule, size_t rule_len);

/* Checks that a table is one diagram, from its root down, in the normal form of document 000's Definition 28. Nothing is written. The result
   is the root's verdict: 0 for the root 0, never; 1 for the root 1, always; else 2, sometimes, as every path of an accepted diagram is
   followed by some choice of counts, natural numbers of any size.
   Equations are compared by left field, right field, left steps, right steps, whatever order stores have. One of Definition 28's rules applies
   at an entry if its yes and its no handle are the same (rule 3); if one of its parts begins with the same equation (4 and 5) or with one
   below it (6 and 7); or if an equation anywhere in its yes part, reached there by yes or by no, names the left field of the entry's equation
   on either side and is above that equation (8').
   Refusals: 81, 82, 83, 84, 85, 86, each tested over the whole table before the next. With a leaf as root any entry is 85. */
sheet_answer sheet_check_normal_form(const uint32_t *table, size_t table_len, uint32_t root);

#ifdef __cplusplus
}
#endif

#endif
