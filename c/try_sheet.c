/* Goes through document 01's cases 1 to 12 and those of document 02 by the C functions of libsheet.a, and through NULL with length 0. The expected
   values are the papers', written here as literals; those that they do not give were worked out by hand. Prints what each call answered, marks each
   difference, and exits with 1 if there is one. */
#include <inttypes.h>
#include <stdio.h>
#include <string.h>

#include "sheet.h"

#define LENGTH(words) (sizeof(words) / sizeof((words)[0]))
#define WORDS(...) ((const uint32_t[]){__VA_ARGS__}), LENGTH(((const uint32_t[]){__VA_ARGS__}))

static unsigned compared;
static unsigned differences;

static void differs(void)
{
    differences++;
    printf("  <-- DIFFERS");
}

/* Number and result of a call. */
static void answer(const char *call, sheet_answer got, uint32_t number, uint32_t result)
{
    compared++;
    printf("%s: %" PRIu32 " %" PRIu32, call, got.number, got.result);
    if (got.number != number || got.result != result) {
        differs();
    }
    printf("\n");
}

/* Words that were lent to a call, as they are afterwards. */
static void words(const uint32_t *got, const uint32_t *expected, size_t length)
{
    compared++;
    printf("    words");
    for (size_t i = 0; i < length; i++) {
        printf(" %" PRIu32, got[i]);
    }
    if (memcmp(got, expected, length * sizeof(uint32_t)) != 0) {
        differs();
    }
    printf("\n");
}

/* Many words that were lent to a call, which are to be as they were. */
static void unchanged(const uint32_t *got, const uint32_t *before, size_t length)
{
    compared++;
    if (memcmp(got, before, length * sizeof(uint32_t)) != 0) {
        printf("    the words are not as they were");
        differs();
        printf("\n");
    }
}

/* Counts that were lent to a call, as they are afterwards. */
static void counts(const uint16_t *got, const uint16_t *expected, size_t length)
{
    compared++;
    printf("    counts");
    for (size_t i = 0; i < length; i++) {
        printf(" %" PRIu16, got[i]);
    }
    if (memcmp(got, expected, length * sizeof(uint16_t)) != 0) {
        differs();
    }
    printf("\n");
}

static void simplify(const char *call, uint32_t a, uint32_t b, sheet_simplified expected)
{
    sheet_simplified got = sheet_simplify(a, b);
    compared++;
    printf("%s: %" PRIu32 " %" PRIu32 " %" PRIu32 " %" PRIu32 " %" PRId32, call, got.number, got.result, got.left, got.right, got.gap);
    if (got.number != expected.number || got.result != expected.result || got.left != expected.left || got.right != expected.right ||
        got.gap != expected.gap) {
        differs();
    }
    printf("\n");
}

/* Words that no call has written yet. */
static void fill(uint32_t *store, size_t length)
{
    for (size_t i = 0; i < length; i++) {
        store[i] = 7;
    }
}

static void cases_1_to_4(void)
{
    uint32_t store[6];
    simplify("1 simplify S3(1) = S1(2)", 97, 34, (sheet_simplified){0, 2, 2, 65, 2});
    simplify("2 simplify S2(1) = 0", 65, 0, (sheet_simplified){0, 0, 0, 0, 0});
    simplify("2 simplify S(1) = S2(1)", 33, 65, (sheet_simplified){0, 0, 0, 0, 0});
    simplify("2 simplify S(1) = S(1)", 33, 33, (sheet_simplified){0, 1, 0, 0, 0});
    simplify("3 simplify S2(1) = S2(0)", 65, 64, (sheet_simplified){0, 2, 1, 0, 0});
    simplify("4 simplify 1 = S1023(0)", 1, 32736, (sheet_simplified){0, 2, 1, 32736, 1023});
    simplify("4 simplify 1 = S1024(0)", 1, 32768, (sheet_simplified){35, 0, 0, 0, 0});
    simplify("4 simplify S1024(0) = 1", 32768, 1, (sheet_simplified){35, 0, 0, 0, 0});
    simplify("a negative gap, S2(2) = 1", 66, 1, (sheet_simplified){0, 2, 66, 1, -2});
    fill(store, LENGTH(store));
    answer("4 open 1 = S1024(0)", sheet_open(1, 0, WORDS(1, 32768), store, LENGTH(store)), 14, 0);
    words(store, WORDS(7, 7, 7, 7, 7, 7));
    answer("4 open 1 = S1023(0)", sheet_open(1, 0, WORDS(1, 32736), store, LENGTH(store)), 0, 0);
    words(store, WORDS(1, 1, 0, 0, 1, 32736));
}

/* No fields and no questions: the list, the sheet and the example have no elements, and their pointer is NULL. */
static void case_5(void)
{
    uint32_t store[4] = {9, 9, 9, 9};
    answer("5 open 3 words", sheet_open(0, 0, NULL, 0, store, 3), 21, 0);
    words(store, WORDS(9, 9, 9, 9));
    answer("5 open 4 words", sheet_open(0, 0, NULL, 0, store, LENGTH(store)), 0, 0);
    words(store, WORDS(0, 0, 0, 0));
    answer("5 build always", sheet_build(store, LENGTH(store), WORDS(1, 0, 0, 0)), 0, 1);
    answer("5 example", sheet_example(store, LENGTH(store), 1, NULL, 0), 0, 0);
    answer("5 read", sheet_read(store, LENGTH(store), 1, NULL, 0), 0, 1);
    words(store, WORDS(0, 0, 0, 0));
}

/* The handles of case 6's store put together again; there is no handle 6, and no room for the negation of 5. */
static void on_case_6(uint32_t *store, size_t length)
{
    answer("6 join 5 and 5", sheet_join(store, length, 5, 5), 0, 5);
    answer("6 join 5 and 2", sheet_join(store, length, 5, 2), 51, 0);
    answer("6 choose 5, 1, 0", sheet_choose(store, length, 5, 1, 0), 0, 5);
    answer("6 choose 1, 5, 6", sheet_choose(store, length, 1, 5, 6), 41, 0);
    answer("6 choose 0, 5, 2", sheet_choose(store, length, 0, 5, 2), 0, 2);
    answer("6 negate 1", sheet_negate(store, length, 1), 0, 0);
    answer("6 negate 5", sheet_negate(store, length, 5), 51, 0);
    words(store, WORDS(3, 3, 4, 0, 2, 1, 3, 1, 3, 2, 2, 1, 0, 3, 1, 0, 2, 0, 3, 1, 2, 4));
}

static void cases_6_to_8(void)
{
    uint32_t store[22];
    fill(store, LENGTH(store));
    answer("6 open 19 words", sheet_open(3, 0, WORDS(2, 1, 3, 1, 3, 2), store, 19), 0, 0);
    answer("6 build 3 = 2 in 19 words", sheet_build(store, 19, WORDS(2, 3, 2, 0)), 51, 0);
    words(store, WORDS(3, 3, 0, 0, 2, 1, 3, 1, 3, 2, 0, 0, 0, 0, 0, 0, 0, 0, 0, 7, 7, 7));
    answer("6 open 22 words", sheet_open(3, 0, WORDS(2, 1, 3, 1, 3, 2), store, LENGTH(store)), 0, 0);
    answer("6 build 3 = 2", sheet_build(store, LENGTH(store), WORDS(2, 3, 2, 0)), 0, 5);
    words(store, WORDS(3, 3, 4, 0, 2, 1, 3, 1, 3, 2, 2, 1, 0, 3, 1, 0, 2, 0, 3, 1, 2, 4));
    answer("7 build 3 = 1", sheet_build(store, LENGTH(store), WORDS(2, 3, 1, 0)), 0, 2);
    words(store, WORDS(3, 3, 4, 0, 2, 1, 3, 1, 3, 2, 2, 1, 0, 3, 1, 0, 2, 0, 3, 1, 2, 4));
    answer("8 build 2 = 1 and 3 = 2 and not 3 = 1",
           sheet_build(store, LENGTH(store), WORDS(2, 2, 1, 0, 2, 3, 2, 0, 4, 0, 1, 0, 2, 3, 1, 0, 3, 3, 0, 0, 4, 2, 4, 0)), 0, 0);
    words(store, WORDS(3, 3, 4, 0, 2, 1, 3, 1, 3, 2, 2, 1, 0, 3, 1, 0, 2, 0, 3, 1, 2, 4));
    on_case_6(store, LENGTH(store));
}

static void case_9(void)
{
    uint32_t store[13];
    answer("9 open", sheet_open(3, 0, WORDS(34, 1, 3, 33, 3, 66), store, LENGTH(store)), 0, 0);
    answer("9 build", sheet_build(store, LENGTH(store), WORDS(2, 1, 34, 0, 3, 0, 0, 0, 2, 3, 33, 0, 4, 1, 2, 0, 2, 3, 66, 0, 4, 3, 4, 0)),
           0, 0);
    words(store, WORDS(3, 3, 0, 0, 34, 1, 3, 33, 3, 66, 0, 0, 0));
    answer("9 verdict 0", sheet_verdict(store, LENGTH(store), 0), 0, 0);
}

/* 000's Example 22: if S2(1) = 2 then S(2) = 3 else if 2 = S2(3) then always else S(2) = 3. */
static void case_10(void)
{
    uint32_t store[22];
    uint16_t sheet[3] = {7, 7, 7};
    answer("10 open", sheet_open(3, 0, WORDS(2, 65, 3, 34, 67, 2), store, LENGTH(store)), 0, 0);
    answer("10 build", sheet_build(store, LENGTH(store), WORDS(2, 65, 2, 0, 2, 34, 3, 0, 2, 2, 67, 0, 1, 0, 0, 0, 5, 2, 3, 1, 5, 0, 1, 4)), 0, 5);
    words(store, WORDS(3, 3, 4, 0, 2, 65, 3, 34, 67, 2, 2, 1, 0, 3, 1, 0, 2, 1, 3, 1, 2, 4));
    answer("10 verdict", sheet_verdict(store, LENGTH(store), 5), 0, 2);
    answer("10 example", sheet_example(store, LENGTH(store), 5, sheet, LENGTH(sheet)), 0, 0);
    counts(sheet, (const uint16_t[]){0, 0, 1}, LENGTH(sheet));
    answer("10 read 0 0 1", sheet_read(store, LENGTH(store), 5, sheet, LENGTH(sheet)), 0, 1);
}

/* The rule "neither" written back, in too few words and in one more than it takes. */
static void written_back(const uint32_t *store, size_t length)
{
    uint32_t rule[25];
    fill(rule, LENGTH(rule));
    answer("11 write back in 23 words", sheet_write_back(store, length, 3, rule, 23), 23, 0);
    words(rule, WORDS(7, 7, 7, 7, 7, 7, 7, 7, 7, 7, 7, 7, 7, 7, 7, 7, 7, 7, 7, 7, 7, 7, 7, 7, 7));
    answer("11 write back", sheet_write_back(store, length, 3, rule, LENGTH(rule)), 0, 6);
    words(rule, WORDS(0, 0, 0, 0, 1, 0, 0, 0, 2, 1, 32, 0, 5, 2, 0, 1, 2, 1, 0, 0, 5, 4, 0, 3, 7));
}

static void case_11(void)
{
    uint32_t store[17];
    uint16_t sheet[1] = {7};
    answer("11 open", sheet_open(1, 0, WORDS(1, 0, 1, 32), store, LENGTH(store)), 0, 0);
    answer("11 build neither", sheet_build(store, LENGTH(store), WORDS(2, 1, 0, 0, 3, 0, 0, 0, 2, 1, 32, 0, 3, 2, 0, 0, 4, 1, 3, 0)), 0, 3);
    words(store, WORDS(1, 2, 2, 0, 1, 0, 1, 32, 2, 0, 1, 1, 0, 2, 0, 0, 0));
    answer("11 example 0", sheet_example(store, LENGTH(store), 0, sheet, LENGTH(sheet)), 52, 0);
    counts(sheet, (const uint16_t[]){7}, LENGTH(sheet));
    answer("11 example", sheet_example(store, LENGTH(store), 3, sheet, LENGTH(sheet)), 0, 0);
    counts(sheet, (const uint16_t[]){2}, LENGTH(sheet));
    answer("11 verdict", sheet_verdict(store, LENGTH(store), 3), 0, 2);
    answer("11 read 2", sheet_read(store, LENGTH(store), 3, (const uint16_t[]){2}, 1), 0, 1);
    answer("11 read 1", sheet_read(store, LENGTH(store), 3, (const uint16_t[]){1}, 1), 0, 0);
    answer("11 read 65534", sheet_read(store, LENGTH(store), 3, (const uint16_t[]){65534}, 1), 0, 1);
    answer("11 read 65535", sheet_read(store, LENGTH(store), 3, (const uint16_t[]){SHEET_BLANK}, 1), 0, 2);
    answer("11 read 1 1", sheet_read(store, LENGTH(store), 3, (const uint16_t[]){1, 1}, 2), 23, 0);
    written_back(store, LENGTH(store));
    answer("11 negate 3", sheet_negate(store, LENGTH(store), 3), 51, 0);
    words(store, WORDS(1, 2, 2, 0, 1, 0, 1, 32, 2, 0, 1, 1, 0, 2, 0, 0, 0));
}

/* Sheets on which some fields were not counted: 2 = S3(1), a store that is not finished, and 3 = 2 and 3 = 1. */
static void blanks(void)
{
    const uint16_t none[3] = {SHEET_BLANK, SHEET_BLANK, SHEET_BLANK};
    const uint32_t more[] = {2, 1, 1, 0, 2, 97, 1, 1, 0};
    answer("iii read 65534 _", sheet_read(more, LENGTH(more), 2, (const uint16_t[]){65534, SHEET_BLANK}, 2), 0, 2);
    answer("iii read _ 2", sheet_read(more, LENGTH(more), 2, (const uint16_t[]){SHEET_BLANK, 2}, 2), 0, 0);
    answer("iii read _ 65534", sheet_read(more, LENGTH(more), 2, (const uint16_t[]){SHEET_BLANK, 65534}, 2), 0, 2);
    answer("iii read 0 3", sheet_read(more, LENGTH(more), 2, (const uint16_t[]){0, 3}, 2), 0, 1);
    answer("iii read 65534 65534", sheet_read(more, LENGTH(more), 2, (const uint16_t[]){65534, 65534}, 2), 0, 0);
    answer("iii read 65532 _", sheet_read(more, LENGTH(more), 2, (const uint16_t[]){65532, SHEET_BLANK}, 2), 0, 2);
    answer("iii read three blanks of two", sheet_read(more, LENGTH(more), 2, none, 3), 23, 0);
    const uint32_t beside[] = {3, 1, 1, 0, 2, 97, 1, 1, 0};
    answer("iii read 0 3 _", sheet_read(beside, LENGTH(beside), 2, (const uint16_t[]){0, 3, SHEET_BLANK}, 3), 0, 1);
    answer("iii read _ 2 _", sheet_read(beside, LENGTH(beside), 2, (const uint16_t[]){SHEET_BLANK, 2, SHEET_BLANK}, 3), 0, 0);
    const uint32_t unfinished[] = {3, 3, 3, 0, 2, 1, 3, 1, 3, 2, 3, 1, 0, 2, 2, 1, 1, 3, 1};
    answer("iii read _ _ _ unfinished", sheet_read(unfinished, LENGTH(unfinished), 4, none, 3), 0, 1);
    answer("iii read 5 5 _ unfinished", sheet_read(unfinished, LENGTH(unfinished), 4, (const uint16_t[]){5, 5, SHEET_BLANK}, 3), 0, 1);
    uint32_t both[16];
    answer("iii open", sheet_open(3, 0, WORDS(2, 1, 3, 1, 3, 2), both, LENGTH(both)), 0, 0);
    answer("iii build", sheet_build(both, LENGTH(both), WORDS(2, 3, 2, 0, 2, 3, 1, 0, 4, 0, 1, 0)), 0, 3);
    answer("iii read 7 8 _", sheet_read(both, LENGTH(both), 3, (const uint16_t[]){7, 8, SHEET_BLANK}, 3), 0, 0);
    answer("iii read 7 7 _", sheet_read(both, LENGTH(both), 3, (const uint16_t[]){7, 7, SHEET_BLANK}, 3), 0, 2);
    answer("iii read _ _ _", sheet_read(both, LENGTH(both), 3, none, 3), 0, 2);
    answer("iii verdict", sheet_verdict(both, LENGTH(both), 3), 0, 2);
}

static void case_12(void)
{
    uint32_t store[8];
    answer("12 open", sheet_open(2, 0, WORDS(2, 32, 2, 97), store, LENGTH(store)), 0, 0);
    answer("12 build", sheet_build(store, LENGTH(store), WORDS(2, 2, 32, 0, 2, 2, 97, 0, 4, 0, 1, 0)), 0, 0);
    answer("12 verdict", sheet_verdict(store, LENGTH(store), 0), 0, 0);
    words(store, WORDS(2, 2, 0, 0, 2, 32, 2, 97));
}

/* Document 02 (viii), up to 1,023 steps: the edge of 255 is none any more, and the largest negative gap. */
static void steps_simplified(void)
{
    simplify("viii simplify 1 = S256(0)", 1, 8192, (sheet_simplified){0, 2, 1, 8192, 256});
    simplify("viii simplify 15 = S1023(16)", 15, 32752, (sheet_simplified){0, 2, 32752, 15, -1023});
    simplify("viii simplify S1023(16) = 15", 32752, 15, (sheet_simplified){0, 2, 32752, 15, -1023});
}

/* Document 02 (iv), line by line: in the last two a step is taken off both sides 1,022 and 1,023 times. */
static void simplified_case_by_case(void)
{
    simplify("iv simplify 0 = S(0)", 0, 32, (sheet_simplified){0, 0, 0, 0, 0});
    simplify("iv simplify S(0) = S2(3)", 32, 67, (sheet_simplified){0, 0, 0, 0, 0});
    simplify("iv simplify 1 = S2(2)", 1, 66, (sheet_simplified){0, 2, 66, 1, -2});
    simplify("iv simplify S1022(0) = S1023(0)", 32704, 32736, (sheet_simplified){0, 0, 0, 0, 0});
    simplify("iv simplify S1023(0) = S1023(0)", 32736, 32736, (sheet_simplified){0, 1, 0, 0, 0});
}

/* S1023(2) = 1, built turned round, and its negation. */
static void steps_built(void)
{
    uint32_t store[12];
    uint16_t sheet[2];
    answer("viii open S1023(2) = 1 in 9 words", sheet_open(2, 0, WORDS(32738, 1), store, 9), 0, 0);
    answer("viii build 1 = S1023(2)", sheet_build(store, 9, WORDS(2, 1, 32738, 0)), 0, 2);
    words(store, WORDS(2, 1, 1, 0, 32738, 1, 1, 1, 0));
    answer("viii example", sheet_example(store, 9, 2, sheet, LENGTH(sheet)), 0, 0);
    counts(sheet, (const uint16_t[]){1023, 0}, LENGTH(sheet));
    answer("viii open in 12 words", sheet_open(2, 0, WORDS(32738, 1), store, LENGTH(store)), 0, 0);
    answer("viii build", sheet_build(store, LENGTH(store), WORDS(2, 1, 32738, 0)), 0, 2);
    answer("viii negate", sheet_negate(store, LENGTH(store), 2), 0, 3);
    answer("viii example of not", sheet_example(store, LENGTH(store), 3, sheet, LENGTH(sheet)), 0, 0);
    counts(sheet, (const uint16_t[]){0, 0}, LENGTH(sheet));
}

/* Sixteen fields, each 1,023 above the one before: 1 = S1023(0) to 16 = S1023(15). */
static void steps_added_up(void)
{
    uint32_t list[32], rule[33 * 4] = {1, 0, 0, 0}, store[84];
    uint16_t sheet[16], expected[16];
    for (uint32_t field = 1; field <= 16; field++) {
        /* a field's equation, and that it and all before it hold */
        const uint32_t rows[] = {2, field, 32736 + field - 1, 0, 4, 2 * field - 2, 2 * field - 1, 0};
        memcpy(&list[2 * (field - 1)], &rows[1], 2 * sizeof(uint32_t));
        memcpy(&rule[4 * (2 * field - 1)], rows, sizeof(rows));
        expected[field - 1] = (uint16_t)(1023 * field);
    }
    answer("viii open 16 fields", sheet_open(16, 0, list, LENGTH(list), store, LENGTH(store)), 0, 0);
    answer("viii build all sixteen", sheet_build(store, LENGTH(store), rule, LENGTH(rule)), 0, 17);
    answer("viii example of all sixteen", sheet_example(store, LENGTH(store), 17, sheet, LENGTH(sheet)), 0, 0);
    counts(sheet, expected, LENGTH(sheet));
}

/* Stores that are not opened: with a question of 1,023 steps sound, with one of 1,024 not. */
static void steps_in_a_store(void)
{
    uint32_t store[9] = {1, 1, 0, 0, 1, 32736, 0, 0, 0};
    answer("viii verdict, 1,023 steps", sheet_verdict(store, 6, 0), 0, 0);
    answer("viii verdict, 1,024 steps", sheet_verdict(WORDS(1, 1, 0, 0, 1, 32768), 0), 22, 0);
    answer("viii build 1 = S1024(0)", sheet_build(store, LENGTH(store), WORDS(2, 1, 32768, 0)), 35, 0);
    answer("viii build S(1) = S1024(0)", sheet_build(store, LENGTH(store), WORDS(2, 33, 32768, 0)), 35, 0);
    answer("viii build 1 = S256(0)", sheet_build(store, LENGTH(store), WORDS(2, 1, 8192, 0)), 36, 0);
    words(store, WORDS(1, 1, 0, 0, 1, 32736, 0, 0, 0));
    answer("viii build 1 = S1023(0)", sheet_build(store, LENGTH(store), WORDS(2, 1, 32736, 0)), 0, 2);
    words(store, WORDS(1, 1, 1, 0, 1, 32736, 1, 1, 0));
}

/* Every operation that takes a store, on words that are not a sound one; beside them no words are lent, by NULL. */
static void not_sound(const char *which, uint32_t *store, size_t length)
{
    printf("%s:\n", which);
    answer("  build", sheet_build(store, length, NULL, 0), 22, 0);
    answer("  logger's build", sheet_logger_build(store, length, NULL, 0), 22, 0);
    answer("  negate", sheet_negate(store, length, 0), 22, 0);
    answer("  join", sheet_join(store, length, 0, 1), 22, 0);
    answer("  choose", sheet_choose(store, length, 0, 1, 2), 22, 0);
    answer("  verdict", sheet_verdict(store, length, 0), 22, 0);
    answer("  example", sheet_example(store, length, 0, NULL, 0), 22, 0);
    answer("  read", sheet_read(store, length, 0, NULL, 0), 22, 0);
    answer("  write back", sheet_write_back(store, length, 0, NULL, 0), 22, 0);
}

/* Document 02 (ix). S(3) = 1 and 3 = 2 stand one way round in order 0, by right field, and the other way round in order 1, by left steps. */
static void orders_opened(void)
{
    uint32_t store[8];
    fill(store, LENGTH(store));
    answer("ix open S(3) = 1, 3 = 2 in order 1", sheet_open(3, 1, WORDS(35, 1, 3, 2), store, LENGTH(store)), 16, 0);
    answer("ix open 3 = 2, S(3) = 1 in order 0", sheet_open(3, 0, WORDS(3, 2, 35, 1), store, LENGTH(store)), 16, 0);
    words(store, WORDS(7, 7, 7, 7, 7, 7, 7, 7));
    answer("ix open S(3) = 1, 3 = 2 in order 0", sheet_open(3, 0, WORDS(35, 1, 3, 2), store, LENGTH(store)), 0, 0);
    words(store, WORDS(3, 2, 0, 0, 35, 1, 3, 2));
    answer("ix open 3 = 2, S(3) = 1 in order 1", sheet_open(3, 1, WORDS(3, 2, 35, 1), store, LENGTH(store)), 0, 0);
    answer("ix open in 7 words", sheet_open(3, 0, WORDS(35, 1, 3, 2), store, 7), 21, 0);
    words(store, WORDS(3, 2, 0, 1, 3, 2, 35, 1));
}

/* Eight questions in each order, and a question twice. Between neighbours each of the first three numbers decides somewhere where the next would
   say the opposite, and the fourth decides somewhere. */
static void orders_compared(void)
{
    uint32_t store[20];
    answer("ix open eight in order 0",
           sheet_open(4, 0, WORDS(2, 1, 34, 1, 3, 1, 3, 33, 35, 1, 3, 2, 3, 34, 4, 1), store, LENGTH(store)), 0, 0);
    answer("ix open eight in order 1",
           sheet_open(4, 1, WORDS(2, 1, 34, 1, 3, 1, 3, 33, 3, 2, 3, 34, 35, 1, 4, 1), store, LENGTH(store)), 0, 0);
    answer("ix open order 0's in order 1",
           sheet_open(4, 1, WORDS(2, 1, 34, 1, 3, 1, 3, 33, 35, 1, 3, 2, 3, 34, 4, 1), store, LENGTH(store)), 16, 0);
    answer("ix open order 1's in order 0",
           sheet_open(4, 0, WORDS(2, 1, 34, 1, 3, 1, 3, 33, 3, 2, 3, 34, 35, 1, 4, 1), store, LENGTH(store)), 16, 0);
    answer("ix open 3 = 2 twice in order 0", sheet_open(4, 0, WORDS(3, 2, 3, 2), store, LENGTH(store)), 16, 0);
    answer("ix open 3 = 2 twice in order 1", sheet_open(4, 1, WORDS(3, 2, 3, 2), store, LENGTH(store)), 16, 0);
    words(store, WORDS(4, 8, 0, 1, 2, 1, 34, 1, 3, 1, 3, 33, 3, 2, 3, 34, 35, 1, 4, 1));
}

/* First at most 16 fields, then an order, then an even number of words. */
static void orders_refused(void)
{
    uint32_t store[8];
    fill(store, LENGTH(store));
    answer("ix open 17 fields, order 2, one word", sheet_open(17, 2, WORDS(1), store, LENGTH(store)), 11, 0);
    answer("ix open order 2, one word", sheet_open(3, 2, WORDS(1), store, LENGTH(store)), 18, 0);
    answer("ix open order 1, one word", sheet_open(3, 1, WORDS(1), store, LENGTH(store)), 12, 0);
    words(store, WORDS(7, 7, 7, 7, 7, 7, 7, 7));
}

/* Numbers that name no order, for a good list, and in the words of a store that is sound with an order. */
static void unknown_orders(void)
{
    static const uint32_t orders[] = {2, 3, 256, 2147483648, 4294967295};
    uint32_t store[22] = {3, 3, 4, 0, 2, 1, 3, 1, 3, 2, 2, 1, 0, 3, 1, 0, 2, 0, 3, 1, 2, 4};
    for (size_t i = 0; i < LENGTH(orders); i++) {
        printf("ix order %" PRIu32 ":\n", orders[i]);
        answer("  open", sheet_open(3, orders[i], WORDS(3, 2), store, LENGTH(store)), 18, 0);
        words(store, WORDS(3, 3, 4, 0, 2, 1, 3, 1, 3, 2, 2, 1, 0, 3, 1, 0, 2, 0, 3, 1, 2, 4));
        store[3] = orders[i];
        not_sound("ix case 6's words with it", store, LENGTH(store));
        store[3] = 0;
        words(store, WORDS(3, 3, 4, 0, 2, 1, 3, 1, 3, 2, 2, 1, 0, 3, 1, 0, 2, 0, 3, 1, 2, 4));
    }
}

/* The verdict and the example of handle 3. */
static void satisfied(const uint32_t *store, size_t length, const uint16_t *expected)
{
    uint16_t sheet[3] = {7, 7, 7};
    answer("ix verdict", sheet_verdict(store, length, 3), 0, 2);
    answer("ix example", sheet_example(store, length, 3, sheet, LENGTH(sheet)), 0, 0);
    counts(sheet, expected, LENGTH(sheet));
}

/* "3 = 2 and not S(3) = 1", then "3 = 2 and S(3) = 1", in a store for the questions of the list, and with the words expected of each. */
static void built_in_order(uint32_t order, const uint32_t *list, const uint32_t *first, const uint32_t *second)
{
    uint32_t store[14];
    printf("in order %" PRIu32 ":\n", order);
    answer("ix open", sheet_open(3, order, list, 4, store, LENGTH(store)), 0, 0);
    answer("ix build 3 = 2 and not S(3) = 1", sheet_build(store, LENGTH(store), WORDS(2, 3, 2, 0, 2, 35, 1, 0, 3, 1, 0, 0, 4, 0, 2, 0)), 0, 3);
    words(store, first, LENGTH(store));
    satisfied(store, LENGTH(store), (const uint16_t[]){0, 0, 0});
    answer("ix open", sheet_open(3, order, list, 4, store, LENGTH(store)), 0, 0);
    answer("ix build 3 = 2 and S(3) = 1", sheet_build(store, LENGTH(store), WORDS(2, 3, 2, 0, 2, 35, 1, 0, 4, 0, 1, 0)), 0, 3);
    words(store, second, LENGTH(store));
    satisfied(store, LENGTH(store), (const uint16_t[]){1, 0, 0});
}

static void orders_built(void)
{
    built_in_order(0, (const uint32_t[]){35, 1, 3, 2}, (const uint32_t[]){3, 2, 2, 0, 35, 1, 3, 2, 2, 1, 0, 1, 0, 2},
                   (const uint32_t[]){3, 2, 2, 0, 35, 1, 3, 2, 2, 1, 0, 1, 2, 0});
    built_in_order(1, (const uint32_t[]){3, 2, 35, 1}, (const uint32_t[]){3, 2, 2, 1, 3, 2, 35, 1, 2, 0, 1, 1, 2, 0},
                   (const uint32_t[]){3, 2, 2, 1, 3, 2, 35, 1, 2, 1, 0, 1, 2, 0});
}

/* Case 6's list stands in both orders, so its words are a sound store with either of them. */
static void case_6_in_order_1(void)
{
    uint32_t store[22];
    answer("ix open case 6 in order 1", sheet_open(3, 1, WORDS(2, 1, 3, 1, 3, 2), store, LENGTH(store)), 0, 0);
    answer("ix build 3 = 2", sheet_build(store, LENGTH(store), WORDS(2, 3, 2, 0)), 0, 5);
    words(store, WORDS(3, 3, 4, 1, 2, 1, 3, 1, 3, 2, 2, 1, 0, 3, 1, 0, 2, 0, 3, 1, 2, 4));
    store[3] = 0;
    answer("ix verdict with order 0", sheet_verdict(store, LENGTH(store), 5), 0, 2);
    store[3] = 1;
    answer("ix verdict with order 1", sheet_verdict(store, LENGTH(store), 5), 0, 2);
}

/* Stores that are not opened: the list of one order under the number of each; four words, and three. */
static void orders_in_a_store(void)
{
    uint32_t store[8] = {3, 2, 0, 0, 35, 1, 3, 2};
    answer("ix verdict, 3 2 0 0 35 1 3 2", sheet_verdict(store, LENGTH(store), 0), 0, 0);
    store[3] = 1;
    not_sound("ix 3 2 0 1 35 1 3 2", store, LENGTH(store));
    answer("ix verdict, 3 2 0 1 3 2 35 1", sheet_verdict(WORDS(3, 2, 0, 1, 3, 2, 35, 1), 0), 0, 0);
    answer("ix verdict, 3 2 0 0 3 2 35 1", sheet_verdict(WORDS(3, 2, 0, 0, 3, 2, 35, 1), 0), 22, 0);
    memset(store, 0, sizeof(store));
    not_sound("ix 0 0 0", store, 3);
    answer("ix verdict, 0 0 0 0", sheet_verdict(store, 4, 0), 0, 0);
    answer("ix verdict, 0 0 0 1", sheet_verdict(WORDS(0, 0, 0, 1), 0), 0, 0);
    answer("ix verdict, 0 0 0 2", sheet_verdict(WORDS(0, 0, 0, 2), 0), 22, 0);
}

/* No words at all, by NULL: no store is so short. */
static void null_stores(void)
{
    answer("null open", sheet_open(0, 0, NULL, 0, NULL, 0), 21, 0);
    answer("null open raw", sheet_open_raw(0, 0, NULL, 0, NULL, 0), 21, 0);
    answer("null logger's open", sheet_logger_open(0, 0, NULL, 0, NULL, 0), 21, 0);
    not_sound("null store", NULL, 0);
}

/* Checks a table, entries of four words by WORDS, and compares the answer. */
static void check(const char *call, const uint32_t *table, size_t length, uint32_t root, uint32_t number, uint32_t result)
{
    answer(call, sheet_check_normal_form(table, length, root), number, result);
}

/* Document 02 (vii). No entries, by NULL; words that are not whole entries; a root that is no handle. */
static void tables_of_any_shape(void)
{
    check("vii check never", NULL, 0, 0, 0, 0);
    check("vii check always", NULL, 0, 1, 0, 1);
    check("vii check no entries, root 2", NULL, 0, 2, 81, 0);
    check("vii check three words", WORDS(3, 2, 1), 0, 81, 0);
    check("vii check five words", WORDS(3, 2, 1, 0, 3), 2, 81, 0);
    check("vii check six words", WORDS(3, 2, 1, 0, 3, 2), 2, 81, 0);
    check("vii check one entry, root 3", WORDS(3, 2, 1, 0), 3, 81, 0);
}

static void normal_forms(void)
{
    check("vii check 000's Example 29, rewritten", WORDS(67, 1, 1, 0, 66, 1, 2, 0), 3, 0, 2);
    check("vii check 2 = 1 and 3 = 1", WORDS(3, 1, 1, 0, 2, 1, 2, 0), 3, 0, 2);
    check("vii check 2 = 0 and 3 = 0", WORDS(3, 0, 1, 0, 2, 0, 2, 0), 3, 0, 2);
    check("vii check 2 = 1 or 3 = 2", WORDS(3, 2, 1, 0, 2, 1, 1, 2), 3, 0, 2);
    check("vii check not 2 = S(0), and 2 = S3(1)", WORDS(2, 97, 1, 0, 2, 32, 0, 2), 3, 0, 2);
    check("vii check S(3) = 1 or 3 = 2", WORDS(3, 2, 1, 0, 35, 1, 1, 2), 3, 0, 2);
    check("vii check 2 = S(1) or S(2) = 1", WORDS(34, 1, 1, 0, 2, 33, 1, 2), 3, 0, 2);
    check("vii check S(2) = 1 or S2(2) = 1", WORDS(66, 1, 1, 0, 34, 1, 1, 2), 3, 0, 2);
    check("vii check 2 = S(1) or 2 = S2(1)", WORDS(2, 65, 1, 0, 2, 33, 1, 2), 3, 0, 2);
}

static void not_normal_forms(void)
{
    check("vii check rule 3", WORDS(2, 1, 1, 1), 2, 86, 0);
    check("vii check rule 4", WORDS(2, 1, 1, 0, 2, 1, 2, 1), 3, 86, 0);
    check("vii check rule 5", WORDS(2, 1, 1, 0, 2, 1, 1, 2), 3, 86, 0);
    check("vii check rule 6", WORDS(2, 1, 1, 0, 3, 1, 2, 1), 3, 86, 0);
    check("vii check rule 7", WORDS(2, 1, 1, 0, 3, 1, 1, 2), 3, 86, 0);
    check("vii check rule 7, right field before left steps", WORDS(35, 1, 1, 0, 3, 2, 1, 2), 3, 86, 0);
    check("vii check rule 7, left steps before right steps", WORDS(2, 33, 1, 0, 34, 1, 1, 2), 3, 86, 0);
    check("vii check rule 8', 000's Example 29", WORDS(3, 2, 1, 0, 66, 1, 2, 0), 3, 86, 0);
    check("vii check rule 8', below by yes", WORDS(4, 2, 1, 0, 3, 1, 2, 0, 2, 1, 3, 0), 4, 86, 0);
    check("vii check rule 8', below by no", WORDS(4, 2, 1, 0, 3, 1, 1, 2, 2, 1, 3, 0), 4, 86, 0);
    check("vii check rule 8', a path that no sheet follows", WORDS(3, 2, 1, 0, 3, 1, 1, 2, 2, 1, 3, 0), 4, 86, 0);
    check("vii check rule 8', on the left", WORDS(2, 97, 1, 0, 2, 32, 2, 0), 3, 86, 0);
}

static void terms_of_tables(void)
{
    check("vii check 2 = S4096(1)", WORDS(2, 131073, 1, 0), 2, 82, 0);
    check("vii check 17 = 1", WORDS(17, 1, 1, 0), 2, 82, 0);
    check("vii check 1 = 2", WORDS(1, 2, 1, 0), 2, 82, 0);
    check("vii check S(2) = S(1)", WORDS(34, 33, 1, 0), 2, 82, 0);
    check("vii check S(1) = 0", WORDS(33, 0, 1, 0), 2, 82, 0);
    check("vii check 2 = 2", WORDS(2, 2, 1, 0), 2, 82, 0);
    check("vii check S4096(2) = 1", WORDS(131074, 1, 1, 0), 2, 82, 0);
    check("vii check 2 = S4095(1)", WORDS(2, 131041, 1, 0), 2, 0, 2);
    check("vii check S4095(2) = 1", WORDS(131042, 1, 1, 0), 2, 0, 2);
    check("vii check 16 = S4095(15)", WORDS(16, 131055, 1, 0), 2, 0, 2);
}

static void handles_of_tables(void)
{
    check("vii check an entry's own handle", WORDS(2, 1, 2, 0), 2, 83, 0);
    check("vii check an entry's own handle by no", WORDS(2, 1, 1, 2), 2, 83, 0);
    check("vii check the largest handle", WORDS(2, 1, 4294967295, 0), 2, 83, 0);
    check("vii check 83 before 84", WORDS(2, 1, 2, 0, 2, 1, 2, 0), 3, 83, 0);
    check("vii check 83 after equal entries", WORDS(3, 2, 1, 0, 3, 2, 1, 0, 2, 1, 4, 0), 4, 83, 0);
    check("vii check 82 before 83", WORDS(2, 1, 4294967295, 0, 2, 2, 1, 0), 3, 82, 0);
    check("vii check equal entries", WORDS(3, 2, 1, 0, 3, 2, 1, 0), 3, 84, 0);
    check("vii check equal entries, root 2", WORDS(3, 2, 1, 0, 3, 2, 1, 0), 2, 84, 0);
    check("vii check an entry not referred to", WORDS(3, 2, 1, 0, 2, 1, 1, 0), 3, 85, 0);
    check("vii check an entry above the root", WORDS(3, 2, 1, 0, 2, 1, 2, 0), 2, 85, 0);
    check("vii check an entry, root 1", WORDS(3, 2, 1, 0), 1, 85, 0);
    check("vii check 85 before 86", WORDS(2, 1, 1, 1, 3, 1, 1, 0), 2, 85, 0);
}

/* One field against the numbers 0 to 4,095, the largest lowest: as many entries as there can be. Then one more. */
static void largest_table(void)
{
    static uint32_t table[4097 * 4], before[4097 * 4];
    for (uint32_t i = 0; i < 4097; i++) {
        const uint32_t entry[] = {1, (4095 - i % 4096) * 32, 1, i == 0 ? 0 : i + 1};
        memcpy(&table[4 * i], entry, sizeof(entry));
    }
    memcpy(before, table, sizeof(table));
    check("vii check 4,096 entries", table, 4096 * 4, 4097, 0, 2);
    check("vii check 4,097 entries", table, 4097 * 4, 4098, 81, 0);
    unchanged(table, before, LENGTH(table));
}

/* Document 02 (xi). Six fields at most, which is looked at before the order. */
static void logger_fields(void)
{
    uint32_t store[4];
    fill(store, LENGTH(store));
    answer("xi logger's open, 7 fields", sheet_logger_open(7, 0, NULL, 0, store, LENGTH(store)), 11, 0);
    answer("xi logger's open, 7 fields, order 2", sheet_logger_open(7, 2, NULL, 0, store, LENGTH(store)), 11, 0);
    answer("xi logger's open, 6 fields, order 2", sheet_logger_open(6, 2, NULL, 0, store, LENGTH(store)), 18, 0);
    words(store, WORDS(7, 7, 7, 7));
    answer("xi logger's open, 6 fields", sheet_logger_open(6, 0, NULL, 0, store, LENGTH(store)), 0, 0);
    words(store, WORDS(6, 0, 0, 0));
}

/* 1 = 0, 1 = S(0) and so on to 1 = S8(0), and a word more. */
static const uint32_t nine_questions[19] = {1, 0, 1, 32, 1, 64, 1, 96, 1, 128, 1, 160, 1, 192, 1, 224, 1, 256, 1};

static void logger_questions(void)
{
    uint32_t store[22];
    fill(store, LENGTH(store));
    answer("xi logger's open, nine questions", sheet_logger_open(1, 0, nine_questions, 18, store, LENGTH(store)), 13, 0);
    answer("xi logger's open, 19 words", sheet_logger_open(1, 0, nine_questions, 19, store, LENGTH(store)), 12, 0);
    answer("xi logger's open, eight questions in 19 words", sheet_logger_open(1, 0, nine_questions, 16, store, 19), 21, 0);
    words(store, WORDS(7, 7, 7, 7, 7, 7, 7, 7, 7, 7, 7, 7, 7, 7, 7, 7, 7, 7, 7, 7, 7, 7));
    answer("xi logger's open, eight questions in 20 words", sheet_logger_open(1, 0, nine_questions, 16, store, 20), 0, 0);
    words(store, WORDS(1, 8, 0, 0, 1, 0, 1, 32, 1, 64, 1, 96, 1, 128, 1, 160, 1, 192, 1, 224, 7, 7));
}

/* Cases 6 to 8 by the logger. */
static void logger_three_fields(void)
{
    uint32_t store[22];
    fill(store, LENGTH(store));
    answer("xi logger's open", sheet_logger_open(3, 0, WORDS(2, 1, 3, 1, 3, 2), store, LENGTH(store)), 0, 0);
    answer("xi logger's build 3 = 2", sheet_logger_build(store, LENGTH(store), WORDS(2, 3, 2, 0)), 0, 5);
    words(store, WORDS(3, 3, 4, 0, 2, 1, 3, 1, 3, 2, 2, 1, 0, 3, 1, 0, 2, 0, 3, 1, 2, 4));
    answer("xi logger's build 3 = 1", sheet_logger_build(store, LENGTH(store), WORDS(2, 3, 1, 0)), 0, 2);
    answer("xi logger's build 2 = 1 and 3 = 2 and not 3 = 1",
           sheet_logger_build(store, LENGTH(store), WORDS(2, 2, 1, 0, 2, 3, 2, 0, 4, 0, 1, 0, 2, 3, 1, 0, 3, 3, 0, 0, 4, 2, 4, 0)), 0, 0);
    words(store, WORDS(3, 3, 4, 0, 2, 1, 3, 1, 3, 2, 2, 1, 0, 3, 1, 0, 2, 0, 3, 1, 2, 4));
    answer("xi verdict", sheet_verdict(store, LENGTH(store), 5), 0, 2);
}

/* Document 02 (i). Case 6's list as it stood on paper: 1 = 2, S(3) = S(1), 2 = 3, 2 = 1, 1 = 1 and S(2) = 0. */
static void raw_three_fields(void)
{
    uint32_t store[22];
    fill(store, LENGTH(store));
    answer("i open raw, 1 2, 35 33, 2 3, 2 1, 1 1, 34 0",
           sheet_open_raw(3, 0, WORDS(1, 2, 35, 33, 2, 3, 2, 1, 1, 1, 34, 0), store, LENGTH(store)), 0, 0);
    words(store, WORDS(3, 3, 0, 0, 2, 1, 3, 1, 3, 2, 0, 0, 0, 0, 0, 0, 0, 0, 0, 0, 0, 0));
    answer("i build 3 = 2", sheet_build(store, LENGTH(store), WORDS(2, 3, 2, 0)), 0, 5);
    words(store, WORDS(3, 3, 4, 0, 2, 1, 3, 1, 3, 2, 2, 1, 0, 3, 1, 0, 2, 0, 3, 1, 2, 4));
}

/* 3 = 2 and 1 = S(3), sorted into the order that is given; doubles count once. */
static void raw_orders(void)
{
    uint32_t store[8];
    fill(store, LENGTH(store));
    answer("i open raw in order 0, 3 2, 1 35", sheet_open_raw(3, 0, WORDS(3, 2, 1, 35), store, LENGTH(store)), 0, 0);
    words(store, WORDS(3, 2, 0, 0, 35, 1, 3, 2));
    answer("i open raw in order 1, 3 2, 1 35", sheet_open_raw(3, 1, WORDS(3, 2, 1, 35), store, LENGTH(store)), 0, 0);
    words(store, WORDS(3, 2, 0, 1, 3, 2, 35, 1));
    answer("i open raw, 1 2, 2 1 in 5 words", sheet_open_raw(3, 0, WORDS(1, 2, 2, 1), store, 5), 21, 0);
    words(store, WORDS(3, 2, 0, 1, 3, 2, 35, 1));
    answer("i open raw, 1 2, 2 1 in 6 words", sheet_open_raw(3, 0, WORDS(1, 2, 2, 1), store, 6), 0, 0);
    words(store, WORDS(3, 1, 0, 0, 2, 1, 35, 1));
}

/* Words that are all 1, so that two of them are 1 = 1. */
static void ones(uint32_t *raw, size_t length)
{
    for (size_t i = 0; i < length; i++) {
        raw[i] = 1;
    }
}

/* The refusals in turn, on words that stay as they are. */
static void raw_refused(void)
{
    uint32_t raw[131];
    uint32_t store[4];
    fill(store, LENGTH(store));
    ones(raw, LENGTH(raw));
    answer("i open raw, 17 fields, order 2, one word", sheet_open_raw(17, 2, raw, 1, store, LENGTH(store)), 11, 0);
    answer("i open raw, order 2, one word", sheet_open_raw(1, 2, raw, 1, store, LENGTH(store)), 18, 0);
    answer("i open raw, 131 words", sheet_open_raw(1, 0, raw, 131, store, LENGTH(store)), 12, 0);
    answer("i open raw, 65 equations", sheet_open_raw(1, 0, raw, 130, store, LENGTH(store)), 17, 0);
    answer("i open raw, 64 equations of a field above n", sheet_open_raw(0, 0, raw, 128, store, LENGTH(store)), 14, 0);
    answer("i open raw, S1024(1) = S1024(1)", sheet_open_raw(1, 0, WORDS(32769, 32769), store, LENGTH(store)), 14, 0);
    for (uint32_t i = 0; i < 21; i++) {
        raw[2 * i + 1] = 32 * i;
    }
    raw[42] = 2;
    answer("i open raw, 1 = 0 to 1 = S20(0)", sheet_open_raw(1, 0, raw, 42, store, LENGTH(store)), 13, 0);
    answer("i open raw, 1 = 0 to 1 = S20(0) and 2 = 1", sheet_open_raw(1, 0, raw, 44, store, LENGTH(store)), 14, 0);
    answer("i open raw, 1 = 0 in four words", sheet_open_raw(1, 0, raw, 2, store, LENGTH(store)), 21, 0);
    words(store, WORDS(7, 7, 7, 7));
}

/* Always and never leave no question, 64 times too. */
static void raw_dropped(void)
{
    uint32_t raw[128];
    uint32_t store[4];
    fill(store, LENGTH(store));
    ones(raw, LENGTH(raw));
    answer("i open raw, S1023(1) = S1023(1) and S(1) = 0", sheet_open_raw(1, 1, WORDS(32737, 32737, 33, 0), store, LENGTH(store)), 0, 0);
    words(store, WORDS(1, 0, 0, 1));
    answer("i open raw, 64 times 1 = 1", sheet_open_raw(1, 0, raw, LENGTH(raw), store, LENGTH(store)), 0, 0);
    words(store, WORDS(1, 0, 0, 0));
}

/* The rule always, and no words by NULL, in a store that is sound for the institute and too large for the logger. */
static void too_large(const char *which, uint32_t *store, size_t length)
{
    printf("%s:\n", which);
    answer("  logger's build", sheet_logger_build(store, length, WORDS(1, 0, 0, 0)), 22, 0);
    answer("  logger's build, no words", sheet_logger_build(store, length, NULL, 0), 22, 0);
    answer("  build", sheet_build(store, length, WORDS(1, 0, 0, 0)), 0, 1);
    answer("  build, no words", sheet_build(store, length, NULL, 0), 31, 0);
}

/* A sound store for 1 = 0 to 1 = S7(0) with so many entries, then zeros. The eighth question stands over the leaves, the seventh over these four
   handles, and the sixth over these sixteen; no operation made such diagrams. */
static void filled(uint32_t *store, size_t length, uint32_t entries)
{
    static const uint32_t levels[][2] = {{8, 2}, {7, 4}, {6, 16}};
    memset(store, 0, length * sizeof(uint32_t));
    memcpy(store, (const uint32_t[]){1, 8, entries, 0}, 4 * sizeof(uint32_t));
    memcpy(&store[4], nine_questions, 16 * sizeof(uint32_t));
    uint32_t *entry = &store[20], *end = &store[20 + 3 * entries];
    for (size_t level = 0; level < LENGTH(levels); level++) {
        uint32_t question = levels[level][0], handles = levels[level][1];
        for (uint32_t pair = 0; pair < handles * handles && entry < end; pair++) {
            if (pair / handles != pair % handles) {
                memcpy(entry, (const uint32_t[]){question, pair / handles, pair % handles}, 3 * sizeof(uint32_t));
                entry += 3;
            }
        }
    }
}

static void logger_larger_stores(void)
{
    uint32_t seven[] = {7, 0, 0, 0}, nine[22] = {1, 9, 0, 0}, store[626], before[626];
    too_large("xi seven fields", seven, LENGTH(seven));
    words(seven, WORDS(7, 0, 0, 0));
    memcpy(&nine[4], nine_questions, 18 * sizeof(uint32_t));
    too_large("xi nine questions", nine, LENGTH(nine));
    words(nine, WORDS(1, 9, 0, 0, 1, 0, 1, 32, 1, 64, 1, 96, 1, 128, 1, 160, 1, 192, 1, 224, 1, 256));
    filled(store, LENGTH(store), 201);
    filled(before, LENGTH(before), 201);
    too_large("xi 201 entries", store, LENGTH(store));
    unchanged(store, before, LENGTH(store));
}

/* The words have room for 202 entries. 1 = 0 takes one, and always takes none. */
static void logger_entries(void)
{
    uint32_t store[626], before[626];
    filled(store, LENGTH(store), 199);
    answer("xi logger's build, 199 entries", sheet_logger_build(store, LENGTH(store), WORDS(2, 1, 0, 0)), 0, 201);
    words(store, WORDS(1, 8, 200, 0));
    words(&store[617], WORDS(1, 1, 0, 0, 0, 0, 0, 0, 0));
    filled(store, LENGTH(store), 200);
    filled(before, LENGTH(before), 200);
    answer("xi logger's build, 200 entries", sheet_logger_build(store, LENGTH(store), WORDS(2, 1, 0, 0)), 51, 0);
    answer("xi logger's build, no new entry", sheet_logger_build(store, LENGTH(store), WORDS(1, 0, 0, 0)), 0, 1);
    answer("xi build, no new entry", sheet_build(store, LENGTH(store), WORDS(1, 0, 0, 0)), 0, 1);
    unchanged(store, before, LENGTH(store));
    answer("xi build, 200 entries", sheet_build(store, LENGTH(store), WORDS(2, 1, 0, 0)), 0, 202);
    words(store, WORDS(1, 8, 201, 0));
    words(&store[620], WORDS(1, 1, 0, 0, 0, 0));
}

/* No words by NULL beside a store that is sound. */
static void null_slices(void)
{
    uint32_t store[6];
    answer("null list", sheet_open(1, 0, NULL, 0, store, LENGTH(store)), 0, 0);
    answer("null raw list", sheet_open_raw(1, 0, NULL, 0, store, LENGTH(store)), 0, 0);
    answer("null rule", sheet_build(store, LENGTH(store), NULL, 0), 31, 0);
    answer("null rule of the logger", sheet_logger_build(store, LENGTH(store), NULL, 0), 31, 0);
    answer("null example of one field", sheet_example(store, LENGTH(store), 1, NULL, 0), 23, 0);
    answer("null sheet of one field", sheet_read(store, LENGTH(store), 1, NULL, 0), 23, 0);
    answer("null rule written back", sheet_write_back(store, LENGTH(store), 0, NULL, 0), 23, 0);
    words(store, WORDS(1, 0, 0, 0, 0, 0));
}

int main(void)
{
    cases_1_to_4();
    case_5();
    cases_6_to_8();
    case_9();
    case_10();
    case_11();
    case_12();
    blanks();
    steps_simplified();
    simplified_case_by_case();
    steps_built();
    steps_added_up();
    steps_in_a_store();
    orders_opened();
    orders_compared();
    orders_refused();
    unknown_orders();
    orders_built();
    case_6_in_order_1();
    orders_in_a_store();
    raw_three_fields();
    raw_orders();
    raw_refused();
    raw_dropped();
    logger_fields();
    logger_questions();
    logger_three_fields();
    logger_larger_stores();
    logger_entries();
    null_stores();
    null_slices();
    tables_of_any_shape();
    normal_forms();
    not_normal_forms();
    terms_of_tables();
    handles_of_tables();
    largest_table();
    printf("%u compared, %u differences\n", compared, differences);
    return differences != 0;
}
