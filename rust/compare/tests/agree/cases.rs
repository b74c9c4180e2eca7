//! Document 01's fourteen cases and those of document 02's requests, with the answers that they give.

use compare::calls::{Call, Outcome};
use compare::comparison::Comparison;
use compare::random::Random;
use independent::{BLANK, FIELDS_FIRST, LEFT_FIRST, ORDERS};

const EXACT: &str = "a case of the documents";

fn open(comparison: &mut Comparison, n: u32, order: u32, list: &[u32], length: usize) -> Outcome {
    comparison.call(&Call::Open { n, order, list: list.to_vec() }, &vec![1; length])
}

fn opened_in(comparison: &mut Comparison, n: u32, order: u32, list: &[u32], length: usize) -> Vec<u32> {
    let outcome = open(comparison, n, order, list, length);
    answer(comparison, &outcome, 0, 0);
    outcome.store
}

/// A store opened in document 01's order.
fn opened(comparison: &mut Comparison, n: u32, list: &[u32], length: usize) -> Vec<u32> {
    opened_in(comparison, n, FIELDS_FIRST, list, length)
}

pub fn answer(comparison: &mut Comparison, outcome: &Outcome, number: u32, result: u32) {
    let given = outcome.answer;
    comparison
        .test(EXACT, (given.number, given.result) == (number, result), || format!("{given:?}, not {number} {result}"));
}

pub fn equal<T: PartialEq + std::fmt::Debug>(comparison: &mut Comparison, left: T, right: T) {
    comparison.test(EXACT, left == right, || format!("{left:?} and {right:?}"));
}

fn simplified(comparison: &mut Comparison, a: u32, b: u32, expected: (u32, u32, u32, u32, i32)) {
    let given = comparison.simplify(a, b);
    equal(comparison, (given.number, given.result, given.left, given.right, given.gap), expected);
}

fn built(comparison: &mut Comparison, store: &[u32], rows: &[[u32; 4]]) -> Outcome {
    comparison.call(&Call::Build { rule: rows.concat() }, store)
}

/// Case 6's list: 2 = 1, 3 = 1, 3 = 2.
const THREE: [u32; 6] = [2, 1, 3, 1, 3, 2];
/// The words of case 6's store with 3 = 2 built.
const CASE_6: [u32; 22] = [3, 3, 4, 0, 2, 1, 3, 1, 3, 2, 2, 1, 0, 3, 1, 0, 2, 0, 3, 1, 2, 4];

pub fn document_cases(comparison: &mut Comparison, _: &mut Random, _: u64) {
    terms(comparison);
    steps(comparison);
    smallest_store(comparison);
    three_fields(comparison);
    examples(comparison);
    limits(comparison);
    orders(comparison);
    raw_lists(comparison);
    blanks(comparison);
}

/// Cases 1 to 4.
fn terms(comparison: &mut Comparison) {
    simplified(comparison, 97, 34, (0, 2, 2, 65, 2));
    simplified(comparison, 65, 0, (0, 0, 0, 0, 0));
    simplified(comparison, 33, 65, (0, 0, 0, 0, 0));
    simplified(comparison, 33, 33, (0, 1, 0, 0, 0));
    simplified(comparison, 65, 64, (0, 2, 1, 0, 0));
    simplified(comparison, 1, 32736, (0, 2, 1, 32736, 1023));
    simplified(comparison, 1, 32768, (35, 0, 0, 0, 0));
    simplified(comparison, 32768, 1, (35, 0, 0, 0, 0));
    opened(comparison, 1, &[1, 32736], 6);
    let refused = open(comparison, 1, FIELDS_FIRST, &[1, 32768], 6);
    answer(comparison, &refused, 14, 0);
}

/// Document 02's (viii): up to 1,023 steps.
fn steps(comparison: &mut Comparison) {
    simplified(comparison, 1, 8192, (0, 2, 1, 8192, 256));
    for (a, b) in [(15, 32752), (32752, 15)] {
        simplified(comparison, a, b, (0, 2, 32752, 15, -1023));
    }
    steps_built(comparison);
    steps_added_up(comparison);
    steps_in_a_store(comparison);
}

fn verdict(comparison: &mut Comparison, store: &[u32], handle: u32, (number, result): (u32, u32)) {
    let verdict = comparison.call(&Call::Verdict(handle), store);
    answer(comparison, &verdict, number, result);
}

fn example(comparison: &mut Comparison, store: &[u32], handle: u32, expected: &[u16]) {
    let example = comparison.call(&Call::Example { handle, sheet: vec![9; expected.len()] }, store);
    answer(comparison, &example, 0, 0);
    equal(comparison, &example.sheet[..], expected);
}

/// S1023(2) = 1, and its negation.
fn steps_built(comparison: &mut Comparison) {
    let store = opened(comparison, 2, &[32738, 1], 12);
    let equation = built(comparison, &store, &[[2, 1, 32738, 0]]);
    answer(comparison, &equation, 0, 2);
    equal(comparison, &equation.store, &vec![2, 1, 1, 0, 32738, 1, 1, 1, 0, 0, 0, 0]);
    let negation = comparison.call(&Call::Negate(2), &equation.store);
    answer(comparison, &negation, 0, 3);
    example(comparison, &negation.store, 2, &[1023, 0]);
    example(comparison, &negation.store, 3, &[0, 0]);
}

/// 1 = S1023(0), 2 = S1023(1) and so on to 16 = S1023(15).
fn steps_added_up(comparison: &mut Comparison) {
    let list: Vec<u32> = (1..=16).flat_map(|field| [field, 32736 + field - 1]).collect();
    let store = opened(comparison, 16, &list, 84);
    let mut rows = vec![[1, 0, 0, 0]];
    for pair in list.chunks(2) {
        let all_before = rows.len() as u32 - 1;
        rows.extend([[2, pair[0], pair[1], 0], [4, all_before, all_before + 1, 0]]);
    }
    let all = built(comparison, &store, &rows);
    answer(comparison, &all, 0, 17);
    let counts: Vec<u16> = (1..=16).map(|field| 1023 * field).collect();
    example(comparison, &all.store, 17, &counts);
}

/// A store whose question has 1,023 steps is sound, and one with 1,024 is not.
fn steps_in_a_store(comparison: &mut Comparison) {
    let store = [1, 1, 0, 0, 1, 32736, 0, 0, 0];
    let rules =
        [([2, 1, 32736, 0], 0, 2), ([2, 1, 32768, 0], 35, 0), ([2, 33, 32768, 0], 35, 0), ([2, 1, 8192, 0], 36, 0)];
    for (row, number, result) in rules {
        let outcome = built(comparison, &store, &[row]);
        answer(comparison, &outcome, number, result);
    }
    for (word, number) in [(32736, 0), (32768, 22)] {
        verdict(comparison, &[1, 1, 0, 0, 1, word], 0, (number, 0));
    }
}

/// Case 5.
fn smallest_store(comparison: &mut Comparison) {
    let store = opened(comparison, 0, &[], 4);
    equal(comparison, &store, &vec![0, 0, 0, 0]);
    let always = built(comparison, &store, &[[1, 0, 0, 0]]);
    answer(comparison, &always, 0, 1);
    example(comparison, &store, 1, &[]);
    let short = open(comparison, 0, FIELDS_FIRST, &[], 3);
    answer(comparison, &short, 21, 0);
}

/// Cases 6 to 8 and 13.
fn three_fields(comparison: &mut Comparison) {
    let store = opened(comparison, 3, &THREE, 22);
    let equation = built(comparison, &store, &[[2, 3, 2, 0]]);
    answer(comparison, &equation, 0, 5);
    equal(comparison, &equation.store[..], &CASE_6);
    let store = equation.store;

    let short = opened(comparison, 3, &THREE, 19);
    let refused = built(comparison, &short, &[[2, 3, 2, 0]]);
    answer(comparison, &refused, 51, 0);
    equal(comparison, &refused.store, &short);

    let inner = built(comparison, &store, &[[2, 3, 1, 0]]);
    answer(comparison, &inner, 0, 2);
    equal(comparison, &inner.store, &store);

    let rule = [[2, 2, 1, 0], [2, 3, 2, 0], [2, 3, 1, 0], [3, 2, 0, 0], [4, 0, 1, 0], [4, 4, 3, 0]];
    let impossible = built(comparison, &store, &rule);
    answer(comparison, &impossible, 0, 0);

    // 004's Example 12: if 2 = 1 then yes else not 3 = 2, and if 3 = 1 then yes else not 3 = 2.
    let store = opened(comparison, 3, &THREE, 60);
    let formula = |word: u32, other: u32| [[1, 0, 0, 0], [2, word, other, 0], [2, 3, 2, 0], [3, 2, 0, 0], [5, 1, 0, 3]];
    let first = built(comparison, &store, &formula(2, 1));
    let second = built(comparison, &first.store, &formula(3, 1));
    equal(comparison, first.answer, second.answer);
    equal(comparison, first.answer.number, 0);
}

/// Cases 9 to 12.
fn examples(comparison: &mut Comparison) {
    // 000's Example 23: 1 not S(2), 3 = S(1), 3 = S2(2).
    let store = opened(comparison, 3, &[34, 1, 3, 33, 3, 66], 13);
    let rule = [[2, 1, 34, 0], [3, 0, 0, 0], [2, 3, 33, 0], [2, 3, 66, 0], [4, 1, 2, 0], [4, 4, 3, 0]];
    let impossible = built(comparison, &store, &rule);
    answer(comparison, &impossible, 0, 0);

    // 000's Example 22: (S2(1) = 2 and S(2) = 3) or (S2(1) not 2 and (2 = S2(3) or (2 not S2(3) and S(2) = 3))).
    let store = opened(comparison, 3, &[2, 65, 3, 34, 67, 2], 60);
    let rule = [[1, 0, 0, 0], [2, 65, 2, 0], [2, 34, 3, 0], [2, 2, 67, 0], [5, 3, 0, 2], [5, 1, 2, 4]];
    let sometimes = built(comparison, &store, &rule);
    equal(comparison, sometimes.answer.number, 0);
    let handle = sometimes.answer.result;
    verdict(comparison, &sometimes.store, handle, (0, 2));
    example(comparison, &sometimes.store, handle, &[0, 0, 1]);

    // Neither 1 = 0 nor 1 = S(0).
    let store = opened(comparison, 1, &[1, 0, 1, 32], 14);
    let rule = [[2, 1, 0, 0], [3, 0, 0, 0], [2, 1, 32, 0], [3, 2, 0, 0], [4, 1, 3, 0]];
    let neither = built(comparison, &store, &rule);
    answer(comparison, &neither, 0, 3);
    equal(comparison, &neither.store[..], &[1, 2, 2, 0, 1, 0, 1, 32, 2, 0, 1, 1, 0, 2]);
    example(comparison, &neither.store, 3, &[2]);

    // 2 = S(0) and 2 = S3(1).
    let store = opened(comparison, 2, &[2, 32, 2, 97], 8);
    let never = built(comparison, &store, &[[2, 2, 32, 0], [2, 2, 97, 0], [4, 0, 1, 0]]);
    answer(comparison, &never, 0, 0);
}

/// Case 14.
fn limits(comparison: &mut Comparison) {
    let list: Vec<u32> = (0..21).flat_map(|steps| [1, 32 * steps]).collect();
    let store = opened(comparison, 1, &list[..40], 44);
    let refused = open(comparison, 1, FIELDS_FIRST, &list, 44);
    answer(comparison, &refused, 13, 0);
    let accepted = built(comparison, &store, &[[1, 0, 0, 0]; 256]);
    answer(comparison, &accepted, 0, 1);
    let refused = built(comparison, &store, &[[1, 0, 0, 0]; 257]);
    answer(comparison, &refused, 33, 0);
}

/// S(3) = 1 and 3 = 2 as each order lists them: by right field, and by left steps.
const TOLD_APART: [[u32; 4]; 2] = [[35, 1, 3, 2], [3, 2, 35, 1]];

/// Document 02's (ix): the order as an input, and in word 3.
fn orders(comparison: &mut Comparison) {
    for (order, list) in ORDERS.into_iter().zip(TOLD_APART) {
        let refused = open(comparison, 3, 1 - order, &list, 14);
        answer(comparison, &refused, 16, 0);
        built_in_order(comparison, order, &list);
    }
    for (n, order, number) in [(17, 2, 11), (3, 2, 18), (3, u32::MAX, 18), (3, 1, 12)] {
        let refused = open(comparison, n, order, &[1], 14);
        answer(comparison, &refused, number, 0);
    }
    orders_compared(comparison);
    case_6_in_order_1(comparison);
    orders_in_a_store(comparison);
}

/// Eight questions in each order, and a question twice. Between neighbours each of the first three numbers decides somewhere where the next would
/// say the opposite, and the fourth decides somewhere.
fn orders_compared(comparison: &mut Comparison) {
    let eight =
        [[2, 1, 34, 1, 3, 1, 3, 33, 35, 1, 3, 2, 3, 34, 4, 1], [2, 1, 34, 1, 3, 1, 3, 33, 3, 2, 3, 34, 35, 1, 4, 1]];
    for order in ORDERS {
        for list_order in ORDERS {
            let outcome = open(comparison, 4, order, &eight[list_order as usize], 20);
            answer(comparison, &outcome, if order == list_order { 0 } else { 16 }, 0);
        }
        let twice = open(comparison, 4, order, &[3, 2, 3, 2], 20);
        answer(comparison, &twice, 16, 0);
    }
}

/// "3 = 2 and not S(3) = 1", and "3 = 2 and S(3) = 1".
fn built_in_order(comparison: &mut Comparison, order: u32, list: &[u32]) {
    let store = opened_in(comparison, 3, order, list, 14);
    let rule = [[2, 3, 2, 0], [2, 35, 1, 0], [3, 1, 0, 0], [4, 0, 2, 0]];
    let only_one = built(comparison, &store, &rule);
    answer(comparison, &only_one, 0, 3);
    let words = match order {
        FIELDS_FIRST => [3, 2, 2, 0, 35, 1, 3, 2, 2, 1, 0, 1, 0, 2],
        _ => [3, 2, 2, 1, 3, 2, 35, 1, 2, 0, 1, 1, 2, 0],
    };
    equal(comparison, &only_one.store[..], &words);
    example(comparison, &only_one.store, 3, &[0, 0, 0]);

    let both = built(comparison, &store, &[[2, 3, 2, 0], [2, 35, 1, 0], [4, 0, 1, 0]]);
    answer(comparison, &both, 0, 3);
    verdict(comparison, &both.store, 3, (0, 2));
    example(comparison, &both.store, 3, &[1, 0, 0]);
}

/// Case 6's list stands in both orders: the entries are the same, and the words are a sound store with either order and no other.
fn case_6_in_order_1(comparison: &mut Comparison) {
    let store = opened_in(comparison, 3, LEFT_FIRST, &THREE, 22);
    let equation = built(comparison, &store, &[[2, 3, 2, 0]]);
    answer(comparison, &equation, 0, 5);
    let mut words = CASE_6;
    words[3] = 1;
    equal(comparison, &equation.store[..], &words);
    for (order, expected) in [(0, (0, 2)), (1, (0, 2)), (2, (22, 0)), (u32::MAX, (22, 0))] {
        words[3] = order;
        verdict(comparison, &words, 5, expected);
    }
}

/// The list of one order under the number of each; three words.
fn orders_in_a_store(comparison: &mut Comparison) {
    for (list_order, list) in ORDERS.into_iter().zip(TOLD_APART) {
        for order in ORDERS {
            let store = [&[3, 2, 0, order], &list[..]].concat();
            let number = if order == list_order { 0 } else { 22 };
            verdict(comparison, &store, 0, (number, 0));
        }
    }
    verdict(comparison, &[0, 0, 0], 0, (22, 0));
}

fn open_raw(comparison: &mut Comparison, (n, order): (u32, u32), raw: &[u32], length: usize) -> Outcome {
    comparison.call(&Call::OpenRaw { n, order, raw: raw.to_vec() }, &vec![1; length])
}

/// Opens a raw list for n fields and an order, on just as many words as it is to leave.
fn opened_raw(comparison: &mut Comparison, head: (u32, u32), raw: &[u32], words: &[u32]) {
    let accepted = open_raw(comparison, head, raw, words.len());
    answer(comparison, &accepted, 0, 0);
    equal(comparison, &accepted.store[..], words);
}

fn refused_raw(comparison: &mut Comparison, head: (u32, u32), raw: &[u32], length: usize, number: u32) {
    let refused = open_raw(comparison, head, raw, length);
    answer(comparison, &refused, number, 0);
    equal(comparison, refused.store, vec![1; length]);
}

/// Document 02's (i): lists as they stand on paper.
fn raw_lists(comparison: &mut Comparison) {
    raw_case_6(comparison);
    raw_lists_in_order(comparison);
    raw_lists_before_words(comparison);
    raw_terms(comparison);
    raw_lists_of_64(comparison);
}

/// Case 6's questions: 1 = 2, S(3) = S(1), 2 = 3, and again 2 = 1; then 1 = 1, which is always, and S(2) = 0, which is never.
fn raw_case_6(comparison: &mut Comparison) {
    let store = [3, 3, 0, 0, 2, 1, 3, 1, 3, 2, 0, 0, 0, 0, 0, 0, 0, 0, 0, 0, 0, 0];
    opened_raw(comparison, (3, 0), &[1, 2, 35, 33, 2, 3, 2, 1, 1, 1, 34, 0], &store);
    let equation = built(comparison, &store, &[[2, 3, 2, 0]]);
    answer(comparison, &equation, 0, 5);
    equal(comparison, &equation.store[..], &CASE_6);
}

/// 3 = 2 and 1 = S(3), which the orders list differently; 1 = 2 and 2 = 1, which are one question.
fn raw_lists_in_order(comparison: &mut Comparison) {
    opened_raw(comparison, (3, 0), &[3, 2, 1, 35], &[3, 2, 0, 0, 35, 1, 3, 2]);
    opened_raw(comparison, (3, 1), &[3, 2, 1, 35], &[3, 2, 0, 1, 3, 2, 35, 1]);
    refused_raw(comparison, (3, 0), &[3, 2, 1, 35], 7, 21);
    opened_raw(comparison, (3, 0), &[1, 2, 2, 1], &[3, 1, 0, 0, 2, 1]);
    refused_raw(comparison, (3, 0), &[1, 2, 2, 1], 5, 21);
}

/// 11, 18, 12 and 17 are looked for before any word.
fn raw_lists_before_words(comparison: &mut Comparison) {
    for (head, number) in [((17, 2), 11), ((3, 2), 18), ((3, 0), 12)] {
        refused_raw(comparison, head, &[1], 8, number);
    }
    for (words, number) in [(127, 12), (128, 14), (129, 12), (130, 17), (131, 12), (132, 17)] {
        refused_raw(comparison, (1, 0), &vec![u32::MAX; words], 4, number);
    }
}

/// 14 is looked for in the terms as they are given, and in all equations before the questions are counted.
fn raw_terms(comparison: &mut Comparison) {
    opened_raw(comparison, (1, 0), &[32737, 32737], &[1, 0, 0, 0]);
    refused_raw(comparison, (1, 0), &[32769, 32769], 4, 14);
    // 1 = 0, 1 = S(0) and so on to 1 = S20(0); then 2 = 1.
    let mut raw: Vec<u32> = (0..21).flat_map(|steps| [1, 32 * steps]).collect();
    refused_raw(comparison, (1, 0), &raw, 46, 13);
    raw.extend([2, 1]);
    refused_raw(comparison, (1, 0), &raw, 46, 14);
}

/// 1 = 1 again and again; 1 = S19(0), 1 = S18(0) and so on to 1 = 0, three times over, and the first four once more.
fn raw_lists_of_64(comparison: &mut Comparison) {
    opened_raw(comparison, (1, 0), &[1; 128], &[1, 0, 0, 0]);
    refused_raw(comparison, (1, 0), &[1; 128], 3, 21);
    refused_raw(comparison, (1, 0), &[1; 130], 4, 17);
    refused_raw(comparison, (1, 0), &[1; 131], 4, 12);
    let raw: Vec<u32> = (0..64).flat_map(|place| [1, 32 * (19 - place % 20)]).collect();
    let list: Vec<u32> = (0..20).flat_map(|steps| [1, 32 * steps]).collect();
    for order in ORDERS {
        opened_raw(comparison, (1, order), &raw, &[&[1, 20, 0, order], &list[..]].concat());
        refused_raw(comparison, (1, order), &raw, 43, 21);
    }
}

/// Reads sheets against a handle; each has its result beside it.
fn readings<const N: usize>(comparison: &mut Comparison, store: &[u32], handle: u32, sheets: &[([u16; N], u32)]) {
    for (sheet, result) in sheets {
        let read = comparison.call(&Call::Read { handle, sheet: sheet.to_vec() }, store);
        answer(comparison, &read, 0, *result);
    }
}

/// Document 02's (iii): 65,535 stands for "not counted".
fn blanks(comparison: &mut Comparison) {
    // 2 = S3(1). Fillings are not bounded, and not negative.
    let store = [2, 1, 1, 0, 2, 97, 1, 1, 0];
    let sheets = [
        ([65534, BLANK], 2),
        ([BLANK, 2], 0),
        ([BLANK, 3], 2),
        ([BLANK, BLANK], 2),
        ([0, 3], 1),
        ([0, 4], 0),
        ([BLANK, 65534], 2),
        ([65534, 65534], 0),
        ([65532, BLANK], 2),
    ];
    readings(comparison, &store, 2, &sheets);
    for leaf in [0, 1] {
        readings(comparison, &store, leaf, &sheets.map(|(sheet, _)| (sheet, leaf)));
    }
    for sheet in [vec![], vec![BLANK], vec![BLANK; 3]] {
        let wrong = comparison.call(&Call::Read { handle: 2, sheet }, &store);
        answer(comparison, &wrong, 23, 0);
    }
    readings(comparison, &[0, 0, 0, 0], 1, &[([], 1)]);
    // The same beside a field that no question names, in both orders.
    for order in ORDERS {
        let beside = [3, 1, 1, order, 2, 97, 1, 1, 0];
        let sheets = [([0, 3, BLANK], 1), ([0, 4, BLANK], 0), ([BLANK, 2, BLANK], 0), ([0, BLANK, 3], 2)];
        readings(comparison, &beside, 2, &sheets);
    }
    // Case 11's rule, and one that is always true though a path leads to never.
    let neither = [1, 2, 2, 0, 1, 0, 1, 32, 2, 0, 1, 1, 0, 2];
    readings(comparison, &neither, 3, &[([BLANK], 2), ([65534], 1)]);
    let unfinished = [3, 3, 3, 0, 2, 1, 3, 1, 3, 2, 3, 1, 0, 2, 2, 1, 1, 3, 1];
    readings(comparison, &unfinished, 4, &[([BLANK; 3], 1), ([5, 5, BLANK], 1), ([BLANK, 5, 5], 1)]);
    blanks_of_two(comparison);
}

/// 3 = 2 and 3 = 1: two blanks are two numbers, and no number is both 7 and 8.
fn blanks_of_two(comparison: &mut Comparison) {
    let store = opened(comparison, 3, &THREE, 16);
    let both = built(comparison, &store, &[[2, 3, 2, 0], [2, 3, 1, 0], [4, 0, 1, 0]]);
    answer(comparison, &both, 0, 3);
    equal(comparison, &both.store[..], &[3, 3, 2, 0, 2, 1, 3, 1, 3, 2, 2, 1, 0, 1, 2, 0]);
    let sheets = [
        ([7, 8, BLANK], 0),
        ([7, 7, BLANK], 2),
        ([BLANK, 8, 7], 0),
        ([7, BLANK, 7], 2),
        ([BLANK, BLANK, 7], 2),
        ([7, 7, 7], 1),
        ([BLANK; 3], 2),
    ];
    readings(comparison, &both.store, 3, &sheets);
}
