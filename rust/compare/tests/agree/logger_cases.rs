//! Cases of document 02's (xi), the deck logger's smaller book, worked out by hand.

use compare::calls::{Call, Outcome};
use compare::comparison::Comparison;
use compare::random::Random;

use crate::cases::{answer, equal};

fn open(comparison: &mut Comparison, n: u32, order: u32, list: &[u32], length: usize) -> Outcome {
    comparison.call(&Call::LoggerOpen { n, order, list: list.to_vec() }, &vec![1; length])
}

/// A rule built by the logger.
fn built(comparison: &mut Comparison, store: &[u32], rows: &[[u32; 4]]) -> Outcome {
    comparison.call(&Call::LoggerBuild { rule: rows.concat() }, store)
}

/// A rule built by the institute.
fn built_by_institute(comparison: &mut Comparison, store: &[u32], rows: &[[u32; 4]]) -> Outcome {
    comparison.call(&Call::Build { rule: rows.concat() }, store)
}

/// 1 = 0, 1 = S(0) and so on to 1 = S8(0).
const NINE: [u32; 18] = [1, 0, 1, 32, 1, 64, 1, 96, 1, 128, 1, 160, 1, 192, 1, 224, 1, 256];
const EIGHT: &[u32] = NINE.split_at(16).0;
const ALWAYS: [[u32; 4]; 1] = [[1, 0, 0, 0]];
/// 1 = 0.
const FIRST: [[u32; 4]; 1] = [[2, 1, 0, 0]];

pub fn worked_cases(comparison: &mut Comparison, _: &mut Random, _: u64) {
    fields(comparison);
    questions(comparison);
    three_fields(comparison);
    larger_stores(comparison);
    entries(comparison);
}

/// Six fields open, and seven don't; that is looked at before the order.
fn fields(comparison: &mut Comparison) {
    let accepted = open(comparison, 6, 0, &[], 4);
    answer(comparison, &accepted, 0, 0);
    equal(comparison, &accepted.store[..], &[6, 0, 0, 0]);
    for (n, order, number) in [(7, 0, 11), (7, 2, 11), (6, 2, 18)] {
        let refused = open(comparison, n, order, &[], 4);
        answer(comparison, &refused, number, 0);
    }
}

/// Eight questions open, and nine don't.
fn questions(comparison: &mut Comparison) {
    let accepted = open(comparison, 1, 0, EIGHT, 20);
    answer(comparison, &accepted, 0, 0);
    equal(comparison, &accepted.store[..], &[&[1, 8, 0, 0], EIGHT].concat());
    let odd = [&NINE[..], &[1]].concat();
    for (list, length, number) in [(&NINE[..], 22, 13), (EIGHT, 19, 21), (&odd, 22, 12)] {
        let refused = open(comparison, 1, 0, list, length);
        answer(comparison, &refused, number, 0);
    }
}

/// Document 01's cases 6 to 8, by the logger.
fn three_fields(comparison: &mut Comparison) {
    let store = open(comparison, 3, 0, &[2, 1, 3, 1, 3, 2], 22).store;
    let equation = built(comparison, &store, &[[2, 3, 2, 0]]);
    answer(comparison, &equation, 0, 5);
    let words = [3, 3, 4, 0, 2, 1, 3, 1, 3, 2, 2, 1, 0, 3, 1, 0, 2, 0, 3, 1, 2, 4];
    equal(comparison, &equation.store[..], &words);

    let inner = built(comparison, &words, &[[2, 3, 1, 0]]);
    answer(comparison, &inner, 0, 2);
    let rule = [[2, 2, 1, 0], [2, 3, 2, 0], [4, 0, 1, 0], [2, 3, 1, 0], [3, 3, 0, 0], [4, 2, 4, 0]];
    let impossible = built(comparison, &words, &rule);
    answer(comparison, &impossible, 0, 0);
}

/// A store of seven fields, one of nine questions and one of 201 entries, whatever the rule. They are sound for the institute.
fn larger_stores(comparison: &mut Comparison) {
    let nine_questions = [&[1, 9, 0, 0], &NINE[..]].concat();
    for store in [vec![7, 0, 0, 0], nine_questions, store_of_entries(201)] {
        for rows in [&ALWAYS[..], &[]] {
            let refused = built(comparison, &store, rows);
            answer(comparison, &refused, 22, 0);
            equal(comparison, &refused.store, &store);
        }
        let accepted = built_by_institute(comparison, &store, &ALWAYS);
        answer(comparison, &accepted, 0, 1);
        let no_words = built_by_institute(comparison, &store, &[]);
        answer(comparison, &no_words, 31, 0);
    }
}

/// The last of 200 entries, one more, and none; the words would do for two more.
fn entries(comparison: &mut Comparison) {
    let last = built(comparison, &store_of_entries(199), &FIRST);
    answer(comparison, &last, 0, 201);

    let full = store_of_entries(200);
    let refused = built(comparison, &full, &FIRST);
    answer(comparison, &refused, 51, 0);
    equal(comparison, &refused.store, &full);
    let none_needed = built(comparison, &full, &ALWAYS);
    answer(comparison, &none_needed, 0, 1);
    let accepted = built_by_institute(comparison, &full, &FIRST);
    answer(comparison, &accepted, 0, 202);
    equal(comparison, (accepted.store[2], &accepted.store[620..623]), (201, &[1, 1, 0][..]));
    let none_needed = built_by_institute(comparison, &full, &ALWAYS);
    answer(comparison, &none_needed, 0, 1);
}

/// A sound store for 1 = 0 to 1 = S7(0) with so many entries, and words for two more. The eighth question stands over the leaves, the seventh
/// over these four handles, and the sixth over these sixteen; no operation made such diagrams.
fn store_of_entries(entries: u32) -> Vec<u32> {
    let mut store = [&[1, 8, entries, 0], EIGHT].concat();
    for (question, below) in [(8, 2), (7, 4), (6, 16)] {
        for (yes, no) in (0..below).flat_map(|yes| (0..below).map(move |no| (yes, no))) {
            if yes != no {
                store.extend([question, yes, no]);
            }
        }
    }
    store.truncate(20 + 3 * entries as usize);
    store.extend([0; 6]);
    store
}
