//! Sheets on which some fields were not counted, read in stores that operations have made and in stores written by hand.

use compare::calls::Call;
use compare::comparison::{occasion, Comparison};
use compare::generate::{self, Survey};
use compare::random::Random;
use independent::{Answer, BLANK};

/// How many sheets are read in each store.
const SHEETS: usize = 12;

/// Reads sheets in stores that operations have made.
pub fn made_stores(comparison: &mut Comparison, random: &mut Random, cases: u64) {
    for _ in 0..cases / 2 {
        let size = *random.pick(&generate::SIZES);
        let survey = generate::survey(random, size);
        let mut store = comparison.opened(&survey, 1_000);
        let mut handles = vec![0, 1];
        for _ in 0..3 {
            let rule = *random.pick(&[generate::rule, generate::long_path_rule]);
            let outcome = comparison.call(&Call::Build { rule: rule(random, &survey) }, &store);
            handles.push(outcome.answer.result);
            store = outcome.store;
        }
        read_sheets(comparison, random, &survey, &store, &handles, occasion::BLANKS_MADE);
    }
}

/// Reads sheets in stores written by hand, whose diagrams may have dead paths and ask what is forced.
pub fn stores_by_hand(comparison: &mut Comparison, random: &mut Random, cases: u64) {
    for _ in 0..cases / 2 {
        let size = *random.pick(&generate::SIZES);
        let survey = generate::survey(random, size);
        let most_entries = *random.pick(&[3, 10, 40, 200]);
        let store = generate::sound_store(random, &survey, most_entries);
        let handles: Vec<u32> = (0..store[2] + 2).collect();
        read_sheets(comparison, random, &survey, &store, &handles, occasion::BLANKS_BY_HAND);
    }
}

fn read_sheets(
    comparison: &mut Comparison,
    random: &mut Random,
    survey: &Survey,
    store: &[u32],
    handles: &[u32],
    met: [&'static str; 3],
) {
    for _ in 0..SHEETS {
        let handle = *random.pick(handles);
        let sheet = generate::sheet(random, survey);
        let answer = read(comparison, store, handle, &sheet);
        if answer.number != 0 {
            continue;
        }
        let verdict = comparison.call(&Call::Verdict(handle), store).answer;
        meet(comparison, &sheet, answer.result, verdict.result, met);
        if sheet.iter().all(|count| *count == BLANK) {
            comparison
                .test("a sheet of blanks, read as the verdict", answer == verdict, || format!("{handle} in {store:?}"));
        }
        test_filling(comparison, random, survey, store, (handle, &sheet), answer);
    }
}

fn read(comparison: &mut Comparison, store: &[u32], handle: u32, sheet: &[u16]) -> Answer {
    comparison.call(&Call::Read { handle, sheet: sheet.to_vec() }, store).answer
}

/// A sheet with some blanks filled: what every filling says of the first sheet, every filling says of this one.
fn test_filling(
    comparison: &mut Comparison,
    random: &mut Random,
    survey: &Survey,
    store: &[u32],
    (handle, sheet): (u32, &[u16]),
    answer: Answer,
) {
    let other = generate::sheet(random, survey);
    let mut filled = sheet.to_vec();
    for (count, number) in filled.iter_mut().zip(other) {
        if *count == BLANK {
            *count = number;
        }
    }
    let after = read(comparison, store, handle, &filled);
    let kept = answer.result == 2 || after == answer;
    comparison.test("a filled sheet, read as before", kept, || format!("{sheet:?} {filled:?} {handle} in {store:?}"));
}

fn meet(comparison: &mut Comparison, sheet: &[u16], result: u32, verdict: u32, met: [&'static str; 3]) {
    let blanks = sheet.iter().filter(|count| **count == BLANK).count();
    if blanks == 0 {
        comparison.meet(occasion::NO_BLANKS);
    } else if blanks == sheet.len() {
        comparison.meet(occasion::ALL_BLANK);
    } else {
        comparison.meet(met[result as usize]);
        if sheet.iter().any(|count| (BLANK - 2..BLANK).contains(count)) {
            comparison.meet(occasion::BLANKS_AT_THE_EDGE[result as usize]);
        }
        if result != 2 && verdict == 2 {
            comparison.meet(occasion::COUNTS_DECIDE);
        }
    }
}
