//! Compares the proved library with the independent implementation on many inputs, good and hostile, and reports what was compared.
//!
//! SHEET_CASES says how many lists of calls are tried (other counts follow it), SHEET_SEED which ones.

mod blanks;
mod case_by_case;
mod cases;
mod hostile;
mod limits;
mod lists;
mod logger;
mod logger_cases;
mod normal_forms;
mod raw_lists;

use std::process::ExitCode;
use std::time::Instant;

use compare::comparison::Comparison;
use compare::random::Random;

type Suite = fn(&mut Comparison, &mut Random, u64);

/// Every suite and what it is about. Which inputs a suite tries depends on its place.
const SUITES: [(&str, Suite); 27] = [
    ("the documents' cases", cases::document_cases),
    ("simplify", hostile::simplify),
    ("the two ways to find possible answers", lists::possible_answers),
    ("opening", hostile::opening),
    ("lists of calls", lists::lists_of_calls),
    ("long paths", lists::long_paths),
    ("laws of Boolean algebra", lists::laws),
    ("the same calls in both orders", lists::both_orders),
    ("sound stores written by hand", hostile::sound_stores),
    ("damaged stores", hostile::damaged_stores),
    ("limits", limits::limits),
    ("large diagrams", limits::large_diagrams),
    ("the logger's worked cases", logger_cases::worked_cases),
    ("logger and institute side by side", logger::side_by_side),
    ("stores beyond the logger's limits", logger::larger_stores),
    ("the worked cases of another tool's diagrams", normal_forms::worked_cases),
    ("all small diagrams", normal_forms::all_small),
    ("diagrams close to a normal form", normal_forms::close_to_normal),
    ("large diagrams of another tool", normal_forms::large),
    ("raw lists and what they were made of", raw_lists::made_of_surveys),
    ("raw lists with faults", raw_lists::with_faults),
    ("raw lists of any kind", raw_lists::any_lists),
    ("raw lists spelt otherwise", raw_lists::other_spellings),
    ("sheets with blanks, stores that operations have made", blanks::made_stores),
    ("sheets with blanks, stores written by hand", blanks::stores_by_hand),
    ("simplification case by case, in every order", case_by_case::every_order),
    ("simplification case by case, picked at random", case_by_case::picked_at_random),
];

fn number_from_environment(name: &str, otherwise: u64) -> u64 {
    match std::env::var(name) {
        Ok(text) => text.parse().unwrap_or_else(|_| panic!("{name} is not a number: {text}")),
        Err(_) => otherwise,
    }
}

fn main() -> ExitCode {
    let cases = number_from_environment("SHEET_CASES", 2_000);
    let seed = number_from_environment("SHEET_SEED", 1);
    println!("SHEET_CASES={cases} SHEET_SEED={seed}");

    let mut comparison = Comparison::default();
    for (i, (name, suite)) in SUITES.into_iter().enumerate() {
        let start = Instant::now();
        suite(&mut comparison, &mut Random::new(seed << 8 | i as u64), cases);
        println!("{name}: {:.1} s", start.elapsed().as_secs_f64());
    }
    if comparison.report() {
        ExitCode::SUCCESS
    } else {
        ExitCode::FAILURE
    }
}
