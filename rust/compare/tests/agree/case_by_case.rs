//! Simplification case by case: the five lines, followed in every order and in orders picked at random, end in simplify's answer.

use std::collections::BTreeSet;

use compare::comparison::{occasion, Comparison};
use compare::random::Random;
use independent::{Guard, Term, MOST_FIELDS, MOST_STEPS};

/// How many sequences are followed for each pair of terms.
const SEQUENCES: usize = 20;
/// In half of the sequences line 5, picked where another line applies as well, is taken once in so many times: so it also comes late, when line 2
/// has taken many steps off.
const LATE: u32 = 500;

/// Pairs of small terms: all guards that some sequence of cases leads to.
pub fn every_order(comparison: &mut Comparison, _: &mut Random, _: u64) {
    let terms: Vec<Term> = (0..4).flat_map(|field| (0..5).map(move |steps| Term { field, steps })).collect();
    for left in &terms {
        for right in &terms {
            follow_all(comparison, Guard::Equation(*left, *right));
        }
    }
}

fn follow_all(comparison: &mut Comparison, start: Guard) {
    let expected = simplified(comparison, start);
    let mut seen = BTreeSet::from([start]);
    let mut open = vec![start];
    while let Some(guard) = open.pop() {
        let cases = guard.cases();
        meet_at_once(comparison, &cases);
        let meanwhile = simplified(comparison, guard);
        comparison.test("simplify's answer after each case, in every order", meanwhile == expected, || {
            format!("{start:?} led to {guard:?}")
        });
        if cases.is_empty() {
            comparison.test("the end of the cases, in every order", guard == expected, || {
                format!("{start:?} ended in {guard:?}, simplify in {expected:?}")
            });
        }
        for (line, next) in cases {
            comparison.test("a number that falls with each case", next.most_cases() < guard.most_cases(), || {
                format!("line {line} led from {guard:?} to {next:?}")
            });
            if seen.insert(next) {
                open.push(next);
            }
        }
    }
}

/// Pairs of terms of up to 1,023 steps, each simplified several times by lines picked at random among those that apply.
pub fn picked_at_random(comparison: &mut Comparison, random: &mut Random, cases: u64) {
    for _ in 0..cases / 2 {
        let start = equation(random);
        let expected = simplified(comparison, start);
        for sequence in 0..SEQUENCES {
            let turned_in = if sequence % 2 == 0 { 1 } else { LATE };
            follow_one(comparison, random, start, expected, turned_in);
        }
    }
}

/// An equation whose terms are often of one field, or zero, or close in steps, and sometimes at the largest steps.
fn equation(random: &mut Random) -> Guard {
    let field = |random: &mut Random| if random.one_in(4) { random.below(MOST_FIELDS + 1) } else { random.below(3) };
    let most = *random.pick(&[3, 40, MOST_STEPS, MOST_STEPS]);
    let base = if random.one_in(3) { most } else { random.below(most + 1) };
    let [left, right] = [0; 2].map(|_| {
        let steps = if random.one_in(4) { random.below(most + 1) } else { base - random.below(4).min(base) };
        Term { field: field(random), steps }
    });
    Guard::Equation(left, right)
}

fn follow_one(comparison: &mut Comparison, random: &mut Random, start: Guard, expected: Guard, turned_in: u32) {
    let mut guard = start;
    let mut lines = Vec::new();
    loop {
        let cases = guard.cases();
        meet_at_once(comparison, &cases);
        if cases.is_empty() {
            break;
        }
        let (line, next) = pick(random, &cases, turned_in);
        comparison.meet(occasion::LINES[line - 1]);
        lines.push(line);
        guard = next;
    }
    let describe = || format!("{start:?} ended in {guard:?} by the lines {lines:?}, simplify in {expected:?}");
    comparison.test("the end of the cases, picked at random", guard == expected, describe);
    comparison.test("a bound on the cases of a sequence", lines.len() <= start.most_cases(), describe);
    if lines.len() > MOST_STEPS as usize {
        comparison.meet(occasion::LONGEST_SEQUENCE);
    }
    if lines.iter().skip(100).any(|line| *line == 5) {
        comparison.meet(occasion::TURNED_LATE);
    }
}

/// One of the cases that apply; line 5, picked beside another, is taken once in so many times.
fn pick(random: &mut Random, cases: &[(usize, Guard)], turned_in: u32) -> (usize, Guard) {
    loop {
        let case = *random.pick(cases);
        if case.0 != 5 || cases.len() == 1 || random.one_in(turned_in) {
            return case;
        }
    }
}

/// What the library makes of a guard: never and always stand for themselves.
fn simplified(comparison: &mut Comparison, guard: Guard) -> Guard {
    let Guard::Equation(left, right) = guard else { return guard };
    let answer = comparison.simplify(left.word(), right.word());
    let simplified = match answer.result {
        0 => Guard::Never,
        1 => Guard::Always,
        _ => Guard::Equation(Term::of_word(answer.left), Term::of_word(answer.right)),
    };
    comparison
        .test("an answer of simplify as a guard", simplified.answer() == answer, || format!("{guard:?}: {answer:?}"));
    simplified
}

/// Notes which lines apply at once.
fn meet_at_once(comparison: &mut Comparison, cases: &[(usize, Guard)]) {
    let lines: Vec<usize> = cases.iter().map(|(line, _)| *line).collect();
    for (together, met) in occasion::LINES_AT_ONCE {
        if together == lines {
            comparison.meet(met);
        }
    }
}
