//! Lists of calls on one store, with a ledger beside it; and on two stores, one for each order.

use compare::calls::{Call, Outcome};
use compare::comparison::{bounds_are_affordable, counting_is_affordable, occasion, questions_of, Comparison};
use compare::generate::{self, Gaps, Size, Survey, FAR, MIDDLE, SMALL, TALL, WIDE};
use compare::ledger::Ledger;
use compare::random::Random;
use independent::{largest_count, possible_by_bounds, possible_by_counting, Answer};
use independent::{FIELDS_FIRST, MOST_FIELDS, MOST_STEPS, ORDERS};

/// The entries of a store that is hardly ever full.
const LARGE_ROOM: usize = 2_000;

/// That difference bounds and trying all counts find the same combinations of answers.
pub fn possible_answers(comparison: &mut Comparison, random: &mut Random, cases: u64) {
    for _ in 0..cases {
        let size = *random.pick(&[SMALL, SMALL, MIDDLE, TALL]);
        let survey = generate::survey(random, size);
        let questions = questions_of(&survey.list);
        if counting_is_affordable(survey.n, &questions) && bounds_are_affordable(survey.n, &questions) {
            found_in_two_ways(comparison, &survey);
        }
    }
    // Up to four million sheets each.
    for _ in 0..1 + cases / 100 {
        let survey = generate::survey(random, Size { fields: (2, 2), most_questions: 8, ..FAR });
        found_in_two_ways(comparison, &survey);
    }
}

fn found_in_two_ways(comparison: &mut Comparison, survey: &Survey) {
    let questions = questions_of(&survey.list);
    let equal = possible_by_bounds(survey.n, &questions) == possible_by_counting(survey.n, &questions);
    comparison.test("possible answers of a list, found in two ways", equal, || format!("{survey:?}"));
}

/// Opens a store and makes a list of calls, refused ones among them; then tests the handle law.
pub fn lists_of_calls(comparison: &mut Comparison, random: &mut Random, cases: u64) {
    for _ in 0..cases {
        let size = *random.pick(&generate::SIZES);
        let survey = generate::survey(random, size);
        let length = generate::store_length(random, &survey);
        let mut store = comparison.call(&survey.open(), &vec![u32::MAX; length]).store;
        let mut ledger = Ledger::new(&survey);
        let mut known = vec![0, 1];
        let most_calls = if random.one_in(8) { 80 } else { 25 };
        for _ in 0..random.below(most_calls) {
            let call = call(random, &survey, store[2], &known);
            let outcome = comparison.call(&call, &store);
            if let Some(ledger) = &mut ledger {
                ledger.enter(&call, &store, outcome.answer);
            }
            store.clone_from(&outcome.store);
            if outcome.answer.number == 0 {
                after_acceptance(comparison, &survey, &mut known, &call, &outcome);
            }
        }
        if let Some(ledger) = ledger {
            test_law(comparison, &survey, &ledger, &store);
        }
    }
}

/// Keeps a returned handle, tests an example's counts, and builds what was written back.
fn after_acceptance(
    comparison: &mut Comparison,
    survey: &Survey,
    known: &mut Vec<u32>,
    call: &Call,
    Outcome { answer, store, sheet, words, .. }: &Outcome,
) {
    match call {
        Call::Build { .. } | Call::Negate(_) | Call::Join(..) | Call::Choose(..) => known.push(answer.result),
        Call::Example { .. } => test_bound(comparison, survey, sheet),
        Call::WriteBack { handle, .. } if known.contains(handle) => {
            let rule = words[..4 * answer.result as usize].to_vec();
            let again = comparison.call(&Call::Build { rule }, store);
            let same = again.answer.number == 0 && again.answer.result == *handle && again.store == *store;
            comparison.test("a handle written back and built again", same, || format!("{handle} in {store:?}"));
        }
        _ => {}
    }
}

/// Tests the handle law on the ledger of a list of calls.
pub fn test_law(comparison: &mut Comparison, survey: &Survey, ledger: &Ledger, store: &[u32]) {
    let law = ledger.check_law();
    for _ in 0..*law.as_ref().unwrap_or(&1) {
        comparison.test("two pairs of a ledger", law.is_ok(), || format!("{law:?} {survey:?} {store:?}"));
    }
    // The order matters where entries were made.
    if survey.is_in_one_order() && store[2] > 0 {
        comparison.meet(match survey.order {
            FIELDS_FIRST => occasion::CALLS_IN_ORDER_0,
            _ => occasion::CALLS_IN_ORDER_1,
        });
    }
}

/// Any call but an accepted opening.
fn call(random: &mut Random, survey: &Survey, used: u32, known: &[u32]) -> Call {
    let handle = generate::handle(random, used, known);
    match random.below(40) {
        0..=12 => Call::Build { rule: generate::rule(random, survey) },
        13..=16 => Call::Build { rule: generate::faulty_rule(random, survey) },
        17..=20 => Call::Negate(handle),
        21..=24 => Call::Join(handle, generate::handle(random, used, known)),
        25..=28 => Call::Choose(handle, generate::handle(random, used, known), generate::handle(random, used, known)),
        29..=30 => Call::Verdict(handle),
        31..=33 => {
            let length = if random.one_in(8) { random.below(18) } else { survey.n };
            Call::Example { handle, sheet: vec![11; length as usize] }
        }
        34..=36 => Call::Read { handle, sheet: generate::sheet(random, survey) },
        37..=38 => {
            let length = if random.one_in(3) { random.below(60) } else { 1024 };
            Call::WriteBack { handle, rule: vec![5; length as usize] }
        }
        _ => {
            let (n, order) = *random.pick(&[(17, survey.order), (survey.n, 2)]);
            Call::Open { n, order, list: survey.list.clone() }
        }
    }
}

/// That no count of an example exceeds n x (K + 1).
fn test_bound(comparison: &mut Comparison, survey: &Survey, sheet: &[u16]) {
    let most = largest_count(survey.n, &questions_of(&survey.list));
    let within = sheet.iter().all(|count| u64::from(*count) <= most);
    comparison.test("the bound on an example's counts", within, || format!("{survey:?} {sheet:?}"));
}

/// Long lists about many fields, with rules that give each question a certain answer: paths with up to twenty facts.
pub fn long_paths(comparison: &mut Comparison, random: &mut Random, cases: u64) {
    for _ in 0..cases {
        let gaps = *random.pick(&[Gaps::up_to(1), Gaps::up_to(3), FAR.gaps, Gaps::up_to(MOST_STEPS)]);
        let survey = generate::survey(random, Size { fields: (1, MOST_FIELDS), gaps, most_questions: 20 });
        let mut store = comparison.opened(&survey, 1_000);
        let mut handles = Vec::new();
        for _ in 0..3 {
            let outcome = comparison.call(&Call::Build { rule: generate::long_path_rule(random, &survey) }, &store);
            handles.push(outcome.answer.result);
            store = outcome.store;
        }
        let calls = [
            Call::Negate(handles[0]),
            Call::Join(handles[0], handles[1]),
            Call::Choose(handles[0], handles[1], handles[2]),
            Call::Choose(handles[1], 0, handles[2]),
        ];
        for call in calls {
            let outcome = comparison.call(&call, &store);
            handles.push(outcome.answer.result);
            store = outcome.store;
        }
        for handle in handles {
            comparison.call(&Call::Verdict(handle), &store);
            let example = comparison.call(&Call::Example { handle, sheet: vec![0; survey.n as usize] }, &store);
            comparison.call(&Call::Read { handle, sheet: example.sheet }, &store);
        }
    }
}

/// The same questions listed in each order, and the same calls on both stores: rules share a handle in one store exactly if they do in
/// the other, and have the same verdict and example in both.
pub fn both_orders(comparison: &mut Comparison, random: &mut Random, cases: u64) {
    for _ in 0..cases / 4 {
        let size = *random.pick(&[SMALL, MIDDLE, FAR, WIDE]);
        let survey = generate::survey(random, size);
        let calls: Vec<Call> = (2..10).map(|rules| call_on_rules(random, &survey, rules)).collect();
        let [first, second] = ORDERS.map(|order| rules_found(comparison, &survey.in_order(order), &calls));
        for (i, rules) in first.iter().zip(&second).enumerate() {
            let describe = || format!("rules {rules:?} of {survey:?} after {calls:?}");
            let alike = (rules.0.verdict, &rules.0.example) == (rules.1.verdict, &rules.1.example);
            comparison.test("verdict and example in both orders", alike, describe);
            let shared = |found: &[Found], j: usize| found[i].handle == found[j].handle;
            let shared_alike = (0..i).all(|j| shared(&first, j) == shared(&second, j));
            comparison.test("handles shared in both orders", shared_alike, describe);
        }
    }
}

/// A call on rules by their numbers in place of handles. There are so many rules; those with the numbers 0 and 1 are never and always.
fn call_on_rules(random: &mut Random, survey: &Survey, rules: u32) -> Call {
    let [a, b, c] = [0; 3].map(|_| random.below(rules));
    match random.below(6) {
        0 => Call::Negate(a),
        1 => Call::Join(a, b),
        2 => Call::Choose(a, b, c),
        _ => Call::Build { rule: generate::rule(random, survey) },
    }
}

/// What a store says of a rule.
#[derive(Debug)]
struct Found {
    handle: u32,
    verdict: Answer,
    example: (Answer, Vec<u16>),
}

/// Makes calls on rules in a new store, each giving the next rule, until one is refused. Gives what the store says of all rules.
fn rules_found(comparison: &mut Comparison, survey: &Survey, calls: &[Call]) -> Vec<Found> {
    let mut store = comparison.opened(survey, LARGE_ROOM);
    let mut handles = vec![0, 1];
    for call in calls {
        let handle = |rule: u32| handles[rule as usize];
        let call = match *call {
            Call::Negate(a) => Call::Negate(handle(a)),
            Call::Join(a, b) => Call::Join(handle(a), handle(b)),
            Call::Choose(a, b, c) => Call::Choose(handle(a), handle(b), handle(c)),
            _ => call.clone(),
        };
        let outcome = comparison.call(&call, &store);
        if outcome.answer.number != 0 {
            break;
        }
        handles.push(outcome.answer.result);
        store = outcome.store;
    }
    let found = |handle: u32| {
        let verdict = comparison.call(&Call::Verdict(handle), &store).answer;
        let example = comparison.call(&Call::Example { handle, sheet: vec![0; survey.n as usize] }, &store);
        Found { handle, verdict, example: (example.answer, example.sheet) }
    };
    handles.into_iter().map(found).collect()
}

/// A formula over letters.
enum Formula {
    Never,
    Always,
    Letter(usize),
    Not(Box<Formula>),
    And(Box<Formula>, Box<Formula>),
    If(Box<Formula>, Box<Formula>, Box<Formula>),
}

const LETTERS: usize = 3;

impl Formula {
    fn random(random: &mut Random, depth: u32) -> Formula {
        let part = |random: &mut Random| Box::new(Formula::random(random, depth - 1));
        match random.below(if depth == 0 { 5 } else { 12 }) {
            0 => Formula::Never,
            1 => Formula::Always,
            2..=4 => Formula::Letter(random.place(LETTERS)),
            5..=6 => Formula::Not(part(random)),
            7..=9 => Formula::And(part(random), part(random)),
            _ => Formula::If(part(random), part(random), part(random)),
        }
    }

    fn holds(&self, letters: &[bool]) -> bool {
        match self {
            Formula::Never => false,
            Formula::Always => true,
            Formula::Letter(letter) => letters[*letter],
            Formula::Not(a) => !a.holds(letters),
            Formula::And(a, b) => a.holds(letters) && b.holds(letters),
            Formula::If(a, b, c) => if a.holds(letters) { b } else { c }.holds(letters),
        }
    }

    /// Another formula that comes out alike whatever the truth of the letters: its table of truth, read letter by letter.
    fn by_truth_table(&self, letters: &mut Vec<bool>) -> Formula {
        if letters.len() == LETTERS {
            return if self.holds(letters) { Formula::Always } else { Formula::Never };
        }
        let letter = letters.len();
        let [yes, no] = [true, false].map(|truth| {
            letters.push(truth);
            let part = self.by_truth_table(letters);
            letters.pop();
            Box::new(part)
        });
        Formula::If(Box::new(Formula::Letter(letter)), yes, no)
    }

    /// The formula's handle, worked out by calls. None if a call is refused.
    fn work_out(&self, comparison: &mut Comparison, store: &mut Vec<u32>, letters: &[u32]) -> Option<u32> {
        let call = match self {
            Formula::Never => return Some(0),
            Formula::Always => return Some(1),
            Formula::Letter(letter) => return Some(letters[*letter]),
            Formula::Not(a) => Call::Negate(a.work_out(comparison, store, letters)?),
            Formula::And(a, b) => {
                Call::Join(a.work_out(comparison, store, letters)?, b.work_out(comparison, store, letters)?)
            }
            Formula::If(a, b, c) => Call::Choose(
                a.work_out(comparison, store, letters)?,
                b.work_out(comparison, store, letters)?,
                c.work_out(comparison, store, letters)?,
            ),
        };
        let outcome = comparison.call(&call, store);
        *store = outcome.store;
        (outcome.answer.number == 0).then_some(outcome.answer.result)
    }
}

/// Formulas that are alike by Boolean algebra, with built rules as letters, give equal handles.
pub fn laws(comparison: &mut Comparison, random: &mut Random, cases: u64) {
    for _ in 0..cases / 4 {
        let size = *random.pick(&[SMALL, MIDDLE, FAR, TALL]);
        let survey = generate::survey(random, size);
        let mut store = comparison.opened(&survey, LARGE_ROOM);
        let letters = [0; LETTERS].map(|_| {
            let outcome = comparison.call(&Call::Build { rule: generate::rule(random, &survey) }, &store);
            store.clone_from(&outcome.store);
            outcome.answer.result
        });
        let formula = Formula::random(random, 4);
        let other = formula.by_truth_table(&mut Vec::new());
        let first = formula.work_out(comparison, &mut store, &letters);
        let second = other.work_out(comparison, &mut store, &letters);
        if let (Some(first), Some(second)) = (first, second) {
            comparison.test("a law of Boolean algebra", first == second, || format!("{first} {second} in {store:?}"));
        }
    }
}
