//! Words that nobody would write: terms beyond limits, lists with faults, stores that aren't sound or that no operation made.

use compare::calls::Call;
use compare::comparison::{occasion, Comparison};
use compare::generate::{self, Fault, Survey, FAULTS};
use compare::random::Random;
use independent::refusal::{NOT_ASCENDING, NOT_SOUND, TOO_MANY_FIELDS, UNKNOWN_ORDER};
use independent::{Fast, Operations, Term, HEADING, ORDERS};

/// Simplify on words at the limits, on random ones, and its answer against the truth at random counts.
pub fn simplify(comparison: &mut Comparison, random: &mut Random, cases: u64) {
    let steps = [0, 1, 2, 127, 254, 255, 256, 257, 1022, 1023, 1024, 1025];
    let words: Vec<u32> =
        steps.iter().flat_map(|steps| (0..32).map(move |field| Term { field, steps: *steps }.word())).collect();
    for a in words.iter().chain(&[65_536, 1 << 21, u32::MAX, u32::MAX - 31, 1 << 31]) {
        for b in &words {
            simplify_one(comparison, random, *a, *b);
        }
    }
    for _ in 0..50 * cases {
        let [a, b] = [0; 2].map(|_| match random.below(8) {
            0 => random.word(),
            1 => random.below(34_000),
            2..=4 => Term { field: random.below(5), steps: random.below(1_100) }.word(),
            _ => Term { field: random.below(5), steps: random.below(300) }.word(),
        });
        simplify_one(comparison, random, a, b);
    }
}

fn simplify_one(comparison: &mut Comparison, random: &mut Random, a: u32, b: u32) {
    let answer = comparison.simplify(a, b);
    if answer.number != 0 {
        return;
    }
    // Counts that are close together, so that equations are often true.
    let mut counts = [0; 17];
    let [a, b] = [a, b].map(Term::of_word);
    let near = random.below(2_000);
    counts[1..].iter_mut().for_each(|count| *count = near + random.below(4));
    if random.one_in(2) {
        let (low, high) = if a.steps < b.steps { (b, a) } else { (a, b) };
        counts[high.field as usize] = counts[low.field as usize] + low.steps - high.steps;
        counts[0] = 0;
    }
    let value = |term: Term| counts[term.field as usize] + term.steps;
    let truth = value(a) == value(b);
    let simplified = match answer.result {
        2 => {
            let [left, right] = [answer.left, answer.right].map(Term::of_word);
            let by_gap = i64::from(counts[left.field as usize])
                == i64::from(counts[right.field as usize]) + i64::from(answer.gap);
            by_gap && value(left) == value(right)
        }
        result => result == 1,
    };
    comparison.test("truth of a simplified equation", truth == simplified, || format!("{a:?} = {b:?} at {counts:?}"));
}

/// Opening: lists with and without faults, stores of all lengths, full of other words.
pub fn opening(comparison: &mut Comparison, random: &mut Random, cases: u64) {
    for _ in 0..10 * cases {
        if random.one_in(4) {
            let size = *random.pick(&generate::SIZES);
            let survey = generate::survey(random, size);
            open_in_both_orders(comparison, random, &survey);
        } else {
            let survey = generate::faulty_survey(random);
            open_with_faults(comparison, random, &survey);
        }
    }
}

/// Words to open a store in: too few, just enough, or more.
fn lent_words(random: &mut Random, survey: &Survey) -> Vec<u32> {
    let needed = HEADING + survey.list.len();
    let length = match random.below(4) {
        0 => random.place(needed + 1),
        1 => needed,
        _ => needed + random.place(40),
    };
    (0..length).map(|_| random.word()).collect()
}

/// A good list in each order: 16 exactly if sorting it into that order moves a question.
fn open_in_both_orders(comparison: &mut Comparison, random: &mut Random, survey: &Survey) {
    let store = lent_words(random, survey);
    let numbers = ORDERS.map(|order| {
        let asked = Survey { order, ..survey.clone() };
        let number = comparison.call(&asked.open(), &store).answer.number;
        let moved = survey.in_order(order).list != survey.list;
        comparison.test("a good list opened in an order", (number == NOT_ASCENDING) == moved, || {
            format!("{number} for {asked:?}")
        });
        number
    });
    match numbers {
        [0, 0] => comparison.meet(occasion::LIST_IN_BOTH_ORDERS),
        [0, NOT_ASCENDING] | [NOT_ASCENDING, 0] => comparison.meet(occasion::LIST_IN_ONE_ORDER),
        _ => {}
    }
}

fn open_with_faults(comparison: &mut Comparison, random: &mut Random, survey: &Survey) {
    let store = lent_words(random, survey);
    let number = comparison.call(&survey.open(), &store).answer.number;
    let unknown_order = !ORDERS.contains(&survey.order);
    let odd = !survey.list.len().is_multiple_of(2);
    match number {
        TOO_MANY_FIELDS if unknown_order && odd => comparison.meet(occasion::FIELDS_BEFORE_ORDER),
        UNKNOWN_ORDER if odd => comparison.meet(occasion::ORDER_BEFORE_LIST),
        _ => {}
    }
}

/// One call of each operation that takes a store.
fn every_operation(comparison: &mut Comparison, random: &mut Random, survey: &Survey, store: &[u32]) {
    let used = store.get(2).copied().unwrap_or(0);
    let handles = [0; 9].map(|_| generate::handle(random, used, &[0, 1, 2, used.wrapping_add(1), used / 2 + 1]));
    let rule = if random.one_in(4) { generate::faulty_rule(random, survey) } else { generate::rule(random, survey) };
    let sheet = generate::sheet(random, survey);
    let lent_sheet = vec![7; if random.one_in(10) { random.place(18) } else { survey.n.min(16) as usize }];
    let lent_rows = if random.one_in(5) { random.place(1024) } else { 1024 };
    let calls = [
        Call::Build { rule },
        Call::Negate(handles[0]),
        Call::Join(handles[1], handles[2]),
        Call::Choose(handles[3], handles[4], handles[5]),
        Call::Verdict(handles[6]),
        Call::Example { handle: handles[7], sheet: lent_sheet },
        Call::Read { handle: handles[8], sheet },
        Call::WriteBack { handle: handles[0], rule: vec![9; lent_rows] },
    ];
    for call in calls {
        comparison.call(&call, store);
    }
}

/// Sound stores with entries that no operation made: dead paths, forced questions, one meaning under several handles.
pub fn sound_stores(comparison: &mut Comparison, random: &mut Random, cases: u64) {
    for _ in 0..2 * cases {
        let size = *random.pick(&generate::SIZES);
        let survey = generate::survey(random, size);
        let most_entries = *random.pick(&[3, 10, 40, 200]);
        let store = generate::sound_store(random, &survey, most_entries);
        every_operation(comparison, random, &survey, &store);
    }
}

/// A store that operations have written.
fn written_store(random: &mut Random, survey: &Survey) -> Vec<u32> {
    let mut store = vec![0; generate::store_length(random, survey)];
    Fast.open(survey.n, survey.order, &survey.list, &mut store);
    for _ in 0..random.below(5) {
        Fast.build(&mut store, &generate::rule(random, survey));
    }
    store
}

/// Stores with each soundness condition broken, and with random flips.
pub fn damaged_stores(comparison: &mut Comparison, random: &mut Random, cases: u64) {
    let mut refused = [false; FAULTS.len()];
    for i in 0..4 * cases as usize {
        let size = *random.pick(&generate::SIZES);
        let survey = generate::survey(random, size);
        let most_entries = *random.pick(&[3, 10, 40]);
        let mut store = if random.one_in(2) {
            written_store(random, &survey)
        } else {
            generate::sound_store(random, &survey, most_entries)
        };
        let fault = i % FAULTS.len();
        generate::damage(random, &mut store, FAULTS[fault]);
        every_operation(comparison, random, &survey, &store);
        let not_sound = comparison.call(&Call::Verdict(0), &store).answer.number == NOT_SOUND;
        refused[fault] |= not_sound;
        test_order(comparison, &survey, FAULTS[fault], not_sound);
    }
    for (fault, refused) in FAULTS.into_iter().zip(refused) {
        comparison.test("a fault that makes a store unsound", refused, || format!("{fault:?} was never refused"));
    }
}

/// A store in which nothing but word 3 was changed: an unknown order is always refused, the other one exactly if the list isn't in it.
fn test_order(comparison: &mut Comparison, survey: &Survey, fault: Fault, not_sound: bool) {
    let (expected, occasion) = match fault {
        Fault::UnknownOrder => (true, occasion::UNKNOWN_ORDER_NAMED),
        Fault::OtherOrder => (survey.is_in_one_order(), occasion::OTHER_ORDER_NAMED),
        _ => return,
    };
    comparison.test("a store with another order in word 3", not_sound == expected, || format!("{fault:?} {survey:?}"));
    if not_sound {
        comparison.meet(occasion);
    }
}
