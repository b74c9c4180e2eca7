//! Raw lists: what remains of them, what they are refused for, and other spellings of them.

use compare::comparison::{occasion, questions_of, Comparison};
use compare::generate::Survey;
use compare::random::Random;
use compare::raw_lists::{self, Fault, CHANGES, FAULTS};
use independent::refusal::*;
use independent::{Term, HEADING, INSTITUTE, MOST_EQUATIONS, ORDERS};

/// Words to open a store in.
fn lent_words(random: &mut Random, length: usize) -> Vec<u32> {
    (0..length).map(|_| random.word()).collect()
}

/// Lengths of stores around what is needed, and very short ones.
fn lengths(needed: usize) -> impl Iterator<Item = usize> {
    (0..=HEADING).chain(needed - 3..=needed + 7)
}

/// The questions of a survey as they might stand on paper, opened in both orders, on stores of many lengths: just what the old opening does
/// with these questions in that order, refusals among it.
pub fn made_of_surveys(comparison: &mut Comparison, random: &mut Random, cases: u64) {
    for _ in 0..cases {
        let survey = raw_lists::survey(random);
        let raw = raw_lists::spelt(random, &survey);
        for order in ORDERS {
            let (survey, raw) = (survey.in_order(order), Survey { order, ..raw.clone() });
            for length in lengths(HEADING + survey.list.len()) {
                open_both(comparison, random, &raw, &survey, length);
            }
        }
        meet_orders(comparison, random, &raw);
    }
}

/// Opens a raw list, and by the old opening the survey that it was made of, on the same words.
fn open_both(comparison: &mut Comparison, random: &mut Random, raw: &Survey, survey: &Survey, length: usize) {
    let store = lent_words(random, length);
    let outcome = comparison.call(&raw.open_raw(), &store);
    let by_survey = comparison.call(&survey.open(), &store);
    comparison.test("a raw list, and the list that it was made of", outcome.has_store_of(&by_survey), || {
        format!("{raw:?} of {survey:?} on {store:?}")
    });
    let needed = HEADING + survey.list.len();
    match outcome.answer.number {
        0 => meet_accepted(comparison, raw, &outcome.store, &store),
        TOO_MANY_QUESTIONS if length < needed => comparison.meet(occasion::RAW_QUESTIONS_BEFORE_STORE),
        STORE_TOO_SHORT if length + 1 == needed => comparison.meet(occasion::RAW_SHORT_BY_ONE_WORD),
        _ => {}
    }
}

/// Notes what is special about an accepted raw list, the store that it left and what the old opening says of it on the same words.
fn meet_accepted(comparison: &mut Comparison, raw: &Survey, left: &[u32], lent: &[u32]) {
    if left[1] == 0 && !raw.list.is_empty() {
        comparison.meet(occasion::RAW_NOTHING_REMAINS);
    }
    if raw.questions() == MOST_EQUATIONS {
        comparison.meet(occasion::RAW_LARGEST);
    }
    match comparison.call(&raw.open(), lent).answer.number {
        TOO_MANY_QUESTIONS => comparison.meet(occasion::RAW_TOO_LONG_FOR_OPEN),
        NOT_SIMPLIFIED => comparison.meet(occasion::RAW_NOT_SIMPLIFIED),
        NOT_ASCENDING => comparison.meet(occasion::RAW_NOT_ASCENDING),
        _ => {}
    }
}

/// Notes whether a raw list leaves other words in the other order. If it is refused, it leaves the same.
fn meet_orders(comparison: &mut Comparison, random: &mut Random, raw: &Survey) {
    let store = lent_words(random, HEADING + raw.list.len());
    let [first, second] =
        ORDERS.map(|order| comparison.call(&Survey { order, ..raw.clone() }.open_raw(), &store).store);
    if first[HEADING..] != second[HEADING..] {
        comparison.meet(occasion::RAW_ORDERS_DIFFER);
    }
}

/// Every set of faults: the first that opening looks for gives the number, whatever questions there are and however long the store.
pub fn with_faults(comparison: &mut Comparison, random: &mut Random, cases: u64) {
    for i in 0..10 * cases {
        let set = 1 + i % ((1 << FAULTS.len()) - 1);
        let in_set = FAULTS.into_iter().enumerate().filter(|(bit, _)| set >> bit & 1 == 1);
        let (faults, numbers): (Vec<Fault>, Vec<u32>) = in_set.map(|(_, fault)| fault).unzip();
        let survey = raw_lists::survey(random);
        let mut raw = raw_lists::spelt(random, &survey);
        for fault in faults.into_iter().rev() {
            raw_lists::damage(random, &mut raw, fault);
        }
        let length = random.place(HEADING + raw.list.len() + 8);
        let store = lent_words(random, length);
        let number = comparison.call(&raw.open_raw(), &store).answer.number;
        comparison.test("a raw list with faults", number == numbers[0], || {
            format!("{number}, not the first of {numbers:?}, for {raw:?}")
        });
        match numbers[..] {
            [TOO_MANY_FIELDS, UNKNOWN_ORDER, ODD_LIST, ..] => comparison.meet(occasion::RAW_FIELDS_BEFORE_ORDER),
            [UNKNOWN_ORDER, ODD_LIST, ..] => comparison.meet(occasion::RAW_ORDER_BEFORE_LIST),
            [ODD_LIST, ..] if raw.questions() > MOST_EQUATIONS => comparison.meet(occasion::RAW_ODD_BEFORE_EQUATIONS),
            [TOO_MANY_EQUATIONS, LIST_TERM] => comparison.meet(occasion::RAW_EQUATIONS_BEFORE_TERMS),
            [LIST_TERM] => meet_bad_term(comparison, &raw, &store),
            _ => {}
        }
    }
}

/// Notes what the first equation with a bad term would be, and what the equations before it are refused for.
fn meet_bad_term(comparison: &mut Comparison, raw: &Survey, store: &[u32]) {
    let equations = questions_of(&raw.list);
    let bad = |term: Term| !term.within(&INSTITUTE, raw.n);
    let at = equations.iter().position(|(a, b)| bad(*a) || bad(*b)).expect("a bad term");
    let (a, b) = equations[at];
    if a == b {
        comparison.meet(occasion::RAW_TERM_OF_ALWAYS);
    } else if a.field == b.field {
        comparison.meet(occasion::RAW_TERM_OF_NEVER);
    }
    let before = Survey { list: raw.list[..2 * at].to_vec(), ..raw.clone() };
    if comparison.call(&before.open_raw(), store).answer.number == TOO_MANY_QUESTIONS {
        comparison.meet(occasion::RAW_TERM_BEFORE_QUESTIONS);
    }
}

/// Lists of any kind. As many words as all equations take are always enough; then stores of many lengths.
pub fn any_lists(comparison: &mut Comparison, random: &mut Random, cases: u64) {
    for _ in 0..5 * cases {
        let raw = raw_lists::any_list(random);
        let store = lent_words(random, HEADING + raw.list.len());
        let outcome = comparison.call(&raw.open_raw(), &store);
        let number = outcome.answer.number;
        comparison.test("words for every raw equation", number != STORE_TOO_SHORT, || format!("{raw:?}"));
        // No more questions remain than there are equations.
        let remaining = if number == 0 { raw.questions().min(outcome.store[1] as usize) } else { 0 };
        let needed = HEADING + 2 * remaining;
        for length in lengths(needed) {
            let expected = if number == 0 && length < needed { STORE_TOO_SHORT } else { number };
            let again = comparison.call(&raw.open_raw(), &lent_words(random, length));
            let as_expected =
                again.answer.number == expected && (expected != 0 || again.store[..needed] == outcome.store[..needed]);
            comparison.test("a raw list on stores of many lengths", as_expected, || format!("{raw:?} on {length}"));
        }
    }
}

/// Other spellings of an accepted raw list, with one change each and with all of them, are answered alike and leave the same words.
pub fn other_spellings(comparison: &mut Comparison, random: &mut Random, cases: u64) {
    for i in 0..4 * cases {
        let survey = raw_lists::survey(random);
        let raw = if i % 2 == 0 { raw_lists::spelt(random, &survey) } else { raw_lists::any_list(random) };
        let length = HEADING + raw.list.len() + random.place(8);
        let store = lent_words(random, length);
        let outcome = comparison.call(&raw.open_raw(), &store);
        if outcome.answer.number != 0 {
            continue;
        }
        let mut test = |name: &'static str, other: &Survey| {
            let again = comparison.call(&other.open_raw(), &store);
            comparison.test(name, outcome.has_store_of(&again), || format!("{raw:?} and {other:?} on {store:?}"));
        };
        let mut with_all = raw.clone();
        for (change, name) in CHANGES {
            test(name, &raw_lists::changed(random, &raw, change));
            with_all = raw_lists::changed(random, &with_all, change);
        }
        test("a raw list with all changes", &with_all);
    }
}
