//! Inputs at the limits: 20 questions, 256 rows, 4,096 entries, and one more of each.

use compare::calls::Call;
use compare::comparison::Comparison;
use compare::generate::{self, store_of, Gaps, Size, Survey, UNKNOWN_ORDERS};
use compare::random::Random;
use independent::{FIELDS_FIRST, FIRST_ENTRY, HEADING, MOST_ENTRIES, MOST_FIELDS, MOST_QUESTIONS, MOST_ROWS, ORDERS};

/// The last handle of a store with all entries.
const NEWEST: u32 = MOST_ENTRIES as u32 - 1 + FIRST_ENTRY;

/// One field against `questions` numbers: every walk is short, however many entries the store has. The list stands in both orders.
fn one_field(order: u32, questions: u32) -> Survey {
    Survey { n: 1, order, list: (0..questions).flat_map(|steps| [1, 32 * steps]).collect() }
}

fn expect(comparison: &mut Comparison, what: &'static str, call: &Call, store: &[u32], number: u32) -> Vec<u32> {
    let outcome = comparison.call(call, store);
    comparison.test("a limit", outcome.answer.number == number, || format!("{what}: {:?}", outcome.answer));
    outcome.store
}

pub fn limits(comparison: &mut Comparison, random: &mut Random, cases: u64) {
    for order in ORDERS {
        questions(comparison, order);
    }
    short_stores(comparison);
    rows(comparison, random);
    for i in 0..2 + cases as usize / 500 {
        entries(comparison, random, ORDERS[i % ORDERS.len()]);
    }
    written_rows(comparison);
}

fn questions(comparison: &mut Comparison, order: u32) {
    for (questions, number) in [(0, 0), (1, 0), (MOST_QUESTIONS as u32, 0), (MOST_QUESTIONS as u32 + 1, 13)] {
        expect(comparison, "questions", &one_field(order, questions).open(), &[9; 100], number);
    }
    for (n, number) in [(16, 0), (17, 11)] {
        expect(comparison, "fields", &Call::Open { n, order, list: vec![1, 0] }, &[9; 10], number);
    }
    for (length, number) in [(0, 21), (1, 21), (2, 21), (3, 21), (4, 0)] {
        expect(comparison, "an empty list", &Call::Open { n: 0, order, list: vec![] }, &vec![9; length], number);
    }
}

/// Every operation that takes a store, on slices of 0 to 4 words. Four words are the shortest store, and the last of them is an order.
fn short_stores(comparison: &mut Comparison) {
    let calls = [
        Call::Build { rule: vec![1, 0, 0, 0] },
        Call::Negate(0),
        Call::Join(0, 1),
        Call::Choose(1, 0, 1),
        Call::Verdict(0),
        Call::Example { handle: 1, sheet: vec![] },
        Call::Read { handle: 1, sheet: vec![] },
        Call::WriteBack { handle: 0, rule: vec![9; 4] },
    ];
    for call in calls {
        for length in 0..HEADING {
            expect(comparison, "a store without a heading", &call, &[0; HEADING][..length], 22);
        }
        for order in ORDERS {
            expect(comparison, "the shortest store", &call, &[0, 0, 0, order], 0);
        }
        for order in UNKNOWN_ORDERS {
            expect(comparison, "an unknown order", &call, &[0, 0, 0, order], 22);
        }
    }
}

fn rows(comparison: &mut Comparison, random: &mut Random) {
    let survey = one_field(FIELDS_FIRST, 20);
    let store = comparison.opened(&survey, 100);
    for (rows, number) in [(1, 0), (MOST_ROWS - 1, 0), (MOST_ROWS, 0), (MOST_ROWS + 1, 33)] {
        let rule = generate::rule_of(random, &survey, rows);
        expect(comparison, "rows", &Call::Build { rule }, &store, number);
    }
    // Words that are no multiple of four are refused as such, however many they are.
    expect(comparison, "words", &Call::Build { rule: vec![0; 4 * MOST_ROWS + 5] }, &store, 32);
}

/// A store with all entries but one, then with all, then one more wanted.
fn entries(comparison: &mut Comparison, random: &mut Random, order: u32) {
    let survey = one_field(order, 20);
    let first = |survey: &Survey| Call::Build { rule: vec![2, survey.list[0], survey.list[1], 0] };
    // Neither the entry that the rule needs is there, nor the one that its negation needs.
    let entry_of_first = [1, 1, 0];
    let mut store = store_of(&survey, &generate::sound_entries(random, 20, MOST_ENTRIES - 1, Some(entry_of_first)));
    store.extend([0; 3]);
    let full = expect(comparison, "the last entry", &first(&survey), &store, 0);
    comparison.test("a limit", full[2] == MOST_ENTRIES as u32, || format!("used {}", full[2]));

    // Nothing new is needed: a full store is no hindrance.
    expect(comparison, "an entry already there", &first(&survey), &full, 0);
    expect(comparison, "the newest handle", &Call::Verdict(NEWEST), &full, 0);
    expect(comparison, "a handle beyond it", &Call::Verdict(NEWEST + 1), &full, 41);
    more_words(comparison, random, &survey, &full);
}

/// More words than 4,096 entries take give no more room, and have to be zero.
fn more_words(comparison: &mut Comparison, random: &mut Random, survey: &Survey, full: &[u32]) {
    let mut longer = full.to_vec();
    longer.extend([0; 30]);
    for store in [full, &longer] {
        expect(comparison, "one entry more", &Call::Negate(NEWEST), store, 51);
        for _ in 0..5 {
            let rule = generate::rule(random, survey);
            comparison.call(&Call::Build { rule }, store);
            let a = random.below(NEWEST + 1);
            comparison.call(&Call::Join(a, random.below(NEWEST + 1)), store);
            comparison.call(&Call::Choose(a, random.below(NEWEST + 1), random.below(NEWEST + 1)), store);
            comparison.call(&Call::Example { handle: a, sheet: vec![0] }, store);
            comparison.call(&Call::Read { handle: a, sheet: vec![random.below(22) as u16] }, store);
            comparison.call(&Call::WriteBack { handle: a, rule: vec![0; 1024] }, store);
        }
    }
    longer[2] += 1;
    expect(comparison, "an entry too many", &Call::Verdict(0), &longer, 22);
    longer[2] -= 1;
    let last = longer.len() - 1;
    longer[last] = 1;
    expect(comparison, "a word beyond all entries", &Call::Verdict(0), &longer, 22);
}

/// A diagram of 127 entries is written back in 256 rows, one of 128 entries not.
fn written_rows(comparison: &mut Comparison) {
    for (entries, number) in [(126, 0), (127, 0), (128, 53)] {
        let (store, handle) = store_with_diagram(entries);
        let words = 4 * (2 + 2 * entries);
        let write_back = |length: usize| Call::WriteBack { handle, rule: vec![3; length] };
        expect(comparison, "rows written back", &write_back(words + 3), &store, number);
        expect(comparison, "rows that just fit", &write_back(words), &store, number);
        let too_short = if number == 0 { 23 } else { number };
        expect(comparison, "rows that don't fit", &write_back(words - 1), &store, too_short);
    }
}

/// A sound store and a handle in it from which just so many entries are reachable, some 64 more or fewer than 127.
fn store_with_diagram(entries: usize) -> (Vec<u32>, u32) {
    // Above stands a full tree that asks questions 1 to 6, with 63 entries that name 64 of those below.
    let mut made: Vec<[u32; 3]> = Vec::new();
    for question in [20, 19, 18] {
        let handles = 0..made.len() as u32 + FIRST_ENTRY;
        let pairs =
            handles.clone().flat_map(|yes| handles.clone().map(move |no| (yes, no))).filter(|(yes, no)| yes != no);
        let wanted = entries - 63 - made.len();
        made.extend(pairs.take(wanted).map(|(yes, no)| [question, yes, no]));
    }
    let handle_of = |place: usize| place as u32 + FIRST_ENTRY;
    let below = made.len();
    let mut row: Vec<u32> = (0..64).map(|i| handle_of((below + i - 64.min(below)) % below)).collect();
    for question in (1..=6).rev() {
        let first = made.len();
        made.extend(row.chunks(2).map(|pair| [question, pair[0], pair[1]]));
        row = (first..made.len()).map(handle_of).collect();
    }
    (store_of(&one_field(FIELDS_FIRST, 20), &made), row[0])
}

/// Many questions about few fields, rules of many rows: diagrams of hundreds of entries, in stores that become full.
pub fn large_diagrams(comparison: &mut Comparison, random: &mut Random, cases: u64) {
    fill(comparison, random, MOST_ENTRIES, 100);
    for _ in 0..cases / 100 {
        let room = *random.pick(&[300, 1000, MOST_ENTRIES]);
        fill(comparison, random, room, 12);
    }
    for _ in 0..1 + cases / 1000 {
        long_walks(comparison, random);
    }
}

/// Parity of sixteen questions about sixteen fields, where the walk goes through tens of thousands of combinations of answers.
fn long_walks(comparison: &mut Comparison, random: &mut Random) {
    let wide = Size { fields: (MOST_FIELDS, MOST_FIELDS), gaps: Gaps::up_to(9), most_questions: 16 };
    let survey = generate::survey(random, wide);
    let store = comparison.opened(&survey, MOST_ENTRIES);
    let parity = comparison.call(&Call::Build { rule: generate::parity_rule(&survey.list) }, &store);
    let handle = parity.answer.result;
    let negation = comparison.call(&Call::Negate(handle), &parity.store);
    comparison.call(&Call::Join(handle, negation.answer.result), &negation.store);
    comparison.call(&Call::Example { handle, sheet: vec![0; MOST_FIELDS as usize] }, &negation.store);
}

/// A list of many questions, which are about so few fields that there are some thousand combinations of answers at most.
fn dense_survey(random: &mut Random) -> Survey {
    loop {
        let survey = generate::survey(random, Size { fields: (6, 8), gaps: Gaps::up_to(2), most_questions: 18 });
        if survey.list.len() >= 2 * 14 {
            return survey;
        }
    }
}

/// Makes so many calls that add large diagrams, as long as there is room for them.
fn fill(comparison: &mut Comparison, random: &mut Random, room: usize, most_calls: usize) {
    let survey = dense_survey(random);
    let mut store = comparison.opened(&survey, room);
    let mut known = vec![0, 1];
    for _ in 0..most_calls {
        let rows = random.between(60, MOST_ROWS as u32) as usize;
        let call = match random.below(5) {
            0 => Call::Negate(*random.pick(&known)),
            1 => Call::Join(*random.pick(&known), *random.pick(&known)),
            2 => Call::Choose(*random.pick(&known), *random.pick(&known), *random.pick(&known)),
            _ => Call::Build { rule: generate::tangled_rule(random, &survey, rows) },
        };
        let outcome = comparison.call(&call, &store);
        store = outcome.store;
        if outcome.answer.number == 0 {
            known.push(outcome.answer.result);
        }
        let handle = *random.pick(&known);
        comparison.call(&Call::Verdict(handle), &store);
        comparison.call(&Call::Example { handle, sheet: vec![0; survey.n as usize] }, &store);
        comparison.call(&Call::WriteBack { handle, rule: vec![0; 1024] }, &store);
    }
}
