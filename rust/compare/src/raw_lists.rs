//! Raw lists to open: the questions of a survey as they might stand on paper, any equations, and lists with a fault.

use std::collections::BTreeSet;

use independent::refusal::{LIST_TERM, ODD_LIST, TOO_MANY_EQUATIONS, TOO_MANY_FIELDS, UNKNOWN_ORDER};
use independent::{Term, MOST_EQUATIONS, MOST_FIELDS, MOST_STEPS, ORDERS};

use crate::generate::{
    self, in_order, question, raised, spare_steps, with_itself, Gaps, Survey, SIZES, UNKNOWN_ORDERS,
};
use crate::random::Random;

/// A survey of up to 64 questions. If they aren't more than 20, opening accepts it.
pub fn survey(random: &mut Random) -> Survey {
    let questions = match random.below(4) {
        0 => *random.pick(&[19, 20, 21, 22]),
        1 => random.place(MOST_EQUATIONS + 1),
        _ => {
            let size = *random.pick(&SIZES);
            return generate::survey(random, size);
        }
    };
    let (n, order) = (random.between(1, MOST_FIELDS), *random.pick(&ORDERS));
    let gaps = Gaps::up_to(*random.pick(&[100, MOST_STEPS]));
    let mut found = BTreeSet::new();
    while found.len() < questions {
        found.insert(question(random, n, gaps));
    }
    Survey { n, order, list: in_order(order, found.into_iter().collect()) }
}

// ---------------------------------------------------------------------------------------------------------------------
// Other spellings
// ---------------------------------------------------------------------------------------------------------------------

/// What can be done to a raw list that leaves what remains of it.
#[derive(Clone, Copy, Debug)]
pub enum Change {
    /// Equations stand there once more.
    Doubled,
    /// Equations that are always or never true stand between the others.
    Mixed,
    /// Equations are turned round.
    Turned,
    /// Equations have more steps on both sides.
    Raised,
    /// Equations have changed places.
    Shuffled,
}

/// Every change, and what a list is called that has it.
pub const CHANGES: [(Change, &str); 5] = [
    (Change::Doubled, "a raw list with doubles"),
    (Change::Mixed, "a raw list with always and never in between"),
    (Change::Turned, "a raw list turned round"),
    (Change::Raised, "a raw list raised by common steps"),
    (Change::Shuffled, "a raw list shuffled"),
];

/// The raw list with a change. What is added stays within the limits.
pub fn changed(random: &mut Random, raw: &Survey, change: Change) -> Survey {
    let mut pairs = raw.pairs().to_vec();
    match change {
        Change::Doubled | Change::Mixed => {
            let most = MOST_EQUATIONS.max(pairs.len());
            let longer = random.between(pairs.len() as u32, most as u32) as usize;
            let length = *random.pick(&[longer, longer, most]);
            lengthen(random, raw.n, &mut pairs, length, matches!(change, Change::Doubled));
        }
        Change::Turned => {
            let all = random.one_in(2);
            pairs.iter_mut().filter(|_| all || random.one_in(2)).for_each(|pair| pair.reverse());
        }
        Change::Raised => pairs.iter_mut().for_each(|pair| *pair = raised(*pair, common_steps(random, *pair))),
        Change::Shuffled => random.shuffle(&mut pairs),
    }
    Survey { list: pairs.concat(), ..raw.clone() }
}

/// Puts equations in at any place until there are so many: doubles, or others that are always or never true.
fn lengthen(random: &mut Random, n: u32, pairs: &mut Vec<[u32; 2]>, length: usize, doubles: bool) {
    while pairs.len() < length {
        let pair = if doubles && !pairs.is_empty() { *random.pick(pairs) } else { always_or_never(random, n) };
        pairs.insert(random.place(pairs.len() + 1), pair);
    }
}

/// An equation that is always or never true: of a field with itself, or of a field plus steps with fewer steps.
fn always_or_never(random: &mut Random, n: u32) -> [u32; 2] {
    if n == 0 || random.one_in(2) {
        return with_itself(random, n);
    }
    let most = *random.pick(&[1, 2, MOST_STEPS]);
    let more = Term { field: random.between(1, n), steps: random.between(1, most) };
    let fewer = Term { field: 0, steps: random.below(more.steps) };
    if random.one_in(2) {
        [more.word(), fewer.word()]
    } else {
        [fewer.word(), more.word()]
    }
}

/// Steps to put on both sides: none, one, some, or all that the limit leaves.
fn common_steps(random: &mut Random, pair: [u32; 2]) -> u32 {
    let spare = spare_steps(pair);
    let some = random.below(spare + 1);
    *random.pick(&[0, spare.min(1), some, spare])
}

/// The questions of a survey as they might stand on paper: with some of the changes.
pub fn spelt(random: &mut Random, survey: &Survey) -> Survey {
    let mut raw = survey.clone();
    for (change, _) in CHANGES {
        if random.one_in(2) {
            raw = changed(random, &raw, change);
        }
    }
    raw
}

// ---------------------------------------------------------------------------------------------------------------------
// Faults
// ---------------------------------------------------------------------------------------------------------------------

/// What can be wrong with a raw list.
#[derive(Clone, Copy, Debug)]
pub enum Fault {
    Fields,
    Order,
    OddWords,
    Equations,
    Term,
}

/// Every fault and the number that it gives, in the order in which opening looks for them.
pub const FAULTS: [(Fault, u32); 5] = [
    (Fault::Fields, TOO_MANY_FIELDS),
    (Fault::Order, UNKNOWN_ORDER),
    (Fault::OddWords, ODD_LIST),
    (Fault::Equations, TOO_MANY_EQUATIONS),
    (Fault::Term, LIST_TERM),
];

/// Puts a fault into a raw list. One that opening looks for later can be there already.
pub fn damage(random: &mut Random, raw: &mut Survey, fault: Fault) {
    match fault {
        Fault::Fields => raw.n = *random.pick(&[MOST_FIELDS + 1, MOST_FIELDS + 2, 31, 32, u32::MAX]),
        Fault::Order => raw.order = *random.pick(&UNKNOWN_ORDERS),
        Fault::OddWords if raw.list.is_empty() || random.one_in(2) => raw.list.push(random.word()),
        Fault::OddWords => drop(raw.list.pop()),
        Fault::Equations => {
            let mut pairs = raw.pairs().to_vec();
            let length = MOST_EQUATIONS + random.between(1, 2) as usize;
            let doubles = random.one_in(2);
            lengthen(random, raw.n, &mut pairs, length, doubles);
            raw.list = pairs.concat();
        }
        Fault::Term => spoil(random, raw),
    }
}

/// Puts a term beyond the limits into the first, the middle, the last or any equation of a list with good terms.
fn spoil(random: &mut Random, raw: &mut Survey) {
    if raw.list.is_empty() {
        raw.list = vec![0, 0];
    }
    let last = raw.questions() - 1;
    let any = random.place(last + 1);
    let at = 2 * *random.pick(&[0, last / 2, last, any]);
    let word = bad_word(random, raw.n);
    let pair = [raw.list[at], raw.list[at + 1]];
    let spoilt = match random.below(4) {
        0 => [word, pair[1]],
        1 => [pair[0], word],
        // This would be always.
        2 => [word; 2],
        // Just one step too many on both sides.
        _ => raised(pair, spare_steps(pair) + 1),
    };
    raw.list[at..at + 2].copy_from_slice(&spoilt);
}

/// A word that names a field above n or steps above the limit. Some are good if bits are left out.
fn bad_word(random: &mut Random, n: u32) -> u32 {
    let field = Term { field: random.between(n + 1, 31), steps: random.below(2) };
    let steps = *random.pick(&[MOST_STEPS + 1, MOST_STEPS + 2, 1 << 16, 1 << 26]);
    let steps = Term { field: random.below(n + 1), steps };
    let any = random.word() | 1 << 31;
    *random.pick(&[field.word(), steps.word(), any, u32::MAX])
}

// ---------------------------------------------------------------------------------------------------------------------
// Any lists
// ---------------------------------------------------------------------------------------------------------------------

/// A raw list of any kind, for up to 17 fields, with up to 66 equations.
pub fn any_list(random: &mut Random) -> Survey {
    let mut raw = match random.below(6) {
        0 => any_words(random),
        1 => nearly_spelt(random),
        _ => any_equations(random),
    };
    for fault in [Fault::OddWords, Fault::Order] {
        if random.one_in(20) {
            damage(random, &mut raw, fault);
        }
    }
    raw
}

/// Equations of few fields and steps, so that many are doubles, always or never. Now and then one has a bad term.
fn any_equations(random: &mut Random) -> Survey {
    let n = random.below(MOST_FIELDS + 2);
    let fields = random.between(1, n.min(MOST_FIELDS) + 1);
    let steps = *random.pick(&[1, 2, 4, 30, MOST_STEPS + 1]);
    let words = 2 * random.place(MOST_EQUATIONS + 3);
    let mut term = || Term { field: random.below(fields), steps: random.below(steps) }.word();
    let list = (0..words).map(|_| term()).collect();
    let mut raw = Survey { n, order: *random.pick(&ORDERS), list };
    if random.one_in(6) {
        spoil(random, &mut raw);
    }
    raw
}

/// Words that are hardly terms.
fn any_words(random: &mut Random) -> Survey {
    let end = *random.pick(&[70, 600, 34_000, u32::MAX]);
    let list = (0..random.place(2 * MOST_EQUATIONS + 5)).map(|_| random.below(end)).collect();
    Survey { n: random.below(MOST_FIELDS + 2), order: *random.pick(&ORDERS), list }
}

/// A survey's questions as they might stand on paper, but with fewer fields or with bits flipped.
fn nearly_spelt(random: &mut Random) -> Survey {
    let survey = survey(random);
    let mut raw = spelt(random, &survey);
    if raw.list.is_empty() || random.one_in(3) {
        raw.n = random.below(raw.n + 1);
        return raw;
    }
    for _ in 0..random.between(1, 3) {
        let at = random.place(raw.list.len());
        raw.list[at] ^= 1 << random.below(16);
    }
    raw
}
