//! Tables of diagrams to check: most are normal forms or close to one.

use std::cmp::Ordering;
use std::collections::HashSet;

use independent::{Term, FIELDS_FIRST, FIRST_ENTRY, MOST_CHECKED_STEPS, MOST_FIELDS};

use crate::generate::{in_order, question, rank, Gaps, Size};
use crate::random::Random;

/// Left term word, right term word, yes handle, no handle.
pub type Entry = [u32; 4];

/// All sheets can be tried.
const SMALL: Size = Size { fields: (1, 3), gaps: Gaps::up_to(2), most_questions: 7 };
/// Enough fields for equations to meet in many ways.
const MIDDLE: Size = Size { fields: (3, 7), gaps: Gaps::up_to(2), most_questions: 12 };
/// Steps up to the limit, of few sizes.
const FAR: Size =
    Size { fields: (1, 4), gaps: Gaps { stride: MOST_CHECKED_STEPS / 3, most_strides: 3 }, most_questions: 10 };
/// All fields and steps.
const WIDE: Size = Size { fields: (9, MOST_FIELDS), gaps: Gaps::up_to(MOST_CHECKED_STEPS), most_questions: 40 };

pub const SIZES: [Size; 4] = [SMALL, MIDDLE, FAR, WIDE];

/// The handle of the last entry; of always, if there is none.
pub fn last(entries: &[Entry]) -> u32 {
    entries.len() as u32 + FIRST_ENTRY - 1
}

/// What is let pass, now and then, while a diagram grows.
#[derive(Clone, Copy, Debug, PartialEq, Eq)]
pub enum Lapse {
    Nothing,
    /// Both parts can be the same (rule 3).
    SameParts,
    /// Parts can ask the same equation (rules 4 and 5).
    Again,
    /// Parts can ask any equation (rules 6 and 7).
    Below,
    /// The yes part can name the left field (rule 8').
    NamedAgain,
}

pub const LAPSES: [Lapse; 6] =
    [Lapse::Nothing, Lapse::Nothing, Lapse::SameParts, Lapse::Again, Lapse::Below, Lapse::NamedAgain];

/// A diagram that grows from its leaves up.
#[derive(Default)]
struct Growing {
    entries: Vec<Entry>,
    /// The fields named at or below each entry, one bit each.
    named: Vec<u32>,
    /// Whether a later entry refers to it.
    used: Vec<bool>,
    known: HashSet<Entry>,
}

fn fields_of(entry: &Entry) -> u32 {
    1 << (entry[0] % 32) | 1 << (entry[1] % 32)
}

impl Growing {
    fn named(&self, handle: u32) -> u32 {
        handle.checked_sub(FIRST_ENTRY).map_or(0, |place| self.named[place as usize])
    }

    /// A handle's equation, compared with another one. A leaf has none, and stands above all.
    fn compared(&self, handle: u32, pair: &[u32; 2]) -> Ordering {
        handle.checked_sub(FIRST_ENTRY).map_or(Ordering::Greater, |place| {
            let [left, right, ..] = self.entries[place as usize];
            rank(FIELDS_FIRST, &[left, right]).cmp(&rank(FIELDS_FIRST, pair))
        })
    }

    /// A handle that the condition holds of, as it does of the leaves: mostly an entry that nothing refers to yet.
    fn part(&self, random: &mut Random, condition: impl Fn(u32) -> bool) -> u32 {
        let good: Vec<u32> = (0..=last(&self.entries)).filter(|handle| condition(*handle)).collect();
        let unused: Vec<u32> =
            good.iter().copied().filter(|handle| *handle >= FIRST_ENTRY && !self.used[*handle as usize - 2]).collect();
        if unused.is_empty() || random.one_in(4) {
            *random.pick(&good)
        } else {
            *random.pick(&unused)
        }
    }

    fn push(&mut self, entry: Entry) {
        if !self.known.insert(entry) {
            return;
        }
        let [_, _, yes, no] = entry;
        for part in [yes, no].into_iter().filter(|part| *part >= FIRST_ENTRY) {
            self.used[part as usize - 2] = true;
        }
        self.named.push(fields_of(&entry) | self.named(yes) | self.named(no));
        self.used.push(false);
        self.entries.push(entry);
    }

    /// Adds an entry that asks an equation, if parts are found for it.
    fn ask(&mut self, random: &mut Random, pair: [u32; 2], lapse: Lapse) {
        let in_order = |handle: u32| match self.compared(handle, &pair) {
            Ordering::Greater => true,
            Ordering::Equal => lapse == Lapse::Again || lapse == Lapse::Below,
            Ordering::Less => lapse == Lapse::Below,
        };
        let unnamed = |handle: u32| match lapse {
            Lapse::NamedAgain => true,
            Lapse::Again if self.compared(handle, &pair).is_eq() => true,
            _ => self.named(handle) >> (pair[0] % 32) & 1 == 0,
        };
        let yes = self.part(random, |handle| in_order(handle) && unnamed(handle));
        let no = if lapse == Lapse::SameParts { yes } else { self.part(random, in_order) };
        if yes != no || lapse == Lapse::SameParts {
            self.push([pair[0], pair[1], yes, no]);
        }
    }
}

/// A diagram that asks equations of a list, the largest lowest. Its root is the last entry; entries that it doesn't reach can be among
/// the others. With a lapse it is mostly no normal form.
pub fn grown(random: &mut Random, list: &[u32], lapse: Lapse) -> Vec<Entry> {
    let mut growing = Growing::default();
    let pairs: Vec<[u32; 2]> = list.chunks(2).map(|pair| [pair[0], pair[1]]).collect();
    for pair in pairs.iter().rev() {
        for _ in 0..random.between(1, 3) {
            let lapse = if random.one_in(4) { lapse } else { Lapse::Nothing };
            let pair = if lapse == Lapse::Below { random.pick(&pairs) } else { pair };
            growing.ask(random, *pair, lapse);
        }
    }
    growing.entries
}

/// A list of equations in the order of Definition 27.
pub fn equations(random: &mut Random, size: Size) -> Vec<u32> {
    let n = random.between(size.fields.0, size.fields.1);
    let wanted = random.between(1, size.most_questions);
    in_order(FIELDS_FIRST, (0..wanted).map(|_| question(random, n, size.gaps)).collect())
}

/// The entries that the last one reaches, in any order that has each entry's parts before it.
pub fn reached(random: &mut Random, entries: &[Entry]) -> Vec<Entry> {
    let mut handles: Vec<Option<u32>> = vec![None; entries.len() + 2];
    handles[..2].copy_from_slice(&[Some(0), Some(1)]);
    let mut made: Vec<Entry> = Vec::new();
    let mut open = vec![last(entries)];
    while let Some(handle) = open.last().copied() {
        if handles[handle as usize].is_some() {
            open.pop();
            continue;
        }
        let [left, right, yes, no] = entries[handle as usize - 2];
        match [yes, no].map(|part| handles[part as usize]) {
            [Some(yes), Some(no)] => {
                made.push([left, right, yes, no]);
                handles[handle as usize] = Some(last(&made));
            }
            _ if random.one_in(2) => open.extend([yes, no]),
            _ => open.extend([no, yes]),
        }
    }
    made
}

/// One field against the numbers below `entries`, an entry each: the root asks 1 = 0, the lowest entry asks of the largest number.
pub fn chain(entries: u32) -> Vec<Entry> {
    (0..entries)
        .map(|place| {
            let number = Term { field: 0, steps: entries - 1 - place };
            let below = if place == 0 { 0 } else { place + FIRST_ENTRY - 1 };
            [1, number.word(), 1, below]
        })
        .collect()
}

/// A normal form of just so many entries about all sixteen fields, with many shared parts.
///
/// The equations descend. Fields of odd and of even number make a chain each, in which the next entry has the one before as its no part;
/// its yes part is any entry so far that doesn't name its left field. Field 1 stands in the root alone, whose two parts are the chains.
pub fn large(random: &mut Random, entries: usize) -> Vec<Entry> {
    let mut pairs: HashSet<[u32; 2]> = HashSet::new();
    while pairs.len() + 1 < entries {
        let pair = question(random, MOST_FIELDS, Gaps::up_to(MOST_CHECKED_STEPS));
        let [left, right] = pair.map(|word| word % 32);
        if left > 1 && right != 1 && (right == 0 || left % 2 == right % 2) {
            pairs.insert(pair);
        }
    }
    let mut pairs: Vec<[u32; 2]> = pairs.into_iter().collect();
    pairs.sort_by_key(|pair| rank(FIELDS_FIRST, pair));
    let mut growing = Growing::default();
    let mut chains = [0, 0];
    for [left, right] in pairs.into_iter().rev() {
        let chain = (left % 32 % 2) as usize;
        let no = chains[chain];
        let tries = [0; 6].map(|_| random.below(last(&growing.entries) + 1));
        let good = |yes: &u32| *yes != no && growing.named(*yes) >> (left % 32) & 1 == 0;
        let yes = tries.into_iter().find(good).unwrap_or(1);
        growing.push([left, right, yes, no]);
        chains[chain] = last(&growing.entries);
    }
    growing.push([1, 0, chains[0], chains[1]]);
    growing.entries
}

/// What can be wrong with a table. Each gives its number, if the table can have it and its place by chance makes it one.
#[derive(Clone, Copy, Debug)]
pub enum Fault {
    WordsTooMany,
    WordsTooFew,
    Field,
    Steps,
    TurnedRound,
    CommonSteps,
    StepsAgainstZero,
    EqualSides,
    HandleNotLower,
    Doubled,
    DoubledAtTheEnd,
    NotReferredTo,
    Dropped,
    SameParts,
    PartsExchanged,
    OtherEquation,
    OtherPart,
    OneStep,
    AnyBits,
}

/// Every fault, and the number that it is to give.
pub const FAULTS: [(Fault, u32); 19] = [
    (Fault::WordsTooMany, 81),
    (Fault::WordsTooFew, 81),
    (Fault::Field, 82),
    (Fault::Steps, 82),
    (Fault::TurnedRound, 82),
    (Fault::CommonSteps, 82),
    (Fault::StepsAgainstZero, 82),
    (Fault::EqualSides, 82),
    (Fault::HandleNotLower, 83),
    (Fault::Doubled, 84),
    (Fault::DoubledAtTheEnd, 84),
    (Fault::NotReferredTo, 85),
    (Fault::Dropped, 85),
    (Fault::SameParts, 86),
    (Fault::PartsExchanged, 86),
    (Fault::OtherEquation, 86),
    (Fault::OtherPart, 86),
    (Fault::OneStep, 86),
    (Fault::AnyBits, 82),
];

/// The words of entries with a fault put in.
pub fn damaged(random: &mut Random, entries: &[Entry], fault: Fault) -> Vec<u32> {
    let mut entries = entries.to_vec();
    if entries.is_empty() {
        return vec![0; random.place(7)];
    }
    match fault {
        Fault::WordsTooMany | Fault::WordsTooFew | Fault::AnyBits => {}
        Fault::Field | Fault::Steps | Fault::TurnedRound => damage_term(random, &mut entries, fault),
        Fault::CommonSteps | Fault::StepsAgainstZero | Fault::EqualSides => damage_term(random, &mut entries, fault),
        Fault::Doubled | Fault::DoubledAtTheEnd | Fault::NotReferredTo | Fault::Dropped => {
            entries = with_other_entries(random, &entries, fault)
        }
        _ => damage_entry(random, &mut entries, fault),
    }
    let mut words = entries.concat();
    match fault {
        Fault::WordsTooMany => words.extend((0..random.between(1, 3)).map(|_| random.below(4))),
        Fault::WordsTooFew => words.truncate(words.len() - random.between(1, 3) as usize),
        Fault::AnyBits => {
            for _ in 0..random.between(1, 3) {
                let at = random.place(words.len());
                let bits = if random.one_in(4) { 32 } else { 7 };
                words[at] ^= 1 << random.below(bits);
            }
        }
        _ => {}
    }
    words
}

/// Breaks a limit, or the form of an equation.
fn damage_term(random: &mut Random, entries: &mut [Entry], fault: Fault) {
    let (at, side) = (random.place(entries.len()), random.place(2));
    let entry = &mut entries[at];
    match fault {
        Fault::Field => entry[side] = entry[side] / 32 * 32 + *random.pick(&[17, 18, 30, 31]),
        Fault::Steps => {
            let steps = *random.pick(&[MOST_CHECKED_STEPS + 1, MOST_CHECKED_STEPS + 2, 65_536, u32::MAX / 32]);
            entry[side] = entry[side] % 32 + 32 * steps;
        }
        Fault::TurnedRound => entry.swap(0, 1),
        Fault::CommonSteps => entry[..2].iter_mut().for_each(|word| *word += 32),
        Fault::StepsAgainstZero => (entry[0], entry[1]) = (entry[0] % 32 + 32 * random.between(1, 3), 0),
        _ => entry[side] = entry[1 - side],
    }
}

/// Changes a handle, or an equation for another one that is simplified.
fn damage_entry(random: &mut Random, entries: &mut [Entry], fault: Fault) {
    let (at, other) = (random.place(entries.len()), random.place(entries.len()));
    let own = at as u32 + FIRST_ENTRY;
    let [other_left, other_right, ..] = entries[other];
    let [left, right, yes, no] = &mut entries[at];
    match fault {
        Fault::HandleNotLower => {
            let part = if random.one_in(2) { yes } else { no };
            *part = *random.pick(&[own, own + 1, u32::MAX, u32::MAX - 1, 1 << 31]);
        }
        Fault::SameParts => *no = *yes,
        Fault::PartsExchanged => std::mem::swap(yes, no),
        Fault::OtherEquation => (*left, *right) = (other_left, other_right),
        Fault::OtherPart => *(if random.one_in(2) { yes } else { no }) = random.below(own),
        _ => {
            let stepped = if *left >= 32 { left } else { right };
            *stepped = if *stepped >= 32 && random.one_in(2) { *stepped - 32 } else { *stepped + 32 };
        }
    }
}

/// The entries with one more or one fewer, and the handles of those behind it moved along.
fn with_other_entries(random: &mut Random, entries: &[Entry], fault: Fault) -> Vec<Entry> {
    let at = random.place(entries.len());
    let moved = |by: fn(u32) -> u32| {
        let place = at as u32 + FIRST_ENTRY;
        let move_part = move |part: u32| if part >= place { by(part) } else { part };
        entries.iter().map(move |[left, right, yes, no]| [*left, *right, move_part(*yes), move_part(*no)])
    };
    let mut made: Vec<Entry> = match fault {
        Fault::Doubled | Fault::NotReferredTo => moved(|part| part + 1).collect(),
        Fault::Dropped => moved(|part| part - 1).collect(),
        _ => entries.to_vec(),
    };
    match fault {
        Fault::Doubled => made.insert(at, entries[at]),
        Fault::DoubledAtTheEnd => made.push(entries[at]),
        Fault::NotReferredTo => {
            made.insert(at, [MOST_FIELDS, Term { field: 15, steps: random.below(4_096) }.word(), 0, 1])
        }
        _ => drop(made.remove(at)),
    }
    made
}
