//! Whether a table is one diagram in the normal form of document 000's Definition 28, by request (vii) of document 02.
//!
//! For each handle the set of entries at or below it is worked out. The rules are then looked for entry by entry, as they stand.

use std::collections::HashSet;

use crate::refusal::*;
use crate::{Term, FIRST_ENTRY, MOST_CHECKED_STEPS, MOST_ENTRIES, MOST_FIELDS};

/// An entry: an equation, and the handles of its two parts.
#[derive(Clone, Copy, PartialEq, Eq, Hash)]
struct Entry {
    left: Term,
    right: Term,
    yes: u32,
    no: u32,
}

impl Entry {
    fn of_words(words: &[u32]) -> Entry {
        Entry { left: Term::of_word(words[0]), right: Term::of_word(words[1]), yes: words[2], no: words[3] }
    }

    /// Whether the equation keeps the limits and has one of the forms of Corollary 25.
    fn is_simplified(&self) -> bool {
        let Entry { left, right, .. } = *self;
        let within = |term: Term| term.field <= MOST_FIELDS && term.steps <= MOST_CHECKED_STEPS;
        let one_sided = left.steps == 0 || right.steps == 0;
        within(left) && within(right) && left.field > right.field && one_sided && (right.field > 0 || left.steps == 0)
    }

    /// The numbers that Definition 27 compares.
    fn rank(&self) -> [u32; 4] {
        [self.left.field, self.right.field, self.left.steps, self.right.steps]
    }

    fn names(&self, field: u32) -> bool {
        self.left.field == field || self.right.field == field
    }
}

/// The place of the entry that a handle names, if it is no leaf.
fn place(handle: u32) -> Option<usize> {
    handle.checked_sub(FIRST_ENTRY).map(|place| place as usize)
}

/// A rule of Definition 28. Rules 1 and 2 are about the guards always and never, which no simplified equation is.
#[derive(Clone, Copy, Debug, PartialEq, Eq)]
pub enum NormalFormRule {
    /// 3: both parts are the same.
    SameParts,
    /// 4: the yes part asks the same equation.
    YesAgain,
    /// 5: the no part asks the same equation.
    NoAgain,
    /// 6: the yes part asks an equation below.
    YesBelow,
    /// 7: the no part asks an equation below.
    NoBelow,
    /// 8': the yes part names the left field again, in an equation above.
    NamedAgain,
}

pub const NORMAL_FORM_RULES: [NormalFormRule; 6] = [
    NormalFormRule::SameParts,
    NormalFormRule::YesAgain,
    NormalFormRule::NoAgain,
    NormalFormRule::YesBelow,
    NormalFormRule::NoBelow,
    NormalFormRule::NamedAgain,
];

/// A set of entries by their places, one bit each.
#[derive(Clone)]
struct Places(Vec<u64>);

impl Places {
    fn none(entries: usize) -> Places {
        Places(vec![0; entries.div_ceil(64)])
    }

    fn add(&mut self, place: usize) {
        self.0[place / 64] |= 1 << (place % 64);
    }

    fn add_all(&mut self, others: &Places) {
        self.0.iter_mut().zip(&others.0).for_each(|(own, other)| *own |= other);
    }

    fn iter(&self) -> impl Iterator<Item = usize> + '_ {
        self.0.iter().enumerate().flat_map(|(word, bits)| {
            std::iter::successors(Some(*bits), |left| Some(left & left.wrapping_sub(1)))
                .take_while(|left| *left != 0)
                .map(move |left| 64 * word + left.trailing_zeros() as usize)
        })
    }
}

/// Entries of which each names lower handles only, and for each of them the entries at or below it.
struct Diagram {
    entries: Vec<Entry>,
    below: Vec<Places>,
}

impl Diagram {
    fn new(entries: Vec<Entry>) -> Diagram {
        let mut below: Vec<Places> = Vec::with_capacity(entries.len());
        for (own, entry) in entries.iter().enumerate() {
            let mut places = Places::none(entries.len());
            places.add(own);
            for part in [entry.yes, entry.no].into_iter().filter_map(place) {
                places.add_all(&below[part]);
            }
            below.push(places);
        }
        Diagram { entries, below }
    }

    fn asked(&self, handle: u32) -> Option<[u32; 4]> {
        place(handle).map(|place| self.entries[place].rank())
    }

    fn entries_of(&self, handle: u32) -> impl Iterator<Item = &Entry> {
        let places = place(handle).map(|place| &self.below[place]);
        places.into_iter().flat_map(Places::iter).map(|place| &self.entries[place])
    }

    fn applies_at(&self, entry: &Entry, rule: NormalFormRule) -> bool {
        let own = entry.rank();
        match rule {
            NormalFormRule::SameParts => entry.yes == entry.no,
            NormalFormRule::YesAgain => self.asked(entry.yes) == Some(own),
            NormalFormRule::NoAgain => self.asked(entry.no) == Some(own),
            NormalFormRule::YesBelow => self.asked(entry.yes).is_some_and(|part| part < own),
            NormalFormRule::NoBelow => self.asked(entry.no).is_some_and(|part| part < own),
            NormalFormRule::NamedAgain => {
                self.entries_of(entry.yes).any(|part| part.names(entry.left.field) && part.rank() > own)
            }
        }
    }

    fn applies(&self, rule: NormalFormRule) -> bool {
        self.entries.iter().any(|entry| self.applies_at(entry, rule))
    }
}

/// Whether a search from the root meets every entry.
fn all_reachable(entries: &[Entry], root: u32) -> bool {
    let mut met = vec![false; entries.len()];
    let mut open = vec![root];
    while let Some(handle) = open.pop() {
        if let Some(place) = place(handle).filter(|place| !met[*place]) {
            met[place] = true;
            open.extend([entries[place].yes, entries[place].no]);
        }
    }
    met.into_iter().all(|met| met)
}

/// The entries of a table, or the first of 81 to 85 that it meets.
fn diagram(table: &[u32], root: u32) -> Result<Diagram, u32> {
    let entries: Vec<Entry> = table.chunks_exact(4).map(Entry::of_words).collect();
    let end = entries.len() as u64 + u64::from(FIRST_ENTRY);
    if !table.len().is_multiple_of(4) || entries.len() > MOST_ENTRIES || u64::from(root) >= end {
        return Err(TABLE_SHAPE);
    }
    if !entries.iter().all(Entry::is_simplified) {
        return Err(TABLE_EQUATION);
    }
    if !(FIRST_ENTRY..).zip(&entries).all(|(own, entry)| entry.yes < own && entry.no < own) {
        return Err(HANDLE_NOT_LOWER);
    }
    let mut known = HashSet::with_capacity(entries.len());
    if !entries.iter().all(|entry| known.insert(*entry)) {
        return Err(EQUAL_ENTRIES);
    }
    if !all_reachable(&entries, root) {
        return Err(NOT_REACHABLE);
    }
    Ok(Diagram::new(entries))
}

/// The root's verdict, or the first of 81 to 86 that the table meets.
pub(crate) fn check(table: &[u32], root: u32) -> Result<u32, u32> {
    let diagram = diagram(table, root)?;
    if NORMAL_FORM_RULES.into_iter().any(|rule| diagram.applies(rule)) {
        return Err(NOT_NORMAL_FORM);
    }
    Ok(root.min(2))
}

/// The rules that apply somewhere in a table that 81 to 85 don't refuse; none in another one.
pub fn rules_that_apply(table: &[u32], root: u32) -> Vec<NormalFormRule> {
    match diagram(table, root) {
        Ok(diagram) => NORMAL_FORM_RULES.into_iter().filter(|rule| diagram.applies(*rule)).collect(),
        Err(_) => Vec::new(),
    }
}
