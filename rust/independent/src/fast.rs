//! The operations as an ordinary fast Rust program: difference bounds kept up to date along the path, entries found by hashing.

use std::collections::HashMap;

use crate::refusal::*;
use crate::{normal_form, Answer, Limits, Operations, SimplifyAnswer, Term, INSTITUTE, LOGGER};
use crate::{ALWAYS, BLANK, FIELDS_FIRST, FIRST_ENTRY, HEADING, NEVER, ORDERS};
use crate::{MOST_EQUATIONS, MOST_FIELDS, MOST_QUESTIONS, MOST_ROWS};

/// The operations. They keep nothing between calls: all that is known stands in the lent store.
pub struct Fast;

/// A question as one number on the difference of two counts: left count = right count + gap. The left field is the larger one.
#[derive(Clone, Copy, PartialEq, Eq)]
struct Question {
    left: usize,
    right: usize,
    gap: i32,
}

enum Simplified {
    Never,
    Always,
    Question(Question),
}

fn simplified(a: Term, b: Term) -> Simplified {
    let (left, right) = if a.field >= b.field { (a, b) } else { (b, a) };
    let gap = right.steps as i32 - left.steps as i32;
    if left.field == right.field {
        return if gap == 0 { Simplified::Always } else { Simplified::Never };
    }
    if right.field == 0 && gap < 0 {
        return Simplified::Never;
    }
    Simplified::Question(Question { left: left.field as usize, right: right.field as usize, gap })
}

impl Question {
    /// The two words of the simplified question: the gap's steps stand right if it is positive and left if it is negative.
    fn words(self) -> [u32; 2] {
        let left = Term { field: self.left as u32, steps: (-self.gap).max(0) as u32 };
        let right = Term { field: self.right as u32, steps: self.gap.max(0) as u32 };
        [left.word(), right.word()]
    }

    fn holds(self, counts: &Counts) -> bool {
        counts[self.left] == counts[self.right] + self.gap
    }
}

/// A count for each field, field 0's being zero. Fields above n count zero too.
type Counts = [i32; MOST_FIELDS as usize + 1];

// ---------------------------------------------------------------------------------------------------------------------
// Facts
// ---------------------------------------------------------------------------------------------------------------------

const SIZE: usize = MOST_FIELDS as usize + 1;

/// Stands for "no bound". Twice this fits an i32, and so many steps can't be taken off it that it looks like a bound.
const UNBOUNDED: i32 = 1 << 29;

/// What the yes answers of a path say: `most[a][b]` is the most by which a's count can exceed b's.
#[derive(Clone)]
struct Bounds {
    size: usize,
    most: [[i32; SIZE]; SIZE],
}

impl Bounds {
    /// No answers yet: no count is below zero.
    fn new(n: u32) -> Bounds {
        let mut most = [[UNBOUNDED; SIZE]; SIZE];
        most[0] = [0; SIZE];
        for (field, row) in most.iter_mut().enumerate() {
            row[field] = 0;
        }
        Bounds { size: n as usize + 1, most }
    }

    fn entail(&self, question: Question) -> bool {
        let Question { left, right, gap } = question;
        self.most[left][right] <= gap && self.most[right][left] <= -gap
    }

    fn exclude(&self, question: Question) -> bool {
        let Question { left, right, gap } = question;
        self.most[left][right] < gap || self.most[right][left] < -gap
    }

    /// Whether the bounds would entail `second` if `first` were added. `first` must not be excluded. A shortest way that uses the
    /// new equation uses it once, in one direction.
    fn entail_after(&self, first: Question, second: Question) -> bool {
        let most = |from: usize, to: usize| {
            self.most[from][to]
                .min(self.most[from][first.left] + first.gap + self.most[first.right][to])
                .min(self.most[from][first.right] - first.gap + self.most[first.left][to])
        };
        most(second.left, second.right) <= second.gap && most(second.right, second.left) <= -second.gap
    }

    /// The bounds with one more yes answer, which must not be excluded.
    fn with(&self, question: Question) -> Bounds {
        let Question { left, right, gap } = question;
        let mut next = self.clone();
        let (from_left, from_right) = (self.most[left], self.most[right]);
        for row in &mut next.most[..self.size] {
            let (to_left, to_right) = (row[left] + gap, row[right] - gap);
            if to_left.min(to_right) > UNBOUNDED / 2 {
                continue;
            }
            for ((bound, by_right), by_left) in row.iter_mut().zip(&from_right).zip(&from_left) {
                *bound = (*bound).min(to_left + by_right).min(to_right + by_left);
            }
        }
        next
    }

    /// What a question's answer is under these bounds and the questions answered no, if it is forced.
    fn decide(&self, noes: &[Question], question: Question) -> Option<bool> {
        if self.entail(question) {
            return Some(true);
        }
        if self.exclude(question) || noes.iter().any(|no| self.entail_after(question, *no)) {
            return Some(false);
        }
        None
    }

    /// The least counts that fit, field 1 compared first. Some counts must fit.
    fn least_counts(&self, noes: &[Question]) -> Counts {
        let mut counts = [0; SIZE];
        let mut bounds = self.clone();
        for (field, count) in counts.iter_mut().enumerate().take(self.size).skip(1) {
            let mut fixed = Question { left: field, right: 0, gap: -bounds.most[0][field] };
            while bounds.decide(noes, fixed) == Some(false) {
                fixed.gap += 1;
            }
            *count = fixed.gap;
            bounds = bounds.with(fixed);
        }
        counts
    }
}

// ---------------------------------------------------------------------------------------------------------------------
// The store
// ---------------------------------------------------------------------------------------------------------------------

/// What an order compares two questions by.
type Rank = (u32, [u32; 2], u32);

/// The orders differ in which of the two numbers in the middle is compared first.
fn rank(order: u32, left: Term, right: Term) -> Rank {
    let between = if order == FIELDS_FIRST { [right.field, left.steps] } else { [left.steps, right.field] };
    (left.field, between, right.steps)
}

/// Looks for 11, 18 and 12, which come before any word of a list.
fn check_before_words(limits: &Limits, n: u32, order: u32, words: &[u32]) -> Result<(), u32> {
    if n > limits.fields {
        return Err(TOO_MANY_FIELDS);
    }
    if !ORDERS.contains(&order) {
        return Err(UNKNOWN_ORDER);
    }
    if !words.len().is_multiple_of(2) {
        return Err(ODD_LIST);
    }
    Ok(())
}

/// The terms of two words of a list, or 14.
fn checked_terms(limits: &Limits, n: u32, pair: &[u32]) -> Result<(Term, Term), u32> {
    let (left, right) = (Term::of_word(pair[0]), Term::of_word(pair[1]));
    if left.within(limits, n) && right.within(limits, n) {
        Ok((left, right))
    } else {
        Err(LIST_TERM)
    }
}

/// The questions of a list, or the first of 11 to 18 that it meets.
fn checked_list(limits: &Limits, n: u32, order: u32, words: &[u32]) -> Result<Vec<Question>, u32> {
    check_before_words(limits, n, order, words)?;
    if words.len() / 2 > limits.questions {
        return Err(TOO_MANY_QUESTIONS);
    }
    let mut questions = Vec::with_capacity(words.len() / 2);
    let mut before = None;
    for pair in words.chunks_exact(2) {
        let (left, right) = checked_terms(limits, n, pair)?;
        match simplified(left, right) {
            Simplified::Question(question) if question.words() == pair => questions.push(question),
            _ => return Err(NOT_SIMPLIFIED),
        }
        let rank = Some(rank(order, left, right));
        if before >= rank {
            return Err(NOT_ASCENDING);
        }
        before = rank;
    }
    Ok(questions)
}

/// The words of the list that remains of a raw one, which the institute alone takes; or the first of 11 to 18 that it meets.
fn remaining_list(n: u32, order: u32, raw: &[u32]) -> Result<Vec<u32>, u32> {
    check_before_words(&INSTITUTE, n, order, raw)?;
    if raw.len() / 2 > MOST_EQUATIONS {
        return Err(TOO_MANY_EQUATIONS);
    }
    let mut ranked: Vec<(Rank, [u32; 2])> = Vec::with_capacity(MOST_EQUATIONS);
    for pair in raw.chunks_exact(2) {
        let (a, b) = checked_terms(&INSTITUTE, n, pair)?;
        if let Simplified::Question(question) = simplified(a, b) {
            let [left, right] = question.words();
            ranked.push((rank(order, Term::of_word(left), Term::of_word(right)), [left, right]));
        }
    }
    ranked.sort_unstable();
    ranked.dedup();
    if ranked.len() > INSTITUTE.questions {
        return Err(TOO_MANY_QUESTIONS);
    }
    Ok(ranked.into_iter().flat_map(|(_, words)| words).collect())
}

type Entry = [u32; 3];

/// A sound store taken apart, with an index from each entry to its handle.
struct Contents<'a> {
    limits: &'a Limits,
    n: u32,
    questions: Vec<Question>,
    entries: &'a [Entry],
    index: HashMap<u64, u32>,
    room: usize,
}

/// An entry as one number. Question numbers are at most 20 and handles below 4,098, so different entries have different numbers.
fn key([question, yes, no]: Entry) -> u64 {
    u64::from(question) << 32 | u64::from(yes) << 16 | u64::from(no)
}

impl<'a> Contents<'a> {
    /// The contents of a store that is sound within the institute's limits; otherwise 22.
    fn of(store: &'a [u32]) -> Result<Contents<'a>, u32> {
        Contents::within(&INSTITUTE, store)
    }

    /// The contents of a store that is sound within the limits; otherwise 22.
    fn within(limits: &'a Limits, store: &'a [u32]) -> Result<Contents<'a>, u32> {
        Contents::of_sound(limits, store).ok_or(NOT_SOUND)
    }

    fn of_sound(limits: &'a Limits, store: &'a [u32]) -> Option<Contents<'a>> {
        let [n, q, used, order, rest @ ..] = store else { return None };
        let (q, used) = (*q as usize, *used as usize);
        if q > limits.questions || rest.len() < 2 * q {
            return None;
        }
        let (list, rest) = rest.split_at(2 * q);
        let questions = checked_list(limits, *n, *order, list).ok()?;
        let room = (rest.len() / 3).min(limits.entries);
        if used > room {
            return None;
        }
        let (entries, unused) = rest.split_at(3 * used);
        let (entries, _) = entries.as_chunks();
        let index = checked_index(entries, q)?;
        let unused_are_zero = unused.iter().all(|word| *word == 0);
        unused_are_zero.then_some(Contents { limits, n: *n, questions, entries, index, room })
    }

    fn check_handles(&self, handles: &[u32]) -> Result<(), u32> {
        let end = self.entries.len() as u32 + FIRST_ENTRY;
        if handles.iter().all(|handle| *handle < end) {
            Ok(())
        } else {
            Err(NO_SUCH_HANDLE)
        }
    }

    fn holds(&self, mut handle: u32, counts: &Counts) -> bool {
        while handle >= FIRST_ENTRY {
            let [question, yes, no] = self.entries[(handle - FIRST_ENTRY) as usize];
            handle = if self.questions[question as usize - 1].holds(counts) { yes } else { no };
        }
        handle == ALWAYS
    }
}

/// The index of a store's entries, if they are sound.
fn checked_index(entries: &[Entry], q: usize) -> Option<HashMap<u64, u32>> {
    let mut index = HashMap::with_capacity(entries.len());
    for (i, entry) in entries.iter().enumerate() {
        let [question, yes, no] = *entry;
        let own = i as u32 + FIRST_ENTRY;
        if question < 1 || question > q as u32 || yes >= own || no >= own || yes == no {
            return None;
        }
        let asks_later = |handle: u32| handle < FIRST_ENTRY || entries[(handle - FIRST_ENTRY) as usize][0] > question;
        if !asks_later(yes) || !asks_later(no) || index.insert(key(*entry), own).is_some() {
            return None;
        }
    }
    Some(index)
}

// ---------------------------------------------------------------------------------------------------------------------
// The walk that adds a finished diagram
// ---------------------------------------------------------------------------------------------------------------------

/// A meaning that a walk finds out about by answering questions.
trait Meaning {
    /// What the answers so far leave of the meaning.
    type Rest;

    /// The leaf that the rest is, if that is known.
    fn leaf(&self, rest: &Self::Rest) -> Option<u32>;

    /// What remains once a question, by its number from 1, is answered too.
    fn answered(&self, rest: &Self::Rest, question: u32, yes: bool) -> Self::Rest;
}

/// A choice between handles of a store: if `test` then `then`, else `otherwise`.
#[derive(Clone, Copy)]
struct Choice {
    test: u32,
    then: u32,
    otherwise: u32,
}

impl Choice {
    /// The choice, or what it comes to if the test is a leaf.
    fn new(test: u32, then: u32, otherwise: u32) -> Choice {
        match test {
            NEVER => Choice { test: otherwise, then: ALWAYS, otherwise: NEVER },
            ALWAYS => Choice { test: then, then: ALWAYS, otherwise: NEVER },
            _ => Choice { test, then, otherwise },
        }
    }
}

/// The meaning of a choice by a store's entries.
struct ByEntries<'a>(&'a [Entry]);

impl Meaning for ByEntries<'_> {
    type Rest = Choice;

    fn leaf(&self, rest: &Choice) -> Option<u32> {
        if rest.test < FIRST_ENTRY {
            Some(rest.test)
        } else if rest.then == rest.otherwise && rest.then < FIRST_ENTRY {
            Some(rest.then)
        } else {
            None
        }
    }

    fn answered(&self, rest: &Choice, question: u32, yes: bool) -> Choice {
        let follow = |handle: u32| match handle.checked_sub(FIRST_ENTRY).map(|i| self.0[i as usize]) {
            Some([asked, on_yes, _]) if asked == question && yes => on_yes,
            Some([asked, _, on_no]) if asked == question => on_no,
            _ => handle,
        };
        Choice::new(follow(rest.test), follow(rest.then), follow(rest.otherwise))
    }
}

struct Walk<'a, M> {
    questions: &'a [Question],
    meaning: M,
    /// All entries, old and new.
    index: HashMap<u64, u32>,
    /// The questions answered no on the path.
    noes: Vec<Question>,
    used: usize,
    room: usize,
    added: Vec<Entry>,
}

impl<M: Meaning> Walk<'_, M> {
    /// Adds the finished diagram of what is left of the meaning under the facts of the path. Question `next` is the first not asked yet.
    fn finish(&mut self, next: usize, rest: &M::Rest, bounds: &Bounds) -> Result<u32, u32> {
        if let Some(leaf) = self.meaning.leaf(rest) {
            return Ok(leaf);
        }
        let question = self.questions[next];
        let number = next as u32 + 1;
        if let Some(answer) = bounds.decide(&self.noes, question) {
            return self.finish(next + 1, &self.meaning.answered(rest, number, answer), bounds);
        }
        let yes = self.finish(next + 1, &self.meaning.answered(rest, number, true), &bounds.with(question))?;
        self.noes.push(question);
        let no = self.finish(next + 1, &self.meaning.answered(rest, number, false), bounds)?;
        self.noes.pop();
        if yes == no {
            return Ok(yes);
        }
        self.place([number, yes, no])
    }

    fn place(&mut self, entry: Entry) -> Result<u32, u32> {
        if let Some(handle) = self.index.get(&key(entry)) {
            return Ok(*handle);
        }
        let used = self.used + self.added.len();
        if used == self.room {
            return Err(NO_ROOM);
        }
        let handle = used as u32 + FIRST_ENTRY;
        self.index.insert(key(entry), handle);
        self.added.push(entry);
        Ok(handle)
    }
}

/// The entries that the finished diagram of a meaning adds to a store, and the diagram's handle.
fn finished<M: Meaning>(contents: &mut Contents, meaning: M, whole: &M::Rest) -> Result<(Vec<Entry>, u32), u32> {
    let mut walk = Walk {
        questions: &contents.questions,
        meaning,
        index: std::mem::take(&mut contents.index),
        noes: Vec::with_capacity(MOST_QUESTIONS),
        used: contents.entries.len(),
        room: contents.room,
        added: Vec::new(),
    };
    let handle = walk.finish(0, whole, &Bounds::new(contents.n))?;
    Ok((walk.added, handle))
}

/// Writes new entries after the used ones.
fn append(store: &mut [u32], added: &[Entry]) {
    let (q, used) = (store[1] as usize, store[2] as usize);
    let start = HEADING + 2 * q + 3 * used;
    store[start..start + 3 * added.len()].copy_from_slice(added.as_flattened());
    store[2] = (used + added.len()) as u32;
}

/// Adds the finished diagram of a choice between handles, of which the given ones come from the caller.
fn add_choice(store: &mut [u32], given: &[u32], test: u32, then: u32, otherwise: u32) -> Result<u32, u32> {
    let mut contents = Contents::of(store)?;
    contents.check_handles(given)?;
    let meaning = ByEntries(contents.entries);
    let (added, handle) = finished(&mut contents, meaning, &Choice::new(test, then, otherwise))?;
    append(store, &added);
    Ok(handle)
}

// ---------------------------------------------------------------------------------------------------------------------
// Rule tables
// ---------------------------------------------------------------------------------------------------------------------

enum Row {
    Leaf(u32),
    /// A question's number, counted from 1.
    Question(u32),
    Not(usize),
    And(usize, usize),
    If(usize, usize, usize),
}

/// The rows of a rule table, or the first of 31 to 36 that it meets.
fn checked_rule(words: &[u32], contents: &Contents) -> Result<Vec<Row>, u32> {
    if words.is_empty() {
        return Err(NO_ROWS);
    }
    if !words.len().is_multiple_of(4) {
        return Err(BROKEN_ROW);
    }
    if words.len() / 4 > MOST_ROWS {
        return Err(TOO_MANY_ROWS);
    }
    let numbers: HashMap<[u32; 2], u32> = contents.questions.iter().map(|q| q.words()).zip(1..).collect();
    let mut rows = Vec::with_capacity(words.len() / 4);
    for row in words.chunks_exact(4) {
        let own = rows.len() as u32;
        let (a, b, c) = (row[1] as usize, row[2] as usize, row[3] as usize);
        let checked = match *row {
            [0, 0, 0, 0] => Row::Leaf(NEVER),
            [1, 0, 0, 0] => Row::Leaf(ALWAYS),
            [2, a, b, 0] => checked_equation(Term::of_word(a), Term::of_word(b), contents, &numbers)?,
            [3, i, 0, 0] if i < own => Row::Not(a),
            [4, i, j, 0] if i < own && j < own => Row::And(a, b),
            [5, i, j, k] if i < own && j < own && k < own => Row::If(a, b, c),
            _ => return Err(BAD_ROW),
        };
        rows.push(checked);
    }
    Ok(rows)
}

fn checked_equation(a: Term, b: Term, contents: &Contents, numbers: &HashMap<[u32; 2], u32>) -> Result<Row, u32> {
    if !a.within(contents.limits, contents.n) || !b.within(contents.limits, contents.n) {
        return Err(RULE_TERM);
    }
    match simplified(a, b) {
        Simplified::Never => Ok(Row::Leaf(NEVER)),
        Simplified::Always => Ok(Row::Leaf(ALWAYS)),
        Simplified::Question(question) => {
            numbers.get(&question.words()).map(|number| Row::Question(*number)).ok_or(NOT_LISTED)
        }
    }
}

/// What is known of a row's truth.
#[derive(Clone, Copy, PartialEq, Eq)]
enum Known {
    Never,
    Always,
    Not,
}

/// The truth of each row, as far as the answers so far tell.
type RowTruths = [Known; MOST_ROWS];

impl Row {
    /// What the truths of the lower rows tell of this one. A question is not known.
    fn known(&self, truths: &RowTruths) -> Known {
        match *self {
            Row::Leaf(NEVER) => Known::Never,
            Row::Leaf(_) => Known::Always,
            Row::Question(_) => Known::Not,
            Row::Not(a) => match truths[a] {
                Known::Never => Known::Always,
                Known::Always => Known::Never,
                Known::Not => Known::Not,
            },
            Row::And(a, b) => match (truths[a], truths[b]) {
                (Known::Never, _) | (_, Known::Never) => Known::Never,
                (Known::Always, Known::Always) => Known::Always,
                _ => Known::Not,
            },
            Row::If(a, b, c) => match truths[a] {
                Known::Always => truths[b],
                Known::Never => truths[c],
                Known::Not if truths[b] == truths[c] => truths[b],
                Known::Not => Known::Not,
            },
        }
    }
}

/// The meaning of a rule table's last row.
struct ByRows {
    rows: Vec<Row>,
    /// For each question number the first row that asks it: lower rows stay as they are when it is answered.
    first_asking: [usize; MOST_QUESTIONS + 1],
}

impl ByRows {
    fn new(rows: Vec<Row>) -> ByRows {
        let mut first_asking = [rows.len(); MOST_QUESTIONS + 1];
        for (i, row) in rows.iter().enumerate().rev() {
            if let Row::Question(number) = row {
                first_asking[*number as usize] = i;
            }
        }
        ByRows { rows, first_asking }
    }

    fn unanswered(&self) -> RowTruths {
        let mut truths = [Known::Not; MOST_ROWS];
        for (i, row) in self.rows.iter().enumerate() {
            truths[i] = row.known(&truths);
        }
        truths
    }
}

impl Meaning for ByRows {
    type Rest = RowTruths;

    fn leaf(&self, rest: &RowTruths) -> Option<u32> {
        match rest[self.rows.len() - 1] {
            Known::Never => Some(NEVER),
            Known::Always => Some(ALWAYS),
            Known::Not => None,
        }
    }

    fn answered(&self, rest: &RowTruths, question: u32, yes: bool) -> RowTruths {
        let mut truths = *rest;
        let first = self.first_asking[question as usize];
        for (i, row) in self.rows.iter().enumerate().skip(first) {
            if truths[i] == Known::Not {
                truths[i] = match row {
                    Row::Question(asked) if *asked == question && yes => Known::Always,
                    Row::Question(asked) if *asked == question => Known::Never,
                    _ => row.known(&truths),
                };
            }
        }
        truths
    }
}

// ---------------------------------------------------------------------------------------------------------------------
// Verdict and example
// ---------------------------------------------------------------------------------------------------------------------

/// Looks for the leaves that some choice of counts reaches.
struct LeafSearch<'a> {
    contents: &'a Contents<'a>,
    noes: Vec<Question>,
    reached: [bool; 2],
}

impl LeafSearch<'_> {
    fn search(&mut self, handle: u32, bounds: &Bounds) {
        if self.reached == [true, true] {
            return;
        }
        if handle < FIRST_ENTRY {
            self.reached[handle as usize] = true;
            return;
        }
        let [question, yes, no] = self.contents.entries[(handle - FIRST_ENTRY) as usize];
        let question = self.contents.questions[question as usize - 1];
        match bounds.decide(&self.noes, question) {
            Some(true) => self.search(yes, bounds),
            Some(false) => self.search(no, bounds),
            None => {
                self.search(yes, &bounds.with(question));
                self.noes.push(question);
                self.search(no, bounds);
                self.noes.pop();
            }
        }
    }
}

/// Looks for the least counts that satisfy a handle, leaving out parts of the diagram that can't have smaller ones than those found.
struct LeastSearch<'a> {
    contents: &'a Contents<'a>,
    noes: Vec<Question>,
    best: Option<Counts>,
}

impl LeastSearch<'_> {
    /// `least` are the least counts that fit the facts of the path, whatever the handle says of them.
    fn search(&mut self, handle: u32, bounds: &Bounds, least: &Counts) {
        if handle == NEVER || self.best.is_some_and(|best| best <= *least) {
            return;
        }
        if self.contents.holds(handle, least) {
            self.best = Some(*least);
            return;
        }
        let [question, yes, no] = self.contents.entries[(handle - FIRST_ENTRY) as usize];
        let question = self.contents.questions[question as usize - 1];
        match bounds.decide(&self.noes, question) {
            Some(true) => self.search(yes, bounds, least),
            Some(false) => self.search(no, bounds, least),
            None => {
                // The least counts answer the question one way, and are the least on that side too.
                let answer = question.holds(least);
                for side in [answer, !answer] {
                    self.search_side(
                        question,
                        side,
                        if side { yes } else { no },
                        bounds,
                        (side == answer).then_some(least),
                    );
                }
            }
        }
    }

    fn search_side(&mut self, question: Question, side: bool, part: u32, bounds: &Bounds, least: Option<&Counts>) {
        if side {
            let bounds = bounds.with(question);
            let least = least.copied().unwrap_or_else(|| bounds.least_counts(&self.noes));
            self.search(part, &bounds, &least);
        } else {
            self.noes.push(question);
            let least = least.copied().unwrap_or_else(|| bounds.least_counts(&self.noes));
            self.search(part, bounds, &least);
            self.noes.pop();
        }
    }
}

// ---------------------------------------------------------------------------------------------------------------------
// The operations
// ---------------------------------------------------------------------------------------------------------------------

/// Opens a store for the words of a list that stands in the order.
fn write_opened(n: u32, order: u32, list: &[u32], store: &mut [u32]) -> Result<u32, u32> {
    let end = HEADING + list.len();
    if store.len() < end {
        return Err(STORE_TOO_SHORT);
    }
    store[..HEADING].copy_from_slice(&[n, list.len() as u32 / 2, 0, order]);
    store[HEADING..end].copy_from_slice(list);
    store[end..].fill(0);
    Ok(0)
}

fn open(limits: &Limits, n: u32, order: u32, list: &[u32], store: &mut [u32]) -> Result<u32, u32> {
    checked_list(limits, n, order, list)?;
    write_opened(n, order, list, store)
}

fn open_raw(n: u32, order: u32, raw: &[u32], store: &mut [u32]) -> Result<u32, u32> {
    write_opened(n, order, &remaining_list(n, order, raw)?, store)
}

fn build(limits: &Limits, store: &mut [u32], rule: &[u32]) -> Result<u32, u32> {
    let mut contents = Contents::within(limits, store)?;
    let rows = checked_rule(rule, &contents)?;
    let meaning = ByRows::new(rows);
    let whole = meaning.unanswered();
    let (added, handle) = finished(&mut contents, meaning, &whole)?;
    append(store, &added);
    Ok(handle)
}

fn verdict(store: &[u32], a: u32) -> Result<u32, u32> {
    let contents = Contents::of(store)?;
    contents.check_handles(&[a])?;
    Ok(leaves_reached(&contents, a, &Bounds::new(contents.n)))
}

/// 0 if some counts within the bounds reach the leaf never and none the leaf always, 1 the other way round, 2 if both are reached.
fn leaves_reached(contents: &Contents, a: u32, bounds: &Bounds) -> u32 {
    let mut search = LeafSearch { contents, noes: Vec::new(), reached: [false, false] };
    search.search(a, bounds);
    match search.reached {
        [_, false] => 0,
        [false, true] => 1,
        [true, true] => 2,
    }
}

fn example(store: &[u32], a: u32, sheet: &mut [u16]) -> Result<u32, u32> {
    let contents = Contents::of(store)?;
    contents.check_handles(&[a])?;
    if sheet.len() != contents.n as usize {
        return Err(SLICE_LENGTH);
    }
    let mut search = LeastSearch { contents: &contents, noes: Vec::new(), best: None };
    search.search(a, &Bounds::new(contents.n), &[0; SIZE]);
    let best = search.best.ok_or(NOTHING_SATISFIES)?;
    for (lent, count) in sheet.iter_mut().zip(&best[1..]) {
        *lent = *count as u16;
    }
    Ok(0)
}

fn read(store: &[u32], a: u32, sheet: &[u16]) -> Result<u32, u32> {
    let contents = Contents::of(store)?;
    contents.check_handles(&[a])?;
    if sheet.len() != contents.n as usize {
        return Err(SLICE_LENGTH);
    }
    if sheet.contains(&BLANK) {
        return Ok(leaves_reached(&contents, a, &counted_bounds(contents.n, sheet)));
    }
    let mut counts = [0; SIZE];
    for (count, given) in counts[1..].iter_mut().zip(sheet) {
        *count = i32::from(*given);
    }
    Ok(u32::from(contents.holds(a, &counts)))
}

/// What the counts on a sheet say.
fn counted_bounds(n: u32, sheet: &[u16]) -> Bounds {
    let counted = (1..).zip(sheet).filter(|(_, count)| **count != BLANK);
    counted.fold(Bounds::new(n), |bounds, (field, count)| {
        bounds.with(Question { left: field, right: 0, gap: i32::from(*count) })
    })
}

fn write_back(store: &[u32], a: u32, rule: &mut [u32]) -> Result<u32, u32> {
    let contents = Contents::of(store)?;
    contents.check_handles(&[a])?;

    // Handles fall along every path, so one pass downwards finds all reachable entries.
    let mut reached = vec![false; a as usize + 1];
    reached[a as usize] = true;
    for handle in (FIRST_ENTRY as usize..=a as usize).rev() {
        if reached[handle] {
            let [_, yes, no] = contents.entries[handle - FIRST_ENTRY as usize];
            reached[yes as usize] = true;
            reached[no as usize] = true;
        }
    }
    let reached: Vec<usize> = (FIRST_ENTRY as usize..=a as usize).filter(|handle| reached[*handle]).collect();

    let leaf_rows = if a == NEVER { 1 } else { 2 };
    let rows = leaf_rows + 2 * reached.len();
    if rows > MOST_ROWS {
        return Err(TOO_LARGE_TO_WRITE);
    }
    if rule.len() < 4 * rows {
        return Err(SLICE_LENGTH);
    }
    let (table, _) = rule.as_chunks_mut::<4>();
    let mut row_of = vec![0; a as usize + 2];
    row_of[ALWAYS as usize] = 1;
    for (row, kind) in table[..leaf_rows].iter_mut().zip([0, 1]) {
        *row = [kind, 0, 0, 0];
    }
    for (j, handle) in reached.into_iter().enumerate() {
        let [question, yes, no] = contents.entries[handle - FIRST_ENTRY as usize];
        let [left, right] = contents.questions[question as usize - 1].words();
        let equation = 2 + 2 * j;
        table[equation] = [2, left, right, 0];
        table[equation + 1] = [5, equation as u32, row_of[yes as usize], row_of[no as usize]];
        row_of[handle] = equation as u32 + 1;
    }
    Ok(rows as u32)
}

impl Operations for Fast {
    fn simplify(&self, a: u32, b: u32) -> SimplifyAnswer {
        let (a, b) = (Term::of_word(a), Term::of_word(b));
        if !a.within(&INSTITUTE, INSTITUTE.fields) || !b.within(&INSTITUTE, INSTITUTE.fields) {
            return SimplifyAnswer { number: RULE_TERM, ..SimplifyAnswer::default() };
        }
        match simplified(a, b) {
            Simplified::Never => SimplifyAnswer::default(),
            Simplified::Always => SimplifyAnswer { result: 1, ..SimplifyAnswer::default() },
            Simplified::Question(question) => {
                let [left, right] = question.words();
                SimplifyAnswer { number: 0, result: 2, left, right, gap: question.gap }
            }
        }
    }

    fn open(&self, n: u32, order: u32, list: &[u32], store: &mut [u32]) -> Answer {
        open(&INSTITUTE, n, order, list, store).into()
    }

    fn open_raw(&self, n: u32, order: u32, raw: &[u32], store: &mut [u32]) -> Answer {
        open_raw(n, order, raw, store).into()
    }

    fn build(&self, store: &mut [u32], rule: &[u32]) -> Answer {
        build(&INSTITUTE, store, rule).into()
    }

    fn logger_open(&self, n: u32, order: u32, list: &[u32], store: &mut [u32]) -> Answer {
        open(&LOGGER, n, order, list, store).into()
    }

    fn logger_build(&self, store: &mut [u32], rule: &[u32]) -> Answer {
        build(&LOGGER, store, rule).into()
    }

    fn negate(&self, store: &mut [u32], a: u32) -> Answer {
        add_choice(store, &[a], a, NEVER, ALWAYS).into()
    }

    fn join(&self, store: &mut [u32], a: u32, b: u32) -> Answer {
        add_choice(store, &[a, b], a, b, NEVER).into()
    }

    fn choose(&self, store: &mut [u32], a: u32, b: u32, c: u32) -> Answer {
        add_choice(store, &[a, b, c], a, b, c).into()
    }

    fn verdict(&self, store: &[u32], a: u32) -> Answer {
        verdict(store, a).into()
    }

    fn example(&self, store: &[u32], a: u32, sheet: &mut [u16]) -> Answer {
        example(store, a, sheet).into()
    }

    fn read(&self, store: &[u32], a: u32, sheet: &[u16]) -> Answer {
        read(store, a, sheet).into()
    }

    fn write_back(&self, store: &[u32], a: u32, rule: &mut [u32]) -> Answer {
        write_back(store, a, rule).into()
    }

    fn check_normal_form(&self, table: &[u32], root: u32) -> Answer {
        normal_form::check(table, root).into()
    }
}
