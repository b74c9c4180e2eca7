//! The operations as documents 01 and 02 state them, with no thought of speed.

use std::cell::RefCell;
use std::collections::{BTreeMap, BTreeSet};
use std::rc::Rc;

use crate::refusal::*;
use crate::{trees, Answer, Limits, Operations, SimplifyAnswer, Term, INSTITUTE, LOGGER};
use crate::{ALWAYS, BLANK, FIELDS_FIRST, FIRST_ENTRY, HEADING, LEFT_FIRST, MOST_EQUATIONS, MOST_ROWS, NEVER};

/// The answers to all questions of a list: bit i is the truth of question i, counted from 0.
pub type Truths = u32;

/// A question: count of the left term = count of the right term.
pub type Question = (Term, Term);

/// How the combinations of answers that some choice of counts gives are found.
#[derive(Clone, Copy, PartialEq, Eq)]
enum Method {
    Bounds,
    Counting,
}

/// The operations, with one of two ways to find the possible combinations of answers.
pub struct Plain {
    method: Method,
    /// The combinations of the list asked for last: a run of calls asks for one list many times.
    last: RefCell<Option<Possible>>,
}

/// A list, and its possible combinations of answers.
struct Possible {
    n: u32,
    questions: Vec<Question>,
    truths: Rc<Vec<Truths>>,
}

impl Plain {
    /// By bounds on the differences of counts. Any list will do, if it has few combinations.
    pub fn by_bounds() -> Plain {
        Plain { method: Method::Bounds, last: RefCell::new(None) }
    }

    /// By trying all sheets with counts up to [`largest_count`], of which there must be few.
    pub fn by_counting() -> Plain {
        Plain { method: Method::Counting, last: RefCell::new(None) }
    }

    fn possible(&self, n: u32, questions: &[Question]) -> Rc<Vec<Truths>> {
        if let Some(last) = self.last.borrow().as_ref().filter(|last| last.n == n && last.questions == questions) {
            return Rc::clone(&last.truths);
        }
        let truths = Rc::new(match self.method {
            Method::Bounds => possible_by_bounds(n, questions),
            Method::Counting => possible_by_counting(n, questions),
        });
        let last = Possible { n, questions: questions.to_vec(), truths: Rc::clone(&truths) };
        *self.last.borrow_mut() = Some(last);
        truths
    }
}

// ---------------------------------------------------------------------------------------------------------------------
// Which combinations of answers are possible
// ---------------------------------------------------------------------------------------------------------------------

/// Right steps minus left steps: left count = right count + gap.
fn gap(question: &Question) -> i64 {
    i64::from(question.1.steps) - i64::from(question.0.steps)
}

/// The largest count that has to be tried: n x (K + 1), K being the largest gap without its sign. The sheets with counts up to this
/// are the box of a list.
///
/// That larger counts give no further combination of answers is seen thus. Take any sheet, and put zero and its n counts in
/// ascending order. Where two neighbours are more than K + 1 apart, lower the upper one and all above it until they are K + 1 apart.
/// A question across that place was false, its sides being more than K apart, and still is for the same reason; any other
/// question compares counts that moved alike. So all answers stay, and now the largest count is at most n steps of K + 1.
pub fn largest_count(n: u32, questions: &[Question]) -> u64 {
    u64::from(n) * (largest_gap(questions) + 1)
}

/// K: the largest gap without its sign, 0 for an empty list.
fn largest_gap(questions: &[Question]) -> u64 {
    questions.iter().map(|q| gap(q).unsigned_abs()).max().unwrap_or(0)
}

/// For each possible combination of answers a sheet that gives it, found by trying all sheets of the box.
pub fn sheets_by_counting(n: u32, questions: &[Question]) -> Vec<Vec<u64>> {
    let mut found = BTreeMap::new();
    let mut sheet = Some(vec![0; n as usize]);
    while let Some(counts) = sheet {
        found.entry(truths_of(questions, &counts)).or_insert_with(|| counts.clone());
        sheet = next_sheet(counts, largest_count(n, questions));
    }
    found.into_values().collect()
}

/// The combinations of answers that the sheets of the box give. By [`largest_count`] these are all that any sheet gives.
pub fn possible_by_counting(n: u32, questions: &[Question]) -> Vec<Truths> {
    let mut possible: Vec<Truths> =
        sheets_by_counting(n, questions).iter().map(|sheet| truths_of(questions, sheet)).collect();
    possible.sort_unstable();
    possible
}

/// The next sheet of the box, field 1 compared first, or none after the last.
pub(crate) fn next_sheet(mut counts: Vec<u64>, most: u64) -> Option<Vec<u64>> {
    let last_below = counts.iter().rposition(|count| *count < most)?;
    counts[last_below] += 1;
    counts[last_below + 1..].fill(0);
    Some(counts)
}

/// A term's value: field 0 counts zero.
pub(crate) fn value(term: Term, counts: &[u64]) -> u64 {
    let count = if term.field == 0 { 0 } else { counts[term.field as usize - 1] };
    count + u64::from(term.steps)
}

fn truths_of(questions: &[Question], counts: &[u64]) -> Truths {
    let mut truths = 0;
    for (i, (left, right)) in questions.iter().enumerate() {
        if value(*left, counts) == value(*right, counts) {
            truths |= 1 << i;
        }
    }
    truths
}

/// The combinations of answers that fit together, found question by question by `fits`.
pub fn possible_by_bounds(n: u32, questions: &[Question]) -> Vec<Truths> {
    let mut found = vec![0];
    for asked in 1..=questions.len() {
        let newest = 1 << (asked - 1);
        found = found
            .into_iter()
            .flat_map(|truths| [truths, truths | newest])
            .filter(|truths| fits(n, &facts_of(&questions[..asked], *truths)))
            .collect();
    }
    found.sort_unstable();
    found
}

/// For each possible combination of answers its least sheet, found by difference bounds.
pub fn sheets_by_bounds(n: u32, questions: &[Question]) -> Vec<Vec<u64>> {
    possible_by_bounds(n, questions).into_iter().map(|truths| least_sheet(n, facts_of(questions, truths))).collect()
}

/// An answered question.
pub(crate) type Fact = (Question, bool);

fn facts_of(questions: &[Question], truths: Truths) -> Vec<Fact> {
    questions.iter().enumerate().map(|(i, question)| (*question, truths >> i & 1 == 1)).collect()
}

/// Stands for "no bound". Sums of two of these stay in range, and no sum of true bounds comes near.
const UNBOUNDED: i64 = 1 << 40;

/// For each two fields, zero among them, the most by which the first one's count can exceed the second one's, given that the
/// questions answered yes hold and no count is below zero. Nothing if no counts fit. This is Floyd and Warshall's closure.
fn difference_bounds(n: u32, facts: &[Fact]) -> Option<Vec<Vec<i64>>> {
    let size = n as usize + 1;
    let mut most = vec![vec![UNBOUNDED; size]; size];
    most[0] = vec![0; size];
    for (field, row) in most.iter_mut().enumerate() {
        row[field] = 0;
    }
    for (question, _) in facts.iter().filter(|(_, yes)| *yes) {
        let (left, right) = (question.0.field as usize, question.1.field as usize);
        most[left][right] = most[left][right].min(gap(question));
        most[right][left] = most[right][left].min(-gap(question));
    }
    for middle in 0..size {
        for from in 0..size {
            for to in 0..size {
                most[from][to] = most[from][to].min(most[from][middle] + most[middle][to]);
            }
        }
    }
    let contradictory = (0..size).any(|field| most[field][field] < 0);
    (!contradictory).then_some(most)
}

/// Whether some choice of counts fits the facts.
///
/// The questions answered yes leave some counts if and only if no circle of bounds is negative. A question answered no is then broken by
/// all those counts if the bounds give its equation from both sides. If they give none of the no questions' equations, some
/// choice breaks none of them: fields joined by yes questions move together, each such group that zero isn't in can be raised
/// without limit by itself, and each no question shuts out only one height of one group against another. So groups raised far
/// enough apart fit all facts.
pub(crate) fn fits(n: u32, facts: &[Fact]) -> bool {
    let Some(most) = difference_bounds(n, facts) else { return false };
    facts.iter().filter(|(_, yes)| !*yes).all(|(question, _)| {
        let (left, right) = (question.0.field as usize, question.1.field as usize);
        most[left][right] > gap(question) || most[right][left] > -gap(question)
    })
}

/// The least sheet that fits the facts, field 1 compared first. Some sheet must fit.
fn least_sheet(n: u32, mut facts: Vec<Fact>) -> Vec<u64> {
    let mut sheet = Vec::new();
    for field in 1..=n {
        let most = difference_bounds(n, &facts).expect("some sheet fits");
        let mut count = -most[0][field as usize];
        loop {
            facts.push(counts_fact(field, count as u64));
            if fits(n, &facts) {
                break;
            }
            facts.pop();
            count += 1;
        }
        sheet.push(count as u64);
    }
    sheet
}

// ---------------------------------------------------------------------------------------------------------------------
// Simplifying, and the list
// ---------------------------------------------------------------------------------------------------------------------

#[derive(PartialEq, Eq)]
pub(crate) enum Simplified {
    Never,
    Always,
    Question(Question),
}

pub(crate) fn simplified(a: Term, b: Term) -> Simplified {
    if a.field == b.field {
        return if a.steps == b.steps { Simplified::Always } else { Simplified::Never };
    }
    let (mut left, mut right) = if a.field > b.field { (a, b) } else { (b, a) };
    let common = left.steps.min(right.steps);
    left.steps -= common;
    right.steps -= common;
    if right.field == 0 && left.steps > 0 {
        return Simplified::Never;
    }
    Simplified::Question((left, right))
}

/// The numbers that two questions are compared by in Definition 27, and in document 01.
pub(crate) fn rank(question: &Question) -> (u32, u32, u32, u32) {
    let (left, right) = question;
    (left.field, right.field, left.steps, right.steps)
}

/// The numbers that two questions are compared by in the older books.
fn older_rank(question: &Question) -> (u32, u32, u32, u32) {
    let (left, right) = question;
    (left.field, left.steps, right.field, right.steps)
}

/// How questions are compared in an order.
type Rank = fn(&Question) -> (u32, u32, u32, u32);

/// The rank of the order, or the first of 11, 18 and 12 that is met. No word is looked at.
fn checked_rank(limits: &Limits, n: u32, order: u32, words: &[u32]) -> Result<Rank, u32> {
    if n > limits.fields {
        return Err(TOO_MANY_FIELDS);
    }
    let rank = match order {
        FIELDS_FIRST => rank,
        LEFT_FIRST => older_rank,
        _ => return Err(UNKNOWN_ORDER),
    };
    if !words.len().is_multiple_of(2) {
        return Err(ODD_LIST);
    }
    Ok(rank)
}

/// The equation of two words, or 14.
fn checked_pair(limits: &Limits, n: u32, pair: &[u32]) -> Result<Question, u32> {
    let equation = (Term::of_word(pair[0]), Term::of_word(pair[1]));
    if !equation.0.within(limits, n) || !equation.1.within(limits, n) {
        return Err(LIST_TERM);
    }
    Ok(equation)
}

/// The list's questions, or the first of 11 to 18 that it meets.
fn checked_list(limits: &Limits, n: u32, order: u32, words: &[u32]) -> Result<Vec<Question>, u32> {
    let rank = checked_rank(limits, n, order, words)?;
    if words.len() / 2 > limits.questions {
        return Err(TOO_MANY_QUESTIONS);
    }
    let mut questions: Vec<Question> = Vec::new();
    for pair in words.chunks(2) {
        let question = checked_pair(limits, n, pair)?;
        if simplified(question.0, question.1) != Simplified::Question(question) {
            return Err(NOT_SIMPLIFIED);
        }
        if questions.last().is_some_and(|before| rank(before) >= rank(&question)) {
            return Err(NOT_ASCENDING);
        }
        questions.push(question);
    }
    Ok(questions)
}

/// The questions that remain of a raw list, which the institute alone takes, in their order; or the first of 11 to 18 that it meets.
fn remaining(n: u32, order: u32, raw: &[u32]) -> Result<Vec<Question>, u32> {
    let rank = checked_rank(&INSTITUTE, n, order, raw)?;
    if raw.len() / 2 > MOST_EQUATIONS {
        return Err(TOO_MANY_EQUATIONS);
    }
    let mut found: BTreeSet<[u32; 2]> = BTreeSet::new();
    for pair in raw.chunks(2) {
        let (a, b) = checked_pair(&INSTITUTE, n, pair)?;
        if let Simplified::Question((left, right)) = simplified(a, b) {
            found.insert([left.word(), right.word()]);
        }
    }
    if found.len() > INSTITUTE.questions {
        return Err(TOO_MANY_QUESTIONS);
    }
    let mut questions: Vec<Question> = found.into_iter().map(|pair| pair.map(Term::of_word).into()).collect();
    questions.sort_by_key(rank);
    Ok(questions)
}

// ---------------------------------------------------------------------------------------------------------------------
// The store
// ---------------------------------------------------------------------------------------------------------------------

/// A store's words taken apart, and the limits that they keep.
struct Contents {
    limits: Limits,
    n: u32,
    questions: Vec<Question>,
    entries: Vec<[u32; 3]>,
    room: usize,
}

/// The contents of a store that is sound within the limits; otherwise 22.
fn contents(limits: &Limits, store: &[u32]) -> Result<Contents, u32> {
    sound_contents(limits, store).ok_or(NOT_SOUND)
}

fn sound_contents(limits: &Limits, store: &[u32]) -> Option<Contents> {
    if store.len() < HEADING {
        return None;
    }
    let n = store[0];
    let q = usize::try_from(store[1]).ok().filter(|q| *q <= limits.questions)?;
    let used = store[2] as usize;
    let order = store[3];
    let list_end = HEADING + 2 * q;
    if store.len() < list_end {
        return None;
    }
    let questions = checked_list(limits, n, order, &store[HEADING..list_end]).ok()?;
    let room = ((store.len() - list_end) / 3).min(limits.entries);
    if used > room {
        return None;
    }
    let entries_end = list_end + 3 * used;
    let entries: Vec<[u32; 3]> =
        store[list_end..entries_end].chunks(3).map(|entry| [entry[0], entry[1], entry[2]]).collect();
    for (i, [question, yes, no]) in entries.iter().enumerate() {
        if *question < 1 || *question as usize > q || yes == no {
            return None;
        }
        for named in [*yes, *no] {
            if named >= i as u32 + FIRST_ENTRY {
                return None;
            }
            if named >= FIRST_ENTRY && entries[(named - FIRST_ENTRY) as usize][0] <= *question {
                return None;
            }
        }
        if entries[..i].contains(&entries[i]) {
            return None;
        }
    }
    let unused_are_zero = store[entries_end..].iter().all(|word| *word == 0);
    unused_are_zero.then_some(Contents { limits: *limits, n, questions, entries, room })
}

impl Contents {
    fn check_handle(&self, handle: u32) -> Result<(), u32> {
        if u64::from(handle) >= self.entries.len() as u64 + u64::from(FIRST_ENTRY) {
            return Err(NO_SUCH_HANDLE);
        }
        Ok(())
    }

    /// A handle's meaning: follow yes or no by the truth of the entry's question, to a leaf.
    fn holds(&self, handle: u32, truths: Truths) -> bool {
        if handle < FIRST_ENTRY {
            return handle == ALWAYS;
        }
        let [question, yes, no] = self.entries[(handle - FIRST_ENTRY) as usize];
        self.holds(if truths >> (question - 1) & 1 == 1 { yes } else { no }, truths)
    }
}

// ---------------------------------------------------------------------------------------------------------------------
// The finished diagram
// ---------------------------------------------------------------------------------------------------------------------

#[derive(PartialEq, Eq)]
enum Diagram {
    Leaf(bool),
    Asked { question: u32, yes: Rc<Diagram>, no: Rc<Diagram> },
}

/// The finished diagram of a meaning, over the combinations of answers that are still possible. Question `next` and the later ones
/// are not asked yet, and the combinations agree on the earlier ones.
fn finished(next: usize, q: usize, possible: &[Truths], meaning: &dyn Fn(Truths) -> bool) -> Rc<Diagram> {
    if next == q {
        return Rc::new(Diagram::Leaf(meaning(possible[0])));
    }
    let (yes, no): (Vec<Truths>, Vec<Truths>) = possible.iter().partition(|truths| *truths >> next & 1 == 1);
    if yes.is_empty() || no.is_empty() {
        return finished(next + 1, q, possible, meaning);
    }
    let yes = finished(next + 1, q, &yes, meaning);
    let no = finished(next + 1, q, &no, meaning);
    if yes == no {
        return yes;
    }
    Rc::new(Diagram::Asked { question: next as u32 + 1, yes, no })
}

/// Adds a diagram's entries: the yes part's, the no part's, its own; one already present is used again. Gives its handle.
fn added(diagram: &Diagram, entries: &mut Vec<[u32; 3]>) -> u32 {
    match diagram {
        Diagram::Leaf(false) => NEVER,
        Diagram::Leaf(true) => ALWAYS,
        Diagram::Asked { question, yes, no } => {
            let yes = added(yes, entries);
            let no = added(no, entries);
            let entry = [*question, yes, no];
            let at = entries.iter().position(|present| *present == entry).unwrap_or_else(|| {
                entries.push(entry);
                entries.len() - 1
            });
            at as u32 + FIRST_ENTRY
        }
    }
}

impl Plain {
    /// Adds the finished diagram of a meaning to a sound store, whose contents are given, and gives its handle.
    fn add(&self, store: &mut [u32], contents: &Contents, meaning: &dyn Fn(Truths) -> bool) -> Result<u32, u32> {
        let q = contents.questions.len();
        let possible = self.possible(contents.n, &contents.questions);
        let mut entries = contents.entries.clone();
        let handle = added(&finished(0, q, &possible, meaning), &mut entries);
        if entries.len() > contents.room {
            return Err(NO_ROOM);
        }
        store[2] = entries.len() as u32;
        let start = HEADING + 2 * q;
        store[start..start + 3 * entries.len()].copy_from_slice(entries.as_flattened());
        Ok(handle)
    }
}

// ---------------------------------------------------------------------------------------------------------------------
// Rule tables
// ---------------------------------------------------------------------------------------------------------------------

enum Row {
    Leaf(bool),
    /// A question of the list, counted from 0.
    Question(usize),
    Not(usize),
    And(usize, usize),
    If(usize, usize, usize),
}

/// The rows of a rule table, or the first of 31 to 36 that it meets.
fn checked_rule(words: &[u32], contents: &Contents) -> Result<Vec<Row>, u32> {
    if words.is_empty() {
        return Err(NO_ROWS);
    }
    if !words.len().is_multiple_of(4) {
        return Err(BROKEN_ROW);
    }
    if words.len() / 4 > MOST_ROWS {
        return Err(TOO_MANY_ROWS);
    }
    let mut rows = Vec::new();
    for (i, row) in words.chunks(4).enumerate() {
        rows.push(checked_row([row[0], row[1], row[2], row[3]], i, contents)?);
    }
    Ok(rows)
}

fn checked_row([kind, a, b, c]: [u32; 4], own: usize, contents: &Contents) -> Result<Row, u32> {
    let reference = |column: u32| if (column as usize) < own { Ok(column as usize) } else { Err(BAD_ROW) };
    let unused = |column: u32| if column == 0 { Ok(()) } else { Err(BAD_ROW) };
    match kind {
        0 | 1 => {
            unused(a)?;
            unused(b)?;
            unused(c)?;
            Ok(Row::Leaf(kind == 1))
        }
        2 => {
            unused(c)?;
            checked_equation(Term::of_word(a), Term::of_word(b), contents)
        }
        3 => {
            unused(b)?;
            unused(c)?;
            Ok(Row::Not(reference(a)?))
        }
        4 => {
            unused(c)?;
            Ok(Row::And(reference(a)?, reference(b)?))
        }
        5 => Ok(Row::If(reference(a)?, reference(b)?, reference(c)?)),
        _ => Err(BAD_ROW),
    }
}

fn checked_equation(a: Term, b: Term, Contents { limits, n, questions, .. }: &Contents) -> Result<Row, u32> {
    if !a.within(limits, *n) || !b.within(limits, *n) {
        return Err(RULE_TERM);
    }
    match simplified(a, b) {
        Simplified::Never => Ok(Row::Leaf(false)),
        Simplified::Always => Ok(Row::Leaf(true)),
        Simplified::Question(question) => {
            questions.iter().position(|listed| *listed == question).map(Row::Question).ok_or(NOT_LISTED)
        }
    }
}

/// The truth of row `at`.
fn row_holds(rows: &[Row], at: usize, truths: Truths) -> bool {
    let mut values: Vec<bool> = Vec::new();
    for row in &rows[..=at] {
        values.push(match *row {
            Row::Leaf(value) => value,
            Row::Question(question) => truths >> question & 1 == 1,
            Row::Not(a) => !values[a],
            Row::And(a, b) => values[a] && values[b],
            Row::If(a, b, c) => values[if values[a] { b } else { c }],
        });
    }
    values[at]
}

// ---------------------------------------------------------------------------------------------------------------------
// The operations
// ---------------------------------------------------------------------------------------------------------------------

/// Makes the words a store without entries for questions in their order, if they are enough.
fn write_opened(n: u32, order: u32, questions: &[Question], store: &mut [u32]) -> Result<u32, u32> {
    let list: Vec<u32> = questions.iter().flat_map(|(left, right)| [left.word(), right.word()]).collect();
    if store.len() < HEADING + list.len() {
        return Err(STORE_TOO_SHORT);
    }
    store.fill(0);
    store[0] = n;
    store[1] = questions.len() as u32;
    store[3] = order;
    store[HEADING..HEADING + list.len()].copy_from_slice(&list);
    Ok(0)
}

fn open(limits: &Limits, n: u32, order: u32, list: &[u32], store: &mut [u32]) -> Result<u32, u32> {
    write_opened(n, order, &checked_list(limits, n, order, list)?, store)
}

fn open_raw(n: u32, order: u32, raw: &[u32], store: &mut [u32]) -> Result<u32, u32> {
    write_opened(n, order, &remaining(n, order, raw)?, store)
}

impl Plain {
    fn try_build(&self, limits: &Limits, store: &mut [u32], rule: &[u32]) -> Result<u32, u32> {
        let contents = contents(limits, store)?;
        let rows = checked_rule(rule, &contents)?;
        self.add(store, &contents, &|truths| row_holds(&rows, rows.len() - 1, truths))
    }

    fn try_negate(&self, store: &mut [u32], a: u32) -> Result<u32, u32> {
        let contents = contents(&INSTITUTE, store)?;
        contents.check_handle(a)?;
        self.add(store, &contents, &|truths| !contents.holds(a, truths))
    }

    fn try_join(&self, store: &mut [u32], a: u32, b: u32) -> Result<u32, u32> {
        let contents = contents(&INSTITUTE, store)?;
        contents.check_handle(a)?;
        contents.check_handle(b)?;
        self.add(store, &contents, &|truths| contents.holds(a, truths) && contents.holds(b, truths))
    }

    fn try_choose(&self, store: &mut [u32], a: u32, b: u32, c: u32) -> Result<u32, u32> {
        let contents = contents(&INSTITUTE, store)?;
        contents.check_handle(a)?;
        contents.check_handle(b)?;
        contents.check_handle(c)?;
        self.add(store, &contents, &|truths| contents.holds(if contents.holds(a, truths) { b } else { c }, truths))
    }

    fn try_verdict(&self, store: &[u32], a: u32) -> Result<u32, u32> {
        let contents = contents(&INSTITUTE, store)?;
        contents.check_handle(a)?;
        let possible = self.possible(contents.n, &contents.questions);
        Ok(none_all_or_some(possible.iter().map(|truths| contents.holds(a, *truths))))
    }

    fn try_read(&self, store: &[u32], a: u32, sheet: &[u16]) -> Result<u32, u32> {
        let contents = contents(&INSTITUTE, store)?;
        contents.check_handle(a)?;
        if sheet.len() != contents.n as usize {
            return Err(SLICE_LENGTH);
        }
        let fields: Vec<Option<u64>> = sheet.iter().map(counted).collect();
        Ok(match self.method {
            Method::Bounds => self.read_by_bounds(&contents, a, &fields),
            Method::Counting => read_by_counting(&contents, a, &fields),
        })
    }

    /// By the combinations of answers that go together with the counts on the sheet.
    fn read_by_bounds(&self, contents: &Contents, a: u32, fields: &[Option<u64>]) -> u32 {
        let counts: Vec<Fact> =
            (1..).zip(fields).filter_map(|(field, count)| Some(counts_fact(field, (*count)?))).collect();
        let possible = self.possible(contents.n, &contents.questions);
        let fitting = possible.iter().filter(|truths| {
            let facts = [facts_of(&contents.questions, **truths), counts.clone()].concat();
            fits(contents.n, &facts)
        });
        none_all_or_some(fitting.map(|truths| contents.holds(a, *truths)))
    }

    fn try_example(&self, store: &[u32], a: u32, sheet: &mut [u16]) -> Result<u32, u32> {
        let contents = contents(&INSTITUTE, store)?;
        contents.check_handle(a)?;
        if sheet.len() != contents.n as usize {
            return Err(SLICE_LENGTH);
        }
        let least = match self.method {
            Method::Bounds => self.example_by_bounds(&contents, a),
            Method::Counting => example_by_counting(&contents, a),
        };
        for (lent, count) in sheet.iter_mut().zip(least.ok_or(NOTHING_SATISFIES)?) {
            *lent = u16::try_from(count).expect("no count exceeds n x (K + 1)");
        }
        Ok(0)
    }

    /// The least of the least sheets of the possible combinations that satisfy the handle.
    fn example_by_bounds(&self, contents: &Contents, a: u32) -> Option<Vec<u64>> {
        self.possible(contents.n, &contents.questions)
            .iter()
            .filter(|truths| contents.holds(a, **truths))
            .map(|truths| least_sheet(contents.n, facts_of(&contents.questions, *truths)))
            .min()
    }
}

/// The first sheet of the box that satisfies the handle.
fn example_by_counting(contents: &Contents, a: u32) -> Option<Vec<u64>> {
    let most = largest_count(contents.n, &contents.questions);
    let mut sheet = Some(vec![0; contents.n as usize]);
    while let Some(counts) = sheet {
        if contents.holds(a, truths_of(&contents.questions, &counts)) {
            return Some(counts);
        }
        sheet = next_sheet(counts, most);
    }
    None
}

/// 0 if all are false, 1 if all are true, else 2; there must be one.
fn none_all_or_some(truths: impl Iterator<Item = bool>) -> u32 {
    let met: BTreeSet<bool> = truths.collect();
    match (met.contains(&true), met.contains(&false)) {
        (false, _) => 0,
        (true, false) => 1,
        (true, true) => 2,
    }
}

/// A field's count, if it was counted.
fn counted(word: &u16) -> Option<u64> {
    (*word != BLANK).then_some(u64::from(*word))
}

/// That a field counts so much.
fn counts_fact(field: u32, count: u64) -> Fact {
    ((Term { field, steps: 0 }, Term { field: 0, steps: count as u32 }), true)
}

/// The largest number that has to be tried in a blank: M + b x (K + 1), M being the largest count on the sheet, 0 if none was counted, b the
/// number of blanks, and K the largest gap without its sign.
///
/// That larger numbers bring nothing new is seen as for [`largest_count`]. Take any filling, and put zero, the counts on the sheet and the
/// numbers in the blanks in ascending order. Above M stand numbers in blanks only, so these may be lowered: where two neighbours, the upper one
/// above M, are more than K + 1 apart, lower the upper one and all above it until they are K + 1 apart. All answers stay, the counts on
/// the sheet too, and now the largest number is at most b steps of K + 1 above M.
fn largest_filling(questions: &[Question], fields: &[Option<u64>]) -> u64 {
    let largest_count = fields.iter().flatten().max().unwrap_or(&0);
    largest_count + blanks(fields) * (largest_gap(questions) + 1)
}

fn blanks(fields: &[Option<u64>]) -> u64 {
    fields.iter().filter(|field| field.is_none()).count() as u64
}

/// How many fillings of a sheet have to be tried, if there is a number for it.
pub fn fillings(questions: &[Question], sheet: &[u16]) -> Option<u64> {
    let fields: Vec<Option<u64>> = sheet.iter().map(counted).collect();
    (largest_filling(questions, &fields) + 1).checked_pow(blanks(&fields) as u32)
}

/// By trying all fillings up to [`largest_filling`].
fn read_by_counting(contents: &Contents, a: u32, fields: &[Option<u64>]) -> u32 {
    let most = largest_filling(&contents.questions, fields);
    let mut filling = Some(vec![0; blanks(fields) as usize]);
    let mut met = BTreeSet::new();
    while let Some(numbers) = filling {
        let mut left = numbers.iter().copied();
        let counts: Vec<u64> =
            fields.iter().map(|field| field.or_else(|| left.next()).expect("one for each")).collect();
        met.insert(contents.holds(a, truths_of(&contents.questions, &counts)));
        filling = next_sheet(numbers, most);
    }
    none_all_or_some(met.into_iter())
}

/// The handles of the entries reachable from a handle, ascending.
fn reachable(contents: &Contents, a: u32) -> BTreeSet<u32> {
    let mut found = BTreeSet::new();
    let mut waiting = vec![a];
    while let Some(handle) = waiting.pop() {
        if handle >= FIRST_ENTRY && found.insert(handle) {
            let [_, yes, no] = contents.entries[(handle - FIRST_ENTRY) as usize];
            waiting.extend([yes, no]);
        }
    }
    found
}

fn write_back(store: &[u32], a: u32, rule: &mut [u32]) -> Result<u32, u32> {
    let contents = contents(&INSTITUTE, store)?;
    contents.check_handle(a)?;
    let reachable: Vec<u32> = reachable(&contents, a).into_iter().collect();
    let row_of = |handle: u32| match reachable.binary_search(&handle) {
        Ok(j) => 3 + 2 * j as u32,
        Err(_) => handle,
    };
    let mut rows: Vec<[u32; 4]> = vec![[0, 0, 0, 0]];
    if a != NEVER {
        rows.push([1, 0, 0, 0]);
    }
    for handle in &reachable {
        let [question, yes, no] = contents.entries[(handle - FIRST_ENTRY) as usize];
        let (left, right) = contents.questions[question as usize - 1];
        rows.push([2, left.word(), right.word(), 0]);
        rows.push([5, rows.len() as u32 - 1, row_of(yes), row_of(no)]);
    }
    if rows.len() > MOST_ROWS {
        return Err(TOO_LARGE_TO_WRITE);
    }
    let words = rows.as_flattened();
    if rule.len() < words.len() {
        return Err(SLICE_LENGTH);
    }
    rule[..words.len()].copy_from_slice(words);
    Ok(rows.len() as u32)
}

impl Operations for Plain {
    fn simplify(&self, a: u32, b: u32) -> SimplifyAnswer {
        let (a, b) = (Term::of_word(a), Term::of_word(b));
        if !a.within(&INSTITUTE, INSTITUTE.fields) || !b.within(&INSTITUTE, INSTITUTE.fields) {
            return SimplifyAnswer { number: RULE_TERM, ..SimplifyAnswer::default() };
        }
        match simplified(a, b) {
            Simplified::Never => SimplifyAnswer { result: 0, ..SimplifyAnswer::default() },
            Simplified::Always => SimplifyAnswer { result: 1, ..SimplifyAnswer::default() },
            Simplified::Question(question) => SimplifyAnswer {
                number: 0,
                result: 2,
                left: question.0.word(),
                right: question.1.word(),
                gap: gap(&question) as i32,
            },
        }
    }

    fn open(&self, n: u32, order: u32, list: &[u32], store: &mut [u32]) -> Answer {
        open(&INSTITUTE, n, order, list, store).into()
    }

    fn open_raw(&self, n: u32, order: u32, raw: &[u32], store: &mut [u32]) -> Answer {
        open_raw(n, order, raw, store).into()
    }

    fn build(&self, store: &mut [u32], rule: &[u32]) -> Answer {
        self.try_build(&INSTITUTE, store, rule).into()
    }

    fn logger_open(&self, n: u32, order: u32, list: &[u32], store: &mut [u32]) -> Answer {
        open(&LOGGER, n, order, list, store).into()
    }

    fn logger_build(&self, store: &mut [u32], rule: &[u32]) -> Answer {
        self.try_build(&LOGGER, store, rule).into()
    }

    fn negate(&self, store: &mut [u32], a: u32) -> Answer {
        self.try_negate(store, a).into()
    }

    fn join(&self, store: &mut [u32], a: u32, b: u32) -> Answer {
        self.try_join(store, a, b).into()
    }

    fn choose(&self, store: &mut [u32], a: u32, b: u32, c: u32) -> Answer {
        self.try_choose(store, a, b, c).into()
    }

    fn verdict(&self, store: &[u32], a: u32) -> Answer {
        self.try_verdict(store, a).into()
    }

    fn example(&self, store: &[u32], a: u32, sheet: &mut [u16]) -> Answer {
        self.try_example(store, a, sheet).into()
    }

    fn read(&self, store: &[u32], a: u32, sheet: &[u16]) -> Answer {
        self.try_read(store, a, sheet).into()
    }

    fn write_back(&self, store: &[u32], a: u32, rule: &mut [u32]) -> Answer {
        write_back(store, a, rule).into()
    }

    fn check_normal_form(&self, table: &[u32], root: u32) -> Answer {
        trees::check(table, root).into()
    }
}
