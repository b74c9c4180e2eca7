//! Lists, rules, sheets and stores to try: good ones, and ones with a fault.

use std::collections::HashSet;
use std::ops::Range;

use independent::{Term, BLANK, FIELDS_FIRST, FIRST_ENTRY, HEADING, LOGGER, ORDERS};
use independent::{MOST_FIELDS, MOST_QUESTIONS, MOST_ROWS, MOST_STEPS};

use crate::calls::Call;
use crate::random::Random;

/// The number of fields, the order and the list words of a store to be opened.
#[derive(Clone, Debug)]
pub struct Survey {
    pub n: u32,
    pub order: u32,
    pub list: Vec<u32>,
}

impl Survey {
    /// The call that opens a store for it.
    pub fn open(&self) -> Call {
        Call::Open { n: self.n, order: self.order, list: self.list.clone() }
    }

    /// The call that opens a store for it, its list taken as a raw one.
    pub fn open_raw(&self) -> Call {
        Call::OpenRaw { n: self.n, order: self.order, raw: self.list.clone() }
    }

    /// The call by which the logger opens a store for it.
    pub fn logger_open(&self) -> Call {
        Call::LoggerOpen { n: self.n, order: self.order, list: self.list.clone() }
    }

    /// The number of questions, of a raw list that of equations.
    pub fn questions(&self) -> usize {
        self.list.len() / 2
    }

    /// The pairs of words of the list.
    pub fn pairs(&self) -> &[[u32; 2]] {
        self.list.as_chunks().0
    }

    /// The same questions, listed in an order.
    pub fn in_order(&self, order: u32) -> Survey {
        Survey { n: self.n, order, list: in_order(order, self.pairs().to_vec()) }
    }

    /// Whether the list, which is in some order, is in no other.
    pub fn is_in_one_order(&self) -> bool {
        ORDERS.into_iter().any(|order| self.in_order(order).list != self.list)
    }
}

/// Numbers that name no order. Some of them are 0 or 1 if bits are left out.
pub const UNKNOWN_ORDERS: [u32; 5] = [2, 3, 256, 1 << 31, u32::MAX];

/// How large the fields, gaps and lists of a random survey get.
#[derive(Clone, Copy)]
pub struct Size {
    pub fields: (u32, u32),
    pub gaps: Gaps,
    pub most_questions: u32,
}

/// Gaps are multiples of a stride.
#[derive(Clone, Copy)]
pub struct Gaps {
    pub stride: u32,
    pub most_strides: u32,
}

impl Gaps {
    /// Every gap up to a number of steps.
    pub const fn up_to(most_steps: u32) -> Gaps {
        Gaps { stride: 1, most_strides: most_steps }
    }

    /// A number of steps: at most two strides in half of all cases.
    fn steps(self, random: &mut Random) -> u32 {
        let most = if random.one_in(2) { self.most_strides.min(2) } else { self.most_strides };
        self.stride * random.below(most + 1)
    }
}

/// All sheets of a box can be tried.
pub const SMALL: Size = Size { fields: (0, 3), gaps: Gaps::up_to(2), most_questions: 8 };
/// Enough fields for facts to meet in many ways.
pub const MIDDLE: Size = Size { fields: (3, 6), gaps: Gaps::up_to(3), most_questions: 12 };
/// Gaps up to the limit of steps, of few sizes, so that the gaps of a path's facts add up to those of others.
pub const FAR: Size =
    Size { fields: (2, 6), gaps: Gaps { stride: MOST_STEPS / 3, most_strides: 3 }, most_questions: 12 };
/// Few fields with many questions and large gaps.
pub const TALL: Size = Size { fields: (1, 2), gaps: Gaps::up_to(MOST_STEPS), most_questions: MOST_QUESTIONS as u32 };
/// Many fields; few questions, so that the walk stays short.
pub const WIDE: Size = Size { fields: (9, MOST_FIELDS), gaps: Gaps::up_to(MOST_STEPS), most_questions: 9 };

pub const SIZES: [Size; 5] = [SMALL, MIDDLE, FAR, TALL, WIDE];

/// A question in its simplified form: the larger field left, steps on one side only, none left against zero.
pub fn question(random: &mut Random, n: u32, gaps: Gaps) -> [u32; 2] {
    let left = random.between(1, n);
    let right = random.below(left);
    let steps = gaps.steps(random);
    let steps_left = right != 0 && random.one_in(2);
    let (left_steps, right_steps) = if steps_left { (steps, 0) } else { (0, steps) };
    [Term { field: left, steps: left_steps }.word(), Term { field: right, steps: right_steps }.word()]
}

/// Two questions that the orders list differently: the left field is the same, and the one with more steps there has the smaller right
/// field. There are at least three fields.
fn told_apart(random: &mut Random, n: u32, gaps: Gaps) -> [[u32; 2]; 2] {
    let left = random.between(3, n);
    let right = random.between(2, left - 1);
    let more = random.between(1, gaps.most_strides);
    let fewer = random.below(more);
    let right_steps = if fewer == 0 { gaps.steps(random) } else { 0 };
    let term = |field: u32, steps: u32| Term { field, steps }.word();
    [
        [term(left, gaps.stride * more), term(random.between(1, right - 1), 0)],
        [term(left, gaps.stride * fewer), term(right, right_steps)],
    ]
}

/// The numbers that an order of questions compares, the first that differs deciding.
pub fn rank(order: u32, pair: &[u32; 2]) -> [u32; 4] {
    let [left, right] = pair.map(Term::of_word);
    if order == FIELDS_FIRST {
        [left.field, right.field, left.steps, right.steps]
    } else {
        [left.field, left.steps, right.field, right.steps]
    }
}

/// The list words of questions in an order, doubles left out.
pub fn in_order(order: u32, mut questions: Vec<[u32; 2]>) -> Vec<u32> {
    questions.sort_by_key(|pair| rank(order, pair));
    questions.dedup();
    questions.concat()
}

/// A survey that opening accepts.
pub fn survey(random: &mut Random, size: Size) -> Survey {
    let n = random.between(size.fields.0, size.fields.1);
    let wanted = if n == 0 { 0 } else { random.below(size.most_questions + 1) };
    let mut questions: Vec<[u32; 2]> = (0..wanted).map(|_| question(random, n, size.gaps)).collect();
    // By chance alone few lists are in one order only.
    if n > 2 && questions.len() > 1 && random.one_in(3) {
        questions.splice(..2, told_apart(random, n, size.gaps));
    }
    let order = *random.pick(&ORDERS);
    Survey { n, order, list: in_order(order, questions) }
}

/// A word of a small field with steps around 255 or around their limit.
fn edge_word(random: &mut Random) -> u32 {
    let steps = *random.pick(&[254, 255, 256, 257, MOST_STEPS - 1, MOST_STEPS, MOST_STEPS + 1, MOST_STEPS + 2]);
    Term { field: random.below(3), steps }.word()
}

/// A survey that opening mostly refuses.
pub fn faulty_survey(random: &mut Random) -> Survey {
    let size = *random.pick(&SIZES);
    let mut survey = survey(random, size);
    match random.below(14) {
        // Too many fields, or too few for the list.
        0 => survey.n = too_many_fields(random),
        1 => survey.n = random.below(survey.n + 1),
        // No such order, or the other one.
        2 => survey.order = *random.pick(&UNKNOWN_ORDERS),
        3 => survey.order = 1 - survey.order,
        // An odd number of words.
        4 => survey.list.push(random.word() % 600),
        // Many questions, all good.
        5 => (survey.n, survey.list) = (MOST_FIELDS, many_questions(random, survey.order)),
        // Several of these, of which the first that opening looks for counts.
        6 | 7 => {
            if random.one_in(4) {
                survey.list = many_questions(random, survey.order);
            }
            if random.one_in(2) {
                survey.n = too_many_fields(random);
            }
            if random.one_in(2) {
                survey.order = *random.pick(&UNKNOWN_ORDERS);
            }
            if random.one_in(2) {
                survey.list.push(random.word() % 600);
            }
        }
        _ => damage_list(random, &mut survey.list),
    }
    survey
}

/// More fields than the logger takes, mostly more than the institute does.
fn too_many_fields(random: &mut Random) -> u32 {
    *random.pick(&[LOGGER.fields + 1, LOGGER.fields + 2, 17, 18, 31, 32, u32::MAX])
}

/// The words of a good list, except that it mostly has more questions than the logger takes, or than the institute does.
fn many_questions(random: &mut Random, order: u32) -> Vec<u32> {
    let pairs = *random.pick(&[LOGGER.questions, LOGGER.questions + 1, 20, 21, 22, 40]);
    let questions = (0..4 * pairs).map(|_| question(random, MOST_FIELDS, Gaps::up_to(MOST_STEPS))).collect();
    let mut list = in_order(order, questions);
    list.truncate(2 * pairs);
    list
}

/// Puts a fault into the words of a good list.
fn damage_list(random: &mut Random, list: &mut Vec<u32>) {
    match random.below(5) {
        // A word at or beyond the limits of fields and steps.
        0 if !list.is_empty() => {
            let at = random.place(list.len());
            let longer = [MOST_STEPS, MOST_STEPS + 1].map(|steps| list[at] + 32 * steps);
            let word = edge_word(random);
            list[at] = *random.pick(&[word, word, 31, 17, 16, u32::MAX, longer[0], longer[1]]);
        }
        // Two questions exchanged.
        1 if list.len() > 3 => {
            let at = 2 * random.place(list.len() / 2 - 1);
            list.swap(at, at + 2);
            list.swap(at + 1, at + 3);
        }
        // A question turned round, written twice, with common steps, or with two equal sides.
        2 if !list.is_empty() => {
            let at = 2 * random.place(list.len() / 2);
            let pair = [list[at], list[at + 1]];
            match random.below(4) {
                0 => list.swap(at, at + 1),
                1 => list.splice(at..at, pair).for_each(drop),
                2 => list[at..at + 2].iter_mut().for_each(|word| *word += 32),
                _ => list[at + 1] = list[at],
            }
        }
        // One bit flipped.
        3 if !list.is_empty() => {
            let at = random.place(list.len());
            list[at] ^= 1 << random.below(16);
        }
        // Any small words.
        _ => *list = (0..random.below(50)).map(|_| random.word() % 70).collect(),
    }
}

/// An equation of a field, or of zero, with itself: always or never true.
pub fn with_itself(random: &mut Random, n: u32) -> [u32; 2] {
    let field = random.below(n + 1);
    let steps = if random.one_in(2) { 2 } else { MOST_STEPS + 1 };
    [0; 2].map(|_| Term { field, steps: random.below(steps) }.word())
}

/// How many steps more both sides of an equation can have within the limit.
pub fn spare_steps(pair: [u32; 2]) -> u32 {
    let [a, b] = pair.map(Term::of_word);
    MOST_STEPS.saturating_sub(a.steps.max(b.steps))
}

/// An equation with more steps on both sides.
pub fn raised(pair: [u32; 2], steps: u32) -> [u32; 2] {
    pair.map(|word| word + 32 * steps)
}

/// A pair of term words that simplifies to a question of the list, or to always or never.
fn equation(random: &mut Random, survey: &Survey) -> [u32; 2] {
    if survey.list.is_empty() || random.one_in(10) {
        return with_itself(random, survey.n);
    }
    let mut pair = *random.pick(survey.pairs());
    if random.one_in(2) {
        pair.reverse();
    }
    let common = if random.one_in(2) { 0 } else { random.below(spare_steps(pair) + 1) };
    raised(pair, common)
}

/// A rule table with the given number of rows, which build accepts if there is room.
pub fn rule_of(random: &mut Random, survey: &Survey, rows: usize) -> Vec<u32> {
    let mut table: Vec<[u32; 4]> = Vec::with_capacity(rows);
    for own in 0..rows as u32 {
        // Later rows mostly combine recent ones, so that the last row says something about many of them.
        let combine = own > 0 && (own + 1 == rows as u32 || !random.one_in(3));
        let mut earlier = || if random.one_in(3) { random.below(own) } else { own - 1 - random.below(own.min(4)) };
        let row = if combine {
            let (a, b, c) = (earlier(), earlier(), earlier());
            match random.below(5) {
                0 => [3, a, 0, 0],
                1 | 2 => [4, a, b, 0],
                _ => [5, a, b, c],
            }
        } else if random.one_in(12) {
            [random.below(2), 0, 0, 0]
        } else {
            let [a, b] = equation(random, survey);
            [2, a, b, 0]
        };
        table.push(row);
    }
    table.concat()
}

/// The rule that gives nearly every question of a list a certain answer, mostly no: a long path, on which any other answer
/// settles the rule, so that the walk is short however many questions there are.
pub fn long_path_rule(random: &mut Random, survey: &Survey) -> Vec<u32> {
    let mut table: Vec<[u32; 4]> = vec![[1, 0, 0, 0]];
    let mut left_out = 4;
    for pair in survey.list.chunks(2) {
        if left_out > 0 && random.one_in(8) {
            left_out -= 1;
            continue;
        }
        let whole = table.len() as u32 - 1;
        table.push([2, pair[0], pair[1], 0]);
        if !random.one_in(5) {
            table.push([3, whole + 1, 0, 0]);
        }
        table.push([4, whole, table.len() as u32 - 1, 0]);
    }
    table.concat()
}

/// The rule that an odd number of the list words' questions is true.
pub fn parity_rule(list: &[u32]) -> Vec<u32> {
    let mut table: Vec<[u32; 4]> = vec![[0; 4]];
    let mut odd = 0;
    for pair in list.chunks(2) {
        let own = table.len() as u32;
        table.extend([[2, pair[0], pair[1], 0], [3, odd, 0, 0], [5, own, own + 1, odd]]);
        odd = own + 2;
    }
    table.concat()
}

/// A rule table whose diagram is large: whether an odd number of random pairs of questions is true. The list isn't empty.
pub fn tangled_rule(random: &mut Random, survey: &Survey, rows: usize) -> Vec<u32> {
    let mut table: Vec<[u32; 4]> = survey.list.chunks(2).map(|pair| [2, pair[0], pair[1], 0]).collect();
    let questions = table.len() as u32;
    let mut odd = random.below(questions);
    while table.len() + 3 <= rows {
        let own = table.len() as u32;
        let pair = [4, random.below(questions), random.below(questions), 0];
        table.extend([pair, [3, own, 0, 0], [5, odd, own + 1, own]]);
        odd = own + 2;
    }
    table.concat()
}

/// A rule table that build accepts if there is room.
pub fn rule(random: &mut Random, survey: &Survey) -> Vec<u32> {
    let rows = match random.below(12) {
        0 => 1,
        1 => random.between(40, MOST_ROWS as u32),
        _ => random.between(1, 24),
    };
    rule_of(random, survey, rows as usize)
}

/// A rule table that build mostly refuses.
pub fn faulty_rule(random: &mut Random, survey: &Survey) -> Vec<u32> {
    let mut words = rule(random, survey);
    let row = 4 * random.place(words.len() / 4);
    let own = (row / 4) as u32;
    match random.below(13) {
        // No words, words that aren't whole rows, too many rows.
        0 => words.clear(),
        1 => words.truncate(words.len() - random.between(1, 3) as usize),
        2 => {
            let length = *random.pick(&[1028, 1032, 1025, 2048]);
            words.resize(length, 0);
        }
        // An unknown kind, or something in columns that may be unused.
        3 => words[row] = *random.pick(&[6, 7, 255, 256, u32::MAX]),
        4 => words[row + 3] ^= random.between(1, 9),
        5 => words[row + 2] ^= random.between(1, 9),
        // A reference that isn't lower.
        6 => words[row..row + 4].copy_from_slice(&[3, own + random.below(3), 0, 0]),
        7 => {
            words[row..row + 4].copy_from_slice(&[5, own / 2, own / 3, own / 4]);
            words[row + random.between(1, 3) as usize] = *random.pick(&[own, own + 1, u32::MAX]);
        }
        // A term at or beyond the limits.
        8 => {
            let [a, b] = equation(random, survey);
            words[row..row + 4].copy_from_slice(&[2, a, b, 0]);
            let column = random.between(1, 2) as usize;
            let word = edge_word(random);
            let longer = words[row + column] + 32 * (MOST_STEPS + 1);
            words[row + column] = *random.pick(&[survey.n + 1, 17, 31, word, word, u32::MAX, longer]);
        }
        // An equation of the list with steps more on both sides, one more than the limit allows.
        9 => {
            let pair = equation(random, survey);
            let [a, b] = raised(pair, spare_steps(pair) + 1);
            words[row..row + 4].copy_from_slice(&[2, a, b, 0]);
        }
        // An equation that is hardly on the list.
        10 | 11 => {
            let most = *random.pick(&[5, 5, MOST_STEPS]);
            let [a, b] = [0; 2].map(|_| Term { field: random.below(survey.n + 1), steps: random.below(most + 1) });
            words[row..row + 4].copy_from_slice(&[2, a.word(), b.word(), 0]);
        }
        // Bits flipped anywhere.
        _ => {
            for _ in 0..random.between(1, 3) {
                let at = random.place(words.len());
                words[at] ^= 1 << random.below(16);
            }
        }
    }
    words
}

/// A handle: mostly one that the store has, sometimes one that it hasn't.
pub fn handle(random: &mut Random, used: u32, known: &[u32]) -> u32 {
    match random.below(20) {
        0 => *random.pick(&[used.wrapping_add(2), used.wrapping_add(3), u32::MAX, u32::MAX - 1, 4098]),
        1..=4 => random.below(used % 5000 + FIRST_ENTRY),
        _ => *random.pick(known),
    }
}

/// The largest count on a sheet.
const MOST_COUNT: u32 = BLANK as u32 - 1;

/// A sheet to read: mostly of the right length, with counts at which the answers change, and with no, some or only blanks.
pub fn sheet(random: &mut Random, survey: &Survey) -> Vec<u16> {
    let mut sheet = counted_sheet(random, survey);
    match random.below(5) {
        0 | 1 => {}
        2 => sheet.fill(BLANK),
        _ => {
            for count in &mut sheet {
                if random.one_in(3) {
                    *count = BLANK;
                }
            }
        }
    }
    sheet
}

/// A sheet without blanks.
fn counted_sheet(random: &mut Random, survey: &Survey) -> Vec<u16> {
    let length = match random.below(12) {
        0 => random.below(20),
        1 => survey.n + 1,
        _ => survey.n.min(100),
    };
    let steps = survey.list.iter().map(|word| word / 32).max().unwrap_or(0);
    let largest = *random.pick(&[1, 2, steps + 1, 17 * (steps + 1)]);
    // Zero and the counts so far. Many a count stands above or below one of these by a gap of the list.
    let mut counts = vec![0_u32];
    for _ in 0..length {
        let count = match random.below(40) {
            0 => MOST_COUNT - random.below(2),
            1..=20 if !survey.list.is_empty() => {
                let (near, gap) = (*random.pick(&counts), random.pick(&survey.list) / 32);
                if random.one_in(3) {
                    near.saturating_sub(gap)
                } else {
                    (near + gap).min(MOST_COUNT)
                }
            }
            _ => random.below(largest + 1),
        };
        counts.push(count);
    }
    counts[1..].iter().map(|count| *count as u16).collect()
}

/// The number of words of a store: with room for no, few, many or more than all entries, and with words left over.
pub fn store_length(random: &mut Random, survey: &Survey) -> usize {
    let room = match random.below(10) {
        0 => random.below(3),
        1 | 2 => random.below(12),
        3 => 4096 + random.below(3),
        _ => random.between(60, 400),
    };
    HEADING + survey.list.len() + 3 * room as usize + random.place(3)
}

/// Up to so many different entries that the soundness conditions allow for a list of q questions; fewer if there are hardly as many.
/// A certain entry can be left out, and with it the one that has its handles exchanged.
pub fn sound_entries(random: &mut Random, q: u32, most: usize, without: Option<[u32; 3]>) -> Vec<[u32; 3]> {
    let mut entries: Vec<[u32; 3]> = Vec::new();
    let mut known: HashSet<[u32; 3]> =
        without.into_iter().flat_map(|[q, yes, no]| [[q, yes, no], [q, no, yes]]).collect();
    // Attempts that break a condition are dropped.
    for _ in 0..40 * most {
        if q == 0 || entries.len() == most {
            break;
        }
        let end = entries.len() as u32 + FIRST_ENTRY;
        let (yes, no) = (random.below(end), random.below(end));
        let asked = |handle: u32| handle.checked_sub(FIRST_ENTRY).map_or(q + 1, |i| entries[i as usize][0]);
        // A question a little before those of the two handles, so that many are left for entries to come.
        let before = asked(yes).min(asked(no)) - 1;
        if before > 0 && yes != no {
            let entry = [before - random.below(before.min(3)), yes, no];
            if known.insert(entry) {
                entries.push(entry);
            }
        }
    }
    entries
}

/// The words of a store with the given entries and no unused words.
pub fn store_of(survey: &Survey, entries: &[[u32; 3]]) -> Vec<u32> {
    let mut store = vec![survey.n, (survey.list.len() / 2) as u32, entries.len() as u32, survey.order];
    store.extend(&survey.list);
    store.extend(entries.as_flattened());
    store
}

/// A sound store that no operation need have written: its entries are any that the soundness conditions allow.
pub fn sound_store(random: &mut Random, survey: &Survey, most_entries: usize) -> Vec<u32> {
    let q = (survey.list.len() / 2) as u32;
    let mut store = store_of(survey, &sound_entries(random, q, most_entries, None));
    let unused = if random.one_in(3) { random.below(3) } else { random.below(900) };
    store.resize(store.len() + unused as usize, 0);
    store
}

/// What can be wrong with a store. Each breaks a soundness condition, if the store has what it takes and chance doesn't spare it.
#[derive(Clone, Copy, Debug)]
pub enum Fault {
    Fields,
    Questions,
    Used,
    UnknownOrder,
    OtherOrder,
    CutInList,
    CutInEntries,
    ListBit,
    ListTerm,
    NotSimplified,
    NotAscending,
    QuestionNumber,
    EqualHandles,
    HandleNotLower,
    QuestionNotLater,
    EqualEntries,
    UnusedWord,
    LastWord,
    AnyBits,
}

pub const FAULTS: [Fault; 19] = [
    Fault::Fields,
    Fault::Questions,
    Fault::Used,
    Fault::UnknownOrder,
    Fault::OtherOrder,
    Fault::CutInList,
    Fault::CutInEntries,
    Fault::ListBit,
    Fault::ListTerm,
    Fault::NotSimplified,
    Fault::NotAscending,
    Fault::QuestionNumber,
    Fault::EqualHandles,
    Fault::HandleNotLower,
    Fault::QuestionNotLater,
    Fault::EqualEntries,
    Fault::UnusedWord,
    Fault::LastWord,
    Fault::AnyBits,
];

/// Where the list and the used entries of a sound store stand.
fn parts(store: &[u32]) -> (Range<usize>, Range<usize>) {
    let list = HEADING..HEADING + 2 * store[1] as usize;
    let entries = list.end..list.end + 3 * store[2] as usize;
    (list, entries)
}

/// Puts a fault into a sound store; if it doesn't have what that takes, flips some bits.
pub fn damage(random: &mut Random, store: &mut Vec<u32>, fault: Fault) {
    let (list, entries) = parts(store);
    let (q, used) = (store[1], store[2]);
    match fault {
        Fault::Fields | Fault::Questions | Fault::Used | Fault::UnknownOrder | Fault::OtherOrder => {
            damage_heading(random, store, fault)
        }
        Fault::CutInList => store.truncate(random.place(list.end + 1)),
        Fault::CutInEntries => store.truncate(entries.end - random.between(1, 3) as usize),
        Fault::ListBit | Fault::ListTerm | Fault::NotSimplified if q > 0 => damage_questions(random, store, fault),
        Fault::NotAscending if q > 1 => damage_questions(random, store, fault),
        Fault::QuestionNumber | Fault::EqualHandles | Fault::HandleNotLower if used > 0 => {
            damage_entries(random, store, fault)
        }
        Fault::QuestionNotLater | Fault::EqualEntries if used > 1 => damage_entries(random, store, fault),
        Fault::UnusedWord if entries.end < store.len() => {
            let at = entries.end + random.place(store.len() - entries.end);
            store[at] = 1 << random.below(32);
        }
        Fault::LastWord if entries.end < store.len() => {
            let last = store.len() - 1;
            store[last] = random.word() | 1;
        }
        _ => {
            for _ in 0..random.between(1, 3) {
                let at = random.place(store.len().min(entries.end + 3));
                let bits = if random.one_in(4) { 32 } else { 4 };
                store[at] ^= 1 << random.below(bits);
            }
        }
    }
}

/// Changes a word of the heading. Some of the numbers, times two or three or plus a few, are small again in 32 bits; some are beyond the
/// logger's limits only.
fn damage_heading(random: &mut Random, store: &mut [u32], fault: Fault) {
    let (n, q, used, order) = (store[0], store[1], store[2], store[3]);
    match fault {
        Fault::Fields => store[0] = *random.pick(&[LOGGER.fields + 1, 17, 31, u32::MAX, n / 2]),
        Fault::Questions => {
            store[1] = *random.pick(&[LOGGER.questions as u32 + 1, 21, q + 1, q / 2, u32::MAX, 1 << 31, (1 << 31) + 1])
        }
        Fault::Used => {
            store[2] = *random.pick(&[
                used + 1,
                used / 2,
                LOGGER.entries as u32 + 1,
                4097,
                u32::MAX,
                1_431_655_766,
                2_863_311_531,
            ])
        }
        Fault::UnknownOrder => store[3] = *random.pick(&UNKNOWN_ORDERS),
        _ => store[3] = 1 - order,
    }
}

/// Changes the list, which has questions; two at least if they are to be out of order.
fn damage_questions(random: &mut Random, store: &mut [u32], fault: Fault) {
    let (list, _) = parts(store);
    let n = store[0];
    let at = list.start + random.place(list.len());
    match fault {
        Fault::ListBit => store[at] ^= 1 << random.below(16),
        Fault::ListTerm => store[at] = *random.pick(&[32 * (MOST_STEPS + 1), 31, n + 1, u32::MAX]),
        Fault::NotSimplified => {
            let at = list.start + 2 * random.place(list.len() / 2);
            store.swap(at, at + 1);
        }
        _ => {
            let at = list.start + 2 * random.place(list.len() / 2 - 1);
            if random.one_in(2) {
                store.swap(at, at + 2);
                store.swap(at + 1, at + 3);
            } else {
                store.copy_within(at..at + 2, at + 2);
            }
        }
    }
}

/// Changes an entry, of which there are some; two at least if one is to be compared with another.
fn damage_entries(random: &mut Random, store: &mut [u32], fault: Fault) {
    let (_, entries) = parts(store);
    let (q, used) = (store[1], store[2]);
    let place = random.below(used);
    let at = entries.start + 3 * place as usize;
    match fault {
        Fault::QuestionNumber => store[at] = *random.pick(&[0, q + 1, u32::MAX]),
        Fault::EqualHandles => store[at + 2] = store[at + 1],
        Fault::HandleNotLower => {
            let own = place + FIRST_ENTRY;
            store[at + random.between(1, 2) as usize] = *random.pick(&[own, own + 1, u32::MAX, u32::MAX - 1]);
        }
        Fault::QuestionNotLater => {
            // The last entry names another one, and asks the same question or a later one.
            let (named, last) = (random.below(used - 1), entries.end - 3);
            let question = store[entries.start + 3 * named as usize];
            store[last] = random.between(question, q);
            store[last + random.between(1, 2) as usize] = named + FIRST_ENTRY;
        }
        _ => store.copy_within(at..at + 3, entries.end - 3),
    }
}
