//! The fourteen operations, written a second time from documents 01 and 02, from document 000 where these cite it, and from nothing else.
//!
//! The proved library keeps the facts of a path as classes of fields with offsets. Nothing here does:
//!
//! - [`Plain`] has no facts at all. It first finds every combination of answers that some choice of counts gives to the list's
//!   questions; a question is forced if the combinations still possible agree on it. It finds them in one of two ways: by trying
//!   all counts up to a bound, or by bounds on the differences of counts, worked out anew for each combination.
//! - [`Fast`] walks with difference bounds that it keeps up to date, and finds entries by hashing. It is what a benchmark compares with.
//!
//! The library inserts the questions of a raw list one by one where they belong. [`Plain`] makes a set of them, and sorts it by the numbers
//! that an order compares; [`Fast`] sorts them with their doubles, each beside these numbers, and drops what is equal to the one before.
//!
//! The library reads a sheet with blanks by the facts that its counts are. [`Plain`] tries all fillings of the blanks up to a bound, or asks of
//! each possible combination of answers whether the counts on the sheet go together with it by their bounds; [`Fast`] searches the diagram from
//! the bounds that the counts give.
//!
//! [`Plain`] and [`Fast`] simplify in one go. [`Guard::cases`] are the lines by which simplification is defined, for any order of them.
//!
//! Tables of diagrams are checked by [`Plain`] as trees, with [`Paths`] to look for a sheet on every path, and by [`Fast`] with the set of
//! entries below each handle.
//!
//! The two share the limits, the numbers of orders, refusals and blanks and the term words below, and nothing else.

mod case_by_case;
mod fast;
mod normal_form;
mod plain;
mod trees;

pub use case_by_case::Guard;
pub use fast::Fast;
pub use normal_form::{rules_that_apply, NormalFormRule, NORMAL_FORM_RULES};
pub use plain::{fillings, largest_count, Plain, Question, Truths};
pub use plain::{possible_by_bounds, possible_by_counting, sheets_by_bounds, sheets_by_counting};
pub use trees::{leaves, Path, Paths};

/// The largest number of fields of a sheet.
pub const MOST_FIELDS: u32 = 16;
/// The largest number of steps of a term.
pub const MOST_STEPS: u32 = 1023;
/// The largest number of steps of a term in a table of diagrams.
pub const MOST_CHECKED_STEPS: u32 = 4095;
/// The largest number of questions in a list.
pub const MOST_QUESTIONS: usize = 20;
/// The largest number of equations in a raw list.
pub const MOST_EQUATIONS: usize = 64;
/// The largest number of entries in a store, and in a table of diagrams.
pub const MOST_ENTRIES: usize = 4096;

/// How large a store can be. Opening, the test of a store and building are written once, for any limits up to the largest numbers above.
#[derive(Clone, Copy, Debug, PartialEq, Eq)]
pub struct Limits {
    pub fields: u32,
    pub steps: u32,
    pub questions: usize,
    pub entries: usize,
}

/// The institute's limits, document 01's. They are the largest numbers.
pub const INSTITUTE: Limits =
    Limits { fields: MOST_FIELDS, steps: MOST_STEPS, questions: MOST_QUESTIONS, entries: MOST_ENTRIES };
/// The limits of the deck logger's book, document 02's (xi), which leaves the steps as they are.
pub const LOGGER: Limits = Limits { fields: 6, steps: MOST_STEPS, questions: 8, entries: 200 };

/// What stands on a sheet in a field that was not counted.
pub const BLANK: u16 = 65_535;

/// The largest number of rows of a rule table.
pub const MOST_ROWS: usize = 256;
/// The words of a store before its list: n, the number of questions, the entries used, the order.
pub const HEADING: usize = 4;

/// Document 01's order of questions: left field, right field, left steps, right steps.
pub const FIELDS_FIRST: u32 = 0;
/// The older books' order of questions: left field, left steps, right field, right steps.
pub const LEFT_FIRST: u32 = 1;
/// Every order.
pub const ORDERS: [u32; 2] = [FIELDS_FIRST, LEFT_FIRST];

/// The handle of the leaf never.
pub const NEVER: u32 = 0;
/// The handle of the leaf always.
pub const ALWAYS: u32 = 1;
/// The handle of the first entry.
pub const FIRST_ENTRY: u32 = 2;

/// The refusal numbers of documents 01 and 02, each under the condition that it stands for.
pub mod refusal {
    pub const TOO_MANY_FIELDS: u32 = 11;
    pub const ODD_LIST: u32 = 12;
    pub const TOO_MANY_QUESTIONS: u32 = 13;
    pub const LIST_TERM: u32 = 14;
    pub const NOT_SIMPLIFIED: u32 = 15;
    pub const NOT_ASCENDING: u32 = 16;
    pub const TOO_MANY_EQUATIONS: u32 = 17;
    pub const UNKNOWN_ORDER: u32 = 18;
    pub const STORE_TOO_SHORT: u32 = 21;
    pub const NOT_SOUND: u32 = 22;
    pub const SLICE_LENGTH: u32 = 23;
    pub const NO_ROWS: u32 = 31;
    pub const BROKEN_ROW: u32 = 32;
    pub const TOO_MANY_ROWS: u32 = 33;
    pub const BAD_ROW: u32 = 34;
    pub const RULE_TERM: u32 = 35;
    pub const NOT_LISTED: u32 = 36;
    pub const NO_SUCH_HANDLE: u32 = 41;
    pub const NO_ROOM: u32 = 51;
    pub const NOTHING_SATISFIES: u32 = 52;
    pub const TOO_LARGE_TO_WRITE: u32 = 53;
    pub const TABLE_SHAPE: u32 = 81;
    pub const TABLE_EQUATION: u32 = 82;
    pub const HANDLE_NOT_LOWER: u32 = 83;
    pub const EQUAL_ENTRIES: u32 = 84;
    pub const NOT_REACHABLE: u32 = 85;
    pub const NOT_NORMAL_FORM: u32 = 86;

    /// Every refusal number.
    pub const ALL: [u32; 27] = [
        TOO_MANY_FIELDS,
        ODD_LIST,
        TOO_MANY_QUESTIONS,
        LIST_TERM,
        NOT_SIMPLIFIED,
        NOT_ASCENDING,
        TOO_MANY_EQUATIONS,
        UNKNOWN_ORDER,
        STORE_TOO_SHORT,
        NOT_SOUND,
        SLICE_LENGTH,
        NO_ROWS,
        BROKEN_ROW,
        TOO_MANY_ROWS,
        BAD_ROW,
        RULE_TERM,
        NOT_LISTED,
        NO_SUCH_HANDLE,
        NO_ROOM,
        NOTHING_SATISFIES,
        TOO_LARGE_TO_WRITE,
        TABLE_SHAPE,
        TABLE_EQUATION,
        HANDLE_NOT_LOWER,
        EQUAL_ENTRIES,
        NOT_REACHABLE,
        NOT_NORMAL_FORM,
    ];
}

/// What an operation answers: number 0 and a result, or a refusal number and 0.
#[derive(Clone, Copy, Debug, PartialEq, Eq)]
pub struct Answer {
    pub number: u32,
    pub result: u32,
}

impl From<Result<u32, u32>> for Answer {
    fn from(outcome: Result<u32, u32>) -> Answer {
        match outcome {
            Ok(result) => Answer { number: 0, result },
            Err(number) => Answer { number, result: 0 },
        }
    }
}

/// What simplify answers. The words and the gap are zero unless the result is 2, a question.
#[derive(Clone, Copy, Debug, Default, PartialEq, Eq)]
pub struct SimplifyAnswer {
    pub number: u32,
    pub result: u32,
    pub left: u32,
    pub right: u32,
    pub gap: i32,
}

/// The fourteen operations over lent words. Each way of doing them has this form, so that they can be compared call by call.
pub trait Operations {
    fn simplify(&self, a: u32, b: u32) -> SimplifyAnswer;
    fn open(&self, n: u32, order: u32, list: &[u32], store: &mut [u32]) -> Answer;
    fn open_raw(&self, n: u32, order: u32, raw: &[u32], store: &mut [u32]) -> Answer;
    fn build(&self, store: &mut [u32], rule: &[u32]) -> Answer;
    fn logger_open(&self, n: u32, order: u32, list: &[u32], store: &mut [u32]) -> Answer;
    fn logger_build(&self, store: &mut [u32], rule: &[u32]) -> Answer;
    fn negate(&self, store: &mut [u32], a: u32) -> Answer;
    fn join(&self, store: &mut [u32], a: u32, b: u32) -> Answer;
    fn choose(&self, store: &mut [u32], a: u32, b: u32, c: u32) -> Answer;
    fn verdict(&self, store: &[u32], a: u32) -> Answer;
    fn example(&self, store: &[u32], a: u32, sheet: &mut [u16]) -> Answer;
    fn read(&self, store: &[u32], a: u32, sheet: &[u16]) -> Answer;
    fn write_back(&self, store: &[u32], a: u32, rule: &mut [u32]) -> Answer;
    fn check_normal_form(&self, table: &[u32], root: u32) -> Answer;
}

/// A term: a field's count plus steps. Field 0 is zero.
#[derive(Clone, Copy, Debug, PartialEq, Eq, PartialOrd, Ord, Hash)]
pub struct Term {
    pub field: u32,
    pub steps: u32,
}

impl Term {
    /// The term that a word stands for. Nothing is masked: a word may name a field or steps above every limit.
    pub fn of_word(word: u32) -> Term {
        Term { field: word % 32, steps: word / 32 }
    }

    pub fn word(self) -> u32 {
        self.steps * 32 + self.field
    }

    /// Whether the field is one of n, or zero, and the steps are within the limits.
    pub fn within(self, limits: &Limits, n: u32) -> bool {
        self.field <= n && self.steps <= limits.steps
    }
}
