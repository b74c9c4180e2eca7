//! The fourteen operations on lent words, as C has them but with slices: no call can be given overlapping, dangling or wrongly measured memory.
//!
//! Every call is safe on any words whatever: the library is proved for all of them, and refuses what it can't work with. What the
//! words and numbers mean stands at [`Store`](crate::Store), [`LoggerStore`](crate::LoggerStore), [`Order`](crate::Order),
//! [`RuleTable`](crate::RuleTable), [`DiagramTable`](crate::DiagramTable) and [`Refusal`](crate::Refusal).
//!
//! ```
//! use sheet::words;
//!
//! // Three fields, the questions 2 = 1, 3 = 1, 3 = 2 in order 0, room for four entries; then the rule 3 = 2.
//! let mut store = [0; 22];
//! assert_eq!(words::open(3, 0, &[2, 1, 3, 1, 3, 2], &mut store).number, 0);
//! let answer = words::build(&mut store, &[2, 3, 2, 0]);
//! assert_eq!((answer.number, answer.result), (0, 5));
//! ```
//!
//! Memory that overlaps what a call writes is refused by the compiler, here a list inside of the store:
//!
//! ```compile_fail,E0502
//! let mut store = vec![0; 20];
//! sheet::words::open(1, 0, &store[4..6], &mut store);
//! ```

/// An answer: number 0 and a result, or a refusal's number and 0.
#[derive(Clone, Copy, Debug, PartialEq, Eq)]
#[repr(C)]
pub struct Answer {
    /// 0 if the call was accepted, else the refusal's number.
    pub number: u32,
    /// What the call answers; 0 if it names no result or was refused.
    pub result: u32,
}

/// The answer of [`simplify`]. The result is 0 for never, 1 for always, 2 for a question; then and only then there are words and a gap.
#[derive(Clone, Copy, Debug, PartialEq, Eq)]
#[repr(C)]
pub struct SimplifyAnswer {
    /// 0 if the call was accepted, else the refusal's number.
    pub number: u32,
    /// 0 never, 1 always, 2 a question.
    pub result: u32,
    /// The question's left word.
    pub left: u32,
    /// The question's right word.
    pub right: u32,
    /// Right steps minus left steps.
    pub gap: i32,
}

/// What stands on a sheet in a field that was not counted. It is no count.
pub const BLANK: u16 = 65_535;

/// The declarations of include/sheet.h.
mod c {
    use super::{Answer, SimplifyAnswer};

    extern "C" {
        pub fn sheet_simplify(a: u32, b: u32) -> SimplifyAnswer;
        pub fn sheet_open(
            n: u32,
            order: u32,
            list: *const u32,
            list_len: usize,
            store: *mut u32,
            store_len: usize,
        ) -> Answer;
        pub fn sheet_open_raw(
            n: u32,
            order: u32,
            list: *const u32,
            list_len: usize,
            store: *mut u32,
            store_len: usize,
        ) -> Answer;
        pub fn sheet_build(store: *mut u32, store_len: usize, rule: *const u32, rule_len: usize) -> Answer;
        pub fn sheet_logger_open(
            n: u32,
            order: u32,
            list: *const u32,
            list_len: usize,
            store: *mut u32,
            store_len: usize,
        ) -> Answer;
        pub fn sheet_logger_build(store: *mut u32, store_len: usize, rule: *const u32, rule_len: usize) -> Answer;
        pub fn sheet_negate(store: *mut u32, store_len: usize, a: u32) -> Answer;
        pub fn sheet_join(store: *mut u32, store_len: usize, a: u32, b: u32) -> Answer;
        pub fn sheet_choose(store: *mut u32, store_len: usize, a: u32, b: u32, c: u32) -> Answer;
        pub fn sheet_verdict(store: *const u32, store_len: usize, a: u32) -> Answer;
        pub fn sheet_example(store: *const u32, store_len: usize, a: u32, sheet: *mut u16, sheet_len: usize) -> Answer;
        pub fn sheet_read(store: *const u32, store_len: usize, a: u32, sheet: *const u16, sheet_len: usize) -> Answer;
        pub fn sheet_write_back(store: *const u32, store_len: usize, a: u32, rule: *mut u32, rule_len: usize)
            -> Answer;
        pub fn sheet_check_normal_form(table: *const u32, table_len: usize, root: u32) -> Answer;
    }
}

// In each call below the pointers come from slices, so they are aligned and cover as many elements as the length says; and slices that
// are borrowed at the same time, one of them to be written, don't overlap. The library asks for nothing else, and keeps no pointer.

/// Simplifies the equation of two term words.
pub fn simplify(a: u32, b: u32) -> SimplifyAnswer {
    // SAFETY: no memory is lent.
    unsafe { c::sheet_simplify(a, b) }
}

/// Opens a store for n fields and a list of questions in an order, two term words each.
pub fn open(n: u32, order: u32, list: &[u32], store: &mut [u32]) -> Answer {
    // SAFETY: pointers and lengths are those of borrowed slices.
    unsafe { c::sheet_open(n, order, list.as_ptr(), list.len(), store.as_mut_ptr(), store.len()) }
}

/// Opens a store for n fields and a list of equations as they come, two term words each: they are simplified, what is always or never is
/// dropped, doubles are left out, and the rest is sorted into the order.
///
/// ```
/// use sheet::words;
///
/// // 1 = 2, S(2) = S(1) and 1 = 1 leave one question, 2 = 1.
/// let mut store = [7; 6];
/// assert_eq!(words::open_raw(2, 0, &[1, 2, 34, 33, 1, 1], &mut store).number, 0);
/// assert_eq!(store, [2, 1, 0, 0, 2, 1]);
/// ```
pub fn open_raw(n: u32, order: u32, raw: &[u32], store: &mut [u32]) -> Answer {
    // SAFETY: pointers and lengths are those of borrowed slices.
    unsafe { c::sheet_open_raw(n, order, raw.as_ptr(), raw.len(), store.as_mut_ptr(), store.len()) }
}

/// Adds the finished diagram of a rule table. The result is its handle.
pub fn build(store: &mut [u32], rule: &[u32]) -> Answer {
    // SAFETY: pointers and lengths are those of borrowed slices.
    unsafe { c::sheet_build(store.as_mut_ptr(), store.len(), rule.as_ptr(), rule.len()) }
}

/// Opens a store of the deck logger, with its smaller limits of fields and questions.
///
/// ```
/// use sheet::words;
///
/// let mut store = [0; 4];
/// assert_eq!(words::logger_open(7, 0, &[], &mut store).number, 11);
/// assert_eq!(words::logger_open(6, 0, &[], &mut store).number, 0);
/// assert_eq!(store, [6, 0, 0, 0]);
/// ```
pub fn logger_open(n: u32, order: u32, list: &[u32], store: &mut [u32]) -> Answer {
    // SAFETY: pointers and lengths are those of borrowed slices.
    unsafe { c::sheet_logger_open(n, order, list.as_ptr(), list.len(), store.as_mut_ptr(), store.len()) }
}

/// Adds the finished diagram of a rule table to a store that is within the deck logger's limits. The result is its handle.
pub fn logger_build(store: &mut [u32], rule: &[u32]) -> Answer {
    // SAFETY: pointers and lengths are those of borrowed slices.
    unsafe { c::sheet_logger_build(store.as_mut_ptr(), store.len(), rule.as_ptr(), rule.len()) }
}

/// Adds the finished diagram of "not a". The result is its handle.
pub fn negate(store: &mut [u32], a: u32) -> Answer {
    // SAFETY: pointer and length are those of a borrowed slice.
    unsafe { c::sheet_negate(store.as_mut_ptr(), store.len(), a) }
}

/// Adds the finished diagram of "a and b". The result is its handle.
pub fn join(store: &mut [u32], a: u32, b: u32) -> Answer {
    // SAFETY: pointer and length are those of a borrowed slice.
    unsafe { c::sheet_join(store.as_mut_ptr(), store.len(), a, b) }
}

/// Adds the finished diagram of "if a then b else c". The result is its handle.
pub fn choose(store: &mut [u32], a: u32, b: u32, c: u32) -> Answer {
    // SAFETY: pointer and length are those of a borrowed slice.
    unsafe { c::sheet_choose(store.as_mut_ptr(), store.len(), a, b, c) }
}

/// Whether a handle is satisfied never (0), always (1) or sometimes (2).
pub fn verdict(store: &[u32], a: u32) -> Answer {
    // SAFETY: pointer and length are those of a borrowed slice.
    unsafe { c::sheet_verdict(store.as_ptr(), store.len(), a) }
}

/// Writes the least sheet that satisfies a handle, field 1 compared first. No count of it is [`BLANK`].
pub fn example(store: &[u32], a: u32, sheet: &mut [u16]) -> Answer {
    // SAFETY: pointers and lengths are those of borrowed slices.
    unsafe { c::sheet_example(store.as_ptr(), store.len(), a, sheet.as_mut_ptr(), sheet.len()) }
}

/// Whether a sheet, on which fields may be [`BLANK`], satisfies a handle: 1 if every filling of the blanks with natural numbers does, each
/// by itself, 0 if none does, 2 otherwise. Without blanks it is 1 or 0.
///
/// ```
/// use sheet::words::{read, BLANK};
///
/// // 2 = S3(1) is handle 2. With 65,534 in field 1, field 2 may be 65,537; and it is never 2.
/// let store = [2, 1, 1, 0, 2, 97, 1, 1, 0];
/// assert_eq!(read(&store, 2, &[65_534, BLANK]).result, 2);
/// assert_eq!(read(&store, 2, &[BLANK, 2]).result, 0);
/// ```
pub fn read(store: &[u32], a: u32, sheet: &[u16]) -> Answer {
    // SAFETY: pointers and lengths are those of borrowed slices.
    unsafe { c::sheet_read(store.as_ptr(), store.len(), a, sheet.as_ptr(), sheet.len()) }
}

/// Writes a rule table for a handle. The result is the number of rows.
pub fn write_back(store: &[u32], a: u32, rule: &mut [u32]) -> Answer {
    // SAFETY: pointers and lengths are those of borrowed slices.
    unsafe { c::sheet_write_back(store.as_ptr(), store.len(), a, rule.as_mut_ptr(), rule.len()) }
}

/// Checks that a table is one diagram in normal form, from its root down. The result is the root's verdict: 0, 1 or 2.
pub fn check_normal_form(table: &[u32], root: u32) -> Answer {
    // SAFETY: pointer and length are those of a borrowed slice.
    unsafe { c::sheet_check_normal_form(table.as_ptr(), table.len(), root) }
}
