/// How large a store can be. All else is the same in every store: up to 1,023 steps in a term, and 256 rows in a rule.
///
/// ```
/// use sheet::{Limits, LoggerStore, Order, Question, Refusal, Store};
///
/// let none: [Question; 0] = [];
/// let fields = Limits::LOGGER.fields + 1;
/// assert_eq!(LoggerStore::open(fields, Order::FieldsFirst, none, 0), Err(Refusal::TooManyFields));
/// assert!(Store::open(fields, Order::FieldsFirst, none, 0).is_ok());
/// ```
#[derive(Clone, Copy, Debug, PartialEq, Eq)]
pub struct Limits {
    /// The most fields of a sheet.
    pub fields: u32,
    /// The most questions of a list.
    pub questions: usize,
    /// The most entries, however many words a store has.
    pub entries: usize,
}

impl Limits {
    /// The institute's limits, those of a [`Store`](crate::Store).
    pub const INSTITUTE: Limits = Limits { fields: 16, questions: 20, entries: 4096 };
    /// The deck logger's limits, those of a [`LoggerStore`](crate::LoggerStore).
    pub const LOGGER: Limits = Limits { fields: 6, questions: 8, entries: 200 };
}
