use std::error::Error;
use std::fmt;

/// Why a call was refused. A refused call changes nothing.
///
/// ```
/// use sheet::{Field, Order, Refusal, Store};
///
/// let refusal = Store::open(1, Order::FieldsFirst, [Field(2).equals(Field(1))], 10).unwrap_err();
/// assert_eq!(refusal, Refusal::ListTerm);
/// assert_eq!(refusal.number(), 14);
/// assert_eq!(
///     refusal.to_string(),
///     "a term of the list has a field above the sheet's last one, or more than 1,023 steps"
/// );
/// ```
#[derive(Clone, Copy, Debug, PartialEq, Eq, Hash)]
#[repr(u32)]
pub enum Refusal {
    /// 11: more than 16 fields, in a [`LoggerStore`](crate::LoggerStore) more than 6.
    TooManyFields = 11,
    /// 12: an odd number of list words.
    OddList = 12,
    /// 13: more than 20 questions, of raw equations more than 20 that remain, in a [`LoggerStore`](crate::LoggerStore) more than 8.
    TooManyQuestions = 13,
    /// 14: a field above n or steps above 1,023 in the list.
    ListTerm = 14,
    /// 15: an equation of the list that isn't a simplified question. [`Store::open_raw`](crate::Store::open_raw) simplifies it.
    NotSimplified = 15,
    /// 16: a question that isn't strictly above the one before it in the list's order.
    /// [`Store::open_raw`](crate::Store::open_raw) sorts, and leaves doubles out.
    NotAscending = 16,
    /// 17: more than 64 equations for [`Store::open_raw`](crate::Store::open_raw), doubles and what is always or never among them.
    TooManyEquations = 17,
    /// 18: an order that is neither 0 nor 1. An [`Order`](crate::Order) is always one of them, so only
    /// [`words::open`](crate::words::open), [`words::open_raw`](crate::words::open_raw) and
    /// [`words::logger_open`](crate::words::logger_open) can give this.
    UnknownOrder = 18,
    /// 21: a store shorter than its heading and list.
    StoreTooShort = 21,
    /// 22: words that aren't a sound store, or that are one beyond the limits of a [`LoggerStore`](crate::LoggerStore) and were to be one.
    NotSound = 22,
    /// 23: a sheet that isn't n counts long, or too few words to write a rule back.
    SliceLength = 23,
    /// 31: a rule table without words.
    NoRows = 31,
    /// 32: words of a rule table that aren't whole rows.
    BrokenRow = 32,
    /// 33: more than 256 rows.
    TooManyRows = 33,
    /// 34: an unknown kind of row, a nonzero unused column, or a reference that isn't to a lower row.
    BadRow = 34,
    /// 35: a field above n or steps above 1,023 in a rule, or in an equation to be simplified.
    RuleTerm = 35,
    /// 36: an equation that is neither always nor never nor on the list.
    NotListed = 36,
    /// 41: a handle that the store doesn't have.
    NoSuchHandle = 41,
    /// 51: more new entries than there is room for, by the store's words, or by the limit of 4,096 entries, in a
    /// [`LoggerStore`](crate::LoggerStore) of 200.
    NoRoom = 51,
    /// 52: an example of a rule that nothing satisfies.
    NothingSatisfies = 52,
    /// 53: a rule that takes more than 256 rows to write back.
    TooLargeToWrite = 53,
    /// 81: words of a table of diagrams that aren't whole entries, more than 4,096 entries, or a root that the table doesn't have.
    TableShape = 81,
    /// 82: a field above 16, steps above 4,095, or an equation that isn't simplified in a table of diagrams.
    TableEquation = 82,
    /// 83: an entry that names a handle not lower than its own.
    HandleNotLower = 83,
    /// 84: two equal entries of a table of diagrams.
    EqualEntries = 84,
    /// 85: an entry that isn't reachable from the root.
    NotReachable = 85,
    /// 86: a diagram that isn't in normal form.
    NotNormalForm = 86,
}

impl Refusal {
    /// Every refusal, in the order of the numbers.
    pub const ALL: [Refusal; 27] = [
        Refusal::TooManyFields,
        Refusal::OddList,
        Refusal::TooManyQuestions,
        Refusal::ListTerm,
        Refusal::NotSimplified,
        Refusal::NotAscending,
        Refusal::TooManyEquations,
        Refusal::UnknownOrder,
        Refusal::StoreTooShort,
        Refusal::NotSound,
        Refusal::SliceLength,
        Refusal::NoRows,
        Refusal::BrokenRow,
        Refusal::TooManyRows,
        Refusal::BadRow,
        Refusal::RuleTerm,
        Refusal::NotListed,
        Refusal::NoSuchHandle,
        Refusal::NoRoom,
        Refusal::NothingSatisfies,
        Refusal::TooLargeToWrite,
        Refusal::TableShape,
        Refusal::TableEquation,
        Refusal::HandleNotLower,
        Refusal::EqualEntries,
        Refusal::NotReachable,
        Refusal::NotNormalForm,
    ];

    /// The refusal's number.
    pub fn number(self) -> u32 {
        self as u32
    }

    /// The refusal with a number, if there is one.
    ///
    /// ```
    /// use sheet::Refusal;
    ///
    /// assert_eq!(Refusal::from_number(51), Some(Refusal::NoRoom));
    /// assert_eq!(Refusal::from_number(0), None);
    /// assert!(Refusal::ALL.iter().all(|refusal| Refusal::from_number(refusal.number()) == Some(*refusal)));
    /// ```
    pub fn from_number(number: u32) -> Option<Refusal> {
        Refusal::ALL.into_iter().find(|refusal| refusal.number() == number)
    }
}

impl fmt::Display for Refusal {
    fn fmt(&self, f: &mut fmt::Formatter<'_>) -> fmt::Result {
        f.write_str(match self {
            Refusal::TooManyFields => "a sheet has at most 16 fields, and one of the deck logger at most 6",
            Refusal::OddList => "the list has an odd number of words, but each question takes two",
            Refusal::TooManyQuestions => "a list has at most 20 questions, and one of the deck logger at most 8",
            Refusal::ListTerm => "a term of the list has a field above the sheet's last one, or more than 1,023 steps",
            Refusal::NotSimplified => "an equation of the list is not a simplified question",
            Refusal::NotAscending => {
                "the list is not in its order: each question must stand above the one before it, by left field, right field, left \
                 steps, right steps in order 0, and by left field, left steps, right field, right steps in order 1"
            }
            Refusal::TooManyEquations => {
                "there are more than 64 equations to open a store for, doubles and those that are always or never true among them"
            }
            Refusal::UnknownOrder => {
                "the order is neither 0 (by left field, right field, left steps, right steps) nor 1 (by left field, left steps, right \
                 field, right steps)"
            }
            Refusal::StoreTooShort => "the store has too few words for its heading and its list of questions",
            Refusal::NotSound => {
                "the words are not a sound store, or they are for the deck logger and have more than 6 fields, 8 questions or 200 used entries"
            }
            Refusal::SliceLength => "the sheet does not have one count for each field, or the rule does not fit the words lent for it",
            Refusal::NoRows => "the rule has no rows",
            Refusal::BrokenRow => "the rule's words are not whole rows of four",
            Refusal::TooManyRows => "a rule has at most 256 rows",
            Refusal::BadRow => {
                "a row of the rule has an unknown kind, something in an unused column, or a reference to a row that is not lower"
            }
            Refusal::RuleTerm => "a term has a field above the sheet's last one, or more than 1,023 steps",
            Refusal::NotListed => "an equation of the rule is not on the store's list of questions",
            Refusal::NoSuchHandle => "the store has no such handle",
            Refusal::NoRoom => {
                "the store has no room for the rule's diagram: its words are too few, or its entries would be more than 4,096, in a store \
                 of the deck logger more than 200"
            }
            Refusal::NothingSatisfies => "no sheet satisfies the rule",
            Refusal::TooLargeToWrite => "the rule takes more than 256 rows to write",
            Refusal::TableShape => {
                "the table's words are not whole entries of four, it has more than 4,096 entries, or the root is none of its handles"
            }
            Refusal::TableEquation => {
                "an entry of the table has a field above 16, more than 4,095 steps, or an equation that is not simplified \
                 (the larger field left, steps on one side at most, none left against zero)"
            }
            Refusal::HandleNotLower => "an entry of the table names a handle that is not lower than its own",
            Refusal::EqualEntries => "two entries of the table are equal",
            Refusal::NotReachable => "the root's diagram does not use every entry of the table",
            Refusal::NotNormalForm => {
                "the diagram is not in normal form: an entry's two parts are the same, or a part begins with an equation that \
                 is not above the entry's, or the yes part names the left field of the entry's equation again"
            }
        })
    }
}

impl Error for Refusal {}

/// An answer as a Result.
pub(crate) fn outcome(number: u32, result: u32) -> Result<u32, Refusal> {
    match Refusal::from_number(number) {
        Some(refusal) => Err(refusal),
        None => {
            assert_eq!(number, 0, "the library gives no other number");
            Ok(result)
        }
    }
}
