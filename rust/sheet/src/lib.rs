//! Rules over counts as decision diagrams with one handle per meaning.
//!
//! A sheet has up to 16 fields, each with a [count](Count), or without one where nothing was counted. A rule is a Boolean combination of
//! equations between fields, numbers and fields plus steps. A [`Store`] is opened for a list of questions, which stand in one of two
//! [orders](Order), or for equations [as they come](Store::open_raw), and holds the diagrams of rules over these questions: two rules have
//! the same [`Handle`] exactly if they agree under every choice of counts.
//!
//! The work is done by a library that is proved to do what it promises; this crate gives it Rust's types. What C's callers have to
//! see to (that lent memory is there, is as long as they say, and doesn't overlap) can't go wrong here. The library keeps nothing between
//! calls, so stores can be used from several threads. A call takes less than 65,536 bytes of stack (measured: at most 49,400).
//!
//! ```
//! use sheet::{Count, Field, Order, Reading, Rule, Store, Verdict, ZERO};
//!
//! // Three counts of the same group: a first count, a second one, and a recount.
//! let (first, second, recount) = (Field(1), Field(2), Field(3));
//! let questions = [second.equals(first), recount.equals(first), recount.equals(second)];
//! let mut store = Store::open(3, Order::FieldsFirst, questions, 100)?;
//!
//! let agree = store.build(&(Rule::from(second.equals(first)) & recount.equals(second).into()))?;
//! let other_words = store.build(&(Rule::from(recount.equals(first)) & recount.equals(second).into()))?;
//! assert_eq!(agree, other_words);
//! assert_eq!(store.verdict(agree)?, Verdict::Sometimes);
//!
//! // Where the first two counts agree, and the last two, the outer two can't differ.
//! let outer_differ = store.build(&!Rule::from(recount.equals(first)))?;
//! let impossible = store.join(agree, outer_differ)?;
//! assert_eq!(store.verdict(impossible)?, Verdict::Never);
//!
//! // The least sheet on which the counts don't all agree, the first field compared first.
//! let differ = store.negate(agree)?;
//! assert_eq!(store.example(differ)?, [0, 0, 1]);
//! assert!(store.read_counted(differ, &[4_u8, 5, 4].map(Count::from))?);
//!
//! // With the second count missing, they may all agree or not.
//! assert_eq!(store.read(differ, &[Some(Count::from(4)), None, Some(Count::from(4))])?, Reading::Depends);
//!
//! // A question that the store wasn't opened for is refused.
//! let refusal = store.build(&Rule::from(first.equals(ZERO + 2))).unwrap_err();
//! assert_eq!(refusal.to_string(), "an equation of the rule is not on the store's list of questions");
//! # Ok::<(), sheet::Refusal>(())
//! ```
//!
//! Diagrams that another tool has made are checked as a [`DiagramTable`], without a store. The deck logger has smaller
//! [limits](Limits): it opens and builds a [`LoggerStore`], which a [`Store`] can be made of.

#![warn(missing_docs)]

mod count;
mod limits;
mod logger;
mod normal_form;
mod order;
mod refusal;
mod rule;
mod store;
mod term;
pub mod words;

pub use count::{Count, NotACount};
pub use limits::Limits;
pub use logger::LoggerStore;
pub use normal_form::{DiagramEntry, DiagramTable};
pub use order::Order;
pub use refusal::Refusal;
pub use rule::{Row, RowNumber, Rule, RuleTable};
pub use store::{Entry, Handle, Reading, Store, Verdict};
pub use term::{Equation, Field, Question, Simplified, Steps, Term, ZERO};
