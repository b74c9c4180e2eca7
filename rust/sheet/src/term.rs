use std::fmt;
use std::ops::Add;

use crate::refusal::outcome;
use crate::{words, Refusal};

/// A field of a sheet by its number, from 1. Field 0 stands for zero, see [`ZERO`].
#[derive(Clone, Copy, Debug, PartialEq, Eq, Hash, PartialOrd, Ord)]
pub struct Field(pub u32);

/// The field that stands for zero, so that the number 5 is `ZERO + 5`.
pub const ZERO: Field = Field(0);

/// A number of steps: how often one is added to a count.
#[derive(Clone, Copy, Debug, PartialEq, Eq, Hash, PartialOrd, Ord)]
pub struct Steps(pub u32);

/// A field's count plus a number of steps. Up to 1,023 steps are accepted, in a [`DiagramTable`](crate::DiagramTable) up to 4,095.
///
/// ```
/// use sheet::{Field, Term, ZERO};
///
/// assert_eq!((Field(2) + 3).word(), 98);
/// assert_eq!(Term::from_word(98), Field(2) + 3);
/// assert_eq!((Field(2) + 3).to_string(), "f2 + 3");
/// assert_eq!((ZERO + 7).to_string(), "7");
/// ```
#[derive(Clone, Copy, Debug, PartialEq, Eq, Hash)]
pub struct Term {
    /// The field.
    pub field: Field,
    /// The steps added to its count.
    pub steps: Steps,
}

/// A term word is steps x 32 + field.
const FIELDS_IN_WORD: u32 = 32;

impl Term {
    /// The term's word. A field or steps too large for a word are above every limit, so the largest that fit stand for them: the
    /// library refuses these just as it would refuse the term.
    pub fn word(self) -> u32 {
        let field = self.field.0.min(FIELDS_IN_WORD - 1);
        let steps = self.steps.0.min(u32::MAX / FIELDS_IN_WORD);
        steps * FIELDS_IN_WORD + field
    }

    /// The term that a word stands for.
    pub fn from_word(word: u32) -> Term {
        Term { field: Field(word % FIELDS_IN_WORD), steps: Steps(word / FIELDS_IN_WORD) }
    }

    /// The equation of this term and another one.
    pub fn equals(self, other: impl Into<Term>) -> Equation {
        Equation { left: self, right: other.into() }
    }
}

impl Field {
    /// The equation of this field's count and a term.
    pub fn equals(self, other: impl Into<Term>) -> Equation {
        Term::from(self).equals(other)
    }
}

impl From<Field> for Term {
    fn from(field: Field) -> Term {
        Term { field, steps: Steps(0) }
    }
}

impl Add<Steps> for Field {
    type Output = Term;

    fn add(self, steps: Steps) -> Term {
        Term { field: self, steps }
    }
}

impl Add<u32> for Field {
    type Output = Term;

    fn add(self, steps: u32) -> Term {
        self + Steps(steps)
    }
}

impl fmt::Display for Term {
    fn fmt(&self, f: &mut fmt::Formatter<'_>) -> fmt::Result {
        match (self.field, self.steps) {
            (ZERO, Steps(steps)) => write!(f, "{steps}"),
            (Field(field), Steps(0)) => write!(f, "f{field}"),
            (Field(field), Steps(steps)) => write!(f, "f{field} + {steps}"),
        }
    }
}

/// An equation of two terms.
#[derive(Clone, Copy, Debug, PartialEq, Eq, Hash)]
pub struct Equation {
    /// The left term.
    pub left: Term,
    /// The right term.
    pub right: Term,
}

/// What an equation comes to.
#[derive(Clone, Copy, Debug, PartialEq, Eq)]
pub enum Simplified {
    /// False on every sheet.
    Never,
    /// True on every sheet.
    Always,
    /// True on some sheets.
    Question(Question),
}

impl Equation {
    /// Simplifies the equation. [`Refusal::RuleTerm`] if a field is above 16 or steps are above 1,023.
    ///
    /// ```
    /// use sheet::{Field, Simplified, ZERO};
    ///
    /// let Simplified::Question(question) = (Field(1) + 3).equals(Field(2) + 1).simplify()? else { panic!() };
    /// assert_eq!(question.to_string(), "f2 = f1 + 2");
    /// assert_eq!(question.gap(), 2);
    /// assert_eq!((Field(1) + 2).equals(ZERO).simplify()?, Simplified::Never);
    /// assert_eq!((Field(1) + 1).equals(Field(1) + 1).simplify()?, Simplified::Always);
    /// # Ok::<(), sheet::Refusal>(())
    /// ```
    pub fn simplify(self) -> Result<Simplified, Refusal> {
        let answer = words::simplify(self.left.word(), self.right.word());
        Ok(match outcome(answer.number, answer.result)? {
            0 => Simplified::Never,
            1 => Simplified::Always,
            _ => Simplified::Question(Question {
                equation: Term::from_word(answer.left).equals(Term::from_word(answer.right)),
                gap: answer.gap,
            }),
        })
    }
}

impl fmt::Display for Equation {
    fn fmt(&self, f: &mut fmt::Formatter<'_>) -> fmt::Result {
        write!(f, "{} = {}", self.left, self.right)
    }
}

/// A simplified equation that is true on some sheets and false on others.
///
/// Questions have no order of their own, as there are two: an [`Order`](crate::Order) compares them, and arranges them as a store's list.
/// Equations that are no questions yet, or stand in no order, are what [`Store::open_raw`](crate::Store::open_raw) takes.
///
/// ```
/// use sheet::{Field, Order, Store};
///
/// // Equations as they come, and the questions that a store has of them.
/// let equations = [Field(2).equals(Field(3)), (Field(1) + 1).equals(Field(2) + 1), Field(1).equals(Field(2))];
/// let store = Store::open_raw(3, Order::FieldsFirst, equations, 10)?;
/// assert_eq!(store.as_words()[..8], [3, 2, 0, 0, 2, 1, 3, 2]);
/// assert_eq!(store.questions()[0].to_string(), "f2 = f1");
/// # Ok::<(), sheet::Refusal>(())
/// ```
#[derive(Clone, Copy, Debug, PartialEq, Eq, Hash)]
pub struct Question {
    equation: Equation,
    gap: i32,
}

impl Question {
    /// A question of a sound store's list, by its two words.
    pub(crate) fn from_words(left: u32, right: u32) -> Question {
        let equation = Term::from_word(left).equals(Term::from_word(right));
        Question { equation, gap: equation.right.steps.0 as i32 - equation.left.steps.0 as i32 }
    }

    /// The simplified equation.
    pub fn equation(self) -> Equation {
        self.equation
    }

    /// Right steps minus left steps: the question asks whether left count = right count + gap.
    pub fn gap(self) -> i32 {
        self.gap
    }
}

impl From<Question> for Equation {
    fn from(question: Question) -> Equation {
        question.equation
    }
}

impl fmt::Display for Question {
    fn fmt(&self, f: &mut fmt::Formatter<'_>) -> fmt::Result {
        self.equation.fmt(f)
    }
}
