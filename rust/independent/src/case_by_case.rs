//! Simplification case by case: the five lines of document 000's Definition 24, from the document. [`crate::Plain`] and [`crate::Fast`] don't
//! go by them. Which line comes next is left to the caller, so that the lines can be followed in every order.

use crate::{SimplifyAnswer, Term};

/// What a case leads from and to.
#[derive(Clone, Copy, Debug, PartialEq, Eq, PartialOrd, Ord)]
pub enum Guard {
    Never,
    Always,
    Equation(Term, Term),
}

/// Zero itself.
const ZERO: Term = Term { field: 0, steps: 0 };

/// Each line by its number from 1: what it makes of an equation, if it applies.
const LINES: [fn(Term, Term) -> Option<Guard>; 5] = [line_1, line_2, line_3, line_4, line_5];

/// x = x → ⊤
fn line_1(left: Term, right: Term) -> Option<Guard> {
    (left == right && left.steps == 0).then_some(Guard::Always)
}

/// S(y) = S(x) → y = x
fn line_2(left: Term, right: Term) -> Option<Guard> {
    Some(Guard::Equation(left.one_less()?, right.one_less()?))
}

/// S(x) = 0 → ⊥, either way round
fn line_3(left: Term, right: Term) -> Option<Guard> {
    either_way(left, right, |one, other| one.steps > 0 && other == ZERO)
}

/// S^(m+1)(x) = x → ⊥, either way round
fn line_4(left: Term, right: Term) -> Option<Guard> {
    either_way(left, right, |one, other| one.field == other.field && one.steps > 0 && other.steps == 0)
}

/// r = t → t = r for r before t
fn line_5(left: Term, right: Term) -> Option<Guard> {
    left.is_before(right).then_some(Guard::Equation(right, left))
}

/// Never, if the two terms are such, one way round or the other.
fn either_way(left: Term, right: Term, are_such: impl Fn(Term, Term) -> bool) -> Option<Guard> {
    (are_such(left, right) || are_such(right, left)).then_some(Guard::Never)
}

impl Term {
    /// x of S(x).
    fn one_less(self) -> Option<Term> {
        Some(Term { steps: self.steps.checked_sub(1)?, ..self })
    }

    /// Whether this term is before another: zero before all fields, then the smaller field, then fewer steps.
    fn is_before(self, other: Term) -> bool {
        (self.field, self.steps) < (other.field, other.steps)
    }
}

impl Guard {
    /// The number of each line that applies to this guard, and what the line makes of it. None applies to never and always.
    pub fn cases(self) -> Vec<(usize, Guard)> {
        let Guard::Equation(left, right) = self else { return Vec::new() };
        (1..).zip(LINES).filter_map(|(number, line)| Some((number, line(left, right)?))).collect()
    }

    /// A number that falls with each case, so that no sequence of cases is longer.
    pub fn most_cases(self) -> usize {
        match self {
            Guard::Never | Guard::Always => 0,
            Guard::Equation(left, right) => {
                1 + 2 * (left.steps + right.steps) as usize + usize::from(left.is_before(right))
            }
        }
    }

    /// What simplify answers for an equation that ends in this guard.
    pub fn answer(self) -> SimplifyAnswer {
        match self {
            Guard::Never => SimplifyAnswer::default(),
            Guard::Always => SimplifyAnswer { result: 1, ..SimplifyAnswer::default() },
            Guard::Equation(left, right) => SimplifyAnswer {
                number: 0,
                result: 2,
                left: left.word(),
                right: right.word(),
                gap: right.steps as i32 - left.steps as i32,
            },
        }
    }
}
