use std::fmt;
use std::ops::{BitAnd, BitOr, Not};

use crate::{Equation, Term};

/// A rule: a Boolean combination of equations.
///
/// ```
/// use sheet::{Field, Rule, ZERO};
///
/// let no_adults = Rule::from(Field(1).equals(ZERO));
/// let no_calves = Rule::from(Field(2).equals(ZERO));
/// let rule = Rule::if_then_else(no_adults.clone(), no_calves.clone(), Rule::Always);
/// assert_eq!(rule.to_string(), "(if f1 = 0 then f2 = 0 else yes)");
/// assert_eq!((!no_adults & no_calves).to_string(), "(not f1 = 0 and f2 = 0)");
/// ```
#[derive(Clone, Debug, PartialEq, Eq)]
pub enum Rule {
    /// True on no sheet.
    Never,
    /// True on every sheet.
    Always,
    /// True where the equation is.
    Equation(Equation),
    /// True where the part isn't.
    Not(Box<Rule>),
    /// True where both parts are.
    And(Box<Rule>, Box<Rule>),
    /// True where the first and the second part are, or the third and not the first.
    If(Box<Rule>, Box<Rule>, Box<Rule>),
}

impl Rule {
    /// If `test` then `then`, else `otherwise`.
    pub fn if_then_else(test: Rule, then: Rule, otherwise: Rule) -> Rule {
        Rule::If(Box::new(test), Box::new(then), Box::new(otherwise))
    }
}

impl From<Equation> for Rule {
    fn from(equation: Equation) -> Rule {
        Rule::Equation(equation)
    }
}

impl Not for Rule {
    type Output = Rule;

    fn not(self) -> Rule {
        Rule::Not(Box::new(self))
    }
}

impl BitAnd for Rule {
    type Output = Rule;

    fn bitand(self, other: Rule) -> Rule {
        Rule::And(Box::new(self), Box::new(other))
    }
}

/// `a | b` is "if a then always, else b".
impl BitOr for Rule {
    type Output = Rule;

    fn bitor(self, other: Rule) -> Rule {
        Rule::if_then_else(self, Rule::Always, other)
    }
}

impl fmt::Display for Rule {
    fn fmt(&self, f: &mut fmt::Formatter<'_>) -> fmt::Result {
        match self {
            Rule::Never => write!(f, "no"),
            Rule::Always => write!(f, "yes"),
            Rule::Equation(equation) => equation.fmt(f),
            Rule::Not(a) => write!(f, "not {a}"),
            Rule::And(a, b) => write!(f, "({a} and {b})"),
            Rule::If(a, b, c) => write!(f, "(if {a} then {b} else {c})"),
        }
    }
}

/// The number of a row in its table, from 0.
#[derive(Clone, Copy, Debug, PartialEq, Eq, Hash, PartialOrd, Ord)]
pub struct RowNumber(pub u32);

/// A row of a rule table. References must go to lower rows.
#[derive(Clone, Copy, Debug, PartialEq, Eq)]
pub enum Row {
    /// Kind 0.
    Never,
    /// Kind 1.
    Always,
    /// Kind 2: an equation.
    Equation(Equation),
    /// Kind 3: not the row.
    Not(RowNumber),
    /// Kind 4: both rows.
    And(RowNumber, RowNumber),
    /// Kind 5: if the first row then the second, else the third.
    If(RowNumber, RowNumber, RowNumber),
}

/// A rule as a table of rows, of which the last is the rule. Up to 256 rows are accepted.
///
/// Unlike in a [`Rule`], a part can be used in many places.
///
/// ```
/// use sheet::{Count, Field, Order, Row, RuleTable, Store};
///
/// // Of three fields, an odd number of pairs is equal.
/// let pairs = [Field(2).equals(Field(1)), Field(3).equals(Field(1)), Field(3).equals(Field(2))];
/// let mut table = RuleTable::new();
/// let mut odd = table.push(Row::Never);
/// for pair in pairs {
///     let equal = table.push(Row::Equation(pair));
///     let even = table.push(Row::Not(odd));
///     odd = table.push(Row::If(equal, even, odd));
/// }
/// let mut store = Store::open(3, Order::FieldsFirst, pairs, 20)?;
/// let handle = store.build_table(&table)?;
/// assert!(store.read_counted(handle, &[4_u8, 4, 4].map(Count::from))?);
/// assert!(!store.read_counted(handle, &[4_u8, 5, 6].map(Count::from))?);
/// # Ok::<(), sheet::Refusal>(())
/// ```
#[derive(Clone, Debug, Default, PartialEq, Eq)]
pub struct RuleTable {
    rows: Vec<Row>,
}

impl RuleTable {
    /// A table without rows.
    pub fn new() -> RuleTable {
        RuleTable::default()
    }

    /// Adds a row, and gives its number. It is the rule until another row is added.
    pub fn push(&mut self, row: Row) -> RowNumber {
        self.rows.push(row);
        RowNumber(self.rows.len() as u32 - 1)
    }

    /// The rows.
    pub fn rows(&self) -> &[Row] {
        &self.rows
    }

    /// The table's words, four to a row: kind, a, b, c.
    pub fn to_words(&self) -> Vec<u32> {
        self.rows
            .iter()
            .flat_map(|row| match *row {
                Row::Never => [0, 0, 0, 0],
                Row::Always => [1, 0, 0, 0],
                Row::Equation(Equation { left, right }) => [2, left.word(), right.word(), 0],
                Row::Not(a) => [3, a.0, 0, 0],
                Row::And(a, b) => [4, a.0, b.0, 0],
                Row::If(a, b, c) => [5, a.0, b.0, c.0],
            })
            .collect()
    }

    /// The table that write back has written.
    pub(crate) fn from_written(words: &[u32]) -> RuleTable {
        let rows = words.chunks_exact(4).map(|row| match *row {
            [0, ..] => Row::Never,
            [1, ..] => Row::Always,
            [2, left, right, _] => Row::Equation(Term::from_word(left).equals(Term::from_word(right))),
            [_, a, b, c] => Row::If(RowNumber(a), RowNumber(b), RowNumber(c)),
            _ => unreachable!("chunks of four"),
        });
        RuleTable { rows: rows.collect() }
    }

    /// Adds the rows of a rule's parts, then its own. A row that is there already is used again.
    fn push_rule(&mut self, rule: &Rule) -> RowNumber {
        let row = match rule {
            Rule::Never => Row::Never,
            Rule::Always => Row::Always,
            Rule::Equation(equation) => Row::Equation(*equation),
            Rule::Not(a) => Row::Not(self.push_rule(a)),
            Rule::And(a, b) => Row::And(self.push_rule(a), self.push_rule(b)),
            Rule::If(a, b, c) => Row::If(self.push_rule(a), self.push_rule(b), self.push_rule(c)),
        };
        match self.rows.iter().position(|present| *present == row) {
            Some(place) => RowNumber(place as u32),
            None => self.push(row),
        }
    }
}

/// The parts' rows stand before the whole's, left to right; equal parts share a row.
impl From<&Rule> for RuleTable {
    fn from(rule: &Rule) -> RuleTable {
        let mut table = RuleTable::new();
        table.push_rule(rule);
        table
    }
}
