use std::cmp::Ordering;

use crate::{Equation, Question};

/// An order in which a store's list of questions stands. Each question must be strictly above the one before it.
///
/// Only questions with the same left field, of which the one with more left steps has the smaller right field, stand differently in the
/// two orders. Many lists are good for both, so the order of a store can't be told from its list.
///
/// ```
/// use sheet::{Field, Order, Refusal, Store};
///
/// let (one_less, same) = ((Field(3) + 1).equals(Field(1)), Field(3).equals(Field(2)));
/// let store = Store::open(3, Order::FieldsFirst, [one_less, same], 10)?;
/// assert_eq!(store.order(), Order::FieldsFirst);
/// let older = Store::open(3, Order::LeftFirst, [same, one_less], 10)?;
/// assert_eq!(older.order(), Order::LeftFirst);
/// assert_eq!(Store::open(3, Order::LeftFirst, [one_less, same], 10), Err(Refusal::NotAscending));
/// # Ok::<(), Refusal>(())
/// ```
#[derive(Clone, Copy, Debug, PartialEq, Eq, Hash)]
#[repr(u32)]
pub enum Order {
    /// 0, document 01's: left field, right field, left steps, right steps are compared, the first that differs deciding.
    FieldsFirst = 0,
    /// 1, the older books': left field, left steps, right field, right steps are compared, the first that differs deciding.
    LeftFirst = 1,
}

impl Order {
    /// Every order, in the order of the numbers.
    pub const ALL: [Order; 2] = [Order::FieldsFirst, Order::LeftFirst];

    /// The order's number.
    pub fn number(self) -> u32 {
        self as u32
    }

    /// The order with a number, if there is one.
    ///
    /// ```
    /// use sheet::Order;
    ///
    /// assert_eq!(Order::from_number(1), Some(Order::LeftFirst));
    /// assert_eq!(Order::from_number(2), None);
    /// assert!(Order::ALL.iter().all(|order| Order::from_number(order.number()) == Some(*order)));
    /// ```
    pub fn from_number(number: u32) -> Option<Order> {
        Order::ALL.into_iter().find(|order| order.number() == number)
    }

    /// Whether a question stands before another one, is the same, or stands behind it.
    ///
    /// ```
    /// use std::cmp::Ordering;
    ///
    /// use sheet::{Field, Order, Simplified};
    ///
    /// let Simplified::Question(one_less) = (Field(3) + 1).equals(Field(1)).simplify()? else { panic!() };
    /// let Simplified::Question(same) = Field(3).equals(Field(2)).simplify()? else { panic!() };
    /// assert_eq!(Order::FieldsFirst.compare(&one_less, &same), Ordering::Less);
    /// assert_eq!(Order::LeftFirst.compare(&one_less, &same), Ordering::Greater);
    /// # Ok::<(), sheet::Refusal>(())
    /// ```
    pub fn compare(self, question: &Question, other: &Question) -> Ordering {
        self.rank(question).cmp(&self.rank(other))
    }

    /// Sorts questions into this order and leaves doubles out, so that a store can be opened for them.
    ///
    /// ```
    /// use sheet::{Field, Order, Store};
    ///
    /// let questions = [Field(3).equals(Field(2)), (Field(3) + 1).equals(Field(1))];
    /// let older = Store::open(3, Order::LeftFirst, questions, 10)?;
    ///
    /// // A store for the same questions in the other order.
    /// let mut questions = older.questions();
    /// Order::FieldsFirst.arrange(&mut questions);
    /// let store = Store::open(3, Order::FieldsFirst, questions, 10)?;
    /// assert_eq!(store.as_words()[..8], [3, 2, 0, 0, 35, 1, 3, 2]);
    /// # Ok::<(), sheet::Refusal>(())
    /// ```
    pub fn arrange(self, questions: &mut Vec<Question>) {
        questions.sort_by_key(|question| self.rank(question));
        questions.dedup();
    }

    /// The numbers that the order compares.
    fn rank(self, question: &Question) -> [u32; 4] {
        let Equation { left, right } = question.equation();
        match self {
            Order::FieldsFirst => [left.field.0, right.field.0, left.steps.0, right.steps.0],
            Order::LeftFirst => [left.field.0, left.steps.0, right.field.0, right.steps.0],
        }
    }
}
