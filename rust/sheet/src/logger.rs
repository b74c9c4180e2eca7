use crate::{words, Equation, Handle, Limits, Order, Refusal, Rule, RuleTable, Store};

/// The deck logger's smaller store. Its words are always a sound store within [`Limits::LOGGER`].
///
/// The logger opens and builds. It is proved that each rule gets the handle and the entries that a [`Store`] opened alike gives it, as long
/// as each rule is accepted by both or by neither. What a store can tell without being changed is asked of [`as_store`](LoggerStore::as_store),
/// and what else changes one is done after [`Store::from`].
///
/// ```
/// use sheet::{Field, LoggerStore, Order, Refusal, Store, Verdict, ZERO};
///
/// let (adults, calves) = (Field(1), Field(2));
/// let questions = [adults.equals(ZERO), calves.equals(ZERO), calves.equals(adults)];
/// let mut logger = LoggerStore::open(2, Order::FieldsFirst, questions, 50)?;
/// let as_many = logger.build(&questions[2].into())?;
/// assert_eq!(logger.as_store().verdict(as_many)?, Verdict::Sometimes);
/// assert_eq!(logger.as_store().example(as_many)?, [0, 0]);
///
/// // At the institute the store is one like all others, and the handle is still good.
/// let mut store = Store::from(logger);
/// assert_eq!(store.build(&questions[2].into())?, as_many);
/// let more_or_fewer = store.negate(as_many)?;
/// assert_eq!(store.example(more_or_fewer)?, [0, 1]);
/// # Ok::<(), Refusal>(())
/// ```
#[derive(Clone, Debug, PartialEq, Eq)]
pub struct LoggerStore(Store);

impl LoggerStore {
    /// Opens a store for sheets of up to 6 fields and a list of up to 8 questions, which stand in the order given, with room for `room`
    /// entries, of which 200 are the most that can be used. All else is as in [`Store::open`].
    pub fn open<Q>(fields: u32, order: Order, questions: Q, room: usize) -> Result<LoggerStore, Refusal>
    where
        Q: IntoIterator,
        Q::Item: Into<Equation>,
    {
        Store::open_by(words::logger_open, fields, order, questions, room.min(Limits::LOGGER.entries)).map(LoggerStore)
    }

    /// A logger's store from words, be they those of a [`Store`]: [`Refusal::NotSound`] unless they are sound and within the logger's
    /// limits.
    ///
    /// ```
    /// use sheet::{LoggerStore, Refusal, Store};
    ///
    /// // Seven fields, and no questions.
    /// let words = vec![7, 0, 0, 0];
    /// assert_eq!(LoggerStore::from_words(words.clone()), Err(Refusal::NotSound));
    /// assert!(Store::from_words(words).is_ok());
    /// ```
    pub fn from_words(words: Vec<u32>) -> Result<LoggerStore, Refusal> {
        let mut logger = LoggerStore(Store::from_words(words)?);
        // Building tests the limits first. `Rule::Never` needs no entry, so every store accepts it, and its words stay as they are.
        logger.build(&Rule::Never)?;
        Ok(logger)
    }

    /// Adds a rule's diagram.
    pub fn build(&mut self, rule: &Rule) -> Result<Handle, Refusal> {
        self.build_table(&RuleTable::from(rule))
    }

    /// Adds the diagram of a rule given as a table.
    pub fn build_table(&mut self, table: &RuleTable) -> Result<Handle, Refusal> {
        self.0.build_table_by(words::logger_build, table)
    }

    /// How many entries the logger has room for, the used ones included: 200 at most, however many words there are.
    pub fn room(&self) -> usize {
        self.0.room_within(Limits::LOGGER)
    }

    /// The same words as a store to read: its fields, order, questions, entries and words, and the verdict, the example, the sheets and the
    /// rule of a handle. A [`Store`]'s [`room`](Store::room) doesn't know of the logger's limit.
    pub fn as_store(&self) -> &Store {
        &self.0
    }
}

/// A logger's store as one of the institute, with its handles as they are. This can't fail: it is proved that a store which is sound within
/// some limits is sound within larger ones, and the logger's limits are smaller than the institute's.
impl From<LoggerStore> for Store {
    fn from(logger: LoggerStore) -> Store {
        logger.0
    }
}
