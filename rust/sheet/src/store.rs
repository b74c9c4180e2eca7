use crate::refusal::outcome;
use crate::words::{self, Answer};
use crate::{Count, Equation, Limits, Order, Question, Refusal, Rule, RuleTable};

/// A diagram in a store or in a [`DiagramTable`](crate::DiagramTable). It means something only in the one that gave it.
#[derive(Clone, Copy, Debug, PartialEq, Eq, Hash, PartialOrd, Ord)]
pub struct Handle(u32);

impl Handle {
    /// The rule that no sheet satisfies.
    pub const NEVER: Handle = Handle(0);
    /// The rule that every sheet satisfies.
    pub const ALWAYS: Handle = Handle(1);

    /// The handle with a number. Entry i of a store or table, counted from 0, is handle i + 2.
    pub fn from_number(number: u32) -> Handle {
        Handle(number)
    }

    /// The handle's number.
    pub fn number(self) -> u32 {
        self.0
    }
}

/// Which sheets satisfy a rule.
#[derive(Clone, Copy, Debug, PartialEq, Eq)]
pub enum Verdict {
    /// None.
    Never,
    /// Every one.
    Always,
    /// Some do and some don't.
    Sometimes,
}

impl Verdict {
    /// The verdict that a result stands for.
    pub(crate) fn from_result(result: u32) -> Verdict {
        match result {
            0 => Verdict::Never,
            1 => Verdict::Always,
            _ => Verdict::Sometimes,
        }
    }
}

/// What a sheet says of a rule. A field that was not counted may have any natural number, above 65,534 too, each such field by itself.
#[derive(Clone, Copy, Debug, PartialEq, Eq)]
pub enum Reading {
    /// It breaks the rule, whatever the numbers of these fields.
    Fails,
    /// It satisfies the rule, whatever they are.
    Satisfies,
    /// It depends on them: some numbers satisfy the rule, and some break it.
    Depends,
}

impl Reading {
    /// Whether the sheet satisfies the rule, if its counts settle that.
    pub const fn settled(self) -> Option<bool> {
        match self {
            Reading::Fails => Some(false),
            Reading::Satisfies => Some(true),
            Reading::Depends => None,
        }
    }

    /// The reading that a result stands for.
    fn from_result(result: u32) -> Reading {
        match result {
            0 => Reading::Fails,
            1 => Reading::Satisfies,
            _ => Reading::Depends,
        }
    }
}

/// An entry of a store: a question, and the handles to go on with.
#[derive(Clone, Copy, Debug, PartialEq, Eq)]
pub struct Entry {
    /// The question asked.
    pub question: Question,
    /// The handle if the answer is yes.
    pub yes: Handle,
    /// The handle if the answer is no.
    pub no: Handle,
}

/// Diagrams of rules over one list of questions. Its words are always a sound store.
///
/// ```
/// use sheet::{Field, Handle, Order, Refusal, Rule, Store};
///
/// let questions = [Field(2).equals(Field(1)), Field(3).equals(Field(1)), Field(3).equals(Field(2))];
/// let mut store = Store::open(3, Order::FieldsFirst, questions, 4)?;
/// let handle = store.build(&questions[2].into())?;
/// assert_eq!(handle.number(), 5);
/// assert_eq!(store.as_words(), [3, 3, 4, 0, 2, 1, 3, 1, 3, 2, 2, 1, 0, 3, 1, 0, 2, 0, 3, 1, 2, 4]);
///
/// // All four entries are in use. What needs a fifth is refused, and changes nothing.
/// assert_eq!(store.negate(handle), Err(Refusal::NoRoom));
/// assert_eq!((store.used(), store.room()), (4, 4));
///
/// // The words can be kept, and taken up again.
/// let mut again = Store::from_words(store.into_words())?;
/// assert_eq!(again.build(&Rule::from(questions[2]))?, handle);
/// # Ok::<(), Refusal>(())
/// ```
#[derive(Clone, Debug, PartialEq, Eq)]
pub struct Store {
    words: Vec<u32>,
}

/// The words before the list: fields, questions, used entries, order.
const HEADING: usize = 4;
/// The most words of a rule that is written back: 256 rows of four.
const MOST_RULE_WORDS: usize = 1024;

/// One of the library's functions that open a store: with a list or with a raw one, or the deck logger's.
type Opening = fn(u32, u32, &[u32], &mut [u32]) -> Answer;
/// One of the library's functions that build a rule.
type Building = fn(&mut [u32], &[u32]) -> Answer;

impl Store {
    /// Opens a store for sheets of `fields` fields and a list of up to 20 questions, which stand in the order given, with room for `room`
    /// entries, of which 4,096 are the most that can be used. Equations that come in any form and any order are taken by
    /// [`Store::open_raw`].
    pub fn open<Q>(fields: u32, order: Order, questions: Q, room: usize) -> Result<Store, Refusal>
    where
        Q: IntoIterator,
        Q::Item: Into<Equation>,
    {
        Store::open_by(words::open, fields, order, questions, room.min(Limits::INSTITUTE.entries))
    }

    /// Opens a store for equations as they stand on paper, up to 64 of them, in any form and any order, some of them twice. Each is
    /// simplified, what is always or never is dropped, doubles are left out, and the rest, up to 20 questions, is sorted into the order
    /// given. There is room for `room` entries, of which 4,096 are the most that can be used.
    ///
    /// It is proved of the library that the questions are exactly those that the equations simplify to, and that its other opening, given
    /// these, leaves the same words. So [`Store::open`] with these questions gives the same store.
    ///
    /// ```
    /// use sheet::{Field, Order, Refusal, Store};
    ///
    /// // 2 = 3; 1 + 1 = 2 + 1 and 1 = 2, which are one question; and 1 = 1, which is always true.
    /// let equations = [
    ///     Field(2).equals(Field(3)),
    ///     (Field(1) + 1).equals(Field(2) + 1),
    ///     Field(1).equals(Field(2)),
    ///     Field(1).equals(Field(1)),
    /// ];
    /// let store = Store::open_raw(3, Order::FieldsFirst, equations, 10)?;
    /// let questions: Vec<String> = store.questions().iter().map(ToString::to_string).collect();
    /// assert_eq!(questions, ["f2 = f1", "f3 = f2"]);
    /// assert_eq!(store.room(), 10);
    /// assert_eq!(Store::open(3, Order::FieldsFirst, store.questions(), 10)?, store);
    ///
    /// // Opened as a list that is in order already, they are refused.
    /// assert_eq!(Store::open(3, Order::FieldsFirst, equations, 10), Err(Refusal::NotSimplified));
    /// # Ok::<(), Refusal>(())
    /// ```
    pub fn open_raw<E>(fields: u32, order: Order, equations: E, room: usize) -> Result<Store, Refusal>
    where
        E: IntoIterator,
        E::Item: Into<Equation>,
    {
        let room = room.min(Limits::INSTITUTE.entries);
        let mut store = Store::open_by(words::open_raw, fields, order, equations, room)?;
        // The words were lent for as many questions as there were equations. Where fewer remain, they would be room for more entries.
        store.words.truncate(store.entries_start() + 3 * room);
        store.words.shrink_to_fit();
        Ok(store)
    }

    /// Opens a store by one of the library's openings, on as many words as `room` entries take.
    pub(crate) fn open_by<E>(
        opening: Opening,
        fields: u32,
        order: Order,
        equations: E,
        room: usize,
    ) -> Result<Store, Refusal>
    where
        E: IntoIterator,
        E::Item: Into<Equation>,
    {
        let list: Vec<u32> = equations
            .into_iter()
            .map(Into::into)
            .flat_map(|Equation { left, right }| [left.word(), right.word()])
            .collect();
        let mut words = vec![0; HEADING + list.len() + 3 * room];
        result(opening(fields, order.number(), &list, &mut words))?;
        Ok(Store { words })
    }

    /// A store from words that [`into_words`](Store::into_words) gave, or any others: [`Refusal::NotSound`] unless they are sound.
    pub fn from_words(words: Vec<u32>) -> Result<Store, Refusal> {
        // Every later operation tests this first; that handle 0 is there needs nothing else.
        result(words::verdict(&words, Handle::NEVER.0))?;
        Ok(Store { words })
    }

    /// The store's words.
    pub fn as_words(&self) -> &[u32] {
        &self.words
    }

    /// The store's words, given away.
    pub fn into_words(self) -> Vec<u32> {
        self.words
    }

    /// The number of fields of a sheet.
    pub fn fields(&self) -> usize {
        self.words[0] as usize
    }

    /// The questions that rules can be made of.
    pub fn questions(&self) -> Vec<Question> {
        self.words[HEADING..self.entries_start()]
            .chunks_exact(2)
            .map(|pair| Question::from_words(pair[0], pair[1]))
            .collect()
    }

    /// How many entries are used.
    pub fn used(&self) -> usize {
        self.words[2] as usize
    }

    /// The order in which the questions stand.
    pub fn order(&self) -> Order {
        Order::from_number(self.words[3]).expect("a sound store names an order")
    }

    /// How many entries there is room for, the used ones included.
    pub fn room(&self) -> usize {
        self.room_within(Limits::INSTITUTE)
    }

    /// How many entries there is room for within the limits.
    pub(crate) fn room_within(&self, limits: Limits) -> usize {
        ((self.words.len() - self.entries_start()) / 3).min(limits.entries)
    }

    /// The entry that a handle names, if it isn't never or always.
    pub fn entry(&self, handle: Handle) -> Option<Entry> {
        let place = usize::try_from(handle.0.checked_sub(2)?).ok().filter(|place| *place < self.used())?;
        let at = self.entries_start() + 3 * place;
        let question = HEADING + 2 * (self.words[at] as usize - 1);
        Some(Entry {
            question: Question::from_words(self.words[question], self.words[question + 1]),
            yes: Handle(self.words[at + 1]),
            no: Handle(self.words[at + 2]),
        })
    }

    fn entries_start(&self) -> usize {
        HEADING + 2 * self.words[1] as usize
    }

    /// Adds a rule's diagram.
    ///
    /// The time grows with the combinations of answers that sheets can give to the list's questions, up to the last question of the
    /// rule. With twenty questions about many fields there can be a million of them.
    pub fn build(&mut self, rule: &Rule) -> Result<Handle, Refusal> {
        self.build_table(&RuleTable::from(rule))
    }

    /// Adds the diagram of a rule given as a table.
    pub fn build_table(&mut self, table: &RuleTable) -> Result<Handle, Refusal> {
        self.build_table_by(words::build, table)
    }

    /// Adds the diagram of a rule by one of the library's ways to build.
    pub(crate) fn build_table_by(&mut self, building: Building, table: &RuleTable) -> Result<Handle, Refusal> {
        handle(building(&mut self.words, &table.to_words()))
    }

    /// Adds the diagram of "not a".
    pub fn negate(&mut self, a: Handle) -> Result<Handle, Refusal> {
        handle(words::negate(&mut self.words, a.0))
    }

    /// Adds the diagram of "a and b".
    pub fn join(&mut self, a: Handle, b: Handle) -> Result<Handle, Refusal> {
        handle(words::join(&mut self.words, a.0, b.0))
    }

    /// Adds the diagram of "if a then b else c".
    pub fn choose(&mut self, a: Handle, b: Handle, c: Handle) -> Result<Handle, Refusal> {
        handle(words::choose(&mut self.words, a.0, b.0, c.0))
    }

    /// Whether no sheet, every sheet or some sheet satisfies a handle.
    pub fn verdict(&self, a: Handle) -> Result<Verdict, Refusal> {
        result(words::verdict(&self.words, a.0)).map(Verdict::from_result)
    }

    /// The least sheet that satisfies a handle, field 1 compared first. [`Refusal::NothingSatisfies`] if there is none. All its fields are
    /// counted: it is proved of the library that no count is above 16,384.
    pub fn example(&self, a: Handle) -> Result<Vec<Count>, Refusal> {
        let mut sheet = vec![0; self.fields()];
        result(words::example(&self.words, a.0, &mut sheet))?;
        Ok(sheet.into_iter().map(|word| Count::from_word(word).expect("no count is above 16,384")).collect())
    }

    /// Whether a sheet satisfies a handle. The sheet has a count for each field, field 1 first, or `None` where it was not counted: there any
    /// natural number may stand, in each such field by itself.
    ///
    /// ```
    /// use sheet::{Count, Field, Order, Reading, Store};
    ///
    /// // The calves are the adults, or three fewer.
    /// let (adults, calves) = (Field(1), Field(2));
    /// let (same, fewer) = (calves.equals(adults), (calves + 3).equals(adults));
    /// let mut store = Store::open_raw(2, Order::FieldsFirst, [same, fewer], 10)?;
    /// let rule = store.build(&(sheet::Rule::from(same) | fewer.into()))?;
    ///
    /// let count = |number: u8| Some(Count::from(number));
    /// assert_eq!(store.read(rule, &[count(7), count(4)])?, Reading::Satisfies);
    /// assert_eq!(store.read(rule, &[count(7), count(5)])?, Reading::Fails);
    /// // With 7 adults, 7 calves satisfy the rule and 5 break it.
    /// assert_eq!(store.read(rule, &[count(7), None])?, Reading::Depends);
    /// # Ok::<(), sheet::Refusal>(())
    /// ```
    ///
    pub fn read(&self, a: Handle, sheet: &[Option<Count>]) -> Result<Reading, Refusal> {
        let sheet: Vec<u16> = sheet.iter().copied().map(Count::to_word).collect();
        result(words::read(&self.words, a.0, &sheet)).map(Reading::from_result)
    }

    /// Whether a sheet satisfies a handle, on which every field was counted.
    ///
    /// ```
    /// use sheet::{Field, Order, Store};
    ///
    /// // An example is a sheet that satisfies its rule.
    /// let mut store = Store::open_raw(2, Order::FieldsFirst, [Field(2).equals(Field(1) + 3)], 10)?;
    /// let rule = store.build(&Field(2).equals(Field(1) + 3).into())?;
    /// assert!(store.read_counted(rule, &store.example(rule)?)?);
    /// # Ok::<(), sheet::Refusal>(())
    /// ```
    pub fn read_counted(&self, a: Handle, sheet: &[Count]) -> Result<bool, Refusal> {
        let sheet: Vec<u16> = sheet.iter().copied().map(Count::number).collect();
        result(words::read(&self.words, a.0, &sheet)).map(|read| read == 1)
    }

    /// A rule table for a handle. Built on this store it gives the handle again, if an operation had returned it.
    ///
    /// ```
    /// use sheet::{Field, Order, Store, ZERO};
    ///
    /// let questions = [Field(1).equals(ZERO), Field(1).equals(ZERO + 1)];
    /// let mut store = Store::open(1, Order::FieldsFirst, questions, 10)?;
    /// let handle = store.build(&questions[1].into())?;
    /// let table = store.write_back(handle)?;
    /// assert_eq!(store.build_table(&table)?, handle);
    /// # Ok::<(), sheet::Refusal>(())
    /// ```
    pub fn write_back(&self, a: Handle) -> Result<RuleTable, Refusal> {
        let mut rule = [0; MOST_RULE_WORDS];
        let rows = result(words::write_back(&self.words, a.0, &mut rule))?;
        Ok(RuleTable::from_written(&rule[..4 * rows as usize]))
    }
}

fn result(answer: Answer) -> Result<u32, Refusal> {
    outcome(answer.number, answer.result)
}

fn handle(answer: Answer) -> Result<Handle, Refusal> {
    result(answer).map(Handle)
}
