use crate::refusal::outcome;
use crate::{words, Equation, Handle, Refusal, Verdict};

/// An entry of a table of diagrams: an equation, and the handles to go on with.
///
/// Unlike an entry of a store its equation stands on no list. It must be simplified (the larger field left, steps on one side at most, none
/// left against zero), and may have up to 4,095 steps.
#[derive(Clone, Copy, Debug, PartialEq, Eq)]
pub struct DiagramEntry {
    /// The equation asked.
    pub equation: Equation,
    /// The handle if it is true.
    pub yes: Handle,
    /// The handle if it is false.
    pub no: Handle,
}

impl DiagramEntry {
    /// The entry's four words: left term, right term, yes handle, no handle.
    pub fn words(self) -> [u32; 4] {
        [self.equation.left.word(), self.equation.right.word(), self.yes.number(), self.no.number()]
    }
}

/// Diagrams that another tool has made, to be checked: each entry refers to lower handles. Up to 4,096 entries about 16 fields are accepted.
///
/// [`check`](DiagramTable::check) says whether the diagram of a handle, which has to use every entry, is in the normal form of document
/// 000's Definition 28: along each path the equations ascend, by left field, right field, left steps, right steps, whatever
/// [order](crate::Order) stores have; no entry has two equal parts; and where an equation is true, its left field isn't named again. Then
/// every path is followed by some choice of counts, of any size, so that a diagram with entries is true of some choices and not of all.
///
/// The diagram of "f2 + 2 = f1 and f3 = f2" isn't in normal form: where the first equation is true, the second one can do without f2.
/// "f2 + 2 = f1 and f3 + 2 = f1" says the same in normal form (document 000's Example 29):
///
/// ```
/// use sheet::{DiagramTable, Field, Handle, Refusal, Verdict};
///
/// let mut table = DiagramTable::new();
/// let second = table.push(Field(3).equals(Field(2)), Handle::ALWAYS, Handle::NEVER);
/// let root = table.push((Field(2) + 2).equals(Field(1)), second, Handle::NEVER);
/// assert_eq!(table.to_words(), [3, 2, 1, 0, 66, 1, 2, 0]);
/// assert_eq!(table.check(root), Err(Refusal::NotNormalForm));
///
/// let mut table = DiagramTable::new();
/// let second = table.push((Field(3) + 2).equals(Field(1)), Handle::ALWAYS, Handle::NEVER);
/// let root = table.push((Field(2) + 2).equals(Field(1)), second, Handle::NEVER);
/// assert_eq!(table.to_words(), [67, 1, 1, 0, 66, 1, 2, 0]);
/// assert_eq!(table.check(root), Ok(Verdict::Sometimes));
///
/// // A root has to use every entry, and the second equation by itself doesn't use the other one's.
/// assert_eq!(table.check(second), Err(Refusal::NotReachable));
/// ```
#[derive(Clone, Debug, Default, PartialEq, Eq)]
pub struct DiagramTable {
    entries: Vec<DiagramEntry>,
}

impl DiagramTable {
    /// A table without entries.
    pub fn new() -> DiagramTable {
        DiagramTable::default()
    }

    /// Adds an entry, and gives its handle.
    pub fn push(&mut self, equation: Equation, yes: Handle, no: Handle) -> Handle {
        self.entries.push(DiagramEntry { equation, yes, no });
        Handle::from_number(self.entries.len() as u32 + 1)
    }

    /// The entries.
    pub fn entries(&self) -> &[DiagramEntry] {
        &self.entries
    }

    /// The table's words, four to an entry.
    pub fn to_words(&self) -> Vec<u32> {
        self.entries.iter().flat_map(|entry| entry.words()).collect()
    }

    /// Whether no sheet, every sheet or some sheet satisfies the root's diagram, or why the table isn't one diagram in normal form.
    pub fn check(&self, root: Handle) -> Result<Verdict, Refusal> {
        DiagramTable::check_words(&self.to_words(), root)
    }

    /// The same of a table given by its words, whatever they are.
    ///
    /// ```
    /// use sheet::{DiagramTable, Handle, Refusal, Verdict};
    ///
    /// // 1 = S(0), where a term's word is steps x 32 + field; if true then always, else never.
    /// let words = [1, 32, 1, 0];
    /// assert_eq!(DiagramTable::check_words(&words, Handle::from_number(2)), Ok(Verdict::Sometimes));
    /// assert_eq!(DiagramTable::check_words(&[], Handle::NEVER), Ok(Verdict::Never));
    ///
    /// let refusal = DiagramTable::check_words(&words[..3], Handle::NEVER).unwrap_err();
    /// assert_eq!(refusal, Refusal::TableShape);
    /// assert_eq!(
    ///     refusal.to_string(),
    ///     "the table's words are not whole entries of four, it has more than 4,096 entries, or the root is none of its handles"
    /// );
    /// ```
    pub fn check_words(table: &[u32], root: Handle) -> Result<Verdict, Refusal> {
        let answer = words::check_normal_form(table, root.number());
        outcome(answer.number, answer.result).map(Verdict::from_result)
    }
}

impl FromIterator<DiagramEntry> for DiagramTable {
    fn from_iter<I: IntoIterator<Item = DiagramEntry>>(entries: I) -> DiagramTable {
        DiagramTable { entries: entries.into_iter().collect() }
    }
}
