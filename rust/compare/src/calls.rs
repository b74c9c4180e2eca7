//! A call of any operation as a value, and what it leaves behind.

use independent::{Answer, Limits, Operations, INSTITUTE, LOGGER};

/// A call on a store, or on a table of diagrams, which needs none. Slices beside the store are lent as they stand here.
#[derive(Clone, Debug)]
pub enum Call {
    Open { n: u32, order: u32, list: Vec<u32> },
    OpenRaw { n: u32, order: u32, raw: Vec<u32> },
    Build { rule: Vec<u32> },
    LoggerOpen { n: u32, order: u32, list: Vec<u32> },
    LoggerBuild { rule: Vec<u32> },
    Negate(u32),
    Join(u32, u32),
    Choose(u32, u32, u32),
    Verdict(u32),
    Example { handle: u32, sheet: Vec<u16> },
    Read { handle: u32, sheet: Vec<u16> },
    WriteBack { handle: u32, rule: Vec<u32> },
    CheckNormalForm { table: Vec<u32>, root: u32 },
}

/// The answer, and every lent word after the call.
#[derive(Clone, Debug, PartialEq, Eq)]
pub struct Outcome {
    pub answer: Answer,
    pub store: Vec<u32>,
    pub sheet: Vec<u16>,
    pub words: Vec<u32>,
    /// Whether the words around the lent slices are as they were.
    pub kept_within: bool,
}

impl Outcome {
    /// Whether another call was answered alike and left the same store. What was lent beside the store may differ.
    pub fn has_store_of(&self, other: &Outcome) -> bool {
        (self.answer, &self.store) == (other.answer, &other.store)
    }
}

/// How many words stand around a lent slice, to show a write that goes astray.
const AROUND: usize = 8;

/// A slice lent out of the middle of a longer one.
struct Lent<T> {
    words: Vec<T>,
    around: T,
}

impl<T: Copy + PartialEq> Lent<T> {
    fn new(words: &[T], around: T) -> Lent<T> {
        let mut longer = vec![around; words.len() + 2 * AROUND];
        longer[AROUND..AROUND + words.len()].copy_from_slice(words);
        Lent { words: longer, around }
    }

    fn slice(&mut self) -> &mut [T] {
        let end = self.words.len() - AROUND;
        &mut self.words[AROUND..end]
    }

    fn kept_within(&self) -> bool {
        let end = self.words.len() - AROUND;
        self.words[..AROUND].iter().chain(&self.words[end..]).all(|word| *word == self.around)
    }

    fn back(mut self) -> Vec<T> {
        self.words.truncate(self.words.len() - AROUND);
        self.words.drain(..AROUND);
        self.words
    }
}

impl Call {
    pub fn name(&self) -> &'static str {
        match self {
            Call::Open { .. } => "open",
            Call::OpenRaw { .. } => "open raw",
            Call::Build { .. } => "build",
            Call::LoggerOpen { .. } => "logger's open",
            Call::LoggerBuild { .. } => "logger's build",
            Call::Negate(_) => "negate",
            Call::Join(..) => "join",
            Call::Choose(..) => "choose",
            Call::Verdict(_) => "verdict",
            Call::Example { .. } => "example",
            Call::Read { .. } => "read",
            Call::WriteBack { .. } => "write back",
            Call::CheckNormalForm { .. } => "check normal form",
        }
    }

    /// The limits that the operation keeps to.
    pub fn limits(&self) -> Limits {
        match self {
            Call::LoggerOpen { .. } | Call::LoggerBuild { .. } => LOGGER,
            _ => INSTITUTE,
        }
    }

    /// The same opening or build by the other one of the institute and the logger. The logger takes no raw list.
    pub fn by_the_other(&self) -> Option<Call> {
        match self.clone() {
            Call::Open { n, order, list } => Some(Call::LoggerOpen { n, order, list }),
            Call::LoggerOpen { n, order, list } => Some(Call::Open { n, order, list }),
            Call::Build { rule } => Some(Call::LoggerBuild { rule }),
            Call::LoggerBuild { rule } => Some(Call::Build { rule }),
            _ => None,
        }
    }

    /// The words lent beside the store.
    fn words(&self) -> &[u32] {
        match self {
            Call::Open { list, .. } | Call::LoggerOpen { list, .. } => list,
            Call::OpenRaw { raw, .. } => raw,
            Call::Build { rule } | Call::LoggerBuild { rule } | Call::WriteBack { rule, .. } => rule,
            Call::CheckNormalForm { table, .. } => table,
            _ => &[],
        }
    }

    /// The counts lent beside the store.
    pub(crate) fn sheet(&self) -> &[u16] {
        match self {
            Call::Example { sheet, .. } | Call::Read { sheet, .. } => sheet,
            _ => &[],
        }
    }

    /// Makes the call on copies of the lent words.
    pub fn make(&self, operations: &dyn Operations, store: &[u32]) -> Outcome {
        let mut store = Lent::new(store, 0xA5A5_A5A5);
        let mut words = Lent::new(self.words(), 0x5A5A_5A5A);
        let mut sheet = Lent::new(self.sheet(), 0xA55A);
        let answer = match *self {
            Call::Open { n, order, .. } => operations.open(n, order, words.slice(), store.slice()),
            Call::OpenRaw { n, order, .. } => operations.open_raw(n, order, words.slice(), store.slice()),
            Call::Build { .. } => operations.build(store.slice(), words.slice()),
            Call::LoggerOpen { n, order, .. } => operations.logger_open(n, order, words.slice(), store.slice()),
            Call::LoggerBuild { .. } => operations.logger_build(store.slice(), words.slice()),
            Call::Negate(a) => operations.negate(store.slice(), a),
            Call::Join(a, b) => operations.join(store.slice(), a, b),
            Call::Choose(a, b, c) => operations.choose(store.slice(), a, b, c),
            Call::Verdict(a) => operations.verdict(store.slice(), a),
            Call::Example { handle, .. } => operations.example(store.slice(), handle, sheet.slice()),
            Call::Read { handle, .. } => operations.read(store.slice(), handle, sheet.slice()),
            Call::WriteBack { handle, .. } => operations.write_back(store.slice(), handle, words.slice()),
            Call::CheckNormalForm { root, .. } => operations.check_normal_form(words.slice(), root),
        };
        let kept_within = store.kept_within() && words.kept_within() && sheet.kept_within();
        Outcome { answer, store: store.back(), sheet: sheet.back(), words: words.back(), kept_within }
    }
}
