//! Makes calls with every implementation, compares all that they leave, and keeps count.

use std::collections::BTreeMap;

use independent::{fillings, largest_count, leaves, refusal, Answer, Fast, Limits, Operations, Paths, Plain, Question};
use independent::{SimplifyAnswer, Term, HEADING, INSTITUTE, LOGGER};

use crate::calls::{Call, Outcome};
use crate::generate::Survey;
use crate::library::Library;

/// Differences are printed up to this many.
const MOST_PRINTED: u64 = 10;

/// Diagrams with more paths aren't unfolded to trees.
const MOST_PATHS: u64 = 200;
/// All sheets are tried on the paths of a diagram if they aren't more.
const MOST_SHEETS: u64 = 1_000;

/// What the inputs have to bring about at least once, besides every number of every operation.
pub mod occasion {
    pub const LIST_IN_ONE_ORDER: &str = "a list that opens in one order and is 16 in the other";
    pub const LIST_IN_BOTH_ORDERS: &str = "a list that opens in both orders";
    pub const FIELDS_BEFORE_ORDER: &str = "11 though 18 and 12 apply as well";
    pub const ORDER_BEFORE_LIST: &str = "18 though 12 applies as well";
    pub const UNKNOWN_ORDER_NAMED: &str = "22 for an unknown order in word 3";
    pub const OTHER_ORDER_NAMED: &str = "22 for the other order in word 3";
    pub const CALLS_IN_ORDER_0: &str = "a list of calls on a store whose list is in order 0 only";
    pub const CALLS_IN_ORDER_1: &str = "a list of calls on a store whose list is in order 1 only";
    pub const ACCEPTED_BY_BOTH: &str = "a rule that logger and institute accept side by side";
    pub const REFUSED_BY_BOTH: &str = "a rule that logger and institute refuse side by side";
    pub const NO_ROOM_FOR_BOTH: &str = "51 by logger and institute side by side";
    pub const NO_ROOM_UP_TO_200: &str = "51 by the logger alone, which would have more than 200 entries";
    pub const NO_ROOM_AT_200: &str = "51 by the logger alone, with 200 entries used";
    pub const NO_ROOM_IN_FEWER_WORDS: &str = "51 by the logger alone, whose words are too few";
    pub const NO_ROOM_FOR_INSTITUTE: &str = "51 by the institute alone, whose words are too few";
    pub const ACCEPTED_AT_200: &str = "a rule that both accept, with 200 entries used";
    pub const BUILT_TO_THE_END: &str = "builds side by side to the end";
    pub const TOO_MANY_FIELDS_ALONE: &str = "22 by the logger for nothing but the fields of a store";
    pub const TOO_MANY_QUESTIONS_ALONE: &str = "22 by the logger for nothing but the questions of a store";
    pub const TOO_MANY_ENTRIES_ALONE: &str = "22 by the logger for nothing but the entries of a store";
    pub const RAW_FIELDS_BEFORE_ORDER: &str = "11 for a raw list though 18 and 12 apply as well";
    pub const RAW_ORDER_BEFORE_LIST: &str = "18 for a raw list though 12 applies as well";
    pub const RAW_ODD_BEFORE_EQUATIONS: &str = "12 for the words of more than 64 raw equations";
    pub const RAW_EQUATIONS_BEFORE_TERMS: &str = "17 for a raw list though 14 applies as well";
    pub const RAW_TERM_BEFORE_QUESTIONS: &str =
        "14 for a raw list though more than 20 questions come before the bad term";
    pub const RAW_TERM_OF_ALWAYS: &str = "14 for a raw equation that would be always";
    pub const RAW_TERM_OF_NEVER: &str = "14 for a raw equation that would be never";
    pub const RAW_QUESTIONS_BEFORE_STORE: &str = "13 for a raw list though 21 applies as well";
    pub const RAW_SHORT_BY_ONE_WORD: &str = "21 for a raw list, by one word";
    pub const RAW_NOTHING_REMAINS: &str = "an accepted raw list of which nothing remains";
    pub const RAW_LARGEST: &str = "an accepted raw list of 64 equations";
    pub const RAW_TOO_LONG_FOR_OPEN: &str = "an accepted raw list that open refuses with 13";
    pub const RAW_NOT_SIMPLIFIED: &str = "an accepted raw list that open refuses with 15";
    pub const RAW_NOT_ASCENDING: &str = "an accepted raw list that open refuses with 16";
    pub const RAW_ORDERS_DIFFER: &str = "an accepted raw list that leaves another list in the other order";
    pub const NO_BLANKS: &str = "a sheet without blanks that is read";
    pub const ALL_BLANK: &str = "a sheet of blanks only that is read";
    pub const BLANKS_MADE: [&str; 3] = [
        "blanks and counts read as 0, in a store that operations have made",
        "blanks and counts read as 1, in a store that operations have made",
        "blanks and counts read as 2, in a store that operations have made",
    ];
    pub const BLANKS_BY_HAND: [&str; 3] = [
        "blanks and counts read as 0, in a store written by hand",
        "blanks and counts read as 1, in a store written by hand",
        "blanks and counts read as 2, in a store written by hand",
    ];
    pub const BLANKS_AT_THE_EDGE: [&str; 3] = [
        "blanks beside 65,533 or 65,534 read as 0",
        "blanks beside 65,533 or 65,534 read as 1",
        "blanks beside 65,533 or 65,534 read as 2",
    ];
    pub const COUNTS_DECIDE: &str = "blanks and counts read as 0 or 1, of a rule that is sometimes true";
    pub const LINES: [&str; 5] = [
        "line 1 of simplification picked",
        "line 2 of simplification picked",
        "line 3 of simplification picked",
        "line 4 of simplification picked",
        "line 5 of simplification picked",
    ];
    /// Several lines of simplification that apply at once, and the occasion.
    pub const LINES_AT_ONCE: [(&[usize], &str); 5] = [
        (&[2, 5], "lines 2 and 5 of simplification at once"),
        (&[3, 4], "lines 3 and 4 of simplification at once"),
        (&[3, 5], "lines 3 and 5 of simplification at once"),
        (&[4, 5], "lines 4 and 5 of simplification at once"),
        (&[3, 4, 5], "lines 3, 4 and 5 of simplification at once"),
    ];
    pub const LONGEST_SEQUENCE: &str = "1,024 cases of simplification for one equation";
    pub const TURNED_LATE: &str = "line 5 of simplification picked after more than 100 cases";

    /// Every occasion.
    pub const ALL: [&str; 59] = [
        LIST_IN_ONE_ORDER,
        LIST_IN_BOTH_ORDERS,
        FIELDS_BEFORE_ORDER,
        ORDER_BEFORE_LIST,
        UNKNOWN_ORDER_NAMED,
        OTHER_ORDER_NAMED,
        CALLS_IN_ORDER_0,
        CALLS_IN_ORDER_1,
        ACCEPTED_BY_BOTH,
        REFUSED_BY_BOTH,
        NO_ROOM_FOR_BOTH,
        NO_ROOM_UP_TO_200,
        NO_ROOM_AT_200,
        NO_ROOM_IN_FEWER_WORDS,
        NO_ROOM_FOR_INSTITUTE,
        ACCEPTED_AT_200,
        BUILT_TO_THE_END,
        TOO_MANY_FIELDS_ALONE,
        TOO_MANY_QUESTIONS_ALONE,
        TOO_MANY_ENTRIES_ALONE,
        RAW_FIELDS_BEFORE_ORDER,
        RAW_ORDER_BEFORE_LIST,
        RAW_ODD_BEFORE_EQUATIONS,
        RAW_EQUATIONS_BEFORE_TERMS,
        RAW_TERM_BEFORE_QUESTIONS,
        RAW_TERM_OF_ALWAYS,
        RAW_TERM_OF_NEVER,
        RAW_QUESTIONS_BEFORE_STORE,
        RAW_SHORT_BY_ONE_WORD,
        RAW_NOTHING_REMAINS,
        RAW_LARGEST,
        RAW_TOO_LONG_FOR_OPEN,
        RAW_NOT_SIMPLIFIED,
        RAW_NOT_ASCENDING,
        RAW_ORDERS_DIFFER,
        NO_BLANKS,
        ALL_BLANK,
        BLANKS_MADE[0],
        BLANKS_MADE[1],
        BLANKS_MADE[2],
        BLANKS_BY_HAND[0],
        BLANKS_BY_HAND[1],
        BLANKS_BY_HAND[2],
        BLANKS_AT_THE_EDGE[0],
        BLANKS_AT_THE_EDGE[1],
        BLANKS_AT_THE_EDGE[2],
        COUNTS_DECIDE,
        LINES[0],
        LINES[1],
        LINES[2],
        LINES[3],
        LINES[4],
        LINES_AT_ONCE[0].1,
        LINES_AT_ONCE[1].1,
        LINES_AT_ONCE[2].1,
        LINES_AT_ONCE[3].1,
        LINES_AT_ONCE[4].1,
        LONGEST_SEQUENCE,
        TURNED_LATE,
    ];
}

/// What was called, compared and met so far.
pub struct Comparison {
    by_bounds: Plain,
    by_counting: Plain,
    /// How often each operation gave each number, 0 being acceptance.
    numbers: BTreeMap<&'static str, BTreeMap<u32, u64>>,
    compared_by_bounds: u64,
    compared_by_counting: u64,
    compared_by_trees: u64,
    /// Other facts that were tested, by name.
    tested: BTreeMap<&'static str, u64>,
    /// How often each [`occasion`] was met.
    occasions: BTreeMap<&'static str, u64>,
    differing: u64,
}

impl Default for Comparison {
    fn default() -> Comparison {
        Comparison {
            by_bounds: Plain::by_bounds(),
            by_counting: Plain::by_counting(),
            numbers: BTreeMap::new(),
            compared_by_bounds: 0,
            compared_by_counting: 0,
            compared_by_trees: 0,
            tested: BTreeMap::new(),
            occasions: BTreeMap::new(),
            differing: 0,
        }
    }
}

impl Comparison {
    /// Makes a call with the library and with every implementation that can afford it. Gives what the library left.
    ///
    /// An opening or a build is made by the institute and by the logger, on the same words, whichever of them is called: what the logger
    /// accepts, the institute does just so.
    pub fn call(&mut self, call: &Call, store: &[u32]) -> Outcome {
        let outcome = self.call_one(call, store);
        if let Some(other) = call.by_the_other() {
            let other = self.call_one(&other, store);
            let logger = if call.limits() == LOGGER { &outcome } else { &other };
            let alike = logger.answer.number != 0 || outcome == other;
            self.test("what the logger accepts, done by the institute", alike, || format!("{call:?} on {store:?}"));
        }
        outcome
    }

    fn call_one(&mut self, call: &Call, store: &[u32]) -> Outcome {
        let outcome = call.make(&Library, store);
        self.count(call.name(), outcome.answer.number);
        if !outcome.kept_within {
            self.differ(&format!("{call:?} on {store:?} wrote outside of what was lent"));
        }
        let affordable = affordable(call, store);
        let mut others = vec![("the fast implementation", call.make(&Fast, store))];
        if affordable.bounds {
            self.compared_by_bounds += 1;
            others.push(("the plain implementation", call.make(&self.by_bounds, store)));
        }
        if affordable.counting {
            self.compared_by_counting += 1;
            others.push(("trying all counts", call.make(&self.by_counting, store)));
        }
        if affordable.trees {
            self.compared_by_trees += 1;
            others.push(("the check on trees", call.make(&self.by_bounds, store)));
        }
        for (by, expected) in others {
            if outcome != expected {
                let calls = format!("call {call:?}\n  store {store:?}");
                self.differ(&format!("{by}\n  {calls}\n  library {outcome:?}\n  other {expected:?}"));
            }
        }
        if outcome.answer.number == 0 {
            self.test_other_opening(call, store, &outcome);
        }
        outcome
    }

    /// Makes the other one of the library's two openings on the words that were lent to an accepted one: the old opening of the list that the
    /// raw opening has left, or the raw opening of the list that the old one has taken. Both have to leave the same store.
    fn test_other_opening(&mut self, call: &Call, lent: &[u32], outcome: &Outcome) {
        let (name, other) = match call.clone() {
            Call::OpenRaw { n, order, .. } => {
                let list = list_of(&INSTITUTE, &outcome.store).unwrap_or_default().to_vec();
                ("the old opening of a resulting list", Call::Open { n, order, list })
            }
            Call::Open { n, order, list } => {
                ("a list that the old opening accepts, opened raw", Call::OpenRaw { n, order, raw: list })
            }
            _ => return,
        };
        let by_other = other.make(&Library, lent);
        self.test(name, by_other.kept_within && by_other.has_store_of(outcome), || format!("{call:?} on {lent:?}"));
    }

    /// Simplifies with the library and with both other implementations.
    pub fn simplify(&mut self, a: u32, b: u32) -> SimplifyAnswer {
        let answer = Library.simplify(a, b);
        self.count("simplify", answer.number);
        self.compared_by_bounds += 1;
        let expected = [Fast.simplify(a, b), self.by_bounds.simplify(a, b)];
        if expected != [answer; 2] {
            self.differ(&format!("simplify {a} {b}: {answer:?}, the others {expected:?}"));
        }
        answer
    }

    /// Checks a table of diagrams with the library and the other implementations. If it is accepted and has few paths, looks for a sheet
    /// on every path: by difference bounds, and by trying all counts if these are few.
    pub fn check_normal_form(&mut self, table: &[u32], root: u32) -> Answer {
        let differing = self.differing;
        let answer = self.call(&Call::CheckNormalForm { table: table.to_vec(), root }, &[]).answer;
        // What the implementations differ on has been reported, and need not be a diagram.
        if answer.number != 0 || self.differing > differing || leaves(table, root) > MOST_PATHS {
            return answer;
        }
        let paths = Paths::new(table, root);
        let describe = || format!("root {root} of {table:?}, answered with {answer:?}");
        let (unfollowed, verdict) = (paths.unfollowed_by_bounds(), paths.verdict_by_bounds());
        self.test("the paths of an accepted diagram, by difference bounds", unfollowed.is_none(), || {
            format!("{unfollowed:?}, {}", describe())
        });
        self.test("the verdict of an accepted diagram, by difference bounds", verdict == answer.result, describe);
        if paths.sheets() <= MOST_SHEETS {
            let (unfollowed, verdict) = (paths.unfollowed_by_counting(), paths.verdict_by_counting());
            self.test("the paths of an accepted diagram, trying all counts", unfollowed.is_none(), || {
                format!("{unfollowed:?}, {}", describe())
            });
            self.test("the verdict of an accepted diagram, trying all counts", verdict == answer.result, describe);
        }
        answer
    }

    /// Tests one more fact, described if it doesn't hold.
    pub fn test(&mut self, name: &'static str, holds: bool, describe: impl FnOnce() -> String) {
        *self.tested.entry(name).or_default() += 1;
        if !holds {
            self.differ(&format!("{name}: {}", describe()));
        }
    }

    /// Opens a store with room for so many entries, on words that are not zero.
    pub fn opened(&mut self, survey: &Survey, room: usize) -> Vec<u32> {
        let length = HEADING + survey.list.len() + 3 * room;
        self.call(&survey.open(), &vec![1; length]).store
    }

    /// Notes that one of the occasions was met.
    pub fn meet(&mut self, occasion: &'static str) {
        *self.occasions.entry(occasion).or_default() += 1;
    }

    fn count(&mut self, operation: &'static str, number: u32) {
        *self.numbers.entry(operation).or_default().entry(number).or_default() += 1;
    }

    fn differ(&mut self, description: &str) {
        self.differing += 1;
        if self.differing <= MOST_PRINTED {
            eprintln!("DIFFERENCE: {description}");
        }
    }

    /// Prints what was compared. True if nothing differs, each operation gave each number that it can give and no other, and each occasion
    /// was met.
    pub fn report(&self) -> bool {
        self.print_compared();
        let unmet = self.print_numbers() + self.print_occasions();
        self.print_refusals();
        println!("not met: {unmet}");
        println!("differing: {}", self.differing);
        self.differing == 0 && unmet == 0
    }

    fn print_compared(&self) {
        let compared: u64 = self.numbers.values().flat_map(BTreeMap::values).sum();
        println!("calls compared word for word: {compared}");
        println!("  all of them with the fast implementation");
        println!("  {} also with the plain one by difference bounds", self.compared_by_bounds);
        println!("  {} also with the plain one that tries all counts", self.compared_by_counting);
        println!("  {} also with the plain one on trees", self.compared_by_trees);
        println!("tested besides:");
        for (name, times) in &self.tested {
            println!("  {name}: {times}");
        }
    }

    /// Prints the numbers that each operation gave. Gives how many are missing, or can't be.
    fn print_numbers(&self) -> usize {
        println!("how often each operation gave each number (0 is acceptance):");
        for (operation, numbers) in &self.numbers {
            let line: Vec<String> = numbers.iter().map(|(number, times)| format!("{number}: {times}")).collect();
            println!("  {operation:<17}  {}", line.join("  "));
        }
        let mut unmet = 0;
        for (operation, possible) in NUMBERS {
            let met: Vec<u32> = self.numbers.get(operation).into_iter().flat_map(BTreeMap::keys).copied().collect();
            for number in possible.iter().filter(|number| !met.contains(number)) {
                println!("NOT MET: {number} of {operation}");
                unmet += 1;
            }
            for number in met.iter().filter(|number| !possible.contains(number)) {
                println!("NOT A NUMBER OF {operation}: {number}");
                unmet += 1;
            }
        }
        unmet
    }

    /// Prints how often each occasion was met. Gives how many were not.
    fn print_occasions(&self) -> usize {
        println!("what had to be met, and how often it was:");
        for occasion in occasion::ALL {
            println!("  {occasion}: {}", self.occasions.get(occasion).unwrap_or(&0));
        }
        let unmet = occasion::ALL.into_iter().filter(|occasion| !self.occasions.contains_key(occasion));
        unmet.inspect(|occasion| println!("NOT MET: {occasion}")).count()
    }

    fn print_refusals(&self) {
        println!("refusal numbers, and how often each was met:");
        for numbers in refusal::ALL.chunks(10) {
            let times = |number: &u32| self.numbers.values().filter_map(|met| met.get(number)).sum::<u64>();
            let line: Vec<String> = numbers.iter().map(|number| format!("{number}: {}", times(number))).collect();
            println!("  {}", line.join("  "));
        }
    }
}

/// The numbers that each operation can give, by documents 01 and 02.
const NUMBERS: [(&str, &[u32]); 14] = [
    ("simplify", &[0, 35]),
    ("open", &[0, 11, 12, 13, 14, 15, 16, 18, 21]),
    ("open raw", &[0, 11, 12, 13, 14, 17, 18, 21]),
    ("build", &[0, 22, 31, 32, 33, 34, 35, 36, 51]),
    ("logger's open", &[0, 11, 12, 13, 14, 15, 16, 18, 21]),
    ("logger's build", &[0, 22, 31, 32, 33, 34, 35, 36, 51]),
    ("negate", &[0, 22, 41, 51]),
    ("join", &[0, 22, 41, 51]),
    ("choose", &[0, 22, 41, 51]),
    ("verdict", &[0, 22, 41]),
    ("example", &[0, 22, 23, 41, 52]),
    ("read", &[0, 22, 23, 41]),
    ("write back", &[0, 22, 23, 41, 53]),
    ("check normal form", &[0, 81, 82, 83, 84, 85, 86]),
];

/// The questions of list words.
pub fn questions_of(list: &[u32]) -> Vec<Question> {
    list.chunks(2).map(|pair| (Term::of_word(pair[0]), Term::of_word(pair[1]))).collect()
}

/// The list words of a store, if its heading is within the limits and leaves a list to look at.
fn list_of<'a>(limits: &Limits, store: &'a [u32]) -> Option<&'a [u32]> {
    let [n, q, used, _, rest @ ..] = store else { return None };
    if *n > limits.fields || *q > limits.questions as u32 || *used > limits.entries as u32 {
        return None;
    }
    rest.get(..2 * *q as usize)
}

/// The fields and questions of such a store.
fn survey_of(limits: &Limits, store: &[u32]) -> Option<(u32, Vec<Question>)> {
    list_of(limits, store).map(|list| (store[0], questions_of(list)))
}

/// A number that the possible combinations of answers don't exceed. Of the questions about the same two fields at most one is true.
pub fn most_combinations(questions: &[Question]) -> u64 {
    let mut about: BTreeMap<(u32, u32), u64> = BTreeMap::new();
    for (left, right) in questions {
        *about.entry((left.field, right.field)).or_insert(1) += 1;
    }
    about.values().fold(1, |most: u64, answers| most.saturating_mul(*answers))
}

/// Whether the difference bounds of all combinations of answers are worked out in some milliseconds.
pub fn bounds_are_affordable(n: u32, questions: &[Question]) -> bool {
    most_combinations(questions).saturating_mul(u64::from(n + 1).pow(4)) <= 20_000_000
}

/// Whether all sheets of the box are tried in some milliseconds.
pub fn counting_is_affordable(n: u32, questions: &[Question]) -> bool {
    (largest_count(n, questions) + 1).checked_pow(n).is_some_and(|sheets| sheets <= 20_000)
}

#[derive(Default)]
struct Affordable {
    bounds: bool,
    counting: bool,
    /// The check of another tool's diagrams, which looks at trees, not at possible answers.
    trees: bool,
}

impl Affordable {
    /// Both ways to find possible answers.
    const BOTH: Affordable = Affordable { bounds: true, counting: true, trees: false };
}

/// Whether all fillings of a sheet's blanks are tried in some milliseconds: those of one blank are, beside the largest count too.
pub fn fillings_are_affordable(questions: &[Question], sheet: &[u16]) -> bool {
    fillings(questions, sheet).is_some_and(|fillings| fillings <= 70_000)
}

/// Which plain implementations can make a call in some milliseconds. They compare every two entries of a store or table. All but the
/// openings and write back look at every possible combination of answers, or read at every filling, and the check of another tool's diagrams
/// at every path.
fn affordable(call: &Call, store: &[u32]) -> Affordable {
    match call {
        Call::Open { .. } | Call::OpenRaw { .. } | Call::LoggerOpen { .. } => return Affordable::BOTH,
        Call::CheckNormalForm { table, root } => {
            let trees = table.len() <= 4 * 300 && leaves(table, *root) <= MOST_PATHS;
            return Affordable { trees, ..Affordable::default() };
        }
        _ => {}
    }
    match survey_of(&call.limits(), store) {
        // Such a store isn't sound, which they find at once.
        None => Affordable::BOTH,
        Some(_) if store[2] > 500 => Affordable::default(),
        Some((n, questions)) if matches!(call, Call::Read { .. }) => Affordable {
            bounds: bounds_are_affordable(n, &questions),
            counting: fillings_are_affordable(&questions, call.sheet()),
            trees: false,
        },
        Some((n, questions)) => Affordable {
            bounds: bounds_are_affordable(n, &questions),
            counting: counting_is_affordable(n, &questions),
            trees: false,
        },
    }
}
