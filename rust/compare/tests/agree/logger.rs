//! The deck logger's smaller book: the same builds by the logger and by the institute, side by side, and stores beyond the logger's limits.

use compare::calls::Call;
use compare::comparison::{occasion, Comparison};
use compare::generate::{self, sound_entries, store_of, Gaps, Size, Survey, FAR, TALL};
use compare::ledger::Ledger;
use compare::random::Random;
use independent::refusal::{NOT_SOUND, NO_ROOM};
use independent::{HEADING, LOGGER};

use crate::lists::test_law;

const LOGGER_QUESTIONS: u32 = LOGGER.questions as u32;
/// As many fields and questions as the logger takes: a few rules fill its 200 entries.
const LARGEST: Size =
    Size { fields: (LOGGER.fields, LOGGER.fields), gaps: Gaps::up_to(2), most_questions: LOGGER_QUESTIONS };
/// Lists of all kinds within the logger's limits.
const SIZES: [Size; 4] = [
    LARGEST,
    Size { fields: (0, LOGGER.fields), ..LARGEST },
    Size { fields: (2, LOGGER.fields), gaps: FAR.gaps, ..LARGEST },
    Size { most_questions: LOGGER_QUESTIONS, ..TALL },
];

/// The same list opened by the logger and by the institute, in stores of any two lengths, and the same rules built in both: until one accepts
/// what the other refuses, both give the same numbers and handles, and have the same used words.
pub fn side_by_side(comparison: &mut Comparison, random: &mut Random, cases: u64) {
    for _ in 0..cases / 2 {
        let size = *random.pick(&SIZES);
        let survey = generate::survey(random, size);
        let length = store_length(random, &survey);
        let other = if random.one_in(4) { length } else { store_length(random, &survey) };
        let rules = random.below(12);
        build_in_both(comparison, random, survey, [length, other], rules);
    }
    // Stores of more words than the logger's entries take, which become full.
    for _ in 0..cases / 10 {
        let survey = survey_of(random, LOGGER.fields, LOGGER.questions);
        let lengths = [0; 2].map(|_| words_of_all(&survey) + random.place(300));
        build_in_both(comparison, random, survey, lengths, 80);
    }
}

/// A survey with just so many fields and questions.
fn survey_of(random: &mut Random, fields: u32, questions: usize) -> Survey {
    let size = Size { fields: (fields, fields), most_questions: questions as u32, ..LARGEST };
    loop {
        let survey = generate::survey(random, size);
        if survey.questions() == questions {
            return survey;
        }
    }
}

/// The number of words that all entries of the logger take, with heading and list.
fn words_of_all(survey: &Survey) -> usize {
    HEADING + survey.list.len() + 3 * LOGGER.entries
}

/// The number of words of a store: too few to open it, with room for few entries, for about as many as the logger can have, or for more.
fn store_length(random: &mut Random, survey: &Survey) -> usize {
    let needed = HEADING + survey.list.len();
    match random.below(10) {
        0 => random.place(needed + 1),
        1..=4 => needed + random.place(120),
        5 => words_of_all(survey) - 10 + random.place(20),
        _ => words_of_all(survey) + random.place(1_000),
    }
}

/// Opens a store of the first length by the logger and one of the second by the institute, and builds so many rules in both, if none of
/// them is accepted by one alone.
fn build_in_both(comparison: &mut Comparison, random: &mut Random, survey: Survey, lengths: [usize; 2], rules: u32) {
    let [logger, institute] = lengths.map(|length| (0..length).map(|_| random.word()).collect::<Vec<u32>>());
    let logger = comparison.call(&survey.logger_open(), &logger);
    let institute = comparison.call(&survey.open(), &institute);
    if logger.answer.number != 0 || institute.answer.number != 0 {
        return;
    }
    let ledger = Ledger::new(&survey);
    let mut pair = Pair { survey, logger: logger.store, institute: institute.store, ledger };
    pair.test_used_words(comparison);
    let to_the_end = (0..rules).all(|_| {
        let rule = rule(random, &pair.survey, pair.logger[2]);
        pair.build(comparison, rule)
    });
    if to_the_end {
        comparison.meet(occasion::BUILT_TO_THE_END);
    }
    if let Some(ledger) = &pair.ledger {
        test_law(comparison, &pair.survey, ledger, &pair.logger);
    }
}

/// A rule to build, good, faulty or any words at all. Where most of the logger's entries are used, all rules are small, so that the last
/// ones are used as well.
fn rule(random: &mut Random, survey: &Survey, used: u32) -> Vec<u32> {
    match random.below(12) {
        0 | 1 => generate::faulty_rule(random, survey),
        2 => {
            let end = *random.pick(&[2, 6, 40, u32::MAX]);
            (0..4 * random.below(9)).map(|_| random.below(end)).collect()
        }
        3..=6 if !survey.list.is_empty() => {
            let rows = if used < 150 { random.between(12, 80) } else { 11 };
            generate::tangled_rule(random, survey, rows as usize)
        }
        7 | 8 => generate::long_path_rule(random, survey),
        _ => generate::rule(random, survey),
    }
}

/// The words of a store that its heading, list and used entries take.
fn used_words(store: &[u32]) -> &[u32] {
    &store[..HEADING + 2 * store[1] as usize + 3 * store[2] as usize]
}

/// The store that the logger has opened for a survey, with a ledger beside it, and the one that the institute has opened.
struct Pair {
    survey: Survey,
    logger: Vec<u32>,
    institute: Vec<u32>,
    ledger: Option<Ledger>,
}

impl Pair {
    /// Builds a rule in both stores. False if one of the two alone accepts it.
    fn build(&mut self, comparison: &mut Comparison, rule: Vec<u32>) -> bool {
        let call = Call::LoggerBuild { rule: rule.clone() };
        let logger = comparison.call(&call, &self.logger);
        let institute = comparison.call(&Call::Build { rule }, &self.institute);
        let answers = [logger.answer, institute.answer];
        let numbers = answers.map(|answer| answer.number);
        comparison.meet(self.occasion(numbers));
        if numbers.iter().filter(|number| **number == 0).count() == 1 {
            comparison.test("a refusal by one of the two alone", numbers.contains(&NO_ROOM), || {
                format!("{answers:?} for {call:?} on {:?} and {:?}", self.logger, self.institute)
            });
            return false;
        }
        comparison.test("answers side by side", answers[0] == answers[1], || {
            format!("{answers:?} for {call:?} on {:?} and {:?}", self.logger, self.institute)
        });
        if let Some(ledger) = &mut self.ledger {
            ledger.enter(&call, &self.logger, logger.answer);
        }
        (self.logger, self.institute) = (logger.store, institute.store);
        self.test_used_words(comparison);
        if numbers == [0, 0] {
            test_other_operations(comparison, &self.logger, answers[0].result);
        }
        true
    }

    /// What it is that logger and institute answer a build with these numbers.
    fn occasion(&self, numbers: [u32; 2]) -> &'static str {
        let used = self.logger[2] as usize;
        match numbers {
            [0, 0] if used == LOGGER.entries => occasion::ACCEPTED_AT_200,
            [0, 0] => occasion::ACCEPTED_BY_BOTH,
            [0, _] => occasion::NO_ROOM_FOR_INSTITUTE,
            [_, 0] if used == LOGGER.entries => occasion::NO_ROOM_AT_200,
            [_, 0] if self.logger.len() >= words_of_all(&self.survey) => occasion::NO_ROOM_UP_TO_200,
            [_, 0] => occasion::NO_ROOM_IN_FEWER_WORDS,
            [NO_ROOM, NO_ROOM] => occasion::NO_ROOM_FOR_BOTH,
            _ => occasion::REFUSED_BY_BOTH,
        }
    }

    fn test_used_words(&self, comparison: &mut Comparison) {
        let equal = used_words(&self.logger) == used_words(&self.institute);
        comparison.test("used words side by side", equal, || format!("{:?}\n  and {:?}", self.logger, self.institute));
    }
}

/// Every other operation takes the logger's store, whatever it says of the handle.
fn test_other_operations(comparison: &mut Comparison, store: &[u32], handle: u32) {
    let n = store[0] as usize;
    let calls = [
        Call::Negate(handle),
        Call::Join(handle, 1),
        Call::Choose(handle, 0, 1),
        Call::Verdict(handle),
        Call::Example { handle, sheet: vec![9; n] },
        Call::Read { handle, sheet: vec![1; n] },
        Call::WriteBack { handle, rule: vec![9; 1024] },
    ];
    for call in calls {
        let number = comparison.call(&call, store).answer.number;
        comparison.test("a logger's store taken by the other operations", number != NOT_SOUND, || {
            format!("{call:?} on {store:?}")
        });
    }
}

/// Stores that are sound for the institute, at the logger's limits and one beyond: 22 by the logger exactly if they are beyond. Then stores
/// that are sound for none of them, by numbers of questions and entries that are small again, doubled or tripled in 32 bits.
pub fn larger_stores(comparison: &mut Comparison, random: &mut Random, cases: u64) {
    for _ in 0..1 + cases / 100 {
        for beyond in 0..8 {
            larger_store(comparison, random, [1, 2, 4].map(|bit| beyond & bit != 0));
        }
    }
    for used in [1 << 31, 1_431_655_765, 1_431_655_766, 1_431_655_767, 2_863_311_531, 2_863_311_532, u32::MAX] {
        for questions in [0, 1] {
            wrapping_store(comparison, &[1, questions, used, 0, 1, 0, 1, 1, 0]);
        }
    }
    for questions in [1 << 31, (1 << 31) + 1, u32::MAX] {
        wrapping_store(comparison, &[1, questions, 0, 0, 1, 0]);
    }
}

/// A store that is one beyond the logger's limits of fields, questions or entries where it is said, and at the limit otherwise.
fn larger_store(comparison: &mut Comparison, random: &mut Random, beyond: [bool; 3]) {
    let [fields, questions, entries] = beyond.map(usize::from);
    let survey = survey_of(random, LOGGER.fields + fields as u32, LOGGER.questions + questions);
    let mut store = store_of(&survey, &entries_of(random, &survey, LOGGER.entries + entries));
    store.resize(store.len() + random.place(60), 0);
    let rules = [vec![], vec![1, 0, 0, 0], generate::rule(random, &survey), generate::faulty_rule(random, &survey)];
    for rule in rules {
        let institute = comparison.call(&Call::Build { rule: rule.clone() }, &store).answer.number;
        let logger = comparison.call(&Call::LoggerBuild { rule }, &store).answer.number;
        let expected = beyond.contains(&true);
        let as_expected = institute != NOT_SOUND && (logger == NOT_SOUND) == expected;
        comparison.test("a store at the logger's limits or beyond", as_expected, || format!("{logger}: {store:?}"));
    }
    match beyond {
        [true, false, false] => comparison.meet(occasion::TOO_MANY_FIELDS_ALONE),
        [false, true, false] => comparison.meet(occasion::TOO_MANY_QUESTIONS_ALONE),
        [false, false, true] => comparison.meet(occasion::TOO_MANY_ENTRIES_ALONE),
        _ => {}
    }
}

/// Just so many different entries that the soundness conditions allow.
fn entries_of(random: &mut Random, survey: &Survey, wanted: usize) -> Vec<[u32; 3]> {
    loop {
        let entries = sound_entries(random, survey.questions() as u32, wanted, None);
        if entries.len() == wanted {
            return entries;
        }
    }
}

/// The words, followed by some zeros: 22 by institute and logger, whatever the rule, and nothing is changed.
fn wrapping_store(comparison: &mut Comparison, words: &[u32]) {
    for zeros in 0..9 {
        let store = [words, &vec![0; zeros]].concat();
        for rule in [vec![], vec![1, 0, 0, 0], vec![2, 1, 0, 0]] {
            for call in [Call::Build { rule: rule.clone() }, Call::LoggerBuild { rule }] {
                let outcome = comparison.call(&call, &store);
                let refused = outcome.answer.number == NOT_SOUND && outcome.store == store;
                comparison.test("a number that is small again in 32 bits", refused, || format!("{call:?} {store:?}"));
            }
        }
    }
}
