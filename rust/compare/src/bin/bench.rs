//! Times the proved library and the independent fast implementation on the same input, and prints a table.
//!
//! Each row runs once for each implementation in a process of its own, which is ended if it takes too long. Buffers are warm and
//! reused: the store is put back to the same words before each run, which isn't timed, and one run goes before those that count.

use std::env;
use std::hint::black_box;
use std::process::{Command, Stdio};
use std::time::{Duration, Instant};

use compare::generate::{in_order, parity_rule, sound_entries, store_of, tangled_rule, Survey};
use compare::library::Library;
use compare::normal_forms::{self, last, Entry};
use compare::random::Random;
use independent::{
    Answer, Fast, Operations, Term, BLANK, FIELDS_FIRST, FIRST_ENTRY, HEADING, MOST_ENTRIES, MOST_ROWS, MOST_STEPS,
};

/// A row's process is ended after this time.
const MOST_TIME: Duration = Duration::from_secs(60);
/// Runs of a row stop after this time, or after this many.
const ENOUGH_TIME: Duration = Duration::from_secs(2);
const ENOUGH_RUNS: usize = 201;

/// Makes one run and says how long it took.
type Run = Box<dyn FnMut(&dyn Operations) -> Duration>;

struct Row {
    group: &'static str,
    name: String,
    /// Makes the input; not timed.
    prepare: Box<dyn Fn() -> Run>,
}

fn main() {
    let rows = rows();
    let arguments: Vec<String> = env::args().skip(1).collect();
    match arguments.as_slice() {
        [row, implementation] => {
            let row: usize = row.parse().expect("a row's number");
            let operations: &dyn Operations = if implementation == "library" { &Library } else { &Fast };
            println!("{}", median(&rows[row], operations).as_nanos());
        }
        _ => print_table(&rows),
    }
}

fn median(row: &Row, operations: &dyn Operations) -> Duration {
    let mut run = (row.prepare)();
    let first = run(operations);
    let mut times = Vec::new();
    let start = Instant::now();
    while times.len() < ENOUGH_RUNS && (times.is_empty() || start.elapsed() + first < ENOUGH_TIME) {
        times.push(run(operations));
    }
    times.sort();
    times[times.len() / 2]
}

fn print_table(rows: &[Row]) {
    let mut group = "";
    for (i, row) in rows.iter().enumerate() {
        if row.group != group {
            group = row.group;
            println!("\n### {group}\n\n| input | library | Rust | ratio |\n| --- | ---: | ---: | ---: |");
        }
        let [library, rust] = ["library", "fast"].map(|implementation| measure(i, implementation));
        let ratio = match (library, rust) {
            (Some(library), Some(rust)) => format!("{:.2}", library.as_secs_f64() / rust.as_secs_f64()),
            _ => String::from("-"),
        };
        println!("| {} | {} | {} | {ratio} |", row.name, shown(library), shown(rust));
    }
}

/// A row's median time, measured in a process of its own; none if it takes too long.
fn measure(row: usize, implementation: &str) -> Option<Duration> {
    let program = env::current_exe().expect("the program's own path");
    let mut child = Command::new(program)
        .args([&row.to_string(), implementation])
        .stdout(Stdio::piped())
        .spawn()
        .expect("a process for the row");
    let start = Instant::now();
    while start.elapsed() < MOST_TIME {
        if child.try_wait().expect("the row's process").is_some() {
            let output = child.wait_with_output().expect("the row's output");
            let nanoseconds = String::from_utf8_lossy(&output.stdout).trim().parse().expect("a number of nanoseconds");
            return Some(Duration::from_nanos(nanoseconds));
        }
        std::thread::sleep(Duration::from_millis(5));
    }
    child.kill().expect("the row's process ends");
    child.wait().expect("the row's process has ended");
    None
}

fn shown(time: Option<Duration>) -> String {
    match time.map(|time| time.as_secs_f64()) {
        None => format!("above {} s", MOST_TIME.as_secs()),
        Some(seconds) if seconds < 1e-6 => format!("{:.1} ns", seconds * 1e9),
        Some(seconds) if seconds < 1e-3 => format!("{:.1} µs", seconds * 1e6),
        Some(seconds) if seconds < 1.0 => format!("{:.1} ms", seconds * 1e3),
        Some(seconds) => format!("{seconds:.2} s"),
    }
}

// ---------------------------------------------------------------------------------------------------------------------
// Lists and rules
// ---------------------------------------------------------------------------------------------------------------------

fn question(left: u32, right: u32, gap: u32) -> [u32; 2] {
    [Term { field: left, steps: 0 }.word(), Term { field: right, steps: gap }.word()]
}

/// A survey of questions in document 01's order.
fn survey(n: u32, questions: impl Iterator<Item = [u32; 2]>) -> Survey {
    Survey { n, order: FIELDS_FIRST, list: in_order(FIELDS_FIRST, questions.collect()) }
}

/// Sixteen fields, each against zero, and four pairs: 20 questions of which few are ever forced, so that walks are long.
fn wide() -> Survey {
    let zeros = (1..=16).map(|field| question(field, 0, 0));
    let pairs = [2, 4, 6, 8].map(|field| question(field, field - 1, 0));
    survey(16, zeros.chain(pairs))
}

/// Sixteen fields in a chain with gaps, and five against numbers: hardly any question is forced, so that walks are as long as they get.
fn chain() -> Survey {
    let links = (2..=16).map(|field| question(field, field - 1, field));
    let numbers = [1, 5, 8, 11, 14].map(|field| question(field, 0, 3 * (field - 1)));
    survey(16, links.chain(numbers))
}

/// Fifteen fields in such a chain, five against numbers, and field 16 against zero, which is the last question.
fn chain_beside_one() -> Survey {
    let links = (2..=15).map(|field| question(field, field - 1, field));
    let numbers = [1, 5, 8, 11, 14].map(|field| question(field, 0, 3 * (field - 1)));
    survey(16, links.chain(numbers).chain([question(16, 0, 0)]))
}

/// Thirteen fields, each against zero, five pairs of them, and field 16 against 14 and 15, which are the last two questions.
fn wide_beside_three() -> Survey {
    let zeros = (1..=13).map(|field| question(field, 0, 0));
    let pairs = [2, 4, 6, 8, 10].map(|field| question(field, field - 1, 0));
    survey(16, zeros.chain(pairs).chain([question(16, 14, 0), question(16, 15, 0)]))
}

/// All pairs of six fields, and five of these against zero: 20 questions with many forced ones and large diagrams.
fn dense() -> Survey {
    let pairs = (2..=6).flat_map(|left| (1..left).map(move |right| question(left, right, 0)));
    let zeros = (2..=6).map(|field| question(field, 0, 0));
    survey(6, pairs.chain(zeros))
}

/// One field against 20 numbers: walks are short, so that the entries of the store count.
fn one_field() -> Survey {
    survey(1, (0..20).map(|number| question(1, 0, number)))
}

/// A rule, and that all of the list words' questions are true.
fn and_all(mut rule: Vec<u32>, list: &[u32]) -> Vec<u32> {
    for pair in list.chunks(2) {
        let own = (rule.len() / 4) as u32;
        rule.extend([[2, pair[0], pair[1], 0], [4, own - 1, own, 0]].concat());
    }
    rule
}

/// The rule that all of the list words' questions are true.
fn all_of(list: &[u32]) -> Vec<u32> {
    and_all(vec![1, 0, 0, 0], list)
}

/// The largest table: 256 times the equation of two fields, with steps on both sides that simplifying takes off.
fn largest_table(steps: u32) -> Vec<u32> {
    let [left, right] = [2, 1].map(|field| Term { field, steps }.word());
    [2, left, right, 0].repeat(MOST_ROWS)
}

/// The parity of all but so many of the list's last questions, and that these are true.
fn parity_and_last(list: &[u32], last: usize) -> Vec<u32> {
    let (others, last) = list.split_at(list.len() - 2 * last);
    and_all(parity_rule(others), last)
}

fn opened(survey: &Survey, room: usize) -> Vec<u32> {
    let mut store = vec![0; HEADING + survey.list.len() + 3 * room];
    assert_eq!(Fast.open(survey.n, survey.order, &survey.list, &mut store).number, 0);
    store
}

/// A store of 20 questions about one field with as many entries as wanted, and room for all.
fn filled(entries: usize) -> Vec<u32> {
    let survey = one_field();
    let mut store = store_of(&survey, &sound_entries(&mut Random::new(1), 20, entries, None));
    assert_eq!(store[2] as usize, entries);
    store.resize(HEADING + survey.list.len() + 3 * MOST_ENTRIES, 0);
    store
}

/// A store of the dense list with diagrams of tangled rules, and their handles.
fn tangled() -> (Vec<u32>, [u32; 3]) {
    let survey = dense();
    let mut store = opened(&survey, MOST_ENTRIES);
    let mut random = Random::new(7);
    let handles = [0; 3].map(|_| {
        let answer = Fast.build(&mut store, &tangled_rule(&mut random, &survey, 200));
        assert!(answer.number == 0 && answer.result > 1);
        answer.result
    });
    (store, handles)
}

// ---------------------------------------------------------------------------------------------------------------------
// Rows
// ---------------------------------------------------------------------------------------------------------------------

/// Runs that change a store: it is put back before each, and the call has to be accepted.
fn changing(store: Vec<u32>, call: impl Fn(&dyn Operations, &mut [u32]) -> u32 + 'static) -> Run {
    let mut lent = store.clone();
    Box::new(move |operations| {
        lent.copy_from_slice(&store);
        let start = Instant::now();
        let number = call(operations, black_box(&mut lent));
        let time = start.elapsed();
        assert_eq!(number, 0);
        time
    })
}

fn building(survey: Survey, rule: Vec<u32>) -> Run {
    changing(opened(&survey, MOST_ENTRIES), move |operations, store| operations.build(store, &rule).number)
}

/// Simplifies 1,000 equations of any fields, whose terms have steps from a range.
fn simplifying(fewest: u32, most: u32) -> Run {
    let mut random = Random::new(3);
    let term = |random: &mut Random| Term { field: random.below(17), steps: random.between(fewest, most) }.word();
    let pairs: Vec<(u32, u32)> = (0..1000).map(|_| (term(&mut random), term(&mut random))).collect();
    Box::new(move |operations| {
        let start = Instant::now();
        for (a, b) in &pairs {
            black_box(operations.simplify(*a, *b));
        }
        start.elapsed()
    })
}

/// Runs that write nothing, so that nothing has to be put back: the call has to be answered rightly.
fn asking(call: impl Fn(&dyn Operations) -> Answer + 'static, is_right: impl Fn(Answer) -> bool + 'static) -> Run {
    Box::new(move |operations| {
        let start = Instant::now();
        let answer = call(operations);
        let time = start.elapsed();
        assert!(is_right(answer));
        time
    })
}

/// Checks a table of diagrams whose root is its last entry.
fn checking(entries: &[Entry], number: u32) -> Run {
    let (table, root) = (entries.concat(), last(entries));
    asking(
        move |operations| operations.check_normal_form(black_box(&table), root),
        move |answer| answer.number == number,
    )
}

fn row(group: &'static str, name: impl Into<String>, prepare: impl Fn() -> Run + 'static) -> Row {
    Row { group, name: name.into(), prepare: Box::new(prepare) }
}

fn rows() -> Vec<Row> {
    let mut rows = small_rows();
    rows.extend(build_rows());
    rows.extend(handle_rows());
    rows.extend(blank_rows());
    rows.extend(growth_rows());
    rows.extend(check_rows());
    rows
}

fn small_rows() -> Vec<Row> {
    const GROUP: &str = "Terms, opening and the test of a store";
    vec![
        row(GROUP, "simplify, 1,000 pairs of terms", || simplifying(0, MOST_STEPS)),
        row(GROUP, "simplify, 1,000 pairs of terms with no steps", || simplifying(0, 0)),
        row(GROUP, "simplify, 1,000 pairs of terms with 1,023 steps each", || simplifying(MOST_STEPS, MOST_STEPS)),
        row(GROUP, "open, 20 questions, room for 4,096 entries", || {
            let survey = wide();
            changing(opened(&survey, MOST_ENTRIES), move |operations, store| {
                operations.open(survey.n, survey.order, &survey.list, store).number
            })
        }),
        row(GROUP, "open raw, the same falling, turned round, each three times: 60 equations", || {
            let survey = wide();
            // Read backwards the list falls, and its equations are turned round.
            let falling: Vec<u32> = survey.list.iter().rev().copied().collect();
            let raw = falling.repeat(3);
            changing(opened(&survey, MOST_ENTRIES), move |operations, store| {
                operations.open_raw(survey.n, survey.order, &raw, store).number
            })
        }),
        row(GROUP, "verdict of never: the soundness test of 4,096 entries", || {
            let store = filled(MOST_ENTRIES);
            changing(store, |operations, store| operations.verdict(store, 0).number)
        }),
        row(GROUP, "read a sheet in a store of 4,096 entries", || {
            let store = filled(MOST_ENTRIES);
            changing(store, |operations, store| operations.read(store, MOST_ENTRIES as u32 + 1, &[9]).number)
        }),
    ]
}

fn build_rows() -> Vec<Row> {
    const SMALL: &str = "Build: small rules, 16 fields, 20 questions";
    const LARGE: &str = "Build: large rules";
    let mut rows = Vec::new();
    for count in [1, 3, 6] {
        rows.push(row(SMALL, format!("the first {count} of the questions, all true"), move || {
            building(wide(), all_of(&wide().list[..2 * count]))
        }));
    }
    for count in [1, 3, 6] {
        rows.push(row(SMALL, format!("the last {count} of the questions, all true"), move || {
            let list = wide().list;
            building(wide(), all_of(&list[list.len() - 2 * count..]))
        }));
    }
    for (steps, named) in [(0, "no steps"), (MOST_STEPS, "1,023 steps on both sides")] {
        rows.push(row(SMALL, format!("256 rows, each an equation with {named}"), move || {
            building(wide(), largest_table(steps))
        }));
    }
    rows.push(row(LARGE, "six fields, parity of 20 questions", || building(dense(), parity_rule(&dense().list))));
    rows.push(row(LARGE, "six fields, 20 questions, 200 tangled rows", || {
        building(dense(), tangled_rule(&mut Random::new(7), &dense(), 200))
    }));
    rows.push(row(LARGE, "16 fields, parity of 20 questions", || building(wide(), parity_rule(&wide().list))));
    rows.push(row(LARGE, "16 fields in a chain, parity of 20 questions", || {
        building(chain(), parity_rule(&chain().list))
    }));
    rows
}

fn handle_rows() -> Vec<Row> {
    const GROUP: &str = "Handles of large diagrams: six fields, 20 questions, three rules of 200 tangled rows";
    let tangled_row = |name: &'static str, call: fn(&dyn Operations, &mut [u32], [u32; 3]) -> u32| {
        row(GROUP, name, move || {
            let (store, handles) = tangled();
            changing(store, move |operations, store| call(operations, store, handles))
        })
    };
    vec![
        tangled_row("negate", |operations, store, [a, _, _]| operations.negate(store, a).number),
        tangled_row("join", |operations, store, [a, b, _]| operations.join(store, a, b).number),
        tangled_row("choose", |operations, store, [a, b, c]| operations.choose(store, a, b, c).number),
        tangled_row("verdict", |operations, store, [a, _, _]| operations.verdict(store, a).number),
        tangled_row("example", |operations, store, [a, _, _]| operations.example(store, a, &mut [0; 6]).number),
        tangled_row("read", |operations, store, [a, _, _]| operations.read(store, a, &[1, 0, 2, 1, 1, 0]).number),
        tangled_row("read, one field blank", |operations, store, [a, _, _]| {
            operations.read(store, a, &[1, 0, 2, BLANK, 1, 0]).number
        }),
        tangled_row("read, all fields blank", |operations, store, [a, _, _]| {
            operations.read(store, a, &[BLANK; 6]).number
        }),
    ]
}

/// Reads a sheet, of which no filling satisfies the rule.
fn reading_never(survey: Survey, rule: Vec<u32>, sheet: [u16; 16]) -> Run {
    let mut store = opened(&survey, MOST_ENTRIES);
    let built = Fast.build(&mut store, &rule);
    assert!(built.number == 0 && built.result > 1);
    asking(
        move |operations| operations.read(black_box(&store), built.result, &sheet),
        |answer| answer.number == 0 && answer.result == 0,
    )
}

/// A sheet of 16 fields on which these alone were counted.
fn counted<const N: usize>(counts: [(usize, u16); N]) -> [u16; 16] {
    let mut sheet = [BLANK; 16];
    for (field, count) in counts {
        sheet[field - 1] = count;
    }
    sheet
}

fn blank_rows() -> Vec<Row> {
    const GROUP: &str =
        "Reading where no filling satisfies the rule, so that every way is walked: 16 fields, 20 questions";
    vec![
        row(
            GROUP,
            "parity of 19 questions over fields 1 to 15, and 16 = 0; field 16 counted 5, the others blank",
            || {
                let survey = wide();
                let rule = parity_and_last(&survey.list, 1);
                reading_never(survey, rule, counted([(16, 5)]))
            },
        ),
        row(GROUP, "the same with fields 1 to 15 in a chain", || {
            let survey = chain_beside_one();
            let rule = parity_and_last(&survey.list, 1);
            reading_never(survey, rule, counted([(16, 5)]))
        }),
        row(
            GROUP,
            "parity of 18 questions over fields 1 to 13, and 16 = 14 and 16 = 15; 14 counted 5, 15 counted 9",
            || {
                let survey = wide_beside_three();
                let rule = parity_and_last(&survey.list, 2);
                reading_never(survey, rule, counted([(14, 5), (15, 9)]))
            },
        ),
    ]
}

fn growth_rows() -> Vec<Row> {
    const QUESTIONS: &str =
        "Growth with the number of questions: 16 fields, parity of the first q of a list of q questions";
    const ENTRIES: &str = "Growth with the number of entries in the store: one field, 20 questions";
    let mut rows = Vec::new();
    for count in [4, 8, 12, 16, 20] {
        rows.push(row(QUESTIONS, format!("q = {count}"), move || {
            let mut survey = wide();
            survey.list.truncate(2 * count);
            let rule = parity_rule(&survey.list);
            building(survey, rule)
        }));
    }
    for entries in [0, 256, 1024, MOST_ENTRIES - 1] {
        rows.push(row(ENTRIES, format!("the soundness test, {entries} entries"), move || {
            changing(filled(entries), |operations, store| operations.verdict(store, 0).number)
        }));
    }
    for entries in [0, 256, 1024, MOST_ENTRIES - 40] {
        rows.push(row(ENTRIES, format!("build parity of 20 questions, {entries} entries"), move || {
            let rule = parity_rule(&one_field().list);
            changing(filled(entries), move |operations, store| operations.build(store, &rule).number)
        }));
    }
    rows
}

/// Sixteen fields with many shared parts: a normal form of 4,096 entries.
fn shared_parts() -> Vec<Entry> {
    normal_forms::large(&mut Random::new(9), MOST_ENTRIES)
}

/// The same with field 1 named far below the root, which asks 1 = 0: the first entry that asks of field 2 and a number asks of field 1 plus
/// this number instead. Rule 8' applies at the root, the last entry, and nowhere else.
fn named_far_below() -> Vec<Entry> {
    let mut entries = shared_parts();
    let of_second = entries.iter_mut().find(|entry| entry[0] == 2).expect("an entry about field 2");
    of_second[1] += 1;
    entries
}

/// Field 16 against the others, in a chain; the yes part of the root, 16 = 0, names field 16 as well.
fn last_field_again() -> Vec<Entry> {
    let equations = (0..MOST_ENTRIES as u32).rev().map(|number| question(16, number / 256, number % 256));
    let mut entries: Vec<Entry> = Vec::new();
    for [left, right] in equations {
        let below = if entries.is_empty() { 0 } else { last(&entries) };
        entries.push([left, right, 1, below]);
    }
    entries[MOST_ENTRIES - 1][2] = FIRST_ENTRY;
    entries
}

fn check_rows() -> Vec<Row> {
    const GROUP: &str = "Checking another tool's diagram of 4,096 entries";
    vec![
        row(GROUP, "accepted: one field against 4,096 numbers", || {
            checking(&normal_forms::chain(MOST_ENTRIES as u32), 0)
        }),
        row(GROUP, "accepted: 16 fields, shared parts", || checking(&shared_parts(), 0)),
        row(GROUP, "84: the same, the last two entries equal", || {
            let mut entries = shared_parts();
            entries[MOST_ENTRIES - 1] = entries[MOST_ENTRIES - 2];
            checking(&entries, 84)
        }),
        row(GROUP, "86: the same, rule 8' at the root", || checking(&named_far_below(), 86)),
        row(GROUP, "86: field 16 against the others, rule 8' at the root", || checking(&last_field_again(), 86)),
    ]
}
