//! The check of another tool's diagrams: cases worked out by hand, all small tables, tables close to a normal form, and large ones.

use compare::comparison::Comparison;
use compare::generate::Size;
use compare::normal_forms::{self, chain, damaged, last, Entry, Lapse, FAULTS, LAPSES, SIZES};
use compare::random::Random;
use independent::{rules_that_apply, Paths, Term, FIRST_ENTRY, MOST_ENTRIES, NORMAL_FORM_RULES};

const NORMAL: (u32, u32) = (0, 2);

fn expect(comparison: &mut Comparison, words: &[u32], root: u32, expected: (u32, u32)) {
    let given = comparison.check_normal_form(words, root);
    comparison.test("a worked case of a diagram", (given.number, given.result) == expected, || {
        format!("root {root} of {words:?}: {given:?}, not {expected:?}")
    });
}

/// Each case is a table's entries and its root.
fn expect_all(comparison: &mut Comparison, expected: (u32, u32), cases: &[(&[Entry], u32)]) {
    for (entries, root) in cases {
        expect(comparison, entries.as_flattened(), *root, expected);
    }
}

pub fn worked_cases(comparison: &mut Comparison, _: &mut Random, _: u64) {
    shapes(comparison);
    normal_forms(comparison);
    rules(comparison);
    every_field(comparison);
    terms(comparison);
    handles(comparison);
    limits(comparison);
    unfollowed_paths(comparison);
}

/// 81: broken entries, and roots that are no handles. A leaf needs no entries.
fn shapes(comparison: &mut Comparison) {
    expect(comparison, &[], 0, (0, 0));
    expect(comparison, &[], 1, (0, 1));
    expect(comparison, &[], 2, (81, 0));
    expect(comparison, &[3, 2], 0, (81, 0));
    expect(comparison, &[3, 2, 1], 0, (81, 0));
    expect(comparison, &[3, 2, 1], 2, (81, 0));
    expect(comparison, &[3, 2, 1, 0, 3], 2, (81, 0));
    expect(comparison, &[3, 2, 1, 0, 3, 2], 2, (81, 0));
    expect(comparison, &[3, 2, 1, 0], 3, (81, 0));
    expect(comparison, &[3, 2, 1, 0], u32::MAX, (81, 0));
}

fn normal_forms(comparison: &mut Comparison) {
    let cases: [(&[Entry], u32); 13] = [
        // 000's Example 29, rewritten.
        (&[[67, 1, 1, 0], [66, 1, 2, 0]], 3),
        // 000's Example 36: the right field again; zero again.
        (&[[3, 1, 1, 0], [2, 1, 2, 0]], 3),
        (&[[3, 0, 1, 0], [2, 0, 2, 0]], 3),
        // The left field again, but where the equation is false.
        (&[[3, 2, 1, 0], [2, 1, 1, 2]], 3),
        (&[[2, 97, 1, 0], [2, 32, 0, 2]], 3),
        // Right fields are compared before left steps, these before right steps; steps ascend.
        (&[[3, 2, 1, 0], [35, 1, 1, 2]], 3),
        (&[[34, 1, 1, 0], [2, 33, 1, 2]], 3),
        (&[[66, 1, 1, 0], [34, 1, 1, 2]], 3),
        (&[[2, 65, 1, 0], [2, 33, 1, 2]], 3),
        // One entry, to either leaf; the least field.
        (&[[1, 0, 1, 0]], 2),
        (&[[3, 2, 1, 0]], 2),
        (&[[3, 2, 0, 1]], 2),
        // A part that both parts of the root share.
        (&[[4, 0, 1, 0], [3, 0, 2, 0], [2, 0, 2, 3]], 4),
    ];
    expect_all(comparison, NORMAL, &cases);
}

/// 86, rule by rule.
fn rules(comparison: &mut Comparison) {
    let cases: [(&[Entry], u32); 14] = [
        // 3, 4, 5, 6, 7.
        (&[[2, 1, 1, 1]], 2),
        (&[[2, 1, 1, 0], [2, 1, 2, 1]], 3),
        (&[[2, 1, 1, 0], [2, 1, 1, 2]], 3),
        (&[[2, 1, 1, 0], [3, 1, 2, 1]], 3),
        (&[[2, 1, 1, 0], [3, 1, 1, 2]], 3),
        // 7 again, by each number that is compared.
        (&[[35, 1, 1, 0], [3, 2, 1, 2]], 3),
        (&[[2, 33, 1, 0], [34, 1, 1, 2]], 3),
        (&[[34, 1, 1, 0], [66, 1, 1, 2]], 3),
        (&[[2, 33, 1, 0], [2, 65, 1, 2]], 3),
        // 8': 000's Example 29; below the yes part's root, by yes and by no, there also with a path that no sheet follows; the left
        // field on the left.
        (&[[3, 2, 1, 0], [66, 1, 2, 0]], 3),
        (&[[4, 2, 1, 0], [3, 1, 2, 0], [2, 1, 3, 0]], 4),
        (&[[4, 2, 1, 0], [3, 1, 1, 2], [2, 1, 3, 0]], 4),
        (&[[3, 2, 1, 0], [3, 1, 1, 2], [2, 1, 3, 0]], 4),
        (&[[2, 97, 1, 0], [2, 32, 2, 0]], 3),
    ];
    expect_all(comparison, (86, 0), &cases);
}

/// 8' for each field, named again on the left and on the right. Where the first equation is false it can be named again.
fn every_field(comparison: &mut Comparison) {
    for field in 1..=16 {
        let with_others = (1..=16).filter(|other| *other != field).map(|other| [field.max(other), field.min(other)]);
        for [left, right] in with_others.chain([[field, 32]]) {
            expect(comparison, &[left, right, 1, 0, field, 0, 2, 0], 3, (86, 0));
            expect(comparison, &[left, right, 1, 0, field, 0, 1, 2], 3, NORMAL);
        }
    }
}

/// 82: 4,096 steps, field 17, turned round, common steps, steps against zero, equal sides; and the largest terms that pass.
fn terms(comparison: &mut Comparison) {
    for [left, right] in [[2, 131_073], [131_074, 1], [17, 1], [1, 2], [34, 33], [33, 0], [2, 2]] {
        expect(comparison, &[left, right, 1, 0], 2, (82, 0));
    }
    for [left, right] in [[2, 131_041], [131_042, 1], [16, 131_055]] {
        expect(comparison, &[left, right, 1, 0], 2, NORMAL);
    }
}

/// 83 to 85. Each number is looked for in the whole table before the next.
fn handles(comparison: &mut Comparison) {
    let not_lower: [(&[Entry], u32); 5] = [
        (&[[2, 1, 2, 0]], 2),
        (&[[2, 1, 1, 2]], 2),
        (&[[2, 1, u32::MAX, 0]], 2),
        (&[[2, 1, 2, 0]; 2], 3),
        (&[[3, 2, 1, 0], [3, 2, 1, 0], [2, 1, 4, 0]], 4),
    ];
    expect_all(comparison, (83, 0), &not_lower);
    expect_all(comparison, (82, 0), &[(&[[2, 1, u32::MAX, 0], [2, 2, 1, 0]], 3)]);
    let twice = [[3, 2, 1, 0]; 2];
    expect_all(comparison, (84, 0), &[(&twice, 3), (&twice, 2)]);
    let unreachable: [(&[Entry], u32); 4] = [
        (&[[3, 2, 1, 0], [2, 1, 1, 0]], 3),
        (&[[3, 2, 1, 0], [2, 1, 2, 0]], 2),
        (&[[3, 2, 1, 0]], 1),
        (&[[2, 1, 1, 1], [3, 1, 1, 0]], 2),
    ];
    expect_all(comparison, (85, 0), &unreachable);
}

/// 4,096 entries, and one more of any kind.
fn limits(comparison: &mut Comparison) {
    let mut entries = chain(MOST_ENTRIES as u32);
    expect_all(comparison, NORMAL, &[(&entries, last(&entries))]);
    for further in [[2, 0, 1, last(&entries)], [1, 0, 0, 0], [u32::MAX; 4]] {
        entries.push(further);
        expect_all(comparison, (81, 0), &[(&entries, last(&entries)), (&entries, 0)]);
        entries.pop();
    }
}

/// That the search for a sheet on every path finds the paths that no sheet follows, in both ways.
fn unfollowed_paths(comparison: &mut Comparison) {
    let cases: [(&[Entry], bool); 5] = [
        // 1 = 0 and 1 = S(0); not 2 = 0, and 2 = 0.
        (&[[1, 32, 1, 0], [1, 0, 2, 0]], true),
        (&[[2, 0, 1, 0], [2, 0, 0, 2]], true),
        // 2 = 1, 3 = 1 and 4 = 2, but not 4 = 3.
        (&[[4, 3, 0, 1], [4, 2, 2, 0], [3, 1, 3, 0], [2, 1, 4, 0]], true),
        // 000's Example 29, where rule 8' applies though some sheet follows each path, and rewritten.
        (&[[3, 2, 1, 0], [66, 1, 2, 0]], false),
        (&[[67, 1, 1, 0], [66, 1, 2, 0]], false),
    ];
    for (entries, unfollowed) in cases {
        let paths = Paths::new(entries.as_flattened(), last(entries));
        let found = [paths.unfollowed_by_bounds().is_some(), paths.unfollowed_by_counting().is_some()];
        comparison.test("a path that no sheet follows, found in two ways", found == [unfollowed; 2], || {
            format!("{entries:?}: {found:?}")
        });
    }
}

/// Every simplified equation of up to three fields and one step.
fn small_equations() -> Vec<[u32; 2]> {
    let terms: Vec<u32> = (0..=3).flat_map(|field| [0, 1].map(|steps| Term { field, steps }.word())).collect();
    let pairs = terms.iter().flat_map(|left| terms.iter().map(move |right| [*left, *right]));
    let simplified = |[left, right]: &[u32; 2]| {
        let (left, right) = (Term::of_word(*left), Term::of_word(*right));
        left.field > right.field && left.steps.min(right.steps) == 0 && (right.field > 0 || left.steps == 0)
    };
    pairs.filter(simplified).collect()
}

/// Every table of two entries about these equations, with the last as root; and many of three.
pub fn all_small(comparison: &mut Comparison, random: &mut Random, cases: u64) {
    let equations = small_equations();
    let handles = |end: u32| (0..end).flat_map(move |yes| (0..end).map(move |no| [yes, no]));
    let entries = |end: u32| -> Vec<Entry> {
        let parts =
            |[left, right]: &[u32; 2]| handles(end).map(|[yes, no]| [*left, *right, yes, no]).collect::<Vec<_>>();
        equations.iter().flat_map(parts).collect()
    };
    let [first, second, third] = [2, 3, 4].map(entries);
    for below in &first {
        for above in &second {
            comparison.check_normal_form([*below, *above].as_flattened(), 3);
        }
    }
    for _ in 0..5 * cases {
        let table = [*random.pick(&first), *random.pick(&second), *random.pick(&third)];
        comparison.check_normal_form(table.as_flattened(), 4);
    }
}

/// With every root that there is, the first that there isn't, and the largest number.
fn every_root(comparison: &mut Comparison, words: &[u32]) {
    for root in (0..=words.len() as u32 / 4 + FIRST_ENTRY).chain([u32::MAX]) {
        comparison.check_normal_form(words, root);
    }
}

/// The root that belongs to a table: its last handle.
fn last_root(words: &[u32]) -> u32 {
    words.len() as u32 / 4 + FIRST_ENTRY - 1
}

fn grown(random: &mut Random, size: Size, lapse: Lapse) -> Vec<Entry> {
    let list = normal_forms::equations(random, size);
    let entries = normal_forms::grown(random, &list, lapse);
    // Now and then with the entries that the root doesn't reach.
    if random.one_in(12) {
        entries
    } else {
        normal_forms::reached(random, &entries)
    }
}

/// Normal forms, and tables that miss one narrowly. Each fault gives its number at least once, and each rule alone gives 86 at least once.
pub fn close_to_normal(comparison: &mut Comparison, random: &mut Random, cases: u64) {
    let mut faults_met = [false; FAULTS.len()];
    let mut rules_met = Vec::new();
    for i in 0..14 * cases as usize {
        let (size, lapse) = (*random.pick(&SIZES), LAPSES[i % LAPSES.len()]);
        let entries = grown(random, size, lapse);
        let words = entries.as_flattened();
        let root = last(&entries);
        comparison.check_normal_form(words, root);
        if let [rule] = rules_that_apply(words, root)[..] {
            rules_met.push(rule);
        }
        if random.one_in(8) && entries.len() <= 30 {
            every_root(comparison, words);
        }
        let fault = random.place(FAULTS.len());
        let words = damaged(random, &entries, FAULTS[fault].0);
        let answer = comparison.check_normal_form(&words, last_root(&words));
        faults_met[fault] |= answer.number == FAULTS[fault].1;
    }
    for (fault, met) in FAULTS.iter().zip(faults_met) {
        comparison.test("a fault that gives its number", met, || format!("{fault:?} was never met"));
    }
    for rule in NORMAL_FORM_RULES {
        let met = rules_met.contains(&rule);
        comparison.test("a rule that gives 86 by itself", met, || format!("{rule:?} was never met alone"));
    }
}

/// Tables of some hundred to 4,096 entries: chains, and many fields with shared parts; accepted, and with a fault.
pub fn large(comparison: &mut Comparison, random: &mut Random, cases: u64) {
    for i in 0..8 + cases as usize / 50 {
        let wanted = *random.pick(&[300, 1_000, MOST_ENTRIES - 1, MOST_ENTRIES]);
        let entries = if i % 4 == 0 { chain(wanted as u32) } else { normal_forms::large(random, wanted) };
        let answer = comparison.check_normal_form(entries.as_flattened(), last(&entries));
        comparison.test("a large normal form", (answer.number, answer.result) == NORMAL, || format!("{answer:?}"));
        for _ in 0..4 {
            let (fault, _) = *random.pick(&FAULTS);
            let words = damaged(random, &entries, fault);
            comparison.check_normal_form(&words, last_root(&words));
        }
        for root in [0, 1, 2, last(&entries) - 1, last(&entries) + 1] {
            comparison.check_normal_form(entries.as_flattened(), root);
        }
    }
}
