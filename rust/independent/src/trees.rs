//! Tables of diagrams as document 000 has diagrams: trees. Once more the check of Definition 28, and the paths of a tree with the sheets that
//! follow them. A table can have very many paths, so all of this is for small ones.

use std::collections::{BTreeMap, BTreeSet};
use std::rc::Rc;

use crate::plain::{fits, largest_count, next_sheet, rank, simplified, value, Fact, Question, Simplified};
use crate::refusal::*;
use crate::{Term, ALWAYS, FIRST_ENTRY, MOST_CHECKED_STEPS, MOST_ENTRIES, MOST_FIELDS, NEVER};

/// A diagram by Definition 1: a leaf, or an equation with a yes part and a no part.
#[derive(PartialEq, Eq)]
enum Tree {
    Leaf(bool),
    If(Question, Rc<Tree>, Rc<Tree>),
}

fn equation(entry: &[u32]) -> Question {
    (Term::of_word(entry[0]), Term::of_word(entry[1]))
}

/// The tree of a handle. Each entry must name lower handles only.
fn tree(table: &[u32], root: u32) -> Rc<Tree> {
    let mut trees = vec![Rc::new(Tree::Leaf(false)), Rc::new(Tree::Leaf(true))];
    for entry in table.chunks_exact(4) {
        let [yes, no] = [entry[2], entry[3]].map(|part| Rc::clone(&trees[part as usize]));
        trees.push(Rc::new(Tree::If(equation(entry), yes, no)));
    }
    Rc::clone(&trees[root as usize])
}

/// How many leaves the tree of a handle has, each path counted; the largest number if there are more. A handle that isn't
/// lower than its entry's own counts as a leaf: no tree is made then.
pub fn leaves(table: &[u32], root: u32) -> u64 {
    let mut leaves: Vec<u64> = vec![1, 1];
    for entry in table.chunks_exact(4) {
        let [yes, no] = [entry[2], entry[3]].map(|part| leaves.get(part as usize).copied().unwrap_or(1));
        leaves.push(yes.saturating_add(no));
    }
    leaves.get(root as usize).copied().unwrap_or(1)
}

impl Tree {
    /// The first equation.
    fn guard(&self) -> Option<&Question> {
        match self {
            Tree::Leaf(_) => None,
            Tree::If(guard, _, _) => Some(guard),
        }
    }

    /// Whether an equation that the condition holds of stands anywhere in the tree.
    fn any_guard(&self, condition: &dyn Fn(&Question) -> bool) -> bool {
        match self {
            Tree::Leaf(_) => false,
            Tree::If(guard, yes, no) => condition(guard) || yes.any_guard(condition) || no.any_guard(condition),
        }
    }

    /// Whether one of Definition 28's rules can be used on the tree or on a part of it.
    fn can_be_rewritten(&self) -> bool {
        let Tree::If(guard, yes, no) = self else { return false };
        // Rules 4 to 7: the same equation again, or one below.
        let out_of_order = |part: &Tree| part.guard().is_some_and(|next| rank(next) <= rank(guard));
        // Rule 8': the left field in an equation above.
        let left = guard.0.field;
        let replaceable = |next: &Question| [next.0.field, next.1.field].contains(&left) && rank(guard) < rank(next);
        yes == no
            || out_of_order(yes)
            || out_of_order(no)
            || yes.any_guard(&replaceable)
            || yes.can_be_rewritten()
            || no.can_be_rewritten()
    }

    fn holds(&self, counts: &[u64]) -> bool {
        match self {
            Tree::Leaf(truth) => *truth,
            Tree::If(guard, yes, no) => if is_true(guard, counts) { yes } else { no }.holds(counts),
        }
    }
}

fn is_true((left, right): &Question, counts: &[u64]) -> bool {
    value(*left, counts) == value(*right, counts)
}

/// The handles that can be reached from the root, found by going through the table until no more are added.
fn reachable(table: &[u32], root: u32) -> BTreeSet<u32> {
    let mut reached = BTreeSet::from([root]);
    loop {
        let before = reached.len();
        for (own, entry) in (FIRST_ENTRY..).zip(table.chunks_exact(4)) {
            if reached.contains(&own) {
                reached.extend(&entry[2..]);
            }
        }
        if reached.len() == before {
            return reached;
        }
    }
}

/// The root's verdict, or the first of 81 to 86 that the table meets.
pub(crate) fn check(table: &[u32], root: u32) -> Result<u32, u32> {
    let entries: Vec<&[u32]> = table.chunks_exact(4).collect();
    if !table.len().is_multiple_of(4) || entries.len() > MOST_ENTRIES || root as usize >= entries.len() + 2 {
        return Err(TABLE_SHAPE);
    }
    let within = |term: Term| term.field <= MOST_FIELDS && term.steps <= MOST_CHECKED_STEPS;
    for (left, right) in entries.iter().map(|entry| equation(entry)) {
        if !within(left) || !within(right) || simplified(left, right) != Simplified::Question((left, right)) {
            return Err(TABLE_EQUATION);
        }
    }
    if entries.iter().enumerate().any(|(i, entry)| entry[2..].iter().any(|part| *part as usize >= i + 2)) {
        return Err(HANDLE_NOT_LOWER);
    }
    if entries.iter().enumerate().any(|(i, entry)| entries[..i].contains(entry)) {
        return Err(EQUAL_ENTRIES);
    }
    let reached = reachable(table, root);
    if (FIRST_ENTRY..).take(entries.len()).any(|handle| !reached.contains(&handle)) {
        return Err(NOT_REACHABLE);
    }
    let tree = tree(table, root);
    if tree.can_be_rewritten() {
        return Err(NOT_NORMAL_FORM);
    }
    Ok(match *tree {
        Tree::Leaf(truth) => u32::from(truth),
        Tree::If(..) => 2,
    })
}

/// A path from the root to a leaf: its equations with the answers, and the leaf.
#[derive(Clone, Debug)]
pub struct Path {
    pub facts: Vec<(Question, bool)>,
    pub leaf: bool,
}

/// The paths of a table's diagram. Each entry must name lower handles only. The fields that the table names are numbered anew from 1, in
/// their order, so that no sheet is tried for fields that don't matter.
pub struct Paths {
    tree: Rc<Tree>,
    fields: u32,
    questions: Vec<Question>,
    paths: Vec<Path>,
}

impl Paths {
    pub fn new(table: &[u32], root: u32) -> Paths {
        let terms = table.chunks_exact(4).flat_map(|entry| [entry[0], entry[1]]).map(Term::of_word);
        let named: BTreeSet<u32> = terms.map(|term| term.field).collect();
        let numbers: BTreeMap<u32, u32> = named.into_iter().filter(|field| *field > 0).zip(1..).collect();
        let numbered_anew = |word: u32| {
            let term = Term::of_word(word);
            Term { field: numbers.get(&term.field).copied().unwrap_or(0), ..term }.word()
        };
        let table: Vec<u32> = table
            .chunks_exact(4)
            .flat_map(|entry| [numbered_anew(entry[0]), numbered_anew(entry[1]), entry[2], entry[3]])
            .collect();
        let questions = table.chunks_exact(4).map(equation).collect();
        let tree = tree(&table, root);
        let mut paths = Vec::new();
        add_paths(&tree, &mut Vec::new(), &mut paths);
        Paths { tree, fields: numbers.len() as u32, questions, paths }
    }

    /// How many sheets have counts up to n x (K + 1), n being the number of fields named and K the largest gap.
    pub fn sheets(&self) -> u64 {
        (largest_count(self.fields, &self.questions) + 1).saturating_pow(self.fields)
    }

    /// All these sheets. Larger counts give no further combination of answers, see [`largest_count`].
    fn all_sheets(&self) -> impl Iterator<Item = Vec<u64>> {
        let most = largest_count(self.fields, &self.questions);
        std::iter::successors(Some(vec![0; self.fields as usize]), move |counts| next_sheet(counts.clone(), most))
    }

    /// The first path that no sheet follows, found by trying all sheets for each path.
    pub fn unfollowed_by_counting(&self) -> Option<&Path> {
        let sheets: Vec<Vec<u64>> = self.all_sheets().collect();
        let follows = |path: &Path, sheet: &[u64]| path.facts.iter().all(|(guard, yes)| is_true(guard, sheet) == *yes);
        self.paths.iter().find(|path| !sheets.iter().any(|sheet| follows(path, sheet)))
    }

    /// The first path that no sheet follows, found by difference bounds.
    pub fn unfollowed_by_bounds(&self) -> Option<&Path> {
        self.paths.iter().find(|path| !fits(self.fields, &path.facts))
    }

    /// The verdict by meaning, found by trying all sheets.
    pub fn verdict_by_counting(&self) -> u32 {
        verdict(self.all_sheets().map(|sheet| self.tree.holds(&sheet)))
    }

    /// The verdict by meaning, found from the leaves of the paths that some sheet follows by difference bounds.
    pub fn verdict_by_bounds(&self) -> u32 {
        verdict(self.paths.iter().filter(|path| fits(self.fields, &path.facts)).map(|path| path.leaf))
    }
}

fn add_paths(tree: &Tree, facts: &mut Vec<Fact>, paths: &mut Vec<Path>) {
    match tree {
        Tree::Leaf(leaf) => paths.push(Path { facts: facts.clone(), leaf: *leaf }),
        Tree::If(guard, yes, no) => {
            for (part, answer) in [(yes, true), (no, false)] {
                facts.push((*guard, answer));
                add_paths(part, facts, paths);
                facts.pop();
            }
        }
    }
}

/// 0 if none is true, 1 if all are, else 2.
fn verdict(truths: impl Iterator<Item = bool>) -> u32 {
    let found: BTreeSet<bool> = truths.collect();
    match (found.contains(&false), found.contains(&true)) {
        (true, true) => 2,
        (false, true) => ALWAYS,
        _ => NEVER,
    }
}
