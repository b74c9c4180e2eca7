//! The ledger of document 01's handle law: each returned handle with its rule, by meaning.

use std::rc::Rc;

use independent::{sheets_by_bounds, sheets_by_counting, Answer, Term, ALWAYS, FIRST_ENTRY, HEADING, NEVER};

use crate::calls::Call;
use crate::comparison::{bounds_are_affordable, counting_is_affordable, questions_of};
use crate::generate::Survey;

/// A rule's truth on each of the sheets that stand for all choices of counts.
type Meaning = Rc<[bool]>;

pub struct Ledger {
    /// For each possible combination of answers to the list's questions one sheet that gives it. Two rules over the list are alike
    /// under every choice of counts if and only if they are alike on these.
    sheets: Vec<Vec<u64>>,
    pairs: Vec<(u32, Meaning)>,
}

impl Ledger {
    /// A ledger for a store just opened, or none if there are too many combinations of answers.
    pub fn new(survey: &Survey) -> Option<Ledger> {
        let questions = questions_of(&survey.list);
        let sheets = if counting_is_affordable(survey.n, &questions) {
            sheets_by_counting(survey.n, &questions)
        } else if bounds_are_affordable(survey.n, &questions) {
            sheets_by_bounds(survey.n, &questions)
        } else {
            return None;
        };
        let never = sheets.iter().map(|_| false).collect();
        let always = sheets.iter().map(|_| true).collect();
        Some(Ledger { sheets, pairs: vec![(NEVER, never), (ALWAYS, always)] })
    }

    /// Enters an accepted call, given the words that were lent to it.
    pub fn enter(&mut self, call: &Call, lent: &[u32], answer: Answer) {
        if answer.number != 0 {
            return;
        }
        let meaning: Meaning = match call {
            Call::Build { rule } | Call::LoggerBuild { rule } => {
                self.sheets.iter().map(|sheet| rule_holds(rule, sheet)).collect()
            }
            Call::Negate(a) => self.meaning(*a, lent).iter().map(|a| !a).collect(),
            Call::Join(a, b) => {
                let (a, b) = (self.meaning(*a, lent), self.meaning(*b, lent));
                a.iter().zip(b.iter()).map(|(a, b)| *a && *b).collect()
            }
            Call::Choose(a, b, c) => {
                let [a, b, c] = [a, b, c].map(|handle| self.meaning(*handle, lent));
                (0..a.len()).map(|i| if a[i] { b[i] } else { c[i] }).collect()
            }
            _ => return,
        };
        self.pairs.push((answer.result, meaning));
    }

    /// A given handle's rule: that of its latest pair, or the meaning by the words lent if it is in none.
    fn meaning(&self, handle: u32, lent: &[u32]) -> Meaning {
        match self.pairs.iter().rev().find(|(known, _)| *known == handle) {
            Some((_, meaning)) => Rc::clone(meaning),
            None => self.sheets.iter().map(|sheet| handle_holds(handle, lent, sheet)).collect(),
        }
    }

    /// The handle law: any two pairs have equal handles exactly if their rules are alike in truth. Gives how many pairs of pairs
    /// there are, or two that break the law.
    pub fn check_law(&self) -> Result<u64, String> {
        let mut compared = 0;
        for (i, (handle, meaning)) in self.pairs.iter().enumerate() {
            for (j, (other_handle, other_meaning)) in self.pairs.iter().enumerate().take(i) {
                compared += 1;
                if (handle == other_handle) != (meaning == other_meaning) {
                    return Err(format!("pairs {j} and {i} of the ledger, with handles {other_handle} and {handle}"));
                }
            }
        }
        Ok(compared)
    }
}

fn value(word: u32, sheet: &[u64]) -> u64 {
    let Term { field, steps } = Term::of_word(word);
    let count = if field == 0 { 0 } else { sheet[field as usize - 1] };
    count + u64::from(steps)
}

/// The truth of an accepted rule table's last row, its equations taken as they stand.
fn rule_holds(rule: &[u32], sheet: &[u64]) -> bool {
    let mut truth: Vec<bool> = Vec::with_capacity(rule.len() / 4);
    for row in rule.chunks(4) {
        let [kind, a, b, c] = [row[0], row[1], row[2], row[3]];
        truth.push(match kind {
            0 => false,
            1 => true,
            2 => value(a, sheet) == value(b, sheet),
            3 => !truth[a as usize],
            4 => truth[a as usize] && truth[b as usize],
            _ => truth[if truth[a as usize] { b } else { c } as usize],
        });
    }
    truth[truth.len() - 1]
}

/// A handle's truth by the words of a sound store.
fn handle_holds(mut handle: u32, store: &[u32], sheet: &[u64]) -> bool {
    let entries = HEADING + 2 * store[1] as usize;
    while handle >= FIRST_ENTRY {
        let at = entries + 3 * (handle - FIRST_ENTRY) as usize;
        let question = HEADING + 2 * (store[at] as usize - 1);
        let yes = value(store[question], sheet) == value(store[question + 1], sheet);
        handle = store[if yes { at + 1 } else { at + 2 }];
    }
    handle == ALWAYS
}
