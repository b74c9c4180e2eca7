//! The proved library in the form that the independent implementation has.

use independent::{Answer, Operations, SimplifyAnswer};
use sheet::words;

/// The fourteen operations of libsheet.a.
pub struct Library;

fn answer(answer: words::Answer) -> Answer {
    Answer { number: answer.number, result: answer.result }
}

impl Operations for Library {
    fn simplify(&self, a: u32, b: u32) -> SimplifyAnswer {
        let words::SimplifyAnswer { number, result, left, right, gap } = words::simplify(a, b);
        SimplifyAnswer { number, result, left, right, gap }
    }

    fn open(&self, n: u32, order: u32, list: &[u32], store: &mut [u32]) -> Answer {
        answer(words::open(n, order, list, store))
    }

    fn open_raw(&self, n: u32, order: u32, raw: &[u32], store: &mut [u32]) -> Answer {
        answer(words::open_raw(n, order, raw, store))
    }

    fn build(&self, store: &mut [u32], rule: &[u32]) -> Answer {
        answer(words::build(store, rule))
    }

    fn logger_open(&self, n: u32, order: u32, list: &[u32], store: &mut [u32]) -> Answer {
        answer(words::logger_open(n, order, list, store))
    }

    fn logger_build(&self, store: &mut [u32], rule: &[u32]) -> Answer {
        answer(words::logger_build(store, rule))
    }

    fn negate(&self, store: &mut [u32], a: u32) -> Answer {
        answer(words::negate(store, a))
    }

    fn join(&self, store: &mut [u32], a: u32, b: u32) -> Answer {
        answer(words::join(store, a, b))
    }

    fn choose(&self, store: &mut [u32], a: u32, b: u32, c: u32) -> Answer {
        answer(words::choose(store, a, b, c))
    }

    fn verdict(&self, store: &[u32], a: u32) -> Answer {
        answer(words::verdict(store, a))
    }

    fn example(&self, store: &[u32], a: u32, sheet: &mut [u16]) -> Answer {
        answer(words::example(store, a, sheet))
    }

    fn read(&self, store: &[u32], a: u32, sheet: &[u16]) -> Answer {
        answer(words::read(store, a, sheet))
    }

    fn write_back(&self, store: &[u32], a: u32, rule: &mut [u32]) -> Answer {
        answer(words::write_back(store, a, rule))
    }

    fn check_normal_form(&self, table: &[u32], root: u32) -> Answer {
        answer(words::check_normal_form(table, root))
    }
}
