//! Two rules of a whale survey, and what the library says of them.

use sheet::{Count, Field, Order, Rule, Store, ZERO};

fn main() -> Result<(), sheet::Refusal> {
    let (adults, calves, recount) = (Field(1), Field(2), Field(3));
    let no_adults = adults.equals(ZERO);
    let no_calves = calves.equals(ZERO);
    let same = recount.equals(adults);
    let one_more = recount.equals(adults + 1);
    let mut store = Store::open_raw(3, Order::FieldsFirst, [same, one_more, no_adults, no_calves], 100)?;

    // The recount is the first count or one more. No adults, no calves.
    let close = store.build(&(Rule::from(same) | one_more.into()))?;
    let family = store.build(&Rule::if_then_else(no_adults.into(), no_calves.into(), Rule::Always))?;
    let both = store.join(close, family)?;
    println!("both rules: handle {}, {:?}, example {:?}", both.number(), store.verdict(both)?, store.example(both)?);

    // The second rule in other words has the same handle.
    let other_words = store.build(&!(Rule::from(no_adults) & !Rule::from(no_calves)))?;
    println!("family: handle {}, in other words: handle {}", family.number(), other_words.number());

    let broken = store.negate(both)?;
    println!("the first sheet that breaks a rule: {:?}", store.example(broken)?);

    // Sheets, the last two of them with a field that was not counted.
    let count = |number: u8| Some(Count::from(number));
    println!("4 adults, 1 calf, recount 6: {:?}", store.read(both, &[count(4), count(1), count(6)])?);
    println!("4 adults, recount 5: {:?}", store.read(both, &[count(4), None, count(5)])?);
    println!("1 calf, recount 1: {:?}", store.read(both, &[None, count(1), count(1)])?);

    let refusal = store.build(&calves.equals(ZERO + 1_100).into()).unwrap_err();
    println!("refused with {}: {refusal}", refusal.number());
    Ok(())
}
