//! The typed interface gives what the words give, and every refusal that its types leave possible.

use sheet::{
    words, Count, DiagramEntry, DiagramTable, Equation, Field, Handle, Limits, LoggerStore, NotACount, Order, Question,
};
use sheet::{Reading, Refusal, Row, RowNumber, Rule, RuleTable, Simplified, Store, Verdict, ZERO};

fn pairs() -> [Equation; 3] {
    [Field(2).equals(Field(1)), Field(3).equals(Field(1)), Field(3).equals(Field(2))]
}

fn numbers(questions: u32) -> Vec<Equation> {
    (0..questions).map(|number| Field(1).equals(ZERO + number)).collect()
}

#[test]
fn opening_is_refused() {
    for order in Order::ALL {
        let refusal =
            |fields: u32, questions: &[Equation]| Store::open(fields, order, questions.iter().copied(), 1).unwrap_err();
        assert_eq!(refusal(17, &pairs()), Refusal::TooManyFields);
        assert_eq!(refusal(1, &numbers(21)), Refusal::TooManyQuestions);
        assert_eq!(refusal(2, &pairs()), Refusal::ListTerm);
        assert_eq!(refusal(3, &[Field(1).equals(ZERO + 1_024)]), Refusal::ListTerm);
        assert_eq!(refusal(3, &[Field(1).equals(Field(2))]), Refusal::NotSimplified);
        assert_eq!(refusal(3, &[pairs()[1], pairs()[0]]), Refusal::NotAscending);
    }
}

#[test]
fn equations_are_taken_as_they_come() {
    // Case 6's list on paper: 1 = 2, S(3) = S(1), 2 = 3, 2 = 1, 1 = 1 and S(2) = 0.
    let equations = [
        Field(1).equals(Field(2)),
        (Field(3) + 1).equals(Field(1) + 1),
        Field(2).equals(Field(3)),
        Field(2).equals(Field(1)),
        Field(1).equals(Field(1)),
        (Field(2) + 1).equals(ZERO),
    ];
    for order in Order::ALL {
        let store = Store::open_raw(3, order, equations, 4).unwrap();
        assert_eq!(store, Store::open(3, order, pairs(), 4).unwrap());
        assert_eq!((store.room(), store.as_words().len()), (4, 22));
        for listed in Order::ALL {
            let store = Store::open_raw(3, order, told_apart(listed), 2).unwrap();
            assert_eq!(store, Store::open(3, order, told_apart(order), 2).unwrap());
        }
    }
}

#[test]
fn what_remains_of_raw_equations_may_be_nothing() {
    let always = [(Field(1) + 1_023).equals(Field(1) + 1_023); 64];
    let store = Store::open_raw(1, Order::LeftFirst, always, 0).unwrap();
    assert_eq!(store.as_words(), [1, 0, 0, 1]);
    let none: [Question; 0] = [];
    assert_eq!(Store::open_raw(1, Order::LeftFirst, none, 0).unwrap(), store);
    assert_eq!(Store::open_raw(1, Order::LeftFirst, always, 7).unwrap().room(), 7);
    assert_eq!(Store::open_raw(1, Order::LeftFirst, always, usize::MAX).unwrap().room(), Limits::INSTITUTE.entries);
}

#[test]
fn a_raw_opening_is_refused() {
    for order in Order::ALL {
        let refusal = |fields: u32, equations: &[Equation]| {
            Store::open_raw(fields, order, equations.iter().copied(), 1).unwrap_err()
        };
        let one = Field(1).equals(Field(1));
        assert_eq!(refusal(17, &[one; 65]), Refusal::TooManyFields);
        assert_eq!(refusal(0, &[one; 65]), Refusal::TooManyEquations);
        assert_eq!(refusal(0, &[one; 64]), Refusal::ListTerm);
        assert_eq!(refusal(1, &[(Field(1) + 1_024).equals(Field(1) + 1_024)]), Refusal::ListTerm);
        assert_eq!(refusal(1, &numbers(21)), Refusal::TooManyQuestions);
        assert_eq!(refusal(1, &[numbers(21), vec![Field(2).equals(Field(1))]].concat()), Refusal::ListTerm);
    }
    assert_eq!(words::open_raw(1, 0, &[1], &mut [0; 6]).number, Refusal::OddList.number());
    assert_eq!(words::open_raw(1, 0, &[1, 0], &mut [0; 5]).number, Refusal::StoreTooShort.number());
    assert_eq!(words::open_raw(1, 2, &[1], &mut [0; 5]).number, Refusal::UnknownOrder.number());
}

#[test]
fn twenty_questions_of_sixty_equations_open() {
    let mut equations = [numbers(20), numbers(20), numbers(20)].concat();
    equations.reverse();
    for order in Order::ALL {
        let store = Store::open_raw(1, order, equations.clone(), 3).unwrap();
        assert_eq!(store, Store::open(1, order, numbers(20), 3).unwrap());
    }
}

/// S(3) = 1 and 3 = 2, as each order lists them.
fn told_apart(order: Order) -> [Equation; 2] {
    let [one_less, same] = [(Field(3) + 1).equals(Field(1)), Field(3).equals(Field(2))];
    match order {
        Order::FieldsFirst => [one_less, same],
        Order::LeftFirst => [same, one_less],
    }
}

#[test]
fn the_order_says_which_list_opens() {
    for (order, other) in [(Order::FieldsFirst, Order::LeftFirst), (Order::LeftFirst, Order::FieldsFirst)] {
        let store = Store::open(3, order, told_apart(order), 2).unwrap();
        assert_eq!(store.order(), order);
        assert!(store.questions().into_iter().map(Equation::from).eq(told_apart(order)));
        assert_eq!(Store::open(3, other, told_apart(order), 2), Err(Refusal::NotAscending));
    }
}

#[test]
fn an_unknown_order_is_refused() {
    let number = |n: u32, order: u32| words::open(n, order, &[2], &mut [0; 20]).number;
    assert_eq!(number(17, 2), Refusal::TooManyFields.number());
    assert_eq!(number(3, 2), Refusal::UnknownOrder.number());
    assert_eq!(number(3, u32::MAX), Refusal::UnknownOrder.number());
    assert_eq!(number(3, 1), Refusal::OddList.number());
}

#[test]
fn the_order_shapes_the_diagram_and_not_the_rule() {
    let [one_less, same] = told_apart(Order::FieldsFirst);
    let words_in = |order: Order| match order {
        Order::FieldsFirst => [3, 2, 2, 0, 35, 1, 3, 2, 2, 1, 0, 1, 0, 2],
        Order::LeftFirst => [3, 2, 2, 1, 3, 2, 35, 1, 2, 0, 1, 1, 2, 0],
    };
    for order in Order::ALL {
        let mut store = Store::open(3, order, told_apart(order), 2).unwrap();
        let only_same = store.build(&(Rule::from(same) & !Rule::from(one_less))).unwrap();
        assert_eq!(only_same.number(), 3);
        assert_eq!(store.as_words(), words_in(order));
        assert_eq!(store.example(only_same).unwrap(), [0, 0, 0]);

        let mut store = Store::open(3, order, told_apart(order), 2).unwrap();
        let both = store.build(&(Rule::from(same) & one_less.into())).unwrap();
        assert_eq!(store.verdict(both), Ok(Verdict::Sometimes));
        assert_eq!(store.example(both).unwrap(), [1, 0, 0]);
    }
}

#[test]
fn a_list_that_ascends_in_both_orders_opens_in_both() {
    let entries = [2, 1, 0, 3, 1, 0, 2, 0, 3, 1, 2, 4];
    for order in Order::ALL {
        let mut store = Store::open(3, order, pairs(), 4).unwrap();
        assert_eq!(store.build(&pairs()[2].into()).unwrap().number(), 5);
        assert_eq!(store.as_words()[..4], [3, 3, 4, order.number()]);
        assert_eq!(store.as_words()[10..], entries);
    }
}

#[test]
fn questions_are_arranged_in_either_order() {
    let question = |equation: Equation| match equation.simplify() {
        Ok(Simplified::Question(question)) => question,
        other => panic!("{equation} is no question but {other:?}"),
    };
    let (one, two, three, four) = (Field(1), Field(2), Field(3), Field(4));
    // Between neighbours of each list below, each of the first three numbers decides where the next would say the opposite, and the fourth decides.
    let mixed = [
        four.equals(one),
        three.equals(two + 1),
        (three + 1).equals(one),
        (two + 1).equals(one),
        three.equals(two),
        three.equals(one + 1),
        two.equals(one),
        three.equals(one),
        three.equals(two),
    ];
    let lists = [
        (Order::FieldsFirst, [2, 1, 34, 1, 3, 1, 3, 33, 35, 1, 3, 2, 3, 34, 4, 1]),
        (Order::LeftFirst, [2, 1, 34, 1, 3, 1, 3, 33, 3, 2, 3, 34, 35, 1, 4, 1]),
    ];
    for (order, list) in lists {
        let mut questions: Vec<Question> = mixed.into_iter().map(question).collect();
        order.arrange(&mut questions);
        assert!(questions.windows(2).all(|pair| order.compare(&pair[0], &pair[1]).is_lt()));
        let store = Store::open(4, order, questions.clone(), 0).unwrap();
        assert_eq!(store.as_words()[4..], list);
        assert_eq!(store.questions(), questions);
    }
}

#[test]
fn steps_go_up_to_their_limit() {
    // The aerial count is the deck count plus 400.
    let (deck, aerial) = (Field(1), Field(2));
    let questions = [aerial.equals(deck + 400), aerial.equals(deck + 1_023)];
    let mut store = Store::open(2, Order::FieldsFirst, questions, 10).unwrap();
    let higher = store.build(&aerial.equals(deck + 400).into()).unwrap();
    assert_eq!(store.example(higher).unwrap(), [0, 400]);
    let highest = store.build(&aerial.equals(deck + 1_023).into()).unwrap();
    assert_eq!(store.example(highest).unwrap(), [0, 1_023]);
    assert_eq!(store.build(&aerial.equals(deck + 401).into()), Err(Refusal::NotListed));
    assert_eq!(store.build(&aerial.equals(deck + 1_024).into()), Err(Refusal::RuleTerm));
    assert_eq!((aerial + 1).equals(deck + 1_024).simplify(), Err(Refusal::RuleTerm));
}

#[test]
fn terms_too_large_for_a_word_are_refused_and_not_taken_for_others() {
    for term in [Field(33) + 0, Field(u32::MAX) + 0, Field(1) + (1 << 27), Field(1) + u32::MAX, Field(17) + 0] {
        assert_eq!(term.equals(ZERO).simplify(), Err(Refusal::RuleTerm));
        assert_eq!(Store::open(16, Order::FieldsFirst, [term.equals(ZERO)], 1).unwrap_err(), Refusal::ListTerm);
    }
}

#[test]
fn building_is_refused() {
    let mut store = Store::open(3, Order::FieldsFirst, pairs(), 4).unwrap();
    let before = store.clone();
    let mut refusal = |rows: &[Row]| {
        let mut table = RuleTable::new();
        for row in rows {
            table.push(*row);
        }
        store.build_table(&table).unwrap_err()
    };
    assert_eq!(refusal(&[]), Refusal::NoRows);
    assert_eq!(refusal(&[Row::Always; 257]), Refusal::TooManyRows);
    assert_eq!(refusal(&[Row::Not(RowNumber(0))]), Refusal::BadRow);
    assert_eq!(refusal(&[Row::Equation(Field(4).equals(ZERO))]), Refusal::RuleTerm);
    assert_eq!(refusal(&[Row::Equation(Field(3).equals(ZERO))]), Refusal::NotListed);
    assert_eq!(store, before);

    // The diagram of 3 = 2 has four entries.
    let mut small = Store::open(3, Order::FieldsFirst, pairs(), 3).unwrap();
    let before = small.clone();
    assert_eq!(small.build(&pairs()[2].into()), Err(Refusal::NoRoom));
    assert_eq!(small, before);
}

#[test]
fn handles_and_sheets_are_refused() {
    let mut store = Store::open(3, Order::FieldsFirst, pairs(), 10).unwrap();
    let missing = Handle::from_number(2);
    assert_eq!(store.negate(missing), Err(Refusal::NoSuchHandle));
    assert_eq!(store.join(Handle::ALWAYS, missing), Err(Refusal::NoSuchHandle));
    assert_eq!(store.choose(Handle::ALWAYS, Handle::ALWAYS, missing), Err(Refusal::NoSuchHandle));
    assert_eq!(store.verdict(missing), Err(Refusal::NoSuchHandle));
    assert_eq!(store.example(missing), Err(Refusal::NoSuchHandle));
    assert_eq!(store.read(missing, &[None; 3]), Err(Refusal::NoSuchHandle));
    assert_eq!(store.write_back(missing), Err(Refusal::NoSuchHandle));
    assert_eq!(store.entry(missing), None);
    assert_eq!(store.example(Handle::NEVER), Err(Refusal::NothingSatisfies));
    assert_eq!(store.read(Handle::ALWAYS, &[None; 2]), Err(Refusal::SliceLength));
}

#[test]
fn fields_that_were_not_counted_may_have_any_number() {
    let mut store = Store::open(3, Order::FieldsFirst, [Field(2).equals(Field(1) + 3)], 10).unwrap();
    let three_more = store.build(&Field(2).equals(Field(1) + 3).into()).unwrap();
    let count = |number: u32| Some(Count::try_from(number).unwrap());
    let read = |sheet: [Option<Count>; 3]| store.read(three_more, &sheet).unwrap();

    // 65,535 and 65,537, which no count is, fill these blanks.
    assert_eq!(read([count(65_532), None, count(0)]), Reading::Depends);
    assert_eq!(read([count(65_534), None, count(0)]), Reading::Depends);
    assert_eq!(read([None, count(2), None]), Reading::Fails);
    assert_eq!(read([count(0), count(3), None]), Reading::Satisfies);
    assert_eq!(read([None; 3]), Reading::Depends);
    assert_eq!(
        [Reading::Fails, Reading::Satisfies, Reading::Depends].map(Reading::settled),
        [Some(false), Some(true), None]
    );

    let counted = |numbers: [u32; 3]| store.read_counted(three_more, &numbers.map(|number| count(number).unwrap()));
    assert_eq!(counted([65_531, 65_534, 0]), Ok(true));
    assert_eq!(counted([65_534, 65_534, 0]), Ok(false));
    assert_eq!(store.read_counted(three_more, &[]), Err(Refusal::SliceLength));
}

#[test]
fn the_number_for_a_blank_is_no_count() {
    assert_eq!(Count::try_from(65_534_u32).map(Count::number), Ok(65_534));
    assert_eq!(Count::try_from(u16::MAX), Err(NotACount));
    assert_eq!(Count::try_from(u32::from(u16::MAX)), Err(NotACount));
    assert_eq!(Count::try_from(65_536_usize), Err(NotACount));
    assert_eq!(Count::from_word(words::BLANK), None);
}

#[test]
fn unsound_words_are_refused() {
    assert_eq!(Store::from_words(vec![]), Err(Refusal::NotSound));
    let mut store = Store::open(3, Order::FieldsFirst, pairs(), 10).unwrap();
    store.build(&pairs()[2].into()).unwrap();
    for place in 0..store.as_words().len() {
        let mut words = store.as_words().to_vec();
        words[place] = u32::MAX;
        assert_eq!(Store::from_words(words), Err(Refusal::NotSound));
    }
    assert_eq!(Store::from_words(store.as_words().to_vec()), Ok(store));
}

#[test]
fn words_are_sound_in_the_order_that_they_name() {
    // No heading without an order.
    assert_eq!(Store::from_words(vec![0; 3]), Err(Refusal::NotSound));
    assert!(Store::from_words(vec![0; 4]).is_ok());

    // A list for one order only.
    assert!(Store::from_words(vec![3, 2, 0, 0, 35, 1, 3, 2]).is_ok());
    assert_eq!(Store::from_words(vec![3, 2, 0, 1, 35, 1, 3, 2]), Err(Refusal::NotSound));

    // A list for both, named in turn; and words that name no order.
    let mut store = Store::open(3, Order::FieldsFirst, pairs(), 4).unwrap();
    store.build(&pairs()[2].into()).unwrap();
    let named = |number: u32| {
        let mut words = store.as_words().to_vec();
        words[3] = number;
        Store::from_words(words).map(|store| store.order())
    };
    assert_eq!(named(0), Ok(Order::FieldsFirst));
    assert_eq!(named(1), Ok(Order::LeftFirst));
    assert_eq!(named(2), Err(Refusal::NotSound));
    assert_eq!(named(u32::MAX), Err(Refusal::NotSound));
}

#[test]
fn parts_of_a_rule_share_rows() {
    let equal = Rule::from(pairs()[0]);
    let rule = (equal.clone() | !equal.clone()) & equal;
    let table = RuleTable::from(&rule);
    let expected = [
        Row::Equation(pairs()[0]),
        Row::Always,
        Row::Not(RowNumber(0)),
        Row::If(RowNumber(0), RowNumber(1), RowNumber(2)),
        Row::And(RowNumber(3), RowNumber(0)),
    ];
    assert_eq!(table.rows(), expected);
}

#[test]
fn a_store_shows_its_words() {
    let mut store = Store::open(3, Order::FieldsFirst, pairs(), 10).unwrap();
    let handle = store.build(&pairs()[2].into()).unwrap();
    assert_eq!((store.fields(), store.used(), store.order(), store.room()), (3, 4, Order::FieldsFirst, 10));
    assert!(store.questions().into_iter().map(Equation::from).eq(pairs()));
    let entry = store.entry(handle).unwrap();
    assert_eq!((entry.question.equation(), entry.yes.number(), entry.no.number()), (pairs()[0], 2, 4));

    let mut rule = [7; 50];
    let answer = words::write_back(store.as_words(), handle.number(), &mut rule);
    let table = store.write_back(handle).unwrap();
    assert_eq!(table.to_words(), rule[..4 * answer.result as usize]);
    assert_eq!(table.rows().len(), 10);
}

#[test]
fn the_logger_opens_within_its_limits() {
    let opened = |fields: u32, questions: &[Equation]| {
        LoggerStore::open(fields, Order::FieldsFirst, questions.iter().copied(), 1).map(|logger| logger.room())
    };
    assert_eq!(opened(6, &pairs()), Ok(1));
    assert_eq!(opened(7, &pairs()), Err(Refusal::TooManyFields));
    assert_eq!(opened(1, &numbers(8)), Ok(1));
    assert_eq!(opened(1, &numbers(9)), Err(Refusal::TooManyQuestions));
    assert_eq!(opened(2, &pairs()), Err(Refusal::ListTerm));
    assert_eq!(opened(3, &[Field(1).equals(Field(2))]), Err(Refusal::NotSimplified));
    assert_eq!(opened(3, &[pairs()[1], pairs()[0]]), Err(Refusal::NotAscending));
    // Room for more entries than it can use is not asked for.
    let largest = LoggerStore::open(3, Order::FieldsFirst, pairs(), usize::MAX).unwrap();
    assert_eq!((largest.room(), largest.as_store().room()), (200, 200));
}

#[test]
fn the_logger_builds_what_a_store_builds() {
    for order in Order::ALL {
        let mut logger = LoggerStore::open(3, order, pairs(), 4).unwrap();
        let mut store = Store::open(3, order, pairs(), 4).unwrap();
        assert_eq!(logger.as_store(), &store);
        let [first, inner, last] = pairs().map(Rule::from);
        let impossible = first & last.clone() & !inner.clone();
        for rule in [last.clone(), inner, impossible, Field(4).equals(ZERO).into(), Field(3).equals(ZERO).into(), !last]
        {
            assert_eq!(logger.build(&rule), store.build(&rule));
            assert_eq!(logger.as_store(), &store);
        }
        assert_eq!(logger.as_store().as_words()[..4], [3, 3, 4, order.number()]);
        assert_eq!(Store::from(logger), store);
    }
}

#[test]
fn a_store_beyond_the_loggers_limits_is_none_of_its_own() {
    let none: [Question; 0] = [];
    for (fields, larger) in [(6, None), (7, Some(Refusal::NotSound))] {
        let words = Store::open(fields, Order::FieldsFirst, none, 0).unwrap().into_words();
        assert_eq!(LoggerStore::from_words(words).err(), larger);
    }
    for (questions, larger) in [(8, None), (9, Some(Refusal::NotSound))] {
        let words = Store::open(1, Order::FieldsFirst, numbers(questions), 0).unwrap().into_words();
        assert_eq!(LoggerStore::from_words(words).err(), larger);
    }
    assert_eq!(LoggerStore::from_words(vec![7, 0, 0, 0]), Err(Refusal::NotSound));
    assert_eq!(LoggerStore::from_words(vec![]), Err(Refusal::NotSound));
}

/// Rules that answer each of the questions yes or no, in every way.
fn all_answers(questions: &[Equation]) -> impl Iterator<Item = Rule> + '_ {
    (0..1 << questions.len()).map(|answers: u32| {
        let parts = questions.iter().enumerate().map(|(i, question)| match answers >> i & 1 {
            1 => Rule::from(*question),
            _ => !Rule::from(*question),
        });
        parts.fold(Rule::Always, |all, part| all & part)
    })
}

#[test]
fn the_logger_uses_200_entries_at_most() {
    let mut questions: Vec<Equation> = (1..=6).map(|field| Field(field).equals(ZERO)).collect();
    questions.extend([Field(6).equals(Field(1)), Field(6).equals(Field(2))]);
    // A store of the institute, which has words for more entries.
    let words = Store::open(6, Order::FieldsFirst, questions.clone(), 300).unwrap().into_words();
    let mut logger = LoggerStore::from_words(words).unwrap();
    assert_eq!((logger.room(), logger.as_store().room()), (200, 300));

    let refused = all_answers(&questions).find(|rule| logger.build(rule) == Err(Refusal::NoRoom)).unwrap();
    // A rule takes at most one new entry for each of the eight questions.
    assert!((193..=200).contains(&logger.as_store().used()));
    let mut store = Store::from(logger);
    let handle = store.build(&refused).unwrap();
    assert_eq!((store.used() > 200, store.verdict(handle)), (true, Ok(Verdict::Sometimes)));
    assert_eq!(LoggerStore::from_words(store.into_words()), Err(Refusal::NotSound));
}

#[test]
fn refusals_name_the_limits_of_both() {
    let (institute, logger) = (Limits::INSTITUTE, Limits::LOGGER);
    let named = |refusal: Refusal, limits: String| assert!(refusal.to_string().contains(&limits), "{refusal}");
    named(Refusal::TooManyFields, format!("at most {} fields", institute.fields));
    named(Refusal::TooManyFields, format!("of the deck logger at most {}", logger.fields));
    named(Refusal::TooManyQuestions, format!("at most {} questions", institute.questions));
    named(Refusal::TooManyQuestions, format!("of the deck logger at most {}", logger.questions));
    let Limits { fields, questions, entries } = logger;
    named(Refusal::NotSound, format!("more than {fields} fields, {questions} questions or {entries} used entries"));
    named(Refusal::NoRoom, format!("more than {},{:03}", institute.entries / 1_000, institute.entries % 1_000));
    named(Refusal::NoRoom, format!("of the deck logger more than {entries}"));
}

/// A diagram's entry by its equation and the numbers of its handles.
fn entry(equation: Equation, yes: u32, no: u32) -> DiagramEntry {
    DiagramEntry { equation, yes: Handle::from_number(yes), no: Handle::from_number(no) }
}

fn checked(entries: &[DiagramEntry], root: u32) -> Result<Verdict, Refusal> {
    entries.iter().copied().collect::<DiagramTable>().check(Handle::from_number(root))
}

#[test]
fn diagrams_in_normal_form_get_a_verdict() {
    assert_eq!(checked(&[], 0), Ok(Verdict::Never));
    assert_eq!(checked(&[], 1), Ok(Verdict::Always));
    assert_eq!(checked(&[entry(pairs()[1], 1, 0), entry(pairs()[0], 2, 0)], 3), Ok(Verdict::Sometimes));
    assert_eq!(checked(&[entry(pairs()[2], 1, 0), entry(pairs()[0], 1, 2)], 3), Ok(Verdict::Sometimes));
}

#[test]
fn a_table_takes_more_steps_than_a_rule() {
    let most = Field(16).equals(Field(15) + 4_095);
    assert_eq!(checked(&[entry(most, 1, 0)], 2), Ok(Verdict::Sometimes));
    assert_eq!(most.simplify(), Err(Refusal::RuleTerm));
    for equation in [Field(2).equals(Field(1) + 4_096), Field(2).equals(Field(1) + u32::MAX), Field(17).equals(ZERO)] {
        assert_eq!(checked(&[entry(equation, 1, 0)], 2), Err(Refusal::TableEquation));
    }
}

#[test]
fn diagrams_are_refused() {
    let [first, inner, last] = pairs();
    assert_eq!(checked(&[], 2), Err(Refusal::TableShape));
    assert_eq!(checked(&[entry(last, 1, 0); 4_097], 2), Err(Refusal::TableShape));
    assert_eq!(checked(&[entry(Field(1).equals(Field(2)), 1, 0)], 2), Err(Refusal::TableEquation));
    assert_eq!(checked(&[entry(last, 2, 0)], 2), Err(Refusal::HandleNotLower));
    assert_eq!(checked(&[entry(last, 1, 0); 2], 3), Err(Refusal::EqualEntries));
    assert_eq!(checked(&[entry(last, 1, 0)], 1), Err(Refusal::NotReachable));

    // The same part twice; the same equation again; equations out of order; a field that the first equation has settled.
    let not_normal: [&[DiagramEntry]; 4] = [
        &[entry(inner, 1, 0), entry(first, 2, 2)],
        &[entry(first, 1, 0), entry(first, 1, 2)],
        &[entry(first, 1, 0), entry(inner, 1, 2)],
        &[entry(last, 1, 0), entry(first, 2, 0)],
    ];
    for entries in not_normal {
        assert_eq!(checked(entries, 3), Err(Refusal::NotNormalForm));
    }
}

#[test]
fn a_table_shows_its_words() {
    let mut table = DiagramTable::new();
    let below = table.push((Field(3) + 2).equals(Field(1)), Handle::ALWAYS, Handle::NEVER);
    let root = table.push((Field(2) + 2).equals(Field(1)), below, Handle::NEVER);
    assert_eq!((below.number(), root.number()), (2, 3));
    assert_eq!(table.entries()[1], entry((Field(2) + 2).equals(Field(1)), 2, 0));
    assert_eq!(table.to_words(), [67, 1, 1, 0, 66, 1, 2, 0]);
    assert_eq!(DiagramTable::check_words(&table.to_words(), root), table.check(root));
    let answer = words::check_normal_form(&table.to_words(), root.number());
    assert_eq!((answer.number, answer.result), (0, 2));
}
