//! The library's safe wrapper against the second program, on generated runs and reductions: the words
//! that it makes of terms, what it makes of an answer, what a stopped call leaves and how it goes on, and the
//! place of a fault.
use damselbuckle::{Engine, Operation, Order, Output, Polynomials, Refused, Setting, Term};
use second::call::{terms, Answer, Given, Loan, Numbers};
use second::lender;
use second::limits::{MOST_STEPS, MOST_TERMS};
use second::polynomial::{self, part};
use second::pools::setting;
use second::random::Random;
use second::reduction;
use second::reduction_lists::Reductions;
use second::run;
use second::run_lists::Runs;

/// Calls of each kind.
const CASES: u64 = 2_000;

/// The same polynomials, by their terms; and the same words must come of them.
fn polynomials(given: &Given) -> Polynomials {
    let (order, n) = given.numbers.opened().expect("a setting");
    let Numbers {
        p,
        order: number,
        n: variables,
        ..
    } = given.numbers;
    let number = Order::from_number(number.into()).expect("an order");
    let setting = Setting::new(p, number, variables).expect("a setting");
    let setting = setting.weighted(&order.weights[..n]).expect("weights");
    let mut polynomials = Polynomials::new(setting);
    for k in 0..given.starts.len() - 1 {
        let places = part(&given.starts, k, given.words.len()).expect("good starts");
        let (words, coefs) = (&given.words[places.clone()], &given.coefs[places]);
        let by_exponents = terms(order, n, words, coefs).into_iter();
        let pushed: Vec<(u32, Vec<u8>)> = by_exponents.map(|(m, c)| (c, m)).collect();
        assert_eq!(polynomials.push(&pushed), Ok(k));
        assert_eq!(polynomials.words_of(k), Some((words, coefs)));
        let read = polynomials.terms(k).expect("it was put").into_iter();
        assert!(read.map(|t| (t.coef, t.exponents)).eq(pushed));
    }
    polynomials
}

/// The counts must be the second program's.
fn same_tally(own: damselbuckle::Tally, loan: &Loan) {
    let expected = loan.tally;
    assert_eq!(own.comparisons, expected.comparisons);
    assert_eq!(own.brought, expected.brought);
    assert_eq!((own.given, own.held), (expected.given, expected.held));
}

/// The output places of a call, with no term for zero.
fn places(given: &Given, loan: &Loan, count: u64) -> Vec<Option<Term>> {
    let (order, n) = given.numbers.opened().expect("a setting");
    let count = count as usize;
    let (words, coefs) = (&loan.output.0[..count], &loan.output.1[..count]);
    let terms = terms(order, n, words, coefs).into_iter();
    let place = |(exponents, coef)| (coef != 0).then(|| Term::new(coef, exponents));
    terms.map(place).collect()
}

/// The same places, from what the wrapper made of them.
fn flat(outputs: Vec<Output>) -> Vec<Option<Term>> {
    let places = outputs.into_iter().flat_map(|output| match output {
        Output::Lead(lead) => vec![lead],
        Output::Sum(terms) => terms.into_iter().map(Some).chain([None]).collect(),
        other => panic!("no such output: {other:?}"),
    });
    places.collect()
}

/// The terms that the second program still holds, added up.
fn held(given: &Given, loan: &Loan) -> Vec<Term> {
    let (order, n) = given.numbers.opened().expect("a setting");
    let space = terms(order, n, &loan.space.0, &loan.space.1);
    let sum = polynomial::sum(order, given.numbers.p, &space, &[]);
    sum.into_iter().map(|(m, c)| Term::new(c, m)).collect()
}

/// The refusal must be the answer's, and what the call left must be what the second program's left.
fn stopped(given: &Given, refused: Refused, answer: Answer, engine: &Engine, loan: &Loan) {
    let own = Answer {
        refusal: refused.refusal.number(),
        finished: refused.finished,
        places: refused.places as u64,
    };
    assert_eq!(own, answer);
    same_tally(engine.tally(), loan);
    assert_eq!(engine.buckets(), (&loan.space.0[..], &loan.space.1[..]));
    assert_eq!(engine.output(), (&loan.output.0[..], &loan.output.1[..]));
    assert_eq!((refused.at, refused.refusal.stops()), (None, true));
    assert_eq!(engine.held(), held(given, loan));
    let written = places(given, loan, answer.places).into_iter();
    assert_eq!(engine.given(), written.flatten().collect::<Vec<_>>());
}

/// The reduction went on from where it was stopped: the rest of the remainder, and the leads.
fn rest(engine: &Engine, whole: &Polynomials) -> Result<(Vec<Term>, u64), Refused> {
    let mut rest = Polynomials::new(whole.setting());
    rest.push_terms(&engine.held())?;
    for k in 1..whole.count() {
        rest.push_terms(&whole.terms(k).expect("a divisor"))?;
    }
    let reduction = Engine::new(MOST_TERMS).reduce(&rest, MOST_STEPS)?;
    Ok((reduction.remainder, reduction.leads))
}

fn operation(pair: &[usize]) -> Operation {
    match *pair {
        [1, k] => Operation::Add(k),
        [2, 0] => Operation::Lead,
        [3, 0] => Operation::Sum,
        _ => panic!("no operation: {pair:?}"),
    }
}

#[test]
fn runs() {
    let random = &mut Random::new(83);
    let runs = Runs::new();
    let mut done = 0;
    for case in 0..CASES {
        let setting = setting(random, case);
        let made = runs.made(random, case, setting);
        let mut loan = lender::plain(made.output_len(random));
        let mut engine = Engine::new(loan.output.0.len());
        let answer = run::run(&made.given, &made.operations, &mut loan);
        let operations: Vec<Operation> = made.operations.chunks(2).map(operation).collect();
        match engine.run(&polynomials(&made.given), &operations) {
            Ok(run) => {
                assert_eq!(answer.refusal, 0);
                same_tally(run.tally, &loan);
                let places = places(&made.given, &loan, answer.places);
                assert_eq!(flat(run.outputs), places);
                done += 1;
            }
            Err(refused) => {
                stopped(&made.given, refused, answer, &engine, &loan);
                let outputs = engine.outputs(&operations);
                let places = places(&made.given, &loan, answer.places);
                assert_eq!(flat(outputs), places);
            }
        }
    }
    assert!(done > CASES / 10 && done < CASES, "{done} runs were done");
}

#[test]
fn reductions() {
    let random = &mut Random::new(89);
    let reductions = Reductions::new();
    let (mut done, mut went_on) = (0, 0);
    for case in 0..CASES {
        let setting = setting(random, case);
        let made = reductions.made(random, case, setting);
        let limit = made.limit(random);
        let mut loan = lender::plain(made.output_len(random));
        let mut engine = Engine::new(loan.output.0.len());
        let answer = reduction::reduce(&made.given, limit, &mut loan);
        let whole = polynomials(&made.given);
        match engine.reduce(&whole, limit) {
            Ok(reduction) => {
                let (leads, refusal) = (answer.finished, answer.refusal);
                assert_eq!((reduction.leads, 0), (leads, refusal));
                same_tally(reduction.tally, &loan);
                let remainder = places(&made.given, &loan, answer.places);
                let own: Vec<Option<Term>> = reduction.remainder.into_iter().map(Some).collect();
                assert_eq!(own, remainder);
                done += 1;
            }
            Err(refused) => {
                stopped(&made.given, refused, answer, &engine, &loan);
                let mut at_once = lender::plain(MOST_TERMS);
                let end = reduction::reduce(&made.given, MOST_STEPS, &mut at_once);
                if end.refusal != 0 {
                    continue; // too many terms, or too high an exponent, on the way
                }
                let (more, leads) = rest(&engine, &whole).expect("it ends as well");
                let mut remainder = engine.given();
                remainder.extend(more);
                let expected = places(&made.given, &at_once, end.places);
                assert_eq!(
                    remainder,
                    expected.into_iter().flatten().collect::<Vec<_>>()
                );
                assert_eq!(refused.finished + leads, end.finished);
                went_on += 1;
            }
        }
    }
    assert!(done > CASES / 10 && done < CASES, "{done} were done");
    assert!(went_on > CASES / 20, "{went_on} went on");
}

/// The first polynomial with a fault, by the second program, and where its first terms begin to be refused
/// like all of it.
fn place(given: &Given) -> Option<(u32, usize, usize)> {
    let (order, n) = given.numbers.opened().expect("a setting");
    let p = given.numbers.p;
    for k in 0..given.starts.len() - 1 {
        let places = part(&given.starts, k, given.words.len()).expect("good starts");
        let (words, coefs) = (&given.words[places.clone()], &given.coefs[places]);
        let refusal = |m: usize| polynomial::refusal(order, n, p, &words[..m], &coefs[..m]);
        let of_all = refusal(words.len());
        if of_all != 0 {
            let shortest = (0..=words.len()).find(|&m| refusal(m) == of_all);
            return Some((of_all, k, shortest.expect("all of it") - 1));
        }
    }
    None
}

/// Some terms are damaged: the place is that of the first fault.
#[test]
fn places_of_faults() {
    let random = &mut Random::new(97);
    let reductions = Reductions::new();
    let mut found = [0; 3];
    for case in 0..CASES {
        let setting = setting(random, case);
        let mut made = reductions.made(random, case, setting).given;
        let (order, n) = made.numbers.opened().expect("a setting");
        let mut own = Polynomials::new(polynomials(&made).setting());
        for _ in 0..random.below(4) {
            let Some(last) = made.words.len().checked_sub(1) else {
                break;
            };
            let at = random.below(last as u64 + 1) as usize;
            match random.below(3) {
                0 => made.coefs[at] = random.pick(&[0, made.numbers.p, u32::MAX]),
                1 => made.words[at] = order.word(&vec![128; n]),
                _ => made.words[at] = made.words[random.below(last as u64 + 1) as usize],
            }
        }
        for k in 0..made.starts.len() - 1 {
            let places = part(&made.starts, k, made.words.len()).expect("good starts");
            let terms = own
                .setting()
                .terms(&made.words[places.clone()], &made.coefs[places]);
            assert_eq!(own.push_terms(&terms), Ok(k));
        }
        let Some((number, polynomial, term)) = place(&made) else {
            continue;
        };
        let refused = Engine::new(0).reduce(&own, 0).expect_err("a fault");
        let at = refused.at.expect("a place");
        assert_eq!(refused.refusal.number(), u64::from(number));
        assert_eq!((at.polynomial, at.term), (polynomial, Some(term)));
        found[number as usize - 4] += 1;
    }
    assert!(found.iter().all(|&n| n > CASES / 50), "{found:?} faults");
}
