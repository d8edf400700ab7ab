//! The wrapper: known results, every refusal by its cause, and what stopped calls leave.
use damselbuckle::{
    listing, raw, read_blocks, write_blocks, Engine, Operation, Order, Output, Polynomials,
    Refusal, Refused, Setting, Tally, Term, BLOCK_BYTES, BUCKET_PLACES, LARGEST_PRIME, MOST_BLOCKS,
    MOST_STEPS, MOST_TERMS, SCRIPT_BYTES, WORK_PLACES,
};

fn setting() -> Setting {
    Setting::new(7, Order::DegRevLex, 2).expect("a setting")
}

/// A polynomial by its coefficients and exponents.
type Terms<'a> = &'a [(u32, [u8; 2])];

fn polynomials(many: &[Terms]) -> Polynomials {
    in_order(Order::DegRevLex, many)
}

fn in_order(order: Order, many: &[Terms]) -> Polynomials {
    let mut polynomials = Polynomials::new(Setting::new(7, order, 2).expect("a setting"));
    for terms in many {
        polynomials.push(terms).expect("two exponents");
    }
    polynomials
}

fn term(coef: u32, exponents: [u8; 2]) -> Term {
    Term::new(coef, exponents)
}

/// The call must have been refused at its opening, by no fault of a polynomial.
fn refused<A: std::fmt::Debug>(call: Result<A, Refused>, refusal: Refusal) {
    stopped(call, refusal, 0, 0);
}

fn stopped<A: std::fmt::Debug>(
    call: Result<A, Refused>,
    refusal: Refusal,
    finished: u64,
    places: usize,
) {
    let r = call.expect_err("a refusal");
    assert_eq!(
        (r.refusal, r.finished, r.places),
        (refusal, finished, places)
    );
    assert_eq!(r.at, None);
}

fn reduce(many: &[Terms], limit: u64) -> Result<(Vec<Term>, u64), Refused> {
    let reduction = Engine::new(100).reduce(&polynomials(many), limit)?;
    assert_eq!(reduction.is_zero(), reduction.remainder.is_empty());
    Ok((reduction.remainder, reduction.leads))
}

/// x1²·x2 + x1·x2² + x2², x1·x2 − 1, x2² − 1 and x2² − x1.
const F: Terms = &[(1, [2, 1]), (1, [1, 2]), (1, [0, 2])];
const G: Terms = &[(1, [1, 1]), (6, [0, 0])];
const H: Terms = &[(1, [0, 2]), (6, [0, 0])];
const K: Terms = &[(1, [0, 2]), (6, [1, 0])];

#[test]
fn known_reductions() {
    let rest = vec![term(1, [1, 0]), term(1, [0, 1]), term(1, [0, 0])];
    assert_eq!(reduce(&[F, G, H], 6), Ok((rest, 6)));
    let swapped = vec![term(2, [1, 0]), term(1, [0, 0])];
    assert_eq!(reduce(&[F, H, G], 100), Ok((swapped, 5)));
    let high: Terms = &[(1, [126, 2])];
    assert_eq!(reduce(&[high, K], 100), Ok((vec![term(1, [127, 0])], 2)));
    assert_eq!(reduce(&[&[]], 0), Ok((vec![], 0)));
}

#[test]
fn a_run_gives_leads_and_sums() {
    let f: Terms = &[(3, [2, 0]), (1, [1, 1])];
    let given = polynomials(&[f, &[(4, [2, 0])], &[]]);
    use Operation::{Add, Lead, Sum};
    let operations = [Lead, Add(0), Add(1), Add(2), Lead, Sum, Add(0), Sum, Lead];
    let run = Engine::new(7)
        .run(&given, &operations)
        .expect("room for all");
    let outputs = vec![
        Output::Lead(None),
        Output::Lead(Some(term(1, [1, 1]))),
        Output::Sum(vec![]),
        Output::Sum(vec![term(3, [2, 0]), term(1, [1, 1])]),
        Output::Lead(None),
    ];
    assert_eq!(run.outputs, outputs);
    let Tally {
        comparisons,
        brought,
        given,
        held,
        ..
    } = run.tally;
    assert_eq!([comparisons, brought, given, held], [1, 5, 3, 0]);
}

#[test]
fn settings_are_judged() {
    let products = [6, 65_536, 46_337 * 46_337];
    let over = [2_147_483_648, 2_147_483_659, u32::MAX];
    for p in [0, 1].into_iter().chain(products).chain(over) {
        refused(Setting::new(p, Order::Lex, 2), Refusal::NotPrime);
    }
    for n in [0, 7, u32::MAX] {
        refused(Setting::new(7, Order::Lex, n), Refusal::BadVariables);
    }
    for (p, n) in [(2, 1), (65_521, 6), (65_537, 3), (LARGEST_PRIME, 6)] {
        let good = Setting::new(p, Order::DegLex, n).expect("a setting");
        assert_eq!((good.p(), good.order(), good.n()), (p, Order::DegLex, n));
    }
}

/// The refusal that comes of these weights in n variables.
fn weights_refused(n: u32, weights: &[u32], refusal: Refusal) {
    let setting = Setting::new(7, Order::Lex, n).expect("a setting");
    refused(setting.weighted(weights), refusal);
}

#[test]
fn weights_are_judged() {
    for weight in [0, 17, u32::MAX] {
        weights_refused(1, &[weight], Refusal::BadWeight);
        weights_refused(3, &[16, 1, weight], Refusal::BadWeight);
    }
    weights_refused(2, &[1], Refusal::BadShape);
    weights_refused(2, &[1, 1, 1], Refusal::BadShape);
    weights_refused(6, &[0; 7], Refusal::BadShape);
    let ones = Setting::new(7, Order::DegLex, 3).expect("a setting");
    assert_eq!(ones.weights(), [1, 1, 1]);
    let other = ones.weighted(&[16, 1, 9]).expect("weights");
    assert_eq!(other.weights(), [16, 1, 9]);
    assert_eq!((other.p(), other.order(), other.n()), (7, Order::DegLex, 3));
    assert_eq!(other.weighted(&[1, 1, 1]), Ok(ones));
}

/// Of 3·x1 + x2² + x2·x3 each term is the lead with some weights under Dp; under lp the weights move
/// nothing. The block of the sum has the weights, and is read back with them.
#[test]
fn weights_move_the_lead() {
    let terms = [(3, [1, 0, 0]), (1, [0, 2, 0]), (1, [0, 1, 1])];
    for (order, weights, lead, bytes) in [
        (Order::DegLex, [3, 1, 1], 0, [0x02, 0, 0]),
        (Order::DegLex, [1, 16, 15], 1, [0xf0, 0x0e, 0]),
        (Order::DegLex, [1, 2, 4], 2, [0x10, 0x03, 0]),
        (Order::Lex, [1, 2, 4], 0, [0x10, 0x03, 0]),
    ] {
        let setting = Setting::new(7, order, 3).expect("a setting");
        let setting = setting.weighted(&weights).expect("weights");
        let mut given = Polynomials::new(setting);
        for term in &terms {
            given.push(std::slice::from_ref(term)).expect("exponents");
        }
        let mut operations = [0, 1, 2].map(Operation::Add).to_vec();
        operations.push(Operation::Sum);
        let run = Engine::new(4).run(&given, &operations).expect("a sum");
        let Output::Sum(sum) = &run.outputs[0] else {
            panic!("a sum");
        };
        assert_eq!(sum[0], Term::new(terms[lead].0, terms[lead].1));
        let mut whole = Polynomials::new(setting);
        whole.push_terms(sum).expect("terms of the setting");
        let block = write_blocks(&whole, 0).expect("it can be written");
        assert_eq!((&block[12..15], block[15]), (&bytes[..], 0));
        assert_eq!(read_blocks(&block), Ok(whole));
    }
}

/// x1 by 2·x1 + 1 leaves -1/2, also modulo the largest prime; and the divisor comes back from its blocks.
#[test]
fn the_largest_prime() {
    let setting = Setting::new(LARGEST_PRIME, Order::Lex, 1).expect("a setting");
    let (mut both, mut divisor) = (Polynomials::new(setting), Polynomials::new(setting));
    both.push(&[(1, [1])]).expect("one exponent");
    for polynomials in [&mut both, &mut divisor] {
        let pushed = polynomials.push(&[(2, [1]), (1, [0])]);
        pushed.expect("one exponent");
    }
    let reduction = Engine::new(1).reduce(&both, 2).expect("two leads");
    let half = Term::new(LARGEST_PRIME / 2, [0]);
    assert_eq!((reduction.remainder, reduction.leads), (vec![half], 2));
    let block = write_blocks(&both, 1).expect("it can be written");
    assert_eq!(
        (&block[6..8], &block[10..12]),
        (&[0xff, 0xff][..], &[0xff, 0x7f][..])
    );
    assert_eq!(read_blocks(&block), Ok(divisor));
}

/// What a call must say of polynomials that it refuses.
fn at_fault<A: std::fmt::Debug>(
    call: Result<A, Refused>,
    refusal: Refusal,
    polynomial: usize,
    term: Option<usize>,
) {
    let refused = call.expect_err("a refusal");
    assert_eq!((refused.finished, refused.places), (0, 0));
    let place = refused.at.expect("a polynomial is at fault");
    let found = (refused.refusal, place.polynomial, place.term);
    assert_eq!(found, (refusal, polynomial, term));
}

/// The refusals of a polynomial come alike from every call that is given it, with the place of the fault.
#[test]
fn opening_refusals() {
    let cases: [(Terms, Refusal, usize); 10] = [
        (&[(0, [1, 0])], Refusal::BadCoefficient, 0),
        (&[(7, [1, 0])], Refusal::BadCoefficient, 0),
        (&[(1, [1, 0]), (7, [0, 1])], Refusal::BadCoefficient, 1),
        (&[(1, [128, 0])], Refusal::BadLayout, 0),
        (&[(7, [128, 0])], Refusal::BadCoefficient, 0),
        (&[(1, [0, 1]), (1, [1, 0])], Refusal::NotFalling, 1),
        (&[(1, [1, 0]), (1, [1, 0])], Refusal::NotFalling, 1),
        // Terms that do not fall, and a bad term after them or before; the first of two.
        (
            &[(1, [0, 1]), (1, [1, 0]), (0, [0, 0])],
            Refusal::BadCoefficient,
            2,
        ),
        (
            &[(1, [200, 0]), (1, [0, 1]), (1, [1, 0])],
            Refusal::BadLayout,
            0,
        ),
        (
            &[(1, [1, 0]), (1, [2, 0]), (1, [1, 0]), (1, [2, 0])],
            Refusal::NotFalling,
            1,
        ),
    ];
    for (f, refusal, term) in cases {
        for k in [0, 1, 3] {
            // Good ones before it, and one after it that is at fault as well.
            let mut many = vec![F; k];
            many.extend([f, &[(7, [128, 0])], F]);
            let given = polynomials(&many);
            let mut engine = Engine::new(9);
            let run = engine.run(&given, &[Operation::Lead]);
            at_fault(run, refusal, k, Some(term));
            at_fault(engine.reduce(&given, 1), refusal, k, Some(term));
            at_fault(write_blocks(&given, k), refusal, k, Some(term));
            assert_eq!(engine.tally(), Tally::default());
            if k > 0 {
                assert!(write_blocks(&given, k - 1).is_ok());
            }
        }
    }
    at_fault(
        reduce(&[F, G, &[], H, &[]], 9),
        Refusal::ZeroDivisor,
        2,
        None,
    );
    at_fault(reduce(&[&[], &[]], 9), Refusal::ZeroDivisor, 1, None);
    let low: Terms = &[(1, [0, 1]), (1, [1, 0])];
    at_fault(reduce(&[F, &[], low], 9), Refusal::NotFalling, 2, Some(1));
}

/// In a long polynomial the place is found as well.
#[test]
fn places_of_long_polynomials() {
    let good = long(MOST_TERMS);
    for term in [0, 1, 100, 2_047, 2_048, MOST_TERMS - 1] {
        let mut bad = good.clone();
        bad[term].0 = 0;
        let given = polynomials(&[&good, &bad, &bad]);
        let run = Engine::new(0).run(&given, &[]);
        at_fault(run, Refusal::BadCoefficient, 1, Some(term));
    }
}

#[test]
fn exponents_that_do_not_fit() {
    let mut given = Polynomials::new(setting());
    let (short, long) = ([(1, vec![1, 0]), (1, vec![0])], [(1, [1, 0, 0])]);
    at_fault(given.push(&short), Refusal::BadLayout, 0, Some(1));
    at_fault(given.push(&long), Refusal::BadLayout, 0, Some(0));
    let terms = [Term::new(1, [1, 0]), Term::new(1, [])];
    at_fault(given.push_terms(&terms), Refusal::BadLayout, 0, Some(1));
    assert_eq!(given, Polynomials::new(setting()), "nothing was put");
    assert_eq!((given.terms(0), given.words_of(usize::MAX)), (None, None));
}

#[test]
fn refusals_of_the_call() {
    refused(reduce(&[], 9), Refusal::BadShape);
    refused(reduce(&[F, G], MOST_STEPS + 1), Refusal::BadShape);
    assert!(reduce(&[F, G], MOST_STEPS).is_ok());
    let given = polynomials(&[F]);
    let run = Engine::new(9).run(&given, &[Operation::Add(0), Operation::Add(1)]);
    refused(run, Refusal::BadOperation);
    refused(write_blocks(&given, 1), Refusal::BadOperation);
}

/// So many terms, of the lowest degrees, falling in dp.
fn long(terms: usize) -> Vec<(u32, [u8; 2])> {
    let all = (0..=126).flat_map(|d: u8| (0..=d).map(move |i| (1, [d - i, i])));
    let mut all: Vec<_> = all.take(terms).collect();
    all.sort_by_key(|&(_, [a, b])| (a + b, a));
    all.reverse();
    all
}

#[test]
fn stopped_calls_leave_what_was_held() {
    let most = long(MOST_TERMS);
    let given = polynomials(&[&most, &[(1, [127, 0])]]);
    let mut engine = Engine::new(1);
    let operations = [Operation::Add(0), Operation::Add(1)];
    let run = engine.run(&given, &operations);
    stopped(run, Refusal::TooManyTerms, 1, 0);
    let held = engine.buckets().1.iter().filter(|&&c| c != 0).count();
    assert_eq!((engine.tally().held, held), (MOST_TERMS as u64, MOST_TERMS));
    assert_eq!(Some(engine.held()), given.terms(0));
    let run = engine.run(
        &given,
        &[Operation::Add(1), Operation::Lead, Operation::Lead],
    );
    stopped(run, Refusal::NoOutput, 2, 1);
    assert_eq!(engine.output().1, [1]);
    assert_eq!(engine.tally().given, 1);
    let over: Terms = &[(1, [127, 2])];
    stopped(reduce(&[over, K], 9), Refusal::ExponentOver, 0, 0);
    stopped(reduce(&[F, G, H], 5), Refusal::StepLimit, 5, 2);
    // What was held before is not read.
    let given = polynomials(&[F, G, H]);
    let again = engine.reduce(&given, 9);
    stopped(again, Refusal::NoOutput, 4, 1);
    let fresh = Engine::new(3).reduce(&given, 9).expect("three places");
    assert_eq!((fresh.leads, fresh.tally.given), (6, 3));
}

/// A call that is refused at its opening leaves what the last one gave out and holds.
#[test]
fn opening_refusals_leave_what_was_held() {
    let mut engine = Engine::new(2);
    assert_eq!((engine.given(), engine.held()), (vec![], vec![]));
    let given = polynomials(&[F, G, H]);
    stopped(engine.reduce(&given, 5), Refusal::StepLimit, 5, 2);
    let left = (
        vec![term(1, [1, 0]), term(1, [0, 1])],
        vec![term(1, [0, 0])],
    );
    assert_eq!((engine.given(), engine.held()), left);
    let one = in_order(Order::Lex, &[&[(0, [1, 0])]]);
    at_fault(engine.run(&one, &[]), Refusal::BadCoefficient, 0, Some(0));
    refused(
        engine.run(&given, &[Operation::Add(3)]),
        Refusal::BadOperation,
    );
    refused(engine.reduce(&given, MOST_STEPS + 1), Refusal::BadShape);
    assert_eq!((engine.given(), engine.held()), left);
    assert!(engine.run(&polynomials(&[]), &[]).is_ok());
    assert_eq!((engine.given(), engine.held()), (vec![], vec![]));
}

/// The same divisors, with what the engine holds as polynomial 0.
fn rest(engine: &Engine, whole: &Polynomials) -> Polynomials {
    let mut rest = Polynomials::new(whole.setting());
    rest.push_terms(&engine.held())
        .expect("terms of the setting");
    for k in 1..whole.count() {
        rest.push_terms(&whole.terms(k).expect("a divisor"))
            .expect("its terms");
    }
    rest
}

/// Stopped after every number of leads, or with every number of places, a reduction goes on to the same end.
#[test]
fn reductions_go_on() {
    let most = long(60);
    for many in [[F, G, H], [F, H, G], [&most, G, K]] {
        let whole = polynomials(&many);
        let at_once = Engine::new(100).reduce(&whole, 1_000).expect("it ends");
        for (limit, places) in (0..at_once.leads)
            .map(|l| (l, 100))
            .chain([(1_000, 0), (1_000, 1)])
        {
            let mut engine = Engine::new(places);
            let refused = engine.reduce(&whole, limit).expect_err("it is stopped");
            assert!(refused.refusal.stops());
            let mut remainder = engine.given();
            let reduction = Engine::new(100)
                .reduce(&rest(&engine, &whole), 1_000)
                .expect("it ends");
            remainder.extend(reduction.remainder);
            assert_eq!(remainder, at_once.remainder);
            assert_eq!(refused.finished + reduction.leads, at_once.leads);
        }
    }
}

/// Where too many terms were held, they are added up, and the run goes on with what is left of them.
#[test]
fn a_run_goes_on_after_too_many_terms() {
    let most = long(MOST_TERMS);
    let negative: Vec<_> = most.iter().map(|&(c, e)| (7 - c, e)).collect();
    let (head, tail) = most.split_at(1_000);
    let mut given = polynomials(&[head, tail, &negative[..1_000], &[(3, [127, 0])]]);
    let operations = [0, 1, 2, 3].map(Operation::Add);
    let mut engine = Engine::new(MOST_TERMS + 1);
    stopped(engine.run(&given, &operations), Refusal::TooManyTerms, 2, 0);
    assert_eq!(engine.held().len(), MOST_TERMS);
    let held = given
        .push_terms(&engine.held())
        .expect("terms of the setting");
    // The 1,000 terms that cancel are brought in with those that they cancel.
    let rest = [Operation::Add(2), Operation::Add(0), Operation::Sum];
    assert!(engine
        .run(&given, &rest)
        .is_ok_and(|run| run.outputs == [Output::Sum(vec![])]));
    stopped(
        engine.run(&given, &[Operation::Add(held), Operation::Add(3)]),
        Refusal::TooManyTerms,
        1,
        0,
    );
    let lead = [
        Operation::Add(held),
        Operation::Lead,
        Operation::Add(3),
        Operation::Sum,
    ];
    let run = engine.run(&given, &lead);
    stopped(run, Refusal::NoOutput, 3, 1);
    assert_eq!(
        engine.outputs(&lead),
        [Output::Lead(Some(engine.given()[0].clone()))]
    );
    assert_eq!(engine.held().len(), MOST_TERMS);
}

/// Sets the check of a block again.
fn checked(mut block: Vec<u8>) -> Vec<u8> {
    let word = |b: &[u8]| u32::from_le_bytes(b.try_into().expect("four bytes"));
    let words = block[..508].chunks(4).map(word);
    let check = words.fold(1_u32, u32::wrapping_add);
    block[508..].copy_from_slice(&check.to_le_bytes());
    block
}

#[test]
fn blocks_that_are_not_written_so() {
    let given = polynomials(&[F]);
    let block = write_blocks(&given, 0).expect("it can be written");
    assert_eq!(checked(block.clone()), block);
    assert_eq!(read_blocks(&block), Ok(given));
    let long = long(MOST_TERMS + 1);
    let written = write_blocks(&polynomials(&[&long[1..], &long]), 0);
    assert_eq!(
        written.map(|bytes| bytes.len()),
        Ok(MOST_BLOCKS * BLOCK_BYTES)
    );
    let written = write_blocks(&polynomials(&[&long]), 0);
    refused(written, Refusal::TooManyTerms);
    let refusals = [
        (vec![], Refusal::NotBlocks),
        (block[1..].to_vec(), Refusal::NotBlocks),
        (changed(&block, 20, 1), Refusal::BadCheck),
        (checked(changed(&block, 0, 1)), Refusal::BadBlock),
        (checked(changed(&block, 15, 1)), Refusal::BadBlock),
        (checked(changed(&block, 13, 1)), Refusal::BadWeight),
        (checked(changed(&block, 12, 1)), Refusal::BadLayout),
        (checked(changed(&block, 11, 0x80)), Refusal::NotPrime),
        (checked(changed(&block, 8, 4)), Refusal::BadOrder),
    ];
    for (bytes, refusal) in refusals {
        refused(read_blocks(&bytes), refusal);
    }
}

/// With another byte at a place.
fn changed(block: &[u8], at: usize, byte: u8) -> Vec<u8> {
    let mut block = block.to_vec();
    assert_ne!(block[at], byte);
    block[at] = byte;
    block
}

#[test]
fn words_of_the_known_monomial() {
    for (order, word) in [
        (Order::DegRevLex, 0x0003_0000_0000_0102),
        (Order::Lex, 0x0003_0201_0000_0000),
        (Order::DegLex, 0x0003_0201_0000_0000),
    ] {
        let given = in_order(order, &[&[(1, [2, 1])]]);
        assert_eq!(given.words_of(0), Some((&[word][..], &[1][..])));
        assert_eq!(given.terms(0), Some(vec![term(1, [2, 1])]));
        assert_eq!(Order::from_number(order.number().into()), Some(order));
    }
    assert_eq!(Order::from_number(4), None);
}

#[test]
fn a_listing_is_lent_enough() {
    assert_eq!(listing(b"lead\n"), "refused 17 at 0\n");
    let script = b"prime 6\norder lp\nvars 1\n";
    assert_eq!(listing(script), "refused 1 at 0\n");
    let answer = raw::listing(script, &mut vec![0; damselbuckle::LISTING_BYTES - 1]);
    assert_eq!((answer.refusal, answer.length), (10, 0));
}

/// The stack that the header and docs/INTEGRATION.md name, on the largest inputs. (Where it is not enough, the
/// test breaks off.)
#[test]
fn calls_need_little_stack() {
    fn within(bytes: usize, call: impl FnOnce() + Send + 'static) {
        let thread = std::thread::Builder::new().stack_size(bytes);
        let spawned = thread.spawn(call).expect("a thread");
        spawned.join().expect("it ends");
    }
    within(400_000, || {
        let head = "prime 2147483647\norder dp\nvars 2\nadd";
        let mut script = head.to_string();
        for (coef, [a, b]) in long(MOST_TERMS) {
            let term = format!(" {coef}:{a}.{b}");
            if script.len() + term.len() + 10 < SCRIPT_BYTES {
                script += &term;
            }
        }
        let listed = listing((script + "\nlead\nsum\n").as_bytes());
        assert!(listed.starts_with("lead 1:") && listed.len() > SCRIPT_BYTES / 2);
    });
    within(100_000, || {
        let most = long(MOST_TERMS);
        let (first, second) = most.split_at(2_732);
        let given = polynomials(&[first, second, &most[..1], &[(1, [0, 0])]]);
        use Operation::{Add, Lead, Sum};
        let run = Engine::new(MOST_TERMS + 2).run(&given, &[Add(0), Add(1), Lead, Add(2), Sum]);
        let outputs = run.expect("room for all").outputs;
        assert!(matches!(&outputs[1], Output::Sum(terms) if terms.len() == MOST_TERMS));
    });
    within(100_000, || {
        let most = long(MOST_TERMS);
        let divisor: Terms = &[(2, [1, 0]), (5, [0, 0])];
        let high: Terms = &[(1, [127, 127])];
        let mut many = vec![&most[..]];
        many.extend([high; 3_000]);
        many.push(divisor);
        let given = polynomials(&many);
        let mut engine = Engine::new(MOST_TERMS);
        let reduction = engine.reduce(&given, MOST_STEPS).expect("it ends");
        assert!(reduction.leads as usize > MOST_TERMS / 2);
        stopped(engine.reduce(&given, 1), Refusal::StepLimit, 1, 0);
        assert!(engine.held().len() >= MOST_TERMS - 1);
    });
    within(100_000, || {
        let most = long(MOST_TERMS);
        let given = polynomials(&[&most]);
        let blocks = write_blocks(&given, 0).expect("as many as fit");
        assert_eq!(read_blocks(&blocks), Ok(given));
        let mut bad = most;
        bad[MOST_TERMS - 1].0 = 7;
        let refused = write_blocks(&polynomials(&[&bad]), 0);
        at_fault(refused, Refusal::BadCoefficient, 0, Some(MOST_TERMS - 1));
    });
}

#[test]
fn sizes_are_those_of_the_spaces() {
    assert_eq!(BUCKET_PLACES, (1..=6).map(|i| 4_usize.pow(i)).sum());
    assert_eq!(WORK_PLACES, 2 * MOST_TERMS);
}
