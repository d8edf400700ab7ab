//! Weighted degrees (document 02, "Weighted degrees") in the proved entries: where refusal 24 stands among the
//! others, by named calls, and results by hand that weights of 1 do not have.
use second::block_store::Polynomial;
use second::call::{Given, Numbers, Setting};
use second::lender::{self, assert_same};
use second::library;
use second::limits::{BLOCK_BYTES, MOST_STEPS};
use second::monomial::{Order, ONES};
use second::polynomial::Term;
use second::reduction;
use second::run::{self, ADD, LEAD, SUM};

/// The refusals of a run, a reduction and of writing blocks, by the proved engine and by the model, which
/// must agree. Each is lent 1 modulo p, whose word is 0 whatever the weights are, and `more` coefficients
/// too many.
fn refusals(numbers: &Numbers, more: usize) -> [u64; 3] {
    let given = Given {
        numbers: numbers.clone(),
        words: vec![0],
        coefs: vec![1; 1 + more],
        starts: vec![0, 1],
    };
    let loan = lender::plain(1);
    let (mut own, mut expected) = (loan.clone(), loan.clone());
    let ran = library::run(&given, &[], &mut own);
    assert_eq!(ran, run::run(&given, &[], &mut expected), "{numbers:?}");
    let reduced = library::reduce(&given, 1, &mut own);
    let model = reduction::reduce(&given, 1, &mut expected);
    assert_eq!(reduced, model, "{numbers:?}");
    assert_same(&own, &expected, "weights");
    let polynomial = Polynomial {
        numbers: numbers.clone(),
        words: given.words,
        coefs: given.coefs,
    };
    let mut bytes = [9; BLOCK_BYTES];
    let written = library::write(&polynomial, &mut bytes).err().unwrap_or(0);
    let model = polynomial.write(BLOCK_BYTES).err().unwrap_or(0);
    assert_eq!(written, model, "{numbers:?}");
    assert!(written == 0 || bytes == [9; BLOCK_BYTES]);
    [ran.refusal, reduced.refusal, written]
}

fn numbers(p: u32, order: u32, n: u32, weights: &[u32]) -> Numbers {
    let weights = weights.to_vec();
    Numbers {
        p,
        order,
        n,
        weights,
    }
}

/// The number of variables, the weights and their refusal: good ones, ones outside their range, ones beyond
/// n, another number than six, and with a wrong one among them.
const WEIGHTS: [(u32, &[u32], u64); 28] = [
    (2, &[1, 1, 1, 1, 1, 1], 0),
    (2, &[16, 2, 1, 1, 1, 1], 0),
    (2, &[2, 2, 1, 1, 1, 1], 0),
    (6, &[16, 16, 16, 16, 16, 16], 0),
    (6, &[1, 2, 3, 4, 5, 6], 0),
    (2, &[0, 1, 1, 1, 1, 1], 24),
    (2, &[1, 0, 1, 1, 1, 1], 24),
    (2, &[17, 1, 1, 1, 1, 1], 24),
    (2, &[1, u32::MAX, 1, 1, 1, 1], 24),
    (6, &[1, 1, 1, 1, 1, 17], 24),
    (6, &[1, 1, 1, 1, 1, 257], 24),
    (6, &[1, 1, 1, 1, 1, 65_537], 24),
    (1, &[2, 2, 1, 1, 1, 1], 24),
    (2, &[1, 1, 2, 1, 1, 1], 24),
    (2, &[1, 1, 1, 1, 1, 0], 24),
    (3, &[1, 1, 1, 17, 1, 1], 24),
    (5, &[1, 1, 1, 1, 1, 16], 24),
    (2, &[], 8),
    (2, &[2], 8),
    (2, &[1, 1, 1, 1, 1], 8),
    (6, &[1, 2, 3, 4, 5], 8),
    (2, &[1, 1, 1, 1, 1, 1, 1], 8),
    (2, &[2, 2, 1, 1, 1, 1, 1, 1, 1, 1, 1, 1], 8),
    (2, &[0], 24),
    (2, &[1, 17], 24),
    (2, &[1, 1, 2], 24),
    (6, &[1, 1, 1, 1, 1, 1, 2], 24),
    (6, &[1, 1, 1, 1, 1, 1, 0], 24),
];

#[test]
fn weights_that_are_refused() {
    for (n, weights, refusal) in WEIGHTS {
        for order in 1..=3 {
            let found = refusals(&numbers(7, order, n, weights), 0);
            assert_eq!(found, [refusal; 3], "{n} {weights:?}");
        }
    }
}

/// 24 comes after 1, 2 and 3, and before 8: an engine that judges the shape first gives 8 where a
/// coefficient is too many and a weight is 0.
#[test]
fn weights_in_their_turn() {
    let (bad, few) = (&[0, 1, 1, 1, 1, 1][..], &[1, 1, 1, 1, 1][..]);
    for (p, order, n, weights, more, refusal) in [
        (6, 0, 0, bad, 1, 1),
        (7, 0, 0, bad, 1, 2),
        (7, 3, 0, bad, 1, 3),
        (7, 3, 7, bad, 1, 3),
        (7, 3, 7, &[1; 7], 1, 3),
        (7, 3, 2, bad, 1, 24),
        (7, 3, 2, &[0], 1, 24),
        (7, 3, 2, &ONES, 1, 8),
        (7, 3, 2, few, 1, 8),
        (7, 3, 2, few, 0, 8),
        (7, 3, 2, &ONES, 0, 0),
    ] {
        let found = refusals(&numbers(p, order, n, weights), more);
        assert_eq!(found, [refusal; 3], "{p} {order} {n} {weights:?} {more}");
    }
}

/// The word of x1 in two variables under dp with weights of 1, and with a weight of 2 for it.
const X1: u64 = 0x0001_0000_0000_0001;
const X1_DOUBLE: u64 = 0x0002_0000_0000_0001;

/// A polynomial of a word twice, and zero behind it; in two variables under dp modulo 7.
fn twice(weights: &[u32], coefs: [u32; 2], word: u64) -> Given {
    Given {
        numbers: numbers(7, 3, 2, weights),
        words: vec![word, word],
        coefs: coefs.to_vec(),
        starts: vec![0, 2, 2],
    }
}

/// 24 and 8 come before 9, and before 4, 5 and 6 of the polynomials. A reduction has no operations.
#[test]
fn weights_before_operations_and_terms() {
    let (double, unknown) = ([2, 1, 1, 1, 1, 1], &[9, 9][..]);
    for (weights, coefs, word, operations, refusal) in [
        (&[0, 1, 1, 1, 1, 1][..], [0, 1], X1, unknown, 24),
        (&[1, 1, 1, 1, 1], [0, 1], X1, unknown, 8),
        (&ONES, [0, 1], X1, unknown, 9),
        (&ONES, [0, 1], X1, &[], 4),
        (&double, [1, 0], X1, &[], 5),
        (&double, [1, 0], X1_DOUBLE, &[], 4),
        (&double, [1, 1], X1_DOUBLE, &[], 6),
        (&[1, 2, 1, 1, 1, 1], [1, 1], X1, &[], 6),
    ] {
        let given = twice(weights, coefs, word);
        let ran = library::run(&given, operations, &mut lender::plain(9));
        assert_eq!((ran.refusal, ran.finished), (refusal, 0), "{weights:?}");
        let reduced = library::reduce(&given, 1, &mut lender::plain(9));
        let expected = if refusal == 9 { 4 } else { refusal };
        assert_eq!(reduced.refusal, expected, "{weights:?}");
    }
}

/// 24 comes before 7.
#[test]
fn weights_before_zero_divisors() {
    for (weight, refusal) in [(0, 24), (1, 7)] {
        let given = Given {
            numbers: numbers(7, 3, 2, &[1, weight, 1, 1, 1, 1]),
            starts: vec![0, 0, 0],
            ..Given::default()
        };
        let reduced = library::reduce(&given, 1, &mut lender::plain(9));
        assert_eq!((reduced.refusal, reduced.finished), (refusal, 0));
    }
}

/// Order, weight of x2, and the terms of x1² + x2 in turn, as words by hand.
const LEADS: [(u32, u32, [u64; 2]); 6] = [
    (1, 1, [0x0002_0200_0000_0000, 0x0001_0001_0000_0000]),
    (1, 3, [0x0002_0200_0000_0000, 0x0003_0001_0000_0000]),
    (2, 1, [0x0002_0200_0000_0000, 0x0001_0001_0000_0000]),
    (2, 3, [0x0003_0001_0000_0000, 0x0002_0200_0000_0000]),
    (3, 1, [0x0002_0000_0000_0002, 0x0001_0000_0000_0100]),
    (3, 3, [0x0003_0000_0000_0100, 0x0002_0000_0000_0002]),
];

/// The terms of x1² + x2 + 1 in turn, with weights of 1, and with a weight of 3 for x2: then x2 leads, but not
/// under lp.
#[test]
fn leads_by_hand() {
    for (order, weight, words) in LEADS {
        let weights = [1, weight, 1, 1, 1, 1];
        // The smaller one comes first.
        let given = Given {
            numbers: numbers(7, order, 2, &weights),
            words: vec![words[1], 0, words[0]],
            coefs: vec![1, 1, 1],
            starts: vec![0, 2, 3],
        };
        let operations = [ADD, 0, ADD, 1, LEAD, 0, SUM, 0];
        let mut loan = lender::plain(4);
        let answer = library::run(&given, &operations, &mut loan);
        assert_eq!(
            (answer.refusal, answer.places),
            (0, 4),
            "{order} {weights:?}"
        );
        assert_eq!(
            loan.output.0,
            [words[0], words[1], 0, 0],
            "{order} {weights:?}"
        );
        assert_eq!(loan.output.1, [1, 1, 1, 0]);
    }
}

/// Reduces by x1² + 6·x2 modulo 7, and gives the remainder and the leads.
fn by_divisor(setting: Setting, f: Term) -> (Vec<Term>, u64) {
    let (order, n, _) = setting;
    let mut divisor = vec![(vec![2, 0], 1), (vec![0, 1], 6)];
    divisor.sort_by(|(x, _), (y, _)| order.compare(y, x));
    let given = Given::new(setting, &[vec![f], divisor]);
    let mut loan = lender::plain(9);
    let answer = library::reduce(&given, MOST_STEPS, &mut loan);
    assert_eq!(answer.refusal, 0);
    let (words, coefs) = &loan.output;
    let places = answer.places as usize;
    let remainder = second::call::terms(order, n, &words[..places], &coefs[..places]);
    (remainder, answer.finished)
}

/// x1² = x2 modulo x1² + 6·x2: with weights of 1 the remainder has no x1², with weights of 1 and 3 no x2.
#[test]
fn remainders_by_hand() {
    let (x1_squared, x2) = ((vec![2, 0], 1), (vec![0, 1], 1));
    for order in [Order::DEG_LEX, Order::DEG_REV_LEX] {
        let ones = (order, 2, 7);
        assert_eq!(by_divisor(ones, x1_squared.clone()), (vec![x2.clone()], 2));
        assert_eq!(by_divisor(ones, x2.clone()), (vec![x2.clone()], 1));
        let weighted = (order.weighted([1, 3, 1, 1, 1, 1]), 2, 7);
        let kept = by_divisor(weighted, x1_squared.clone());
        assert_eq!(kept, (vec![x1_squared.clone()], 1));
        let divided = by_divisor(weighted, x2.clone());
        assert_eq!(divided, (vec![x1_squared.clone()], 2));
    }
}

/// The product of all variables to the power 127, with weights of 16: the largest degree. By the product of all
/// variables − 1 it leaves its coefficient after 128 leads; by x1² + x2 it stops with 12.
#[test]
fn largest_degrees() {
    for order in Order::ALL.map(|order| order.weighted([16; 6])) {
        let reduced = |divisor: Vec<Term>| {
            let given = Given::new((order, 6, 7), &[vec![(vec![127; 6], 3)], divisor]);
            assert_eq!(given.words[0], 0x2fa0_7f7f_7f7f_7f7f);
            let mut loan = lender::plain(1);
            let answer = library::reduce(&given, MOST_STEPS, &mut loan);
            (answer.refusal, answer.finished, loan)
        };
        let (refusal, leads, loan) = reduced(vec![(vec![1; 6], 1), (vec![0; 6], 6)]);
        assert_eq!((refusal, leads), (0, 128), "{order:?}");
        assert_eq!((loan.output.0, loan.output.1), (vec![0], vec![3]));
        let (x1_squared, x2) = (vec![2, 0, 0, 0, 0, 0], vec![0, 1, 0, 0, 0, 0]);
        let (refusal, leads, loan) = reduced(vec![(x1_squared, 1), (x2, 1)]);
        assert_eq!((refusal, leads, loan.tally.held), (12, 0, 1), "{order:?}");
    }
}
