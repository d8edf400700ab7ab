//! The proved entries, through the library `damselbuckle`. They take any numbers and lists.
use crate::block_store::Polynomial;
use crate::call::{Answer, Given, Loan, Numbers, Space, Tally};
use damselbuckle::raw;

/// Does a run.
pub fn run(given: &Given, operations: &[usize], loan: &mut Loan) -> Answer {
    let answer = lending(loan, |lent| raw::run(polynomials(given), operations, lent));
    Answer {
        refusal: answer.refusal,
        finished: answer.finished,
        places: answer.places,
    }
}

/// Does a reduction.
pub fn reduce(given: &Given, limit: u64, loan: &mut Loan) -> Answer {
    let answer = lending(loan, |lent| raw::reduce(polynomials(given), limit, lent));
    Answer {
        refusal: answer.refusal,
        finished: answer.leads,
        places: answer.terms,
    }
}

fn polynomials(given: &Given) -> raw::Given<'_> {
    let numbers = numbers(&given.numbers);
    raw::Given::new(numbers, &given.words, &given.coefs, &given.starts)
}

fn numbers(numbers: &Numbers) -> raw::Numbers<'_> {
    raw::Numbers::new(numbers.p, numbers.order, numbers.n).weighted(&numbers.weights)
}

/// Lends all of a loan to a call.
fn lending<A>(loan: &mut Loan, call: impl FnOnce(raw::Loan) -> A) -> A {
    let mut tally = raw::Tally::default();
    tally.comparisons = loan.tally.comparisons;
    tally.brought = loan.tally.brought;
    tally.given = loan.tally.given;
    tally.held = loan.tally.held;
    let answer = call(raw::Loan::new(
        &mut tally,
        places(&mut loan.space),
        places(&mut loan.work),
        places(&mut loan.output),
    ));
    loan.tally = Tally {
        comparisons: tally.comparisons,
        brought: tally.brought,
        given: tally.given,
        held: tally.held,
    };
    answer
}

fn places((words, coefs): &mut Space) -> raw::Places<'_> {
    (words, coefs)
}

/// Writes to the first bytes of the slice: the number of blocks, or the refusal. A refusal must carry
/// count 0.
pub fn write(polynomial: &Polynomial, bytes: &mut [u8]) -> Result<u64, u64> {
    let (words, coefs) = (&polynomial.words, &polynomial.coefs);
    let answer = raw::write_blocks(numbers(&polynomial.numbers), words, coefs, bytes);
    assert_eq!(answer.finished, 0);
    match answer.refusal {
        0 => Ok(answer.blocks),
        refusal => Err(refusal),
    }
}

/// Reads to the first words and coefficients: the setting and the number of terms, or the refusal. A
/// refusal must carry 0 alone.
pub fn read(bytes: &[u8], words: &mut [u64], coefs: &mut [u32]) -> Result<(Numbers, u64), u64> {
    let answer = raw::read_blocks(bytes, words, coefs);
    if answer.refusal != 0 {
        let nothing = raw::ReadAnswer {
            refusal: answer.refusal,
            ..raw::ReadAnswer::default()
        };
        assert_eq!(answer, nothing);
        return Err(answer.refusal);
    }
    assert!(answer.finished == 0 && answer.weights >> 24 == 0);
    let weight = |k: u32| 1 + (answer.weights >> (4 * k) & 15) as u32;
    let numbers = Numbers {
        p: answer.p as u32,
        order: answer.order as u32,
        n: answer.n as u32,
        weights: (0..6).map(weight).collect(),
    };
    Ok((numbers, answer.terms))
}
