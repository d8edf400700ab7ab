//! A run: a list of operations on a geobucket that starts empty, with its refusals, its output, the
//! spaces at return and the tally (document 01, "Runs" and "Refusals by cause").
use crate::call::{Answer, Given, Loan};
use crate::course::Course;
use crate::limits::MOST_OPERATIONS;
use crate::monomial::Order;
use crate::polynomial::Term;

/// The codes of the operations.
pub const ADD: usize = 1;
pub const LEAD: usize = 2;
pub const SUM: usize = 3;

/// Does a run. An opening refusal changes nothing.
pub fn run(given: &Given, operations: &[usize], loan: &mut Loan) -> Answer {
    let (order, polynomials) = match opened(given, operations, loan) {
        Ok(opened) => opened,
        Err(refusal) => return Answer::at_opening(refusal),
    };
    let course = Course::new(order, given.numbers.p, &mut loan.output);
    let mut run = Run {
        course,
        polynomials,
    };
    let (refusal, finished) = run.operations(operations);
    let answer = Answer {
        refusal,
        finished,
        places: run.course.places as u64,
    };
    (loan.space, loan.work, loan.tally) = run.course.left();
    answer
}

/// The opening checks in their order: the order and the polynomials, or the refusal.
fn opened(
    given: &Given,
    operations: &[usize],
    loan: &Loan,
) -> Result<(Order, Vec<Vec<Term>>), u64> {
    let (order, n) = given.numbers.opened()?;
    let whole = operations.len() % 2 == 0 && operations.len() / 2 <= MOST_OPERATIONS;
    if !given.sizes_good(loan) || !whole {
        return Err(8);
    }
    let count = given.starts.len() - 1;
    if !operations.chunks(2).all(|pair| known(pair, count)) {
        return Err(9);
    }
    Ok((order, given.polynomials((order, n))?))
}

/// Whether a pair is an operation on so many polynomials.
fn known(pair: &[usize], polynomials: usize) -> bool {
    match pair[0] {
        ADD => pair[1] < polynomials,
        LEAD | SUM => pair[1] == 0,
        _ => false,
    }
}

/// A run past the opening checks.
struct Run<'a> {
    course: Course<'a>,
    polynomials: Vec<Vec<Term>>,
}

impl Run<'_> {
    /// Does the operations up to the first refused one: its refusal, or 0, and those that were done.
    fn operations(&mut self, operations: &[usize]) -> (u64, u64) {
        for (finished, pair) in operations.chunks(2).enumerate() {
            if let Err(refusal) = self.operate(pair[0], pair[1]) {
                return (refusal, finished as u64);
            }
        }
        (0, operations.len() as u64 / 2)
    }

    /// The operation, or its refusal, which comes before the operation does anything.
    fn operate(&mut self, code: usize, k: usize) -> Result<(), u64> {
        match code {
            ADD => self.add(k),
            LEAD => self.lead(),
            _ => self.sum(),
        }
    }

    fn add(&mut self, k: usize) -> Result<(), u64> {
        let f = &self.polynomials[k];
        self.course.room(0, f.len())?;
        self.course.add(f);
        Ok(())
    }

    fn lead(&mut self) -> Result<(), u64> {
        self.course.free(1)?;
        match self.course.lead() {
            Some(lead) => {
                self.course.buckets.remove(lead.bucket);
                self.course.put(&[lead.term]);
            }
            None => self.course.put_zero(),
        }
        Ok(())
    }

    fn sum(&mut self) -> Result<(), u64> {
        self.course.free(self.course.buckets.held() + 1)?;
        let (sum, comparisons) = self.course.buckets.sum();
        self.course.tally.comparisons += comparisons;
        self.course.put(&sum);
        self.course.put_zero();
        Ok(())
    }
}
