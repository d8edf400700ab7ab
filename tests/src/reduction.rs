//! A reduction: the normal form of polynomial 0 by the others, with its refusals, its output, the
//! spaces at return and the tally (document 01, "Reductions" and "Refusals by cause").
use crate::call::{Answer, Given, Loan};
use crate::course::Course;
use crate::geobucket::Lead;
use crate::limits::MOST_STEPS;
use crate::monomial::{divides, quotient, Order};
use crate::polynomial::{multiple, Term};
use crate::residue;

/// Does a reduction. An opening refusal changes nothing.
pub fn reduce(given: &Given, limit: u64, loan: &mut Loan) -> Answer {
    let (order, polynomials) = match opened(given, limit, loan) {
        Ok(opened) => opened,
        Err(refusal) => return Answer::at_opening(refusal),
    };
    let mut reduction = Reduction {
        p: given.numbers.p,
        course: Course::new(order, given.numbers.p, &mut loan.output),
        divisors: &polynomials[1..],
        leads: 0,
    };
    let refusal = reduction.steps(&polynomials[0], limit).err().unwrap_or(0);
    let answer = Answer {
        refusal,
        finished: reduction.leads,
        places: reduction.course.places as u64,
    };
    (loan.space, loan.work, loan.tally) = reduction.course.left();
    answer
}

/// The opening checks in their order: the order and the polynomials, or the refusal.
fn opened(given: &Given, limit: u64, loan: &Loan) -> Result<(Order, Vec<Vec<Term>>), u64> {
    let setting = given.numbers.opened()?;
    if !given.sizes_good(loan) || limit > MOST_STEPS || given.starts.len() < 2 {
        return Err(8);
    }
    let polynomials = given.polynomials(setting)?;
    match polynomials[1..].iter().any(Vec::is_empty) {
        true => Err(7),
        false => Ok((setting.0, polynomials)),
    }
}

/// A reduction past the opening checks.
struct Reduction<'a> {
    p: u32,
    course: Course<'a>,
    divisors: &'a [Vec<Term>],
    /// The leads removed so far.
    leads: u64,
}

impl Reduction<'_> {
    /// Adds f, and does the steps until the lead is zero, or up to the stopped one.
    fn steps(&mut self, f: &[Term], limit: u64) -> Result<(), u64> {
        self.course.room(0, f.len())?;
        self.course.add(f);
        while let Some(lead) = self.course.lead() {
            if self.leads == limit {
                return Err(13);
            }
            self.step(lead)?;
        }
        Ok(())
    }

    /// Divides the lead by the first divisor that fits, or puts it to the remainder. A stopped step
    /// leaves the lead in its bucket.
    fn step(&mut self, lead: Lead) -> Result<(), u64> {
        let fits = |d: &&Vec<Term>| divides(&d[0].0, &lead.term.0);
        match self.divisors.iter().find(fits) {
            Some(divisor) => {
                let tail = self.tail_multiple(&lead.term, divisor)?;
                self.course.room(1, tail.len())?;
                self.remove(lead);
                self.course.add(&tail);
            }
            None => {
                self.course.free(1)?;
                self.course.put(std::slice::from_ref(&lead.term));
                self.remove(lead);
            }
        }
        Ok(())
    }

    /// The tail of a divisor times -c divided by its lead coefficient, and times the quotient of the
    /// lead monomials, where c is the coefficient of the lead.
    fn tail_multiple(&self, lead: &Term, divisor: &[Term]) -> Result<Vec<Term>, u64> {
        let (own, tail) = divisor.split_first().expect("a divisor is not zero");
        let inverse = residue::invert(own.1, self.p);
        let factor = residue::multiply(residue::negate(lead.1, self.p), inverse, self.p);
        let monomial = quotient(&lead.0, &own.0).expect("the divisor fits");
        multiple(self.p, factor, &monomial, tail).ok_or(12)
    }

    fn remove(&mut self, lead: Lead) {
        self.course.buckets.remove(lead.bucket);
        self.leads += 1;
    }
}
