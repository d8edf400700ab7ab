//! Runs and reductions, with the spaces that they need.
use crate::place;
use crate::polynomials::{Polynomials, Setting, Term};
use crate::raw::{self, Loan, Tally};
use crate::{Refused, BUCKET_PLACES, MOST_TERMS, WORK_PLACES};

/// An operation of a run.
#[derive(Clone, Copy, Debug, PartialEq, Eq, Hash)]
#[non_exhaustive]
pub enum Operation {
    /// Adds polynomial k.
    Add(usize),
    /// Takes the lead: the largest term of what is held.
    Lead,
    /// Gives the full sum of what is held, and leaves nothing.
    Sum,
}

impl Operation {
    fn pair(self) -> [usize; 2] {
        match self {
            Operation::Add(k) => [1, k],
            Operation::Lead => [2, 0],
            Operation::Sum => [3, 0],
        }
    }
}

/// What a lead or a sum gave.
#[derive(Clone, Debug, PartialEq, Eq)]
#[non_exhaustive]
pub enum Output {
    /// Nothing where nothing was held.
    Lead(Option<Term>),
    /// No terms for zero.
    Sum(Vec<Term>),
}

/// A run that did all its operations.
#[derive(Clone, Debug, PartialEq, Eq)]
#[non_exhaustive]
pub struct Run {
    /// What each lead and each sum gave, in turn.
    pub outputs: Vec<Output>,
    pub tally: Tally,
}

/// A reduction that came to its end.
#[derive(Clone, Debug, PartialEq, Eq)]
#[non_exhaustive]
pub struct Reduction {
    /// The remainder of the division algorithm; no terms for zero.
    pub remainder: Vec<Term>,
    /// Leads removed.
    pub leads: u64,
    pub tally: Tally,
}

impl Reduction {
    /// Whether the remainder is zero: an arm whose closing condition was reduced by its equations
    /// closes. Of a remainder that is not zero nothing follows: closing is not shown.
    pub fn is_zero(&self) -> bool {
        self.remainder.is_empty()
    }
}

/// The buckets of a bucket space, by the numbers from 1 up.
const BUCKETS: u32 = 6;

/// Owned places: words and coefficients.
#[derive(Clone, Debug)]
struct Places {
    words: Vec<u64>,
    coefs: Vec<u32>,
}

impl Places {
    fn new(count: usize) -> Self {
        Places {
            words: vec![0; count],
            coefs: vec![0; count],
        }
    }

    fn lent(&mut self) -> raw::Places<'_> {
        (&mut self.words, &mut self.coefs)
    }

    /// The terms of each bucket of a bucket space: bucket i has 4^i places from (4^i − 4)/3 on, and its
    /// terms come before its places of coefficient 0.
    fn each_bucket(&self) -> impl Iterator<Item = (&[u64], &[u32])> {
        let capacities = (1..=BUCKETS).map(|i| 4_usize.pow(i));
        capacities.map(|capacity| {
            let start = (capacity - 4) / 3;
            let coefs = &self.coefs[start..start + capacity];
            let terms = coefs.iter().take_while(|&&coef| coef != 0).count();
            (&self.words[start..start + terms], &coefs[..terms])
        })
    }
}

/// Owns the bucket space, the work space and the output that runs and reductions need, and lends them to
/// one after the other. An engine is for one thread at a time; several engines work beside each other.
///
/// ```
/// use damselbuckle::{Engine, Operation, Order, Output, Polynomials, Refusal, Setting};
///
/// let mut polynomials = Polynomials::new(Setting::new(7, Order::DegRevLex, 2)?);
/// polynomials.push(&[(3, [2, 0]), (1, [1, 1]), (1, [0, 2]), (1, [1, 0]), (1, [0, 1])])?;
/// polynomials.push(&[(4, [2, 0])])?;
///
/// let mut engine = Engine::new(100);
/// let operations = [Operation::Add(0), Operation::Add(1), Operation::Lead, Operation::Sum];
/// let run = engine.run(&polynomials, &operations)?;
/// let Output::Lead(Some(lead)) = &run.outputs[0] else { panic!("a lead") };
/// assert_eq!((lead.coef, &lead.exponents[..]), (1, &[1, 1][..]));
/// assert_eq!((run.tally.comparisons, run.tally.brought), (1, 6));
///
/// // A polynomial that is not there is refused before anything is done.
/// let refused = engine.run(&polynomials, &[Operation::Add(2)]).unwrap_err();
/// assert_eq!((refused.refusal, refused.finished), (Refusal::BadOperation, 0));
/// # Ok::<(), damselbuckle::Refused>(())
/// ```
#[derive(Clone, Debug)]
pub struct Engine {
    buckets: Places,
    work: Places,
    output: Places,
    tally: Tally,
    last: Option<Last>,
}

/// What is known of the last call that was not refused at its opening.
#[derive(Clone, Copy, Debug)]
struct Last {
    setting: Setting,
    /// Output places that it wrote.
    places: usize,
}

impl Engine {
    /// An engine with so many output places. A run needs one for each lead and one more than its terms
    /// for each sum; a reduction one for each term of its remainder.
    pub fn new(output: usize) -> Self {
        Engine {
            buckets: Places::new(BUCKET_PLACES),
            work: Places::new(WORK_PLACES),
            output: Places::new(output),
            tally: Tally::default(),
            last: None,
        }
    }

    /// Does the operations, from nothing held. A refusal at the opening does nothing at all; one on the
    /// way stops the run before the operation that it refuses.
    pub fn run(
        &mut self,
        polynomials: &Polynomials,
        operations: &[Operation],
    ) -> Result<Run, Refused> {
        let pairs: Vec<usize> = operations.iter().flat_map(|o| o.pair()).collect();
        let answer = raw::run(polynomials.given(), &pairs, self.loan());
        self.ended(polynomials, answer.refusal, answer.finished, answer.places)?;
        Ok(Run {
            outputs: self.outputs(operations),
            tally: self.tally,
        })
    }

    /// Reduces polynomial 0 by the others, with at most `limit` leads removed: the first divisor in the
    /// list whose lead divides the lead is used, and a lead that none divides goes to the remainder. A
    /// refusal at the opening does nothing at all; one on the way stops the reduction before the lead is
    /// removed. A limit of [`SUFFICIENT_STEPS`](crate::SUFFICIENT_STEPS) is always enough.
    ///
    /// With the same setting and divisors, and all reductions finished, the remainder of a sum is the sum of the
    /// remainders, whatever the limits and outputs were.
    ///
    /// ```
    /// use damselbuckle::{Engine, Order, Polynomials, Refusal, Setting};
    ///
    /// let mut polynomials = Polynomials::new(Setting::new(32003, Order::DegRevLex, 2)?);
    /// // The closing condition x1²·x2 + x2³ − x2, and the joint equation x1² + x2² − 1.
    /// polynomials.push(&[(1, [2, 1]), (1, [0, 3]), (32002, [0, 1])])?;
    /// polynomials.push(&[(1, [2, 0]), (1, [0, 2]), (32002, [0, 0])])?;
    ///
    /// let mut engine = Engine::new(100);
    /// let reduction = engine.reduce(&polynomials, 1000)?;
    /// assert!(reduction.is_zero());
    /// assert_eq!(reduction.leads, 1);
    ///
    /// // With no lead allowed it stops, and the lead that was found is still held.
    /// let refused = engine.reduce(&polynomials, 0).unwrap_err();
    /// assert_eq!((refused.refusal, refused.finished), (Refusal::StepLimit, 0));
    /// assert_eq!(engine.tally().held, 3);
    /// # Ok::<(), damselbuckle::Refused>(())
    /// ```
    pub fn reduce(&mut self, polynomials: &Polynomials, limit: u64) -> Result<Reduction, Refused> {
        let answer = raw::reduce(polynomials.given(), limit, self.loan());
        self.ended(polynomials, answer.refusal, answer.leads, answer.terms)?;
        Ok(Reduction {
            remainder: self.given(),
            leads: answer.leads,
            tally: self.tally,
        })
    }

    /// Keeps what is known of a call that has ended, and says where polynomials that it refused are at
    /// fault.
    fn ended(
        &mut self,
        polynomials: &Polynomials,
        number: u64,
        finished: u64,
        places: u64,
    ) -> Result<(), Refused> {
        let ended = Refused::unless_0(number, finished, places);
        if ended.is_ok() || ended.is_err_and(|refused| refused.refusal.stops()) {
            self.last = Some(Last {
                setting: polynomials.setting(),
                places: places as usize,
            });
        }
        ended.map_err(|refused| refused.at(place::of(polynomials, refused.refusal)))
    }

    /// The counts of the last call that was not refused at its opening; all 0 before the first.
    pub fn tally(&self) -> Tally {
        self.tally
    }

    /// The terms that the last call gave out, in turn: of a run the leads and the sums, without the places
    /// of zero; of a reduction the remainder, as far as it came. (A call that was refused at its opening
    /// does not count.)
    ///
    /// A run that was stopped because its output is full goes on from what it holds:
    ///
    /// ```
    /// use damselbuckle::{Engine, Operation, Order, Polynomials, Refusal, Setting, Term};
    ///
    /// let mut polynomials = Polynomials::new(Setting::new(7, Order::DegRevLex, 2)?);
    /// polynomials.push(&[(1, [2, 0]), (3, [0, 1]), (5, [0, 0])])?; // x1² + 3·x2 + 5
    ///
    /// // There is room for one lead, and three are asked for.
    /// let mut engine = Engine::new(1);
    /// let mut operations = vec![Operation::Add(0), Operation::Lead, Operation::Lead, Operation::Lead];
    /// let mut leads = Vec::new();
    /// while let Err(refused) = engine.run(&polynomials, &operations) {
    ///     assert_eq!(refused.refusal, Refusal::NoOutput);
    ///     leads.extend(engine.given());
    ///     // What is held is added first, and the operations that are left follow.
    ///     let held = polynomials.push_terms(&engine.held())?;
    ///     operations.splice(..refused.finished as usize, [Operation::Add(held)]);
    /// }
    /// leads.extend(engine.given());
    /// assert_eq!(leads, [Term::new(1, [2, 0]), Term::new(3, [0, 1]), Term::new(5, [0, 0])]);
    /// # Ok::<(), damselbuckle::Refused>(())
    /// ```
    pub fn given(&self) -> Vec<Term> {
        self.places().flatten().collect()
    }

    /// What each lead and each sum of the last call gave, where it was a run of these operations; of a
    /// stopped one, as far as it came.
    pub fn outputs(&self, operations: &[Operation]) -> Vec<Output> {
        let mut places = self.places();
        let outputs = operations.iter().map_while(|operation| match operation {
            Operation::Add(_) => Some(None),
            Operation::Lead => places.next().map(|lead| Some(Output::Lead(lead))),
            Operation::Sum => {
                let first = places.next()?;
                let terms = std::iter::once(first).chain(places.by_ref());
                Some(Some(Output::Sum(terms.map_while(|term| term).collect())))
            }
        });
        outputs.flatten().collect()
    }

    /// The terms that the last call still holds, like terms added up: a polynomial to go on with. The
    /// buckets are added up by a run of their own, and stay as they are.
    ///
    /// A reduction that was stopped goes on from them, and comes to the remainder that it would have had:
    ///
    /// ```
    /// use damselbuckle::{Engine, Order, Polynomials, Refusal, Setting};
    ///
    /// let setting = Setting::new(7, Order::DegRevLex, 2)?;
    /// let mut whole = Polynomials::new(setting);
    /// whole.push(&[(1, [2, 1]), (1, [1, 2]), (1, [0, 2])])?; // x1²·x2 + x1·x2² + x2²
    /// whole.push(&[(1, [1, 1]), (6, [0, 0])])?; // by x1·x2 − 1
    /// whole.push(&[(1, [0, 2]), (6, [0, 0])])?; // and x2² − 1
    ///
    /// let mut engine = Engine::new(100);
    /// let refused = engine.reduce(&whole, 4).unwrap_err();
    /// assert_eq!((refused.refusal, refused.finished), (Refusal::StepLimit, 4));
    /// let mut remainder = engine.given();
    ///
    /// // What is held, by the same divisors.
    /// let mut rest = Polynomials::new(setting);
    /// rest.push_terms(&engine.held())?;
    /// for k in 1..whole.count() {
    ///     rest.push_terms(&whole.terms(k).expect("a divisor"))?;
    /// }
    /// let reduction = engine.reduce(&rest, 100)?;
    /// remainder.extend(reduction.remainder);
    ///
    /// let at_once = engine.reduce(&whole, 100)?;
    /// assert_eq!(remainder, at_once.remainder); // x1 + x2 + 1
    /// assert_eq!(refused.finished + reduction.leads, at_once.leads);
    /// # Ok::<(), damselbuckle::Refused>(())
    /// ```
    pub fn held(&self) -> Vec<Term> {
        let Some(Last { setting, .. }) = self.last else {
            return Vec::new();
        };
        let mut buckets = Polynomials::new(setting);
        let mut operations = Vec::new();
        for (words, coefs) in self.buckets.each_bucket() {
            operations.push(Operation::Add(buckets.push_words(words, coefs)));
        }
        operations.push(Operation::Sum);
        let mut summed = Engine::new(MOST_TERMS + 1);
        let run = summed.run(&buckets, &operations);
        run.expect("what is held can be added up");
        summed.given()
    }

    /// The output places of the last call: a term, or none for zero.
    fn places(&self) -> impl Iterator<Item = Option<Term>> + '_ {
        let Places { words, coefs } = &self.output;
        let written = self.last.iter().flat_map(move |&Last { setting, places }| {
            let written = words[..places].iter().zip(&coefs[..places]);
            written.map(move |(&word, &coef)| (coef != 0).then(|| setting.term(word, coef)))
        });
        written
    }

    /// The words and coefficients of the bucket space, as the last call left them: the terms that a
    /// stopped call still holds, and 0 elsewhere.
    pub fn buckets(&self) -> (&[u64], &[u32]) {
        (&self.buckets.words, &self.buckets.coefs)
    }

    /// The words and coefficients of the output, as the calls so far left them. What a stopped call gave
    /// out are the first [`Refused::places`] of them.
    pub fn output(&self) -> (&[u64], &[u32]) {
        (&self.output.words, &self.output.coefs)
    }

    pub(crate) fn loan(&mut self) -> Loan<'_> {
        Loan::new(
            &mut self.tally,
            self.buckets.lent(),
            self.work.lent(),
            self.output.lent(),
        )
    }
}
