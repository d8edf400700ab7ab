//! The proved entries, through the library `damselbuckle`. The tally of a call is 0 as it comes.
use crate::geobucket::Memory;
use crate::given::Given;
use crate::lists::List;
use crate::plain_blocks::Setting;
use crate::results::{ReductionResult, RunResult};
use damselbuckle::raw::{self, ReadAnswer, Tally, WriteAnswer};

/// Does a run.
pub fn run(
    order: u32,
    given: &Given,
    operations: &[usize],
    memory: &mut Memory,
    output: &mut List,
) -> RunResult {
    let mut tally = Tally::default();
    let loan = loan(&mut tally, memory, output);
    let answer = raw::run(polynomials(order, given), operations, loan);
    RunResult {
        refusal: answer.refusal,
        finished: answer.finished,
        places: answer.places,
        comparisons: tally.comparisons,
        brought: tally.brought,
        given: tally.given,
        held: tally.held,
    }
}

/// Does a reduction.
pub fn reduce(
    order: u32,
    given: &Given,
    limit: u64,
    memory: &mut Memory,
    output: &mut List,
) -> ReductionResult {
    let mut tally = Tally::default();
    let loan = loan(&mut tally, memory, output);
    let answer = raw::reduce(polynomials(order, given), limit, loan);
    ReductionResult {
        refusal: answer.refusal,
        leads: answer.leads,
        terms: answer.terms,
        comparisons: tally.comparisons,
        brought: tally.brought,
        given: tally.given,
        held: tally.held,
    }
}

fn polynomials(order: u32, given: &Given) -> raw::Given<'_> {
    let numbers = raw::Numbers::new(given.p, order, given.n).weighted(&given.weights);
    let terms = &given.terms;
    raw::Given::new(numbers, &terms.words, &terms.coefs, &given.starts)
}

fn loan<'a>(tally: &'a mut Tally, memory: &'a mut Memory, output: &'a mut List) -> raw::Loan<'a> {
    let (buckets, work) = (places(&mut memory.space), places(&mut memory.work));
    raw::Loan::new(tally, buckets, work, places(output))
}

fn places(list: &mut List) -> raw::Places<'_> {
    (&mut list.words, &mut list.coefs)
}

pub fn write(setting: Setting, terms: &List, bytes: &mut [u8]) -> WriteAnswer {
    let Setting {
        p,
        order,
        n,
        ref weights,
    } = setting;
    let numbers = raw::Numbers::new(p, order, n).weighted(weights);
    raw::write_blocks(numbers, &terms.words, &terms.coefs, bytes)
}

pub fn read(bytes: &[u8], out: &mut List) -> ReadAnswer {
    raw::read_blocks(bytes, &mut out.words, &mut out.coefs)
}
