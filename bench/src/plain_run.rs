//! A run in plain Rust: the opening checks, the operations on the geobucket of `geobucket`, and
//! settling, with the order taken out of the loops.
use crate::geobucket::{add_by, lead_by, settle, sum_by, Geobucket, Memory, Plain, BUCKETS};
use crate::given::Given;
use crate::lists::{deg_rev_lex_key, lex_key, List, Order};
use crate::plain_opening::{polynomials_refusal, setting_refusal, sizes_good};
use crate::results::RunResult;
use damselbuckle::{MOST_OPERATIONS, MOST_TERMS};

/// The codes of the operations.
pub const ADD: usize = 1;
pub const LEAD: usize = 2;
pub const SUM: usize = 3;

/// Does a run. The tally of one that is refused at the opening is 0.
pub fn run(
    order: Order,
    given: &Given,
    operations: &[usize],
    memory: &mut Memory,
    output: &mut List,
) -> RunResult {
    let first_below = order == Order::DegRevLex;
    match order {
        Order::Lex => run_by(lex_key, first_below, given, operations, memory, output),
        Order::DegRevLex => run_by(
            deg_rev_lex_key,
            first_below,
            given,
            operations,
            memory,
            output,
        ),
    }
}

/// A run by words that are compared by a key. `first_below` says that the field of x1 is the lowest.
#[inline(always)]
pub fn run_by(
    key: impl Fn(u64) -> u64 + Copy,
    first_below: bool,
    given: &Given,
    operations: &[usize],
    memory: &mut Memory,
    output: &mut List,
) -> RunResult {
    let refusal = opening(key, first_below, given, operations, memory, output);
    if refusal != 0 {
        return RunResult {
            refusal,
            ..RunResult::default()
        };
    }
    Plain::empty(memory);
    let mut result = operate(key, given, operations, memory, output);
    result.held = memory.held() as u64;
    settle(memory);
    result
}

/// The opening checks but that of the order: the refusal, or 0.
#[inline(always)]
fn opening(
    key: impl Fn(u64) -> u64 + Copy,
    first_below: bool,
    given: &Given,
    operations: &[usize],
    memory: &Memory,
    output: &List,
) -> u64 {
    let refusal = setting_refusal(given);
    if refusal != 0 {
        return refusal;
    }
    let whole = operations.len() % 2 == 0 && operations.len() / 2 <= MOST_OPERATIONS;
    if !sizes_good(given, memory, output) || !whole {
        return 8;
    }
    if !operations_known(operations, given.count()) {
        return 9;
    }
    polynomials_refusal(key, first_below, given)
}

fn operations_known(operations: &[usize], polynomials: usize) -> bool {
    operations.chunks_exact(2).all(|pair| match pair[0] {
        ADD => pair[1] < polynomials,
        LEAD | SUM => pair[1] == 0,
        _ => false,
    })
}

/// Does the operations up to the first refused one. The terms held are not counted.
#[inline(always)]
fn operate(
    key: impl Fn(u64) -> u64 + Copy,
    given: &Given,
    operations: &[usize],
    memory: &mut Memory,
    output: &mut List,
) -> RunResult {
    let (ow, oc) = output.places();
    let mut place = 0;
    let mut result = RunResult::default();
    for pair in operations.chunks_exact(2) {
        match pair[0] {
            ADD => {
                let f = given.polynomial(pair[1]);
                if memory.held() + f.0.len() > MOST_TERMS {
                    result.refusal = 11;
                    break;
                }
                result.brought += f.0.len() as u64;
                result.comparisons += add_by(key, given.p, memory, f);
            }
            LEAD => {
                if place == ow.len() {
                    result.refusal = 10;
                    break;
                }
                let lead = lead_by(key, given.p, memory);
                result.comparisons += lead.comparisons;
                (ow[place], oc[place]) = (0, 0);
                if lead.bucket < BUCKETS {
                    Plain::take(memory, lead.bucket);
                    (ow[place], oc[place]) = (lead.word, lead.coef);
                    result.given += 1;
                }
                place += 1;
            }
            _ => {
                if memory.held() + 1 > ow.len() - place {
                    result.refusal = 10;
                    break;
                }
                let (from, len, comparisons) = sum_by(key, given.p, memory);
                let (work, end) = (&memory.work, place + len);
                ow[place..end].copy_from_slice(&work.words[from..from + len]);
                oc[place..end].copy_from_slice(&work.coefs[from..from + len]);
                (ow[end], oc[end]) = (0, 0);
                result.comparisons += comparisons;
                result.given += len as u64;
                place = end + 1;
            }
        }
        result.finished += 1;
    }
    result.places = place as u64;
    result
}
