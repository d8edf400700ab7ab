//! Damage to a reduction, so that an opening check refuses it.
use crate::call::{Given, Loan};
use crate::damage::Damage;
use crate::generate::up_to;
use crate::limits::MOST_STEPS;
use crate::random::Random;

/// What is damaged.
#[derive(Clone, Copy, Debug, PartialEq, Eq)]
pub enum ReductionDamage {
    Call(Damage),
    Limit,
    NoPolynomial,
    ZeroDivisor,
}

impl ReductionDamage {
    pub fn all() -> Vec<ReductionDamage> {
        let own = [
            ReductionDamage::Limit,
            ReductionDamage::NoPolynomial,
            ReductionDamage::ZeroDivisor,
        ];
        let calls = Damage::ALL.map(ReductionDamage::Call);
        calls.into_iter().chain(own).collect()
    }

    /// The refusal of a reduction with this damage alone, where it has something to damage.
    pub fn number(self) -> u64 {
        match self {
            ReductionDamage::Call(damage) => damage.number(),
            ReductionDamage::Limit | ReductionDamage::NoPolynomial => 8,
            ReductionDamage::ZeroDivisor => 7,
        }
    }

    /// Does the damage. Terms are damaged only where there are any.
    pub fn on(self, random: &mut Random, given: &mut Given, limit: &mut u64, loan: &mut Loan) {
        match self {
            ReductionDamage::Call(damage) => damage.on(random, given, loan),
            ReductionDamage::Limit => *limit = over(random),
            ReductionDamage::NoPolynomial => {
                given.words.clear();
                given.coefs.clear();
                given.starts = vec![0];
            }
            ReductionDamage::ZeroDivisor => zero_divisor(random, &mut given.starts),
        }
    }
}

/// A step limit that is too large, often by one.
fn over(random: &mut Random) -> u64 {
    match random.below(3) {
        0 => MOST_STEPS + 1,
        1 => random.pick(&[u64::MAX, u64::MAX - 1, 1 << 63, 2 * MOST_STEPS, 1 << 44]),
        _ => MOST_STEPS + 1 + random.below(u64::MAX - MOST_STEPS),
    }
}

/// Puts an empty part behind polynomial 0 or behind a divisor.
fn zero_divisor(random: &mut Random, starts: &mut Vec<usize>) {
    if starts.len() > 1 {
        let k = 1 + up_to(random, starts.len() - 2);
        starts.insert(k, starts[k]);
    }
}
