//! Damage to a run, so that an opening check refuses it.
use crate::call::{Given, Loan};
use crate::damage::{far, Damage};
use crate::generate::up_to;
use crate::random::Random;
use crate::run::{ADD, LEAD, SUM};

/// What is damaged.
#[derive(Clone, Copy, Debug, PartialEq, Eq)]
pub enum RunDamage {
    Call(Damage),
    Pairs,
    Code,
    Absent,
    SecondNumber,
}

impl RunDamage {
    pub fn all() -> Vec<RunDamage> {
        let own = [
            RunDamage::Pairs,
            RunDamage::Code,
            RunDamage::Absent,
            RunDamage::SecondNumber,
        ];
        let calls = Damage::ALL.map(RunDamage::Call);
        calls.into_iter().chain(own).collect()
    }

    /// The refusal of a run with this damage alone, where it has something to damage.
    pub fn number(self) -> u64 {
        match self {
            RunDamage::Call(damage) => damage.number(),
            RunDamage::Pairs => 8,
            RunDamage::Code | RunDamage::Absent | RunDamage::SecondNumber => 9,
        }
    }

    /// Does the damage. Terms are damaged only where there are any.
    pub fn on(
        self,
        random: &mut Random,
        given: &mut Given,
        operations: &mut Vec<usize>,
        loan: &mut Loan,
    ) {
        let pair = match self {
            RunDamage::Call(damage) => return damage.on(random, given, loan),
            RunDamage::Pairs => return pairs(random, operations),
            RunDamage::Code => {
                let code = random.pick(&[0, 4, 5, 257, usize::MAX, 1 << 32, (1 << 32) + 1]);
                [code, 0]
            }
            RunDamage::Absent => {
                let polynomials = given.starts.len().saturating_sub(1);
                let far = far(random);
                [
                    ADD,
                    random.pick(&[polynomials, polynomials, polynomials + 1, far]),
                ]
            }
            RunDamage::SecondNumber => {
                let code = random.pick(&[LEAD, SUM]);
                let far = far(random);
                [code, random.pick(&[1, 2, far])]
            }
        };
        operation(random, operations, pair);
    }
}

/// Leaves half of a pair.
fn pairs(random: &mut Random, operations: &mut Vec<usize>) {
    match operations.len() {
        0 => operations.push(LEAD),
        len if random.below(2) == 0 => operations.truncate(len - 1),
        _ => operations.push(random.pick(&[0, ADD, LEAD, SUM])),
    }
}

/// Puts a pair in the place of another, often of the last, or behind all.
fn operation(random: &mut Random, operations: &mut Vec<usize>, pair: [usize; 2]) {
    let pairs = operations.len() / 2;
    if pairs == 0 || random.below(4) == 0 {
        // Also where half a pair is left.
        operations.splice(2 * pairs..2 * pairs, pair);
        return;
    }
    let k = match random.below(2) {
        0 => pairs - 1,
        _ => up_to(random, pairs - 1),
    };
    operations[2 * k..2 * k + 2].copy_from_slice(&pair);
}
