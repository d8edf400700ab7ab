//! What is lent to a run or a reduction, with any contents.
use crate::call::{Loan, Space, Tally};
use crate::generate::places;
use crate::limits::{BUCKET_PLACES, WORK_PLACES};
use crate::random::Random;

/// After so many loans the contents of the spaces are made again.
const LOANS_PER_CONTENTS: u64 = 64;

/// Lends spaces with any contents: rubbish, or what an earlier call left there.
pub struct Lender {
    lent: u64,
    rubbish: [Space; 2],
    left: [Space; 2],
}

impl Lender {
    pub fn new(random: &mut Random) -> Self {
        let rubbish = rubbish(random);
        Lender {
            lent: 0,
            left: rubbish.clone(),
            rubbish,
        }
    }

    pub fn lend(&mut self, random: &mut Random, output: usize) -> Loan {
        self.lent += 1;
        if self.lent % LOANS_PER_CONTENTS == 0 {
            self.rubbish = rubbish(random);
        }
        let contents = match random.below(4) {
            0 => &self.left,
            _ => &self.rubbish,
        };
        let [space, work] = contents.clone();
        Loan {
            space,
            work,
            output: places(random, output, output),
            tally: tally(random),
        }
    }

    /// Keeps the spaces that a call left, where they are whole.
    pub fn keep(&mut self, loan: Loan) {
        let lens = |(words, coefs): &Space| (words.len(), coefs.len());
        if lens(&loan.space) == (BUCKET_PLACES, BUCKET_PLACES)
            && lens(&loan.work) == (WORK_PLACES, WORK_PLACES)
        {
            self.left = [loan.space, loan.work];
        }
    }
}

/// A bucket space and a work space with any contents.
fn rubbish(random: &mut Random) -> [Space; 2] {
    [
        places(random, BUCKET_PLACES, BUCKET_PLACES),
        places(random, WORK_PLACES, WORK_PLACES),
    ]
}

/// A tally as it came, with any counts.
fn tally(random: &mut Random) -> Tally {
    Tally {
        comparisons: random.word(),
        brought: random.word(),
        given: random.word(),
        held: random.word(),
    }
}

/// Nothing but what must be there: spaces of 0, and so many output places.
pub fn plain(output: usize) -> Loan {
    Loan {
        space: (vec![0; BUCKET_PLACES], vec![0; BUCKET_PLACES]),
        work: (vec![0; WORK_PLACES], vec![0; WORK_PLACES]),
        output: (vec![0; output], vec![0; output]),
        tally: Tally::default(),
    }
}

/// Both calls must have left the same output, spaces and tally.
pub fn assert_same(proved: &Loan, expected: &Loan, about: &str) {
    assert_eq!(proved.tally, expected.tally, "{about}");
    assert!(proved.output == expected.output, "{about}: output");
    assert!(proved.space == expected.space, "{about}: bucket space");
    assert!(proved.work == expected.work, "{about}: work space");
}
