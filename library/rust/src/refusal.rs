//! The refusals: their numbers, and their meaning in words.
use std::fmt;

// made from refusals.txt by make_refusals: begin
/// Why a call was refused or stopped. The numbers are those of the C functions.
#[derive(Clone, Copy, Debug, PartialEq, Eq, Hash)]
#[non_exhaustive]
#[repr(u8)]
pub enum Refusal {
    /// p is not a prime from 2 to 2,147,483,647
    NotPrime = 1,
    /// the order is not 1, 2 or 3
    BadOrder = 2,
    /// the number n of variables is not 1 to 6
    BadVariables = 3,
    /// a coefficient is 0, or not below p
    BadCoefficient = 4,
    /// a word is not of the layout: an exponent over 127, a wrong degree, or a variable past the n-th
    BadLayout = 5,
    /// the terms of a polynomial do not fall strictly in the order
    NotFalling = 6,
    /// a divisor is zero
    ZeroDivisor = 7,
    /// lengths, sizes, starts, number of weights or operations, or step limit are wrong, or a reduction has no polynomial 0
    BadShape = 8,
    /// an operation is unknown, names a polynomial that is not there, or has a second number that is not 0
    BadOperation = 9,
    /// there is too little room for the output
    NoOutput = 10,
    /// over 4,096 terms would be held, or are to be written
    TooManyTerms = 11,
    /// a product has an exponent over 127
    ExponentOver = 12,
    /// the step limit is reached, and a lead is left; with a limit of 4,398,046,511,104 or more this never happens
    StepLimit = 13,
    /// the bytes are not 1 to 100 whole blocks
    NotBlocks = 14,
    /// the check of a block is wrong
    BadCheck = 15,
    /// a block's numbers or filler are not what writing would put there
    BadBlock = 16,
    /// the script is not of the form
    BadScript = 17,
    /// a weight is not 1 to 16, or is that of a variable past the n-th and not 1
    BadWeight = 24,
}

impl Refusal {
    /// All of them, by number.
    pub const ALL: &'static [Refusal] = &[
        Refusal::NotPrime,
        Refusal::BadOrder,
        Refusal::BadVariables,
        Refusal::BadCoefficient,
        Refusal::BadLayout,
        Refusal::NotFalling,
        Refusal::ZeroDivisor,
        Refusal::BadShape,
        Refusal::BadOperation,
        Refusal::NoOutput,
        Refusal::TooManyTerms,
        Refusal::ExponentOver,
        Refusal::StepLimit,
        Refusal::NotBlocks,
        Refusal::BadCheck,
        Refusal::BadBlock,
        Refusal::BadScript,
        Refusal::BadWeight,
    ];

    /// Whether it stops a run or a reduction that has begun: what was given out and what is held stays.
    #[rustfmt::skip]
    pub fn stops(self) -> bool {
        matches!(self, Refusal::NoOutput | Refusal::TooManyTerms | Refusal::ExponentOver | Refusal::StepLimit)
    }

    /// What it means.
    #[rustfmt::skip]
    pub fn meaning(self) -> &'static str {
        match self {
            Refusal::NotPrime => "p is not a prime from 2 to 2,147,483,647",
            Refusal::BadOrder => "the order is not 1, 2 or 3",
            Refusal::BadVariables => "the number n of variables is not 1 to 6",
            Refusal::BadCoefficient => "a coefficient is 0, or not below p",
            Refusal::BadLayout => "a word is not of the layout: an exponent over 127, a wrong degree, or a variable past the n-th",
            Refusal::NotFalling => "the terms of a polynomial do not fall strictly in the order",
            Refusal::ZeroDivisor => "a divisor is zero",
            Refusal::BadShape => "lengths, sizes, starts, number of weights or operations, or step limit are wrong, or a reduction has no polynomial 0",
            Refusal::BadOperation => "an operation is unknown, names a polynomial that is not there, or has a second number that is not 0",
            Refusal::NoOutput => "there is too little room for the output",
            Refusal::TooManyTerms => "over 4,096 terms would be held, or are to be written",
            Refusal::ExponentOver => "a product has an exponent over 127",
            Refusal::StepLimit => "the step limit is reached, and a lead is left; with a limit of 4,398,046,511,104 or more this never happens",
            Refusal::NotBlocks => "the bytes are not 1 to 100 whole blocks",
            Refusal::BadCheck => "the check of a block is wrong",
            Refusal::BadBlock => "a block's numbers or filler are not what writing would put there",
            Refusal::BadScript => "the script is not of the form",
            Refusal::BadWeight => "a weight is not 1 to 16, or is that of a variable past the n-th and not 1",
        }
    }
}
// made from refusals.txt by make_refusals: end

impl Refusal {
    /// The number.
    pub fn number(self) -> u64 {
        self as u64
    }

    /// The refusal of a number; none for 0, and for a number that no call gives.
    pub fn from_number(number: u64) -> Option<Self> {
        Self::ALL.iter().copied().find(|r| r.number() == number)
    }
}

impl fmt::Display for Refusal {
    fn fmt(&self, f: &mut fmt::Formatter) -> fmt::Result {
        f.write_str(self.meaning())
    }
}

/// The place of a fault: a polynomial, and one of its terms where that is at fault, both counted from 0.
/// Where the terms do not fall, it is the first that is not below the one before it.
#[derive(Clone, Copy, Debug, PartialEq, Eq, Hash)]
#[non_exhaustive]
pub struct Place {
    pub polynomial: usize,
    pub term: Option<usize>,
}

impl Place {
    pub(crate) fn of_polynomial(polynomial: usize) -> Self {
        Place {
            polynomial,
            term: None,
        }
    }

    pub(crate) fn of_term(polynomial: usize, term: usize) -> Self {
        Place {
            polynomial,
            term: Some(term),
        }
    }
}

impl fmt::Display for Place {
    fn fmt(&self, f: &mut fmt::Formatter) -> fmt::Result {
        write!(f, "polynomial {}", self.polynomial)?;
        match self.term {
            Some(term) => write!(f, ", term {term}"),
            None => Ok(()),
        }
    }
}

/// A call that was refused at its opening, or stopped.
#[derive(Clone, Copy, Debug, PartialEq, Eq, Hash)]
#[non_exhaustive]
pub struct Refused {
    /// Why.
    pub refusal: Refusal,
    /// Operations of a run, or leads of a reduction, that were finished before.
    pub finished: u64,
    /// Output places that a run or a reduction wrote before: the first of
    /// [`Engine::output`](crate::Engine::output).
    pub places: usize,
    /// Where one of the polynomials that the call was given is at fault.
    pub at: Option<Place>,
}

impl Refused {
    /// A call that did nothing.
    pub(crate) fn at_opening(refusal: Refusal) -> Self {
        Refused {
            refusal,
            finished: 0,
            places: 0,
            at: None,
        }
    }

    /// Nothing, where the number is 0.
    pub(crate) fn unless_0(number: u64, finished: u64, places: u64) -> Result<(), Refused> {
        if number == 0 {
            return Ok(());
        }
        let refusal = Refusal::from_number(number).expect("a number of the list");
        Err(Refused {
            refusal,
            finished,
            places: places as usize,
            at: None,
        })
    }

    pub(crate) fn at(self, at: Option<Place>) -> Self {
        Refused { at, ..self }
    }
}

impl fmt::Display for Refused {
    fn fmt(&self, f: &mut fmt::Formatter) -> fmt::Result {
        let (number, finished) = (self.refusal.number(), self.finished);
        write!(f, "refused {number} after {finished}: {}", self.refusal)?;
        match self.at {
            Some(place) => write!(f, " ({place})"),
            None => Ok(()),
        }
    }
}

impl std::error::Error for Refused {}
