//! Damage of one lent polynomial, for the tests of its opening check.
use crate::call::Setting;
use crate::generate::{polynomial, up_to};
use crate::monomial::{Order, FIELDS, ONES};
use crate::polynomial::lent;
use crate::random::Random;

/// What is done to a good polynomial.
#[derive(Clone, Copy, Debug)]
enum Damage {
    None,
    Coef(Number),
    Word(Fault),
    Equal,
    Swapped,
    Turned,
    /// The monomial 1, whose word is 0, at any place, or at the last.
    One,
    LastOne,
    /// A bad coefficient, and a bad word at the same, a later or an earlier place.
    CoefAndWord,
    /// An early order fault, and a late bad coefficient or word.
    EqualThenCoef,
    SwappedThenWord,
}

#[derive(Clone, Copy, Debug)]
enum Number {
    Zero,
    Prime,
    Last,
    Max,
}

#[derive(Clone, Copy, Debug)]
enum Fault {
    TopBit,
    Degree,
    Beyond,
    /// The degree is the sum of the exponents without weights, or with the weights from the last to the first.
    Unweighted,
    Reversed,
    AnyBit,
    Any,
}

/// Their number and that of the settings have no common divisor, so that all come together.
const DAMAGES: [Damage; 23] = [
    Damage::None,
    Damage::Coef(Number::Zero),
    Damage::Coef(Number::Prime),
    Damage::Coef(Number::Last),
    Damage::Coef(Number::Max),
    Damage::Word(Fault::TopBit),
    Damage::Word(Fault::Degree),
    Damage::Word(Fault::Beyond),
    Damage::Word(Fault::Unweighted),
    Damage::Word(Fault::Reversed),
    Damage::Word(Fault::AnyBit),
    Damage::Word(Fault::Any),
    Damage::Equal,
    Damage::Swapped,
    Damage::Turned,
    Damage::One,
    Damage::LastOne,
    Damage::CoefAndWord,
    Damage::EqualThenCoef,
    Damage::SwappedThenWord,
    Damage::None,
    Damage::None,
    Damage::None,
];

fn number(p: u32, number: Number) -> u32 {
    match number {
        Number::Zero => 0,
        Number::Prime => p,
        Number::Last => p - 1,
        Number::Max => u32::MAX,
    }
}

fn bad_word(random: &mut Random, order: Order, n: usize, word: u64, fault: Fault) -> u64 {
    match fault {
        Fault::TopBit => word | 0x80 << (8 * random.below(6)),
        Fault::Degree => word ^ 1 << (48 + random.below(16)),
        Fault::Beyond => {
            // The word of more variables, under its own degree.
            let mut fields = order.fields(word);
            fields[n.min(FIELDS - 1)] |= 1;
            order.word(&fields)
        }
        Fault::Unweighted => order.weighted(ONES).word(&order.fields(word)),
        Fault::Reversed => {
            let mut weights = order.weights;
            weights.reverse();
            order.weighted(weights).word(&order.fields(word))
        }
        Fault::AnyBit => word ^ 1 << random.below(64),
        Fault::Any => random.word(),
    }
}

/// The words and coefficients of a polynomial of up to `len` terms, with each kind of damage in turn.
pub fn damaged(
    random: &mut Random,
    (order, n, p): Setting,
    case: u64,
    len: usize,
) -> (Vec<u64>, Vec<u32>) {
    let kind = DAMAGES[(case % DAMAGES.len() as u64) as usize];
    let mut terms = lent(order, &polynomial(random, order, n, p, len));
    if !terms.0.is_empty() {
        damage(random, (order, n, p), kind, &mut terms);
    }
    terms
}

/// Damages a polynomial, which has terms.
fn damage(
    random: &mut Random,
    (order, n, p): Setting,
    kind: Damage,
    (words, coefs): &mut (Vec<u64>, Vec<u32>),
) {
    let last = words.len() - 1;
    let at = up_to(random, last);
    let next = (at + 1).min(last);
    let later = at + up_to(random, last - at);
    let out_of_range = random.pick(&[Number::Zero, Number::Prime, Number::Max]);
    let fault = random.pick(&[Fault::TopBit, Fault::Degree, Fault::Unweighted, Fault::Any]);
    match kind {
        Damage::None => {}
        Damage::Coef(c) => coefs[at] = number(p, c),
        Damage::Word(fault) => words[at] = bad_word(random, order, n, words[at], fault),
        Damage::Equal => words[next] = words[at],
        Damage::Swapped => words.swap(at, next),
        Damage::Turned => words.reverse(),
        Damage::One => words[at] = 0,
        Damage::LastOne => words[last] = 0,
        Damage::CoefAndWord => {
            let (c, w) = random.pick(&[(at, at), (at, later), (later, at)]);
            coefs[c] = number(p, out_of_range);
            words[w] = bad_word(random, order, n, words[w], fault);
        }
        Damage::EqualThenCoef => {
            words[next] = words[at];
            coefs[later] = number(p, out_of_range);
        }
        Damage::SwappedThenWord => {
            words.swap(at, next);
            words[later] = bad_word(random, order, n, words[later], fault);
        }
    }
}
