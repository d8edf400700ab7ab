//! The place of a fault. The engine's opening checks are asked about fewer polynomials and fewer terms, and
//! no check is made here. The first polynomial with a fault decides, so the first polynomials are refused
//! alike as soon as it is among them; and so are its first terms, as soon as the bad one is among them.
use crate::engine::Engine;
use crate::polynomials::Polynomials;
use crate::raw::{self, Given};
use crate::refusal::{Place, Refusal, Refused};

/// What the opening checks of a run say: it has no operations.
pub fn judged(given: Given) -> Result<(), Refused> {
    let answer = raw::run(given, &[], Engine::new(0).loan());
    Refused::unless_0(answer.refusal, 0, 0)
}

/// Where polynomials that a run or a reduction refused have their fault.
pub fn of(polynomials: &Polynomials, refusal: Refusal) -> Option<Place> {
    let count = polynomials.count();
    match refusal {
        Refusal::BadCoefficient | Refusal::BadLayout | Refusal::NotFalling => {
            let first = least(count, |m| refuses(polynomials.first(m), refusal));
            of_one(polynomials, first - 1, refusal)
        }
        Refusal::ZeroDivisor => {
            let refuses = |m| {
                let answer = raw::reduce(polynomials.first(m), 0, Engine::new(0).loan());
                answer.refusal == refusal.number()
            };
            Some(Place::of_polynomial(least(count, refuses) - 1))
        }
        _ => None,
    }
}

/// Where polynomial k alone has it.
pub fn of_one(polynomials: &Polynomials, k: usize, refusal: Refusal) -> Option<Place> {
    let (words, coefs) = polynomials.words_of(k)?;
    let setting = polynomials.setting();
    let refuses = |m: usize| {
        refuses(
            Given::new(setting.numbers(), &words[..m], &coefs[..m], &[0, m]),
            refusal,
        )
    };
    refuses(words.len()).then(|| Place::of_term(k, least(words.len(), refuses) - 1))
}

fn refuses(given: Given, refusal: Refusal) -> bool {
    judged(given).is_err_and(|refused| refused.refusal == refusal)
}

/// The least number, from 1 to the most, that is bad; the most is, and so are all from the least up.
fn least(most: usize, mut bad: impl FnMut(usize) -> bool) -> usize {
    let (mut good, mut least) = (0, most);
    while least - good > 1 {
        let middle = good + (least - good) / 2;
        match bad(middle) {
            true => least = middle,
            false => good = middle,
        }
    }
    least
}
