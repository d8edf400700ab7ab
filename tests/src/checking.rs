//! The opening check of a polynomial in pieces (document 02, "Opening check in one pass"): the numbers
//! that it carries from one piece to the next, worked out from all terms so far at once.
use crate::c_functions::Checking;
use crate::call::Setting;
use crate::monomial::Order;
use crate::polynomial::{falls, term_refusal};
use crate::probe::Lent;

/// Before the first term.
pub const START: Checking = Checking {
    stop: 0,
    late: 0,
    seen: false,
    last: 0,
};

/// The refusal that the check comes to, 0 for none.
pub fn verdict(checking: Checking) -> u32 {
    match checking.stop {
        0 => checking.late,
        stop => stop,
    }
}

/// What the check comes to after these terms, the first ones of a polynomial.
pub fn checked(setting: Setting, terms: Lent) -> Checking {
    let (words, stop) = looked_at(setting, terms);
    Checking {
        stop,
        late: late(setting.0, words, stop),
        seen: !words.is_empty(),
        last: words.last().copied().unwrap_or(0),
    }
}

/// What it comes to after these terms from any numbers, which need not come of a check. A last word
/// need not be of the layout then.
pub fn carried(setting: Setting, terms: Lent, from: Checking) -> Checking {
    let Some(first) = terms.0.first() else {
        return from;
    };
    if from.stop != 0 {
        return from;
    }
    let own = checked(setting, terms);
    let joint_falls = !from.seen || setting.0.compare_words(from.last, *first).is_gt();
    let falls = joint_falls && own.late == 0;
    Checking {
        late: if falls { from.late } else { 6 },
        ..own
    }
}

/// 6 where two neighbours of these words do not fall, or else 0. The last one need not be of the layout
/// where there is a refusal; the others are compared by their exponents.
fn late(order: Order, words: &[u64], stop: u32) -> u32 {
    let good = words.len() - usize::from(stop != 0);
    let mut end = words[good.saturating_sub(1)..].windows(2);
    let end_falls = end.all(|pair| order.compare_words(pair[0], pair[1]).is_gt());
    if end_falls && falls(order, &words[..good]) {
        0
    } else {
        6
    }
}

/// The words up to the first term that is refused by itself, with its own, and its refusal, 0 for none.
fn looked_at((order, n, p): Setting, (words, coefs): Lent<'_>) -> (&[u64], u32) {
    let terms = words.iter().zip(coefs).enumerate();
    let mut refusals = terms.map(|(k, (&w, &c))| (k, term_refusal(order, n, p, w, c)));
    match refusals.find(|&(_, refusal)| refusal != 0) {
        Some((k, refusal)) => (&words[..=k], refusal),
        None => (words, 0),
    }
}
