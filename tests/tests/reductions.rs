//! Reductions of the proved engine against the model: document 01's known results, and generated
//! good, damaged and hostile ones. The variable SECOND_CASES sets the size, as for the other
//! generated tests.
use second::call::{terms, Answer, Given, Loan, Setting, Space, Tally};
use second::cases;
use second::damage::Damage;
use second::generate::{up_to, weights};
use second::geobucket::most_comparisons;
use second::lender::{assert_same, Lender};
use second::library;
use second::limits::{MOST_STEPS, MOST_TERMS};
use second::monomial::{divides, quotient, Order};
use second::polynomial::{multiple, sum, Term};
use second::pools::setting;
use second::random::Random;
use second::reduction;
use second::reduction_damage::ReductionDamage;
use second::reduction_lists::{anything, combination, coprime, Made, Reductions};
use second::refusals::{stops, Refusals};
use second::residue;
use second::run_lists::hostile_polynomials;

/// One of so many cases is a reduction.
const CASES_PER_REDUCTION: u64 = 2;

/// Each refusal, and each kind of reduction, must be met once in so many cases.
const CASES_PER_KIND: u64 = 500;

/// The opening refusals in their order, but 4, 5 and 6, which come by polynomial and place.
const BEFORE_TERMS: [u64; 5] = [1, 2, 3, 24, 8];
const TERMS: [u64; 3] = [4, 5, 6];

/// How often each pair of kinds of damage is done.
const EACH_PAIR: usize = 30;

/// The most leads of a reduction whose leads are found one by one.
const MOST_FOUND: u64 = 300;

/// Output places that are enough for small reductions.
const ENOUGH: usize = 10;

/// The setting of the known results.
const KNOWN: Setting = (Order::DEG_REV_LEX, 2, 7);

/// What the reductions met.
#[derive(Debug, Default)]
struct Met {
    reductions: u64,
    refusals: Refusals,
    /// Those of reductions that were stopped after some leads.
    stopped_later: Refusals,
    stopped_with_output: u64,
    /// Those that were finished with no lead, or with the remainder zero after some leads.
    nothing: u64,
    zero: u64,
    /// Those that were finished with exactly the step limit's leads, and with no output place left.
    at_limit: u64,
    output_full: u64,
    leads: u64,
    comparisons: u64,
}

impl Met {
    fn reduction(&mut self, limit: u64, answer: Answer, left: &Loan) {
        self.reductions += 1;
        self.refusals.meet(answer.refusal);
        self.leads += answer.finished;
        if !at_opening(answer) {
            self.comparisons += left.tally.comparisons;
        }
        if answer.refusal != 0 && answer.finished > 0 {
            self.stopped_later.meet(answer.refusal);
            self.stopped_with_output += u64::from(answer.places > 0);
        }
        if answer.refusal == 0 {
            let (leads, places) = (answer.finished, answer.places);
            self.nothing += u64::from(leads == 0);
            self.zero += u64::from(leads > 0 && places == 0);
            self.at_limit += u64::from(leads > 0 && leads == limit);
            self.output_full += u64::from(leads > 0 && places == left.output.0.len() as u64);
        }
    }

    /// That each refusal was met often enough, and each kind of reduction.
    fn whole(&self) {
        println!("{self:?}");
        let mut kinds = vec![self.nothing, self.zero, self.at_limit, self.output_full];
        kinds.push(self.stopped_with_output);
        kinds.extend(stops("reduce").iter().map(|&r| self.stopped_later.of(r)));
        let least = cases() / CASES_PER_KIND;
        self.refusals.expect("reduce", least);
        assert!(kinds.iter().all(|&k| k >= least), "{self:?}");
    }
}

/// Does a reduction with the model and with the proved engine. Answer, output, both spaces and the
/// tally must be the same.
fn both(given: &Given, limit: u64, loan: Loan, about: &str) -> (Answer, Loan) {
    let (mut expected, mut proved) = (loan.clone(), loan);
    let answer = reduction::reduce(given, limit, &mut expected);
    let own = library::reduce(given, limit, &mut proved);
    assert_eq!(own, answer, "{about}");
    assert_same(&proved, &expected, about);
    (answer, expected)
}

/// Whether the reduction was refused by an opening check.
fn at_opening(answer: Answer) -> bool {
    answer.refusal != 0 && !stops("reduce").contains(&answer.refusal)
}

/// Damage of one kind or of several, or of several to the divisors and terms alone, or none.
fn damages(random: &mut Random) -> Vec<ReductionDamage> {
    let some = 2 + up_to(random, 2);
    let all = ReductionDamage::all();
    let mut terms = Damage::TERMS.map(ReductionDamage::Call).to_vec();
    terms.push(ReductionDamage::ZeroDivisor);
    match random.below(20) {
        0..=9 => Vec::new(),
        10..=13 => vec![random.pick(&all)],
        14..=16 => (0..some).map(|_| random.pick(&all)).collect(),
        _ => (0..some).map(|_| random.pick(&terms)).collect(),
    }
}

/// A reduction, what is lent to it, and what to say of it.
struct Case {
    given: Given,
    limit: u64,
    loan: Loan,
    about: String,
}

/// A reduction of small numbers of any kind, or of any numbers, with any step limit.
fn hostile_case(random: &mut Random, lender: &mut Lender, case: u64) -> Case {
    let any = random.word();
    let output = random.pick(&[0, 1, 2, 20, 20]);
    Case {
        given: match random.below(4) {
            0 => anything(random),
            _ => hostile_polynomials(random),
        },
        limit: random.pick(&[0, 1, 2, 5, MOST_STEPS, MOST_STEPS, MOST_STEPS + 1, any]),
        loan: lender.lend(random, output),
        about: format!("case {case}, hostile"),
    }
}

/// A good reduction, which is then damaged as often as not.
fn made_case(random: &mut Random, lender: &mut Lender, made: Made, about: &str) -> Case {
    let output = made.output_len(random);
    let (mut limit, mut loan) = (made.limit(random), lender.lend(random, output));
    let mut given = made.given;
    let damages = damages(random);
    for damage in &damages {
        damage.on(random, &mut given, &mut limit, &mut loan);
    }
    Case {
        given,
        limit,
        loan,
        about: format!("{about}, limit {limit}, {output} places, {damages:?}"),
    }
}

/// Generated reductions: 25,000. Of twenty, one is hostile, and half of the others are damaged.
#[test]
fn generated() {
    let random = &mut Random::new(81);
    let reductions = Reductions::new();
    let mut lender = Lender::new(random);
    let mut met = Met::default();
    for case in 0..cases() / CASES_PER_REDUCTION {
        let Case {
            given,
            limit,
            loan,
            about,
        } = match random.below(20) {
            0 => hostile_case(random, &mut lender, case),
            _ => {
                let setting = setting(random, case);
                let made = reductions.made(random, case, setting);
                made_case(
                    random,
                    &mut lender,
                    made,
                    &format!("case {case} {setting:?}"),
                )
            }
        };
        let before = loan.clone();
        let (answer, left) = both(&given, limit, loan, &about);
        match at_opening(answer) {
            true => assert!(left == before, "{about}"),
            false => {
                assert_bound(left.tally, &about);
                assert_eq!(answer.places, left.tally.given, "{about}");
            }
        }
        met.reduction(limit, answer, &left);
        lender.keep(left);
    }
    met.whole();
}

/// The comparisons are at most 6·N·M.
fn assert_bound(tally: Tally, about: &str) {
    let most = most_comparisons(tally.brought);
    assert!(tally.comparisons <= most, "{about}: {tally:?}");
}

/// The terms that the bucket space holds.
fn held((order, n, _): Setting, left: &Loan) -> Vec<Term> {
    let places = left.space.0.iter().zip(&left.space.1);
    let (words, coefs): Space = places.filter(|&(_, &c)| c != 0).unzip();
    terms(order, n, &words, &coefs)
}

/// The leads that the proved engine removes first: each is the largest term in the bucket space where the
/// step limit stops before it.
fn removed(given: &Given, setting: Setting, leads: u64, mut loan: Loan) -> Vec<Term> {
    let lead = |limit: u64| {
        let answer = library::reduce(given, limit, &mut loan);
        assert_eq!((answer.refusal, answer.finished), (13, limit));
        let held = held(setting, &loan).into_iter();
        let lead = held.max_by(|(x, _), (y, _)| setting.0.compare(x, y));
        lead.expect("a lead is left")
    };
    (0..leads).map(lead).collect()
}

/// What is added where these leads are removed: polynomial 0 unless it has too many terms, and for each
/// lead the multiple of a divisor's tail; and the leads that go to the remainder.
fn added(p: u32, polynomials: &[Vec<Term>], leads: &[Term]) -> (Vec<Term>, Vec<Term>) {
    let (mut brought, mut remainder) = (polynomials[0].clone(), Vec::new());
    brought.truncate(if brought.len() > MOST_TERMS {
        0
    } else {
        MOST_TERMS
    });
    for (m, c) in leads {
        match polynomials[1..].iter().find(|d| divides(&d[0].0, m)) {
            Some(d) => {
                let factor = residue::multiply(*c, residue::invert(d[0].1, p), p);
                let by = quotient(m, &d[0].0).expect("it divides");
                let tail = multiple(p, residue::negate(factor, p), &by, &d[1..]);
                brought.extend(tail.expect("the step was done"));
            }
            None => remainder.push((m.clone(), *c)),
        }
    }
    (brought, remainder)
}

/// Of the proved engine alone: the leads that it removed and the terms in its bucket space add up to what
/// was brought in, modulo p; and its output and its tally say the same.
#[test]
fn conservation() {
    let random = &mut Random::new(82);
    let reductions = Reductions::new();
    let mut lender = Lender::new(random);
    let mut checked = 0;
    for case in 0..cases() / (10 * CASES_PER_REDUCTION) {
        let setting = setting(random, case);
        let made = reductions.made(random, case, setting);
        let (limit, output) = (made.limit(random), made.output_len(random));
        let mut loan = lender.lend(random, output);
        let answer = library::reduce(&made.given, limit, &mut loan);
        // Of long ones the leads would take too long to find.
        if answer.finished > MOST_FOUND {
            continue;
        }
        let (about, (order, n, p)) = (format!("case {case} {setting:?}"), setting);
        let leads = removed(&made.given, setting, answer.finished, loan.clone());
        let polynomials = made.given.polynomials((order, n)).expect("good");
        let (brought, remainder) = added(p, &polynomials, &leads);
        let held = held(setting, &loan);
        let out = sum(order, p, &leads, &held);
        assert!(out == sum(order, p, &brought, &[]), "{about}");
        let places = answer.places as usize;
        let (words, coefs) = (&loan.output.0[..places], &loan.output.1[..places]);
        assert!(terms(order, n, words, coefs) == remainder, "{about}");
        let numbers = [&brought, &remainder, &held].map(|terms| terms.len() as u64);
        let Tally { brought, given, .. } = loan.tally;
        assert_eq!([brought, given, loan.tally.held], numbers, "{about}");
        assert_bound(loan.tally, &about);
        checked += 1;
    }
    assert!(checked >= cases() / (20 * CASES_PER_REDUCTION), "{checked}");
}

/// The division algorithm on whole polynomials, without buckets: the remainder and the leads, where
/// no exponent is over 127 and there are at most so many leads.
fn divided(
    (order, _, p): Setting,
    polynomials: &[Vec<Term>],
    most: u64,
) -> Option<(Vec<Term>, u64)> {
    let (mut f, mut remainder, mut leads) = (polynomials[0].clone(), Vec::new(), 0);
    while let Some((lead, rest)) = f.clone().split_first() {
        if leads == most {
            return None;
        }
        leads += 1;
        let fits = |d: &&Vec<Term>| divides(&d[0].0, &lead.0);
        f = match polynomials[1..].iter().find(fits) {
            Some(d) => {
                let inverse = residue::invert(d[0].1, p);
                let factor = residue::negate(residue::multiply(lead.1, inverse, p), p);
                let by = quotient(&lead.0, &d[0].0)?;
                sum(order, p, &f, &multiple(p, factor, &by, d)?)
            }
            None => {
                remainder.push(lead.clone());
                rest.to_vec()
            }
        };
    }
    Some((remainder, leads))
}

/// A finished remainder is that of the division algorithm, with as many leads.
#[test]
fn division_algorithm() {
    let random = &mut Random::new(83);
    let reductions = Reductions::new();
    let mut lender = Lender::new(random);
    let mut finished = 0;
    for case in 0..cases() / 20 {
        let setting = setting(random, case);
        let made = reductions.made(random, case, setting);
        // On large ones it would take too long.
        if made.given.words.len() > 1_000 {
            continue;
        }
        let polynomials = made.given.polynomials((setting.0, setting.1));
        let loan = lender.lend(random, made.terms);
        let about = format!("case {case} {setting:?}");
        let (answer, left) = both(&made.given, made.leads, loan, &about);
        if answer.refusal == 0 {
            let (words, coefs) = &left.output;
            let remainder = terms(setting.0, setting.1, words, coefs);
            let expected = divided(setting, &polynomials.expect("good"), made.leads);
            assert!(expected == Some((remainder, made.leads)), "{about}");
            finished += 1;
        }
    }
    assert!(finished >= cases() / 100, "{finished}");
}

/// By a Gröbner basis, a combination of the divisors leaves zero, and the remainder does not depend on
/// their order.
#[test]
fn bases() {
    let random = &mut Random::new(84);
    let mut lender = Lender::new(random);
    let (mut zeros, mut alike) = (0, 0);
    for case in 0..cases() / 50 {
        let setting = setting(random, case);
        let mut basis = coprime(random, setting);
        let f = combination(random, setting, &basis);
        let mut remainders = Vec::new();
        for turn in 0..2 {
            let given = Given::new(setting, &[vec![f.clone()], basis.clone()].concat());
            let about = format!("case {case} {setting:?}, turn {turn}");
            let loan = lender.lend(random, MOST_TERMS);
            let (answer, left) = both(&given, 2_000, loan, &about);
            if answer.refusal == 0 {
                let places = answer.places as usize;
                remainders.push((
                    left.output.0[..places].to_vec(),
                    left.output.1[..places].to_vec(),
                ));
            }
            basis.reverse();
        }
        if let [one, other] = &remainders[..] {
            assert!(one == other, "case {case} {setting:?}");
            alike += 1;
            zeros += u64::from(one.0.is_empty());
        }
    }
    assert!(
        alike >= cases() / 100 && zeros >= cases() / 200,
        "{alike} {zeros}"
    );
}

/// Every kind of damage alone and with every other one, on a reduction that is good without them: the
/// refusal that comes first in the opening order is given, and nothing is changed.
#[test]
fn damage_in_pairs() {
    let random = &mut Random::new(85);
    let mut lender = Lender::new(random);
    for first in ReductionDamage::all() {
        for second in ReductionDamage::all() {
            for time in 0..EACH_PAIR {
                let about = format!("{first:?} and {second:?}, time {time}");
                let n = 2 + time % 5;
                let order = Order::ALL[time % 3].weighted(weights(random, n));
                let (mut given, mut limit) = (good(order, n), 3);
                let mut loan = lender.lend(random, ENOUGH);
                first.on(random, &mut given, &mut limit, &mut loan);
                // The same kind twice may undo itself.
                if second != first {
                    second.on(random, &mut given, &mut limit, &mut loan);
                }
                let before = loan.clone();
                let (answer, left) = both(&given, limit, loan, &about);
                assert!(left == before, "{about}");
                expect_first(answer, [first, second], &about);
            }
        }
    }
}

/// The refusal that comes first in the opening order, or one of the two of terms.
fn expect_first(answer: Answer, damages: [ReductionDamage; 2], about: &str) {
    let numbers = damages.map(ReductionDamage::number);
    let before = BEFORE_TERMS.into_iter().find(|r| numbers.contains(r));
    let expected = match before {
        Some(number) => answer.refusal == number,
        None if numbers.iter().any(|r| TERMS.contains(r)) => {
            numbers.contains(&answer.refusal) && answer.refusal != 7
        }
        None => answer.refusal == 7,
    };
    assert!(expected && answer.finished == 0, "{about}: {answer:?}");
    assert_eq!(answer.places, 0, "{about}");
}

/// A term in the first two of n variables.
fn term(n: usize, coef: u32, [x, y]: [u8; 2]) -> Term {
    let mut exponents = vec![0; n];
    (exponents[0], exponents[1]) = (x, y);
    (exponents, coef)
}

/// A polynomial in the first two of n variables.
fn polynomial(order: Order, n: usize, terms: &[(u32, [u8; 2])]) -> Vec<Term> {
    let mut f: Vec<Term> = terms.iter().map(|&(c, m)| term(n, c, m)).collect();
    f.sort_by(|(x, _), (y, _)| order.compare(y, x));
    f
}

/// The polynomials of document 01's known results: x1²x2 + x1x2² + x2², x1x2 + 6 and x2² + 6.
fn known_polynomials(order: Order, n: usize) -> [Vec<Term>; 3] {
    [
        &[(1, [2, 1]), (1, [1, 2]), (1, [0, 2])][..],
        &[(1, [1, 1]), (6, [0, 0])],
        &[(1, [0, 2]), (6, [0, 0])],
    ]
    .map(|terms| polynomial(order, n, terms))
}

/// A reduction that no opening check refuses, in an order and in n variables.
fn good(order: Order, n: usize) -> Given {
    Given::new((order, n, 7), &known_polynomials(order, n))
}

/// Does a reduction in the setting of the known results, and gives the refusal, the leads, the
/// remainder and what is left.
fn known(polynomials: &[Vec<Term>], limit: u64) -> (u64, u64, Vec<Term>, Loan) {
    let random = &mut Random::new(86);
    let loan = Lender::new(random).lend(random, ENOUGH);
    let before = loan.output.clone();
    let given = Given::new(KNOWN, polynomials);
    let about = format!("{polynomials:?}, limit {limit}");
    let (answer, left) = both(&given, limit, loan, &about);
    let written = left.tally.given as usize;
    assert_eq!(answer.places as usize, written, "{about}");
    let (words, coefs) = &left.output;
    assert_eq!(words[written..], before.0[written..], "{about}");
    assert_eq!(coefs[written..], before.1[written..], "{about}");
    let remainder = terms(KNOWN.0, KNOWN.1, &words[..written], &coefs[..written]);
    (answer.refusal, answer.finished, remainder, left)
}

/// A polynomial of a known result.
fn of(terms: &[(u32, [u8; 2])]) -> Vec<Term> {
    polynomial(KNOWN.0, KNOWN.1, terms)
}

/// A polynomial of a known result as numbers: words of dp in two variables, and coefficients.
type Numbers = &'static [(u64, u32)];

/// x1²x2 + x1x2² + x2², x1x2 + 6 and x2² + 6.
const F: Numbers = &[
    (0x0003_0000_0000_0102, 1),
    (0x0003_0000_0000_0201, 1),
    (0x0002_0000_0000_0200, 1),
];
const G: Numbers = &[(0x0002_0000_0000_0101, 1), (0, 6)];
const H: Numbers = &[(0x0002_0000_0000_0200, 1), (0, 6)];

/// Does a reduction of the known results with the proved engine alone. Its refusal, leads, remainder and
/// tally (comparisons, brought, given, held) must be these numbers; what is held is given back.
fn expect_known(
    polynomials: &[Numbers],
    limit: u64,
    (refusal, leads): (u64, u64),
    remainder: Numbers,
    tally: [u64; 4],
) -> Vec<(u64, u32)> {
    let mut given = Given::new(KNOWN, &[]);
    for &(word, coef) in polynomials.concat().iter() {
        given.words.push(word);
        given.coefs.push(coef);
    }
    for numbers in polynomials {
        let last = given.starts[given.starts.len() - 1];
        given.starts.push(last + numbers.len());
    }
    let random = &mut Random::new(86);
    let mut loan = Lender::new(random).lend(random, ENOUGH);
    let answer = library::reduce(&given, limit, &mut loan);
    let pairs =
        |(words, coefs): Space| -> Vec<(u64, u32)> { words.into_iter().zip(coefs).collect() };
    let about = format!("{polynomials:?}, limit {limit}");
    assert_eq!(
        (answer.refusal, answer.finished),
        (refusal, leads),
        "{about}"
    );
    assert_eq!(
        pairs(loan.output)[..answer.places as usize],
        *remainder,
        "{about}"
    );
    let Tally {
        comparisons,
        brought,
        given,
        held,
    } = loan.tally;
    assert_eq!([comparisons, brought, given, held], tally, "{about}");
    let mut space = pairs(loan.space);
    space.retain(|&(_, coef)| coef != 0);
    space
}

/// x1²x2 + x1x2² + x2² by x1x2+6, x2²+6 leaves x1+x2+1 after 6 leads; limit 5 stops with 13; with the
/// divisors swapped it leaves 2x1+1 after 5 leads.
#[test]
fn known_remainders() {
    const REMAINDER: Numbers = &[
        (0x0001_0000_0000_0001, 1),
        (0x0001_0000_0000_0100, 1),
        (0, 1),
    ];
    for limit in [6, 7, MOST_STEPS] {
        let held = expect_known(&[F, G, H], limit, (0, 6), REMAINDER, [6, 6, 3, 0]);
        assert_eq!(held, []);
    }
    let held = expect_known(&[F, G, H], 5, (13, 5), &REMAINDER[..2], [6, 6, 2, 1]);
    assert_eq!(held, [(0, 1)]);
    const SWAPPED: Numbers = &[(0x0001_0000_0000_0001, 2), (0, 1)];
    let held = expect_known(&[F, H, G], MOST_STEPS, (0, 5), SWAPPED, [5, 6, 2, 0]);
    assert_eq!(held, []);
    let in_turn = known_polynomials(KNOWN.0, KNOWN.1);
    for limit in 0..6 {
        let (refusal, leads, ..) = known(&in_turn, limit);
        assert_eq!((refusal, leads), (13, limit));
    }
}

/// By x2²+6x1: x1^126·x2² leaves x1^127; x1^127·x2² stops with 12, and its lead is left.
#[test]
fn known_exponents() {
    const DIVISOR: Numbers = &[(0x0002_0000_0000_0200, 1), (0x0001_0000_0000_0001, 6)];
    const LOW: Numbers = &[(0x0080_0000_0000_027e, 1)];
    const HIGH: Numbers = &[(0x0081_0000_0000_027f, 1)];
    const REMAINDER: Numbers = &[(0x007f_0000_0000_007f, 1)];
    let held = expect_known(&[LOW, DIVISOR], 9, (0, 2), REMAINDER, [0, 2, 1, 0]);
    assert_eq!(held, []);
    let held = expect_known(&[HIGH, DIVISOR], 9, (12, 0), &[], [0, 1, 0, 1]);
    assert_eq!(held, HIGH);
}

/// 4 terms go to bucket 1, which starts at place 0, and 5 to bucket 2, which starts at place 4; the step
/// limit stops before the first lead is removed, and its search is counted.
#[test]
fn known_buckets() {
    for (len, start) in [(4, 0), (5, 4)] {
        let all: Vec<(u32, [u8; 2])> = (0..len).map(|e| (1, [e, 0])).collect();
        let (refusal, leads, _, left) = known(&[of(&all)], 0);
        assert_eq!((refusal, leads), (13, 0));
        let (filled, coefs) = (start..start + usize::from(len), &left.space.1);
        let is_filled = |(place, &coef): (usize, &u32)| filled.contains(&place) == (coef != 0);
        assert!(coefs.iter().enumerate().all(is_filled), "{len}");
        assert_eq!((left.tally.comparisons, left.tally.held), (0, len.into()));
    }
}

/// 13 comes before 12, 11 and 10; zero finishes with limit 0; and divisors of one term stop nothing.
#[test]
fn order_in_a_step() {
    let (f, divisor) = (of(&[(1, [127, 2])]), of(&[(1, [0, 2]), (6, [1, 0])]));
    for (polynomials, limit, expected) in [
        (vec![f.clone(), divisor.clone()], 0, (13, 0)),
        (vec![f.clone(), divisor.clone()], 1, (12, 0)),
        (
            vec![f.clone(), of(&[(3, [0, 1])]), divisor.clone()],
            1,
            (0, 1),
        ),
        (vec![f.clone()], 0, (13, 0)),
        (vec![f.clone()], 1, (0, 1)),
        (vec![Vec::new(), divisor.clone()], 0, (0, 0)),
        (vec![Vec::new()], MOST_STEPS, (0, 0)),
        (vec![f.clone(), divisor.clone()], MOST_STEPS + 1, (8, 0)),
        (vec![], 1, (8, 0)),
        (vec![f, Vec::new(), divisor], 1, (7, 0)),
    ] {
        let given = Given::new(KNOWN, &polynomials);
        let random = &mut Random::new(87);
        let loan = Lender::new(random).lend(random, ENOUGH);
        let (answer, _) = both(&given, limit, loan, &format!("{polynomials:?} {limit}"));
        let numbers = (answer.refusal, answer.finished);
        assert_eq!(numbers, expected, "{polynomials:?} {limit}");
    }
}

/// A remainder needs a place for each term, and no more; what fits is written.
#[test]
fn places_of_a_remainder() {
    let random = &mut Random::new(88);
    let mut lender = Lender::new(random);
    let given = Given::new(KNOWN, &known_polynomials(KNOWN.0, KNOWN.1));
    for output in 0..5 {
        let loan = lender.lend(random, output);
        let (answer, left) = both(&given, MOST_STEPS, loan, &format!("{output} places"));
        let written = output.min(3) as u64;
        let expected = Answer {
            refusal: if output < 3 { 10 } else { 0 },
            finished: 3 + written,
            places: written,
        };
        assert_eq!(answer, expected, "{output}");
        assert_eq!((left.tally.given, left.tally.held), (written, 3 - written));
    }
}

/// So many falling terms in two variables, the largest with both exponents 127.
fn falling_terms(order: Order, count: usize) -> Vec<Term> {
    let monomials = (64..128).flat_map(|x| (0..128).map(move |y| vec![x, y]));
    let mut terms: Vec<Term> = monomials.map(|m| (m, 1)).collect();
    terms.sort_by(|(x, _), (y, _)| order.compare(y, x));
    terms.truncate(count);
    terms
}

/// Polynomial 0 may have the most terms and not one more, whatever the step limit is; and a tail may fill
/// the place of the lead and what is free, and not one more.
#[test]
fn most_terms() {
    let random = &mut Random::new(89);
    let mut lender = Lender::new(random);
    for order in Order::ALL {
        let setting = (order, 2, 32_003);
        // The divisor's lead is the largest monomial too; its tail is in other monomials than f.
        let divisor = |tail: usize| -> Vec<Term> {
            let small = (0..64).flat_map(|x| (0..128).map(move |y| vec![x, y]));
            let mut terms: Vec<Term> = small.take(tail).map(|m| (m, 1)).collect();
            terms.push((vec![127, 127], 1));
            terms.sort_by(|(x, _), (y, _)| order.compare(y, x));
            terms
        };
        for (len, tail, limit, expected, held) in [
            (MOST_TERMS + 1, 1, 0, (11, 0), 0),
            (MOST_TERMS + 1, 1, 9, (11, 0), 0),
            (MOST_TERMS, 1, 0, (13, 0), MOST_TERMS),
            (MOST_TERMS, 1, 1, (13, 1), MOST_TERMS),
            (MOST_TERMS, 2, 0, (13, 0), MOST_TERMS),
            (MOST_TERMS, 2, 1, (11, 0), MOST_TERMS),
            (MOST_TERMS - 9, 10, 1, (13, 1), MOST_TERMS),
            (MOST_TERMS - 9, 11, 1, (11, 0), MOST_TERMS - 9),
            (100, 3_997, 1, (13, 1), MOST_TERMS),
            (100, 3_998, 1, (11, 0), 100),
        ] {
            let f = falling_terms(order, len);
            let given = Given::new(setting, &[f, divisor(tail)]);
            let about = format!("{order:?}, {len} terms, {tail} of the tail, limit {limit}");
            let loan = lender.lend(random, 0);
            let (answer, left) = both(&given, limit, loan, &about);
            assert_eq!((answer.refusal, answer.finished), expected, "{about}");
            assert_eq!(left.tally.held, held as u64, "{about}");
            if len > MOST_TERMS {
                assert_eq!(left.tally, Tally::default(), "{about}");
            }
        }
    }
}

/// Where a step has several causes to stop, 13 comes first, then 12, then 11; and 10 only without a
/// divisor that fits.
#[test]
fn several_causes() {
    let random = &mut Random::new(90);
    let mut lender = Lender::new(random);
    for order in Order::ALL {
        let setting = (order, 2, 32_003);
        let small = |terms| polynomial(order, 2, terms);
        let unlike = small(&[(1, [0, 1]), (1, [0, 0])]);
        // Both multiples of a tail of two terms are too many; one has an exponent over 127.
        let over = small(&[(1, [1, 0]), (1, [0, 1]), (1, [0, 0])]);
        let many = small(&[(1, [2, 0]), (1, [1, 0]), (1, [0, 0])]);
        let one = small(&[(1, [1, 0])]);
        let full = falling_terms(order, MOST_TERMS);
        for (f, divisors, limit, expected) in [
            (&full, vec![&over], 0, (13, 0)),
            (&full, vec![&over, &many], 1, (12, 0)),
            (&full, vec![&many, &over], 1, (11, 0)),
            (&full, vec![&one, &over], 1, (13, 1)),
            (&full, vec![], 0, (13, 0)),
            (&full, vec![], 1, (10, 0)),
            (&unlike, vec![&over], 0, (13, 0)),
            (&unlike, vec![&over, &many], 1, (10, 0)),
        ] {
            let polynomials: Vec<Vec<Term>> = [f].into_iter().chain(divisors).cloned().collect();
            let given = Given::new(setting, &polynomials);
            let about = format!("{order:?}, {:?}, limit {limit}", &polynomials[1..]);
            let loan = lender.lend(random, 0);
            let (answer, left) = both(&given, limit, loan, &about);
            assert_eq!((answer.refusal, answer.finished), expected, "{about}");
            assert_eq!(left.tally.held, f.len() as u64 - answer.finished, "{about}");
        }
    }
}

/// The first divisor that fits is found behind any number of others, and used more than once.
#[test]
fn many_divisors() {
    let random = &mut Random::new(91);
    let mut lender = Lender::new(random);
    for order in Order::ALL {
        let small = |terms| polynomial(order, 2, terms);
        // x1^3 by 3·x1 + 5 is a constant after 4 leads.
        let (f, unfit) = (small(&[(2, [3, 0])]), small(&[(1, [0, 1])]));
        let (first, second) = (small(&[(3, [1, 0]), (5, [0, 0])]), small(&[(1, [1, 0])]));
        for before in [0, 1, 2, 1_022, 1_023, 1_024, 1_025, 3_000] {
            let mut polynomials = vec![f.clone()];
            polynomials.extend(vec![unfit.clone(); before]);
            polynomials.extend([first.clone(), second.clone()]);
            let given = Given::new((order, 2, 7), &polynomials);
            let loan = lender.lend(random, 1);
            let about = format!("{order:?}, {before} divisors before");
            let (answer, left) = both(&given, MOST_STEPS, loan, &about);
            let numbers = (answer.refusal, answer.finished, answer.places);
            assert_eq!(numbers, (0, 4, 1), "{about}");
            // 3·x1 = -5 = 2, so that x1 = 3 and 2·x1^3 = 54 = 5.
            assert_eq!(left.output, (vec![0], vec![5]), "{about}");
        }
    }
}
