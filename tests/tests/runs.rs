//! Generated runs of the proved engine against the model: good, damaged and hostile ones. The
//! variable SECOND_CASES sets the size, as for the other generated tests.
use second::call::{Answer, Given, Loan, Setting, Tally};
use second::cases;
use second::damage::Damage;
use second::generate::{up_to, weights};
use second::geobucket::most_comparisons;
use second::lender::{assert_same, Lender};
use second::library;
use second::limits::{MOST_OPERATIONS, MOST_TERMS};
use second::monomial::Order;
use second::polynomial::Term;
use second::pools::setting;
use second::random::Random;
use second::refusals::{stops, Refusals};
use second::run::{self, ADD, LEAD, SUM};
use second::run_damage::RunDamage;
use second::run_lists::{hostile, Runs};

/// One of so many cases is a run.
const CASES_PER_RUN: u64 = 2;

/// Each refusal must be given once in so many cases.
const CASES_PER_REFUSAL: u64 = 1_000;

/// The opening refusals in their order. The last three come by polynomial and place.
const OPENING: [u64; 6] = [1, 2, 3, 24, 8, 9];

/// How often each pair of kinds of damage is done.
const EACH_PAIR: usize = 30;

/// Output places that are enough for the listing.
const ENOUGH: usize = 10;

/// An operation.
type Pair = [usize; 2];

/// What a run reads: polynomials and operations.
type Run = (Given, Vec<usize>);

/// What the runs met.
#[derive(Debug, Default)]
struct Met {
    runs: u64,
    refusals: Refusals,
    /// Those of runs that were stopped after some operations.
    stopped_later: Refusals,
    stopped_with_output: u64,
    zero_places: u64,
    full: u64,
    operations: u64,
    comparisons: u64,
}

impl Met {
    fn run(&mut self, answer: Answer, tally: Tally) {
        self.runs += 1;
        self.refusals.meet(answer.refusal);
        self.operations += answer.finished;
        if answer.refusal != 0 && answer.finished > 0 {
            self.stopped_later.meet(answer.refusal);
            self.stopped_with_output += u64::from(answer.places > 0);
        }
        if answer.refusal == 0 {
            self.zero_places += u64::from(answer.places > tally.given);
            self.full += u64::from(tally.held == MOST_TERMS as u64);
            self.comparisons += tally.comparisons;
        }
    }

    /// That each refusal was met often enough, and each kind of run.
    fn whole(&self) {
        println!("{self:?}");
        let least = cases() / CASES_PER_REFUSAL;
        self.refusals.expect("run", least);
        let mut kinds = vec![self.stopped_with_output, self.zero_places, self.full];
        kinds.extend(stops("run").iter().map(|&r| self.stopped_later.of(r)));
        assert!(kinds.iter().all(|&k| k > 0), "{self:?}");
    }
}

/// Does a run with the model and with the proved engine. Answer, output, both spaces and the tally
/// must be the same.
fn both((given, operations): &Run, loan: Loan, about: &str) -> (Answer, Loan) {
    let (mut expected, mut proved) = (loan.clone(), loan);
    let answer = run::run(given, operations, &mut expected);
    let own = library::run(given, operations, &mut proved);
    assert_eq!(own, answer, "{about}");
    assert_same(&proved, &expected, about);
    (answer, expected)
}

/// Whether the run was refused by an opening check.
fn at_opening(answer: Answer) -> bool {
    answer.refusal != 0 && !stops("run").contains(&answer.refusal)
}

/// Damage of one kind or of several, or of several to the terms alone, or none.
fn damages(random: &mut Random) -> Vec<RunDamage> {
    let some = 2 + up_to(random, 2);
    let all = RunDamage::all();
    let terms = Damage::TERMS.map(RunDamage::Call);
    match random.below(20) {
        0..=9 => Vec::new(),
        10..=13 => vec![random.pick(&all)],
        14..=16 => (0..some).map(|_| random.pick(&all)).collect(),
        _ => (0..some).map(|_| random.pick(&terms)).collect(),
    }
}

/// Generated runs: 25,000. Of twenty, one is hostile, and half of the others are damaged. From about
/// 5,000 cases on, each kind is met.
#[test]
fn generated() {
    let random = &mut Random::new(61);
    let runs = Runs::new();
    let mut lender = Lender::new(random);
    let mut met = Met::default();
    for case in 0..cases() / CASES_PER_RUN {
        let (run, loan, about) = match random.below(20) {
            0 => {
                let output = random.pick(&[0, 1, 2, 20, 20]);
                let loan = lender.lend(random, output);
                (hostile(random), loan, format!("case {case}, hostile"))
            }
            _ => {
                let setting = setting(random, case);
                let made = runs.made(random, case, setting);
                let output = made.output_len(random);
                let mut loan = lender.lend(random, output);
                let (mut given, mut operations) = (made.given, made.operations);
                let damages = damages(random);
                for damage in &damages {
                    damage.on(random, &mut given, &mut operations, &mut loan);
                }
                let about = format!("case {case} {setting:?}, {damages:?}");
                ((given, operations), loan, about)
            }
        };
        let (answer, left) = both(&run, loan, &about);
        if !at_opening(answer) {
            let Tally {
                comparisons,
                brought,
                ..
            } = left.tally;
            assert!(comparisons <= most_comparisons(brought), "{about}");
            let written = &left.output.1[..answer.places as usize];
            let terms = written.iter().filter(|&&c| c != 0).count() as u64;
            assert_eq!(left.tally.given, terms, "{about}");
        }
        met.run(answer, left.tally);
        lender.keep(left);
    }
    met.whole();
}

/// Every kind of damage alone and with every other one, on a run that is good without them: the
/// refusal that comes first in the opening order is given, and nothing is changed.
#[test]
fn damage_in_pairs() {
    let random = &mut Random::new(62);
    let mut lender = Lender::new(random);
    for first in RunDamage::all() {
        for second in RunDamage::all() {
            for time in 0..EACH_PAIR {
                let about = format!("{first:?} and {second:?}, time {time}");
                let n = 2 + time % 5;
                let order = Order::ALL[time % 3].weighted(weights(random, n));
                let (mut given, mut operations) = listing_in(order, n);
                let mut loan = lender.lend(random, ENOUGH);
                first.on(random, &mut given, &mut operations, &mut loan);
                // The same kind twice may undo itself.
                if second != first {
                    second.on(random, &mut given, &mut operations, &mut loan);
                }
                let before = loan.clone();
                let (answer, left) = both(&(given, operations), loan, &about);
                assert!(left == before, "{about}");
                expect_first(answer, [first, second], &about);
            }
        }
    }
}

/// The refusal that comes first in the opening order, or one of the two of terms.
fn expect_first(answer: Answer, damages: [RunDamage; 2], about: &str) {
    let numbers = damages.map(RunDamage::number);
    let expected = match OPENING.into_iter().find(|r| numbers.contains(r)) {
        Some(number) => answer.refusal == number,
        None => numbers.contains(&answer.refusal),
    };
    assert!(expected && answer.finished == 0, "{about}: {answer:?}");
    assert_eq!(answer.places, 0, "{about}");
}

/// A run of these polynomials and operations.
fn run_of(setting: Setting, polynomials: &[Vec<Term>], pairs: &[Pair]) -> Run {
    (Given::new(setting, polynomials), pairs.concat())
}

/// The two polynomials of the listing of document 01, in an order and in n variables.
fn listing_polynomials(order: Order, n: usize) -> [Vec<Term>; 2] {
    let term = |coef: u32, [x, y]: [u8; 2]| {
        let mut exponents = vec![0; n];
        (exponents[0], exponents[1]) = (x, y);
        (exponents, coef)
    };
    let mut first = vec![
        term(3, [2, 0]),
        term(1, [1, 1]),
        term(1, [0, 2]),
        term(1, [1, 0]),
        term(1, [0, 1]),
    ];
    first.sort_by(|(x, _), (y, _)| order.compare(y, x));
    [first, vec![term(4, [2, 0])]]
}

/// The listing of document 01, in an order and in n variables.
fn listing_in(order: Order, n: usize) -> Run {
    let pairs = [[ADD, 0], [ADD, 1], [LEAD, 0], [SUM, 0]];
    run_of((order, n, 7), &listing_polynomials(order, n), &pairs)
}

/// The listing of document 01: the lead, the sum, the zero place, and one comparison.
#[test]
fn listing() {
    let random = &mut Random::new(63);
    let loan = Lender::new(random).lend(random, ENOUGH);
    let before = loan.output.clone();
    let run = listing_in(Order::DEG_REV_LEX, 2);
    let (answer, left) = both(&run, loan, "listing");
    let expected = Answer {
        refusal: 0,
        finished: 4,
        places: 5,
    };
    assert_eq!(answer, expected);
    let output = [[1, 1], [0, 2], [1, 0], [0, 1]].map(|m| Order::DEG_REV_LEX.word(&m));
    assert_eq!(left.output.0[..4], output);
    assert_eq!(left.output.1[..5], [1, 1, 1, 1, 0]);
    assert_eq!(left.output.0[4..], [&[0], &before.0[5..]].concat());
    assert_eq!(left.output.1[5..], before.1[5..]);
    let expected = Tally {
        comparisons: 1,
        brought: 6,
        given: 4,
        held: 0,
    };
    assert_eq!(left.tally, expected);
    assert_eq!(most_comparisons(left.tally.brought), 72);
}

/// The terms of a full sum are judged before it is made: with 6 terms held, of which 4 stay, it needs
/// 7 places.
#[test]
fn places_of_a_sum() {
    let random = &mut Random::new(64);
    let mut lender = Lender::new(random);
    let polynomials = listing_polynomials(Order::DEG_REV_LEX, 2);
    let pairs = [[ADD, 0], [ADD, 1], [SUM, 0]];
    let run = run_of((Order::DEG_REV_LEX, 2, 7), &polynomials, &pairs);
    for output in 0..9 {
        let loan = lender.lend(random, output);
        let (answer, left) = both(&run, loan, &format!("{output} places"));
        let (refusal, finished, places, held) = match output {
            0..=6 => (10, 2, 0, 6),
            _ => (0, 3, 5, 0),
        };
        let expected = Answer {
            refusal,
            finished,
            places,
        };
        assert_eq!((answer, left.tally.held), (expected, held), "{output}");
    }
}

/// Without polynomials and words, leads and sums are zero; a polynomial is absent.
#[test]
fn no_polynomials() {
    let random = &mut Random::new(65);
    let mut lender = Lender::new(random);
    let ask = |pairs: &[Pair], starts: &[usize]| {
        let mut run = run_of((Order::LEX, 1, 2), &[], pairs);
        run.0.starts = starts.to_vec();
        run
    };
    for (pairs, starts, output, expected) in [
        (&[[LEAD, 0], [SUM, 0]][..], &[0][..], 2, [0, 2, 2]),
        (&[[LEAD, 0], [SUM, 0]], &[0], 1, [10, 1, 1]),
        (&[[LEAD, 0]], &[0], 0, [10, 0, 0]),
        (&[], &[0], 0, [0, 0, 0]),
        (&[], &[], 0, [8, 0, 0]),
        (&[[ADD, 0]], &[0], 0, [9, 0, 0]),
        (&[[ADD, 0], [ADD, 0]], &[0, 0], 0, [0, 2, 0]),
        (&[[ADD, 1]], &[0, 0], 0, [9, 0, 0]),
    ] {
        let loan = lender.lend(random, output);
        let about = format!("{pairs:?} {starts:?} {output}");
        let (answer, _) = both(&ask(pairs, starts), loan, &about);
        let numbers = [answer.refusal, answer.finished, answer.places];
        assert_eq!(numbers, expected, "{about}");
    }
}

/// All monomials in two variables with exponents below 64, of which there are 4,096.
fn most(order: Order) -> Vec<Term> {
    let monomials = (0..64).flat_map(|x| (0..64).map(move |y| vec![x, y]));
    let mut terms: Vec<Term> = monomials.map(|m| (m, 1)).collect();
    terms.sort_by(|(x, _), (y, _)| order.compare(y, x));
    terms
}

/// The most terms are held, and one more gives 11; after a lead there is room for it.
#[test]
fn most_terms() {
    let random = &mut Random::new(66);
    let mut lender = Lender::new(random);
    for order in Order::ALL {
        let one = vec![(vec![127, 127], 1)];
        let (all, most_but_one) = (most(order), most(order)[1..].to_vec());
        let over = [one.clone(), all.clone()].concat();
        let polynomials = [all, one, most_but_one, over];
        let sum = MOST_TERMS as u64 + 1;
        for (pairs, expected, held) in [
            (&[[ADD, 0]][..], [0, 1, 0], MOST_TERMS),
            (&[[ADD, 0], [ADD, 1]], [11, 1, 0], MOST_TERMS),
            (&[[ADD, 1], [ADD, 0]], [11, 1, 0], 1),
            (&[[ADD, 1], [ADD, 2]], [0, 2, 0], MOST_TERMS),
            (&[[ADD, 2], [ADD, 1], [ADD, 1]], [11, 2, 0], MOST_TERMS),
            (&[[ADD, 0], [LEAD, 0], [ADD, 1]], [0, 3, 1], MOST_TERMS),
            (&[[ADD, 0], [SUM, 0], [ADD, 0]], [0, 3, sum], MOST_TERMS),
            (&[[ADD, 0], [SUM, 0], [ADD, 3]], [11, 2, sum], 0),
            (&[[ADD, 0], [SUM, 0], [LEAD, 0]], [10, 2, sum], 0),
            (&[[ADD, 0], [LEAD, 0], [ADD, 0]], [11, 2, 1], MOST_TERMS - 1),
            (&[[ADD, 3]], [11, 0, 0], 0),
        ] {
            let run = run_of((order, 2, 32_003), &polynomials, pairs);
            let loan = lender.lend(random, MOST_TERMS + 1);
            let about = format!("{order:?} {pairs:?}");
            let (answer, left) = both(&run, loan, &about);
            let numbers = [answer.refusal, answer.finished, answer.places];
            let left = left.tally.held as usize;
            assert_eq!((numbers, left), (expected, held), "{about}");
        }
    }
}

/// The order of 4, 5 and 6, also in polynomials that no operation uses: by polynomial, in it 4 and 5
/// by place, then 6.
#[test]
fn order_in_terms() {
    let random = &mut Random::new(67);
    let mut lender = Lender::new(random);
    // Two polynomials of two terms each, the same ones.
    let f = vec![(vec![2, 0], 1), (vec![0, 1], 1)];
    let good = Given::new((Order::DEG_REV_LEX, 2, 7), &[f.clone(), f]);
    let rise = (good.words[1], good.words[0]);
    for (coefs, words, falls, expected) in [
        (&[][..], &[][..], [true, true], 0),
        (&[0], &[0], [true, true], 4),
        (&[1], &[0], [true, true], 5),
        (&[0], &[1], [true, true], 4),
        (&[1], &[1], [true, true], 4),
        (&[2], &[1], [true, true], 5),
        (&[2], &[3], [true, true], 4),
        (&[3], &[2], [true, true], 5),
        (&[], &[], [false, true], 6),
        (&[], &[], [true, false], 6),
        (&[2], &[], [false, true], 6),
        (&[], &[2], [false, true], 6),
        (&[1], &[], [false, true], 4),
        (&[], &[1], [false, true], 5),
        (&[3], &[], [true, false], 4),
        (&[], &[3], [true, false], 5),
        (&[0], &[], [true, false], 4),
    ] {
        let mut given = good.clone();
        for (k, _) in falls.iter().enumerate().filter(|(_, &falls)| !falls) {
            (given.words[2 * k], given.words[2 * k + 1]) = rise;
        }
        coefs.iter().for_each(|&k: &usize| given.coefs[k] = 7);
        words.iter().for_each(|&k: &usize| given.words[k] ^= 1 << 7);
        let about = format!("coefficients {coefs:?}, words {words:?}, falls {falls:?}");
        let loan = lender.lend(random, 0);
        let (answer, _) = both(&(given, Vec::new()), loan, &about);
        assert_eq!((answer.refusal, answer.finished), (expected, 0), "{about}");
    }
}

/// The most operations are taken, and one more is not.
#[test]
fn most_operations() {
    let random = &mut Random::new(68);
    let mut lender = Lender::new(random);
    let mut run = run_of((Order::DEG_LEX, 3, 101), &[Vec::new()], &[]);
    // The code 0 is unknown, which comes after the length.
    for (len, expected) in [
        (2 * MOST_OPERATIONS, 9),
        (2 * MOST_OPERATIONS + 1, 8),
        (2 * MOST_OPERATIONS + 2, 8),
    ] {
        run.1 = vec![0; len];
        let loan = lender.lend(random, 0);
        let (answer, _) = both(&run, loan, &format!("{len} numbers"));
        assert_eq!((answer.refusal, answer.finished), (expected, 0), "{len}");
    }
    // Additions of zero.
    run.1 = [ADD, 0].repeat(MOST_OPERATIONS);
    let loan = lender.lend(random, 0);
    let (answer, left) = both(&run, loan, "additions of zero");
    assert_eq!(answer.finished, MOST_OPERATIONS as u64);
    assert_eq!((answer.refusal, left.tally), (0, Tally::default()));
}
