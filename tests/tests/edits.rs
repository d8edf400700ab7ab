//! Document 02, Point 5, through the library: remainders add up, an edit moves a remainder by the edited
//! term's own, scaled, and never above it, and which step limits are enough. The variable SECOND_CASES sets
//! the size, as for the other generated tests.
use second::call::{terms, Given, Setting};
use second::cases;
use second::generate::{coef, monomial, up_to};
use second::lender::Lender;
use second::library;
use second::limits::{MOST_STEPS, MOST_TERMS, SUFFICIENT_STEPS};
use second::monomial::{divides, product, Order};
use second::polynomial::{multiple, sum, Term};
use second::pools::setting;
use second::random::Random;
use second::reduction_lists::{combination, coprime, Reductions};

/// One of so many cases is a group of reductions with the same divisors.
const CASES_PER_GROUP: u64 = 5;

/// Of so many groups, one at least must be of each kind that is counted, in each order.
const GROUPS_PER_KIND: u64 = 40;

/// The most leads: some reductions would have very many.
const LEADS: u64 = 1_000;

/// A setting and divisors, and what is lent to the reductions by them.
struct Group<'a> {
    setting: Setting,
    divisors: Vec<Vec<Term>>,
    lender: &'a mut Lender,
    random: &'a mut Random,
}

impl Group<'_> {
    /// The remainder of a polynomial, where the reduction is finished: with any limit and any output that are
    /// large enough for most, and spaces that hold anything.
    fn remainder(&mut self, f: &[Term]) -> Option<Vec<Term>> {
        let (order, n, _) = self.setting;
        let given = Given::new(
            self.setting,
            &[vec![f.to_vec()], self.divisors.clone()].concat(),
        );
        let limit = LEADS + self.random.below(3);
        let output = MOST_TERMS - up_to(self.random, 3);
        let mut loan = self.lender.lend(self.random, output);
        let answer = library::reduce(&given, limit, &mut loan);
        let places = answer.places as usize;
        let (words, coefs) = (&loan.output.0[..places], &loan.output.1[..places]);
        let remainder = terms(order, n, words, coefs);
        self.lender.keep(loan);
        (answer.refusal == 0).then_some(remainder)
    }

    /// A polynomial to reduce: a combination of the divisors, or a few terms.
    fn polynomial(&mut self) -> Vec<Term> {
        match self.random.below(3) {
            0 => combination(self.random, self.setting, &self.divisors),
            _ => self.few_terms(),
        }
    }

    fn few_terms(&mut self) -> Vec<Term> {
        let (order, _, p) = self.setting;
        let count = up_to(self.random, 8);
        let one = |group: &mut Self| (group.monomial(), coef(group.random, p));
        (0..count).fold(Vec::new(), |f, _| sum(order, p, &f, &[one(self)]))
    }

    /// A monomial: any small one, or a multiple of a divisor's lead.
    fn monomial(&mut self) -> Vec<u8> {
        let any = monomial(self.random, self.setting.1, 4);
        if self.divisors.is_empty() || self.random.below(2) == 0 {
            return any;
        }
        let divisor = &self.divisors[up_to(self.random, self.divisors.len() - 1)];
        product(&any, &divisor[0].0).unwrap_or(any)
    }

    fn plus(&self, a: &[Term], b: &[Term]) -> Vec<Term> {
        sum(self.setting.0, self.setting.2, a, b)
    }

    fn times(&self, c: u32, f: &[Term]) -> Vec<Term> {
        let one = vec![0; self.setting.1];
        multiple(self.setting.2, c, &one, f).expect("the same exponents")
    }
}

/// Groups of reductions in all orders: those of the generated reductions, and with leads that are coprime.
fn groups(seed: u64, mut look: impl FnMut(&mut Group, Vec<Term>)) {
    let random = &mut Random::new(seed);
    let lender = &mut Lender::new(random);
    let reductions = Reductions::new();
    for case in 0..cases() / CASES_PER_GROUP {
        let setting = setting(random, case);
        let made = reductions.made(random, case, setting);
        let mut all = made
            .given
            .polynomials((setting.0, setting.1))
            .expect("good polynomials");
        let mut f = all.remove(0);
        if random.below(2) == 0 {
            all = coprime(random, setting);
            f = combination(random, setting, &all);
        }
        let divisors = all;
        let mut group = Group {
            setting,
            divisors,
            lender,
            random,
        };
        look(&mut group, f);
    }
}

/// How often each kind was met, for each order.
#[derive(Debug)]
struct Met<const KINDS: usize>([[u64; KINDS]; 3]);

impl<const KINDS: usize> Met<KINDS> {
    fn new() -> Self {
        Met([[0; KINDS]; 3])
    }

    fn meet(&mut self, order: Order, kinds: [bool; KINDS]) {
        let counts = &mut self.0[order.number() as usize - 1];
        for (count, met) in counts.iter_mut().zip(kinds) {
            *count += u64::from(met);
        }
    }

    fn whole(&self) {
        println!("{self:?}");
        let least = cases() / CASES_PER_GROUP / GROUPS_PER_KIND / 3;
        let all = self.0.iter().flatten();
        assert!(
            least > 0 && all.clone().all(|&count| count >= least),
            "{self:?}"
        );
    }
}

/// "With the same divisors and order, and all reductions finished, the remainder of f + g is the remainder of
/// f plus that of g."
#[test]
fn remainders_add_up() {
    let mut met = Met::new();
    groups(501, |group, f| {
        let g = group.polynomial();
        let h = group.plus(&f, &g);
        let remainders = [&f, &g, &h].map(|f| group.remainder(f));
        if let [Some(of_f), Some(of_g), Some(of_h)] = remainders {
            assert_eq!(
                group.plus(&of_f, &of_g),
                of_h,
                "{f:?} and {g:?} by {:?}",
                group.divisors
            );
            let divided = of_f != f && of_g != g;
            let left = !of_f.is_empty() && !of_g.is_empty();
            let cancelled = of_h.len() < of_f.len() + of_g.len();
            met.meet(
                group.setting.0,
                [true, divided && left, divided && cancelled && left],
            );
        }
    });
    met.whole();
}

/// "an edit at one monomial moves the remainder by that term's own remainder, scaled: never at a monomial above
/// the edited one."
#[test]
fn an_edit_moves_the_remainder_by_its_own() {
    let mut met = Met::new();
    groups(502, |group, f| {
        let (order, _, p) = group.setting;
        let (edited, difference) = (group.monomial(), coef(group.random, p));
        let g = group.plus(&f, &[(edited.clone(), difference)]);
        let (Some(before), Some(after)) = (group.remainder(&f), group.remainder(&g)) else {
            return;
        };
        let about = format!(
            "{f:?} edited at {edited:?} by {difference}, by {:?}",
            group.divisors
        );
        let above = |f: &[Term]| -> Vec<Term> {
            let above = f.iter().filter(|(m, _)| order.compare(m, &edited).is_gt());
            above.cloned().collect()
        };
        assert_eq!(above(&before), above(&after), "{about}");
        let own = group.remainder(&[(edited.clone(), 1)]);
        if let Some(own) = &own {
            let scaled = group.times(difference, own);
            assert_eq!(group.plus(&before, &scaled), after, "{about}");
        }
        let fits = group.divisors.iter().any(|d| divides(&d[0].0, &edited));
        let moves = before != after;
        let kept = !above(&before).is_empty();
        met.meet(
            order,
            [own.is_some(), fits && moves, !fits && moves, kept && moves],
        );
    });
    met.whole();
}

/// A reduction never removes more leads than there are monomials in n variables, 128^n: with one variable or two
/// a limit of so many does not give 13, nor does the named one with any number of variables.
#[test]
fn as_many_steps_as_monomials_are_enough() {
    let random = &mut Random::new(503);
    let lender = &mut Lender::new(random);
    let reductions = Reductions::new();
    let (mut finished, mut most) = ([0; 3], [0; 3]);
    for case in 0..cases() / CASES_PER_GROUP {
        let setting = setting(random, case);
        let made = reductions.made(random, case, setting);
        let few = setting.1 <= 2;
        if !few && made.refusal == 13 {
            continue; // it would have very many leads
        }
        let limit = match few && random.below(4) > 0 {
            true => 128_u64.pow(setting.1 as u32),
            false => random.pick(&[SUFFICIENT_STEPS, SUFFICIENT_STEPS + 1, MOST_STEPS]),
        };
        let mut loan = lender.lend(random, MOST_TERMS);
        let answer = library::reduce(&made.given, limit, &mut loan);
        assert_ne!(answer.refusal, 13, "{setting:?} with {limit}");
        let kind = (setting.1 - 1).min(2);
        finished[kind] += u64::from(answer.refusal == 0);
        most[kind] = answer.finished.max(most[kind]);
        lender.keep(loan);
    }
    println!("{finished:?} finished, with at most {most:?} leads");
    let least = cases() / CASES_PER_GROUP / GROUPS_PER_KIND;
    assert!(least > 0 && finished.iter().all(|&k| k >= least));
}

/// All 128 monomials in one variable, without divisors: each is a lead, so that 127 are one step too few.
#[test]
fn one_step_less_is_not_enough() {
    for order in Order::ALL {
        let f: Vec<Term> = (0..128).rev().map(|k| (vec![k], 1)).collect();
        let given = Given::new((order, 1, 7), &[f]);
        let random = &mut Random::new(504);
        for (limit, expected) in [
            (127, (13, 127)),
            (128, (0, 128)),
            (SUFFICIENT_STEPS, (0, 128)),
        ] {
            let mut loan = Lender::new(random).lend(random, 128);
            let answer = library::reduce(&given, limit, &mut loan);
            assert_eq!((answer.refusal, answer.finished), expected, "limit {limit}");
        }
    }
}
