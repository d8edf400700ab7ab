//! The opening check of generated polynomials, good and damaged, against the model: of whole ones, and
//! in pieces, cut at every place. The variable SECOND_CASES sets the size, as for the other generated
//! tests.
use second::c_functions::{self, Checking};
use second::call::Setting;
use second::cases;
use second::checking::{carried, checked, verdict, START};
use second::generate::{monomial, polynomial, setting, up_to};
use second::monomial::{Order, FIELDS, LIMIT, ONES};
use second::polynomial::{lent, refusal};
use second::polynomial_damage::damaged;
use second::probe::{self, Lent};
use second::random::Random;
use std::ops::Range;

/// The most terms of a polynomial that is cut at every two places, and of one that is cut at every
/// place and at some two.
const CUT_TWICE: usize = 12;
const CUT_ONCE: usize = 150;

/// Each kind of polynomial and of cut must be met once in so many cases.
const CASES_PER_KIND: u64 = 500;

/// Numbers of variables that are not taken.
const TOO_MANY: [u32; 4] = [7, 8, 1 << 31, u32::MAX];

fn as_lent((words, coefs): &(Vec<u64>, Vec<u32>)) -> Lent<'_> {
    (words, coefs)
}

/// Carries the proved check on.
fn carry((order, n, p): Setting, terms: Lent, from: Checking) -> Checking {
    probe::check_on(order, n as u32, p, terms, from)
}

/// A lent polynomial, and what the check of its first k terms comes to by the model, for each k.
struct Polynomial {
    setting: Setting,
    terms: (Vec<u64>, Vec<u32>),
    wanted: Vec<Checking>,
}

impl Polynomial {
    fn new(setting: Setting, terms: (Vec<u64>, Vec<u32>)) -> Self {
        let first = |k| checked(setting, (&terms.0[..k], &terms.1[..k]));
        let wanted = (0..=terms.0.len()).map(first).collect();
        Polynomial {
            setting,
            terms,
            wanted,
        }
    }

    fn len(&self) -> usize {
        self.terms.0.len()
    }

    /// Carries the check on over these places. All four numbers must be the model's for the terms up to
    /// their end.
    fn carry(&self, places: Range<usize>, from: Checking) -> Checking {
        let piece = (&self.terms.0[places.clone()], &self.terms.1[places.clone()]);
        let found = carry(self.setting, piece, from);
        let (setting, terms) = (self.setting, &self.terms);
        assert_eq!(
            found, self.wanted[places.end],
            "{places:?} of {terms:x?} in {setting:?}"
        );
        found
    }

    /// The verdict in one piece, which is the refusal.
    fn whole(&self) -> u32 {
        let ((order, n, p), terms) = (self.setting, as_lent(&self.terms));
        let expected = refusal(order, n, p, terms.0, terms.1);
        let found = verdict(self.carry(0..self.len(), START));
        assert_eq!(found, expected, "{terms:x?} in {:?}", self.setting);
        assert_eq!(probe::check(order, n as u32, p, terms), expected);
        expected
    }

    /// In two pieces, cut at every place.
    fn in_two(&self) {
        for k in 0..=self.len() {
            let first = self.carry(0..k, START);
            self.carry(k..self.len(), first);
        }
    }

    /// In three pieces, cut at every two places.
    fn in_three(&self) {
        for k in 0..=self.len() {
            let first = self.carry(0..k, START);
            self.rest_in_two(k, first);
        }
    }

    /// What begins at place k, cut at every place.
    fn rest_in_two(&self, k: usize, from: Checking) {
        for l in k..=self.len() {
            let second = self.carry(k..l, from);
            self.carry(l..self.len(), second);
        }
    }

    /// One term after the other.
    fn by_terms(&self) {
        let mut checking = START;
        for k in 0..self.len() {
            checking = self.carry(k..k + 1, checking);
        }
    }
}

/// The polynomials and cuts that a test met.
#[derive(Debug, Default)]
struct Met {
    /// The polynomials of each refusal, 0 for none.
    refusals: [u64; 7],
    /// Those with an order fault before their 4 or 5, and those with a 4 after their 5.
    order_then_four: u64,
    order_then_five: u64,
    five_then_four: u64,
    /// The cuts at each end of a polynomial that has terms, and those in a rest that is not looked at.
    at_start: u64,
    at_end: u64,
    after_stop: u64,
    /// The cuts at which the terms first do not fall: between equal words, between words that rise, and
    /// among these after the word 0.
    equal: u64,
    rising: u64,
    after_one: u64,
}

impl Met {
    fn polynomial(&mut self, f: &Polynomial) {
        let refusal = f.whole();
        self.refusals[refusal as usize] += 1;
        let fault = f.wanted.iter().any(|w| (w.stop, w.late) == (0, 6));
        self.order_then_four += u64::from(fault && refusal == 4);
        self.order_then_five += u64::from(fault && refusal == 5);
        let p = f.setting.2;
        let bad_coef = f.terms.1.iter().any(|&c| c == 0 || c >= p);
        self.five_then_four += u64::from(refusal == 5 && bad_coef);
        (0..=f.len()).for_each(|k| self.cut(f, k));
    }

    fn cut(&mut self, f: &Polynomial, k: usize) {
        let (words, before) = (&f.terms.0, f.wanted[k]);
        self.at_start += u64::from(k == 0 && f.len() > 0);
        if k == f.len() {
            self.at_end += u64::from(k > 0);
            return;
        }
        self.after_stop += u64::from(before.stop != 0);
        if before.late == 0 && f.wanted[k + 1].late == 6 {
            let equal = words[k - 1] == words[k];
            self.equal += u64::from(equal);
            self.rising += u64::from(!equal);
            self.after_one += u64::from(!equal && words[k - 1] == 0);
        }
    }

    /// That each kind was met often enough.
    fn whole(&self) {
        println!("{self:?}");
        let verdicts = [0, 4, 5, 6].map(|number: usize| self.refusals[number]);
        let ends = [self.at_start, self.at_end, self.after_stop];
        let cuts = [self.equal, self.rising, self.after_one];
        let mut kinds = vec![self.order_then_four, self.order_then_five];
        kinds.push(self.five_then_four);
        kinds.extend(verdicts.iter().chain(&ends).chain(&cuts));
        let least = (cases() / CASES_PER_KIND).max(1);
        assert!(kinds.iter().all(|&k| k >= least), "{self:?}");
    }
}

/// Good and damaged polynomials, as many as there are cases, each kind of damage in turn. Every
/// refusal is met.
#[test]
fn checks() {
    let random = &mut Random::new(24);
    let mut met = [0; 7];
    for case in 0..cases() {
        let (order, n, p) = setting(case);
        let terms = damaged(random, (order, n, p), case, 40);
        let expected = refusal(order, n, p, &terms.0, &terms.1);
        let found = probe::check(order, n as u32, p, as_lent(&terms));
        let about = || format!("case {case} {order:?} n {n} p {p} {terms:x?}");
        assert_eq!(found, expected, "{}", about());
        met[expected as usize] += 1;
    }
    println!("refusals met: {met:?}");
    for number in [0, 4, 5, 6] {
        assert!(met[number] > 0, "refusal {number} is never met");
    }
}

/// Weights that are not taken: of another number than six, and with one over 16.
fn weights_not_taken(random: &mut Random, order: Order) -> [Vec<u32>; 3] {
    let weights = order.weights.to_vec();
    let longer = [&weights[..], &[1]].concat();
    let shorter = weights[..up_to(random, FIELDS - 1)].to_vec();
    let mut over = weights;
    over[up_to(random, FIELDS - 1)] = random.pick(&[17, 257, 1 << 16, u32::MAX]);
    [shorter, longer, over]
}

/// A word under the sum of its exponents without weights is not of the layout, but where that is its degree
/// as well; nor is one under the sum with the weights from the last to the first.
#[test]
fn degrees_by_other_weights() {
    let random = &mut Random::new(32);
    let (mut unlike, mut like) = (0, 0);
    for case in 0..cases() / 5 {
        let (order, n, p) = setting(case);
        let mut terms = lent(order, &polynomial(random, order, n, p, 10));
        let Some(last) = terms.0.len().checked_sub(1) else {
            continue;
        };
        let at = up_to(random, last);
        let mut reversed = order.weights;
        reversed.reverse();
        let other = order.weighted(random.pick(&[ONES, reversed]));
        let fields = order.fields(terms.0[at]);
        terms.0[at] = other.word(&fields);
        let differ = other.degree(&fields) != order.degree(&fields);
        let expected = if differ { 5 } else { 0 };
        let found = probe::check(order, n as u32, p, as_lent(&terms));
        assert_eq!(found, expected, "case {case} {order:?} {terms:x?}");
        unlike += u64::from(differ);
        like += u64::from(!differ);
    }
    println!("degrees that differ: {unlike}, that are the same: {like}");
    assert!(unlike > cases() / 20 && like > cases() / 50);
}

/// Over 6 variables, unequal lengths and weights that are not taken are not checked; modulo 0 and 1 no
/// coefficient is good.
#[test]
fn checks_outside() {
    let random = &mut Random::new(25);
    for case in 0..cases() / 10 {
        let (order, n, p) = setting(case);
        let terms = polynomial(random, order, n, p, 10);
        let (words, coefs) = lent(order, &terms);
        let poly = (&words[..], &coefs[..]);
        let many = random.pick(&TOO_MANY);
        assert_eq!(probe::check(order, many, p, poly), probe::NOT_CHECKED);
        if let Some((_, fewer)) = coefs.split_last() {
            let short = (&words[..], fewer);
            assert_eq!(probe::check(order, n as u32, p, short), probe::NOT_CHECKED);
            let short = (&words[1..], &coefs[..]);
            assert_eq!(probe::check(order, n as u32, p, short), probe::NOT_CHECKED);
        }
        for weights in weights_not_taken(random, order) {
            let numbers = (order.number(), n as u32, &weights[..], p);
            assert_eq!(c_functions::check(numbers, poly), probe::NOT_CHECKED);
        }
        for p in [0, 1] {
            let expected = refusal(order, n, p, &words, &coefs);
            assert_eq!(probe::check(order, n as u32, p, poly), expected);
        }
    }
}

/// As many polynomials as there are cases, in two and in three pieces, cut everywhere. Each kind of
/// polynomial and of cut is met.
#[test]
fn cut_anywhere() {
    let random = &mut Random::new(28);
    let mut met = Met::default();
    for case in 0..cases() {
        let terms = damaged(random, setting(case), case, CUT_TWICE);
        let f = Polynomial::new(setting(case), terms);
        f.in_two();
        f.in_three();
        f.by_terms();
        met.polynomial(&f);
    }
    met.whole();
}

/// Longer polynomials: in two pieces cut everywhere, in three pieces cut somewhere, and term by term.
#[test]
fn long_ones_cut() {
    let random = &mut Random::new(29);
    let mut longest = 0;
    for case in 0..cases() / 50 {
        let terms = damaged(random, setting(case), case, CUT_ONCE);
        let f = Polynomial::new(setting(case), terms);
        f.whole();
        f.in_two();
        f.by_terms();
        let k = up_to(random, f.len());
        let first = f.carry(0..k, START);
        let l = k + up_to(random, f.len() - k);
        let second = f.carry(k..l, first);
        f.carry(l..f.len(), second);
        longest = longest.max(f.len());
    }
    assert!(longest > CUT_ONCE / 2, "the longest has {longest} terms");
}

/// In two variables under dp modulo 7: x1 has the word W, and 1 the word 0.
#[test]
fn cuts_by_hand() {
    const W: u64 = 0x0001_0000_0000_0001;
    let checking = |stop, late, seen, last| Checking {
        stop,
        late,
        seen,
        last,
    };
    let of = |words: &[u64], coefs: &[u32], from| {
        carry((Order::DEG_REV_LEX, 2, 7), (words, coefs), from)
    };
    let x = of(&[W], &[3], START);
    assert_eq!(x, checking(0, 0, true, W));
    // After x1: nothing, 1, and x1 again.
    assert_eq!(of(&[], &[], x), x);
    assert_eq!(of(&[0], &[1], x), checking(0, 0, true, 0));
    assert_eq!(of(&[W], &[1], x), checking(0, 6, true, W));
    // After 1 nothing falls, 1 neither; as a first term it is good.
    let one = of(&[0], &[6], START);
    assert_eq!(one, checking(0, 0, true, 0));
    assert_eq!(of(&[W], &[1], one), checking(0, 6, true, W));
    assert_eq!(of(&[0], &[1], one), checking(0, 6, true, 0));
    // An order fault and then a bad coefficient: 4, and what follows is not looked at.
    let fault = of(&[W], &[1], one);
    let four = of(&[0], &[7], fault);
    assert_eq!(four, checking(4, 6, true, 0));
    assert_eq!(of(&[u64::MAX, W], &[1, 1], four), four);
    assert_eq!(of(&[0], &[1], four), four);
    // A bad word is compared, and is the last one then.
    let (below, above) = (W + 1, W + (1 << 48));
    assert_eq!(of(&[below], &[1], START), checking(5, 0, true, below));
    assert_eq!(of(&[below], &[1], x), checking(5, 0, true, below));
    assert_eq!(of(&[above], &[1], x), checking(5, 6, true, above));
}

/// Numbers that need not come of a check; the last word is often near the first of the polynomial.
fn any_numbers(random: &mut Random, (order, n, _): Setting, words: &[u64]) -> Checking {
    let any = random.word() as u32;
    let first = words.first().copied().unwrap_or(0);
    let last = match random.below(8) {
        0 => random.pick(&[0, 1, u64::MAX]),
        1 => random.word(),
        2 => first,
        3 => first ^ 1 << random.below(64),
        4 => first.wrapping_add(random.pick(&[1 << 48, 1, u64::MAX, u64::MAX << 48])),
        // The monomial and another number in place of its degree.
        5 => first << 16 >> 16 | random.word() << 48,
        _ => order.word(&monomial(random, n, LIMIT)),
    };
    Checking {
        stop: random.pick(&[0, 0, 0, 0, 0, 1, 4, 5, 6, u32::MAX, any]),
        late: random.pick(&[0, 0, 6, 6, 1, 4, u32::MAX, any]),
        seen: random.below(4) != 0,
        last,
    }
}

/// What the states of a test met.
#[derive(Debug, Default)]
struct States {
    /// Those that were stopped before terms.
    stopped: u64,
    /// Those with a `late` that is neither 0 nor 6, which is kept.
    late_kept: u64,
    /// Those with a last word of no layout, from which the first word falls, or does not.
    outside_falls: u64,
    outside_not: u64,
    /// Those with nothing seen, but a last word that the first is not smaller than.
    unseen: u64,
}

impl States {
    fn add(&mut self, (order, n, p): Setting, terms: Lent, from: Checking) {
        let Some(&first) = terms.0.first() else {
            return;
        };
        self.stopped += u64::from(from.stop != 0);
        if from.stop != 0 || checked((order, n, p), (&[first], &terms.1[..1])).stop != 0 {
            return;
        }
        let after = carried((order, n, p), terms, from).late;
        self.late_kept += u64::from(![0, 6].contains(&from.late) && after == from.late);
        let falls = order.compare_words(first, from.last).is_lt();
        let outside = from.seen && !order.in_layout(FIELDS, from.last);
        self.outside_falls += u64::from(outside && falls);
        self.outside_not += u64::from(outside && !falls);
        self.unseen += u64::from(!from.seen && !falls);
    }

    /// That each kind was met often enough.
    fn whole(&self) {
        println!("{self:?}");
        let outside = [self.outside_falls, self.outside_not, self.unseen];
        let mut kinds = vec![self.stopped, self.late_kept];
        kinds.extend(outside);
        let least = (cases() / CASES_PER_KIND).max(1);
        assert!(kinds.iter().all(|&k| k >= least), "{self:?}");
    }
}

/// From any four numbers, with any modulus: a stop stays with all that came with it, and else the
/// numbers are the model's, in one piece and in two.
#[test]
fn any_numbers_carried_on() {
    let random = &mut Random::new(30);
    let mut met = States::default();
    for case in 0..cases() {
        let (order, n, p) = setting(case);
        let (words, coefs) = damaged(random, (order, n, p), case, 6);
        let any = random.word() as u32;
        let setting = (
            order,
            random.pick(&[n, n, n, 0, FIELDS]),
            random.pick(&[p, p, p, p, 0, 1, u32::MAX, any]),
        );
        let from = any_numbers(random, setting, &words);
        let wanted = carried(setting, (&words, &coefs), from);
        let k = up_to(random, words.len());
        let first = carry(setting, (&words[..k], &coefs[..k]), from);
        let second = carry(setting, (&words[k..], &coefs[k..]), first);
        let whole = carry(setting, (&words, &coefs), from);
        let about = format!("case {case} {setting:x?} {words:x?} {coefs:x?} from {from:x?}");
        assert_eq!((whole, second), (wanted, wanted), "{about}");
        assert!(from.stop == 0 || whole == from, "{about}");
        met.add(setting, (&words, &coefs), from);
    }
    met.whole();
}

/// Over 6 variables, unequal lengths and weights that are not taken are not checked, whatever comes in.
#[test]
fn pieces_outside() {
    let random = &mut Random::new(31);
    for case in 0..cases() / 10 {
        let (order, n, p) = setting(case);
        let (words, coefs) = damaged(random, (order, n, p), case, 10);
        let from = any_numbers(random, (order, n, p), &words);
        let many = random.pick(&TOO_MANY);
        let found = probe::check_on(order, many, p, (&words, &coefs), from);
        assert_eq!(found, probe::NOT_CHECKED_ON);
        for weights in weights_not_taken(random, order) {
            let numbers = (order.number(), n as u32, &weights[..], p);
            let found = c_functions::check_on(numbers, (&words, &coefs), from);
            assert_eq!(found, probe::NOT_CHECKED_ON);
        }
        if let Some((_, fewer)) = coefs.split_last() {
            for short in [(&words[..], fewer), (&words[1..], &coefs[..])] {
                let found = carry((order, n, p), short, from);
                assert_eq!(found, probe::NOT_CHECKED_ON);
            }
        }
    }
}
