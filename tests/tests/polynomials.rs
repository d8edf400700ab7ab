//! Generated polynomials: starts, parts, merges and multiples against the model. The variable
//! SECOND_CASES sets the size, as for the other generated tests.
use second::c_functions::Places;
use second::cases;
use second::generate::{
    coef, falling, monomial, monomials, negative, places, polynomial, setting, up_to, with_coefs,
    SHORT,
};
use second::limits::WORK_PLACES;
use second::monomial::{Order, LIMIT};
use second::polynomial::{lent, merge, multiple, part, starts_good, sum, Term};
use second::probe;
use second::random::Random;
use second::residue;

/// The work space has two halves.
const HALF: usize = WORK_PLACES / 2;

/// One of so many cases has a list of more than `SHORT` terms.
const LONG_EVERY: u64 = 64;

/// How two polynomials stand to each other.
#[derive(Clone, Copy, Debug)]
enum Likeness {
    Any,
    Many,
    All,
    Cancelling,
    SomeCancelling,
    OneTerm,
    OneAfterTheOther,
}

const LIKENESSES: [Likeness; 7] = [
    Likeness::Any,
    Likeness::Many,
    Likeness::All,
    Likeness::Cancelling,
    Likeness::SomeCancelling,
    Likeness::OneTerm,
    Likeness::OneAfterTheOther,
];

/// Two polynomials of 1 to `len` terms each: a merge of two areas is of lists that are not empty.
fn pair(
    random: &mut Random,
    setting: (Order, usize, u32),
    likeness: Likeness,
    len: usize,
) -> (Vec<Term>, Vec<Term>) {
    loop {
        let (a, b) = any_pair(random, setting, likeness, len);
        if !a.is_empty() && !b.is_empty() {
            return (a, b);
        }
    }
}

/// Two polynomials of up to `len` terms each.
fn any_pair(
    random: &mut Random,
    (order, n, p): (Order, usize, u32),
    likeness: Likeness,
    len: usize,
) -> (Vec<Term>, Vec<Term>) {
    let a = polynomial(random, order, n, p, len);
    let b = polynomial(random, order, n, p, len);
    match likeness {
        Likeness::Any => (a, b),
        Likeness::Many => {
            // Most monomials of a, and some of b.
            let own = b.into_iter().map(|(m, _)| m).step_by(3);
            let shared = a.iter().map(|(m, _)| m.clone());
            let mut both: Vec<Vec<u8>> = shared.filter(|_| random.below(5) < 3).collect();
            both.extend(own);
            both.truncate(len);
            let b = with_coefs(random, p, falling(order, both));
            (a, b)
        }
        Likeness::All => {
            let b = with_coefs(random, p, a.iter().map(|(m, _)| m.clone()).collect());
            (a, b)
        }
        Likeness::Cancelling => {
            let b = negative(p, &a);
            (a, b)
        }
        Likeness::SomeCancelling => {
            let some = |t: &Term| match random.below(2) {
                0 => (t.0.clone(), residue::negate(t.1, p)),
                _ => (t.0.clone(), coef(random, p)),
            };
            let b = a.iter().map(some).collect();
            (a, b)
        }
        Likeness::OneTerm => {
            let (mut a, mut b) = (a, b);
            let one = match random.below(2) {
                0 => &mut a,
                _ => &mut b,
            };
            let at = up_to(random, one.len());
            *one = one.iter().skip(at).take(1).cloned().collect();
            (a, b)
        }
        Likeness::OneAfterTheOther => {
            let mut high = a;
            let low = high.split_off(up_to(random, high.len()));
            match random.below(2) {
                0 => (high, low),
                _ => (low, high),
            }
        }
    }
}

/// The most terms of a list in this case.
fn list_len(random: &mut Random, case: u64) -> usize {
    match case % LONG_EVERY {
        0 => 500 + up_to(random, 1_500),
        _ => SHORT,
    }
}

/// Puts terms from place `to` on.
fn put(order: Order, terms: &[Term], space: &mut (Vec<u64>, Vec<u32>), to: usize) {
    let (words, coefs) = lent(order, terms);
    space.0[to..to + words.len()].copy_from_slice(&words);
    space.1[to..to + coefs.len()].copy_from_slice(&coefs);
}

/// The same with keys for words.
fn put_keys(order: Order, terms: &[Term], space: &mut (Vec<u64>, Vec<u32>), to: usize) {
    put(order, terms, space, to);
    let words = &mut space.0[to..to + terms.len()];
    let keys = probe::keys(order, words);
    words.copy_from_slice(&keys);
}

/// Terms, and the place in the work space that they lie at.
type Placed<'a> = (&'a [Term], usize);

/// The model's merge: the published one, which must give the sum.
fn model(order: Order, p: u32, a: &[Term], b: &[Term]) -> (Vec<Term>, u64) {
    let (merged, comparisons) = merge(order, p, a, b);
    assert_eq!(merged, sum(order, p, a, b));
    (merged, comparisons)
}

/// Puts a and b at their places of the space, and merges them to the places from `to` on, where the
/// result must be the model's, and end at the last of them. What lies there in front of the result may
/// be anything, and all other places must be as they were.
fn merge_areas(
    (order, p): (Order, u32),
    [(a, a_at), (b, b_at)]: [Placed; 2],
    space: &mut (Vec<u64>, Vec<u32>),
    to: usize,
    about: &str,
) -> (Vec<Term>, Places) {
    let (expected, comparisons) = model(order, p, a, b);
    let (len, end) = (expected.len(), to + a.len() + b.len());
    let head = end - len;
    put_keys(order, a, space, a_at);
    put_keys(order, b, space, b_at);
    let mut wanted = space.clone();
    put(order, &expected, &mut wanted, head);
    let places = probe::merge_areas(
        p,
        (&mut space.0, &mut space.1),
        [(a_at, a.len()), (b_at, b.len())],
        to,
    );
    let counts = Places {
        head,
        len,
        comparisons,
    };
    assert_eq!(places, counts, "{about}");
    let mut found = space.clone();
    probe::make_words(order, &mut found.0[head..end]);
    wanted.0[to..head].copy_from_slice(&found.0[to..head]);
    wanted.1[to..head].copy_from_slice(&found.1[to..head]);
    assert!(found == wanted, "{about}");
    (expected, places)
}

/// First places for stretches of places of these lengths, in any order, apart from each other by up to
/// `gap` places, and how many places there are in all.
fn apart<const N: usize>(random: &mut Random, lens: [usize; N], gap: usize) -> ([usize; N], usize) {
    let mut left: Vec<usize> = (0..N).collect();
    let (mut firsts, mut end) = ([0; N], up_to(random, gap));
    while !left.is_empty() {
        let k = left.swap_remove(up_to(random, left.len() - 1));
        firsts[k] = end;
        end += lens[k] + up_to(random, gap);
    }
    (firsts, end)
}

/// What the merges of a run met.
#[derive(Debug, Default)]
struct Met {
    merges: u64,
    long: u64,
    longest: usize,
    comparisons: u64,
    like: u64,
    cancelled: u64,
    zero: u64,
    uneven: u64,
}

impl Met {
    fn add(&mut self, a: usize, b: usize, counts: Places, all: usize) {
        self.merges += 1;
        self.long += u64::from(a.max(b) > SHORT);
        self.longest = self.longest.max(a).max(b);
        self.comparisons += counts.comparisons;
        self.like += (a + b - all) as u64;
        self.cancelled += (all - counts.len) as u64;
        self.zero += u64::from(counts.len == 0);
        self.uneven += u64::from(a.max(b) / 4 > a.min(b));
    }

    /// That each kind was met.
    fn whole(&self) {
        println!("{self:?}");
        let kinds = [self.long, self.like, self.cancelled, self.zero, self.uneven];
        assert!(kinds.iter().all(|&k| k > 0), "{self:?}");
    }
}

/// How many unlike monomials two polynomials have together.
fn unlike(order: Order, a: &[Term], b: &[Term]) -> usize {
    let all = a.iter().chain(b).map(|(m, _)| m.clone());
    falling(order, all.collect()).len()
}

/// Two fifths of the cases: 20,000 merges at any places.
#[test]
fn merges() {
    let random = &mut Random::new(21);
    let mut met = Met::default();
    for case in 0..cases() * 2 / 5 {
        let (order, n, p) = setting(case);
        let likeness = random.pick(&LIKENESSES);
        let len = list_len(random, case);
        let (a, b) = pair(random, (order, n, p), likeness, len);
        let ([a_at, b_at, to], size) = apart(random, [a.len(), b.len(), a.len() + b.len()], 40);
        let mut space = places(random, size, size);
        let about = format!("case {case} {order:?} n {n} p {p} {likeness:?}");
        let lists = [(&a[..], a_at), (&b[..], b_at)];
        let (_, counts) = merge_areas((order, p), lists, &mut space, to, &about);
        met.add(a.len(), b.len(), counts, unlike(order, &a, &b));
    }
    met.whole();
}

/// Merges within the work space, from the lower half to the upper, where the result is merged on, and
/// back: 20,000.
#[test]
fn merges_between_halves() {
    let random = &mut Random::new(22);
    let mut met = Met::default();
    let mut space = places(random, WORK_PLACES, WORK_PLACES);
    for case in 0..cases() / 5 {
        let (order, n, p) = setting(case);
        let likeness = random.pick(&LIKENESSES);
        let len = list_len(random, case).min(1_300);
        let (a, up) = pair(random, (order, n, p), likeness, len);
        let down = match random.below(2) {
            0 => negative(p, &up),
            _ => polynomial(random, order, n, p, len),
        };
        let about = format!("case {case} {order:?} n {n} p {p} {likeness:?}");
        let most = a.len() + up.len();
        let lists = [(&a[..], 0), (&up[..], a.len())];
        let (sum, counts) = merge_areas((order, p), lists, &mut space, HALF, &about);
        met.add(a.len(), up.len(), counts, unlike(order, &a, &up));
        if sum.is_empty() || down.is_empty() {
            continue;
        }
        // The sum is put where it lies.
        let lists = [(&sum[..], counts.head), (&down[..], HALF + most)];
        let about = about + ", back";
        let (_, counts) = merge_areas((order, p), lists, &mut space, 0, &about);
        met.add(sum.len(), down.len(), counts, unlike(order, &sum, &down));
    }
    met.whole();
}

/// Merges within a small space, at any places that lie apart, often side by side.
#[test]
fn merges_side_by_side() {
    let random = &mut Random::new(23);
    for case in 0..cases() / 5 {
        let (order, n, p) = setting(case);
        let likeness = random.pick(&LIKENESSES);
        let (a, b) = pair(random, (order, n, p), likeness, 12);
        let gap = up_to(random, 3) / 2;
        let ([a_at, b_at, to], size) = apart(random, [a.len(), b.len(), a.len() + b.len()], gap);
        let mut space = places(random, size, size);
        let about = format!("case {case} {likeness:?} {a_at} and {b_at} to {to}");
        let lists = [(&a[..], a_at), (&b[..], b_at)];
        merge_areas((order, p), lists, &mut space, to, &about);
    }
}

/// Starts of up to 8 polynomials, good or damaged, and the length that they end at.
fn starts(random: &mut Random) -> (Vec<usize>, usize) {
    let mut starts = vec![0];
    let mut len = 0;
    for _ in 0..random.below(9) {
        len += up_to(random, 6) * up_to(random, 1);
        starts.push(len);
    }
    let last = starts.len() - 1;
    let at = up_to(random, last);
    match random.below(8) {
        0 => starts[0] = 1 + up_to(random, 3),
        1 => starts[last] = len + 1 + up_to(random, 3),
        2 => len += 1,
        3 => starts[at] = up_to(random, len + 2),
        4 => starts[at] = usize::MAX - up_to(random, 1),
        5 => {
            starts.swap(at, up_to(random, last));
        }
        6 => starts.truncate(at),
        _ => {}
    }
    (starts, len)
}

/// Starts and parts, as many as there are cases.
#[test]
fn starts_and_parts() {
    let random = &mut Random::new(26);
    let mut good = 0;
    let mut absent = 0;
    for case in 0..cases() {
        let (starts, len) = starts(random);
        let expected = starts_good(&starts, len);
        assert_eq!(
            probe::starts_good(&starts, len),
            expected,
            "{starts:?} {len}"
        );
        good += u64::from(expected);
        let (words, coefs) = places(random, len, len);
        let far = [starts.len(), usize::MAX - 1, usize::MAX];
        for k in (0..starts.len()).chain(far) {
            let Some(places) = part(&starts, k, len) else {
                absent += u64::from(k < starts.len());
                let (word, coef) = (
                    probe::part_word(&words, &starts, k, 0),
                    probe::part_coef(&coefs, &starts, k, 0),
                );
                assert_eq!(
                    (word, coef),
                    (probe::NO_WORD, probe::NO_COEF),
                    "case {case}"
                );
                continue;
            };
            for i in 0..places.len() {
                let at = places.start + i;
                assert_eq!(probe::part_word(&words, &starts, k, i), words[at]);
                assert_eq!(probe::part_coef(&coefs, &starts, k, i), coefs[at]);
            }
            for i in [places.len(), places.len() + 1, usize::MAX] {
                assert_eq!(probe::part_word(&words, &starts, k, i), probe::NO_WORD);
                assert_eq!(probe::part_coef(&coefs, &starts, k, i), probe::NO_COEF);
            }
        }
    }
    println!("good starts: {good} of {}; parts absent: {absent}", cases());
    assert!(good > 0 && good < cases() && absent > 0);
}

/// Multiples by a term, some with an exponent over 127: 20,000.
#[test]
fn multiples() {
    let random = &mut Random::new(27);
    let mut over = 0;
    let count = cases() * 2 / 5;
    for case in 0..count {
        let (order, n, p) = setting(case);
        let limit = random.pick(&[1, 15, 63, 64, LIMIT]);
        let len = up_to(random, 40);
        let monomials = monomials(random, order, n, len, limit);
        let f = with_coefs(random, p, monomials);
        let least = random.pick(&[0, 1, LIMIT - limit, LIMIT]);
        let q = monomial(random, n, least);
        let c = coef(random, p);
        let (words, coefs) = lent(order, &f);
        let expected = multiple(p, c, &q, &f);
        let found = probe::any_over(order.word(&q), &words);
        assert_eq!(found, expected.is_none(), "case {case} {q:?}");
        let Some(expected) = expected else {
            over += 1;
            continue;
        };
        let to = up_to(random, 3);
        let room = to + f.len();
        let (ow, oc) = (room + up_to(random, 3), room + up_to(random, 3));
        let mut output = places(random, ow, oc);
        let mut wanted = output.clone();
        put(order, &expected, &mut wanted, to);
        let term = (c, order.word(&q));
        let into = (&mut output.0[..], &mut output.1[..]);
        probe::put_multiple((order, p), term, (&words, &coefs), into, to);
        probe::make_words(order, &mut output.0[to..room]);
        assert!(
            output == wanted,
            "case {case} {order:?} n {n} p {p} {c} {q:?}"
        );
    }
    println!("multiples: {count}, of them with an exponent over 127: {over}");
    assert!(over > 0 && over < count);
}
