//! The model of the geobucket itself: what document 01 says of it by example, and generated lists of
//! operations against plain sums. The variable SECOND_CASES sets the size, as for the other
//! generated tests.
use second::cases;
use second::generate::setting;
use second::geobucket::{
    capacity, most_comparisons, start, Added, Geobucket, Lead, Search, BUCKETS,
};
use second::limits::{BUCKET_PLACES, MOST_TERMS};
use second::monomial::{Order, LIMIT};
use second::operations::{Operation, Operations};
use second::polynomial::{lent, sum, Term};
use second::random::Random;
use second::residue;
use std::collections::BTreeMap;

/// The prime and the order of the examples, which have two variables.
const P: u32 = 7;
const DP: Order = Order::DEG_REV_LEX;

/// One of so many cases is a list of operations.
const CASES_PER_LIST: u64 = 50;

/// A term in two variables.
fn term(coef: u32, exponents: [u8; 2]) -> Term {
    (exponents.to_vec(), coef)
}

/// The powers of x1 from one down to another, each with coefficient 1.
fn powers(from: u8, to: u8) -> Vec<Term> {
    (to..=from).rev().map(|e| term(1, [e, 0])).collect()
}

/// x1 to some power, and so many smaller terms, all with coefficient 1.
fn headed(power: u8, smaller: u8) -> Vec<Term> {
    let below = (0..power).rev().take(usize::from(smaller));
    let smaller = below.map(|e| term(1, [0, e]));
    powers(power, power).into_iter().chain(smaller).collect()
}

/// Buckets after these additions, none of which is merged with another.
fn filled(additions: &[&[Term]]) -> Geobucket {
    let mut buckets = Geobucket::new(DP, P);
    for f in additions {
        assert_eq!(buckets.add(f), Added::default());
    }
    buckets
}

/// How many terms each bucket has.
fn lens(buckets: &Geobucket) -> [usize; BUCKETS] {
    std::array::from_fn(|bucket| buckets.buckets()[bucket].len())
}

/// A lead that was found, as a test expects it.
fn found(bucket: usize, term: Term) -> Option<Lead> {
    Some(Lead { bucket, term })
}

#[test]
fn capacities_and_starts() {
    let capacities: Vec<usize> = (0..BUCKETS).map(capacity).collect();
    assert_eq!(capacities, [4, 16, 64, 256, 1_024, 4_096]);
    let starts: Vec<usize> = (0..BUCKETS).map(start).collect();
    assert_eq!(starts, [0, 4, 20, 84, 340, 1_364]);
    assert_eq!(start(BUCKETS - 1) + capacity(BUCKETS - 1), BUCKET_PLACES);
}

/// 6·N·M by hand: M is 1 up to 4 terms, 2 up to 16, and so on, and 6 at most.
#[test]
fn bounds() {
    let known = [
        (0, 0),
        (1, 6),
        (4, 24),
        (5, 60),
        (6, 72),
        (16, 192),
        (17, 306),
        (1_024, 30_720),
        (1_025, 36_900),
        (4_096, 147_456),
        (4_097, 147_492),
        (1_000_000, 36_000_000),
    ];
    for (brought, most) in known {
        assert_eq!(most_comparisons(brought), most, "{brought} terms");
    }
}

#[test]
fn four_terms_go_to_bucket_1_and_five_to_bucket_2() {
    assert_eq!(lens(&filled(&[&powers(3, 0)])), [4, 0, 0, 0, 0, 0]);
    assert_eq!(lens(&filled(&[&powers(4, 0)])), [0, 5, 0, 0, 0, 0]);
    assert_eq!(lens(&filled(&[&powers(15, 0)])), [0, 16, 0, 0, 0, 0]);
    assert_eq!(lens(&filled(&[&powers(16, 0)])), [0, 0, 17, 0, 0, 0]);
}

/// The listing of document 01.
#[test]
fn listing() {
    let first = [
        term(3, [2, 0]),
        term(1, [1, 1]),
        term(1, [0, 2]),
        term(1, [1, 0]),
        term(1, [0, 1]),
    ];
    let mut buckets = filled(&[&first, &[term(4, [2, 0])]]);
    assert_eq!(lens(&buckets), [1, 5, 0, 0, 0, 0]);
    let (lead, search) = buckets.take();
    assert_eq!(lead, found(1, term(1, [1, 1])));
    let (sum, comparisons) = buckets.sum();
    assert_eq!(sum, first[2..]);
    assert_eq!(search.comparisons + comparisons, 1);
    assert_eq!(most_comparisons(6), 72);
    assert_eq!(buckets.held(), 0);
}

/// So many falling terms in two variables.
fn many(len: usize) -> Vec<Term> {
    let all = (0..=LIMIT).flat_map(|x| (0..=LIMIT).map(move |y| term(1, [x, y])));
    sum(DP, P, &all.take(len).collect::<Vec<_>>(), &[])
}

#[test]
fn so_many_terms_are_accepted_and_no_more() {
    let mut buckets = Geobucket::new(DP, P);
    assert!(buckets.accepts(MOST_TERMS) && !buckets.accepts(MOST_TERMS + 1));
    assert_eq!(buckets.add(&many(MOST_TERMS)), Added::default());
    assert_eq!(lens(&buckets), [0, 0, 0, 0, 0, MOST_TERMS]);
    assert!(buckets.accepts(0) && !buckets.accepts(1));
    buckets.take();
    assert!(buckets.accepts(1) && !buckets.accepts(2));
}

/// All of the last bucket is filled by an addition that goes through the five others.
#[test]
fn an_addition_goes_through_all_buckets() {
    let all = many(MOST_TERMS);
    let mut buckets = Geobucket::new(DP, P);
    let mut from = 0;
    for len in [2_731, 1_024, 256, 64, 16, 4] {
        assert_eq!(buckets.add(&all[from..from + len]), Added::default());
        from += len;
    }
    assert_eq!(lens(&buckets), [4, 16, 64, 256, 1_024, 2_731]);
    let added = buckets.add(&all[from..]);
    // Each part is smaller than the one before, so that each bucket's terms are compared with the
    // largest of the result, and the rest is given as it is.
    assert_eq!(added.emptied, 5);
    assert_eq!(added.comparisons, 4 + 16 + 64 + 256 + 1_024 + 2_731);
    assert_eq!(buckets.buckets()[BUCKETS - 1], all);
}

/// A bucket that has become too large is merged with the next one; an empty one costs nothing.
#[test]
fn an_addition_moves_up() {
    let mut buckets = filled(&[&powers(3, 0)]);
    let added = buckets.add(&powers(4, 4));
    assert_eq!((added.comparisons, added.emptied), (1, 1));
    assert_eq!(buckets.buckets()[1], powers(4, 0));
    // 2 comparisons in bucket 1, and 5 in bucket 2.
    assert_eq!(buckets.add(&powers(9, 7)), Added::default());
    let added = buckets.add(&powers(6, 5));
    assert_eq!((added.comparisons, added.emptied), (3 + 5, 1));
    assert_eq!(lens(&buckets), [0, 10, 0, 0, 0, 0]);
}

/// No coefficient 0 is kept after a merge.
#[test]
fn an_addition_cancels() {
    let mut buckets = filled(&[&powers(3, 0)]);
    let less = [term(6, [3, 0]), term(6, [1, 0])];
    assert_eq!(buckets.add(&less).comparisons, 3);
    assert_eq!(lens(&buckets), [2, 0, 0, 0, 0, 0]);
    let less = [term(6, [2, 0]), term(6, [0, 0])];
    assert_eq!(buckets.add(&less).comparisons, 2);
    assert_eq!(buckets.held(), 0);
    assert_eq!(buckets.add(&[]), Added::default());
}

/// The higher buckets are searched before a lead is given out.
#[test]
fn a_lead_counts_all_buckets() {
    let high = powers(4, 0);
    let mut buckets = filled(&[&high, &[term(2, [4, 0])]]);
    let (lead, search) = buckets.lead();
    assert_eq!(lead, found(0, term(3, [4, 0])));
    assert_eq!((search.comparisons, search.passes, search.like), (1, 1, 1));
    assert_eq!(buckets.buckets()[0], [term(3, [4, 0])]);
    assert_eq!(buckets.buckets()[1], high[1..]);
    // Left in its bucket, it is found again.
    let (again, search) = buckets.take();
    assert_eq!(again, lead);
    assert_eq!((search.comparisons, search.like), (1, 0));
    assert_eq!(lens(&buckets), [0, 4, 0, 0, 0, 0]);
}

/// A candidate that has become 0 stays until a larger lead replaces it, and the pass goes on.
#[test]
fn a_zero_candidate_is_replaced() {
    let (second, third) = (headed(25, 4), headed(30, 20));
    let mut buckets = filled(&[&third, &second, &[term(6, [25, 0])]]);
    let (lead, search) = buckets.lead();
    assert_eq!(lead, found(2, term(1, [30, 0])));
    let expected = Search {
        comparisons: 2,
        passes: 1,
        like: 1,
        sums_replaced: 0,
        zeros_replaced: 1,
    };
    assert_eq!(search, expected);
    assert_eq!(lens(&buckets), [0, 4, 21, 0, 0, 0]);
}

/// A candidate that is replaced after like terms keeps its sum in its bucket.
#[test]
fn a_sum_is_replaced_and_kept() {
    let (second, third) = (headed(25, 4), headed(30, 20));
    let mut buckets = filled(&[&third, &second, &[term(2, [25, 0])]]);
    let (lead, search) = buckets.lead();
    assert_eq!(lead, found(2, term(1, [30, 0])));
    let expected = Search {
        comparisons: 2,
        passes: 1,
        like: 1,
        sums_replaced: 1,
        zeros_replaced: 0,
    };
    assert_eq!(search, expected);
    assert_eq!(buckets.buckets()[0], [term(3, [25, 0])]);
    assert_eq!(buckets.buckets()[1], second[1..]);
}

/// A candidate that is 0 meets a third like lead, and is a lead again.
#[test]
fn a_zero_candidate_meets_a_like_lead() {
    let (second, third) = (headed(30, 4), headed(30, 20));
    let mut buckets = filled(&[&third, &second, &[term(6, [30, 0])]]);
    let (lead, search) = buckets.lead();
    assert_eq!(lead, found(0, term(1, [30, 0])));
    assert_eq!((search.comparisons, search.passes, search.like), (2, 1, 2));
    assert_eq!(lens(&buckets), [1, 4, 20, 0, 0, 0]);
}

/// A candidate that is 0 at the end of a pass is removed, and the search begins again.
#[test]
fn a_search_begins_again() {
    let less = [term(6, [4, 0]), term(6, [3, 0])];
    let mut buckets = filled(&[&powers(4, 0), &less]);
    let (lead, search) = buckets.lead();
    assert_eq!(lead, found(1, term(1, [2, 0])));
    assert_eq!((search.comparisons, search.passes, search.like), (2, 3, 2));
    assert_eq!(lens(&buckets), [0, 3, 0, 0, 0, 0]);
}

/// Two buckets that cancel whole: each pass removes a term of both, and the last finds none.
#[test]
fn a_search_ends_with_zero() {
    let mut buckets = filled(&[&powers(4, 0)]);
    buckets.take();
    let less: Vec<Term> = (0..4).rev().map(|e| term(6, [e, 0])).collect();
    assert_eq!(buckets.add(&less), Added::default());
    let (lead, search) = buckets.take();
    assert_eq!((lead, search.comparisons, search.passes), (None, 4, 5));
    assert_eq!(buckets.held(), 0);
    let (lead, search) = buckets.take();
    assert_eq!((lead, search.comparisons, search.passes), (None, 0, 1));
    assert_eq!(buckets.sum(), (Vec::new(), 0));
}

/// The full sum merges the buckets from the first on.
#[test]
fn a_sum_merges_upward() {
    // The first two make 4 comparisons; their sum, of 5 terms, and the third make 17.
    let (first, second) = (powers(42, 41), powers(44, 40));
    let third = powers(60, 44);
    let mut buckets = filled(&[&third, &second, &first]);
    let (all, comparisons) = buckets.sum();
    assert_eq!(comparisons, 4 + 17);
    let expected = sum(DP, P, &sum(DP, P, &first, &second), &third);
    assert_eq!(all, expected);
    assert_eq!(buckets.held(), 0);
}

/// The bucket space at return: buckets from their starts on, and else 0.
#[test]
fn spaces() {
    let (low, high) = (powers(1, 0), powers(9, 0));
    let (words, coefs) = filled(&[&high, &low]).space();
    let mut expected = (vec![0; BUCKET_PLACES], vec![0; BUCKET_PLACES]);
    for (terms, from) in [(low, 0), (high, 4)] {
        let (own_words, own_coefs) = lent(DP, &terms);
        expected.0[from..from + terms.len()].copy_from_slice(&own_words);
        expected.1[from..from + terms.len()].copy_from_slice(&own_coefs);
    }
    assert_eq!((words, coefs), expected);
}

/// Coefficients by their monomials; none is 0.
type Coefs = BTreeMap<Vec<u8>, u32>;

/// Adds a term to the coefficients.
fn add_to(coefs: &mut Coefs, p: u32, (monomial, coef): &Term) {
    let old = coefs.remove(monomial).unwrap_or(0);
    let new = residue::add(old, *coef, p);
    if new != 0 {
        coefs.insert(monomial.clone(), new);
    }
}

/// The coefficients of the sum of some terms.
fn coefs_of<'a>(p: u32, terms: impl IntoIterator<Item = &'a Term>) -> Coefs {
    let mut coefs = Coefs::new();
    terms.into_iter().for_each(|t| add_to(&mut coefs, p, t));
    coefs
}

/// What a list of operations did: the terms brought in less those given out, as coefficients, how
/// many terms were brought in, and the comparisons.
struct Tally {
    order: Order,
    p: u32,
    left: Coefs,
    brought_in: u64,
    comparisons: u64,
}

impl Tally {
    fn new(order: Order, p: u32) -> Self {
        Tally {
            order,
            p,
            left: Coefs::new(),
            brought_in: 0,
            comparisons: 0,
        }
    }

    /// The true lead.
    fn lead(&self) -> Option<Term> {
        let larger = |x: &(&Vec<u8>, &u32), y: &(&Vec<u8>, &u32)| self.order.compare(x.0, y.0);
        let (monomial, coef) = self.left.iter().max_by(larger)?;
        Some((monomial.clone(), *coef))
    }

    /// Terms given out + terms held = terms brought in, and each bucket is good.
    fn agrees(&self, buckets: &Geobucket) -> bool {
        let lists = buckets.buckets();
        coefs_of(self.p, lists.iter().flatten()) == self.left
            && (0..BUCKETS).all(|b| lists[b].len() <= capacity(b) && self.canonical(&lists[b]))
    }

    /// Whether the terms fall strictly, with coefficients from 1 to p - 1.
    fn canonical(&self, terms: &[Term]) -> bool {
        let falls = |pair: &[Term]| self.order.compare(&pair[0].0, &pair[1].0).is_gt();
        terms.windows(2).all(falls) && terms.iter().all(|(_, c)| (1..self.p).contains(c))
    }

    /// Does an operation. What is given out must be right.
    fn operate(&mut self, buckets: &mut Geobucket, operation: &Operation) {
        match operation {
            Operation::Add(f) => {
                self.comparisons += buckets.add(f).comparisons;
                self.brought_in += f.len() as u64;
                f.iter().for_each(|t| add_to(&mut self.left, self.p, t));
            }
            // The bound does not speak of leads that are found and left before the last operation,
            // so that this one is found in a copy.
            Operation::Find => {
                let mut copy = buckets.clone();
                let (lead, _) = copy.lead();
                assert_eq!(lead.map(|l| l.term), self.lead());
                assert!(self.agrees(&copy));
            }
            Operation::Take => {
                let (lead, search) = buckets.take();
                let term = lead.map(|l| l.term);
                assert_eq!(term, self.lead());
                self.comparisons += search.comparisons;
                if let Some((monomial, _)) = term {
                    self.left.remove(&monomial);
                }
            }
            Operation::Sum => {
                let (terms, comparisons) = buckets.sum();
                assert!(self.canonical(&terms));
                assert_eq!(coefs_of(self.p, &terms), self.left);
                assert_eq!(buckets.held(), 0);
                self.comparisons += comparisons;
                self.left.clear();
            }
        }
    }
}

/// Generated lists: 1,000. After each operation nothing is lost, each lead is the lead of the true
/// sum, and the comparisons are within the bound, also with one more search for a lead that is left.
#[test]
fn generated_lists() {
    let random = &mut Random::new(41);
    let mut nearest: f64 = 0.0;
    for case in 0..cases() / CASES_PER_LIST {
        let (order, n, p) = setting(case);
        let mut operations = Operations::new(random, case, (order, n, p));
        let mut buckets = Geobucket::new(order, p);
        let mut tally = Tally::new(order, p);
        for k in 0..operations.count(random) {
            let operation = operations.next(random, &buckets);
            tally.operate(&mut buckets, &operation);
            let name = operation.name();
            let about = format!("case {case} {order:?} n {n} p {p}, operation {k}: {name}");
            assert!(tally.agrees(&buckets), "{about}");
            let last = buckets.clone().lead().1.comparisons;
            let made = tally.comparisons + last;
            let most = most_comparisons(tally.brought_in);
            assert!(made <= most, "{about}: {made} of {most}");
            nearest = nearest.max(made as f64 / most.max(1) as f64);
        }
    }
    println!("comparisons made, of those of the bound, at most: {nearest:.3}");
}
