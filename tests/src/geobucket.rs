//! The geobucket as six falling lists of terms by their exponents: addition, the search for the
//! lead, its removal and the full sum, with the comparisons of each, and the bucket space as it is
//! at return (document 01, "Buckets").
use crate::limits::{BUCKET_PLACES, MOST_TERMS};
use crate::monomial::Order;
use crate::polynomial::{lent, merge, Term};
use crate::residue;
use std::cmp::Ordering;

/// How many buckets there are. They are counted from 0 here, and from 1 in document 01.
pub const BUCKETS: usize = 6;

/// The most terms of a bucket: 4 in the first, and four times as many in each next one.
pub fn capacity(bucket: usize) -> usize {
    (0..bucket).fold(4, |places, _| 4 * places)
}

/// The first place of a bucket in the bucket space. Bucket i, counted from 1, starts at
/// (4^i - 4)/3.
pub fn start(bucket: usize) -> usize {
    (capacity(bucket) - 4) / 3
}

/// The first bucket that has room for so many terms, which are not too many.
fn first_bucket(terms: usize) -> usize {
    let room = |&bucket: &usize| capacity(bucket) >= terms;
    (0..BUCKETS)
        .find(room)
        .expect("no bucket has room for so many terms")
}

/// The most comparisons of a list of operations that brought in N terms: 6·N·M, where M is the
/// smaller of 6 and the least whole number from 1 up with 4^M at least N.
pub fn most_comparisons(brought: u64) -> u64 {
    let enough = |&m: &u32| 4_u64.pow(m) >= brought;
    let m = (1..6).find(enough).unwrap_or(6);
    6 * brought * u64::from(m)
}

/// What an addition did.
#[derive(Clone, Copy, Debug, Default, PartialEq, Eq)]
pub struct Added {
    pub comparisons: u64,
    /// The buckets that were emptied, since the result was too large for them.
    pub emptied: usize,
}

/// A lead, and the bucket that it is the first term of.
#[derive(Clone, Debug, PartialEq, Eq)]
pub struct Lead {
    pub bucket: usize,
    pub term: Term,
}

/// What a search did.
#[derive(Clone, Copy, Debug, Default, PartialEq, Eq)]
pub struct Search {
    pub comparisons: u64,
    pub passes: u64,
    /// Like leads that were removed from higher buckets.
    pub like: u64,
    /// Candidates that were replaced after like terms, with a sum that is not 0, or that is 0.
    pub sums_replaced: u64,
    pub zeros_replaced: u64,
}

/// The candidate of a search. Its term is the first of its bucket.
#[derive(Clone, Copy)]
struct Candidate {
    bucket: usize,
    /// Whether a like term was added to it.
    summed: bool,
}

#[derive(Clone, Debug)]
pub struct Geobucket {
    order: Order,
    p: u32,
    buckets: [Vec<Term>; BUCKETS],
}

impl Geobucket {
    pub fn new(order: Order, p: u32) -> Self {
        let buckets = Default::default();
        Geobucket { order, p, buckets }
    }

    pub fn buckets(&self) -> &[Vec<Term>; BUCKETS] {
        &self.buckets
    }

    /// How many terms are held.
    pub fn held(&self) -> usize {
        self.buckets.iter().map(Vec::len).sum()
    }

    /// Whether this many terms may be added.
    pub fn accepts(&self, terms: usize) -> bool {
        self.held() + terms <= MOST_TERMS
    }

    /// Adds a polynomial. The first bucket with room for it is merged with it; while the result is
    /// larger than the bucket, that bucket is emptied and the next one is merged with the result.
    pub fn add(&mut self, f: &[Term]) -> Added {
        assert!(self.accepts(f.len()), "too many terms");
        let mut added = Added::default();
        if f.is_empty() {
            return added;
        }
        let mut bucket = first_bucket(f.len());
        let mut result = self.merge_with(bucket, f, &mut added.comparisons);
        while result.len() > capacity(bucket) {
            self.buckets[bucket].clear();
            added.emptied += 1;
            bucket += 1;
            result = self.merge_with(bucket, &result, &mut added.comparisons);
        }
        self.buckets[bucket] = result;
        added
    }

    /// The merge of a polynomial with a bucket, which stays as it is.
    fn merge_with(&self, bucket: usize, f: &[Term], comparisons: &mut u64) -> Vec<Term> {
        let (result, made) = merge(self.order, self.p, f, &self.buckets[bucket]);
        *comparisons += made;
        result
    }

    /// Finds the lead, and leaves it in its bucket with the like terms added to it.
    pub fn lead(&mut self) -> (Option<Lead>, Search) {
        let mut search = Search::default();
        loop {
            let Some(bucket) = self.pass(&mut search) else {
                return (None, search);
            };
            if !self.remove_zero(bucket) {
                let term = self.buckets[bucket][0].clone();
                return (Some(Lead { bucket, term }), search);
            }
        }
    }

    /// Removes the lead that was found in a bucket.
    pub fn remove(&mut self, bucket: usize) {
        self.buckets[bucket].remove(0);
    }

    /// Finds the lead, and removes it.
    pub fn take(&mut self) -> (Option<Lead>, Search) {
        let (lead, search) = self.lead();
        if let Some(lead) = &lead {
            self.remove(lead.bucket);
        }
        (lead, search)
    }

    /// Goes once through the buckets that have terms, upward, with a candidate: the first lead, then
    /// each larger one. Gives the bucket of the candidate that is left.
    fn pass(&mut self, search: &mut Search) -> Option<usize> {
        search.passes += 1;
        let mut candidate = None;
        for bucket in 0..BUCKETS {
            if !self.buckets[bucket].is_empty() {
                candidate = Some(match candidate {
                    None => Candidate {
                        bucket,
                        summed: false,
                    },
                    Some(so_far) => self.meet(so_far, bucket, search),
                });
            }
        }
        candidate.map(|c| c.bucket)
    }

    /// The candidate after it has met the lead of a higher bucket: a larger lead replaces it, a like
    /// one is removed from its bucket and added to it.
    fn meet(&mut self, candidate: Candidate, bucket: usize, search: &mut Search) -> Candidate {
        search.comparisons += 1;
        let (ours, theirs) = (
            &self.buckets[candidate.bucket][0].0,
            &self.buckets[bucket][0].0,
        );
        match self.order.compare(ours, theirs) {
            Ordering::Greater => candidate,
            Ordering::Less => {
                let zero = self.remove_zero(candidate.bucket);
                search.zeros_replaced += u64::from(zero);
                search.sums_replaced += u64::from(candidate.summed && !zero);
                Candidate {
                    bucket,
                    summed: false,
                }
            }
            Ordering::Equal => {
                let (_, coef) = self.buckets[bucket].remove(0);
                let sum = &mut self.buckets[candidate.bucket][0].1;
                *sum = residue::add(*sum, coef, self.p);
                search.like += 1;
                Candidate {
                    summed: true,
                    ..candidate
                }
            }
        }
    }

    /// Removes the lead of a bucket where its coefficient is 0, and says whether it was.
    fn remove_zero(&mut self, bucket: usize) -> bool {
        let zero = self.buckets[bucket][0].1 == 0;
        if zero {
            self.remove(bucket);
        }
        zero
    }

    /// The full sum and its comparisons: the buckets are merged in turn, from zero on, and emptied.
    pub fn sum(&mut self) -> (Vec<Term>, u64) {
        let mut sum = Vec::new();
        let mut comparisons = 0;
        for bucket in 0..BUCKETS {
            sum = self.merge_with(bucket, &sum, &mut comparisons);
            self.buckets[bucket].clear();
        }
        (sum, comparisons)
    }

    /// The bucket space at return: each bucket's terms from its start on, and 0 past them.
    pub fn space(&self) -> (Vec<u64>, Vec<u32>) {
        let (mut words, mut coefs) = (vec![0; BUCKET_PLACES], vec![0; BUCKET_PLACES]);
        for (bucket, terms) in self.buckets.iter().enumerate() {
            let (own_words, own_coefs) = lent(self.order, terms);
            let places = start(bucket)..start(bucket) + terms.len();
            words[places.clone()].copy_from_slice(&own_words);
            coefs[places].copy_from_slice(&own_coefs);
        }
        (words, coefs)
    }
}
