//! The proved geobucket in lent spaces, through the static library `probe`.
use crate::c_functions::{
    probe_buckets_add, probe_buckets_empty, probe_buckets_lead, probe_buckets_settle,
    probe_buckets_sum, probe_buckets_take,
};
use crate::geobucket::{capacity, start, BUCKETS};
use crate::limits::{BUCKET_PLACES, MOST_TERMS, WORK_PLACES};
use crate::monomial::Order;
use crate::probe::{ask_apart, ask_keys, keys, make_words, Lent};
use std::ops::Range;

/// The six heads, the six lengths, and the places of the free areas, of which the last is unused. Places
/// are counted through the work space and on through the bucket space.
pub const STATE: usize = 3 * BUCKETS;

/// This bucket lies in the bucket space, and those below it in the work space.
const LAST: usize = BUCKETS - 1;

/// Words and coefficients of a space.
pub type Space = (Vec<u64>, Vec<u32>);

/// The number in the place of a bucket where the lead is zero.
const NO_BUCKET: u64 = BUCKETS as u64;

// SAFETY of each call below: what the function asks is tested first; it stays within the length of
// each slice, and keeps no reference.

/// A lead that was found: its bucket, word and coefficient.
#[derive(Clone, Copy, Debug, PartialEq, Eq)]
pub struct Lead {
    pub bucket: usize,
    pub word: u64,
    pub coef: u32,
}

/// The state and the spaces, where keys stand for words.
#[derive(Clone)]
pub struct Buckets {
    order: Order,
    p: u32,
    state: [usize; STATE],
    /// The bucket space.
    pub space: Space,
    pub work: Space,
}

impl Buckets {
    /// Empty buckets in spaces that may hold anything, from a state that may be anything.
    pub fn new(
        (order, p): (Order, u32),
        mut state: [usize; STATE],
        space: Space,
        work: Space,
    ) -> Self {
        assert_eq!(
            (space.0.len(), space.1.len()),
            (BUCKET_PLACES, BUCKET_PLACES)
        );
        assert_eq!((work.0.len(), work.1.len()), (WORK_PLACES, WORK_PLACES));
        unsafe { probe_buckets_empty(state.as_mut_ptr(), state.len()) };
        let buckets = Buckets {
            order,
            p,
            state,
            space,
            work,
        };
        buckets.ask();
        buckets
    }

    fn len(&self, bucket: usize) -> usize {
        self.state[BUCKETS + bucket]
    }

    /// Where a bucket's terms lie, in all places: its length of them, from its head on.
    fn terms_at(&self, bucket: usize) -> (usize, usize) {
        (self.state[bucket], self.len(bucket))
    }

    /// The zone of a bucket, which its terms lie in, in all places.
    fn zone(bucket: usize) -> Range<usize> {
        match bucket {
            LAST => WORK_PLACES + start(LAST)..WORK_PLACES + BUCKET_PLACES,
            _ => 4 * start(bucket)..4 * start(bucket + 1),
        }
    }

    /// The places of a bucket's terms within the space that it lies in.
    fn places(&self, bucket: usize) -> Range<usize> {
        let (head, len) = self.terms_at(bucket);
        let head = match bucket {
            LAST => head - WORK_PLACES,
            _ => head,
        };
        head..head + len
    }

    /// The keys and coefficients of a bucket.
    fn keys(&self, bucket: usize) -> Lent<'_> {
        let (keys, coefs) = match bucket {
            LAST => &self.space,
            _ => &self.work,
        };
        let places = self.places(bucket);
        (&keys[places.clone()], &coefs[places])
    }

    /// The words and coefficients of a bucket.
    pub fn list(&self, bucket: usize) -> Space {
        let (keys, coefs) = self.keys(bucket);
        self.in_words(keys, coefs)
    }

    /// Keys as words, with their coefficients.
    fn in_words(&self, keys: &[u64], coefs: &[u32]) -> Space {
        let mut words = keys.to_vec();
        make_words(self.order, &mut words);
        (words, coefs.to_vec())
    }

    /// Puts these contents into all places of both spaces that hold no term of a bucket.
    pub fn spoil(&mut self, space: &Space, work: &Space) {
        let mut spoilt = self.clone();
        spoilt.space.clone_from(space);
        spoilt.work.clone_from(work);
        for bucket in 0..BUCKETS {
            let (keys, coefs) = self.keys(bucket);
            let to = match bucket {
                LAST => &mut spoilt.space,
                _ => &mut spoilt.work,
            };
            let places = self.places(bucket);
            to.0[places.clone()].copy_from_slice(keys);
            to.1[places].copy_from_slice(coefs);
        }
        *self = spoilt;
    }

    /// What every function asks: each bucket, also an empty one, lies in its zone and has no more terms
    /// than its capacity, with falling keys and reduced coefficients; and the free area of each but the
    /// last is one of the two areas of its zone, apart from the bucket's terms.
    fn ask(&self) {
        for bucket in 0..BUCKETS {
            let ((head, len), zone) = (self.terms_at(bucket), Self::zone(bucket));
            let end = head.checked_add(len).expect("a length past all places");
            assert!(
                zone.start <= head && end <= zone.end,
                "bucket {bucket} is outside its zone: {head}..{end}"
            );
            assert!(len <= capacity(bucket), "bucket {bucket} has {len} terms");
            ask_keys(self.p, self.keys(bucket));
            if bucket != LAST {
                let (side, area) = (self.state[2 * BUCKETS + bucket], 2 * capacity(bucket));
                assert!(
                    [zone.start, zone.start + area].contains(&side) && zone.len() == 2 * area,
                    "the free area of bucket {bucket} is at {side}"
                );
                ask_apart((head, len), (side, area));
            }
        }
    }

    /// Adds a polynomial, and gives the comparisons.
    pub fn add(&mut self, (fw, fc): Lent) -> u64 {
        self.ask();
        ask_keys(self.p, (&keys(self.order, fw), fc));
        let held: usize = (0..BUCKETS).map(|b| self.len(b)).sum();
        assert!(held + fw.len() <= MOST_TERMS, "too many terms");
        unsafe {
            probe_buckets_add(
                self.order.number(),
                self.p,
                self.state.as_mut_ptr(),
                self.state.len(),
                fw.as_ptr(),
                fw.len(),
                fc.as_ptr(),
                fc.len(),
                self.space.0.as_mut_ptr(),
                self.space.0.len(),
                self.space.1.as_mut_ptr(),
                self.space.1.len(),
                self.work.0.as_mut_ptr(),
                self.work.0.len(),
                self.work.1.as_mut_ptr(),
                self.work.1.len(),
            )
        }
    }

    /// Finds the lead, which stays in its bucket with the like terms added, and gives the
    /// comparisons.
    pub fn lead(&mut self) -> (Option<Lead>, u64) {
        self.ask();
        let mut lead = [u64::MAX; 3];
        let comparisons = unsafe {
            probe_buckets_lead(
                self.order.number(),
                self.p,
                self.state.as_mut_ptr(),
                self.state.len(),
                self.space.0.as_ptr(),
                self.space.0.len(),
                self.space.1.as_mut_ptr(),
                self.space.1.len(),
                self.work.0.as_ptr(),
                self.work.0.len(),
                self.work.1.as_mut_ptr(),
                self.work.1.len(),
                lead.as_mut_ptr(),
                lead.len(),
            )
        };
        (lead_of(lead), comparisons)
    }

    /// Removes the lead of a bucket, which has terms.
    pub fn take(&mut self, bucket: usize) {
        assert!(bucket < BUCKETS && self.len(bucket) > 0);
        unsafe { probe_buckets_take(self.state.as_mut_ptr(), self.state.len(), bucket) }
    }

    /// Puts the full sum into the bucket space and empties the buckets. Gives the words and the
    /// coefficients of the sum, and the comparisons.
    pub fn sum(&mut self) -> (Space, u64) {
        self.ask();
        let mut at = [usize::MAX; 2];
        let comparisons = unsafe {
            probe_buckets_sum(
                self.p,
                self.state.as_mut_ptr(),
                self.state.len(),
                self.space.0.as_mut_ptr(),
                self.space.0.len(),
                self.space.1.as_mut_ptr(),
                self.space.1.len(),
                self.work.0.as_mut_ptr(),
                self.work.0.len(),
                self.work.1.as_mut_ptr(),
                self.work.1.len(),
                at.as_mut_ptr(),
                at.len(),
            )
        };
        let [from, len] = at;
        assert!(
            from <= BUCKET_PLACES && len <= BUCKET_PLACES - from,
            "outside the bucket space"
        );
        let places = from..from + len;
        let (keys, coefs) = &self.space;
        let sum = self.in_words(&keys[places.clone()], &coefs[places]);
        (sum, comparisons)
    }

    /// Leaves the spaces as they are at return.
    pub fn settle(&mut self) {
        self.ask();
        unsafe {
            probe_buckets_settle(
                self.order.number(),
                self.state.as_ptr(),
                self.state.len(),
                self.space.0.as_mut_ptr(),
                self.space.0.len(),
                self.space.1.as_mut_ptr(),
                self.space.1.len(),
                self.work.0.as_mut_ptr(),
                self.work.0.len(),
                self.work.1.as_mut_ptr(),
                self.work.1.len(),
            )
        }
    }
}

/// What the three places of a lead say. Where it is zero, the other two places are not read.
fn lead_of([bucket, word, coef]: [u64; 3]) -> Option<Lead> {
    if bucket == NO_BUCKET {
        return None;
    }
    assert!(bucket < NO_BUCKET, "there is no bucket {bucket}");
    let coef = u32::try_from(coef).expect("a coefficient over 32 bits");
    Some(Lead {
        bucket: bucket as usize,
        word,
        coef,
    })
}
