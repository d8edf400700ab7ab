//! The geobucket in plain Rust: heads and lengths over flat spaces, merges by the better of the two
//! in `merge`, and the order taken out of the loops.
use crate::lists::{deg_rev_lex_key, lex_key, List, Order, Places, Terms};
use crate::merge::best_by;
use damselbuckle::{BUCKET_PLACES, WORK_PLACES};

/// The buckets, counted from 0: how many there are, and the most terms and the first place of each.
pub const BUCKETS: usize = 6;
pub const CAPACITIES: [usize; BUCKETS] = [4, 16, 64, 256, 1_024, 4_096];
const STARTS: [usize; BUCKETS] = [0, 4, 20, 84, 340, 1_364];

/// The work space has two halves.
const HALF: usize = WORK_PLACES / 2;

/// What a geobucket works on: the six heads, the six lengths, and for the proved one the places of the free
/// areas; and the spaces.
#[derive(Clone, PartialEq, Eq)]
pub struct Memory {
    pub state: [usize; 3 * BUCKETS],
    pub space: List,
    pub work: List,
}

/// A lead that was found, and the comparisons. The bucket is 6 where it is zero.
#[derive(Clone, Copy, Debug, PartialEq, Eq)]
pub struct Lead {
    pub bucket: usize,
    pub word: u64,
    pub coef: u32,
    pub comparisons: u64,
}

/// The lead of empty buckets.
const ZERO: Lead = Lead {
    bucket: BUCKETS,
    word: 0,
    coef: 0,
    comparisons: 0,
};

/// The functions of a geobucket. Additions and sums give the comparisons.
pub trait Geobucket {
    fn empty(memory: &mut Memory);
    fn add(order: Order, p: u32, memory: &mut Memory, f: Terms) -> u64;
    /// Finds the lead, and leaves it with the like terms added to it.
    fn lead(order: Order, p: u32, memory: &mut Memory) -> Lead;
    /// Removes the lead of a bucket.
    fn take(memory: &mut Memory, bucket: usize);
    /// The full sum, and the comparisons.
    fn sum(order: Order, p: u32, memory: &mut Memory) -> (List, u64);
    /// Leaves the spaces as they are at return.
    fn settle(order: Order, memory: &mut Memory);
}

impl Memory {
    pub fn new() -> Self {
        Memory {
            state: [0; 3 * BUCKETS],
            space: List::of(BUCKET_PLACES),
            work: List::of(WORK_PLACES),
        }
    }

    #[inline(always)]
    fn head(&self, bucket: usize) -> usize {
        self.state[bucket]
    }

    #[inline(always)]
    pub fn len(&self, bucket: usize) -> usize {
        self.state[BUCKETS + bucket]
    }

    /// How many terms are held.
    pub fn held(&self) -> usize {
        self.state[BUCKETS..2 * BUCKETS].iter().sum()
    }

    /// Keeps only the last `len` terms of a bucket, as if the others had been taken.
    pub fn keep(&mut self, bucket: usize, len: usize) {
        self.state[bucket] += self.len(bucket) - len;
        self.state[BUCKETS + bucket] = len;
    }

    #[inline(always)]
    fn remove(&mut self, bucket: usize) {
        self.state[bucket] += 1;
        self.state[BUCKETS + bucket] -= 1;
    }

    #[inline(always)]
    fn set_len(&mut self, bucket: usize, len: usize) {
        self.state[bucket] = STARTS[bucket];
        self.state[BUCKETS + bucket] = len;
    }
}

impl Default for Memory {
    fn default() -> Self {
        Memory::new()
    }
}

/// The first bucket with room for so many terms.
#[inline(always)]
pub fn first_bucket(terms: usize) -> usize {
    let mut bucket = 0;
    while CAPACITIES[bucket] < terms {
        bucket += 1;
    }
    bucket
}

pub struct Plain;

impl Geobucket for Plain {
    fn empty(memory: &mut Memory) {
        (0..BUCKETS).for_each(|bucket| memory.set_len(bucket, 0));
    }

    fn add(order: Order, p: u32, memory: &mut Memory, f: Terms) -> u64 {
        match order {
            Order::Lex => add_by(lex_key, p, memory, f),
            Order::DegRevLex => add_by(deg_rev_lex_key, p, memory, f),
        }
    }

    fn lead(order: Order, p: u32, memory: &mut Memory) -> Lead {
        match order {
            Order::Lex => lead_by(lex_key, p, memory),
            Order::DegRevLex => lead_by(deg_rev_lex_key, p, memory),
        }
    }

    fn take(memory: &mut Memory, bucket: usize) {
        memory.remove(bucket);
    }

    fn sum(order: Order, p: u32, memory: &mut Memory) -> (List, u64) {
        let (from, len, comparisons) = match order {
            Order::Lex => sum_by(lex_key, p, memory),
            Order::DegRevLex => sum_by(deg_rev_lex_key, p, memory),
        };
        let (words, coefs) = part(&memory.work, from, len);
        let sum = List {
            words: words.to_vec(),
            coefs: coefs.to_vec(),
        };
        (sum, comparisons)
    }

    fn settle(_: Order, memory: &mut Memory) {
        settle(memory);
    }
}

/// Leaves the spaces as they are at return.
pub fn settle(memory: &mut Memory) {
    for bucket in 0..BUCKETS {
        let (head, len, start) = (memory.head(bucket), memory.len(bucket), STARTS[bucket]);
        let end = start + CAPACITIES[bucket];
        memory.space.words.copy_within(head..head + len, start);
        memory.space.coefs.copy_within(head..head + len, start);
        memory.space.words[start + len..end].fill(0);
        memory.space.coefs[start + len..end].fill(0);
        memory.set_len(bucket, len);
    }
    memory.work.words.fill(0);
    memory.work.coefs.fill(0);
}

/// The terms of a list at some places.
#[inline(always)]
fn part(list: &List, from: usize, len: usize) -> Terms<'_> {
    (&list.words[from..from + len], &list.coefs[from..from + len])
}

/// Copies terms to the first of some places.
#[inline(always)]
fn copy((words, coefs): Terms, (ow, oc): Places) {
    ow[..words.len()].copy_from_slice(words);
    oc[..coefs.len()].copy_from_slice(coefs);
}

/// The lower half of the work space, and the upper one.
#[inline(always)]
fn halves(work: &mut List) -> (Places<'_>, Places<'_>) {
    let (lower_words, upper_words) = work.words.split_at_mut(HALF);
    let (lower_coefs, upper_coefs) = work.coefs.split_at_mut(HALF);
    ((lower_words, lower_coefs), (upper_words, upper_coefs))
}

/// Merges `len` terms at the start of one half with a bucket, into the other half. Gives the terms
/// and the comparisons.
#[inline(always)]
fn merge_on(
    key: impl Fn(u64) -> u64,
    p: u32,
    memory: &mut Memory,
    (in_upper, len): (bool, usize),
    bucket: usize,
) -> (usize, u64) {
    let list = part(&memory.space, memory.head(bucket), memory.len(bucket));
    let (lower, upper) = halves(&mut memory.work);
    let (from, to) = if in_upper {
        (upper, lower)
    } else {
        (lower, upper)
    };
    let counts = best_by(key, p, (&from.0[..len], &from.1[..len]), list, to);
    (counts.len, counts.comparisons)
}

/// Adds f by words that are compared by a key.
#[inline(always)]
pub fn add_by(key: impl Fn(u64) -> u64 + Copy, p: u32, memory: &mut Memory, f: Terms) -> u64 {
    if f.0.is_empty() {
        return 0;
    }
    let mut bucket = first_bucket(f.0.len());
    if memory.len(bucket) == 0 {
        put(f, &mut memory.space, bucket);
        memory.set_len(bucket, f.0.len());
        return 0;
    }
    let list = part(&memory.space, memory.head(bucket), memory.len(bucket));
    let counts = best_by(key, p, f, list, memory.work.places());
    let (mut len, mut comparisons) = (counts.len, counts.comparisons);
    let mut in_upper = false;
    while len > CAPACITIES[bucket] {
        memory.set_len(bucket, 0);
        bucket += 1;
        // An empty bucket costs nothing.
        if memory.len(bucket) > 0 {
            let (merged, more) = merge_on(key, p, memory, (in_upper, len), bucket);
            len = merged;
            comparisons += more;
            in_upper = !in_upper;
        }
    }
    let from = if in_upper { HALF } else { 0 };
    put(part(&memory.work, from, len), &mut memory.space, bucket);
    memory.set_len(bucket, len);
    comparisons
}

/// Puts terms into a bucket's places, from its start on.
#[inline(always)]
fn put(terms: Terms, space: &mut List, bucket: usize) {
    let start = STARTS[bucket];
    copy(
        terms,
        (&mut space.words[start..], &mut space.coefs[start..]),
    );
}

/// Finds the lead by words that are compared by a key.
#[inline(always)]
pub fn lead_by(key: impl Fn(u64) -> u64 + Copy, p: u32, memory: &mut Memory) -> Lead {
    match lead_without_like(key, memory) {
        Some(lead) => lead,
        None => lead_with_like(key, p, memory),
    }
}

/// The lead where no candidate meets a like lead. There is no branch on the terms.
#[inline(always)]
fn lead_without_like(key: impl Fn(u64) -> u64, memory: &Memory) -> Option<Lead> {
    // The key of the candidate and 1, or 0 for none.
    let mut largest = 0;
    let (mut candidate, mut terms, mut like) = (BUCKETS, 0, false);
    for bucket in 0..BUCKETS {
        let present = memory.len(bucket) > 0;
        let place = if present { memory.head(bucket) } else { 0 };
        let key = key(memory.space.words[place]).wrapping_add(1);
        let key = if present { key } else { 0 };
        like |= present & (key == largest);
        candidate = if key > largest { bucket } else { candidate };
        largest = largest.max(key);
        terms += u64::from(present);
    }
    if like {
        return None;
    }
    if candidate == BUCKETS {
        return Some(ZERO);
    }
    let head = memory.head(candidate);
    Some(Lead {
        bucket: candidate,
        word: memory.space.words[head],
        coef: memory.space.coefs[head],
        comparisons: terms - 1,
    })
}

/// The lead as it is published, with a branch for each outcome of a comparison.
#[inline(always)]
fn lead_with_like(key: impl Fn(u64) -> u64, p: u32, memory: &mut Memory) -> Lead {
    let mut comparisons = 0;
    loop {
        let mut candidate = BUCKETS;
        let (mut word, mut coef) = (0, 0);
        for bucket in 0..BUCKETS {
            if memory.len(bucket) == 0 {
                continue;
            }
            let head = memory.head(bucket);
            let (w, c) = (memory.space.words[head], memory.space.coefs[head]);
            if candidate == BUCKETS {
                (candidate, word, coef) = (bucket, w, c);
                continue;
            }
            comparisons += 1;
            if key(w) > key(word) {
                leave(memory, candidate, coef);
                (candidate, word, coef) = (bucket, w, c);
            } else if w == word {
                let sum = coef + c;
                coef = if sum >= p { sum - p } else { sum };
                memory.remove(bucket);
            }
        }
        if candidate < BUCKETS {
            leave(memory, candidate, coef);
        }
        if candidate == BUCKETS || coef != 0 {
            return Lead {
                bucket: candidate,
                word,
                coef,
                comparisons,
            };
        }
    }
}

/// Leaves a candidate in its bucket with its sum, or removes it where that is 0.
#[inline(always)]
fn leave(memory: &mut Memory, candidate: usize, coef: u32) {
    if coef == 0 {
        memory.remove(candidate);
    } else {
        let head = memory.head(candidate);
        memory.space.coefs[head] = coef;
    }
}

/// Puts the full sum, by words that are compared by a key, into the work space, and gives its first place,
/// its terms and the comparisons.
#[inline(always)]
pub fn sum_by(key: impl Fn(u64) -> u64 + Copy, p: u32, memory: &mut Memory) -> (usize, usize, u64) {
    let (mut in_upper, mut len, mut comparisons) = (false, 0, 0);
    for bucket in 0..BUCKETS {
        if memory.len(bucket) > 0 {
            let (merged, more) = merge_on(key, p, memory, (in_upper, len), bucket);
            len = merged;
            comparisons += more;
            in_upper = !in_upper;
            memory.set_len(bucket, 0);
        }
    }
    let from = if in_upper { HALF } else { 0 };
    (from, len, comparisons)
}
