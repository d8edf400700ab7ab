//! The merge in plain Rust, with the order taken out of the loop.
use crate::c_functions::Places as Merged;
use crate::lists::{List, Places, Terms};

/// Two lists in a buffer, with keys for words, n terms at place a and m at b, and past them the place of
/// their merge, with room for all their terms.
#[derive(Clone, Copy)]
pub struct Areas {
    pub a: usize,
    pub n: usize,
    pub b: usize,
    pub m: usize,
    pub to: usize,
}

/// A merge of two lists of a buffer.
pub type Merge = fn(u32, &mut List, Areas) -> Merged;

/// What a merge made in the first places of its output: the terms, and the comparisons.
pub struct Counts {
    pub len: usize,
    pub comparisons: u64,
}

impl Areas {
    /// The two lists, and the places of their merge.
    #[inline(always)]
    fn of(self, buffer: &mut List) -> (Terms<'_>, Terms<'_>, Places<'_>) {
        let (words, ow) = buffer.words.split_at_mut(self.to);
        let (coefs, oc) = buffer.coefs.split_at_mut(self.to);
        let (a, b) = (self.a..self.a + self.n, self.b..self.b + self.m);
        let (words, coefs) = (&*words, &*coefs);
        (
            (&words[a.clone()], &coefs[a]),
            (&words[b.clone()], &coefs[b]),
            (ow, oc),
        )
    }

    /// The merge as it lies in the buffer.
    #[inline(always)]
    fn merged(self, Counts { len, comparisons }: Counts) -> Merged {
        Merged {
            head: self.to,
            len,
            comparisons,
        }
    }
}

/// With a branch for each outcome of a comparison.
pub fn branching(p: u32, buffer: &mut List, areas: Areas) -> Merged {
    let (a, b, out) = areas.of(buffer);
    areas.merged(branching_by(|key| key, p, a, b, out))
}

#[inline(always)]
fn branching_by(key: impl Fn(u64) -> u64, p: u32, a: Terms, b: Terms, out: Places) -> Counts {
    let (aw, ac) = (a.0, &a.1[..a.0.len()]);
    let (bw, bc) = (b.0, &b.1[..b.0.len()]);
    let (ow, oc) = out;
    let (mut i, mut j, mut k) = (0, 0, 0);
    let mut comparisons = 0;
    while i < aw.len() && j < bw.len() {
        let (x, y) = (aw[i], bw[j]);
        comparisons += 1;
        if key(x) > key(y) {
            ow[k] = x;
            oc[k] = ac[i];
            i += 1;
            k += 1;
        } else if x != y {
            ow[k] = y;
            oc[k] = bc[j];
            j += 1;
            k += 1;
        } else {
            let sum = ac[i] + bc[j];
            let sum = if sum >= p { sum - p } else { sum };
            if sum != 0 {
                ow[k] = x;
                oc[k] = sum;
                k += 1;
            }
            i += 1;
            j += 1;
        }
    }
    let len = rest((aw, ac), i, (bw, bc), j, (ow, oc), k);
    Counts { len, comparisons }
}

/// Without branches in the loop: each outcome is a mask.
pub fn masks(p: u32, buffer: &mut List, areas: Areas) -> Merged {
    let (a, b, out) = areas.of(buffer);
    areas.merged(masks_by(|key| key, p, a, b, out))
}

#[inline(always)]
fn masks_by(key: impl Fn(u64) -> u64, p: u32, a: Terms, b: Terms, out: Places) -> Counts {
    let (aw, ac) = (a.0, &a.1[..a.0.len()]);
    let (bw, bc) = (b.0, &b.1[..b.0.len()]);
    let room = aw.len() + bw.len();
    let (ow, oc) = (&mut out.0[..room], &mut out.1[..room]);
    let (mut i, mut j, mut k) = (0, 0, 0);
    let mut comparisons = 0;
    while i < aw.len() && j < bw.len() {
        let (x, y) = (aw[i], bw[j]);
        let from_a = usize::from(key(x) >= key(y));
        let from_b = usize::from(key(x) <= key(y));
        let mask = (from_a as u64).wrapping_neg();
        let a_mask = (from_a as u32).wrapping_neg();
        let b_mask = (from_b as u32).wrapping_neg();
        let sum = (ac[i] & a_mask) + (bc[j] & b_mask);
        let less = sum.wrapping_sub(p);
        let sum = if sum >= p { less } else { sum };
        // SAFETY: k is at most i + j, and both lists have more terms, so that it is below their sum.
        unsafe {
            *ow.get_unchecked_mut(k) = y ^ ((x ^ y) & mask);
            *oc.get_unchecked_mut(k) = sum;
        }
        i += from_a;
        j += from_b;
        k += usize::from(sum != 0);
        comparisons += 1;
    }
    let len = rest((aw, ac), i, (bw, bc), j, (ow, oc), k);
    Counts { len, comparisons }
}

/// A list is much longer than another where it has over so many times as many terms.
const MUCH_LONGER: usize = 4;

/// With branches where one list is much longer, since they are foreseen then, and else without.
#[inline(always)]
pub fn best_by(key: impl Fn(u64) -> u64, p: u32, a: Terms, b: Terms, out: Places) -> Counts {
    let (short, long) = (a.0.len().min(b.0.len()), a.0.len().max(b.0.len()));
    if long / MUCH_LONGER > short {
        branching_by(key, p, a, b, out)
    } else {
        masks_by(key, p, a, b, out)
    }
}

/// Copies what is left of the one list that has terms, and gives the length of the result.
fn rest(a: Terms, i: usize, b: Terms, j: usize, out: Places, k: usize) -> usize {
    let (list, at) = if i < a.0.len() { (a, i) } else { (b, j) };
    let (words, coefs) = (&list.0[at..], &list.1[at..]);
    let len = k + words.len();
    out.0[k..len].copy_from_slice(words);
    out.1[k..len].copy_from_slice(coefs);
    len
}
