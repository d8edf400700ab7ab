//! The proved geobucket, through the static library `probe`.
use crate::c_functions::{
    probe_buckets_add, probe_buckets_empty, probe_buckets_lead, probe_buckets_settle,
    probe_buckets_sum, probe_buckets_take,
};
use crate::geobucket::{Geobucket, Lead, Memory};
use crate::lists::{List, Order, Terms};
use damselbuckle::MOST_TERMS;

pub struct Proved;

// SAFETY of each call below: the memory is one that these functions left, or an emptied one, with
// spaces of the right size, as `Memory` makes them; the function stays within the slices and keeps
// no reference.
impl Geobucket for Proved {
    fn empty(memory: &mut Memory) {
        unsafe { probe_buckets_empty(memory.state.as_mut_ptr(), memory.state.len()) }
    }

    /// f is falling, with coefficients from 1 to p - 1, as `lists` makes it.
    fn add(order: Order, p: u32, memory: &mut Memory, (fw, fc): Terms) -> u64 {
        assert!(fw.len() == fc.len() && memory.held() + fw.len() <= MOST_TERMS);
        unsafe {
            probe_buckets_add(
                order.number(),
                p,
                memory.state.as_mut_ptr(),
                memory.state.len(),
                fw.as_ptr(),
                fw.len(),
                fc.as_ptr(),
                fc.len(),
                memory.space.words.as_mut_ptr(),
                memory.space.words.len(),
                memory.space.coefs.as_mut_ptr(),
                memory.space.coefs.len(),
                memory.work.words.as_mut_ptr(),
                memory.work.words.len(),
                memory.work.coefs.as_mut_ptr(),
                memory.work.coefs.len(),
            )
        }
    }

    fn lead(order: Order, p: u32, memory: &mut Memory) -> Lead {
        let mut lead = [0; 3];
        let comparisons = unsafe {
            probe_buckets_lead(
                order.number(),
                p,
                memory.state.as_mut_ptr(),
                memory.state.len(),
                memory.space.words.as_ptr(),
                memory.space.words.len(),
                memory.space.coefs.as_mut_ptr(),
                memory.space.coefs.len(),
                memory.work.words.as_ptr(),
                memory.work.words.len(),
                memory.work.coefs.as_mut_ptr(),
                memory.work.coefs.len(),
                lead.as_mut_ptr(),
                lead.len(),
            )
        };
        let [bucket, word, coef] = lead;
        Lead {
            bucket: bucket as usize,
            word,
            coef: coef as u32,
            comparisons,
        }
    }

    fn take(memory: &mut Memory, bucket: usize) {
        assert!(memory.len(bucket) > 0);
        unsafe { probe_buckets_take(memory.state.as_mut_ptr(), memory.state.len(), bucket) }
    }

    /// In the bucket space, where it lies, keys stand for words.
    fn sum(order: Order, p: u32, memory: &mut Memory) -> (List, u64) {
        let mut at = [0; 2];
        let comparisons = unsafe {
            probe_buckets_sum(
                p,
                memory.state.as_mut_ptr(),
                memory.state.len(),
                memory.space.words.as_mut_ptr(),
                memory.space.words.len(),
                memory.space.coefs.as_mut_ptr(),
                memory.space.coefs.len(),
                memory.work.words.as_mut_ptr(),
                memory.work.words.len(),
                memory.work.coefs.as_mut_ptr(),
                memory.work.coefs.len(),
                at.as_mut_ptr(),
                at.len(),
            )
        };
        let places = at[0]..at[0] + at[1];
        let keys = memory.space.words[places.clone()].iter();
        let sum = List {
            words: keys.map(|&key| order.word_of_key(key)).collect(),
            coefs: memory.space.coefs[places].to_vec(),
        };
        (sum, comparisons)
    }

    fn settle(order: Order, memory: &mut Memory) {
        unsafe {
            probe_buckets_settle(
                order.number(),
                memory.state.as_ptr(),
                memory.state.len(),
                memory.space.words.as_mut_ptr(),
                memory.space.words.len(),
                memory.space.coefs.as_mut_ptr(),
                memory.space.coefs.len(),
                memory.work.words.as_mut_ptr(),
                memory.work.words.len(),
                memory.work.coefs.as_mut_ptr(),
                memory.work.coefs.len(),
            )
        }
    }
}
