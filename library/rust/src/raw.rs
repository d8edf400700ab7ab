//! The C functions as they are, and each of them on slices. They take any numbers and any slices, and
//! answer with numbers; [`Engine`](crate::Engine) and the functions beside it are the same in types that say more.
//! `library/damselbuckle.h` has what each parameter and each number means; this module changes with it.
use crate::WEIGHTS;

/// The counts that a run or a reduction sets.
#[repr(C)]
#[derive(Clone, Copy, Debug, Default, PartialEq, Eq)]
#[non_exhaustive]
pub struct Tally {
    /// Comparisons of monomials.
    pub comparisons: u64,
    /// Terms brought in.
    pub brought: u64,
    /// Terms given out; in a reduction those of the remainder.
    pub given: u64,
    /// Terms still held in the buckets.
    pub held: u64,
}

/// What a run answers.
#[repr(C)]
#[derive(Clone, Copy, Debug, Default, PartialEq, Eq)]
pub struct RunAnswer {
    /// 0 for none.
    pub refusal: u64,
    /// Operations done; where refused, before it.
    pub finished: u64,
    /// Output places written; where refused, before it.
    pub places: u64,
}

/// What a reduction answers.
#[repr(C)]
#[derive(Clone, Copy, Debug, Default, PartialEq, Eq)]
pub struct ReductionAnswer {
    /// 0 for none.
    pub refusal: u64,
    /// Leads removed; where refused, before it.
    pub leads: u64,
    /// Terms of the remainder that are in the output; where refused, before it.
    pub terms: u64,
}

/// What writing blocks answers.
#[repr(C)]
#[derive(Clone, Copy, Debug, Default, PartialEq, Eq)]
pub struct WriteAnswer {
    /// 0 for none.
    pub refusal: u64,
    /// Always 0.
    pub finished: u64,
    /// Blocks written; 0 where refused.
    pub blocks: u64,
}

/// What reading blocks answers. Where it is refused, all but the refusal is 0.
#[repr(C)]
#[derive(Clone, Copy, Debug, Default, PartialEq, Eq)]
pub struct ReadAnswer {
    /// 0 for none.
    pub refusal: u64,
    /// Always 0.
    pub finished: u64,
    /// The prime.
    pub p: u64,
    /// The order's number.
    pub order: u64,
    /// The number of variables.
    pub n: u64,
    /// The weights less 1, of x1 in the lowest four bits, of x2 in the next four, and so on.
    pub weights: u64,
    /// Terms read.
    pub terms: u64,
}

/// What a listing answers.
#[repr(C)]
#[derive(Clone, Copy, Debug, Default, PartialEq, Eq)]
pub struct ListingAnswer {
    /// 0 for none.
    pub refusal: u64,
    /// Always 0.
    pub finished: u64,
    /// Bytes of the listing; 0 where refused.
    pub length: u64,
}

extern "C" {
    pub fn damselbuckle_run(
        tally: *mut Tally,
        p: u32,
        order: u32,
        n: u32,
        weights: *const u32,
        weights_len: usize,
        words: *const u64,
        words_len: usize,
        coefs: *const u32,
        coefs_len: usize,
        starts: *const usize,
        starts_len: usize,
        ops: *const usize,
        ops_len: usize,
        bw: *mut u64,
        bw_len: usize,
        bc: *mut u32,
        bc_len: usize,
        ww: *mut u64,
        ww_len: usize,
        wc: *mut u32,
        wc_len: usize,
        ow: *mut u64,
        ow_len: usize,
        oc: *mut u32,
        oc_len: usize,
    ) -> RunAnswer;
    pub fn damselbuckle_reduce(
        tally: *mut Tally,
        p: u32,
        order: u32,
        n: u32,
        weights: *const u32,
        weights_len: usize,
        words: *const u64,
        words_len: usize,
        coefs: *const u32,
        coefs_len: usize,
        starts: *const usize,
        starts_len: usize,
        limit: u64,
        bw: *mut u64,
        bw_len: usize,
        bc: *mut u32,
        bc_len: usize,
        ww: *mut u64,
        ww_len: usize,
        wc: *mut u32,
        wc_len: usize,
        ow: *mut u64,
        ow_len: usize,
        oc: *mut u32,
        oc_len: usize,
    ) -> ReductionAnswer;
    pub fn damselbuckle_write_blocks(
        p: u32,
        order: u32,
        n: u32,
        weights: *const u32,
        weights_len: usize,
        words: *const u64,
        words_len: usize,
        coefs: *const u32,
        coefs_len: usize,
        bytes: *mut u8,
        bytes_len: usize,
    ) -> WriteAnswer;
    pub fn damselbuckle_read_blocks(
        bytes: *const u8,
        bytes_len: usize,
        words: *mut u64,
        words_len: usize,
        coefs: *mut u32,
        coefs_len: usize,
    ) -> ReadAnswer;
    pub fn damselbuckle_listing(
        script: *const u8,
        script_len: usize,
        out: *mut u8,
        out_len: usize,
    ) -> ListingAnswer;
}

/// A prime, an order, a number of variables and the weights, x1's first, as the functions take them: any
/// numbers.
#[derive(Clone, Copy, Debug, PartialEq, Eq)]
#[non_exhaustive]
pub struct Numbers<'a> {
    pub p: u32,
    pub order: u32,
    pub n: u32,
    pub weights: &'a [u32],
}

impl<'a> Numbers<'a> {
    /// All weights are 1.
    pub fn new(p: u32, order: u32, n: u32) -> Self {
        Numbers {
            p,
            order,
            n,
            weights: ONES,
        }
    }

    /// The same with these weights.
    pub fn weighted(self, weights: &'a [u32]) -> Self {
        Numbers { weights, ..self }
    }
}

/// The weights of a call, each 1.
pub const ONES: &[u32] = &[1; WEIGHTS];

/// Polynomials with their numbers, as a run or a reduction is given them.
#[derive(Clone, Copy, Debug)]
#[non_exhaustive]
pub struct Given<'a> {
    pub numbers: Numbers<'a>,
    pub words: &'a [u64],
    pub coefs: &'a [u32],
    pub starts: &'a [usize],
}

impl<'a> Given<'a> {
    pub fn new(
        numbers: Numbers<'a>,
        words: &'a [u64],
        coefs: &'a [u32],
        starts: &'a [usize],
    ) -> Self {
        Given {
            numbers,
            words,
            coefs,
            starts,
        }
    }
}

/// Lent places: words and coefficients.
pub type Places<'a> = (&'a mut [u64], &'a mut [u32]);

/// What a run or a reduction is lent and sets.
#[derive(Debug)]
#[non_exhaustive]
pub struct Loan<'a> {
    pub tally: &'a mut Tally,
    pub buckets: Places<'a>,
    pub work: Places<'a>,
    pub output: Places<'a>,
}

impl<'a> Loan<'a> {
    pub fn new(
        tally: &'a mut Tally,
        buckets: Places<'a>,
        work: Places<'a>,
        output: Places<'a>,
    ) -> Self {
        Loan {
            tally,
            buckets,
            work,
            output,
        }
    }
}

// SAFETY of each call below: the function asks nothing of numbers or slices, stays within the length of
// each slice and keeps no reference (all of this is proved); no two slices that it writes overlap, since
// they are lent as `&mut`.

/// Does a run of operations: pairs of numbers.
pub fn run(given: Given, ops: &[usize], loan: Loan) -> RunAnswer {
    let (bw, bc) = loan.buckets;
    let (ww, wc) = loan.work;
    let (ow, oc) = loan.output;
    unsafe {
        damselbuckle_run(
            loan.tally,
            given.numbers.p,
            given.numbers.order,
            given.numbers.n,
            given.numbers.weights.as_ptr(),
            given.numbers.weights.len(),
            given.words.as_ptr(),
            given.words.len(),
            given.coefs.as_ptr(),
            given.coefs.len(),
            given.starts.as_ptr(),
            given.starts.len(),
            ops.as_ptr(),
            ops.len(),
            bw.as_mut_ptr(),
            bw.len(),
            bc.as_mut_ptr(),
            bc.len(),
            ww.as_mut_ptr(),
            ww.len(),
            wc.as_mut_ptr(),
            wc.len(),
            ow.as_mut_ptr(),
            ow.len(),
            oc.as_mut_ptr(),
            oc.len(),
        )
    }
}

/// Reduces polynomial 0 by the others.
pub fn reduce(given: Given, limit: u64, loan: Loan) -> ReductionAnswer {
    let (bw, bc) = loan.buckets;
    let (ww, wc) = loan.work;
    let (ow, oc) = loan.output;
    unsafe {
        damselbuckle_reduce(
            loan.tally,
            given.numbers.p,
            given.numbers.order,
            given.numbers.n,
            given.numbers.weights.as_ptr(),
            given.numbers.weights.len(),
            given.words.as_ptr(),
            given.words.len(),
            given.coefs.as_ptr(),
            given.coefs.len(),
            given.starts.as_ptr(),
            given.starts.len(),
            limit,
            bw.as_mut_ptr(),
            bw.len(),
            bc.as_mut_ptr(),
            bc.len(),
            ww.as_mut_ptr(),
            ww.len(),
            wc.as_mut_ptr(),
            wc.len(),
            ow.as_mut_ptr(),
            ow.len(),
            oc.as_mut_ptr(),
            oc.len(),
        )
    }
}

/// Writes a polynomial, with its prime, order, number of variables and weights, to blocks.
pub fn write_blocks(
    numbers: Numbers,
    words: &[u64],
    coefs: &[u32],
    bytes: &mut [u8],
) -> WriteAnswer {
    unsafe {
        damselbuckle_write_blocks(
            numbers.p,
            numbers.order,
            numbers.n,
            numbers.weights.as_ptr(),
            numbers.weights.len(),
            words.as_ptr(),
            words.len(),
            coefs.as_ptr(),
            coefs.len(),
            bytes.as_mut_ptr(),
            bytes.len(),
        )
    }
}

/// Reads a polynomial from blocks.
pub fn read_blocks(bytes: &[u8], words: &mut [u64], coefs: &mut [u32]) -> ReadAnswer {
    unsafe {
        damselbuckle_read_blocks(
            bytes.as_ptr(),
            bytes.len(),
            words.as_mut_ptr(),
            words.len(),
            coefs.as_mut_ptr(),
            coefs.len(),
        )
    }
}

/// Writes the listing of a script.
pub fn listing(script: &[u8], out: &mut [u8]) -> ListingAnswer {
    unsafe { damselbuckle_listing(script.as_ptr(), script.len(), out.as_mut_ptr(), out.len()) }
}
