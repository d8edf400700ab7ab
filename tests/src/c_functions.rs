//! The C functions of the static library `probe` that the tests and the benchmark share. A slice is a
//! pointer and a length.

/// Where a merge lies: its first place and its terms; and the comparisons.
#[repr(C)]
#[derive(Clone, Copy, Debug, Default, PartialEq, Eq)]
pub struct Places {
    pub head: usize,
    pub len: usize,
    pub comparisons: u64,
}

/// What the opening check carries from one piece of a polynomial to the next: the first 4 or 5, 0 for
/// none; 6 where a word did not fall, else 0; whether a term was looked at; and the last word.
#[repr(C)]
#[derive(Clone, Copy, Debug, Default, PartialEq, Eq)]
pub struct Checking {
    pub stop: u32,
    pub late: u32,
    pub seen: bool,
    pub last: u64,
}

extern "C" {
    fn probe_is_prime(p: u32) -> bool;
    fn probe_check(
        order: u32,
        n: u32,
        weights: *const u32,
        weights_len: usize,
        p: u32,
        words: *const u64,
        words_len: usize,
        coefs: *const u32,
        coefs_len: usize,
    ) -> u32;
    fn probe_check_on(
        order: u32,
        n: u32,
        weights: *const u32,
        weights_len: usize,
        p: u32,
        words: *const u64,
        words_len: usize,
        coefs: *const u32,
        coefs_len: usize,
        stop: u32,
        late: u32,
        seen: bool,
        last: u64,
    ) -> Checking;
    pub fn probe_merge_areas(
        p: u32,
        ww: *mut u64,
        ww_len: usize,
        wc: *mut u32,
        wc_len: usize,
        a: usize,
        n: usize,
        b: usize,
        m: usize,
        to: usize,
    ) -> Places;
    pub fn probe_buckets_empty(state: *mut usize, state_len: usize);
    pub fn probe_buckets_add(
        order: u32,
        p: u32,
        state: *mut usize,
        state_len: usize,
        fw: *const u64,
        fw_len: usize,
        fc: *const u32,
        fc_len: usize,
        sw: *mut u64,
        sw_len: usize,
        sc: *mut u32,
        sc_len: usize,
        ww: *mut u64,
        ww_len: usize,
        wc: *mut u32,
        wc_len: usize,
    ) -> u64;
    pub fn probe_buckets_lead(
        order: u32,
        p: u32,
        state: *mut usize,
        state_len: usize,
        sw: *const u64,
        sw_len: usize,
        sc: *mut u32,
        sc_len: usize,
        ww: *const u64,
        ww_len: usize,
        wc: *mut u32,
        wc_len: usize,
        lead: *mut u64,
        lead_len: usize,
    ) -> u64;
    pub fn probe_buckets_take(state: *mut usize, state_len: usize, bucket: usize);
    pub fn probe_buckets_sum(
        p: u32,
        state: *mut usize,
        state_len: usize,
        sw: *mut u64,
        sw_len: usize,
        sc: *mut u32,
        sc_len: usize,
        ww: *mut u64,
        ww_len: usize,
        wc: *mut u32,
        wc_len: usize,
        at: *mut usize,
        at_len: usize,
    ) -> u64;
    pub fn probe_buckets_settle(
        order: u32,
        state: *const usize,
        state_len: usize,
        sw: *mut u64,
        sw_len: usize,
        sc: *mut u32,
        sc_len: usize,
        ww: *mut u64,
        ww_len: usize,
        wc: *mut u32,
        wc_len: usize,
    );
}

/// Whether p is prime.
#[inline(always)]
pub fn is_prime(p: u32) -> bool {
    // SAFETY: it takes any number.
    unsafe { probe_is_prime(p) }
}

/// Order, number of variables, weights and modulus.
pub type Numbers<'a> = (u32, u32, &'a [u32], u32);

/// The refusal of a polynomial, 0 for none.
#[inline(always)]
pub fn check((order, n, weights, p): Numbers, (words, coefs): (&[u64], &[u32])) -> u32 {
    let (v, v_len) = (weights.as_ptr(), weights.len());
    let ((w, w_len), (c, c_len)) = lent(words, coefs);
    // SAFETY: it takes any numbers, stays within the slices and keeps no reference.
    unsafe { probe_check(order, n, v, v_len, p, w, w_len, c, c_len) }
}

/// Carries the check of a polynomial on over a further piece of it.
#[inline(always)]
pub fn check_on(
    (order, n, weights, p): Numbers,
    (words, coefs): (&[u64], &[u32]),
    from: Checking,
) -> Checking {
    let (v, v_len) = (weights.as_ptr(), weights.len());
    let ((w, w_len), (c, c_len)) = lent(words, coefs);
    let Checking {
        stop,
        late,
        seen,
        last,
    } = from;
    // SAFETY: as above.
    unsafe {
        probe_check_on(
            order, n, v, v_len, p, w, w_len, c, c_len, stop, late, seen, last,
        )
    }
}

/// Two slices as C takes them.
fn lent(words: &[u64], coefs: &[u32]) -> ((*const u64, usize), (*const u32, usize)) {
    ((words.as_ptr(), words.len()), (coefs.as_ptr(), coefs.len()))
}
