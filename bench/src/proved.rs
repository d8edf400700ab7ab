//! The proved merge, through the static library `probe`.
use crate::c_functions::{probe_merge_areas, Places as Merged};
use crate::lists::List;
use crate::merge::Areas;

/// The lists are falling, with coefficients from 1 to p - 1, as `lists` makes them.
pub fn merge(p: u32, buffer: &mut List, areas: Areas) -> Merged {
    let Areas { a, n, b, m, to } = areas;
    let (words, coefs) = buffer.places();
    assert!(words.len() == coefs.len() && to + n + m <= words.len());
    assert!(n > 0 && m > 0 && a + n <= to && b + m <= to);
    // SAFETY: what probe_merge_areas asks holds; it stays within the slices and keeps no reference.
    unsafe {
        probe_merge_areas(
            p,
            words.as_mut_ptr(),
            words.len(),
            coefs.as_mut_ptr(),
            coefs.len(),
            a,
            n,
            b,
            m,
            to,
        )
    }
}
