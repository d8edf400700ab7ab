//! What the proved calls and those in plain Rust answer, for comparing them.

/// What a run gives: refusal 0 is none; `finished` is the operations done, and `places` the output places
/// written, before a refusal where there is one; and the tally.
#[derive(Clone, Copy, Debug, Default, PartialEq, Eq)]
pub struct RunResult {
    pub refusal: u64,
    pub finished: u64,
    pub places: u64,
    pub comparisons: u64,
    pub brought: u64,
    pub given: u64,
    pub held: u64,
}

/// What a reduction gives: refusal 0 is none; `leads` is the leads removed, and `terms` those of the
/// remainder, before a refusal where there is one; and the tally.
#[derive(Clone, Copy, Debug, Default, PartialEq, Eq)]
pub struct ReductionResult {
    pub refusal: u64,
    pub leads: u64,
    pub terms: u64,
    pub comparisons: u64,
    pub brought: u64,
    pub given: u64,
    pub held: u64,
}
