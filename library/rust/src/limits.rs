//! The limits, each once, with the names and numbers of the header.

/// The largest prime.
pub const LARGEST_PRIME: u32 = 2_147_483_647;

/// The most variables.
pub const MOST_VARIABLES: u32 = 6;

/// The weights that a call is lent.
pub const WEIGHTS: usize = 6;

/// The largest weight.
pub const LARGEST_WEIGHT: u32 = 16;

/// Places of the bucket space, for words and for coefficients.
pub const BUCKET_PLACES: usize = 5_460;

/// Places of the work space, for words and for coefficients.
pub const WORK_PLACES: usize = 8_192;

/// The most terms that are held, or written to blocks.
pub const MOST_TERMS: usize = 4_096;

/// Bytes of a block.
pub const BLOCK_BYTES: usize = 512;

/// The most blocks of a polynomial.
pub const MOST_BLOCKS: usize = 100;

/// The most operations of a run.
pub const MOST_OPERATIONS: usize = 16_777_216;

/// The largest step limit of a reduction.
pub const MOST_STEPS: u64 = 8_796_093_022_208;

/// A step limit that is always enough, in up to six variables: 128 to the sixth, the number of monomials. With it,
/// or a larger one up to [`MOST_STEPS`], a reduction is never stopped by [`Refusal::StepLimit`](crate::Refusal).
pub const SUFFICIENT_STEPS: u64 = 4_398_046_511_104;

/// The most bytes of a script.
pub const SCRIPT_BYTES: usize = 16_384;

/// Bytes that a listing must be lent.
pub const LISTING_BYTES: usize = 65_536;
