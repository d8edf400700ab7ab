//! The limits of documents 01 and 02, each once. They are the second program's own: it does not take
//! them from the library.

/// "p may go up to 2,147,483,647."
pub const LARGEST_PRIME: u32 = 2_147_483_647;

/// "n from 1 to 6"
pub const MOST_VARIABLES: usize = 6;

/// "Each variable gets a weight from 1 to 16"
pub const LARGEST_WEIGHT: u32 = 16;

/// "The bucket space has 5,460 places for words and for coefficients"
pub const BUCKET_PLACES: usize = 5_460;

/// "The work space, 8,192 places for each"
pub const WORK_PLACES: usize = 8_192;

/// "11: terms held + terms to add > 4,096", and the most terms that blocks hold.
pub const MOST_TERMS: usize = 4_096;

/// "operations not whole pairs or over 16,777,216 of them"
pub const MOST_OPERATIONS: usize = 16_777_216;

/// "a step limit over 8,796,093,022,208"
pub const MOST_STEPS: u64 = 8_796_093_022_208;

/// "13 is never given with an allowed step limit of 4,398,046,511,104 (128 to the sixth) or more"
pub const SUFFICIENT_STEPS: u64 = 4_398_046_511_104;

/// "A block is 512 bytes", with "41 places", and there are at most "100 blocks".
pub const BLOCK_BYTES: usize = 512;
pub const BLOCK_TERMS: usize = 41;
pub const MOST_BLOCKS: usize = 100;

/// "At most 16,384 bytes" of a script.
pub const SCRIPT_BYTES: usize = 16_384;

/// Bytes that a listing's call asks for.
pub const LISTING_BYTES: usize = 65_536;
