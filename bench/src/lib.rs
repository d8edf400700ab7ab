//! Merges, geobuckets, runs, reductions, the block store, the opening check and the test of primes for the
//! benchmark: the proved ones through the static libraries `probe` and `damselbuckle`, and others in plain
//! Rust. `lists` makes what they merge; `buckets` times geobuckets, `runs` and `reductions` whole calls,
//! `singular` reductions beside Singular, `workload` calls from a file, `beside` the same beside another
//! engine, `blocks` the block store, `checks` the opening check, and `primes` the test of primes; `bound`
//! sets comparisons beside their bound, and `picture` draws them.
#![allow(clippy::manual_is_multiple_of)] // the method is missing in older compilers

pub mod beside;
pub mod blocks;
pub mod bound;
pub mod buckets;
#[path = "../../tests/src/c_functions.rs"]
pub mod c_functions;
pub mod checks;
pub mod geobucket;
pub mod given;
pub mod library;
pub mod lists;
pub mod loan;
pub mod merge;
#[path = "../../tests/src/monomial.rs"]
pub mod monomial;
pub mod picture;
pub mod plain_blocks;
pub mod plain_opening;
pub mod plain_reduction;
pub mod plain_run;
pub mod primes;
pub mod proved;
pub mod proved_buckets;
#[path = "../../tests/src/random.rs"]
pub mod random;
pub mod reductions;
pub mod results;
pub mod runs;
pub mod singular;
pub mod workload;
