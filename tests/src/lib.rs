//! A second program for what the proved crates compute. `monomial`, `residue`, `polynomial`,
//! `checking`, `geobucket`, `call`, `course`, `run`, `reduction`, `block_store`, `first_kind` and
//! `script` are plain models, which share no code with the proved crates; `library` calls the proved
//! entries, `probe` and `probe_buckets` the proved functions below them; the other modules make what
//! they are given.
#![allow(clippy::manual_is_multiple_of)] // the method is missing in older compilers

pub mod block_store;
pub mod c_functions;
pub mod call;
pub mod checking;
pub mod course;
pub mod damage;
pub mod first_kind;
pub mod generate;
pub mod geobucket;
pub mod lender;
pub mod library;
pub mod limits;
pub mod monomial;
pub mod operations;
pub mod polynomial;
pub mod polynomial_damage;
pub mod pools;
pub mod probe;
pub mod probe_buckets;
pub mod random;
pub mod reduction;
pub mod reduction_damage;
pub mod reduction_lists;
pub mod refusals;
pub mod repository;
pub mod residue;
pub mod run;
pub mod run_damage;
pub mod run_lists;
pub mod script;

/// How many cases a group of generated tests has: the variable SECOND_CASES, or 50,000.
pub fn cases() -> u64 {
    match std::env::var("SECOND_CASES") {
        Ok(text) => text.parse().expect("SECOND_CASES is a number"),
        Err(_) => 50_000,
    }
}
