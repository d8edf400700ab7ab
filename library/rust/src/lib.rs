//! The proved polynomial engine Damselbuckle, as a safe library: runs on a geobucket, reductions, the block
//! store and the listing of a script. What is computed, what it costs and what is refused is proved in the
//! crate `damselbuckle` of Rattle; this crate lends the memory and puts the numbers into types.
//!
//! An arm closes where its closing condition, reduced by its joint equations, leaves the remainder zero:
//!
//! ```
//! use damselbuckle::{Engine, Order, Polynomials, Setting, MOST_TERMS};
//!
//! let mut polynomials = Polynomials::new(Setting::new(32003, Order::DegRevLex, 2)?);
//! polynomials.push(&[(1, [2, 1]), (1, [0, 3]), (32002, [0, 1])])?; // x1²·x2 + x2³ − x2
//! polynomials.push(&[(1, [2, 0]), (1, [0, 2]), (32002, [0, 0])])?; // x1² + x2² − 1
//!
//! let reduction = Engine::new(MOST_TERMS).reduce(&polynomials, 1_000_000)?;
//! assert!(reduction.is_zero());
//! # Ok::<(), damselbuckle::Refused>(())
//! ```
//!
//! Where something else is left, closing is not shown: that the arm does not close follows only where the
//! joint equations are a Gröbner basis. The folder `examples` has arms of both kinds.
//!
//! Enums and answers may get new cases and fields: a `match` needs an arm `_`, and settings and terms are
//! made by `new`.
mod engine;
mod limits;
mod place;
mod polynomials;
pub mod raw;
mod refusal;

pub use engine::{Engine, Operation, Output, Reduction, Run};
pub use limits::*;
pub use polynomials::{Order, Polynomials, Setting, Term};
pub use raw::Tally;
pub use refusal::{Place, Refusal, Refused};

/// The examples of docs/INTEGRATION.md, run as tests.
#[cfg(doctest)]
#[doc = include_str!("../../../docs/INTEGRATION.md")]
struct Integration;

/// The blocks of polynomial k. Where it is not there, the refusal is [`Refusal::BadOperation`].
///
/// ```
/// use damselbuckle::{read_blocks, write_blocks, Order, Polynomials, Setting, BLOCK_BYTES};
///
/// let mut polynomials = Polynomials::new(Setting::new(7, Order::Lex, 3)?);
/// polynomials.push(&[(3, [2, 0, 1]), (6, [0, 5, 0])])?;
/// let blocks = write_blocks(&polynomials, 0)?;
/// assert_eq!(blocks.len(), BLOCK_BYTES);
/// assert_eq!(read_blocks(&blocks)?, polynomials);
/// # Ok::<(), damselbuckle::Refused>(())
/// ```
pub fn write_blocks(polynomials: &Polynomials, k: usize) -> Result<Vec<u8>, Refused> {
    let absent = Refused::at_opening(Refusal::BadOperation);
    let (words, coefs) = polynomials.words_of(k).ok_or(absent)?;
    let mut bytes = vec![0; MOST_BLOCKS * BLOCK_BYTES];
    let setting = polynomials.setting();
    let answer = raw::write_blocks(setting.numbers(), words, coefs, &mut bytes);
    Refused::unless_0(answer.refusal, answer.finished, 0)
        .map_err(|refused| refused.at(place::of_one(polynomials, k, refused.refusal)))?;
    bytes.truncate(answer.blocks as usize * BLOCK_BYTES);
    Ok(bytes)
}

/// The one polynomial that the bytes hold, with its setting: all of them must be its blocks, as writing
/// makes them. A refusal names no place, for the polynomial is not read.
pub fn read_blocks(bytes: &[u8]) -> Result<Polynomials, Refused> {
    let mut words = vec![0; MOST_TERMS];
    let mut coefs = vec![0; MOST_TERMS];
    let answer = raw::read_blocks(bytes, &mut words, &mut coefs);
    Refused::unless_0(answer.refusal, answer.finished, 0)?;
    words.truncate(answer.terms as usize);
    coefs.truncate(answer.terms as usize);
    let order = Order::from_number(answer.order).expect("a polynomial that is read has an order");
    let setting = Setting::accepted(answer.p as u32, order, answer.n as u32, answer.weights);
    let mut polynomials = Polynomials::new(setting);
    polynomials.push_words(&words, &coefs);
    Ok(polynomials)
}

/// The listing of a script, any bytes. A script that is refused has a listing too: `refused R at K`.
///
/// ```
/// use damselbuckle::listing;
///
/// let script = "prime 7\norder dp\nvars 2\nadd 3:2.0 1:1.1\nadd 4:2.0\nlead\n";
/// assert_eq!(listing(script.as_bytes()), "lead 1:1.1\ncost 1 of 18\n");
/// assert_eq!(listing(b"prime seven\n"), "refused 17 at 0\n");
/// ```
pub fn listing(script: &[u8]) -> String {
    let mut out = vec![0; LISTING_BYTES];
    let answer = raw::listing(script, &mut out);
    assert_eq!(answer.refusal, 0, "so many bytes are enough");
    out.truncate(answer.length as usize);
    String::from_utf8(out).expect("a listing is ASCII")
}
