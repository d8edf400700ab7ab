//! A four-bar linkage: a crank of length 2 turns at the post, a rocker of length 5 swings at a second pivot,
//! 7 beside the post, and a coupler of length 6 joins their ends.
//!
//! ```text
//!          coupler, 6
//!       A ------------- B
//!      /               /
//!     / crank, 2      / rocker, 5
//!    /               /
//!  post ---------- pivot
//!           7
//! ```
//!
//! Each moving bar has an angle, and the cosine c and the sine s of an angle are two variables with
//! c² + s² − 1 = 0: c1 and s1 for the crank, c2 and s2 for the coupler, c3 and s3 for the rocker. Both ways
//! from the post to B end at the same point, which makes the two equations of the loop:
//!
//! ```text
//! 2·c1 + 6·c2 = 7 + 5·c3
//! 2·s1 + 6·s2 = 5·s3
//! ```
//!
//! The coupler fits where A and B are 6 apart: (7 + 5·c3 − 2·c1)² + (5·s3 − 2·s1)² − 36 = 0. That is the
//! closing condition.
mod shown;

use damselbuckle::{Order, Polynomials, Refused, Setting};
use shown::{push, reduce, Terms};

const NAMES: [&str; 6] = ["c3", "s3", "c1", "s1", "c2", "s2"];

const ONE: [u8; 6] = [0; 6];

const LOOP_X: Terms<6> = &[
    (5, [1, 0, 0, 0, 0, 0]),
    (-2, [0, 0, 1, 0, 0, 0]),
    (-6, [0, 0, 0, 0, 1, 0]),
    (7, ONE),
];
const LOOP_Y: Terms<6> = &[
    (5, [0, 1, 0, 0, 0, 0]),
    (-2, [0, 0, 0, 1, 0, 0]),
    (-6, [0, 0, 0, 0, 0, 1]),
];
const ROCKER: Terms<6> = &[(1, [2, 0, 0, 0, 0, 0]), (1, [0, 2, 0, 0, 0, 0]), (-1, ONE)];
const CRANK: Terms<6> = &[(1, [0, 0, 2, 0, 0, 0]), (1, [0, 0, 0, 2, 0, 0]), (-1, ONE)];
const COUPLER: Terms<6> = &[(1, [0, 0, 0, 0, 2, 0]), (1, [0, 0, 0, 0, 0, 2]), (-1, ONE)];

/// The closing condition for a coupler of this length, multiplied out.
fn closing(coupler: i64) -> [(i64, [u8; 6]); 9] {
    [
        (25, [2, 0, 0, 0, 0, 0]),
        (25, [0, 2, 0, 0, 0, 0]),
        (-20, [1, 0, 1, 0, 0, 0]),
        (4, [0, 0, 2, 0, 0, 0]),
        (-20, [0, 1, 0, 1, 0, 0]),
        (4, [0, 0, 0, 2, 0, 0]),
        (70, [1, 0, 0, 0, 0, 0]),
        (-28, [0, 0, 1, 0, 0, 0]),
        (49 - coupler * coupler, ONE),
    ]
}

fn linkage(what: &str, coupler: i64, joints: &[Terms<6>]) -> Result<(), Refused> {
    let setting = Setting::new(32003, Order::DegRevLex, 6)?;
    let mut arm = Polynomials::new(setting);
    push(&mut arm, &closing(coupler))?;
    for joint in joints {
        push(&mut arm, joint)?;
    }
    println!("{what}:");
    println!("  {}", reduce(&arm, &NAMES)?);
    Ok(())
}

fn main() -> Result<(), Refused> {
    let joints = [LOOP_X, LOOP_Y, CRANK, COUPLER, ROCKER];
    linkage("a coupler of 6", 6, &joints)?;
    // The equations of the loop hold A and B 6 apart, and a bar of 5 does not reach.
    linkage("a coupler of 5 in its place", 5, &joints)?;
    // The same linkage and the same equations. Of a remainder that is not zero nothing follows: the
    // equations are no Gröbner basis, and what is left depends on their order.
    let rocker_first = [ROCKER, LOOP_X, LOOP_Y, CRANK, COUPLER];
    linkage(
        "a coupler of 6, the rocker's equation first",
        6,
        &rocker_first,
    )
}
