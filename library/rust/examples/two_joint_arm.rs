//! A planar arm with two joints, a shoulder at the post and an elbow.
//!
//! The shoulder turns by an angle t1 and the elbow by t2. An angle is no polynomial, but its cosine and its
//! sine are two variables, c and s, with the equation c² + s² − 1 = 0. So the arm's variables are c1, s1, c2
//! and s2. With an upper link of length 4 and a lower link of length 3 the tip is at
//!
//! ```text
//! x = 4·cos(t1) + 3·cos(t1 + t2) = 4·c1 + 3·(c1·c2 − s1·s2)
//! y = 4·sin(t1) + 3·sin(t1 + t2) = 4·s1 + 3·(s1·c2 + c1·s2)
//! ```
//!
//! The elbow is locked at a right angle: c2 = 0. The socket is 5 from the post, so the arm closes where
//! x² + y² − 25 = 0, wherever the shoulder stands.
mod shown;

use damselbuckle::{Engine, Operation, Order, Polynomials, Refused, Setting};
use shown::{push, reduce, shown, Terms};

const NAMES: [&str; 4] = ["c1", "s1", "c2", "s2"];

/// Shoulder, elbow and lock.
const JOINTS: [Terms<4>; 3] = [
    &[(1, [2, 0, 0, 0]), (1, [0, 2, 0, 0]), (-1, [0, 0, 0, 0])],
    &[(1, [0, 0, 2, 0]), (1, [0, 0, 0, 2]), (-1, [0, 0, 0, 0])],
    &[(1, [0, 0, 1, 0])],
];

/// x² of links of lengths a and b, multiplied out.
fn x_squared(a: i64, b: i64) -> [(i64, [u8; 4]); 6] {
    [
        (b * b, [2, 0, 2, 0]),
        (-2 * b * b, [1, 1, 1, 1]),
        (b * b, [0, 2, 0, 2]),
        (2 * a * b, [2, 0, 1, 0]),
        (-2 * a * b, [1, 1, 0, 1]),
        (a * a, [2, 0, 0, 0]),
    ]
}

/// y² of the same.
fn y_squared(a: i64, b: i64) -> [(i64, [u8; 4]); 6] {
    [
        (b * b, [0, 2, 2, 0]),
        (2 * b * b, [1, 1, 1, 1]),
        (b * b, [2, 0, 0, 2]),
        (2 * a * b, [0, 2, 1, 0]),
        (2 * a * b, [1, 1, 0, 1]),
        (a * a, [0, 2, 0, 0]),
    ]
}

/// Adds up x², y² and −25, and reduces the sum by the joints.
fn arm(a: i64, b: i64) -> Result<(), Refused> {
    let setting = Setting::new(32003, Order::DegRevLex, 4)?;
    let mut parts = Polynomials::new(setting);
    push(&mut parts, &x_squared(a, b))?;
    push(&mut parts, &y_squared(a, b))?;
    push(&mut parts, &[(-25, [0, 0, 0, 0])])?;
    let mut engine = Engine::new(100);
    use Operation::{Add, Sum};
    engine.run(&parts, &[Add(0), Add(1), Add(2), Sum])?;
    let closing = engine.given();

    println!("links {a} and {b}: x^2 + y^2 - 25 is");
    println!("  {}", shown(&parts, &NAMES, &closing));
    let mut arm = Polynomials::new(setting);
    arm.push_terms(&closing)?;
    for joint in JOINTS {
        push(&mut arm, joint)?;
    }
    println!("  {}", reduce(&arm, &NAMES)?);
    Ok(())
}

fn main() -> Result<(), Refused> {
    arm(4, 3)?;
    // The lower link is cut too short.
    arm(4, 2)
}
