//! Primes, by division, and numbers modulo p, by arithmetic on 128 bits.
use std::cell::RefCell;
use std::collections::HashMap;

/// The largest modulus that the proved functions take.
pub const LIMIT: u32 = 2_147_483_647;

thread_local! {
    /// What was found out already: a large prime takes 23,170 divisions.
    static KNOWN: RefCell<HashMap<u32, bool>> = RefCell::default();
}

/// Whether p is prime. Answers are remembered.
pub fn is_prime(p: u32) -> bool {
    KNOWN.with_borrow_mut(|known| *known.entry(p).or_insert_with(|| divided(p)))
}

/// Whether p is 2, or over 2 and odd and no odd number from 3 up to the root divides it.
fn divided(p: u32) -> bool {
    let up_to_root = |d: &u32| u64::from(*d) * u64::from(*d) <= p.into();
    let mut odd = (3..).step_by(2).take_while(up_to_root);
    p == 2 || p > 2 && p % 2 != 0 && odd.all(|d| p % d != 0)
}

/// Whether the proved functions take the modulus p and the number a.
pub fn takes(a: u32, p: u32) -> bool {
    (2..=LIMIT).contains(&p) && a < p
}

pub fn add(a: u32, b: u32, p: u32) -> u32 {
    modulo(u128::from(a) + u128::from(b), p)
}

pub fn negate(a: u32, p: u32) -> u32 {
    modulo(u128::from(p - a % p), p)
}

pub fn multiply(a: u32, b: u32, p: u32) -> u32 {
    modulo(u128::from(a) * u128::from(b), p)
}

/// The inverse of a modulo the prime p, by Fermat: a to the power p - 2.
pub fn invert(a: u32, p: u32) -> u32 {
    let mut power = modulo(1, p);
    let mut square = a;
    let mut rest = p - 2;
    while rest > 0 {
        if rest % 2 == 1 {
            power = multiply(power, square, p);
        }
        square = multiply(square, square, p);
        rest /= 2;
    }
    power
}

fn modulo(x: u128, p: u32) -> u32 {
    (x % u128::from(p)) as u32
}
