//! Settings for runs and reductions, and falling monomials for large polynomials.
use crate::call::Setting;
use crate::generate::{falling, monomial, prime, weights};
use crate::monomial::{Order, FIELDS, LIMIT};
use crate::random::Random;
use std::collections::BTreeSet;

/// The monomials that large polynomials are made of, more than are held. In one variable
/// there are only 128.
const POOL: usize = 6_000;

/// All orders and numbers of variables in turn, any weights, and any prime.
pub fn setting(random: &mut Random, case: u64) -> Setting {
    let order = Order::ALL[(case % 3) as usize];
    let n = 1 + (case / 3 % FIELDS as u64) as usize;
    let order = order.weighted(weights(random, n));
    (order, n, prime(random))
}

/// Monomials, made once for each number of variables.
pub struct Pools(Vec<Vec<Vec<u8>>>);

impl Default for Pools {
    fn default() -> Self {
        Pools::new()
    }
}

impl Pools {
    pub fn new() -> Self {
        let random = &mut Random::new(71);
        Pools((1..=FIELDS).map(|n| pool(random, n)).collect())
    }

    /// Those of a setting, in falling order.
    pub fn of(&self, (order, n, _): Setting) -> Vec<Vec<u8>> {
        falling(order, self.0[n - 1].clone())
    }
}

/// Monomials, each once.
fn pool(random: &mut Random, n: usize) -> Vec<Vec<u8>> {
    let mut found = BTreeSet::new();
    for _ in 0..2 * POOL {
        if found.len() < POOL {
            found.insert(monomial(random, n, LIMIT));
        }
    }
    found.into_iter().collect()
}
