//! Generated cases: the proved functions against the model. The variable SECOND_CASES sets how many
//! cases each group has.
use second::cases;
use second::damage::no_prime;
use second::generate::{number_below, prime, weights};
use second::limits::{LARGEST_PRIME, LARGEST_WEIGHT};
use second::monomial::{divides, product, quotient, Order, FIELDS, LIMIT, ONES};
use second::probe;
use second::random::Random;
use second::residue;
use std::cmp::Ordering;
use std::collections::BTreeSet;

/// An exponent, often one of the ends.
fn exponent(random: &mut Random) -> u8 {
    match random.below(4) {
        0 => random.pick(&[0, 1, 2, 63, 64, 126, LIMIT]),
        1 => random.below(4) as u8,
        2 => 0,
        _ => random.below(128) as u8,
    }
}

fn monomial(random: &mut Random, n: usize) -> Vec<u8> {
    (0..n).map(|_| exponent(random)).collect()
}

/// A monomial near another: equal, or unlike in a few exponents.
fn near(random: &mut Random, m: &[u8]) -> Vec<u8> {
    let mut other = m.to_vec();
    for _ in 0..random.below(4) {
        let k = random.below(m.len() as u64) as usize;
        other[k] = exponent(random);
    }
    other
}

fn variables(random: &mut Random) -> usize {
    1 + random.below(FIELDS as u64) as usize
}

/// An order with weights in n variables.
fn order(random: &mut Random, n: usize) -> Order {
    random.pick(&Order::ALL).weighted(weights(random, n))
}

/// A word of the layout by some weights, one with some bits flipped, any fields under their sum, or any
/// word.
fn word(random: &mut Random, weights: [u32; FIELDS]) -> u64 {
    let n = variables(random);
    let weights = random.pick(&[weights, weights, ONES]);
    let order = random.pick(&Order::ALL).weighted(weights);
    let mut word = order.word(&monomial(random, n));
    match random.below(5) {
        0 => {}
        1 => word ^= 1 << random.below(64),
        2 => (0..3).for_each(|_| word ^= 1 << random.below(64)),
        3 => {
            let fields: [u8; FIELDS] = std::array::from_fn(|_| random.word() as u8);
            word = order.word(&fields);
        }
        _ => word = random.word(),
    }
    word
}

#[test]
fn words_of_exponents_and_back() {
    let random = &mut Random::new(1);
    for _ in 0..cases() {
        let n = variables(random);
        let order = order(random, n);
        let m = monomial(random, n);
        let w = order.word(&m);
        assert_eq!(probe::word_of(order, &m), w, "{order:?} {m:?}");
        assert!(probe::in_layout(order, n as u32, w), "{order:?} {m:?}");
        for (i, &e) in m.iter().enumerate() {
            assert_eq!(probe::exponent(order, w, i as u32), u32::from(e));
        }
    }
}

/// Exponents over 127 make words outside the layout; over 6 of them make none.
#[test]
fn exponents_outside_the_layout() {
    let random = &mut Random::new(2);
    for _ in 0..cases() {
        let n = variables(random);
        let order = order(random, n);
        let mut m = monomial(random, n);
        let k = random.below(n as u64) as usize;
        m[k] = 128 + random.below(128) as u8;
        let w = order.word(&m);
        assert_eq!(probe::word_of(order, &m), w, "{order:?} {m:?}");
        assert!(!probe::in_layout(order, n as u32, w), "{order:?} {m:?}");
        let long = vec![1; FIELDS + 1 + random.below(4) as usize];
        assert_eq!(probe::word_of(order, &long), probe::REFUSED);
        // Weights up to 17 make words.
        let order = order.weighted(ONES.map(|_| random.below(18) as u32));
        assert_eq!(probe::word_of(order, &m), order.word(&m), "{order:?} {m:?}");
        assert_eq!(probe::exponent(order, w, 6), probe::NO_EXPONENT);
    }
}

#[test]
fn layout_of_any_word() {
    let random = &mut Random::new(3);
    for _ in 0..cases() {
        // Any weights up to 16, beyond n as well, and 0 too.
        let any = ONES.map(|_| random.below(1 + u64::from(LARGEST_WEIGHT)) as u32);
        let good = weights(random, FIELDS);
        let weights = random.pick(&[any, good, good]);
        let w = word(random, weights);
        for order in Order::ALL.map(|order| order.weighted(weights)) {
            for n in 0..=FIELDS {
                let found = probe::in_layout(order, n as u32, w);
                assert_eq!(found, order.in_layout(n, w), "{order:?} {n} {w:016x}");
            }
            assert!(!probe::in_layout(order, 7, w));
            for (i, &e) in order.fields(w).iter().enumerate() {
                assert_eq!(probe::exponent(order, w, i as u32), u32::from(e));
            }
        }
    }
}

/// Another number of weights than six makes no word and is no layout, nor does a weight over 17, or over 16.
#[test]
fn weights_that_are_not_taken() {
    let random = &mut Random::new(12);
    for _ in 0..cases() / 10 {
        let n = variables(random);
        let order = order(random, n);
        let m = monomial(random, n);
        let w = order.word(&m);
        for len in (0..9).filter(|&len| len != FIELDS) {
            let mut weights = order.weights.to_vec();
            weights.resize(len, 1);
            assert_eq!(probe::word_by(order, &weights, &m), probe::REFUSED);
            assert!(!probe::in_layout_by(order, n as u32, &weights, w));
        }
        let mut weights = order.weights;
        let over = random.pick(&[17, 18, 256, 257, 1 << 16, u32::MAX]);
        weights[random.below(6) as usize] = over;
        let (taken, order) = (over == 17, order.weighted(weights));
        let word = order.word(&m);
        assert!(!probe::in_layout(order, n as u32, w));
        assert!(!probe::in_layout(order, n as u32, word));
        let expected = if taken { word } else { probe::REFUSED };
        assert_eq!(probe::word_of(order, &m), expected, "{weights:?} {m:?}");
    }
}

/// Words with weights by hand, in six variables and in two; the largest degree is 6·16·127 = 12,192.
#[test]
fn known_words_with_weights() {
    let orders = |weights| Order::ALL.map(|order: Order| order.weighted(weights));
    let m = [1, 2, 0, 3, 0, 127];
    let words = [
        // 1·1 + 2·2 + 4·3 + 6·127 = 779
        (
            [1, 2, 3, 4, 5, 6],
            [0x030b_0102_0003_007f, 0x030b_7f00_0300_0201],
        ),
        // 6·1 + 5·2 + 3·3 + 1·127 = 152
        (
            [6, 5, 4, 3, 2, 1],
            [0x0098_0102_0003_007f, 0x0098_7f00_0300_0201],
        ),
        ([1; 6], [0x0085_0102_0003_007f, 0x0085_7f00_0300_0201]),
    ];
    for (weights, [down, up]) in words {
        for (order, word) in orders(weights).into_iter().zip([down, down, up]) {
            assert_eq!((order.word(&m), probe::word_of(order, &m)), (word, word));
            assert!(probe::in_layout(order, 6, word));
            let others = words.map(|other| other.0).into_iter();
            for other in others.filter(|&other| other != weights) {
                assert!(!probe::in_layout(order.weighted(other), 6, word));
            }
        }
    }
    for order in orders([16; 6]) {
        let largest = 0x2fa0_7f7f_7f7f_7f7f;
        assert_eq!(probe::word_of(order, &[127; 6]), largest);
        assert!(probe::in_layout(order, 6, largest));
        assert!(!probe::in_layout(order, 6, largest - (1 << 48)));
    }
}

/// x2, of weight 2, is larger than x1 and like x1² in degree, but for lp; x1 is larger than x2^5 there.
#[test]
fn known_comparisons_with_weights() {
    let weights = [1, 2, 1, 1, 1, 1];
    let compare = |order: Order, a: [u8; 3], b: [u8; 3]| {
        let order = order.weighted(weights);
        let found = probe::compare(order, order.word(&a), order.word(&b));
        assert_eq!(order.compare(&a, &b), found);
        found
    };
    for order in [Order::DEG_LEX, Order::DEG_REV_LEX] {
        assert!(compare(order, [0, 1, 0], [1, 0, 0]).is_gt());
        assert!(compare(order, [2, 0, 0], [0, 1, 0]).is_gt());
        assert!(compare(order, [0, 2, 0], [3, 0, 0]).is_gt());
    }
    // Of degree 2 in both: x1·x3 and x2.
    assert!(compare(Order::DEG_LEX, [1, 0, 1], [0, 1, 0]).is_gt());
    assert!(compare(Order::DEG_REV_LEX, [1, 0, 1], [0, 1, 0]).is_lt());
    assert!(compare(Order::LEX, [1, 0, 0], [0, 5, 0]).is_gt());
}

#[test]
fn comparisons_of_monomials() {
    let random = &mut Random::new(4);
    for _ in 0..cases() {
        let n = variables(random);
        let a = monomial(random, n);
        let b = near(random, &a);
        let weights = weights(random, n);
        for order in Order::ALL.map(|order| order.weighted(weights)) {
            let (x, y) = (order.word(&a), order.word(&b));
            let expected = order.compare(&a, &b);
            assert_eq!(
                probe::compare(order, x, y),
                expected,
                "{order:?} {a:?} {b:?}"
            );
            let keys = probe::key(order, x).cmp(&probe::key(order, y));
            assert_eq!(keys, expected, "{order:?} {a:?} {b:?}");
        }
    }
}

/// Each order is total on all words, of the layout or not, goes by its key, which is that of one word, and is
/// the model's.
#[test]
fn orders_are_total() {
    let random = &mut Random::new(5);
    for _ in 0..cases() {
        let weights = weights(random, FIELDS);
        let x = word(random, weights);
        let y = if random.below(8) == 0 {
            x
        } else {
            word(random, weights)
        };
        let z = word(random, weights);
        for order in Order::ALL {
            let compare = |a, b| probe::compare(order, a, b);
            assert_eq!(compare(x, x), Ordering::Equal);
            assert_eq!(compare(x, y) == Ordering::Equal, x == y);
            assert_eq!(compare(y, x), compare(x, y).reverse());
            let keys = probe::key(order, x).cmp(&probe::key(order, y));
            assert_eq!(compare(x, y), keys);
            assert_eq!(probe::word(order, probe::key(order, x)), x);
            assert_eq!(probe::key(order, probe::word(order, x)), x);
            assert_eq!(compare(x, y), order.compare_words(x, y));
            let mut sorted = [x, y, z];
            sorted.sort_by(|&a, &b| compare(a, b));
            assert!(compare(sorted[0], sorted[1]).is_le());
            assert!(compare(sorted[1], sorted[2]).is_le());
            assert!(
                compare(sorted[0], sorted[2]).is_le(),
                "{order:?} {sorted:x?}"
            );
        }
    }
}

#[test]
fn quotients_and_products_of_monomials() {
    let random = &mut Random::new(6);
    for _ in 0..cases() {
        let n = variables(random);
        let order = order(random, n);
        let a = monomial(random, n);
        let b = near(random, &a);
        let (x, y) = (order.word(&a), order.word(&b));
        assert_eq!(
            probe::divides(y, x),
            u32::from(divides(&b, &a)),
            "{a:?} {b:?}"
        );
        if let Some(q) = quotient(&a, &b) {
            assert_eq!(probe::quotient(x, y), order.word(&q), "{a:?} {b:?}");
        }
        let over = product(&a, &b).is_none();
        assert_eq!(probe::any_over(x, &[y]), over, "{order:?} {a:?} {b:?}");
        if let Some(p) = product(&a, &b) {
            assert_eq!(x + y, order.word(&p), "{order:?} {a:?} {b:?}");
            assert_eq!(probe::divides(y, order.word(&p)), 1);
            assert_eq!(probe::quotient(order.word(&p), y), x);
        }
    }
}

/// Word arithmetic on any words: only words with clear top bits are taken, and the fields decide.
#[test]
fn arithmetic_of_any_words() {
    let random = &mut Random::new(7);
    for _ in 0..cases() {
        let weights = weights(random, FIELDS);
        let (x, y) = (word(random, weights), word(random, weights));
        let (a, b) = (Order::DEG_REV_LEX.fields(x), Order::DEG_REV_LEX.fields(y));
        let packed = |w: u64, m: [u8; FIELDS]| w >> 63 == 0 && m.iter().all(|&e| e <= LIMIT);
        if packed(x, a) && packed(y, b) {
            assert_eq!(
                probe::divides(y, x),
                u32::from(divides(&b, &a)),
                "{y:x} {x:x}"
            );
            let over = product(&a, &b).is_none();
            assert_eq!(probe::any_over(x, &[y]), over, "{x:x} {y:x}");
        } else {
            assert_eq!(probe::divides(y, x), probe::NOT_PACKED);
        }
        let difference = x.checked_sub(y).unwrap_or(probe::REFUSED);
        assert_eq!(probe::quotient(x, y), difference);
    }
}

/// The proved answer must be the model's. Gives it.
fn prime_by_both(p: u32) -> bool {
    let answer = probe::is_prime(p);
    assert_eq!(answer, residue::is_prime(p), "{p}");
    answer
}

/// Numbers around 2^16, 2^31 and 2^32 that are primes or not.
#[test]
fn known_primes() {
    let primes = [2, 65_521, 65_537, 99_999_989, 1_073_741_789];
    let at_the_limit = [2_147_483_629, LARGEST_PRIME, 2_147_483_659, 4_294_967_291];
    assert!(primes.into_iter().chain(at_the_limit).all(prime_by_both));
    let not = [0, 1, 4, 65_535, 65_536, 2_147_483_645, 1 << 31, u32::MAX];
    assert!(!not.into_iter().any(prime_by_both));
}

/// All numbers up to 100,000, and all up to 10,000 away from 2^31 and below 2^32.
#[test]
fn primes_in_a_row() {
    let around = (1 << 31) - 10_000..=(1 << 31) + 10_000;
    let counts = [0..=100_000, around, u32::MAX - 10_000..=u32::MAX]
        .map(|numbers| numbers.filter(|&p| prime_by_both(p)).count());
    println!("primes found in each row: {counts:?}");
    assert_eq!(counts[0], 9_592);
    assert!(counts[1..].iter().all(|&count| count > 300));
}

/// The squares of all primes of 16 bits and the products of neighbours; numbers near such squares, and
/// random ones.
#[test]
fn large_primes() {
    let random = &mut Random::new(8);
    let primes: Vec<u32> = (0..=65_535).filter(|&p| residue::is_prime(p)).collect();
    assert_eq!((primes.len(), primes.last()), (6_542, Some(&65_521)));
    for (k, &q) in primes.iter().enumerate() {
        let next = primes[(k + 1).min(primes.len() - 1)];
        assert!(!prime_by_both(q * q), "{q} squared");
        assert!(!prime_by_both(q * next), "{q} times {next}");
    }
    for _ in 0..cases() / 20 {
        let q = random.pick(&primes);
        let near = (q * q).wrapping_add(random.below(64) as u32);
        prime_by_both(near.wrapping_sub(32));
        prime_by_both(random.word() as u32 | 1);
        prime_by_both((random.word() >> (32 + random.below(16))) as u32);
    }
}

/// The numbers that stand for a damaged prime are no primes, or are too large.
#[test]
fn damaged_primes() {
    let random = &mut Random::new(11);
    let mut over = 0;
    for _ in 0..cases() / 10 {
        let p = no_prime(random);
        let prime = prime_by_both(p);
        assert!(!prime || p > LARGEST_PRIME, "{p}");
        over += u64::from(prime);
    }
    println!("primes that are too large: {over} of {}", cases() / 10);
    assert!(over > 0);
}

/// The residues of two numbers by all proved functions must be the model's.
fn same_residues(a: u32, b: u32, p: u32) {
    let product = residue::multiply(a, b, p);
    assert_eq!(probe::add(a, b, p), residue::add(a, b, p), "{a} {b} {p}");
    assert_eq!(probe::negate(a, p), residue::negate(a, p), "{a} {p}");
    assert_eq!(probe::multiply_residues(a, b, p), product, "{a} {b} {p}");
    assert_eq!(probe::factor_times(a, b, p), product, "{a} {b} {p}");
}

/// The inverse modulo a prime must be the model's, and times the number it must be 1; 0 has none.
fn same_inverse(a: u32, p: u32) {
    let inverse = probe::invert(a, p);
    if a == 0 {
        assert_eq!(inverse, probe::REFUSED_RESIDUE);
        return;
    }
    assert_eq!(inverse, residue::invert(a, p), "{a} {p}");
    assert_eq!(residue::multiply(a, inverse, p), 1, "{a} {p}");
}

#[test]
fn residues_modulo_primes() {
    let random = &mut Random::new(9);
    let mut large = 0;
    for _ in 0..cases() / 5 {
        let p = prime(random);
        large += u64::from(p > 65_536);
        for _ in 0..5 {
            let (a, b) = (number_below(random, p), number_below(random, p));
            same_residues(a, b, p);
            same_inverse(a, p);
        }
    }
    println!("primes over 2^16: {large} of {}", cases() / 5);
    assert!(large > cases() / 50);
}

/// Moduli at both ends of the two halves of 32 bits, primes and not.
const MODULI: [u32; 14] = [
    2,
    3,
    65_521,
    65_535,
    65_536,
    65_537,
    65_538,
    1 << 30,
    46_337 * 46_337,
    2_147_483_629,
    2_147_483_644,
    2_147_483_645,
    2_147_483_646,
    residue::LIMIT,
];

/// All pairs of numbers at the ends, around the middle, around 2^16 and around the root of the modulus.
#[test]
fn residues_near_the_ends() {
    let mut pairs = 0;
    for p in MODULI {
        let root = f64::from(p).sqrt() as u32;
        let near = |m: u32| m.saturating_sub(5)..=m.saturating_add(5);
        let numbers = [0, root, 65_536, p / 2, p].into_iter().flat_map(near);
        let numbers: BTreeSet<u32> = numbers.filter(|&a| a < p).collect();
        for &a in &numbers {
            numbers.iter().for_each(|&b| same_residues(a, b, p));
            if residue::is_prime(p) {
                same_inverse(a, p);
            }
        }
        pairs += numbers.len() * numbers.len();
    }
    println!("pairs of numbers: {pairs}");
    assert!(pairs > 10_000);
}

/// All numbers modulo each small prime: the inverse is the one number that makes 1.
#[test]
fn residues_modulo_small_primes() {
    for p in (2..100).filter(|&p| residue::is_prime(p)) {
        for a in 0..p {
            let inverse = (0..p).find(|&x| residue::multiply(a, x, p) == 1);
            assert_eq!(probe::invert(a, p), inverse.unwrap_or(u32::MAX));
            (0..p).for_each(|b| same_residues(a, b, p));
        }
    }
}

/// Any modulus, prime or not, and any numbers: what is not taken is refused.
#[test]
fn any_numbers() {
    let random = &mut Random::new(10);
    for _ in 0..cases() {
        let p = (random.word() >> (32 + random.below(32))) as u32;
        let a = (random.word() >> (32 + random.below(32))) as u32;
        let b = random.pick(&[0, 1, a, p, p.wrapping_sub(1)]);
        let taken = residue::takes(a, p) && residue::takes(b, p);
        let or_refused = |x: fn(u32, u32, u32) -> u32| match taken {
            true => x(a, b, p),
            false => probe::REFUSED_RESIDUE,
        };
        assert_eq!(probe::add(a, b, p), or_refused(residue::add));
        let product = or_refused(residue::multiply);
        assert_eq!(probe::multiply_residues(a, b, p), product);
        assert_eq!(probe::factor_times(a, b, p), product);
        let invertible = residue::takes(a, p) && a > 0 && residue::is_prime(p);
        let inverse = match invertible {
            true => residue::invert(a, p),
            false => probe::REFUSED_RESIDUE,
        };
        assert_eq!(probe::invert(a, p), inverse, "{a} {p}");
        let negative = match residue::takes(a, p) {
            true => residue::negate(a, p),
            false => probe::REFUSED_RESIDUE,
        };
        assert_eq!(probe::negate(a, p), negative, "{a} {p}");
    }
}
