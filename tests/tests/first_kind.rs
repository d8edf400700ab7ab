//! Blocks of the proved library before a reader of the first kind (document 02, "Larger primes" and "Weighted
//! degrees"): it takes those of primes up to 65,521 with weights of 1, which are as they were, and turns the
//! others away.
use second::block_store::{check, Polynomial};
use second::call::Numbers;
use second::cases;
use second::first_kind::{self, LARGEST_PRIME};
use second::generate::{polynomial, prime, up_to, weights, PRIMES};
use second::library;
use second::limits::{BLOCK_BYTES, BLOCK_TERMS, MOST_BLOCKS, MOST_TERMS};
use second::monomial::{Order, ONES};
use second::polynomial::lent;
use second::random::Random;

/// One of so many cases is a polynomial, and of so many one is large.
const CASES_PER_POLYNOMIAL: u64 = 5;
const LARGE_EVERY: u64 = 100;

/// A polynomial modulo p in n variables, and its blocks by the proved library.
fn written(
    random: &mut Random,
    case: u64,
    (order, n, p): (Order, usize, u32),
) -> (Polynomial, Vec<u8>) {
    let len = match case % LARGE_EVERY {
        0 => MOST_TERMS,
        _ => random.pick(&[0, 1, BLOCK_TERMS, 3 * BLOCK_TERMS]),
    };
    let (words, coefs) = lent(order, &polynomial(random, order, n, p, len));
    let f = Polynomial {
        numbers: Numbers::new((order, n, p)),
        words,
        coefs,
    };
    let mut bytes = vec![1; MOST_BLOCKS * BLOCK_BYTES];
    let blocks = library::write(&f, &mut bytes).expect("it is written");
    bytes.truncate(blocks as usize * BLOCK_BYTES);
    (f, bytes)
}

/// Any order with weights of 1, and any number of variables.
fn unweighted(random: &mut Random) -> (Order, usize) {
    (random.pick(&Order::ALL), 1 + up_to(random, 5))
}

/// A block as document 01 has it: its number, the number of blocks, its terms.
fn block(setting: &Numbers, k: usize, count: usize, words: &[u64], coefs: &[u32]) -> Vec<u8> {
    let numbers = [k, count, words.len(), setting.p as usize];
    let mut block: Vec<u8> = Vec::new();
    block.extend(numbers.iter().flat_map(|&x| (x as u16).to_le_bytes()));
    block.extend([setting.order as u8, setting.n as u8, 0, 0, 0, 0, 0, 0]);
    for (word, coef) in words.iter().zip(coefs) {
        block.extend(word.to_le_bytes());
        block.extend(coef.to_le_bytes());
    }
    block.resize(BLOCK_BYTES - 4, 0);
    block.extend(check(&block).to_le_bytes());
    block
}

/// The blocks of a polynomial as document 01 has them.
fn of_the_first_kind(f: &Polynomial) -> Vec<u8> {
    let count = f.words.len().div_ceil(BLOCK_TERMS).max(1);
    let part = |k: usize| k * BLOCK_TERMS..f.words.len().min((k + 1) * BLOCK_TERMS);
    let block = |k| block(&f.numbers, k, count, &f.words[part(k)], &f.coefs[part(k)]);
    (0..count).flat_map(block).collect()
}

/// Primes up to 65,521: the bytes are document 01's, and the reader gives the polynomial.
#[test]
fn smaller_primes_keep_their_bytes() {
    let random = &mut Random::new(151);
    let (mut blocks, mut largest) = (0, 0);
    for case in 0..cases() / CASES_PER_POLYNOMIAL {
        let p = prime(random);
        if p > LARGEST_PRIME {
            continue;
        }
        let (order, n) = unweighted(random);
        let (f, bytes) = written(random, case, (order, n, p));
        assert!(bytes == of_the_first_kind(&f), "{:?}", f.numbers);
        let terms = f.words.len();
        let read = first_kind::read(&bytes, terms, terms).expect("it is read");
        let Numbers { p, order, n, .. } = f.numbers;
        assert_eq!((read.p, read.order, read.n), (p, order, n));
        assert!((read.words, read.coefs) == (f.words, f.coefs));
        blocks += bytes.len() / BLOCK_BYTES;
        largest += u64::from(p == LARGEST_PRIME);
    }
    println!("blocks that are as they were: {blocks}; polynomials modulo 65,521: {largest}");
    assert!(blocks as u64 > cases() / 10 && largest > cases() / 500);
}

/// Larger primes: 16, wherever there is room and where there is none.
#[test]
fn larger_primes_are_turned_away() {
    let random = &mut Random::new(157);
    let (mut fixed, mut any) = (0, 0);
    for case in 0..cases() / CASES_PER_POLYNOMIAL {
        let p = prime(random);
        if p <= LARGEST_PRIME {
            continue;
        }
        let (order, n) = unweighted(random);
        let (f, bytes) = written(random, case, (order, n, p));
        let places = random.pick(&[f.words.len(), MOST_TERMS, 0]);
        let refusal = first_kind::read(&bytes, places, places).err();
        assert_eq!(refusal, Some(16), "{:?}", f.numbers);
        match PRIMES.contains(&p) {
            true => fixed += 1,
            false => any += 1,
        }
    }
    println!("turned away: {fixed} of named primes, {any} of others");
    assert!(fixed.min(any) > cases() / 100);
}

/// Weights that are not all 1, modulo smaller primes: 16, wherever there is room and where there is none.
#[test]
fn weights_are_turned_away() {
    let random = &mut Random::new(163);
    let mut turned_away = 0;
    for case in 0..cases() / CASES_PER_POLYNOMIAL {
        let (order, n) = unweighted(random);
        let order = order.weighted(weights(random, n));
        let p = prime(random);
        if p > LARGEST_PRIME || order.weights == ONES {
            continue;
        }
        let (f, bytes) = written(random, case, (order, n, p));
        let places = random.pick(&[f.words.len(), MOST_TERMS, 0]);
        let refusal = first_kind::read(&bytes, places, places).err();
        assert_eq!(refusal, Some(16), "{:?}", f.numbers);
        turned_away += 1;
    }
    println!("turned away: {turned_away}");
    assert!(turned_away > cases() / 50);
}

/// The header alone decides: with the lower half 7 and the upper half 1 only the six zero bytes are wrong.
#[test]
fn the_zero_bytes_turn_them_away() {
    let setting = &Numbers::new((Order::DEG_REV_LEX, 2, 7));
    let mut bytes = block(setting, 0, 1, &[], &[]);
    assert_eq!(first_kind::read(&bytes, 0, 0).map(|f| f.p), Ok(7));
    for at in 10..16 {
        bytes[at] = 1;
        let right = check(&bytes).to_le_bytes();
        assert_eq!(first_kind::read(&bytes, 0, 0), Err(15));
        bytes[508..].copy_from_slice(&right);
        assert_eq!(first_kind::read(&bytes, 0, 0), Err(16));
        bytes = block(setting, 0, 1, &[], &[]);
    }
}
