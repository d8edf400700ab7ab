//! The block store (document 01, "Blocks" and "Refusals by cause"; document 02, "Larger primes" and "Weighted
//! degrees"): the blocks of a polynomial, and what writing and reading give. A refusal is its number.
use crate::call::Numbers;
use crate::limits::{BLOCK_BYTES, BLOCK_TERMS, MOST_BLOCKS, MOST_TERMS};
use crate::monomial::Order;
use crate::polynomial;

const HEADER: usize = 16;
const WEIGHTS: usize = 12;
const ZERO: usize = 15;
const PLACE: usize = 12;
const CHECK: usize = BLOCK_BYTES - 4;

/// A polynomial as it is lent, or as it is read.
#[derive(Clone, Debug, Default, PartialEq, Eq)]
pub struct Polynomial {
    pub numbers: Numbers,
    pub words: Vec<u64>,
    pub coefs: Vec<u32>,
}

impl Polynomial {
    /// The refusal 4, 5 or 6.
    fn judged(&self, order: Order) -> Result<(), u64> {
        let Numbers { p, n, .. } = self.numbers;
        match polynomial::refusal(order, n as usize, p, &self.words, &self.coefs) {
            0 => Ok(()),
            number => Err(number.into()),
        }
    }

    /// The blocks, where there are six weights from 1 to 16: two of them in a byte, the first in its low half.
    pub fn blocks(&self) -> Vec<u8> {
        let terms: Vec<(u64, u32)> = self.words.iter().copied().zip(self.coefs.clone()).collect();
        let mut parts: Vec<&[(u64, u32)]> = terms.chunks(BLOCK_TERMS).collect();
        if parts.is_empty() {
            parts.push(&[]);
        }
        let mut bytes = Vec::new();
        for (number, part) in parts.iter().enumerate() {
            let Numbers { p, order, n, .. } = self.numbers;
            let [low, lower, upper, high] = p.to_le_bytes();
            let numbers = [number, parts.len(), part.len()];
            let mut block: Vec<u8> = Vec::new();
            block.extend(numbers.iter().flat_map(|&x| (x as u16).to_le_bytes()));
            block.extend([low, lower, order as u8, n as u8, upper, high]);
            let halves = self.numbers.weights.chunks(2);
            block.extend(halves.map(|two| (two[0] - 1 + 16 * (two[1] - 1)) as u8));
            block.push(0);
            for (word, coef) in part.iter() {
                block.extend(word.to_le_bytes());
                block.extend(coef.to_le_bytes());
            }
            block.resize(CHECK, 0);
            block.extend(check(&block).to_le_bytes());
            bytes.extend(block);
        }
        bytes
    }

    /// The blocks, with room for so many bytes.
    pub fn write(&self, room: usize) -> Result<Vec<u8>, u64> {
        let (order, _) = self.numbers.opened()?;
        if self.words.len() != self.coefs.len() {
            return Err(8);
        }
        self.judged(order)?;
        if self.words.len() > MOST_TERMS {
            return Err(11);
        }
        let blocks = self.blocks();
        match blocks.len() <= room {
            true => Ok(blocks),
            false => Err(10),
        }
    }
}

/// The sum of the first 127 words and 1, modulo 2^32.
pub fn check(block: &[u8]) -> u32 {
    let word = |k: usize| u64::from(number(&block[4 * k..], 4) as u32);
    let sum: u64 = (0..127).map(word).sum();
    ((sum + 1) % (1 << 32)) as u32
}

/// Puts a block's check right.
pub fn repair(block: &mut [u8]) {
    let right = check(block).to_le_bytes();
    block[CHECK..].copy_from_slice(&right);
}

/// The number of the first k bytes.
fn number(bytes: &[u8], k: usize) -> u64 {
    let digits = bytes[..k].iter().rev();
    digits.fold(0, |sum, &byte| sum * 256 + u64::from(byte))
}

/// What a block's header says: number, count, terms here, and the setting.
fn header(block: &[u8]) -> (u64, u64, usize, Numbers) {
    let two = |at: usize| number(&block[at..], 2);
    let weights = block[WEIGHTS..ZERO].iter().flat_map(|b| [b % 16, b / 16]);
    let numbers = Numbers {
        p: (two(6) + (two(10) << 16)) as u32,
        order: block[8].into(),
        n: block[9].into(),
        weights: weights.map(|half| 1 + u32::from(half)).collect(),
    };
    (two(0), two(2), two(4) as usize, numbers)
}

/// The polynomial that the bytes hold, with so many places for words and for coefficients.
pub fn read(bytes: &[u8], words: usize, coefs: usize) -> Result<Polynomial, u64> {
    if words != coefs {
        return Err(8);
    }
    let blocks: Vec<&[u8]> = bytes.chunks(BLOCK_BYTES).collect();
    if bytes.len() % BLOCK_BYTES != 0 || !(1..=MOST_BLOCKS).contains(&blocks.len()) {
        return Err(14);
    }
    if blocks
        .iter()
        .any(|block| number(&block[CHECK..], 4) != check(block).into())
    {
        return Err(15);
    }
    let polynomial = formed(&blocks)?;
    let (order, _) = polynomial.numbers.opened()?;
    polynomial.judged(order)?;
    match polynomial.words.len() <= words {
        true => Ok(polynomial),
        false => Err(10),
    }
}

/// The polynomial of blocks whose checks are right, or refusal 16.
fn formed(blocks: &[&[u8]]) -> Result<Polynomial, u64> {
    let mut polynomial = Polynomial {
        numbers: header(blocks[0]).3,
        ..Polynomial::default()
    };
    for (k, block) in blocks.iter().enumerate() {
        let (number_here, count, here, numbers) = header(block);
        let last = k + 1 == blocks.len();
        let allowed = match (last, k) {
            (true, 0) => 0..=BLOCK_TERMS,
            (true, _) => 1..=BLOCK_TERMS,
            (false, _) => BLOCK_TERMS..=BLOCK_TERMS,
        };
        let said = number_here == k as u64
            && count == blocks.len() as u64
            && numbers == polynomial.numbers
            && allowed.contains(&here)
            && block[ZERO] == 0;
        if !said {
            return Err(16);
        }
        let (used, unused) = block[HEADER..CHECK].split_at(PLACE * here);
        if unused.iter().any(|&byte| byte != 0) {
            return Err(16);
        }
        for place in used.chunks(PLACE) {
            polynomial.words.push(number(place, 8));
            polynomial.coefs.push(number(&place[8..], 4) as u32);
        }
    }
    match polynomial.words.len() <= MOST_TERMS {
        true => Ok(polynomial),
        false => Err(16),
    }
}
