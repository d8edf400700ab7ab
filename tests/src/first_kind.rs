//! A reader of the first kind (document 02, "Larger primes"): that of blocks as document 01 has them, with
//! p in two bytes and six zero bytes. It stays as it is, and takes nothing from the other models but what
//! a prime is.
use crate::residue::is_prime;

const BLOCK: usize = 512;
const HEADER: usize = 16;
const CHECK: usize = BLOCK - 4;
const PLACE: usize = 12;
const PLACES: usize = 41;
const MOST_BLOCKS: usize = 100;
const MOST_TERMS: usize = 4_096;
pub const LARGEST_PRIME: u32 = 65_521;

/// What blocks hold.
#[derive(Clone, Debug, Default, PartialEq, Eq)]
pub struct Polynomial {
    pub p: u32,
    pub order: u32,
    pub n: u32,
    pub words: Vec<u64>,
    pub coefs: Vec<u32>,
}

/// The polynomial that the bytes hold, with so many places for words and for coefficients, or the refusal.
pub fn read(bytes: &[u8], words: usize, coefs: usize) -> Result<Polynomial, u64> {
    if words != coefs {
        return Err(8);
    }
    let blocks: Vec<&[u8]> = bytes.chunks(BLOCK).collect();
    if bytes.len() % BLOCK != 0 || !(1..=MOST_BLOCKS).contains(&blocks.len()) {
        return Err(14);
    }
    let checked = |block: &&[u8]| number(&block[CHECK..]) == check(block);
    if !blocks.iter().all(checked) {
        return Err(15);
    }
    let polynomial = formed(&blocks)?;
    polynomial.judged()?;
    match polynomial.words.len() <= words {
        true => Ok(polynomial),
        false => Err(10),
    }
}

/// A number, its low byte first.
fn number(bytes: &[u8]) -> u64 {
    let digits = bytes.iter().rev();
    digits.fold(0, |sum, &byte| sum * 256 + u64::from(byte))
}

/// The sum of the first 127 words and 1, modulo 2^32.
fn check(block: &[u8]) -> u64 {
    let sum: u64 = block[..CHECK].chunks(4).map(number).sum();
    (sum + 1) % (1 << 32)
}

/// The header that writing puts: block number, count, terms here, p, order, n, six zero bytes.
fn header(k: usize, count: usize, here: usize, [p, order, n]: [u32; 3]) -> [u8; HEADER] {
    let mut header = [0; HEADER];
    let twos = [k as u16, count as u16, here as u16, p as u16];
    for (bytes, two) in header.chunks_mut(2).zip(twos) {
        bytes.copy_from_slice(&two.to_le_bytes());
    }
    (header[8], header[9]) = (order as u8, n as u8);
    header
}

/// The polynomial of blocks whose checks are right, or refusal 16.
fn formed(blocks: &[&[u8]]) -> Result<Polynomial, u64> {
    let mut polynomial = Polynomial {
        p: number(&blocks[0][6..8]) as u32,
        order: blocks[0][8].into(),
        n: blocks[0][9].into(),
        ..Polynomial::default()
    };
    let setting = [polynomial.p, polynomial.order, polynomial.n];
    let count = blocks.len();
    for (k, block) in blocks.iter().enumerate() {
        let here = number(&block[4..6]) as usize;
        let least = if k + 1 < count { PLACES } else { k.min(1) };
        let right = block[..HEADER] == header(k, count, here, setting);
        if !right || !(least..=PLACES).contains(&here) {
            return Err(16);
        }
        let (used, unused) = block[HEADER..CHECK].split_at(PLACE * here);
        if unused.iter().any(|&byte| byte != 0) {
            return Err(16);
        }
        for place in used.chunks(PLACE) {
            polynomial.words.push(number(&place[..8]));
            polynomial.coefs.push(number(&place[8..]) as u32);
        }
    }
    match polynomial.words.len() <= MOST_TERMS {
        true => Ok(polynomial),
        false => Err(16),
    }
}

impl Polynomial {
    /// The refusals 1 to 6.
    fn judged(&self) -> Result<(), u64> {
        if self.p > LARGEST_PRIME || !is_prime(self.p) {
            return Err(1);
        }
        if !(1..=3).contains(&self.order) {
            return Err(2);
        }
        if !(1..=6).contains(&self.n) {
            return Err(3);
        }
        for (&word, &coef) in self.words.iter().zip(&self.coefs) {
            if coef == 0 || coef >= self.p {
                return Err(4);
            }
            if !self.in_layout(word) {
                return Err(5);
            }
        }
        let keys: Vec<Vec<i64>> = self.words.iter().map(|&w| self.key(w)).collect();
        match keys.windows(2).all(|pair| pair[0] > pair[1]) {
            true => Ok(()),
            false => Err(6),
        }
    }

    /// The six fields of a word, that of x1 first.
    fn fields(&self, word: u64) -> [i64; 6] {
        let shift = |k| if self.order == 3 { 8 * k } else { 40 - 8 * k };
        std::array::from_fn(|k| (word >> shift(k) & 0xff) as i64)
    }

    fn in_layout(&self, word: u64) -> bool {
        let fields = self.fields(word);
        let degree: i64 = fields.iter().sum();
        fields.iter().all(|&e| e <= 127)
            && fields[self.n as usize..].iter().all(|&e| e == 0)
            && word >> 48 == degree as u64
    }

    /// What a monomial is compared by, number after number.
    fn key(&self, word: u64) -> Vec<i64> {
        let fields = self.fields(word);
        let degree = [fields.iter().sum()];
        match self.order {
            1 => fields.to_vec(),
            2 => [&degree[..], &fields].concat(),
            _ => degree
                .into_iter()
                .chain(fields.map(|e| -e).into_iter().rev())
                .collect(),
        }
    }
}
