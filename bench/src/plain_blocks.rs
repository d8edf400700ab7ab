//! The block store in plain Rust, with the order taken out of the loops.
use crate::lists::{deg_rev_lex_key, lex_key, List};
use crate::monomial::ONES;
use crate::plain_opening::{is_prime, refusal_of_one, weights_refusal, Layout};
use damselbuckle::raw::{ReadAnswer, WriteAnswer};
use damselbuckle::{BLOCK_BYTES, LARGEST_PRIME, MOST_BLOCKS, MOST_TERMS};

const HEADER: usize = 16;
const PLACE: usize = 12;
/// Terms of a block.
pub(crate) const BLOCK_TERMS: usize = 41;

/// What a header says of the problem.
#[derive(Clone, Copy)]
pub struct Setting {
    pub p: u32,
    pub order: u32,
    pub n: u32,
    pub weights: [u32; 6],
}

impl Setting {
    /// The refusal, or 0.
    fn refusal(self) -> u64 {
        if self.p > LARGEST_PRIME || !is_prime(self.p) {
            1
        } else if self.order == 0 || self.order > 3 {
            2
        } else if self.n == 0 || self.n > 6 {
            3
        } else {
            weights_refusal(self.n, self.weights)
        }
    }

    fn layout(self) -> Layout {
        Layout::new(self.order == 3, self.n, self.weights)
    }

    /// The weights less 1, of x1 in the lowest four bits, of x2 in the next four, and so on.
    fn packed_weights(self) -> u32 {
        let weights = self.weights.into_iter().rev();
        weights.fold(0, |packed, weight| packed << 4 | (weight - 1))
    }
}

pub fn write(setting: Setting, terms: &List, bytes: &mut [u8]) -> WriteAnswer {
    let refusal = write_refusal(setting, terms, bytes.len());
    if refusal != 0 {
        return WriteAnswer {
            refusal,
            ..WriteAnswer::default()
        };
    }
    let count = blocks_for(terms.words.len());
    let blocks = bytes.chunks_exact_mut(BLOCK_BYTES);
    let mut words = terms.words.chunks(BLOCK_TERMS);
    let mut coefs = terms.coefs.chunks(BLOCK_TERMS);
    for (number, block) in blocks.take(count).enumerate() {
        let words = words.next().unwrap_or_default();
        let coefs = coefs.next().unwrap_or_default();
        block[..HEADER].copy_from_slice(&header(number, count, words.len(), setting));
        let (used, unused) = block[HEADER..BLOCK_BYTES - 4].split_at_mut(PLACE * words.len());
        for ((place, word), coef) in used.chunks_exact_mut(PLACE).zip(words).zip(coefs) {
            place[..8].copy_from_slice(&word.to_le_bytes());
            place[8..].copy_from_slice(&coef.to_le_bytes());
        }
        unused.fill(0);
        let check = check(block);
        block[BLOCK_BYTES - 4..].copy_from_slice(&check.to_le_bytes());
    }
    WriteAnswer {
        blocks: count as u64,
        ..WriteAnswer::default()
    }
}

fn write_refusal(setting: Setting, terms: &List, room: usize) -> u64 {
    let refusal = setting.refusal();
    if refusal != 0 {
        return refusal;
    }
    if terms.words.len() != terms.coefs.len() {
        return 8;
    }
    let Setting {
        p,
        order,
        n,
        weights,
    } = setting;
    let refusal = refusal_of_one(order, n, weights, p, terms.terms());
    if refusal != 0 {
        return refusal;
    }
    if terms.words.len() > MOST_TERMS {
        return 11;
    }
    if room < BLOCK_BYTES * blocks_for(terms.words.len()) {
        return 10;
    }
    0
}

pub fn read(bytes: &[u8], out: &mut List) -> ReadAnswer {
    let (refusal, setting, terms) = judged(bytes, out);
    if refusal != 0 {
        return ReadAnswer {
            refusal,
            ..ReadAnswer::default()
        };
    }
    let places = out.words.iter_mut().zip(&mut out.coefs);
    for ((to, c), (word, coef)) in places.zip(terms_in(bytes, terms)) {
        (*to, *c) = (word, coef);
    }
    ReadAnswer {
        p: setting.p.into(),
        order: setting.order.into(),
        n: setting.n.into(),
        weights: setting.packed_weights().into(),
        terms: terms as u64,
        ..ReadAnswer::default()
    }
}

/// The refusal, or 0; the setting; the terms.
fn judged(bytes: &[u8], out: &List) -> (u64, Setting, usize) {
    let none = Setting {
        p: 0,
        order: 0,
        n: 0,
        weights: ONES,
    };
    if out.words.len() != out.coefs.len() {
        return (8, none, 0);
    }
    let count = bytes.len() / BLOCK_BYTES;
    if bytes.len() % BLOCK_BYTES != 0 || count == 0 || count > MOST_BLOCKS {
        return (14, none, 0);
    }
    let checked = |block: &[u8]| block[BLOCK_BYTES - 4..] == check(block).to_le_bytes();
    if !bytes.chunks_exact(BLOCK_BYTES).all(checked) {
        return (15, none, 0);
    }
    let setting = Setting {
        p: two(&bytes[6..]) | two(&bytes[10..]) << 16,
        order: bytes[8].into(),
        n: bytes[9].into(),
        weights: std::array::from_fn(|k| 1 + u32::from(bytes[12 + k / 2] >> (4 * (k % 2)) & 15)),
    };
    let last = count - 1;
    let terms = BLOCK_TERMS * last + two(&bytes[BLOCK_BYTES * last + 4..]) as usize;
    if blocks_for(terms) != count || terms > MOST_TERMS {
        return (16, none, 0);
    }
    for (number, block) in bytes.chunks_exact(BLOCK_BYTES).enumerate() {
        let here = BLOCK_TERMS.min(terms - BLOCK_TERMS * number);
        let unused = &block[HEADER + PLACE * here..BLOCK_BYTES - 4];
        let right = block[..HEADER] == header(number, count, here, setting);
        if !right || unused.iter().any(|&b| b != 0) {
            return (16, none, 0);
        }
    }
    let refusal = setting.refusal();
    if refusal != 0 {
        return (refusal, none, 0);
    }
    let refusal = match setting.order {
        1 => terms_refusal(lex_key, setting, bytes, terms),
        2 => terms_refusal(|w| w, setting, bytes, terms),
        _ => terms_refusal(deg_rev_lex_key, setting, bytes, terms),
    };
    if refusal != 0 {
        return (refusal, none, 0);
    }
    if terms > out.words.len() {
        return (10, none, 0);
    }
    (0, setting, terms)
}

/// The refusal of the terms, or 0.
#[inline(always)]
fn terms_refusal(key: impl Fn(u64) -> u64, setting: Setting, bytes: &[u8], terms: usize) -> u64 {
    let (p, layout) = (setting.p, setting.layout());
    let mut last = None;
    let mut late = 0;
    for (word, coef) in terms_in(bytes, terms) {
        if coef == 0 || coef >= p {
            return 4;
        }
        if !layout.has(word) {
            return 5;
        }
        if last.is_some_and(|last| key(last) <= key(word)) {
            late = 6;
        }
        last = Some(word);
    }
    late
}

/// The first terms in blocks, so many.
#[inline(always)]
fn terms_in(bytes: &[u8], terms: usize) -> impl Iterator<Item = (u64, u32)> + '_ {
    let blocks = bytes.chunks_exact(BLOCK_BYTES);
    let places = blocks.flat_map(|block| block[HEADER..BLOCK_BYTES - 4].chunks_exact(PLACE));
    let term = |place: &[u8]| {
        let word = u64::from_le_bytes(place[..8].try_into().expect("8 bytes"));
        let coef = u32::from_le_bytes(place[8..].try_into().expect("4 bytes"));
        (word, coef)
    };
    places.take(terms).map(term)
}

fn blocks_for(terms: usize) -> usize {
    terms.div_ceil(BLOCK_TERMS).max(1)
}

fn header(number: usize, count: usize, here: usize, setting: Setting) -> [u8; HEADER] {
    let mut header = [0; HEADER];
    header[..2].copy_from_slice(&(number as u16).to_le_bytes());
    header[2..4].copy_from_slice(&(count as u16).to_le_bytes());
    header[4..6].copy_from_slice(&(here as u16).to_le_bytes());
    let p = setting.p.to_le_bytes();
    header[6..8].copy_from_slice(&p[..2]);
    header[10..12].copy_from_slice(&p[2..]);
    header[12..15].copy_from_slice(&setting.packed_weights().to_le_bytes()[..3]);
    (header[8], header[9]) = (setting.order as u8, setting.n as u8);
    header
}

fn check(block: &[u8]) -> u32 {
    let words = block[..BLOCK_BYTES - 4].chunks_exact(4);
    let word = |w: &[u8]| u32::from_le_bytes(w.try_into().expect("4 bytes"));
    words.map(word).fold(1, u32::wrapping_add)
}

fn two(bytes: &[u8]) -> u32 {
    u16::from_le_bytes([bytes[0], bytes[1]]).into()
}
