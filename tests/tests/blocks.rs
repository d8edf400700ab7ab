//! The proved block store against the second program: polynomials of many sizes written and read,
//! blocks damaged in every byte, and every refusal.
use second::block_store::{check, read as model_read, repair, Polynomial};
use second::call::Numbers;
use second::cases;
use second::damage::{no_prime, weight, weight_number};
use second::generate::{self, places, up_to};
use second::library;
use second::limits::{BLOCK_BYTES, BLOCK_TERMS, LARGEST_PRIME, MOST_BLOCKS, MOST_TERMS};
use second::monomial::{Order, ONES};
use second::polynomial::lent;
use second::random::Random;
use second::refusals::Refusals;
use second::residue::is_prime;
use std::collections::BTreeSet;

/// One of so many cases is a call with several faults, and each refusal must be given once in so many.
const CASES_PER_CALL: u64 = 2;
const CASES_PER_REFUSAL: u64 = 5_000;

const SIZES: [usize; 7] = [
    0,
    1,
    BLOCK_TERMS,
    BLOCK_TERMS + 1,
    MOST_TERMS - 1,
    MOST_TERMS,
    MOST_TERMS + 1,
];

/// A polynomial with exactly so many terms.
fn polynomial(random: &mut Random, terms: usize) -> Polynomial {
    let order = random.pick(&Order::ALL);
    // One variable has 128 monomials, and two have 16,384.
    let n = match terms <= 100 {
        true => 1 + random.below(6) as usize,
        false => 2 + random.below(5) as usize,
    };
    let order = order.weighted(generate::weights(random, n));
    let p = generate::prime(random);
    let mut monomials = BTreeSet::new();
    while monomials.len() < terms {
        monomials.insert(generate::monomial(random, n, 127));
    }
    let falling = generate::falling(order, monomials.into_iter().collect());
    let (words, coefs) = lent(order, &generate::with_coefs(random, p, falling));
    Polynomial {
        numbers: Numbers::new((order, n, p)),
        words,
        coefs,
    }
}

/// A size: one of the list, or any small one.
fn size(random: &mut Random) -> usize {
    match random.below(40) {
        0 => random.pick(&SIZES),
        1..=20 => random.pick(&SIZES[..4]),
        _ => random.below(130) as usize,
    }
}

/// Writes with both, with room for so many bytes, which hold anything. Both must answer the same, and
/// the bytes past the result, or all where it is refused, must be as they were.
fn write(random: &mut Random, f: &Polynomial, room: usize) -> Result<Vec<u8>, u64> {
    let before: Vec<u8> = (0..room).map(|_| random.word() as u8).collect();
    let mut bytes = before.clone();
    let answer = library::write(f, &mut bytes);
    let expected = f.write(room);
    let count = |blocks: &Vec<u8>| (blocks.len() / BLOCK_BYTES) as u64;
    assert_eq!(answer, expected.as_ref().map(count).map_err(|&r| r));
    let written = expected.as_deref().unwrap_or_default();
    assert!(bytes[..written.len()] == *written);
    assert!(bytes[written.len()..] == before[written.len()..]);
    expected
}

/// Reads with both, into so many places, which hold anything. The same as for `write`.
fn read(random: &mut Random, bytes: &[u8], room: (usize, usize)) -> Result<Polynomial, u64> {
    let before = places(random, room.0, room.1);
    let (mut words, mut coefs) = before.clone();
    let answer = library::read(bytes, &mut words, &mut coefs);
    let expected = model_read(bytes, room.0, room.1);
    let numbers = |f: &Polynomial| (f.numbers.clone(), f.words.len() as u64);
    assert_eq!(answer, expected.as_ref().map(numbers).map_err(|&r| r));
    let none = Polynomial::default();
    let f = expected.as_ref().unwrap_or(&none);
    let len = f.words.len();
    assert!(words[..len] == *f.words && words[len..] == before.0[len..]);
    assert!(coefs[..len] == *f.coefs && coefs[len..] == before.1[len..]);
    expected
}

#[test]
fn written_and_read_back() {
    let random = &mut Random::new(101);
    let mut sizes = BTreeSet::new();
    for _ in 0..cases() / 10 {
        let terms = size(random);
        let f = polynomial(random, terms);
        let whole = f.blocks().len();
        let room = random.pick(&[whole, whole, whole + 1, whole + 700, whole - 1, 0]);
        let expected = match (terms > MOST_TERMS, room < whole) {
            (true, _) => Err(11),
            (false, true) => Err(10),
            (false, false) => Ok(f.blocks()),
        };
        assert_eq!(write(random, &f, room), expected);
        let Ok(blocks) = expected else { continue };
        sizes.insert(terms);
        let places = random.pick(&[terms, terms + 1, terms + 50]);
        assert_eq!(read(random, &blocks, (places, places)), Ok(f.clone()));
        if terms > 0 {
            assert_eq!(read(random, &blocks, (terms - 1, terms - 1)), Err(10));
        }
    }
    assert!(SIZES[..6].iter().all(|terms| sizes.contains(terms)));
}

#[test]
fn zero_is_one_block() {
    let zero = Polynomial {
        numbers: Numbers::new((Order::DEG_REV_LEX, 2, 7)),
        ..Polynomial::default()
    };
    let blocks = write(&mut Random::new(1), &zero, BLOCK_BYTES).expect("zero is written");
    let header = [0, 0, 1, 0, 0, 0, 7, 0, 3, 2];
    assert_eq!(blocks[..10], header);
    assert!(blocks[10..508].iter().all(|&byte| byte == 0));
    assert_eq!(blocks[508..], [0x04, 0x02, 0x08, 0x00]);
}

/// The upper half of p stands behind n.
#[test]
fn larger_primes_in_a_header() {
    let header = |p| {
        let zero = Polynomial {
            numbers: Numbers::new((Order::LEX, 6, p)),
            ..Polynomial::default()
        };
        let blocks = write(&mut Random::new(1), &zero, BLOCK_BYTES).expect("zero is written");
        assert_eq!(read(&mut Random::new(2), &blocks, (0, 0)), Ok(zero));
        blocks[..16].to_vec()
    };
    let of = |[a, b, c, d]: [u8; 4]| [0, 0, 1, 0, 0, 0, a, b, 1, 6, c, d, 0, 0, 0, 0];
    assert_eq!(header(65_521), of([0xf1, 0xff, 0, 0]));
    assert_eq!(header(65_537), of([1, 0, 1, 0]));
    assert_eq!(header(2_147_483_629), of([0xed, 0xff, 0xff, 0x7f]));
    assert_eq!(header(LARGEST_PRIME), of([0xff, 0xff, 0xff, 0x7f]));
}

/// Each byte of the blocks changed: 15. With the check put right: what the model says, and where the
/// polynomial is accepted, its blocks are these bytes. Gives the answers met, 0 for an accepted one.
fn damage_each_byte(random: &mut Random, terms: usize, step: usize) -> BTreeSet<u64> {
    let f = polynomial(random, terms);
    let blocks = f.blocks();
    let room = (MOST_TERMS, MOST_TERMS);
    let mut answers = BTreeSet::new();
    for at in (0..blocks.len()).step_by(step) {
        let mut bytes = blocks.clone();
        // Another bit, the order 2 for 1, or anything.
        bytes[at] ^= match random.below(3) {
            0 => 1 << random.below(8),
            1 => 3,
            _ => 1 + random.below(255) as u8,
        };
        assert_eq!(read(random, &bytes, room), Err(15), "byte {at}");
        let start = at / BLOCK_BYTES * BLOCK_BYTES;
        repair(&mut bytes[start..start + BLOCK_BYTES]);
        match read(random, &bytes, room) {
            Ok(g) => {
                assert_eq!(g.write(blocks.len()), Ok(bytes));
                answers.insert(0);
            }
            Err(refusal) => {
                answers.insert(refusal);
            }
        }
    }
    answers
}

#[test]
fn damaged_in_every_byte() {
    let random = &mut Random::new(103);
    let mut answers = BTreeSet::new();
    for round in 0..30 {
        for terms in [0, 1, 40, 41, 42, 82, 83, 200] {
            answers.extend(damage_each_byte(random, terms, 1 + round % 3));
        }
    }
    for terms in [MOST_TERMS - 1, MOST_TERMS] {
        answers.extend(damage_each_byte(random, terms, 29));
    }
    let expected: BTreeSet<u64> = [0, 1, 2, 3, 4, 5, 6, 16, 24].into();
    assert_eq!(answers, expected);
}

/// Several faults at once: the refusals come in their order.
#[test]
fn many_faults() {
    let random = &mut Random::new(107);
    let mut met = Refusals::default();
    for _ in 0..cases() / CASES_PER_CALL {
        let terms = random.pick(&[0, 1, 2, 41, 42, 90]);
        let f = polynomial(random, terms);
        let mut bytes = f.blocks();
        for _ in 0..random.below(3) {
            let at = random.below(bytes.len() as u64) as usize;
            // Headers, and the first places, more often.
            let at = random.pick(&[at, at / BLOCK_BYTES * BLOCK_BYTES + at % 28]);
            let any = random.word() as u8;
            bytes[at] = random.pick(&[0, 1, 7, any]);
        }
        if terms > 1 && random.below(10) == 0 {
            let (first, second) = bytes[16..40].split_at_mut(12);
            first.swap_with_slice(second);
        }
        for block in bytes.chunks_mut(BLOCK_BYTES) {
            if random.below(12) != 0 {
                repair(block);
            }
        }
        match random.below(30) {
            0 => bytes.push(0),
            1 => bytes.truncate(BLOCK_BYTES * random.below(2) as usize),
            2 => bytes.resize((MOST_BLOCKS + 1) * BLOCK_BYTES, 0),
            _ => {}
        }
        let words = random.pick(&[terms, terms, MOST_TERMS, 0]);
        let coefs = random.pick(&[words, words, words, words, words + 1]);
        let answer = read(random, &bytes, (words, coefs));
        met.meet(*answer.as_ref().err().unwrap_or(&0));
        if let Ok(g) = answer {
            assert_eq!(g.write(bytes.len()), Ok(bytes));
        }
    }
    let least = cases() / CASES_PER_REFUSAL;
    met.expect("read", least);
}

/// An order fault at place `at`: the word before it again, or the two in turn.
fn fault(random: &mut Random, f: &mut Polynomial, at: usize) {
    match random.below(2) {
        0 => f.words[at] = f.words[at - 1],
        _ => f.words.swap(at - 1, at),
    }
}

/// Blocks of good form with an order fault, within a block or from one to the next, alone or with a bad
/// coefficient after it.
#[test]
fn faults_of_the_order() {
    let random = &mut Random::new(127);
    let (mut from_block_to_block, mut then_four) = (0, 0);
    for case in 0..cases() / CASES_PER_CALL {
        let terms = BLOCK_TERMS + 2 + random.below(90) as usize;
        let mut f = polynomial(random, terms);
        let any = 1 + random.below(terms as u64 - 1) as usize;
        let first_of_a_block = BLOCK_TERMS * (1 + any % ((terms - 1) / BLOCK_TERMS));
        let at = random.pick(&[any, first_of_a_block]);
        fault(random, &mut f, at);
        let four = at + 1 < terms && case % 3 == 0;
        if four {
            let later = at + 1 + random.below((terms - at - 1) as u64) as usize;
            f.coefs[later] = random.pick(&[0, f.numbers.p, u32::MAX]);
        }
        let refusal = read(random, &f.blocks(), (terms, terms)).err();
        assert_eq!(refusal, Some(if four { 4 } else { 6 }), "place {at}");
        from_block_to_block += u64::from(!four && at == first_of_a_block);
        then_four += u64::from(four);
    }
    let least = cases() / CASES_PER_REFUSAL;
    assert!(from_block_to_block > least && then_four > least);
}

/// One block changed, with its check put right.
fn changed(blocks: &[u8], number: usize, change: impl Fn(&mut [u8])) -> Vec<u8> {
    let mut bytes = blocks.to_vec();
    let block = &mut bytes[BLOCK_BYTES * number..BLOCK_BYTES * (number + 1)];
    change(block);
    repair(block);
    bytes
}

/// These bytes, from a place on, in all blocks, with the checks put right.
fn in_all(blocks: &[u8], at: usize, put: &[u8]) -> Vec<u8> {
    let mut bytes = blocks.to_vec();
    for block in bytes.chunks_mut(BLOCK_BYTES) {
        block[at..at + put.len()].copy_from_slice(put);
        repair(block);
    }
    bytes
}

/// What DECISIONS.md says of refusal 16: terms fields, and filler.
#[test]
fn sixteen() {
    let random = &mut Random::new(109);
    let room = (MOST_TERMS, MOST_TERMS);
    let two = polynomial(random, BLOCK_TERMS + 1).blocks();
    let full = polynomial(random, MOST_TERMS).blocks();
    let zero = polynomial(random, 0).blocks();
    // A terms field over 41.
    let over = changed(&zero, 0, |block| block[4] = 42);
    assert_eq!(read(random, &over, room), Err(16));
    // An empty last block among several.
    let empty = changed(&two, 1, |block| block[4..508].fill(0));
    assert_eq!(read(random, &empty, room), Err(16));
    let empty = changed(&two, 1, |block| {
        block[4] = 0;
        block[16..508].fill(0);
    });
    assert_eq!(read(random, &empty, room), Err(16));
    // More than 37 terms in block 100; 37 are read.
    assert!(read(random, &full, room).is_ok());
    let over = changed(&full, 99, |block| block[4] = 38);
    assert_eq!(read(random, &over, room), Err(16));
    // A block in the place of another, and in the second block each byte of p, of the weights and of filler.
    let mut swapped = two.clone();
    swapped.rotate_left(BLOCK_BYTES);
    assert_eq!(read(random, &swapped, room), Err(16));
    for at in (6..8).chain(10..16).chain(28..508) {
        let filled = changed(&two, 1, |block| block[at] ^= 1);
        assert_eq!(read(random, &filled, room), Err(16), "byte {at}");
    }
    // 15 of a later block comes before 16 of an earlier one.
    let mut both = changed(&two, 0, |block| block[0] = 1);
    both[BLOCK_BYTES + 508] ^= 1;
    assert_eq!(read(random, &both, room), Err(15));
    // A coefficient 0 within the count is 4.
    let none = changed(&two, 1, |block| block[24..28].fill(0));
    assert_eq!(read(random, &none, room), Err(4));
}

/// Puts p into all blocks, with their checks put right.
fn with_prime(blocks: &[u8], p: u32) -> Vec<u8> {
    let (lower, upper) = (&p.to_le_bytes()[..2], &p.to_le_bytes()[2..]);
    in_all(&in_all(blocks, 6, lower), 10, upper)
}

/// Another number for p in all blocks: a prime, a number that is none or is too large, or p with some bits
/// of its upper half changed.
fn other_prime(random: &mut Random, p: u32) -> u32 {
    match random.below(3) {
        0 => generate::prime(random),
        1 => no_prime(random),
        _ => p ^ 1 << (16 + random.below(16)),
    }
}

/// Changes a byte of the upper half of p in a later block, or a byte of the weights or the zero byte in any.
fn upper_damaged(random: &mut Random, blocks: &[u8]) -> Vec<u8> {
    let later = 1 + up_to(random, blocks.len() / BLOCK_BYTES - 2);
    let bit = 1 << random.below(8);
    let (block, at) = match random.below(2) {
        0 => (later, 10 + up_to(random, 1)),
        _ => (random.pick(&[0, later]), 12 + up_to(random, 3)),
    };
    changed(blocks, block, |block| block[at] ^= bit)
}

/// The same p in all blocks: 1 where it is no prime up to the limit, and else what its coefficients ask.
/// With a byte of the upper half changed in a later block, or a byte behind it in any, 16 comes before 1.
#[test]
fn another_prime_in_all_blocks() {
    let random = &mut Random::new(131);
    let (mut met, mut over) = (Refusals::default(), 0);
    for _ in 0..cases() / CASES_PER_CALL {
        let terms = BLOCK_TERMS + 1 + up_to(random, 60);
        let f = polynomial(random, terms);
        let p = other_prime(random, f.numbers.p);
        let bytes = with_prime(&f.blocks(), p);
        let allowed = p <= LARGEST_PRIME && is_prime(p);
        let expected = match allowed {
            false => Some(1),
            true => f.coefs.iter().any(|&c| c >= p).then_some(4),
        };
        let places = (terms, terms);
        let refusal = read(random, &bytes, places).err();
        assert_eq!(refusal, expected, "{p} in all blocks");
        met.meet(refusal.unwrap_or(0));
        over += u64::from(p > LARGEST_PRIME && is_prime(p));
        let bytes = upper_damaged(random, &bytes);
        assert_eq!(read(random, &bytes, places), Err(16), "{p} in all but one");
        met.meet(16);
    }
    println!("{met:?}, primes over the limit: {over}");
    let least = cases() / CASES_PER_REFUSAL;
    assert!([0, 1, 4, 16].iter().all(|&number| met.of(number) > least));
    assert!(over > least);
}

/// The weights by their bytes: x1 in the low half of byte 12, x2 in its high half, and so on.
#[test]
fn weights_in_a_header() {
    for (n, weights, bytes) in [
        (6, [1, 2, 3, 4, 5, 6], [0x10, 0x32, 0x54]),
        (6, [6, 5, 4, 3, 2, 1], [0x45, 0x23, 0x01]),
        (6, [16; 6], [0xff, 0xff, 0xff]),
        (5, [16, 1, 2, 1, 9, 1], [0x0f, 0x01, 0x08]),
        (2, [16, 9, 1, 1, 1, 1], [0x8f, 0, 0]),
        (1, [2, 1, 1, 1, 1, 1], [0x01, 0, 0]),
        (6, ONES, [0, 0, 0]),
    ] {
        let zero = Polynomial {
            numbers: Numbers::new((Order::DEG_LEX.weighted(weights), n, 7)),
            ..Polynomial::default()
        };
        let block = write(&mut Random::new(1), &zero, BLOCK_BYTES).expect("zero is written");
        let header = [0, 0, 1, 0, 0, 0, 7, 0, 2, n as u8, 0, 0];
        assert_eq!(block[..12], header);
        assert_eq!((&block[12..15], block[15]), (&bytes[..], 0), "{weights:?}");
        assert_eq!(read(&mut Random::new(2), &block, (0, 0)), Ok(zero));
    }
}

/// x1 + x2 under dp with weights of 5 and 2, by its bytes: with the halves of byte 12 exchanged it has weights
/// of 2 and 5, and its words are not of that layout; the polynomial zero is read with them.
#[test]
fn halves_of_a_byte() {
    let random = &mut Random::new(1);
    let setting = (Order::DEG_REV_LEX.weighted([5, 2, 1, 1, 1, 1]), 2, 7);
    let f = Polynomial {
        numbers: Numbers::new(setting),
        words: vec![0x0005_0000_0000_0001, 0x0002_0000_0000_0100],
        coefs: vec![1, 1],
    };
    let block = write(random, &f, BLOCK_BYTES).expect("it is written");
    assert_eq!(block[12..16], [0x14, 0, 0, 0]);
    assert_eq!(block[16..28], [1, 0, 0, 0, 0, 0, 5, 0, 1, 0, 0, 0]);
    assert_eq!(read(random, &block, (2, 2)), Ok(f.clone()));
    let exchanged = |block: &[u8]| changed(block, 0, |block| block[12] = 0x41);
    assert_eq!(read(random, &exchanged(&block), (2, 2)), Err(5));
    let zero = |weights| Polynomial {
        numbers: Numbers::new((Order::DEG_REV_LEX.weighted(weights), 2, 7)),
        ..Polynomial::default()
    };
    let block = zero([5, 2, 1, 1, 1, 1]).blocks();
    let other = zero([2, 5, 1, 1, 1, 1]);
    assert_eq!(read(random, &exchanged(&block), (0, 0)), Ok(other));
}

/// The weights that three bytes hold, written out.
fn weights_of([a, b, c]: [u8; 3]) -> [u32; 6] {
    [a & 15, a >> 4, b & 15, b >> 4, c & 15, c >> 4].map(|half| 1 + u32::from(half))
}

/// The bytes of other weights, mostly like these, or any.
fn other_weights(random: &mut Random, own: [u8; 3]) -> [u8; 3] {
    let mut bytes = own;
    match random.below(3) {
        0 => bytes = bytes.map(|_| random.word() as u8),
        1 => bytes[up_to(random, 2)] ^= 1 << random.below(8),
        _ => {
            let byte = up_to(random, 2);
            bytes[byte] = bytes[byte].rotate_left(4);
        }
    }
    bytes
}

/// What other weights, the same in all blocks, may give: 24 where one beyond n is not 1; else 5 where a word
/// has another degree by them, and 6 or nothing where none has.
fn expected_of(f: &Polynomial, others: [u32; 6]) -> &'static [u64] {
    let (order, n) = f.numbers.opened().expect("a setting");
    let other = order.weighted(others);
    let fits = |&w: &u64| other.degree(&order.fields(w)) == w >> 48;
    match f.words.iter().all(fits) {
        _ if others[n..].iter().any(|&w| w != 1) => &[24],
        true => &[0, 6],
        false => &[5],
    }
}

/// Other weights in all blocks. In one block alone they give 16, and so does byte 15 where it is not 0 in all.
#[test]
fn other_weights_in_all_blocks() {
    let random = &mut Random::new(137);
    let mut met = Refusals::default();
    for _ in 0..cases() / CASES_PER_CALL {
        let terms = up_to(random, BLOCK_TERMS + 20);
        let f = polynomial(random, terms);
        let blocks = f.blocks();
        let bytes = other_weights(random, blocks[12..15].try_into().expect("three"));
        let others = weights_of(bytes);
        let (room, all) = ((terms, terms), in_all(&blocks, 12, &bytes));
        let refusal = read(random, &all, room).err().unwrap_or(0);
        let expected = expected_of(&f, others);
        assert!(expected.contains(&refusal), "{refusal} of {others:?}");
        met.meet(refusal);
        let form = in_all(&all, 15, &[1 << random.below(8)]);
        assert_eq!(read(random, &form, room), Err(16));
        if blocks.len() > BLOCK_BYTES && all != blocks {
            let at = up_to(random, 1) * BLOCK_BYTES;
            let mut mixed = blocks.clone();
            mixed[at..at + BLOCK_BYTES].copy_from_slice(&all[at..at + BLOCK_BYTES]);
            assert_eq!(read(random, &mixed, room), Err(16), "{others:?}");
            met.meet(16);
        }
    }
    println!("{met:?}");
    let least = cases() / CASES_PER_REFUSAL;
    assert!([0, 5, 16, 24].iter().all(|&number| met.of(number) > least));
}

/// Two blocks in two variables whose third weight is 2. In reading 24 comes after 8, 14, 15, 16, 1, 2 and 3, and
/// before 4, 5, 6 and 10. With three variables that weight is good, and no word has x3.
#[test]
fn weights_beyond_n_in_their_turn() {
    let random = &mut Random::new(139);
    let terms = BLOCK_TERMS + 1;
    let mut f = Polynomial::default();
    while f.numbers.n != 2 || f.numbers.weights != ONES {
        f = polynomial(random, terms);
    }
    let (all, room) = (in_all(&f.blocks(), 12, &[0, 1, 0]), (terms, terms));
    for (room, refusal) in [(room, 24), ((0, 0), 24), ((0, 1), 8)] {
        assert_eq!(read(random, &all, room).err(), Some(refusal));
    }
    let mut equal = all.clone();
    equal.copy_within(16..24, 28); // the second word is the first
    repair(&mut equal[..BLOCK_BYTES]);
    let cut = &all[..all.len() - 1];
    let mut unlike = all.clone();
    unlike[BLOCK_BYTES + 12] ^= 1; // and the check is as it was
    for (bytes, refusal) in [(cut, 14), (&unlike[..], 15), (&equal[..], 24)] {
        assert_eq!(read(random, bytes, room).err(), Some(refusal));
    }
    for (at, put, refusal) in [
        (6, &[254, 255][..], Some(1)),
        (8, &[4], Some(2)),
        (9, &[7], Some(3)),
        (9, &[0], Some(3)),
        (15, &[1], Some(16)),
        (16, &[0; 8], Some(24)),
        (24, &[0; 4], Some(24)),
        (9, &[3], None),
    ] {
        let found = read(random, &in_all(&all, at, put), room).err();
        assert_eq!(found, refusal, "byte {at}");
    }
}

/// In writing 24, and then 8 for another number of weights, come before 4, 11 and 10.
#[test]
fn weights_before_terms_and_room() {
    let random = &mut Random::new(140);
    let mut f = polynomial(random, MOST_TERMS + 1);
    f.coefs[0] = 0;
    for (weights, refusal) in [
        (vec![0; 6], 24),
        (vec![0], 24),
        (vec![1; 5], 8),
        (vec![1; 7], 8),
    ] {
        f.numbers.weights = weights;
        assert_eq!(
            write(random, &f, 0).err(),
            Some(refusal),
            "{:?}",
            f.numbers.weights
        );
    }
    f.numbers.weights = vec![1; 6];
    assert_eq!(write(random, &f, 0).err(), Some(4));
}

/// Every refusal of writing, alone and with later ones.
#[test]
fn refused_writing() {
    let random = &mut Random::new(113);
    let mut met = Refusals::default();
    for _ in 0..cases() / CASES_PER_CALL {
        let terms = match random.below(100) {
            0 => MOST_TERMS + 1,
            _ => random.below(60) as usize,
        };
        let mut f = polynomial(random, terms);
        for _ in 0..random.below(4) {
            let at = random.below(1 + terms as u64) as usize;
            match random.below(10) {
                0 => f.numbers.p = no_prime(random),
                1 => f.numbers.order = random.pick(&[0, 4, u32::MAX]),
                2 => f.numbers.n = random.pick(&[0, 7, u32::MAX]),
                3 => f.words.push(0),
                4 if at < f.coefs.len() => f.coefs[at] = random.pick(&[0, f.numbers.p, u32::MAX]),
                5 if at < terms => f.words[at] = random.word(),
                6 if 1 < at && at < terms => f.words.swap(at, at - 1),
                7 => weight(random, &mut f.numbers),
                8 => weight_number(random, &mut f.numbers),
                _ => f.coefs.truncate(at),
            }
        }
        let most = MOST_BLOCKS * BLOCK_BYTES;
        let room = random.pick(&[
            most,
            most + BLOCK_BYTES,
            2 * BLOCK_BYTES,
            BLOCK_BYTES,
            BLOCK_BYTES - 1,
            0,
        ]);
        met.meet(write(random, &f, room).err().unwrap_or(0));
    }
    let least = cases() / CASES_PER_REFUSAL;
    met.expect("write", least);
}

/// The check wraps: the model's own, on a block whose words add up past 2^32.
#[test]
fn check_wraps() {
    let random = &mut Random::new(127);
    let f = polynomial(random, BLOCK_TERMS);
    let block = f.blocks();
    let sum: u64 = block[..508]
        .chunks(4)
        .map(|w| u64::from(u32::from_le_bytes(w.try_into().expect("4 bytes"))))
        .sum();
    assert!(sum > u64::from(u32::MAX));
    assert_eq!(u64::from(check(&block)), (sum + 1) % (1 << 32));
    assert_eq!(write(random, &f, BLOCK_BYTES).as_deref(), Ok(&block[..]));
}
