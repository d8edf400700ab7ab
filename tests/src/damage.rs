//! Damage to the polynomials and loans of a run or a reduction, so that an opening check refuses it.
use crate::call::{Given, Loan, Numbers};
use crate::generate::up_to;
use crate::limits::{LARGEST_WEIGHT, MOST_TERMS};
use crate::monomial::{first_six, Order, FIELDS};
use crate::random::Random;

/// What is damaged.
#[derive(Clone, Copy, Debug, PartialEq, Eq)]
pub enum Damage {
    Prime,
    Order,
    Variables,
    Weight,
    WeightNumber,
    InputLengths,
    OutputLengths,
    BucketSpace,
    WorkSpace,
    Starts,
    Coefficient,
    Word,
    Fall,
}

/// Numbers that are no operation, no polynomial, no place, and not 0.
const FAR: [usize; 5] = [usize::MAX, usize::MAX - 1, 1 << 63, 1 << 32, (1 << 32) + 1];

impl Damage {
    pub const ALL: [Damage; 13] = [
        Damage::Prime,
        Damage::Order,
        Damage::Variables,
        Damage::Weight,
        Damage::WeightNumber,
        Damage::InputLengths,
        Damage::OutputLengths,
        Damage::BucketSpace,
        Damage::WorkSpace,
        Damage::Starts,
        Damage::Coefficient,
        Damage::Word,
        Damage::Fall,
    ];

    /// Damage to the terms of a polynomial.
    pub const TERMS: [Damage; 3] = [Damage::Coefficient, Damage::Word, Damage::Fall];

    /// The refusal of a call with this damage alone, where it has something to damage.
    pub fn number(self) -> u64 {
        match self {
            Damage::Prime => 1,
            Damage::Order => 2,
            Damage::Variables => 3,
            Damage::Weight => 24,
            Damage::WeightNumber
            | Damage::InputLengths
            | Damage::OutputLengths
            | Damage::BucketSpace
            | Damage::WorkSpace
            | Damage::Starts => 8,
            Damage::Coefficient => 4,
            Damage::Word => 5,
            Damage::Fall => 6,
        }
    }

    /// Does the damage. Terms are damaged only where there are any.
    pub fn on(self, random: &mut Random, given: &mut Given, loan: &mut Loan) {
        match self {
            Damage::Prime => given.numbers.p = no_prime(random),
            Damage::Order => given.numbers.order = no_order(random),
            Damage::Variables => given.numbers.n = no_variables(random),
            Damage::Weight => weight(random, &mut given.numbers),
            Damage::WeightNumber => weight_number(random, &mut given.numbers),
            Damage::InputLengths => unequal(random, &mut given.words, &mut given.coefs),
            Damage::OutputLengths => unequal(random, &mut loan.output.0, &mut loan.output.1),
            Damage::BucketSpace => resize(random, &mut loan.space.0, &mut loan.space.1),
            Damage::WorkSpace => resize(random, &mut loan.work.0, &mut loan.work.1),
            Damage::Starts => starts(random, &mut given.starts),
            Damage::Coefficient => coefficient(random, given),
            Damage::Word => word(random, given),
            Damage::Fall => fall(random, given),
        }
    }
}

fn no_order(random: &mut Random) -> u32 {
    random.pick(&[0, 4, 5, 257, 1 << 31, u32::MAX])
}

fn no_variables(random: &mut Random) -> u32 {
    random.pick(&[0, 7, 8, 255, 258, 1 << 16, u32::MAX])
}

/// Whether the weight at a place, from 0, is outside its range.
fn is_bad(n: u32, place: usize, weight: u32) -> bool {
    match place < n as usize {
        true => !(1..=LARGEST_WEIGHT).contains(&weight),
        false => weight != 1,
    }
}

/// Puts a weight outside its range in the place of one, often at an end or just beyond n. Where there are no
/// weights it is put there alone.
pub fn weight(random: &mut Random, numbers: &mut Numbers) {
    let n = numbers.n;
    if numbers.weights.is_empty() {
        numbers.weights.push(0);
        return;
    }
    let last = numbers.weights.len() - 1;
    let place = match random.below(3) {
        0 => random.pick(&[0, last]),
        1 => last.min(n as usize),
        _ => up_to(random, last),
    };
    let any = random.word() as u32;
    let weight = random.pick(&[0, 17, u32::MAX, 2, 16, 257, 1 << 16, any]);
    let weight = if is_bad(n, place, weight) { weight } else { 0 };
    numbers.weights[place] = weight;
}

/// Has some weights too many, each 1, or too few. One that is outside its range stays.
pub fn weight_number(random: &mut Random, numbers: &mut Numbers) {
    let (n, weights) = (numbers.n, &mut numbers.weights);
    let less = weights.len() - up_to(random, weights.len());
    let good_end = weights.iter().enumerate().rev();
    let good_end = good_end.take_while(|&(k, &w)| !is_bad(n, k, w)).count();
    match (less.min(good_end), random.below(2)) {
        (0, _) | (_, 0) => weights.extend(vec![1; 7 - weights.len().min(6)]),
        (less, _) => weights.truncate(weights.len() - less),
    }
}

/// A number that is far from any that is used.
pub fn far(random: &mut Random) -> usize {
    random.pick(&FAR)
}

/// Small numbers that are no primes, and some near 2^16.
const SMALL: [u32; 9] = [0, 1, 4, 6, 9, 65_520, 65_535, 65_536, 65_538];

/// Products of two primes near the root of the largest prime, and near the root of 2^32, and twice a prime.
const PRODUCTS: [u32; 7] = [
    46_337 * 46_337,
    46_337 * 46_327,
    46_327 * 46_327,
    46_309 * 46_337,
    2 * 1_073_741_789,
    65_519 * 65_521,
    65_521 * 65_521,
];

/// Numbers over the largest prime: the next ones, and among these the next prime, and the last prime of
/// 32 bits.
const OVER: [u32; 6] = [
    1 << 31,
    (1 << 31) + 1,
    2_147_483_659,
    4_294_967_291,
    u32::MAX - 1,
    u32::MAX,
];

/// A number that is no prime, or a prime that is too large.
pub fn no_prime(random: &mut Random) -> u32 {
    match random.below(5) {
        0 => random.pick(&SMALL),
        1 => random.pick(&PRODUCTS),
        2 => random.pick(&OVER),
        3 => 4 + 2 * random.below((1 << 31) - 2) as u32,
        _ => {
            let most = random.pick(&[254, 65_534]);
            let factor = |random: &mut Random| 2 + random.below(most) as u32;
            factor(random) * factor(random)
        }
    }
}

/// Makes one of two lists longer or shorter.
fn unequal(random: &mut Random, words: &mut Vec<u64>, coefs: &mut Vec<u32>) {
    let more = words.is_empty() || random.below(2) == 0;
    match (more, random.below(2)) {
        (true, 0) => words.push(random.word()),
        (true, _) => coefs.push(1),
        (false, 0) => drop(words.pop()),
        (false, _) => drop(coefs.pop()),
    }
}

/// Gives words, coefficients or both another length.
fn resize(random: &mut Random, words: &mut Vec<u64>, coefs: &mut Vec<u32>) {
    let len = words.len();
    let less = len.saturating_sub(1);
    let other = random.pick(&[0, 1, less, less, len + 1, len + 1, 2 * len + 1, MOST_TERMS]);
    let which = random.below(3);
    if which != 0 {
        words.resize(other, 1);
    }
    if which != 1 {
        coefs.resize(other, 1);
    }
}

/// Takes all starts away, or moves the first, the last or one between, or has some too many.
fn starts(random: &mut Random, starts: &mut Vec<usize>) {
    let last = starts.len().saturating_sub(1);
    let end = starts.last().copied().unwrap_or(0);
    let far = far(random);
    let over = end.saturating_add(random.pick(&[1, 2, far]));
    match random.below(7) {
        0 => starts.clear(),
        1 if last > 0 => starts[0] = starts[0].wrapping_add(1),
        2 if end > 0 => starts[last] -= 1,
        3 if last > 1 => starts[1 + up_to(random, last - 2)] = over,
        4 if last > 0 => starts[last] = over,
        // Only the fall from the length to 0 is wrong.
        5 if last > 0 && end > 0 => drop(starts.splice(1..1, [end, 0])),
        _ => starts.push(over),
    }
}

/// Makes a coefficient 0, or p or more.
fn coefficient(random: &mut Random, given: &mut Given) {
    if given.coefs.is_empty() {
        return;
    }
    let k = place(random, given.coefs.len());
    let p = given.numbers.p;
    let over = p.saturating_add(random.below(1 << 16) as u32);
    given.coefs[k] = random.pick(&[0, 0, p, p, over, u32::MAX]);
}

/// A place below the length, often the first or the last.
fn place(random: &mut Random, len: usize) -> usize {
    match random.below(6) {
        0 => 0,
        1 => len - 1,
        _ => up_to(random, len - 1),
    }
}

/// Makes a word that is not of the layout.
fn word(random: &mut Random, given: &mut Given) {
    if given.words.is_empty() {
        return;
    }
    let k = place(random, given.words.len());
    let Numbers { n, ref weights, .. } = given.numbers;
    let with_number = |o: &Order| o.number() == given.numbers.order;
    let own = Order::ALL.into_iter().find(with_number);
    let unweighted = own.unwrap_or(Order::LEX);
    let order = unweighted.weighted(first_six(weights));
    let mut fields = order.fields(given.words[k]);
    let beyond = (n as usize).min(FIELDS);
    given.words[k] = match random.below(8) {
        // A field over 127, and the degree with it.
        0 => {
            fields[up_to(random, FIELDS - 1)] |= 128;
            order.word(&fields)
        }
        // A variable beyond n, and the degree with it.
        1 if beyond < FIELDS => {
            fields[beyond + up_to(random, FIELDS - 1 - beyond)] = 1 + random.below(127) as u8;
            order.word(&fields)
        }
        // Another degree.
        2 => given.words[k].wrapping_add(1 << 48),
        3 => given.words[k].wrapping_sub(1 << 48),
        4 => u64::MAX - random.below(2),
        // The sum of the exponents without weights.
        5..=6 if unweighted.degree(&fields) != order.degree(&fields) => unweighted.word(&fields),
        _ => given.words[k] ^ 1 << random.below(64),
    };
}

/// Makes a term of a polynomial stand before a larger one, or before a like one.
fn fall(random: &mut Random, given: &mut Given) {
    let len = given.words.len();
    let inner: Vec<usize> = (1..len).filter(|k| !given.starts.contains(k)).collect();
    if inner.is_empty() {
        return;
    }
    let k = inner[place(random, inner.len())];
    match random.below(2) {
        0 => given.words.swap(k - 1, k),
        _ => given.words[k] = given.words[k - 1],
    }
}
