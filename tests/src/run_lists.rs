//! Generated runs that pass the opening checks. Each operation is made from what the buckets hold
//! when it comes, as if there were output for all.
use crate::call::{Given, Numbers, Setting};
use crate::generate::{falling, monomial, negative, up_to, with_coefs};
use crate::geobucket::Geobucket;
use crate::limits::{LARGEST_PRIME, MOST_TERMS};
use crate::monomial::{first_six, Order, LIMIT};
use crate::operations::{Operation, Operations};
use crate::polynomial::Term;
use crate::pools::Pools;
use crate::random::Random;
use crate::run::{ADD, LEAD, SUM};

/// Of so many runs one is large and one is long; of so many one fills the buckets.
const LARGE_EVERY: u64 = 25;
const FILL_EVERY: u64 = 4 * LARGE_EVERY;

/// The most operations of a short run and of a large one.
const SHORT: usize = 12;
const LARGE: usize = 6;

/// A run, and the length that the output must have for each operation that writes there.
#[derive(Clone, Debug)]
pub struct Made {
    pub given: Given,
    pub operations: Vec<usize>,
    pub needs: Vec<usize>,
}

impl Made {
    /// A length of the output: often enough for all, often one place too short for some operation.
    pub fn output_len(&self, random: &mut Random) -> usize {
        let most = self.needs.iter().copied().max().unwrap_or(0);
        match random.below(10) {
            0 => up_to(random, most),
            1..=2 if most > 0 => random.pick(&self.needs) - 1,
            3 if most > 0 => random.pick(&self.needs),
            4..=6 => most,
            _ => most + up_to(random, 20),
        }
    }
}

/// Makes runs.
pub struct Runs {
    pools: Pools,
}

impl Default for Runs {
    fn default() -> Self {
        Runs::new()
    }
}

impl Runs {
    pub fn new() -> Self {
        Runs {
            pools: Pools::new(),
        }
    }

    /// A run in some setting: a short one, a long one, a large one or one that fills the buckets.
    pub fn made(&self, random: &mut Random, case: u64, setting: Setting) -> Made {
        let mut list = List::new(setting);
        let fills = case % FILL_EVERY == 2;
        let long = fills || case % LARGE_EVERY == 1;
        if case % LARGE_EVERY == 0 {
            list.large(random, &self.pools.of(setting));
        } else {
            // Operations of case 0 fill the buckets.
            let mut operations = Operations::new(random, u64::from(!fills), setting);
            let count = match long {
                true => operations.count(random),
                false => up_to(random, SHORT),
            };
            list.operations(random, &mut operations, count);
        }
        list.made()
    }
}

/// A run in the making.
struct List {
    setting: Setting,
    buckets: Geobucket,
    polynomials: Vec<Vec<Term>>,
    operations: Vec<usize>,
    needs: Vec<usize>,
    /// The output places written so far.
    places: usize,
}

impl List {
    fn new(setting: Setting) -> Self {
        List {
            setting,
            buckets: Geobucket::new(setting.0, setting.2),
            polynomials: Vec::new(),
            operations: Vec::new(),
            needs: Vec::new(),
            places: 0,
        }
    }

    fn made(self) -> Made {
        Made {
            given: Given::new(self.setting, &self.polynomials),
            operations: self.operations,
            needs: self.needs,
        }
    }

    /// Generated operations, some earlier polynomials once more, and some polynomials that no
    /// operation uses.
    fn operations(&mut self, random: &mut Random, operations: &mut Operations, count: usize) {
        for _ in 0..count {
            match operations.next(random, &self.buckets) {
                Operation::Add(f) => self.add(f),
                Operation::Find | Operation::Take => self.take(),
                Operation::Sum => self.sum(),
            }
            match random.below(16) {
                0 => self.again(random),
                1 => self.unused(random),
                _ => {}
            }
        }
    }

    /// Additions of parts of the pool up to the most terms held, or one over, with leads and sums
    /// between them.
    fn large(&mut self, random: &mut Random, pool: &[Vec<u8>]) {
        for _ in 0..1 + up_to(random, LARGE - 1) {
            match random.below(8) {
                0 => self.sum(),
                1..=2 => self.take(),
                3 => self.again(random),
                _ => {
                    let f = self.part(random, pool);
                    self.add(f);
                }
            }
        }
    }

    /// About as many terms as there is room for.
    fn part(&self, random: &mut Random, pool: &[Vec<u8>]) -> Vec<Term> {
        let room = MOST_TERMS - self.buckets.held();
        let len = match random.below(8) {
            0 => room + 1,
            1..=2 => room,
            3 => up_to(random, MOST_TERMS + 1),
            4 => room / 2,
            _ => up_to(random, room),
        };
        let len = len.min(pool.len());
        let step = if 2 * len <= pool.len() { 2 } else { 1 };
        let from = up_to(random, pool.len() - step * len);
        let monomials = pool[from..].iter().step_by(step).take(len).cloned();
        let f = with_coefs(random, self.setting.2, monomials.collect());
        match random.below(4) {
            0 => self.opposed(f),
            _ => f,
        }
    }

    /// The terms, with those of the first polynomial taken back where both have a monomial.
    fn opposed(&self, mut f: Vec<Term>) -> Vec<Term> {
        let (order, _, p) = self.setting;
        if let Some(first) = self.polynomials.first() {
            for term in &mut f {
                let like = first.binary_search_by(|(m, _)| order.compare(&term.0, m));
                if let Ok(k) = like {
                    term.clone_from(&negative(p, &first[k..=k])[0]);
                }
            }
        }
        f
    }

    fn add(&mut self, f: Vec<Term>) {
        self.polynomials.push(f);
        self.add_number(self.polynomials.len() - 1);
    }

    /// Adds a polynomial. One that does not fit ends what the run does; the operations after it are
    /// not reached.
    fn add_number(&mut self, k: usize) {
        self.operations.extend([ADD, k]);
        let f = &self.polynomials[k];
        if self.buckets.accepts(f.len()) {
            self.buckets.add(f);
        }
    }

    fn again(&mut self, random: &mut Random) {
        if !self.polynomials.is_empty() {
            let k = up_to(random, self.polynomials.len() - 1);
            self.add_number(k);
        }
    }

    fn unused(&mut self, random: &mut Random) {
        let (order, n, p) = self.setting;
        let len = up_to(random, 6);
        let monomials = (0..len).map(|_| monomial(random, n, LIMIT)).collect();
        let f = with_coefs(random, p, falling(order, monomials));
        self.polynomials.push(f);
    }

    fn take(&mut self) {
        self.operations.extend([LEAD, 0]);
        self.buckets.take();
        self.places += 1;
        self.needs.push(self.places);
    }

    fn sum(&mut self) {
        self.operations.extend([SUM, 0]);
        self.needs.push(self.places + self.buckets.held() + 1);
        self.places += self.buckets.sum().0.len() + 1;
    }
}

/// A run of small numbers of any kind, good or not.
pub fn hostile(random: &mut Random) -> (Given, Vec<usize>) {
    let given = hostile_polynomials(random);
    let pair = |random: &mut Random| match random.below(32) {
        0 => [up_to(random, 4), up_to(random, 2)],
        1..=20 => [ADD, up_to(random, given.starts.len() - 2)],
        _ => [random.pick(&[LEAD, SUM]), 0],
    };
    let operations = (0..up_to(random, 6)).flat_map(|_| pair(random)).collect();
    (given, operations)
}

/// Polynomials of small numbers of any kind, good or not.
pub fn hostile_polynomials(random: &mut Random) -> Given {
    let order = random.pick(&[1, 1, 2, 2, 3, 3, 3, 0, 4]);
    let n = random.pick(&[1, 1, 1, 2, 2, 6, 0, 7]);
    let p = random.pick(&[2, 2, 3, 3, 3, 7, 65_537, LARGEST_PRIME, 1, 4, 1 << 31]);
    let len = up_to(random, 6);
    let coefs = (0..len).map(|_| random.below(u64::from(p) + 1) as u32);
    let coefs = coefs.map(|c| c.max(1)).collect();
    let weights = hostile_weights(random);
    let word = |random: &mut Random| small_word(random, order, &weights);
    let mut words: Vec<u64> = (0..len).map(|_| word(random)).collect();
    if random.below(2) == 0 {
        words.sort_unstable_by(|x, y| y.cmp(x));
    }
    let mut starts: Vec<usize> = (0..up_to(random, 3)).map(|_| up_to(random, len)).collect();
    starts.extend([0, len]);
    if random.below(8) > 0 {
        starts.sort_unstable();
    }
    let numbers = Numbers {
        p,
        order,
        n,
        weights,
    };
    Given {
        numbers,
        words,
        coefs,
        starts,
    }
}

/// Small weights, good or not: often one that is not 1, and sometimes another number of them than six.
pub fn hostile_weights(random: &mut Random) -> Vec<u32> {
    let len = random.pick(&[6, 6, 6, 6, 6, 6, 6, 5, 7, 0]);
    let mut weights = vec![1; len];
    for place in [0, 0, 1, 6] {
        let weight = random.pick(&[1, 1, 1, 2, 2, 3, 16, 0, 17]);
        if place < len && random.below(4) == 0 {
            weights[place] = weight;
        }
    }
    weights
}

/// A word of small exponents of x1 and x2, mostly of x1 alone, under the degree by these weights.
fn small_word(random: &mut Random, order: u32, weights: &[u32]) -> u64 {
    let order = match order {
        3 => Order::DEG_REV_LEX,
        _ => Order::LEX,
    };
    let order = order.weighted(first_six(weights));
    let exponents = [
        random.below(9) as u8,
        random.below(9).saturating_sub(7) as u8,
    ];
    order.word(&exponents)
}
