//! Times the proved geobucket beside the one in plain Rust: lists of operations, leads, and emptying
//! with settling. Each function prints a table, and fails only where results differ.
use crate::geobucket::{Geobucket, Lead, Memory, Plain, BUCKETS, CAPACITIES};
use crate::lists::{list, words, List, Order};
use crate::proved_buckets::Proved;
use crate::random::Random;
use damselbuckle::MOST_TERMS;
use std::hint::black_box;
use std::time::Instant;

pub(crate) const P: u32 = 32_003;

pub(crate) const ORDERS: [Order; 2] = [Order::DegRevLex, Order::Lex];

/// Rounds over all rows, so that each row meets the machine at many times. In two rounds each
/// geobucket is first and second.
pub(crate) const ROUNDS: usize = 120;

/// The operations of a list, and the most terms of an addition.
pub(crate) const OPERATIONS: usize = 10_000;
const LONGEST: usize = 20;

/// With much cancellation, monomials are from so many, and once so many additions are remembered,
/// every other addition takes one of them back.
const POOL: usize = 400;
const EARLIER: usize = 8;

/// In a round so many fillings of the buckets are searched, each so often.
const FILLINGS: usize = 10;
const SEARCHES: usize = 500;

/// Comparisons of a search in six buckets without like leads.
const ONE_PASS: u64 = BUCKETS as u64 - 1;

/// In a round the spaces are emptied and settled so often.
const SETTLINGS: usize = 20;

/// The least times so far of the proved geobucket and of the plain one.
#[derive(Clone, Copy)]
pub(crate) struct Best([f64; 2]);

impl Best {
    pub(crate) fn new() -> Self {
        Best([f64::INFINITY; 2])
    }

    /// Takes the nanoseconds of both for so many.
    pub(crate) fn take(&mut self, times: [f64; 2], number: u64) {
        for (best, time) in self.0.iter_mut().zip(times) {
            *best = best.min(time / number as f64);
        }
    }

    /// Times both, each divided by the number that it gives.
    fn time(&mut self, round: usize, both: [&mut dyn FnMut() -> u64; 2]) {
        let (times, number) = in_turn(round, both);
        self.take(times, number);
    }

    /// The last columns of a row.
    pub(crate) fn columns(&self) -> String {
        let [proved, plain] = self.0;
        format!("{proved:.2} | {plain:.2} | {:.2} |", proved / plain)
    }
}

/// Times each, another one first in the next round. Gives the nanoseconds of each, and the number that
/// they give, which must be the same.
pub(crate) fn in_turn<const N: usize>(
    round: usize,
    each: [&mut dyn FnMut() -> u64; N],
) -> ([f64; N], u64) {
    let mut times = [0.0; N];
    let mut numbers = [0; N];
    for turn in 0..N {
        let k = (round + turn) % N;
        let start = Instant::now();
        numbers[k] = each[k]();
        times[k] = start.elapsed().as_nanos() as f64;
    }
    let same = numbers.iter().all(|n| *n == numbers[0]);
    assert!(same, "results differ: {numbers:?}");
    (times, numbers[0])
}

#[derive(Clone, Copy)]
pub(crate) enum Cancellation {
    Little,
    Much,
}

impl Cancellation {
    pub(crate) fn name(self) -> &'static str {
        match self {
            Cancellation::Little => "little",
            Cancellation::Much => "much",
        }
    }
}

pub(crate) enum Operation {
    Add(List),
    Take,
}

/// Makes lists of operations.
pub(crate) struct Maker {
    order: Order,
    cancellation: Cancellation,
    pool: Vec<u64>,
    earlier: Vec<List>,
}

impl Maker {
    pub(crate) fn new(random: &mut Random, order: Order, cancellation: Cancellation) -> Self {
        Maker {
            order,
            cancellation,
            pool: words(random, order, POOL),
            earlier: Vec::new(),
        }
    }

    /// A polynomial to add.
    fn addition(&mut self, random: &mut Random) -> List {
        let len = 1 + random.below(LONGEST as u64) as usize;
        match self.cancellation {
            Cancellation::Little => {
                let words = words(random, self.order, len);
                list(random, self.order, P, words)
            }
            Cancellation::Much if self.earlier.len() == EARLIER => {
                let mut back = self
                    .earlier
                    .swap_remove(random.below(EARLIER as u64) as usize);
                back.coefs.iter_mut().for_each(|c| *c = P - *c);
                back
            }
            Cancellation::Much => {
                let words = (0..len).map(|_| random.pick(&self.pool)).collect();
                let f = list(random, self.order, P, words);
                self.earlier.push(f.clone());
                f
            }
        }
    }

    /// Additions and leads taken, one as often as the other; a lead where an addition does not fit.
    pub(crate) fn operations(&mut self, random: &mut Random) -> Vec<Operation> {
        let mut memory = emptied::<Plain>();
        let mut operations = Vec::new();
        for _ in 0..OPERATIONS {
            let f = match random.below(2) {
                0 => Some(self.addition(random)),
                _ => None,
            };
            match f.filter(|f| memory.held() + f.words.len() <= MOST_TERMS) {
                Some(f) => {
                    Plain::add(self.order, P, &mut memory, f.terms());
                    operations.push(Operation::Add(f));
                }
                None => {
                    taken::<Plain>(self.order, &mut memory);
                    operations.push(Operation::Take);
                }
            }
        }
        operations
    }
}

/// Spaces with empty buckets.
fn emptied<G: Geobucket>() -> Memory {
    let mut memory = Memory::new();
    G::empty(&mut memory);
    memory
}

/// Finds the lead, and removes it.
fn taken<G: Geobucket>(order: Order, memory: &mut Memory) -> Lead {
    let lead = G::lead(order, P, memory);
    if lead.bucket < BUCKETS {
        G::take(memory, lead.bucket);
    }
    lead
}

/// Does the operations from empty buckets, puts the leads into the output, and gives the
/// comparisons.
fn run<G: Geobucket>(
    order: Order,
    operations: &[Operation],
    memory: &mut Memory,
    output: &mut List,
) -> u64 {
    let mut comparisons = 0;
    let mut place = 0;
    G::empty(memory);
    for operation in operations {
        match operation {
            Operation::Add(f) => comparisons += G::add(order, P, memory, f.terms()),
            Operation::Take => {
                let lead = taken::<G>(order, memory);
                comparisons += lead.comparisons;
                if lead.bucket < BUCKETS {
                    output.words[place] = lead.word;
                    output.coefs[place] = lead.coef;
                    place += 1;
                }
            }
        }
    }
    comparisons
}

/// Both must have left the same buckets and the same sum.
fn compare(order: Order, [proved, plain]: [&mut Memory; 2]) {
    compare_settled(order, [proved.clone(), plain.clone()]);
    assert!(Proved::sum(order, P, proved) == Plain::sum(order, P, plain));
}

/// Both must have the same buckets once they are settled.
fn compare_settled(order: Order, [mut proved, mut plain]: [Memory; 2]) {
    Proved::settle(order, &mut proved);
    Plain::settle(order, &mut plain);
    assert!(proved.space == plain.space && proved.work == plain.work);
}

/// One kind of lists of operations.
struct Row {
    order: Order,
    cancellation: Cancellation,
    additions: usize,
    comparisons: u64,
    best: Best,
}

impl Row {
    /// Makes a fresh list of operations, and times both over it once, in turn.
    fn pass(&mut self, random: &mut Random, round: usize) {
        let order = self.order;
        let operations = Maker::new(random, order, self.cancellation).operations(random);
        let (mut proved, mut plain) = (emptied::<Proved>(), emptied::<Plain>());
        let mut outputs = [List::of(OPERATIONS), List::of(OPERATIONS)];
        let [first, second] = &mut outputs;
        let mut comparisons = 0;
        self.best.time(
            round,
            [
                &mut || run::<Proved>(order, &operations, &mut proved, first),
                &mut || {
                    comparisons = run::<Plain>(order, &operations, &mut plain, second);
                    comparisons
                },
            ],
        );
        assert!(outputs[0] == outputs[1], "leads differ");
        compare(order, [&mut proved, &mut plain]);
        let is_addition = |o: &&Operation| matches!(o, Operation::Add(_));
        self.additions += operations.iter().filter(is_addition).count();
        self.comparisons += comparisons;
    }

    fn print(&self) {
        let all = (ROUNDS * OPERATIONS) as f64;
        println!(
            "| {} | {} | {:.0}% | {:.1} | {}",
            self.order.name(),
            self.cancellation.name(),
            100.0 * self.additions as f64 / all,
            self.comparisons as f64 / all,
            self.best.columns(),
        );
    }
}

/// Lists of operations: nanoseconds for each comparison.
pub fn operations() {
    let mut rows = Vec::new();
    for order in ORDERS {
        for cancellation in [Cancellation::Little, Cancellation::Much] {
            rows.push(Row {
                order,
                cancellation,
                additions: 0,
                comparisons: 0,
                best: Best::new(),
            });
        }
    }
    let random = &mut Random::new(51);
    for round in 0..ROUNDS {
        for row in &mut rows {
            row.pass(random, round);
        }
    }
    println!("| Order | Cancellation | Additions | Comparisons for each operation | Proved | Plain Rust | Proved / plain |");
    println!("|---|---|---|---|---|---|---|");
    rows.iter().for_each(Row::print);
}

/// How many terms each bucket has when leads are timed: one, as few and as many as additions bring
/// there. All of the last bucket cannot be filled together with the others.
const FILLS: [[usize; BUCKETS]; 4] = [
    [1, 1, 1, 1, 1, 1],
    [1, 5, 17, 65, 257, 1_025],
    [2, 10, 40, 160, 640, 2_048],
    [4, 16, 64, 256, 1_024, 2_732],
];

/// What the buckets are filled with.
fn fillers(random: &mut Random, order: Order, fill: [usize; BUCKETS]) -> [List; BUCKETS] {
    std::array::from_fn(|bucket| {
        let len = fill[bucket].max(CAPACITIES[bucket] / 4 + 1);
        // Any two of so few words are hardly ever like.
        let words = words(random, order, len);
        list(random, order, P, words)
    })
}

/// Six buckets with so many terms each. They are filled and then taken from.
fn filled<G: Geobucket>(order: Order, fillers: &[List; BUCKETS], fill: [usize; BUCKETS]) -> Memory {
    let mut memory = emptied::<G>();
    for bucket in (0..BUCKETS).rev() {
        G::add(order, P, &mut memory, fillers[bucket].terms());
        memory.keep(bucket, fill[bucket]);
    }
    memory
}

/// Finds the lead and leaves it, many times, and gives how often.
fn search<G: Geobucket>(order: Order, memory: &mut Memory) -> u64 {
    for _ in 0..SEARCHES {
        let lead = G::lead(order, P, black_box(memory));
        assert_eq!(black_box(lead).comparisons, ONE_PASS);
    }
    SEARCHES as u64
}

/// Leads found and left in six buckets: nanoseconds for each.
pub fn leads() {
    let mut rows = [[Best::new(); FILLS.len()]; ORDERS.len()];
    let random = &mut Random::new(52);
    for round in 0..ROUNDS {
        for (order, row) in ORDERS.into_iter().zip(&mut rows) {
            for (fill, best) in FILLS.into_iter().zip(row) {
                time_leads(random, round, order, fill, best);
            }
        }
    }
    println!("| Order | Terms in the buckets | Proved | Plain Rust | Proved / plain |");
    println!("|---|---|---|---|---|");
    for (order, row) in ORDERS.into_iter().zip(rows) {
        for (fill, best) in FILLS.into_iter().zip(row) {
            let fill = fill.map(|len| len.to_string()).join(", ");
            println!("| {} | {fill} | {}", order.name(), best.columns());
        }
    }
}

/// Times the searches of some fillings as one.
fn time_leads(
    random: &mut Random,
    round: usize,
    order: Order,
    fill: [usize; BUCKETS],
    best: &mut Best,
) {
    let fillings: Vec<_> = (0..FILLINGS)
        .map(|_| fillers(random, order, fill))
        .collect();
    let mut proved: Vec<Memory> = fillings
        .iter()
        .map(|f| filled::<Proved>(order, f, fill))
        .collect();
    let mut plain: Vec<Memory> = fillings
        .iter()
        .map(|f| filled::<Plain>(order, f, fill))
        .collect();
    best.time(
        round,
        [
            &mut || proved.iter_mut().map(|m| search::<Proved>(order, m)).sum(),
            &mut || plain.iter_mut().map(|m| search::<Plain>(order, m)).sum(),
        ],
    );
    for (mut one, mut other) in proved.into_iter().zip(plain) {
        let (lead, expected) = (
            taken::<Proved>(order, &mut one),
            taken::<Plain>(order, &mut other),
        );
        assert_eq!(lead, expected, "leads differ");
        compare_settled(order, [one, other]);
    }
}

/// Empties and settles, many times, and gives how often.
fn settle<G: Geobucket>(memory: &mut Memory) -> u64 {
    for _ in 0..SETTLINGS {
        G::empty(memory);
        G::settle(ORDERS[0], black_box(memory));
    }
    SETTLINGS as u64
}

/// Emptying and settling, which sets all places of both spaces: nanoseconds for both.
pub fn settling() {
    let mut best = Best::new();
    let (mut proved, mut plain) = (emptied::<Proved>(), emptied::<Plain>());
    for round in 0..ROUNDS {
        best.time(
            round,
            [&mut || settle::<Proved>(&mut proved), &mut || {
                settle::<Plain>(&mut plain)
            }],
        );
        assert!(proved.space == plain.space && proved.work == plain.work);
    }
    println!("| Proved | Plain Rust | Proved / plain |");
    println!("|---|---|---|");
    println!("| {}", best.columns());
}
