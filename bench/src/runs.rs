//! Times whole runs, with their opening checks and settling: the proved one beside the one in plain
//! Rust, over the lists of operations of `buckets`. It fails only where results differ.
use crate::buckets::{
    in_turn, Best, Cancellation, Maker, Operation, OPERATIONS, ORDERS, P, ROUNDS,
};
use crate::given::Given;
use crate::library;
use crate::lists::Order;
use crate::loan::Loan;
use crate::plain_run::{self, ADD, LEAD};
use crate::random::Random;
use crate::results::RunResult;

const VARIABLES: u32 = 6;

/// A list of operations as a run is given it. Each addition has a polynomial of its own.
fn given(operations: &[Operation]) -> (Given, Vec<usize>) {
    let mut given = Given::new(P, VARIABLES);
    let mut pairs = Vec::new();
    for operation in operations {
        match operation {
            Operation::Add(f) => {
                pairs.extend([ADD, given.count()]);
                given.push(f);
            }
            Operation::Take => pairs.extend([LEAD, 0]),
        }
    }
    (given, pairs)
}

/// One kind of runs, and the least times for each comparison and for each operation.
struct Row {
    order: Order,
    cancellation: Cancellation,
    comparisons: u64,
    by_comparison: Best,
    by_operation: Best,
}

impl Row {
    fn new(order: Order, cancellation: Cancellation) -> Self {
        Row {
            order,
            cancellation,
            comparisons: 0,
            by_comparison: Best::new(),
            by_operation: Best::new(),
        }
    }

    /// Makes a fresh run, and times both over it once, in turn.
    fn pass(&mut self, random: &mut Random, round: usize) {
        let order = self.order;
        let operations = Maker::new(random, order, self.cancellation).operations(random);
        let (given, pairs) = given(&operations);
        let (mut proved, mut plain) = (Loan::new(OPERATIONS), Loan::new(OPERATIONS));
        let mut results = [RunResult::default(); 2];
        let [first, second] = &mut results;
        let (times, comparisons) = in_turn(
            round,
            [
                &mut || {
                    *first = library::run(
                        order.number(),
                        &given,
                        &pairs,
                        &mut proved.memory,
                        &mut proved.output,
                    );
                    first.comparisons
                },
                &mut || {
                    *second =
                        plain_run::run(order, &given, &pairs, &mut plain.memory, &mut plain.output);
                    second.comparisons
                },
            ],
        );
        compare(results, [&proved, &plain]);
        self.comparisons += comparisons;
        self.by_comparison.take(times, comparisons);
        self.by_operation.take(times, OPERATIONS as u64);
    }

    fn print(&self) {
        let all = (ROUNDS * OPERATIONS) as f64;
        println!(
            "| {} | {} | {:.1} | {} {}",
            self.order.name(),
            self.cancellation.name(),
            self.comparisons as f64 / all,
            self.by_comparison.columns(),
            self.by_operation.columns(),
        );
    }
}

/// Both must have done all operations with the same answer and tally, and left the same output and
/// spaces.
fn compare([first, second]: [RunResult; 2], [proved, plain]: [&Loan; 2]) {
    assert_eq!(first, second, "results differ");
    assert_eq!((first.refusal, first.finished), (0, OPERATIONS as u64));
    proved.compare(plain);
}

/// Whole runs: nanoseconds for each comparison, and for each operation.
pub fn runs() {
    let mut rows = Vec::new();
    for order in ORDERS {
        for cancellation in [Cancellation::Little, Cancellation::Much] {
            rows.push(Row::new(order, cancellation));
        }
    }
    let random = &mut Random::new(53);
    for round in 0..ROUNDS {
        for row in &mut rows {
            row.pass(random, round);
        }
    }
    println!("| Order | Cancellation | Comparisons for each operation | Proved, each comparison | Plain Rust | Proved / plain | Proved, each operation | Plain Rust | Proved / plain |");
    println!("|---|---|---|---|---|---|---|---|---|");
    rows.iter().for_each(Row::print);
}
