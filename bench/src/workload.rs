//! Workloads from a file, as lines of fields parted by one space: `workload NAME`, `kind run` or
//! `kind reduction`, `prime P`, `order lp`, `Dp` or `dp`, `vars N`, `places N` (output places, where
//! there are not to be 4,000,000, or 16,384 in reductions). A run has lines `poly TERM ..` and
//! `ops OP ..`; an operation is `aK` (adds polynomial K), `l` (takes the lead) or `s` (the full sum).
//! Reductions have lines `input TERM ..`, each a call of its own, and `divisor TERM ..`, in turn, and
//! may have `limit L`, the step limit. A term is a coefficient, a colon, and exponents parted by dots.
//! A line that begins with `#` is a comment.
use crate::given::Given;
use crate::library;
use crate::lists::{self, List};
use crate::loan::Loan;
use crate::monomial::{Kind, Order};
use crate::plain_reduction;
use crate::plain_run::{self, ADD, LEAD, SUM};
use crate::results::{ReductionResult, RunResult};
use damselbuckle::MOST_STEPS;
use std::time::{Duration, Instant};

const RUN_PLACES: usize = 4_000_000;
const REDUCTION_PLACES: usize = 16_384;

/// A run with its operations, or a reduction with its step limit.
enum Call {
    Run(Given, Vec<usize>),
    Reduction(Given, u64),
}

/// What a call gave, or the sum of what several gave.
#[derive(Clone, Copy, Debug, Default, PartialEq, Eq)]
struct Outcome {
    refusal: u64,
    finished: u64,
    /// The output places written.
    places: u64,
    comparisons: u64,
    brought: u64,
    given: u64,
    held: u64,
}

impl From<RunResult> for Outcome {
    fn from(r: RunResult) -> Self {
        Outcome {
            refusal: r.refusal,
            finished: r.finished,
            places: r.places,
            comparisons: r.comparisons,
            brought: r.brought,
            given: r.given,
            held: r.held,
        }
    }
}

impl From<ReductionResult> for Outcome {
    fn from(r: ReductionResult) -> Self {
        Outcome {
            refusal: r.refusal,
            finished: r.leads,
            places: r.given,
            comparisons: r.comparisons,
            brought: r.brought,
            given: r.given,
            held: r.held,
        }
    }
}

impl Outcome {
    fn add(&mut self, other: Outcome) {
        self.finished += other.finished;
        self.comparisons += other.comparisons;
        self.brought += other.brought;
        self.given += other.given;
        self.held += other.held;
    }
}

pub fn order_named(name: &str) -> Order {
    let mut orders = Order::ALL.into_iter();
    orders.find(|o| o.name() == name).expect("no such order")
}

/// The keys and values of a file.
struct Lines<'a>(Vec<(&'a str, &'a str)>);

impl<'a> Lines<'a> {
    fn new(text: &'a str) -> Self {
        let parted = text.lines().map(|l| l.split_once(' ').unwrap_or((l, "")));
        let kept = parted.filter(|(key, _)| !key.is_empty() && !key.starts_with('#'));
        Lines(kept.collect())
    }

    fn all<'b>(&'b self, key: &'b str) -> impl Iterator<Item = &'a str> + 'b {
        self.0.iter().filter(move |l| l.0 == key).map(|l| l.1)
    }

    fn value(&self, key: &str) -> Option<&'a str> {
        self.all(key).next()
    }

    fn order(&self) -> Order {
        order_named(self.value("order").expect("an order"))
    }

    /// No polynomials so far.
    fn setting(&self) -> Given {
        Given::new(
            number(self.value("prime").expect("no prime")),
            number(self.value("vars").expect("no vars")),
        )
    }

    fn run(&self) -> Vec<Call> {
        let mut given = self.setting();
        self.all("poly")
            .for_each(|f| given.push(&terms(self.order(), f)));
        let operations = self.all("ops").flat_map(str::split_whitespace);
        let pairs = operations.flat_map(operation).collect();
        vec![Call::Run(given, pairs)]
    }

    fn reductions(&self) -> Vec<Call> {
        let limit = self.value("limit").map_or(MOST_STEPS, number);
        let reduction = |input| {
            let mut given = self.setting();
            for f in [input].into_iter().chain(self.all("divisor")) {
                given.push(&terms(self.order(), f));
            }
            Call::Reduction(given, limit)
        };
        self.all("input").map(reduction).collect()
    }
}

/// The calls of a workload, and what is lent to them.
pub struct Workload {
    name: String,
    order: Order,
    /// The order for plain Rust, where it does the calls and not the library.
    plain: Option<lists::Order>,
    calls: Vec<Call>,
    loan: Loan,
}

impl Workload {
    pub fn read(text: &str) -> Self {
        let lines = Lines::new(text);
        let (calls, places) = match lines.value("kind") {
            Some("run") => (lines.run(), RUN_PLACES),
            Some("reduction") => (lines.reductions(), REDUCTION_PLACES),
            _ => panic!("neither a run nor reductions"),
        };
        Workload {
            name: lines.value("workload").unwrap_or_default().to_string(),
            order: lines.order(),
            plain: None,
            calls,
            loan: Loan::new(lines.value("places").map_or(places, number)),
        }
    }

    /// The same, to be done in plain Rust.
    pub fn plain(self) -> Self {
        let order = match self.order.kind {
            Kind::Lex => lists::Order::Lex,
            Kind::DegRevLex => lists::Order::DegRevLex,
            Kind::DegLex => panic!("plain Rust has no Dp"),
        };
        Workload {
            plain: Some(order),
            ..self
        }
    }

    fn call(&mut self, k: usize) -> Outcome {
        let (number, Loan { memory, output }) = (self.order.number(), &mut self.loan);
        match (&self.calls[k], self.plain) {
            (Call::Run(given, pairs), None) => {
                library::run(number, given, pairs, memory, output).into()
            }
            (Call::Run(given, pairs), Some(order)) => {
                plain_run::run(order, given, pairs, memory, output).into()
            }
            (Call::Reduction(given, limit), None) => {
                library::reduce(number, given, *limit, memory, output).into()
            }
            (Call::Reduction(given, limit), Some(order)) => {
                plain_reduction::reduce(order, given, *limit, memory, output).into()
            }
        }
    }

    /// Does each call by the library and in plain Rust; answers, tallies, output and spaces must be the same.
    pub fn agree(text: &str) {
        let (mut proved, mut plain) = (Workload::read(text), Workload::read(text).plain());
        for k in 0..proved.calls.len() {
            let (own, other) = (proved.call(k), plain.call(k));
            assert_eq!(own, other, "results differ in call {k}");
            proved.loan.compare(&plain.loan);
            println!("{} call {k} refusal {} agrees", proved.name, own.refusal);
        }
    }

    /// Does all calls once, and gives the sum.
    fn pass(&mut self) -> Outcome {
        let mut sum = Outcome::default();
        for k in 0..self.calls.len() {
            sum.add(self.call(k));
        }
        sum
    }

    /// Prints for each call the answer, the tally, and a hash of the output places written and of the
    /// bucket space.
    pub fn calls(&mut self) {
        for k in 0..self.calls.len() {
            let r = self.call(k);
            let (space, work) = (&self.loan.memory.space, &self.loan.memory.work);
            assert!(work.words.iter().all(|&w| w == 0) && work.coefs.iter().all(|&c| c == 0));
            let mut hash = 0xcbf2_9ce4_8422_2325;
            eat(&mut hash, &self.loan.output, r.places as usize);
            eat(&mut hash, space, space.words.len());
            println!(
                "{} call {k} refusal {} finished {} comparisons {} in {} out {} held {} hash {hash:016x}",
                self.name, r.refusal, r.finished, r.comparisons, r.brought, r.given, r.held
            );
        }
    }

    /// Times passes for so many seconds, one at least, and prints the least and the median in seconds.
    pub fn time(&mut self, seconds: f64) {
        let (begin, most) = (Instant::now(), Duration::from_secs_f64(seconds));
        let (mut times, mut r) = (Vec::new(), Outcome::default());
        while times.is_empty() || begin.elapsed() < most {
            let start = Instant::now();
            r = self.pass();
            times.push(start.elapsed().as_secs_f64());
        }
        times.sort_by(f64::total_cmp);
        println!(
            "{} passes {} min {:.9} median {:.9} calls {} finished {} comparisons {} in {} out {} held {}",
            self.name, times.len(), times[0], times[times.len() / 2], self.calls.len(),
            r.finished, r.comparisons, r.brought, r.given, r.held
        );
    }

    /// Does exactly so many passes, for counting instructions.
    pub fn passes(&mut self, passes: u64) {
        let mut r = Outcome::default();
        (0..passes).for_each(|_| r = self.pass());
        println!(
            "{} calls {} finished {} comparisons {} in {}",
            self.name,
            self.calls.len(),
            r.finished,
            r.comparisons,
            r.brought
        );
    }
}

/// The words and coefficients of a polynomial.
fn terms(order: Order, text: &str) -> List {
    let mut list = List::default();
    for term in text.split_whitespace() {
        let (coef, exponents) = term.split_once(':').expect("no colon in a term");
        let exponents: Vec<u8> = exponents.split('.').map(number).collect();
        list.words.push(order.word(&exponents));
        list.coefs.push(number(coef));
    }
    list
}

fn operation(text: &str) -> [usize; 2] {
    match text {
        "l" => [LEAD, 0],
        "s" => [SUM, 0],
        _ => [
            ADD,
            number(text.strip_prefix('a').expect("no such operation")),
        ],
    }
}

/// Takes the first places of a list into an FNV-1a hash, by whole numbers.
fn eat(hash: &mut u64, list: &List, places: usize) {
    for (&w, &c) in list.words.iter().zip(&list.coefs).take(places) {
        for x in [w, u64::from(c)] {
            *hash = (*hash ^ x).wrapping_mul(0x0100_0000_01b3);
        }
    }
}

fn number<T: std::str::FromStr>(text: &str) -> T {
    text.parse()
        .unwrap_or_else(|_| panic!("not a number here: {text}"))
}
