//! Times whole reductions, with their opening checks and settling: the proved one beside the one in
//! plain Rust. It fails only where results differ.
use crate::buckets::{in_turn, Best, ORDERS, ROUNDS};
use crate::given::Given;
use crate::library;
use crate::lists::{List, Order};
use crate::loan::Loan;
use crate::monomial;
use crate::plain_reduction;
use crate::random::Random;
use crate::results::ReductionResult;
use damselbuckle::{MOST_STEPS, MOST_TERMS};

/// The variables, and the terms of the polynomial that is reduced.
pub(crate) const VARIABLES: usize = 4;
const TERMS: usize = 60;

/// A monomial by its exponents, and a term with a coefficient, perhaps below 0.
type Monomial = [u8; VARIABLES];
type Term = (i64, Monomial);

/// The reduced Gröbner basis of cyclic 4 under dp: of a+b+c+d, ab+bc+cd+da, abc+bcd+cda+dab and
/// abcd-1.
const CYCLIC_4: [&[Term]; 7] = [
    &[
        (1, [1, 0, 0, 0]),
        (1, [0, 1, 0, 0]),
        (1, [0, 0, 1, 0]),
        (1, [0, 0, 0, 1]),
    ],
    &[(1, [0, 2, 0, 0]), (2, [0, 1, 0, 1]), (1, [0, 0, 0, 2])],
    &[
        (1, [0, 1, 2, 0]),
        (1, [0, 0, 2, 1]),
        (-1, [0, 1, 0, 2]),
        (-1, [0, 0, 0, 3]),
    ],
    &[
        (1, [0, 1, 1, 2]),
        (1, [0, 0, 2, 2]),
        (-1, [0, 1, 0, 3]),
        (1, [0, 0, 1, 3]),
        (-1, [0, 0, 0, 4]),
        (-1, [0, 0, 0, 0]),
    ],
    &[
        (1, [0, 1, 0, 4]),
        (1, [0, 0, 0, 5]),
        (-1, [0, 1, 0, 0]),
        (-1, [0, 0, 0, 1]),
    ],
    &[
        (1, [0, 0, 3, 2]),
        (1, [0, 0, 2, 3]),
        (-1, [0, 0, 1, 0]),
        (-1, [0, 0, 0, 1]),
    ],
    &[
        (1, [0, 0, 2, 4]),
        (1, [0, 1, 1, 0]),
        (-1, [0, 1, 0, 1]),
        (1, [0, 0, 1, 1]),
        (-2, [0, 0, 0, 2]),
    ],
];

/// What is reduced by what.
#[derive(Clone, Copy)]
pub(crate) enum Kind {
    /// Each divisor's lead is the third power of a variable, its tail has so many random terms.
    Random {
        tail: usize,
    },
    Cyclic4,
}

impl Kind {
    /// The rows of the tables: what is reduced by what, and in which order.
    pub(crate) fn rows() -> Vec<(Kind, Order)> {
        let random = |order| [4, 16].map(|tail| (Kind::Random { tail }, order));
        let mut rows: Vec<_> = ORDERS.into_iter().flat_map(random).collect();
        rows.push((Kind::Cyclic4, Order::DegRevLex));
        rows
    }

    pub(crate) fn name(self) -> String {
        match self {
            Kind::Random { tail } => format!("random, tails of {tail}"),
            Kind::Cyclic4 => "basis of cyclic 4".to_string(),
        }
    }

    /// The largest degree of the polynomial that is reduced, for some thousands of leads.
    fn degree(self, order: Order) -> u64 {
        match (self, order) {
            (Kind::Cyclic4, _) => 28,
            (_, Order::DegRevLex) => 20,
            (_, Order::Lex) => 24,
        }
    }

    /// A fresh polynomial to be reduced.
    pub(crate) fn polynomial(self, random: &mut Random, order: Order, p: u32) -> List {
        let most = self.degree(order);
        let monomials = (0..TERMS).map(|_| any_monomial(random, most)).collect();
        list(random, order, p, monomials)
    }

    pub(crate) fn divisors(self, random: &mut Random, order: Order, p: u32) -> Vec<List> {
        match self {
            Kind::Random { tail } => (0..VARIABLES)
                .map(|k| {
                    let monomials = cube_and_tail(random, order, k, tail);
                    list(random, order, p, monomials)
                })
                .collect(),
            Kind::Cyclic4 => CYCLIC_4.iter().map(|f| of_terms(order, p, f)).collect(),
        }
    }
}

/// The same order, for exponents.
pub(crate) fn by_exponents(order: Order) -> monomial::Order {
    match order {
        Order::Lex => monomial::Order::LEX,
        Order::DegRevLex => monomial::Order::DEG_REV_LEX,
    }
}

fn of_terms(order: Order, p: u32, terms: &[Term]) -> List {
    let coef = |c: i64| c.rem_euclid(i64::from(p)) as u32;
    List {
        words: terms
            .iter()
            .map(|(_, m)| by_exponents(order).word(m))
            .collect(),
        coefs: terms.iter().map(|&(c, _)| coef(c)).collect(),
    }
}

/// A monomial of a degree up to this.
fn any_monomial(random: &mut Random, most: u64) -> Monomial {
    let mut monomial = [0; VARIABLES];
    for _ in 0..random.below(most + 1) {
        monomial[random.below(VARIABLES as u64) as usize] += 1;
    }
    monomial
}

/// Falling monomials with random coefficients.
fn list(random: &mut Random, order: Order, p: u32, mut monomials: Vec<Monomial>) -> List {
    let by_exponents = by_exponents(order);
    monomials.sort_by(|x, y| by_exponents.compare(y, x));
    monomials.dedup();
    let coef = |m| (1 + random.below(u64::from(p - 1)) as i64, m);
    let terms: Vec<Term> = monomials.into_iter().map(coef).collect();
    of_terms(order, p, &terms)
}

/// The third power of a variable, and about so many smaller monomials of no higher degree.
fn cube_and_tail(random: &mut Random, order: Order, k: usize, tail: usize) -> Vec<Monomial> {
    let mut cube = [0; VARIABLES];
    cube[k] = 3;
    let mut monomials = vec![cube];
    for _ in 0..20 * tail {
        let monomial = any_monomial(random, by_exponents(order).degree(&cube));
        let smaller = by_exponents(order).compare(&monomial, &cube).is_lt();
        if smaller && monomials.len() <= tail && !monomials.contains(&monomial) {
            monomials.push(monomial);
        }
    }
    monomials
}

/// A reduction of a polynomial by divisors, modulo p.
pub(crate) fn reduction(p: u32, f: &List, divisors: &[List]) -> Given {
    let mut given = Given::new(p, VARIABLES as u32);
    given.push(f);
    divisors.iter().for_each(|g| given.push(g));
    given
}

/// One kind of reductions, and the least times for each comparison and for each lead.
struct Row {
    kind: Kind,
    order: Order,
    leads: u64,
    comparisons: u64,
    by_comparison: Best,
    by_lead: Best,
}

impl Row {
    fn new(kind: Kind, order: Order) -> Self {
        Row {
            kind,
            order,
            leads: 0,
            comparisons: 0,
            by_comparison: Best::new(),
            by_lead: Best::new(),
        }
    }

    /// Makes a fresh reduction modulo p, and times both over it once, in turn.
    fn pass(&mut self, random: &mut Random, round: usize, p: u32) {
        let order = self.order;
        let f = self.kind.polynomial(random, order, p);
        let given = reduction(p, &f, &self.kind.divisors(random, order, p));
        let (mut proved, mut plain) = (Loan::new(MOST_TERMS), Loan::new(MOST_TERMS));
        let mut results = [ReductionResult::default(); 2];
        let [first, second] = &mut results;
        let (times, comparisons) = in_turn(
            round,
            [
                &mut || {
                    let Loan { memory, output } = &mut proved;
                    let number = order.number();
                    *first = library::reduce(number, &given, MOST_STEPS, memory, output);
                    first.comparisons
                },
                &mut || {
                    let Loan { memory, output } = &mut plain;
                    *second = plain_reduction::reduce(order, &given, MOST_STEPS, memory, output);
                    second.comparisons
                },
            ],
        );
        assert_eq!(results[0], results[1], "results differ");
        assert_eq!(results[0].refusal, 0, "refused");
        proved.compare(&plain);
        self.leads += results[0].leads;
        self.comparisons += comparisons;
        self.by_comparison.take(times, comparisons);
        self.by_lead.take(times, results[0].leads);
    }

    fn print(&self) {
        println!(
            "| {} | {} | {} | {:.1} | {} {}",
            self.kind.name(),
            self.order.name(),
            self.leads / ROUNDS as u64,
            self.comparisons as f64 / self.leads as f64,
            self.by_comparison.columns(),
            self.by_lead.columns(),
        );
    }
}

/// Whole reductions modulo p: nanoseconds for each comparison, and for each lead.
pub fn reductions(p: u32) {
    let kinds = Kind::rows().into_iter();
    let mut rows: Vec<Row> = kinds.map(|(kind, order)| Row::new(kind, order)).collect();
    let random = &mut Random::new(54);
    for round in 0..ROUNDS {
        for row in &mut rows {
            row.pass(random, round, p);
        }
    }
    println!("| Divisors | Order | Leads | Comparisons for each lead | Proved, each comparison | Plain Rust | Proved / plain | Proved, each lead | Plain Rust | Proved / plain |");
    println!("|---|---|---|---|---|---|---|---|---|---|");
    rows.iter().for_each(Row::print);
}
