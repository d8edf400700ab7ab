//! Comparisons beside their bound 6·N·M, over many runs and reductions of the proved engine: a picture
//! of all calls, and a table of the worst. It fails where a call is over the bound.
use crate::given::Given;
use crate::library;
use crate::lists::{List, Order};
use crate::loan::Loan;
use crate::monomial;
use crate::picture::Picture;
use crate::plain_run::{ADD, LEAD, SUM};
use crate::random::Random;
use crate::reductions::{reduction, Kind};
use damselbuckle::{MOST_STEPS, MOST_TERMS};

const P: u32 = 32_003;

/// Output places that are enough for any call here.
const PLACES: usize = 100_000;

/// Monomials in two variables, by their place in the order lp.
const MONOMIALS: u64 = 128 * 128;

/// Calls of each kind, and of the searches for bad runs: how many, and the tries of each.
const CALLS: u64 = 400;
const SEARCHES: u64 = 40;
const TRIES: u64 = 20_000;

/// What a call brought in, and the comparisons that it made.
#[derive(Clone, Copy, Debug)]
pub struct Cost {
    pub terms: u64,
    pub comparisons: u64,
}

impl Cost {
    /// 6·N·M, M the smaller of 6 and the least whole number from 1 up with 4^M ≥ N.
    pub fn bound(self) -> u64 {
        let levels = (1..6).find(|&m| 4u64.pow(m) >= self.terms).unwrap_or(6);
        6 * self.terms * u64::from(levels)
    }

    /// Comparisons for each one that the bound allows; 0 where nothing was brought in.
    pub fn share(self) -> f64 {
        match self.terms {
            0 => 0.0,
            _ => self.comparisons as f64 / self.bound() as f64,
        }
    }
}

/// A kind of calls with their costs.
pub struct Family {
    pub name: &'static str,
    pub costs: Vec<Cost>,
}

impl Family {
    fn worst(&self) -> Cost {
        let by_share = |a: &&Cost, b: &&Cost| a.share().total_cmp(&b.share());
        *self.costs.iter().max_by(by_share).expect("some calls")
    }

    fn print(&self) {
        let worst = self.worst();
        println!(
            "| {} | {} | {} | {} | {} | {:.3} |",
            self.name,
            self.costs.len(),
            worst.terms,
            worst.comparisons,
            worst.bound(),
            worst.share(),
        );
    }
}

/// What makes the calls.
struct Maker {
    random: Random,
    loan: Loan,
}

impl Maker {
    fn below(&mut self, n: u64) -> u64 {
        self.random.below(n)
    }

    /// A polynomial with so many of the monomials from `first` on, `range` of them.
    fn polynomial(&mut self, terms: u64, first: u64, range: u64) -> List {
        let mut places: Vec<u64> = (0..range.min(MONOMIALS - first)).collect();
        for k in 0..places.len() {
            let other = k + self.below((places.len() - k) as u64) as usize;
            places.swap(k, other);
        }
        places.truncate(terms as usize);
        places.sort_unstable_by(|a, b| b.cmp(a));
        let exponents = |at: u64| [(at / 128) as u8, (at % 128) as u8];
        let word = |at: &u64| monomial::Order::LEX.word(&exponents(first + at));
        List {
            words: places.iter().map(word).collect(),
            coefs: vec![1; places.len()],
        }
    }

    fn run(&mut self, given: &Given, operations: &[usize]) -> Cost {
        let Loan { memory, output } = &mut self.loan;
        let number = Order::Lex.number();
        let r = library::run(number, given, operations, memory, output);
        assert!(matches!(r.refusal, 0 | 10 | 11), "refused at the opening");
        checked(r.brought, r.comparisons)
    }

    /// Random runs: additions of polynomials of many sizes, leads, and few full sums.
    fn random_run(&mut self) -> Cost {
        let mut given = Given::new(P, 2);
        let most = self.random.pick(&[3, 10, 60, 400]);
        let range = self.random.pick(&[20, 300, 3_000, MONOMIALS]);
        for _ in 0..20 {
            let terms = 1 + self.below(most);
            let f = self.polynomial(terms, 0, range);
            given.push(&f);
        }
        let adds = 1 + self.below(10);
        let length = self.random.pick(&[5, 50, 500, 5_000]);
        let operations: Vec<usize> = (0..1 + self.below(length))
            .flat_map(|_| match self.below(12) {
                k if k < adds => [ADD, self.below(20) as usize],
                11 => [SUM, 0],
                _ => [LEAD, 0],
            })
            .collect();
        self.run(&given, &operations)
    }

    /// Polynomials of one size, each of terms smaller than all before, so that a merge compares with
    /// every term of the bucket; then all leads are taken. All this once, or several times.
    fn falling_run(&mut self) -> Cost {
        let size = 1 + self.below(5);
        let most = self.random.pick(&[5, 20, 90, 400, MOST_TERMS as u64]);
        let additions = 1 + self.below(most / size);
        let mut given = Given::new(P, 2);
        let mut operations = Vec::new();
        for k in 0..additions {
            let f = self.polynomial(size, (additions - 1 - k) * size, size);
            given.push(&f);
            operations.extend([ADD, k as usize]);
        }
        operations.extend([LEAD, 0].repeat((additions * size) as usize));
        let times = self.random.pick(&[1, 1, 1, 10]);
        self.run(&given, &operations.repeat(times))
    }

    fn reduction(&mut self) -> Cost {
        let rows = Kind::rows();
        let (kind, order) = rows[self.below(rows.len() as u64) as usize];
        let mut f = kind.polynomial(&mut self.random, order, P);
        let terms = 1 + self.below(f.words.len() as u64) as usize;
        f.words.truncate(terms);
        f.coefs.truncate(terms);
        let divisors = kind.divisors(&mut self.random, order, P);
        let limit = match self.below(3) {
            0 => self.below(200),
            _ => MOST_STEPS,
        };
        let Loan { memory, output } = &mut self.loan;
        let given = reduction(P, &f, &divisors);
        let r = library::reduce(order.number(), &given, limit, memory, output);
        assert!(matches!(r.refusal, 0 | 13), "refused");
        checked(r.brought, r.comparisons)
    }

    /// Climbs from a random run to a worse one: one operation is changed, put in or taken out, and the
    /// change is kept where the share of the bound does not fall.
    fn searched_run(&mut self) -> Cost {
        let mut given = Given::new(P, 2);
        let range = self.random.pick(&[40, 200, 1_000]);
        for terms in [2, 3, 4, 4, 5, 5, 8, 12, 16, 17, 17, 32, 64, 65] {
            let f = self.polynomial(terms, 0, range.max(terms));
            given.push(&f);
        }
        for k in 0..40 {
            let f = self.polynomial(1, k * range / 40, 1);
            given.push(&f);
        }
        let most = self.random.pick(&[10, 60, 200]);
        let length = 2 + self.below(most);
        let mut pairs: Vec<[usize; 2]> = (0..length).map(|_| self.pair(&given)).collect();
        let mut worst = self.run(&given, &pairs.concat());
        for _ in 0..TRIES {
            let next = self.changed(&given, &pairs);
            let cost = self.run(&given, &next.concat());
            if cost.share() >= worst.share() {
                (pairs, worst) = (next, cost);
            }
        }
        worst
    }

    fn pair(&mut self, given: &Given) -> [usize; 2] {
        match self.below(10) {
            0..=6 => [ADD, self.below(given.count() as u64) as usize],
            7..=8 => [LEAD, 0],
            _ => [SUM, 0],
        }
    }

    fn changed(&mut self, given: &Given, pairs: &[[usize; 2]]) -> Vec<[usize; 2]> {
        let (mut next, pair) = (pairs.to_vec(), self.pair(given));
        let at = self.below(next.len() as u64) as usize;
        match self.below(4) {
            0 => next.insert(at, pair),
            1 if next.len() > 1 => drop(next.remove(at)),
            _ => next[at] = pair,
        }
        next
    }

    fn family(&mut self, name: &'static str, calls: u64, make: fn(&mut Self) -> Cost) -> Family {
        let costs = (0..calls).map(|_| make(self)).collect();
        Family { name, costs }
    }
}

fn checked(terms: u64, comparisons: u64) -> Cost {
    let cost = Cost { terms, comparisons };
    assert!(comparisons <= cost.bound(), "over the bound: {cost:?}");
    cost
}

/// Prints the table, and writes the picture to a file.
pub fn bound(file: &str) {
    let mut maker = Maker {
        random: Random::new(77),
        loan: Loan::new(PLACES),
    };
    let families = [
        maker.family("random runs", CALLS, Maker::random_run),
        maker.family("reductions", CALLS, Maker::reduction),
        maker.family("runs of falling additions", CALLS, Maker::falling_run),
        maker.family("runs searched for", SEARCHES, Maker::searched_run),
    ];
    println!("| Calls | Number | Worst: terms brought in, N | Comparisons | 6·N·M | Comparisons / 6·N·M |");
    println!("|---|---|---|---|---|---|");
    families.iter().for_each(Family::print);
    std::fs::write(file, Picture::of(&families).text()).expect("the picture is written");
}
