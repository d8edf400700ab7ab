//! Generated lists of operations on the proved geobucket against the model. The variable
//! SECOND_CASES sets the size, as for the other generated tests.
use second::cases;
use second::generate::{places, setting};
use second::geobucket::{Added, Geobucket, Lead, Search, BUCKETS};
use second::limits::{BUCKET_PLACES, MOST_TERMS, WORK_PLACES};
use second::monomial::Order;
use second::operations::{Operation, Operations};
use second::polynomial::{lent, Term};
use second::probe_buckets::{self, Buckets, Space, STATE};
use second::random::Random;

/// One of so many cases is a list of operations.
const CASES_PER_LIST: u64 = 50;

/// A full sum of so many terms is a long one.
const LONG: usize = 1_000;

/// What the operations of a run met.
#[derive(Debug, Default)]
struct Met {
    operations: u64,
    additions: u64,
    zero_added: u64,
    cancelled: u64,
    moved_by_one: u64,
    moved_by_more: u64,
    full: u64,
    searches: u64,
    like: u64,
    sums_replaced: u64,
    zeros_replaced: u64,
    second_passes: u64,
    third_passes: u64,
    zero_leads: u64,
    zero_after_like: u64,
    sums: u64,
    zero_sums: u64,
    long_sums: u64,
    comparisons: u64,
}

impl Met {
    fn addition(&mut self, f: &[Term], added: Added, (before, after): (usize, usize)) {
        self.additions += 1;
        self.zero_added += u64::from(f.is_empty());
        self.cancelled += u64::from(!f.is_empty() && after < before);
        self.moved_by_one += u64::from(added.emptied == 1);
        self.moved_by_more += u64::from(added.emptied > 1);
        self.full += u64::from(after == MOST_TERMS);
        self.comparisons += added.comparisons;
    }

    fn search(&mut self, lead: &Option<Lead>, search: Search) {
        let zero = lead.is_none();
        self.searches += 1;
        self.like += search.like;
        self.sums_replaced += search.sums_replaced;
        self.zeros_replaced += search.zeros_replaced;
        self.second_passes += u64::from(search.passes > 1);
        self.third_passes += u64::from(search.passes > 2);
        self.zero_leads += u64::from(zero);
        self.zero_after_like += u64::from(zero && search.like > 0);
        self.comparisons += search.comparisons;
    }

    fn sum(&mut self, terms: usize, comparisons: u64) {
        self.sums += 1;
        self.zero_sums += u64::from(terms == 0);
        self.long_sums += u64::from(terms >= LONG);
        self.comparisons += comparisons;
    }

    /// That each kind was met.
    fn whole(&self) {
        println!("{self:?}");
        let kinds = [
            self.zero_added,
            self.cancelled,
            self.moved_by_one,
            self.moved_by_more,
            self.full,
            self.like,
            self.sums_replaced,
            self.zeros_replaced,
            self.second_passes,
            self.third_passes,
            self.zero_leads,
            self.zero_after_like,
            self.zero_sums,
            self.long_sums,
        ];
        assert!(kinds.iter().all(|&k| k > 0), "{self:?}");
    }
}

/// The model and the proved geobucket side by side, and any contents for places that are not read.
struct Both {
    order: Order,
    model: Geobucket,
    proved: Buckets,
    rubbish: (Space, Space),
}

impl Both {
    /// Empty, in spaces and a state with any contents.
    fn new(random: &mut Random, order: Order, p: u32) -> Self {
        let space = places(random, BUCKET_PLACES, BUCKET_PLACES);
        let work = places(random, WORK_PLACES, WORK_PLACES);
        let state: [usize; STATE] = std::array::from_fn(|_| random.word() as usize);
        Both {
            order,
            model: Geobucket::new(order, p),
            proved: Buckets::new((order, p), state, space.clone(), work.clone()),
            rubbish: (space, work),
        }
    }

    /// Puts any contents into the places that hold no term of a bucket.
    fn spoil(&mut self) {
        let (space, work) = &self.rubbish;
        self.proved.spoil(space, work);
    }

    /// Does an operation on both: the comparisons and what is given out must be the same.
    fn operate(&mut self, operation: &Operation, met: &mut Met, about: &str) {
        met.operations += 1;
        match operation {
            Operation::Add(f) => self.add(f, met, about),
            Operation::Find => {
                self.find(met, about);
            }
            Operation::Take => self.take(met, about),
            Operation::Sum => self.sum(met, about),
        }
    }

    fn add(&mut self, f: &[Term], met: &mut Met, about: &str) {
        let before = self.model.held();
        let expected = self.model.add(f);
        let (words, coefs) = lent(self.order, f);
        let comparisons = self.proved.add((&words, &coefs));
        assert_eq!(comparisons, expected.comparisons, "{about}");
        met.addition(f, expected, (before, self.model.held()));
    }

    /// Finds the lead, and gives its bucket.
    fn find(&mut self, met: &mut Met, about: &str) -> Option<usize> {
        let (lead, search) = self.model.lead();
        let (found, comparisons) = self.proved.lead();
        assert_eq!(found, self.as_found(&lead), "{about}");
        assert_eq!(comparisons, search.comparisons, "{about}");
        met.search(&lead, search);
        found.map(|l| l.bucket)
    }

    /// A lead of the model as the proved geobucket gives it.
    fn as_found(&self, lead: &Option<Lead>) -> Option<probe_buckets::Lead> {
        let lead = lead.as_ref()?;
        let (word, coef) = (self.order.word(&lead.term.0), lead.term.1);
        Some(probe_buckets::Lead {
            bucket: lead.bucket,
            word,
            coef,
        })
    }

    /// Finds the lead and removes it.
    fn take(&mut self, met: &mut Met, about: &str) {
        if let Some(bucket) = self.find(met, about) {
            self.model.remove(bucket);
            self.proved.take(bucket);
        }
    }

    fn sum(&mut self, met: &mut Met, about: &str) {
        let (terms, expected) = self.model.sum();
        let (sum, comparisons) = self.proved.sum();
        assert_eq!(comparisons, expected, "{about}");
        assert!(sum == lent(self.order, &terms), "{about}");
        met.sum(terms.len(), comparisons);
    }

    /// The six lists must be those of the model, and so must the spaces once they are settled.
    fn compare(&self, about: &str) {
        for (bucket, terms) in self.model.buckets().iter().enumerate() {
            let list = self.proved.list(bucket);
            assert!(list == lent(self.order, terms), "{about}, bucket {bucket}");
        }
        let mut settled = self.proved.clone();
        settled.settle();
        assert!(settled.space == self.model.space(), "{about}, settled");
        let (words, coefs) = &settled.work;
        assert!(words.iter().all(|&w| w == 0), "{about}, work space");
        assert!(coefs.iter().all(|&c| c == 0), "{about}, work space");
    }
}

/// Generated lists: 1,000. After each operation all is compared. From about 5,000 cases on, each
/// kind is met.
#[test]
fn lists() {
    let random = &mut Random::new(42);
    let mut met = Met::default();
    for case in 0..cases() / CASES_PER_LIST {
        let (order, n, p) = setting(case);
        let mut operations = Operations::new(random, case, (order, n, p));
        let mut both = Both::new(random, order, p);
        both.compare(&format!("case {case} {order:?} n {n} p {p}, at the start"));
        for k in 0..operations.count(random) {
            let operation = operations.next(random, &both.model);
            let name = operation.name();
            let about = format!("case {case} {order:?} n {n} p {p}, operation {k}: {name}");
            both.spoil();
            both.operate(&operation, &mut met, &about);
            both.compare(&about);
        }
    }
    met.whole();
}

/// The listing of document 01.
#[test]
fn listing() {
    let term = |coef: u32, exponents: [u8; 2]| (exponents.to_vec(), coef);
    let first = vec![
        term(3, [2, 0]),
        term(1, [1, 1]),
        term(1, [0, 2]),
        term(1, [1, 0]),
        term(1, [0, 1]),
    ];
    let second = vec![term(4, [2, 0])];
    let operations = [
        Operation::Add(first),
        Operation::Add(second),
        Operation::Take,
        Operation::Sum,
    ];
    let mut both = Both::new(&mut Random::new(44), Order::DEG_REV_LEX, 7);
    let mut met = Met::default();
    for operation in operations {
        both.operate(&operation, &mut met, "listing");
        both.compare("listing");
    }
    assert_eq!(met.comparisons, 1);
}

/// The most terms go to the last bucket in one addition, and leave it one by one.
#[test]
fn most_terms() {
    let random = &mut Random::new(43);
    let mut met = Met::default();
    for order in Order::ALL {
        let mut both = Both::new(random, order, 32_003);
        let f = most(order);
        both.operate(&Operation::Add(f.clone()), &mut met, "the most terms");
        assert_eq!(both.model.buckets()[BUCKETS - 1], f);
        for k in 0..MOST_TERMS {
            both.operate(&Operation::Take, &mut met, "one by one");
            if k % 64 == 0 {
                both.compare("one by one");
            }
        }
        both.operate(&Operation::Take, &mut met, "none is left");
        both.compare("none is left");
    }
    assert_eq!((met.full, met.zero_leads, met.comparisons), (3, 3, 0));
}

/// All monomials in two variables with exponents below 64, of which there are 4,096.
fn most(order: Order) -> Vec<Term> {
    let monomials = (0..64).flat_map(|x| (0..64).map(move |y| vec![x, y]));
    let mut terms: Vec<Term> = monomials.map(|m| (m, 1)).collect();
    terms.sort_by(|(x, _), (y, _)| order.compare(y, x));
    terms
}
