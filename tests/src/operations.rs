//! Generated lists of operations on a geobucket. Each operation is made from what the buckets hold
//! when it comes, so that additions fit and can be aimed at the leads.
use crate::generate::{coef, falling, monomial, monomials, negative, up_to, with_coefs};
use crate::geobucket::{capacity, Geobucket, BUCKETS};
use crate::limits::MOST_TERMS;
use crate::monomial::{Order, LIMIT};
use crate::polynomial::{sum, Term};
use crate::random::Random;
use crate::residue;
use std::collections::BTreeSet;

/// One of so many lists fills the buckets.
const FULL_EVERY: u64 = 25;

/// How many earlier additions are remembered, to be taken back.
const REMEMBERED: usize = 8;

#[derive(Clone, Debug)]
pub enum Operation {
    Add(Vec<Term>),
    /// Finds the lead and leaves it.
    Find,
    /// Finds the lead and removes it.
    Take,
    Sum,
}

impl Operation {
    /// A short text, for messages.
    pub fn name(&self) -> String {
        match self {
            Operation::Add(f) => format!("add {} terms", f.len()),
            Operation::Find => "find".to_string(),
            Operation::Take => "take".to_string(),
            Operation::Sum => "sum".to_string(),
        }
    }
}

/// What a list of operations is like.
pub struct Operations {
    order: Order,
    n: usize,
    p: u32,
    /// Whether additions are to fill the buckets.
    fill: bool,
    /// The most terms of an addition.
    len: usize,
    /// The largest exponent: a small one makes many like terms.
    limit: u8,
    /// Of ten operations, so many are additions.
    additions: u64,
    earlier: Vec<Vec<Term>>,
}

impl Operations {
    pub fn new(random: &mut Random, case: u64, (order, n, p): (Order, usize, u32)) -> Self {
        let bucket = random.pick(&[0, 1, 2, 2, 3, 3, 4]);
        let (fill, len) = match case % FULL_EVERY {
            0 => (true, MOST_TERMS),
            _ => (false, capacity(bucket)),
        };
        Operations {
            order,
            n,
            p,
            fill,
            len,
            limit: random.pick(&[1, 2, 3, 7, LIMIT]),
            additions: random.pick(&[3, 5, 7, 9]),
            earlier: Vec::new(),
        }
    }

    /// How many operations the list has.
    pub fn count(&self, random: &mut Random) -> usize {
        match self.fill {
            true => 8 + up_to(random, 12),
            false => 5 + up_to(random, 100),
        }
    }

    /// An operation that the buckets accept.
    pub fn next(&mut self, random: &mut Random, held: &Geobucket) -> Operation {
        if random.below(10) < self.additions {
            let mut f = self.addition(random, held);
            f.truncate(MOST_TERMS - held.held());
            self.remember(random, &f);
            return Operation::Add(f);
        }
        match random.below(16) {
            0 => Operation::Sum,
            1..=3 if self.fill => Operation::Sum,
            4..=7 => Operation::Find,
            _ => Operation::Take,
        }
    }

    fn remember(&mut self, random: &mut Random, f: &[Term]) {
        if self.earlier.len() == REMEMBERED {
            self.earlier.swap_remove(up_to(random, REMEMBERED - 1));
        }
        self.earlier.push(f.to_vec());
    }

    /// A polynomial to add, perhaps of more terms than the buckets have room for.
    fn addition(&self, random: &mut Random, held: &Geobucket) -> Vec<Term> {
        match random.below(20) {
            0 => Vec::new(),
            1..=3 => self.taken_back(random),
            4..=9 => self.against_leads(random, held),
            10 => self.against_all(held),
            _ if self.fill => self.filling(random, MOST_TERMS - held.held()),
            _ => self.any(random),
        }
    }

    /// About as many terms as some bucket holds, so that each bucket is met.
    fn any(&self, random: &mut Random) -> Vec<Term> {
        let most = self.len.min(capacity(up_to(random, BUCKETS - 1)));
        let len = 1 + up_to(random, most - 1);
        let monomials = monomials(random, self.order, self.n, len, self.limit);
        with_coefs(random, self.p, monomials)
    }

    /// The negative of an earlier addition.
    fn taken_back(&self, random: &mut Random) -> Vec<Term> {
        match self.earlier.len() {
            0 => Vec::new(),
            len => negative(self.p, &self.earlier[up_to(random, len - 1)]),
        }
    }

    /// The first terms of some buckets, half of them times -1, and more terms, often small ones.
    fn against_leads(&self, random: &mut Random, held: &Geobucket) -> Vec<Term> {
        let mut terms = Vec::new();
        for bucket in held.buckets() {
            let some = random.pick(&[0, 0, 1, 3]).min(bucket.len());
            let turned = bucket[..some].iter().map(|(m, c)| match random.below(2) {
                0 => (m.clone(), coef(random, self.p)),
                _ => (m.clone(), residue::negate(*c, self.p)),
            });
            terms.extend(turned);
        }
        let limit = random.pick(&[1, self.limit]);
        let more = random.pick(&[0, 2, 2, 12]);
        let more = up_to(random, more);
        let monomials = monomials(random, self.order, self.n, more, limit);
        terms.extend(with_coefs(random, self.p, monomials));
        self.each_once(terms)
    }

    /// The terms in falling order, the first of each monomial.
    fn each_once(&self, mut terms: Vec<Term>) -> Vec<Term> {
        terms.sort_by(|(x, _), (y, _)| self.order.compare(y, x));
        terms.dedup_by(|(x, _), (y, _)| x == y);
        terms
    }

    /// The negative of all that is held.
    fn against_all(&self, held: &Geobucket) -> Vec<Term> {
        let add = |so_far: Vec<Term>, f: &Vec<Term>| sum(self.order, self.p, &so_far, f);
        let all = held.buckets().iter().fold(Vec::new(), add);
        negative(self.p, &all)
    }

    /// Up to as many terms as there is room for, often exactly as many.
    fn filling(&self, random: &mut Random, room: usize) -> Vec<Term> {
        let len = match random.below(2) {
            0 => room,
            _ => up_to(random, room),
        };
        let mut found = BTreeSet::new();
        for _ in 0..4 * len {
            if found.len() < len {
                found.insert(monomial(random, self.n, LIMIT));
            }
        }
        let monomials = falling(self.order, found.into_iter().collect());
        with_coefs(random, self.p, monomials)
    }
}
