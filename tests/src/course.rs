//! A run or a reduction past the opening checks: a geobucket that starts empty, the output written so
//! far, and the tally.
use crate::call::{Space, Tally};
use crate::geobucket::{Geobucket, Lead};
use crate::limits::{MOST_TERMS, WORK_PLACES};
use crate::monomial::Order;
use crate::polynomial::{lent, Term};

pub struct Course<'a> {
    order: Order,
    pub buckets: Geobucket,
    output: &'a mut Space,
    /// The output places written so far.
    pub places: usize,
    pub tally: Tally,
}

impl<'a> Course<'a> {
    pub fn new(order: Order, p: u32, output: &'a mut Space) -> Self {
        Course {
            order,
            buckets: Geobucket::new(order, p),
            output,
            places: 0,
            tally: Tally::default(),
        }
    }

    /// Refuses where fewer output places than these are free.
    pub fn free(&self, places: usize) -> Result<(), u64> {
        match self.output.0.len() - self.places >= places {
            true => Ok(()),
            false => Err(10),
        }
    }

    /// Puts terms into the next output places.
    pub fn put(&mut self, terms: &[Term]) {
        let (words, coefs) = lent(self.order, terms);
        let places = self.places..self.places + terms.len();
        self.output.0[places.clone()].copy_from_slice(&words);
        self.output.1[places.clone()].copy_from_slice(&coefs);
        self.places = places.end;
        self.tally.given += terms.len() as u64;
    }

    /// Puts word 0 and coefficient 0 into the next output place.
    pub fn put_zero(&mut self) {
        self.output.0[self.places] = 0;
        self.output.1[self.places] = 0;
        self.places += 1;
    }

    /// Refuses so many terms where too many would be held, not counting `less` of those that are.
    pub fn room(&self, less: usize, terms: usize) -> Result<(), u64> {
        match self.buckets.held() - less + terms <= MOST_TERMS {
            true => Ok(()),
            false => Err(11),
        }
    }

    /// Adds a polynomial for which there is room.
    pub fn add(&mut self, f: &[Term]) {
        self.tally.comparisons += self.buckets.add(f).comparisons;
        self.tally.brought += f.len() as u64;
    }

    /// Finds the lead, and leaves it in its bucket.
    pub fn lead(&mut self) -> Option<Lead> {
        let (lead, search) = self.buckets.lead();
        self.tally.comparisons += search.comparisons;
        lead
    }

    /// The bucket space, the work space and the tally at return.
    pub fn left(self) -> (Space, Space, Tally) {
        let held = self.buckets.held() as u64;
        let work = (vec![0; WORK_PLACES], vec![0; WORK_PLACES]);
        (self.buckets.space(), work, Tally { held, ..self.tally })
    }
}
