//! Polynomials as runs and reductions are given them.
use crate::lists::{List, Terms};
use crate::monomial::ONES;

#[derive(Clone)]
pub struct Given {
    pub p: u32,
    pub n: u32,
    pub weights: [u32; 6],
    pub terms: List,
    pub starts: Vec<usize>,
}

impl Given {
    /// No polynomials so far, and weights of 1.
    pub fn new(p: u32, n: u32) -> Self {
        Given {
            p,
            n,
            weights: ONES,
            terms: List::default(),
            starts: vec![0],
        }
    }

    /// Puts a polynomial behind the others.
    pub fn push(&mut self, f: &List) {
        self.terms.words.extend_from_slice(&f.words);
        self.terms.coefs.extend_from_slice(&f.coefs);
        self.starts.push(self.terms.words.len());
    }

    /// How many polynomials there are, where there is a start.
    pub fn count(&self) -> usize {
        self.starts.len() - 1
    }

    /// Polynomial k, where the starts are good.
    #[inline(always)]
    pub fn polynomial(&self, k: usize) -> Terms<'_> {
        let places = self.starts[k]..self.starts[k + 1];
        (&self.terms.words[places.clone()], &self.terms.coefs[places])
    }
}
