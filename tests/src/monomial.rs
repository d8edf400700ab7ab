//! Monomials as exponent vectors, that of x1 first: the three kinds of order, the weights, and the packed
//! word (document 01, "Terms"; document 02, "Weighted degrees").
use std::cmp::Ordering;

/// The most variables that a word holds.
pub const FIELDS: usize = 6;

/// The largest exponent.
pub const LIMIT: u8 = 127;

/// Six weights of 1.
pub const ONES: [u32; FIELDS] = [1; FIELDS];

/// The first six of any weights, with 1 for what is missing.
pub fn first_six(weights: &[u32]) -> [u32; FIELDS] {
    std::array::from_fn(|k| weights.get(k).copied().unwrap_or(1))
}

#[derive(Clone, Copy, Debug, PartialEq, Eq)]
pub enum Kind {
    Lex,
    DegLex,
    DegRevLex,
}

/// An order of monomials: its kind, and the weights of all six variables, that of x1 first.
#[derive(Clone, Copy, Debug, PartialEq, Eq)]
pub struct Order {
    pub kind: Kind,
    pub weights: [u32; FIELDS],
}

impl Order {
    /// The orders with weights of 1.
    pub const LEX: Order = Order::unweighted(Kind::Lex);
    pub const DEG_LEX: Order = Order::unweighted(Kind::DegLex);
    pub const DEG_REV_LEX: Order = Order::unweighted(Kind::DegRevLex);
    pub const ALL: [Order; 3] = [Order::LEX, Order::DEG_LEX, Order::DEG_REV_LEX];

    const fn unweighted(kind: Kind) -> Order {
        let weights = ONES;
        Order { kind, weights }
    }

    /// The order of the same kind with these weights.
    pub const fn weighted(self, weights: [u32; FIELDS]) -> Order {
        Order { weights, ..self }
    }

    pub fn name(self) -> &'static str {
        match self.kind {
            Kind::Lex => "lp",
            Kind::DegLex => "Dp",
            Kind::DegRevLex => "dp",
        }
    }

    pub fn number(self) -> u32 {
        match self.kind {
            Kind::Lex => 1,
            Kind::DegLex => 2,
            Kind::DegRevLex => 3,
        }
    }

    /// The weighted degree: the sum of the exponents times their weights.
    pub fn degree(self, a: &[u8]) -> u64 {
        let weighted = a.iter().zip(self.weights);
        weighted.map(|(&e, w)| u64::from(e) * u64::from(w)).sum()
    }

    /// How the monomial a stands to b, both in the same number of variables.
    pub fn compare(self, a: &[u8], b: &[u8]) -> Ordering {
        let degrees = || self.degree(a).cmp(&self.degree(b));
        match self.kind {
            Kind::Lex => lex(a, b),
            Kind::DegLex => degrees().then(lex(a, b)),
            Kind::DegRevLex => degrees().then(rev_lex(a, b)),
        }
    }

    /// The lowest bit of the field of variable k, from 0.
    fn shift(self, k: usize) -> usize {
        match self.kind {
            Kind::Lex | Kind::DegLex => 40 - 8 * k,
            Kind::DegRevLex => 8 * k,
        }
    }

    /// The word of these exponents. Where the degree is over 16 bits, its lowest ones are there.
    pub fn word(self, exponents: &[u8]) -> u64 {
        let mut word = self.degree(exponents) << 48;
        for (k, &e) in exponents.iter().enumerate() {
            word |= u64::from(e) << self.shift(k);
        }
        word
    }

    /// The six fields of a word, that of x1 first.
    pub fn fields(self, word: u64) -> [u8; FIELDS] {
        std::array::from_fn(|k| (word >> self.shift(k) & 0xff) as u8)
    }

    /// How any word stands to another, of the layout or not: what lies above the fields counts as the
    /// degree, and lp looks at it last.
    pub fn compare_words(self, x: u64, y: u64) -> Ordering {
        let degree = (x >> 48).cmp(&(y >> 48));
        let (a, b) = (self.fields(x), self.fields(y));
        match self.kind {
            Kind::Lex => lex(&a, &b).then(degree),
            Kind::DegLex => degree.then(lex(&a, &b)),
            Kind::DegRevLex => degree.then(rev_lex(&a, &b)),
        }
    }

    /// Whether the word is of the layout in n variables.
    pub fn in_layout(self, n: usize, word: u64) -> bool {
        let fields = self.fields(word);
        fields.iter().all(|&e| e <= LIMIT)
            && fields[n..].iter().all(|&e| e == 0)
            && word >> 48 == self.degree(&fields)
    }
}

/// The first variable with unlike exponents decides: the larger exponent makes the larger monomial.
fn lex(a: &[u8], b: &[u8]) -> Ordering {
    for k in 0..a.len() {
        if a[k] != b[k] {
            return a[k].cmp(&b[k]);
        }
    }
    Ordering::Equal
}

/// The last variable with unlike exponents decides: the smaller exponent makes the larger monomial.
fn rev_lex(a: &[u8], b: &[u8]) -> Ordering {
    for k in (0..a.len()).rev() {
        if a[k] != b[k] {
            return b[k].cmp(&a[k]);
        }
    }
    Ordering::Equal
}

/// Whether the monomial b divides a.
pub fn divides(b: &[u8], a: &[u8]) -> bool {
    b.iter().zip(a).all(|(y, x)| y <= x)
}

/// The monomial a divided by b, where b divides it.
pub fn quotient(a: &[u8], b: &[u8]) -> Option<Vec<u8>> {
    a.iter().zip(b).map(|(x, y)| x.checked_sub(*y)).collect()
}

/// The product, where no exponent of it is over 127.
pub fn product(a: &[u8], b: &[u8]) -> Option<Vec<u8>> {
    let sum = |(x, y): (&u8, &u8)| x.checked_add(*y).filter(|&e| e <= LIMIT);
    a.iter().zip(b).map(sum).collect()
}
