//! Orders, settings, terms and polynomials.
use crate::raw::{Given, Numbers};
use crate::refusal::Place;
use crate::{place, Refusal, Refused, WEIGHTS};
use std::fmt;

/// The variables that a word has room for.
const FIELDS: usize = 6;

/// An order of monomials.
#[derive(Clone, Copy, Debug, PartialEq, Eq, Hash)]
#[non_exhaustive]
#[repr(u8)]
pub enum Order {
    /// lp: lexicographic.
    Lex = 1,
    /// Dp: by weighted degree, then lexicographic.
    DegLex = 2,
    /// dp: by weighted degree, then reverse lexicographic.
    DegRevLex = 3,
}

impl Order {
    /// The number of the order: lp 1, Dp 2, dp 3.
    pub fn number(self) -> u32 {
        self as u32
    }

    /// The order of a number.
    pub fn from_number(number: u64) -> Option<Self> {
        let all = [Order::Lex, Order::DegLex, Order::DegRevLex];
        all.into_iter().find(|o| u64::from(o.number()) == number)
    }

    /// Where the exponent of variable i, from 0, lies in a word.
    fn shift(self, i: usize) -> usize {
        match self {
            Order::Lex | Order::DegLex => 40 - 8 * i,
            Order::DegRevLex => 8 * i,
        }
    }
}

/// A prime, an order, a number of variables, and a weight for each variable.
#[derive(Clone, Copy, Debug, PartialEq, Eq, Hash)]
pub struct Setting {
    p: u32,
    order: Order,
    n: u32,
    /// As the C functions take them: x1's first, and 1 for variables past the n-th.
    weights: [u32; WEIGHTS],
}

impl Setting {
    /// A prime from 2 to [`LARGEST_PRIME`](crate::LARGEST_PRIME), an order, and 1 to
    /// [`MOST_VARIABLES`](crate::MOST_VARIABLES) variables, each of weight 1. The engine judges them: it
    /// refuses others with [`Refusal::NotPrime`] or [`Refusal::BadVariables`].
    ///
    /// ```
    /// use damselbuckle::{Order, Refusal, Setting};
    ///
    /// let setting = Setting::new(32003, Order::DegRevLex, 2)?;
    /// assert_eq!((setting.p(), setting.n()), (32003, 2));
    /// let refused = Setting::new(32001, Order::DegRevLex, 2).unwrap_err();
    /// assert_eq!(refused.refusal, Refusal::NotPrime);
    /// # Ok::<(), damselbuckle::Refused>(())
    /// ```
    pub fn new(p: u32, order: Order, n: u32) -> Result<Self, Refused> {
        Setting::unjudged(p, order, n).judged()
    }

    /// The same with other weights, 1 to [`LARGEST_WEIGHT`](crate::LARGEST_WEIGHT), one for each of the n
    /// variables. The degree of a monomial is then the sum of its exponents times their weights. The engine
    /// judges them: it refuses others with [`Refusal::BadWeight`]. Another number of them than n is
    /// [`Refusal::BadShape`].
    ///
    /// ```
    /// use damselbuckle::{Order, Refusal, Setting};
    ///
    /// // x2 stands for a slide joint and counts double.
    /// let setting = Setting::new(32003, Order::DegRevLex, 2)?.weighted(&[1, 2])?;
    /// assert_eq!(setting.weights(), [1, 2]);
    /// let refused = setting.weighted(&[1, 17]).unwrap_err();
    /// assert_eq!(refused.refusal, Refusal::BadWeight);
    /// # Ok::<(), damselbuckle::Refused>(())
    /// ```
    pub fn weighted(self, weights: &[u32]) -> Result<Self, Refused> {
        if weights.len() != self.n as usize {
            return Err(Refused::at_opening(Refusal::BadShape));
        }
        let mut setting = self;
        setting.weights[..weights.len()].copy_from_slice(weights);
        setting.judged()
    }

    /// Weights of 1, and nothing judged.
    fn unjudged(p: u32, order: Order, n: u32) -> Self {
        Setting {
            p,
            order,
            n,
            weights: [1; WEIGHTS],
        }
    }

    fn judged(self) -> Result<Self, Refused> {
        place::judged(Polynomials::new(self).given()).map(|()| self)
    }

    /// The setting of blocks that the engine accepted. `packed` has four bits for each weight less 1, those
    /// of x1 lowest.
    pub(crate) fn accepted(p: u32, order: Order, n: u32, packed: u64) -> Self {
        let weight = |i: usize| 1 + (packed >> (4 * i) & 15) as u32;
        Setting {
            weights: std::array::from_fn(weight),
            ..Setting::unjudged(p, order, n)
        }
    }

    /// The prime.
    pub fn p(self) -> u32 {
        self.p
    }

    pub fn order(self) -> Order {
        self.order
    }

    /// The number of variables.
    pub fn n(self) -> u32 {
        self.n
    }

    /// The weights of the n variables, x1's first.
    pub fn weights(&self) -> &[u32] {
        &self.weights[..WEIGHTS.min(self.n as usize)]
    }

    /// As the C functions take it.
    pub(crate) fn numbers(&self) -> Numbers<'_> {
        Numbers::new(self.p, self.order.number(), self.n).weighted(&self.weights)
    }

    /// The terms of words and coefficients, as [`Engine::output`](crate::Engine::output) and
    /// [`Engine::buckets`](crate::Engine::buckets) have them. A zero place is a term of coefficient 0.
    pub fn terms(self, words: &[u64], coefs: &[u32]) -> Vec<Term> {
        let terms = words.iter().zip(coefs);
        terms.map(|(&word, &coef)| self.term(word, coef)).collect()
    }

    pub(crate) fn term(self, word: u64, coef: u32) -> Term {
        let n = FIELDS.min(self.n as usize);
        let exponent = |i| (word >> self.order.shift(i)) as u8;
        Term::new(coef, (0..n).map(exponent).collect::<Vec<u8>>())
    }

    /// The word of n exponents; none of another number of them, or of more than a word has room for. An
    /// exponent over 127 makes a word that every call refuses.
    fn word(self, exponents: &[u8]) -> Option<u64> {
        if exponents.len() != self.n as usize || exponents.len() > FIELDS {
            return None;
        }
        let weighted = exponents.iter().zip(self.weights);
        let degree: u64 = weighted.map(|(&e, w)| u64::from(e) * u64::from(w)).sum();
        let fields = exponents.iter().enumerate();
        let field = |(i, &e): (usize, &u8)| u64::from(e) << self.order.shift(i);
        Some(fields.map(field).fold(degree << 48, |word, f| word | f))
    }
}

/// A coefficient and the exponents of the n variables. It is shown as a script has it: `3:2.0` is 3·x1².
#[derive(Clone, Debug, PartialEq, Eq, Hash)]
#[non_exhaustive]
pub struct Term {
    pub coef: u32,
    pub exponents: Vec<u8>,
}

impl Term {
    pub fn new(coef: u32, exponents: impl Into<Vec<u8>>) -> Self {
        let exponents = exponents.into();
        Term { coef, exponents }
    }
}

impl fmt::Display for Term {
    fn fmt(&self, f: &mut fmt::Formatter) -> fmt::Result {
        let exponents: Vec<String> = self.exponents.iter().map(u8::to_string).collect();
        write!(f, "{}:{}", self.coef, exponents.join("."))
    }
}

/// Polynomials in one setting, by the numbers 0, 1, and so on.
///
/// What is wrong with a polynomial is said by the call that is given it: it is refused before it does
/// anything, and names the place.
///
/// ```
/// use damselbuckle::{Engine, Order, Polynomials, Refusal, Setting};
///
/// let mut polynomials = Polynomials::new(Setting::new(32003, Order::DegRevLex, 2)?);
/// // x1² + x2² − 1
/// let equation = polynomials.push(&[(1, [2, 0]), (1, [0, 2]), (32002, [0, 0])])?;
/// assert_eq!(equation, 0);
/// assert_eq!(polynomials.terms(0).expect("it is there")[2].coef, 32002);
///
/// // The terms of x2 + x1 do not fall: x1 is the larger one.
/// polynomials.push(&[(1, [0, 1]), (1, [1, 0])])?;
/// let refused = Engine::new(100).reduce(&polynomials, 1000).unwrap_err();
/// assert_eq!(refused.refusal, Refusal::NotFalling);
/// assert_eq!(
///     refused.to_string(),
///     "refused 6 after 0: the terms of a polynomial do not fall strictly in the order (polynomial 1, term 1)"
/// );
/// # Ok::<(), damselbuckle::Refused>(())
/// ```
#[derive(Clone, Debug, PartialEq, Eq)]
pub struct Polynomials {
    setting: Setting,
    words: Vec<u64>,
    coefs: Vec<u32>,
    starts: Vec<usize>,
}

impl Polynomials {
    /// No polynomials so far.
    pub fn new(setting: Setting) -> Self {
        Polynomials {
            setting,
            words: Vec::new(),
            coefs: Vec::new(),
            starts: vec![0],
        }
    }

    /// Puts a polynomial after the others, and gives its number. The terms fall in the order: each is a
    /// coefficient, 1 to p − 1, and n exponents, 0 to 127. No terms are the polynomial zero.
    ///
    /// Where a term has another number of exponents than n it has no word: the refusal is
    /// [`Refusal::BadLayout`], and nothing is put.
    pub fn push<E: AsRef<[u8]>>(&mut self, terms: &[(u32, E)]) -> Result<usize, Refused> {
        self.put(terms.iter().map(|(coef, e)| (*coef, e.as_ref())))
    }

    /// As [`push`](Self::push), of terms as the calls give them.
    pub fn push_terms(&mut self, terms: &[Term]) -> Result<usize, Refused> {
        self.put(terms.iter().map(|t| (t.coef, &t.exponents[..])))
    }

    fn put<'a>(&mut self, terms: impl Iterator<Item = (u32, &'a [u8])>) -> Result<usize, Refused> {
        let (mut words, mut coefs) = (Vec::new(), Vec::new());
        for (coef, exponents) in terms {
            let Some(word) = self.setting.word(exponents) else {
                let at = Place::of_term(self.count(), words.len());
                return Err(Refused::at_opening(Refusal::BadLayout).at(Some(at)));
            };
            words.push(word);
            coefs.push(coef);
        }
        Ok(self.push_words(&words, &coefs))
    }

    /// As [`push`](Self::push), of words and coefficients, as many.
    pub(crate) fn push_words(&mut self, words: &[u64], coefs: &[u32]) -> usize {
        self.words.extend(words);
        self.coefs.extend(coefs);
        self.starts.push(self.words.len());
        self.count() - 1
    }

    /// How many polynomials there are.
    pub fn count(&self) -> usize {
        self.starts.len() - 1
    }

    pub fn setting(&self) -> Setting {
        self.setting
    }

    /// The words and coefficients of polynomial k.
    pub fn words_of(&self, k: usize) -> Option<(&[u64], &[u32])> {
        let places = *self.starts.get(k)?..*self.starts.get(k + 1)?;
        Some((&self.words[places.clone()], &self.coefs[places]))
    }

    /// The terms of polynomial k.
    pub fn terms(&self, k: usize) -> Option<Vec<Term>> {
        let (words, coefs) = self.words_of(k)?;
        Some(self.setting.terms(words, coefs))
    }

    /// As the C functions take them.
    pub(crate) fn given(&self) -> Given<'_> {
        self.first(self.count())
    }

    /// The first so many, as the C functions take them.
    pub(crate) fn first(&self, count: usize) -> Given<'_> {
        let starts = &self.starts[..=count];
        let terms = starts[count];
        let (words, coefs) = (&self.words[..terms], &self.coefs[..terms]);
        Given::new(self.setting.numbers(), words, coefs, starts)
    }
}
