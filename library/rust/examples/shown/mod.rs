//! What the examples share: polynomials with signed coefficients and named variables.
use damselbuckle::{Engine, Polynomials, Refused, Term, MOST_TERMS};

/// Terms as an example writes them: a coefficient, also a negative one, and the exponents.
pub type Terms<'a, const N: usize> = &'a [(i64, [u8; N])];

/// Puts a polynomial after the others.
pub fn push<const N: usize>(polynomials: &mut Polynomials, terms: Terms<N>) -> Result<(), Refused> {
    let p = i64::from(polynomials.setting().p());
    let modulo = |&(coef, exponents): &(i64, [u8; N])| (coef.rem_euclid(p) as u32, exponents);
    let terms: Vec<(u32, [u8; N])> = terms.iter().map(modulo).collect();
    polynomials.push(&terms).map(|_| ())
}

/// Reduces polynomial 0, the closing condition, by the others, and says what follows.
pub fn reduce(arm: &Polynomials, names: &[&str]) -> Result<String, Refused> {
    let reduction = Engine::new(MOST_TERMS).reduce(arm, 1_000)?;
    let leads = reduction.leads;
    if reduction.is_zero() {
        return Ok(format!("the arm closes: zero is left after {leads} leads"));
    }
    let left = shown(arm, names, &reduction.remainder);
    Ok(format!("closing is not shown; what is left is {left}"))
}

/// Terms with the names of their variables; a coefficient over p/2 is shown as a negative number.
pub fn shown(polynomials: &Polynomials, names: &[&str], terms: &[Term]) -> String {
    let p = polynomials.setting().p();
    let mut text = String::new();
    for term in terms {
        let negative = term.coef > p / 2;
        text += match (text.is_empty(), negative) {
            (true, true) => "-",
            (true, false) => "",
            (false, true) => " - ",
            (false, false) => " + ",
        };
        let coef = if negative { p - term.coef } else { term.coef };
        text += &coef.to_string();
        for (name, &exponent) in names.iter().zip(&term.exponents) {
            match exponent {
                0 => {}
                1 => text += &format!("*{name}"),
                _ => text += &format!("*{name}^{exponent}"),
            }
        }
    }
    text
}
