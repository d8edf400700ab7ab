//! Scripts and their listings (document 01, "Script"; document 02, "Weighted degrees"): a plain reader, the
//! run of the second program, and the lines that it gives.
use crate::call::{Given, Loan, Numbers, Tally};
use crate::geobucket::most_comparisons;
use crate::limits::{BUCKET_PLACES, MOST_TERMS, SCRIPT_BYTES, WORK_PLACES};
use crate::monomial::{first_six, Order, FIELDS};
use crate::run::{run, ADD, LEAD, SUM};

/// The polynomials and the operations of a script, as a run takes them; nothing where it is not of the
/// form.
pub fn read(script: &[u8]) -> Option<(Given, Vec<usize>)> {
    if script.len() > SCRIPT_BYTES {
        return None;
    }
    let body = script.strip_suffix(b"\n")?;
    let mut lines = body.split(|&b| b == b'\n').peekable();
    let p = number(lines.next()?.strip_prefix(b"prime ")?)?;
    let order = order_named(lines.next()?.strip_prefix(b"order ")?)?;
    let n = number(lines.next()?.strip_prefix(b"vars ")?)?;
    let weights = match lines.next_if(|line| line.starts_with(b"weights")) {
        Some(line) => read_weights(line, n)?,
        None => Vec::new(),
    };
    let order = order.weighted(first_six(&weights));
    let numbers = Numbers {
        p,
        order: order.number(),
        n,
        weights: order.weights.to_vec(),
    };
    let mut given = Given {
        numbers,
        starts: vec![0],
        ..Given::default()
    };
    let mut operations = Vec::new();
    for line in lines {
        operations.extend(read_line(line, order, &mut given)?);
    }
    Some((given, operations))
}

/// The n weights of a line.
fn read_weights(line: &[u8], n: u32) -> Option<Vec<u32>> {
    let mut fields = line.split(|&b| b == b' ');
    if fields.next()? != b"weights" {
        return None;
    }
    let weights: Vec<u32> = fields.map(number).collect::<Option<_>>()?;
    (weights.len() == n as usize).then_some(weights)
}

/// The operation of a line, whose polynomial is put behind the others.
fn read_line(line: &[u8], order: Order, given: &mut Given) -> Option<[usize; 2]> {
    let mut fields = line.split(|&b| b == b' ');
    Some(match fields.next()? {
        b"add" => {
            for field in fields {
                let (word, coef) = read_term(field, order, given.numbers.n)?;
                given.words.push(word);
                given.coefs.push(coef);
            }
            given.starts.push(given.words.len());
            [ADD, given.starts.len() - 2]
        }
        b"lead" if fields.next().is_none() => [LEAD, 0],
        b"sum" if fields.next().is_none() => [SUM, 0],
        _ => return None,
    })
}

fn read_term(field: &[u8], order: Order, n: u32) -> Option<(u64, u32)> {
    let colon = field.iter().position(|&b| b == b':')?;
    let coef = number(&field[..colon])?;
    let mut exponents = Vec::new();
    for part in field[colon + 1..].split(|&b| b == b'.') {
        exponents.push(number(part)?.min(255) as u8);
    }
    if exponents.len() != n as usize {
        return None;
    }
    exponents.truncate(FIELDS);
    Some((order.word(&exponents), coef))
}

fn number(text: &[u8]) -> Option<u32> {
    let digits = !text.is_empty() && text.iter().all(u8::is_ascii_digit);
    let leading_zero = text.len() > 1 && text[0] == b'0';
    if !digits || leading_zero {
        return None;
    }
    std::str::from_utf8(text).ok()?.parse().ok()
}

fn order_named(name: &[u8]) -> Option<Order> {
    Order::ALL
        .into_iter()
        .find(|order| order.name().as_bytes() == name)
}

/// The listing of a script.
pub fn listing(script: &[u8]) -> String {
    let Some((given, operations)) = read(script) else {
        return "refused 17 at 0\n".to_string();
    };
    let mut loan = Loan {
        space: (vec![0; BUCKET_PLACES], vec![0; BUCKET_PLACES]),
        work: (vec![0; WORK_PLACES], vec![0; WORK_PLACES]),
        output: (vec![0; MOST_TERMS], vec![0; MOST_TERMS]), // enough for every script
        tally: Tally::default(),
    };
    let answer = run(&given, &operations, &mut loan);
    if answer.refusal != 0 {
        return format!("refused {} at {}\n", answer.refusal, answer.finished);
    }
    let mut text = answers(&given, &operations, &loan);
    let bound = most_comparisons(loan.tally.brought);
    text += &format!("cost {} of {}\n", loan.tally.comparisons, bound);
    text
}

fn answers(given: &Given, operations: &[usize], loan: &Loan) -> String {
    let mut text = String::new();
    let mut place = 0;
    for pair in operations.chunks(2) {
        match pair[0] {
            LEAD => {
                text += &format!("lead{}\n", shown(given, loan, place));
                place += 1;
            }
            SUM => {
                text += "sum";
                let first = place;
                while loan.output.1[place] != 0 {
                    text += &shown(given, loan, place);
                    place += 1;
                }
                text += if place == first { " zero\n" } else { "\n" };
                place += 1;
            }
            _ => {}
        }
    }
    text
}

/// A term behind a space, or ` zero`.
fn shown(given: &Given, loan: &Loan, place: usize) -> String {
    let coef = loan.output.1[place];
    if coef == 0 {
        return " zero".to_string();
    }
    let Numbers { order, n, .. } = given.numbers;
    let order = Order::ALL[order as usize - 1];
    let fields = order.fields(loan.output.0[place]);
    let exponents: Vec<String> = fields[..n as usize].iter().map(u8::to_string).collect();
    format!(" {coef}:{}", exponents.join("."))
}
