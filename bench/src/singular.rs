//! Times whole reductions beside Singular's `reduce` on the same polynomials and divisors. Singular
//! chooses among the divisors that fit for itself, a smaller lead first; so the divisors stand in that
//! order here. Each list of divisors is a Gröbner basis (the leads of the random ones are powers of
//! unlike variables), so that the remainder is the same whichever is taken. It fails where remainders
//! differ.
use crate::buckets::P;
use crate::given::Given;
use crate::library;
use crate::lists::{List, Order};
use crate::loan::Loan;
use crate::plain_reduction;
use crate::random::Random;
use crate::reductions::{by_exponents, reduction, Kind, VARIABLES};
use damselbuckle::{MOST_STEPS, MOST_TERMS};
use std::io::Write;
use std::process::{Command, Stdio};
use std::time::Instant;

/// The polynomials of a row, which are reduced by the same divisors.
const POLYNOMIALS: usize = 4;

/// Rounds over all rows. In each, all polynomials are reduced so often by the two engines, and by
/// Singular in so many batches of at least so many microseconds.
const ROUNDS: usize = 4;
const PASSES: usize = 40;
const BATCHES: usize = 4;
const BATCH: usize = 40_000;

/// One kind of reductions, and the least seconds of the proved engine, of plain Rust and of Singular
/// for all its polynomials.
struct Row {
    kind: Kind,
    order: Order,
    divisors: Vec<List>,
    polynomials: Vec<List>,
    remainders: Vec<List>,
    leads: u64,
    best: [f64; 3],
}

impl Row {
    fn new(random: &mut Random, kind: Kind, order: Order) -> Self {
        let mut divisors = kind.divisors(random, order, P);
        let lead = |g: &List| by_exponents(order).fields(g.words[0]);
        divisors.sort_by(|g, h| by_exponents(order).compare(&lead(g), &lead(h)));
        let polynomials = (0..POLYNOMIALS).map(|_| kind.polynomial(random, order, P));
        let mut row = Row {
            kind,
            order,
            divisors,
            polynomials: polynomials.collect(),
            remainders: Vec::new(),
            leads: 0,
            best: [f64::INFINITY; 3],
        };
        row.reduce_all();
        row
    }

    /// The remainders of all polynomials, and the leads removed.
    fn reduce_all(&mut self) {
        let mut loan = Loan::new(MOST_TERMS);
        for f in &self.polynomials {
            let given = reduction(P, f, &self.divisors);
            let Loan { memory, output } = &mut loan;
            let number = self.order.number();
            let r = library::reduce(number, &given, MOST_STEPS, memory, output);
            assert_eq!(r.refusal, 0, "refused");
            self.leads += r.leads;
            let terms = r.given as usize;
            self.remainders.push(List {
                words: output.words[..terms].to_vec(),
                coefs: output.coefs[..terms].to_vec(),
            });
        }
    }

    fn round(&mut self) {
        let calls: Vec<Given> = self
            .polynomials
            .iter()
            .map(|f| reduction(P, f, &self.divisors))
            .collect();
        let mut loan = Loan::new(MOST_TERMS);
        let Loan { memory, output } = &mut loan;
        for _ in 0..PASSES {
            let start = Instant::now();
            for given in &calls {
                let number = self.order.number();
                library::reduce(number, given, MOST_STEPS, memory, output);
            }
            self.take(0, start.elapsed().as_secs_f64());
            let start = Instant::now();
            for given in &calls {
                plain_reduction::reduce(self.order, given, MOST_STEPS, memory, output);
            }
            self.take(1, start.elapsed().as_secs_f64());
        }
        self.singular();
    }

    fn take(&mut self, k: usize, time: f64) {
        self.best[k] = self.best[k].min(time);
    }

    /// Lets Singular reduce all polynomials, and compares its remainders.
    fn singular(&mut self) {
        let text = output_of(&self.script());
        assert!(
            !text.contains("much slower"),
            "Singular lacks its modules (package singular-modules)"
        );
        let mut remainders = Vec::new();
        for line in text.lines() {
            match line.split_whitespace().collect::<Vec<_>>()[..] {
                ["time", microseconds, passes] => {
                    self.take(2, number(microseconds) / number(passes) / 1e6)
                }
                ["polynomial"] => remainders.push(List::default()),
                ["term", coef, exponents] => {
                    let list = remainders.last_mut().expect("a polynomial");
                    let fields: Vec<u8> = exponents.split(',').map(|e| number(e) as u8).collect();
                    list.words.push(by_exponents(self.order).word(&fields));
                    let coef = (number(coef) as i64).rem_euclid(i64::from(P));
                    list.coefs.push(coef as u32);
                }
                _ => panic!("Singular says: {line}"),
            }
        }
        assert!(remainders == self.remainders, "remainders differ");
    }

    /// What Singular is told: `L(127)` has it pack exponents as closely as here.
    fn script(&self) -> String {
        format!(
            r#"ring r={P},(x(1..{VARIABLES})),({order},L(127));
ideal g={divisors};
ideal f={polynomials};
attrib(g,"isSB",1);
system("--ticks-per-sec",1000000);
ideal h; int passes=1; int t; int k; int b; poly s;
while(1) {{ t=rtimer; for(k=1;k<=passes;k++) {{ h=reduce(f,g); }} t=rtimer-t; if(t>={BATCH}) {{ break; }} passes=2*passes; }}
for(b=1;b<={BATCHES};b++) {{ t=rtimer; for(k=1;k<=passes;k++) {{ h=reduce(f,g); }} t=rtimer-t; "time "+string(t)+" "+string(passes); }}
for(k=1;k<={POLYNOMIALS};k++) {{ "polynomial"; s=h[k]; while(s!=0) {{ "term "+string(leadcoef(s))+" "+string(leadexp(s)); s=s-lead(s); }} }}
quit;
"#,
            order = self.order.name(),
            divisors = self.texts(&self.divisors),
            polynomials = self.texts(&self.polynomials),
        )
    }

    /// The polynomials as Singular reads them.
    fn texts(&self, lists: &[List]) -> String {
        let texts: Vec<String> = lists.iter().map(|f| self.text(f)).collect();
        texts.join(",\n")
    }

    fn text(&self, f: &List) -> String {
        let mut terms = Vec::new();
        for (&word, coef) in f.words.iter().zip(&f.coefs) {
            let fields = by_exponents(self.order).fields(word);
            let powers = (1..).zip(&fields[..VARIABLES]);
            let text: String = powers.map(|(k, e)| format!("*x({k})^{e}")).collect();
            terms.push(format!("{coef}{text}"));
        }
        terms.join("+")
    }

    fn print(&self) {
        let [proved, plain, singular] = self.best.map(|b| b * 1e9 / self.leads as f64);
        println!(
            "| {} | {} | {} | {proved:.1} | {plain:.1} | {:.2} | {singular:.1} | {:.2} |",
            self.kind.name(),
            self.order.name(),
            self.leads,
            proved / plain,
            singular / proved,
        );
    }
}

/// What Singular prints for a script.
fn output_of(script: &str) -> String {
    let mut child = Command::new("Singular")
        .args(["-q", "--no-rc"])
        .stdin(Stdio::piped())
        .stdout(Stdio::piped())
        .spawn()
        .expect("Singular runs");
    let mut input = child.stdin.take().expect("its input is a pipe");
    input.write_all(script.as_bytes()).expect("it reads");
    drop(input);
    let output = child.wait_with_output().expect("it ends");
    String::from_utf8(output.stdout).expect("it writes text")
}

fn number(text: &str) -> f64 {
    text.parse()
        .unwrap_or_else(|_| panic!("not a number: {text}"))
}

/// Whole reductions beside Singular: nanoseconds for each lead.
pub fn singular() {
    let random = &mut Random::new(55);
    let mut rows: Vec<Row> = Kind::rows()
        .into_iter()
        .map(|(kind, order)| Row::new(random, kind, order))
        .collect();
    for _ in 0..ROUNDS {
        rows.iter_mut().for_each(Row::round);
    }
    println!("| Divisors | Order | Leads | Proved | Plain Rust | Proved / plain | Singular | Singular / proved |");
    println!("|---|---|---|---|---|---|---|---|");
    rows.iter().for_each(Row::print);
}
