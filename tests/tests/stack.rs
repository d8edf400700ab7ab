//! The stack of the library's calls, on the largest inputs: each call is made in a thread that has no more
//! stack than is named for it. Where that is not enough, the test breaks off. A listing is also tried with
//! less, in a process of its own, which must break off.
use damselbuckle::raw;
use second::block_store::Polynomial;
use second::call::{Given, Setting};
use second::generate::padded;
use second::lender;
use second::library;
use second::limits::{
    BLOCK_BYTES, LARGEST_PRIME, LISTING_BYTES, MOST_BLOCKS, MOST_STEPS, MOST_TERMS, SCRIPT_BYTES,
};
use second::monomial::{Order, ONES};
use second::polynomial::Term;
use second::reduction;
use second::run;
use second::script;
use std::os::unix::process::ExitStatusExt;
use std::process::Command;

/// Bytes of stack, as the header and docs/INTEGRATION.md name them.
const OF_A_CALL: usize = 100_000;
const OF_A_LISTING: usize = 400_000;
const TOO_FEW_FOR_A_LISTING: usize = 360_000;

/// The variable by which the stack of a listing is set.
const STACK: &str = "STACK_OF_A_LISTING";

/// Makes a call in a thread of so much stack.
fn within<A: Send>(bytes: usize, call: impl FnOnce() -> A + Send) -> A {
    std::thread::scope(|scope| {
        let thread = std::thread::Builder::new().stack_size(bytes);
        let spawned = thread.spawn_scoped(scope, call).expect("a thread");
        spawned.join().expect("it ends")
    })
}

/// So many falling terms in the first two of three variables.
fn falling_terms(order: Order, count: usize) -> Vec<Term> {
    let monomials = (0..128).flat_map(|x| (0..128).map(move |y| vec![x, y, 0]));
    let mut terms: Vec<Term> = monomials.map(|m| (m, 1)).collect();
    terms.sort_by(|(x, _), (y, _)| order.compare(y, x));
    terms.truncate(count);
    terms
}

fn settings() -> impl Iterator<Item = Setting> {
    let with = |p, weights| Order::ALL.map(|order| (order.weighted(weights), 3, p));
    let largest = with(LARGEST_PRIME, [5, 16, 2, 1, 1, 1]);
    with(32_003, ONES).into_iter().chain(largest)
}

/// All buckets are filled, up to the most terms; then the lead leaves the last, and one term more makes each
/// bucket go over to the next.
#[test]
fn a_run_needs_little_stack() {
    for setting in settings() {
        let mut rest = &falling_terms(setting.0, MOST_TERMS + 1)[..];
        let mut polynomials = Vec::new();
        for len in [2_732, 1_024, 256, 64, 16, 4, 1] {
            let (first, behind) = rest.split_at(len);
            polynomials.push(first.to_vec());
            rest = behind;
        }
        let given = Given::new(setting, &polynomials);
        let operations = [1, 0, 1, 1, 1, 2, 1, 3, 1, 4, 1, 5, 2, 0, 1, 6, 3, 0];
        let mut expected = lender::plain(MOST_TERMS + 2);
        let mut proved = expected.clone();
        let answer = run::run(&given, &operations, &mut expected);
        assert_eq!((answer.refusal, answer.finished), (0, 9), "{setting:?}");
        assert_eq!(answer.places as usize, MOST_TERMS + 2, "{setting:?}");
        let own = within(OF_A_CALL, || library::run(&given, &operations, &mut proved));
        assert_eq!(own, answer, "{setting:?}");
        lender::assert_same(&proved, &expected, "run");
    }
}

/// Reduces in so much stack as is named, and beside that in plain Rust. Gives how many leads were removed.
fn reduced(setting: Setting, polynomials: &[Vec<Term>]) -> usize {
    let given = Given::new(setting, polynomials);
    let mut expected = lender::plain(MOST_TERMS);
    let mut proved = expected.clone();
    let answer = reduction::reduce(&given, MOST_STEPS, &mut expected);
    assert_eq!(answer.refusal, 0, "{setting:?}");
    let own = within(OF_A_CALL, || {
        library::reduce(&given, MOST_STEPS, &mut proved)
    });
    assert_eq!(own, answer, "{setting:?}");
    lender::assert_same(&proved, &expected, "reduction");
    answer.finished as usize
}

/// So many divisors that divide no term in the first two variables.
fn unfit_divisors() -> Vec<Vec<Term>> {
    vec![vec![(vec![0, 0, 1], 1)]; 3_000]
}

/// The most terms, by the last of many divisors.
#[test]
fn a_reduction_needs_little_stack() {
    for setting in settings() {
        let mut polynomials = vec![falling_terms(setting.0, MOST_TERMS)];
        polynomials.extend(unfit_divisors());
        polynomials.push(vec![(vec![1, 0, 0], 2), (vec![0, 0, 0], 5)]);
        let removed = reduced(setting, &polynomials);
        assert!(removed > MOST_TERMS, "{setting:?}");
    }
}

/// A tail of over 1,024 terms, whose multiple is made in local arrays.
#[test]
fn a_large_tail_needs_little_stack() {
    for setting in settings() {
        let terms = falling_terms(setting.0, 4_000);
        let every_other = terms.iter().step_by(2).map(|(m, _)| (m.clone(), 2));
        let mut polynomials = vec![terms[..2_000].to_vec()];
        polynomials.extend(unfit_divisors());
        polynomials.push(every_other.collect());
        assert!(reduced(setting, &polynomials) > 0, "{setting:?}");
    }
}

/// The most terms to the most blocks and back.
#[test]
fn blocks_need_little_stack() {
    for setting in settings() {
        let given = Given::new(setting, &[falling_terms(setting.0, MOST_TERMS)]);
        let polynomial = Polynomial {
            numbers: given.numbers,
            words: given.words,
            coefs: given.coefs,
        };
        let mut bytes = vec![0; MOST_BLOCKS * BLOCK_BYTES];
        let written = within(OF_A_CALL, || library::write(&polynomial, &mut bytes));
        assert_eq!(written, Ok(MOST_BLOCKS as u64), "{setting:?}");
        let (mut words, mut coefs) = (vec![0; MOST_TERMS], vec![0; MOST_TERMS]);
        let read = within(OF_A_CALL, || library::read(&bytes, &mut words, &mut coefs));
        assert_eq!(read, Ok((polynomial.numbers, MOST_TERMS as u64)));
        assert!(
            (words, coefs) == (polynomial.words, polynomial.coefs),
            "{setting:?}"
        );
    }
}

/// A script of the most bytes, with as many terms as fit, and their sum.
#[test]
fn a_listing_needs_little_stack() {
    let stack = match std::env::var(STACK) {
        Ok(bytes) => bytes.parse().expect("a number"),
        Err(_) => OF_A_LISTING,
    };
    for order in Order::ALL.map(|order| order.weighted([5, 16, 2, 1, 1, 1])) {
        let head = format!("prime {LARGEST_PRIME}\norder {}\n", order.name());
        let mut text = head + "vars 3\nweights 5 16 2\nadd";
        for (exponents, coef) in falling_terms(order, MOST_TERMS) {
            let term = format!(" {coef}:{}.{}.0", exponents[0], exponents[1]);
            if text.len() + term.len() < SCRIPT_BYTES - 40 {
                text += &term;
            }
        }
        let text = padded(&(text + "\nlead\nsum\n"), SCRIPT_BYTES);
        let mut out = vec![0; LISTING_BYTES];
        let answer = within(stack, || raw::listing(text.as_bytes(), &mut out));
        assert_eq!(answer.refusal, 0, "{order:?}");
        let listing = script::listing(text.as_bytes());
        assert!(listing.starts_with("lead 1:127.127.0\nsum "), "{order:?}");
        assert_eq!(&out[..answer.length as usize], listing.as_bytes());
    }
}

#[test]
fn a_listing_needs_that_stack() {
    let tests = std::env::current_exe().expect("these tests");
    let listing = |bytes: usize| {
        let mut test = Command::new(&tests);
        let test = test.args(["a_listing_needs_little_stack", "--exact"]);
        test.env(STACK, bytes.to_string())
            .output()
            .expect("it runs")
    };
    assert!(listing(OF_A_LISTING).status.success());
    let broken = listing(TOO_FEW_FOR_A_LISTING).status;
    assert!(broken.signal().is_some(), "it ended with {broken}");
}

/// The header and docs/INTEGRATION.md name these numbers.
#[test]
fn documents_name_the_stack() {
    let header = include_str!("../../library/damselbuckle.h").replace("\n * ", " ");
    let guide = include_str!("../../docs/INTEGRATION.md").replace('\n', " ");
    let named = |bytes: usize| format!("{},{:03}", bytes / 1_000, bytes % 1_000);
    let [call, listing, too_few] = [OF_A_CALL, OF_A_LISTING, TOO_FEW_FOR_A_LISTING].map(named);
    let of_a_call = format!("{call} bytes are enough for a run, a reduction and the block store.");
    let of_a_listing = format!("For a listing {listing} are enough, and {too_few} are too few.");
    for document in [header, guide] {
        assert!(document.contains(&of_a_call) && document.contains(&of_a_listing));
    }
}
