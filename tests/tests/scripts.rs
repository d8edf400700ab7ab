//! The program `bucketlist` and the library's listing against the second program's listing of the same
//! script. The program is `crates/bucketlist/out/bucketlist`, which `rt run` there makes, and `rt ci`.
use damselbuckle::raw;
use second::cases;
use second::damage::no_prime;
use second::generate::{coef, padded, prime, weights};
use second::limits::{LARGEST_PRIME, LISTING_BYTES, SCRIPT_BYTES};
use second::monomial::{Order, FIELDS};
use second::random::Random;
use second::refusals::Refusals;
use second::script::listing;
use std::io::Write;
use std::path::PathBuf;
use std::process::{Command, Stdio};

/// One of so many cases is a script; half of these are damaged. Each refusal must be printed once in so
/// many cases.
const CASES_PER_SCRIPT: u64 = 10;
const CASES_PER_REFUSAL: u64 = 10_000;

fn program() -> PathBuf {
    PathBuf::from(env!("CARGO_MANIFEST_DIR")).join("../crates/bucketlist/out/bucketlist")
}

/// What the program writes for a script.
fn proved(script: &[u8]) -> String {
    let mut child = Command::new(program())
        .stdin(Stdio::piped())
        .stdout(Stdio::piped())
        .spawn()
        .expect("crates/bucketlist/out/bucketlist runs: `rt run` there makes it");
    let mut input = child.stdin.take().expect("its input is a pipe");
    input.write_all(script).expect("it reads its input");
    drop(input);
    let output = child.wait_with_output().expect("it ends");
    String::from_utf8(output.stdout).expect("it writes text")
}

fn same(script: &[u8]) {
    let text = String::from_utf8_lossy(script);
    let own = listing(script);
    assert_eq!(proved(script), own, "script:\n{text}");
    assert_eq!(damselbuckle::listing(script), own, "script:\n{text}");
}

/// A falling polynomial with few monomials, so that much cancels.
fn polynomial(random: &mut Random, order: Order, n: usize, p: u32) -> String {
    let largest = random.pick(&[2, 3, 128]);
    let mut monomials: Vec<Vec<u8>> = (0..random.below(9))
        .map(|_| (0..n).map(|_| random.below(largest) as u8).collect())
        .collect();
    monomials.sort_by(|a, b| order.compare(b, a));
    monomials.dedup();
    let mut text = "add".to_string();
    for exponents in monomials {
        let coef = coef(random, p);
        let parts: Vec<String> = exponents.iter().map(u8::to_string).collect();
        text += &format!(" {coef}:{}", parts.join("."));
    }
    text
}

/// A line of the order's weights, sometimes with one that is outside its range, or with one more or less.
fn weights_line(random: &mut Random, order: Order, n: usize) -> String {
    let mut weights = order.weights.to_vec();
    weights.resize(n, 1);
    match random.below(20) {
        0 => weights[random.below(n as u64) as usize] = random.pick(&[0, 17, 18, 256, u32::MAX]),
        1 => weights.push(1),
        2 => drop(weights.pop()),
        _ => {}
    }
    let numbers = weights.iter().map(|w| format!(" {w}"));
    format!("weights{}\n", numbers.collect::<String>())
}

fn script(random: &mut Random) -> Vec<u8> {
    let order = random.pick(&Order::ALL);
    // Seven variables are one too many.
    let n = match random.below(40) {
        0 => 7,
        _ => 1 + random.below(6) as usize,
    };
    let weighted = random.below(2) == 0;
    let order = match weighted {
        true => order.weighted(weights(random, n.min(FIELDS))),
        false => order,
    };
    let p = prime(random);
    // Sometimes another number, which is no prime or is too large.
    let named = match random.below(40) {
        0 => no_prime(random),
        _ => p,
    };
    let mut text = format!("prime {named}\norder {}\nvars {n}\n", order.name());
    if weighted {
        text += &weights_line(random, order, n);
    }
    for _ in 0..random.below(30) {
        let line = match random.below(4) {
            0 => "lead".to_string(),
            1 if random.below(3) == 0 => "sum".to_string(),
            _ => polynomial(random, order, n, p),
        };
        text += &line;
        text.push('\n');
    }
    text.into_bytes()
}

/// One byte inserted, removed or changed, or two lines of the head exchanged, or one of them twice.
fn damage(random: &mut Random, script: &mut Vec<u8>) {
    if random.below(8) == 0 {
        return damage_lines(random, script);
    }
    let byte = random.pick(b"0123456789:. \nadlesumpxwight\r");
    let at = random.below(script.len() as u64) as usize;
    match random.below(3) {
        0 => script.insert(at, byte),
        1 => drop(script.remove(at)),
        _ => script[at] = byte,
    }
}

/// Exchanges one of the first five lines with the next, or has it twice.
fn damage_lines(random: &mut Random, script: &mut Vec<u8>) {
    let mut lines: Vec<&[u8]> = script.split_inclusive(|&b| b == b'\n').collect();
    let at = random.below(5.min(lines.len() as u64 - 1)) as usize;
    match random.below(2) {
        0 => lines.swap(at, at + 1),
        _ => lines.insert(at, lines[at]),
    }
    *script = lines.concat();
}

/// The refusal that a listing ends with, or 0.
fn printed(listing: &str) -> u64 {
    let last = listing.lines().last().expect("a line");
    let words: Vec<&str> = last.split(' ').collect();
    match words[..] {
        ["refused", number, "at", _] => number.parse().expect("a number"),
        _ => 0,
    }
}

#[test]
fn generated_scripts() {
    let mut random = Random::new(8);
    let mut met = Refusals::default();
    for case in 0..cases() / CASES_PER_SCRIPT {
        let mut script = script(&mut random);
        if case % 2 == 1 {
            damage(&mut random, &mut script);
        }
        same(&script);
        met.meet(printed(&listing(&script)));
    }
    let least = cases() / CASES_PER_REFUSAL;
    met.expect("print", least);
}

/// A listing is lent room for the longest, whatever it says; with less its call is refused.
#[test]
fn room_of_a_listing() {
    let mut met = Refusals::default();
    for script in [&b"lead\n"[..], b"prime 7\norder dp\nvars 2\nsum\n"] {
        for room in [0, 20, LISTING_BYTES - 1, LISTING_BYTES, LISTING_BYTES + 1] {
            let mut out = vec![9; room];
            let answer = raw::listing(script, &mut out);
            let (refusal, own) = match room < LISTING_BYTES {
                true => (10, String::new()),
                false => (0, listing(script)),
            };
            let length = answer.length as usize;
            assert_eq!((answer.refusal, answer.finished), (refusal, 0));
            assert_eq!(&out[..length], own.as_bytes());
            assert!(out[length..].iter().all(|&byte| byte == 9));
            met.meet(refusal);
        }
    }
    met.expect("listing", 1);
}

#[test]
fn the_listing_of_document_01() {
    let script =
        b"prime 7\norder dp\nvars 2\nadd 3:2.0 1:1.1 1:0.2 1:1.0 1:0.1\nadd 4:2.0\nlead\nsum\n";
    let listing = "lead 1:1.1\nsum 1:0.2 1:1.0 1:0.1\ncost 1 of 72\n";
    assert_eq!(proved(script), listing);
    same(script);
}

/// Primes up to the largest and over it, and coefficients of ten digits.
#[test]
fn largest_prime() {
    let cases: [(u64, &str, &str); 13] = [
        (
            2_147_483_647,
            "add 2147483646:1 1:0\nlead\n",
            "lead 2147483646:1\ncost 0 of 12\n",
        ),
        (2_147_483_647, "add 2147483647:0\n", "refused 4 at 0\n"),
        (2_147_483_647, "add 4294967295:0\n", "refused 4 at 0\n"),
        (2_147_483_647, "add 4294967296:0\n", "refused 17 at 0\n"),
        (
            2_147_483_629,
            "add 2147483628:0\nsum\n",
            "sum 2147483628:0\ncost 0 of 6\n",
        ),
        (2_147_483_629, "add 2147483629:0\nsum\n", "refused 4 at 0\n"),
        (
            65_537,
            "add 65536:1 65536:0\nsum\n",
            "sum 65536:1 65536:0\ncost 0 of 12\n",
        ),
        (2_147_117_569, "sum\n", "refused 1 at 0\n"), // 46,337 squared
        (2_147_483_648, "sum\n", "refused 1 at 0\n"),
        (2_147_483_659, "sum\n", "refused 1 at 0\n"), // a prime
        (4_294_967_291, "sum\n", "refused 1 at 0\n"), // the last one of 32 bits
        (4_294_967_295, "sum\n", "refused 1 at 0\n"),
        (4_294_967_296, "sum\n", "refused 17 at 0\n"),
    ];
    for (p, lines, listing) in cases {
        let script = format!("prime {p}\norder dp\nvars 1\n{lines}");
        assert_eq!(proved(script.as_bytes()), listing, "script:\n{script}");
        same(script.as_bytes());
    }
}

/// The coefficients of x1 add up to 4294967291, which leaves 2147483644; the others add up to the prime.
#[test]
fn sums_modulo_the_largest_prime() {
    let adds = "add 2147483646:1 2147483646:0\nadd 2147483645:1\nlead\nadd 1:0\nsum\n";
    let script = format!("prime 2147483647\norder lp\nvars 1\n{adds}");
    let listing = "lead 2147483644:1\nsum zero\ncost 2 of 24\n";
    assert_eq!(proved(script.as_bytes()), listing);
    same(script.as_bytes());
}

#[test]
fn corners() {
    let cases: [(&str, &str); 23] = [
        ("", "refused 17 at 0\n"),
        ("prime 7\norder dp\nvars 2\n", "cost 0 of 0\n"),
        ("prime 7\norder dp\nvars 2", "refused 17 at 0\n"),
        ("prime 7\norder dp\nvars 2\nlead", "refused 17 at 0\n"),
        (
            "prime 7\norder dp\nvars 2\nlead\n",
            "lead zero\ncost 0 of 0\n",
        ),
        (
            "prime 7\norder dp\nvars 2\nsum\n",
            "sum zero\ncost 0 of 0\n",
        ),
        ("prime 7\norder dp\nvars 0\n", "refused 3 at 0\n"),
        ("prime 7\norder dp\nvars 0\nadd 1:0\n", "refused 17 at 0\n"),
        ("prime 7\norder dp\nvars 2\nweights 1 1\n", "cost 0 of 0\n"),
        (
            "prime 7\norder dp\nvars 2\nweights 1 1",
            "refused 17 at 0\n",
        ),
        ("prime 7\norder dp\nvars 2\nweights", "refused 17 at 0\n"),
        (
            "prime 7\norder dp\nvars 7\nadd 1:0.0.0.0.0.0.0\n",
            "refused 3 at 0\n",
        ),
        (
            "prime 7\norder dp\nvars 7\nadd 1:0.0.0.0.0.0\n",
            "refused 17 at 0\n",
        ),
        ("prime 7\norder dp\nvars 1\nadd  1:0\n", "refused 17 at 0\n"),
        ("prime 7\norder dp\nvars 1\nadd \n", "refused 17 at 0\n"),
        ("prime 7\norder dp\nvars 1\nadd 01:0\n", "refused 17 at 0\n"),
        ("prime 7\norder dp\nvars 1\nadd 1:00\n", "refused 17 at 0\n"),
        ("prime 7\norder dp\nvars 1\nlead 1:0\n", "refused 17 at 0\n"),
        ("prime 7\r\norder dp\r\nvars 1\r\n", "refused 17 at 0\n"),
        ("prime 7\norder dp\nvars 1\nadd 1:128\n", "refused 5 at 0\n"),
        ("prime 7\norder dp\nvars 1\nadd 7:128\n", "refused 4 at 0\n"),
        (
            "prime 7\norder dp\nvars 1\nadd 1:4294967295\n",
            "refused 5 at 0\n",
        ),
        (
            "prime 7\norder dp\nvars 1\nadd 1:4294967296\n",
            "refused 17 at 0\n",
        ),
    ];
    for (script, listing) in cases {
        assert_eq!(proved(script.as_bytes()), listing, "script:\n{script}");
        same(script.as_bytes());
    }
}

/// The listing of a head with these lines at its end, in the order Dp modulo 7, and of the line `sum`.
fn headed(lines: &str) -> String {
    let script = format!("prime 7\norder Dp\n{lines}sum\n");
    let listing = proved(script.as_bytes());
    same(script.as_bytes());
    listing
}

/// Heads with a line `weights` of the form, and without it.
const OF_THE_FORM: [&str; 6] = [
    "vars 2\n",
    "vars 2\nweights 1 1\n",
    "vars 2\nweights 16 2\n",
    "vars 1\nweights 16\n",
    "vars 6\nweights 1 2 3 4 5 6\n",
    "vars 6\nweights 16 16 16 16 16 16\n",
];

/// Heads that are not of the form: another count than n; numbers that are written otherwise, or are over 32
/// bits; another word; the line elsewhere, or twice.
const OF_NO_FORM: [&str; 26] = [
    "vars 2\nweights 1\n",
    "vars 2\nweights 1 1 1\n",
    "vars 2\nweights\n",
    "vars 0\nweights 1\n",
    "vars 7\nweights 1 1\n",
    "vars 7\nweights 1 1 1 1 1 1\n",
    "vars 2\nweights \n",
    "vars 0\nweights \n",
    "vars 2\nweights 01 1\n",
    "vars 2\nweights 1 00\n",
    "vars 2\nweights 1  1\n",
    "vars 2\nweights  1 1\n",
    "vars 2\nweights 1 1 \n",
    "vars 2\n weights 1 1\n",
    "vars 2\nweights 1 1\r\n",
    "vars 2\nweights 1 4294967296\n",
    "vars 2\nweights 1 99999999999999999999\n",
    "vars 2\nweights 1 -1\n",
    "vars 2\nweights 1.1\n",
    "vars 2\nweights1 1\n",
    "vars 2\nweight 1 1\n",
    "vars 2\nWeights 1 1\n",
    "weights 1 1\nvars 2\n",
    "vars 2\nadd\nweights 1 1\n",
    "vars 2\nlead\nweights 1 1\n",
    "vars 2\nweights 1 1\nweights 1 1\n",
];

/// Heads with a weight outside its range, and with a number of variables outside it.
const BAD_WEIGHT: [&str; 4] = [
    "vars 2\nweights 0 1\n",
    "vars 2\nweights 1 17\n",
    "vars 1\nweights 4294967295\n",
    "vars 6\nweights 1 1 1 1 1 256\n",
];
const BAD_VARIABLES: [&str; 4] = [
    "vars 7\nweights 1 1 1 1 1 1 1\n",
    "vars 7\nweights 0 1 1 1 1 1 17\n",
    "vars 0\nweights\n",
    "vars 0\n",
];

/// The line `weights`: where it stands, how its numbers are written and how many they are. A program that
/// takes it twice differs on the last head of `OF_NO_FORM`.
#[test]
fn weights_of_a_script() {
    for head in OF_THE_FORM {
        assert_eq!(headed(head), "sum zero\ncost 0 of 0\n", "{head}");
    }
    for (heads, refusal) in [
        (&OF_NO_FORM[..], 17),
        (&BAD_WEIGHT, 24),
        (&BAD_VARIABLES, 3),
    ] {
        for head in heads {
            assert_eq!(headed(head), format!("refused {refusal} at 0\n"), "{head}");
        }
    }
}

/// 24 comes after 17 of any line and after 1, and before 4, 5 and 6 of the terms.
#[test]
fn bad_weights_in_their_turn() {
    for (p, head, terms, refusal) in [
        (7, "vars 1\nweights 0\n", "add 1:1\n", 24),
        (7, "vars 1\nweights 17\n", "add 7:1\n", 24),
        (7, "vars 1\nweights 17\n", "add 1:128\n", 24),
        (7, "vars 1\nweights 17\n", "add 1:255 1:4294967295\n", 24),
        (7, "vars 1\nweights 4294967295\n", "add 1:127 1:255\n", 24),
        (7, "vars 1\nweights 0\n", "add 1:0 1:1\n", 24),
        (7, "vars 1\nweights 0\n", "lead 1\n", 17),
        (7, "vars 1\nweights 0\n", "add 1:0.0\n", 17),
        (7, "vars 1\nweights 0\n", "weights 1\n", 17),
        (6, "vars 1\nweights 0\n", "", 1),
        (6, "vars 1\nweights 0 0\n", "", 17),
        (7, "vars 1\nweights 16\n", "add 7:1\n", 4),
        (7, "vars 1\nweights 16\n", "add 1:128\n", 5),
        (7, "vars 1\nweights 16\n", "add 1:255\n", 5),
        (7, "vars 1\nweights 16\n", "add 1:0 1:1\n", 6),
    ] {
        let script = format!("prime {p}\norder dp\n{head}{terms}");
        let listing = format!("refused {refusal} at 0\n");
        assert_eq!(proved(script.as_bytes()), listing, "script:\n{script}");
        same(script.as_bytes());
    }
}

/// The leads of x1² + 2·x2 + 3·x3² by order and weights. The text of a listing has no weights.
#[test]
fn weights_decide_leads() {
    let leads = |order: &str, weights: &str| {
        let head = format!("prime 7\norder {order}\nvars 3\n{weights}");
        let script = head + "add 1:2.0.0\nadd 2:0.1.0\nadd 3:0.0.2\nlead\nlead\nlead\n";
        same(script.as_bytes());
        proved(script.as_bytes())
    };
    let in_turn = |[a, b, c]: [&str; 3]| format!("lead {a}\nlead {b}\nlead {c}\ncost ");
    let (x, y, z) = ("1:2.0.0", "2:0.1.0", "3:0.0.2");
    for (order, weights, expected) in [
        ("Dp", "", [x, z, y]),
        ("Dp", "weights 1 1 1\n", [x, z, y]),
        ("Dp", "weights 1 3 2\n", [z, y, x]),
        ("Dp", "weights 1 5 2\n", [y, z, x]),
        ("Dp", "weights 2 4 2\n", [x, y, z]),
        ("dp", "", [x, z, y]),
        ("dp", "weights 1 5 2\n", [y, z, x]),
        ("dp", "weights 1 16 8\n", [y, z, x]),
        ("dp", "weights 8 16 8\n", [x, y, z]),
        ("lp", "", [x, y, z]),
        ("lp", "weights 1 5 16\n", [x, y, z]),
    ] {
        let (found, expected) = (leads(order, weights), in_turn(expected));
        assert!(found.starts_with(&expected), "{order} {weights}: {found}");
    }
}

/// A script of the most bytes is read, and one of a byte more is refused and not cut; but for its length it
/// is as good.
#[test]
fn lengths() {
    let head = format!("prime {LARGEST_PRIME}\norder lp\nvars 1\n");
    let script = head + &"add 1:0\nsum\n".repeat(1_000);
    for bytes in [SCRIPT_BYTES - 1, SCRIPT_BYTES] {
        let good = padded(&script, bytes);
        assert!(proved(good.as_bytes()).starts_with("sum 1:0\n"), "{bytes}");
        same(good.as_bytes());
    }
    let long = padded(&script, SCRIPT_BYTES + 1);
    assert_eq!(proved(long.as_bytes()), "refused 17 at 0\n");
    assert_eq!(damselbuckle::listing(long.as_bytes()), "refused 17 at 0\n");
    let shorter = long.strip_suffix("add\n").expect("padded");
    assert!(proved(shorter.as_bytes()).starts_with("sum 1:0\n"));
    same(shorter.as_bytes());
}

/// The listing of lines that are repeated as often as a script has room for, modulo the largest prime, in
/// one variable, whose exponents have one byte in a script: the shorter a term there, the more a listing
/// may have for each byte.
fn repeated(lines: &str) -> String {
    let head = format!("prime {LARGEST_PRIME}\norder lp\nvars 1\n");
    let room = SCRIPT_BYTES - 20 - head.len(); // for `padded`
    let script = padded(&(head + &lines.repeat(room / lines.len())), SCRIPT_BYTES);
    same(script.as_bytes());
    let listing = listing(script.as_bytes());
    assert!(listing.ends_with('\n') && !listing.starts_with("refused"));
    assert!(listing.len() <= LISTING_BYTES, "{lines}");
    listing
}

/// Long listings of the longest scripts. The longest is that of lines `sum`: four bytes are answered by
/// nine. A term is listed once at most, and with a coefficient no longer than those that it is the sum of
/// are together, so that terms make it shorter.
#[test]
fn long_listings() {
    let all = |coef: &str| {
        (0..10)
            .rev()
            .fold(String::new(), |t, e| t + &format!(" {coef}:{e}"))
    };
    let add = |coef: &str| format!("add{}\n", all(coef));
    let twice = |coef: &str, more: &str| add(coef) + &add(more) + "sum\n";
    let shapes = [
        ("sum\n".to_string(), 36_000),
        ("lead\n".to_string(), 32_000),
        (add("1") + "sum\n", 14_000),
        (add("2147483646") + "sum\n", 15_000),
        (twice("999999999", "1"), 11_000), // ten digits of nine and one
        (twice("2147483646", "2147483646"), 7_000),
        (add("2147483646") + &"lead\n".repeat(11), 12_000),
    ];
    for (lines, least) in shapes {
        let bytes = repeated(&lines).len();
        println!("{bytes} bytes of {}", lines.lines().next().expect("a line"));
        assert!(bytes > least, "{bytes} bytes of {lines}");
    }
}
