//! How often a test met each refusal, and which an entry gives.
use std::collections::{BTreeMap, BTreeSet};

/// The table of refusals, which says what its columns are.
const TABLE: &str = include_str!("../../library/refusals.txt");

/// The entries of the table. Each has a test that holds what it met to the table.
pub const ENTRIES: [&str; 6] = ["run", "reduce", "write", "read", "listing", "print"];

/// A refusal of the table.
#[derive(Clone, Debug, PartialEq, Eq)]
pub struct Row {
    pub number: u64,
    pub given_by: Vec<&'static str>,
    pub leaves: &'static str,
}

pub fn table() -> Vec<Row> {
    let rows = TABLE
        .lines()
        .filter(|l| !l.is_empty() && !l.starts_with('#'));
    let row = |text: &'static str| {
        let cells: Vec<&str> = text.split('|').map(str::trim).collect();
        Row {
            number: cells[0].parse().expect("a number"),
            given_by: cells[2].split(", ").collect(),
            leaves: cells[3],
        }
    };
    rows.map(row).collect()
}

/// The rows of the refusals that an entry gives.
fn given_by(entry: &str) -> impl Iterator<Item = Row> + '_ {
    assert!(ENTRIES.contains(&entry), "{entry}");
    let gives = move |row: &Row| row.given_by.contains(&entry);
    table().into_iter().filter(gives)
}

/// The refusals that stop a run or a reduction on its way.
pub fn stops(entry: &str) -> Vec<u64> {
    let stops = given_by(entry).filter(|row| row.leaves.starts_with("stopped"));
    stops.map(|row| row.number).collect()
}

/// How often each number came, 0 for none.
#[derive(Clone, Debug, Default)]
pub struct Refusals(BTreeMap<u64, u64>);

impl Refusals {
    pub fn meet(&mut self, number: u64) {
        *self.0.entry(number).or_default() += 1;
    }

    pub fn of(&self, number: u64) -> u64 {
        self.0.get(&number).copied().unwrap_or(0)
    }

    /// Prints the counts, and fails where a refusal that the entry gives, or 0, came less often than
    /// this, or another number came at all.
    pub fn expect(&self, entry: &str, least: u64) {
        let met = self.0.iter();
        let texts: Vec<String> = met.map(|(n, often)| format!("{n}: {often}")).collect();
        let texts = texts.join(", ");
        println!("{entry}, how often each refusal came (0 is none): {texts}");
        let given: BTreeSet<u64> = given_by(entry).map(|row| row.number).chain([0]).collect();
        for &number in &given {
            let often = self.of(number);
            assert!(often >= least, "{entry}: {number} came {often} times");
        }
        let other = self.0.keys().find(|number| !given.contains(number));
        assert_eq!(other, None, "{entry} gives none of this number");
    }
}
