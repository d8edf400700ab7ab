//! Reads the texts of the repository.
use std::path::{Path, PathBuf};

pub fn root() -> PathBuf {
    Path::new(env!("CARGO_MANIFEST_DIR")).join("../..")
}

pub fn text(path: &str) -> String {
    std::fs::read_to_string(root().join(path)).unwrap_or_else(|e| panic!("{path}: {e}"))
}

/// `RunAnswer` as `run_answer`.
pub fn snake(name: &str) -> String {
    let parts = name.chars().map(|c| match c {
        'A'..='Z' => format!("_{}", c.to_ascii_lowercase()),
        _ => c.to_string(),
    });
    parts
        .collect::<String>()
        .trim_start_matches('_')
        .to_string()
}

/// The numbers that the header defines, with their names behind `DAMSELBUCKLE_`, in turn.
pub fn defined(header: &str) -> Vec<(&str, u64)> {
    let defines = header
        .lines()
        .filter_map(|l| l.strip_prefix("#define DAMSELBUCKLE_"));
    let pairs = defines.filter_map(|d| d.split_once(' '));
    let number = |text: &str| {
        let text = text.trim_start_matches("UINT64_C(");
        let digits: String = text.chars().take_while(char::is_ascii_digit).collect();
        digits.parse().expect("a number")
    };
    pairs.map(|(name, text)| (name, number(text))).collect()
}

/// 2147483647 as `2,147,483,647`.
pub fn with_commas(number: u64) -> String {
    match number {
        0..=999 => number.to_string(),
        _ => format!("{},{:03}", with_commas(number / 1_000), number % 1_000),
    }
}
