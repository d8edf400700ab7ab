//! What the documents name is there: the theorems and must-fail edits of docs/ASSURANCE.md, the crates
//! of README.md, the entries of library/refusals.txt; and what scripts make of them is as made.
use second::refusals::{table, ENTRIES};
use second::repository::{files, root, text};
use std::collections::BTreeSet;
use std::fs;
use std::path::{Path, PathBuf};
use std::process::{Command, Output};

/// The cells of each row of a document's tables.
fn rows(document: &str) -> Vec<Vec<&str>> {
    let lines = document.lines().filter(|l| l.starts_with("| "));
    lines
        .map(|l| l.trim_matches('|').split(" | ").map(str::trim).collect())
        .collect()
}

/// What stands between back quotes.
fn quoted(cell: &str) -> Vec<&str> {
    cell.split('`').skip(1).step_by(2).collect()
}

/// Whether the text declares a theorem of this name.
fn declares(text: &str, name: &str) -> bool {
    let declared = format!("{name} :");
    text.lines().any(|l| {
        l.trim_start()
            .trim_start_matches("pub ")
            .starts_with(&declared)
    })
}

/// A row of the table of claims: claim, names, and their file or folder.
fn claim(cells: Vec<&str>) -> (&str, Vec<&str>, &str) {
    let [claim, _, names, file] = cells[..] else {
        panic!("not four cells: {cells:?}");
    };
    let [path] = quoted(file)[..] else {
        panic!("not one file: {cells:?}");
    };
    assert!(!quoted(names).is_empty(), "no name: {cells:?}");
    (claim, quoted(names), path)
}

/// The rows of the one table of docs/ASSURANCE.md.
fn claims(document: &str) -> Vec<(&str, Vec<&str>, &str)> {
    let head = "| Claim | What holds | Shown by | File in `crates/` |";
    let parts: Vec<&str> = document.split(head).collect();
    assert_eq!(parts.len(), 2, "there is one table of claims");
    let table = parts[1].split("\n\n").next().expect("its rows");
    rows(table).into_iter().map(claim).collect()
}

/// The wrong programs of a must-fail edit: those that it names, or one of its own name.
fn programs(edit: &Path) -> Vec<String> {
    let text = fs::read_to_string(edit).expect("an edit");
    let named = text.lines().filter_map(|l| l.strip_prefix("wrong: "));
    let named: Vec<String> = named.map(str::to_string).collect();
    match named.is_empty() {
        true => vec![edit.file_stem().expect("a name").to_string_lossy().into()],
        false => named,
    }
}

/// Whether an edit of this folder makes the wrong program of this name.
fn has_edit(folder: &str, name: &str) -> bool {
    let edits = files(&root().join("crates").join(folder)).into_iter();
    let mut edits = edits.filter(|p| p.extension().is_some_and(|e| e == "edit"));
    edits.any(|p| programs(&p).iter().any(|w| w == name))
}

/// Each theorem of the table is declared in the file that its row names, and each edit lies in its folder.
#[test]
fn claims_are_where_they_say() {
    let document = text("docs/ASSURANCE.md");
    for (claim, names, path) in claims(&document) {
        let edits = path.ends_with("/must-fail");
        let file = if edits {
            String::new()
        } else {
            text(&format!("crates/{path}"))
        };
        for name in names {
            let there = if edits {
                has_edit(path, name)
            } else {
                declares(&file, name)
            };
            assert!(there, "{claim}: {name} is not in {path}");
        }
    }
}

/// A theorem or edit stands in the table once; and each kind of claim is there.
#[test]
fn claims_are_made_once() {
    let document = text("docs/ASSURANCE.md");
    let (mut kinds, mut found) = (BTreeSet::new(), BTreeSet::new());
    for (claim, names, path) in claims(&document) {
        kinds.insert(claim);
        for name in names {
            assert!(
                found.insert((path, name)),
                "{name} of {path} stands there twice"
            );
        }
    }
    let known =
        "demand 1, demand 2, demand 3, ground, point 3, point 4, point 5, point 6, price, starred, wrong engine";
    assert_eq!(kinds.into_iter().collect::<Vec<_>>().join(", "), known);
    assert!(found.len() > 100, "only {} names", found.len());
}

/// Runs a script of docs/, in a repository, that only looks whether what it makes is there.
fn looked_at(repository: &Path, script: &str) -> Output {
    let mut command = Command::new("bash");
    let command = command.args([script, "--check"]).current_dir(repository);
    command.output().expect("bash runs")
}

fn as_made(script: &str) {
    let looked = looked_at(&root(), script);
    let differs = String::from_utf8_lossy(&looked.stdout);
    let said = String::from_utf8_lossy(&looked.stderr);
    assert!(looked.status.success(), "{differs}{said}");
}

/// The definitions that a reader must believe are listed as the sources have them.
#[test]
fn reading_order_is_as_made() {
    as_made("docs/reading_order");
}

/// The crates are drawn and listed as crates.txt has them.
#[test]
fn crates_picture_is_as_made() {
    as_made("docs/crates_picture");
}

/// A copy of what the scripts of docs/ read.
fn copied() -> PathBuf {
    let copy = std::env::temp_dir().join(format!("damselbuckle-{}", std::process::id()));
    let mut paths = files(&root().join("docs"));
    paths.extend(files(&root().join("crates")));
    paths.push(root().join("crates.txt"));
    for path in paths {
        let to = copy.join(path.strip_prefix(root()).expect("a file of the repository"));
        fs::create_dir_all(to.parent().expect("its folder")).expect("a folder");
        fs::copy(path, to).expect("a copy");
    }
    copy
}

/// The scripts find a definition that is not counted, and a crate that is not drawn.
#[test]
fn changes_are_found() {
    let copy = copied();
    let append = |path: &str, end: &str| {
        let path = copy.join(path);
        let text = fs::read_to_string(&path).expect("a text");
        fs::write(path, text + end).expect("a longer text");
    };
    let made = |script: &str| looked_at(&copy, script).status.success();
    let scripts = ["docs/reading_order", "docs/crates_picture"];
    assert_eq!(scripts.map(made), [true, true]);
    append("crates.txt", "further: monomial\n");
    assert_eq!(scripts.map(made), [true, false]);
    append(
        "crates/limits/specs/Limits.antt",
        "\nabbrev pub further : ℕ\nfurther = 1\n",
    );
    assert_eq!(scripts.map(made), [false, false]);
    fs::remove_dir_all(&copy).expect("the copy goes");
}

/// The words of all sources: those that names are made of, with hyphens or without.
fn words_of_sources() -> BTreeSet<String> {
    let folders = "crates library/rust/src library/rust/tests tests/src tests/tests bench/src";
    let folders = folders.split(' ').map(|f| files(&root().join(f)));
    let mut words = BTreeSet::new();
    for path in folders.flatten() {
        let name = path.file_stem().and_then(|n| n.to_str());
        words.extend(name.map(str::to_string));
        let Ok(text) = fs::read_to_string(&path) else {
            continue;
        };
        let parts = text.split(|c: char| !(c.is_alphanumeric() || c == '_' || c == '-'));
        words.extend(parts.map(str::to_string));
    }
    words
}

/// A name in back quotes in what is said of the sources is a word of theirs.
#[test]
fn names_are_in_the_sources() {
    let words = words_of_sources();
    let name = |c: char| c.is_ascii_alphanumeric() || c == '_' || c == '-';
    let mut checked = 0;
    for document in ["DECISIONS", "CONTRIBUTING"] {
        let document = text(&format!("docs/{document}.md"));
        let named = quoted(&document).into_iter();
        for named in named.filter(|n| n.len() > 2 && n.chars().all(name)) {
            assert!(words.contains(named), "no source has {named}");
            checked += 1;
        }
    }
    assert!(checked > 100, "only {checked} names");
}

/// docs/ASSURANCE.md names the toolchain that the gate compares.
#[test]
fn toolchain_is_the_pinned_one() {
    let named = format!("`{}`", text("toolchain.txt").trim());
    assert!(text("docs/ASSURANCE.md").contains(&named));
}

/// The documents keep to plain words.
#[test]
fn words_are_plain() {
    let docs = files(&root().join("docs")).into_iter();
    let documents = docs.filter(|p| p.extension().is_some_and(|e| e == "md"));
    for path in documents.chain([root().join("README.md")]) {
        let (name, document) = (path.display(), fs::read_to_string(&path).expect("a text"));
        let said = document.split(|c: char| !c.is_alphanumeric());
        let said: Vec<&str> = said.filter(|w| !w.is_empty()).collect();
        let said = format!(" {} ", said.join(" "));
        for words in ["anew", "see to", "sees to", "one behind the other"] {
            let found = said.contains(&format!(" {words} "));
            assert!(!found, "{name}: {words}");
        }
    }
}

/// README.md has a row for each crate, and no other.
#[test]
fn crates_are_in_the_readme() {
    let (listed, readme) = (text("crates.txt"), text("README.md"));
    let lines = listed
        .lines()
        .filter(|l| !l.starts_with('#') && !l.is_empty());
    let mut crates: Vec<&str> = lines
        .map(|l| l.split([':', ' ']).next().expect("a name"))
        .collect();
    let table = readme.split("| crate |").nth(1).expect("a table of crates");
    let table = table.split("\n\n").next().expect("its rows");
    let mut named: Vec<&str> = rows(table).iter().flat_map(|r| quoted(r[0])).collect();
    crates.sort_unstable();
    named.sort_unstable();
    assert_eq!(named, crates);
}

/// The table of refusals names the entries that the tests know, and no others.
#[test]
fn entries_of_the_refusals() {
    let named: BTreeSet<&str> = table().into_iter().flat_map(|r| r.given_by).collect();
    assert_eq!(named, ENTRIES.into());
}
