//! Quotation marks are for the documents' own words: what stands between them in a comment of specs/,
//! proofs/ or src/ stands in documents_quoted.txt, which has the headings and sentences of the customer's
//! documents 00, 01 and 02 that are quoted. A line there is one heading, or sentences that follow each
//! other; marks of lists and of bold type are left out, and white space is one space.
use second::repository::{files, root, text};
use std::fs;
use std::path::Path;

/// One space for each run of white space.
fn plain(text: &str) -> String {
    text.split_whitespace().collect::<Vec<_>>().join(" ")
}

/// What may be quoted.
fn sentences(excerpt: &str) -> Vec<String> {
    let lines = excerpt.lines().map(|l| plain(l.trim_start_matches('#')));
    lines.filter(|l| !l.is_empty()).collect()
}

/// Where the comment of a line begins: at the first mark that stands in no quoted text.
fn comment_at(line: &str, mark: &str) -> Option<usize> {
    let mut marks = line.match_indices(mark).map(|(at, _)| at);
    marks.find(|at| line[..*at].split('"').count() % 2 == 1)
}

/// The comments of a source, each with the number of its first line. Lines that have nothing else are one
/// comment with that on the line above.
fn comments(source: &str, mark: &str) -> Vec<(usize, String)> {
    let mut found: Vec<(usize, String)> = Vec::new();
    let mut above = false;
    for (number, line) in source.lines().enumerate() {
        let Some(at) = comment_at(line, mark) else {
            above = false;
            continue;
        };
        let alone = line[..at].trim().is_empty();
        let words = line[at..].trim_start_matches(['-', '/', '!']);
        match found.last_mut() {
            Some((_, text)) if alone && above => *text += &format!(" {words}"),
            _ => found.push((number + 1, words.to_string())),
        }
        above = alone;
    }
    found
}

/// What stands between quotation marks; nothing is known of a comment in which one has no partner.
fn quotations(comment: &str) -> Option<Vec<String>> {
    let parts: Vec<&str> = comment.split('"').collect();
    let paired = parts.len() % 2 == 1;
    paired.then(|| parts.iter().skip(1).step_by(2).map(|q| plain(q)).collect())
}

/// How many quotations a source has, and what is wrong with it.
fn judged(source: &str, mark: &str, sentences: &[String]) -> (usize, Vec<String>) {
    let (mut count, mut faults) = (0, Vec::new());
    for (line, comment) in comments(source, mark) {
        let Some(quoted) = quotations(&comment) else {
            faults.push(format!("{line}: a quotation mark without its partner"));
            continue;
        };
        count += quoted.len();
        let own = |q: &String| !q.is_empty() && sentences.iter().any(|s| s.contains(q.as_str()));
        let others = quoted.iter().filter(|q| !own(q));
        faults.extend(others.map(|q| format!("{line}: not the documents' words: {q}")));
    }
    (count, faults)
}

/// What begins a comment in a file, where it is one of specs/, proofs/ or src/.
fn mark_of(path: &Path) -> Option<&'static str> {
    let within = |name: &str| path.components().any(|c| c.as_os_str() == name);
    match path.extension()?.to_str()? {
        "antt" if within("specs") || within("proofs") => Some("--"),
        "rt" if within("src") => Some("//"),
        _ => None,
    }
}

#[test]
fn every_quotation_is_the_documents_own() {
    let sentences = sentences(&text("tests/documents_quoted.txt"));
    let (mut count, mut faults) = (0, Vec::new());
    for path in files(&root().join("crates")) {
        let Some(mark) = mark_of(&path) else { continue };
        let source = fs::read_to_string(&path).expect("a source");
        let (more, wrong) = judged(&source, mark, &sentences);
        count += more;
        faults.extend(wrong.iter().map(|w| format!("{}:{w}", path.display())));
    }
    assert!(faults.is_empty(), "{}", faults.join("\n"));
    assert!(count > 200, "only {count} quotations");
}

/// Other words, and marks that do not pair, are found, and code is not read as a comment.
#[test]
fn faults_are_found() {
    let own =
        sentences("## Buckets\n\nA zero f changes nothing and costs nothing.  Put the result\n");
    let faults = |source: &str, mark: &str| judged(source, mark, &own).1.len();
    assert_eq!(faults("-- \"A zero f  changes nothing\"", "--"), 0);
    assert_eq!(faults("x = 1 -- \"Buckets\"", "--"), 0);
    assert_eq!(faults("-- \"A zero f changes everything\"", "--"), 1);
    assert_eq!(faults("-- \"Buckets A zero\"", "--"), 1);
    assert_eq!(faults("-- \"\"", "--"), 1);
    assert_eq!(faults("-- \"A zero f", "--"), 1);
    assert_eq!(faults("// \"costs\n// nothing.\"", "//"), 0);
    assert_eq!(faults("// \"costs\nx\n// nothing.\"", "//"), 2);
    assert_eq!(faults("let s = \"other words\";", "//"), 0);
    assert_eq!(faults("let s = \"//\"; // \"other words\"", "//"), 1);
}
