//! The commands of README.md, examples/README.md and docs/INTEGRATION.md. A block of these documents that
//! is marked `console` has a command after each `$`, and below it what it prints: the cheap ones are run, and
//! must print that. A command that proves or builds shows no output and is not run here, but what it names
//! must be there.
use second::repository::{root, text};
use std::fs;
use std::path::{Path, PathBuf};
use std::process::Command;

const DOCUMENTS: [&str; 3] = ["README.md", "examples/README.md", "docs/INTEGRATION.md"];

/// What a command that is run begins with; the others are too dear.
const CHEAP: [&str; 2] = ["crates/bucketlist/out/bucketlist ", "cargo run "];

/// The commands of a document, each with the lines below it.
fn commands(document: &str) -> Vec<(String, String)> {
    let mut found: Vec<(String, String)> = Vec::new();
    for block in document.split("```console\n").skip(1) {
        let block = block.split_once("```").expect("a block ends").0;
        assert!(block.starts_with("$ "), "no command: {block}");
        for line in block.lines() {
            match line.strip_prefix("$ ") {
                Some(command) => found.push((command.to_string(), String::new())),
                None => found.last_mut().expect("a command").1 += &format!("{line}\n"),
            }
        }
    }
    found
}

/// Runs it as the reader does, in the folder of the repository.
fn run(command: &str, output: &str) {
    let mut shell = Command::new("sh");
    let shell = shell.args(["-c", command]).current_dir(root());
    let ran = shell.output().expect("sh runs");
    let errors = String::from_utf8_lossy(&ran.stderr);
    assert!(ran.status.success(), "{command}: {errors}");
    let printed = String::from_utf8(ran.stdout).expect("text");
    assert_eq!(printed, output, "{command}");
}

/// A crate of crates.txt; whether it is a static library.
fn is_static(name: &str) -> Option<bool> {
    let list = text("crates.txt");
    let mut heads = list.lines().filter_map(|l| l.split_once(':')).map(|l| l.0);
    heads.find_map(|head| match head.strip_prefix(name)? {
        "" => Some(false),
        " staticlib" => Some(true),
        _ => None,
    })
}

/// What a command names is there: a script of the repository, or a crate in whose folder rt is called, with a
/// program to run, or a static library to make.
fn names_what_is_there(command: &str) {
    let command = command.split(" #").next().expect("a command").trim();
    let within = command.strip_prefix("(cd crates/");
    let within = within.and_then(|c| c.strip_suffix(')')?.split_once(" && "));
    let there = match within {
        None => is_program(&root().join(command)),
        Some((name, call)) => {
            let words: Vec<&str> = call.split_whitespace().collect();
            let folder = root().join("crates").join(name);
            let runs = folder.join("src/main.rt").exists();
            is_static(name).is_some_and(|library| match words[..] {
                ["rt", "lib"] => library,
                ["rt", "check"] => true,
                ["rt", "run"] => runs,
                ["rt", "run", "<", input] => runs && folder.join(input).is_file(),
                _ => false,
            })
        }
    };
    assert!(there, "what is {command}?");
}

/// A script that can be run.
fn is_program(path: &Path) -> bool {
    use std::os::unix::fs::PermissionsExt;
    fs::metadata(path).is_ok_and(|file| file.is_file() && file.permissions().mode() & 0o111 != 0)
}

#[test]
fn commands_print_what_is_shown() {
    let mut ran = 0;
    for document in DOCUMENTS {
        for (command, output) in commands(&text(document)) {
            if CHEAP.iter().any(|cheap| command.starts_with(cheap)) {
                run(&command, &output);
                ran += 1;
                continue;
            }
            assert_eq!(output, "", "{document}: {command} is not run");
            names_what_is_there(&command);
        }
    }
    assert!(ran > 5, "only {ran} commands were run");
}

/// Every script among the examples is on their page, and every example of the wrapper.
#[test]
fn examples_are_shown() {
    let page = text("examples/README.md");
    let named = |path: PathBuf| {
        path.file_name()
            .expect("a name")
            .to_string_lossy()
            .to_string()
    };
    let files = |folder: &str| fs::read_dir(root().join(folder)).expect("a folder");
    let mut shown = 0;
    for entry in files("examples") {
        let name = named(entry.expect("an entry").path());
        if name != "README.md" {
            let command = format!("$ crates/bucketlist/out/bucketlist < examples/{name}\n");
            assert!(page.contains(&command), "{name} is not shown");
            shown += 1;
        }
    }
    for entry in files("library/rust/examples") {
        let name = named(entry.expect("an entry").path());
        if let Some(name) = name.strip_suffix(".rs") {
            let command = format!(" --example {name}\n");
            assert!(page.contains(&command), "{name} is not shown");
            shown += 1;
        }
    }
    assert!(shown >= 5, "only {shown} examples");
}
