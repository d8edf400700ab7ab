//! The program `bucketlist` where its input cannot be read or its output cannot be written: it says so on
//! standard error, and does not take what it has read for a script. It ends with status 0 all the same.
use std::path::Path;
use std::process::{Command, Output};

const SCRIPT: &str = "examples/arm.script";
const PROGRAM: &str = "crates/bucketlist/out/bucketlist";

/// What a shell does in the folder of the repository.
fn shell(command: &str) -> Output {
    let root = Path::new(env!("CARGO_MANIFEST_DIR")).join("..");
    let mut shell = Command::new("sh");
    let shell = shell.args(["-c", command]).current_dir(root);
    shell.output().expect("sh runs")
}

/// What the program writes with these redirections, and what it says on standard error.
fn written(redirections: &str) -> (String, String) {
    let Output {
        status,
        stdout,
        stderr,
    } = shell(&format!("{PROGRAM} {redirections}"));
    assert!(status.success(), "{redirections}: {status}");
    let text = |bytes| String::from_utf8(bytes).expect("text");
    (text(stdout), text(stderr))
}

#[test]
fn input_that_cannot_be_read() {
    for (input, error) in [("<&-", "Bad file descriptor"), ("< .", "Is a directory")] {
        let said = format!("standard input: {error}\n");
        assert_eq!(written(input), (String::new(), said), "{input}");
    }
}

#[test]
fn output_that_cannot_be_written() {
    let full = written(&format!("< {SCRIPT} > /dev/full"));
    let no_space = "standard output: No space left on device\n";
    assert_eq!(full, (String::new(), no_space.to_string()));
    let closed = written(&format!("< {SCRIPT} >&-"));
    let bad = "standard output: Bad file descriptor\n";
    assert_eq!(closed, (String::new(), bad.to_string()));
}

/// An input that ends is no error, also where it is empty; and one that comes in pieces is read whole.
#[test]
fn input_that_ends() {
    let empty = ("refused 17 at 0\n".to_string(), String::new());
    assert_eq!(written("< /dev/null"), empty);
    let listing = written(&format!("< {SCRIPT}"));
    assert!(listing.0.ends_with("cost 2 of 60\n") && listing.1.is_empty());
    let lines = format!("while read -r l; do echo \"$l\"; sleep 0.01; done < {SCRIPT}");
    let in_pieces = shell(&format!("{lines} | {PROGRAM}"));
    assert_eq!(in_pieces.stdout, listing.0.as_bytes());
}
