//! The report program, run on a file.

use std::io::Write;
use std::path::PathBuf;
use std::process::{Command, Stdio};

/// AGREEMENT_REPORT names another program.
fn program() -> PathBuf {
    let built = concat!(env!("CARGO_MANIFEST_DIR"), "/../../target/bin/report");
    std::env::var_os("AGREEMENT_REPORT").map_or(PathBuf::from(built), PathBuf::from)
}

/// What the program prints.
pub fn of(file: &[u8]) -> String {
    let mut child = Command::new(program())
        .stdin(Stdio::piped())
        .stdout(Stdio::piped())
        .spawn()
        .expect("the report program can be run");
    let mut input = child.stdin.take().expect("its standard input");
    // The program may end before it has read all.
    let _ = input.write_all(file);
    drop(input);
    let output = child.wait_with_output().expect("its output");
    let text = String::from_utf8_lossy(&output.stdout).into_owned();
    if output.status.success() { text } else { format!("{text}({})", output.status) }
}

/// The refusal that a report tells of.
pub fn refusal(text: &str) -> u32 {
    let words: Vec<&str> = text.split_whitespace().collect();
    match words[..] {
        ["refused", number, ..] => number.parse().expect("a number"),
        ["steps", _, "start", "refused", ..] => 27,
        _ => 0,
    }
}
