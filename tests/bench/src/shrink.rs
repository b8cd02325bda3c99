//! Makes a file smaller while the library still differs on it. Every try runs in a process of its own, so that one that
//! crashes or hangs does no harm.

use interpreter::generate::write::{written, Loose};
use std::io::Write;
use std::process::{Child, Command, Stdio};
use std::time::{Duration, Instant};

const LONGEST: Duration = Duration::from_secs(20);
const HANGS: Duration = Duration::from_secs(5);

/// What goes wrong: an operation's name, "crash" or "hang".
pub type Fault = String;

/// The smallest file found that has the same fault.
pub fn shrink(file: &[u8], seed: u64, fault: &Fault) -> Vec<u8> {
    let end = Instant::now() + LONGEST;
    let mut best = file.to_vec();
    let has_fault = |bytes: &Vec<u8>| Instant::now() < end && faults(bytes, seed, fault).contains(fault);
    while let Some(smaller) = candidates(&best).into_iter().find(has_fault) {
        best = smaller;
    }
    best
}

/// Runs this program on one file; gives all faults. The report program is run only where it is what differs.
fn faults(file: &[u8], seed: u64, fault: &Fault) -> Vec<Fault> {
    let mut child = Command::new(std::env::current_exe().expect("this program"))
        .args(["one", &seed.to_string(), fault])
        .stdin(Stdio::piped())
        .stdout(Stdio::piped())
        .stderr(Stdio::null())
        .spawn()
        .expect("this program can be run");
    let _ = child.stdin.take().expect("its standard input").write_all(file);
    if !ends_within(&mut child, HANGS) {
        let _ = child.kill();
        let _ = child.wait();
        return vec!["hang".into()];
    }
    let output = child.wait_with_output().expect("its output");
    match output.status.code() {
        Some(0 | 1) => String::from_utf8_lossy(&output.stdout).lines().map(String::from).collect(),
        _ => vec!["crash".into()],
    }
}

/// Waits so long at most for a process to end.
pub fn ends_within(child: &mut Child, longest: Duration) -> bool {
    let end = Instant::now() + longest;
    while child.try_wait().expect("the process").is_none() {
        if Instant::now() > end {
            return false;
        }
        std::thread::sleep(Duration::from_micros(300));
    }
    true
}

/// Smaller files, those with the largest cuts first.
fn candidates(file: &[u8]) -> Vec<Vec<u8>> {
    let tree = parsed(file).filter(|tree| written(tree) == file);
    let mut found = tree.map_or_else(|| cuts(file), |tree| smaller_trees(&tree));
    found.retain(|other| weight(other) < weight(file));
    found.sort_by_key(|other| weight(other).0);
    found
}

/// Shorter files come first, then those with smaller bytes.
fn weight(file: &[u8]) -> (usize, u64) {
    (file.len(), file.iter().map(|b| *b as u64).sum())
}

/// Without every run of bytes of some lengths, and with a byte made smaller.
fn cuts(file: &[u8]) -> Vec<Vec<u8>> {
    let mut found = Vec::new();
    for length in [file.len() / 2, file.len() / 4, 16, 8, 4, 1] {
        for at in (0..file.len()).step_by(length.max(1)) {
            let end = file.len().min(at + length);
            let cut = [&file[..at], &file[end..]].concat();
            found.push(with_length(&cut));
            found.push(cut);
        }
    }
    found.extend((0..file.len()).map(|at| with_byte(file, at, 0)));
    found
}

/// The file's first length made right.
fn with_length(file: &[u8]) -> Vec<u8> {
    let mut fixed = file.to_vec();
    if fixed.len() >= 2 {
        fixed[..2].copy_from_slice(&(file.len() as u16).to_le_bytes());
    }
    fixed
}

fn with_byte(file: &[u8], at: usize, byte: u8) -> Vec<u8> {
    let mut changed = file.to_vec();
    changed[at] = byte;
    changed
}

/// Each record in turn dropped, replaced by one of its children, rid of half of its children or of stray bytes, and its
/// fields made smaller.
fn smaller_trees(tree: &Loose) -> Vec<Vec<u8>> {
    let mut found = Vec::new();
    let mut add = |number: usize, change: &dyn Fn(&mut Loose)| {
        let mut copy = tree.clone();
        change(copy.nth(number));
        found.push(written(&copy));
    };
    for number in 0..tree.count() {
        let record = tree.clone().nth(number).clone();
        add(number, &|r| r.tail.clear());
        let children = record.children.len();
        for i in 0..children {
            add(number, &|r| drop(r.children.remove(i)));
            add(number, &|r| *r = r.children[i].clone());
        }
        for half in [0..children / 2, children / 2..children] {
            add(number, &|r| drop(r.children.drain(half.clone())));
        }
        for i in 0..record.fields.len() {
            add(number, &|r| r.fields[i] = 0);
            add(number, &|r| r.fields[i] /= 2);
            add(number, &|r| r.fields[i] = r.fields[i].saturating_sub(1));
        }
    }
    found
}

/// The records of a file, as far as their lengths allow; what is left over of a record is its tail.
fn parsed(bytes: &[u8]) -> Option<Loose> {
    let kind = u16::from_le_bytes([*bytes.get(2)?, *bytes.get(3)?]);
    let body = &bytes[4..];
    let (fields, mut rest) = body.split_at(field_bytes(kind, body).min(body.len()));
    let mut children = Vec::new();
    while let Some(length) = child_length(rest) {
        children.push(parsed(&rest[..length])?);
        rest = &rest[length..];
    }
    Some(Loose { kind, fields: fields.to_vec(), children, tail: rest.to_vec() })
}

fn child_length(rest: &[u8]) -> Option<usize> {
    let length = u16::from_le_bytes([*rest.first()?, *rest.get(1)?]) as usize;
    (4..=rest.len()).contains(&length).then_some(length)
}

fn field_bytes(kind: u16, body: &[u8]) -> usize {
    match kind {
        1 => 12 + 4 * body.get(2).map_or(0, |accounts| *accounts as usize),
        2 | 4 | 64 => 4,
        3 => 24,
        16 | 65..=68 | 80 => 2,
        _ => 0,
    }
}
