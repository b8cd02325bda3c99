//! Compares the proved library with the interpreter made from document 01 alone, operation by operation: on files at and just
//! past every limit of the format, the worst files, random agreements and damaged files.
//!
//! usage: bench COUNT SEED           the files made by hand and COUNT random ones; every refusal must be met
//!        bench soak SECONDS SEED    random ones for so long
//!        bench file PATH SEED       one file
//!
//! The library runs on a stack of 256 KiB, in a second process (`worker`), so that a crash is told of like a difference.
//! The last line is 'N passed, M failed'.

mod cases;
mod check;
mod found;
mod least;
mod library;
mod operations;
mod report;
mod shrink;
mod tally;

use cases::Cases;
use check::check;
use found::Found;
use interpreter::{again, read};
use operations::Operation;
use std::io::Read;
use std::os::unix::fs::FileExt;
use std::process::{exit, Command};
use std::time::{Duration, Instant};
use tally::Tally;

const STACK: usize = 256 * 1024;
/// A file that takes longer than this hangs.
const HANGS: Duration = Duration::from_secs(120);
/// The report program is run on one random file in so many.
const REPORTED: u64 = 20;
/// So many random files must meet positions again in all ways.
const ENOUGH: u64 = 2_000;

fn main() {
    let words: Vec<String> = std::env::args().skip(1).collect();
    let words: Vec<&str> = words.iter().map(String::as_str).collect();
    let right = match words[..] {
        [count, seed] => watched(&["count", count, seed], number(seed)),
        ["soak", seconds, seed] => watched(&["soak", seconds, seed], number(seed)),
        ["worker", "count", count, seed, progress] => {
            work(Cases::new(number(seed)), Some(number(count)), Duration::MAX, progress)
        }
        ["worker", "soak", seconds, seed, progress] => {
            work(Cases::new(number(seed)), None, Duration::from_secs(number(seconds)), progress)
        }
        ["one", seed, fault] => one(&input(), number(seed), fault == Operation::Report.name()),
        ["file", path, seed] => one_told(&std::fs::read(path).expect("the file"), number(seed)),
        _ => panic!("usage: bench COUNT SEED | soak SECONDS SEED | file PATH SEED"),
    };
    exit(i32::from(!right));
}

fn number(word: &str) -> u64 {
    word.parse().expect("a number was expected")
}

fn input() -> Vec<u8> {
    let mut bytes = Vec::new();
    std::io::stdin().read_to_end(&mut bytes).expect("standard input");
    bytes
}

/// Runs f on a stack of 256 KiB.
fn on_small_stack<T: Send>(f: impl FnOnce() -> T + Send) -> T {
    std::thread::scope(|scope| {
        let thread = std::thread::Builder::new().stack_size(STACK);
        thread.spawn_scoped(scope, f).expect("a thread").join().expect("the library returns")
    })
}

/// Runs a worker; where it crashes or hangs, the file that it was at is saved and shrunk.
fn watched(words: &[&str], seed: u64) -> bool {
    let progress = std::env::temp_dir().join(format!("bench-{}", std::process::id()));
    std::fs::write(&progress, [0; 8]).expect("the progress file");
    let mut worker = Command::new(std::env::current_exe().expect("this program"))
        .arg("worker")
        .args(words)
        .arg(&progress)
        .spawn()
        .expect("this program can be run");
    let mut at = (0, Instant::now());
    while !shrink::ends_within(&mut worker, Duration::from_millis(500)) {
        let now = read_progress(&progress);
        if now != at.0 {
            at = (now, Instant::now());
        } else if at.1.elapsed() > HANGS {
            let _ = worker.kill();
        }
    }
    let status = worker.wait().expect("the worker's status");
    let number = read_progress(&progress);
    let _ = std::fs::remove_file(&progress);
    match status.code() {
        Some(code @ (0 | 1)) => code == 0,
        _ => stopped(seed, number, at.1.elapsed() > HANGS),
    }
}

fn read_progress(path: &std::path::Path) -> u64 {
    let bytes = std::fs::read(path).expect("the progress file");
    bytes.try_into().map_or(0, u64::from_le_bytes)
}

/// The worker stopped at this case.
fn stopped(seed: u64, number: u64, hangs: bool) -> bool {
    let (case, seed) = Cases::new(seed).nth(number);
    let fault = if hangs { "hang" } else { "crash" };
    Found::default().add(&case.name, &case.bytes, seed, &fault.to_string(), "the library does not return");
    println!("0 passed, 1 failed");
    false
}

/// Compares cases from the first on, up to a number of random ones or for a time.
fn work(cases: Cases, count: Option<u64>, time: Duration, progress: &str) -> bool {
    let progress = std::fs::File::options().write(true).open(progress).expect("the progress file");
    let begun = Instant::now();
    let mut tally = Tally::default();
    let mut found = Found::default();
    let first = if count.is_some() { 0 } else { cases.by_hand() };
    let last = count.map_or(u64::MAX, |count| cases.by_hand() + count);
    for number in first..last {
        if begun.elapsed() > time {
            break;
        }
        progress.write_all_at(&number.to_le_bytes(), 0).expect("the progress file");
        compare(&cases, number, &mut tally, &mut found);
    }
    tally.report(count.is_some());
    if Operation::Verdict.compared() {
        tally.report_again(count.is_some_and(|count| count >= ENOUGH));
    }
    tally.finish()
}

fn compare(cases: &Cases, number: u64, tally: &mut Tally, found: &mut Found) {
    let (case, seed) = cases.nth(number);
    let reported = number < cases.by_hand() || number % REPORTED == 0;
    on_small_stack(|| check(&case.bytes, seed, reported, tally));
    if case.repeats {
        search(&case.bytes, tally);
    }
    if let Some(refusal) = case.refusal.filter(|_| Operation::Read.compared()) {
        let answer = library::read(&case.bytes)[0];
        tally.compare(Operation::Read, "the refusal written down", answer, refusal, refusal);
    }
    let mut told = Vec::new();
    for difference in std::mem::take(&mut tally.differences) {
        if !told.contains(&difference.operation) {
            told.push(difference.operation);
            let fault = difference.operation.name().to_string();
            found.add(&case.name, &case.bytes, seed, &fault, &difference.text);
        }
    }
}

/// Tells the tally how the searches of a file come to positions again.
fn search(file: &[u8], tally: &mut Tally) {
    let agreement = read::read(file).expect("a file whose searches come to positions again is accepted");
    for rule in 0..agreement.rules.len() {
        tally.searched(&again::again(&agreement, rule));
    }
}

/// The operations that differ on a file, for calls, records and words of a few seeds.
fn one(file: &[u8], seed: u64, reported: bool) -> bool {
    for seed in seed..seed + 4 {
        let mut tally = Tally::default();
        on_small_stack(|| check(file, seed, reported, &mut tally));
        if !tally.differences.is_empty() {
            tally.differences.iter().for_each(|d| println!("{}", d.operation.name()));
            return false;
        }
    }
    true
}

/// All differences on a file.
fn one_told(file: &[u8], seed: u64) -> bool {
    let mut tally = Tally::default();
    on_small_stack(|| check(file, seed, true, &mut tally));
    tally.differences.iter().for_each(|d| println!("{}: {}", d.operation.name(), d.text));
    tally.finish()
}
