//! The command line: report, random, counter, corpus, selfcheck.

use interpreter::generate::damage::{damaged, deepened};
use interpreter::generate::{limits::limit_files, worst::worst_files};
use interpreter::{check, generate, report};
use std::io::{Read, Write};

fn main() {
    let words: Vec<String> = std::env::args().skip(1).collect();
    let words: Vec<&str> = words.iter().map(String::as_str).collect();
    match words[..] {
        ["report"] => print!("{}", report::report(&input())),
        ["random", seed] => output(&generate::file(number(seed))),
        ["corpus", count, seed] => corpus(number(count), number(seed)),
        ["counter"] => output(&generate::write::bytes(&generate::counter())),
        ["selfcheck", count, seed] => selfcheck(number(count), number(seed)),
        _ => {
            eprintln!("usage: interpreter report | random SEED | counter | corpus COUNT SEED | selfcheck COUNT SEED");
            std::process::exit(2);
        }
    }
}

fn number(word: &str) -> u64 {
    word.parse().expect("a number was expected")
}

fn input() -> Vec<u8> {
    let mut bytes = Vec::new();
    std::io::stdin().read_to_end(&mut bytes).expect("standard input can be read");
    bytes
}

fn output(bytes: &[u8]) {
    std::io::stdout().write_all(bytes).expect("standard output can be written");
}

/// Every limit file and worst file, then `count` random ones of each generator, each as its 32-bit length and its bytes.
fn corpus(count: u64, seed: u64) {
    let limits = limit_files().into_iter().map(|file| file.bytes);
    let worst = worst_files().into_iter().map(|(_, bytes)| bytes);
    let seeds = seed..seed + count;
    let random = seeds.flat_map(|s| [generate::file(s), damaged(s), deepened(s)]);
    for bytes in limits.chain(worst).chain(random) {
        output(&(bytes.len() as u32).to_le_bytes());
        output(&bytes);
    }
}

fn selfcheck(count: u64, seed: u64) {
    let tally = check::selfcheck(count, seed);
    println!("files {}, completed starts, calls and verdicts {}", tally.files, tally.refusals[0]);
    for number in (1..=12).chain(20..=27) {
        println!("refusal {number}: {}", tally.refusals[number]);
    }
    let [_, broken, held, spent] = tally.verdicts;
    println!("broken {broken}, held {held}, spent {spent}");
    let missing = tally.missing();
    if !missing.is_empty() {
        println!("never met: {missing:?}");
        std::process::exit(1);
    }
}
