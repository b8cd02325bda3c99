//! Writes random files and cases on them as the proof files of a crate, one
//! declaration for each case: what a definition gives on a file is what the
//! interpreter gives there, as a literal value.

mod antt;
mod cases;
mod choose;

use cases::Case;
use choose::Chosen;
use std::collections::BTreeMap;
use std::fs;
use std::path::Path;

/// How many files of the corpus go into one proof file.
const FILES_EACH: u64 = 10;

fn main() {
    let words: Vec<String> = std::env::args().skip(1).collect();
    let words: Vec<&str> = words.iter().map(String::as_str).collect();
    match words[..] {
        ["vectors", folder, count, seed] => vectors(Path::new(folder), number(count), number(seed)),
        ["control", folder] => control(Path::new(folder)),
        _ => {
            eprintln!("usage: definitions vectors FOLDER COUNT SEED | control FOLDER");
            std::process::exit(2);
        }
    }
}

fn number(word: &str) -> u64 {
    word.parse().expect("a number was expected")
}

/// Writes the crate of `count` files, and `cases.txt` beside it; prints how
/// many cases there are of each definition, and what their answers are.
fn vectors(folder: &Path, count: u64, seed: u64) {
    let mut modules = Vec::new();
    let mut list = String::new();
    let (mut definitions, mut met) = (BTreeMap::new(), BTreeMap::new());
    for first in (0..count).step_by(FILES_EACH as usize) {
        let mut text = antt::head(&crate_name(folder));
        for i in first..count.min(first + FILES_EACH) {
            let chosen = choose::file(seed.wrapping_add(i));
            let cases = cases::of(&chosen);
            text += &declared(&chosen, i, &cases);
            list += &listed(&chosen, i, &cases);
            tally(&mut definitions, cases.iter().map(|case| case.definition.to_string()));
            tally(&mut met, cases.into_iter().flat_map(|case| case.met));
        }
        let module = format!("V{}", first / FILES_EACH);
        write_file(&folder.join(format!("proofs/{module}.antt")), &text);
        modules.push(module);
    }
    write_crate(folder, &modules);
    write_file(&folder.join("cases.txt"), &list);
    println!("{count} files from seed {seed}; cases: {}; answers: {}", told(&definitions), told(&met));
}

/// Writes a crate with a right case and a wrong one, which must be refused.
fn control(folder: &Path) {
    let chosen = choose::counter();
    let right = cases::reading(&chosen.bytes);
    let wrong = Case { expected: antt::counted(Ok(7)), ..right.clone() };
    let text = antt::head(&crate_name(folder)) + &declared(&chosen, 0, &[right, wrong]);
    write_file(&folder.join("proofs/V0.antt"), &text);
    write_crate(folder, &["V0".to_string()]);
}

fn crate_name(folder: &Path) -> String {
    folder.file_name().expect("a folder's name").to_string_lossy().into_owned()
}

fn write_crate(folder: &Path, modules: &[String]) {
    let lines: String = modules.iter().map(|m| format!("mod {m}\n")).collect();
    write_file(&folder.join("proofs/Lib.antt"), &format!("mod Literals\n{lines}"));
    write_file(&folder.join("proofs/Literals.antt"), antt::LITERALS);
    write_file(&folder.join("src/lib.rt"), "// No functions: the cases stand in proofs/.\n#![tactic(auto)]\n");
}

fn write_file(path: &Path, text: &str) {
    fs::create_dir_all(path.parent().expect("a folder")).expect("a folder can be made");
    fs::write(path, text).expect("a file can be written");
}

/// The file's bytes and words, then a declaration for each case.
fn declared(chosen: &Chosen, i: u64, cases: &[Case]) -> String {
    let bytes: Vec<u32> = chosen.bytes.iter().map(|b| *b as u32).collect();
    let (bytes, table) = (antt::list(&bytes), antt::list(&chosen.table));
    let mut text = format!("\n-- {}\n", chosen.label);
    text += &format!("abbrev file-{i} : List ℕ\nfile-{i} = {bytes}\n");
    text += &format!("abbrev steps-{i} : List ℕ\nsteps-{i} = {table}\n");
    for (j, case) in cases.iter().enumerate() {
        let statement = format!("{} ≡ {}", case.term, case.expected);
        let statement = statement.replace("FILE", &format!("file-{i}")).replace("STEPS", &format!("steps-{i}"));
        text += &format!("case-{i}-{j} : {statement}\nunfolding whole\ncase-{i}-{j} = refl\n");
    }
    text
}

/// For each case a line: its name, the definition, the file's origin, its
/// bytes and steps, the term and the expected value, between tabs.
fn listed(chosen: &Chosen, i: u64, cases: &[Case]) -> String {
    let hex: String = chosen.bytes.iter().map(|b| format!("{b:02x}")).collect();
    let steps = antt::list(&chosen.table);
    let line = |(j, case): (usize, &Case)| {
        let Case { definition, term, expected, .. } = case;
        format!("case-{i}-{j}\t{definition}\t{}\t{hex}\t{steps}\t{term}\t{expected}\n", chosen.label)
    };
    cases.iter().enumerate().map(line).collect()
}

fn tally(counts: &mut BTreeMap<String, u64>, names: impl Iterator<Item = String>) {
    for name in names {
        *counts.entry(name).or_default() += 1;
    }
}

fn told(counts: &BTreeMap<String, u64>) -> String {
    let all: Vec<String> = counts.iter().map(|(name, count)| format!("{name} {count}")).collect();
    all.join(", ")
}
