//! Judges the rules of the counter agreement and prints what document 01 says of them. usage: verdicts FILE

mod agreement;

/// Their places in a file.
const DEPTH: usize = 8;
const BOUND: usize = 12;

/// Prints the report's line for a rule.
fn judge(label: &str, file: &[u8], rule: u32) {
    let answer = agreement::verdict(file, rule);
    let [refusal, _, verdict, tried, length, ..] = answer;
    if refusal != 0 {
        println!("{label}refused {refusal}");
        return;
    }
    let word = ["", "broken", "held", "spent"][verdict as usize];
    let rows: String = answer[5..5 + length as usize].iter().map(|row| format!(" {row}")).collect();
    println!("{label}rule {rule} {word} {tried}{rows}");
}

/// The file with one byte that is another.
fn with(file: &[u8], place: usize, byte: u8) -> Vec<u8> {
    let mut changed = file.to_vec();
    changed[place] = byte;
    changed
}

fn main() {
    let path = std::env::args().nth(1).expect("usage: verdicts FILE");
    let file = std::fs::read(path).expect("the file can be read");
    judge("", &file, 0);
    judge("", &file, 1);
    judge("bound 1: ", &with(&file, BOUND, 1), 0);
    judge("depth 0: ", &with(&file, DEPTH, 0), 0);
    judge("bound 3: ", &with(&file, BOUND, 3), 1);
    judge("bound 2: ", &with(&file, BOUND, 2), 1);
    judge("no such rule: ", &file, 2);
}
