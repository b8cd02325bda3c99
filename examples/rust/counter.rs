//! Runs the counter agreement on both forms and prints what document 01 says of it. usage: counter FILE

mod agreement;

use agreement::{Call, Outcome};

/// The unit limit's place in a file.
const LIMIT: usize = 10;

fn print_reading(file: &[u8]) {
    match agreement::read(file) {
        [0, _] => println!("accepted"),
        [refusal, place] => println!("refused {refusal} at {place}"),
    }
}

fn print_steps(words: &[u32]) {
    println!("steps {}", words.len() / 5);
    for step in words.chunks(5) {
        let shown: Vec<String> = step.iter().map(u32::to_string).collect();
        println!("{}", shown.join(" "));
    }
}

fn start(file: &[u8], words: &[u32]) -> Outcome {
    let outcome = agreement::start(file);
    assert!(outcome == agreement::start_expanded(file, words), "the two forms differ");
    outcome
}

/// A call by account 0 on both forms.
fn call(file: &[u8], words: &[u32], before: &Outcome, name: u8, coins: u32) -> Outcome {
    let call = Call { name, coins, ..Call::default() };
    let outcome = agreement::call(file, before.record, &call);
    assert!(outcome == agreement::call_expanded(file, words, before.record, &call), "the two forms differ");
    outcome
}

fn print(label: &str, outcome: &Outcome) {
    let [refusal, _, _, _, units] = outcome.answer;
    let answer = if refusal == 0 { "completed".to_string() } else { format!("refused {refusal}") };
    let (state, v0, own) = (outcome.record[0], outcome.record[1], outcome.record[25]);
    println!("{label}: {answer}, {units} units, state {state}, v0 = {v0}, own balance {own}");
}

fn main() {
    let path = std::env::args().nth(1).expect("usage: counter FILE");
    let file = std::fs::read(path).expect("the file can be read");
    print_reading(&file);
    let words = agreement::expand(&file).expect("the file is accepted");
    print_steps(&words);
    let fresh = start(&file, &words);
    print("start", &fresh);
    let once = call(&file, &words, &fresh, 1, 0);
    print("call 1", &once);
    print("call 1 again", &call(&file, &words, &once, 1, 0));
    let mut other = file.clone();
    other[LIMIT] = 5;
    print("limit 5, call 1", &call(&other, &words, &fresh, 1, 0));
    print("call 9", &call(&file, &words, &fresh, 9, 0));
    print("coins 5 with call 1", &call(&file, &words, &fresh, 1, 5));
    print("coins 6 with call 1", &call(&file, &words, &fresh, 1, 6));
    print!("without its last byte: ");
    print_reading(&file[..file.len() - 1]);
}
