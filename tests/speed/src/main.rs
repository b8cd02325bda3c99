//! The library's speed beside the interpreter's, as a table in Markdown. A ratio above 1 means that the library is faster.

#[path = "../../bench/src/library.rs"]
mod library;

use interpreter::generate::{counter, search, worst::worst_files, write};
use interpreter::machine::{Call, State};
use interpreter::{expand, read, run, steps, verdict};
use std::hint::black_box;
use std::time::{Duration, Instant};

/// Each measurement is repeated for so long, in turns of library and interpreter.
const LONG_ENOUGH: Duration = Duration::from_millis(600);
/// A turn takes at least about so long.
const TURN: Duration = Duration::from_micros(200);

fn main() {
    println!("| what | library | interpreter | ratio |");
    println!("|---|---:|---:|---:|");
    verdicts();
    distinct_positions();
    rules_of_examples();
    readings();
    expansions();
    calls();
}

/// The least times of two functions, run in turns.
fn measured<T, U>(mut library: impl FnMut() -> T, mut interpreter: impl FnMut() -> U) -> [f64; 2] {
    let begun = Instant::now();
    let many = [a_turn(&mut library), a_turn(&mut interpreter)];
    let mut least = [Duration::MAX; 2];
    let mut rounds = 0;
    while begun.elapsed() < LONG_ENOUGH || rounds < 3 {
        least[0] = least[0].min(timed(&mut library, many[0]));
        least[1] = least[1].min(timed(&mut interpreter, many[1]));
        rounds += 1;
    }
    [0, 1].map(|i| least[i].as_secs_f64() / many[i] as f64)
}

/// How many calls make a turn.
fn a_turn<T>(f: &mut impl FnMut() -> T) -> u32 {
    (TURN.as_secs_f64() / timed(f, 1).as_secs_f64()) as u32 + 1
}

/// The time of so many calls.
fn timed<T>(f: &mut impl FnMut() -> T, many: u32) -> Duration {
    let begun = Instant::now();
    for _ in 0..many {
        black_box(f());
    }
    begun.elapsed()
}

fn row(what: &str, times: [f64; 2], shown: impl Fn(f64) -> String) {
    let [library, interpreter] = times;
    println!("| {what} | {} | {} | {:.2} |", shown(library), shown(interpreter), interpreter / library);
}

fn not_there(what: &str) {
    println!("| {what} | not built yet | | |");
}

/// With a comma after each three digits.
fn grouped(number: f64) -> String {
    let digits = format!("{number:.0}");
    let mut shown = String::new();
    for (i, digit) in digits.chars().enumerate() {
        if i > 0 && (digits.len() - i) % 3 == 0 {
            shown.push(',');
        }
        shown.push(digit);
    }
    shown
}

fn microseconds(seconds: f64) -> String {
    format!("{:.1} µs", seconds * 1e6)
}

fn verdicts() {
    let last = format!("broken by the last of {} lists", grouped(search::LISTS as f64));
    for (what, file, lists) in [
        ("15 rows to depth 5, short actions", search::short_actions(), search::LISTS),
        ("15 rows to depth 5, a loop of 40 turns in each call", search::loops_of_40(), search::LISTS),
        ("15 rows, every call uses 4,096 units, 2,000 lists", search::calls_of_4096_units(), 2_000),
        ("16 rows, an endless loop in every call, 5,000 lists", search::endless_loops(5_000), 5_000),
        (&last, search::late_counterexample(), search::LISTS),
    ] {
        verdict_row(what, &[(file, 0)], lists);
    }
}

/// Searches that never come to a position twice with as many rows left.
fn distinct_positions() {
    for (rows, depth) in [(1, 8), (2, 8), (3, 8), (4, 8), (8, 6), (15, 5)] {
        let lists = verdict::lists_within(rows as u64, depth) as u32;
        let many = if rows == 1 { "row" } else { "rows" };
        let what = format!("{rows} {many} to depth {depth}, all {} lists to different positions", grouped(lists as f64));
        verdict_row(&what, &[(search::all_distinct(rows, depth), 0)], lists);
    }
}

fn rules_of_examples() {
    let all = examples();
    examples_row("the blind auction's rules", all.iter().filter(|(name, _)| name == "blind-auction"));
    examples_row("all rules of all examples", all.iter());
}

/// The agreements of examples/agreements, by name.
fn examples() -> Vec<(String, Vec<u8>)> {
    let folder = concat!(env!("CARGO_MANIFEST_DIR"), "/../../examples/agreements");
    let entries = std::fs::read_dir(folder).expect("the examples' folder");
    let paths = entries.map(|entry| entry.expect("an entry of the examples' folder").path());
    let mut all: Vec<_> = paths
        .filter(|path| path.extension().is_some_and(|e| e == "agreement"))
        .map(|path| {
            let name = path.file_stem().expect("a name").to_string_lossy().into_owned();
            (name, std::fs::read(path).expect("an example"))
        })
        .collect();
    all.sort();
    all
}

/// All rules of these examples in one row.
fn examples_row<'a>(what: &str, files: impl Iterator<Item = &'a (String, Vec<u8>)>) {
    let mut asked = Vec::new();
    let mut lists = 0;
    for (name, file) in files {
        let agreement = read::read(file).unwrap_or_else(|_| panic!("{name} is refused"));
        let rules = 0..agreement.rules.len();
        lists += rules.clone().map(|rule| verdict::judge(&agreement, rule).tried).sum::<u32>();
        asked.extend(rules.map(|rule| (file.clone(), rule as u32)));
    }
    assert!(!asked.is_empty(), "{what}: no rule");
    verdict_row(&format!("{what}, {} lists", grouped(lists as f64)), &asked, lists);
}

/// The verdicts on these files' rules, which try so many lists in all.
fn verdict_row(what: &str, asked: &[(Vec<u8>, u32)], lists: u32) {
    let what = &format!("verdict: {what}");
    if !cfg!(agreement_verdict) {
        return not_there(what);
    }
    let mut words = vec![0; 5_120];
    let mut other = words.clone();
    let mut library = |(file, rule): &(Vec<u8>, u32)| library::verdict(file, *rule, &mut words);
    let mut interpreter = |(file, rule): &(Vec<u8>, u32)| verdict::verdict(file, *rule, &mut other);
    let mut tried = 0;
    for one in asked {
        let expected = interpreter(one);
        tried += expected.tried;
        assert_eq!(library(one), library::laid_out(&expected), "{what}, rule {}", one.1);
    }
    assert_eq!(tried, lists, "{what}");
    let times = measured(
        || asked.iter().map(&mut library).fold(0, |sum, answer| sum ^ answer[3]),
        || asked.iter().map(&mut interpreter).fold(0, |sum, answer| sum ^ answer.tried),
    );
    row(what, times, |seconds| format!("{} lists/s", grouped(lists as f64 / seconds)));
}

/// The largest files, by what they are.
fn largest() -> [(&'static str, Vec<u8>); 3] {
    [
        ("32 KiB, one expression", worst("a condition of 32 KiB")),
        ("32 KiB, 1,024 steps", worst("endless, in a transition")),
        ("counter, 176 bytes", write::bytes(&counter())),
    ]
}

/// A worst file by a part of its label.
fn worst(part: &str) -> Vec<u8> {
    let found = worst_files().into_iter().find(|(label, _)| label.contains(part));
    found.expect("a worst file with this label").1
}

fn readings() {
    for (what, file) in largest() {
        let what = format!("read: {what}");
        let times = measured(|| library::read(&file), || read::read(&file));
        if cfg!(agreement_read) { row(&what, times, microseconds) } else { not_there(&what) }
    }
}

fn expansions() {
    for (what, file) in largest() {
        let what = format!("expand: {what}");
        let (mut words, mut other) = (vec![0; 5_120], vec![0; 5_120]);
        let times = measured(
            || library::expand(&file, &mut words),
            || expand::expand(&file, &mut other),
        );
        if cfg!(agreement_expand) { row(&what, times, microseconds) } else { not_there(&what) }
    }
}

fn calls() {
    let units = ["400 units with a condition of 32 KiB", "4,096 units over 1,024 steps", "6 units"];
    for ((_, file), what) in largest().into_iter().zip(units) {
        let state = run::start(&file).state;
        let call = Call { name: 1, ..Call::default() };
        plain_row(&format!("call: {what}"), &file, &state, &call);
        expanded_row(&format!("call, expanded: {what}"), &file, &state, &call);
    }
}

fn plain_row(what: &str, file: &[u8], state: &State, call: &Call) {
    if !cfg!(agreement_call) {
        return not_there(what);
    }
    let record = library::record(state);
    assert_eq!(library::call(file, &record, call).answer[4], run::call(file, state, call).units, "{what}");
    let times = measured(
        || library::call(file, &record, call),
        || run::call(file, state, call),
    );
    row(what, times, microseconds);
}

fn expanded_row(what: &str, file: &[u8], state: &State, call: &Call) {
    if !cfg!(agreement_call_expanded) {
        return not_there(what);
    }
    let record = library::record(state);
    let words = expand::words(&expand::steps(&read::read(file).expect("an accepted file")));
    let units = steps::call(file, &words, state, call).units;
    assert_eq!(library::call_expanded(file, &words, &record, call).answer[4], units, "{what}");
    let times = measured(
        || library::call_expanded(file, &words, &record, call),
        || steps::call(file, &words, state, call),
    );
    row(what, times, microseconds);
}
