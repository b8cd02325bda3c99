//! The cases on one file: a term, and the value that the interpreter gives.
//! In both, FILE stands for the file's bytes and STEPS for its expansion.

use crate::antt;
use crate::choose::Chosen;
use interpreter::expand;
use interpreter::generate::calls;
use interpreter::machine::{Call, Outcome, State};
use interpreter::random::Random;
use interpreter::read::read;
use interpreter::report::report;
use interpreter::tree::Agreement;
use interpreter::verdict::{judge, row_call, verdict, Verdict};
use interpreter::{run, steps};

/// A list of calls ends where its units would pass this.
const MOST_UNITS: u32 = 240;
/// Verdicts with more lists tried, lists within the depth, or units on the
/// way are left out.
const MOST_TRIED: u32 = 60;
const MOST_LISTS: u64 = 400;
const MOST_WORK: u32 = 900;

#[derive(Clone)]
pub struct Case {
    pub definition: &'static str,
    pub term: String,
    pub expected: String,
    /// What the expected answers are: a refusal, "completed" or a verdict.
    pub met: Vec<String>,
}

pub fn of(chosen: &Chosen) -> Vec<Case> {
    let mut random = Random::new(chosen.seed);
    let mut maker = Maker { random: &mut random, bytes: &chosen.bytes, table: &chosen.table, made: Vec::new() };
    maker.made.push(reading(&chosen.bytes));
    match &chosen.agreement {
        _ if !chosen.small => {}
        None => maker.refused(),
        Some(agreement) => maker.accepted(agreement),
    }
    maker.made
}

/// Reading alone.
pub fn reading(bytes: &[u8]) -> Case {
    let answer = read(bytes).map(|a| expand::steps(&a).len() as u32).map_err(|r| (r.number, r.place));
    Case {
        definition: "read_file",
        term: "read_file FILE".to_string(),
        expected: antt::counted(answer),
        met: vec![refusal(answer.err().map_or(0, |r| r.0))],
    }
}

fn refusal(number: u8) -> String {
    if number == 0 { "completed".to_string() } else { format!("refusal {number}") }
}

struct Maker<'a> {
    random: &'a mut Random,
    bytes: &'a [u8],
    table: &'a [u32],
    made: Vec<Case>,
}

impl Maker<'_> {
    fn add(&mut self, definition: &'static str, term: String, expected: String, met: Vec<String>) {
        self.made.push(Case { definition, term, expected, met });
    }

    /// Every operation on a refused file.
    fn refused(&mut self) {
        let lent = self.some_words();
        self.expanding(&lent);
        let odd = Call { name: 3, sender: self.random.pick(&[0, 1, 255]), coins: 2, arguments: [1, 0, 5, 9] };
        let list = vec![odd; self.random.below(3) as usize];
        self.lists(&list, &lent);
        let state = State { state: self.random.below(9), own: 3, ..State::default() };
        self.calling(&state, &odd);
        self.calling_expanded(&lent, &state, &odd);
        self.judging(0, &lent);
        self.reporting();
    }

    fn accepted(&mut self, agreement: &Agreement) {
        self.expanding_all();
        let list = self.list(agreement);
        let lent = calls::spare(self.random, self.table);
        self.lists(&list, &lent);
        self.oddly_lent_start();
        for _ in 0..3 {
            self.odd_calls(agreement);
        }
        self.verdicts(agreement);
    }

    /// Up to 20 words of any value.
    fn some_words(&mut self) -> Vec<u32> {
        let count = self.random.below(20);
        (0..count).map(|_| self.random.pick(&[0, 1, 7, u32::MAX])).collect()
    }

    /// Words that are too few or wrong, or else right.
    fn odd_words(&mut self) -> Vec<u32> {
        match self.random.below(5) {
            0 => calls::too_few(self.random, self.table),
            1 => calls::wrong(self.random, self.table),
            _ => calls::spare(self.random, self.table),
        }
    }

    /// Words as a term.
    fn words(&self, lent: &[u32]) -> String {
        if lent == self.table { "STEPS".to_string() } else { antt::list(lent) }
    }

    /// An answer and the lent words after it, as a term.
    fn lent(&self, answer: String, after: &[u32]) -> String {
        format!("words {answer} {}", self.words(after))
    }

    fn expanding(&mut self, lent: &[u32]) {
        let mut after = lent.to_vec();
        let answer = expand::expand(self.bytes, &mut after);
        let term = format!("expand_file FILE {}", self.words(lent));
        let expected = self.lent(antt::counted(answer), &after);
        self.add("expand_file", term, expected, vec![refusal(answer.err().map_or(0, |r| r.0))]);
    }

    /// Exactly enough words, one too few, some to spare.
    fn expanding_all(&mut self) {
        let length = self.table.len();
        let spare = self.random.between(1, 7) as usize;
        for count in [length, length - 1, length + spare] {
            let lent: Vec<u32> = (0..count).map(|_| self.random.pick(&[0, 1, 9, u32::MAX])).collect();
            self.expanding(&lent);
        }
    }

    /// Up to four calls, each on the record that the one before hands back.
    fn list(&mut self, agreement: &Agreement) -> Vec<Call> {
        let start = run::start_read(agreement);
        let (mut state, mut units) = (start.state, start.units);
        let mut list = Vec::new();
        for _ in 0..self.random.between(1, 4) {
            let call = self.call(agreement, &state);
            let outcome = run::call_read(agreement, &state, &call);
            units += outcome.units;
            if units > MOST_UNITS {
                break;
            }
            state = outcome.state;
            list.push(call);
        }
        list
    }

    /// A likely call; now and then an unknown name, a bad sender or too many
    /// coins.
    fn call(&mut self, agreement: &Agreement, state: &State) -> Call {
        let mut call = calls::one(self.random, agreement, state);
        match self.random.below(12) {
            0 => call.name = self.random.between(200, 255) as u8,
            1 => call.sender = self.random.pick(&[agreement.accounts, 7, 8, 255]),
            2 => call.coins = state.balances[call.sender as usize % 8].saturating_add(1),
            _ => {}
        }
        call
    }

    /// One list from a start, on both forms.
    fn lists(&mut self, list: &[Call], lent: &[u32]) {
        let bytes = self.bytes;
        let calls = antt::items(&list.iter().map(antt::call).collect::<Vec<_>>());
        let plain = follow(run::start(bytes), list, |s, k| run::call(bytes, s, k));
        let met = plain.iter().map(|o| refusal(o.refusal)).collect();
        self.add("run_list", format!("run_list FILE {calls}"), antt::outcomes(&plain), met);
        let expanded = follow(steps::start(bytes, lent), list, |s, k| steps::call(bytes, lent, s, k));
        let met = expanded.iter().map(|o| refusal(o.refusal)).collect();
        let term = format!("run_list_expanded FILE {} {calls}", self.words(lent));
        self.add("run_list_expanded", term, antt::outcomes(&expanded), met);
    }

    fn oddly_lent_start(&mut self) {
        let lent = self.odd_words();
        let outcome = steps::start(self.bytes, &lent);
        let term = format!("numbers (start_expanded FILE {})", self.words(&lent));
        self.add("start_expanded", term, antt::numbers(&outcome), vec![refusal(outcome.refusal)]);
    }

    /// One call on a record that may be unfit, on both forms, with words that
    /// may be wrong.
    fn odd_calls(&mut self, agreement: &Agreement) {
        let mut state = calls::fit(self.random, agreement);
        if self.random.chance(40) {
            state = calls::unfit(self.random, agreement, &state);
        }
        let call = self.call(agreement, &state);
        if run::call_read(agreement, &state, &call).units > MOST_UNITS {
            return;
        }
        let lent = self.odd_words();
        self.calling(&state, &call);
        self.calling_expanded(&lent, &state, &call);
    }

    fn calling(&mut self, state: &State, call: &Call) {
        let outcome = run::call(self.bytes, state, call);
        let term = format!("numbers (call FILE {} {})", antt::state(state), antt::call(call));
        self.add("call", term, antt::numbers(&outcome), vec![refusal(outcome.refusal)]);
    }

    fn calling_expanded(&mut self, lent: &[u32], state: &State, call: &Call) {
        let outcome = steps::call(self.bytes, lent, state, call);
        let (words, state, call) = (self.words(lent), antt::state(state), antt::call(call));
        let term = format!("numbers (call_expanded FILE {words} {state} {call})");
        self.add("call_expanded", term, antt::numbers(&outcome), vec![refusal(outcome.refusal)]);
    }

    /// Each rule that is cheap to judge, and a number of no rule; the report
    /// where all rules are cheap.
    fn verdicts(&mut self, agreement: &Agreement) {
        let count = agreement.rules.len();
        let cheap: Vec<usize> = (0..count).filter(|rule| is_cheap(agreement, *rule)).collect();
        for rule in &cheap {
            let lent = self.words_to_write();
            self.judging(*rule as u32, &lent);
        }
        let beyond = self.random.pick(&[count as u32, 8, u32::MAX]);
        let lent = self.odd_words();
        self.judging(beyond, &lent);
        if cheap.len() == count {
            self.reporting();
        }
    }

    /// Words for a verdict to write the steps to: mostly enough.
    fn words_to_write(&mut self) -> Vec<u32> {
        if self.random.chance(10) {
            return calls::too_few(self.random, self.table);
        }
        let before = vec![self.random.below(3); self.table.len()];
        calls::spare(self.random, &before)
    }

    fn judging(&mut self, rule: u32, lent: &[u32]) {
        let mut after = lent.to_vec();
        let answer = verdict(self.bytes, rule, &mut after);
        let term = format!("judgement (verdict FILE {rule} {})", self.words(lent));
        let expected = self.lent(antt::judged(&answer), &after);
        let met = ["", "broken", "held", "spent"][answer.verdict as usize];
        let met = if met.is_empty() { refusal(answer.refusal) } else { met.to_string() };
        self.add("verdict", term, expected, vec![met]);
    }

    fn reporting(&mut self) {
        let text: Vec<u32> = report(self.bytes).bytes().map(|b| b as u32).collect();
        self.add("report", "report FILE".to_string(), antt::list(&text), Vec::new());
    }
}

/// The start's outcome and those of the calls, each on the record before it.
fn follow(start: Outcome, list: &[Call], call: impl Fn(&State, &Call) -> Outcome) -> Vec<Outcome> {
    let mut all = vec![start];
    for k in list {
        let state = all[all.len() - 1].state;
        all.push(call(&state, k));
    }
    all
}

/// Whether the definition can compute a verdict quickly.
fn is_cheap(agreement: &Agreement, rule: usize) -> bool {
    let rows = agreement.rows.len() as u64;
    let lists: u64 = (0..=agreement.depth as u32).map(|n| rows.pow(n)).sum();
    if lists > MOST_LISTS {
        return false;
    }
    let answer = judge(agreement, rule);
    answer.tried <= MOST_TRIED && work(agreement, &answer) <= MOST_WORK
}

/// The units of all lists tried, each run from a start of its own.
fn work(agreement: &Agreement, answer: &Verdict) -> u32 {
    let tried = answer.tried as usize;
    let mut lists: Vec<Vec<u32>> = vec![Vec::new()];
    let mut at = 0;
    while lists.len() < tried {
        let shorter = lists[at].clone();
        lists.extend((0..agreement.rows.len() as u32).map(|row| [&shorter[..], &[row]].concat()));
        at += 1;
    }
    lists.iter().take(tried).map(|list| work_of(agreement, list)).sum()
}

/// The units of one list, and one for each start and call.
fn work_of(agreement: &Agreement, list: &[u32]) -> u32 {
    let start = run::start_read(agreement);
    let calls: Vec<Call> = list.iter().map(|row| row_call(&agreement.rows[*row as usize])).collect();
    follow(start, &calls, |s, k| run::call_read(agreement, s, k)).iter().map(|o| o.units + 1).sum()
}
