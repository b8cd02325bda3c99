//! One file: every operation of the library beside the interpreter's.

use crate::library::{self, record, Ran};
use crate::operations::Operation;
use crate::report;
use crate::tally::Tally;
use interpreter::generate::calls;
use interpreter::machine::{Call, Outcome, State};
use interpreter::random::Random;
use interpreter::tree::Agreement;
use interpreter::verdict::verdict;
use interpreter::{expand, read, run, steps};

/// Lists of calls on each file, their length, and calls on records that no list leads to.
const LISTS: u32 = 2;
const LONGEST: u32 = 9;
const ODD_CALLS: u32 = 6;
/// Every word of a table of at most so many is changed.
const SMALL_TABLE: usize = 30;

/// Compares all that is done with a file; the seed picks the calls, records and words.
pub fn check(file: &[u8], seed: u64, with_report: bool, tally: &mut Tally) {
    let mut random = Random::new(seed);
    let found = read::read(file);
    let table = match &found {
        Ok(agreement) => expand::words(&expand::steps(agreement)),
        Err(_) => other_words(&mut random),
    };
    let refusal = found.as_ref().map_or_else(|r| [r.number as u32, r.place], |_| [0, 0]);
    let mut check = Check { file, table, agreement: found.ok(), random, tally };
    check.reading(refusal);
    check.expanding();
    check.starting();
    for _ in 0..LISTS {
        check.list();
    }
    for _ in 0..ODD_CALLS {
        check.odd_call();
    }
    check.every_word();
    check.judging();
    if with_report && Operation::Report.compared() {
        check.reporting();
    }
}

/// Words that are lent with a file that is refused.
fn other_words(random: &mut Random) -> Vec<u32> {
    (0..random.between(6, 20)).map(|_| random.below(9)).collect()
}

struct Check<'a> {
    file: &'a [u8],
    /// The words of the expansion.
    table: Vec<u32>,
    /// Nothing for a file that is refused.
    agreement: Option<Agreement>,
    random: Random,
    tally: &'a mut Tally,
}

impl Check<'_> {
    fn reading(&mut self, expected: [u32; 2]) {
        if Operation::Read.compared() {
            self.tally.compare(Operation::Read, "read", library::read(self.file), expected, expected[0]);
        }
    }

    /// Words exactly enough, too few and some to spare.
    fn rooms(&mut self) -> [usize; 4] {
        let enough = self.table.len();
        [enough, enough - 1, self.random.below(enough as u32) as usize, enough + self.random.between(1, 9) as usize]
    }

    fn expanding(&mut self) {
        if !Operation::Expand.compared() {
            return;
        }
        for room in self.rooms() {
            let lent = self.lent(room);
            let (mut mine, mut theirs) = (lent.clone(), lent);
            let answer = library::expand(self.file, &mut theirs);
            let expected = match expand::expand(self.file, &mut mine) {
                Ok(count) => [0, 0, count],
                Err((number, place)) => [number as u32, place, 0],
            };
            let what = format!("expand into {room} words");
            self.tally.compare(Operation::Expand, &what, (answer, theirs), (expected, mine), expected[0]);
        }
    }

    /// Words of any value.
    fn lent(&mut self, room: usize) -> Vec<u32> {
        (0..room).map(|_| self.random.next() as u32).collect()
    }

    fn starting(&mut self) {
        if Operation::Start.compared() {
            self.ran(Operation::Start, "start", library::start(self.file), run::start(self.file));
        }
        if Operation::StartExpanded.compared() {
            for (label, words) in self.lent_tables() {
                self.start_on(label, &words);
            }
        }
    }

    fn ran(&mut self, operation: Operation, what: &str, library: Ran, outcome: Outcome) {
        let expected = Ran { answer: numbers(&outcome), record: record(&outcome.state) };
        self.tally.compare(operation, what, library, expected, outcome.refusal as u32);
    }

    fn lent_tables(&mut self) -> [(&'static str, Vec<u32>); 4] {
        let random = &mut self.random;
        [
            ("the right", self.table.clone()),
            ("spare", calls::spare(random, &self.table)),
            ("too few", calls::too_few(random, &self.table)),
            ("wrong", calls::wrong(random, &self.table)),
        ]
    }

    /// One list of calls, run on both forms, each from its own start's record.
    fn list(&mut self) {
        let calls = match &self.agreement {
            Some(agreement) => calls::list(&mut self.random, agreement, LONGEST),
            None => vec![any_call(&mut self.random)],
        };
        if Operation::Call.compared() {
            self.plain_list(&calls);
        }
        if Operation::CallExpanded.compared() {
            let words = calls::spare(&mut self.random, &self.table);
            self.expanded_list(&calls, &words);
        }
    }

    fn plain_list(&mut self, list: &[Call]) {
        let mut mine = run::start(self.file).state;
        let started = Operation::Start.compared();
        let mut theirs = if started { library::start(self.file).record } else { record(&mine) };
        for (i, call) in list.iter().enumerate() {
            let outcome = run::call(self.file, &mine, call);
            let ran = library::call(self.file, &theirs, call);
            self.ran(Operation::Call, &format!("call {i} of the list {list:?}"), ran, outcome);
            (mine, theirs) = (outcome.state, ran.record);
        }
    }

    fn expanded_list(&mut self, list: &[Call], words: &[u32]) {
        let mut mine = steps::start(self.file, words).state;
        let started = Operation::StartExpanded.compared();
        let mut theirs = if started { library::start_expanded(self.file, words).record } else { record(&mine) };
        for (i, call) in list.iter().enumerate() {
            let outcome = steps::call(self.file, words, &mine, call);
            let ran = library::call_expanded(self.file, words, &theirs, call);
            self.ran(Operation::CallExpanded, &format!("expanded call {i} of the list {list:?}"), ran, outcome);
            (mine, theirs) = (outcome.state, ran.record);
        }
    }

    /// A call on a record fit or unfit, with words right and wrong.
    fn odd_call(&mut self) {
        let state = match &self.agreement {
            Some(agreement) => calls::record(&mut self.random, agreement),
            None => State { state: self.random.below(9), own: 3, ..State::default() },
        };
        let call = match &self.agreement {
            Some(agreement) => calls::one(&mut self.random, agreement, &state),
            None => any_call(&mut self.random),
        };
        let given = record(&state);
        if Operation::Call.compared() {
            let what = format!("{call:?} on {given:?}");
            self.ran(Operation::Call, &what, library::call(self.file, &given, &call), run::call(self.file, &state, &call));
        }
        if Operation::CallExpanded.compared() {
            for (label, words) in self.lent_tables() {
                let expected = steps::call(self.file, &words, &state, &call);
                let what = format!("{call:?} on {given:?}, {label} words {}", told(&words));
                self.ran(Operation::CallExpanded, &what, library::call_expanded(self.file, &words, &given, &call), expected);
            }
        }
    }

    /// Small tables with each word changed, and cut after each word.
    fn every_word(&mut self) {
        let all = self.table.len();
        if !Operation::StartExpanded.compared() || self.agreement.is_none() || all > SMALL_TABLE {
            return;
        }
        for at in 0..all {
            let mut words = self.table.clone();
            words[at] ^= 1 << self.random.below(32);
            self.start_on("one changed in", &words);
            self.start_on("part of", &self.table[..at].to_vec());
        }
    }

    fn start_on(&mut self, label: &str, words: &[u32]) {
        let expected = steps::start(self.file, words);
        let what = format!("start on {label} words {}", told(words));
        self.ran(Operation::StartExpanded, &what, library::start_expanded(self.file, words), expected);
    }

    /// Every rule, and rules that are not there.
    fn judging(&mut self) {
        if !Operation::Verdict.compared() {
            return;
        }
        let count = self.agreement.as_ref().map_or(0, |a| a.rules.len() as u32);
        for rule in (0..=count).chain([count + 1, 256, u32::MAX]) {
            let [enough, few, fewer, spare] = self.rooms();
            let room = if self.random.chance(50) { enough } else { spare };
            for room in [room, few, fewer] {
                self.judge(rule, room);
            }
        }
    }

    fn judge(&mut self, rule: u32, room: usize) {
        let lent = self.lent(room);
        let (mut mine, mut theirs) = (lent.clone(), lent);
        let answer = library::verdict(self.file, rule, &mut theirs);
        let expected = library::laid_out(&verdict(self.file, rule, &mut mine));
        self.tally.judged(expected[2]);
        let what = format!("verdict on rule {rule} with {room} words");
        self.tally.compare(Operation::Verdict, &what, (answer, theirs), (expected, mine), expected[0]);
    }

    fn reporting(&mut self) {
        let expected = interpreter::report::report(self.file);
        let refusal = report::refusal(&expected);
        self.tally.compare(Operation::Report, "report", report::of(self.file), expected, refusal);
    }
}

fn numbers(outcome: &Outcome) -> [u32; 5] {
    let has_value = outcome.value.is_some() as u32;
    [outcome.refusal as u32, outcome.place, has_value, outcome.value.unwrap_or(0), outcome.units]
}

/// A call for a file that has no accounts or names to go by.
fn any_call(random: &mut Random) -> Call {
    let number = random.next();
    Call { name: number as u8, sender: random.pick(&[0, 1, 7, 8, 255]), coins: random.below(3), arguments: [number as u32; 4] }
}

/// Few words are shown whole.
fn told(words: &[u32]) -> String {
    if words.len() <= 60 { format!("{words:?}") } else { format!("({} of them)", words.len()) }
}
