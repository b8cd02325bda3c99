//! The self-check: on many generated files the two forms must agree on starts
//! and on lists of calls, and every operation must keep its promises.

use crate::expand;
use crate::generate::{self, calls, damage, limits, write};
use crate::machine::{Call, Outcome, State};
use crate::random::Random;
use crate::read::{read, Refusal};
use crate::report::report;
use crate::tree::Agreement;
use crate::verdict::{self, verdict};
use crate::{run, steps};

/// How often each refusal number, verdict and completed run was seen.
pub struct Tally {
    pub refusals: [u64; 28],
    pub verdicts: [u64; 4],
    pub files: u64,
}

impl Tally {
    fn add(&mut self, number: u8) {
        self.refusals[number as usize] += 1;
    }

    /// The numbers among 1 to 12 and 20 to 27 that were never seen.
    pub fn missing(&self) -> Vec<usize> {
        (1..=12).chain(20..=27).filter(|n| self.refusals[*n] == 0).collect()
    }
}

/// Checks `count` files; panics where a promise is broken.
pub fn selfcheck(count: u64, seed: u64) -> Tally {
    let mut tally = Tally { refusals: [0; 28], verdicts: [0; 4], files: 0 };
    let limit_files = limits::limit_files();
    for i in 0..count {
        let mut random = Random::new(seed.wrapping_add(i));
        let bytes = match random.below(100) {
            0..=1 => limit_files[random.below(limit_files.len() as u32) as usize].bytes.clone(),
            2..=34 => damage::damaged(random.next()),
            _ => generate::file(random.next()),
        };
        check_file(&mut random, &bytes, &mut tally);
    }
    tally
}

pub fn check_file(random: &mut Random, bytes: &[u8], tally: &mut Tally) {
    tally.files += 1;
    match read(bytes) {
        Err(refusal) => check_refused(random, bytes, refusal, tally),
        Ok(agreement) => check_accepted(random, bytes, &agreement, tally),
    }
}

/// Every operation meets a bad file with the same number and place.
fn check_refused(random: &mut Random, bytes: &[u8], refusal: Refusal, tally: &mut Tally) {
    let Refusal { number, place } = refusal;
    tally.add(number);
    assert!(place as usize <= bytes.len());
    let state = State { state: random.below(9), own: 3, ..State::default() };
    let call = Call { sender: 255, ..Call::default() };
    let mut lent = vec![7; random.below(20) as usize];
    let kept = lent.clone();
    assert_eq!(run::start(bytes), Outcome::refused(number, place, State::default()));
    assert_eq!(steps::start(bytes, &lent), Outcome::refused(number, place, State::default()));
    assert_eq!(run::call(bytes, &state, &call), Outcome::refused(number, place, state));
    assert_eq!(steps::call(bytes, &lent, &state, &call), Outcome::refused(number, place, state));
    assert_eq!(expand::expand(bytes, &mut lent), Err((number, place)));
    let answer = verdict(bytes, 99, &mut lent);
    assert_eq!((answer.refusal, answer.place, answer.verdict, answer.tried), (number, place, 0, 0));
    assert_eq!(lent, kept);
    assert_eq!(report(bytes), format!("refused {number} {place}\n"));
}

fn check_accepted(random: &mut Random, bytes: &[u8], agreement: &Agreement, tally: &mut Tally) {
    assert_eq!(write::bytes(agreement), bytes, "writing undoes reading");
    let table = expand::words(&expand::steps(agreement));
    check_expand(random, bytes, &table, tally);
    let start = check_starts(random, bytes, &table, tally);
    if start.refusal == 0 {
        assert!(start.state.fit(agreement));
        for _ in 0..3 {
            check_list(random, bytes, agreement, &table, start.state, tally);
        }
    }
    check_odd_calls(random, bytes, agreement, &table, tally);
    for rule in 0..=agreement.rules.len() {
        check_verdict(random, bytes, agreement, rule, &table, tally);
    }
}

fn check_expand(random: &mut Random, bytes: &[u8], table: &[u32], tally: &mut Tally) {
    let spare = random.below(4) as usize;
    let mut lent = vec![9; table.len() + spare];
    assert_eq!(expand::expand(bytes, &mut lent), Ok(table.len() as u32 / 5));
    assert_eq!(&lent[..table.len()], table);
    assert!(lent[table.len()..].iter().all(|w| *w == 9));
    let mut few = vec![9; table.len() - 1];
    assert_eq!(expand::expand(bytes, &mut few), Err((11, 0)));
    assert!(few.iter().all(|w| *w == 9));
    tally.add(11);
}

fn check_starts(random: &mut Random, bytes: &[u8], table: &[u32], tally: &mut Tally) -> Outcome {
    let start = run::start(bytes);
    assert_eq!(start, steps::start(bytes, &calls::spare(random, table)));
    let none = |number| Outcome::refused(number, 0, State::default());
    assert_eq!(steps::start(bytes, &calls::too_few(random, table)), none(11));
    assert_eq!(steps::start(bytes, &calls::wrong(random, table)), none(12));
    tally.add(start.refusal);
    tally.add(11);
    tally.add(12);
    start
}

/// One list, run twice: unexpanded and expanded, each on its own records.
fn check_list(
    random: &mut Random,
    bytes: &[u8],
    agreement: &Agreement,
    table: &[u32],
    fresh: State,
    tally: &mut Tally,
) {
    let lent = calls::spare(random, table);
    let (mut plain, mut expanded) = (fresh, fresh);
    for call in calls::list(random, agreement, 10) {
        let one = run::call(bytes, &plain, &call);
        let other = steps::call(bytes, &lent, &expanded, &call);
        assert_eq!(one, other);
        assert_eq!(one.state.total(), fresh.total());
        assert!(one.refusal == 0 || one.state == plain);
        assert!(one.units <= agreement.limit as u32);
        tally.add(one.refusal);
        plain = one.state;
        expanded = other.state;
    }
}

/// Calls on arbitrary records, fit and unfit, and with wrong lent words.
fn check_odd_calls(random: &mut Random, bytes: &[u8], agreement: &Agreement, table: &[u32], tally: &mut Tally) {
    for _ in 0..4 {
        let mut state = calls::fit(random, agreement);
        if random.chance(40) {
            state = calls::unfit(random, agreement, &state);
        }
        let call = calls::one(random, agreement, &state);
        let plain = run::call(bytes, &state, &call);
        assert_eq!(plain, steps::call(bytes, &calls::spare(random, table), &state, &call));
        tally.add(plain.refusal);
        let lent_badly = |number| Outcome::refused(if call.sender < agreement.accounts { number } else { 9 }, 0, state);
        let few = calls::too_few(random, table);
        let wrong = calls::wrong(random, table);
        assert_eq!(steps::call(bytes, &few, &state, &call), lent_badly(11));
        assert_eq!(steps::call(bytes, &wrong, &state, &call), lent_badly(12));
    }
}

fn check_verdict(
    random: &mut Random,
    bytes: &[u8],
    agreement: &Agreement,
    rule: usize,
    table: &[u32],
    tally: &mut Tally,
) {
    let known = rule < agreement.rules.len();
    let mut few = calls::too_few(random, table);
    let refused = verdict(bytes, rule as u32, &mut few);
    assert_eq!(refused.refusal, if known { 11 } else { 10 });
    tally.add(refused.refusal);
    if !known || costly(agreement) {
        return;
    }
    let mut lent = vec![9; table.len() + 3];
    let answer = verdict(bytes, rule as u32, &mut lent);
    tally.add(answer.refusal);
    tally.verdicts[answer.verdict as usize] += 1;
    if answer.refusal != 0 {
        assert!(answer.refusal == 27 && lent.iter().all(|w| *w == 9));
        return;
    }
    assert_eq!(&lent[..table.len()], table);
    assert_eq!(&lent[table.len()..], [9; 3]);
    check_tried(agreement, &answer);
}

/// Verdicts that would hold up the self-check.
fn costly(agreement: &Agreement) -> bool {
    agreement.bound > 3_000 && agreement.rows.len().pow(agreement.depth as u32) > 3_000
}

/// The number tried against the place of the list, and its rows.
fn check_tried(agreement: &Agreement, answer: &verdict::Verdict) {
    let rows = agreement.rows.len() as u64;
    let all: u64 = (0..=agreement.depth as u32).map(|n| rows.pow(n)).sum();
    let tried = answer.tried as u64;
    match answer.verdict {
        verdict::BROKEN => {
            let shorter: u64 = (0..answer.rows.len() as u32).map(|n| rows.pow(n)).sum();
            let place = answer.rows.iter().fold(0, |sum, row| sum * rows + *row as u64);
            assert_eq!(tried, shorter + place + 1);
            assert!(tried <= agreement.bound as u64 && tried <= all);
        }
        verdict::HELD => assert!(tried == all && all <= agreement.bound as u64),
        _ => assert!(tried == agreement.bound as u64 && all > tried),
    }
}
