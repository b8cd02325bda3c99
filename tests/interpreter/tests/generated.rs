//! Generated files: the limits, verdicts by a plainer search, and a short
//! self-check.

use interpreter::check::selfcheck;
use interpreter::generate::{self, limits::limit_files, repeats, worst::worst_files};
use interpreter::random::Random;
use interpreter::read::read;
use interpreter::run::{self, Call};
use interpreter::tree::{Agreement, ExpressionKind, Rule};
use interpreter::values::{value, View};
use interpreter::verdict::{judge, lists_within, row_call, BROKEN, HELD, SPENT};

#[test]
fn limits_meet_their_refusals() {
    for file in limit_files() {
        let found = read(&file.bytes).map_or_else(|r| r.number, |_| 0);
        assert_eq!(found, file.refusal, "{}", file.label);
    }
}

#[test]
fn short_selfcheck_meets_every_refusal() {
    assert_eq!(selfcheck(1_500, 77).missing(), Vec::<usize>::new());
}

/// The list of a number, counted from 0 in the order of the search.
fn nth_list(rows: u64, mut number: u64) -> Vec<usize> {
    let mut length = 0;
    while number >= rows.pow(length) {
        number -= rows.pow(length);
        length += 1;
    }
    let digit = |i: u32| (number / rows.pow(length - 1 - i) % rows) as usize;
    (0..length).map(digit).collect()
}

/// The completed calls of a list run by itself from a fresh start.
fn breaks(agreement: &Agreement, rule: &Rule, list: &[usize]) -> bool {
    let mut state = run::start_read(agreement).state;
    let mut states = vec![state];
    let mut names = Vec::new();
    for row in list {
        let outcome = run::call_read(agreement, &state, &row_call(&agreement.rows[*row]));
        state = outcome.state;
        if outcome.refusal == 0 {
            states.push(state);
            names.push(agreement.rows[*row].name);
        }
    }
    let earlier = |at: usize, q: &u8| names[..at].contains(q);
    match rule {
        Rule::Always(e) => states.iter().any(|s| {
            let context = [0, 0, s.own, s.state];
            let view = View { variables: &s.variables, locals: &[0; 8], arguments: &[0; 4], context };
            value(e, &view).unwrap_or(0) == 0
        }),
        Rule::NotAfter { p, q } => (0..names.len()).any(|i| names[i] == *p && earlier(i, q)),
        Rule::OnlyAfter { p, q } => (0..names.len()).any(|i| names[i] == *p && !earlier(i, q)),
    }
}

fn plain_verdict(agreement: &Agreement, rule: &Rule) -> (u8, u32, Vec<u8>) {
    let rows = agreement.rows.len() as u64;
    let all: u64 = (0..=agreement.depth as u32).map(|n| rows.pow(n)).sum();
    for number in 0..all.min(agreement.bound as u64) {
        let list = nth_list(rows, number);
        if breaks(agreement, rule, &list) {
            return (BROKEN, number as u32 + 1, list.iter().map(|r| *r as u8).collect());
        }
    }
    if all <= agreement.bound as u64 { (HELD, all as u32, vec![]) } else { (SPENT, agreement.bound, vec![]) }
}

#[test]
fn verdicts_agree_with_a_plainer_search() {
    let mut seen = [0; 4];
    let repeats = (0..150).map(|seed| repeats::file(&mut Random::new(seed)));
    for (number, file) in (0..600).map(generate::file).chain(repeats).enumerate() {
        let agreement = read(&file).unwrap();
        let all = lists_within(agreement.rows.len() as u64, agreement.depth);
        let small = all.min(agreement.bound as u64) <= 1_200 && agreement.limit <= 300;
        if !small || run::start_read(&agreement).refusal != 0 {
            continue;
        }
        for (i, rule) in agreement.rules.iter().enumerate() {
            let answer = judge(&agreement, i);
            let expected = plain_verdict(&agreement, rule);
            assert_eq!((answer.verdict, answer.tried, answer.rows), expected, "file {number}");
            seen[answer.verdict as usize] += 1;
        }
    }
    assert!(seen[1..].iter().all(|count| *count > 20), "{seen:?}");
}

#[test]
fn a_million_lists_are_judged() {
    let mut agreement = generate::counter();
    agreement.depth = 8;
    agreement.bound = 1_000_000;
    agreement.rows = vec![agreement.rows[0].clone(); 16];
    agreement.rules[0] = Rule::Always(ExpressionKind::Constant(1).into());
    let answer = judge(&agreement, 0);
    assert_eq!((answer.verdict, answer.tried), (SPENT, 1_000_000));
}

#[test]
fn without_rows_only_the_empty_list_exists() {
    let mut agreement = generate::counter();
    agreement.rows.clear();
    agreement.bound = 1;
    assert_eq!((judge(&agreement, 0).verdict, judge(&agreement, 0).tried), (HELD, 1));
}

#[test]
fn worst_files_meet_their_limits() {
    let mut met = [0; 28];
    let mut used_up = 0;
    for (label, bytes) in worst_files() {
        match read(&bytes) {
            Err(refusal) => met[refusal.number as usize] += 1,
            Ok(agreement) => {
                assert!(!label.contains("on the last level, in"), "{label}");
                let start = run::start_read(&agreement);
                let calls = [1, 9].map(|name| run::call_read(&agreement, &start.state, &Call { name, ..Call::default() }));
                used_up += [start, calls[0], calls[1]].iter().filter(|o| o.units == 4_096).count();
            }
        }
    }
    assert!((1..=5).all(|number| met[number] >= 3), "{met:?}");
    assert_eq!((met[1], met[5], met[6], met[7]), (4, 8, 5, 1));
    assert!(used_up >= 16, "{used_up}");
}
