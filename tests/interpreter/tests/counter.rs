//! Every figure of the section "The counter agreement".

use interpreter::expand::{self, expand, Step};
use interpreter::generate::{counter, write::bytes};
use interpreter::read::read;
use interpreter::report::report;
use interpreter::run::{self, Call, State};
use interpreter::steps;
use interpreter::tree::Agreement;
use interpreter::verdict::{verdict, Verdict, BROKEN, HELD, SPENT};

fn changed(change: impl Fn(&mut Agreement)) -> Vec<u8> {
    let mut agreement = counter();
    change(&mut agreement);
    bytes(&agreement)
}

fn named(name: u8) -> Call {
    Call { name, ..Call::default() }
}

fn fresh() -> State {
    let mut state = State::default();
    state.balances[0] = 5;
    state
}

/// A call on both forms, which must agree.
fn call(file: &[u8], state: &State, call: &Call) -> run::Outcome {
    let table = expand::words(&expand::steps(&read(file).unwrap()));
    let outcome = run::call(file, state, call);
    assert_eq!(outcome, steps::call(file, &table, state, call));
    outcome
}

fn judged(file: &[u8], rule: u32) -> (u8, u32, Vec<u8>) {
    let mut lent = [0; 40];
    let Verdict { refusal, verdict, tried, rows, .. } = verdict(file, rule, &mut lent);
    assert_eq!(refusal, 0);
    assert_eq!(lent[..5], [4, 0, 4, 0, 20]);
    assert_eq!(lent[30..], [0; 10]);
    (verdict, tried, rows)
}

#[test]
fn its_bytes() {
    let file = bytes(&counter());
    assert_eq!(file.len(), 176);
    assert_eq!(file[..20], [176, 0, 1, 0, 2, 1, 1, 0, 2, 0, 6, 0, 10, 0, 0, 0, 5, 0, 0, 0]);
    assert_eq!(file[20..34], [14, 0, 16, 0, 0, 0, 8, 0, 64, 0, 0, 0, 0, 0]);
}

#[test]
fn its_steps() {
    let mut lent = [77; 32];
    assert_eq!(expand(&bytes(&counter()), &mut lent), Ok(6));
    let expected = [
        [4, 0, 4, 0, 20],
        [3, 2, 6, 0, 34],
        [0, 5, 1, 1, 54],
        [5, 6, 2, 0, 66],
        [5, 1, 3, 0, 66],
        [6, 5, 4, 0, 86],
    ];
    assert_eq!(lent[..30], expected.concat());
    assert_eq!(lent[30..], [77, 77]);
    let steps = expand::steps(&read(&bytes(&counter())).unwrap());
    assert_eq!(steps[2], Step { origin: 0, target: 5, kind: 1, name: 1, at: 54 });
}

#[test]
fn its_start() {
    let file = bytes(&counter());
    let start = run::start(&file);
    assert_eq!((start.refusal, start.value, start.units, start.state), (0, None, 1, fresh()));
}

#[test]
fn call_1_once_and_twice() {
    let file = bytes(&counter());
    let first = call(&file, &fresh(), &named(1));
    assert_eq!((first.refusal, first.value, first.units), (0, None, 6));
    assert_eq!((first.state.state, first.state.variables[0]), (1, 2));
    let second = call(&file, &first.state, &named(1));
    assert_eq!((second.refusal, second.units, second.state), (22, 0, first.state));
}

#[test]
fn limit_5() {
    let outcome = call(&changed(|a| a.limit = 5), &fresh(), &named(1));
    assert_eq!((outcome.refusal, outcome.units, outcome.state), (26, 5, fresh()));
}

#[test]
fn call_9() {
    let outcome = call(&bytes(&counter()), &fresh(), &named(9));
    assert_eq!((outcome.refusal, outcome.units, outcome.state), (25, 1, fresh()));
}

#[test]
fn coins() {
    let file = bytes(&counter());
    let five = call(&file, &fresh(), &Call { coins: 5, ..named(1) });
    assert_eq!((five.refusal, five.state.own, five.state.balances[0]), (0, 5, 0));
    let six = call(&file, &fresh(), &Call { coins: 6, ..named(1) });
    assert_eq!((six.refusal, six.units, six.state), (21, 0, fresh()));
}

#[test]
fn its_verdicts() {
    let file = bytes(&counter());
    assert_eq!(judged(&file, 0), (BROKEN, 2, vec![0]));
    assert_eq!(judged(&file, 1), (HELD, 3, vec![]));
    assert_eq!(judged(&changed(|a| a.bound = 1), 0), (SPENT, 1, vec![]));
    assert_eq!(judged(&changed(|a| a.depth = 0), 0), (HELD, 1, vec![]));
    assert_eq!(judged(&changed(|a| a.bound = 3), 1), (HELD, 3, vec![]));
    assert_eq!(judged(&changed(|a| a.bound = 2), 1), (SPENT, 2, vec![]));
}

#[test]
fn its_reports() {
    let file = bytes(&counter());
    assert_eq!(report(&file), "steps 6\nrule 0 broken 2 0\nrule 1 held 3\n");
    assert_eq!(report(&file[..175]), "refused 1 0\n");
    let failing = changed(|a| a.initial = a.fallback.clone());
    assert_eq!(report(&failing), "steps 6\nstart refused 27\n");
}
