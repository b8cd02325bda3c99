//! Every refusal number, with its place, on hand-made files.

use interpreter::expand::{self, expand};
use interpreter::generate::write::{bytes, loose, record, written, Loose};
use interpreter::generate::{binary, constant, counter};
use interpreter::machine::Outcome;
use interpreter::read::{read, Refusal};
use interpreter::run::{self, Call, State};
use interpreter::steps;
use interpreter::tree::*;
use interpreter::verdict::verdict;

fn place_of(file: &[u8]) -> (u8, u32) {
    let Refusal { number, place } = read(file).expect_err("the file is bad");
    (number, place)
}

/// The counter agreement's records, changed, then written with right lengths.
fn changed(change: impl Fn(&mut Loose)) -> (u8, u32) {
    let mut file = loose(&counter());
    change(&mut file);
    place_of(&written(&file))
}

/// The counter agreement's bytes, changed in one place.
fn poked(at: usize, value: u8) -> (u8, u32) {
    let mut file = bytes(&counter());
    file[at] = value;
    place_of(&file)
}

fn block_of(count: usize) -> Statement {
    let set = Statement::from(StatementKind::Set(FIRST_LOCAL, constant(0)));
    StatementKind::Block(vec![set; count]).into()
}

#[test]
fn refusal_1() {
    let file = bytes(&counter());
    assert_eq!(place_of(&[]), (1, 0));
    assert_eq!(place_of(&[3, 0, 1]), (1, 0));
    assert_eq!(place_of(&file[..175]), (1, 0));
    assert_eq!(poked(0, 175), (1, 0));
    assert_eq!(place_of(&[0; 32_769]), (1, 0));
}

#[test]
fn refusal_2_lengths() {
    assert_eq!(poked(20, 3), (2, 20)); // initial action's length under 4
    assert_eq!(poked(21, 1), (2, 20)); // and past the agreement
    assert_eq!(poked(54, 59), (2, 54)); // guard past its transition
    assert_eq!(poked(54, 54), (2, 62)); // guard with left-over bytes
    assert_eq!(poked(72, 15), (2, 72)); // left operand past the binary
    assert_eq!(poked(72, 14), (2, 78)); // left operand swallows the right one
}

#[test]
fn refusal_2_stray_and_left_over() {
    for count in 1..=3 {
        assert_eq!(changed(|f| f.tail = vec![0; count]), (2, 176));
        assert_eq!(changed(|f| f.children[2].tail = vec![0; count]), (2, 112));
        assert_eq!(changed(|f| f.children[3].tail = vec![0; count]), (2, 140));
        assert_eq!(changed(|f| f.children[5].tail = vec![0; count]), (2, 176));
    }
    let extra = || record(64, vec![0; 4], vec![]);
    assert_eq!(changed(|f| f.children[0].children.push(extra())), (2, 34));
    assert_eq!(changed(|f| f.children[2].children.push(extra())), (2, 112));
    assert_eq!(changed(|f| f.children[4].children.push(extra())), (2, 168));
}

#[test]
fn refusal_2_absent() {
    assert_eq!(place_of(&[4, 0, 1, 0]), (2, 4)); // no field at all
    assert_eq!(place_of(&[11, 0, 1, 0, 2, 1, 1, 0, 2, 0, 6]), (2, 10)); // half a limit
    assert_eq!(changed(|f| f.children.clear()), (2, 20)); // no initial action
    assert_eq!(changed(|f| f.children.truncate(1)), (2, 34)); // no fallback
    assert_eq!(changed(|f| f.children[2].children.clear()), (2, 54)); // no guard
    assert_eq!(changed(|f| f.children[0].children.clear()), (2, 26)); // set of nothing
    assert_eq!(changed(|f| f.children[1] = record(32, vec![], vec![])), (2, 38)); // empty block
    let short_row = |f: &mut Loose| f.children[3].fields.truncate(10);
    assert_eq!(changed(short_row), (2, 124)); // half of the first argument
    let short_rule = |f: &mut Loose| f.children[5].fields.truncate(3);
    assert_eq!(changed(short_rule), (2, 175)); // no q
    assert_eq!(place_of(&fields_cut_in_balance()), (2, 16));
}

fn fields_cut_in_balance() -> Vec<u8> {
    let mut file = bytes(&counter())[..19].to_vec();
    file[0] = 19;
    file
}

#[test]
fn refusal_3() {
    assert_eq!(poked(2, 2), (3, 0));
    assert_eq!(poked(22, 64), (3, 20)); // an expression as an action
    assert_eq!(poked(56, 16), (3, 54)); // a statement as a guard
    assert_eq!(poked(48, 5), (3, 46)); // no list has kind 5
    assert_eq!(changed(|f| f.children.swap(2, 3)), (3, 74)); // a transition after a row
    assert_eq!(changed(|f| f.children.swap(3, 5)), (3, 148)); // a row after a rule
    let local = |f: &mut Loose| f.children[4].children[0] = record(66, vec![0, 0], vec![]);
    assert_eq!(changed(local), (3, 148)); // a local in a rule
    let require = record(18, vec![], vec![record(64, vec![0; 4], vec![])]);
    let for_require = move |f: &mut Loose| f.children[1] = record(36, vec![], vec![require.clone()]);
    assert_eq!(changed(for_require), (3, 38)); // for needs a set first
}

#[test]
fn refusal_4_fields() {
    for (at, value, place) in [
        (4, 0, 0), (4, 65, 0), (5, 17, 0), (6, 0, 0), (6, 9, 0), (7, 2, 0), (8, 9, 0), (9, 1, 0),
        (10, 0, 0), (11, 17, 0), (15, 1, 0), (24, 1, 20), (51, 2, 46), (52, 2, 46), (53, 1, 46),
        (70, 11, 66), (76, 1, 72), (117, 1, 112), (118, 1, 112), (119, 1, 112), (144, 0, 140),
        (144, 4, 140), (146, 1, 140), (147, 1, 140), (174, 2, 168), (175, 0, 168),
    ] {
        assert_eq!(poked(at, value), (4, place), "byte {at} is {value}");
    }
    let sender = |f: &mut Loose| f.children[4].children[0] = record(68, vec![1, 0], vec![]);
    assert_eq!(changed(sender), (4, 148)); // coins paid in a rule
}

#[test]
fn refusal_4_too_many_children() {
    let many = |at: usize, count: usize| {
        changed(move |f| {
            for _ in 1..count {
                let copy = f.children[at].clone();
                f.children.insert(at, copy);
            }
        })
    };
    assert_eq!(many(2, 65), (4, 46 + 64 * 66));
    assert_eq!(many(3, 17), (4, 112 + 16 * 28));
    assert_eq!(many(5, 8), (4, 168 + 7 * 8)); // one rule of type 1 stands before
}

#[test]
fn field_order_is_presence_then_range() {
    assert_eq!(place_of(&[5, 0, 1, 0, 0]), (4, 0)); // no states, before no variables
    assert_eq!(place_of(&[5, 0, 1, 0, 2]), (2, 5));
    let rule = |f: &mut Loose| f.children[5].fields = vec![2, 0, 7];
    assert_eq!(changed(rule), (4, 168)); // unknown p, before the absent q
}

#[test]
fn refusal_5() {
    let deep = |times: usize, tail: u16| {
        changed(move |f| {
            let mut inner = record(tail, vec![0; 4], vec![]);
            for _ in 0..times {
                inner = record(81, vec![], vec![inner]);
            }
            f.children[2].children[0] = inner;
        })
    };
    assert_eq!(deep(14, 64), (5, 54 + 14 * 4));
    assert_eq!(deep(14, 999), (5, 54 + 14 * 4)); // level before kind
    assert_eq!(deep(13, 999), (3, 54 + 13 * 4));
    assert_eq!(deep(40, 64), (5, 54 + 14 * 4));
}

#[test]
fn refusal_6() {
    let repeat = |f: &mut Loose| {
        let copy = f.children[2].clone();
        f.children.insert(3, copy.clone());
        f.children.insert(4, copy);
    };
    assert_eq!(changed(repeat), (6, 112));
    let repeat_and_bad_row = |f: &mut Loose| {
        repeat(f);
        f.children[5].fields[1] = 1;
    };
    assert_eq!(changed(repeat_and_bad_row), (4, 244)); // reading ends first
}

#[test]
fn refusals_7_and_8_and_their_order() {
    let mut a = counter();
    a.fallback = block_of(1_020);
    assert_eq!(place_of(&bytes(&a)), (8, 0));
    a.accounts = 2;
    a.balances = vec![u32::MAX, 1];
    assert_eq!(place_of(&bytes(&a)), (7, 0));
    a.transitions.push(a.transitions[0].clone());
    let repeated_at = 24 + 14 + (4 + 1_020 * 14) + 66;
    assert_eq!(place_of(&bytes(&a)), (6, repeated_at));
    let mut b = counter();
    b.fallback = block_of(1_019);
    assert!(read(&bytes(&b)).is_ok());
}

fn table() -> Vec<u32> {
    expand::words(&expand::steps(&read(&bytes(&counter())).unwrap()))
}

/// A call on both forms, which must agree.
fn call(a: &Agreement, state: &State, call: &Call) -> Outcome {
    let file = bytes(a);
    let table = expand::words(&expand::steps(&read(&file).unwrap()));
    let outcome = run::call(&file, state, call);
    assert_eq!(outcome, steps::call(&file, &table, state, call));
    outcome
}

fn named(name: u8) -> Call {
    Call { name, ..Call::default() }
}

#[test]
fn refusals_9_to_12() {
    let file = bytes(&counter());
    let table = table();
    let fresh = run::start(&file).state;
    let sender = Call { sender: 1, ..named(1) };
    assert_eq!(call(&counter(), &fresh, &sender), Outcome::refused(9, 0, fresh));
    assert_eq!(call(&counter(), &State::default(), &sender).refusal, 9);
    assert_eq!(steps::call(&file, &[], &fresh, &sender).refusal, 9);
    assert_eq!(verdict(&file, 2, &mut []).refusal, 10);
    assert_eq!(verdict(&file, 1, &mut [0; 29]).refusal, 11);
    assert_eq!(expand(&file, &mut [0; 29]), Err((11, 0)));
    assert_eq!(steps::start(&file, &table[..29]), Outcome::refused(11, 0, State::default()));
    assert_eq!(steps::call(&file, &table[..29], &fresh, &named(1)), Outcome::refused(11, 0, fresh));
    let mut wrong = table.clone();
    wrong[29] += 1;
    assert_eq!(steps::start(&file, &wrong), Outcome::refused(12, 0, State::default()));
    assert_eq!(steps::call(&file, &wrong, &State::default(), &named(1)).refusal, 12);
    wrong.pop();
    assert_eq!(steps::start(&file, &wrong).refusal, 11);
}

#[test]
fn refusal_20() {
    let a = counter();
    let fresh = run::start(&bytes(&a)).state;
    let too_many = Call { coins: 6, ..named(1) };
    let unfit = |change: fn(&mut State)| {
        let mut state = fresh;
        change(&mut state);
        assert_eq!(call(&a, &state, &too_many), Outcome::refused(20, 0, state));
    };
    unfit(|s| s.state = 2);
    unfit(|s| s.variables[1] = 1);
    unfit(|s| s.variables[15] = 1);
    unfit(|s| (s.balances[0], s.balances[1]) = (4, 1));
    unfit(|s| s.own = 1);
    unfit(|s| s.balances[0] = 4);
    unfit(|s| s.own = u32::MAX);
}

#[test]
fn refusals_21_to_26() {
    let mut a = counter();
    let fresh = run::start(&bytes(&a)).state;
    let there = State { state: 1, ..fresh };
    assert_eq!(call(&a, &there, &Call { coins: 6, ..named(1) }), Outcome::refused(21, 0, there));
    assert_eq!(call(&a, &there, &named(1)), Outcome::refused(22, 0, there));
    let paid = Call { coins: 2, ..named(1) };
    let expect = |a: &Agreement, refusal, units| {
        let outcome = call(a, &fresh, &paid);
        assert_eq!(outcome, Outcome { units, ..Outcome::refused(refusal, 0, fresh) });
    };
    a.transitions[0].guard = constant(0);
    expect(&a, 23, 1);
    a.transitions[0].guard = binary(1, constant(0), constant(1));
    expect(&a, 24, 1);
    a.transitions[0].guard = constant(1);
    a.transitions[0].action = StatementKind::Transfer(constant(0), constant(3)).into();
    expect(&a, 25, 2);
    a.transitions[0].action = StatementKind::Transfer(constant(1), constant(0)).into();
    expect(&a, 25, 2);
    a.transitions[0].action = StatementKind::While(constant(1), Box::new(block_of(2))).into();
    expect(&a, 26, 6);
    a.limit = 1;
    expect(&a, 26, 1);
}

#[test]
fn refusal_27() {
    let mut a = counter();
    a.initial = StatementKind::Require(constant(0)).into();
    let mut lent = [7; 30];
    for units in [1, 6] {
        let file = bytes(&a);
        let refused = Outcome { units, ..Outcome::refused(27, 0, State::default()) };
        assert_eq!(run::start(&file), refused);
        let table = expand::words(&expand::steps(&read(&file).unwrap()));
        assert_eq!(steps::start(&file, &table), refused);
        assert_eq!(verdict(&file, 0, &mut vec![0; 40]).refusal, 27);
        a.initial = StatementKind::While(constant(1), Box::new(block_of(1))).into();
    }
    a.initial = StatementKind::Require(constant(0)).into();
    let answer = verdict(&bytes(&a), 0, &mut lent);
    assert_eq!((answer.refusal, answer.tried, answer.verdict), (27, 0, 0));
    assert_eq!(lent, [7; 30]);
}

#[test]
fn return_inside_a_loop_leaves_the_action() {
    let mut a = counter();
    let inner = StatementKind::Block(vec![
        StatementKind::Return(constant(9)).into(),
        StatementKind::Set(0, constant(3)).into(),
    ]);
    let body = StatementKind::While(constant(1), Box::new(inner.into()));
    a.transitions[0].action = StatementKind::While(constant(1), Box::new(body.into())).into();
    let fresh = run::start(&bytes(&a)).state;
    let outcome = call(&a, &fresh, &Call { coins: 1, ..named(1) });
    assert_eq!((outcome.refusal, outcome.value, outcome.units), (0, Some(9), 4));
    assert_eq!((outcome.state.state, outcome.state.variables[0], outcome.state.own), (1, 0, 1));
}
