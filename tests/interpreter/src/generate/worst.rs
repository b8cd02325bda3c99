//! The files that ask most of stack and time: deepest nesting, 32,768 bytes,
//! 1,024 steps, 4,096 units, and refusals met at the deepest level.

use super::write::{bytes, loose, record, written, Loose};
use super::{binary, constant, count_up, counter};
use crate::tree::*;
use ExpressionKind::Variable;

const MOST_UNITS: u16 = 4_096;
/// The levels from an action's statement to the deepest: a transition's action
/// stands on level 3, the fallback and the initial action on level 2.
const BELOW_TRANSITION: u32 = 13;
const BELOW_FALLBACK: u32 = 14;

pub fn worst_files() -> Vec<(String, Vec<u8>)> {
    let mut all = Vec::new();
    nested_actions(&mut all);
    deep_expressions(&mut all);
    large_files(&mut all);
    deep_refusals(&mut all);
    full_tables(&mut all);
    repeats(&mut all);
    several_faults(&mut all);
    oversized(&mut all);
    all
}

type Files = Vec<(String, Vec<u8>)>;
/// Wraps a statement in one more level.
type Wrap = fn(Statement) -> Statement;

const WRAPS: [(&str, Wrap); 5] = [
    ("whiles", |s| StatementKind::While(constant(1), Box::new(s)).into()),
    ("fors", for_ever),
    ("blocks", |s| StatementKind::Block(vec![s]).into()),
    ("ifs", |s| StatementKind::If(constant(1), Box::new(s)).into()),
    ("if-elses", |s| StatementKind::IfElse(constant(0), Box::new(keep()), Box::new(s)).into()),
];

/// Sets a variable to its own value.
fn keep() -> Statement {
    StatementKind::Set(0, Variable(0).into()).into()
}

fn for_ever(body: Statement) -> Statement {
    let again = || StatementKind::Set(FIRST_LOCAL, constant(1)).into();
    StatementKind::For(Box::new(ForParts { first: again(), condition: constant(1), closing: again(), body })).into()
}

/// The counter agreement with the largest limit.
fn large_limit() -> Agreement {
    let mut a = counter();
    a.limit = MOST_UNITS;
    a
}

/// Statements nested to the last level, endless or with a return at the bottom.
fn nested_actions(all: &mut Files) {
    let wrap_in = |wrap: Wrap, times: u32, inner: &Statement| (0..times).fold(inner.clone(), |s, _| wrap(s));
    let set = keep();
    let answer = StatementKind::Return(Variable(0).into()).into();
    for (label, wrap) in WRAPS {
        for (end, inner) in [("set", &set), ("return", &answer)] {
            let mut a = large_limit();
            let endless = StatementKind::While(constant(1), Box::new(wrap_in(wrap, BELOW_TRANSITION - 2, inner)));
            a.transitions[0].action = endless.into();
            add(all, format!("{label} to the last level in a transition, then {end}"), &a);
            let mut a = large_limit();
            a.fallback = for_ever(wrap_in(wrap, BELOW_FALLBACK - 2, inner));
            add(all, format!("{label} to the last level in the fallback, then {end}"), &a);
            let mut a = large_limit();
            a.initial = wrap_in(wrap, BELOW_FALLBACK - 1, inner);
            add(all, format!("{label} to the last level in the initial action, then {end}"), &a);
        }
    }
}

fn add(all: &mut Files, label: String, agreement: &Agreement) {
    all.push((label, bytes(agreement)));
}

/// A chain of binary records to the left or to the right, `levels` high.
fn chain(levels: u32, leaf: Expression, to_left: bool) -> Expression {
    (1..levels).fold(leaf, |e, _| if to_left { binary(10, e, constant(0)) } else { binary(10, constant(0), e) })
}

/// Expressions to the last level as guard, in an endless loop, and as a rule.
fn deep_expressions(all: &mut Files) {
    for (label, leaf) in [("holds", constant(1)), ("fails", binary(3, constant(1), constant(0)))] {
        for to_left in [true, false] {
            let side = if to_left { "left" } else { "right" };
            let height = if label == "holds" { 14 } else { 13 };
            let mut a = large_limit();
            a.transitions[0].guard = chain(height, leaf.clone(), to_left);
            a.rules[0] = Rule::Always(chain(height, leaf.clone(), to_left));
            add(all, format!("guard and rule to the last level on the {side}, which {label}"), &a);
            let mut a = large_limit();
            let condition = chain(height - 1, leaf.clone(), to_left);
            a.transitions[0].action = StatementKind::While(condition, Box::new(count_up(0))).into();
            add(all, format!("condition to the last level on the {side}, which {label}"), &a);
        }
    }
}

/// Nearly 32,768 bytes on thirteen levels; its value is 1.
fn large_expression() -> Expression {
    binary(5, balanced(1_150), balanced(1_150))
}

/// A balanced tree of so many leaves; its value is 0.
fn balanced(leaves: usize) -> Expression {
    match leaves {
        1 => constant(0),
        _ => binary(10, balanced(leaves / 2), balanced(leaves - leaves / 2)),
    }
}

/// Files of nearly 32,768 bytes: one expression, and many statements.
fn large_files(all: &mut Files) {
    let mut a = large_limit();
    a.limit = 400; // an interpreter that reads the condition at each turn is slow
    a.transitions[0].action = StatementKind::While(large_expression(), Box::new(count_up(0))).into();
    add(all, "a condition of 32 KiB in an endless loop".into(), &a);
    let mut a = large_limit();
    a.rules[0] = Rule::Always(large_expression());
    add(all, "a rule of 32 KiB".into(), &a);
    let mut a = large_limit();
    a.transitions[0].guard = large_expression();
    add(all, "a guard of 32 KiB".into(), &a);
    let mut a = large_limit();
    a.transitions[0].action = for_ever(many_steps());
    add(all, "1,024 steps in 32 KiB, endless, in a transition".into(), &a);
    let mut a = large_limit();
    a.transitions[0].action = keep();
    a.fallback = for_ever(many_steps());
    add(all, "1,024 steps in 32 KiB, endless, in the fallback".into(), &a);
}

/// 1,017 steps in one block: with a for's four and three of the other actions 1,024.
fn many_steps() -> Statement {
    let wide = StatementKind::Set(0, binary(4, binary(0, Variable(0).into(), constant(1)), constant(9)));
    let mut list = vec![Statement::from(wide); 425];
    list.extend(vec![count_up(0); 589]);
    list.push(StatementKind::If(Variable(0).into(), Box::new(keep())).into());
    StatementKind::Block(list).into()
}

/// Faults on level 16 and below it, under a chain of blocks and nots.
fn deep_refusals(all: &mut Files) {
    let leaf = |kind, fields: &[u8]| record(kind, fields.to_vec(), Vec::new());
    let cases = [
        ("wrong kind", leaf(32, &[])),
        ("field outside its range", leaf(66, &[8, 0])),
        ("field incomplete", leaf(64, &[1, 2, 3])),
        ("child absent", leaf(81, &[])),
        ("left-over bytes", leaf(65, &[0, 0, 0])),
        ("level 17", record(81, Vec::new(), vec![leaf(64, &[0; 4])])),
        ("level 18", record(81, Vec::new(), vec![record(81, Vec::new(), vec![leaf(64, &[0; 4])])])),
    ];
    for (label, fault) in cases {
        for place in [Place::Guard, Place::Action, Place::Initial, Place::Rule] {
            let file = with_fault(place, fault.clone());
            all.push((format!("{label} on the last level, in {place:?}"), written(&file)));
        }
    }
}

#[derive(Clone, Copy, Debug)]
enum Place {
    Guard,
    Action,
    Initial,
    Rule,
}

/// The counter agreement with an expression record on level 16.
fn with_fault(place: Place, fault: Loose) -> Loose {
    let mut file = loose(&counter());
    let under = |kind, times, inner: Loose| (0..times).fold(inner, |r, _| record(kind, Vec::new(), vec![r]));
    match place {
        Place::Guard => file.children[2].children[0] = under(81, 13, fault),
        Place::Action => file.children[2].children[1] = under(32, 6, under(18, 1, under(81, 6, fault))),
        Place::Initial => file.children[0] = under(32, 12, under(19, 1, under(81, 1, fault))),
        Place::Rule => file.children[4].children[0] = under(81, 13, fault),
    }
    file
}

/// 64 states, 64 transitions, 16 rows, 8 rules, 8 accounts, 16 variables, depth 8; calls of one unit and of 4,096.
fn full_tables(all: &mut Files) {
    for (label, limit, bound) in [("short calls", 40, 20_000), ("calls of 4,096 units", MOST_UNITS, 300)] {
        let mut a = counter();
        (a.states, a.variables, a.accounts, a.depth) = (64, 16, 8, 8);
        (a.limit, a.bound) = (limit, bound);
        a.balances = vec![100; 8];
        a.transitions = (0..64).map(|i| ring(i, limit)).collect();
        a.rows = (0..16).map(|i| Row { name: i % 3, sender: i % 8, coins: i as u32, arguments: [i as u32; 4] }).collect();
        a.rules = vec![Rule::Always(binary(8, Variable(15).into(), constant(limit as u32))); 6];
        a.rules.extend([Rule::NotAfter { p: 0, q: 0 }, Rule::OnlyAfter { p: 2, q: 1 }]);
        add(all, format!("full tables, {label}"), &a);
    }
}

/// From a state to the next, using the whole limit.
fn ring(state: u8, limit: u16) -> Transition {
    let again = binary(7, ExpressionKind::Local(0).into(), constant(limit as u32 / 2 - 2));
    let turn = StatementKind::While(again, Box::new(count_up(FIRST_LOCAL)));
    let end = StatementKind::Return(Variable(15).into());
    let action = StatementKind::Block(vec![count_up(15), turn.into(), end.into()]);
    Transition { at: 0, name: state % 4, from: state, to: (state + 1) % 64, guard: constant(1), action: action.into() }
}

/// 64 transitions of which the last repeats an earlier pair; the first, and another.
fn repeats(all: &mut Files) {
    for (label, earlier) in [("first", 0), ("one before", 62)] {
        let mut a = counter();
        (a.states, a.variables) = (64, 16);
        a.transitions = (0..64).map(|i| ring(i, 6)).collect();
        a.transitions[63] = a.transitions[earlier].clone();
        add(all, format!("the last transition repeats the {label}"), &a);
    }
}

/// Refusals 6, 7 and 8 together: the smaller number goes first.
fn several_faults(all: &mut Files) {
    for faults in [0b011, 0b101, 0b110, 0b111] {
        let has = |bit: u32| faults >> bit & 1 == 1;
        let mut a = counter();
        if has(0) {
            a.transitions.push(a.transitions[0].clone());
        }
        if has(1) {
            (a.accounts, a.balances) = (2, vec![u32::MAX, 1]);
        }
        if has(2) {
            a.fallback = StatementKind::Block(vec![keep(); 1_024]).into();
        }
        let met: Vec<String> = (0..3).filter(|bit| has(*bit)).map(|bit| (bit + 6).to_string()).collect();
        add(all, format!("refusals {} together", met.join(", ")), &a);
    }
}

/// Files over 32,768 bytes whose first length, of 16 bits, fits what they begin with.
fn oversized(all: &mut Files) {
    let small = bytes(&counter());
    for size in [32_769, 40_000, 65_535, 65_536 + small.len()] {
        let mut file = small.clone();
        file.resize(size, 0);
        let length = (size as u16).to_le_bytes();
        file[..2].copy_from_slice(&length);
        all.push((format!("{size} bytes, its length in 16 bits"), file));
    }
}
