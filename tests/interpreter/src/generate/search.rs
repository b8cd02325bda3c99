//! Files whose verdicts try many lists.

use super::write::bytes;
use super::{binary, constant, count_up, counter};
use crate::tree::*;

/// 15 rows to depth 5 are 813,616 lists.
pub const LISTS: u32 = 813_616;
const ROWS: u8 = 15;

/// One state and one transition for each row's name; the first rule holds, or breaks on the last list alone.
fn base(action: impl Fn(u8) -> Statement) -> Agreement {
    let mut a = counter();
    (a.states, a.variables, a.depth, a.limit, a.bound) = (1, 3, 5, 4_096, 1_000_000);
    let transition = |name| Transition { at: 0, name, from: 0, to: 0, guard: constant(1), action: action(name) };
    a.transitions = (0..ROWS).map(transition).collect();
    a.rows = (0..ROWS).map(|name| Row { name, sender: 0, coins: 0, arguments: [0; 4] }).collect();
    a.rules = vec![Rule::Always(binary(7, variable(0), constant(5)))];
    a
}

fn variable(index: u16) -> Expression {
    ExpressionKind::Variable(index).into()
}

fn set(target: u16, value: Expression) -> Statement {
    StatementKind::Set(target, value).into()
}

/// So many turns, each with a test and a set.
fn turns(count: u32) -> Statement {
    let local = ExpressionKind::Local(0).into();
    StatementKind::While(binary(7, local, constant(count)), Box::new(count_up(FIRST_LOCAL))).into()
}

/// One set in each call; the rule holds.
pub fn short_actions() -> Vec<u8> {
    bytes(&short(1_000_000))
}

fn short(bound: u32) -> Agreement {
    Agreement { bound, ..base(|name| set(1, constant(name as u32))) }
}

/// A loop of 40 turns in each call; the rule holds.
pub fn loops_of_40() -> Vec<u8> {
    bytes(&base(|_| turns(40)))
}

/// A guard, 2,047 turns of two units and the last test: 4,096 units; the bound is spent after 2,000 lists.
pub fn calls_of_4096_units() -> Vec<u8> {
    let mut a = base(|_| turns(2_047));
    a.bound = 2_000;
    bytes(&a)
}

/// Only the last row counts, and only five of its calls break the rule.
pub fn late_counterexample() -> Vec<u8> {
    bytes(&late(1_000_000))
}

fn late(bound: u32) -> Agreement {
    Agreement { bound, ..base(|name| if name == ROWS - 1 { count_up(0) } else { set(1, constant(1)) }) }
}

/// Every list leads to another position: each call writes its row's number as the last digit of v1. The rule holds.
pub fn all_distinct(rows: u8, depth: u8) -> Vec<u8> {
    let shifted = binary(2, variable(1), constant(rows as u32 + 1));
    let written = set(1, binary(0, shifted, ExpressionKind::Argument(0).into()));
    let mut a = base(|_| written.clone());
    let row = |i| Row { name: 0, sender: 0, coins: 0, arguments: [i as u32, 0, 0, 0] };
    (a.depth, a.rows) = (depth, (1..=rows).map(row).collect());
    bytes(&a)
}

/// Every call of 16 rows loops until the units are used up, so it is refused; the bound is spent.
pub fn endless_loops(bound: u32) -> Vec<u8> {
    let mut a = base(|_| StatementKind::While(constant(1), Box::new(count_up(0))).into());
    a.rows.push(a.rows[0].clone());
    (a.depth, a.bound) = (8, bound);
    bytes(&a)
}

/// Bounds at the number of lists and one below it, and the most lists that a file can ask for.
pub fn search_files() -> Vec<(String, Vec<u8>)> {
    let mut most = short(1_000_000);
    most.depth = 8;
    most.rows.push(most.rows[0].clone());
    let mut all = vec![("16 rows to depth 8, bound 1,000,000".to_string(), bytes(&most))];
    for bound in [LISTS - 1, LISTS] {
        all.push((format!("{LISTS} lists, bound {bound}, held at most"), bytes(&short(bound))));
        all.push((format!("{LISTS} lists, bound {bound}, broken by the last"), bytes(&late(bound))));
    }
    all
}
