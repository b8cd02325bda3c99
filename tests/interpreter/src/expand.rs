//! The expanded form: the table of steps (Algorithm 2).

use crate::read::read;
use crate::tree::*;

#[derive(Clone, Copy, Debug, PartialEq, Eq)]
pub struct Step {
    pub origin: u32,
    pub target: u32,
    pub kind: u32,
    pub name: u32,
    pub at: u32,
}

pub const GUARD: u32 = 1;
pub const CONDITION_TRUE: u32 = 2;
pub const CONDITION_FALSE: u32 = 3;
pub const SET: u32 = 4;
pub const TRANSFER: u32 = 5;
pub const REQUIRE: u32 = 6;
pub const RETURN: u32 = 7;

pub fn steps(agreement: &Agreement) -> Vec<Step> {
    let states = agreement.states as u32;
    let start = agreement.start as u32;
    let mut table = Table { next: states + 3, steps: Vec::new() };
    table.statement(&agreement.initial, states + 2, start, start);
    table.statement(&agreement.fallback, states + 1, states, states);
    for transition in &agreement.transitions {
        table.transition(transition);
    }
    table.steps
}

/// The steps as words, five each.
pub fn words(steps: &[Step]) -> Vec<u32> {
    steps.iter().flat_map(|s| [s.origin, s.target, s.kind, s.name, s.at]).collect()
}

/// Writes the steps to the lent words; gives their count, or number and place.
pub fn expand(bytes: &[u8], lent: &mut [u32]) -> Result<u32, (u8, u32)> {
    let agreement = read(bytes).map_err(|r| (r.number, r.place))?;
    let table = words(&steps(&agreement));
    if lent.len() < table.len() {
        return Err((11, 0));
    }
    lent[..table.len()].copy_from_slice(&table);
    Ok(table.len() as u32 / 5)
}

struct Table {
    next: u32,
    steps: Vec<Step>,
}

impl Table {
    fn node(&mut self) -> u32 {
        self.next += 1;
        self.next - 1
    }

    fn step(&mut self, origin: u32, target: u32, kind: u32, at: u32) {
        self.steps.push(Step { origin, target, kind, name: 0, at });
    }

    fn transition(&mut self, transition: &Transition) {
        let g = self.node();
        let to = transition.to as u32;
        self.steps.push(Step {
            origin: transition.from as u32,
            target: g,
            kind: GUARD,
            name: transition.name as u32,
            at: transition.guard.at,
        });
        self.statement(&transition.action, g, to, to);
    }

    /// Expands a statement from o to d with return node r.
    fn statement(&mut self, statement: &Statement, o: u32, d: u32, r: u32) {
        let at = statement.at;
        match &statement.kind {
            StatementKind::Set(..) => self.step(o, d, SET, at),
            StatementKind::Transfer(..) => self.step(o, d, TRANSFER, at),
            StatementKind::Require(_) => self.step(o, d, REQUIRE, at),
            StatementKind::Return(_) => self.step(o, r, RETURN, at),
            StatementKind::Block(list) => self.block(list, o, d, r),
            StatementKind::If(condition, body) => {
                let y = self.node();
                self.condition(condition, o, y, d);
                self.statement(body, y, d, r);
            }
            StatementKind::IfElse(condition, yes, no) => {
                let y = self.node();
                let n = self.node();
                self.condition(condition, o, y, n);
                self.statement(yes, y, d, r);
                self.statement(no, n, d, r);
            }
            StatementKind::While(condition, body) => {
                let y = self.node();
                self.condition(condition, o, y, d);
                self.statement(body, y, o, r);
            }
            StatementKind::For(parts) => self.for_loop(parts, o, d, r),
        }
    }

    fn condition(&mut self, condition: &Expression, o: u32, yes: u32, no: u32) {
        self.step(o, yes, CONDITION_TRUE, condition.at);
        self.step(o, no, CONDITION_FALSE, condition.at);
    }

    fn block(&mut self, list: &[Statement], o: u32, d: u32, r: u32) {
        let mut nodes = vec![o];
        for _ in 1..list.len() {
            nodes.push(self.node());
        }
        nodes.push(d);
        for (i, statement) in list.iter().enumerate() {
            self.statement(statement, nodes[i], nodes[i + 1], r);
        }
    }

    fn for_loop(&mut self, parts: &ForParts, o: u32, d: u32, r: u32) {
        let a = self.node();
        let b = self.node();
        let c = self.node();
        self.statement(&parts.first, o, a, r);
        self.condition(&parts.condition, a, b, d);
        self.statement(&parts.body, b, c, r);
        self.statement(&parts.closing, c, a, r);
    }
}
