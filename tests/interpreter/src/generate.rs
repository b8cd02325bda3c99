//! Random agreements from a seed. The parts:
//! - `write`: the writer from tree to bytes, by way of loose records.
//! - `damage`: damaged files, aimed at refusals 1 to 8.
//! - `limits`: files at and just past every limit of the format.
//! - `worst`: the files that ask most of stack and time.
//! - `search`: verdicts that try many lists.
//! - `repeats`: verdicts whose search comes to the same position by many lists.
//! - `edges`: outcomes that one unit, list or byte more would change.
//! - `calls`: lists of calls, unfit records and lent words.

pub mod calls;
pub mod damage;
pub mod edges;
pub mod limits;
pub mod repeats;
pub mod search;
pub mod worst;
pub mod write;

use crate::random::Random;
use crate::read::read;
use crate::tree::*;
use ExpressionKind::{Argument, Binary, Constant, Context, Local, Not, Variable};

/// A random agreement that is accepted, as bytes.
pub fn file(seed: u64) -> Vec<u8> {
    let mut random = Random::new(seed);
    loop {
        let bytes = write::bytes(&agreement(&mut random));
        if read(&bytes).is_ok() {
            return bytes;
        }
    }
}

/// A random agreement; a large one may pass a limit of the format.
pub fn agreement(random: &mut Random) -> Agreement {
    let mut maker = Maker::new(random);
    let mut made = maker.frame();
    made.initial = maker.initial();
    made.fallback = maker.fallback();
    made.transitions = maker.transitions();
    let names: Vec<u8> = made.transitions.iter().map(|t| t.name).collect();
    made.rows = maker.rows(&names);
    made.rules = maker.rules(&names);
    made.depth = maker.depth(made.rows.len());
    made
}

/// An agreement with many lists and a bound of up to 1,000,000.
pub fn heavy(seed: u64) -> Vec<u8> {
    let mut random = Random::new(seed);
    loop {
        let mut made = agreement(&mut random);
        made.depth = random.between(5, 8) as u8;
        made.bound = random.pick(&[100_000, 999_999, 1_000_000]);
        made.limit = made.limit.min(60);
        let bytes = write::bytes(&made);
        if made.rows.len() >= 4 && !made.rules.is_empty() && read(&bytes).is_ok() {
            return bytes;
        }
    }
}

struct Maker<'a> {
    random: &'a mut Random,
    states: u8,
    variables: u8,
    accounts: u8,
    in_rule: bool,
    /// Most calls complete, so that rules break only after several of them.
    lively: bool,
    /// Statements still to be made freely; below zero only simple ones are.
    budget: i32,
    size: i32,
}

impl<'a> Maker<'a> {
    fn new(random: &'a mut Random) -> Self {
        let states = [random.between(1, 5), random.between(1, 64), 64][random.weighted(&[90, 8, 2])] as u8;
        let variables = [random.between(0, 4), random.between(0, 16)][random.weighted(&[85, 15])] as u8;
        let accounts = [random.between(1, 3), random.between(1, 8)][random.weighted(&[85, 15])] as u8;
        let size = random.pick(&[4, 4, 8, 8, 8, 16, 16, 60]);
        let lively = random.chance(40);
        Maker { random, states, variables, accounts, in_rule: false, lively, budget: 0, size }
    }

    /// The fields; the children are made later.
    fn frame(&mut self) -> Agreement {
        let start = self.state();
        let limit = self.limit();
        let bound = self.bound();
        let balances = self.balances();
        let nothing = Statement::from(StatementKind::Block(Vec::new()));
        Agreement {
            states: self.states,
            variables: self.variables,
            accounts: self.accounts,
            start,
            depth: 0,
            limit,
            bound,
            balances,
            initial: nothing.clone(),
            fallback: nothing,
            transitions: Vec::new(),
            rows: Vec::new(),
            rules: Vec::new(),
        }
    }

    fn limit(&mut self) -> u16 {
        let r = &mut *self.random;
        let choice = r.weighted(if self.lively { &[0, 60, 35, 5] } else { &[35, 40, 20, 5] });
        [r.between(1, 8), r.between(9, 40), r.between(41, 300), r.between(301, 4096)][choice] as u16
    }

    fn bound(&mut self) -> u32 {
        let r = &mut *self.random;
        let choice = r.weighted(&[40, 40, 18, 2]);
        [r.between(1, 20), r.between(20, 300), r.between(300, 2000), r.between(1, 1_000_000)][choice]
    }

    fn balances(&mut self) -> Vec<u32> {
        let largest = if self.random.chance(90) { 12 } else { u32::MAX / 8 };
        (0..self.accounts).map(|_| self.random.between(0, largest)).collect()
    }

    /// Few lists mostly, so that verdicts stay quick.
    fn depth(&mut self, rows: usize) -> u8 {
        let most = match rows {
            0 | 1 => 8,
            2 => 6,
            3 | 4 => 4,
            _ => 3,
        };
        let least = if self.lively { most.min(3) } else { 0 };
        if self.random.chance(3) { 8 } else { self.random.between(least, most) as u8 }
    }

    fn state(&mut self) -> u8 {
        self.random.below(self.states as u32) as u8
    }

    /// Mostly a few sets; else anything, so that refusal 27 occurs.
    fn initial(&mut self) -> Statement {
        self.budget = self.size;
        match self.random.weighted(&[60, 28, 12]) {
            0 => self.plain_set(),
            1 => {
                let count = self.random.between(1, 4);
                StatementKind::Block((0..count).map(|_| self.plain_set()).collect()).into()
            }
            _ => self.statement(3),
        }
    }

    fn fallback(&mut self) -> Statement {
        self.budget = self.size;
        if self.random.chance(20) {
            return StatementKind::Require(constant(0)).into();
        }
        self.statement(3)
    }

    fn transitions(&mut self) -> Vec<Transition> {
        if self.lively && self.states < 6 {
            return self.dense_transitions();
        }
        let count = [self.random.between(0, 8), self.random.between(0, 64)][self.random.weighted(&[92, 8])];
        let names = self.random.pick(&[1, 2, 3, 5, 256]);
        let mut made: Vec<Transition> = Vec::new();
        for _ in 0..count {
            let name = self.random.below(names) as u8;
            let from = self.state();
            if !made.iter().any(|t| t.name == name && t.from == from) {
                made.push(self.transition(name, from));
            }
        }
        made
    }

    /// Most names from most states.
    fn dense_transitions(&mut self) -> Vec<Transition> {
        let names = self.random.between(2, 4) as u8;
        let mut made = Vec::new();
        for from in 0..self.states {
            for name in 0..names {
                if self.random.chance(75) {
                    made.push(self.transition(name, from));
                }
            }
        }
        made
    }

    fn transition(&mut self, name: u8, from: u8) -> Transition {
        self.budget = self.size;
        let guard = match self.random.weighted(if self.lively { &[70, 27, 3] } else { &[45, 40, 15] }) {
            0 => constant(1),
            1 => self.condition(),
            _ => self.expression(4),
        };
        Transition { at: 0, name, from, to: self.state(), guard, action: self.action() }
    }

    fn action(&mut self) -> Statement {
        if self.lively && self.random.chance(50) {
            return count_up(self.target());
        }
        let depth = self.random.pick(&[0, 2, 3, 4, 6]);
        self.statement(depth)
    }

    fn rows(&mut self, names: &[u8]) -> Vec<Row> {
        let fewest = if self.lively { 2 } else { 0 };
        let count = [self.random.between(fewest, 4), self.random.between(0, 16)][self.random.weighted(&[90, 10])];
        (0..count).map(|_| self.row(names)).collect()
    }

    fn row(&mut self, names: &[u8]) -> Row {
        let name = if names.is_empty() || self.random.chance(12) {
            self.random.below(256) as u8
        } else {
            self.random.pick(names)
        };
        let most_coins = if self.lively { 3 } else { 8 };
        let coins = if self.random.chance(50) { 0 } else { self.random.below(most_coins) };
        let arguments = [0; 4].map(|_: u32| self.number());
        Row { name, sender: self.random.below(self.accounts as u32) as u8, coins, arguments }
    }

    fn rules(&mut self, names: &[u8]) -> Vec<Rule> {
        let count = [self.random.between(0, 4), self.random.between(0, 8)][self.random.weighted(&[90, 10])];
        (0..count).map(|_| self.rule(names)).collect()
    }

    fn rule(&mut self, names: &[u8]) -> Rule {
        if names.is_empty() || self.random.chance(50) {
            return Rule::Always(self.rule_expression());
        }
        let p = self.random.pick(names);
        let q = if self.random.chance(20) { p } else { self.random.pick(names) };
        if self.random.chance(50) { Rule::NotAfter { p, q } } else { Rule::OnlyAfter { p, q } }
    }

    /// Mostly a bound that only some lists of calls pass.
    fn rule_expression(&mut self) -> Expression {
        self.in_rule = true;
        let made = match self.random.weighted(&[60, 20, 20]) {
            0 => {
                let own_or_state = Context(self.random.between(2, 3) as u16).into();
                let left = if self.random.chance(40) { own_or_state } else { self.leaf() };
                binary(self.random.pick(&[6, 7, 8]), left, constant(self.random.between(1, 5)))
            }
            1 => self.condition(),
            _ => self.expression(4),
        };
        self.in_rule = false;
        made
    }

    /// Small mostly, and sometimes near the end of 32 bits.
    fn number(&mut self) -> u32 {
        let large = [u32::MAX, u32::MAX - 1, 1 << 31, 65_536, 65_535, 256];
        if self.random.chance(92) { self.random.below(5) } else { self.random.pick(&large) }
    }

    fn target(&mut self) -> u16 {
        if self.variables > 0 && self.random.chance(65) {
            self.random.below(self.variables as u32) as u16
        } else {
            FIRST_LOCAL + self.random.pick(&[0, 0, 0, 1, 1, 2, 7])
        }
    }

    fn leaf(&mut self) -> Expression {
        match self.random.weighted(&[35, 30, 12, 12, 11]) {
            1 if self.variables > 0 => Variable(self.random.below(self.variables as u32) as u16).into(),
            2 if !self.in_rule => Local(self.random.pick(&[0, 0, 0, 1, 1, 2, 7])).into(),
            3 if !self.in_rule => Argument(self.random.below(4) as u16).into(),
            4 => {
                let lowest = if self.in_rule { 2 } else { 0 };
                Context(self.random.between(lowest, 3) as u16).into()
            }
            _ => Constant(self.number()).into(),
        }
    }

    fn expression(&mut self, depth: u32) -> Expression {
        if depth == 0 || self.random.chance(35) {
            return self.leaf();
        }
        if self.random.chance(12) {
            return Not(Box::new(self.expression(depth - 1))).into();
        }
        let operator = self.random.below(11) as u16;
        binary(operator, self.expression(depth - 1), self.expression(depth - 1))
    }

    /// A comparison that seldom fails.
    fn condition(&mut self) -> Expression {
        let operator = self.random.between(5, 8) as u16;
        let left = self.leaf();
        let right = if self.random.chance(70) { constant(self.random.below(6)) } else { self.leaf() };
        binary(operator, left, right)
    }

    /// A value that seldom fails.
    fn plain(&mut self) -> Expression {
        let left = self.leaf();
        if self.random.chance(50) {
            return left;
        }
        let operator = self.random.pick(&[0, 0, 0, 0, 2, 2, 1, 3, 4]);
        binary(operator, left, constant(self.random.between(1, 3)))
    }

    fn plain_set(&mut self) -> Statement {
        StatementKind::Set(self.target(), self.plain()).into()
    }

    fn simple(&mut self) -> Statement {
        match self.random.weighted(&[40, 12, 20, 10, 18]) {
            0 => self.plain_set(),
            1 => StatementKind::Set(self.target(), self.expression(4)).into(),
            2 => self.transfer(),
            3 if self.random.chance(80) => StatementKind::Require(self.condition()).into(),
            3 => StatementKind::Require(self.expression(4)).into(),
            _ => StatementKind::Return(self.plain()).into(),
        }
    }

    fn transfer(&mut self) -> Statement {
        let account = match self.random.weighted(&[70, 20, 10]) {
            0 => constant(self.random.below(self.accounts as u32)),
            1 => Context(0).into(),
            _ => self.leaf(),
        };
        let amount = match self.random.weighted(&[40, 25, 15, 20]) {
            0 => constant(self.random.below(3)),
            1 => Context(1).into(),
            2 => Context(2).into(),
            _ => self.leaf(),
        };
        StatementKind::Transfer(account, amount).into()
    }

    fn statement(&mut self, depth: u32) -> Statement {
        self.budget -= 1;
        if depth == 0 || self.budget < 0 {
            return self.simple();
        }
        let below = depth - 1;
        match self.random.weighted(&[20, 35, 10, 12, 11, 12]) {
            0 => self.simple(),
            1 => {
                let count = self.random.between(1, 4);
                StatementKind::Block((0..count).map(|_| self.statement(below)).collect()).into()
            }
            2 => StatementKind::If(self.condition(), Box::new(self.statement(below))).into(),
            3 => {
                let condition = self.condition();
                let yes = Box::new(self.statement(below));
                StatementKind::IfElse(condition, yes, Box::new(self.statement(below))).into()
            }
            4 => self.while_loop(below),
            _ => self.for_loop(below),
        }
    }

    /// Mostly a loop that counts a target up; else anything.
    fn while_loop(&mut self, below: u32) -> Statement {
        if self.random.chance(25) {
            return StatementKind::While(self.condition(), Box::new(self.statement(below))).into();
        }
        let target = self.target();
        let condition = binary(7, read_target(target), constant(self.random.below(4)));
        let mut list = vec![self.statement(below.saturating_sub(1)), count_up(target)];
        if self.random.chance(50) {
            list.swap(0, 1);
        }
        StatementKind::While(condition, Box::new(StatementKind::Block(list).into())).into()
    }

    fn for_loop(&mut self, below: u32) -> Statement {
        let target = self.target();
        let usual = self.random.chance(80);
        let parts = ForParts {
            first: if usual { StatementKind::Set(target, constant(0)).into() } else { self.plain_set() },
            condition: if usual {
                binary(7, read_target(target), constant(self.random.below(4)))
            } else {
                self.condition()
            },
            closing: if usual { count_up(target) } else { self.plain_set() },
            body: self.statement(below),
        };
        StatementKind::For(Box::new(parts)).into()
    }
}

pub fn constant(number: u32) -> Expression {
    Constant(number).into()
}

pub fn binary(operator: u16, left: Expression, right: Expression) -> Expression {
    Binary(operator, Box::new(left), Box::new(right)).into()
}

fn read_target(target: u16) -> Expression {
    if target >= FIRST_LOCAL { Local(target - FIRST_LOCAL).into() } else { Variable(target).into() }
}

pub fn count_up(target: u16) -> Statement {
    StatementKind::Set(target, binary(0, read_target(target), constant(1))).into()
}

/// The counter agreement of document 01, 176 bytes.
pub fn counter() -> Agreement {
    let small = || binary(7, Variable(0).into(), constant(2));
    let action = StatementKind::While(small(), Box::new(count_up(0)));
    let only = Transition { at: 0, name: 1, from: 0, to: 1, guard: constant(1), action: action.into() };
    Agreement {
        states: 2,
        variables: 1,
        accounts: 1,
        start: 0,
        depth: 2,
        limit: 6,
        bound: 10,
        balances: vec![5],
        initial: StatementKind::Set(0, constant(0)).into(),
        fallback: StatementKind::Require(constant(0)).into(),
        transitions: vec![only],
        rows: vec![Row { name: 1, sender: 0, coins: 0, arguments: [0; 4] }],
        rules: vec![Rule::Always(small()), Rule::NotAfter { p: 1, q: 1 }],
    }
}
