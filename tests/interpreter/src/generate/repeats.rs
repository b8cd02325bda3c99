//! Agreements whose calls lead to few positions, so that a search comes to the same one by many lists, and to pairs that differ
//! in a marker alone: in a variable, two exchanged variables, the own balance, the state, two balances, or whether q completed.
//! The marker decides whether a late call completes or breaks the rule. Bounds fall all over the lists, many at the ends of
//! the lists below a position.

use super::write::bytes;
use super::{binary, constant, read_target};
use crate::again::again;
use crate::random::Random;
use crate::tree::*;
use crate::verdict::{judge, lists_within};
use ExpressionKind::{Argument, Context};

/// Rows, depth and how often.
const SIZES: [(u8, u8, u32); 19] = [
    (2, 8, 6),
    (3, 6, 4),
    (3, 7, 10),
    (3, 8, 14),
    (4, 5, 6),
    (4, 6, 14),
    (4, 7, 12),
    (5, 4, 4),
    (5, 5, 12),
    (5, 6, 8),
    (6, 4, 4),
    (6, 5, 8),
    (6, 6, 1),
    (8, 4, 6),
    (8, 5, 1),
    (12, 3, 3),
    (12, 4, 3),
    (16, 3, 4),
    (16, 4, 1),
];
/// The name of a transition that no row bears, and one that no transition bears.
const NEVER: u8 = 254;
const UNKNOWN: u8 = 255;

/// What differs in a marked position, and nothing else.
#[derive(Clone, Copy, PartialEq)]
enum Marker {
    Variable,
    /// Two variables with their values exchanged.
    Exchanged,
    /// The own balance and the sender's.
    Own,
    State,
    /// Two balances.
    Balances,
    /// Whether q completed.
    Seen,
}

/// With how often; the first four can be seen in a rule's expression.
const MARKERS: [(Marker, u32); 6] = [
    (Marker::Variable, 3),
    (Marker::Exchanged, 2),
    (Marker::Own, 4),
    (Marker::State, 3),
    (Marker::Balances, 4),
    (Marker::Seen, 3),
];

/// An agreement as bytes; it is accepted, and its start completes.
pub fn file(random: &mut Random) -> Vec<u8> {
    let (rows, depth) = size(random);
    let mut maker = Maker::new(random, rows, depth);
    let names = maker.late_calls();
    maker.made.rows.truncate(rows as usize);
    while maker.made.rows.len() < rows as usize {
        maker.other_call();
    }
    maker.order_rows(&names);
    maker.rules(names);
    maker.made.bound = maker.bound();
    bytes(&maker.made)
}

fn size(random: &mut Random) -> (u8, u8) {
    let (rows, depth, _) = SIZES[random.weighted(&SIZES.map(|(_, _, weight)| weight))];
    (rows, depth)
}

/// The calls that the first rule is about.
struct Names {
    mark: u8,
    work: u8,
    goal: u8,
}

/// A call: its transitions, of a name of its own, and its row.
struct Entry {
    guard: Expression,
    action: Statement,
    /// Every state where there is none; the state stays where there is no `to`.
    from: Option<u8>,
    to: Option<u8>,
    sender: u8,
    coins: u32,
    argument: u32,
}

impl Entry {
    fn new(guard: Expression, action: Statement) -> Self {
        Entry { guard, action, from: None, to: None, sender: 0, coins: 0, argument: 0 }
    }
}

struct Maker<'a> {
    random: &'a mut Random,
    made: Agreement,
    next_name: u8,
    marker: Marker,
    /// The goal wants a marked position, or one that is not.
    wanted: bool,
    /// The variables of work and goal, the marker's two, and another, all different.
    variables: [u16; 5],
    /// How much work the goal wants.
    enough: u32,
    /// What a marked variable holds, and the coins of one payment.
    value: u32,
    coins: u32,
    /// Two accounts, of a marker that moves coins.
    giver: u8,
    taker: u8,
}

impl<'a> Maker<'a> {
    fn new(random: &'a mut Random, rows: u8, depth: u8) -> Self {
        let among = if rows > 2 { &MARKERS[..] } else { &MARKERS[..4] };
        let weights: Vec<u32> = among.iter().map(|(_, weight)| *weight).collect();
        let (marker, _) = among[random.weighted(&weights)];
        let count = random.pick(&[5, 6, 16, 16, 16]);
        let coins = random.pick(&[1, 1, 1, 1, 256, 65_536, 1 << 24]);
        let value = random.pick(&[1, 1, 2, 256, 65_536, 1 << 31, u32::MAX]);
        let made = frame(random, depth, count, coins);
        let variables = different(random, count);
        let enough = (depth as u32).saturating_sub(random.weighted(&[1, 4, 4, 2, 1]) as u32).max(1);
        let wanted = random.chance(60);
        let [giver, taker] = two_accounts(random, made.accounts);
        Maker { random, made, next_name: 0, marker, wanted, variables, enough, value, coins, giver, taker }
    }

    /// Adds a call: a transition from each of its states, and a row.
    fn add(&mut self, entry: Entry) -> u8 {
        let name = self.next_name;
        self.next_name += 1;
        for from in (0..self.made.states).filter(|state| entry.from.is_none_or(|only| only == *state)) {
            let (guard, action) = (entry.guard.clone(), entry.action.clone());
            self.made.transitions.push(Transition { at: 0, name, from, to: entry.to.unwrap_or(from), guard, action });
        }
        let Entry { sender, coins, argument, .. } = entry;
        self.made.rows.push(Row { name, sender, coins, arguments: [argument, 0, 0, 0] });
        name
    }

    /// The call that marks, the one that works, and the one that then reaches the goal, in this order.
    fn late_calls(&mut self) -> Names {
        self.initial();
        let mark = self.mark();
        let work = self.work();
        let goal = self.goal();
        Names { mark, work, goal }
    }

    fn initial(&mut self) {
        if self.marker == Marker::Exchanged {
            self.made.initial = set(self.variables[2], constant(self.value));
        }
    }

    /// One more, which is refused or begins anew where it is enough.
    fn one_more(&mut self) -> (Expression, Statement) {
        let [work, ..] = self.variables;
        let more = binary(0, read_target(work), constant(1));
        if self.random.chance(70) {
            return (binary(7, read_target(work), constant(self.enough)), set(work, more));
        }
        (constant(1), set(work, binary(4, more, constant(self.enough + 1))))
    }

    fn work(&mut self) -> u8 {
        let (guard, action) = self.one_more();
        self.add(Entry::new(guard, action))
    }

    /// Marks the position, mostly before much work is done, so that many lists are below it. Often it works too, so that it
    /// differs from work in the marker alone.
    fn mark(&mut self) -> u8 {
        let (mut guard, action) = if self.random.chance(60) { self.one_more() } else { (constant(1), idle()) };
        if self.random.chance(80) {
            guard = binary(7, read_target(self.variables[0]), constant(self.random.between(1, 2)));
        }
        let mut list = vec![action];
        list.extend(self.marking());
        let mut entry = Entry::new(guard, block(list));
        match self.marker {
            Marker::Own | Marker::Balances => (entry.sender, entry.coins) = (self.giver, self.coins),
            Marker::State => (entry.from, entry.to) = (Some(0), Some(1)),
            _ => {}
        }
        self.add(entry)
    }

    /// What a call does to mark, besides paying coins and going to a state.
    fn marking(&mut self) -> Vec<Statement> {
        let [_, _, one, other, _] = self.variables;
        match self.marker {
            Marker::Variable => vec![set(one, constant(self.value))],
            Marker::Exchanged => exchange(one, other),
            Marker::Balances => vec![transfer(constant(self.taker as u32), Context(1).into())],
            _ => Vec::new(),
        }
    }

    /// Completes where the work is enough and the marker is as wanted.
    fn goal(&mut self) -> u8 {
        let mut entry = Entry::new(self.worked_as_wanted(), set(self.variables[1], constant(1)));
        match self.marker {
            Marker::State if self.random.chance(50) => entry.from = Some(self.wanted as u8),
            Marker::Balances => self.wants_balance(&mut entry),
            _ => {}
        }
        self.add(entry)
    }

    /// The work is enough and the marker as wanted, as far as an expression can see it.
    fn worked_as_wanted(&self) -> Expression {
        let [work, _, one, other, _] = self.variables;
        let worked = binary(5, read_target(work), constant(self.enough));
        let equal = if self.wanted { 5 } else { 6 };
        let marked = match self.marker {
            Marker::Variable => binary(equal, read_target(one), constant(self.value)),
            Marker::Exchanged => binary(equal, read_target(other), constant(self.value)),
            Marker::Own if self.wanted => binary(8, constant(self.coins), Context(2).into()),
            Marker::Own => binary(7, Context(2).into(), constant(self.coins)),
            Marker::State => binary(equal, Context(3).into(), constant(1)),
            Marker::Balances | Marker::Seen => constant(1),
        };
        binary(9, worked, marked)
    }

    /// The sender must have more than at the opening, or as much; what it pays it is paid back.
    fn wants_balance(&mut self, entry: &mut Entry) {
        entry.sender = if self.wanted { self.taker } else { self.giver };
        let opening = self.made.balances[entry.sender as usize];
        entry.coins = if self.wanted { opening + self.coins } else { opening };
        let back = transfer(Context(0).into(), Context(1).into());
        entry.action = block(vec![back, entry.action.clone()]);
    }

    /// A call that changes little or nothing.
    fn other_call(&mut self) {
        match self.random.below(12) {
            0 | 1 => self.repeated_row(),
            2 => self.unknown_name(),
            3 | 4 => self.refused(),
            5..=8 => self.on_variable(),
            _ => self.on_coins_or_state(),
        }
    }

    fn repeated_row(&mut self) {
        let row = self.random.below(self.made.rows.len() as u32) as usize;
        self.made.rows.push(self.made.rows[row].clone());
    }

    fn unknown_name(&mut self) {
        self.made.rows.push(Row { name: UNKNOWN, sender: 0, coins: 0, arguments: [0; 4] });
    }

    fn refused(&mut self) {
        let [work, ..] = self.variables;
        let more = set(work, binary(0, read_target(work), constant(1)));
        let (guard, action) = match self.random.below(4) {
            0 => (constant(0), more),
            1 => (constant(1), block(vec![more, StatementKind::Require(constant(0)).into()])),
            2 => (constant(1), StatementKind::While(constant(1), Box::new(more)).into()),
            _ => (constant(1), block(vec![more, transfer(constant(8), constant(0))])),
        };
        self.add(Entry::new(guard, action));
    }

    /// Sets a variable to one of few values.
    fn on_variable(&mut self) {
        let target = self.random.pick(&self.variables);
        let few = self.random.between(2, 4);
        let more = binary(0, read_target(target), constant(1));
        let (guard, value) = match self.random.below(5) {
            0 => (constant(1), constant(0)),
            1 => (constant(1), Argument(0).into()),
            2 => (binary(7, read_target(target), constant(few)), more),
            _ => (constant(1), binary(4, more, constant(few))),
        };
        let argument = self.random.below(3);
        self.add(Entry { argument, ..Entry::new(guard, set(target, value)) });
    }

    /// Moves coins or goes on to another state.
    fn on_coins_or_state(&mut self) {
        let accounts = self.made.accounts as u32;
        let (sender, account) = (self.random.below(accounts) as u8, constant(self.random.below(accounts)));
        let mut entry = Entry { sender, ..Entry::new(constant(1), idle()) };
        match self.random.below(5) {
            0 => entry.coins = self.coins,
            1 => entry.action = transfer(account, constant(self.coins)),
            2 => entry.action = transfer(account, Context(2).into()),
            3 => (entry.coins, entry.action) = (self.coins, transfer(account, Context(1).into())),
            _ => entry.to = Some(self.random.below(self.made.states as u32) as u8),
        }
        self.add(entry);
    }

    /// Any order; but mostly work and mark stand so that the position that is not wanted is met before the one that is.
    fn order_rows(&mut self, names: &Names) {
        shuffle(self.random, &mut self.made.rows);
        let (first, second) = if self.wanted { (names.work, names.mark) } else { (names.mark, names.work) };
        let at = |name| self.made.rows.iter().position(|row| row.name == name).expect("work and mark have rows");
        let (first, second) = (at(first), at(second));
        if first > second && self.random.chance(75) {
            self.made.rows.swap(first, second);
        }
    }

    /// The rule that the goal breaks, and often another.
    fn rules(&mut self, names: Names) {
        let (p, q) = (names.goal, names.mark);
        let first = match self.random.below(5) {
            _ if self.marker == Marker::Seen && self.wanted => Rule::NotAfter { p, q },
            _ if self.marker == Marker::Seen => Rule::OnlyAfter { p, q },
            _ if self.made.rows.len() == 2 => never(self.worked_as_wanted()),
            0 => Rule::OnlyAfter { p, q: NEVER },
            1 => Rule::NotAfter { p, q: names.work },
            2 if self.marker != Marker::Balances => never(self.worked_as_wanted()),
            _ => never(read_target(self.variables[1])),
        };
        self.made.rules.push(first);
        if self.random.chance(60) {
            let second = self.second_rule(names);
            self.made.rules.push(second);
        }
    }

    fn second_rule(&mut self, names: Names) -> Rule {
        let few = constant(self.random.between(1, 3));
        let p = self.random.pick(&[names.mark, names.work, names.goal]);
        match self.random.below(5) {
            0 => Rule::Always(constant(1)),
            1 => Rule::Always(binary(8, read_target(self.random.pick(&self.variables)), few)),
            2 => Rule::Always(binary(8, Context(2).into(), constant(self.coins * 2))),
            3 => Rule::NotAfter { p, q: names.goal },
            _ => Rule::OnlyAfter { p: names.goal, q: p },
        }
    }

    /// Before, at or after the end of the lists below a position that the first rule's search meets again, any number, at or
    /// beside what its verdict tries, or all lists.
    fn bound(&mut self) -> u32 {
        let all = lists_within(self.made.rows.len() as u64, self.made.depth) as u32;
        let near = self.random.below(3);
        let bound = match self.random.weighted(&[40, 10, 10, 40]) {
            0 => (self.end_met_again().unwrap_or(all) + near).saturating_sub(1 + self.random.pick(&[0, 0, 0, 5, 40])),
            1 => self.random.between(1, all),
            2 => judge(&self.made, 0).tried + near - 1,
            _ => self.random.pick(&[all - 1, all, all + 1, 1_000_000]),
        };
        bound.max(1)
    }

    /// How many lists are tried when the search leaves some position that it came to again.
    fn end_met_again(&mut self) -> Option<u32> {
        let ends = again(&self.made, 0).ends;
        if ends.is_empty() { None } else { Some(self.random.pick(&ends)) }
    }
}

/// The fields, an initial action and a fallback; no calls yet but one that no row makes.
fn frame(random: &mut Random, depth: u8, variables: u8, coins: u32) -> Agreement {
    let accounts = random.pick(&[2, 2, 3, 8, 8]);
    let refused = StatementKind::Require(constant(0)).into();
    let never = Transition { at: 0, name: NEVER, from: 0, to: 0, guard: constant(1), action: idle() };
    Agreement {
        states: random.between(2, 3) as u8,
        variables,
        accounts,
        start: 0,
        depth,
        limit: random.between(12, 40) as u16,
        bound: 1_000_000,
        balances: (0..accounts).map(|_| coins * random.between(1, 3)).collect(),
        initial: idle(),
        fallback: if random.chance(50) { idle() } else { refused },
        transitions: vec![never],
        rows: Vec::new(),
        rules: Vec::new(),
    }
}

/// Five different variables; the marker's is often the last that there is.
fn different(random: &mut Random, count: u8) -> [u16; 5] {
    let mut all: Vec<u16> = (0..count as u16).collect();
    if random.chance(40) {
        let last = all.pop().expect("there are variables");
        shuffle(random, &mut all);
        all.insert(2, last);
    } else {
        shuffle(random, &mut all);
    }
    [all[0], all[1], all[2], all[3], all[4]]
}

/// Two different accounts, often the last two.
fn two_accounts(random: &mut Random, accounts: u8) -> [u8; 2] {
    let one = if random.chance(40) { accounts - 1 } else { random.below(accounts as u32) as u8 };
    let apart = if random.chance(50) { 1 } else { random.between(1, accounts as u32 - 1) as u8 };
    let other = (one + accounts - apart) % accounts;
    if random.chance(50) { [one, other] } else { [other, one] }
}

fn shuffle<T>(random: &mut Random, list: &mut [T]) {
    for i in (1..list.len()).rev() {
        list.swap(i, random.below(i as u32 + 1) as usize);
    }
}

/// The expression is false always.
fn never(expression: Expression) -> Rule {
    Rule::Always(ExpressionKind::Not(Box::new(expression)).into())
}

/// Completes and changes nothing.
fn idle() -> Statement {
    set(FIRST_LOCAL, constant(1))
}

fn set(target: u16, value: Expression) -> Statement {
    StatementKind::Set(target, value).into()
}

fn transfer(account: Expression, amount: Expression) -> Statement {
    StatementKind::Transfer(account, amount).into()
}

fn block(list: Vec<Statement>) -> Statement {
    StatementKind::Block(list).into()
}

fn exchange(one: u16, other: u16) -> Vec<Statement> {
    let kept = FIRST_LOCAL;
    vec![set(kept, read_target(one)), set(one, read_target(other)), set(other, read_target(kept))]
}
