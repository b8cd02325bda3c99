//! How a verdict's search comes again to a position with as many rows left as before. This tells of a search and judges nothing.

use crate::machine::{Call, State};
use crate::run;
use crate::tree::{Agreement, Rule};
use crate::verdict::{lists_within, row_call, History};
use std::collections::HashSet;

/// A position counts if so many lists or more are below it.
const LEAST: u64 = 32;

#[derive(Clone, Debug, Default, PartialEq, Eq)]
pub struct Again {
    /// For each time that the search comes to a position again, how many lists are tried when it leaves it.
    pub ends: Vec<u32>,
    /// The bound falls among the lists below such a position.
    pub bound_inside: bool,
    /// The bound falls at the last list below such a position, and more lists come after it.
    pub bound_at_end: bool,
    /// A list breaks the rule later on.
    pub broken_after: bool,
}

/// Nothing is met again where the start is refused.
pub fn again(agreement: &Agreement, rule: usize) -> Again {
    let start = run::start_read(agreement);
    let mut walk = Walk::new(agreement, &agreement.rules[rule]);
    if start.refusal != 0 {
        return walk.met;
    }
    let fresh = History::fresh(walk.rule, start.state);
    for length in 0..=agreement.depth {
        walk.below(fresh, length);
        if walk.ended {
            break;
        }
    }
    walk.met
}

struct Walk<'a> {
    agreement: &'a Agreement,
    rule: &'a Rule,
    calls: Vec<Call>,
    positions: HashSet<(State, bool, u8)>,
    tried: u64,
    /// Whether the walk is below a position that it came to again.
    inside: bool,
    spent: bool,
    ended: bool,
    met: Again,
}

impl<'a> Walk<'a> {
    fn new(agreement: &'a Agreement, rule: &'a Rule) -> Self {
        let calls = agreement.rows.iter().map(row_call).collect();
        let (positions, met) = (HashSet::new(), Again::default());
        Walk { agreement, rule, calls, positions, tried: 0, inside: false, spent: false, ended: false, met }
    }

    /// Walks through the lists below a position. Below one that is met again all are, and only the first counts.
    fn below(&mut self, history: History, left: u8) {
        if left == 0 {
            return self.list(history);
        }
        let count = (self.calls.len() as u64).pow(left as u32);
        let known = !self.inside && count >= LEAST && !self.positions.insert((history.state, history.q_seen, left));
        if !known {
            return self.each_row(history, left);
        }
        let end = self.tried + count;
        self.inside = true;
        self.each_row(history, left);
        self.inside = false;
        self.met.ends.push(self.tried as u32);
        self.met.bound_inside |= self.spent && self.tried < end;
        self.met.bound_at_end |= self.spent && self.tried == end;
    }

    fn each_row(&mut self, history: History, left: u8) {
        for row in 0..self.calls.len() {
            self.below(history.after(self.agreement, self.rule, &self.calls[row]), left - 1);
            if self.ended {
                return;
            }
        }
    }

    fn list(&mut self, history: History) {
        self.tried += 1;
        let at_bound = self.tried == self.agreement.bound as u64;
        let all = lists_within(self.calls.len() as u64, self.agreement.depth);
        self.spent = !history.broken && at_bound && self.tried < all;
        self.ended = history.broken || at_bound;
        self.met.broken_after = history.broken && !self.met.ends.is_empty();
    }
}
