//! Verdicts by plain enumeration over the unexpanded form.

use crate::expand;
use crate::machine::{Call, State};
use crate::read::read;
use crate::run;
use crate::tree::{Agreement, Row, Rule};
use crate::values::{value, View};

pub const BROKEN: u8 = 1;
pub const HELD: u8 = 2;
pub const SPENT: u8 = 3;

/// `verdict` is 0 on a refusal.
#[derive(Clone, Debug, Default, PartialEq, Eq)]
pub struct Verdict {
    pub refusal: u8,
    pub place: u32,
    pub verdict: u8,
    pub tried: u32,
    pub rows: Vec<u8>,
}

pub fn verdict(bytes: &[u8], rule: u32, lent: &mut [u32]) -> Verdict {
    let refused = |refusal, place| Verdict { refusal, place, ..Verdict::default() };
    let agreement = match read(bytes) {
        Ok(agreement) => agreement,
        Err(refusal) => return refused(refusal.number, refusal.place),
    };
    if rule as usize >= agreement.rules.len() {
        return refused(10, 0);
    }
    let table = expand::words(&expand::steps(&agreement));
    if lent.len() < table.len() {
        return refused(11, 0);
    }
    let answer = judge(&agreement, rule as usize);
    if answer.refusal == 0 {
        lent[..table.len()].copy_from_slice(&table);
    }
    answer
}

/// The verdict on a rule of an agreement already read; refusal 27 alone.
pub fn judge(agreement: &Agreement, rule: usize) -> Verdict {
    let start = run::start_read(agreement);
    if start.refusal != 0 {
        return Verdict { refusal: start.refusal, ..Verdict::default() };
    }
    let mut search = Search::new(agreement, &agreement.rules[rule]);
    let fresh = History::fresh(&agreement.rules[rule], start.state);
    for length in 0..=agreement.depth {
        search.lists(fresh, length);
        if search.finished {
            break;
        }
    }
    search.answer()
}

/// The row as a call.
pub fn row_call(row: &Row) -> Call {
    Call { name: row.name, sender: row.sender, coins: row.coins, arguments: row.arguments }
}

/// What a rule needs to know of the calls so far.
#[derive(Clone, Copy)]
pub struct History {
    pub state: State,
    pub q_seen: bool,
    pub broken: bool,
}

impl History {
    pub fn fresh(rule: &Rule, state: State) -> Self {
        let broken = matches!(rule, Rule::Always(e) if !holds(e, &state));
        History { state, q_seen: false, broken }
    }

    pub fn after(self, agreement: &Agreement, rule: &Rule, call: &Call) -> Self {
        let outcome = run::call_read(agreement, &self.state, call);
        if outcome.refusal != 0 {
            return self;
        }
        let (breaks, is_q) = match rule {
            Rule::Always(expression) => (!holds(expression, &outcome.state), false),
            Rule::NotAfter { p, q } => (call.name == *p && self.q_seen, call.name == *q),
            Rule::OnlyAfter { p, q } => (call.name == *p && !self.q_seen, call.name == *q),
        };
        History { state: outcome.state, q_seen: self.q_seen || is_q, broken: self.broken || breaks }
    }
}

/// A type 1 rule's expression in a state; a failure counts as false.
fn holds(expression: &crate::tree::Expression, state: &State) -> bool {
    let view = View {
        variables: &state.variables,
        locals: &[0; 8],
        arguments: &[0; 4],
        context: [0, 0, state.own, state.state],
    };
    !matches!(value(expression, &view), None | Some(0))
}

struct Search<'a> {
    agreement: &'a Agreement,
    rule: &'a Rule,
    calls: Vec<Call>,
    prefix: Vec<u8>,
    tried: u32,
    broken: bool,
    finished: bool,
}

impl<'a> Search<'a> {
    fn new(agreement: &'a Agreement, rule: &'a Rule) -> Self {
        let calls = agreement.rows.iter().map(row_call).collect();
        Search { agreement, rule, calls, prefix: Vec::new(), tried: 0, broken: false, finished: false }
    }

    /// Tries every list that adds `remaining` calls to the prefix.
    fn lists(&mut self, history: History, remaining: u8) {
        if remaining == 0 {
            return self.try_list(history);
        }
        for row in 0..self.calls.len() {
            self.prefix.push(row as u8);
            let after = history.after(self.agreement, self.rule, &self.calls[row]);
            self.lists(after, remaining - 1);
            if self.finished {
                return;
            }
            self.prefix.pop();
        }
    }

    fn try_list(&mut self, history: History) {
        self.tried += 1;
        self.broken = history.broken;
        self.finished = history.broken || self.tried == self.agreement.bound;
    }

    fn answer(self) -> Verdict {
        let verdict = if self.broken {
            BROKEN
        } else if lists_within(self.calls.len() as u64, self.agreement.depth) <= self.agreement.bound as u64 {
            HELD
        } else {
            SPENT
        };
        let rows = if self.broken { self.prefix } else { Vec::new() };
        Verdict { refusal: 0, place: 0, verdict, tried: self.tried, rows }
    }
}

/// The number of lists within the depth: at most 16^8 + ... + 1.
pub fn lists_within(rows: u64, depth: u8) -> u64 {
    (0..=depth as u32).map(|length| rows.pow(length)).sum()
}
