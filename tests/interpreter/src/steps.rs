//! Start and call on the expanded form, executed from the lent words.
//!
//! Decision where document 01 leaves room: only the words of this file's own
//! steps are read; spare lent words never count as steps.

use crate::expand::{self, CONDITION_FALSE, CONDITION_TRUE, GUARD, REQUIRE, SET, TRANSFER};
use crate::machine::{Call, Machine, Outcome, State, Stop};
use crate::read::{expression_at, read, set_at, transfer_at};
use crate::tree::Agreement;

pub fn start(bytes: &[u8], lent: &[u32]) -> Outcome {
    let refused = |number, place| Outcome::refused(number, place, State::default());
    let agreement = match read(bytes) {
        Ok(agreement) => agreement,
        Err(refusal) => return refused(refusal.number, refusal.place),
    };
    match Form::new(bytes, &agreement, lent) {
        Ok(form) => form.start(&agreement),
        Err(number) => refused(number, 0),
    }
}

pub fn call(bytes: &[u8], lent: &[u32], state: &State, call: &Call) -> Outcome {
    let agreement = match read(bytes) {
        Ok(agreement) => agreement,
        Err(refusal) => return Outcome::refused(refusal.number, refusal.place, *state),
    };
    if call.sender >= agreement.accounts {
        return Outcome::refused(9, 0, *state);
    }
    match Form::new(bytes, &agreement, lent) {
        Ok(form) => form.call(&agreement, state, call),
        Err(number) => Outcome::refused(number, 0, *state),
    }
}

/// Where a call begins.
enum Entry {
    Guard(usize),
    Node(u32),
}

/// The expanded form. Of the agreement only fields are used below.
struct Form<'a> {
    bytes: &'a [u8],
    states: u32,
    words: &'a [u32],
}

impl<'a> Form<'a> {
    /// Refusals 11 and 12.
    fn new(bytes: &'a [u8], agreement: &Agreement, lent: &'a [u32]) -> Result<Self, u8> {
        let table = expand::words(&expand::steps(agreement));
        if lent.len() < table.len() {
            return Err(11);
        }
        if lent[..table.len()] != table[..] {
            return Err(12);
        }
        Ok(Form { bytes, states: agreement.states as u32, words: &lent[..table.len()] })
    }

    fn start(&self, agreement: &Agreement) -> Outcome {
        let mut machine = Machine::new(agreement, State::opening(agreement), Call::default());
        let end = self.walk(&mut machine, self.states + 2);
        machine.started(end)
    }

    fn call(&self, agreement: &Agreement, state: &State, call: &Call) -> Outcome {
        if !state.fit(agreement) {
            return Outcome::refused(20, 0, *state);
        }
        if state.balances[call.sender as usize] < call.coins {
            return Outcome::refused(21, 0, *state);
        }
        let Some(entry) = self.entry(state.state, call.name) else {
            return Outcome::refused(22, 0, *state);
        };
        let mut machine = Machine::new(agreement, *state, *call);
        machine.pay();
        let end = self.carry_out(&mut machine, entry);
        machine.called(end)
    }

    /// None where the name is known, but not from here.
    fn entry(&self, state: u32, name: u8) -> Option<Entry> {
        let mut known = false;
        for (i, step) in self.words.chunks_exact(5).enumerate() {
            if step[2] == GUARD && step[3] == name as u32 {
                known = true;
                if step[0] == state {
                    return Some(Entry::Guard(i));
                }
            }
        }
        if known { None } else { Some(Entry::Node(self.states + 1)) }
    }

    fn carry_out(&self, machine: &mut Machine, entry: Entry) -> Result<Option<u32>, Stop> {
        match entry {
            Entry::Node(node) => self.walk(machine, node),
            Entry::Guard(i) => {
                let step = &self.words[5 * i..5 * i + 5];
                machine.guard(&expression_at(self.bytes, step[4] as usize))?;
                self.walk(machine, step[1])
            }
        }
    }

    /// Goes from node to node until one from 0 to S; the last becomes the state.
    fn walk(&self, machine: &mut Machine, from: u32) -> Result<Option<u32>, Stop> {
        let mut node = from;
        let mut value = None;
        while node > self.states {
            node = self.take(machine, node, &mut value)?;
        }
        if node < self.states {
            machine.record.state = node;
        }
        Ok(value)
    }

    /// Carries out the step leaving a node; gives its target.
    fn take(&self, machine: &mut Machine, node: u32, value: &mut Option<u32>) -> Result<u32, Stop> {
        let step = self.leaving(node, |_| true);
        let at = step[4] as usize;
        match step[2] {
            CONDITION_TRUE | CONDITION_FALSE => {
                let holds = machine.condition(&expression_at(self.bytes, at))?;
                let kind = if holds { CONDITION_TRUE } else { CONDITION_FALSE };
                return Ok(self.leaving(node, |k| k == kind)[1]);
            }
            SET => {
                let (target, expression) = set_at(self.bytes, at);
                machine.set(target, &expression)?;
            }
            TRANSFER => {
                let (account, amount) = transfer_at(self.bytes, at);
                machine.transfer(&account, &amount)?;
            }
            REQUIRE => machine.require(&expression_at(self.bytes, at + 4))?,
            _ => *value = Some(machine.answer(&expression_at(self.bytes, at + 4))?),
        }
        Ok(step[1])
    }

    fn leaving(&self, node: u32, wanted: impl Fn(u32) -> bool) -> &'a [u32] {
        let mut all = self.words.chunks_exact(5);
        let found = all.find(|s| s[0] == node && wanted(s[2]));
        found.expect("every node above S has a step leaving it")
    }
}
