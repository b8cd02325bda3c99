//! What both ways of running share: records, calls, outcomes, and items 1, 3
//! and 5 of a call (coins, transfers, restoring) with the unit limit.
//!
//! Decisions where document 01 leaves room:
//! - A refused start or call has no value, and so has every start (its return
//!   value is dropped).
//! - A transfer evaluates the account, then the amount; every failure is 25.

use crate::tree::{Agreement, Expression, FIRST_LOCAL};
use crate::values::{self, View};

#[derive(Clone, Copy, Debug, Default, PartialEq, Eq, Hash)]
pub struct State {
    pub state: u32,
    pub variables: [u32; 16],
    pub balances: [u32; 8],
    pub own: u32,
}

#[derive(Clone, Copy, Debug, Default, PartialEq, Eq)]
pub struct Call {
    pub name: u8,
    pub sender: u8,
    pub coins: u32,
    pub arguments: [u32; 4],
}

/// `refusal` 0 is "completed"; `place` is 0 where the refusal has none.
#[derive(Clone, Copy, Debug, PartialEq, Eq)]
pub struct Outcome {
    pub refusal: u8,
    pub place: u32,
    pub value: Option<u32>,
    pub units: u32,
    pub state: State,
}

impl Outcome {
    /// A refusal before anything ran.
    pub fn refused(number: u8, place: u32, state: State) -> Self {
        Outcome { refusal: number, place, value: None, units: 0, state }
    }
}

/// Why a run stopped short.
#[derive(Clone, Copy, Debug, PartialEq, Eq)]
pub enum Stop {
    GuardFalse,
    GuardFailed,
    ActionFailed,
    UsedUp,
}

impl Stop {
    fn number(self) -> u8 {
        match self {
            Stop::GuardFalse => 23,
            Stop::GuardFailed => 24,
            Stop::ActionFailed => 25,
            Stop::UsedUp => 26,
        }
    }
}

impl State {
    /// The record a start begins with, before the initial action.
    pub fn opening(agreement: &Agreement) -> Self {
        let mut state = State { state: agreement.start as u32, ..State::default() };
        state.balances[..agreement.balances.len()].copy_from_slice(&agreement.balances);
        state
    }

    /// All balances and the own balance.
    pub fn total(&self) -> u64 {
        self.balances.iter().map(|b| *b as u64).sum::<u64>() + self.own as u64
    }

    /// Refusal 20 meets the records that are not fit.
    pub fn fit(&self, agreement: &Agreement) -> bool {
        self.state < agreement.states as u32
            && self.variables[agreement.variables as usize..].iter().all(|v| *v == 0)
            && self.balances[agreement.accounts as usize..].iter().all(|b| *b == 0)
            && self.total() == State::opening(agreement).total()
    }
}

/// One start or call being carried out.
pub struct Machine {
    pub record: State,
    locals: [u32; 8],
    call: Call,
    before: State,
    units: u32,
    limit: u32,
    accounts: u32,
}

impl Machine {
    pub fn new(agreement: &Agreement, record: State, call: Call) -> Self {
        Machine {
            record,
            locals: [0; 8],
            call,
            before: record,
            units: 0,
            limit: agreement.limit as u32,
            accounts: agreement.accounts as u32,
        }
    }

    /// Item 1, for a sender whose balance is not below the coins.
    pub fn pay(&mut self) {
        self.record.balances[self.call.sender as usize] -= self.call.coins;
        self.record.own += self.call.coins;
    }

    pub fn charge(&mut self) -> Result<(), Stop> {
        if self.units == self.limit {
            return Err(Stop::UsedUp);
        }
        self.units += 1;
        Ok(())
    }

    pub fn guard(&mut self, expression: &Expression) -> Result<(), Stop> {
        self.charge()?;
        match self.evaluate(expression) {
            None => Err(Stop::GuardFailed),
            Some(0) => Err(Stop::GuardFalse),
            Some(_) => Ok(()),
        }
    }

    pub fn condition(&mut self, expression: &Expression) -> Result<bool, Stop> {
        self.charge()?;
        Ok(self.value(expression)? != 0)
    }

    pub fn set(&mut self, target: u16, expression: &Expression) -> Result<(), Stop> {
        self.charge()?;
        let value = self.value(expression)?;
        if target >= FIRST_LOCAL {
            self.locals[(target - FIRST_LOCAL) as usize] = value;
        } else {
            self.record.variables[target as usize] = value;
        }
        Ok(())
    }

    pub fn transfer(&mut self, account: &Expression, amount: &Expression) -> Result<(), Stop> {
        self.charge()?;
        let account = self.value(account)?;
        let amount = self.value(amount)?;
        if account >= self.accounts || amount > self.record.own {
            return Err(Stop::ActionFailed);
        }
        self.record.own -= amount;
        self.record.balances[account as usize] += amount;
        Ok(())
    }

    pub fn require(&mut self, expression: &Expression) -> Result<(), Stop> {
        if self.condition(expression)? { Ok(()) } else { Err(Stop::ActionFailed) }
    }

    pub fn answer(&mut self, expression: &Expression) -> Result<u32, Stop> {
        self.charge()?;
        self.value(expression)
    }

    /// The outcome of a start.
    pub fn started(self, end: Result<Option<u32>, Stop>) -> Outcome {
        match end {
            Ok(_) => Outcome { refusal: 0, place: 0, value: None, units: self.units, state: self.record },
            Err(_) => Outcome { units: self.units, ..Outcome::refused(27, 0, State::default()) },
        }
    }

    /// The outcome of a call; a refusal hands back the record of before.
    pub fn called(self, end: Result<Option<u32>, Stop>) -> Outcome {
        match end {
            Ok(value) => Outcome { refusal: 0, place: 0, value, units: self.units, state: self.record },
            Err(stop) => Outcome { units: self.units, ..Outcome::refused(stop.number(), 0, self.before) },
        }
    }

    fn value(&self, expression: &Expression) -> Result<u32, Stop> {
        self.evaluate(expression).ok_or(Stop::ActionFailed)
    }

    fn evaluate(&self, expression: &Expression) -> Option<u32> {
        let context = [self.call.sender as u32, self.call.coins, self.record.own, self.before.state];
        let view = View {
            variables: &self.record.variables,
            locals: &self.locals,
            arguments: &self.call.arguments,
            context,
        };
        values::value(expression, &view)
    }
}
