//! Start and call, unexpanded.

pub use crate::machine::{Call, Outcome, State};
use crate::machine::{Machine, Stop};
use crate::read::read;
use crate::tree::*;

pub fn start(bytes: &[u8]) -> Outcome {
    match read(bytes) {
        Ok(agreement) => start_read(&agreement),
        Err(refusal) => Outcome::refused(refusal.number, refusal.place, State::default()),
    }
}

pub fn call(bytes: &[u8], state: &State, call: &Call) -> Outcome {
    match read(bytes) {
        Ok(agreement) => call_read(&agreement, state, call),
        Err(refusal) => Outcome::refused(refusal.number, refusal.place, *state),
    }
}

/// A start of an agreement already read.
pub fn start_read(agreement: &Agreement) -> Outcome {
    let mut machine = Machine::new(agreement, State::opening(agreement), Call::default());
    let end = run(&mut machine, &agreement.initial);
    machine.started(end)
}

/// A call of an agreement already read.
pub fn call_read(agreement: &Agreement, state: &State, call: &Call) -> Outcome {
    match enter(agreement, state, call) {
        Err(number) => Outcome::refused(number, 0, *state),
        Ok(transition) => carry_out(agreement, transition, state, call),
    }
}

/// Refusals 9 and 20 to 22; then the transition, or none for the fallback.
fn enter<'a>(agreement: &'a Agreement, state: &State, call: &Call) -> Result<Option<&'a Transition>, u8> {
    if call.sender >= agreement.accounts {
        return Err(9);
    }
    if !state.fit(agreement) {
        return Err(20);
    }
    if state.balances[call.sender as usize] < call.coins {
        return Err(21);
    }
    let mut named = agreement.transitions.iter().filter(|t| t.name == call.name).peekable();
    if named.peek().is_none() {
        return Ok(None);
    }
    named.find(|t| t.from as u32 == state.state).map(Some).ok_or(22)
}

fn carry_out(agreement: &Agreement, transition: Option<&Transition>, state: &State, call: &Call) -> Outcome {
    let mut machine = Machine::new(agreement, *state, *call);
    machine.pay();
    let end = match transition {
        Some(transition) => take(&mut machine, transition),
        None => run(&mut machine, &agreement.fallback),
    };
    machine.called(end)
}

fn take(machine: &mut Machine, transition: &Transition) -> Result<Option<u32>, Stop> {
    machine.guard(&transition.guard)?;
    let value = run(machine, &transition.action)?;
    machine.record.state = transition.to as u32;
    Ok(value)
}

/// Runs a statement; a value means that a return was met and ends the action.
fn run(machine: &mut Machine, statement: &Statement) -> Result<Option<u32>, Stop> {
    match &statement.kind {
        StatementKind::Set(target, value) => machine.set(*target, value)?,
        StatementKind::Transfer(account, amount) => machine.transfer(account, amount)?,
        StatementKind::Require(condition) => machine.require(condition)?,
        StatementKind::Return(value) => return machine.answer(value).map(Some),
        StatementKind::Block(list) => return run_block(machine, list),
        StatementKind::If(condition, body) => {
            if machine.condition(condition)? {
                return run(machine, body);
            }
        }
        StatementKind::IfElse(condition, yes, no) => {
            let part = if machine.condition(condition)? { yes } else { no };
            return run(machine, part);
        }
        StatementKind::While(condition, body) => return run_while(machine, condition, body),
        StatementKind::For(parts) => return run_for(machine, parts),
    }
    Ok(None)
}

fn run_block(machine: &mut Machine, list: &[Statement]) -> Result<Option<u32>, Stop> {
    for statement in list {
        if let Some(value) = run(machine, statement)? {
            return Ok(Some(value));
        }
    }
    Ok(None)
}

fn run_while(machine: &mut Machine, condition: &Expression, body: &Statement) -> Result<Option<u32>, Stop> {
    while machine.condition(condition)? {
        if let Some(value) = run(machine, body)? {
            return Ok(Some(value));
        }
    }
    Ok(None)
}

fn run_for(machine: &mut Machine, parts: &ForParts) -> Result<Option<u32>, Stop> {
    run(machine, &parts.first)?;
    while machine.condition(&parts.condition)? {
        if let Some(value) = run(machine, &parts.body)? {
            return Ok(Some(value));
        }
        run(machine, &parts.closing)?;
    }
    Ok(None)
}
