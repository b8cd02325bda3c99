//! Lists of calls, records fit and unfit, and lent words right and wrong.

use crate::machine::{Call, State};
use crate::random::Random;
use crate::run;
use crate::tree::Agreement;
use crate::verdict::row_call;

/// A list of calls that follows the states it leads to. Most calls are like
/// the rows or the transitions from the present state.
pub fn list(random: &mut Random, agreement: &Agreement, most: u32) -> Vec<Call> {
    let mut state = run::start_read(agreement).state;
    let mut made = Vec::new();
    for _ in 0..random.between(0, most) {
        let call = one(random, agreement, &state);
        state = run::call_read(agreement, &state, &call).state;
        made.push(call);
    }
    made
}

/// A call for a record; some have an unknown name, a bad sender or too many
/// coins.
pub fn one(random: &mut Random, agreement: &Agreement, state: &State) -> Call {
    let mut call = likely(random, agreement, state);
    match random.below(20) {
        0 => call.name = random.below(256) as u8,
        1 => call.sender = random.pick(&[agreement.accounts, agreement.accounts + 1, 8, 255]),
        2 => call.coins = random.pick(&[1, 13, 100, u32::MAX]),
        3 => call.arguments[random.below(4) as usize] = random.pick(&[0, 1, 7, u32::MAX]),
        _ => {}
    }
    call
}

fn likely(random: &mut Random, agreement: &Agreement, state: &State) -> Call {
    if !agreement.rows.is_empty() && random.chance(35) {
        return row_call(&agreement.rows[random.below(agreement.rows.len() as u32) as usize]);
    }
    let sender = random.below(agreement.accounts as u32) as u8;
    let affordable = state.balances[sender as usize].min(5);
    Call {
        name: likely_name(random, agreement, state),
        sender,
        coins: if random.chance(50) { 0 } else { random.between(0, affordable) },
        arguments: [0; 4].map(|_: u32| random.below(6)),
    }
}

fn likely_name(random: &mut Random, agreement: &Agreement, state: &State) -> u8 {
    let anywhere = random.chance(15);
    let wanted = agreement.transitions.iter().filter(|t| anywhere || t.from as u32 == state.state);
    let names: Vec<u8> = wanted.map(|t| t.name).collect();
    if names.is_empty() { random.below(4) as u8 } else { random.pick(&names) }
}

/// A fit record, whether or not any list of calls leads to it.
pub fn fit(random: &mut Random, agreement: &Agreement) -> State {
    let mut state = State::opening(agreement);
    state.state = random.below(agreement.states as u32);
    for variable in &mut state.variables[..agreement.variables as usize] {
        *variable = random.pick(&[0, 1, 2, 3, 5, u32::MAX]);
    }
    for balance in &mut state.balances[..agreement.accounts as usize] {
        let part = random.between(0, *balance);
        *balance -= part;
        state.own += part;
    }
    state
}

/// A record changed in one place; it is unfit save where a used variable was
/// changed, or a state to another state.
pub fn unfit(random: &mut Random, agreement: &Agreement, from: &State) -> State {
    let mut state = *from;
    match random.below(5) {
        0 => state.state = random.pick(&[agreement.states as u32, u32::MAX, 63, 64]),
        1 => state.variables[random.pick(&[agreement.variables as usize % 16, 15])] = 1,
        2 => state.balances[agreement.accounts as usize % 8] ^= 1,
        3 => state.own = state.own.wrapping_add(random.pick(&[1, u32::MAX])),
        _ => state.balances[random.below(8) as usize] = u32::MAX,
    }
    state
}

/// A record for a call: fit, changed in one place, with a total that is right only modulo 2^32, or of any numbers.
pub fn record(random: &mut Random, agreement: &Agreement) -> State {
    let state = fit(random, agreement);
    match random.below(10) {
        0..=3 => state,
        4..=5 => unfit(random, agreement, &state),
        6 => one_more(random, state),
        7 => wrapped(random, agreement, state),
        8 => moved(random, state),
        _ => any_numbers(random),
    }
}

/// One entry, used or not, is larger by one.
fn one_more(random: &mut Random, mut state: State) -> State {
    let at = random.below(25) as usize;
    let entry = if at < 16 { &mut state.variables[at] } else { state.balances.get_mut(at - 16).unwrap_or(&mut state.own) };
    *entry = entry.wrapping_add(1);
    state
}

/// The total is larger by 2^32.
fn wrapped(random: &mut Random, agreement: &Agreement, mut state: State) -> State {
    let account = random.below(agreement.accounts as u32) as usize;
    let all = state.balances[account] as u64 + state.own as u64 + (1 << 32);
    state.own = (all - (all / 2)) as u32;
    state.balances[account] = (all / 2) as u32;
    state
}

/// A balance stands in another account, which may be an unused one.
fn moved(random: &mut Random, mut state: State) -> State {
    state.balances.swap(random.below(8) as usize, random.below(8) as usize);
    state
}

fn any_numbers(random: &mut Random) -> State {
    State {
        state: random.below(70),
        variables: [0; 16].map(|_: u32| random.next() as u32),
        balances: [0; 8].map(|_: u32| random.next() as u32),
        own: random.next() as u32,
    }
}

/// The right words, sometimes with spare words after them.
pub fn spare(random: &mut Random, table: &[u32]) -> Vec<u32> {
    let count = random.pick(&[0, 0, 1, 4, 5, 17]);
    let mut lent = table.to_vec();
    lent.extend((0..count).map(|_| random.pick(&[0, 1, 2, u32::MAX])));
    lent
}

/// Too few words, though as far as they go they are right.
pub fn too_few(random: &mut Random, table: &[u32]) -> Vec<u32> {
    let missing = random.between(1, (table.len() as u32).min(6));
    table[..table.len() - missing as usize].to_vec()
}

/// One wrong word among the steps, sometimes with spare words.
pub fn wrong(random: &mut Random, table: &[u32]) -> Vec<u32> {
    let mut lent = spare(random, table);
    let at = random.below(table.len() as u32) as usize;
    lent[at] = lent[at].wrapping_add(random.pick(&[1, 2, u32::MAX]));
    lent
}
