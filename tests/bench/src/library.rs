//! The library as Rust calls it. The declarations follow the exported interface. Whatever the library must write is filled
//! with other numbers before. An operation that is not linked leaves them there.

#![allow(unused_mut, unused_variables, dead_code)]

use interpreter::machine::{Call, State};
use interpreter::verdict::Verdict;

extern "C" {
    fn agreement_read(file: *const u8, len: usize, answer: *mut u32);
    fn agreement_expand(file: *const u8, len: usize, words: *mut u32, room: usize, answer: *mut u32);
    fn agreement_start(file: *const u8, len: usize, record: *mut u32, answer: *mut u32);
    fn agreement_call(
        file: *const u8,
        len: usize,
        record: *mut u32,
        name: u8,
        sender: u8,
        coins: u32,
        arguments: *const u32,
        answer: *mut u32,
    );
    fn agreement_start_expanded(
        file: *const u8,
        len: usize,
        words: *const u32,
        room: usize,
        record: *mut u32,
        answer: *mut u32,
    );
    fn agreement_call_expanded(
        file: *const u8,
        len: usize,
        words: *const u32,
        room: usize,
        record: *mut u32,
        name: u8,
        sender: u8,
        coins: u32,
        arguments: *const u32,
        answer: *mut u32,
    );
    fn agreement_verdict(file: *const u8, len: usize, rule: u32, words: *mut u32, room: usize, answer: *mut u32);
}

const OTHER: u32 = 0xdead_beef;

/// A state record as the interface lays it out.
pub type Record = [u32; 26];

/// What a start or a call hands back.
#[derive(Clone, Copy, Debug, PartialEq, Eq)]
pub struct Ran {
    pub answer: [u32; 5],
    pub record: Record,
}

pub fn record(state: &State) -> Record {
    let mut record = [0; 26];
    record[0] = state.state;
    record[1..17].copy_from_slice(&state.variables);
    record[17..25].copy_from_slice(&state.balances);
    record[25] = state.own;
    record
}

/// A verdict as the interface lays it out.
pub fn laid_out(verdict: &Verdict) -> [u32; 13] {
    let mut answer = [0; 13];
    let Verdict { refusal, place, verdict, tried, rows } = verdict;
    answer[..5].copy_from_slice(&[*refusal as u32, *place, *verdict as u32, *tried, rows.len() as u32]);
    for (entry, row) in answer[5..].iter_mut().zip(rows) {
        *entry = *row as u32;
    }
    answer
}

pub fn read(file: &[u8]) -> [u32; 2] {
    let mut answer = [OTHER; 2];
    #[cfg(agreement_read)]
    unsafe {
        agreement_read(file.as_ptr(), file.len(), answer.as_mut_ptr())
    };
    answer
}

pub fn expand(file: &[u8], words: &mut [u32]) -> [u32; 3] {
    let mut answer = [OTHER; 3];
    #[cfg(agreement_expand)]
    unsafe {
        agreement_expand(file.as_ptr(), file.len(), words.as_mut_ptr(), words.len(), answer.as_mut_ptr())
    };
    answer
}

pub fn start(file: &[u8]) -> Ran {
    let mut ran = Ran { answer: [OTHER; 5], record: [OTHER; 26] };
    #[cfg(agreement_start)]
    unsafe {
        agreement_start(file.as_ptr(), file.len(), ran.record.as_mut_ptr(), ran.answer.as_mut_ptr())
    };
    ran
}

pub fn call(file: &[u8], record: &Record, call: &Call) -> Ran {
    let mut ran = Ran { answer: [OTHER; 5], record: *record };
    let Call { name, sender, coins, arguments } = *call;
    #[cfg(agreement_call)]
    unsafe {
        let (record, answer) = (ran.record.as_mut_ptr(), ran.answer.as_mut_ptr());
        agreement_call(file.as_ptr(), file.len(), record, name, sender, coins, arguments.as_ptr(), answer)
    };
    ran
}

pub fn start_expanded(file: &[u8], words: &[u32]) -> Ran {
    let mut ran = Ran { answer: [OTHER; 5], record: [OTHER; 26] };
    #[cfg(agreement_start_expanded)]
    unsafe {
        let (record, answer) = (ran.record.as_mut_ptr(), ran.answer.as_mut_ptr());
        agreement_start_expanded(file.as_ptr(), file.len(), words.as_ptr(), words.len(), record, answer)
    };
    ran
}

pub fn call_expanded(file: &[u8], words: &[u32], record: &Record, call: &Call) -> Ran {
    let mut ran = Ran { answer: [OTHER; 5], record: *record };
    let Call { name, sender, coins, arguments } = *call;
    #[cfg(agreement_call_expanded)]
    unsafe {
        let (record, answer) = (ran.record.as_mut_ptr(), ran.answer.as_mut_ptr());
        let (file, len, words, room) = (file.as_ptr(), file.len(), words.as_ptr(), words.len());
        agreement_call_expanded(file, len, words, room, record, name, sender, coins, arguments.as_ptr(), answer)
    };
    ran
}

pub fn verdict(file: &[u8], rule: u32, words: &mut [u32]) -> [u32; 13] {
    let mut answer = [OTHER; 13];
    #[cfg(agreement_verdict)]
    unsafe {
        agreement_verdict(file.as_ptr(), file.len(), rule, words.as_mut_ptr(), words.len(), answer.as_mut_ptr())
    };
    answer
}
