//! The library's functions as safe Rust. Every argument gets an answer, so no call can fail.
#![allow(dead_code)]

/// The most words that an expansion has.
pub const MOST_WORDS: usize = 5_120;

#[rustfmt::skip]
extern "C" {
    fn agreement_read(file: *const u8, len: usize, answer: *mut [u32; 2]);
    fn agreement_expand(file: *const u8, len: usize, words: *mut u32, room: usize, answer: *mut [u32; 3]);
    fn agreement_start(file: *const u8, len: usize, record: *mut [u32; 26], answer: *mut [u32; 5]);
    fn agreement_call(file: *const u8, len: usize, record: *mut [u32; 26],
        name: u8, sender: u8, coins: u32, arguments: *const [u32; 4], answer: *mut [u32; 5]);
    fn agreement_start_expanded(file: *const u8, len: usize, words: *const u32, room: usize,
        record: *mut [u32; 26], answer: *mut [u32; 5]);
    fn agreement_call_expanded(file: *const u8, len: usize, words: *const u32, room: usize, record: *mut [u32; 26],
        name: u8, sender: u8, coins: u32, arguments: *const [u32; 4], answer: *mut [u32; 5]);
    fn agreement_verdict(file: *const u8, len: usize, rule: u32, words: *mut u32, room: usize, answer: *mut [u32; 13]);
}

/// What a start or a call hands back: the state record, and refusal, place, has a value, value, units.
#[derive(Clone, Copy, Default, PartialEq, Eq)]
pub struct Outcome {
    pub record: [u32; 26],
    pub answer: [u32; 5],
}

#[derive(Clone, Copy, Default)]
pub struct Call {
    pub name: u8,
    pub sender: u8,
    pub coins: u32,
    pub arguments: [u32; 4],
}

/// Refusal (0: accepted) and place.
pub fn read(file: &[u8]) -> [u32; 2] {
    let mut answer = [0; 2];
    unsafe { agreement_read(file.as_ptr(), file.len(), &mut answer) };
    answer
}

/// The words of the steps, or refusal and place.
pub fn expand(file: &[u8]) -> Result<Vec<u32>, [u32; 2]> {
    let mut words = vec![0; MOST_WORDS];
    let mut answer = [0; 3];
    unsafe { agreement_expand(file.as_ptr(), file.len(), words.as_mut_ptr(), words.len(), &mut answer) };
    let [refusal, place, steps] = answer;
    words.truncate(5 * steps as usize);
    if refusal == 0 { Ok(words) } else { Err([refusal, place]) }
}

pub fn start(file: &[u8]) -> Outcome {
    let mut end = Outcome::default();
    unsafe { agreement_start(file.as_ptr(), file.len(), &mut end.record, &mut end.answer) };
    end
}

pub fn call(file: &[u8], record: [u32; 26], call: &Call) -> Outcome {
    let mut end = Outcome { record, ..Outcome::default() };
    let Call { name, sender, coins, arguments } = call;
    unsafe {
        agreement_call(file.as_ptr(), file.len(), &mut end.record, *name, *sender, *coins, arguments, &mut end.answer)
    };
    end
}

pub fn start_expanded(file: &[u8], words: &[u32]) -> Outcome {
    let mut end = Outcome::default();
    let (bytes, len) = (file.as_ptr(), file.len());
    unsafe { agreement_start_expanded(bytes, len, words.as_ptr(), words.len(), &mut end.record, &mut end.answer) };
    end
}

pub fn call_expanded(file: &[u8], words: &[u32], record: [u32; 26], call: &Call) -> Outcome {
    let mut end = Outcome { record, ..Outcome::default() };
    let Call { name, sender, coins, arguments } = call;
    let (bytes, len, steps, room) = (file.as_ptr(), file.len(), words.as_ptr(), words.len());
    unsafe {
        let Outcome { record, answer } = &mut end;
        agreement_call_expanded(bytes, len, steps, room, record, *name, *sender, *coins, arguments, answer)
    };
    end
}

/// Refusal, place, verdict (1 broken, 2 held, 3 spent), lists tried, length of the list, its rows.
pub fn verdict(file: &[u8], rule: u32) -> [u32; 13] {
    let mut words = vec![0; MOST_WORDS];
    let mut answer = [0; 13];
    unsafe { agreement_verdict(file.as_ptr(), file.len(), rule, words.as_mut_ptr(), words.len(), &mut answer) };
    answer
}
