//! Files at the edges of what an outcome depends on: a limit near the units of
//! a run, a bound near the lists that a verdict tries, two faults in one place.

use super::{calls, damage, limits, write};
use crate::random::Random;
use crate::read::read;
use crate::run;
use crate::verdict::judge;
use std::sync::OnceLock;

/// One of the files at the limits whose refusal is wanted.
pub fn limit_file(random: &mut Random, wanted: impl Fn(u8) -> bool) -> (String, Vec<u8>) {
    static ALL: OnceLock<Vec<limits::LimitFile>> = OnceLock::new();
    let all: Vec<_> = ALL.get_or_init(limits::limit_files).iter().filter(|file| wanted(file.refusal)).collect();
    let one = all[random.below(all.len() as u32) as usize];
    (format!("limit: {}", one.label), one.bytes.clone())
}

/// A refused file with one byte more changed where the refusal has its place,
/// so that the order of the tests shows.
pub fn changed_at_place(random: &mut Random) -> Vec<u8> {
    loop {
        let mut bytes = match random.below(3) {
            0 => limit_file(random, |refusal| refusal == 5).1,
            1 => limit_file(random, |refusal| refusal != 0).1,
            _ => damage::damaged(random.next()),
        };
        let Err(refusal) = read(&bytes) else { continue };
        let at = refusal.place as usize + random.pick(&[0, 1, 2, 2, 3, 4, 5]);
        if let Some(byte) = bytes.get_mut(at) {
            *byte = random.pick(&[0, 1, 2, 3, 4, 5, 16, 32, 64, 66, 80, 255]);
            return bytes;
        }
    }
}

/// An agreement whose limit is near the units of a run, and whose bound is near
/// the lists that a verdict tries.
pub fn at_edges(random: &mut Random) -> Vec<u8> {
    let mut made = read(&super::file(random.next())).expect("an accepted file");
    let mut units = vec![run::start_read(&made).units];
    let mut state = run::start_read(&made).state;
    for call in calls::list(random, &made, 3) {
        let outcome = run::call_read(&made, &state, &call);
        units.push(outcome.units);
        state = outcome.state;
    }
    if random.chance(50) {
        made.limit = (random.pick(&units) as u16).saturating_sub(random.below(2) as u16).max(1);
    }
    if !made.rules.is_empty() && random.chance(70) {
        let rule = random.below(made.rules.len() as u32) as usize;
        made.bound = 1_000;
        let tried = judge(&made, rule).tried;
        made.bound = (tried + random.below(3)).saturating_sub(1).max(1);
    }
    write::bytes(&made)
}
