//! Picks a random file, mostly one that is small enough for every definition
//! to compute on.

use interpreter::expand;
use interpreter::generate::{self, damage, edges, write};
use interpreter::random::Random;
use interpreter::read::read;
use interpreter::run;
use interpreter::tree::Agreement;

/// A file with more bytes, steps, or units of its start is only read.
const MOST_BYTES: usize = 900;
const MOST_STEPS: usize = 60;
const MOST_UNITS: u32 = 120;
/// So many in a hundred of the larger files are kept.
const LARGER_KEPT: u32 = 10;

pub struct Chosen {
    /// The seed and the generator that made the file.
    pub label: String,
    pub bytes: Vec<u8>,
    /// What was read, and its steps as words; nothing for a refused file.
    pub agreement: Option<Agreement>,
    pub table: Vec<u32>,
    /// Whether the file is small enough for more than reading.
    pub small: bool,
    /// The source of what is done with the file.
    pub seed: u64,
}

/// The file of a seed.
pub fn file(seed: u64) -> Chosen {
    let mut random = Random::new(seed);
    loop {
        let (kind, bytes) = match random.below(100) {
            0..=9 => edges::limit_file(&mut random, |_| true),
            10..=24 => ("refused, then changed at its place".to_string(), edges::changed_at_place(&mut random)),
            25..=49 => ("damaged".to_string(), damage::damaged(random.next())),
            50..=69 => ("agreement".to_string(), generate::file(random.next())),
            _ => ("agreement at its edges".to_string(), edges::at_edges(&mut random)),
        };
        let found = chosen(format!("seed {seed}, {kind}"), bytes, random.next());
        if found.small || random.chance(LARGER_KEPT) {
            return found;
        }
    }
}

/// The counter agreement of document 01.
pub fn counter() -> Chosen {
    chosen("counter".to_string(), write::bytes(&generate::counter()), 0)
}

fn chosen(label: String, bytes: Vec<u8>, seed: u64) -> Chosen {
    let agreement = read(&bytes).ok();
    let table: Vec<u32> = agreement.iter().flat_map(|a| expand::words(&expand::steps(a))).collect();
    let quick = agreement.iter().all(|a| run::start_read(a).units <= MOST_UNITS);
    let small = quick && bytes.len() <= MOST_BYTES && table.len() <= 5 * MOST_STEPS;
    Chosen { label, bytes, agreement, table, small, seed }
}
