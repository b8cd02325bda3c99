//! The files that are compared: first those made by hand, then random ones without end.

use crate::least::least_files;
use interpreter::generate::damage::{damaged, deepened};
use interpreter::generate::limits::limit_files;
use interpreter::generate::search::search_files;
use interpreter::generate::worst::worst_files;
use interpreter::generate::{self, edges, repeats, write};
use interpreter::random::Random;
use interpreter::read::read;

/// A file, its name, and the refusal that it is written down to meet, where one is.
pub struct Case {
    pub name: String,
    pub bytes: Vec<u8>,
    pub refusal: Option<u32>,
    /// Whether its searches are to come to positions again.
    pub repeats: bool,
}

pub struct Cases {
    by_hand: Vec<Case>,
    seed: u64,
}

/// The units that one verdict on a random file may take in all.
const MOST_UNITS: u64 = 1_000_000;
/// The name of files whose searches come to positions again.
const REPEATS: &str = "repeats";
/// The bound's place in a file.
const BOUND: std::ops::Range<usize> = 12..16;

impl Cases {
    pub fn new(seed: u64) -> Self {
        let case = |name: String, bytes, refusal| Case { name, bytes, refusal, repeats: false };
        let mut by_hand = vec![case("counter".into(), write::bytes(&generate::counter()), Some(0))];
        let limits = limit_files().into_iter();
        by_hand.extend(limits.map(|l| case(format!("limit {}", l.label), l.bytes, Some(l.refusal as u32))));
        by_hand.extend(least_files().into_iter().map(|(label, bytes)| case(format!("least {label}"), bytes, Some(0))));
        by_hand.extend(worst_files().into_iter().map(|(label, bytes)| case(format!("worst {label}"), bytes, None)));
        by_hand.extend(search_files().into_iter().map(|(label, bytes)| case(format!("search {label}"), bytes, Some(0))));
        Cases { by_hand, seed }
    }

    pub fn by_hand(&self) -> u64 {
        self.by_hand.len() as u64
    }

    /// The case of a number, and the seed of what is done with it.
    pub fn nth(&self, number: u64) -> (Case, u64) {
        let seed = self.seed.wrapping_add(number);
        match self.by_hand.get(number as usize) {
            Some(case) => (Case { name: case.name.clone(), bytes: case.bytes.clone(), ..*case }, seed),
            None => (random_case(seed), seed),
        }
    }
}

fn random_case(seed: u64) -> Case {
    let mut random = Random::new(seed);
    let (name, bytes) = match random.below(120) {
        0..=44 => ("random", quick(generate::file(random.next()))),
        45..=69 => ("damaged", quick(damaged(random.next()))),
        70..=79 => ("deepened", quick(deepened(random.next()))),
        80..=91 => ("edges", quick(edges::at_edges(&mut random))),
        92..=99 => ("two faults", quick(edges::changed_at_place(&mut random))),
        _ => (REPEATS, repeats::file(&mut random)),
    };
    Case { name: format!("{name} {seed}"), bytes, refusal: None, repeats: name == REPEATS }
}

/// Lowers the bound of an accepted file whose verdicts would take long.
fn quick(mut file: Vec<u8>) -> Vec<u8> {
    if let Ok(agreement) = read(&file) {
        let most = (MOST_UNITS / agreement.limit as u64) as u32;
        if agreement.bound > most {
            file[BOUND].copy_from_slice(&most.to_le_bytes());
        }
    }
    file
}
