//! Files on which the library differs: saved, shrunk, and told of.

use crate::shrink::{shrink, Fault};
use std::fs;
use std::path::PathBuf;

/// So many files are shrunk of each fault, and so many saved in all.
const SHRUNK: usize = 2;
const SAVED: usize = 40;
/// So many characters of a difference are shown.
const SHOWN: usize = 1_500;

#[derive(Default)]
pub struct Found {
    shrunk: Vec<Fault>,
    saved: usize,
}

fn folder() -> PathBuf {
    let folder = PathBuf::from(concat!(env!("CARGO_MANIFEST_DIR"), "/found"));
    fs::create_dir_all(&folder).expect("the folder of files found");
    folder
}

impl Found {
    pub fn add(&mut self, name: &str, file: &[u8], seed: u64, fault: &Fault, text: &str) {
        if self.saved >= SAVED {
            return;
        }
        self.saved += 1;
        let name: String = name.chars().map(|c| if c.is_ascii_alphanumeric() { c } else { '-' }).collect();
        let path = folder().join(format!("{name}-{}", fault.replace(' ', "-")));
        self.save(path.with_extension("whole"), file);
        let shown: String = text.chars().take(SHOWN).collect();
        println!("FAILED: {fault} on {name}, {} bytes, seed {seed}: {shown}", file.len());
        if self.shrunk.iter().filter(|f| *f == fault).count() < SHRUNK {
            self.shrunk.push(fault.clone());
            let small = shrink(file, seed, fault);
            let shown: String = small.iter().map(|b| format!("{b:02x}")).collect();
            self.save(path.with_extension("small"), &small);
            println!("  shrunk to {} bytes: {shown}", small.len());
        }
        println!("  saved as {}; again: bench file PATH {seed}", path.with_extension("*").display());
    }

    fn save(&self, path: PathBuf, bytes: &[u8]) {
        fs::write(path, bytes).expect("a file found can be saved");
    }
}
