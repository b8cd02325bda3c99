//! What the generators make: every kind of record, loops and branches with
//! returns in them, and every refusal of a damaged file at every kind of record.

use interpreter::generate::{self, damage::damaged, damage::deepened, write};
use interpreter::read::read;
use std::collections::{BTreeMap, BTreeSet};

/// The kinds of a record and of those above it, from the file's down.
fn walk(record: &write::Loose, above: &mut Vec<u16>, see: &mut impl FnMut(&[u16], &write::Loose)) {
    above.push(record.kind);
    see(above, record);
    for child in &record.children {
        walk(child, above, see);
    }
    above.pop();
}

/// Pairs of kinds, where the second stands somewhere inside the first; and the kinds with their first field.
fn made(count: u64) -> (BTreeSet<(u16, u16)>, BTreeSet<(u16, u8)>) {
    let (mut inside, mut fields) = (BTreeSet::new(), BTreeSet::new());
    for seed in 0..count {
        let file = write::loose(&read(&generate::file(seed)).unwrap());
        walk(&file, &mut Vec::new(), &mut |kinds, record| {
            inside.extend(kinds.iter().map(|outer| (*outer, record.kind)));
            fields.extend(record.fields.first().map(|first| (record.kind, *first)));
        });
    }
    (inside, fields)
}

#[test]
fn every_kind_is_made_in_every_branch_and_loop() {
    let (inside, fields) = made(3_000);
    let simple = 16..=19;
    let compound = 32..=36;
    let leaves = 64..=68;
    for outer in compound.clone() {
        for inner in simple.clone().chain(compound.clone()).chain(leaves.clone()).chain(80..=81) {
            assert!(inside.contains(&(outer, inner)), "no {inner} inside {outer}");
        }
    }
    for leaf in [64, 65, 68, 80, 81] {
        assert!(inside.contains(&(4, leaf)), "no {leaf} in a rule");
    }
    for operator in 0..=10 {
        assert!(fields.contains(&(80, operator)), "no operator {operator}");
    }
    for context in 0..=3 {
        assert!(fields.contains(&(68, context)), "no context {context}");
    }
    for rule in 1..=3 {
        assert!(fields.contains(&(4, rule)), "no rule of type {rule}");
    }
}

/// The kind that stands at a place, where it has one.
fn kind_at(file: &[u8], place: u32) -> u16 {
    let at = place as usize;
    file.get(at + 2..at + 4).map_or(0, |two| u16::from_le_bytes([two[0], two[1]]))
}

#[test]
fn damage_meets_every_refusal_at_every_kind() {
    let mut met = BTreeMap::new();
    for file in (0..40_000).map(damaged).chain((0..20_000).map(deepened)) {
        if let Err(refusal) = read(&file) {
            *met.entry((refusal.number, kind_at(&file, refusal.place))).or_insert(0) += 1;
        }
    }
    let statements = [16, 17, 18, 19, 32, 33, 34, 35, 36];
    let expressions = [64, 65, 66, 67, 68, 80, 81];
    let lists = [2, 3, 4];
    for kind in statements.iter().chain(&expressions).chain(&lists) {
        assert!(met.contains_key(&(2, *kind)), "2 at {kind}");
        assert!(met.contains_key(&(3, *kind)), "3 at {kind}");
    }
    for kind in [1, 2, 3, 4, 16, 65, 66, 67, 68, 80] {
        assert!(met.contains_key(&(4, kind)), "4 at {kind}");
    }
    for kind in statements.iter().chain(&expressions) {
        assert!(met.contains_key(&(5, *kind)), "5 at {kind}");
    }
    for (number, kind) in [(1, 1), (6, 2), (7, 1), (8, 1)] {
        assert!(met.contains_key(&(number, kind)), "{number}");
    }
}
