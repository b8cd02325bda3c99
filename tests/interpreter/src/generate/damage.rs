//! Damaged files, aimed at refusals 1 to 8 and their places.

use super::write::{self, record, written, Loose};
use super::{agreement, constant};
use crate::random::Random;
use crate::tree::*;

/// A damaged file; now and then the damage is harmless.
pub fn damaged(seed: u64) -> Vec<u8> {
    let mut random = Random::new(seed);
    let random = &mut random;
    let mut loose = write::loose(&agreement(random));
    let times = if random.chance(80) { 1 } else { 2 };
    for _ in 0..times {
        if random.chance(75) {
            damage_records(random, &mut loose);
        }
    }
    let mut bytes = written(&loose);
    if random.chance(45) {
        damage_bytes(random, &mut bytes, &loose.offsets());
    }
    bytes
}

/// An agreement with one record wrapped so that it, or a record in it, stands near level 17.
pub fn deepened(seed: u64) -> Vec<u8> {
    let mut random = Random::new(seed);
    let random = &mut random;
    let mut file = write::loose(&agreement(random));
    let number = random.below(file.count() as u32) as usize;
    let level = file.level(number);
    let record = file.nth(number);
    let wraps: &[u16] = match record.kind {
        16..=36 => &[32, 33, 35],
        64..=81 => &[81],
        _ => return written(&file),
    };
    for _ in level..random.between(15, 18) as usize {
        wrap(record, random.pick(wraps));
    }
    written(&file)
}

/// Puts a record inside a new one of this kind, after a condition where the kind has one.
fn wrap(record: &mut Loose, kind: u16) {
    let inner = std::mem::replace(record, write::record(kind, Vec::new(), Vec::new()));
    if matches!(kind, 33 | 35) {
        record.children.push(write::expression(&constant(0)));
    }
    record.children.push(inner);
}

/// Damage that keeps all lengths in step.
fn damage_records(random: &mut Random, file: &mut Loose) {
    match random.below(16) {
        0 => any(random, file).kind = random_kind(random),
        1 => extra_child(random, file),
        2 => drop_child(random, file),
        3 => stray_bytes(random, file),
        4 => shorten_fields(random, file),
        5 => change_field(random, file),
        6 => too_deep(random, file),
        7 => repeat_transition(random, file),
        8 => large_balances(file),
        9 => too_many_steps(random, file),
        10 => nonzero_zero(random, file),
        11 => bad_rule(random, file),
        12 => rule_expression(random, file),
        13 => too_many(random, file),
        14 => swap_children(random, file),
        _ => swallow_sibling(random, file),
    }
}

/// Damage to the bytes; `records` are the offsets of all records.
fn damage_bytes(random: &mut Random, bytes: &mut Vec<u8>, records: &[usize]) {
    match random.below(7) {
        0 => bytes.truncate(random.below(bytes.len() as u32 + 1) as usize),
        1 => {
            bytes.truncate(random.below(bytes.len() as u32 + 1) as usize);
            fix_length(bytes);
        }
        2 => flip(random, bytes),
        3 => *any_byte(random, bytes) = random.below(256) as u8,
        4 => {
            let at = random.pick(records);
            wrong_length(random, bytes, at);
        }
        5 => {
            bytes.extend(vec![0; random.between(1, 5) as usize]);
            if random.chance(70) {
                fix_length(bytes);
            }
        }
        _ => bytes.truncate(random.below(4) as usize),
    }
}

fn any<'a>(random: &mut Random, file: &'a mut Loose) -> &'a mut Loose {
    let number = random.below(file.count() as u32) as usize;
    file.nth(number)
}

fn any_byte<'a>(random: &mut Random, bytes: &'a mut [u8]) -> &'a mut u8 {
    let at = random.below(bytes.len() as u32) as usize;
    &mut bytes[at]
}

fn random_kind(random: &mut Random) -> u16 {
    let known = [1, 2, 3, 4, 16, 17, 18, 19, 32, 33, 34, 35, 36, 64, 65, 66, 67, 68, 80, 81];
    if random.chance(75) { random.pick(&known) } else { random.below(300) as u16 }
}

fn fix_length(bytes: &mut [u8]) {
    if bytes.len() >= 2 {
        let length = (bytes.len() as u16).to_le_bytes();
        bytes[..2].copy_from_slice(&length);
    }
}

fn flip(random: &mut Random, bytes: &mut [u8]) {
    let bit = 1 << random.below(8);
    *any_byte(random, bytes) ^= bit;
}

/// Changes the length of the record at an offset: to a fixed one, or by a little.
fn wrong_length(random: &mut Random, bytes: &mut [u8], at: usize) {
    let old = u16::from_le_bytes([bytes[at], bytes[at + 1]]);
    let fixed = random.pick(&[0, 1, 2, 3, 4, 5, 6, 8, 300, 0x7FFF, 0xFFFF]);
    let near = old.wrapping_add(random.between(0, 16) as u16).wrapping_sub(8);
    let length = if random.chance(50) { fixed } else { near };
    bytes[at..at + 2].copy_from_slice(&length.to_le_bytes());
}

fn extra_child(random: &mut Random, file: &mut Loose) {
    let copy = any(random, file).clone();
    let parent = any(random, file);
    let at = random.below(parent.children.len() as u32 + 1) as usize;
    parent.children.insert(at, copy);
}

fn drop_child(random: &mut Random, file: &mut Loose) {
    let parent = any(random, file);
    if !parent.children.is_empty() {
        let at = random.below(parent.children.len() as u32) as usize;
        parent.children.remove(at);
    }
}

fn stray_bytes(random: &mut Random, file: &mut Loose) {
    let count = random.between(1, 6);
    any(random, file).tail = (0..count).map(|_| random.pick(&[0, 1, 4, 6, 64])).collect();
}

fn shorten_fields(random: &mut Random, file: &mut Loose) {
    let record = any(random, file);
    let keep = random.below(record.fields.len() as u32 + 1) as usize;
    record.fields.truncate(keep);
    if random.chance(80) {
        record.children.clear();
    }
}

fn change_field(random: &mut Random, file: &mut Loose) {
    let record = any(random, file);
    if !record.fields.is_empty() {
        let value = random.pick(&[0, 1, 2, 3, 4, 7, 8, 9, 10, 11, 15, 16, 17, 63, 64, 65, 128, 255]);
        *any_byte(random, &mut record.fields) = value;
    }
}

/// Wraps a record in so many blocks or nots that level 17 is near or passed.
fn too_deep(random: &mut Random, file: &mut Loose) {
    let times = random.between(9, 18);
    let record = any(random, file);
    let kind = match record.kind {
        16..=36 => 32,
        64..=81 => 81,
        _ => return,
    };
    for _ in 0..times {
        wrap(record, kind);
    }
}

fn places(file: &Loose, kind: u16) -> Vec<usize> {
    (0..file.children.len()).filter(|i| file.children[*i].kind == kind).collect()
}

fn repeat_transition(random: &mut Random, file: &mut Loose) {
    let found = places(file, 2);
    if found.is_empty() {
        return;
    }
    let copy = file.children[random.pick(&found)].clone();
    let at = random.pick(&found);
    file.children.insert(at, copy.clone());
    if random.chance(30) {
        file.children.insert(at, copy);
    }
}

/// Opening balances near the end of 32 bits; one account alone stays right.
fn large_balances(file: &mut Loose) {
    for field in file.fields.iter_mut().skip(12) {
        *field = 255;
    }
}

fn too_many_steps(random: &mut Random, file: &mut Loose) {
    let set = write::statement(&StatementKind::Set(FIRST_LOCAL, constant(0)).into());
    let count = random.between(950, 1_100) as usize;
    if let Some(fallback) = file.children.get_mut(1) {
        *fallback = record(32, Vec::new(), vec![set; count]);
    }
}

fn nonzero_zero(random: &mut Random, file: &mut Loose) {
    let (kind, zero) = random.pick(&[(1, 5), (2, 3), (3, 2), (3, 3)]);
    let value = random.between(1, 255) as u8;
    let found = if kind == 1 { Some(file) } else { some_place(random, file, kind).map(|at| &mut file.children[at]) };
    if let Some(field) = found.and_then(|record| record.fields.get_mut(zero)) {
        *field = value;
    }
}

fn some_place(random: &mut Random, file: &Loose, kind: u16) -> Option<usize> {
    let found = places(file, kind);
    if found.is_empty() { None } else { Some(random.pick(&found)) }
}

fn bad_rule(random: &mut Random, file: &mut Loose) {
    let rule_type = random.below(5) as u8;
    let fields = vec![rule_type, random.pick(&[0, 0, 0, 1]), random.below(4) as u8, random.below(4) as u8];
    let children = if random.chance(50) { vec![write::expression(&constant(1))] } else { Vec::new() };
    file.children.push(record(4, fields, children));
}

/// A rule whose expression holds what a rule may not hold.
fn rule_expression(random: &mut Random, file: &mut Loose) {
    let leaf = random.pick(&[(66, 0), (67, 3), (68, 0), (68, 1), (68, 2), (68, 4), (66, 9), (65, 20)]);
    let (kind, index) = leaf;
    let leaf = record(kind, vec![index, 0], Vec::new());
    let not = record(81, Vec::new(), vec![leaf]);
    file.children.push(record(4, vec![1, 0, 0, 0], vec![not]));
}

fn too_many(random: &mut Random, file: &mut Loose) {
    let (kind, most) = random.pick(&[(2, 64), (3, 16), (4, 8)]);
    let Some(at) = some_place(random, file, kind) else { return };
    let present = places(file, kind).len();
    let wanted = most + random.below(3) as usize;
    let copy = file.children[at].clone();
    for _ in present..wanted {
        file.children.insert(at, copy.clone());
    }
    if random.chance(30) {
        let last = at + wanted - present;
        file.children[last].kind = random_kind(random);
    }
}

fn swap_children(random: &mut Random, file: &mut Loose) {
    let record = if random.chance(60) { file } else { any(random, file) };
    let count = record.children.len() as u32;
    if count > 1 {
        record.children.swap(random.below(count) as usize, random.below(count) as usize);
    }
}

/// Moves a child into its elder sibling, as a wrong length would.
fn swallow_sibling(random: &mut Random, file: &mut Loose) {
    let record = any(random, file);
    let count = record.children.len() as u32;
    if count > 1 {
        let at = random.below(count - 1) as usize;
        let younger = record.children.remove(at + 1);
        record.children[at].children.push(younger);
    }
}
