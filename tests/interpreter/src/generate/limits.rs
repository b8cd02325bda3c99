//! Files at and just past every limit of the format, each with the refusal it
//! should meet (0 where it is accepted).

use super::write::{self, bytes, loose, record, written, Loose};
use super::{binary, constant, counter};
use crate::tree::*;
use ExpressionKind::{Local, Variable};

pub struct LimitFile {
    pub label: String,
    pub bytes: Vec<u8>,
    pub refusal: u8,
}

pub fn limit_files() -> Vec<LimitFile> {
    let mut all = Vec::new();
    counts(&mut all);
    sizes(&mut all);
    step_counts(&mut all);
    levels(&mut all);
    agreement_fields(&mut all);
    totals(&mut all);
    child_fields(&mut all);
    record_fields(&mut all);
    all
}

fn add(all: &mut Vec<LimitFile>, label: String, bytes: Vec<u8>, refusal: u8) {
    all.push(LimitFile { label, bytes, refusal });
}

/// 64/65 transitions, 16/17 rows, 8/9 rules.
fn counts(all: &mut Vec<LimitFile>) {
    for count in [0, 1, 63, 64, 65, 66] {
        let mut a = counter();
        a.rules.truncate(1);
        let one = a.transitions[0].clone();
        a.transitions = (0..count).map(|i| Transition { name: i as u8, ..one.clone() }).collect();
        add(all, format!("{count} transitions"), bytes(&a), if count > 64 { 4 } else { 0 });
    }
    for count in [0, 1, 15, 16, 17, 18] {
        let mut a = counter();
        a.rows = vec![a.rows[0].clone(); count];
        add(all, format!("{count} rows"), bytes(&a), if count > 16 { 4 } else { 0 });
    }
    for count in [0, 1, 7, 8, 9, 10] {
        let mut a = counter();
        a.rules = vec![a.rules[1].clone(); count];
        add(all, format!("{count} rules"), bytes(&a), if count > 8 { 4 } else { 0 });
    }
}

/// 32,768 and 32,770 bytes, and 32,769 by a stray byte.
fn sizes(all: &mut Vec<LimitFile>) {
    for size in [32_766, 32_768, 32_770] {
        let refusal = if size > 32_768 { 1 } else { 0 };
        add(all, format!("{size} bytes"), sized(size), refusal);
    }
    let mut odd = loose(&counter());
    odd.children[1] = filling(32_768 - 176 + 12);
    odd.tail = vec![0];
    add(all, "32,769 bytes".into(), written(&odd), 1);
    for size in 0..4 {
        add(all, format!("{size} bytes"), bytes(&counter())[..size].to_vec(), 1);
    }
}

/// The counter agreement with a fallback that fills the file.
fn sized(size: usize) -> Vec<u8> {
    let mut file = loose(&counter());
    file.children[1] = filling(size - 176 + 12);
    written(&file)
}

/// A block of an even size: sets of 62 bytes and a remainder.
fn filling(size: usize) -> Loose {
    let sum = || binary(0, constant(1), constant(2));
    let wide = StatementKind::Set(FIRST_LOCAL, binary(0, binary(0, sum(), constant(3)), constant(4)));
    let wide = write::statement(&wide.into());
    let width = written(&wide).len();
    let narrow = write::statement(&StatementKind::Set(FIRST_LOCAL, Local(0).into()).into());
    let fourteen = write::statement(&StatementKind::Set(FIRST_LOCAL, constant(0)).into());
    let mut left = size - 4;
    let mut list = Vec::new();
    while left >= width + 100 {
        list.push(wide.clone());
        left -= width;
    }
    while left % 12 != 0 {
        list.push(fourteen.clone());
        left -= 14;
    }
    list.extend(vec![narrow; left / 12]);
    record(32, Vec::new(), list)
}

/// 1,024/1,025 steps; the counter agreement has 5 besides its fallback.
fn step_counts(all: &mut Vec<LimitFile>) {
    for steps in [1_023, 1_024, 1_025, 1_026] {
        let mut a = counter();
        let set = Statement::from(StatementKind::Set(FIRST_LOCAL, constant(0)));
        a.fallback = StatementKind::Block(vec![set; steps - 5]).into();
        add(all, format!("{steps} steps"), bytes(&a), if steps > 1_024 { 8 } else { 0 });
    }
}

/// Levels 15 to 18, by nots in a guard, a rule and a row's place, and by blocks.
fn levels(all: &mut Vec<LimitFile>) {
    for level in 15..=18u32 {
        let refusal = if level > 16 { 5 } else { 0 };
        let mut a = counter();
        a.transitions[0].guard = nested(constant(1), level - 3);
        add(all, format!("guard to level {level}"), bytes(&a), refusal);
        let mut a = counter();
        a.rules[0] = Rule::Always(nested(Variable(0).into(), level - 3));
        add(all, format!("rule to level {level}"), bytes(&a), refusal);
        let mut a = counter();
        let mut s = Statement::from(StatementKind::Require(constant(1)));
        for _ in 0..level - 3 {
            s = StatementKind::Block(vec![s]).into();
        }
        a.initial = s;
        add(all, format!("blocks to level {level}"), bytes(&a), refusal);
    }
}

fn nested(inner: Expression, times: u32) -> Expression {
    (0..times).fold(inner, |e, _| ExpressionKind::Not(Box::new(e)).into())
}

/// Values of one field with the refusal they meet.
type Cases = &'static [(u32, u8)];

fn agreement_fields(all: &mut Vec<LimitFile>) {
    let mut try_each = |label: &str, change: fn(&mut Agreement, u32), cases: Cases| {
        for (value, refusal) in cases {
            let mut a = counter();
            change(&mut a, *value);
            add(all, format!("{label} {value}"), bytes(&a), *refusal);
        }
    };
    try_each("states", |a, v| a.states = v as u8, &[(0, 4), (1, 4), (2, 0), (64, 0), (65, 4), (255, 4)]);
    try_each("variables", |a, v| a.variables = v as u8, &[(0, 4), (1, 0), (16, 0), (17, 4)]);
    try_each("start", |a, v| a.start = v as u8, &[(1, 0), (2, 4), (255, 4)]);
    try_each("depth", |a, v| a.depth = v as u8, &[(0, 0), (8, 0), (9, 4)]);
    try_each("limit", |a, v| a.limit = v as u16, &[(0, 4), (1, 0), (4_096, 0), (4_097, 4), (65_535, 4)]);
    try_each("bound", |a, v| a.bound = v, &[(0, 4), (1, 0), (1_000_000, 0), (1_000_001, 4), (u32::MAX, 4)]);
    let accounts = |a: &mut Agreement, v: u32| {
        a.accounts = v as u8;
        a.balances = vec![1; v as usize];
    };
    try_each("accounts", accounts, &[(0, 4), (1, 0), (8, 0), (9, 4)]);
}

fn totals(all: &mut Vec<LimitFile>) {
    for (balances, refusal) in [
        (vec![u32::MAX], 0),
        (vec![u32::MAX, 0], 0),
        (vec![u32::MAX - 1, 1], 0),
        (vec![u32::MAX, 1], 7),
        (vec![u32::MAX; 8], 7),
        (vec![1 << 29; 8], 7),
        (vec![(1 << 29) - 1; 8], 0),
    ] {
        let mut a = counter();
        a.accounts = balances.len() as u8;
        let label = format!("balances {balances:?}");
        a.balances = balances;
        add(all, label, bytes(&a), refusal);
    }
}

/// Fields of transitions, rows and rules: child, field, value, refusal.
fn child_fields(all: &mut Vec<LimitFile>) {
    let cases = [
        (2, 0, 255, 4), (2, 1, 1, 0), (2, 1, 2, 4), (2, 2, 1, 0), (2, 2, 2, 4), (2, 3, 1, 4),
        (3, 0, 255, 0), (3, 1, 0, 0), (3, 1, 1, 4), (3, 2, 1, 4), (3, 3, 1, 4),
        (4, 0, 0, 4), (4, 0, 2, 4), (4, 0, 4, 4), (4, 1, 1, 4), (4, 2, 1, 4), (4, 3, 1, 4),
        (5, 0, 3, 0), (5, 0, 1, 4), (5, 0, 4, 4), (5, 1, 1, 4), (5, 2, 0, 4), (5, 3, 0, 4),
    ];
    for (child, field, value, refusal) in cases {
        let mut file = loose(&counter());
        file.children[child].fields[field] = value;
        add(all, format!("child {child} field {field} is {value}"), written(&file), refusal);
    }
}

/// Fields of statements and expressions, as a return's value or as a target.
fn record_fields(all: &mut Vec<LimitFile>) {
    let indices = [
        (65, 0, 0), (65, 1, 4), (66, 7, 0), (66, 8, 4), (67, 3, 0), (67, 4, 4), (68, 3, 0), (68, 4, 4),
        (65, 256, 4), (66, 256, 4), (67, 256, 4), (68, 256, 4),
    ];
    for (kind, index, refusal) in indices {
        let leaf = record(kind, (index as u16).to_le_bytes().to_vec(), Vec::new());
        add(all, format!("kind {kind} index {index}"), with_initial(record(19, Vec::new(), vec![leaf])), refusal);
    }
    for (operator, refusal) in [(0, 0), (10, 0), (11, 4), (256, 4)] {
        let one = || write::expression(&constant(1));
        let sum = record(80, (operator as u16).to_le_bytes().to_vec(), vec![one(), one()]);
        add(all, format!("operator {operator}"), with_initial(record(19, Vec::new(), vec![sum])), refusal);
    }
    for (target, refusal) in [(0, 0), (1, 4), (16, 4), (255, 4), (256, 0), (263, 0), (264, 4), (65_535, 4)] {
        let value = write::expression(&constant(1));
        let set = record(16, (target as u16).to_le_bytes().to_vec(), vec![value]);
        add(all, format!("target {target}"), with_initial(set), refusal);
    }
}

fn with_initial(initial: Loose) -> Vec<u8> {
    let mut file = loose(&counter());
    file.children[0] = initial;
    written(&file)
}
