//! The report text of a file.
//!
//! Decisions where document 01 leaves room:
//! - A rule broken by the empty list has nothing after the lists tried.
//! - A failed start is reported also where the file has no rules.

use crate::expand;
use crate::read::read;
use crate::run;
use crate::tree::Agreement;
use crate::verdict::{judge, Verdict, BROKEN, HELD};

pub fn report(bytes: &[u8]) -> String {
    match read(bytes) {
        Ok(agreement) => report_read(&agreement),
        Err(refusal) => format!("refused {} {}\n", refusal.number, refusal.place),
    }
}

fn report_read(agreement: &Agreement) -> String {
    let mut text = format!("steps {}\n", expand::steps(agreement).len());
    let start = run::start_read(agreement);
    if start.refusal != 0 {
        text += &format!("start refused {}\n", start.refusal);
        return text;
    }
    for rule in 0..agreement.rules.len() {
        text += &rule_line(rule, &judge(agreement, rule));
    }
    text
}

fn rule_line(rule: usize, answer: &Verdict) -> String {
    let word = match answer.verdict {
        BROKEN => "broken",
        HELD => "held",
        _ => "spent",
    };
    let rows: String = answer.rows.iter().map(|row| format!(" {row}")).collect();
    format!("rule {rule} {word} {}{rows}\n", answer.tried)
}
