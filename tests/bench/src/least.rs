//! Agreements with fields at their least values, all of them accepted, which the counter agreement's own parts do not allow.

use interpreter::generate::write::{bytes, loose, record, written};
use interpreter::generate::{constant, counter};
use interpreter::tree::{Rule, Statement, StatementKind};

/// One state, no variable, and no transition, row or rule but what is asked for.
fn smallest() -> interpreter::tree::Agreement {
    let mut a = counter();
    let refuse = || Statement::from(StatementKind::Require(constant(0)));
    a.states = 1;
    a.variables = 0;
    a.initial = refuse();
    a.fallback = refuse();
    a.transitions[0].to = 0;
    a.transitions[0].action = refuse();
    a.rules.retain(|r| !matches!(r, Rule::Always(_)));
    a
}

pub fn least_files() -> Vec<(String, Vec<u8>)> {
    let mut all = vec![("one state, no variable".to_string(), bytes(&smallest()))];
    let mut bare = smallest();
    bare.transitions.clear();
    bare.rows.clear();
    bare.rules.clear();
    all.push(("no transition, row or rule".to_string(), bytes(&bare)));
    for (kind, label) in [(66, "local 0"), (67, "argument 0"), (68, "context 0")] {
        let mut file = loose(&bare);
        file.children[0] = record(19, Vec::new(), vec![record(kind, vec![0, 0], Vec::new())]);
        all.push((label.to_string(), written(&file)));
    }
    all
}
