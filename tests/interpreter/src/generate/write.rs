//! The writer from tree to bytes. A tree first becomes loose records, which
//! may be damaged before their lengths are reckoned.

use crate::tree::*;

/// A record: its length is reckoned when it is written; `tail` are stray bytes.
#[derive(Clone, Debug)]
pub struct Loose {
    pub kind: u16,
    pub fields: Vec<u8>,
    pub children: Vec<Loose>,
    pub tail: Vec<u8>,
}

pub fn bytes(agreement: &Agreement) -> Vec<u8> {
    written(&loose(agreement))
}

pub fn written(record: &Loose) -> Vec<u8> {
    let mut body = record.fields.clone();
    for child in &record.children {
        body.extend(written(child));
    }
    body.extend(&record.tail);
    let mut out = ((body.len() + 4) as u16).to_le_bytes().to_vec();
    out.extend(record.kind.to_le_bytes());
    out.extend(body);
    out
}

pub fn loose(agreement: &Agreement) -> Loose {
    let a = agreement;
    let mut fields = vec![a.states, a.variables, a.accounts, a.start, a.depth, 0];
    fields.extend(a.limit.to_le_bytes());
    fields.extend(a.bound.to_le_bytes());
    fields.extend(a.balances.iter().flat_map(|b| b.to_le_bytes()));
    let mut children = vec![statement(&a.initial), statement(&a.fallback)];
    children.extend(a.transitions.iter().map(transition));
    children.extend(a.rows.iter().map(row));
    children.extend(a.rules.iter().map(rule));
    record(1, fields, children)
}

pub fn record(kind: u16, fields: Vec<u8>, children: Vec<Loose>) -> Loose {
    Loose { kind, fields, children, tail: Vec::new() }
}

pub fn transition(t: &Transition) -> Loose {
    record(2, vec![t.name, t.from, t.to, 0], vec![expression(&t.guard), statement(&t.action)])
}

pub fn row(r: &Row) -> Loose {
    let mut fields = vec![r.name, r.sender, 0, 0];
    fields.extend(r.coins.to_le_bytes());
    fields.extend(r.arguments.iter().flat_map(|a| a.to_le_bytes()));
    record(3, fields, Vec::new())
}

pub fn rule(r: &Rule) -> Loose {
    match r {
        Rule::Always(e) => record(4, vec![1, 0, 0, 0], vec![expression(e)]),
        Rule::NotAfter { p, q } => record(4, vec![2, 0, *p, *q], Vec::new()),
        Rule::OnlyAfter { p, q } => record(4, vec![3, 0, *p, *q], Vec::new()),
    }
}

pub fn statement(s: &Statement) -> Loose {
    let plain = |kind, children| record(kind, Vec::new(), children);
    match &s.kind {
        StatementKind::Set(target, value) => {
            record(16, target.to_le_bytes().to_vec(), vec![expression(value)])
        }
        StatementKind::Transfer(account, amount) => plain(17, vec![expression(account), expression(amount)]),
        StatementKind::Require(condition) => plain(18, vec![expression(condition)]),
        StatementKind::Return(value) => plain(19, vec![expression(value)]),
        StatementKind::Block(list) => plain(32, list.iter().map(statement).collect()),
        StatementKind::If(condition, body) => plain(33, vec![expression(condition), statement(body)]),
        StatementKind::IfElse(condition, yes, no) => {
            plain(34, vec![expression(condition), statement(yes), statement(no)])
        }
        StatementKind::While(condition, body) => plain(35, vec![expression(condition), statement(body)]),
        StatementKind::For(parts) => plain(
            36,
            vec![
                statement(&parts.first),
                expression(&parts.condition),
                statement(&parts.closing),
                statement(&parts.body),
            ],
        ),
    }
}

pub fn expression(e: &Expression) -> Loose {
    let index = |kind, index: &u16| record(kind, index.to_le_bytes().to_vec(), Vec::new());
    match &e.kind {
        ExpressionKind::Constant(number) => record(64, number.to_le_bytes().to_vec(), Vec::new()),
        ExpressionKind::Variable(i) => index(65, i),
        ExpressionKind::Local(i) => index(66, i),
        ExpressionKind::Argument(i) => index(67, i),
        ExpressionKind::Context(i) => index(68, i),
        ExpressionKind::Binary(operator, left, right) => {
            record(80, operator.to_le_bytes().to_vec(), vec![expression(left), expression(right)])
        }
        ExpressionKind::Not(inner) => record(81, Vec::new(), vec![expression(inner)]),
    }
}

impl Loose {
    /// The offsets of all records, in the order of the file.
    pub fn offsets(&self) -> Vec<usize> {
        let mut found = Vec::new();
        self.offsets_from(0, &mut found);
        found
    }

    /// Adds this record's offset and those below it; gives the record's end.
    fn offsets_from(&self, at: usize, found: &mut Vec<usize>) -> usize {
        found.push(at);
        let first = at + 4 + self.fields.len();
        let end = self.children.iter().fold(first, |next, child| child.offsets_from(next, found));
        end + self.tail.len()
    }

    /// How many records: this one and all below it.
    pub fn count(&self) -> usize {
        1 + self.children.iter().map(Loose::count).sum::<usize>()
    }

    /// The level of the record of a number, where this one is on level 1.
    pub fn level(&self, number: usize) -> usize {
        if number == 0 {
            return 1;
        }
        let mut left = number - 1;
        for child in &self.children {
            let count = child.count();
            if left < count {
                return 1 + child.level(left);
            }
            left -= count;
        }
        unreachable!("the number is below the count")
    }

    /// The record of a number, counted in the order of the file from 0.
    pub fn nth(&mut self, number: usize) -> &mut Loose {
        if number == 0 {
            return self;
        }
        let mut left = number - 1;
        for child in &mut self.children {
            let count = child.count();
            if left < count {
                return child.nth(left);
            }
            left -= count;
        }
        unreachable!("the number is below the count")
    }
}
