//! Reading bytes into the tree, with refusals 1 to 8 and their places.
//!
//! Decisions where document 01 leaves room:
//! - An incomplete field of several bytes has its first byte's offset as place.
//! - After the fallback action the agreement has no left-over bytes: any byte
//!   there begins a child, so a record of a wrong kind after the eighth rule is
//!   refusal 3, and 1 to 3 stray bytes are refusal 2, both at its offset.
//! - A transition after a row or rule, or a row after a rule, is refusal 3,
//!   also when it would be one child too many.
//! - A block has no upper count; bytes after its first statement begin another.
//! - Rule fields: type, then p, then q; p's range is tested before q's presence.
//!   The place of an unknown p or q is the rule's offset.
//! - The length of the file's own record was tested by refusal 1, so it never
//!   meets refusal 2 for its length.

use crate::expand;
use crate::tree::*;

#[derive(Clone, Copy, Debug, PartialEq, Eq)]
pub struct Refusal {
    pub number: u8,
    pub place: u32,
}

type Reading<T> = Result<T, Refusal>;

const MAX_BYTES: usize = 32_768;
const MAX_LEVEL: u32 = 16;
const MAX_STEPS: usize = 1_024;

pub fn read(bytes: &[u8]) -> Reading<Agreement> {
    test_whole_file(bytes)?;
    let mut reader = Reader::open();
    let agreement = reader.agreement(bytes)?;
    test_repeats(&agreement)?;
    test_total(&agreement)?;
    test_steps(&agreement)?;
    Ok(agreement)
}

/// The expression at an offset of an accepted file.
pub fn expression_at(bytes: &[u8], at: usize) -> Expression {
    let mut parent = Record::above(bytes, at);
    let found = Reader::open().expression(&mut parent);
    found.expect("an accepted file holds an expression here")
}

/// The set at an offset of an accepted file: its target and its expression.
pub fn set_at(bytes: &[u8], at: usize) -> (u16, Expression) {
    let target = u16::from_le_bytes([bytes[at + 4], bytes[at + 5]]);
    (target, expression_at(bytes, at + 6))
}

/// The transfer at an offset of an accepted file: its account and its amount.
pub fn transfer_at(bytes: &[u8], at: usize) -> (Expression, Expression) {
    let account = at + 4;
    let amount = account + u16::from_le_bytes([bytes[account], bytes[account + 1]]) as usize;
    (expression_at(bytes, account), expression_at(bytes, amount))
}

fn refuse<T>(number: u8, place: usize) -> Reading<T> {
    Err(Refusal { number, place: place as u32 })
}

fn test_whole_file(bytes: &[u8]) -> Reading<()> {
    let sized = bytes.len() >= 4 && bytes.len() <= MAX_BYTES;
    if !sized || u16::from_le_bytes([bytes[0], bytes[1]]) as usize != bytes.len() {
        return refuse(1, 0);
    }
    Ok(())
}

fn test_repeats(agreement: &Agreement) -> Reading<()> {
    let all = &agreement.transitions;
    for (i, t) in all.iter().enumerate() {
        if all[..i].iter().any(|e| e.name == t.name && e.from == t.from) {
            return refuse(6, t.at as usize);
        }
    }
    Ok(())
}

fn test_total(agreement: &Agreement) -> Reading<()> {
    let total: u64 = agreement.balances.iter().map(|b| *b as u64).sum();
    if total > u32::MAX as u64 {
        return refuse(7, 0);
    }
    Ok(())
}

fn test_steps(agreement: &Agreement) -> Reading<()> {
    if expand::steps(agreement).len() > MAX_STEPS {
        return refuse(8, 0);
    }
    Ok(())
}

/// A record whose length and level were tested; `next` moves over its body.
struct Record<'a> {
    bytes: &'a [u8],
    at: usize,
    next: usize,
    end: usize,
    kind: u16,
    level: u32,
}

impl<'a> Record<'a> {
    /// A stand-in parent, of level 0, whose only child begins at `next`.
    fn above(bytes: &'a [u8], next: usize) -> Self {
        Record { bytes, at: next, next, end: bytes.len(), kind: 0, level: 0 }
    }

    /// Opens the next child: its length, then its level.
    fn child(&mut self) -> Reading<Record<'a>> {
        let at = self.next;
        if self.end - at < 4 {
            return refuse(2, at);
        }
        let length = u16::from_le_bytes([self.bytes[at], self.bytes[at + 1]]) as usize;
        if length < 4 || length > self.end - at {
            return refuse(2, at);
        }
        if self.level == MAX_LEVEL {
            return refuse(5, at);
        }
        let kind = u16::from_le_bytes([self.bytes[at + 2], self.bytes[at + 3]]);
        self.next = at + length;
        Ok(Record { bytes: self.bytes, at, next: at + 4, end: at + length, kind, level: self.level + 1 })
    }

    fn field(&mut self, size: usize) -> Reading<u32> {
        if self.end - self.next < size {
            return refuse(2, self.next);
        }
        let part = &self.bytes[self.next..self.next + size];
        self.next += size;
        Ok(part.iter().rev().fold(0, |sum, b| sum << 8 | *b as u32))
    }

    /// A field whose value lies from `low` to `high`.
    fn ranged(&mut self, size: usize, low: u32, high: u32) -> Reading<u32> {
        let value = self.field(size)?;
        self.demand(low <= value && value <= high)?;
        Ok(value)
    }

    /// A field whose value is below `end`.
    fn below(&mut self, size: usize, end: u8) -> Reading<u32> {
        let value = self.field(size)?;
        self.demand(value < end as u32)?;
        Ok(value)
    }

    fn byte(&mut self, low: u8, high: u8) -> Reading<u8> {
        Ok(self.ranged(1, low as u32, high as u32)? as u8)
    }

    fn demand(&self, holds: bool) -> Reading<()> {
        if holds { Ok(()) } else { refuse(4, self.at) }
    }

    fn wrong_kind<T>(&self) -> Reading<T> {
        refuse(3, self.at)
    }

    fn finish(&self) -> Reading<()> {
        if self.next == self.end { Ok(()) } else { refuse(2, self.next) }
    }
}

/// What the ranges of later fields depend on.
struct Reader {
    states: u8,
    variables: u8,
    accounts: u8,
    names: [bool; 256],
    in_rule: bool,
}

impl Reader {
    /// The widest ranges, before the agreement's fields narrow them.
    fn open() -> Self {
        Reader { states: 64, variables: 16, accounts: 8, names: [false; 256], in_rule: false }
    }

    fn agreement(&mut self, bytes: &[u8]) -> Reading<Agreement> {
        let mut record = Record::above(bytes, 0).child()?;
        if record.kind != 1 {
            return record.wrong_kind();
        }
        let mut agreement = self.agreement_fields(&mut record)?;
        agreement.initial = self.statement(&mut record)?;
        agreement.fallback = self.statement(&mut record)?;
        self.lists(&mut record, &mut agreement)?;
        Ok(agreement)
    }

    fn agreement_fields(&mut self, record: &mut Record) -> Reading<Agreement> {
        self.states = record.byte(1, 64)?;
        self.variables = record.byte(0, 16)?;
        self.accounts = record.byte(1, 8)?;
        let start = record.below(1, self.states)? as u8;
        let depth = record.byte(0, 8)?;
        record.byte(0, 0)?;
        let limit = record.ranged(2, 1, 4_096)? as u16;
        let bound = record.ranged(4, 1, 1_000_000)?;
        let mut balances = Vec::new();
        for _ in 0..self.accounts {
            balances.push(record.field(4)?);
        }
        let nothing = Statement::from(StatementKind::Block(Vec::new()));
        Ok(Agreement {
            states: self.states,
            variables: self.variables,
            accounts: self.accounts,
            start,
            depth,
            limit,
            bound,
            balances,
            initial: nothing.clone(),
            fallback: nothing,
            transitions: Vec::new(),
            rows: Vec::new(),
            rules: Vec::new(),
        })
    }

    /// Transitions, rows and rules, in this order.
    fn lists(&mut self, record: &mut Record, into: &mut Agreement) -> Reading<()> {
        let mut last_kind = 2;
        while record.next < record.end {
            let mut child = record.child()?;
            if child.kind < last_kind || child.kind > 4 {
                return child.wrong_kind();
            }
            last_kind = child.kind;
            match child.kind {
                2 => {
                    child.demand(into.transitions.len() < 64)?;
                    into.transitions.push(self.transition(&mut child)?);
                }
                3 => {
                    child.demand(into.rows.len() < 16)?;
                    into.rows.push(self.row(&mut child)?);
                }
                _ => {
                    child.demand(into.rules.len() < 8)?;
                    into.rules.push(self.rule(&mut child)?);
                }
            }
        }
        Ok(())
    }

    fn transition(&mut self, record: &mut Record) -> Reading<Transition> {
        let name = record.byte(0, 255)?;
        let from = record.below(1, self.states)? as u8;
        let to = record.below(1, self.states)? as u8;
        record.byte(0, 0)?;
        let guard = self.expression(record)?;
        let action = self.statement(record)?;
        record.finish()?;
        self.names[name as usize] = true;
        Ok(Transition { at: record.at as u32, name, from, to, guard, action })
    }

    fn row(&self, record: &mut Record) -> Reading<Row> {
        let name = record.byte(0, 255)?;
        let sender = record.below(1, self.accounts)? as u8;
        record.byte(0, 0)?;
        record.byte(0, 0)?;
        let coins = record.field(4)?;
        let mut arguments = [0; 4];
        for argument in &mut arguments {
            *argument = record.field(4)?;
        }
        record.finish()?;
        Ok(Row { name, sender, coins, arguments })
    }

    fn rule(&mut self, record: &mut Record) -> Reading<Rule> {
        let rule_type = record.ranged(2, 1, 3)?;
        let rule = if rule_type == 1 {
            record.byte(0, 0)?;
            record.byte(0, 0)?;
            Rule::Always(self.rule_expression(record)?)
        } else {
            let p = self.known_name(record)?;
            let q = self.known_name(record)?;
            if rule_type == 2 { Rule::NotAfter { p, q } } else { Rule::OnlyAfter { p, q } }
        };
        record.finish()?;
        Ok(rule)
    }

    fn rule_expression(&mut self, record: &mut Record) -> Reading<Expression> {
        self.in_rule = true;
        let expression = self.expression(record);
        self.in_rule = false;
        expression
    }

    fn known_name(&self, record: &mut Record) -> Reading<u8> {
        let name = record.byte(0, 255)?;
        record.demand(self.names[name as usize])?;
        Ok(name)
    }

    fn statement(&self, parent: &mut Record) -> Reading<Statement> {
        let mut record = parent.child()?;
        let kind = self.statement_body(&mut record)?;
        record.finish()?;
        Ok(Statement { at: record.at as u32, kind })
    }

    /// The initial or closing set of a for.
    fn set_only(&self, parent: &mut Record) -> Reading<Statement> {
        let mut record = parent.child()?;
        if record.kind != 16 {
            return record.wrong_kind();
        }
        let kind = self.statement_body(&mut record)?;
        record.finish()?;
        Ok(Statement { at: record.at as u32, kind })
    }

    fn statement_body(&self, record: &mut Record) -> Reading<StatementKind> {
        Ok(match record.kind {
            16 => self.set(record)?,
            17 => StatementKind::Transfer(self.expression(record)?, self.expression(record)?),
            18 => StatementKind::Require(self.expression(record)?),
            19 => StatementKind::Return(self.expression(record)?),
            32 => self.block(record)?,
            33 => StatementKind::If(self.expression(record)?, self.boxed_statement(record)?),
            34 => StatementKind::IfElse(
                self.expression(record)?,
                self.boxed_statement(record)?,
                self.boxed_statement(record)?,
            ),
            35 => StatementKind::While(self.expression(record)?, self.boxed_statement(record)?),
            36 => StatementKind::For(Box::new(ForParts {
                first: self.set_only(record)?,
                condition: self.expression(record)?,
                closing: self.set_only(record)?,
                body: self.statement(record)?,
            })),
            _ => return record.wrong_kind(),
        })
    }

    fn set(&self, record: &mut Record) -> Reading<StatementKind> {
        let target = record.field(2)? as u16;
        record.demand(target < self.variables as u16 || (256..=263).contains(&target))?;
        Ok(StatementKind::Set(target, self.expression(record)?))
    }

    fn block(&self, record: &mut Record) -> Reading<StatementKind> {
        let mut list = vec![self.statement(record)?];
        while record.next < record.end {
            list.push(self.statement(record)?);
        }
        Ok(StatementKind::Block(list))
    }

    fn boxed_statement(&self, record: &mut Record) -> Reading<Box<Statement>> {
        Ok(Box::new(self.statement(record)?))
    }

    fn expression(&self, parent: &mut Record) -> Reading<Expression> {
        let mut record = parent.child()?;
        let kind = self.expression_body(&mut record)?;
        record.finish()?;
        Ok(Expression { at: record.at as u32, kind })
    }

    fn expression_body(&self, record: &mut Record) -> Reading<ExpressionKind> {
        Ok(match record.kind {
            64 => ExpressionKind::Constant(record.field(4)?),
            65 => ExpressionKind::Variable(record.below(2, self.variables)? as u16),
            66 if !self.in_rule => ExpressionKind::Local(record.below(2, 8)? as u16),
            67 if !self.in_rule => ExpressionKind::Argument(record.below(2, 4)? as u16),
            68 => {
                let lowest = if self.in_rule { 2 } else { 0 };
                ExpressionKind::Context(record.ranged(2, lowest, 3)? as u16)
            }
            80 => ExpressionKind::Binary(
                record.below(2, 11)? as u16,
                self.boxed_expression(record)?,
                self.boxed_expression(record)?,
            ),
            81 => ExpressionKind::Not(self.boxed_expression(record)?),
            _ => return record.wrong_kind(),
        })
    }

    fn boxed_expression(&self, record: &mut Record) -> Reading<Box<Expression>> {
        Ok(Box::new(self.expression(record)?))
    }
}
