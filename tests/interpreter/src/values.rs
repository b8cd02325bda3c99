//! Expressions' values; `None` means that the evaluation failed.

use crate::tree::{Expression, ExpressionKind};

/// What an expression may look at.
pub struct View<'a> {
    pub variables: &'a [u32; 16],
    pub locals: &'a [u32; 8],
    pub arguments: &'a [u32; 4],
    /// Sender, coins paid, own balance, state.
    pub context: [u32; 4],
}

pub fn value(expression: &Expression, view: &View) -> Option<u32> {
    match &expression.kind {
        ExpressionKind::Constant(number) => Some(*number),
        ExpressionKind::Variable(index) => Some(view.variables[*index as usize]),
        ExpressionKind::Local(index) => Some(view.locals[*index as usize]),
        ExpressionKind::Argument(index) => Some(view.arguments[*index as usize]),
        ExpressionKind::Context(index) => Some(view.context[*index as usize]),
        ExpressionKind::Binary(operator, left, right) => {
            operate(*operator, value(left, view)?, value(right, view)?)
        }
        ExpressionKind::Not(inner) => Some((value(inner, view)? == 0) as u32),
    }
}

fn operate(operator: u16, left: u32, right: u32) -> Option<u32> {
    match operator {
        0 => left.checked_add(right),
        1 => left.checked_sub(right),
        2 => left.checked_mul(right),
        3 => left.checked_div(right),
        4 => left.checked_rem(right),
        5 => Some((left == right) as u32),
        6 => Some((left != right) as u32),
        7 => Some((left < right) as u32),
        8 => Some((left <= right) as u32),
        9 => Some((left != 0 && right != 0) as u32),
        _ => Some((left != 0 || right != 0) as u32),
    }
}
