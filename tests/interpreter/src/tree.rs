//! The agreement as a tree. `at` is the record's offset in the file.

#[derive(Clone, Debug, PartialEq)]
pub struct Agreement {
    pub states: u8,
    pub variables: u8,
    pub accounts: u8,
    pub start: u8,
    pub depth: u8,
    pub limit: u16,
    pub bound: u32,
    pub balances: Vec<u32>,
    pub initial: Statement,
    pub fallback: Statement,
    pub transitions: Vec<Transition>,
    pub rows: Vec<Row>,
    pub rules: Vec<Rule>,
}

#[derive(Clone, Debug, PartialEq)]
pub struct Transition {
    pub at: u32,
    pub name: u8,
    pub from: u8,
    pub to: u8,
    pub guard: Expression,
    pub action: Statement,
}

#[derive(Clone, Debug, PartialEq)]
pub struct Row {
    pub name: u8,
    pub sender: u8,
    pub coins: u32,
    pub arguments: [u32; 4],
}

#[derive(Clone, Debug, PartialEq)]
pub enum Rule {
    Always(Expression),
    NotAfter { p: u8, q: u8 },
    OnlyAfter { p: u8, q: u8 },
}

#[derive(Clone, Debug, PartialEq)]
pub struct Statement {
    pub at: u32,
    pub kind: StatementKind,
}

#[derive(Clone, Debug, PartialEq)]
pub enum StatementKind {
    Set(u16, Expression),
    Transfer(Expression, Expression),
    Require(Expression),
    Return(Expression),
    Block(Vec<Statement>),
    If(Expression, Box<Statement>),
    IfElse(Expression, Box<Statement>, Box<Statement>),
    While(Expression, Box<Statement>),
    For(Box<ForParts>),
}

/// `first` and `closing` are always sets.
#[derive(Clone, Debug, PartialEq)]
pub struct ForParts {
    pub first: Statement,
    pub condition: Expression,
    pub closing: Statement,
    pub body: Statement,
}

#[derive(Clone, Debug, PartialEq)]
pub struct Expression {
    pub at: u32,
    pub kind: ExpressionKind,
}

#[derive(Clone, Debug, PartialEq)]
pub enum ExpressionKind {
    Constant(u32),
    Variable(u16),
    Local(u16),
    Argument(u16),
    Context(u16),
    Binary(u16, Box<Expression>, Box<Expression>),
    Not(Box<Expression>),
}

/// The first target that names a local; variables have the targets below V.
pub const FIRST_LOCAL: u16 = 256;

impl From<ExpressionKind> for Expression {
    fn from(kind: ExpressionKind) -> Self {
        Expression { at: 0, kind }
    }
}

impl From<StatementKind> for Statement {
    fn from(kind: StatementKind) -> Self {
        Statement { at: 0, kind }
    }
}
