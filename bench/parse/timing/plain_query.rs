//! A query as plain Rust has it: the parts of the grammar, as the proved crate has them.

pub struct Mention {
    pub name: String,
    pub at: u64,
}

#[derive(Clone, Copy)]
pub enum Fold {
    Count,
    Sum,
    Avg,
    Min,
    Max,
}

pub enum SetFunction {
    CountRows,
    Of { fold: Fold, distinct: bool, column: Mention },
}

pub enum Operand {
    Column(Mention),
    Literal(i128),
    Function(SetFunction),
}

#[derive(Clone, Copy)]
pub enum Op {
    Equal,
    NotEqual,
    Less,
    LessOrEqual,
    Greater,
    GreaterOrEqual,
}

pub enum Predicate {
    Compare { left: Operand, op: Op, right: Operand },
    Between { operand: Operand, negated: bool, low: Operand, high: Operand },
    In { operand: Operand, negated: bool, literals: Vec<i128> },
    IsNull { operand: Operand, negated: bool },
}

#[derive(Clone, Copy)]
pub enum Truth {
    False,
    Unknown,
    True,
}

pub struct IsTruth {
    pub negated: bool,
    pub truth: Truth,
}

pub enum Primary {
    Nested(Box<Condition>),
    Predicate(Predicate),
}

pub struct Factor {
    pub negated: bool,
    pub primary: Primary,
    pub is: Option<IsTruth>,
}

/// Terms joined by OR, each of factors joined by AND.
pub struct Condition {
    pub terms: Vec<Vec<Factor>>,
}

pub enum ItemValue {
    Grouped(Mention),
    Computed(SetFunction),
}

pub struct Item {
    pub value: ItemValue,
    pub alias: Option<String>,
}

pub struct Query {
    pub items: Vec<Item>,
    pub table: String,
    pub filter: Option<Condition>,
    pub grouping: Vec<Mention>,
    pub having: Option<Condition>,
}

pub enum Fault {
    Syntax(u64),
    NumberTooLarge(u64),
    TooDeep,
}
