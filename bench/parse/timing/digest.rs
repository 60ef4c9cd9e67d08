//! The sum over a plain query or its fault that the proved side gives of its own.
use crate::plain_query::*;

fn with(sum: u64, part: u64) -> u64 {
    sum.wrapping_mul(31).wrapping_add(part)
}

pub fn digest(parsed: &Result<Query, Fault>) -> u64 {
    match parsed {
        Ok(query) => query_digest(query),
        Err(Fault::Syntax(at)) => with(with(1, 26), *at),
        Err(Fault::NumberTooLarge(at)) => with(with(1, 30), *at),
        Err(Fault::TooDeep) => with(with(1, 31), 0),
    }
}

fn query_digest(query: &Query) -> u64 {
    let mut sum = name(2, &query.table);
    for part in &query.items {
        sum = item(sum, part);
    }
    for column in &query.grouping {
        sum = mention(sum, column);
    }
    clause(clause(sum, &query.filter), &query.having)
}

fn name(sum: u64, name: &str) -> u64 {
    name.bytes().fold(with(sum, 3), |sum, byte| with(sum, u64::from(byte)))
}

fn mention(sum: u64, column: &Mention) -> u64 {
    with(name(sum, &column.name), column.at)
}

fn item(sum: u64, item: &Item) -> u64 {
    let sum = match &item.value {
        ItemValue::Grouped(column) => mention(with(sum, 4), column),
        ItemValue::Computed(function) => set_function(with(sum, 5), function),
    };
    match &item.alias {
        Some(alias) => name(with(sum, 6), alias),
        None => with(sum, 7),
    }
}

fn set_function(sum: u64, function: &SetFunction) -> u64 {
    match function {
        SetFunction::CountRows => with(sum, 8),
        SetFunction::Of { fold, distinct, column } => {
            mention(with(with(sum, *fold as u64), u64::from(*distinct)), column)
        }
    }
}

fn number(sum: u64, number: i128) -> u64 {
    let bits = number.cast_unsigned();
    with(with(sum, bits as u64), (bits >> 64) as u64)
}

fn operand(sum: u64, operand: &Operand) -> u64 {
    match operand {
        Operand::Column(column) => mention(with(sum, 9), column),
        Operand::Literal(literal) => number(with(sum, 10), *literal),
        Operand::Function(function) => set_function(with(sum, 11), function),
    }
}

fn predicate(sum: u64, predicate: &Predicate) -> u64 {
    match predicate {
        Predicate::Compare { left, op, right } => {
            operand(operand(with(with(sum, 13), *op as u64), left), right)
        }
        Predicate::Between { operand: subject, negated, low, high } => {
            let sum = with(with(sum, 14), u64::from(*negated));
            operand(operand(operand(sum, subject), low), high)
        }
        Predicate::In { operand: subject, negated, literals } => {
            let sum = with(with(sum, 15), u64::from(*negated));
            let sum = with(operand(sum, subject), 12);
            literals.iter().fold(sum, |sum, literal| number(sum, *literal))
        }
        Predicate::IsNull { operand: subject, negated } => {
            operand(with(with(sum, 16), u64::from(*negated)), subject)
        }
    }
}

fn clause(sum: u64, clause: &Option<Condition>) -> u64 {
    match clause {
        Some(found) => condition(with(sum, 17), found),
        None => with(sum, 18),
    }
}

fn condition(sum: u64, condition: &Condition) -> u64 {
    let mut sum = with(sum, 19);
    for term in &condition.terms {
        sum = with(sum, 20);
        for part in term {
            sum = factor(sum, part);
        }
    }
    sum
}

fn factor(sum: u64, factor: &Factor) -> u64 {
    let sum = with(with(sum, 21), u64::from(factor.negated));
    let sum = match &factor.is {
        Some(is) => with(with(sum, u64::from(is.negated)), is.truth as u64),
        None => with(sum, 22),
    };
    match &factor.primary {
        Primary::Nested(inner) => condition(with(sum, 23), inner),
        Primary::Predicate(found) => predicate(with(sum, 24), found),
    }
}
