//! A plain descent over the tokens of a query.
use crate::plain_query::*;
use crate::plain_tokens::{Kind, Sign, Token, tokens_of};

const MAX_DEPTH: usize = 64;
const MAX_DIGITS: usize = 30;

struct Parser<'a> {
    tokens: Vec<Token<'a>>,
    next: usize,
    end: u64,
    functions: bool,
    depth: usize,
}

/// The query that a text is, or its first fault.
pub fn parse(text: &str) -> Result<Query, Fault> {
    let tokens = tokens_of(text);
    let mut parser = Parser { tokens, next: 0, end: text.len() as u64, functions: false, depth: 0 };
    let query = parser.query()?;
    if parser.next < parser.tokens.len() { Err(parser.syntax()) } else { Ok(query) }
}

impl<'a> Parser<'a> {
    fn peek(&self) -> Option<Kind<'a>> {
        self.tokens.get(self.next).map(|token| token.kind)
    }

    fn place(&self) -> u64 {
        self.tokens.get(self.next).map_or(self.end, |token| token.at)
    }

    fn syntax(&self) -> Fault {
        Fault::Syntax(self.place())
    }

    fn take(&mut self, sign: Sign) -> bool {
        let taken = matches!(self.peek(), Some(Kind::Sign(other)) if other == sign);
        self.next += usize::from(taken);
        taken
    }

    fn expect(&mut self, sign: Sign) -> Result<(), Fault> {
        if self.take(sign) { Ok(()) } else { Err(self.syntax()) }
    }

    fn begins_with_name(&self) -> bool {
        matches!(self.peek(), Some(Kind::Identifier(_)))
    }

    fn mention(&mut self) -> Result<Mention, Fault> {
        let Some(Kind::Identifier(word)) = self.peek() else {
            return Err(self.syntax());
        };
        let mention = Mention { name: word.to_ascii_uppercase(), at: self.place() };
        self.next += 1;
        Ok(mention)
    }

    /// Parts with a sign between two.
    fn many<T>(&mut self, sign: Sign, part: fn(&mut Self) -> Result<T, Fault>) -> Result<Vec<T>, Fault> {
        let mut parts = vec![part(self)?];
        while self.take(sign) {
            parts.push(part(self)?);
        }
        Ok(parts)
    }

    fn query(&mut self) -> Result<Query, Fault> {
        self.expect(Sign::Select)?;
        let items = self.many(Sign::Comma, Self::item)?;
        self.expect(Sign::From)?;
        let table = self.mention()?.name;
        let filter = self.clause(Sign::Where)?;
        let mut grouping = Vec::new();
        if self.take(Sign::Group) {
            self.expect(Sign::By)?;
            grouping = self.many(Sign::Comma, Self::mention)?;
        }
        self.functions = true;
        let having = self.clause(Sign::Having)?;
        Ok(Query { items, table, filter, grouping, having })
    }

    fn clause(&mut self, sign: Sign) -> Result<Option<Condition>, Fault> {
        if self.take(sign) { Ok(Some(self.condition()?)) } else { Ok(None) }
    }

    fn item(&mut self) -> Result<Item, Fault> {
        let value = match self.function_word() {
            Some(fold) => ItemValue::Computed(self.set_function(fold)?),
            None => ItemValue::Grouped(self.mention()?),
        };
        let named = self.take(Sign::As) || self.begins_with_name();
        let alias = if named { Some(self.mention()?.name) } else { None };
        Ok(Item { value, alias })
    }

    fn function_word(&mut self) -> Option<Fold> {
        let fold = match self.peek()? {
            Kind::Sign(Sign::Count) => Fold::Count,
            Kind::Sign(Sign::Sum) => Fold::Sum,
            Kind::Sign(Sign::Avg) => Fold::Avg,
            Kind::Sign(Sign::Min) => Fold::Min,
            Kind::Sign(Sign::Max) => Fold::Max,
            _ => return None,
        };
        self.next += 1;
        Some(fold)
    }

    fn set_function(&mut self, fold: Fold) -> Result<SetFunction, Fault> {
        self.expect(Sign::OpenParen)?;
        let function = if matches!(fold, Fold::Count) && self.take(Sign::Asterisk) {
            SetFunction::CountRows
        } else {
            let distinct = self.take(Sign::Distinct);
            if !distinct {
                self.take(Sign::All);
            }
            SetFunction::Of { fold, distinct, column: self.mention()? }
        };
        self.expect(Sign::CloseParen)?;
        Ok(function)
    }

    fn condition(&mut self) -> Result<Condition, Fault> {
        let terms = self.many(Sign::Or, |parser| parser.many(Sign::And, Self::factor))?;
        Ok(Condition { terms })
    }

    fn factor(&mut self) -> Result<Factor, Fault> {
        let negated = self.take(Sign::Not);
        let primary = self.primary()?;
        let is = if self.take(Sign::Is) { Some(self.truth()?) } else { None };
        Ok(Factor { negated, primary, is })
    }

    fn primary(&mut self) -> Result<Primary, Fault> {
        if !self.take(Sign::OpenParen) {
            return Ok(Primary::Predicate(self.predicate()?));
        }
        if self.depth == MAX_DEPTH {
            return Err(Fault::TooDeep);
        }
        self.depth += 1;
        let inner = self.condition()?;
        self.expect(Sign::CloseParen)?;
        self.depth -= 1;
        Ok(Primary::Nested(Box::new(inner)))
    }

    fn truth(&mut self) -> Result<IsTruth, Fault> {
        let negated = self.take(Sign::Not);
        let truth = match self.peek() {
            Some(Kind::Sign(Sign::True)) => Truth::True,
            Some(Kind::Sign(Sign::False)) => Truth::False,
            Some(Kind::Sign(Sign::Unknown)) => Truth::Unknown,
            _ => return Err(self.syntax()),
        };
        self.next += 1;
        Ok(IsTruth { negated, truth })
    }

    fn comparison(&mut self) -> Option<Op> {
        let op = match self.peek()? {
            Kind::Sign(Sign::Equal) => Op::Equal,
            Kind::Sign(Sign::NotEqual) => Op::NotEqual,
            Kind::Sign(Sign::Less) => Op::Less,
            Kind::Sign(Sign::LessOrEqual) => Op::LessOrEqual,
            Kind::Sign(Sign::Greater) => Op::Greater,
            Kind::Sign(Sign::GreaterOrEqual) => Op::GreaterOrEqual,
            _ => return None,
        };
        self.next += 1;
        Some(op)
    }

    fn predicate(&mut self) -> Result<Predicate, Fault> {
        let operand = self.operand()?;
        if let Some(op) = self.comparison() {
            return Ok(Predicate::Compare { left: operand, op, right: self.operand()? });
        }
        if self.take(Sign::Is) {
            let negated = self.take(Sign::Not);
            self.expect(Sign::Null)?;
            return Ok(Predicate::IsNull { operand, negated });
        }
        let negated = self.take(Sign::Not);
        if self.take(Sign::Between) {
            let low = self.operand()?;
            self.expect(Sign::And)?;
            let high = self.operand()?;
            return Ok(Predicate::Between { operand, negated, low, high });
        }
        self.expect(Sign::In)?;
        self.expect(Sign::OpenParen)?;
        let literals = self.many(Sign::Comma, Self::literal)?;
        self.expect(Sign::CloseParen)?;
        Ok(Predicate::In { operand, negated, literals })
    }

    fn operand(&mut self) -> Result<Operand, Fault> {
        if self.begins_with_name() {
            return Ok(Operand::Column(self.mention()?));
        }
        if self.functions {
            if let Some(fold) = self.function_word() {
                return Ok(Operand::Function(self.set_function(fold)?));
            }
        }
        Ok(Operand::Literal(self.literal()?))
    }

    fn literal(&mut self) -> Result<i128, Fault> {
        let negative = self.take(Sign::Minus);
        if !negative {
            self.take(Sign::Plus);
        }
        let Some(Kind::Digits(digits)) = self.peek() else {
            return Err(self.syntax());
        };
        let zeros = digits.iter().take_while(|&&digit| digit == b'0').count();
        let digits = &digits[zeros..];
        if digits.len() > MAX_DIGITS {
            return Err(Fault::NumberTooLarge(self.place()));
        }
        self.next += 1;
        let value = digits.iter().fold(0i128, |value, digit| value * 10 + i128::from(digit - b'0'));
        Ok(if negative { -value } else { value })
    }
}
