//! A plain tokenizer of the query language.

#[derive(Clone, Copy, PartialEq, Eq)]
pub enum Sign {
    All,
    And,
    As,
    Avg,
    Between,
    By,
    Count,
    Distinct,
    False,
    From,
    Group,
    Having,
    In,
    Is,
    Max,
    Min,
    Not,
    Null,
    Or,
    Select,
    Sum,
    True,
    Unknown,
    Where,
    OpenParen,
    CloseParen,
    Comma,
    Asterisk,
    Plus,
    Minus,
    Equal,
    NotEqual,
    Less,
    LessOrEqual,
    Greater,
    GreaterOrEqual,
}

#[derive(Clone, Copy)]
pub enum Kind<'a> {
    Sign(Sign),
    Identifier(&'a str),
    Digits(&'a [u8]),
    Bad,
}

#[derive(Clone, Copy)]
pub struct Token<'a> {
    pub kind: Kind<'a>,
    pub at: u64,
}

/// The keyword that a word is, in either case.
fn keyword(word: &[u8]) -> Option<Sign> {
    let mut upper = [0; 8];
    let upper = upper.get_mut(..word.len())?;
    upper.copy_from_slice(word);
    upper.make_ascii_uppercase();
    Some(match &*upper {
        b"ALL" => Sign::All,
        b"AND" => Sign::And,
        b"AS" => Sign::As,
        b"AVG" => Sign::Avg,
        b"BETWEEN" => Sign::Between,
        b"BY" => Sign::By,
        b"COUNT" => Sign::Count,
        b"DISTINCT" => Sign::Distinct,
        b"FALSE" => Sign::False,
        b"FROM" => Sign::From,
        b"GROUP" => Sign::Group,
        b"HAVING" => Sign::Having,
        b"IN" => Sign::In,
        b"IS" => Sign::Is,
        b"MAX" => Sign::Max,
        b"MIN" => Sign::Min,
        b"NOT" => Sign::Not,
        b"NULL" => Sign::Null,
        b"OR" => Sign::Or,
        b"SELECT" => Sign::Select,
        b"SUM" => Sign::Sum,
        b"TRUE" => Sign::True,
        b"UNKNOWN" => Sign::Unknown,
        b"WHERE" => Sign::Where,
        _ => return None,
    })
}

fn is_word_byte(byte: u8) -> bool {
    byte.is_ascii_alphanumeric() || byte == b'_'
}

fn word_kind(word: &str) -> Kind<'_> {
    if word.len() > 64 {
        return Kind::Bad;
    }
    match keyword(word.as_bytes()) {
        Some(sign) => Kind::Sign(sign),
        None => Kind::Identifier(word),
    }
}

/// The sign that a text begins with, and how many bytes it takes.
fn symbol(text: &[u8]) -> (Kind<'_>, usize) {
    let (sign, length) = match (text[0], text.get(1)) {
        (b'<', Some(b'>')) => (Sign::NotEqual, 2),
        (b'<', Some(b'=')) => (Sign::LessOrEqual, 2),
        (b'>', Some(b'=')) => (Sign::GreaterOrEqual, 2),
        (b'(', _) => (Sign::OpenParen, 1),
        (b')', _) => (Sign::CloseParen, 1),
        (b',', _) => (Sign::Comma, 1),
        (b'*', _) => (Sign::Asterisk, 1),
        (b'+', _) => (Sign::Plus, 1),
        (b'-', _) => (Sign::Minus, 1),
        (b'=', _) => (Sign::Equal, 1),
        (b'<', _) => (Sign::Less, 1),
        (b'>', _) => (Sign::Greater, 1),
        _ => return (Kind::Bad, 1),
    };
    (Kind::Sign(sign), length)
}

/// How many bytes from the start pass a test.
fn leading(text: &[u8], test: impl Fn(u8) -> bool) -> usize {
    text.iter().position(|&byte| !test(byte)).unwrap_or(text.len())
}

pub fn tokens_of(text: &str) -> Vec<Token<'_>> {
    let bytes = text.as_bytes();
    let mut tokens = Vec::new();
    let mut at = 0;
    while let Some(&first) = bytes.get(at) {
        let (kind, length) = match first {
            b' ' | b'\t' | b'\n' | b'\r' => {
                at += 1;
                continue;
            }
            b'a'..=b'z' | b'A'..=b'Z' => {
                let length = leading(&bytes[at..], is_word_byte);
                (word_kind(&text[at..at + length]), length)
            }
            b'0'..=b'9' => {
                let length = leading(&bytes[at..], |byte| byte.is_ascii_digit());
                let glued = bytes.get(at + length).is_some_and(|&byte| is_word_byte(byte));
                let kind = if glued { Kind::Bad } else { Kind::Digits(&bytes[at..at + length]) };
                (kind, length)
            }
            _ => symbol(&bytes[at..]),
        };
        tokens.push(Token { kind, at: at as u64 });
        at += length;
    }
    tokens
}
