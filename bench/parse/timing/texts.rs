//! The texts that are parsed.

/// About how many bytes each text has.
const LENGTH: usize = 100_000;

/// A front, pieces by their number until the text is long enough, and a back.
fn text(front: &str, piece: impl Fn(usize) -> String, back: &str) -> String {
    let mut text = front.to_string();
    for i in 0.. {
        if text.len() >= LENGTH {
            break;
        }
        text.push_str(&piece(i));
    }
    text + back
}

const FROM_T: &str = "SELECT COUNT(*) FROM T WHERE ";
const NAMES: [&str; 6] = ["Site", "quantity", "PRICE_2", "A", "day_of_year", "Kind"];
const OPS: [&str; 6] = ["=", "<>", "<", "<=", ">", ">="];

fn name(i: usize) -> &'static str {
    NAMES[i % 6]
}

fn mixed(i: usize) -> String {
    let (a, b, n) = (name(i), name(i + 3), i % 1000);
    match i % 6 {
        0 => format!("({a} between {n} and 2000 or not {b} is null) and "),
        1 => format!("NOT ({a} IN (1, -{n}, 3) IS UNKNOWN) OR "),
        2 => format!("{a}{}-{n} AND ", OPS[n % 6]),
        3 => format!("{a} NOT BETWEEN {b} AND +00{n} OR "),
        4 => format!("((({n} >= {a})) IS NOT FALSE) AND "),
        _ => format!("{a} IS NOT NULL IS TRUE OR "),
    }
}

/// Each kind of text with its name. Each is a query.
pub fn texts() -> [(&'static str, String); 6] {
    [
        ("comparisons under OR", text(FROM_T, |_| "A=1 OR ".into(), "A=1")),
        ("comparisons under AND", text(FROM_T, |_| "A=1 AND ".into(), "A=1")),
        ("mixed predicates", text(FROM_T, mixed, "A=1")),
        ("IN lists", text(FROM_T, |i| format!("{} IN({i},-{},7,123456789012) OR ", name(i), i * i), "A IN(1)")),
        ("select items", text("SELECT A", |i| format!(",SUM(DISTINCT {}) AS Total_{i}", name(i)), " FROM T GROUP BY A")),
        ("blanks", text(FROM_T, |_| "  A \t = \r\n        1     OR   \n ".into(), "A=1")),
    ]
}

/// A query with each production of the grammar, whose prefixes have faults of their own.
pub const EACH_PRODUCTION: &str = "SELECT A AS B,COUNT(*),SUM(DISTINCT A) s,AVG(ALL A) FROM T \
    WHERE NOT(A<>-1 OR A BETWEEN 1 AND +2)IS NOT UNKNOWN AND A NOT IN(1,-2)AND A IS NOT NULL GROUP BY A,A \
    HAVING MIN(A)<=MAX(A)OR COUNT(DISTINCT A)>=1 AND A=0 IS TRUE OR NOT A IN(3)IS FALSE AND SUM(A)NOT BETWEEN A AND 2 \
    OR A IS NULL OR 1<A AND A>1234567890123456789012345678901";
