"""What a query is refused with that another system would take, or that is nearly one: the place, and what to write instead."""

from cases import ONE_ROW, Case

CURES = [
    ("SELECT COUNT(DISTINCT *) FROM T", 22, "DISTINCT and ALL take a column: COUNT(*) counts rows"),
    ("SELECT COUNT(1) FROM T", 13, "COUNT(*) counts rows, and a set function takes a column"),
    ("SELECT COUNT(*) FROM T WHERE A IS NOT NUL", 38, '"NUL" is not possible here; expected NULL'),
    ("SELECT COUNT(*) FROM T WHERE A NOT 5", 35, '"5" is not possible here; expected BETWEEN or IN'),
    ("SELECT COUNT(*) FROM T WHERE A = NULL", 33, "nothing is equal to NULL, nor less or greater: write IS NULL or IS NOT NULL"),
    ("SELECT COUNT(*) FROM T WHERE A IS TRUE", 34, "a column is NULL or NOT NULL: IS TRUE, IS FALSE and IS UNKNOWN come after a condition"),
    ("SELECT COUNT(*) FROM T WHERE A = 1 IS NULL", 38, "a condition is TRUE, FALSE or UNKNOWN: IS NULL comes after a column or a set function"),
    ("SELECT COUNT(*) FROM T WHERE SUM(A) > 1", 29, "WHERE has no set functions: write this condition in HAVING"),
    ("SELECT A FROM T GROUP BY A WHERE A = 1", 27, "WHERE comes before GROUP BY and HAVING"),
    ("SELECT A, SUM(A) AS S FROM T GROUP BY A HAVING S > 1", 47, '"S" is an alias, which only the heading has: write what it names'),
    ("SELECT COUNT(*) FROM T WHERE A IN ()", 35, "the list of IN is empty: it has at least one whole number"),
    ("SELECT COUNT(*) FROM T WHERE A BETWEEN 1 OR 2", 41, "BETWEEN is written with AND: BETWEEN 1 AND 2"),
    ("SELECT COUNT(*) FROM T WHERE (A = 1", 35, "the text ends too early: the parenthesis at byte 29 is not closed; expected AND, OR, IS or )"),
    ("SELECT COUNT(*) FROM T WHERE \u00e9 = 1", 29, "names have the letters A to Z, digits and _ only, in either case"),
]


def refused(query, at, sentence):
    kind = "NoSuchColumn" if "alias" in sentence else "Syntax"
    wanted = f"refused {kind} {at}\nt: byte {at}: {sentence}\n".encode()
    return Case(f"what to write instead is said of {query}", ["query", "t", query], 1, err=wanted, files={"t": ONE_ROW})


CURE_CASES = [refused(*cure) for cure in CURES]
