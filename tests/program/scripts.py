"""Scripts and the replies that they have, and files that are exported and opened, worked out by hand from docs/FORMATS.md."""

from cases import ONE_ROW, Case, batch, file_of

ONE = ONE_ROW.hex()

# Scripts, and what they write.
SCRIPTS = [
    # One row of 8 bits: the file of 41 bytes, of version 2; a file of version 1 has no column of 8 bits.
    (
        "table 2 T A TINYINT\nappend 1 (7)\nexport 1\nopen 2 464C434601000100015401014101000000010000000100000000000000000000070000000000000000\nappend 1 (128)\n",
        "ok\nok 1.1\nok 464c434602000100015401014101000000010000000100000000000000000000070000000000000000\nrefused BadSchema\nrefused OutOfType 0 0\n",
    ),
    # A row that is deleted already isn't counted again, a NULL is neither, and rows that come later stay.
    (
        "table 2 T A SMALLINT\nappend 1 (1),(NULL),(3)\ndelete where 1 NOT A = 1\ndelete where 1 NOT A = 1\nmerge 2 1\nappend 2 (3)\nquery 2 SELECT COUNT(*),SUM(A) FROM T\n",
        "ok\nok 1.1\nok 1\nok 0\nok\nok 2.1\nok 1\nCOUNT(*),SUM(A)\n3,4\n",
    ),
    # The order of the refusals of a delete by a condition: its form as a line, its replica, its text, its columns.
    (
        "table 2 T A SMALLINT\ndelete where 1 A =\ndelete where 1 COUNT(*) > 0\ndelete where 1 B = 1\ndelete where 3 A = 1\ndelete where 3 A =\ndelete where 3 \ndelete where 1 \ndelete where 1  \ndelete where 1   \ndelete where 1 A = 1 \n",
        "ok\nrefused Syntax 3\nrefused Syntax 0\nrefused NoSuchColumn 0\nrefused NoSuchReplica\nrefused NoSuchReplica\nrefused BadLine\nrefused BadLine\nrefused Syntax 1\nrefused Syntax 2\nok 0\n",
    ),
    (
        "table 2 T A SMALLINT\nappend 1 (7)\nmerge 2 1\nquery 2 SELECT COUNT(*) FROM T\nquery 2 SELECT COUNT(*) FROM U\n",
        "ok\nok 1.1\nok\nok 1\nCOUNT(*)\n1\nrefused NoSuchTable\n",
    ),
    (
        "table 2 T A SMALLINT\ndelete 1 2.1 0 0\nappend 2 (1),(2),(3)\ndelete 2 2.1 9 9\nmerge 1 2\nmerge 2 1\nquery 1 SELECT COUNT(*) FROM T\n",
        "ok\nok\nok 2.1\nok\nok\nok\nok 1\nCOUNT(*)\n2\n",
    ),
    (
        "table 2 T A SMALLINT\ninsert 1 1.1 (1)\ninsert 2 1.1 (2)\nmerge 1 2\nquery 1 SELECT MIN(A) FROM T\ninsert 1 1.1 (1)\n",
        "ok\nok new\nok new\nrefused Conflict 1.1\nok 1\nMIN(A)\n1\nok already\n",
    ),
    (
        "table 2 T A SMALLINT\ninsert 1 1.4294967295 (1)\nappend 1 (2)\n",
        "ok\nok new\nrefused NumbersSpent\n",
    ),
    (
        "table 2 T A SMALLINT\nappend 1 (1,2)\nappend 1 (32768)\nmerge 3 1\nmerge 0 0\nappend 1 7\ndelete 1 0.1 0 0\ndelete 1 1.1 5 4\n",
        "ok\nrefused WrongArity 0\nrefused OutOfType 0 0\nrefused NoSuchReplica\nrefused NoSuchReplica\nrefused BadLine\nrefused BadName\nrefused BadRange 0\n",
    ),
    # Before a table each other line is BadLine; a refused table makes nothing; a second one is BadLine.
    (
        "merge 1 1\ntable 65 T A SMALLINT\ntable 1 T A FLOAT\ntable 1 1T A SMALLINT\ntable 1 T A SMALLINT\ntable 1 T A SMALLINT\nmerge 1 1\n",
        "refused BadLine\nrefused BadLine\nrefused BadLine\nrefused BadSchema\nok\nrefused BadLine\nok\n",
    ),
    # An empty line has no reply, and a last line without a line feed counts.
    ("\n\ntable 1 T A SMALLINT\n\nmerge 1 1", "ok\nok\n"),
    # Empty words and bytes outside 20 to 7E are BadLine; leading zeros are taken, and a minus zero is zero.
    (
        "table 1 T A SMALLINT\nmerge  1 1\nmerge 1 1 \n merge 1 1\nmerge\t1 1\nmerge 01 0000000001\nappend 1 (-0),(NULL),(007)\nappend 1 (+1)\nappend 1 (null)\n",
        "ok\nrefused BadLine\nrefused BadLine\nrefused BadLine\nrefused BadLine\nok\nok 1.1\nrefused BadLine\nrefused BadLine\n",
    ),
    # Numbers of 11 digits, ordinals of 6 and values of 31 are BadLine, and so is a number past its limit.
    (
        "table 1 T A SMALLINT\nmerge 1 00000000001\nmerge 1 4294967296\ndelete 1 1.1 0 000001\ndelete 1 1.1 0 65536\nappend 1 (0000000000000000000000000000001)\nappend 1 (000000000000000000000000000001)\n",
        "ok\nrefused BadLine\nrefused BadLine\nrefused BadLine\nrefused BadLine\nrefused BadLine\nok 1.1\n",
    ),
    # Rows are values in parentheses, joined by commas, without spaces.
    (
        "table 1 T A SMALLINT B BIGINT\nappend 1 (1,2),(3,4)\nappend 1 (1,2)(3,4)\nappend 1 (1,2),\nappend 1 ()\nappend 1 (1,,2)\nappend 1 (1, 2)\nquery 1 SELECT COUNT(*) FROM T\n",
        "ok\nok 1.1\nrefused BadLine\nrefused BadLine\nrefused BadLine\nrefused BadLine\nrefused BadLine\nok 1\nCOUNT(*)\n2\n",
    ),
    # The order of a query's refusals: its form as a line, its replica, its text.
    (
        "table 1 t A SMALLINT\nquery 9 SELECT COUNT(*) FROM U\nquery 9 SELECT COUNT(*) FROM T\nquery 1 \nquery 1\nask 1\n",
        "ok\nrefused NoSuchReplica\nrefused NoSuchReplica\nrefused BadLine\nrefused BadLine\nok 1\n",
    ),
    # No such batch, a replica that isn't there, origin 0, a column and a vector past the last, a coding in lower case.
    (
        "table 1 T A SMALLINT\nappend 1 (7)\nrecode 1 9.9 0 0 FOR\nrecode 0 1.1 0 0 FOR\nrecode 1 0.1 0 0 FOR\nrecode 1 1.1 1 0 FOR\nrecode 1 1.1 0 1 RLE\nrecode 1 1.1 0 0 for\nrecode 1 1.1 0 0 RLE \nrecode 1 1.1 0 0 DELTA\n",
        "ok\nok 1.1\nrefused NoSuchVector\nrefused NoSuchReplica\nrefused NoSuchVector\nrefused NoSuchVector\nrefused NoSuchVector\nrefused BadLine\nrefused BadLine\nok\n",
    ),
    # No such message: no such number, a serve of an offer, a take of a summary; and a replica that isn't there comes first.
    (
        "table 2 T A SMALLINT\nserve 1 1\ntake 1 0\nask 1\nserve 2 2\nserve 2 0\nserve 2 1\nserve 1 2\ntake 1 1\ntake 3 9\nask 0\nserve 3 9\nask 1 \nask\nserve 1\ntake 1 x\ntake 1 2\nask 2\n",
        "ok\nrefused NoSuchMessage\nrefused NoSuchMessage\nok 1\nrefused NoSuchMessage\nrefused NoSuchMessage\nok 2\nrefused NoSuchMessage\nrefused NoSuchMessage\nrefused NoSuchReplica\nrefused NoSuchReplica\nrefused NoSuchReplica\nrefused BadLine\nrefused BadLine\nrefused BadLine\nrefused BadLine\nok\nok 3\n",
    ),
    # One row, merged and exported: the file of 42 bytes; opened again, it changes nothing, also in upper case.
    (
        "table 2 T A SMALLINT\nappend 1 (7)\nmerge 2 1\nquery 2 SELECT COUNT(*) FROM T\nexport 2\nopen 1 464C43460100010001540201410100000001000000010000000000000000000007000000000000000000\nexport 1\n",
        "ok\nok 1.1\nok\nok 1\nCOUNT(*)\n1\nok 464c43460100010001540201410100000001000000010000000000000000000007000000000000000000\nok\nok 464c43460100010001540201410100000001000000010000000000000000000007000000000000000000\n",
    ),
    # A file opened where nothing was held brings its row.
    (
        "table 2 T A SMALLINT\nappend 1 (7)\nopen 2 464C43460100010001540201410100000001000000010000000000000000000007000000000000000000\nquery 2 SELECT COUNT(*) FROM T\n",
        "ok\nok 1.1\nok\nok 1\nCOUNT(*)\n1\n",
    ),
    # Deletions of two replicas, and no batch: one maximal range, a file of 37 bytes.
    (
        "table 2 T A SMALLINT\ndelete 1 1.1 0 4\ndelete 2 1.1 5 9\nmerge 1 2\nexport 1\n",
        "ok\nok\nok\nok\nok 464c4346010001000154020141000000000100000000000000010000000100000000000900\n",
    ),
    # An odd number of digits, none, other letters; a replica that isn't there; bytes of another format and too few of them.
    (
        "table 1 T A SMALLINT\nopen 1 464\nopen 1 \nopen 1\nopen 1 4G\nopen 2 46\nopen 2 464\nopen 1 46\nopen 1 464C434D0100\nexport 2\nexport\nexport 1 1\n",
        "ok\nrefused BadLine\nrefused BadLine\nrefused BadLine\nrefused BadLine\nrefused NoSuchReplica\nrefused BadLine\nrefused Truncated 1\nrefused BadMagic\nrefused NoSuchReplica\nrefused BadLine\nrefused BadLine\n",
    ),
    # Extremes of 64 bits, a null, and a row that is deleted.
    (
        "table 1 T A BIGINT\nappend 1 (-9223372036854775808),(-9223372036854775808),(NULL),(5)\ndelete 1 1.1 3 3\nquery 1 SELECT COUNT(*),COUNT(A),SUM(A),AVG(A) FROM T\n",
        "ok\nok 1.1\nok\nok 1\nCOUNT(*),COUNT(A),SUM(A),AVG(A)\n3,2,-18446744073709551616,-9223372036854775808.000000\n",
    ),
    # No rows: one group of none without GROUP BY, no group with it.
    (
        "table 1 T A SMALLINT\nquery 1 SELECT COUNT(*),SUM(A) FROM T\nquery 1 SELECT COUNT(*),SUM(A) FROM T GROUP BY A\n",
        "ok\nok 1\nCOUNT(*),SUM(A)\n0,NULL\nok 0\nCOUNT(*),SUM(A)\n",
    ),
    # Three truth values.
    (
        "table 1 T A SMALLINT\nappend 1 (1),(NULL),(3)\nquery 1 SELECT COUNT(*) FROM T WHERE A NOT IN (1,2)\nquery 1 SELECT COUNT(*) FROM T WHERE (A = 1) IS UNKNOWN\nquery 1 SELECT COUNT(*) FROM T WHERE NOT A = 1\n",
        "ok\nok 1.1\nok 1\nCOUNT(*)\n1\nok 1\nCOUNT(*)\n1\nok 1\nCOUNT(*)\n1\n",
    ),
    # Groups by a column with nulls, null first.
    (
        "table 1 T A SMALLINT B SMALLINT\nappend 1 (1,NULL),(1,3),(NULL,4),(NULL,NULL)\nquery 1 SELECT A,COUNT(*),COUNT(B),SUM(B) FROM T GROUP BY A\n",
        "ok\nok 1.1\nok 2\nA,COUNT(*),COUNT(B),SUM(B)\nNULL,2,1,4\n1,2,1,3\n",
    ),
    # A mean below zero, truncated toward it, under an alias; HAVING that keeps no group.
    (
        "table 1 T A SMALLINT\nappend 1 (-1),(-1),(0)\nquery 1 select avg(a) as mean from t\nquery 1 SELECT COUNT(*) FROM T HAVING COUNT(*) > 5\n",
        "ok\nok 1.1\nok 1\nMEAN\n-0.666666\nok 0\nCOUNT(*)\n",
    ),
    # Duplicates taken out where DISTINCT asks for it, and HAVING with AVG and a count of no values.
    (
        "table 1 T A SMALLINT\nappend 1 (5),(NULL),(5),(2)\nquery 1 SELECT COUNT(DISTINCT A),SUM(ALL A),SUM(DISTINCT A),MIN(A),MAX(A) FROM T\nquery 1 SELECT A N FROM T GROUP BY A HAVING AVG(A) >= 5 OR COUNT(A) = 0\n",
        "ok\nok 1.1\nok 1\nCOUNT(DISTINCT A),SUM(A),SUM(DISTINCT A),MIN(A),MAX(A)\n2,12,7,2,5\nok 2\nN\nNULL\n5\n",
    ),
    # Columns of two types compared with each other.
    (
        "table 1 T A SMALLINT B BIGINT\nappend 1 (1,1),(2,1),(NULL,1),(1,NULL)\nquery 1 SELECT COUNT(*) FROM T WHERE A > B\nquery 1 SELECT COUNT(*) FROM T WHERE (A > B) IS UNKNOWN\n",
        "ok\nok 1.1\nok 1\nCOUNT(*)\n1\nok 1\nCOUNT(*)\n2\n",
    ),
    # Refused queries, each with its place.
    (
        "table 1 T A SMALLINT\nquery 1 SELECT COUNT(*) FROM T WHERE\nquery 1 SELECT A FROM T\nquery 1 SELECT COUNT(B) FROM T\nquery 1 SELECT COUNT(*) FROM U\nquery 1 SELECT COUNT(*) FROM T WHERE A<1111111111111111111111111111111\nquery 1 SELECT COUNT(*) FROM T WHERE A<111111111111111111111111111111\nquery 1 SELECT COUNT(*) FROM T WHERE (((((((((((((((((((((((((((((((((((((((((((((((((((((((((((((((((\n",
        "ok\nrefused Syntax 28\nrefused NotGrouped 7\nrefused NoSuchColumn 13\nrefused NoSuchTable\nrefused NumberTooLarge 31\nok 1\nCOUNT(*)\n0\nrefused TooDeep\n",
    ),
    ("", ""),
]

# Scripts, and the notes on their refused lines. Empty lines count.
NOTED = [
    ("table 1 T A SMALLINT\nappend 1 (1)\n", ""),
    (
        "merge 1 1\ntable 65 T A SMALLINT\ntable 1\ntable 1 T A FLOAT\ntable 1 1T A SMALLINT\n",
        "line 1: refused BadLine: the first line makes the table: table N NAME COL TYPE [COL TYPE]..\nline 2: refused BadLine: a table has 1 to 64 replicas\nline 3: refused BadLine: a table is written table N NAME COL TYPE [COL TYPE]..\nline 4: refused BadLine: a column is a name and TINYINT, SMALLINT, INTEGER or BIGINT\nline 5: refused BadSchema: a table has a name and 1 to 32 columns of different names; a name is a letter and up to 63 letters, digits or _, and no keyword\n",
    ),
    # Empty lines count.
    (
        "table 1 T A SMALLINT\n\nappend 2 (1)\nappend 1 7\nappend 1\nappend x (7)",
        "line 3: refused NoSuchReplica: there is no such replica\nline 4: refused BadLine: rows are written (V,..),(V,..)\nline 5: refused BadLine: an append is written append R (V,..),(V,..)\nline 6: refused BadLine: a replica is a number of 1 to 10 digits, at most 4294967295\n",
    ),
    (
        "table 1 T A SMALLINT\ninsert 1 1.1\ninsert 1 11 (1)\ninsert 1 1.1 1\n",
        "line 2: refused BadLine: an insert is written insert R O.N (V,..),(V,..)\nline 3: refused BadLine: a batch is named O.N, two numbers of 1 to 10 digits, each at most 4294967295\nline 4: refused BadLine: rows are written (V,..),(V,..)\n",
    ),
    (
        "table 1 T A SMALLINT\ndelete 1 1.1 0\ndelete 1 1.1 0 65536\ndelete 1 1.1 5 4\n",
        "line 2: refused BadLine: a delete is written delete R O.N FIRST LAST or delete where R COND\nline 3: refused BadLine: an ordinal is a number of 1 to 5 digits, at most 65535\nline 4: refused BadRange 0: the range ends before it starts\n",
    ),
    (
        "table 1 T A SMALLINT\nmerge 1\nmerge 1 x\n",
        "line 2: refused BadLine: a merge is written merge R Q\nline 3: refused BadLine: a replica is a number of 1 to 10 digits, at most 4294967295\n",
    ),
    (
        "table 1 T A SMALLINT\nask 1 1\nserve 1\nserve 1 x\ntake 1\ntake 1 -1\ntake 1 1\n",
        "line 2: refused BadLine: an ask is written ask R, R being a replica's number\nline 3: refused BadLine: a serve is written serve R M\nline 4: refused BadLine: a message is a number of 1 to 10 digits, at most 4294967295\nline 5: refused BadLine: a take is written take R M\nline 6: refused BadLine: a message is a number of 1 to 10 digits, at most 4294967295\nline 7: refused NoSuchMessage: there is no such message\n",
    ),
    (
        "table 1 T A SMALLINT\nquery 1\nquery 1 SELECT A FROM T\n",
        "line 2: refused BadLine: a query is written query R SQL\nline 3: refused NotGrouped 7: \"A\" must be in GROUP BY or inside a set function\n",
    ),
    (
        "table 1 T A SMALLINT\nrecode 1 1.1 0 0\nrecode 1 11 0 0 FOR\nrecode 1 1.1 x 0 FOR\nrecode 1 1.1 0 x FOR\nrecode 1 1.1 0 0 for\nrecode 1 1.1 0 0 FOR RLE\n",
        "line 2: refused BadLine: a recode is written recode R O.N COLUMN VECTOR CODING\nline 3: refused BadLine: a batch is named O.N, two numbers of 1 to 10 digits, each at most 4294967295\nline 4: refused BadLine: a column and a vector are numbers of 1 to 10 digits, at most 4294967295, counted from 0\nline 5: refused BadLine: a column and a vector are numbers of 1 to 10 digits, at most 4294967295, counted from 0\nline 6: refused BadLine: a coding is FOR, DELTA, RLE or DICT\nline 7: refused BadLine: a recode is written recode R O.N COLUMN VECTOR CODING\n",
    ),
    (
        "table 1 T A SMALLINT\nopen\nopen 1\nopen x 46\nopen 1 464\nopen 1 4G\nexport\nexport x\nexport 1 1\n",
        "line 2: refused BadLine: an open is written open R HEX\nline 3: refused BadLine: an open is written open R HEX\nline 4: refused BadLine: a replica is a number of 1 to 10 digits, at most 4294967295\nline 5: refused BadLine: a file is its bytes as hexadecimal digits, two for each, and at least one byte\nline 6: refused BadLine: a file is its bytes as hexadecimal digits, two for each, and at least one byte\nline 7: refused BadLine: an export is written export R, R being a replica's number\nline 8: refused BadLine: a replica is a number of 1 to 10 digits, at most 4294967295\nline 9: refused BadLine: an export is written export R, R being a replica's number\n",
    ),
    (
        "table 1 T A SMALLINT\ndelete where\ndelete where 1\ndelete where x A = 1\ndelete where 1 \nmerge 1 1 1\n",
        "line 2: refused BadLine: a delete is written delete R O.N FIRST LAST or delete where R COND\nline 3: refused BadLine: a delete by a condition is written delete where R COND\nline 4: refused BadLine: a replica is a number of 1 to 10 digits, at most 4294967295\nline 5: refused BadLine: the condition of a delete is not empty\nline 6: refused BadLine: a merge is written merge R Q\n",
    ),
    (
        "table 1 T A SMALLINT\nAPPEND 1 (1)\nmerge\t1 1\n",
        "line 2: refused BadLine: a line begins with append, insert, delete, merge, ask, serve, take, recode, open, export or query, and words are separated by one space each\nline 3: refused BadLine: a line has printable ASCII characters alone\n",
    ),
    (
        "table 1 T A SMALLINT\nquery 1 SELECT * FROM T\nquery 1 SELECT COUNT(*) FROM U\ndelete where 1 B = 1\nquery 1 SELECT SUM(A) FROM T WHERE A < 1234567890123456789012345678901\n",
        "line 2: refused Syntax 7: a query lists grouping columns and set functions: lanes dump writes the rows\nline 3: refused NoSuchTable: there is no table \"U\": the table here is T\nline 4: refused NoSuchColumn 0: there is no column \"B\": the table has A\nline 5: refused NumberTooLarge 31: the number has more than 30 digits\n",
    ),
    (
        "table 1 T A SMALLINT,\n",
        "line 1: refused BadLine: a column is a name and TINYINT, SMALLINT, INTEGER or BIGINT\n",
    ),
    (
        "table 1 T A SMALLINT B TINYINT\nappend 1 (1)\ninsert 1 1.1 (1,128)\n",
        "line 2: refused WrongArity 0: the row has the wrong number of cells: the columns are A, B\nline 3: refused OutOfType 0 1: the number is outside the type TINYINT of B\n",
    ),
    (
        "table 1 T A SMALLINT\ntable 1 T A SMALLINT\n",
        "line 2: refused BadLine: there is one table, and it is made already\n",
    ),
]

# Scripts after which both replicas have the same, their replies, and the file that both then export, in hexadecimal digits.
EXPORTS = [
    # One row; and the same where a replica has it in other codings, taken by the other or not.
    (
        "table 2 T A SMALLINT\nappend 1 (7)\nmerge 2 1\nquery 2 SELECT COUNT(*) FROM T\n",
        "ok\nok 1.1\nok\nok 1\nCOUNT(*)\n1\n",
        ONE,
    ),
    (
        "table 2 T A SMALLINT\nappend 1 (7)\nmerge 2 1\nrecode 2 1.1 0 0 DICT\nmerge 1 2\nmerge 2 1\nrecode 1 1.1 0 0 DELTA\nrecode 2 1.1 1 0 FOR\nquery 1 SELECT COUNT(*) FROM T\nquery 2 SELECT COUNT(*) FROM T\n",
        "ok\nok 1.1\nok\nok\nok\nok\nok\nrefused NoSuchVector\nok 1\nCOUNT(*)\n1\nok 1\nCOUNT(*)\n1\n",
        ONE,
    ),
    # A row deleted before it came and one past the batch's end: 198 bytes, that end with two ranges. Three runs take fewer
    # bytes than any other coding: they start at rows 1 and 2, beside row 0.
    (
        "table 2 T A SMALLINT\ndelete 1 2.1 0 0\nappend 2 (1),(2),(3)\ndelete 2 2.1 9 9\nmerge 1 2\nmerge 2 1\nquery 1 SELECT COUNT(*),SUM(A) FROM T\n",
        "ok\nok\nok 2.1\nok\nok\nok\nok 1\nCOUNT(*),SUM(A)\n2,5\n",
        "464c43460100010001540201410100000002000000010000000200000201030006" + "00" * 127 + "0100020003000200000000000000020000000100000000000000020000000100000009000900",
    ),
    # A null: a mask with bit 1 set, and a run of 3 from row 2 on; 300 bytes.
    (
        "table 2 T A SMALLINT\nappend 1 (1),(NULL),(3)\nmerge 2 1\n",
        "ok\nok 1.1\nok\n",
        "464c434601000100015402014101000000010000000100000002000102" + "00" * 127 + "0201020004" + "00" * 127 + "010003000000000000000000",
    ),
    # A gap that is asked for and served, with a deletion that came meanwhile: three batches of one row, and one range.
    (
        "table 2 T A SMALLINT\nappend 1 (1)\nappend 1 (2)\nappend 1 (3)\ninsert 2 1.1 (1)\ninsert 2 1.3 (3)\nask 2\nserve 1 1\ndelete 2 1.2 0 0\ntake 2 2\ntake 2 2\nquery 2 SELECT COUNT(*),SUM(A) FROM T\nmerge 1 2\n",
        "ok\nok 1.1\nok 1.2\nok 1.3\nok new\nok new\nok 1\nok 2\nok\nok\nok\nok 1\nCOUNT(*),SUM(A)\n2,4\nok\n",
        "464c4346010001000154020141030000000100000001000000000000000000000100010000000200000000000000000000020001000000030000000000000000000003000100000000000000010000000200000000000000",
    ),
    # The least value of 16 bits, by itself the reference.
    (
        "table 2 T A SMALLINT\nappend 1 (-32768)\nmerge 2 1\nquery 2 SELECT MIN(A) FROM T WHERE A < 0\n",
        "ok\nok 1.1\nok\nok 1\nMIN(A)\n-32768\n",
        "464c43460100010001540201410100000001000000010000000000000000000000800000000000000000",
    ),
]

# Files in hexadecimal digits, and the reply to a line that opens one while nothing is held.
OPENED = [
    (ONE, "ok\n"),
    # Another magic, another version, a type that there isn't, too many batches, origin 0.
    (
        "474c43460100010001540201410100000001000000010000000000000000000007000000000000000000",
        "refused BadMagic\n",
    ),
    (
        "464c43460300010001540201410100000001000000010000000000000000000007000000000000000000",
        "refused BadVersion\n",
    ),
    (
        "464c43460100010001540301410100000001000000010000000000000000000007000000000000000000",
        "refused BadSchema\n",
    ),
    (
        "464c4346010001000154020141ffffffff01000000010000000000000000000007000000000000000000",
        "refused BadCount 13\n",
    ),
    (
        "464c43460100010001540201410100000000000000010000000000000000000007000000000000000000",
        "refused BadName\n",
    ),
    # A null flag 2, a coding 4, a width past the lane's.
    (
        "464c43460100010001540201410100000001000000010000000000020000000007000000000000000000",
        "refused BadMask 27\n",
    ),
    (
        "464c43460100010001540201410100000001000000010000000000000400000007000000000000000000",
        "refused BadTag 28\n",
    ),
    (
        "464c43460100010001540201410100000001000000010000000000000011000007000000000000000000",
        "refused BadWidth 29\n",
    ),
    # A code that isn't below the count; a dictionary with a value twice.
    (
        "464c434601000100015402014101000000010000000100000000000003010100070001" + "00" * 135,
        "refused BadCode 34\n",
    ),
    (
        "464c434601000100015402014101000000010000000100000000000003010200070007" + "00" * 137,
        "refused BadDictionary 34\n",
    ),
    # A run that starts at row 0; fewer runs than starts.
    (
        "464c43460100010001540201410100000001000000010000000000000201010001" + "00" * 127 + "07000000000000000000",
        "refused BadMask 32\n",
    ),
    (
        "464c43460100010001540201410100000001000000010000000000000201010002" + "00" * 127 + "07000000000000000000",
        "refused BadCount 30\n",
    ),
    # A null mask without a null; one with a null past the rows.
    (
        "464c4346010001000154020141010000000100000001000000000001" + "00" * 132 + "07000000000000000000",
        "refused BadMask 28\n",
    ),
    (
        "464c434601000100015402014101000000010000000100000000000102" + "00" * 131 + "07000000000000000000",
        "refused BadMask 28\n",
    ),
    # A batch twice; as many batches as may be, of which the second has the name 0.0.
    (
        "464c434601000100015402014102000000010000000100000000000000000000070001000000010000000000000000000007000000000000000000",
        "refused BadOrder 34\n",
    ),
    (
        "464c43460100010001540201410000010001000000010000000000000000000007000000000000000000",
        "refused BadName\n",
    ),
    # A range that ends before it begins; one twice; more of them than there are bytes.
    (
        "464c4346010001000154020141000000000100000000000000010000000100000005000400",
        "refused BadRange 25\n",
    ),
    (
        "464c4346010001000154020141000000000200000000000000010000000100000000000000010000000100000000000000",
        "refused BadOrder 37\n",
    ),
    (
        "464c434601000100015402014100000000ffffffffffffffff",
        "refused Truncated 25\n",
    ),
    # A byte more; ranges that touch; a wider packing; a frame that wraps.
    (
        "464c4346010001000154020141010000000100000001000000000000000000000700000000000000000000",
        "refused TrailingBytes 42\n",
    ),
    (
        "464c4346010001000154020141000000000200000000000000010000000100000000000400010000000100000005000900",
        "refused NotCanonical 17\n",
    ),
    (
        "464c43460100010001540201410100000001000000010000000000000001000007" + "00" * 137,
        "refused NotCanonical 29\n",
    ),
    (
        "464c434601000100015402014101000000010000000100000000000000010000ff7f01" + "00" * 135,
        "refused NotCanonical 29\n",
    ),
]

# What follows an append of 1,025 rows that are all 0, and the replies: the file has two vectors and 49 bytes.
TWO_VECTORS = (
    "table 2 T A SMALLINT\nappend 1 " + ",".join(["(0)"] * 1025) + "\nquery 1 SELECT COUNT(*) FROM T\nquery 1 SELECT SUM(A) FROM T WHERE A >= 0\nquery 1 SELECT COUNT(*) FROM T WHERE A IN (1,2,3)\n"
    "query 1 SELECT COUNT(*) FROM T WHERE A BETWEEN 0 AND 5\nexport 1\ndelete 1 1.1 0 1023\nquery 1 SELECT COUNT(*) FROM T WHERE A BETWEEN 0 AND 5\n",
    "ok\nok 1.1\nok 1\nCOUNT(*)\n1025\nok 1\nSUM(A)\n0\nok 1\nCOUNT(*)\n0\nok 1\nCOUNT(*)\n1025\n"
    "ok 464c4346010001000154020141010000000100000001000000000400000000000000000000000000000000000000000000\nok\nok 1\nCOUNT(*)\n1\n",
)

# Lines that are one byte too long and just short enough, and appends of one row too many for a batch and of as many as it takes.
LONG_LINES = [
    ("a" * 1_048_577 + "\ntable 1 T A SMALLINT\n", "refused LineTooLong\nok\n"),
    ("a" * 1_048_576 + "\ntable 1 T A SMALLINT\n", "refused BadLine\nok\n"),
    ("table 1 T A SMALLINT\nappend 1 " + ",".join(["(1)"] * 65_537), "ok\nrefused BatchTooLong\n"),
    ("table 1 T A SMALLINT\nappend 1 " + ",".join(["(1)"] * 65_536), "ok\nok 1.1\n"),
]


# Other forms of one vector: what is in the place of the bytes of the file of one row from an offset to before another, the first place
# that isn't canonical, and the canonical file of the same row.
OTHER_FORMS = [
    # FOR at width 1, with the reference 7, and with the reference 32,767 and the packed value 1, which wraps.
    (29, 34, bytes([1, 0, 0, 7]) + bytes(129), 29, ONE_ROW),
    (29, 34, bytes([1, 0, 0, 255, 127, 1]) + bytes(127), 29, file_of(b"T", batch(1, 1, 32_768))),
    # A dictionary of 7, and of 7 and 8 with codes of one bit.
    (28, 34, bytes([3, 0, 1, 0, 7, 0]), 28, ONE_ROW),
    (28, 34, bytes([3, 1, 2, 0, 7, 0, 8]) + bytes(129), 28, ONE_ROW),
    # A run of 7, and a second run past the batch's rows.
    (28, 34, bytes([2, 1, 1]) + bytes(129) + bytes([7, 0]), 28, ONE_ROW),
    (28, 34, bytes([2, 1, 2, 0, 2]) + bytes(127) + bytes([7, 0, 9, 0]), 28, ONE_ROW),
    # 5 at the place of a null.
    (27, 34, bytes([1, 1]) + bytes(131) + bytes([5, 0]), 160, ONE_ROW[:27] + bytes([1, 1]) + bytes(133) + ONE_ROW[34:]),
]


def replied(name, script, replies):
    """A script has its replies."""
    return Case(name, ["run"], 0, replies.encode(), input=script.encode())


def explained(script, notes):
    """A script has its notes, and the replies that it also has without them."""
    return Case(f"refused lines are explained: {script[:60]!r}", ["run", "--explain"], 0, lambda replies: True, notes.encode(), input=script.encode())


def exported(script, replies, file):
    """Both replicas export the file. The second opens it, and exports it again."""
    lines = f"{script}export 1\nexport 2\nopen 2 {file}\nexport 2\n"
    return replied(f"both replicas export the same file: {script[:60]!r}", lines, f"{replies}ok {file}\nok {file}\nok\nok {file}\n")


def opened(file, reply):
    """A file opens, or has its first fault."""
    return replied(f"a file has the reply {reply[:-1]}: {file[:60]}", f"table 2 T A SMALLINT\nopen 2 {file}\n", f"ok\n{reply}")


def in_other_forms():
    """What isn't canonical is an offer and no file, and a file that takes the offer has its rows in canonical form."""
    for first, end, bytes_there, at, canonical in OTHER_FORMS:
        offer = ONE_ROW[:first] + bytes_there + ONE_ROW[end:]
        yield Case(f"an offer in another form is no file: {offer[28:40].hex()}", ["check", "o"], 1, err=[f"refused NotCanonical {at}\n".encode()], files={"o": offer})
        yield Case(f"an offer in another form is taken by its rows: {offer[28:40].hex()}", ["apply", "t", "o"], 0, b"ok batches=1 ranges=0 new=1\n", files={"t": file_of(b"T"), "o": offer}, writes={"t": canonical})


SCRIPT_CASES = [
    *(replied(f"a script has the reply to each line: {script[:60]!r}", script, replies) for script, replies in [*SCRIPTS, TWO_VECTORS, *LONG_LINES]),
    *(explained(script, notes) for script, notes in NOTED),
    *(exported(*each) for each in EXPORTS),
    *(opened(*each) for each in OPENED),
    *(opened(ONE[: 2 * length], f"refused Truncated {length}\n") for length in range(1, 42)),
    *in_other_forms(),
]
