"""What to write in place of a word that can't stand where it stands: other dialects' words and common slips."""
from __future__ import annotations

from .table import safe
from .tokens import BAD, END, NAME, NUMBER, STRING, SYMBOL, WORD, Token

SELF_JOIN = "A table can't be joined to itself: read it twice in your program, or keep a copy of it."
ONE_TABLE = "Use COUNT, SUM and GROUP BY with one table in FROM; count the rows of a join in your program."

_NO_NULL = "There is no NULL, since each column has a value: use one of your own for 'unknown', as 0 or ''."
_JOIN = "Write the tables with commas, and the condition of ON in WHERE: FROM a, b WHERE a.k = b.k."
_NO_OUTER = "There are no outer joins. " + _JOIN
_ALIAS = "There are no aliases: use the name itself, as in SELECT t.v FROM t."
_KIND = "Columns are INTEGER or TEXT: use INTEGER{}."
_TEXT_KIND = "Columns are INTEGER or TEXT: use TEXT, with no length; a text has at most 4,096 bytes."
_IF = "Leave IF [NOT] EXISTS out; the refusal says whether the table exists (21, 22)."
_LEAVE = "Leave it out: a CREATE has names, kinds and one PRIMARY KEY alone."
_NO_SUB = "There are no subqueries: SELECT the values first, and write them into the statement."
_EXTREME = "There is no {0}: use SELECT c FROM t ORDER BY c{1} LIMIT 1."
_QUOTED = "Write names without quotes (a letter or _, then letters, digits, _), and texts in single quotes: 'text'."
_COMMENT = "Leave comments out: a statement has none. Two hyphens are refused, so write a - -1 with a blank."

# Words that this SQL doesn't have, in upper case.
WORDS = {
    "NULL": _NO_NULL, "IS": _NO_NULL,
    "LIKE": "There is no LIKE: compare the beginning by its bytes, as v >= 'Al' AND v < 'Am'.",
    "ILIKE": "There is no ILIKE: keep the text in lower case in a column of its own, and compare that.",
    "GLOB": "There is no GLOB: compare the beginning by its bytes, as v >= 'Al' AND v < 'Am'.",
    "IN": "Write the values with OR: k = 1 OR k = 2.",
    "BETWEEN": "Write both bounds: k >= 1 AND k <= 9.",
    "JOIN": _JOIN, "INNER": _JOIN, "CROSS": _JOIN, "NATURAL": _JOIN, "ON": _JOIN, "USING": _JOIN,
    "LEFT": _NO_OUTER, "RIGHT": _NO_OUTER, "FULL": _NO_OUTER, "OUTER": _NO_OUTER,
    "AS": _ALIAS,
    "DISTINCT": "Write SELECT c FROM t GROUP BY c.", "ALL": "Leave ALL out.",
    "HAVING": "There is no HAVING: leave the groups out in your program.",
    "OFFSET": "There is no OFFSET: go on after the last key that you have, as WHERE k > 20 ORDER BY k LIMIT 10.",
    "UNION": "There is no UNION: send two SELECTs.", "INTERSECT": "Send two SELECTs.", "EXCEPT": "Send two SELECTs.",
    "MIN": _EXTREME.format("MIN", ""), "MAX": _EXTREME.format("MAX", " DESC"),
    "AVG": "There is no AVG: divide SUM(c) by COUNT(*) in your program.",
    "CASE": "There is no CASE: decide in your program.", "EXISTS": _NO_SUB,
    "WITH": _NO_SUB, "RETURNING": "There is no RETURNING: SELECT the rows by their keys afterwards.",
    "IF": _IF, "UNIQUE": _LEAVE, "DEFAULT": _LEAVE, "CHECK": _LEAVE, "REFERENCES": _LEAVE, "FOREIGN": _LEAVE,
    "CONSTRAINT": _LEAVE, "COLLATE": _LEAVE, "AUTOINCREMENT": _LEAVE, "AUTO_INCREMENT": _LEAVE, "WITHOUT": _LEAVE,
    "INT": _KIND.format(""), "BIGINT": _KIND.format(""), "SMALLINT": _KIND.format(""),
    "SERIAL": _KIND.format(", and choose the keys yourself"), "BOOLEAN": _KIND.format(", with 0 and 1"),
    "BOOL": _KIND.format(", with 0 and 1"), "REAL": _KIND.format(", as thousandths"),
    "FLOAT": _KIND.format(", as thousandths"), "DOUBLE": _KIND.format(", as thousandths"),
    "DECIMAL": _KIND.format(", as cents"), "NUMERIC": _KIND.format(", as cents"),
    "TIMESTAMP": _KIND.format(", as seconds since 1970, which NOW() gives"),
    "DATETIME": _KIND.format(", as seconds since 1970, which NOW() gives"),
    "DATE": "Columns are INTEGER or TEXT: use TEXT, as '2026-11-30'.",
    "VARCHAR": _TEXT_KIND, "CHAR": _TEXT_KIND, "STRING": _TEXT_KIND, "BLOB": _TEXT_KIND,
    "TRUE": "Write 1.", "FALSE": "Write 0.",
    "CURRENT_TIMESTAMP": "Write NOW(), the seconds since 1970.",
    "TRANSACTION": "Write BEGIN, COMMIT or ROLLBACK alone.", "WORK": "Write BEGIN, COMMIT or ROLLBACK alone.",
}
_STARTS = {
    "START": "Write BEGIN.", "END": "Write COMMIT.", "ABORT": "Write ROLLBACK.",
    "SAVEPOINT": "There are no savepoints: a statement that is refused changes nothing.",
    "TRUNCATE": "Write DELETE FROM t.", "REPLACE": "DELETE the row and INSERT it, in a transaction.",
    "ALTER": "There is no ALTER: CREATE another table, copy the rows, and DROP the old one.",
    "SHOW": "There is no list of tables on the wire.", "DESCRIBE": "There is no list of columns: SELECT * shows them.",
    "EXPLAIN": "There is no EXPLAIN: docs/SQL.md says what a SELECT costs.", "WITH": _NO_SUB,
    "VALUES": "Write INSERT INTO t VALUES (..).",
}
_FORMS = {
    "start": "A statement begins with SELECT, INSERT, UPDATE, DELETE, CREATE, DROP, BEGIN, COMMIT or ROLLBACK.",
    "create": "The form is CREATE TABLE t (k INTEGER PRIMARY KEY, v TEXT).",
    "column definition": "The form is CREATE TABLE t (k INTEGER PRIMARY KEY, v TEXT).",
    "kind": "Columns are INTEGER or TEXT.",
    "drop": "The form is DROP TABLE t.",
    "insert": "The form is INSERT INTO t (k, v) VALUES (1, 'a'), (2, 'b').",
    "tuple": "A value is a number, a text in single quotes, NOW() or RAND(n).",
    "after constant": "Separate values with commas; a value is a constant alone.",
    "update": "The form is UPDATE t SET v = 'a', w = w + 1 WHERE k = 1.",
    "set": "The form is UPDATE t SET v = 'a', w = w + 1 WHERE k = 1.",
    "delete": "The form is DELETE FROM t WHERE k = 1.",
    "select": "The form is SELECT .. FROM .. WHERE .. GROUP BY .. ORDER BY .. LIMIT .., in this order.",
    "items": "The form is SELECT k, v FROM t. An item is a column, COUNT(*) or SUM(c).",
    "item": "An item is a column, COUNT(*) or SUM(c), without arithmetic.",
    "count": "Only COUNT(*) is there; no value is missing, so COUNT(c) would be the same.",
    "sum": "SUM has one column: SUM(c).",
    "tables": "FROM has names of tables alone, with commas between them.",
    "group": "GROUP BY has one column.",
    "order": "A key of ORDER BY is a column, with ASC or DESC after it.",
    "limit": "LIMIT has one number.",
    "condition": "A condition compares columns, numbers and texts, as v = 'a' AND (k < 9 OR NOT k = 3).",
    "comparison": "A comparison is one of = <> != < <= > >=, between columns and constants without arithmetic.",
    "after condition": "Close the parenthesis, or join another comparison by AND or OR.",
    "now": "The form is NOW().", "rand": "The form is RAND(n), with n from 1.",
    "transaction": "Write BEGIN, COMMIT or ROLLBACK alone.",
}
# Where a column or a table is due, so that a reserved word is a name that was chosen badly.
_NAMES = ("create", "column definition", "drop", "insert", "update", "set", "delete", "item", "tables", "group",
          "order", "sum", "condition")


def shown(token: Token) -> str:
    """The token in words, cut where it is long, with control characters written out."""
    text = safe(token.text if len(token.text) <= 40 else token.text[:37] + "...")
    return f"'{text}'" if token.kind == SYMBOL else text


def blamed(token: Token, before: Token) -> Token:
    """The token to point at: the one before where that was read as a name, but is a word of other dialects."""
    follows = token.kind in (NAME, WORD, NUMBER, STRING) or token.text == "("
    return before if follows and before.kind == NAME and before.text.upper() in WORDS else token


def hint(token: Token, before: Token, part: str) -> str:
    """What to do about a token that can't stand after the token `before`, in this part of the grammar."""
    word = token.text.upper()
    if token.kind == BAD:
        return _of_bad(token)
    if token.kind == END:
        return "Finish the statement. " + _FORMS.get(part, "")
    if token.kind == NAME and part == "start" and word in _STARTS:
        return _STARTS[word]
    if token.kind == NAME and word == "ON" and part == "insert":
        return "There is no ON CONFLICT: INSERT, and UPDATE the row where that is refused as Duplicate (27)."
    if token.kind == NAME and word in WORDS:
        return WORDS[word]
    return _of_place(token, before, part) or _FORMS.get(part, _FORMS["start"])


def _of_bad(token: Token) -> str:
    """The hint at what is no token."""
    first = token.text[0]
    if token.said == "a comment":
        return _COMMENT
    if first in "\"`[":
        return _QUOTED
    if first == "\\":
        return "A backslash command of the shell has a line of its own, outside of statements."
    if first == "?":
        return "A question mark is a parameter, and the statement was given none: write the value."
    if first == "'":
        return "Close it with a quote, and write a quote inside as two: 'it''s'. A text has at most 4,096 bytes."
    if first.isdigit():
        return "Numbers are decimal digits, up to 9223372036854775807, with a blank before the next word."
    if first in "*/%|&^":
        return "There is only + and -, once in a value of SET: calculate the rest in your program."
    if first == "#":
        return _COMMENT
    return "Names have ASCII letters, digits and _, at most 32. Anything else belongs in a text: 'text'."


def _of_place(token: Token, before: Token, part: str) -> str:
    """The hint at a token that is one, where this SQL has it elsewhere; '' for none."""
    if before.text == ";":
        return "Send one statement at a time."
    if token.text == "NOT" and part in ("column definition", "kind"):
        return "Leave NOT NULL out: no column of this SQL has NULL."
    if token.text == "NOT":
        return "NOT stands before a comparison: WHERE NOT k = 1."
    if token.text == "PRIMARY" and part == "column definition":
        return "Write PRIMARY KEY after the kind of its one column: k INTEGER PRIMARY KEY."
    if token.text == "SELECT":
        return _NO_SUB
    if token.text == "(" and part in ("column definition", "kind"):
        return _TEXT_KIND
    if token.text == "(" and before.kind == NAME and part not in ("create", "insert"):
        return "There is no such function: only COUNT(*), SUM(c), NOW() and RAND(n)."
    if token.text == "(" and part in ("condition", "set", "tuple"):
        return "Parentheses stand around conditions alone, and there are no subqueries."
    if token.text == "*" and before.text == ".":
        return "Write * alone, or list the columns: SELECT t.k, t.v FROM t, u."
    if token.text in ("SUM", "COUNT") and part == "order":
        return "ORDER BY has columns alone: sort the sums in your program."
    if token.text == "," and part == "select":
        return _FORMS["limit"]
    if token.text in ("*", "+", "-") and part not in ("start", "limit"):
        return "There is only + and -, once in a value of SET: calculate the rest in your program."
    if token.text == "." and before.kind == NUMBER:
        return "There are no fractions: use INTEGER as cents or thousandths."
    if token.text == "=" and before.text == "=":
        return "Write one = for equal."
    if token.kind == NAME and part == "tuple":
        return "Write a text in single quotes: 'text'. A column can't stand among the values."
    if token.kind == NAME and before.kind == NAME and part in ("items", "select"):
        return _ALIAS
    if before.text == "," and token.text in (")", "FROM", "WHERE", ";"):
        return "Leave the last comma out."
    if token.kind == WORD and part in _NAMES and before.text in _BEFORE_NAMES:
        return f"{token.text} is a reserved word, which no table or column may have as its name."
    return ""


# After these a name is due.
_BEFORE_NAMES = ("TABLE", "(", ",", "INTO", "UPDATE", "SET", "FROM", "BY", ".", "SELECT", "WHERE", "AND", "OR")
