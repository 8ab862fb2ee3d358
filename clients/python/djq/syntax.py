"""What a line that the server doesn't understand may have meant, and what to write in its place."""

from __future__ import annotations

import re

NOT = "queries have no not: what isn't there is the difference of two live sets, or asked with has for each answer"
COMPUTED = "queries compute nothing: live sets do, as live.count(by=..), live.sum(..), live.max(..), live.top(10, ..)"
OR = "queries have no or: register a query for each side, and then their union: union NAME QUERY QUERY"
AND = "a comma stands between atoms, and means and"
COMPARED = "a variable is compared with a constant alone, and stands before the sign: x < 5"
COLUMNS = COMPARED + "; to compare two columns let the head name both, and compare as the answers are read"
EQUAL = "columns with equal values have one name, as x in r(x,x); with = a variable is compared with a constant alone"

COLUMN = "a colon stands in an atom alone, behind the name of a column: r(price: x, item: \"bolt\")"

# relations of these names are seldom meant
MEANT = {"not": NOT, "exists": NOT, "or": OR, "and": AND} | dict.fromkeys(
    ("count", "sum", "min", "max", "avg", "distinct", "top"), COMPUTED
)

_TEXT = re.compile(r'"(?:[^"\\]|\\.)*"')
_VARIABLE = r"(?:[a-z][a-z0-9_]*)"
_NOT = re.compile(r"\bnot\b|!(?!=)")
_COMPUTED = re.compile(r"\b(count|sum|min|max|avg|distinct)\b *[(*]|\border by\b|\blimit\b")
_OR = re.compile(r"\bor\b|\||;(?=.*\()|\bin *\(")
_AND = re.compile(r"\band\b|&")
_COMPARED = re.compile(r'([<>=]|!=) *[a-z_]|(^|[ ,(])(-?[0-9]+|""|_) *([<>=]|!=)(?!-)')
_OF_COLUMNS = re.compile(rf"{_VARIABLE} *(<=|>=|<>|!=|<|>) *{_VARIABLE}")
_EQUAL = re.compile(rf"(?<![<>!=]){_VARIABLE} *==? *{_VARIABLE}(?! *\()")


def of_line(line: str) -> list[str]:
    """What a line that isn't in the grammar may have meant, the likeliest first."""
    bare = _TEXT.sub('""', line)  # without what texts say
    told = [rule for holds, rule in _of_any(bare) if holds]
    if line.split(" ", 1)[0] == "query":
        told = _of_query(bare.lower()) + told
    return told


def of_relation(name: str) -> str:
    """What a query may have meant that names a relation so, where none is there."""
    return MEANT.get(name, "")


def _of_any(bare: str) -> list[tuple[bool, str]]:
    """What may be wrong with any line, and whether it is."""
    return [
        ("'" in bare, 'a text stands in double quotes: "a text"'),
        (bare.count('"') % 2 == 1, 'a text is without its closing quote; a quote within one is \\"'),
        (re.search("[A-Z]", bare) is not None, "names are of small letters, digits and _, and begin with a letter"),
        ("\t" in bare, "a tab isn't a space"),
        (bare.rstrip().endswith(";"), "no semicolon stands at the end"),
        (re.search(r"\d\.\d", bare) is not None, "there are no fractions: an int of the smallest unit, or a text"),
    ]


def _of_query(line: str) -> list[str]:
    if "<-" not in line:
        return ["<- stands behind the head, and then the atoms"]
    head, _, body = line.partition("<-")
    of_columns, equal = _OF_COLUMNS.search(body), _EQUAL.search(body)
    rules = (
        (_NOT.search(body), NOT),
        (_COMPUTED.search(head) or _COMPUTED.search(body), COMPUTED),
        (_OR.search(body), OR),
        (_AND.search(body), AND),
        ("<-" in body, "<- is one sign: less than -5 is < -5, with a space"),
        (":" in line, COLUMN),
        (re.search("==|<>|=<|=>", body), "the signs of comparisons are < <= > >= = and !="),
        (of_columns, COLUMNS),
        (equal, EQUAL),
        (_COMPARED.search(body) and not of_columns and not equal, COMPARED),
        (body.strip() and "(" not in body, "an atom stands in the body too: what is compared is a variable of it"),
    )
    return [rule for holds, rule in rules if holds]
