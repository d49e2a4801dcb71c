"""Prints rows of random queries of RFC 9535 over random documents, with what each selects by an evaluator of its own.

    path.py [COUNT [SEED]] > rows && simd_json_rows < rows | diff rows -

A document is None, True, False, a Number, a str, a list, or a dict; a query is a list of segments.
"""
import random
import re
import sys
import unicodedata
from fractions import Fraction

NOTHING = object()
NAMES = ["a", "b", "c", "a b", "é", "☺", "'", '"', "\\", "", "0", "aa", "𝄞"]
NUMBERS = ["0", "-0", "1", "2", "10", "-1", "1.0", "1e0", "10e-1", "0.1", "1E1", "-1.50", "2.5e-1", "9007199254740993", "18446744073709551616", "0.0"]
STRINGS = ["", "a", "b", "aa", "é", "☺", "𝄞", "a b", "1", "'", '"', "\\"]
PATTERNS = [".", "[ab]*", "a|é", "("]
OPERATORS = ["==", "!=", "<", "<=", ">", ">="]


class Number(str):
    """A number's text."""


# ---- documents

def document(depth, least=0):
    kind = random.randrange(least, 10 if depth else 5)
    if kind < 2:
        return Number(random.choice(NUMBERS))
    if kind < 4:
        return random.choice(STRINGS + PATTERNS)
    if kind == 4:
        return random.choice([None, True, False])
    some = range(random.choice([0, 2, 3, 3, 4, 5]))
    if kind < 7:
        return [document(depth - 1) for _ in some]
    return {name: document(depth - 1) for name in random.sample(NAMES[:5], len(some))}


def quoted(text):
    return '"' + text.replace("\\", "\\\\").replace('"', '\\"') + '"'


def printed(value, zero="-0"):
    """The text of a value, where the integer -0 is printed so."""
    if isinstance(value, Number):
        return zero if value == "-0" else str(value)
    if isinstance(value, str):
        return quoted(value)
    if isinstance(value, list):
        return "[" + ",".join(printed(one, zero) for one in value) + "]"
    if isinstance(value, dict):
        return "{" + ",".join(f"{quoted(name)}:{printed(one, zero)}" for name, one in value.items()) + "}"
    return {None: "null", True: "true", False: "false"}[value]


# ---- what a query selects (sections 2.3 and 2.5)

def children(value):
    return list(value) if isinstance(value, list) else list(value.values()) if isinstance(value, dict) else []


def descendants(value):
    return [value] + [below for child in children(value) for below in descendants(child)]


def selected(selector, value, root):
    kind, *of = selector
    if kind == "name":
        return [value[of[0]]] if isinstance(value, dict) and of[0] in value else []
    if kind == "wildcard":
        return children(value)
    if kind == "filter":
        return [child for child in children(value) if holds(of[0], child, root)]
    if not isinstance(value, list):
        return []
    if kind == "index":
        return [value[of[0]]] if -len(value) <= of[0] < len(value) else []
    return [] if of[2] == 0 else value[slice(*of)]


def nodes(segments, value, root):
    found = [value]
    for is_descendant, selectors in segments:
        visited = [below for one in found for below in descendants(one)] if is_descendant else found
        found = [child for one in visited for selector in selectors for child in selected(selector, one, root)]
    return found


# ---- tests (section 2.3.5) and functions (section 2.4)

def queried(query, node, root):
    origin, segments = query
    return nodes(segments, node if origin == "@" else root, root)


def compared(comparable, node, root):
    kind, of = comparable
    if kind == "literal":
        return of
    if kind == "length":
        value = compared(of, node, root)
        sized = value is not NOTHING and not isinstance(value, Number) and isinstance(value, (str, list, dict))
        return Number(len(value)) if sized else NOTHING
    found = queried(of, node, root)
    if kind == "count":
        return Number(len(found))
    return found[0] if len(found) == 1 else NOTHING


def equal(left, right):
    if isinstance(left, Number) and isinstance(right, Number):
        return Fraction(left) == Fraction(right)
    if isinstance(left, Number) or isinstance(right, Number) or type(left) is not type(right):
        return False
    if isinstance(left, list):
        return len(left) == len(right) and all(map(equal, left, right))
    if isinstance(left, dict):
        return left.keys() == right.keys() and all(equal(left[name], right[name]) for name in left)
    return left is right if left is NOTHING or right is NOTHING else left == right


def less(left, right):
    if isinstance(left, Number) and isinstance(right, Number):
        return Fraction(left) < Fraction(right)
    strings = all(isinstance(one, str) and not isinstance(one, Number) for one in (left, right))
    return strings and left < right


# ---- regular expressions (sections 2.4.6 and 2.4.7, RFC 9485), by those of Python

CHARACTERS = sorted(set("".join(STRINGS + PATTERNS + NAMES)))
ATOMS = ["a", "b", "é", "☺", "𝄞", "1", ".", "^", "$", "-", "[ab]", "[^a]", "[a-c]", "[^é-☺]", "[-1]", "[b-]", "\\.", "\\\\", "\\n",
         "\\p{L}", "\\P{Ll}", "\\p{N}", "[\\p{So}b]", "[^\\P{L}]"]
BROKEN = ["[", "[]", "[^]", "(", ")", "a{2,1}", "|*", "a**", "a{", "}", "\\d", "\\p{X}", "[b-a]", "[a--]"]
no_patterns = {"\\", "("}


def pattern(depth):
    def piece():
        atom = "(" + pattern(depth - 1) + ")" if depth and random.random() < 0.3 else random.choice(ATOMS)
        return atom + random.choice(["", "", "", "*", "+", "?", "{2}", "{1,}", "{0,2}"])
    return "|".join("".join(piece() for _ in range(random.choice([0, 1, 1, 2, 3]))) for _ in range(random.choice([1, 1, 2])))


def some_pattern():
    if random.random() < 0.9:
        return pattern(2)
    text = pattern(0) + random.choice(BROKEN) + pattern(0)
    no_patterns.add(text)
    return text


def translated(found):
    """What Python has for a part of a pattern, of the characters that there are."""
    part = found.group()
    if part[:2] in ("\\p", "\\P"):
        among = [c for c in CHARACTERS if unicodedata.category(c).startswith(part[3:-1]) == (part[1] == "p")]
        return "[" + "".join(map(re.escape, among)) + "]"
    if part[0] == "[":
        inner = re.sub(r"\\[pP]\{\w+\}", lambda one: translated(one)[1:-1], part[1:-1])
        return "[" + inner + "]"
    return {".": "[^\n\r]", "^": "\\^", "$": "\\$"}.get(part, part)


def matches(is_search, text, regexp):
    if not all(isinstance(one, str) and not isinstance(one, Number) for one in (text, regexp)) or regexp in no_patterns:
        return False
    wanted = re.sub(r"\\[pP]\{\w+\}|\\.|\[\^?(?:\\.|[^]])*\]|.", translated, regexp)
    return bool((re.search if is_search else re.fullmatch)(wanted, text))


def holds(test, node, root):
    kind, *of = test
    if kind == "or":
        return any(holds(one, node, root) for one in of[0])
    if kind == "and":
        return all(holds(one, node, root) for one in of[0])
    if kind == "not":
        return not holds(of[0], node, root)
    if kind == "exists":
        return bool(queried(of[0], node, root))
    if kind == "match":
        return matches(of[0], compared(of[1], node, root), compared(of[2], node, root))
    left, right = compared(of[0], node, root), compared(of[2], node, root)
    return {
        "==": lambda: equal(left, right),
        "!=": lambda: not equal(left, right),
        "<": lambda: less(left, right),
        "<=": lambda: less(left, right) or equal(left, right),
        ">": lambda: less(right, left),
        ">=": lambda: less(right, left) or equal(left, right),
    }[of[1]]()


# ---- random queries

def index():
    return random.choice([0, 0, 1, 1, 2, 3, -1, -1, -2, -3, 7])


def step():
    return (False, [("name", random.choice(NAMES[:6])) if random.random() < 0.7 else ("index", index())])


def singular():
    return (random.choice("@@@$"), [step() for _ in range(random.choice([0, 1, 1, 1, 2]))])


def query():
    """A query without filters: each selector is one of `choice`."""
    segments = [step() if random.random() < 0.4 else segment(choice) for _ in range(random.choice([1, 1, 1, 2, 3]))]
    return singular() if random.random() < 0.4 else (random.choice("@@@$"), segments)


def comparable(depth):
    kind = random.choice(["literal", "literal", "query", "query", "query", "length", "count", "value"])
    if kind == "literal":
        return (kind, random.choice([Number(random.choice(NUMBERS)), random.choice(STRINGS), None, True, False]))
    if kind == "length":
        return (kind, comparable(depth - 1)) if depth else ("query", singular())
    return (kind, singular() if kind == "query" else query())


def test(depth):
    kinds = ["exists", "compare", "compare", "match"]
    kind = random.choice(kinds + ["or", "and", "not"] if depth else kinds)
    if kind == "exists":
        return (kind, query())
    if kind == "compare":
        return (kind, comparable(2), random.choice(OPERATORS), comparable(2))
    if kind == "match":
        return (kind, random.random() < 0.5, comparable(1), ("literal", some_pattern()) if random.random() < 0.8 else comparable(1))
    if kind == "not":
        return (kind, test(depth - 1))
    return (kind, [test(depth - 1) for _ in range(random.choice([2, 2, 3]))])


def choice():
    kind = random.choice(["name", "name", "wildcard", "index", "slice"])
    if kind == "name":
        return (kind, random.choice(NAMES[:4] + NAMES))
    if kind == "index":
        return (kind, index())
    if kind == "slice":
        return (kind, *(random.choice([None, index()]) for _ in range(2)), random.choice([None, 1, 2, 0, -1, -2, 3]))
    return (kind,)


def selector():
    return ("filter", test(2)) if random.random() < 0.3 else choice()


def segment(held):
    """A segment of selectors that `held` makes."""
    return (random.random() < 0.35, [held() for _ in range(random.choice([1, 1, 1, 2, 3]))])


# ---- their text

def blank():
    return random.choice(["", "", "", "", " ", "\n", "\t ", "\r"])


def spelled(text):
    """The text in quotes of either kind, with escapes here and there."""
    quote = random.choice("'\"")
    def character(c):
        code = ord(c)
        pair = [code] if code < 0x10000 else [0xD800 + (code - 0x10000 >> 10), 0xDC00 + (code - 0x10000 & 0x3FF)]
        if random.random() < 0.1:
            return "".join(f"\\u{unit:04{random.choice('xX')}}" for unit in pair)
        return "\\" + c if c in (quote, "\\") else c
    return quote + "".join(map(character, text)) + quote


def shown_selector(selector):
    kind, *of = selector
    if kind == "name":
        return spelled(of[0])
    if kind == "wildcard":
        return "*"
    if kind == "index":
        return str(of[0])
    if kind == "filter":
        return "?" + blank() + shown_test(of[0])
    bound = ["" if one is None else str(one) for one in of]
    last = blank() + ":" + (blank() + bound[2] if bound[2] else "") if bound[2] or random.random() < 0.3 else ""
    return (bound[0] + blank() if bound[0] else "") + ":" + (blank() + bound[1] if bound[1] else "") + last


def shown_segments(segments):
    text = ""
    for is_descendant, selectors in segments:
        text += blank() + (".." if is_descendant else "")
        dotted = len(selectors) == 1 and (selectors[0][0] == "wildcard" or selectors[0][0] == "name" and selectors[0][1] in ("a", "b", "c", "aa", "é", "☺", "𝄞"))
        if dotted and random.random() < 0.6:
            text += ("" if is_descendant else ".") + ("*" if selectors[0][0] == "wildcard" else selectors[0][1])
        else:
            text += "[" + blank() + (blank() + "," + blank()).join(map(shown_selector, selectors)) + blank() + "]"
    return text


def shown_query(query):
    return query[0] + shown_segments(query[1])


def shown_comparable(comparable):
    kind, of = comparable
    if kind == "literal":
        return spelled(of) if isinstance(of, str) and not isinstance(of, Number) else printed(of)
    if kind == "query":
        return shown_query(of)
    return kind + "(" + blank() + (shown_comparable(of) if kind == "length" else shown_query(of)) + blank() + ")"


def in_parentheses(test):
    return "(" + blank() + shown_test(test) + blank() + ")"


def shown_test(test, above="or"):
    kind, *of = test
    if kind == "exists":
        text = shown_query(of[0])
    elif kind == "match":
        arguments = (blank() + "," + blank()).join(map(shown_comparable, of[1:]))
        text = ("search(" if of[0] else "match(") + blank() + arguments + blank() + ")"
    elif kind == "compare":
        text = shown_comparable(of[0]) + blank() + of[1] + blank() + shown_comparable(of[2])
    elif kind == "not":
        text = "!" + blank() + (shown_test(of[0]) if of[0][0] in ("exists", "match") and random.random() < 0.5 else in_parentheses(of[0]))
    else:
        joint = blank() + ("||" if kind == "or" else "&&") + blank()
        text = joint.join(shown_test(one, kind) for one in of[0])
        if kind == "or" and above == "and":
            return "(" + blank() + text + blank() + ")"
    return in_parentheses(test) if random.random() < 0.05 else text


def row(text):
    """The text as a row has it."""
    return "".join(f"%{ord(c):02X}" if c in "%\n\t\r" else c for c in text)


def main():
    count = int(sys.argv[1]) if len(sys.argv) > 1 else 20_000
    random.seed(int(sys.argv[2]) if len(sys.argv) > 2 else 9535)
    for turn in range(count):
        if turn % 10 == 0:
            root = document(4, 5)
            print("document", row(printed(root)))
        segments = [segment(selector) for _ in range(random.choice([1, 1, 1, 2, 2, 3]))]
        found = nodes(segments, root, root)
        if len(found) <= 200:
            print("path", row("$" + shown_segments(segments)), "=>", row(printed(found, "0")))


main()
