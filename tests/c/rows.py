"""Prints the rows of tests/vectors with the answers of a library, which examples/python calls. Python's json is the outside
judge of each `parse` and `compact` row. Rows that Python has no call for and comments are copied, so a file of right rows
comes out unchanged.

    rows.py LIBRARY < FILE | diff FILE -

Without LIBRARY the answers that stand in the file are judged. What is wrong is added to the answer.
"""
import json
import pathlib
import re
import sys

sys.path[:0] = [str(pathlib.Path(__file__).parent), str(pathlib.Path(__file__).parents[2] / "examples" / "python")]
import mutants
import simd_json

COPIED = ("indexes", "locate", "document", "pointer", "path", "paths", "padded")
ANSWERED = ("parse", "compact", "pretty")
NO_CHARACTER = (1 << 32) - 1


class Integer(str):
    """The literal of an integer: -0 has a sign."""


def decoded(text):
    """The bytes that an input stands for: `%XX` is a byte, `%(N:TEXT)` a text so many times."""
    def piece(match):
        times, repeated, digits = match.groups()
        if digits:
            return bytes.fromhex(digits.decode())
        return int(times) * decoded(repeated)

    if re.sub(rb"%\(\d+:[^)]*\)|%[0-9A-F]{2}", b"", text).count(b"%"):
        raise SystemExit(f"rows.py: no input: {text}")
    return re.sub(rb"%(?:\((\d+):([^)]*)\)|([0-9A-F]{2}))", piece, text)


def shown(text):
    return re.sub("[\x00-\x1f%\x7f]", lambda c: f"%{ord(c[0]):02X}", text)


def integer(number, is_negative):
    kind, bits = ("I", 63) if is_negative else ("U", 64)
    fits = -number <= 1 << bits if is_negative else number < 1 << bits
    return f"{kind}{64 if fits else 128} {number}"


# ---- the library

def nodes(ours, listed, text):
    """The lines of a tape."""
    for node in listed:
        kind, number = node.kind, node.value
        if kind in simd_json.TEXTS:
            literal = text[number:number + node.len].decode()
            of = mutants.printed(literal) if kind == simd_json.STRING else literal
        elif kind in (simd_json.ARRAY, simd_json.OBJECT):
            of = f"{node.len} {number}"
        elif kind == simd_json.I64:
            of = number - (number >> 63 << 64)
        else:
            of = json.dumps(bool(number)) if kind == simd_json.BOOL else number
        yield ours.kind_name(kind) + ("" if kind == simd_json.NULL else f" {of}")


def told(call, *arguments):
    """What a call returns, or what is told of its error."""
    try:
        return call(*arguments)
    except simd_json.Rejected as rejected:
        return f"! {rejected}" + (f" ('{chr(rejected.character)}')" if rejected.character != NO_CHARACTER else "")


def is_error(answer):
    return isinstance(answer, str) and answer.startswith("! ")


def parsed(ours, data, limit):
    """The tape or the error, as by each call."""
    tape = told(lambda: ", ".join(nodes(ours, *ours.tape(data, limit))))
    read = {name: told(getattr(ours, name), data, limit) for name in ("check", "compact", "pretty", "loads")}
    wrong = "".join(f"; by {name}: {found}" for name, found in read.items()
                    if is_error(found) != is_error(tape) or is_error(tape) and found != tape)
    if not is_error(tape) and not wrong:
        value = ours.loads(data, limit, mutants.Decimal)
        for name in ("compact", "pretty"):
            again = told(ours.loads, read[name], limit, mutants.Decimal)
            if again != value:
                wrong += f"; printed by {name} and read again: {again}"
        wanted = json.loads(data.decode(), parse_float=mutants.Decimal)
        if value != wanted:
            wrong += f"; by loads: {value} in place of {wanted}"
    return shown(tape + wrong)


def found(ours, word, data, limit):
    if word == "parse":
        return parsed(ours, data, limit)
    text = told(getattr(ours, word), data, limit)
    return shown(text if is_error(text) else text.decode())


# ---- the judge

def read(data):
    """The value, with the literals of numbers; an object is a tuple of its pairs. Raises ValueError."""
    mutants.read(data)  # what json takes beyond RFC 8259 and the limits is rejected
    return json.loads(data.decode(), parse_float=mutants.Decimal, parse_int=Integer, object_pairs_hook=tuple)


def tape_of(value):
    """The lines of the tape that a value has."""
    if isinstance(value, Integer):
        return [integer(int(value), value.startswith("-"))]
    if isinstance(value, mutants.Decimal):
        return [f"Decimal {value}"]
    if isinstance(value, str):
        return [f"String {mutants.printed(value)}"]
    if isinstance(value, list):
        beneath = [line for element in value for line in tape_of(element)]
        return [f"Array {len(value)} {len(beneath)}", *beneath]
    if isinstance(value, tuple):
        beneath = [line for key, element in value for line in tape_of(key) + tape_of(element)]
        return [f"Object {len(value)} {len(beneath)}", *beneath]
    return ["Null" if value is None else f"Bool {json.dumps(value)}"]


def depth(value):
    """How many containers are open at a time."""
    if isinstance(value, tuple):
        value = [element for _, element in value]
    return 1 + max(map(depth, value), default=0) if isinstance(value, list) else 0


def judged(word, data, limit, answer):
    """What is wrong with an answer."""
    try:
        value = read(data)
    except ValueError:
        return "" if is_error(answer) else "; Python's json rejects it"
    except RecursionError:  # too deep for Python's json
        return ""
    if depth(value) > limit:
        return "" if answer.startswith("! DepthLimitExceeded ") else "; it is too deep"
    if word == "pretty":
        return "; Python's json accepts it" if is_error(answer) else ""
    wanted = shown(", ".join(tape_of(value)) if word == "parse" else mutants.printed(mutants.read(data)))
    return "" if answer == wanted else f"; by Python's json: {wanted}"


def row(line, ours):
    word, _, limit = line[:line.index(" ")].partition(":")
    if word in COPIED:
        return line
    asked, separator, answer = line.partition(" => ")
    if word not in ANSWERED or not separator:
        raise SystemExit(f"rows.py: no row: {line}")
    data, limit = decoded(asked[asked.index(" ") + 1:].encode()), int(limit or 1024)
    if ours:
        answer = found(ours, word, data, limit)
    return asked + separator + answer + judged(word, data, limit, answer)


def main(library=None):
    ours = library and simd_json.Library(library)
    for line in sys.stdin.buffer.read().decode().removesuffix("\n").split("\n"):
        print(row(line, ours) if line and line[0] != "#" else line)


if __name__ == "__main__":
    sys.stdout.reconfigure(encoding="utf-8", newline="\n")
    main(*sys.argv[1:])
