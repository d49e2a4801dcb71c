"""1,000 documents with a few bytes changed, and what Python's json says of each: the outside judge.

    mutants.py write FILE           writes a line for each: the bytes and the compact text, both as hexadecimal digits; the
                                    text is `-` where the bytes are rejected
    mutants.py compare FILE LIBRARY compares what examples/python reads through LIBRARY. Silent where all is well

What json.loads takes beyond RFC 8259 and the limits is rejected here: NaN and Infinity, lone surrogates, a byte order mark,
integers past 128 bits. A decimal is compared by its literal.
"""
import json
import pathlib
import random
import sys

SEEDS = [
    b'{"a":[1,-2,2.5,"\\n\\u00e9"],"b":{"c":null,"d":true,"e":false}}',
    b'[[],{},"",0,-0,1e5,-1.5E-3,"\\ud83d\\ude00",[[[1]]]]',
    b'{"k":"\xc3\xa9\xe2\x82\xac","l":[18446744073709551615,-9223372036854775808,18446744073709551616]}',
    b'[170141183460469231731687303715884105728,-170141183460469231731687303715884105728,"\\"\\\\\\/\\b\\f\\t"]',
    b' [ "a" , { "a" : 1 , "a" : 2 } , "' + b'long ' * 30 + b'" , true ] \n',
]
BYTES = b'[]{}",:\\0123456789.eE-+ \t\ntfnulrsdDbN\x00\x1f\x7f\x80\xc3\xff'
DEPTH = 8


class Decimal(str):
    """The literal of a number with a fraction or an exponent."""


def mutants():
    rng = random.Random(8259)
    for _ in range(1000):
        text = bytearray(rng.choice(SEEDS))
        for _ in range(rng.choice([0, 1, 1, 1, 2, 3])):
            at = rng.randrange(len(text))
            rng.choice([lambda: text.__setitem__(at, rng.choice(BYTES)), lambda: text.insert(at, rng.choice(BYTES)),
                        lambda: text.pop(at)])()
        yield bytes(text)


def integer(literal):
    number = int(literal)
    if not -(1 << 127) <= number < 1 << 128:
        raise ValueError(literal)
    return number


def constant(name):
    raise ValueError(name)


def read(data):
    """The value; an object is a tuple of its pairs, so that equal keys stay. Raises ValueError."""
    value = json.loads(data.decode(), parse_float=Decimal, parse_int=integer, parse_constant=constant,
                       object_pairs_hook=tuple)
    printed(value).encode()  # a lone surrogate has no UTF-8
    return value


def printed(value):
    if isinstance(value, Decimal):
        return str(value)
    if isinstance(value, str):
        return json.dumps(value, ensure_ascii=False)
    if isinstance(value, list):
        return "[" + ",".join(map(printed, value)) + "]"
    if isinstance(value, tuple):
        return "{" + ",".join(printed(key) + ":" + printed(of) for key, of in value) + "}"
    return json.dumps(value)


def write(path):
    lines = []
    for data in mutants():
        try:
            lines.append(f"{data.hex()} {printed(read(data)).encode().hex()}\n")
        except ValueError:
            lines.append(f"{data.hex()} -\n")
    pathlib.Path(path).write_text("".join(lines))


def compare(path, library):
    sys.path.insert(0, str(pathlib.Path(__file__).parents[2] / "examples" / "python"))
    import simd_json

    ours = simd_json.Library(library)
    try:
        ours.check(b"[1,]")
        sys.exit("[1,] is taken")
    except simd_json.Rejected as rejected:
        if (str(rejected), rejected.character) != ("InternalError at character 3", ord("]")):
            sys.exit(f"[1,]: {rejected}")
    if ours.kind_name(simd_json.DECIMAL) != "Decimal":
        sys.exit(f"a decimal is called {ours.kind_name(simd_json.DECIMAL)}")
    for line in pathlib.Path(path).read_text().splitlines():
        data, answer = (None if word == "-" else bytes.fromhex(word) for word in line.split())
        try:
            text = ours.compact(data, DEPTH)
            value = ours.loads(data, DEPTH, Decimal)
            ours.check(data, DEPTH)
            again = ours.loads(ours.pretty(data, DEPTH), DEPTH, Decimal)
        except simd_json.Rejected:
            text = None
        if text != answer:
            sys.exit(f"{data}: {text} in place of {answer}")
        if text is not None:
            wanted = json.loads(data.decode(), parse_float=Decimal)
            if not value == wanted == again:
                sys.exit(f"{data}: {value}, {again} in place of {wanted}")


if __name__ == "__main__":
    {"write": write, "compare": compare}[sys.argv[1]](*sys.argv[2:])
