"""shapes.py: writes the names of the shapes that are made to be slow, one a line.
shapes.py NAME BYTES: writes the text of a shape, of about so many bytes.

Each is one piece again and again between a beginning and an end. Those of REJECTED are rejected, as late as their kind can be."""
import sys

ACCEPTED = {
    "backslashes": (b'"', rb"\\", b'"'),
    "quotes": (b'[""', b',""', b"]"),
    "escaped quotes": (b'"', rb"\"", b'"'),
    "brackets, 1,000 deep": (b"[[]", b"," + b"[" * 1000 + b"]" * 1000, b"]"),
    "objects, 1,000 deep": (b"[{}", b"," + b'{"":' * 1000 + b"1" + b"}" * 1000, b"]"),
    "digits": (b"0.", b"9", b""),
    "greatest integers": (b"[1", b",340282366920938463463374607431768211455", b"]"),
    "one-digit integers": (b"[1", b",1", b"]"),
    "whitespace": (b"[", b" ", b"]"),
    "one string": (b'"', b"a", b'"'),
    "one string, not ASCII": (b'"', "€".encode(), b'"'),
    "empty containers": (b"[[]", b",[],{}", b"]"),
    "keys": (b'{"a":1', b',"a":1', b"}"),
    "line feeds as escapes": (b'"', rb"\n", b'"'),
    "code units": (b'"', rb"\u20ac", b'"'),
    "surrogate pairs": (b'"', rb"\ud83d\ude00", b'"'),
    # Each escape begins with the last byte of a block of 64.
    "escapes across blocks": (b'"' + b"a" * 62, rb"\n" + b"a" * 62, b'"'),
    # A block full of positions, and one without any.
    "full and empty blocks": (b"[1" + b" " * 62, b",1" * 32 + b" " * 64, b"]"),
}
REJECTED = {
    "open brackets": (b"", b"[", b""),
    "open string": (b'"', b"a", b""),
    "backslashes outside": (b"", rb"\\", b""),
    "commas": (b"[", b",", b"]"),
    "encoding wrong at the end": (b'"', b"a", b"\xff"),
}
SHAPES = ACCEPTED | REJECTED


def main():
    if len(sys.argv) < 3:
        print("\n".join(SHAPES))
        return
    before, piece, after = SHAPES[sys.argv[1]]
    sys.stdout.buffer.write(before + piece * (int(sys.argv[2]) // len(piece)) + after)


if __name__ == "__main__":
    main()
