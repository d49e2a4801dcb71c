"""Tests of the package, beside Python's json: the rows of tests/vectors, mutants, and types.

    python3 -m unittest discover python/tests     with the wheel on the path
"""
import ast
import contextlib
import copy
import ctypes
import gc
import inspect
import io
import json
import os
import pathlib
import pickle
import random
import re
import subprocess
import sys
import tempfile
import unittest
import unittest.mock
import weakref

import simd_json

ROOT = pathlib.Path(__file__).resolve().parents[2]
sys.path.insert(0, str(ROOT / "tests" / "c"))
sys.path.insert(1, str(ROOT / "examples" / "python"))
sys.path.append(str(ROOT / "examples" / "python"))
import mutants  # noqa: E402

MUTANTS = int(os.environ.get("MUTANTS", "100000"))


absent = object()


def by(call, *arguments, **named):
    try:
        return call(*arguments, **named)
    except simd_json.SimdJsonError as error:
        return error


def changed(rng):
    text = bytearray(rng.choice(mutants.SEEDS))
    for _ in range(rng.choice([0, 1, 1, 2, 3])):
        at = rng.randrange(len(text))
        rng.choice([lambda: text.__setitem__(at, rng.choice(mutants.BYTES)),
                    lambda: text.insert(at, rng.choice(mutants.BYTES)), lambda: text.pop(at)])()
    return bytes(text)


class Agreement(unittest.TestCase):
    def judge(self, data, depth):
        found = by(simd_json.loads, data, parse_float=mutants.Decimal, max_depth=depth)
        checked = by(simd_json.check, data, max_depth=depth)
        try:
            mutants.read(data)
            wanted = json.loads(data.decode(), parse_float=mutants.Decimal)
        except ValueError:
            self.assertIsInstance(found, simd_json.SimdJsonError, data)
            self.assertEqual(str(found), str(checked), data)
            return
        if isinstance(found, simd_json.SimdJsonError):
            self.assertEqual((found.reason, str(found)), ("DepthLimitExceeded", str(checked)), data)
        else:
            self.assertEqual((found, checked), (wanted, None), data)
            self.assertEqual(json.dumps(found), json.dumps(wanted), data)

    def test_mutants(self):
        rng = random.Random(8259)
        for _ in range(MUTANTS):
            self.judge(changed(rng), 8)

    def test_rows(self):
        import rows

        judged = 0
        for path in sorted((ROOT / "tests" / "vectors").glob("*.txt")):
            for line in path.read_bytes().decode().splitlines():
                question, arrow, answer = line.partition(" => ")
                word, _, limit = question.partition(" ")[0].partition(":")
                if word != "parse" or not arrow:
                    continue
                data = rows.decoded(question[question.index(" ") + 1:].encode())
                found = by(simd_json.loads, data, max_depth=int(limit or 1024))
                if answer.startswith("! "):
                    reason, index = answer[2:].split()[0], int(answer.split()[4])
                    self.assertEqual(found.reason, reason, line)
                    if found.msg == "more text after the document":
                        json.loads(data[:found.pos])
                        self.assertNotIn(data[found.pos], b" \t\n\r", line)
                        self.assertGreater(found.pos, index, line)
                    elif answer.endswith("')"):  # an error of the whole input has no index there
                        self.assertEqual(found.pos, index, line)
                else:
                    self.assertNotIsInstance(found, simd_json.SimdJsonError, line)
                judged += 1
        self.assertGreater(judged, 100)


class Values(unittest.TestCase):
    def test_inputs(self):
        for data in ('["é"]', '["é"]'.encode(), bytearray('["é"]'.encode()), memoryview('["é"]'.encode())):
            self.assertEqual(simd_json.loads(data), ["é"])
        view = memoryview(b"71")
        for view in (view.cast("B", (2, 1)), view.cast("H"), view.cast("H", ()),
                     memoryview(b"17")[::-1]):
            self.assertEqual(simd_json.loads(view), 71)
        view.release()
        with self.assertRaises(ValueError):
            simd_json.loads(view)
        for data in (None, 1, ["[]"], {}):
            with self.assertRaises(TypeError):
                simd_json.loads(data)

    def test_numbers(self):
        for text in ("0", "-0", "9223372036854775807", "-9223372036854775808", "18446744073709551615", "-9223372036854775809",
                     "18446744073709551616", str(2**128 - 1), str(-(2**127)), "1e5", "-0.0", "1.5", "1e400", "-1e400", "4.9e-324",
                     "0." + "1" * 200, "3.141592653589793238462643383279"):
            found = simd_json.loads(text)
            self.assertEqual((type(found), repr(found)), (type(json.loads(text)), repr(json.loads(text))))
        # Halfway between two floats and beside it, and powers that are no floats.
        for text in ("9007199254740993.0", "4503599627370497.5", "4503599627370497.4999", "4503599627370497.5001",
                     "9007199254740992.0", "9999999999999999999.0", "18446744073709551616.0", "0." + "0" * 22 + "1",
                     "0." + "0" * 26 + "1", "0." + "0" * 27 + "1", "0." + "0" * 27, "-0." + "0" * 23, "0.9999999999999999999",
                     "65.613616999999977"):
            self.assertEqual(repr(simd_json.loads(text)), repr(float(text)), text)
        rng = random.Random(754)
        for _ in range(20000):
            text = repr(rng.choice([-1, 1]) * rng.random() * 10 ** rng.randrange(-12, 12))[:rng.randrange(4, 25)].rstrip("e.-+")
            if "." in text or "e" in text:
                self.assertEqual(repr(simd_json.loads(text)), repr(float(text)), text)
        for text in (str(2**128), str(-(2**127) - 1)):
            self.assertEqual(by(simd_json.loads, text).reason, "InvalidNumber")
        self.assertEqual(simd_json.loads("[1.10]", parse_float=str), ["1.10"])

    def test_keys(self):
        text = json.dumps([{"a": 1, "é" * 40: 2, "k" * 100: 3}] * 3 + [{f"k{i}": i for i in range(5000)}])
        self.assertEqual(simd_json.loads(text), json.loads(text))
        self.assertEqual(simd_json.loads('{"a":1,"a":2}'), {"a": 2})

    def test_strings(self):
        """Characters of each length of UTF-8 at its bounds, in strings and keys of lengths around those where the code forks."""
        characters = "a\0\x7f\x80\u07ff\u0800\uffff\U00010000\U0010ffff"
        rng = random.Random(3629)
        for length in [*range(70), 127, 200, *range(505, 520), 2000]:
            for kinds in ("a", "a\0\x7f", "a\x80", "ab\u07ff", "a\u0800\uffff", "\uffff", "\U0010ffff", characters):
                text = "".join(rng.choice(kinds) for _ in range(length))
                for end in ("", "b", "\xe9"):
                    value = [text + end, {text + end: text, end: end}, [{text + end: 1}, {text + "c" + end: 2}]]
                    found = simd_json.loads(json.dumps(value, ensure_ascii=False))
                    self.assertEqual(found, value)
                    self.assertEqual(repr(found), repr(value))

    def test_like_keys(self):
        """Keys that differ in one byte, wherever it is, and repeat in other orders."""
        keys = ["".join("x" if i == at else "k" for i in range(length)) for length in range(70) for at in range(length + 1)]
        rng = random.Random(8)
        value = [{key: 1 for key in rng.sample(keys, 30)} for _ in range(1000)]
        self.assertEqual(json.dumps(simd_json.loads(json.dumps(value))), json.dumps(value))

    def test_collections(self):
        """Whether the garbage collector is on is as before, after each end of a call."""
        def enabled(literal=None):
            return gc.isenabled()

        self.addCleanup(gc.enable)
        for change in (gc.disable, gc.enable):
            change()
            for text in ('{"a":[1.5,"é"]}', "[1,]", "[[1]", ""):
                for given in ({}, {"parse_float": float}, {"parse_float": enabled}, {"max_depth": 1}):
                    before = gc.isenabled()
                    by(simd_json.loads, text, **given)
                    self.assertEqual(gc.isenabled(), before)
            self.assertEqual(simd_json.loads("[1.5]", parse_float=enabled), [gc.isenabled()])
            self.assertEqual(simd_json.loads("[1.5]", parse_float=lambda _: (simd_json.loads("[{}]"), enabled())),
                             [([{}], gc.isenabled())])
            with self.assertRaises(ZeroDivisionError):
                simd_json.loads("[1.5]", parse_float=lambda _: 1 // 0)
            self.assertEqual(gc.isenabled(), change is gc.enable)

    def test_hooks(self):
        """As json calls them, in the same order, with the same arguments."""
        texts = ('{"a":[1,-2.5,{"b":-0,"a":{}}],"a":{"c":18446744073709551616},"":[]}', "[]", "{}", "7", "-1e5",
                 '[[{"k":1,"k":2}],[[[]]],null,"x",-9223372036854775808]', str(2**128 - 1), '"text"')
        names = ("object_hook", "object_pairs_hook", "parse_float", "parse_int")

        def hooks(chosen, calls):
            def hook(name):
                def call(given):
                    calls.append((name, copy.deepcopy(given)))
                    return (name, given)
                return call
            return {name: hook(name) for name in chosen}

        for text in texts:
            for chosen in range(1 << len(names)):
                chosen = [name for at, name in enumerate(names) if chosen >> at & 1]
                found, wanted = [], []
                self.assertEqual(simd_json.loads(text, **hooks(chosen, found)), json.loads(text, **hooks(chosen, wanted)))
                self.assertEqual(found, wanted)
                found.clear()
                parser = simd_json.Parser(**hooks(chosen, found))
                self.assertEqual(parser.loads(text), json.loads(text, **hooks(chosen, [])))
                self.assertEqual(found, wanted)
        self.assertEqual(simd_json.loads("[1,1.5]", parse_int=int, parse_float=float), [1, 1.5])
        for name in names:
            for text in ('{"a":{"b":[1,1.5]},"c":{}}', '[1.5,1,{"a":{}}]'):
                with self.assertRaises(ZeroDivisionError):
                    simd_json.loads(text, **{name: lambda given: 1 // 0})
        with self.assertRaisesRegex(TypeError, "NaN, Infinity and -Infinity are rejected"):
            simd_json.loads("1", parse_constant=float)
        with self.assertRaisesRegex(TypeError, "cls"):
            simd_json.loads("1", cls=json.JSONDecoder)

    def test_mutants_with_hooks(self):
        rng = random.Random(6901)
        named = {"object_pairs_hook": tuple, "parse_int": str, "parse_float": str}
        for _ in range(MUTANTS // 10):
            data = changed(rng)
            plain, found = by(simd_json.loads, data), by(simd_json.loads, data, **named)
            if isinstance(plain, simd_json.SimdJsonError):
                self.assertEqual(str(plain), str(found))
            else:
                self.assertEqual(found, json.loads(data.decode(), **named))

    def test_load(self):
        self.assertEqual(simd_json.load(io.BytesIO(b'{"a":1.50}'), parse_float=str), {"a": "1.50"})
        self.assertEqual(simd_json.load(io.StringIO("[1]")), [1])

    def test_pointer(self):
        """The value at a pointer of each row, and of each value of mutants."""
        import rows

        judged, document = 0, b""
        for path in sorted((ROOT / "tests" / "vectors").glob("*.txt")):
            for line in path.read_bytes().decode().splitlines():
                question, arrow, answer = line.partition(" => ")
                word, _, text = question.partition(" ")
                if word == "document":
                    document = rows.decoded(line.partition(" ")[2].encode())
                if word != "pointer" or not arrow:
                    continue
                pointer = rows.decoded(text.encode()).decode()
                wanted = absent if answer.startswith("! ") else json.loads(rows.decoded(answer.encode()))
                parser = simd_json.Parser()
                parser.scan(document)
                for call in (lambda *given: simd_json.pointer(document, *given), parser.pointer):
                    if re.fullmatch("(/([^~/]|~[01])*)*", pointer):
                        self.assertEqual(call(pointer, absent), wanted, line)
                    else:
                        self.assertRaisesRegex(ValueError, "is no JSON Pointer", call, pointer, absent)
                judged += 1
        self.assertGreater(judged, 100)

        def walk(value, pointer):
            yield pointer, value
            members = value.items() if type(value) is dict else enumerate(value) if type(value) is list else ()
            for key, member in members:
                yield from walk(member, f"{pointer}/" + str(key).replace("~", "~0").replace("/", "~1"))

        rng, parser = random.Random(1), simd_json.Parser()
        for _ in range(MUTANTS // 20):
            data = changed(rng)
            pairs = by(simd_json.loads, data, object_pairs_hook=lambda pairs: dict(reversed(pairs)))
            if isinstance(pairs, simd_json.SimdJsonError):  # a value may be found, but none is absent
                if not isinstance(by(parser.scan, data), simd_json.SimdJsonError):
                    for pointer in ("", "/0", "/a", "/a/0"):
                        self.assertIsNot(by(parser.pointer, pointer, absent), absent, (data, pointer))
                continue
            parser.scan(data)
            for pointer, value in walk(pairs, ""):
                self.assertEqual(parser.pointer(pointer, absent), simd_json.pointer(data, pointer, absent))
                if not value:
                    self.assertEqual(repr(parser.pointer(pointer, absent)), repr(value), (data, pointer))

    def test_pointer_s_arguments(self):
        data = '{"a":[1,{"b/c":"é"}],"deep":[[[]]]}'
        for kind in (str, str.encode, lambda text: bytearray(text.encode()), lambda text: memoryview(text.encode())):
            self.assertEqual(simd_json.pointer(kind(data), "/a/1/b~1c"), "é")
            self.assertEqual((simd_json.pointer(kind(data), "/b"), simd_json.pointer(kind(data), "/b", 7)), (None, 7))
        self.assertEqual(simd_json.pointer(data, "/a", default=1)[0], 1)
        self.assertEqual(simd_json.pointer(data, "/\ud800", 1), 1)
        self.assertEqual(by(simd_json.pointer, data, "/deep", max_depth=2).reason, "DepthLimitExceeded")
        self.assertEqual(by(simd_json.pointer, b'["\xff"]', "/0").reason, "InvalidUtf8")
        for given in ((data, 1), (1, "/a"), (data, None), (data, b"/a")):
            with self.assertRaises(TypeError):
                simd_json.pointer(*given)
        parser = simd_json.Parser(parse_float=str, object_hook=lambda found: (parser.pointer("/1"), found), max_depth=3)
        self.assertEqual(parser.pointer("/a", 1), 1)  # nothing is kept
        parser.scan('[{"a":1.50},"next",{"x":[[[]]]}]')
        self.assertEqual(parser.pointer("/0"), ("next", {"a": "1.50"}))
        self.assertEqual((parser.loads("[2.50]"), parser.pointer("/1")), (["2.50"], "next"))
        self.assertEqual(by(parser.pointer, "/2").reason, "DepthLimitExceeded")
        self.assertEqual(by(parser.scan, b'["').reason, "Syntax")
        self.assertEqual(parser.pointer("/1", "none"), "none")
        long = "[" + " " * 100000 + '"' + "x" * 300000 + '"]'
        parser.scan(long)
        self.assertEqual(parser.pointer("/0"), "x" * 300000)
        parser.__init__(max_depth=1)
        self.assertEqual(by(parser.pointer, "").__class__, list)

    def test_fields(self):
        """What Fields finds, and its error, are those of pointer: of mutants, and of pointers to what their seeds have."""
        def pointers(value, pointer):
            yield pointer
            members = value.items() if type(value) is dict else enumerate(value) if type(value) is list else ()
            for key, member in members:
                yield from pointers(member, f"{pointer}/" + str(key).replace("~", "~0").replace("/", "~1"))

        rng = random.Random(2)
        known = ["", "/0", "/1", "/a", "/a/0", "/absent", "/~0~1"]
        for seed in mutants.SEEDS:
            value = by(simd_json.loads, seed)
            if not isinstance(value, simd_json.SimdJsonError):
                known += [pointer for pointer in pointers(value, "") if "\ud800" not in pointer]
        found, wrong = 0, 0
        for _ in range(MUTANTS // 10):
            data, names = changed(rng), rng.choices(known, k=rng.choice([1, 2, 3, 9, 40]))
            named = rng.choice([{}, {"parse_float": str, "parse_int": str}, {"object_pairs_hook": list}, {"max_depth": 2}])
            parser = simd_json.Parser(**named)
            scanned = by(parser.scan, data)
            wanted = [scanned if scanned else by(parser.pointer, name, absent) for name in names]
            errors = [each for each in wanted if isinstance(each, simd_json.SimdJsonError)]
            got = by(simd_json.Fields(names, default=absent, **named).get, data)
            if errors:
                wrong += 1
                self.assertEqual((str(got), got.doc), (str(errors[0]), data), names)
            else:
                found += 1
                self.assertEqual(repr(got), repr(tuple(wanted)), (data, names))
        self.assertGreater(min(found, wrong), MUTANTS // 1000)

    def test_fields_of_each_kind(self):
        text = ('{"status":404,"path":"/é😀","quoted":"\\"\\u00e9","tags":["x",{"y":[]}],"ratio":-2.50,"wide":18446744073709551616,'
                '"low":-7,"zero":-0,"on":true,"none":null,"status":1}')
        names = ["/status", "/path", "/quoted", "/tags", "/ratio", "/wide", "/low", "/zero", "/on", "/none", "/absent", "/tags/1/y",
                 "/path", ""]
        whole = json.loads(text)
        wanted = [404, "/é😀", '"é', ["x", {"y": []}], -2.5, 2**64, -7, 0, True, None, absent, [], "/é😀", whole]
        fields = simd_json.Fields(iter(names), default=absent)
        for spaces in (0, 100000):  # while the second is read, other threads run
            long = " " * spaces + text
            for kind in (str, str.encode, lambda text: bytearray(text.encode()), lambda text: memoryview(text.encode())):
                self.assertEqual(repr(fields.get(kind(long))), repr(tuple(wanted)))
        self.assertEqual(simd_json.Fields(("/zero", "/ratio"), parse_int=str, parse_float=str).get(text), ("-0", "-2.50"))
        self.assertEqual(simd_json.Fields([]).get(b"[1"), ())
        self.assertEqual(by(simd_json.Fields([]).get, b'["\xff"]').reason, "InvalidUtf8")
        many = [f"/{i % 700}" for i in range(1000)]
        self.assertEqual(simd_json.Fields(many).get(str(list(range(700)))), tuple(i % 700 for i in range(1000)))
        self.assertEqual(simd_json.Fields(["/a"]).get("7"), (None,))
        self.assertEqual(simd_json.Fields(["/a", "/b"]).get('{"a":1,"b":"\\n"} x'), (1, "\n"))  # no document, as by pointer

    def test_fields_s_arguments(self):
        Fields = simd_json.Fields
        for given, error in (((), TypeError), (("/a",), TypeError), (([1],), TypeError), ((1,), TypeError), (([b"/a"],), TypeError),
                             ((["/a", "a"],), ValueError), ((["/~"],), ValueError), ((["/\ud800"],), ValueError), (([""], None), TypeError)):
            self.assertRaises(error, Fields, *given)
        for named, error in (({"max_depth": -1}, ValueError), ({"max_depth": "1"}, TypeError), ({"strict": True}, TypeError),
                             ({"parse_constant": float}, TypeError)):
            self.assertRaises(error, Fields, [""], **named)
        self.assertRaises(TypeError, simd_json.Parser, default=1)
        self.assertRaises(TypeError, simd_json.loads, "1", default=1)
        fields = Fields(["/a"], max_depth=2, default=7)
        self.assertRaises(TypeError, fields.get, 1)
        self.assertRaises(TypeError, fields.get)
        self.assertEqual((fields.get('{"a":[]}'), by(fields.get, '{"a":[[[]]]}').reason), (([],), "DepthLimitExceeded"))
        self.assertRaises(ValueError, fields.__init__, ["b"])
        self.assertEqual(fields.get('{"a":[]}'), ([],))  # it is as it was
        fields.__init__(["/b", "/a"])
        self.assertEqual(fields.get('{"a":[[]]}'), (None, [[]]))

        class Plain(Fields):
            def __init__(self):
                pass

        self.assertEqual((Plain().get("[1]"), by(Plain().get, b"\xff").reason), ((), "InvalidUtf8"))

    def test_fields_called_by_their_hooks(self):
        """Which change the input and the pointers, and call again: the values are of the input and the pointers as they were."""
        def change(literal):
            data[:] = b"?" * len(data)
            seen.append(fields.get('{"a":[2],"b":"\\n"}'))
            fields.__init__(["/c"], default="other")
            return literal

        for text in (b'{"a":1.5,"b":[2.5,"\\u00e9"],"c":"d"}', b'{"a":1.5,"b":[2.5,"\\u00e9"],"c":"d"}' + b" " * 100000):
            data, seen, given = bytearray(text), [], []
            fields = simd_json.Fields(["/a", "/b", "/c", "/absent"], parse_float=change, default=given)
            self.assertEqual(fields.get(data), ("1.5", ["2.5", "é"], "d", given))
            self.assertEqual(seen, [([2], "\n", None if not seen else given, given), ("other",)])
            self.assertEqual(fields.get('{"c":1.5}'), (1.5,))

        def pointers():
            yield "/a"
            fields.__init__(["/b"])
            yield "/b"

        fields = simd_json.Fields(["/c"])
        fields.__init__(pointers())
        self.assertEqual(fields.get('{"a":1,"b":2}'), (1, 2))
        # Of a cycle nothing is left.
        fields = simd_json.Fields(["/a"], default=(cycle := []), object_hook=lambda found: fields)
        cycle.append(fields)
        gone = weakref.ref(type("Text", (str,), {})("x"))
        self.assertIs(fields.get('{"a":{}}')[0], fields)
        del fields, cycle
        gc.collect()
        self.assertIsNone(gone())

    def test_lines_of_fields(self):
        errors, fields = [], simd_json.Fields(["/a", "/b"], default=0)
        log = [b'{"a":1}\n', b"\n", '{"a":"\\n","b":[]}', bytearray(b'{"a":1'), memoryview(b'{"b":nope}'), "[]"]
        self.assertEqual(list(fields.lines(log, on_error=errors.append)), [(1, 0), ("\n", []), (0, 0)])
        self.assertEqual([(error.reason, error.lineno, error.colno) for error in errors], [("Syntax", 4, 6), ("ExpectedNull", 5, 6)])
        with self.assertRaises(simd_json.SimdJsonError) as caught:
            list(fields.lines(["{}", "[1,"]))
        self.assertEqual(caught.exception.lineno, 2)

    def test_wrong_is_not_absent(self):
        """A pointer that is none is an error, and an input that is no document has no absent values: the error is that of loads."""
        for pointer in ("a", "$.a", ".a", "a/0", "/~", "/a~", "/~2", "/~~0", "~0", " /a"):
            for call in (lambda: simd_json.pointer('{"a":1}', pointer, 7), lambda: simd_json.Parser().pointer(pointer, 7)):
                with self.assertRaisesRegex(ValueError, "^'.*' is no JSON Pointer .*: write '/' before each key and index"):
                    call()
        for wrong, pointers in (('{"a":{"n":1%s},"b":1}' % ("0" * 40), ["/a/n", "/a", "/a/x", "/x", ""]),
                                ('{"é":[1,\n01],"a":[nope],"b":1}', ["/é", "/é/1", "/a/0", "/x"]), ("nope", ["", "/a"]),
                                ("\n1.e", [""]), ('[[1] "x"]', ["/1", ""])):
            for kind in (str, str.encode, lambda text: bytearray(text.encode()), lambda text: memoryview(text.encode())):
                data, parser = kind(wrong), simd_json.Parser()
                wanted = by(simd_json.loads, data)
                parser.scan(data)
                for pointer in pointers * 2:
                    for error in (by(simd_json.pointer, data, pointer, 7), by(parser.pointer, pointer, 7)):
                        self.assertEqual((str(error), error.doc), (str(wanted), wanted.doc), pointer)
                if '"b"' in wrong:
                    self.assertEqual((simd_json.pointer(data, "/b"), parser.pointer("/b")), (1, 1))
        parser.scan('{"n":null,"a":01}')  # a default that is also a value
        self.assertIsNone(parser.pointer("/n"))
        self.assertEqual(by(parser.pointer, "/a").reason, "InvalidNumber")
        data = bytearray(b'{"a":01}')  # what is checked is what was scanned
        parser.scan(data)
        data[:] = b'{"a":10}'
        self.assertEqual(by(parser.pointer, "/a").reason, "InvalidNumber")

    def test_what_is_known_to_be_right_is_let_go(self):
        class Text(str):
            pass

        data, parser = Text('{"a":[]}'), simd_json.Parser()
        parser.scan(data)
        gone = weakref.ref(data)
        del data
        self.assertEqual((parser.pointer("/a"), gone() is None), ([], False))
        self.assertEqual((parser.pointer("/b"), gone() is None), (None, True))
        self.assertEqual((parser.pointer("/b"), parser.pointer("/a")), (None, []))
        data = Text("[]")
        data.parser = parser
        parser.scan(data)  # which is in a cycle
        gone = weakref.ref(data)
        del data, parser
        gc.collect()
        self.assertIsNone(gone())

    def test_program(self):
        with tempfile.TemporaryDirectory() as folder:
            right, wrong = pathlib.Path(folder, "right"), pathlib.Path(folder, "wrong")
            right.write_bytes(b"[1]")
            wrong.write_bytes(b"[1,\n x]")
            told = "2:2: expected a value, found `x` [InternalError at byte 5]\n"
            for names, status, out, reason in (
                    ([right], 0, "", ""), ([folder, wrong], 3, f"{wrong}:{told}", f"{folder}: Is a directory\n"),
                    ([wrong, right], 1, f"{wrong}:{told}", ""), ([], 1, f"-:{told}", ""), (["--", "-"], 1, f"-:{told}", ""),
                    ([right, "-"], 1, f"-:{told}", ""), (["--frobnicate"], 2, "", "error: unrecognized arguments: --frobnicate\n"),
                    (["--version"], 0, f"simd_json {simd_json.__version__}\n", "")):
                ran = subprocess.run([sys.executable, "-m", "simd_json", *map(str, names)], capture_output=True, text=True,
                                     input="[1,\n x]")
                self.assertEqual((ran.returncode, ran.stdout), (status, out))
                self.assertEqual(ran.stderr.partition("python -m simd_json: ")[2], reason)
        ran = subprocess.run([sys.executable, "-m", "simd_json", "--help"], capture_output=True, text=True)
        self.assertEqual((ran.returncode, ran.stderr), (0, ""))
        self.assertIn("[FILE ...]", ran.stdout)
        for text, told in (  # as of jcheck
                ("[1] 2", "1:5: more text after the document [TrailingData at byte 4]"),
                ("1 2", "1:3: more text after the document [TrailingData at byte 2]"),
                ('{"a": "b,\n "c": 1}', "1:10: a line feed in the string that begins at 1:7 [Syntax at byte 9]"),
                ('["é"]\n{"a\tb": 1}', "2:4: a tab in the string that begins at 2:2 [Syntax at byte 10]"),
                (']["é\\"", ["[\x01"]]', "1:13: control character 1 in the string that begins at 1:11 [Syntax at byte 13]"),
                ("[1,2", "1:4: the input ends after this, within the array that begins at 1:1 [Syntax at byte 3]"),
                ('["}",\n {"é":[]}, {"]": 1', "2:18: the input ends after this, within the object that begins at 2:12 [Syntax at byte 24]")):
            ran = subprocess.run([sys.executable, "-m", "simd_json"], capture_output=True, text=True, input=text)
            self.assertEqual(ran.stdout, f"-:{told}\n")

    def test_program_s_memory(self):
        """Where there is too little, a line says of which file, and the others are checked."""
        import simd_json.__main__ as program

        with tempfile.NamedTemporaryFile() as file, contextlib.redirect_stderr(io.StringIO()) as told, \
                unittest.mock.patch.object(program, "check", side_effect=[MemoryError, None]) as checked:
            self.assertEqual(program.check_files([file.name, file.name]), 3)
        self.assertEqual((told.getvalue(), checked.call_count), (f"python -m simd_json: {file.name}: out of memory\n", 2))

    def test_program_s_names(self):
        """A name is bytes, as the system has it, and need not be UTF-8."""
        with tempfile.TemporaryDirectory() as folder:
            name = os.fsencode(folder) + b"/\xc3\xa9\xff"
            with open(name, "wb") as file:
                file.write(b"[1,]")
            strict = {**os.environ, "PYTHONUTF8": "1", "PYTHONIOENCODING": "utf-8:strict"}
            ran = subprocess.run([sys.executable, "-m", "simd_json", name], capture_output=True, env=strict)
            self.assertEqual(ran.stdout, name + b":1:4: expected a value, found `]` [InternalError at byte 3]\n")
            self.assertEqual((ran.returncode, ran.stderr), (1, b""))

    def test_program_s_output(self):
        """Where it can't be written, a line says so, and nothing where its reader is gone."""
        with tempfile.NamedTemporaryFile(suffix=".json") as file:
            command = [sys.executable, "-m", "simd_json", *[file.name] * 3000]
            with open("/dev/full", "w") as full:
                ran = subprocess.run(command, stdout=full, stderr=subprocess.PIPE, text=True)
            self.assertEqual((ran.returncode, ran.stderr), (3, "python -m simd_json: standard output: No space left on device\n"))
            reader, writer = os.pipe()
            os.close(reader)
            ran = subprocess.run(command, stdout=writer, stderr=subprocess.PIPE, text=True)
            os.close(writer)
            self.assertEqual((ran.returncode, ran.stderr), (1, ""))

    def test_depth(self):
        for depth in (1, 1000, 1024):
            value = simd_json.loads("[" * depth + "]" * depth)
            for _ in range(depth - 1):
                (value,) = value
            self.assertEqual(value, [])
        self.assertEqual(by(simd_json.loads, "[" * 1025 + "]" * 1025).reason, "DepthLimitExceeded")
        deep = simd_json.loads("[" * 100000 + "]" * 100000, max_depth=100000)
        self.assertEqual(len(deep), 1)
        with self.assertRaises(ValueError):
            simd_json.loads("1", max_depth=-1)

    def test_parse_float_may_parse(self):
        inner = lambda literal: simd_json.loads(f'{{"literal":"{literal}"}}')
        self.assertEqual(simd_json.loads('{"a":1.5,"b":[2.5,"text"]}', parse_float=inner),
                         {"a": {"literal": "1.5"}, "b": [{"literal": "2.5"}, "text"]})

        def fails(literal):
            raise ZeroDivisionError

        for text in ("1.5", '{"a":[1,{"b":1.5}]}', '[[["x",1.5]]]'):
            with self.assertRaises(ZeroDivisionError):
                simd_json.loads(text, parse_float=fails)
        self.assertEqual(simd_json.loads("[1.5]"), [1.5])

    def test_a_hook_without_end(self):
        """It is Python's error, and not the end of the stack, also where no code of Python is between two calls."""
        code = "import simd_json; p = simd_json.Parser(); p.__init__(parse_float=p.loads); p.loads('[1.5]')"
        ran = subprocess.run([sys.executable, "-c", code], capture_output=True, text=True)
        self.assertEqual(ran.returncode, 1)
        self.assertIn("RecursionError: maximum recursion depth exceeded", ran.stderr)

    def test_hooks_may_change_the_input(self):
        """What comes after it is of the input as it was: with the same parser, and with what it has indexed."""
        text = b'[1.5, "\\u00e9", {"a\\n": "b"}, 2.5, "' + b"x" * 100 + b'"]'
        wanted = ["1.5", "é", {"a\n": "b"}, "2.5", "x" * 100]

        def change(literal):
            data[:] = b"?" * len(data)
            parser.loads(other)
            simd_json.loads(other)
            return literal

        other = b'["' + b"\\u0041" * 1000 + b'", "y"]'
        for call in (lambda: parser.loads(data), lambda: simd_json.loads(data, parse_float=change),
                     lambda: (parser.scan(data), parser.pointer(""))[1]):
            data, parser = bytearray(text), simd_json.Parser(parse_float=change)
            self.assertEqual(call(), wanted)
            self.assertEqual(data, b"?" * len(text))

    def test_keywords_may_be_lost_while_they_are_used(self):
        """By a call of C's, and in a thread that _thread begins, they are in the dict of the caller."""
        call = ctypes.pythonapi.PyObject_Call
        call.argtypes, call.restype = [ctypes.py_object] * 3, ctypes.py_object

        class Losing:
            def __call__(self, given):
                named.clear()
                return given

            def __index__(self):
                named.clear()
                return 7

        for name, text in (("parse_float", "[1.5,2.5,3.5]"), ("parse_int", "[1,2,3]")):
            named = {name: Losing()}
            self.assertEqual(call(simd_json.loads, (text,), named), text[1:-1].split(","))
        for name, value in (("object_hook", {"b": []}), ("object_pairs_hook", [("b", [])])):
            named = {name: Losing()}
            self.assertEqual(call(simd_json.loads, ('[{"b":[]},{"b":[]}]',), named), [value] * 2)
        named = {"parse_float": lambda literal: literal + "0", "max_depth": Losing()}
        with contextlib.suppress(TypeError):
            self.assertEqual(call(simd_json.loads, ("[1.5]",), named), ["1.50"])
        named = {"default": [json.loads("[[1]]")], "max_depth": Losing()}
        self.assertEqual(call(simd_json.pointer, ("[]", "/0"), named), [[[1]]])
        for wrong in (simd_json.loads, lambda text, **named: simd_json.pointer(text, "", **named)):
            for depth, error in (("1", TypeError), (1 << 64, OverflowError), (-1 << 64, OverflowError), (-1, ValueError)):
                with self.assertRaises(error):
                    wrong("[1.5]", max_depth=depth)

    def test_code_of_users_sees_no_half_made_container(self):
        """Neither parse_float, nor what an object does that dies because its key comes again."""
        def is_half_made(value):
            if type(value) is list:
                return len(gc.get_referents(value)) < len(value)
            return type(value) is dict and "begun" in value and "whole" not in value

        class Literal:
            def __init__(self, literal):
                self.look()

            def __del__(self):
                self.look()

            def look(self):
                looks.append(1)
                found.extend(type(value) for value in gc.get_objects() if is_half_made(value))

        found, looks = [], []
        text = '[[1,{"begun":1.5,"begun":{"begun":[2.5],"whole":1},"begun":3.5,"whole":1},4.5],0]'
        value = simd_json.loads(text, parse_float=Literal)
        self.assertEqual(len(looks), 6)
        del value
        self.assertEqual((found, len(looks)), ([], 8))


class Errors(unittest.TestCase):
    def test_places(self):
        import rows

        judged = 0
        for line in (ROOT / "tests" / "vectors" / "places.txt").read_bytes().decode().splitlines():
            question, _, answer = line.partition(" => ")
            word, _, limit = question.partition(" ")[0].partition(":")
            if word != "locate":
                continue
            data, limit = rows.decoded(question[question.index(" ") + 1:].encode()), int(limit or 1024)
            found = by(simd_json.loads, data, max_depth=limit)
            if answer == "none":
                self.assertNotIsInstance(found, simd_json.SimdJsonError, line)
                continue
            self.assertEqual(rows.shown(f"{found.pos} {found.lineno}:{found.colno}: {found.msg}"), answer)
            self.assertEqual(str(by(simd_json.check, memoryview(data), max_depth=limit)), str(found), line)
            if found.reason != "InvalidUtf8":
                text = by(simd_json.loads, data.decode(), max_depth=limit)
                self.assertEqual((text.pos, text.lineno, text.colno, text.msg),
                                 (len(data[:found.pos].decode()), found.lineno, found.colno, found.msg), line)
            judged += 1
        self.assertGreater(judged, 50)

    def test_place(self):
        error = by(simd_json.loads, '{\n "é": 01}')
        self.assertEqual((error.reason, error.pos, error.lineno, error.colno), ("InvalidNumber", 9, 2, 8))
        self.assertEqual(by(simd_json.loads, '{\n "é": 01}'.encode()).pos, 10)
        self.assertIn("line 2 column 8", str(error))
        self.assertIsInstance(error, ValueError)
        again = pickle.loads(pickle.dumps(error))
        self.assertEqual((str(again), again.pos), (str(error), error.pos))
        self.assertEqual(by(simd_json.check, b"\xff").reason, "InvalidUtf8")
        self.assertEqual(by(simd_json.check, "").reason, "Eof")

    def test_more_text(self):
        """Where text follows a document, the error is at the first character of it."""
        for text, reason, place in (("[1]\n[2]", "InternalError", (4, 2, 1)), (" 4 5", "TrailingData", (3, 1, 4)),
                                    ('{"é": 1}\t\n ]', "InternalError", (11, 2, 2)),
                                    ('"é" ,', "TrailingData", (4, 1, 5)), ("[]\r\n\r\nx", "InternalError", (6, 3, 1))):
            for call in (simd_json.loads, simd_json.check, simd_json.Parser().loads, simd_json.Parser().check):
                error = by(call, text)
                self.assertEqual((error.reason, error.msg), (reason, "more text after the document"))
                self.assertEqual(str(error), f"{error.msg}: line {place[1]} column {place[2]} (TrailingData at {place[0]})")
                self.assertEqual((error.pos, error.lineno, error.colno), place, text)
                data = text.encode()
                for doc in (data, bytearray(data), memoryview(data)):
                    error = by(call, doc)
                    self.assertEqual(error.pos, len(text[:place[0]].encode()))
                    self.assertEqual((error.lineno, error.colno), place[1:], text)

    def test_json_s_error(self):
        """Who catches json's errors catches these, with all that those have."""
        text = '{\n "é": 01}'
        for doc in (text, text.encode(), bytearray(b"[01]"), memoryview(b"[01]")):
            try:
                simd_json.loads(doc)
                self.fail()
            except json.JSONDecodeError as error:
                self.assertIs(error.doc, doc)
                self.assertEqual(error.doc[error.pos], "1" if isinstance(doc, str) else ord("1"))
                place = f"line {error.lineno} column {error.colno} (InvalidNumber at {error.pos})"
                self.assertEqual(str(error), f"{error.msg}: {place}")
                for again in (pickle.loads(pickle.dumps(error)), copy.copy(error)):
                    self.assertIs(type(again), simd_json.SimdJsonError)
                    self.assertEqual(str(again), str(error))
                    named = {**vars(error), "doc": None if isinstance(doc, memoryview) else doc}
                    self.assertEqual(vars(again), named)

    def test_lone_surrogates(self):
        """A str that holds one has no UTF-8, so it is rejected as bytes that are none."""
        for text, place in (('"\ud800"', (1, 1, 2)), ('["é",\n"\udfff\ud800"]', (7, 2, 2)),
                            ('[1,]\udc00', (4, 1, 5)), ("\udc80", (0, 1, 1))):
            for call in (simd_json.loads, simd_json.check, simd_json.Parser().loads):
                error = by(call, text)
                self.assertEqual(error.reason, "InvalidUtf8")
                self.assertEqual(error.msg, "half of a surrogate pair")
                self.assertEqual((error.pos, error.lineno, error.colno), place)
        errors = []
        lines = ["[1]\n", '"\ud800"\n', "[2]"]
        self.assertEqual(list(simd_json.Parser().lines(lines, on_error=errors.append)), [[1], [2]])
        (error,) = errors
        self.assertEqual((error.reason, error.lineno, error.doc), ("InvalidUtf8", 2, lines[1]))
        # A pair of them in escapes is one character, and half of one is no text either.
        self.assertEqual(simd_json.loads('"\\ud83d\\ude00"'), "😀")
        self.assertEqual(by(simd_json.loads, '"\\ud83d"').reason, "InvalidUnicodeCodepoint")


class Kept(unittest.TestCase):
    def test_parser(self):
        parser = simd_json.Parser(max_depth=2)
        self.assertEqual(parser.loads("[[]]"), [[]])
        self.assertEqual(by(parser.loads, "[[[]]]").reason, "DepthLimitExceeded")
        self.assertIsNone(parser.check(b"[1]"))
        self.assertEqual(by(parser.check, b"[1").reason, "Syntax")
        self.assertEqual(list(parser.lines(io.BytesIO(b'{"a":1}\n\n[2]\r\n3'))), [{"a": 1}, [2], 3])
        self.assertEqual(simd_json.Parser(parse_float=str).loads("1.0"), "1.0")

    def test_check_leaves_its_input(self):
        """Whatever it is, and however long: escapes stay as they are."""
        for end, reason in ((', "\\\\"]', None), (', "\\\\",]', "InternalError"), (', "\\x"]', "InvalidEscape")):
            for spaces in (0, 100000):  # while the second is checked, other threads run
                text = '["\\u0041\\n"' + " " * spaces + end
                for kind in (str, str.encode, lambda text: bytearray(text.encode()),
                             lambda text: memoryview(text.encode()), lambda text: memoryview(bytearray(text.encode()))):
                    for check in (simd_json.check, simd_json.Parser().check):
                        data = kind(text)
                        error = by(check, data)
                        self.assertEqual(error and error.reason, reason)
                        self.assertEqual(data, kind(text))

    def test_lines(self):
        """A rejected line is named by its number, and does not affect the next."""
        log = b'{"a":1}\n\n[2,]\r\n[3]\n\xff\n 4 5\n6'
        wanted = [("InternalError", 3, 3, 4), ("InvalidUtf8", 0, 5, 1), ("TrailingData", 3, 6, 4)]
        place = lambda error: (error.reason, error.pos, error.lineno, error.colno)
        parser, errors = simd_json.Parser(), []
        self.assertEqual(list(parser.lines(io.BytesIO(log), on_error=errors.append)), [{"a": 1}, [3], 6])
        self.assertEqual([place(error) for error in errors], wanted)
        values = parser.lines(io.BytesIO(log))
        self.assertEqual(next(values), {"a": 1})
        with self.assertRaises(simd_json.SimdJsonError) as caught:
            next(values)
        self.assertEqual(place(caught.exception), wanted[0])
        self.assertIn("line 3 column 4", str(caught.exception))
        with self.assertRaises(simd_json.SimdJsonError) as caught:
            list(parser.lines(["[1]", "\n", "[é,é]"]))
        self.assertEqual(place(caught.exception), ("InternalError", 1, 3, 2))
        self.assertEqual(caught.exception.doc, "[é,é]")
        self.assertEqual(list(parser.lines(['["a",\n', "[1] 2\n", '{"é\t"}'], on_error=errors.append)), [])
        self.assertEqual([str(error) for error in errors[3:]], [
            "the input ends after this, within the array that begins at 1:1: line 1 column 5 (Syntax at 4)",
            "more text after the document: line 2 column 5 (TrailingData at 4)",
            "a tab in the string that begins at 3:2: line 3 column 4 (Syntax at 3)"])
        del errors[3:]
        views = [memoryview(line) for line in log.splitlines(keepends=True)]
        self.assertEqual(list(parser.lines(views, on_error=errors.append)), [{"a": 1}, [3], 6])
        self.assertEqual([place(error) for error in errors], wanted * 2)

    def test_lines_that_are_no_text(self):
        for line in (1, None, [], ["[1]"]):
            values = simd_json.Parser().lines(["[1]", line])
            self.assertEqual(next(values), [1])
            with self.assertRaisesRegex(TypeError, "the JSON object must be str, bytes, bytearray or memoryview"):
                next(values)

    def test_a_subclass_need_not_call_init(self):
        class Plain(simd_json.Parser):
            def __init__(self, name):
                self.name = name

        parser = Plain("a")
        self.assertEqual((parser.loads('[{"b":[1.5]}]'), parser.pointer("", 7)), ([{"b": [1.5]}], 7))
        self.assertEqual(by(parser.check, "[" * 1025 + "]" * 1025).reason, "DepthLimitExceeded")
        parser.check("[" * 1024 + "]" * 1024)

    def test_lines_of_which_a_hook_parses_a_part(self):
        """What it finds wrong there is not the line's error."""
        def read(literal):
            if literal == "2.5":
                simd_json.check("[\n1,]")
            return literal

        parser, errors = simd_json.Parser(parse_float=read), []
        for line in ("[2.5]", b"[2.5]", bytearray(b"[2.5]"), memoryview(b"[2.5]")):
            values = parser.lines(["[1.5]", "[1.5", line, "[3.5]"], on_error=errors.append)
            self.assertEqual(next(values), ["1.5"])
            with self.assertRaises(simd_json.SimdJsonError) as caught:
                next(values)
            self.assertEqual((caught.exception.doc, caught.exception.pos, caught.exception.lineno), ("[\n1,]", 4, 2))
        self.assertEqual([(error.doc, error.lineno) for error in errors], [("[1.5", 2)] * 4)

    def test_signatures(self):
        named = dict.fromkeys(("object_hook", "parse_float", "parse_int", "parse_constant", "object_pairs_hook"))
        named["max_depth"] = 1024
        for call, defaults in ((simd_json.loads, named), (simd_json.check, {"max_depth": 1024}),
                               (simd_json.Parser, named), (simd_json.Parser().loads, {}),
                               (simd_json.Parser().check, {}), (simd_json.Parser().scan, {})):
            each = inspect.signature(call).parameters.values()
            found = {of.name: of.default for of in each if of.kind == of.KEYWORD_ONLY}
            self.assertEqual(found, defaults)
            data = [] if call is simd_json.Parser else [b"[1.5]"]
            self.assertEqual([of.kind for of in each if of.name not in found],
                             [inspect.Parameter.POSITIONAL_ONLY] * len(data))
            call(*data, **defaults)

    def test_stub(self):
        """What can be imported by the stub is there, and called in the same way."""
        said, text = {}, pathlib.Path(simd_json.__file__).with_suffix(".pyi").read_text()
        exec(text, said)
        imported = {"Any", "Callable", "Iterable", "Iterator", "Protocol"}
        names = {name for name in said if not name.startswith("_")} - imported
        self.assertEqual(names, set(simd_json.__all__))
        # What is json's is exported for type checkers only if it is named again.
        again = {each.asname for part in ast.parse(text).body if isinstance(part, ast.ImportFrom) for each in part.names}
        self.assertEqual(again - {None}, {"JSONDecodeError", "JSONEncoder", "dump", "dumps"})

        def parameters(of):
            return [(each.name, each.kind, each.default) for each in inspect.signature(of).parameters.values()]

        methods = {name for name in vars(said["Parser"]) if not name.startswith("_")}
        own = {name for name in names if getattr(simd_json, name) is not getattr(json, name, None)} - {"load"}  # which passes keywords on
        pairs = [(said[name], getattr(simd_json, name)) for name in own]
        pairs += [(getattr(said["Parser"], name), getattr(simd_json.Parser, name)) for name in methods]
        for stub, found in pairs:
            self.assertEqual(sorted(parameters(stub)), sorted(parameters(found)), found)

    def test_signatures_of_pointer(self):
        self.assertEqual(str(inspect.signature(simd_json.pointer)), "(data, pointer, /, default=None, *, max_depth=1024)")
        self.assertEqual(str(inspect.signature(simd_json.Parser().pointer)), "(pointer, /, default=None)")

    def test_parse_float_may_begin_its_parser_again(self):
        """The parser then drops its parse_float, which reads the document to its end all the same."""
        class Literal:
            def __call__(self, literal):
                parser.__init__()
                return literal

        parser = simd_json.Parser(parse_float=Literal())
        self.assertEqual(parser.loads("[1.5,2.5,3.5]"), ["1.5", "2.5", "3.5"])
        self.assertEqual(parser.loads("[1.5]"), [1.5])

    def test_a_parser_in_a_cycle_is_freed(self):
        class Reader(simd_json.Parser):
            def __init__(self):
                super().__init__(parse_float=self.read)

            def read(self, literal):
                return literal

        reader = Reader()
        gone = weakref.ref(reader)
        self.assertEqual(reader.loads("[1.5]"), ["1.5"])
        self.assertIn(type(reader), gc.get_referents(reader))
        del reader
        gc.collect()
        self.assertIsNone(gone())

    def test_many_sizes(self):
        parser = simd_json.Parser()
        for size in (0, 1, 7, 8, 100, 5000, 200000, 3):
            value = [[i, "x" * (i % 9)] for i in range(size)]
            self.assertEqual(parser.loads(json.dumps(value)), value)
        wide = "[" + "[]," * 100000 + "0]"
        self.assertEqual(parser.loads(wide), json.loads(wide))


if __name__ == "__main__":
    unittest.main()
