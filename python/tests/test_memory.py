"""Each allocation fails in turn: those of the module and the library (where tests/failing.c is linked in), and Python's own.
A call that fails raises MemoryError, leaves nothing behind, and the next one succeeds."""
import ctypes
import gc
import itertools
import sys
import unittest

import simd_json

TEXT = (b'{"a":[1,-2.5,"\\u00e9",{"' + b"k" * 70 + b'":[[[[[[[[[[[[[[[[[[[]]]]]]]]]]]]]]]]]]]}],'
        b'"wide":[340282366920938463463374607431768211455,-9223372036854775809,0.' + b"1" * 70 + b"],"
        + '"é":"ああ😀","long":["{}","{}"]}}'.format("x" * 600, "é€" * 300).encode())
VALUE = simd_json.loads(TEXT)
LARGE = b"[" + b" " * (1 << 21) + b"]"  # after it the module keeps no memory


def fails(call):
    try:
        call()
    except MemoryError:
        return True
    return False


def calls():
    yield lambda: simd_json.loads(TEXT)
    yield lambda: simd_json.check(TEXT)
    yield lambda: simd_json.Parser().loads(TEXT)
    yield lambda: simd_json.Parser().check(TEXT)
    yield lambda: simd_json.loads(TEXT, object_hook=id, parse_int=str)
    yield lambda: simd_json.loads(TEXT, object_pairs_hook=tuple, parse_float=str)
    yield lambda: simd_json.pointer(TEXT, "/a/3")
    yield lambda: simd_json.pointer(TEXT, "/absent")
    yield found
    yield absent
    yield lambda: simd_json.Fields(["/a/2", "/a/3", "/long", "/wide/1"]).get(bytearray(TEXT))
    yield lambda: simd_json.Fields(["/long/0", "/absent"] * 50, object_hook=id, parse_float=str).get(TEXT)


def found():
    parser = simd_json.Parser(object_hook=id)
    parser.scan(TEXT)
    return parser.pointer("/long"), parser.pointer("")


def absent():
    parser = simd_json.Parser()
    parser.scan(bytearray(TEXT))
    return parser.pointer("/absent"), parser.pointer("/absent")


def nested():
    """A call within a call, which has memory of its own."""
    return simd_json.loads("[1.5]", parse_float=lambda literal: simd_json.loads(TEXT))


def fresh(count=itertools.count()):
    """A key that is in no cache."""
    return simd_json.loads('{"é%d":1}' % next(count))


class Memory(unittest.TestCase):
    def test_the_module_s_own(self):
        native = ctypes.CDLL(simd_json._native.__file__)
        try:
            allowed, held = (ctypes.c_int.in_dll(native, "simd_json_" + name) for name in ("allowed", "held"))
        except ValueError:
            self.skipTest("failing.c is not linked in")
        for call in [*calls(), nested]:
            failures = 0
            for count in range(1000):
                simd_json.loads(LARGE)
                self.assertEqual(held.value, 0)
                allowed.value = count
                failed = fails(call)
                allowed.value = -1
                self.assertTrue(gc.isenabled())
                if not failed:
                    break
                failures += 1
                self.assertEqual(simd_json.loads(TEXT), VALUE)
            self.assertGreater(failures, 2)

    def test_check_s(self):
        """It copies a bytearray alone, which other threads can change, and after a large input the
        module keeps nothing."""
        native = ctypes.CDLL(simd_json._native.__file__)
        try:
            allowed, held = (ctypes.c_int.in_dll(native, "simd_json_" + name) for name in ("allowed", "held"))
        except ValueError:
            self.skipTest("failing.c is not linked in")
        text = '["é"' + " " * 100000 + "]"
        data, parser = text.encode(), simd_json.Parser()
        parser.check(data)
        parser.check(text)
        for given, is_copied in ((data, False), (text, False), (memoryview(data), False), (bytearray(data), True)):
            allowed.value = 0
            failed = fails(lambda: parser.check(given))
            allowed.value = -1
            self.assertEqual(failed, is_copied)
        del parser
        for given in (LARGE, LARGE.decode(), bytearray(LARGE), memoryview(LARGE)):
            simd_json.check(given)
            self.assertEqual(held.value, 0)

    def test_python_s(self):
        try:
            from _testcapi import remove_mem_hooks, set_nomemory
        except ImportError:
            self.skipTest("_testcapi is not installed")
        failures = 0
        for call in [*calls(), nested, fresh]:
            for start in range(1, 400):
                set_nomemory(start, start + 1)
                try:
                    failed = fails(call)
                finally:
                    remove_mem_hooks()
                self.assertTrue(gc.isenabled())
                failures += failed
            self.assertEqual(simd_json.loads(TEXT), VALUE)
        self.assertGreater(failures, 50)

    def test_references(self):
        """The same calls again and again hold nothing more."""
        def once():
            for text in (TEXT, b"[1,]", b'{"a":1.5', "\x00", b"\xff"):
                for call in (simd_json.loads, lambda text: simd_json.loads(text, object_pairs_hook=dict, parse_int=str),
                             lambda text: simd_json.pointer(text, "/a"), lambda text: simd_json.pointer(text, "/b", []),
                             simd_json.Fields(["/a", "/long/0", "/b"], default=[]).get,
                             simd_json.Fields(["/a"] * 20, parse_float=str).get):
                    try:
                        call(text)
                    except simd_json.SimdJsonError:
                        pass
        once()
        gc.collect()
        before = sys.getrefcount(None), len(gc.get_objects())
        for _ in range(1000):
            once()
        gc.collect()
        after = sys.getrefcount(None), len(gc.get_objects())
        # From 3.12 on None is never freed and the interpreter does not count it, but a module for 3.10 and later does.
        if sys.version_info < (3, 12):
            self.assertLess(abs(after[0] - before[0]), 100)
        self.assertLess(abs(after[1] - before[1]), 100)


if __name__ == "__main__":
    unittest.main()
