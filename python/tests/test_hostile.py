"""Code of users that does its worst while it is called: it looks at all that the collector knows,
clears what it finds of its own document, copies, collects, calls again, begins its parser again,
drops it, changes the input, raises; so do objects that die. Four threads do it at once, with a
parser that all of them use besides. ROUNDS says how often.

What one thread does to its documents and its parser no other does, so that each call has one answer.
"""
import copy
import functools
import gc
import json
import os
import random
import sys
import threading
import unittest

import simd_json

ROUNDS = int(os.environ.get("ROUNDS", "2000"))
THREADS = 4
SHARED = simd_json.Parser(parse_float=str)
FIELDS = simd_json.Fields(["/2", "/absent", "/0", ""], parse_float=str)


LOOK = threading.RLock()  # since lists of all objects would hold each other
HERE = threading.local()  # whose thread it is


def is_half_made(found):
    """Whether a list has fewer items than its length. Between two looks other threads may change it,
    so in the end both are asked in one call, in which neither they nor the collector run."""
    if type(found) is not list or len(gc.get_referents(found)) >= len(found):
        return False
    asked = (functools.partial(gc.get_referents, found), functools.partial(len, found))
    gc.disable()
    try:
        items, length = list(map(functools.partial.__call__, asked))
    finally:
        gc.enable()
    return len(items) < length


class Rejected(Exception):
    pass


class Dying(str):
    """A literal that is as hostile as the thread in which it dies, which is any where that collects."""

    def __del__(self):
        hostile = getattr(HERE, "hostile", None)
        if hostile is not None:
            hostile.act()


class Reader(simd_json.Parser):
    """In a cycle with its parse_float."""

    def __init__(self, of):
        super().__init__(parse_float=self.read, object_hook=self.hook)
        self.of = of

    def hook(self, found):
        self.of.act()
        return found

    def read(self, literal):
        return self.of.read(literal)


class Hostile:
    """One thread. Its documents have containers with its mark and no others."""

    def __init__(self, number):
        self.rng = random.Random(number)
        self.mark = f"mark {number}"
        self.parser = self.input = None
        self.deep = self.calls = self.cleared = 0
        self.half_made = []

    def text(self):
        rng = self.rng

        def value(depth):
            kind = rng.randrange(6) if depth < 3 - self.deep else rng.randrange(4)
            if kind < 2:
                return f"{rng.randrange(100)}.{rng.randrange(100)}"
            if kind < 4:
                return rng.choice(["null", "1", '"é"', '"text"', "18446744073709551616"])
            members = [value(depth + 1) for _ in range(rng.randrange(4))]
            if kind == 4:
                return f'["{self.mark}",' + ",".join([*members, "0]"])
            keys = ["a", "b", "é" * 9, "k" * 70, f"k{rng.randrange(99)}"]
            pairs = [f'"{rng.choice(keys)}":{member}' for member in members]
            return f'{{"marked":"{self.mark}",' + ",".join([*pairs, '"end":0}'])

        spaces = " " * rng.choice([0, 0, 0, 70000])  # such a parse lets other threads run
        return f"[{value(0)},{value(0)}{spaces},{rng.randrange(9)}.5]"

    def is_own(self, found):
        if type(found) is list:
            return len(found) > 0 and self.mark in gc.get_referents(found)
        return type(found) is dict and found.get("marked") == self.mark

    def act(self):
        """Something hostile."""
        self.calls += 1
        with LOOK:
            self.half_made += [len(found) for found in gc.get_objects() if is_half_made(found)]
            own = [found for found in gc.get_objects() if self.is_own(found)]
        for found in own:
            self.cleared += 1
            repr(found), copy.copy(found)
            found.clear()
        act, parser = self.rng.randrange(40), self.parser
        if act == 0:
            gc.collect()
        elif act == 1:
            self.parser = None
        elif act == 2:
            raise Rejected
        elif act == 3 and parser is not None:
            parser.__init__(self)
        elif act == 4 and isinstance(self.input, bytearray):
            self.input.clear()
        elif act == 5 and isinstance(self.input, memoryview):
            self.input.release()
        elif act < 11 and self.deep < 2:
            self.nested(act)

    def on_demand(self, text):
        """All threads scan with one parser, which lets one in at a time."""
        try:
            SHARED.scan(text)
            SHARED.pointer("/2"), SHARED.pointer("/absent")
            FIELDS.get(text)
        except RuntimeError as error:
            assert "another thread" in str(error)

    def nested(self, act):
        self.deep += 1
        text, parser = self.text(), self.parser
        try:
            if act == 6 and parser is not None:
                parser.loads(text)
            elif act == 7:
                simd_json.loads(text, parse_float=self.read, object_pairs_hook=dict)
            elif act == 8:
                SHARED.check(text)
            elif act == 9 and parser is not None:
                parser.scan(text)
                parser.pointer("/1"), parser.pointer("/absent")
            elif act == 10:
                simd_json.pointer(text, "/0")
                self.on_demand(text)
        finally:
            self.deep -= 1

    def read(self, literal):
        self.act()
        return literal if self.rng.randrange(3) else Dying(literal)

    def call(self, text):
        kind = self.rng.choice([str, bytes, bytearray, memoryview])
        data = self.input = text if kind is str else kind(text.encode())
        way = self.rng.randrange(7)
        if way == 6:
            self.parser = None
            return simd_json.Fields([""], parse_float=self.read).get(data)[0]
        if way == 0:
            return simd_json.loads(data, parse_float=self.read)
        if way == 1:
            return SHARED.loads(data)
        self.parser = Reader(self)
        if way == 2:
            return next(self.parser.lines([data]))
        if way == 5:
            self.parser.scan(data)
            return self.parser.pointer("")
        return self.parser.loads(data)

    def round(self):
        text, cleared = self.text(), self.cleared
        try:
            found = self.call(text)
        except Rejected:
            return
        wanted = json.loads(text, parse_float=str)
        # What is whole may be found, and cleared, too, while it is compared as well.
        assert found == wanted or self.cleared != cleared, (found, wanted)

    def run(self):
        HERE.hostile = self
        for _ in range(ROUNDS // THREADS):
            self.round()


class Changing(unittest.TestCase):
    def test_bytearrays(self):
        """One that another thread changes while it is checked: what is found is of one moment."""
        text, other = b'["' + b"\\n" * 2000000 + b'"]', b'["' + b"\\q" * 2000000 + b'"]'
        data, is_over = bytearray(text), threading.Event()
        self.addCleanup(sys.setswitchinterval, sys.getswitchinterval())
        sys.setswitchinterval(1e-5)

        def change():
            while not is_over.is_set():
                data[:] = other
                data[2:] = b""
                data[:] = text

        thread = threading.Thread(target=change)
        thread.start()
        found = set()
        try:
            for _ in range(min(ROUNDS // 20, 100)):
                try:
                    SHARED.check(data)
                except simd_json.SimdJsonError as error:
                    found.add((error.reason, error.pos))
        finally:
            is_over.set()
            thread.join()
        # The place in words is looked for in what it is by then.
        self.assertLessEqual({reason for reason, _ in found}, {"InvalidEscape", "Syntax"})
        self.assertLessEqual({pos for reason, pos in found if reason == "InvalidEscape"}, {2})


class Hostility(unittest.TestCase):
    def test_hostile(self):
        self.addCleanup(sys.setswitchinterval, sys.getswitchinterval())
        sys.setswitchinterval(1e-3)
        self.addCleanup(setattr, sys, "unraisablehook", sys.unraisablehook)
        unraisable = []
        sys.unraisablehook = lambda raised: unraisable.append(raised.exc_type)
        gc.freeze()  # what there is already is not looked at
        self.addCleanup(gc.unfreeze)
        failed = []

        def run(hostile):
            try:
                hostile.run()
            except BaseException as error:
                failed.append(error)

        each = [Hostile(number) for number in range(THREADS)]
        threads = [threading.Thread(target=run, args=(hostile,)) for hostile in each]
        for thread in threads:
            thread.start()
        for thread in threads:
            thread.join()
        if failed:
            raise failed[0]
        self.assertLessEqual(set(unraisable), {Rejected})
        self.assertEqual([hostile.half_made for hostile in each], [[]] * THREADS)
        self.assertGreater(min(hostile.calls for hostile in each), ROUNDS // THREADS)
        # The cache of keys, and the parser that all have used, are as before.
        self.assertEqual(SHARED.loads('{"a":1.5,"b":[]}'), {"a": "1.5", "b": []})


if __name__ == "__main__":
    unittest.main()
