"""Inputs of more than 4,294,967,295 bytes are rejected without a copy. These are one page of zeros
again and again, and take no memory."""
import mmap
import random
import resource
import unittest

import simd_json

LIMIT = 2**32 - 1


def rejected(call, *arguments):
    try:
        call(*arguments)
    except simd_json.SimdJsonError as error:
        return error
    raise AssertionError("it is accepted")


class Large(unittest.TestCase):
    def judge(self, call, data, place):
        before = resource.getrusage(resource.RUSAGE_SELF).ru_maxrss
        error = rejected(call, data)
        after = resource.getrusage(resource.RUSAGE_SELF).ru_maxrss
        self.assertLess(after - before, 100_000)  # kilobytes
        self.assertEqual((error.reason, error.pos), ("InputTooLarge", LIMIT))
        self.assertEqual((error.lineno, error.colno), place)
        self.assertIs(error.doc, data)

    def test_too_large(self):
        flags = mmap.MAP_PRIVATE | mmap.MAP_ANONYMOUS | getattr(mmap, "MAP_NORESERVE", 0)
        try:
            data, zeros = bytes(LIMIT + 1), mmap.mmap(-1, LIMIT + 2, flags=flags)
        except (MemoryError, OSError):
            self.skipTest("the system gives no such memory, even though it is not used")
        self.judge(simd_json.loads, data, (1, LIMIT + 1))
        with zeros:
            zeros[1 << 20] = zeros[LIMIT // 2] = ord("\n")
            with memoryview(zeros) as view:
                self.judge(simd_json.Parser().check, view, (3, LIMIT - LIMIT // 2))

    def test_place_in_view(self):
        """It is the library's, whatever the blocks are."""
        rng = random.Random(4627)
        self.addCleanup(setattr, simd_json, "_BLOCK", simd_json._BLOCK)
        for _ in range(2000):
            spaces = "".join(rng.choice(" \n\té€😀") for _ in range(rng.randrange(20)))
            data = spaces.encode() + b"[01]"
            simd_json._BLOCK = rng.randrange(1, 9)
            for text in (b'["' + data.replace(b"\n", b"") + b"\xff", data):
                error = rejected(simd_json.check, text)
                views = [memoryview(text), memoryview(text[::-1])[::-1]]
                if len(text) % 2 == 0:
                    views.append(memoryview(text).cast("H"))
                for view in views:
                    place = simd_json._place_in_view(view, error.pos)
                    self.assertEqual(place, (error.lineno, error.colno))


if __name__ == "__main__":
    unittest.main()
