"""Python's own tests of json, of the package: which do not pass, and why, is what its README says of json. Left out where these tests
are not installed."""
import importlib
import json
import unittest

import simd_json

MODULES = "decode", "enum", "fail", "float", "pass1", "pass2", "pass3", "recursion", "scanstring", "unicode"
DIFFERENCES = {
    "messages": {"decode.extra_data", "decode.string_with_utf8_bom", "fail.extra_data", "fail.linecol"},
    "messages, and the place where an input ends early": {"fail.truncated_input", "fail.unexpected_data"},
    "NaN and infinities": {"decode.parse_constant", "enum.dict_values", "enum.list", "enum.weird_floats", "float.allow_nan"},
    "integers": {"decode.limit_int"},
    "depth": {"recursion.highly_nested_objects_decoding"},
    "encodings": {"unicode.bytes_decode"},
    "no decoder": {"decode.keys_reuse", "decode.negative_index", "scanstring.bad_escapes", "scanstring.overflow",
                   "scanstring.scanstring", "scanstring.surrogates"},
}


def tests():
    """The classes that Python's tests mix into those for json and for its part in C, each with this package in their place."""
    for name in MODULES:
        module = importlib.import_module(f"test.test_json.test_{name}")
        for each in vars(module).values():
            if isinstance(each, type) and each.__module__ == module.__name__ and not issubclass(each, unittest.TestCase) \
                    and any(method.startswith("test_") for method in vars(each)):
                yield type(name, (each, unittest.TestCase), {
                    "json": simd_json, "loads": staticmethod(simd_json.loads), "dumps": staticmethod(simd_json.dumps),
                    "JSONDecodeError": simd_json.JSONDecodeError})


def short_name(test):
    return f"{type(test).__name__}.{test._testMethodName.removeprefix('test_')}"


class LikeJson(unittest.TestCase):
    def test_python_s_tests(self):
        try:
            suite = unittest.TestSuite(map(unittest.defaultTestLoader.loadTestsFromTestCase, tests()))
        except ImportError:
            self.skipTest("Python's tests are not installed")
        result = unittest.TestResult()
        ran = {short_name(test) for part in suite for test in part}  # before the suite lets go of them
        suite.run(result)
        differ = {short_name(test): told for test, told in result.failures + result.errors}
        documented = set().union(*DIFFERENCES.values())
        self.assertGreater(len(ran), 45)
        self.assertEqual(set(differ) ^ (documented & ran), set(), differ)

    def test_names(self):
        """What `import simd_json as json` finds."""
        for name in ("JSONDecodeError", "JSONEncoder", "dump", "dumps"):
            self.assertIs(getattr(simd_json, name), getattr(json, name))


if __name__ == "__main__":
    unittest.main()
