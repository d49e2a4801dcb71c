"""JSON by libsimd_json.so, through ctypes.

    import simd_json
    json = simd_json.Library("build/libsimd_json.so")
    json.loads(b'{"the_answer": 42}')["the_answer"]

As a program, `python3 simd_json.py LIBRARY < TEXT` prints the text without whitespace.
"""
import contextlib
import ctypes
import sys
from ctypes import POINTER, byref, c_int32, c_size_t, c_uint8, c_uint32, c_uint64, c_void_p

NULL, BOOL, I64, U64, I128, U128, DECIMAL, STRING, ARRAY, OBJECT = range(10)
TEXTS = I128, U128, DECIMAL, STRING  # the kinds whose nodes have a text
TOO_LITTLE_ROOM = 19
COMPACT, PRETTY = range(2)


class Place(ctypes.Structure):
    _fields_ = [("index", c_size_t), ("character", c_uint32)]


class Node(ctypes.Structure):
    _fields_ = [("kind", c_uint32), ("len", c_uint32), ("value", c_uint64)]


class Parser(ctypes.Structure):
    _fields_ = [("at", c_void_p), ("is_open", c_uint8)]


class Document(ctypes.Structure):
    _fields_ = [("nodes", c_void_p), ("nodes_len", c_size_t), ("text", c_void_p), ("text_len", c_size_t)]


class Rejected(ValueError):
    """The input is not a document within the limits."""

    def __init__(self, name, status, place):
        super().__init__(f"{name} at character {place.index}")
        self.status, self.index, self.character = status, place.index, place.character


class Library:
    def __init__(self, path):
        library = ctypes.CDLL(path)
        parser = POINTER(Parser)
        self._check = self._export(library, "check", c_int32, [c_void_p, c_size_t, c_size_t, POINTER(Place)])
        self._open = self._export(library, "open", c_int32, [parser, c_size_t])
        self._close = self._export(library, "close", None, [parser])
        self._parse = self._export(library, "parser_parse", c_int32, [
            parser, c_void_p, c_size_t, POINTER(Document), POINTER(Place)])
        self._print = self._export(library, "parser_print", c_int32, [
            parser, c_void_p, c_size_t, c_void_p, c_size_t, c_uint32, c_void_p, c_size_t, POINTER(c_size_t), POINTER(Place)])
        self._status_name = self._export(library, "status_name", c_size_t, [c_int32, c_void_p, c_size_t])
        self._kind_name = self._export(library, "kind_name", c_size_t, [c_uint32, c_void_p, c_size_t])

    @staticmethod
    def _export(library, name, result, arguments):
        export = getattr(library, "simd_json_" + name)
        export.restype, export.argtypes = result, arguments
        return export

    @staticmethod
    def _name(call, number):
        out = ctypes.create_string_buffer(32)
        length = call(number, out, len(out))
        return out.raw[:length].decode()

    def status_name(self, status):
        return self._name(self._status_name, status)

    def kind_name(self, kind):
        return self._name(self._kind_name, kind)

    def _reject(self, status, place):
        raise Rejected(self.status_name(status), status, place)

    @contextlib.contextmanager
    def _parser(self, max_depth):
        parser, nowhere = Parser(), Place(0, 0)
        status = self._open(byref(parser), max_depth)
        if status:
            self._reject(status, nowhere)
        try:
            yield byref(parser)
        finally:
            self._close(byref(parser))

    def check(self, data, max_depth=1024):
        """Raises Rejected where the bytes are not a document."""
        place = Place()
        status = self._check(data, len(data), max_depth, byref(place))
        if status:
            self._reject(status, place)

    def tape(self, data, max_depth=1024):
        """The nodes, and the bytes in which their texts are."""
        document, place = Document(), Place()
        with self._parser(max_depth) as parser:
            # The input is overwritten, and the nodes that are lent are the parser's: both are copied.
            copy = ctypes.create_string_buffer(data, len(data))
            status = self._parse(parser, copy, len(data), byref(document), byref(place))
            if status:
                self._reject(status, place)
            nodes = ctypes.string_at(document.nodes, document.nodes_len * ctypes.sizeof(Node))
        return list((Node * document.nodes_len).from_buffer_copy(nodes)), copy.raw

    def loads(self, data, max_depth=1024, decimal=float):
        """The value, as json.loads has it. `decimal` is called with the literal of a fraction or exponent."""
        nodes, text = self.tape(data, max_depth)

        def string(node):
            return text[node.value:node.value + node.len].decode()

        def read(at):
            node = nodes[at]
            if node.kind == I64:
                return node.value - (node.value >> 63 << 64), at + 1
            if node.kind == U64:
                return node.value, at + 1
            if node.kind == ARRAY:
                items, at = [], at + 1
                for _ in range(node.len):
                    item, at = read(at)
                    items.append(item)
                return items, at
            if node.kind == OBJECT:
                pairs, at = {}, at + 1
                for _ in range(node.len):
                    pairs[string(nodes[at])], at = read(at + 1)
                return pairs, at
            scalar = {NULL: lambda: None, BOOL: lambda: bool(node.value), I128: lambda: int(string(node)),
                      U128: lambda: int(string(node)), DECIMAL: lambda: decimal(string(node)), STRING: lambda: string(node)}
            return scalar[node.kind](), at + 1

        return read(0)[0]

    def printed(self, data, max_depth=1024, pointer=b"", layout=COMPACT):
        """The text of the value that a JSON Pointer names, of the empty one of the whole document."""
        out, needed, place = ctypes.create_string_buffer(len(data)), c_size_t(), Place()
        with self._parser(max_depth) as parser:
            while True:
                status = self._print(parser, ctypes.create_string_buffer(data, len(data)), len(data), pointer, len(pointer), layout,
                                     out, len(out), byref(needed), byref(place))
                if status != TOO_LITTLE_ROOM:
                    break
                out = ctypes.create_string_buffer(needed.value)
        if status:
            self._reject(status, place)
        return out.raw[:needed.value]

    def compact(self, data, max_depth=1024):
        return self.printed(data, max_depth)

    def pretty(self, data, max_depth=1024):
        return self.printed(data, max_depth, layout=PRETTY)


if __name__ == "__main__":
    print(Library(sys.argv[1]).compact(sys.stdin.buffer.read()).decode())
