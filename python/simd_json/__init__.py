"""JSON (RFC 8259) by libsimd_json, a parser whose results are proved.

    import simd_json
    simd_json.loads(b'{"the_answer": 42}')["the_answer"]

It reads only: dump, dumps and JSONEncoder are json's, so `import simd_json as json` does for both.

The parse is proved: what is accepted, the nodes, the first error and its place. What makes Python
values of the nodes is C code that is only tested.

One interpreter of a process can import it, the first that does; others get ImportError.
"""

from json import JSONDecodeError, JSONEncoder, dump, dumps

from . import _native
from ._native import __version__, check, loads, pointer

__all__ = ["Fields", "JSONDecodeError", "JSONEncoder", "Parser", "SimdJsonError", "check", "dump", "dumps", "load", "loads",
           "pointer"]


class SimdJsonError(JSONDecodeError):
    """The input is not a JSON document within the limits.

    msg: the error in words
    doc: the input as it was given; json's errors always have a str, for which bytes would have to
        be copied; a memoryview is not pickled
    pos: the index of the error in doc, in characters of a str, otherwise in bytes; of text that
        follows a document its first
    reason: its kind, as "InvalidNumber"
    lineno, colno: the line, and the column in characters, both from 1
    shown: the kind that str() has, "TrailingData" for text after any document
    """

    def __init__(self, msg, doc, pos, reason, lineno, colno, shown=None):
        # not json's, which counts lines itself, in a str
        ValueError.__init__(self, f"{msg}: line {lineno} column {colno} ({shown or reason} at {pos})")
        self.msg, self.doc, self.pos, self.reason = msg, doc, pos, reason
        self.lineno, self.colno, self.shown = lineno, colno, shown or reason

    def __reduce__(self):
        doc = None if isinstance(self.doc, memoryview) else self.doc
        return type(self), (self.msg, doc, self.pos, self.reason, self.lineno, self.colno, self.shown)


_BLOCK = 1 << 20


def _place_in_view(view, index):
    """The line and the column of a byte of a view, which is read by blocks and not copied."""
    lineno, colno = 1, 1
    view = view if view.ndim == view.itemsize == 1 else memoryview(view.tobytes())
    for at in range(0, index, _BLOCK):
        before, feed, line = bytes(view[at:min(at + _BLOCK, index)]).rpartition(b"\n")
        if feed:
            lineno, colno = lineno + before.count(feed) + 1, 1
        colno += len(line.translate(None, bytes(range(0x80, 0xC0))))  # which begin no character
    return lineno, colno


def _error(msg, doc, pos, reason, lineno, colno, shown):
    if reason == "InputTooLarge" and isinstance(doc, memoryview):
        lineno, colno = _place_in_view(doc, pos)
    if reason == "InvalidUtf8" and isinstance(doc, str):
        msg = "half of a surrogate pair"
    return SimdJsonError(msg, doc, pos, reason, lineno, colno, shown)


_native._set_error(_error)


def load(file, /, **named):
    """The value of the document that a file has, as loads returns it."""
    return loads(file.read(), **named)


class Parser(_native.Parser):
    """Reads one document after another with memory that is kept between them.

    Parser(*, max_depth=1024, object_hook=None, parse_float=None, ..): as loads has them. One thread
    may use it at a time.
    """

    __slots__ = ()

    def lines(self, file, *, on_error=None):
        """The values of the lines of a binary file, or of any other iterable of lines; blank lines
        are skipped.

        A line that is not a document raises SimdJsonError, with the line as doc and its number as
        lineno. If on_error is given, it is called with the error instead, and the next line is
        read.
        """
        return _lines(self.loads, file, on_error)


class Fields(_native.Fields):
    """Finds the values of some JSON Pointers (RFC 6901) in one input after another.

    Fields(["/status", "/request/path"], *, default=None, ..): as Parser has them. One thread may use
    it at a time.
    """

    __slots__ = ()

    def lines(self, file, *, on_error=None):
        """What get returns of each line, by Parser.lines."""
        return _lines(self.get, file, on_error)


def _lines(read, file, on_error):
    for number, line in enumerate(file, 1):
        if isinstance(line, memoryview):
            line = bytes(line)
        is_text = isinstance(line, (str, bytes, bytearray))  # else a TypeError is raised
        if not is_text or line.strip(" \t\r\n" if isinstance(line, str) else b" \t\r\n"):
            try:
                value = read(line)
            except SimdJsonError as error:
                if error.doc is not line:  # of what a hook has parsed
                    raise
                # what is open there begins in this line too
                msg = error.msg.replace(" begins at 1:", f" begins at {number}:")
                error = SimdJsonError(msg, line, error.pos, error.reason, number, error.colno,
                                      error.shown)
                if on_error is None:
                    raise error from None
                on_error(error)
            else:
                yield value
