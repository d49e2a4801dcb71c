from collections.abc import Callable, Iterable, Iterator
from json import JSONDecodeError as JSONDecodeError, JSONEncoder as JSONEncoder, dump as dump, dumps as dumps
from typing import Any, Protocol

_Text = str | bytes | bytearray | memoryview
__version__: str

class SimdJsonError(JSONDecodeError):
    msg: str
    doc: Any  # of JSONDecodeError a str, here the _Text that was given
    pos: int
    reason: str
    lineno: int
    colno: int
    shown: str
    def __init__(
        self,
        msg: str,
        doc: _Text,
        pos: int,
        reason: str,
        lineno: int,
        colno: int,
        shown: str | None = None,
    ) -> None: ...

class _File(Protocol):
    def read(self) -> _Text: ...

def loads(
    data: _Text,
    /,
    *,
    object_hook: Callable[[dict[str, Any]], Any] | None = None,
    parse_float: Callable[[str], Any] | None = None,
    parse_int: Callable[[str], Any] | None = None,
    parse_constant: None = None,
    object_pairs_hook: Callable[[list[tuple[str, Any]]], Any] | None = None,
    max_depth: int = 1024,
) -> Any: ...
def load(
    file: _File,
    /,
    *,
    object_hook: Callable[[dict[str, Any]], Any] | None = None,
    parse_float: Callable[[str], Any] | None = None,
    parse_int: Callable[[str], Any] | None = None,
    parse_constant: None = None,
    object_pairs_hook: Callable[[list[tuple[str, Any]]], Any] | None = None,
    max_depth: int = 1024,
) -> Any: ...
def pointer(
    data: _Text, pointer: str, /, default: Any = None, *, max_depth: int = 1024
) -> Any: ...
def check(data: _Text, /, *, max_depth: int = 1024) -> None: ...

class Parser:
    def __init__(
        self,
        *,
        max_depth: int = 1024,
        object_hook: Callable[[dict[str, Any]], Any] | None = None,
        parse_float: Callable[[str], Any] | None = None,
        parse_int: Callable[[str], Any] | None = None,
        parse_constant: None = None,
        object_pairs_hook: Callable[[list[tuple[str, Any]]], Any] | None = None,
    ) -> None: ...
    def loads(self, data: _Text, /) -> Any: ...
    def check(self, data: _Text, /) -> None: ...
    def scan(self, data: _Text, /) -> None: ...
    def pointer(self, pointer: str, /, default: Any = None) -> Any: ...
    def lines(
        self, file: Iterable[_Text], *, on_error: Callable[[SimdJsonError], object] | None = None
    ) -> Iterator[Any]: ...

class Fields:
    def __init__(
        self,
        pointers: Iterable[str],
        /,
        *,
        default: Any = None,
        max_depth: int = 1024,
        object_hook: Callable[[dict[str, Any]], Any] | None = None,
        parse_float: Callable[[str], Any] | None = None,
        parse_int: Callable[[str], Any] | None = None,
        parse_constant: None = None,
        object_pairs_hook: Callable[[list[tuple[str, Any]]], Any] | None = None,
    ) -> None: ...
    def get(self, data: _Text, /) -> tuple[Any, ...]: ...
    def lines(
        self, file: Iterable[_Text], *, on_error: Callable[[SimdJsonError], object] | None = None
    ) -> Iterator[tuple[Any, ...]]: ...
