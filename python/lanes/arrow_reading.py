"""Arrow's C stream from another program, as columns. The structs are those that Arrow publishes
(arrow.apache.org/docs/format/CDataInterface.html and CStreamInterface.html)."""

from __future__ import annotations

import contextlib
import ctypes
import errno
from typing import Any, Dict, Generator, List, Tuple

from . import arguments, calls
from .columns import ColumnData

_POINTER, _INT = ctypes.c_void_p, ctypes.c_int64


class Schema(ctypes.Structure):
    """`struct ArrowSchema`."""


class _Array(ctypes.Structure):
    """`struct ArrowArray`."""


class _Stream(ctypes.Structure):
    """`struct ArrowArrayStream`."""


Schema._fields_ = [
    ("format", ctypes.c_char_p),
    ("name", ctypes.c_char_p),
    ("metadata", _POINTER),
    ("flags", _INT),
    ("n_children", _INT),
    ("children", ctypes.POINTER(ctypes.POINTER(Schema))),
    ("dictionary", _POINTER),
    ("release", _POINTER),
    ("private_data", _POINTER),
]
_Array._fields_ = [
    ("length", _INT),
    ("null_count", _INT),
    ("offset", _INT),
    ("n_buffers", _INT),
    ("n_children", _INT),
    ("buffers", ctypes.POINTER(_POINTER)),
    ("children", ctypes.POINTER(ctypes.POINTER(_Array))),
    ("dictionary", _POINTER),
    ("release", _POINTER),
    ("private_data", _POINTER),
]
_Stream._fields_ = [(name, _POINTER) for name in ("get_schema", "get_next", "get_last_error", "release", "private_data")]

_RELEASE = ctypes.CFUNCTYPE(None, _POINTER)
_GET = ctypes.CFUNCTYPE(ctypes.c_int, _POINTER, _POINTER)
_LAST_ERROR = ctypes.CFUNCTYPE(ctypes.c_char_p, _POINTER)

#: A prototype of this module's own: what another module says of ctypes.pythonapi.PyCapsule_GetPointer doesn't matter here.
_POINTER_OF = ctypes.PYFUNCTYPE(_POINTER, ctypes.py_object, ctypes.c_char_p)(("PyCapsule_GetPointer", ctypes.pythonapi))

#: Arrow's letters for whole numbers, and how many bytes each has.
SIZES = {"c": 1, "s": 2, "i": 4, "l": 8}

#: The types of numpy for these, and for those without a sign.
_KINDS = {"c": "<i1", "s": "<i2", "i": "<i4", "l": "<i8", "C": "<u1", "S": "<u2", "I": "<u4", "L": "<u8"}

#: The names of other types, by their letters.
_NAMES = {
    "n": "null", "b": "bool", "C": "uint8", "S": "uint16", "I": "uint32", "L": "uint64", "e": "float16", "f": "float32", "g": "float64",
    "u": "utf8", "U": "large utf8", "z": "binary", "Z": "large binary", "vu": "utf8 view", "d": "decimal", "t": "date or time", "+": "nested",
}  # fmt: skip

#: The flag of a column that may be null.
NULLABLE = 2


def address_in(capsule: object, name: bytes) -> int:
    """The address that a capsule of this name has.

    Raises:
        ValueError, TypeError: it is no such capsule.
    """
    found: int = _POINTER_OF(capsule, name)
    return found


def type_name(schema: Schema) -> str:
    """The type of a column, in words."""
    letters = _text(schema.format)
    if schema.dictionary:
        return "a dictionary"
    return _NAMES.get(letters) or _NAMES.get(letters[:1]) or f"of the format {letters!r}"


def children_of(schema: Schema) -> List[Schema]:
    """The schemas of a table's columns.

    Raises:
        TypeError: it is no table's schema.
    """
    if _text(schema.format) != "+s":
        raise TypeError(f"the stream of a table is wanted here, and this is {type_name(schema)}")
    return [schema.children[at].contents for at in range(schema.n_children)]


def name_of(schema: Schema) -> str:
    """The name of a column."""
    return _text(schema.name)


def columns_of(data: Any) -> Dict[str, ColumnData]:
    """The columns of whatever gives Arrow's stream.

    Raises:
        TypeError: it gives none, or a column is no column of whole numbers of 8, 16, 32 or 64 bits.
        ValueError: a column is there twice, or a row as a whole is null.
        OSError: the stream fails.
    """
    give = getattr(data, "__arrow_c_stream__", None)
    if not callable(give):
        raise arguments.wrong("data", "whatever gives Arrow's stream", data)
    import numpy as np

    capsule = give()
    stream = _Stream.from_address(address_in(capsule, b"arrow_array_stream"))
    try:
        kinds = _kinds(stream)
        pieces: Dict[str, List[ColumnData]] = {name: [] for name, _ in kinds}
        with contextlib.closing(_arrays(stream)) as arrays:
            for array in arrays:
                for (name, _), piece in zip(kinds, _pieces(array, kinds)):
                    pieces[name].append(piece)
    finally:
        _release(stream)
    return {name: _joined(pieces.pop(name), np.dtype(kind)) for name, kind in kinds}


def _kinds(stream: _Stream) -> List[Tuple[str, str]]:
    """The columns of a stream: of each its name, and its type in numpy."""
    schema = Schema()
    _called(stream, stream.get_schema, schema)
    try:
        kinds: List[Tuple[str, str]] = []
        for column in children_of(schema):
            name, kind = name_of(column), _KINDS.get(_text(column.format))
            if kind is None or column.dictionary:
                raise TypeError(f"column {name}: whole numbers of 8, 16, 32 or 64 bits are wanted, and this is {type_name(column)}")
            if name in dict(kinds):
                raise ValueError(f"data: the column {name!r} is there twice")
            kinds.append((name, kind))
        return kinds
    finally:
        _release(schema)


def _arrays(stream: _Stream) -> Generator[_Array, None, None]:
    """The arrays of a stream, each until the next one is asked for."""
    while True:
        array = _Array()
        _called(stream, stream.get_next, array)
        if not array.release:
            return
        try:
            yield array
        finally:
            _release(array)


def _pieces(array: _Array, kinds: List[Tuple[str, str]]) -> List[ColumnData]:
    """The columns of an array, copied."""
    if array.n_children != len(kinds):
        raise OSError(f"data: the stream gives {array.n_children} columns, and its schema has {len(kinds)}")
    if _nulls(array, array.offset, array.length) is not None:
        raise ValueError("data: a row is null as a whole")
    return [_piece(array.children[at].contents, array.offset, array.length, kind) for at, (_, kind) in enumerate(kinds)]


def _piece(array: _Array, offset: int, length: int, kind: str) -> ColumnData:
    """Some rows of a column."""
    import numpy as np

    first, size = array.offset + offset, np.dtype(kind).itemsize
    if not length:
        return ColumnData(np.empty(0, kind), None)
    block: Any = (ctypes.c_char * (length * size)).from_address(array.buffers[1] + first * size)
    return ColumnData(np.frombuffer(block, kind).copy(), _nulls(array, first, length))


def _nulls(array: _Array, first: int, length: int) -> Any:
    """Which rows are null, or None if none is."""
    import numpy as np

    if not array.null_count or not array.n_buffers or not array.buffers[0] or not length:
        return None
    count = first % 8 + length
    block: Any = (ctypes.c_uint8 * -(-count // 8)).from_address(array.buffers[0] + first // 8)
    nulls = np.logical_not(np.unpackbits(np.frombuffer(block, np.uint8), count=count, bitorder="little")[first % 8 :].view(bool))
    return nulls if nulls.any() else None


def _joined(pieces: List[ColumnData], kind: Any) -> ColumnData:
    """One column of all pieces."""
    import numpy as np

    values = np.concatenate([np.empty(0, kind), *(piece.values for piece in pieces)])
    if all(piece.nulls is None for piece in pieces):
        return ColumnData(values, None)
    return ColumnData(values, np.concatenate([np.zeros(len(piece.values), bool) if piece.nulls is None else piece.nulls for piece in pieces]))


def _called(stream: _Stream, call: int, out: Any) -> None:
    """Calls a function of a stream, which fills in a struct.

    Raises:
        OutOfMemory: it says that there is no memory.
        OSError: it fails.
    """
    at = ctypes.addressof(stream)
    number = _GET(call)(at, ctypes.addressof(out))
    if number:
        words = _LAST_ERROR(stream.get_last_error)(at) if stream.get_last_error else None
        if number == errno.ENOMEM:
            raise calls.refused(calls.MEMORY, sentence="there is no memory for the stream")
        raise OSError(number, f"data: the stream fails: {words.decode(errors='replace') if words else 'it says no more'}")


def _release(owned: Any) -> None:
    """Releases a struct, unless that was done."""
    if owned.release:
        _RELEASE(owned.release)(ctypes.addressof(owned))


def _text(word: Any) -> str:
    return bytes(word or b"").decode(errors="replace")
