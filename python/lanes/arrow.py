"""Tables and answers as Arrow's C stream, by the shim of c/lanes_arrow.h: whoever takes Arrow takes them."""

from __future__ import annotations

import ctypes
import errno
import functools
from typing import TYPE_CHECKING, Any, Dict, Union

from . import answer_columns, arrow_reading, calls
from .answer import Answer
from .columns import BITS, Selection
from .library import load_shim
from .table import Table
from .values import Filled

if TYPE_CHECKING:
    from .folder import Folder

#: How many bytes `struct ArrowArrayStream` has.
_STREAM = 5 * ctypes.sizeof(ctypes.c_void_p)


#: The type of a column, by how many bytes a number has.
_BY_SIZE = {bits // 8: kind for kind, bits in BITS.items()}


class _Block(ctypes.Structure):
    """`lanes_arrow_block`."""

    _fields_ = [
        ("rows", ctypes.c_size_t),
        ("columns", ctypes.c_size_t),
        ("stride", ctypes.c_size_t),
        ("values", ctypes.c_void_p),
        ("valid", ctypes.c_void_p),
        ("nulls", ctypes.c_void_p),
    ]


class _Column(ctypes.Structure):
    """`lanes_arrow_column`."""

    _fields_ = [
        ("name", ctypes.c_char_p),
        ("is_mean", ctypes.c_int),
        ("is_wide", ctypes.c_int),
        ("numbers", ctypes.c_void_p),
        ("marks", ctypes.c_void_p),
    ]


#: A prototype of this module's own: what another module says of ctypes.pythonapi.PyCapsule_New doesn't matter here.
_NEW = ctypes.PYFUNCTYPE(ctypes.py_object, ctypes.c_void_p, ctypes.c_char_p, ctypes.c_void_p)(("PyCapsule_New", ctypes.pythonapi))

_LIBC = ctypes.CDLL(None)
_LIBC.malloc.argtypes, _LIBC.malloc.restype = [ctypes.c_size_t], ctypes.c_void_p
_LIBC.free.argtypes, _LIBC.free.restype = [ctypes.c_void_p], None


@functools.lru_cache(maxsize=None)
def _shim() -> Any:
    """The shim."""
    shim = load_shim()
    shim.lanes_arrow_room.argtypes, shim.lanes_arrow_room.restype = [ctypes.c_size_t, ctypes.c_size_t], ctypes.POINTER(_Block)
    shim.lanes_arrow_free.argtypes, shim.lanes_arrow_free.restype = [ctypes.POINTER(_Block)], None
    shim.lanes_arrow_stream.argtypes = [ctypes.POINTER(_Block), ctypes.c_char_p, ctypes.c_size_t, ctypes.c_void_p]
    shim.lanes_arrow_stream.restype = ctypes.c_int
    shim.lanes_arrow_answer.argtypes = [ctypes.c_size_t, ctypes.c_size_t, ctypes.POINTER(_Column), ctypes.c_void_p]
    shim.lanes_arrow_answer.restype = ctypes.c_int
    return shim


@functools.lru_cache(maxsize=None)
def has_shim() -> bool:
    """Whether the shim is there, or can be built."""
    try:
        _shim()
    except ImportError:
        return False
    return True


def stream_of(owner: Union[Table, Folder, Answer], requested_schema: object = None) -> Any:
    """The live rows of a table or of a folder, or the rows of an answer, as a capsule `arrow_array_stream`. It owns its memory, and is released
    with the capsule if nobody takes it.

    Raises:
        OutOfMemory: there is no memory for the columns.
        ValueError: of a table another schema is asked for than one of these columns as wider integers; or a number of an answer has more than
            38 digits.
    """
    return _of_answer(owner) if isinstance(owner, Answer) else _of_table(owner, requested_schema)


def _of_answer(answer: Answer) -> Any:
    """The rows of an answer. A schema that is asked for is passed over: who takes the stream casts it."""
    shim, columns = _shim(), answer._held()
    given, kept = (_Column * len(columns))(), []
    for at, column in enumerate(columns):
        rooms = [(ctypes.c_char * max(len(room), 1)).from_buffer(room if room else bytearray(1)) for room in (column.numbers, column.marks)]
        kept.append(rooms)
        is_wide = column.size == answer_columns.WIDE
        given[at] = _Column(column.heading.encode(), column.is_mean, is_wide, *map(ctypes.addressof, rooms))
    stream = _LIBC.malloc(_STREAM)
    fault = shim.lanes_arrow_answer(len(answer), len(columns), given, stream) if stream else errno.ENOMEM
    if fault:
        _LIBC.free(stream)
    if fault == errno.ERANGE:
        raise ValueError("a number has more than 38 digits, which Arrow's decimal128 does not have")
    if fault:
        raise calls.refused(calls.MEMORY, sentence="there is no memory for the stream")
    return _NEW(stream, b"arrow_array_stream", ctypes.cast(shim.lanes_arrow_capsule_gone, ctypes.c_void_p))


def _of_table(owner: Union[Table, Folder], requested_schema: object) -> Any:
    """The live rows of a table or of a folder."""
    shim = _shim()
    table = owner if isinstance(owner, Table) else owner.read()
    kinds = table.columns if requested_schema is None else _requested(table, requested_schema)
    selection = Selection(table, kinds, Filled(b""))
    names = list(kinds)
    words = [table.name, *(word for pair in kinds.items() for word in pair)]
    schema = " ".join(words).encode()
    block = shim.lanes_arrow_room(selection.rows, len(names))
    stream = _LIBC.malloc(_STREAM)
    try:
        if not block or not stream:
            raise calls.refused(calls.MEMORY, sentence="there is no memory for the columns")
        selection.read(names, block.contents.values, block.contents.valid, block.contents.nulls)
        if shim.lanes_arrow_stream(block, schema, len(schema), stream):
            raise calls.refused(calls.MEMORY, sentence="there is no memory for the stream")
    except BaseException:
        shim.lanes_arrow_free(block)
        _LIBC.free(stream)
        raise
    return _NEW(stream, b"arrow_array_stream", ctypes.cast(shim.lanes_arrow_capsule_gone, ctypes.c_void_p))


def _requested(table: Table, capsule: object) -> Dict[str, str]:
    """The columns that a schema asks for, in its order: of each its name, and the type that it is to have.

    Raises:
        ValueError: a column isn't there, comes twice, may not be null, or is of a type into which not every number fits.
    """
    schema, found = arrow_reading.Schema.from_address(arrow_reading.address_in(capsule, b"arrow_schema")), {}
    kinds = table.columns
    try:
        columns = arrow_reading.children_of(schema)
    except TypeError as fault:
        raise ValueError(f"requested_schema: {fault}") from None
    for column in columns:
        name, size = arrow_reading.name_of(column), arrow_reading.SIZES.get((column.format or b"").decode(errors="replace"), 0)
        if name not in kinds or name in found:
            raise ValueError(f"requested_schema: the columns {', '.join(kinds)} are there, each once, and {name!r} is asked for")
        if column.dictionary or 8 * size < BITS[kinds[name]]:
            raise ValueError(f"requested_schema: column {name} is {kinds[name]}, which goes into wider integers only, and not into this")
        if not column.flags & arrow_reading.NULLABLE:
            raise ValueError(f"requested_schema: column {name} may be null")
        found[name] = _BY_SIZE[size]
    return found
