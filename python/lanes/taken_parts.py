"""Parts of a folder as they are read: what all of them hold together, and what of them answers a load under given names."""

from __future__ import annotations

import ctypes
from typing import Tuple

from .batch_name import BatchName
from .calls import _BYTES, Opened, Turn, _expect, _found, _Place, _spread
from .owned import Handle, Owner

_TAKE = _found("lanes_parts_take")
_TAKE.argtypes, _TAKE.restype = [ctypes.POINTER(Handle), *_BYTES, *_BYTES, ctypes.POINTER(_Place)], ctypes.c_uint8
_OPEN = _found("lanes_parts_open")
_OPEN.argtypes, _OPEN.restype = [*[ctypes.POINTER(Handle)] * 2, ctypes.POINTER(_Place)], ctypes.c_uint8
_PACK = _found("lanes_parts_pack")
_PACK.argtypes, _PACK.restype = [ctypes.POINTER(Handle), *_BYTES, ctypes.POINTER(Handle), ctypes.POINTER(_Place)], ctypes.c_uint8
_FORGET = _found("lanes_parts_forget")
_FORGET.argtypes = [ctypes.POINTER(Handle), *_BYTES, ctypes.POINTER(Handle), ctypes.POINTER(ctypes.c_size_t), ctypes.POINTER(_Place)]
_FORGET.restype = ctypes.c_uint8
_CLOSE = _found("lanes_parts_close")
_CLOSE.argtypes, _CLOSE.restype = [ctypes.POINTER(Handle)], None
_SKIM = _found("lanes_skim_take")
_SKIM.argtypes = [ctypes.POINTER(Handle), *[ctypes.c_uint32] * 3, *_BYTES, *_BYTES, ctypes.POINTER(_Place)]
_SKIM.restype = ctypes.c_uint8
_OPEN_SKIM = _found("lanes_skim_open")
_OPEN_SKIM.argtypes = [*[ctypes.POINTER(Handle)] * 2, ctypes.POINTER(ctypes.c_uint64), ctypes.POINTER(_Place)]
_OPEN_SKIM.restype = ctypes.c_uint8
_CLOSE_SKIM = _found("lanes_skim_close")
_CLOSE_SKIM.argtypes, _CLOSE_SKIM.restype = [ctypes.POINTER(Handle)], None


class Parts(Owner):
    """Parts of a folder as they are read: the library joins them. What is made of them uses them up."""

    __slots__ = ("length",)

    def __init__(self) -> None:
        super().__init__(_CLOSE)
        #: How many bytes all of them have.
        self.length = 0

    def take(self, name: str, data: bytes) -> None:
        """Takes a part by its name and the bytes that were read under it.

        Raises:
            Refused: `Damaged` if the name is that of other bytes; a fault of the bytes; or `SchemaDiffers`, `Conflict` or `Full` of a part that
                does not go with those before it.
        """
        _expect(_TAKE, ctypes.byref(self.handle), *_spread((name.encode(), data)))
        self.length += len(data)

    def opened(self) -> Opened:
        """What they hold together, open.

        Raises:
            Refused: no part was taken.
        """
        return Opened.by(_OPEN, (ctypes.byref(self.handle),))

    def pack(self, temporary: str) -> Turn:
        """The turn that puts the file of what they hold together in their place.

        Raises:
            Refused: no part was taken.
        """
        turn = Turn()
        _expect(_PACK, ctypes.byref(self.handle), *_spread((temporary.encode(),)), ctypes.byref(turn.handle))
        return turn

    def forget(self, temporary: str) -> Tuple[Turn, int]:
        """The turn that puts what a forget leaves in their place, and how many batches it drops. If there are none, no turn is begun.

        Raises:
            Refused: no part was taken.
        """
        turn, batches = Turn(), ctypes.c_size_t()
        words = [*_spread((temporary.encode(),)), ctypes.byref(turn.handle), ctypes.byref(batches)]
        _expect(_FORGET, ctypes.byref(self.handle), *words)
        return turn, batches.value


class Skim(Owner):
    """Parts of a folder as they are read for a load of so many batches under consecutive names: of a part that has a batch of such a name all that
    it holds, and of any other its deletions alone."""

    __slots__ = ("_names",)

    def __init__(self, first: BatchName, count: int) -> None:
        super().__init__(_CLOSE_SKIM)
        self._names = (first.origin, first.number, count)

    def take(self, name: str, data: bytes) -> None:
        """Takes a part by its name and the bytes that were read under it. One that has none of the names isn't compared with its name.

        Raises:
            Refused: what `Parts.take` refuses of a part that has one, and of one that is no file; `SchemaDiffers`.
        """
        _expect(_SKIM, ctypes.byref(self.handle), *self._names, *_spread((name.encode(), data)))

    def opened(self) -> Tuple[Opened, int]:
        """What answers the load as all parts do, open, and how many batches they have.

        Raises:
            Refused: no part was taken.
        """
        batches = ctypes.c_uint64()
        opened = Opened.by(_OPEN_SKIM, (ctypes.byref(self.handle),), (ctypes.byref(batches),))
        return opened, batches.value
