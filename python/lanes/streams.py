"""Arrow's stream as an attribute: it is there if the shim for Arrow is."""

from __future__ import annotations

import functools
from typing import Any


class ArrowStream:
    """`__arrow_c_stream__` of a table, a folder or an answer, which there is if the shim for Arrow is there or can be built."""

    def __get__(self, owner: Any, _: object = None) -> Any:
        from .arrow import has_shim, stream_of

        if not has_shim():
            raise AttributeError("__arrow_c_stream__: there is no shim for Arrow, since lanes was installed without a C compiler")
        return self if owner is None else functools.partial(stream_of, owner)
