"""A slot of the library, and whom it is lent to."""

from __future__ import annotations

import threading
from ctypes import byref
from typing import Any, NoReturn, TypeVar

from ._library import LIBRARY, Slot

_Held = TypeVar("_Held", bound="Held")


class Held:
    """What has a slot: a lock gives it to one call at a time, and its memory is freed with it."""

    def __init__(self, free: Any) -> None:
        self._slot = Slot()
        self._free = free
        self.lock = threading.RLock()

    def _freed(self) -> None:
        with self.lock:
            self._free(byref(self._slot))

    def __enter__(self: _Held) -> _Held:
        return self

    def __exit__(self, *_: object) -> None:
        self._freed()

    def __del__(self) -> None:
        if getattr(self, "_free", None) is not None and LIBRARY is not None:
            self._free(byref(self._slot))

    def __reduce__(self) -> NoReturn:
        raise TypeError(f"a {type(self).__name__} is not copied: its copy would free what it still uses")
