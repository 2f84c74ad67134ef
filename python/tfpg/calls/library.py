"""Finds the library, and binds its calls once."""

from __future__ import annotations

import ctypes
import os
from ctypes import c_char_p, c_size_t, c_uint32, c_uint64, c_void_p
from functools import lru_cache
from pathlib import Path
from typing import Any, Callable, Dict, List, Tuple

from ..faults import NoLibrary
from ..program import checkout
from .layouts import HEADER_VERSION, Answer

VARIABLE = "TFPG_LIBRARY"
FILE = "libtfpg.so"
MAKE_ANEW = "python/build-library of the checkout makes it anew"

PLACE = c_void_p
TEXT: List[Any] = [c_char_p, c_size_t]
ROOM: List[Any] = [PLACE, c_size_t]
TERMS: List[Any] = [c_uint32, c_uint32, c_uint64]

# What each call answers, and the types of its words. A test compares them with the header.
CALLS: Dict[str, Tuple[Any, List[Any]]] = {
    "tfpg_report": (Answer, TEXT + TEXT + TERMS + ROOM),
    "tfpg_check": (Answer, TEXT + TEXT + TEXT),
    "tfpg_ask": (Answer, TEXT + TEXT + TERMS + ROOM),
    "tfpg_predict": (Answer, TEXT + TEXT + TEXT + [PLACE] + ROOM),
    "tfpg_explain": (Answer, TEXT + TEXT + TEXT + ROOM),
    "tfpg_open": (Answer, [PLACE] + TEXT + TERMS),
    "tfpg_line": (Answer, [PLACE] + TEXT),
    "tfpg_block": (Answer, [PLACE] + ROOM),
    "tfpg_close": (None, [PLACE]),
    "tfpg_event": (Answer, [PLACE, c_uint64, c_uint32, c_uint32]),
    "tfpg_result_of": (Answer, [PLACE, PLACE]),
    "tfpg_ranked_at": (Answer, [PLACE, c_uint32, PLACE, PLACE, c_size_t]),
    "tfpg_index": (Answer, [PLACE, c_uint32] + TEXT + [PLACE]),
    "tfpg_name": (Answer, [PLACE, c_uint32, c_uint32] + ROOM),
}

Call = Callable[..., Any]


class Library:
    """The calls of a library.

    `line`, `event`, `result_of` and `ranked_at` take C values of the right types alone, which are made once: to make them of numbers takes
    longer than the call. The others take numbers, bytes and places. Other threads run during the calls that may take long, as `block` may
    after an event, and wait for those that only read what is there."""

    def __init__(self, path: str) -> None:
        try:
            calls, reads = ctypes.CDLL(path), ctypes.PyDLL(path)
        except OSError as fault:
            raise NoLibrary(f"{path} is not loaded: {fault}") from None
        self.path = path
        self.bind_all(calls, reads)
        need_version(path, calls)

    def bind_all(self, calls: ctypes.CDLL, reads: ctypes.CDLL) -> None:
        """Binds each call, by the library that lets other threads run or by the one that does not."""
        self.report, self.check, self.open = bind(calls, "tfpg_report"), bind(calls, "tfpg_check"), bind(calls, "tfpg_open")
        self.ask, self.predict, self.explain = bind(calls, "tfpg_ask"), bind(calls, "tfpg_predict"), bind(calls, "tfpg_explain")
        self.line, self.block, self.close = bind(calls, "tfpg_line", False), bind(calls, "tfpg_block"), bind(calls, "tfpg_close")
        self.event, self.result_of = bind(calls, "tfpg_event", False), bind(reads, "tfpg_result_of", False)
        self.ranked_at = bind(reads, "tfpg_ranked_at", False)
        self.index, self.name = bind(reads, "tfpg_index"), bind(reads, "tfpg_name")


def bind(calls: ctypes.CDLL, name: str, converts: bool = True) -> Call:
    """A call, which converts its words or takes C values alone. NoLibrary, if there is none of this name."""
    try:
        call = calls[name]
    except AttributeError:
        raise NoLibrary(f"{calls._name} has no {name}, so it is no library of this version of tfpg") from None
    call.restype, words = CALLS[name]
    if converts:
        call.argtypes = words
    return call


def need_version(path: str, calls: ctypes.CDLL) -> None:
    """Refuses a library of another version of the header, in which layouts and numbers may be others."""
    try:
        version = c_uint32.in_dll(calls, "tfpg_header_version").value
    except ValueError:
        raise NoLibrary(f"{path} does not say the version of its header, so it is older than this package: {MAKE_ANEW}") from None
    if version != HEADER_VERSION:
        raise NoLibrary(f"{path} is of version {version} of the header, and this package of version {HEADER_VERSION}: {MAKE_ANEW}")


def find_library() -> str:
    """TFPG_LIBRARY, or libtfpg.so beside the package, or where python/build-library leaves it in the checkout, in this order."""
    named = os.environ.get(VARIABLE)
    if named:
        return os.path.abspath(named)
    top = checkout()
    places = [Path(__file__).resolve().parents[1]] + ([top / "crates" / "tfpg_embed" / "out"] if top is not None else [])
    for place in places:
        if (place / FILE).is_file():
            return str(place / FILE)
    raise NoLibrary(f"there is no {FILE}: make it by python/build-library in a checkout, or set {VARIABLE} to it")


@lru_cache(maxsize=None)
def library() -> Library:
    """The library, which is found and loaded at the first use."""
    return Library(find_library())
