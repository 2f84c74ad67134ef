"""Exceptions that go whole from one process to another, as from a worker of a pool."""

from __future__ import annotations

from typing import Any, Dict, Tuple, Type


class Portable(Exception):
    """An exception that `pickle` and `copy` keep as it is, with its message and its attributes. Python's own way calls the class with the
    message alone, which is not what the classes of this package are made of."""

    def __reduce__(self) -> Tuple[Any, Tuple[Type["Portable"], Tuple[Any, ...]], Dict[str, Any]]:
        return made_again, (type(self), self.args), vars(self)


def made_again(kind: Type[Portable], said: Tuple[Any, ...]) -> Portable:
    """An exception of this kind with this message. Its attributes come after it."""
    fault: Portable = Exception.__new__(kind)
    fault.args = said
    return fault
