"""Calls that may take long, and do not look for interrupts."""

from __future__ import annotations

import threading
from concurrent.futures import Future
from typing import Any

from .library import Call


def apart(call: Call, *words: Any) -> Any:
    """What a call of the library returns. The main thread, which alone has interrupts, makes it in a thread beside, so that an interrupt
    acts at once. Such a call runs on to its end, with the texts that it was given, and nobody has its answer."""
    if threading.current_thread() is not threading.main_thread():
        return call(*words)
    answer: "Future[Any]" = Future()

    def make() -> None:
        try:
            answer.set_result(call(*words))
        except BaseException as fault:
            answer.set_exception(fault)

    try:
        threading.Thread(target=make, name="tfpg", daemon=True).start()
    except RuntimeError:  # there is no room for one more thread, or Python ends
        return call(*words)
    return answer.result()
