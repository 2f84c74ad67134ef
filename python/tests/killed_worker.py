"""A worker of a stream that ends itself at a step, as if someone had killed it: `killed_worker.py STEP COUNT WORDS..`.

It ends the COUNT-th time that it comes to the step. WORDS are those of the command `stream`. The steps stand here alone: the product has
no hook for them."""

import os
import signal
import sys

from tfpg.stream import command
from tfpg.stream.worker import Worker

STEPS = ("taken", "fed half", "fed", "wrote half", "written", "marked", "acknowledged")
STEP, LEFT = "", [0]


def at(step: str) -> None:
    """Ends this process if it has come to this step often enough."""
    if step == STEP:
        LEFT[0] -= 1
        if LEFT[0] == 0:
            os.kill(os.getpid(), signal.SIGKILL)


class Killed(Worker):
    """A worker that passes the steps."""

    def feed(self, entries, before):
        at("taken")
        half = len(entries) // 2
        said = super().feed(entries[:half], before)
        at("fed half")
        said += super().feed(entries[half:], self.place_after(entries[:half], before))
        at("fed")
        return said

    @staticmethod
    def place_after(entries, before):
        return before._replace(id=entries[-1].id, entries=before.entries + len(entries)) if entries else before

    def write(self, said):
        if STEP == "wrote half":
            super().write(said[:(len(said) + 1) // 2])
            at("wrote half")
            said = said[(len(said) + 1) // 2:]
        super().write(said)
        at("written")

    def keep(self):
        super().keep()
        at("marked")

    def finish(self, said, done):
        super().finish(said, done)
        at("acknowledged")


if __name__ == "__main__":
    STEP, LEFT = sys.argv[1], [int(sys.argv[2])]
    command.Worker = Killed
    sys.exit(command.stream(sys.argv[3:]))
