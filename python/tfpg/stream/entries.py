"""The lines of a part, read from its stream in their order and without a gap.

A stream says how many entries were ever added to it. A reader counts the entries that it has read. So it sees what was removed before it
was read: if nothing up to its place is left, then exactly as many entries are gone as it has counted."""

from __future__ import annotations

from typing import Any, Dict, Iterable, List, NamedTuple, Set, Tuple

from redis.exceptions import ResponseError

from .faults import MissingLines, NoStore, OtherWorker, StreamFault
from .parts import Part

GROUP, CONSUMER = "tfpg", "worker"
PAGE = 1000  # entries that a restart reads at once

Id = Tuple[int, int]  # milliseconds, and a number within them
FIRST: Id = (0, 0)  # before all ids


# Takes entries, unless the last one that was taken is not this worker's: then another one has the part. Where the group is gone, it says
# the empty text in place of an id.
TAKE = """
local delivered = ''
for _, group in ipairs(redis.call('XINFO', 'GROUPS', KEYS[1])) do
    local state = {}
    for place = 1, #group, 2 do state[group[place]] = group[place + 1] end
    if state['name'] == ARGV[1] then delivered = state['last-delivered-id'] end
end
if delivered ~= ARGV[3] then return {delivered} end
local state = redis.call('XINFO', 'STREAM', KEYS[1])
local taken = redis.call('XREADGROUP', 'GROUP', ARGV[1], ARGV[2], 'COUNT', ARGV[4], 'STREAMS', KEYS[1], '>')
return {state, taken and taken[1][2] or {}}
"""


class Place(NamedTuple):
    """A place in a stream: the id of an entry, and how many entries were added up to it."""

    id: Id
    entries: int


class Entry(NamedTuple):
    """An entry of a stream, with its fields."""

    id: Id
    fields: Dict[bytes, bytes]


def id_of(text: bytes) -> Id:
    """An id, of its text."""
    milliseconds, _, number = text.partition(b"-")
    return int(milliseconds), int(number)


def id_text(one: Id) -> str:
    """The text of an id."""
    return f"{one[0]}-{one[1]}"


def pairs(flat: List[Any]) -> Iterable[Tuple[Any, Any]]:
    """The pairs that Redis lists one after the other."""
    return zip(flat[::2], flat[1::2])


class Lines:
    """Reads the stream of a part from a place on. Each answer of Redis is held against the place, so that a gap is an error."""

    def __init__(self, client: Any, part: Part, at: Place) -> None:
        self.client, self.key, self.at, self.delivered = client, part.lines, at, FIRST

    def make_group(self) -> None:
        """Makes the stream and its group of workers, unless they are there."""
        try:
            self.client.xgroup_create(self.key, GROUP, id="0", mkstream=True)
        except ResponseError as fault:
            if not str(fault).startswith("BUSYGROUP"):
                raise

    def again(self, end: Id) -> List[Entry]:
        """The next entries up to an id that a worker took before. There are none once all are read."""
        with self.client.pipeline(transaction=True) as asked:
            asked.xinfo_stream(self.key)
            asked.xrange(self.key, self._after(), id_text(end), count=PAGE)
            state, found = self._answers(asked)
        self._hold(state)
        return self._read(found)

    def take(self, count: int) -> List[Entry]:
        """The next entries that nobody took so far. They are this worker's until it acknowledges them. OtherWorker if another one took
        entries since: then nothing is taken."""
        try:
            answers = self.client.eval(TAKE, 1, self.key, GROUP, CONSUMER, id_text(self.delivered), count)
        except ResponseError as fault:
            raise self._fault(fault) from None
        if answers == [b""]:
            raise self._without_group()
        if len(answers) == 1:
            raise OtherWorker(f"another worker took lines of {self.key}, up to {answers[0].decode()} and not "
                              f"{id_text(self.delivered)}: only one may have this part")
        state, taken = answers
        self._hold({name.decode(): value for name, value in pairs(state)})
        entries = self._read([(one, dict(pairs(fields))) for one, fields in taken])
        self.delivered = entries[-1].id if entries else self.delivered
        return entries

    def wait(self, milliseconds: int) -> None:
        """Waits until there is a next entry, or for so long."""
        self.client.xread({self.key: id_text(self.at.id)}, count=1, block=milliseconds)

    def acknowledge(self, ids: Iterable[Id]) -> None:
        """Says that these entries are done."""
        texts = [id_text(one) for one in ids]
        if texts:
            self.client.xack(self.key, GROUP, *texts)

    def taken(self) -> Tuple[Id, Set[Id]]:
        """The id of the last entry that a worker took, and the ids of those that were not acknowledged."""
        group = next((one for one in self.client.xinfo_groups(self.key) if one["name"] == GROUP.encode()), None)
        if group is None:
            raise self._without_group()
        waiting: Set[Id] = set()
        least = "-"
        while True:
            found = self.client.xpending_range(self.key, GROUP, least, "+", PAGE)
            waiting.update(id_of(one["message_id"]) for one in found)
            if len(found) < PAGE:
                self.delivered = id_of(group["last-delivered-id"])
                return self.delivered, waiting
            least = "(" + found[-1]["message_id"].decode()

    def _answers(self, asked: Any) -> List[Any]:
        """What Redis answers to these requests."""
        try:
            answers: List[Any] = asked.execute()
        except ResponseError as fault:
            raise self._fault(fault) from None
        return answers

    def _fault(self, fault: ResponseError) -> StreamFault:
        """The error that says why Redis refused to answer."""
        if "no such key" in str(fault) or "NOGROUP" in str(fault):
            return MissingLines(f"{self.key} or its group of workers was removed: {fault}")
        return NoStore(f"Redis does not answer for {self.key}: {fault}")

    def _without_group(self) -> StreamFault:
        """The error that says that the group is gone."""
        return MissingLines(f"{self.key} has no group of workers `{GROUP}` any more: somebody removed it")

    def _after(self) -> str:
        return "(" + id_text(self.at.id)

    def _read(self, found: List[Tuple[bytes, Dict[bytes, bytes]]]) -> List[Entry]:
        entries = [Entry(id_of(one), fields) for one, fields in found]
        if entries:
            self.at = Place(entries[-1].id, self.at.entries + len(entries))
        return entries

    def _hold(self, state: Dict[str, Any]) -> None:
        """Raises MissingLines if what the stream says of itself shows that entries after the place are gone."""
        if "entries-added" not in state:
            raise StreamFault("Redis 7.0 or later is needed, since only that counts the entries that were added to a stream")
        added, length, first = state["entries-added"], state["length"], state["first-entry"]
        deleted = id_of(state["max-deleted-entry-id"])
        if added < self.at.entries or id_of(state["last-generated-id"]) < self.at.id:
            raise MissingLines(f"{self.key} is not the stream that it was: it had {self.at.entries:,} entries up to "
                               f"{id_text(self.at.id)}, and now {added:,} in all")
        if deleted > self.at.id:
            raise MissingLines(f"{self.key} has lost lines before they were read: the entry {id_text(deleted)} was deleted, and this "
                               f"worker has read up to {id_text(self.at.id)}")
        gone = added - length - self.at.entries
        if (first is None or id_of(first[0]) > self.at.id) and gone != 0:
            left = "nothing is left" if first is None else f"the first that is left is {first[0].decode()}"
            raise MissingLines(f"{self.key} has lost {gone:,} lines before they were read: those after {id_text(self.at.id)}; {left}")
