"""The table of remarks, in memory and in the database.

Requests store remarks, and remove them. Time and results end them, and begin flexible downtimes: this follows from a remark and the state of its object, so
nothing is lost if the monitor ends before it is written. Remarks about objects that aren't part of the site stay, until their time ends."""
import collections
from typing import Callable, DefaultDict, Dict, List, Mapping, Optional, Sequence, Set

from ..model.clock import Clock
from ..model.objects import ObjectState
from ..model.remarks import Remark, holding_remarks, remarks_for
from .rows import checksum_of
from .store import Store, Write, all_of, delete, insert

LOOK_EVERY = 1.0  # how often remarks are compared with the time, in seconds
LAST = "last_remark"  # the figure with the greatest number of a remark
TAKEN = "remarks.json"  # the setting with a checksum of the remarks that were taken over last


class RemarkTable:
    def __init__(self, store: Store, clock: Clock, log: Callable[[str], None]) -> None:
        self._store, self._clock, self._log = store, clock, log
        # All remarks by their numbers, and the numbers of those about each object.
        self.remarks: Dict[int, Remark] = {}
        self._numbers: DefaultDict[str, Set[int]] = collections.defaultdict(set)
        self._holding: Set[int] = set()  # the remarks that held when they were looked at last
        self._changed: Set[int] = set()  # the rows that have to be written
        self._last_id = 0
        self._looked_at = 0.0
        self._taken: Optional[str] = None

    def read(self) -> None:
        """Reads all remarks. Comments that aren't persistent end with this start."""
        now = self._clock.wall()
        for remark in self._store.remarks():
            self.put(remark)
            if remark.holds(now):
                self._holding.add(remark.id)
            if remark.kind == "comment" and not remark.persistent:
                self._set(remark, None)
        self._last_id = max([int(self._store.figures().get(LAST, 0)), *self.remarks, *self._changed])

    def take_over(self, remarks: Sequence[Remark]) -> None:
        """Takes over the remarks of the site's file, unless they were taken over before."""
        taken = checksum_of(TAKEN, len(remarks), [ascii(remarks)])
        if not remarks or taken == (self._taken or self._store.setting(TAKEN)):
            return
        known = {each[1:6] for each in self.remarks.values()}
        new = [each._replace(id=self.next_id()) for each in remarks if each[1:6] not in known]
        for each in new:
            self.put(each)
            self._changed.add(each.id)
        self._taken = taken
        self._log(f"{len(new)} remarks of {TAKEN} are taken over")

    def next_id(self) -> int:
        self._last_id += 1
        return self._last_id

    def put(self, remark: Remark) -> None:
        """A remark was stored."""
        self.remarks[remark.id] = remark
        self._numbers[remark.name].add(remark.id)

    def remove(self, remark: Remark) -> None:
        """What ends a remark was stored."""
        left = remark.ended()
        if left is not None:
            return self.put(left)
        self._holding.discard(remark.id)
        self.remarks.pop(remark.id, None)
        self._numbers[remark.name].discard(remark.id)

    def about(self, name: str) -> List[Remark]:
        return [self.remarks[number] for number in sorted(self._numbers.get(name, ()))]

    def is_held(self, name: str) -> bool:
        remarks = [each for about in {name, name.partition(";")[0], ""} for each in self.about(about)]
        return bool(remarks and remarks_for(name, holding_remarks(remarks, self._clock.wall())))

    def settle(self, objects: Mapping[str, ObjectState]) -> None:
        """Compares all remarks with the time, once a second."""
        now = self._clock.wall()
        if 0 <= now - self._looked_at < LOOK_EVERY:
            return
        self._looked_at = now
        for name in list(self._numbers):
            self.settle_object(name, objects.get(name))

    def settle_object(self, name: str, obj: Optional[ObjectState]) -> None:
        """Ends remarks about an object, and begins its flexible downtimes, as its state and the time have it. A later acknowledgement, or a later mute,
        replaces one before it."""
        remarks = self.about(name)
        if not remarks:
            return
        now, standing = self._clock.wall(), None if obj is None else obj.standing
        state = None if standing is None or standing.state == "PENDING" else standing.state
        newest = {each.kind: each.id for each in remarks if each.kind in ("acknowledgement", "mute")}
        for remark in remarks:
            left = remark.at(now, state) if newest.get(remark.kind, remark.id) == remark.id else remark.ended()
            if left != remark:
                self._set(remark, left)
            if left is not None and left.holds(now) and remark.id not in self._holding:
                self._holding.add(remark.id)
                if remark.kind == "downtime":
                    self._log(f"{name}: the downtime {remark.id} begins")

    def _set(self, remark: Remark, left: Optional[Remark]) -> None:
        """Replaces a remark by what is left of it."""
        self._changed.add(remark.id)
        if left is not None and left.kind == remark.kind:
            return self.put(left)
        self.remove(remark)
        self._log(f"{remark.name}: the {remark.kind} {remark.id} ends")

    def has_changes(self) -> bool:
        return bool(self._changed or self._taken)

    def writes(self) -> List[Write]:
        """The rows that have changed by themselves."""
        rows = [store_remark(self.remarks[number]) if number in self.remarks else delete("remarks", "id = ?", number) for number in self._changed]
        taken = [] if self._taken is None else [insert("settings", None, TAKEN, self._taken), insert("figures", None, LAST, float(self._last_id))]
        return [*rows, *taken]

    def clear_marks(self) -> None:
        """The last writes were carried out."""
        self._changed.clear()
        self._taken = None

    def rows(self) -> List[Write]:
        return [*map(store_remark, self.remarks.values()), insert("figures", None, LAST, float(self._last_id))]


def store_remark(remark: Remark) -> Write:
    return insert("remarks", *remark)


def store_new_remark(remark: Remark) -> Write:
    """A new remark, whose number isn't given again."""
    return all_of(store_remark(remark), insert("figures", None, LAST, float(remark.id)))


def end_remark(remark: Remark) -> Write:
    left = remark.ended()
    return delete("remarks", "id = ?", remark.id) if left is None else store_remark(left)
