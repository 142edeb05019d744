"""The writes of generations, with which calls are dropped that are part of saved states."""
import json
from typing import Iterable

from .rows import Generation
from .store import Store, Write, all_of, delete, insert

MOST_UNSPOOLED = 100_000  # the number of calls that are kept for the spool of performance data


def drop_calls(last: int) -> Write:
    """Drops the calls up to a number, which are part of saved states. Those whose results aren't in the spool yet stay, up to a limit."""
    def write(store: Store) -> None:
        until = last if store.spooled is None else max(min(last, store.spooled), last - MOST_UNSPOOLED)
        all_of(*(delete(table, "id <= ?", until) for table in ("calls", "aside")))(store)

    return write


def begin_generations(generations: Iterable[Generation]) -> Write:
    """The schedulers of a site, which begin from their saved states: earlier generations and calls aren't needed any more."""
    writes = [delete(table, "TRUE") for table in ("generations", "mirrors")]
    for each in generations:
        writes += [drop_calls(each.last_call), insert("generations", None, *each[:-1])]
        writes += [insert("mirrors", None, each.part, json.dumps(sorted(each.mirrors), ensure_ascii=False))] if each.mirrors else []
    return all_of(*writes)


def save_generation(generation: Generation, oldest: int) -> Write:
    """A part's scheduler with its saved state. Calls up to the oldest number are part of the saved states of all parts, and are dropped."""
    saved = [delete("generations", "part = ?", generation.part), insert("generations", None, *generation[:-1])]
    return all_of(*saved, drop_calls(oldest))
