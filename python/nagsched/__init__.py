"""The proved scheduler of active checks, from Python: one desk, which any number of threads share.

    import nagsched

    with nagsched.Setup(document).open(passes=2) as desk:
        mine = desk.passes[0]                       # each thread has a pass of its own
        reply = mine.take(now)
        if reply.kind == nagsched.ReplyKind.TAKEN:
            mine.report(reply.object, reply.run, nagsched.Code.OK)
        ...
        with desk.close() as book:                  # when the threads have ended
            for entry in book:
                print(book.text(entry), end="")

Moments are milliseconds of a clock of your own, 0 to 2**60. Objects are numbers from 0, or names by `number` and `name`.

Each of the six calls waits for its turn and returns the reply. Only one thread at a time can use a pass: a second thread's call raises
Wrong. The same holds for a setup, a book or a history: if two threads read one at once, a thread that gets Wrong makes the call again.
(The library lets them read at the same time; this package has one lock for each object.) Refusals raise errors: see Error. Objects of
this package share only what the passes of a desk share.

The package loads the library that NAGSCHED_LIBRARY names, otherwise libnagsched.so in this package's folder, otherwise the library that
the system's loader finds. Apart from the library this package only needs Python, 3.9 or later.
"""
from .desks import Book, Desk, History, Pass, Setup
from .errors import Error, Missing, NoMemory, Refused, Spent, Wrong
from .kinds import VERSION, CallKind, Code, Kind, Part, RefusalKind, ReplyKind, Result, State
from .records import Call, Entry, Refusal, Reply, Run, Standing

__all__ = ["VERSION", "Book", "Call", "CallKind", "Code", "Desk", "Entry", "Error", "History", "Kind", "Missing", "NoMemory", "Part", "Pass", "Refusal",
           "RefusalKind", "Refused", "Reply", "ReplyKind", "Result", "Run", "Setup", "Spent", "Standing", "State", "Wrong"]
