"""Makes mistakes with python/nagsched: each raises an error and changes nothing. The package never passes NULL; each function of the
shared library returns WRONG for it.

Needs NAGSCHED_LIBRARY and PYTHONPATH. The last line counts the comparisons.
"""
import ctypes
import json
import sys
import threading

import nagsched
from nagsched import Missing, Refused, ReplyKind, Spent, Wrong

SETUP = json.dumps({
    "options": {"host_inter_check_delay_method": "n", "service_inter_check_delay_method": "n"},
    "hosts": [{"name": "h", "max_check_attempts": 3}],
    "services": [{"host": "h", "description": "s", "max_check_attempts": 3}],
})
TWICE = '{"hosts":[{"name":"h","max_check_attempts":3},{"name":"h","max_check_attempts":3}]}'
LATEST = 1 << 60
told = []


def raises(error, function, *given, **named):
    """Counts whether a call raises this error."""
    try:
        came = function(*given, **named)
    except Exception as raised:
        came = type(raised)
    told.append((f"{getattr(function, '__qualname__', function)}{given}: {error.__name__}", came is error))


def is_so(what, test):
    told.append((what, bool(test)))


def setups():
    try:
        nagsched.Setup(TWICE)
    except Refused as why:
        wanted = nagsched.Refusal(nagsched.RefusalKind.DUPLICATE, nagsched.Part.HOSTS, 1)
        is_so("a refusal", (why.refusal, str(why)) == (wanted, "refused L5 Duplicate hosts 1"))
    raises(Refused, nagsched.Setup, b"")
    raises(TypeError, nagsched.Setup, 5)
    setup = nagsched.Setup(SETUP)
    for passes in (0, -1, 1025):
        raises(Wrong, setup.open, passes)
    raises(Wrong, setup.open, start=LATEST + 1)
    raises(Wrong, setup.open, start=-1)
    raises(Wrong, setup.open, calls=0)
    raises(nagsched.NoMemory, setup.open, room=(1 << 64) - 1)
    raises(Missing, setup.number, "g")
    raises(Wrong, setup.name, 2)
    raises(Wrong, setup.name, -1)
    raises(Wrong, setup.host_of, 2)
    is_so("names", (setup.number("h;s"), setup.name(1), setup.host_of(1), setup.host_of(0), setup.objects, setup.hosts) == (1, "h;s", 0, None, 2, 1))
    desk = setup.open()
    raises(Wrong, setup.open)
    raises(Wrong, setup.number, "h")
    setup.free()
    return desk


def calls(desk):
    mine = desk.passes[0]
    raises(Wrong, mine.take, -1)
    raises(Wrong, mine.take, 1 << 64)
    raises(TypeError, mine.take, "0")
    raises(Wrong, mine.report, 0, 1, 4)
    raises(Wrong, mine.report, 1 << 32, 1, 0)
    raises(Wrong, mine.glance, 2)
    is_so("a moment that is refused", mine.take(LATEST + 1).kind == ReplyKind.TIME_RANGE)
    is_so("no such object", mine.status(2).kind == ReplyKind.UNKNOWN_OBJECT)
    held = mine._call_lock
    with held:
        raises(Wrong, mine.take, 0)
        raises(Wrong, mine.free)
    book = desk.close()
    raises(Wrong, mine.take, 0)
    raises(Wrong, desk.close)
    raises(Wrong, book.open)
    raises(IndexError, book.__getitem__, 2)
    is_so("the history", [entry.call.kind.name for entry in book] == ["TAKE", "STATUS"] and book.refused == 0)
    raises(Wrong, book.text, book[0]._replace(pass_number=-1))
    raises(Wrong, book.text, book[0]._replace(reply=nagsched.Reply(len(ReplyKind))))
    savings(book)
    history = book.renew()
    is_so("a history that is kept", (len(history), len(book)) == (2, 0))
    book.free()
    raises(Wrong, book.renew)
    raises(Wrong, book.save)
    raises(Wrong, book.running, 0)
    raises(Wrong, len, book)
    history.free()
    raises(Wrong, len, history)


def savings(book):
    """A book is saved, and its running checks are read. A text that is no saved state is refused, and its setup stays."""
    raises(Wrong, book.running, 2)
    raises(Wrong, book.running, -1)
    raises(TypeError, book.running, "h")
    saved, setup = book.save(), nagsched.Setup(SETUP)
    with book._call_lock:
        raises(Wrong, book.save)
    raises(Wrong, setup.resume, saved, -1)
    raises(Wrong, setup.resume, saved, LATEST + 1)
    raises(TypeError, setup.resume, 5, 0)
    raises(nagsched.NoMemory, setup.resume, saved, 0, (1 << 64) - 1)
    try:
        setup.resume(b'{"format":1,"objects":[5],"runs":0,"start":0}', 0)
    except Refused as why:
        wanted = nagsched.Refusal(nagsched.RefusalKind.SAVED_SHAPE, nagsched.Part.NONE, 0)
        is_so("a refusal of a saved state", (why.refusal, str(why)) == (wanted, "refused K4 Shape 0"))
    raises(Refused, setup.resume, saved[:-1], 0)
    setup.resume(saved, 0).free()
    raises(Wrong, setup.resume, saved, 0)


def spent():
    with nagsched.Setup(SETUP).open(passes=2, calls=1) as desk:
        one, other = desk.passes
        one.take(0)
        raises(Spent, one.take, 0)
        other.free()
        raises(Wrong, desk.close)
    raises(Wrong, one.take, 0)


def one_pass_by_many():
    """One pass that many threads use at the same time: each call is made, or raises Wrong."""
    with nagsched.Setup(SETUP).open() as desk:
        mine, made = desk.passes[0], []

        def call():
            for _ in range(2000):
                try:
                    mine.take(0)
                    made.append(1)
                except Wrong:
                    pass

        threads = [threading.Thread(target=call) for _ in range(4)]
        for thread in threads:
            thread.start()
        for thread in threads:
            thread.join()
        with desk.close() as book:
            is_so("a pass used by many", len(book) == len(made))


def interrupted():
    """An interrupt in a call that waits comes when the call has its reply."""
    with nagsched.Setup(SETUP).open() as desk:
        answers, came = [nagsched.Result.WAIT, KeyboardInterrupt(), nagsched.Result.WAIT], None

        def attempt(handle, now, reply):
            if not answers:
                return nagsched.library.LIBRARY.try_take(handle, now, reply)
            if isinstance(answers[0], BaseException):
                raise answers.pop(0)
            return answers.pop(0)

        try:
            desk.passes[0]._make_call(attempt, 0)
        except KeyboardInterrupt as raised:
            came = raised
        with desk.close() as book:
            is_so("an interrupt", came is not None and not answers and len(book) == 1)


def nothing():
    """Each function that takes pointers, with NULL in place of each."""
    numbers = (ctypes.c_uint32, ctypes.c_uint64, ctypes.c_size_t)
    for name, arguments in nagsched.library.FUNCTIONS.items():
        given = [0 if argument in numbers else None for argument in arguments]
        if None in given:
            is_so(f"nagsched_{name} of NULL", getattr(nagsched.library.LIBRARY, name)(*given) == nagsched.Result.WRONG)


nothing()
calls(setups())
spent()
interrupted()
one_pass_by_many()
wrong = [what for what, was_so in told if not was_so]
for what in wrong:
    print(f"not so: {what}")
print(f"mistakes in Python: {len(told) - len(wrong)} passed, {len(wrong)} failed")
sys.exit(1 if wrong else 0)
