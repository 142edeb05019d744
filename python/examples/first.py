#!/usr/bin/env python3
"""One thread asks what to check, checks it, and reports the result."""
import nagsched
from nagsched import Code, ReplyKind

DOCUMENT = '{"hosts":[{"name":"gateway","max_check_attempts":3}]}'
now = 0  # milliseconds, from a clock of yours

with nagsched.Setup(DOCUMENT).open(passes=1, start=now) as desk:
    mine = desk.passes[0]
    reply = mine.take(now)
    if reply.kind == ReplyKind.TAKEN:
        print("check", mine.name(reply.object), "as run", reply.run)
        # Run the plugin here. This one returned 2.
        reply = mine.report(reply.object, reply.run, Code.CRITICAL)
        print("state", reply.standing.state.name, "next check at", reply.time, "ms")
