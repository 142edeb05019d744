#!/usr/bin/env python3
"""A runner elsewhere, for tests: it writes a job's first argument, ends at `end`, and gives no answer to `wait`."""
import json
import sys

for line in sys.stdin:
    job = json.loads(line)
    word = job["words"][0]
    if word == "end":
        sys.exit(3)
    if word != "wait":
        print(json.dumps({"job": job["job"], "code": 0, "end": "exited", "output": word}), flush=True)
