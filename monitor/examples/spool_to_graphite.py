#!/usr/bin/env python3
"""Sends the performance data of a spool of nagsched-monitor --perfdata to Graphite, and removes each file that was sent.

    spool_to_graphite.py DIRECTORY HOST:PORT

Run it from a timer. The names are nagsched.HOST.SERVICE.LABEL, in which other characters than letters, digits, - and _ become _. A host's own values are in
nagsched.HOST.host."""
import pathlib
import re
import socket
import sys

VALUE = re.compile(r"(?:'((?:[^']|'')+)'|([^\s='|]+))=(-?\d+(?:\.\d+)?)")


def path_of(*names):
    return ".".join(re.sub(r"[^A-Za-z0-9_-]", "_", name) for name in ("nagsched", *names))


def metrics(line):
    its = dict(word.split("::", 1) for word in line.split("\t"))
    for quoted, plain, value in VALUE.findall(its.get("SERVICEPERFDATA") or its.get("HOSTPERFDATA", "")):
        yield f"{path_of(its['HOSTNAME'], its.get('SERVICEDESC', 'host'), quoted or plain)} {value} {its['TIMET']}\n"


def main():
    host, _, port = sys.argv[2].rpartition(":")
    for path in sorted(pathlib.Path(sys.argv[1]).glob("perfdata.*")):
        with socket.create_connection((host, int(port)), timeout=30) as graphite:
            graphite.sendall("".join(sent for line in path.read_text().splitlines() for sent in metrics(line)).encode())
        path.unlink()


if __name__ == "__main__":
    main()
