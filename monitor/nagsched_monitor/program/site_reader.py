"""A site that a separate process reads and tests, while the monitor works.

The process writes the site to its standard output as a Python `pickle`, or why it is refused."""
import gc
import os
import pathlib
import pickle
import subprocess
import sys
import time
from typing import Generator, Union

from ..faults import MonitorFault, raising, require
from ..site.site import Site, read_site
from ..system.processes import module_command

LIMIT = 300.0  # the limit for reading a site, in seconds


def read_apart(folder: pathlib.Path, program: str) -> Generator[bool, None, Site]:
    """The site of a folder, which a separate process reads: yields True until it has. Raises `MonitorFault` if the site is refused or can't be read."""
    end = time.monotonic() + LIMIT
    # A file in memory needs no room on a disk.
    with raising(MonitorFault, "the site can't be read"), open(os.memfd_create("site"), "w+b") as output:
        command = module_command("program.site_reader", [str(folder), program])
        process = subprocess.Popen(command, stdin=subprocess.DEVNULL, stdout=output, start_new_session=True)
        try:
            while process.poll() is None and time.monotonic() < end:
                yield True
        finally:
            process.kill()
        output.seek(0)
        result: Union[Site, str] = pickle.load(output) if process.returncode == 0 else "the site can't be read"
    require(process.returncode is not None, f"the site wasn't read within {LIMIT:g} seconds", MonitorFault)
    if isinstance(result, str):
        raise MonitorFault(result)
    return result


def main() -> int:
    folder, program = sys.argv[1:]
    gc.disable()  # what it makes stays until its end
    try:
        result: Union[Site, str] = read_site(pathlib.Path(folder), program)
    except MonitorFault as fault:
        result = str(fault)
    except Exception as error:  # any exception: monitoring continues
        result = f"the site can't be read: {type(error).__name__}: {' '.join(str(error).split())}"
    sys.stdout.buffer.write(pickle.dumps(result))
    return 0
