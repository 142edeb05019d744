"""Tests of the monitor. Each has a runner: the program in NAGSCHED_RUNNER, or one that is built here."""
import atexit
import os
import pathlib
import shutil
import subprocess
import tempfile

if "NAGSCHED_RUNNER" not in os.environ:
    FOLDER = tempfile.mkdtemp()
    atexit.register(shutil.rmtree, FOLDER)
    os.environ["NAGSCHED_RUNNER"] = f"{FOLDER}/nagsched-runner"
    subprocess.run([pathlib.Path(__file__).resolve().parent.parent / "build_runner.sh", os.environ["NAGSCHED_RUNNER"]], check=True)
