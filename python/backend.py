"""Builds the wheel of the package nagsched for pip, with the standard library alone.

    pip install ./python

The wheel has the Python files. The C library stays where it is: NAGSCHED_LIBRARY names it.
"""
import base64
import hashlib
import pathlib
import zipfile
from typing import Dict, List, Optional

FOLDER = pathlib.Path(__file__).resolve().parent
TAG = "py3-none-any"
METADATA = """Metadata-Version: 2.1
Name: nagsched
Version: {version}
Summary: The proved scheduler of active checks, from Python
Requires-Python: >=3.9
"""
WHEEL = f"Wheel-Version: 1.0\nGenerator: nagsched\nRoot-Is-Purelib: true\nTag: {TAG}\n"
# What pip passes as settings.
Settings = Optional[Dict[str, object]]


def version() -> str:
    """The version of the repository, in the form of Python's packages: 1.0.0-dev is 1.0.0.dev0."""
    written = (FOLDER.parent / "VERSION").read_text(encoding="utf-8").strip()
    return written.replace("-dev", ".dev0")


def record_line(name: str, content: bytes) -> str:
    """A file's line in the list of the wheel's files."""
    digest = base64.urlsafe_b64encode(hashlib.sha256(content).digest()).rstrip(b"=").decode()
    return f"{name},sha256={digest},{len(content)}\n"


def get_requires_for_build_wheel(config_settings: Settings = None) -> List[str]:
    return []


def build_wheel(wheel_directory: str, config_settings: Settings = None, metadata_directory: Optional[str] = None) -> str:
    """Writes the wheel, and returns its name."""
    name, about = f"nagsched-{version()}-{TAG}.whl", f"nagsched-{version()}.dist-info"
    files = {f"nagsched/{file.name}": file.read_bytes() for file in sorted((FOLDER / "nagsched").iterdir()) if file.suffix in (".py", ".typed")}
    files |= {f"{about}/METADATA": METADATA.format(version=version()).encode(), f"{about}/WHEEL": WHEEL.encode()}
    listed = "".join(record_line(*file) for file in files.items()) + f"{about}/RECORD,,\n"
    with zipfile.ZipFile(pathlib.Path(wheel_directory, name), "w", zipfile.ZIP_DEFLATED) as wheel:
        for path, content in {**files, f"{about}/RECORD": listed.encode()}.items():
            wheel.writestr(path, content)
    return name


def build_sdist(sdist_directory: str, config_settings: Settings = None) -> str:
    raise NotImplementedError("nagsched: make a wheel from a clone of the repository; there are no packages of sources")
