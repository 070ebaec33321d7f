"""Builds the wheel of this client. pip calls it, as pyproject.toml says, so an installation needs nothing but pip, and no
network: `pip install ./clients/python`. The same sources and SOURCE_DATE_EPOCH give the same bytes."""

from __future__ import annotations

import base64
import hashlib
import os
import re
import time
import zipfile
from typing import Dict, Optional

HERE = os.path.dirname(os.path.abspath(__file__))
NAME = "sysvmsg"
FIRST_TIME = 315532800  # the beginning of 1980: a zip file has no time before

WHEEL = "Wheel-Version: 1.0\nGenerator: build_wheel\nRoot-Is-Purelib: true\nTag: py3-none-any\n"


def read(*path: str) -> bytes:
    with open(os.path.join(HERE, *path), "rb") as file:
        return file.read()


def version() -> str:
    """The version that the module states."""
    found = re.search(r'^__version__ = "(.*)"$', read(NAME, "__init__.py").decode(), re.MULTILINE)
    assert found is not None
    return found.group(1)


def description() -> str:
    """The metadata, of which pyproject.toml has the rest."""
    lines = dict(re.findall(r'^(description|requires-python) = "(.*)"$', read("pyproject.toml").decode(), re.MULTILINE))
    return "Metadata-Version: 2.1\nName: %s\nVersion: %s\nSummary: %s\nRequires-Python: %s\n" % (
        NAME, version(), lines["description"], lines["requires-python"])


def module() -> Dict[str, bytes]:
    names = [name for name in os.listdir(os.path.join(HERE, NAME)) if name.endswith((".py", ".typed"))]
    return {"%s/%s" % (NAME, name): read(NAME, name) for name in sorted(names)}


def line_of(name: str, data: bytes) -> str:
    """What RECORD says of a file."""
    digest = base64.urlsafe_b64encode(hashlib.sha256(data).digest()).rstrip(b"=").decode()
    return "%s,sha256=%s,%d\n" % (name, digest, len(data))


def write(path: str, files: Dict[str, bytes]) -> None:
    seconds = max(FIRST_TIME, int(os.environ.get("SOURCE_DATE_EPOCH", FIRST_TIME)))
    with zipfile.ZipFile(path, "w", zipfile.ZIP_DEFLATED) as wheel:
        for name, data in files.items():
            entry = zipfile.ZipInfo(name, time.gmtime(seconds)[:6])
            entry.external_attr = 0o100644 << 16
            entry.compress_type = zipfile.ZIP_DEFLATED
            wheel.writestr(entry, data)


def build_wheel(wheel_directory: str, config_settings: Optional[Dict[str, str]] = None,
                metadata_directory: Optional[str] = None) -> str:
    """The hook of PEP 517."""
    about = "%s-%s.dist-info" % (NAME, version())
    files = module()
    files[about + "/METADATA"] = description().encode()
    files[about + "/WHEEL"] = WHEEL.encode()
    record = "".join(line_of(name, data) for name, data in files.items())
    files[about + "/RECORD"] = (record + about + "/RECORD,,\n").encode()
    name = "%s-%s-py3-none-any.whl" % (NAME, version())
    write(os.path.join(wheel_directory, name), files)
    return name
