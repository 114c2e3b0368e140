"""Makes the package into a wheel, by the standard library alone, so that `pip install` has nothing to download (PEP 517 and 660)."""

from __future__ import annotations

import re
from base64 import urlsafe_b64encode
from hashlib import sha256
from pathlib import Path
from typing import NoReturn
from zipfile import ZIP_DEFLATED, ZipFile, ZipInfo

HERE = Path(__file__).resolve().parent
SOURCES = HERE / "src"
WHEEL = "Wheel-Version: 1.0\nGenerator: itip\nRoot-Is-Purelib: true\nTag: py3-none-any\n"


def build_wheel(wheel_directory: str, config_settings: object = None, metadata_directory: object = None) -> str:
    """A wheel with all files of the package."""
    paths = sorted(path for path in (SOURCES / "itip").iterdir() if path.suffix in (".py", ".typed"))
    return _written(wheel_directory, {path.relative_to(SOURCES).as_posix(): path.read_bytes() for path in paths})


def build_editable(wheel_directory: str, config_settings: object = None, metadata_directory: object = None) -> str:
    """A wheel that puts the sources on the path."""
    return _written(wheel_directory, {"itip.pth": f"{SOURCES}\n".encode()})


class UnsupportedOperation(Exception):
    """The package has no archive of its sources: the programs, which it calls, are in the repository around it."""


def build_sdist(sdist_directory: str, config_settings: object = None) -> NoReturn:
    raise UnsupportedOperation


def _written(folder: str, files: dict[str, bytes]) -> str:
    project = dict(re.findall(r'(?m)^(name|version|description|requires-python) = "(.*)"$', (HERE / "pyproject.toml").read_text()))
    name = f"{project['name']}-{project['version']}"
    files[f"{name}.dist-info/METADATA"] = (
        f"Metadata-Version: 2.1\nName: {project['name']}\nVersion: {project['version']}\n"
        f"Summary: {project['description']}\nRequires-Python: {project['requires-python']}\n"
    ).encode()
    files[f"{name}.dist-info/WHEEL"] = WHEEL.encode()
    record = "".join(f"{path},sha256={_hash(data)},{len(data)}\n" for path, data in files.items())
    files[f"{name}.dist-info/RECORD"] = f"{record}{name}.dist-info/RECORD,,\n".encode()
    with ZipFile(Path(folder) / f"{name}-py3-none-any.whl", "w", ZIP_DEFLATED) as wheel:
        for path, data in files.items():
            file = ZipInfo(path)  # (with the oldest time that there is, so that the wheel is the same whenever it is made)
            file.external_attr = 0o644 << 16
            wheel.writestr(file, data)
    return f"{name}-py3-none-any.whl"


def _hash(data: bytes) -> str:
    return urlsafe_b64encode(sha256(data).digest()).rstrip(b"=").decode()
