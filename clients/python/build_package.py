"""Builds the package for pip (PEP 517 and 660) with the standard library alone, so that pip downloads nothing."""

from __future__ import annotations

import base64
import hashlib
import re
import zipfile
from pathlib import Path
from typing import Any

FOLDER = Path(__file__).resolve().parent
PACKAGE = "taukremil"
WHEEL = "Wheel-Version: 1.0\nGenerator: build_package\nRoot-Is-Purelib: true\nTag: py3-none-any\n"


def _field(name: str) -> str:
    """Returns a field of pyproject.toml, which Python 3.10 cannot parse."""
    found = re.search(rf'^{name} = "(.*)"$', (FOLDER / "pyproject.toml").read_text(), re.MULTILINE)
    assert found, f"pyproject.toml has no {name}"
    return found[1]


def _metadata() -> str:
    return (
        f"Metadata-Version: 2.1\nName: {PACKAGE}\nVersion: {_field('version')}\nSummary: {_field('description')}\n"
        f"Requires-Python: {_field('requires-python')}\nDescription-Content-Type: text/markdown\n\n"
        + (FOLDER / "README.md").read_text()
    )


def _record(name: str, content: bytes) -> str:
    digest = base64.urlsafe_b64encode(hashlib.sha256(content).digest()).rstrip(b"=").decode()
    return f"{name},sha256={digest},{len(content)}\n"


def _package_files() -> dict[str, bytes]:
    paths = sorted(path for path in (FOLDER / PACKAGE).iterdir() if path.is_file())
    return {f"{PACKAGE}/{path.name}": path.read_bytes() for path in paths}


def _write_wheel(folder: str, files: dict[str, bytes]) -> str:
    release = f"{PACKAGE}-{_field('version')}"
    info = f"{release}.dist-info"
    files = {**files, f"{info}/METADATA": _metadata().encode(), f"{info}/WHEEL": WHEEL.encode()}
    record = "".join(_record(name, content) for name, content in files.items()) + f"{info}/RECORD,,\n"
    name = f"{release}-py3-none-any.whl"
    with zipfile.ZipFile(Path(folder) / name, "w", zipfile.ZIP_DEFLATED) as wheel:
        for path, content in {**files, f"{info}/RECORD": record.encode()}.items():
            entry = zipfile.ZipInfo(path)  # without a time, so that the same files make the same bytes
            entry.external_attr = 0o644 << 16
            wheel.writestr(entry, content, zipfile.ZIP_DEFLATED)
    return name


# pip may pass the arguments by these names.
def build_wheel(wheel_directory: str, config_settings: Any = None, metadata_directory: Any = None) -> str:
    return _write_wheel(wheel_directory, _package_files())


def build_editable(wheel_directory: str, config_settings: Any = None, metadata_directory: Any = None) -> str:
    return _write_wheel(wheel_directory, {f"{PACKAGE}.pth": f"{FOLDER}\n".encode()})
