"""Builds the wheel of this package, so that `pip install` needs neither a network nor setuptools (PEP 517, PEP 660).

It reads pyproject.toml, whose version is that of djq/version.py, and packs each file of the folder djq. Of the same
files it makes the same bytes each time, where `SOURCE_DATE_EPOCH` is given.
"""

from __future__ import annotations

import base64
import hashlib
import os
import re
import tarfile
import time
import zipfile
from pathlib import Path
from typing import Any, Iterator

try:
    import tomllib
except ImportError:  # before Python 3.11
    import tomli as tomllib  # type: ignore[no-redef]

HERE = Path(__file__).resolve().parent
PACKAGE = "djq"
TAG = "py3-none-any"
EARLIEST = 315532800  # zip knows no time before 1980


def build_wheel(wheel_directory: str, config_settings: Any = None, metadata_directory: str | None = None) -> str:
    """Makes the wheel in a folder, and gives its name."""
    return _write_wheel(wheel_directory, {name: path.read_bytes() for name, path in _sources()})


def build_editable(wheel_directory: str, config_settings: Any = None, metadata_directory: str | None = None) -> str:
    """Makes a wheel that points to the sources where they are."""
    return _write_wheel(wheel_directory, {f"{PACKAGE}.pth": f"{HERE}\n".encode()})


def build_sdist(sdist_directory: str, config_settings: Any = None) -> str:
    """Makes an archive of the sources, from which the wheel can be built."""
    project = _project()
    top = f"{project['name']}-{project['version']}"
    added = [HERE / name for name in ("pyproject.toml", "README.md", Path(__file__).name)]
    with tarfile.open(os.path.join(sdist_directory, f"{top}.tar.gz"), "w:gz") as archive:
        for path in [*added, *(path for _, path in _sources())]:
            archive.add(path, f"{top}/{path.relative_to(HERE)}")
    return f"{top}.tar.gz"


def _project() -> dict[str, Any]:
    """What pyproject.toml says of the project, with its version."""
    project: dict[str, Any] = tomllib.loads((HERE / "pyproject.toml").read_text(encoding="utf-8"))["project"]
    told = re.search(r'__version__ = "(.+)"', (HERE / PACKAGE / "version.py").read_text(encoding="utf-8"))
    if told is None:
        raise ValueError("djq/version.py names no version")
    return {**project, "version": told[1]}


def _sources() -> Iterator[tuple[str, Path]]:
    """The files of the package, each with its name in the wheel."""
    for path in sorted((HERE / PACKAGE).rglob("*")):
        if path.is_file() and "__pycache__" not in path.parts:
            yield path.relative_to(HERE).as_posix(), path


def _metadata(project: dict[str, Any]) -> str:
    """The file METADATA (PEP 566)."""
    lines = [
        "Metadata-Version: 2.1", f"Name: {project['name']}", f"Version: {project['version']}",
        f"Summary: {project['description']}", f"Requires-Python: {project['requires-python']}",
        f"License: {project['license']['text']}",
    ]  # fmt: skip
    lines += [f"Classifier: {name}" for name in project.get("classifiers", [])]
    lines += [f"Requires-Dist: {need}" for need in project["dependencies"]]
    for extra, needs in project["optional-dependencies"].items():
        lines += [f"Provides-Extra: {extra}", *(f'Requires-Dist: {need} ; extra == "{extra}"' for need in needs)]
    lines += ["Description-Content-Type: text/markdown", "", (HERE / project["readme"]).read_text(encoding="utf-8")]
    return "\n".join(lines)


def _write_wheel(folder: str, files: dict[str, bytes]) -> str:
    """Writes a wheel of these files, with what pip has to know of them (PEP 427)."""
    project = _project()
    about = f"{project['name']}-{project['version']}.dist-info"
    scripts = "".join(f"{name} = {target}\n" for name, target in project["scripts"].items())
    files = {
        **files,
        f"{about}/METADATA": _metadata(project).encode(),
        f"{about}/WHEEL": f"Wheel-Version: 1.0\nGenerator: djq\nRoot-Is-Purelib: true\nTag: {TAG}\n".encode(),
        f"{about}/entry_points.txt": f"[console_scripts]\n{scripts}".encode(),
    }
    record = f"{about}/RECORD"
    files[record] = "".join([*(_recorded(name, data) for name, data in files.items()), f"{record},,\n"]).encode()
    made = time.gmtime(max(EARLIEST, int(os.environ.get("SOURCE_DATE_EPOCH", time.time()))))
    name = f"{project['name']}-{project['version']}-{TAG}.whl"
    with zipfile.ZipFile(os.path.join(folder, name), "w", zipfile.ZIP_DEFLATED) as archive:
        for inside, data in files.items():
            entry = zipfile.ZipInfo(inside, made[:6])
            entry.compress_type, entry.external_attr = zipfile.ZIP_DEFLATED, 0o644 << 16
            archive.writestr(entry, data)
    return name


def _recorded(name: str, data: bytes) -> str:
    digest = base64.urlsafe_b64encode(hashlib.sha256(data).digest()).rstrip(b"=").decode()
    return f"{name},sha256={digest},{len(data)}\n"
