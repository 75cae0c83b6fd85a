"""Builds the wheel of the package for pip by the standard library alone: `pip install ./python` needs no network and no other package."""

from __future__ import annotations

import hashlib
import tomllib
import zipfile
from base64 import urlsafe_b64encode
from pathlib import Path

TOP = Path(__file__).resolve().parents[1]
WHEEL = "Wheel-Version: 1.0\nGenerator: wheel_backend\nRoot-Is-Purelib: true\nTag: py3-none-any\n"


def metadata_of(project: dict) -> str:
    """Returns the METADATA of a project."""
    fields = {"Metadata-Version": "2.1", "Name": project["name"], "Version": project["version"], "Summary": project["description"],
              "Requires-Python": project["requires-python"], "Description-Content-Type": "text/markdown"}
    head = "".join(f"{name}: {value}\n" for name, value in fields.items())
    return f"{head}\n{(TOP / project['readme']).read_text()}"


def files_of(project: dict, info: str) -> dict[str, bytes]:
    """Returns the files of the wheel by their paths: those of the package, and those about it."""
    package = TOP / project["name"]
    files = {path.relative_to(TOP).as_posix(): path.read_bytes() for path in sorted(package.rglob("*"))
             if path.suffix == ".py" or path.name == "py.typed"}
    scripts = "".join(f"{name} = {target}\n" for name, target in project["scripts"].items())
    about = {"METADATA": metadata_of(project), "WHEEL": WHEEL, "entry_points.txt": f"[console_scripts]\n{scripts}"}
    return files | {f"{info}/{name}": text.encode() for name, text in about.items()}


def record_line(path: str, data: bytes) -> str:
    """Returns the line of RECORD for a file."""
    digest = urlsafe_b64encode(hashlib.sha256(data).digest()).rstrip(b"=").decode()
    return f"{path},sha256={digest},{len(data)}\n"


def build_wheel(wheel_directory: str, config_settings: dict | None = None, metadata_directory: str | None = None) -> str:
    """Writes the wheel into a folder, and returns its name, as pip asks for it."""
    project = tomllib.loads((TOP / "pyproject.toml").read_text())["project"]
    stem = f"{project['name']}-{project['version']}"
    info = f"{stem}.dist-info"
    files = files_of(project, info)
    record = "".join(record_line(path, data) for path, data in files.items()) + f"{info}/RECORD,,\n"
    name = f"{stem}-py3-none-any.whl"
    with zipfile.ZipFile(Path(wheel_directory, name), "w", zipfile.ZIP_DEFLATED) as wheel:
        for path, data in (files | {f"{info}/RECORD": record.encode()}).items():
            wheel.writestr(path, data)
    return name
