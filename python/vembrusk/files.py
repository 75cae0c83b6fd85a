"""Files: the host files of a folder, and files that are written whole."""

from __future__ import annotations

import os
import shutil
import tempfile
from collections.abc import Iterator
from pathlib import Path


def write_whole(path: Path | str, data: bytes | str) -> None:
    """Writes a file under another name in its folder and renames it, so that the path has the old file or the whole new one. A path that is no
    regular file, such as a device, is written as it is. The file keeps its mode."""
    content = data if isinstance(data, bytes) else data.encode("utf-8", "surrogateescape")
    if Path(path).exists() and not Path(path).is_file():
        Path(path).write_bytes(content)
        return
    path = Path(os.path.realpath(path))
    mode = path.stat().st_mode & 0o7777 if path.exists() else 0o666 & ~_umask()
    with tempfile.NamedTemporaryFile(dir=path.parent, prefix=f".{path.name}.", delete=False) as file:
        try:
            file.write(content)
            file.close()
            os.chmod(file.name, mode)
            os.replace(file.name, path)
        except BaseException:
            os.unlink(file.name)
            raise


def _umask() -> int:
    """Returns the umask of this process."""
    mask = os.umask(0o077)
    os.umask(mask)
    return mask


def upper(name: str) -> bytes:
    """Returns a name with the letters a to z in upper case, and no others."""
    return os.fsencode(name).upper()


def host_files(folder: Path) -> Iterator[Path]:
    """Yields the files of a folder that can be host files: regular ones, and no links."""
    yield from (path for path in folder.iterdir() if path.is_file() and not path.is_symlink())


def host_file(folder: Path, name: str) -> Path | None:
    """Returns the path of the host file of this name, without a drive, or None if the folder has none."""
    wanted = upper(name)
    names = (wanted,) if b"." in wanted else (wanted, wanted + b".")
    return next((path for path in host_files(folder) if upper(path.name) in names), None)


def copy_host_files(folder: Path, copy: Path) -> None:
    """Copies the host files of a folder into a new one."""
    copy.mkdir()
    for path in host_files(folder):
        shutil.copyfile(path, copy / path.name)
