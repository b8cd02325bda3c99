"""Reading and writing of whole files, with a failure in one line for each that cannot be."""

from __future__ import annotations

import os
import stat
import tempfile
from pathlib import Path

from designer.errors import Failure

MOST_TEXT = 16_777_216


def _reason(error: OSError | ValueError) -> str:
    if isinstance(error, IsADirectoryError):
        return "this is a folder, not a file"
    return (error.strerror if isinstance(error, OSError) else None) or str(error)


def read(path: Path, most: int) -> bytes:
    """A file's bytes; of a longer one this many and one more."""
    try:
        with open(path, "rb") as file:
            return file.read(most + 1)
    except (OSError, ValueError) as error:
        raise Failure(f"{path}: cannot be read: {_reason(error)}") from None


def read_text(path: Path) -> str:
    data = read(path, MOST_TEXT)
    if len(data) > MOST_TEXT:
        raise Failure(f"{path}: this has over {MOST_TEXT:,} bytes")
    try:
        text = data.decode("utf-8-sig")
    except UnicodeDecodeError as error:
        raise Failure(f"{path}: this is no text: byte {error.start} is not UTF-8") from None
    if "\0" in text:
        raise Failure(f"{path}: this is no text: it has a zero byte")
    return text


def _check_target(path: Path) -> None:
    """A device or folder must not be replaced by a file, nor a file that its owner has closed to writing."""
    if not os.path.lexists(path):
        return
    mode = os.stat(path).st_mode
    if stat.S_ISDIR(mode):
        raise IsADirectoryError
    if not stat.S_ISREG(mode):
        raise ValueError("this is no file")
    if not os.access(path, os.W_OK):
        raise ValueError("it may not be changed")


def _written_beside(path: Path, data: bytes) -> Path:
    """A new file in the same folder, so that it can take the path's place in one step."""
    handle, name = tempfile.mkstemp(prefix=".agreement-", dir=path.parent)
    temporary = Path(name)
    try:
        with os.fdopen(handle, "wb") as file:
            file.write(data)
        mask = os.umask(0)
        os.umask(mask)
        temporary.chmod(0o666 & ~mask)
    except BaseException:
        temporary.unlink(missing_ok=True)
        raise
    return temporary


def write_all(contents: dict[Path, bytes]) -> None:
    """Writes files; none takes its place before all of them are written out beside it."""
    made: dict[Path, Path] = {}
    current = Path()
    try:
        for current, data in contents.items():
            _check_target(current)
            if any(os.path.realpath(current) == os.path.realpath(other) for other in made):
                raise ValueError("it is the same file as another that is written")
            made[current] = _written_beside(Path(os.path.realpath(current)), data)
        for current, temporary in made.items():
            temporary.replace(os.path.realpath(current))
    except (OSError, ValueError) as error:
        raise Failure(f"{current}: cannot be written: {_reason(error)}") from None
    finally:
        for temporary in made.values():
            temporary.unlink(missing_ok=True)
