"""Files that are written whole or not at all."""

from __future__ import annotations

import os
from contextlib import contextmanager
from typing import BinaryIO, Iterator, Union

Place = Union[str, "os.PathLike[str]"]


@contextmanager
def written(path: Place) -> Iterator[BinaryIO]:
    """A file to write in the place of `path`: beside it, and renamed once all is written. What stood there stands until then, and
    still does where the writing fails. What is no regular file, as a pipe, is written as it is."""
    real = os.path.realpath(path)
    if os.path.exists(real) and not os.path.isfile(real):
        with open(real, "wb") as file:
            yield file
        return
    beside = f"{real}.{os.getpid()}.new"
    try:
        with open(beside, "xb") as file:
            yield file
        os.replace(beside, real)
    except BaseException:
        if os.path.exists(beside):
            os.unlink(beside)
        raise


def can_be_written(path: Place) -> None:
    """Raises the OSError that writing a file would end with, before anything is run."""
    real = os.path.realpath(path)
    folder = os.path.dirname(real)
    if not os.path.isdir(folder):
        raise NotADirectoryError(f"{os.fspath(path)}: there is no folder {folder}")
    if os.path.isdir(real):
        raise IsADirectoryError(f"{os.fspath(path)} is a folder")
    if not os.access(folder, os.W_OK) and not (os.path.exists(real) and not os.path.isfile(real)):
        raise PermissionError(f"{os.fspath(path)}: the folder {folder} can't be written")


def shown(name: Place) -> str:
    """A file's name for reading: bytes of it that are no UTF-8 are shown as such."""
    return os.fsencode(name).decode("utf-8", "backslashreplace")
