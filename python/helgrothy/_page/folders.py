"""The folders in which answers are made, among the temporary files of the system.

A page that is killed leaves them there, and the next one removes them. In each is a file that stays locked as long as
the page or the process that answers is there, so a folder of which nobody holds the lock is left over.
"""

from __future__ import annotations

import fcntl
import os
import re
import shutil
import stat
import tempfile
from collections.abc import Iterator
from contextlib import contextmanager, suppress

_PREFIX = "helgrothy-page-"
_NAME = re.compile(rf"{_PREFIX}[a-z0-9_]{{8}}\Z")
_LOCK, _WORK = "lock", "work"
_MODE = 0o700
_TRIES = 10
_SAFE = os.O_RDONLY | os.O_NOFOLLOW | os.O_NONBLOCK | os.O_CLOEXEC


class Folder:
    """A new folder, which is held. `work` is a folder in it, empty at first; `lock` is the file that is locked: the
    folder is held as long as any process has it open. Raises `OSError`.
    """

    def __init__(self) -> None:
        self.path, self.lock = _made()
        self.work = os.path.join(self.path, _WORK)
        try:
            os.mkdir(self.work, _MODE)
        except BaseException:
            self.remove()
            raise

    def remove(self) -> None:
        """Removes it with all that is in it, as far as that can be done."""
        shutil.rmtree(self.work, ignore_errors=True)
        with suppress(OSError):
            os.unlink(os.path.join(self.path, _LOCK))
            os.rmdir(self.path)
        os.close(self.lock)


def _made() -> tuple[str, int]:
    for _ in range(_TRIES):
        path = tempfile.mkdtemp(prefix=_PREFIX)
        try:
            return path, _locked(os.path.join(path, _LOCK))
        except (FileNotFoundError, BlockingIOError):
            # Before it was locked, a page that began took it for one that is left over.
            continue
        except OSError:
            with suppress(OSError):
                os.rmdir(path)
            raise
    raise BlockingIOError("no folder for an answer can be locked")


def _locked(path: str) -> int:
    """A new file, open and locked. Raises `FileNotFoundError` or `BlockingIOError` where it was taken away."""
    file = os.open(path, _SAFE | os.O_CREAT | os.O_EXCL, 0o600)
    try:
        fcntl.flock(file, fcntl.LOCK_EX | fcntl.LOCK_NB)
        os.stat(path)
    except (FileNotFoundError, BlockingIOError):
        os.close(file)
        raise
    except OSError:
        # No file can be locked there; then nobody removes what is left over.
        pass
    return file


def sweep() -> None:
    """Removes what is left over of this user's pages. What isn't certainly that stays as it is."""
    with suppress(OSError), _opened(os.path.realpath(tempfile.gettempdir()), os.O_DIRECTORY) as top:
        for name in filter(_NAME.match, os.listdir(top)):
            with suppress(OSError), _opened(name, os.O_DIRECTORY, top) as folder:
                if _is_own(folder, stat.S_IFDIR | _MODE):
                    # Without a lock it was about to be made or to be removed, and is empty.
                    with suppress(FileNotFoundError):
                        _empty(folder)
                    os.rmdir(name, dir_fd=top)


def _empty(folder: int) -> None:
    """Empties a folder that nobody holds. Raises `OSError` where it is held, or has something else in it."""
    with _opened(_LOCK, 0, folder) as lock:
        if not _is_own(lock, stat.S_IFREG | 0o600):
            raise FileExistsError
        fcntl.flock(lock, fcntl.LOCK_EX | fcntl.LOCK_NB)
        names = set(os.listdir(folder))
        if not names <= {_LOCK, _WORK}:
            raise FileExistsError
        if _WORK in names:
            _clear(folder)
            os.rmdir(_WORK, dir_fd=folder)
        os.unlink(_LOCK, dir_fd=folder)


def _clear(folder: int) -> None:
    """Removes all that is in the folder `work` of a folder, and follows no link."""
    for _, folders, files, at in os.fwalk(_WORK, topdown=False, dir_fd=folder):
        for name in files:
            os.unlink(name, dir_fd=at)
        for name in folders:
            try:
                os.rmdir(name, dir_fd=at)
            except NotADirectoryError:
                os.unlink(name, dir_fd=at)


@contextmanager
def _opened(path: str, how: int, at: int | None = None) -> Iterator[int]:
    file = os.open(path, _SAFE | how, dir_fd=at)
    try:
        yield file
    finally:
        os.close(file)


def _is_own(file: int, kind: int) -> bool:
    """Whether an open file is this user's, of this type, and with these rights for nobody else."""
    about = os.fstat(file)
    return about.st_uid == os.geteuid() and stat.S_IFMT(about.st_mode) | about.st_mode & 0o777 == kind
