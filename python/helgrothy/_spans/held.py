"""A folder of a search held by one command, which looks before it takes one and before it makes anything there.

Whoever holds the lock of the file `helgrothy.search` is at work in the folder. The file comes first and goes last, and
has a name and a text that nothing else has. So a command that is killed at any moment leaves one of these:

    an empty folder                            any command takes it
    the file alone, without its whole text     any command takes it: nothing was kept there yet
    the file with its whole text               the same command goes on; it writes `problem.dlx` if that is missing

A folder with anything else in it is another one's, and is left as it is.

A lock file of its own, or a folder that is made elsewhere and renamed, would not do: a folder that is mounted can't be
renamed.
"""

from __future__ import annotations

import errno
import fcntl
import os
import stat
import time
from contextlib import suppress
from typing import IO

from ..errors import SearchFault
from .about import another_form, is_of_another_form

SEARCH = "helgrothy.search"
# The file had this name before folders had a form.
_OLD_SEARCH = "search"
# Neither the text of the file nor a line with two rows is longer.
MOST_LINE = 1 << 20
# A text of one step may be long; no more is read.
MOST_TEXT = 1 << 32
# No link is followed, and nothing is waited for.
SAFE = os.O_NOFOLLOW | os.O_NONBLOCK | os.O_CLOEXEC
# Another command may begin or end in the folder, or look at the lock for a moment.
_TRIES, _WAIT = 5, 0.05


class Owners:
    """Whose files are read: anybody's, or with `is_own` only those of the user, or of root, who may do anything."""

    def __init__(self, is_own: bool) -> None:
        self._users = {0, os.geteuid()} if is_own else None
        behind = os.environ.get("SUDO_UID", "")
        if self._users is not None and os.geteuid() == 0 and behind.isascii() and behind.isdigit():
            self._users.add(int(behind))

    def take(self, path: str) -> None:
        """What this command has made is its user's, whoever the file system says that owns it."""
        if self._users is not None:
            self._users.add(os.stat(path).st_uid)

    def judge(self, path: str, *found: os.stat_result) -> None:
        """Raises `SearchFault` for another user's folder or file."""
        if self._users is not None and not self._users.issuperset(about.st_uid for about in found):
            raise SearchFault(f"{path}: it belongs to another user; name a folder by --folder")


class Hold:
    """A folder that is held: to read it, or to work there, for which it is made where there is none.

    With `is_looked_at` it is only read, and another command may be at work there. Raises `SearchFault` and `OSError`.
    """

    def __init__(self, path: str, owners: Owners, is_read: bool = False, is_looked_at: bool = False) -> None:
        self.path = path
        self.name = os.path.join(path, SEARCH)
        self._owners = owners
        self._is_read = is_read or is_looked_at
        self._is_looked_at = is_looked_at
        self._file = -1
        # Whether this command has made them, and no other one has taken them meanwhile.
        self._has_made_folder = False
        self.has_made_file = False
        self._is_new = False
        try:
            self._hold()
        except BaseException:
            self.give_up()
            raise

    def _hold(self) -> None:
        for _ in range(_TRIES):
            why: Exception = SearchFault(f"{self.path}: another command is at work there")
            self._is_new = False
            try:
                self._file = self._open()
                if self._lock():
                    return
            except (FileNotFoundError, FileExistsError) as error:
                # Another command begins there, or takes the folder away.
                why = error
            self.close()
        raise why

    def _open(self) -> int:
        if not self._is_read:
            with suppress(FileExistsError):
                os.mkdir(self.path)
                self._has_made_folder = True
                self._owners.take(self.path)
        if not os.path.isdir(self.path):
            is_there = os.path.lexists(self.path)
            raise SearchFault(f"{self.path}: {'it is no folder' if is_there else 'no such folder'}")
        self._owners.judge(self.path, os.lstat(self.path), os.stat(self.path))
        try:
            return open_safely(self.name, os.O_RDONLY if self._is_read else os.O_RDWR, self._owners)
        except FileNotFoundError:
            self._look()
        file = os.open(self.name, SAFE | os.O_RDWR | os.O_CREAT | os.O_EXCL, 0o666)
        self._is_new = True
        return file

    def _look(self) -> None:
        """Raises `SearchFault` for a folder without the file which isn't empty or is to be read."""
        others = set(os.listdir(self.path)) - {SEARCH}
        if os.path.lexists(self.name):
            raise FileExistsError(errno.EEXIST, "it comes and goes", self.name)
        if _OLD_SEARCH in others and is_of_another_form(_beginning(os.path.join(self.path, _OLD_SEARCH))):
            raise another_form(self.path)
        if self._is_read:
            raise SearchFault(f"{self.path}: it is no folder of a search")
        if others:
            raise SearchFault(f"{self.path}: it is no folder of a search, and isn't empty")

    def _lock(self) -> bool:
        """Whether the file is locked now, and still the folder's."""
        if self._is_looked_at:
            return True
        try:
            fcntl.flock(self._file, (fcntl.LOCK_SH if self._is_read else fcntl.LOCK_EX) | fcntl.LOCK_NB)
        except BlockingIOError:
            # Whoever holds it has taken the folder.
            self._has_made_folder = False
            time.sleep(_WAIT)
            return False
        except OSError as error:
            if self._is_new and not self.text():
                os.remove(self.name)
            raise SearchFault(
                f"{self.path}: it can't be locked ({error.strerror}), so two commands could be at work in one folder; "
                "--folder names one elsewhere"
            ) from None
        self.has_made_file = self._is_new
        return self._is_there()

    def _is_there(self) -> bool:
        """Whether the open file still has its name."""
        try:
            return os.path.samestat(os.fstat(self._file), os.stat(self.name, follow_symlinks=False))
        except FileNotFoundError:
            return False

    def is_alone(self) -> bool:
        """Whether there is nothing else in the folder."""
        return os.listdir(self.path) == [SEARCH]

    def text(self) -> bytes:
        """What the file says."""
        return os.pread(self._file, MOST_LINE, 0)

    def write(self, text: bytes) -> None:
        """Has the file say this. What can't be written isn't left there."""
        try:
            os.ftruncate(self._file, 0)
            with open(self._file, "wb", closefd=False) as file:
                file.write(text)
            os.fsync(self._file)
        except BaseException as error:
            if isinstance(error, OSError):
                error.filename = error.filename or self.name
            self.give_up()
            raise
        to_disk(self.path)

    def give_up(self) -> None:
        """Takes away what this command has made of a folder that it doesn't take after all, and lets it go."""
        with suppress(OSError):
            if self.has_made_file and self._is_there():
                os.remove(self.name)
        self._end(is_folder_removed=self._has_made_folder)

    def remove(self) -> None:
        """Takes the file away, and the folder if nothing else is left there."""
        with suppress(FileNotFoundError):
            os.remove(self.name)
        self._end(is_folder_removed=True)

    def _end(self, is_folder_removed: bool) -> None:
        # On another machine's disk a file that is open stays in its folder under another name.
        self.close()
        if is_folder_removed:
            with suppress(OSError):
                os.rmdir(self.path)

    def close(self) -> None:
        if self._file >= 0:
            os.close(self._file)
            self._file = -1


def is_at_work(path: str) -> bool:
    """Whether a command holds a folder."""
    try:
        file = os.open(os.path.join(path, SEARCH), os.O_RDONLY | SAFE)
    except OSError:
        return False
    try:
        fcntl.flock(file, fcntl.LOCK_SH | fcntl.LOCK_NB)
    except BlockingIOError:
        return True
    except OSError:
        # Nobody can work where nothing is locked.
        return False
    finally:
        os.close(file)
    return False


def open_safely(path: str, how: int, owners: Owners) -> int:
    """A file: no link, and nothing that is waited for or read without end.

    Raises `SearchFault`, and `FileNotFoundError` where there is none.
    """
    try:
        found = os.open(path, how | SAFE)
    except FileNotFoundError:
        raise
    except OSError as error:
        raise SearchFault(f"{path}: {'it is a link' if error.errno == errno.ELOOP else error.strerror}") from None
    try:
        about = os.fstat(found)
        if not stat.S_ISREG(about.st_mode):
            raise SearchFault(f"{path}: it is no file")
        if about.st_size > MOST_TEXT + MOST_LINE:
            raise SearchFault(f"{path}: it has more than {MOST_TEXT >> 20} MB")
        owners.judge(path, about)
    except BaseException:
        os.close(found)
        raise
    return found


def opened(path: str, owners: Owners) -> IO[bytes]:
    """A file that is read, as `open_safely` opens it."""
    return open(open_safely(path, os.O_RDONLY, owners), "rb")


def _beginning(path: str) -> bytes:
    """How a file begins; nothing where it can't be read."""
    try:
        with opened(path, Owners(is_own=False)) as file:
            return file.read(MOST_LINE)
    except (OSError, SearchFault):
        return b""


def to_disk(folder: str) -> None:
    """The names in a folder are written, where the system lets one."""
    try:
        opened = os.open(folder, os.O_RDONLY | os.O_CLOEXEC)
    except OSError:
        return
    try:
        with suppress(OSError):
            os.fsync(opened)
    finally:
        os.close(opened)
