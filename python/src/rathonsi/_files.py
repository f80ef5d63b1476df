"""A store in a file."""

import errno
import fcntl
import io
import os
import stat
from collections.abc import Iterable, Mapping

from ._arguments import Bytes
from ._routes import HEADER, Route, made_image, may_be_made
from ._store import Store, write_new_store

Path = str | os.PathLike[str]

MODE = 0o600
# no store of 256 routes is longer, nor is the file of a disk that the programs make
MOST = 131072


class _File:
    """A file as a `Device`: regular, locked, and read and written by its owner alone."""

    def __init__(self, path: Path, making: bool = False) -> None:
        name = os.fspath(path)
        if not isinstance(name, str):
            raise TypeError(f"path: a str or a path is wanted, not {type(path).__name__}")
        # a pipe or a device is opened at once, and then refused
        flags = os.O_RDWR | os.O_NONBLOCK | os.O_NOCTTY | (os.O_CREAT if making else 0)
        self._owner = os.getpid()
        self._file: io.FileIO = open(name, "r+b", buffering=0, opener=lambda at, _: os.open(at, flags, MODE))
        try:
            self._take(name)
            # duty: what is read is durable, so the file's place in its folder is, too
            _sync_folder(name)
        except BaseException:
            self.close()
            raise

    def _take(self, name: str) -> None:
        try:
            # duty: one image and one task at a time for a store, over all processes
            fcntl.flock(self._file, fcntl.LOCK_EX | fcntl.LOCK_NB)
        except BlockingIOError:
            raise BlockingIOError(errno.EWOULDBLOCK, "another object or program has this store open", name) from None
        about = os.fstat(self._file.fileno())
        if not stat.S_ISREG(about.st_mode):
            raise OSError(errno.EINVAL, "a store is a regular file", name)
        if not os.path.samestat(about, os.stat(name)):
            raise BlockingIOError(errno.EWOULDBLOCK, "this file was replaced while it was opened", name)
        if stat.S_IMODE(about.st_mode) & 0o077:
            raise PermissionError(errno.EPERM, f"others may use this file, which has keys: chmod {MODE:o}", name)

    def read(self) -> bytes:
        """The first 131,072 bytes of the file, as they stand on its disk."""
        fd = self._file.fileno()
        # duty: what is read at power-up is durable: it is synced, and then read from the disk, not from a cache
        os.fsync(fd)
        os.posix_fadvise(fd, 0, 0, os.POSIX_FADV_DONTNEED)
        content = bytearray()
        while piece := os.pread(fd, MOST - len(content), len(content)):
            content += piece
        return bytes(content)

    def write(self, offset: int, data: bytes) -> None:
        """Writes bytes durably."""
        fd = self._file.fileno()
        while data:
            count = os.pwrite(fd, data, offset)
            offset, data = offset + count, data[count:]
        # duty: each write is durable before the next begins
        os.fsync(fd)

    def close(self) -> None:
        """Closes the file. In the process that opened it, this frees the lock, even if a forked one has it, too."""
        if not self._file.closed and os.getpid() == self._owner:
            fcntl.flock(self._file, fcntl.LOCK_UN)
        self._file.close()


def _sync_folder(name: str) -> None:
    folder = os.open(os.path.dirname(os.path.realpath(name)), os.O_RDONLY | os.O_DIRECTORY)
    try:
        os.fsync(folder)
    finally:
        os.close(folder)


class FileStore(Store):
    """The store in a file that `make_file_store` made, or a twin store of version 1 that `node`, `keytool` or C made.

    A file whose store was moved to version 2 is refused (`NoStore`): what it still has of version 1 is old.

    Calls, routes and refusals are those of `Store`. The file is locked (flock) until `close`, the end of a `with`
    block or a failed write; each write is synced before the next begins. It can be opened again after a kill, a crash
    or a power cut at any moment, if the file system and the disk keep what was synced, and a torn write changes its
    own bytes alone: no freshness is used or accepted twice, and a confirmed key stays.

    BlockingIOError: another program or object has it open. PermissionError: others may read or write the file
    (its mode isn't 600). OSError: what else the system says of the file. `NoStore`, `Damaged`, `WrongCell`: as of `Store`.
    """

    def __init__(self, path: Path, routes: Iterable[Route] = ()) -> None:
        file = _File(path)
        try:
            super().__init__(file, routes)
        except BaseException:
            file.close()
            raise

    def _release(self) -> None:
        if isinstance(self._device, _File):
            self._device.close()


def make_file_store(path: Path, routes: Iterable[Route], keys: Mapping[int, Bytes] | None = None) -> None:
    """Makes a store in a new file of mode 600: arguments as of `make_store`. Call it once in the life of a unit.

    If it was cut off, it can be called again with the same arguments, and goes on over the file that it left.
    FileExistsError: there is another file, such as a store.
    """
    image = made_image(routes, {} if keys is None else keys)
    file = _File(path, making=True)
    try:
        # duty: a store is made before its first power-up alone
        if not _is_left_over(file.read(), image):
            raise FileExistsError(errno.EEXIST, "there is a file already", os.fspath(path))
        write_new_store(file, image)
    finally:
        file.close()


def _is_left_over(content: bytes, image: bytes) -> bool:
    """Whether a file is what was written of this image when its making was cut off: no store was there then."""
    if len(content) > len(image) or not may_be_made(content, image):
        return False
    return not any(content[:HEADER]) or content[HEADER:] == image[HEADER:]
