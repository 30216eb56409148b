"""Files that are read and written, so that nothing is destroyed and no failure goes unseen."""
import atexit
import contextlib
import errno
import fcntl
import os
import secrets
import select
import stat
import sys
from types import TracebackType
from typing import BinaryIO, Callable, Dict, Iterator, NamedTuple, Optional, Sequence, Tuple, Type, Union

Path = Union[str, "os.PathLike[str]"]
BLOCK = 1 << 16
INPUT, OUTPUT = "standard input", "standard output"
# Links that lead to each other, before they are taken for a ring.
LINKS = 40


def _failure(number: int, name: str) -> OSError:
    return OSError(number, os.strerror(number), name)


# ---- what is read

def standard_input() -> BinaryIO:
    """Standard input's bytes."""
    if sys.stdin is None:
        raise _failure(errno.EBADF, INPUT)
    return sys.stdin.buffer


def read_all(name: Optional[str]) -> bytes:
    """All of a file, or of standard input."""
    return b"".join(blocks(name))


def blocks(name: Optional[str]) -> Iterator[bytes]:
    """The bytes of a file, or of standard input, as they come: those of a pipe without waiting for more."""
    if name is None:
        yield from _blocks(standard_input().fileno(), INPUT)
    else:
        with open(name, "rb", buffering=0) as file:
            yield from _blocks(file.fileno(), name)


def _blocks(descriptor: int, name: str) -> Iterator[bytes]:
    while True:
        try:
            block = os.read(descriptor, BLOCK)
        except BlockingIOError:
            select.select([descriptor], [], [])
            continue
        except OSError as error:
            raise OSError(error.errno, error.strerror, name) from None
        if not block:
            return
        yield block


# ---- what is read is not written

class Known(NamedTuple):
    """A file of the command line: what it is called, and what tells it from any other, where that matters."""

    name: str
    key: Optional[Tuple[object, ...]]


def _key(found: os.stat_result) -> Optional[Tuple[object, ...]]:
    """What tells a file from any other, and a disk whatever it is called. A terminal is read and written at once with no harm."""
    if stat.S_ISBLK(found.st_mode):
        return "disk", found.st_rdev
    return (found.st_dev, found.st_ino) if stat.S_ISREG(found.st_mode) or stat.S_ISFIFO(found.st_mode) else None


def _standard(descriptor: int) -> Optional[Tuple[object, ...]]:
    try:
        return _key(os.fstat(descriptor))
    except OSError:
        return None


def _input(name: Optional[str]) -> Known:
    """A file to be read: it is there, and it is no folder."""
    if name is None:
        return Known(INPUT, _standard(0))
    try:
        found = os.stat(name)
    except FileNotFoundError:
        raise FileNotFoundError(f"no file {name}") from None
    if stat.S_ISDIR(found.st_mode):
        raise _failure(errno.EISDIR, name)
    return Known(name, _key(found))


def _output(name: Optional[str]) -> Known:
    """A file to be written, which need not be there."""
    if name is None:
        return Known(OUTPUT, _standard(1) or (OUTPUT,))
    found = _found(name)
    if not found and _is_system(os.path.realpath(os.path.dirname(_followed(name)))):
        raise _failure(errno.EBADF, name)  # now, before a file of this program gets the number
    return Known(name, _key(found) if found else (os.path.realpath(name),))


class Unsayable(ValueError):
    """A failure that is not told: the line would go into a file that is read."""


def _takes_lines(name: Optional[str]) -> bool:
    """Whether lines on standard error go into a file that is read."""
    try:
        found = os.fstat(0) if name is None else os.stat(name)
        return _is_writable(2) and _key(found) is not None and _key(found) == _standard(2)
    except OSError:
        return False


def apart(inputs: Sequence[Optional[str]], outputs: Sequence[Optional[str]]) -> None:
    """Raises ValueError where a file would be written that is read, or written twice: by any name or link, by < or >> too."""
    if any(_takes_lines(name) for name in inputs):
        raise Unsayable("standard error would be written into a file that is read: nothing is done")
    read, written = [_input(name) for name in inputs], [_output(name) for name in outputs]
    for k, output in enumerate(written):
        for one in read:
            if output.key and output.key == one.key:
                name = "it" if one.name == output.name else f"{one.name}, the same file,"
                raise ValueError(f"{output.name} would be written while {name} is read: nothing is done")
        for other in written[:k]:
            if output.key and output.key == other.key:
                raise ValueError(f"{output.name} would be written twice: nothing is done")


# ---- where a name leads

def _found(name: str) -> Optional[os.stat_result]:
    """What a name leads to, if it is there."""
    try:
        return os.stat(name)
    except FileNotFoundError:
        return None


def _is_system(path: str) -> bool:
    """Whether a path is one of the system's own, which leads to what is open: /proc/self/fd, and each link in it."""
    try:
        return os.lstat(path).st_dev == os.lstat("/proc/self").st_dev
    except OSError:
        return False


def _followed(name: str) -> str:
    """Where a name leads: a path whose last part is no link, or one of the system's, whose text need not lead there."""
    place = os.path.join(os.getcwd(), name)
    for _ in range(LINKS):
        if not os.path.islink(place) or _is_system(place):
            return place
        place = os.path.join(os.path.dirname(place), os.readlink(place))
    raise _failure(errno.ELOOP, name)


def _descriptor(link: str, found: os.stat_result) -> Optional[int]:
    """The descriptor of this program that a link of the system is named after: 3 of /dev/fd/3. None where it is another's."""
    number = os.path.basename(link)
    try:
        if number.isdigit() and os.path.samestat(os.fstat(int(number)), found):
            return int(number)
    except (OSError, OverflowError):
        pass
    return None


def _is_writable(descriptor: int) -> bool:
    return fcntl.fcntl(descriptor, fcntl.F_GETFL) & os.O_ACCMODE != os.O_RDONLY


def _is_kept(place: str, found: os.stat_result) -> bool:
    """Whether the folder keeps others from replacing this file, as /tmp does."""
    folder, user = os.stat(os.path.dirname(place)), os.geteuid()
    return bool(folder.st_mode & stat.S_ISVTX) and user not in (0, found.st_uid, folder.st_uid)


# ---- what is written

# Files beside their places, each with the process that writes it.
_unfinished: Dict[str, int] = {}


def take_away() -> None:
    """Removes what this process has written beside a place and not put there: at its end, wherever it was stopped."""
    for path, process in list(_unfinished.items()):
        if process == os.getpid():
            with contextlib.suppress(OSError):
                os.unlink(path)
            _unfinished.pop(path, None)


atexit.register(take_away)


def standard_output() -> BinaryIO:
    """Standard output's bytes."""
    if sys.stdout is None:
        raise _failure(errno.EBADF, OUTPUT)
    return sys.stdout.buffer


class Output:
    """Where bytes go: a file, or standard output where the name is None.

    A file is written beside itself and put in its place at the end, with the mode that it
    had, so that after a failure what was there before is there still. A link is followed.
    A device or a pipe is written as it is. What is open already, as /dev/stdout or /dev/fd/3,
    is written where it stands, and what is there stays.
    """

    def __init__(self, name: Optional[Path]) -> None:
        self.name = OUTPUT if name is None else os.fspath(name)
        self._ours = name is not None
        self._place = self._beside = ""
        self._file: BinaryIO

    def __enter__(self) -> "Output":
        try:
            self._file = self._open(self.name) if self._ours else standard_output()
        except BaseException:  # a signal, too
            self._leave()
            raise
        return self

    def _open(self, name: str) -> BinaryIO:
        place, found = _followed(name), _found(name)
        if found and os.path.islink(place):
            return self._open_already(place, found)
        if found and not stat.S_ISREG(found.st_mode):
            return open(name, "wb")
        if found and not os.access(name, os.W_OK):
            raise _failure(errno.EACCES, name)
        if found and _is_kept(place, found):
            raise OSError(errno.EPERM, "only its owner may replace it in this folder; standard output can be led there instead", name)
        if not os.path.basename(name):
            raise _failure(errno.EISDIR, name)
        descriptor = self._new(place, 0o600 if found else 0o666)
        if found:
            _take_after(descriptor, found)
        return open(descriptor, "wb")

    def _open_already(self, link: str, found: os.stat_result) -> BinaryIO:
        """What is open already: by its descriptor, or, where that is another program's, at its end."""
        number = _descriptor(link, found)
        if number is None:
            return open(os.open(link, os.O_WRONLY | os.O_APPEND), "wb")
        if not _is_writable(number):
            raise _failure(errno.EBADF, self.name)
        self.name = OUTPUT if number == 1 else self.name
        return open(os.dup(number), "wb")

    def _new(self, place: str, mode: int) -> int:
        """A new file beside a place."""
        self._place, folder = place, os.path.dirname(place)
        self._beside = os.path.join(folder, f".lizardwire-{secrets.token_hex(8)}")
        _unfinished[self._beside] = os.getpid()
        try:
            return os.open(self._beside, os.O_WRONLY | os.O_CREAT | os.O_EXCL, mode)
        except OSError as error:
            raise OSError(error.errno, error.strerror, folder) from None

    def terminal(self) -> bool:
        """Whether it is a terminal."""
        return self._file.isatty()

    def write(self, data: bytes) -> None:
        """Puts bytes down."""
        self._told(lambda: self._put(data))

    def _put(self, data: bytes) -> None:
        """All of them: standard output without a buffer, as under python -u, may take a part and say so by a count alone."""
        left = memoryview(data)
        while left:
            taken = self._file.write(left)
            if not taken:
                raise _failure(errno.EAGAIN, self.name)
            left = left[taken:]

    def flush(self) -> None:
        """Hands on what has been put down."""
        self._told(self._file.flush)

    def _told(self, action: Callable[[], object]) -> None:
        """What fails is told with the file's name."""
        try:
            action()
        except OSError as error:
            raise OSError(error.errno, error.strerror, self.name) from None

    def __exit__(self, kind: Optional[Type[BaseException]], error: Optional[BaseException], trace: Optional[TracebackType]) -> None:
        try:
            if kind is None:
                self._told(self._keep)
        finally:
            self._leave()

    def _keep(self) -> None:
        """All is written: into its place."""
        self._file.flush()
        if self._beside:
            _sync(self._file.fileno())
        if self._ours:
            self._file.close()
        if self._beside:
            os.replace(self._beside, self._place)
            _unfinished.pop(self._beside, None)
            self._beside = ""

    def _leave(self) -> None:
        """Closes what is open still, and takes away what was not put in place."""
        with contextlib.suppress(OSError, AttributeError):
            if self._ours:
                self._file.close()
        if self._beside:
            with contextlib.suppress(OSError):
                os.unlink(self._beside)
            _unfinished.pop(self._beside, None)


def _sync(descriptor: int) -> None:
    """Onto the disk. Not every file can say whether it is there."""
    try:
        os.fsync(descriptor)
    except OSError as error:
        if error.errno not in (errno.EINVAL, errno.ENOTSUP):
            raise


def _take_after(descriptor: int, found: os.stat_result) -> None:
    """Gives a file the mode of the one that it replaces, and its owner as far as this user may give files away."""
    try:
        os.fchown(descriptor, found.st_uid, found.st_gid)
    except OSError:
        with contextlib.suppress(OSError):
            os.fchown(descriptor, -1, found.st_gid)
    with contextlib.suppress(OSError):
        os.fchmod(descriptor, found.st_mode & 0o777)
