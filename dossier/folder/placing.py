"""How anything is written: private copies, outputs into a folder, and files that the command line names.

An output is made without a name in the folder where it belongs, or where that can't be under a random one, and renamed
when all of them are made. Nothing is written through a link, root writes nothing into another user's folder, and
nothing is taken away but by the name of a file that is known to be one's own.
"""
import errno
import fcntl
import os
import signal
import stat
import time
from collections.abc import Iterable, Iterator
from contextlib import contextmanager, suppress

from ..fault import DEVICE, Fault, fault
from .files import (BLOCK, FILE, HOME, MAX_OF_A_CAPTURE, OF_A_FILE, Folder, folder_at, held, kind_of, own, parent_of,
                    read_named)

MAX_NAMESAKES = 1000
"""Files of a recorder that would have one name."""
END = signal.SIGUSR1
"""What ends the process of a folder, but not while it is undisturbed: a signal for which Python has no handler, which
one that has only just been forked would have too."""

READER = 10
"""The reader of a FIFO is waited for that many seconds."""


def unwritable(name: str, error: OSError) -> Fault:
    return fault(f"{name} can't be written ({error.strerror})", DEVICE)


def write(file: int, data: bytes) -> None:
    """Writes all of it, however little is taken at once."""
    while data:
        data = data[os.write(file, data) :]


# ---- private copies


class Room:
    """The bytes that copies and answers of a folder may still take."""

    left = 1 << 34

    def take(self, size: int) -> None:
        self.left -= size
        if self.left < 0:
            raise fault("its copies and answers take more room than a folder may")


ROOM = Room()


class Copy:
    """A file in a folder of one's own. A block of zeros becomes a hole in it; the others take of the folder's room."""

    def __init__(self, path: str):
        self.path, self.size = path, 0

    def __enter__(self) -> "Copy":
        try:
            self.file = os.open(self.path, os.O_WRONLY | os.O_CREAT | os.O_TRUNC | os.O_CLOEXEC, 0o600)
        except OSError as error:
            raise self.unwritable(error) from None
        return self

    def take(self, block: bytes) -> None:
        """Writes a block; one of zeros is left out."""
        self.size += len(block)
        try:
            if not block.lstrip(b"\0"):
                os.ftruncate(self.file, self.size)
                os.lseek(self.file, self.size, os.SEEK_SET)
            else:
                ROOM.take(len(block))
                write(self.file, block)
        except OSError as error:
            raise self.unwritable(error) from None

    def unwritable(self, error: OSError) -> Fault:
        return unwritable(f"a private copy ({self.path})", error)

    def __exit__(self, *_: object) -> None:
        os.close(self.file)


def keep(path: str, data: bytes) -> None:
    """Writes a private copy."""
    with Copy(path) as copy:
        copy.take(data)


def move(path: str, to: str) -> None:
    """Gives a private copy another name."""
    os.rename(path, to)


def cut_off(path: str, size: int) -> None:
    os.truncate(path, size)


def make_private(path: str) -> None:
    """Makes a private folder."""
    os.mkdir(path, 0o700)


@contextmanager
def nameless() -> Iterator[int]:
    """A new file in memory, which is gone after a while."""
    file = os.memfd_create("nameless")
    try:
        yield file
    finally:
        os.close(file)


def copy_named(path: str, to: str, most: int = MAX_OF_A_CAPTURE) -> None:
    """Makes a private copy of a file that the command line names."""
    with Copy(to) as copy:
        read_named(path, copy.take, most)


def copy_of(folder: Folder, name: str, path: str) -> str:
    """Makes a private copy of a file of a folder, and gives its SHA-256."""
    with Copy(path) as copy:
        return folder.read(name, copy.take)


def copy_unsummed(folder: Folder, name: str, path: str) -> None:
    """The same of a file whose SHA-256 somebody else takes, of this copy: it takes longer than all the rest."""
    with Copy(path) as copy:
        folder.hand_on(name, copy.take)


# ---- outputs


@contextmanager
def undisturbed() -> Iterator[None]:
    """Lets signals wait while files have names that only this process knows: nobody else would take them away."""
    before = signal.pthread_sigmask(signal.SIG_BLOCK, (signal.SIGINT, signal.SIGTERM, signal.SIGALRM, END))
    try:
        yield
    finally:
        signal.pthread_sigmask(signal.SIG_SETMASK, before)


class New:
    """A new file in a folder, without a name if the file system can, until it is put in its place."""

    def __init__(self, place: int, blocks: Iterable[bytes]):
        self.place, self.name = place, f".ntpaudit-{os.urandom(8).hex()}"
        try:
            self.is_named = False
            self.file = os.open(".", os.O_TMPFILE | os.O_WRONLY | os.O_CLOEXEC, 0o666, dir_fd=place)
        except OSError:
            new = os.O_WRONLY | os.O_CREAT | os.O_EXCL | os.O_NOFOLLOW | os.O_CLOEXEC
            self.file, self.is_named = os.open(self.name, new, 0o666, dir_fd=place), True
        try:
            for block in blocks:
                write(self.file, block)
        except BaseException:
            self.end()
            raise

    def put(self, parent: int, name: str) -> None:
        """Puts it in the place of whatever has this name there."""
        if not self.is_named:
            self.is_named = True
            os.link(f"/proc/self/fd/{self.file}", self.name, dst_dir_fd=self.place, follow_symlinks=True)
        os.rename(self.name, name, src_dir_fd=self.place, dst_dir_fd=parent)
        self.is_named = False

    def end(self) -> None:
        os.close(self.file)
        if self.is_named:
            with suppress(OSError):
                os.unlink(self.name, dir_fd=self.place)


def is_ones_own(place: int, to_do: str = "call it as that user (runuser)") -> None:
    """Refuses to write into another user's folder as root: whoever owns it can have it lead anywhere."""
    user = os.fstat(place).st_uid
    if not os.geteuid() and user:
        raise fault(f"the folder is user {user}'s, where root writes nothing: {to_do}", DEVICE)


@undisturbed()
def place(folder: Folder, made: dict[str, Iterable[bytes]], old: Iterable[str] = ()) -> None:
    """Puts files into their places in a folder, in this order and after all were made, and takes away what is old."""
    is_ones_own(folder.place)
    name, new = "", dict[str, New]()
    try:
        for name, blocks in made.items():
            new[name] = New(folder.place, blocks)
        for name in old:
            take_away(folder.place, name)
        for name, file in new.items():
            if day := os.path.dirname(name):
                make_in(folder.place, day)
            with parent_of(folder.place, name) as (parent, to):
                is_ones_own(parent)
                file.put(parent, to)
    except OSError as error:
        raise unwritable(name or "the folder", error) from None
    finally:
        for file in new.values():
            file.end()


def take_away(folder: int, name: str) -> None:
    """Removes what stands in the folder itself as a regular file, and a day's folder that is empty by that."""
    is_ones_own(folder)
    with suppress(FileNotFoundError, NotADirectoryError):
        with parent_of(folder, name) as (parent, file):
            is_ones_own(parent)
            if stat.S_ISREG(os.stat(file, dir_fd=parent, follow_symlinks=False).st_mode):
                os.unlink(file, dir_fd=parent)
        if day := os.path.dirname(name):
            with suppress(OSError):
                os.rmdir(day, dir_fd=folder)


def make_last(folder: Folder, names: Iterable[str]) -> None:
    """Has files of a folder written to the disk, with their names, so that they outlast a loss of power."""
    try:
        for name in names:
            with held(name, folder.place, OF_A_FILE | os.O_NOFOLLOW) as opened:
                os.fsync(opened)
        os.fsync(folder.place)
    except OSError as error:
        raise unwritable(folder.path, error) from None


def make_in(parent: int, name: str) -> None:
    """Makes a folder in one, if it isn't there."""
    is_ones_own(parent)
    with suppress(FileExistsError):
        os.mkdir(name, dir_fd=parent)


def make_folder(path: str, to_do: str) -> None:
    """Makes a folder that the command line names, and those above it, if they aren't there. Root is told what to do
    where it may not."""
    def make(parent: int, name: str) -> None:
        is_ones_own(parent, to_do)
        make_in(parent, name)
    try:
        with folder_at(path, make) as made:
            is_ones_own(made, to_do)
    except OSError as error:
        raise unwritable(path, error) from None


def remove_folder(path: str) -> None:
    """Removes a folder, if nothing lies in it."""
    with suppress(OSError, Fault), folder_at(os.path.dirname(path)) as parent:
        os.rmdir(os.path.basename(path), dir_fd=parent)


# ---- what a recorder writes


class Begun:
    """A new file in a folder, which grows by whole records: of what doesn't fit nothing stays. Another file of its name
    is none of it: then it has a number behind, as tcpdump's have."""

    def __init__(self, place: int, name: str, header: bytes):
        self.place, self.size, flags = place, 0, os.O_WRONLY | os.O_CREAT | os.O_EXCL | os.O_NOFOLLOW | os.O_CLOEXEC
        for self.name in (name, *(f"{name}{number}" for number in range(1, MAX_NAMESAKES))):
            with suppress(FileExistsError):
                self.file = os.open(self.name, flags, 0o666, dir_fd=place)
                break
        else:
            raise fault(f"{name} stands there {MAX_NAMESAKES:,} times", DEVICE)
        try:
            self.take(header)
        except OSError:
            os.close(self.file)
            os.unlink(self.name, dir_fd=place)
            raise

    def take(self, records: bytes) -> None:
        """Writes whole records."""
        try:
            write(self.file, records)
        except OSError:
            with suppress(OSError):
                os.ftruncate(self.file, self.size)
            raise
        self.size += len(records)

    def stands(self) -> bool:
        """Whether it has its name still, and what was written."""
        try:
            named, seen = os.stat(self.name, dir_fd=self.place, follow_symlinks=False), os.fstat(self.file)
        except OSError:
            return False
        return (named.st_dev, named.st_ino, seen.st_size) == (seen.st_dev, seen.st_ino, self.size)

    def end(self) -> None:
        with suppress(OSError):
            if os.fstat(self.file).st_size > self.size:  # (broken off in the middle of a record)
                os.ftruncate(self.file, self.size)
        os.close(self.file)


class Slate:
    """A small file that is written again and again in its place: once it is there, a full disk doesn't matter."""
    SIZE = 4096

    def __init__(self, place: int, name: str):
        flags = os.O_RDWR | os.O_CREAT | os.O_NOFOLLOW | os.O_NONBLOCK | os.O_CLOEXEC
        self.file = os.open(name, flags, 0o666, dir_fd=place)

    def put(self, data: bytes) -> None:
        with suppress(OSError):
            os.pwrite(self.file, data[: self.SIZE].ljust(self.SIZE), 0)
            os.ftruncate(self.file, self.SIZE)

    def end(self) -> None:
        os.close(self.file)


# ---- a record of one's own


class Journal:
    """A file of lines in a folder of one's own, which only grows."""

    def __init__(self, folder: str, name: str, writes: bool):
        """Reads it. What will be written has to be writable before anything is begun."""
        self.text = b""
        try:
            if writes:
                os.makedirs(os.path.join(f"/proc/self/fd/{HOME}", folder), 0o700, exist_ok=True)
            self.place = os.open(folder, os.O_RDONLY | os.O_DIRECTORY | os.O_CLOEXEC, dir_fd=HOME)
            if writes:
                is_ones_own(self.place)
            flags = os.O_RDWR | os.O_CREAT | os.O_APPEND if writes else os.O_RDONLY
            self.file = os.open(name, flags | os.O_NOFOLLOW | os.O_CLOEXEC, 0o600, dir_fd=self.place)
            self.text = self.again()
        except FileNotFoundError:
            pass

    def again(self) -> bytes:
        """All lines, as they stand there now."""
        with own(f"/proc/self/fd/{self.file}") as opened:
            return opened.read()

    def append(self, line: str) -> None:
        """Adds a line, whole or not at all."""
        fcntl.flock(self.file, fcntl.LOCK_EX)
        size = os.fstat(self.file).st_size
        try:
            write(self.file, f"{line}\n".encode())
        except OSError:
            os.ftruncate(self.file, size)
            raise
        finally:
            fcntl.flock(self.file, fcntl.LOCK_UN)

    @contextmanager
    def alone(self, name: str, folder: Folder) -> Iterator[None]:
        """Waits until no other call writes in a folder. What is locked is a byte of a file of one's own: whoever may
        read the folder could lock that. Where files can't be locked (NFS), it doesn't wait."""
        seen = os.fstat(folder.place)
        at = hash((seen.st_dev, seen.st_ino)) & (1 << 62) - 1
        file = os.open(name, os.O_RDWR | os.O_CREAT | os.O_NOFOLLOW | os.O_CLOEXEC, 0o600, dir_fd=self.place)
        try:
            with suppress(OSError):
                fcntl.lockf(file, fcntl.LOCK_EX, 1, at)
            yield
        finally:
            os.close(file)


# ---- files that the command line names


@contextmanager
def taken_by_another(name: str, place: int) -> Iterator[int]:
    """A descriptor of a device or a FIFO, for a while. Who reads a FIFO may begin after this, but not much later."""
    flags = os.O_WRONLY | os.O_NONBLOCK | os.O_NOCTTY | os.O_NOFOLLOW | os.O_CLOEXEC
    end = time.monotonic() + READER
    while True:
        try:
            file = os.open(name, flags, dir_fd=place)
            break
        except OSError as error:
            if error.errno != errno.ENXIO:
                raise
        if time.monotonic() > end:
            raise fault(f"nobody reads {name}, so it isn't written", DEVICE)
        time.sleep(0.1)
    try:
        os.set_blocking(file, True)
        yield file
    finally:
        os.close(file)


def write_named(path: str, data: bytes, is_below: bool = False) -> None:
    """Writes a file that the command line names, or one below a folder that it names, which is made: straight into what
    is a device or a FIFO, if its name is the user's choice, else whole or not at all. A link in any part of its path
    may be a stranger's, so none is followed."""
    parent, name = os.path.split(path)
    try:
        with folder_at(parent, make_in if is_below else None) as place:
            kind = FILE if is_below else kind_of(place, name)
            if kind in ("a FIFO", "a device"):
                with taken_by_another(name, place) as opened:
                    if stat.S_ISREG(os.fstat(opened).st_mode):
                        raise fault(f"{name} has changed meanwhile")
                    write(opened, data)
                return
            if kind not in ("", FILE):
                raise fault(f"{name} is {kind}, so it isn't written", DEVICE)
            is_ones_own(place)
            with undisturbed():
                new = New(place, [data])
                try:
                    new.put(place, name)
                finally:
                    new.end()
    except OSError as error:
        raise unwritable(name, error) from None


def blocks_of(path: str) -> Iterator[bytes]:
    """The blocks of a file of one's own."""
    with own(path) as opened:
        yield from iter(lambda: opened.read(BLOCK), b"")
