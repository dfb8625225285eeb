"""How files are opened: by descriptor below the folder that is named, with no link in any part of a path, each a
regular file and no larger than its kind may be. What is parsed, shown, summed or handed on is what was read: its bytes,
or a private copy of them.
"""
import hashlib
import mmap
import os
import re
import stat
from collections.abc import Callable, Iterator
from contextlib import contextmanager, suppress
from io import BufferedReader
from itertools import islice
from typing import TypeVar

from ..fault import DEVICE, Fault, fault

CLAIM = "claim.json"
EVIDENCE = "evidence.json"
CERTIFICATE = "certificate.json"
REPORT = "report.txt"
ENVELOPE = "envelope.txt"
PARTS = "parts.txt"
REFUTATION = "refutation.json"
CLAIM_OF_0 = "bound-0.claim.json"
CLAIM_OF_DRIFT = "more-drift.claim.json"
AUDIT = "audit.json"
YEAR = "year.json"
EVENTS, LOG, ANSWERED = "events.json", "events.csv", "answered.csv"
"""On what an answer to a log of events rests, the log as it was given, and the same with the answer."""
SIGNATURES = {name: f"{name}.sig" for name in (AUDIT, YEAR, EVENTS)}
"""The signature of each that is signed. The one of them that a folder has says what the folder is."""
SIGNATURE = SIGNATURES[AUDIT]
LIST = "pages.sums"
"""The sums of the pages that a call left in a folder, as `sha256sum` has them."""
JOINED = "joined.pcap"
LEFT = frozenset({CERTIFICATE, REPORT, ENVELOPE, PARTS, REFUTATION, CLAIM_OF_0, CLAIM_OF_DRIFT, JOINED})
"""What an audit leaves of each claim."""
OWN = LEFT | {AUDIT, SIGNATURE}
"""What stands in a folder besides the inputs."""

CAPTURE = re.compile(r"[^.].*\.(pcap|pcapng|cap)[0-9]*(\.(gz|zst))?", re.DOTALL)
"""Names of captures: also `f.pcap1` and so on, as `tcpdump -C` writes them, and packed ones."""

SMALL, JSON, LARGE = 1 << 16, 1 << 24, 1 << 30
LIMITS = {CLAIM: SMALL, EVIDENCE: SMALL, CLAIM_OF_0: SMALL, CLAIM_OF_DRIFT: SMALL, REFUTATION: SMALL,
          REPORT: JSON, AUDIT: JSON, EVENTS: 1 << 28, CERTIFICATE: 1 << 27, ENVELOPE: LARGE, PARTS: LARGE,
          **dict.fromkeys(SIGNATURES.values(), SMALL)}
"""Bytes that a file may have by its name."""
MAX_OF_A_CAPTURE, MAX_NAMES = 1 << 32, 100_000
"""The program holds a capture in memory for as long as it takes to hold it to its sum."""

KINDS = {stat.S_IFIFO: "a FIFO", stat.S_IFLNK: "a link", stat.S_IFDIR: "a folder", stat.S_IFSOCK: "a socket",
         stat.S_IFCHR: "a device", stat.S_IFBLK: "a block device"}
FILE = "a file"
BLOCK = 1 << 18
"""Bytes of a file that are read at once."""
OF_A_FOLDER = os.O_RDONLY | os.O_DIRECTORY | os.O_NOFOLLOW | os.O_CLOEXEC
OF_A_FILE = os.O_RDONLY | os.O_NONBLOCK | os.O_NOCTTY | os.O_CLOEXEC

HOME = os.open(".", os.O_PATH | os.O_DIRECTORY | os.O_CLOEXEC)
"""The folder in which this was called. Names on the command line are seen from there."""


def is_capture(name: str) -> bool:
    return bool(CAPTURE.fullmatch(name)) and name != JOINED


def absolute(path: str) -> str:
    """The absolute path of what the command line names, in a folder's own process too: that one is elsewhere."""
    whole = os.path.normpath(os.path.join(os.readlink(f"/proc/self/fd/{HOME}"), path))
    return f"/{whole.lstrip('/')}"  # (two slashes stay two for normpath)


def limit_of(name: str) -> int:
    """The bytes that a file of this name may have."""
    file = name.rpartition("/")[2]
    other = JSON if file.endswith((".json", ".days")) else LARGE
    return LIMITS.get(file, MAX_OF_A_CAPTURE if is_capture(file) or file == JOINED else other)


def unreadable(name: str, error: OSError) -> Fault:
    return fault(f"{name} can't be read ({error.strerror})", DEVICE)


@contextmanager
def held(name: str, place: int, flags: int) -> Iterator[int]:
    """A descriptor, for a while."""
    file = os.open(name, flags, dir_fd=place)
    try:
        yield file
    finally:
        os.close(file)


@contextmanager
def folder_at(path: str, make: Callable[[int, str], None] | None = None) -> Iterator[int]:
    """The descriptor of a folder, for a while, which is opened part by part: none of them may be a link. What isn't
    there is made first, if there is a way to."""
    place = os.open("/" if path.startswith("/") else ".", OF_A_FOLDER, dir_fd=HOME)
    try:
        for part in filter(None, path.split("/")):
            if make and not kind_of(place, part):
                make(place, part)
            if kind_of(place, part) == KINDS[stat.S_IFLNK]:
                what = "the folder" if path.rstrip("/").endswith(part) else f"{part} in its path"
                raise fault(f"{what} is a link: name the folder itself")
            place, above = os.open(part, OF_A_FOLDER, dir_fd=place), place
            os.close(above)
        yield place
    finally:
        os.close(place)


@contextmanager
def parent_of(place: int, name: str) -> Iterator[tuple[int, str]]:
    """The folder of a file, and the file's name in it. A day's folder is one and no link to one."""
    day, _, file = name.rpartition("/")
    if not day:
        yield place, file
        return
    seen = os.stat(day, dir_fd=place, follow_symlinks=False)
    if not stat.S_ISDIR(seen.st_mode):
        raise fault(f"{day} is {KINDS.get(stat.S_IFMT(seen.st_mode), 'no folder')}")
    with held(day, place, OF_A_FOLDER) as parent:
        yield parent, file


def has_kind(name: str, seen: os.stat_result, most: int) -> None:
    """Refuses what is no regular file, or too big."""
    if not stat.S_ISREG(seen.st_mode):
        raise fault(f"{name} is {KINDS.get(stat.S_IFMT(seen.st_mode), 'no regular file')}")
    if seen.st_size > most:
        raise too_big(name, most)


def too_big(name: str, most: int) -> Fault:
    return fault(f"{name} is too big: it has more than {most:,} bytes")


def read_once(place: int, file: str, name: str, take: Callable[[bytes], object], most: int,
              follow: int = os.O_NOFOLLOW) -> None:
    """Hands all bytes of a file on, a block at a time. A device isn't opened."""
    size = 0
    try:
        has_kind(name, os.stat(file, dir_fd=place, follow_symlinks=not follow), most)
        with held(file, place, OF_A_FILE | follow) as opened:
            has_kind(name, os.fstat(opened), most)
            while block := os.read(opened, BLOCK):
                size += len(block)
                if size > most:
                    raise too_big(name, most)
                take(block)
    except OSError as error:
        raise unreadable(name, error) from None


def is_roots(place: int, name: str) -> bool:
    """Whether something is root's."""
    with suppress(OSError):
        return not os.stat(name, dir_fd=place, follow_symlinks=False).st_uid
    return False


def kind_of(place: int, name: str) -> str:
    """What stands there, such as `a file` or `a link`; nothing if there is nothing."""
    try:
        return KINDS.get(stat.S_IFMT(os.stat(name, dir_fd=place, follow_symlinks=False).st_mode), FILE)
    except (OSError, ValueError):
        return ""


class Folder:
    """A folder, held by its descriptor. What is read of a file is the same each time, or the folder is refused."""

    def __init__(self, path: str):
        self.path, self.sums, self.kept = path, dict[str, str](), dict[str, bytes]()

    def __enter__(self) -> "Folder":
        try:
            self.opened = folder_at(self.path)
            self.place = self.opened.__enter__()
        except FileNotFoundError:
            raise fault("no such folder", DEVICE) from None
        except NotADirectoryError:
            raise fault("no such folder: a file is there. Name the folder in which it is, with its claim.json",
                        DEVICE) from None
        except OSError as error:
            raise fault(f"the folder can't be read ({error.strerror})", DEVICE) from None
        return self

    def __exit__(self, *_: object) -> None:
        self.opened.__exit__(None, None, None)

    def names(self) -> list[str]:
        """The names in the folder, sorted."""
        try:
            with os.scandir(self.place) as entries:
                names = [entry.name for entry in islice(entries, MAX_NAMES + 1)]
        except OSError as error:
            raise fault(f"the folder can't be read ({error.strerror})", DEVICE) from None
        if len(names) > MAX_NAMES:
            raise fault(f"more than {MAX_NAMES:,} files are in the folder")
        return sorted(names)

    def has(self, name: str) -> bool:
        """Whether there is something of this name, whatever it is."""
        try:
            with parent_of(self.place, name) as (parent, file):
                return bool(kind_of(parent, file))
        except (OSError, Fault):
            return False

    def is_folder(self, name: str) -> bool:
        return kind_of(self.place, name) == KINDS[stat.S_IFDIR]

    def written(self, name: str) -> int:
        """When something was written last, in Unix seconds; 0 if it isn't there any more."""
        return self.written_ns(name) // 10**9

    def written_ns(self, name: str) -> int:
        try:
            return os.stat(name, dir_fd=self.place, follow_symlinks=False).st_mtime_ns
        except OSError:
            return 0

    def part(self, name: str, begin: int, end: int) -> bytes:
        """The bytes of a file between two places, as far as it has them: it may be growing."""
        try:
            with parent_of(self.place, name) as (parent, file):
                has_kind(name, os.stat(file, dir_fd=parent, follow_symlinks=False), limit_of(name))
                with held(file, parent, OF_A_FILE | os.O_NOFOLLOW) as opened:
                    has_kind(name, os.fstat(opened), limit_of(name))
                    return os.pread(opened, end - begin, begin)
        except OSError as error:
            raise unreadable(name, error) from None

    def is_at(self, path: str) -> bool:
        """Whether a path leads to it still."""
        try:
            with Folder(path) as other:
                return os.path.samestat(os.fstat(self.place), os.fstat(other.place))
        except Fault:
            return False

    def size(self, name: str) -> int:
        """The bytes of a file; 0 if it isn't there any more."""
        try:
            return os.stat(name, dir_fd=self.place, follow_symlinks=False).st_size
        except OSError:
            return 0

    def data(self, name: str) -> bytes:
        """The bytes of a file."""
        if name not in self.kept:
            blocks: list[bytes] = []
            self.read(name, blocks.append)
            self.kept[name] = b"".join(blocks)
        return self.kept[name]

    def sum(self, name: str) -> str:
        """The SHA-256 of a file, of any size that its kind may have."""
        return self.sums[name] if name in self.sums else self.read(name, lambda _: None)

    def read(self, name: str, take: Callable[[bytes], object]) -> str:
        """Reads a file once, hands on its blocks, and gives its sum."""
        digest = hashlib.sha256()

        def take_summed(block: bytes) -> None:
            digest.update(block)
            take(block)
        self.hand_on(name, take_summed)
        if self.sums.setdefault(name, digest.hexdigest()) != digest.hexdigest():
            raise fault(f"{name} has changed meanwhile")
        return digest.hexdigest()

    def hand_on(self, name: str, take: Callable[[bytes], object]) -> None:
        """Reads a file once, and hands on its blocks."""
        try:
            with parent_of(self.place, name) as (parent, file):
                read_once(parent, file, name, take, limit_of(name))
        except OSError as error:
            raise unreadable(name, error) from None


T = TypeVar("T")


def asked(path: str, question: Callable[[Folder], T], unknown: T) -> T:
    """What a question comes to of a folder; else what is taken for that where nobody can look."""
    with suppress(Fault), Folder(path) as folder:
        return question(folder)
    return unknown


def read_named(path: str, take: Callable[[bytes], object], most: int) -> None:
    """Reads a file that the command line names. A link is followed: it isn't a stranger's choice."""
    read_once(HOME, path, os.path.basename(path), take, most, follow=0)


def data_named(path: str, most: int = JSON) -> bytes:
    """The bytes of a file that the command line names."""
    blocks: list[bytes] = []
    read_named(path, blocks.append, most)
    return b"".join(blocks)


def piped_or_named(path: str, most: int) -> bytes:
    """The bytes of a file that the command line names, or of a pipe that was handed over: the shell makes one of
    `<(chronyd -p)`. Any other may have no end."""
    try:
        if os.path.dirname(path) != "/dev/fd" or not stat.S_ISFIFO(os.stat(path).st_mode):
            return data_named(path, most)
        with own(path) as opened:
            data = opened.read(most + 1)
    except OSError as error:
        raise unreadable(os.path.basename(path), error) from None
    if len(data) > most:
        raise too_big(os.path.basename(path), most)
    return data


# ---- private copies, which nobody else may write

Mapped = bytes | mmap.mmap


def own(path: str) -> BufferedReader:
    return open(path, "rb")


def size_of(path: str) -> int:
    return os.stat(path).st_size


def own_data(path: str) -> bytes:
    with own(path) as opened:
        return opened.read()


def sum_of(data: bytes) -> str:
    return hashlib.sha256(data).hexdigest()


def sum_of_file(path: str) -> str:
    """The SHA-256 of a file of one's own."""
    with own(path) as opened:
        return hashlib.file_digest(opened, "sha256").hexdigest()


def mapped(path: str) -> Mapped:
    """The bytes of a file of one's own, without a copy of them."""
    with own(path) as opened:
        return mmap.mmap(opened.fileno(), 0, access=mmap.ACCESS_READ) if os.fstat(opened.fileno()).st_size else b""
