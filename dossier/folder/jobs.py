"""How folders are worked on: each in a process of its own, which hands back a result of one kind, or why there is none.

Such a process has a limit of memory, of processor, of files and of time, a private folder (0700) for its copies, and
a group of processes, in which all that it calls is too. Whatever becomes of it (it crashes, reads without an end, takes
all memory) is that folder's result. None outlives the call that began it.
"""
import fcntl
import gc
import json
import os
import resource
import select
import shutil
import signal
import subprocess
import sys
import time
from collections.abc import Callable, Iterator, Sequence
from contextlib import contextmanager, suppress
from typing import IO, Any, Generic, NamedTuple, TypeVar

from ..fault import DEVICE, MEMORY, MISSING, REFUSED, Fault, fault
from ..schema import parsed, said, typed
from .entry import Refusal, refusal_by
from .files import BLOCK, own, own_data
from .placing import END, ROOM, make_private, nameless, write
from .progress import Progress

SECONDS = 600
MAX_ROOM, MAX_FILES, MAX_OF_A_RESULT = 1 << 34, 1 << 14, 1 << 27
"""Bytes of copies and files that are open in one folder's process, and bytes of its result."""
PART = 3, 4
"""Of the machine's memory, and of what is free for copies, all folders together take no more than this part."""
MOMENT = 0.5
"""Seconds after which a bar is drawn again, and after which a process looks whether the one that began it is there."""
GRACE = 2
"""Seconds that a process has for its end."""
PLACES = ("/tmp", "/var/tmp")
"""Where copies are made if TMPDIR names no place. The current folder is none of them: it may be a stranger's."""
FOLDERS = [place for place in os.environ.get("PATH", os.defpath).split(os.pathsep) if os.path.isabs(place)]
"""Where programs are looked for: an entry of PATH that isn't absolute is somebody else's choice."""
ENVIRONMENT = {name: os.environ[name] for name in ("TZ",) if name in os.environ} | {
    "PATH": os.pathsep.join(FOLDERS), "LC_ALL": "C"}
"""What programs get: what their local time needs, and nothing else."""
LIBRARIES = [place for place in os.environ.get("LD_LIBRARY_PATH", "").split(":") if os.path.isabs(place)]
if LIBRARIES:
    ENVIRONMENT["LD_LIBRARY_PATH"] = ":".join(LIBRARIES)
DEVNULL, PIPE = subprocess.DEVNULL, subprocess.PIPE
T = TypeVar("T")
Work = Callable[[str, int], T]
"""What is done with a folder, by its path and its number."""


class Bounds(NamedTuple):
    """What one folder may take: seconds, bytes of memory for each of its processes, and bytes of copies."""

    seconds: int
    memory: int
    room: int


def bounds_of(seconds: int, jobs: int, place: str = ".") -> Bounds:
    """The part of one of so many folders that are worked on at once, with copies in some place. Two of its processes
    run at a time."""
    part, of = PART
    memory = os.sysconf("SC_PAGE_SIZE") * os.sysconf("SC_PHYS_PAGES") * part // of
    with suppress(OSError, ValueError):
        memory = min(memory, int(own_data("/sys/fs/cgroup/memory.max")) * part // of)
    free = os.statvfs(place)
    room = min(MAX_ROOM, free.f_bavail * free.f_frsize * part // of)
    return Bounds(seconds, memory // jobs // 2, room // jobs)


# ---- programs


def find_tool(name: str, why: str) -> str:
    """The path of a program; a fault if it isn't there, with what it is for."""
    tool = shutil.which(name, path=ENVIRONMENT["PATH"]) if FOLDERS else None
    if not tool:
        raise fault(why, MISSING)
    return tool


def begun(words: Sequence[str], **how: object) -> subprocess.Popen[bytes]:
    """A program that runs beside this one."""
    try:
        return subprocess.Popen(words, **{"env": ENVIRONMENT, "stdin": subprocess.DEVNULL, **how})  # type: ignore
    except OSError as error:
        raise fault(f"{os.path.basename(words[0])} can't be called ({error.strerror})", DEVICE) from None


def widen(pipe: IO[bytes]) -> None:
    """Gives a pipe room for a block, if it may have that."""
    with suppress(OSError):
        fcntl.fcntl(pipe, fcntl.F_SETPIPE_SZ, BLOCK)


def stream(words: Sequence[str], take: Callable[[bytes], object], given: str = os.devnull,
           cwd: str = ".") -> tuple[int, bytes]:
    """Calls a program with a file on its standard input, and hands on what it prints, as it comes. Its status, that of
    a signal below zero, and what it printed on standard error."""
    with nameless() as error:
        with own(given) as opened, begun(words, stdin=opened, stdout=PIPE, stderr=error, cwd=cwd) as call:
            assert call.stdout
            widen(call.stdout)
            while block := os.read(call.stdout.fileno(), BLOCK):
                take(block)
        return call.returncode, os.pread(error, BLOCK, 0)


def run(words: Sequence[str], given: str = os.devnull, cwd: str = ".") -> tuple[int, bytes, bytes]:
    """Calls a program: its status, and what it printed on standard output and standard error."""
    blocks: list[bytes] = []
    status, error = stream(words, blocks.append, given, cwd)
    return status, b"".join(blocks), error


def told(words: Sequence[str]) -> tuple[int, str]:
    """The status of a program, and what it prints, which is little. Nothing has to be writable for that."""
    with begun(words, stdout=PIPE, stderr=DEVNULL) as call:
        text, _ = call.communicate()
    return call.returncode, text.decode("utf-8", "replace")


class Companion:
    """A program that runs beside this one for long. What it prints is taken as it comes."""
    def __init__(self, words: Sequence[str], environment: dict[str, str]):
        self.process = begun(words, stdout=PIPE, stderr=PIPE, env=environment)
        assert self.process.stdout and self.process.stderr
        self.output, self.error, self.poll = self.process.stdout, self.process.stderr, select.poll()
        for pipe in (self.output, self.error):
            self.poll.register(pipe, select.POLLIN)
        widen(self.output)  # (for what waits while this process is busy)

    def wait(self, seconds: float) -> set[int]:
        """Waits until it has printed something, or ended, so long at most."""
        return {file for file, _ in self.poll.poll(max(0.0, seconds) * 1000)}

    def came(self, ready: set[int]) -> tuple[bytes | None, bytes]:
        """What it printed on its output and beside it: of the output None if it is at its end."""
        output, error = b"", b""
        if self.error.fileno() in ready and not (error := os.read(self.error.fileno(), BLOCK)):
            self.poll.unregister(self.error)
        if self.output.fileno() in ready:
            return os.read(self.output.fileno(), BLOCK) or None, error
        return output, error

    def asked(self, number: int) -> None:
        self.process.send_signal(number)

    def end(self, seconds: float = 0) -> int:
        """Ends it, if it doesn't end by itself in some seconds, and gives its status."""
        with suppress(subprocess.TimeoutExpired):
            self.process.wait(seconds)
        self.process.kill()
        for pipe in (self.output, self.error):
            pipe.close()
        return self.process.wait()


# ---- folders


class Process(Generic[T]):
    """A process that works on one folder, in a private folder of its own, and hands back a value of a kind."""

    def __init__(self, path: str, number: int, work: Work[T], kind: type[T], bounds: Bounds, private: str):
        self.kind, self.private, self.bounds, self.data = kind, private, bounds, bytearray()
        self.end = time.monotonic() + bounds.seconds
        sys.stdout.flush()
        try:
            make_private(private)
            parent, (self.output, its_output) = os.getpid(), os.pipe()
            self.process = os.fork()
        except OSError as error:
            raise fault(f"no process can be begun for a folder ({error.strerror})", DEVICE) from None
        if not self.process:
            try:
                limit(parent, bounds, os.path.dirname(private))
                os.chdir(private)
                write(its_output, json.dumps(outcome(path, number, work)).encode())
            finally:  # (whatever comes: nothing here is for this process any more)
                os._exit(0)
        os.close(its_output)
        with suppress(OSError):  # (whichever of the two comes first)
            os.setpgid(self.process, self.process)

    def takes(self) -> bool:
        """Takes what came of its result. Whether there is more to come."""
        block = os.read(self.output, BLOCK)
        self.data += block
        return bool(block) and len(self.data) <= MAX_OF_A_RESULT

    def result(self) -> T | Refusal:
        """What it handed back, or why it handed nothing back. It is ended, and all that it called."""
        ended_by = self.ended()
        with suppress(ValueError):
            (word, value), = parsed(bytes(self.data)).items()
            result: T | Refusal = typed(Refusal if word == REFUSAL else self.kind, value)
            return result
        if time.monotonic() >= self.end or ended_by == signal.SIGXCPU:
            return refusal_by(fault(f"not done within {self.bounds.seconds} s (--limit)"))
        if len(self.data) > MAX_OF_A_RESULT:
            return refusal_by(fault("its result is too big"))
        return refusal_by(fault("the process of this folder was ended", MEMORY))

    def ended(self) -> int:
        """The signal that ended it, or 0. It is asked to end, which it does once its files are in their places; then it
        and all that it called are killed. If it waits for a device that doesn't answer, it is left to itself."""
        os.close(self.output)
        with suppress(ProcessLookupError):
            os.kill(self.process, END)
            self.end_of(os.WNOWAIT)
            os.killpg(self.process, signal.SIGKILL)
        end = self.end_of()
        if end:
            shutil.rmtree(self.private, ignore_errors=True)
        return end.si_status if end and end.si_code != os.CLD_EXITED else 0

    def end_of(self, more: int = 0) -> os.waitid_result | None:
        """Waits for its end, but not for long."""
        until = time.monotonic() + GRACE
        while not (end := os.waitid(os.P_PID, self.process, os.WEXITED | os.WNOHANG | more)):
            if time.monotonic() >= until:
                break
            time.sleep(0.001)
        return end


def limit(parent: int, bounds: Bounds, copies: str) -> None:
    """Gives this process its own group, and its limits. It ends when the one that began it has ended, and takes away
    the private copies, which that one can't any more. It has none of its outputs: what reads these would wait for one
    that can't be ended."""
    def look(*_: object) -> None:
        if os.getppid() != parent:
            shutil.rmtree(copies, ignore_errors=True)
            os.killpg(0, signal.SIGKILL)
    os.setpgid(0, 0)
    with own(os.devnull) as nothing:
        for output in filter(None, (sys.__stdout__, sys.__stderr__)):
            os.dup2(nothing.fileno(), output.fileno())
    signal.signal(signal.SIGINT, signal.SIG_IGN)
    signal.signal(signal.SIGTERM, signal.SIG_DFL)
    signal.signal(END, signal.SIG_DFL)
    signal.signal(signal.SIGALRM, look)
    signal.setitimer(signal.ITIMER_REAL, MOMENT, MOMENT)
    gc.disable()
    for kind, most in ((resource.RLIMIT_DATA, bounds.memory), (resource.RLIMIT_CPU, bounds.seconds),
                       (resource.RLIMIT_FSIZE, bounds.room), (resource.RLIMIT_NOFILE, MAX_FILES),
                       (resource.RLIMIT_CORE, 0)):
        hard = resource.getrlimit(kind)[1]
        most = most if hard == resource.RLIM_INFINITY else min(most, hard)
        resource.setrlimit(kind, (most, most))
    ROOM.left = bounds.room


REFUSAL, RESULT = "refusal", "result"
"""By one of these words JSON has what comes of a folder."""


def outcome(path: str, number: int, work: Work[T]) -> dict[str, Any]:
    """What comes of a folder, whatever goes wrong with it."""
    try:
        return {RESULT: said(work(path, number))}
    except Fault as error:
        refusal = error
    except MemoryError:
        refusal = fault("out of memory", MEMORY)
    except OSError as error:
        refusal = fault(f"it can't be worked on ({error.strerror})", DEVICE)
    except Exception as error:
        refusal = fault(f"it can't be worked on ({type(error).__name__}: {str(error)[:200]})", REFUSED)
    return {REFUSAL: said(refusal_by(refusal))}


def run_all(paths: list[str], work: Work[T], kind: type[T], seconds: int, jobs: int = 1,
            shown: Progress | None = None) -> Iterator[tuple[str, T | Refusal]]:
    """The result of each folder, of a kind, in order."""
    live, done, left = dict[int, tuple[int, Process[T]]](), dict[int, T | Refusal](), iter(enumerate(paths))
    with private_folder() as root:
        bounds = bounds_of(seconds, jobs, root)
        try:
            for number, path in enumerate(paths):
                while number not in done:
                    while len(live) < jobs and (following := next(left, None)):
                        at, its_path = following
                        begun_process = Process(its_path, at, work, kind, bounds, f"{root}/{at}")
                        live[begun_process.output] = at, begun_process
                    for at, process in ready(live, shown):
                        del live[process.output]
                        done[at] = process.result()
                        if shown:
                            shown.add(done[at])
                yield path, done.pop(number)
        finally:
            for _, process in live.values():
                process.ended()


def ready(live: dict[int, tuple[int, Process[T]]], shown: Progress | None) -> list[tuple[int, Process[T]]]:
    """Waits for a moment. The processes that are done, or whose time is over."""
    if shown:
        shown.show()
    first = min(process.end for _, process in live.values()) - time.monotonic()
    poll = select.poll()
    for output in live:
        poll.register(output, select.POLLIN)
    came = [output for output, _ in poll.poll(max(0.0, min(MOMENT, first)) * 1000)]
    over = {output for output in came if not live[output][1].takes()}
    return [each for output, each in live.items() if output in over or time.monotonic() >= each[1].end]


def run_one(path: str, work: Work[T], kind: type[T], seconds: int = SECONDS) -> T | Refusal:
    """The result of one folder."""
    (_, result), = run_all([path], work, kind, seconds)
    return result


def answer(work: Work[T], kind: type[T]) -> T:
    """What comes of work on files that are named, in a process of its own."""
    result = run_one("", work, kind)
    if isinstance(result, Refusal):
        raise Fault(result.line, result.status)
    return result


# ---- private folders


@contextmanager
def private_folder() -> Iterator[str]:
    """A new folder (0700), which is taken away at the end."""
    where = os.environ.get("TMPDIR", "") or next((place for place in PLACES if os.access(place, os.W_OK)), PLACES[0])
    try:
        place = f"{os.path.abspath(where)}/ntpaudit-{os.urandom(8).hex()}"
        make_private(place)
    except OSError as error:
        raise fault(f"no folder for private copies can be made ({error.strerror}): TMPDIR names another place",
                    DEVICE) from None
    try:
        yield place
    finally:
        shutil.rmtree(place, ignore_errors=True)
