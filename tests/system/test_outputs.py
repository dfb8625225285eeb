"""What `-o FILE` leaves: at status 0 and 1 what a program reads stands in
FILE, whole; at any other FILE is as it was, or isn't there. No draft stays beside it, unless a run is killed.
"""
import os
import shlex
import shutil
import signal
import time
from collections.abc import Iterator
from concurrent.futures import ThreadPoolExecutor
from pathlib import Path
from typing import Any

from tests.support import Ran, check, nobody, program, run
from tests.second.commands import CAPTURE, CLAIM, Command, every_command, fault_alone

PROGRAM = program()
BYTES = CAPTURE.read_bytes()
OLD = b"what stood there\n"
NO_OUTPUT = 4, b"", b"ntpaudit: device output after 0\n"


def writers() -> list[Command]:
    """The commands that take `-o`."""
    return [command for command in every_command() if command.name in ("settle", "find")]


def for_a_program(command: Command) -> Command:
    """The same command without `--human`."""
    options = tuple(option for option in command.options if option != "--human")
    [plain] = [other for other in writers() if (other.name, other.options) == (command.name, options)]
    return plain


def text_of(command: Command, records: int) -> Ran:
    status, lines = command.answer(records)
    return status, "".join(f"{line}\n" for line in lines).encode(), b""


def told(command: Command, records: int) -> Ran:
    """What a call with `-o` says: nothing to a program, and all to a person."""
    status, text, _ = text_of(command, records)
    return status, text if "--human" in command.options else b"", b""


def call(command: Command, file: object, claim: object = CLAIM, capture: object = CAPTURE, streams: str = "",
         before: str = "", **how: Any) -> Ran:
    """A call with `-o` by a shell, without the words for a person on standard error."""
    words = [command.name, claim, capture, *command.words, "-o", file]
    ran = run(["sh", "-c", f'{before} "$0" "$@" {streams}', how.pop("program", PROGRAM), *words], **how)
    return fault_alone(ran, command.options)


def files_of(folder: Path) -> dict[str, bytes]:
    """What stands in a folder, links by where they lead."""
    return {entry.name: os.readlink(entry).encode() if entry.is_symlink() else entry.read_bytes()
            for entry in folder.iterdir() if entry.is_symlink() or entry.is_file()}


BEGINNINGS: dict[str, dict[str, bytes]] = {"a new file": {}, "a file": {"f": OLD}}
"""What stands in the folder before a call: nothing, or a file."""


def fill(folder: Path, files: dict[str, bytes]) -> None:
    shutil.rmtree(folder, ignore_errors=True)
    folder.mkdir()
    for name, text in files.items():
        (folder / name).write_bytes(text)


def test_answers(folder: Path) -> None:
    """Each answer of a program goes to the file, with status 1 too, and nothing else stays in its folder."""
    short, inside = folder / "short.pcap", folder / "in"
    short.write_bytes(BYTES[:130])
    for command in writers():
        for records, capture in ((2, CAPTURE), (1, short)):
            text = text_of(for_a_program(command), records)[1]
            for what, files in BEGINNINGS.items():
                fill(inside, files)
                ran = call(command, inside / "f", capture=capture)
                check(f"{command.title} of {records} packets to {what}", run=(ran, told(command, records)),
                      files=(files_of(inside), {"f": text}))
        fill(inside, {})
        ran = run([PROGRAM, command.name, f"--output={inside / 'f'}", *command.words, CLAIM, CAPTURE])
        check(f"{command.title} --output before its operands",
              run=(fault_alone(ran, command.options), told(command, 2)),
              files=(files_of(inside), {"f": text_of(for_a_program(command), 2)[1]}))
        fill(inside, {})
        slow = f"{{ head -c 100 {shlex.quote(str(CAPTURE))}; sleep 0.02; tail -c +101 {shlex.quote(str(CAPTURE))}; }} |"
        ran = call(command, "f", capture="-", before=slow, cwd=inside)
        check(f"{command.title} of a pipe", run=(ran, told(command, 2)),
              files=(files_of(inside), {"f": text_of(for_a_program(command), 2)[1]}))


def obstacles(folder: Path) -> Iterator[tuple[str, object]]:
    """What `-o` may name that can't be written, in this folder."""
    (folder / "folder").mkdir()
    os.mkfifo(folder / "pipe")
    (folder / "kept").write_bytes(OLD)
    for name, place in (("link", "kept"), ("loose", "none"), ("loop", "loop"), ("null", "/dev/null"),
                        ("drafted.part", "kept"), ("hidden.part", "none")):
        (folder / name).symlink_to(place)
    (folder / "made.part").write_bytes(OLD)
    yield "a folder", folder / "folder"
    yield "a folder by its slash", f"{folder}/"
    yield "a folder by a dot", "."
    yield "a file in a folder that isn't there", folder / "none/f"
    yield "a folder that isn't there", f"{folder}/none/"
    yield "a file below a file", folder / "kept/f"
    yield "a file by a slash", f"{folder / 'kept'}/"
    yield "a pipe", folder / "pipe"
    yield "a link", folder / "link"
    yield "a link that leads nowhere", folder / "loose"
    yield "a link that leads to itself", folder / "loop"
    yield "a link to a device", folder / "null"
    yield "a device", "/dev/null"
    yield "a full device", "/dev/full"
    yield "standard output by its name", "/dev/stdout"
    yield "a file whose draft is there", folder / "made"
    yield "a file whose draft is a link", folder / "drafted"
    yield "a file whose draft is a link that leads nowhere", folder / "hidden"
    yield "too long a name for a draft", folder / ("n" * 252)
    yield "too long a name", folder / ("n" * 256)


def test_obstacles(folder: Path) -> None:
    """What can't be written is told before anything is read, and nothing is changed."""
    named = list(obstacles(folder))
    before = files_of(folder)
    for command in writers():
        for what, file in named:
            check(f"{command.title} to {what}", run=(call(command, file), NO_OUTPUT), files=(files_of(folder), before))
        check(f"{command.title} of a claim that isn't one to a folder",
              run=(call(command, folder, claim="/dev/null"), NO_OUTPUT))


def test_inputs(folder: Path) -> None:
    """The claim, the capture and SUMS are evidence: no path of theirs is written. (That nothing is written of inputs
    with other sums is proved.)"""
    shutil.copy(CLAIM, folder / "claim")
    shutil.copy(CAPTURE, folder / "f.pcap")
    (folder / "SUMS").write_bytes(run(["sha256sum", "claim", "f.pcap"], cwd=folder)[1])
    os.link(folder / "f.pcap", folder / "other")
    (folder / "sub").mkdir()
    before = files_of(folder)
    for command in writers():
        for file in ("claim", "./claim", folder / "claim", "sub/../f.pcap", "f.pcap", "other"):
            check(f"{command.title} to an input as {file}",
                  run=(call(command, file, "claim", "f.pcap", cwd=folder), NO_OUTPUT), files=(files_of(folder), before))
        for file in ("SUMS", "sub/../SUMS") if command.name == "settle" else ():
            ran = call(command, file, "claim", "f.pcap", streams="--sums SUMS", cwd=folder)
            check(f"{command.title} to its sums as {file}", run=(ran, NO_OUTPUT), files=(files_of(folder), before))
        for which, claim, capture in (("claim", "-", "f.pcap"), ("f.pcap", "claim", "-"),
                                      ("f.pcap", "claim", "/dev/stdin")):
            ran = call(command, which, claim, capture, streams=f"< {which}", cwd=folder)
            check(f"{command.title} to its standard input, {which}", run=(ran, NO_OUTPUT),
                  files=(files_of(folder), before))
        (folder / "way").unlink(missing_ok=True)
        (folder / "way").symlink_to("f.pcap")
        ran = call(command, "f.pcap", "claim", "way", cwd=folder)
        (folder / "way").unlink()
        check(f"{command.title} to an input that is read by a link", run=(ran, NO_OUTPUT),
              files=(files_of(folder), before))


def test_output_fails(folder: Path) -> None:
    """If a person can't be told, the file is as it was, though its draft was whole."""
    for command in writers():
        for streams in ("> /dev/full", ">&-", "<&- >&- 2>&-"):
            for what, files in BEGINNINGS.items():
                fill(folder / "in", files)
                is_told = "--human" in command.options
                text = text_of(for_a_program(command), 2)[1]
                no_output = 4, b"", b"" if "2>" in streams else NO_OUTPUT[2]
                check(f"{command.title} {streams} to {what}",
                      run=(call(command, folder / "in/f", streams=streams), no_output if is_told else told(command, 2)),
                      files=(files_of(folder / "in"), files if is_told else {"f": text}))
        fill(folder / "in", {})
        check(f"{command.title} with its error output closed",
              run=(call(command, folder / "in/f", streams="2>&-"), told(command, 2)),
              files=(files_of(folder / "in"), {"f": text_of(for_a_program(command), 2)[1]}))


def long_claim(folder: Path) -> Path:
    """A claim whose certificate has 100,000 pieces, some 4 MB."""
    claim = folder / "claim.json"
    claim.write_text(CLAIM.read_text().replace('"to":"2001-09-09T01:46:40Z"', '"to":"2001-09-10T05:33:20Z"'))
    return claim


def test_full_disk(folder: Path) -> None:
    """A draft that can't be written whole: a limit of the file's size, met by an error or by a signal that kills."""
    claim, inside = long_claim(folder), folder / "in"
    for human in (list[str](), ["--human"]):
        words = ["find", claim, CAPTURE, "--step", "1", "-o", inside / "f", *human]
        for what, files in BEGINNINGS.items():
            name = " ".join([what, *human])
            fill(inside, files)
            ran = run(["sh", "-c", 'trap "" XFSZ; ulimit -f 8; exec "$0" "$@"', PROGRAM, *words])
            status, output, error = fault_alone(ran, human)
            lines = [b"ntpaudit: device output after %d\n" % (8 * block) for block in (512, 1024)]
            check(f"a full disk: {name}", run=((status, output), (4, b"")), error=(error, lambda said: said in lines),
                  files=(files_of(inside), files))
            killed, output, _ = run(["sh", "-c", 'ulimit -f 8; "$0" "$@"; exit $?', PROGRAM, *words])
            left = files_of(inside)
            check(f"killed: {name}", run=((killed, output), (128 + signal.SIGXFSZ, b"")),
                  draft=(len(left.pop("f.part", b"")), lambda size: 0 < size <= 8192), files=(left, files))
            again = fault_alone(run([PROGRAM, *words]), human)
            check(f"again, beside a killed run's draft: {name}", run=(again, NO_OUTPUT))
            (inside / "f.part").unlink()
            status, output, _ = run([PROGRAM, *words])
            check(f"and without it: {name}", run=((status, bool(output)), (0, bool(human))),
                  files=(files_of(inside), lambda files: len(files.pop("f")) > 1 << 20 and not files))


def test_side_by_side(folder: Path) -> None:
    """Two calls for one file: the second is refused while the first waits for its capture, which goes on."""
    pipe = folder / "pipe"
    os.mkfifo(pipe)
    for command in writers():
        (folder / "f").unlink(missing_ok=True)
        with ThreadPoolExecutor() as pool:
            first = pool.submit(call, command, folder / "f", capture=pipe)
            with open(pipe, "wb") as given:
                while not (folder / "f.part").exists() and not first.done():
                    time.sleep(0.001)
                second = call(command, folder / "f")
                given.write(BYTES)
            check(f"{command.title} beside another for the same file", second=(second, NO_OUTPUT),
                  first=(first.result(), told(command, 2)),
                  file=((folder / "f").read_bytes(), text_of(for_a_program(command), 2)[1]))


def test_rights(folder: Path) -> None:
    """A folder that may not be written to."""
    how = nobody("a folder that may not be written to")
    if how is None:
        return
    public, claim, capture, shut = (folder / name for name in ("program", "claim", "f.pcap", "shut"))
    for file, copy, mode in ((Path(PROGRAM), public, 0o755), (CLAIM, claim, 0o644), (CAPTURE, capture, 0o644)):
        shutil.copy(file, copy)
        copy.chmod(mode)
    folder.chmod(0o755)
    for command in writers():
        fill(shut, {"f": OLD})
        shut.chmod(0o555)
        ran = call(command, shut / "f", claim, capture, program=public, cwd="/", **how)
        check(f"{command.title} to a folder that may not be written to", run=(ran, NO_OUTPUT),
              files=(files_of(shut), {"f": OLD}))
        shut.chmod(0o755)
