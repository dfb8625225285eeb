"""The command line of ntpaudit-dossier."""
import argparse
import io
import os
import signal
import sys
import time
from collections.abc import Callable
from typing import TYPE_CHECKING, Any, NamedTuple, NoReturn

from . import VERSION
from .fault import DEVICE, MEMORY, MISSING, USAGE, Fault, Stopped, fault
from .folder.claim import MAX_BOUND, MAX_DRIFT, OSCILLATOR, UNKNOWN_READING
from .folder.jobs import SECONDS, answer
from .folder.program import Program, find_program
from .folder.registry import Known, state_of
from .folder.result import Written
from .text import plain
from .units import now

if TYPE_CHECKING:
    from .premise.allowance import Proposal
    from .premise.correction import Correction

INTERRUPTED = 130

ABOUT = """Puts many audits by ntpaudit together: folders with a claim and captures, and one page for a person to read.

  ntpaudit-dossier record --interface eth0 web-1                              record (Ctrl-C when it is enough)
  ntpaudit-dossier draft --bound-ns 50000000 --chrony /etc/chrony/chrony.conf web-1/*.pcap > web-1/claim.json
                                                                              a claim to start from: read it, fix it
  ntpaudit-dossier audit web-1                                                the audit
  ntpaudit-dossier page web-1 > dossier.html                                  the page
  ntpaudit-dossier sign --key ~/.ssh/id_ed25519 web-1                         who answers for it (if you like)
  ntpaudit-dossier verify web-1                                               a year later

docs/DOSSIER.md has more. Statuses are those of ntpaudit: 0 yes, 1 no yes, 2 an input is refused, 3 out of memory, 4 a
device, 5 the command line. Of several folders it is 1 if any clock isn't shown, else the worst."""
ON_FOLDERS = "audit page verify sign keep"
REQUIRED, REPEATED = {"required": True}, {"action": "append"}
JOBS = {"default": len(os.sched_getaffinity(0))}
OUTPUT = "write the page to FILE, whole or not at all; standard output if it is left out"


class Parser(argparse.ArgumentParser):
    commands: "dict[str, Parser]"

    def exit(self, status: int = 0, message: str | None = None) -> NoReturn:
        sys.stdout.flush()  # (help that can't be written is a fault)
        super().exit(status, message)

    def error(self, message: str) -> NoReturn:
        self.exit(USAGE, f"{self.prog}: {plain(message)}\n")

    def look_at(self, words: list[str]) -> None:
        """Sees that no name of a stranger's file is taken for an option, as a shell's `*` would have it: options stand
        before all else, and each but once."""
        seen, others = set[str](), 0
        left = iter(words)
        for word in left:
            if not word.startswith("-") or word == "-":
                others += 1
                continue
            if os.path.lexists(word):
                self.error(f"{word} is the name of a file here: write ./{word}, or -- before it")
            if word == "--":
                return
            name, is_joined, _ = word.partition("=")
            option = self._option_string_actions.get(name)
            if option is None:
                self.error(f"no option {name}: options are written out, and their values stand apart or behind a =")
            if others and self.operands:
                self.error(f"{name} has to stand before {self.operands}")
            if option.dest in seen and not isinstance(option, argparse._AppendAction):
                self.error(f"{name} stands there twice")
            seen.add(option.dest)
            if option.nargs is None and not is_joined:
                next(left, None)

    @property
    def operands(self) -> str:
        return next((str(action.metavar) for action in self._actions if not action.option_strings), "")


def in_range(least: int, most: int) -> Callable[[str], int]:
    """A reader of whole numbers in a range."""
    def number(word: str) -> int:
        if not word.isdecimal() or not least <= int(word) <= most:
            raise argparse.ArgumentTypeError(f"a number from {least} to {most}")
        return int(word)
    return number


class Option(NamedTuple):
    """An operand or an option of some commands: of a value what it is called, or the ends of a number, and none of a
    flag; the words of help; what else argparse takes; and among which it is the only one that may stand there."""

    commands: str
    names: str
    value: str | tuple[int, int]
    words: str
    how: dict[str, Any] = {}
    among: str = ""

    def add_to(self, command: argparse._ActionsContainer) -> None:
        how: dict[str, Any] = {"metavar": self.value} if self.value else {"action": "store_true"}
        if isinstance(self.value, tuple):
            how = {"metavar": "N", "type": in_range(*self.value)}
        command.add_argument(*self.names.split(), help=self.words, **how | self.how)


COMMANDS = {
    "draft": "print a claim to start from",
    "audit": "audit folders",
    "page": "print a page of audits that were made",
    "verify": "audit the inputs again, and compare all that stands in the folder",
    "sign": "sign audits with an ssh key",
    "keep": "keep audits for years: pack captures, and take away what was made of them",
    "year": "make a calendar of a year of machines, with statements to be signed",
    "events": "say when the events of a log were, by the audits of its machines",
    "day": "make the folders of days from what a recorder left",
    "now": "say of the last minutes of a recording whether the clock is right",
    "record": "record an interface by tcpdump, which is watched, with evidence of its stamps",
    "filter": "print a recorder's filter, which names the servers of a claim",
    "measure": "measure whether a packet's stamp comes after it left",
    "picture": "print the picture of a claim and a capture, as SVG",
    "help": "print help",
}
OPTIONS = [
    Option("draft", "captures", "CAPTURE", "captures of one client", {"nargs": "+"}),
    Option("draft", "--client", "ADDRESS", "the client; the one that asks most if it is left out"),
    Option("draft", "--day", "", "claim whole days (UTC)"),
    Option("draft", "--bound-ns", (0, MAX_BOUND),
           "the bound that is to be shown, in nanoseconds; the least one if it is left out"),
    Option("draft", "--drift-ppb", (0, MAX_DRIFT),
           "oscillator and client together, in parts of 10^9; else by the client's configuration; else the oscillator "
           "alone"),
    Option("draft", "--chrony", "FILE", "chronyd's configuration, which limits the drift", REPEATED, "client"),
    Option("draft", "--ntpd", "FILE", "ntpd's configuration", REPEATED, "client"),
    Option("draft", "--tracking", "FILE", "chronyd's tracking.log, or its messages", REPEATED),
    Option("draft", "--oscillator-ppb", (0, MAX_DRIFT),
           f"the oscillator alone, to which the configuration adds; {OSCILLATOR} if it is left out",
           {"default": OSCILLATOR}),
    Option("draft", "--evidence", "FILE", "write what was read from the client's files to FILE, for evidence.json"),
    Option("draft", "--reading-ns", (0, 10**9),
           "how long before its record's time a request may have left, or after it a reply arrived, in nanoseconds; 0 "
           f"if `record` recorded it, else {UNKNOWN_READING}, if it is left out", among="reading"),
    Option("draft", "--measured", "FILE", "what `measure -o` left, which has that number", among="reading"),
    Option(ON_FOLDERS, "folders", "FOLDER", "a folder with claim.json and captures, and what an audit left there",
           {"nargs": "+"}),
    Option("year", "folders", "DAYS", "folders of days, or of machines with such in them", {"nargs": "+"}),
    Option("year", "--year", (1971, 9999), "this year if it is left out"),
    Option("year", "--split", "DIR",
           "write a page of all into DIR (index.html), beside it a page for each machine, and what `sign` and `verify` "
           "take (year.json)", among="form"),
    Option("audit", "--step", (1, 86_400),
           "seconds of the envelope's pieces; else as few of 1, 4, 16, .. as make no more than 10,000"),
    Option("audit", "--days", "", "a verdict for each day (UTC) of the span"),
    Option("audit", "--jobs", (1, 4096), "folders side by side; as many as processors if it is left out", JOBS),
    Option("audit", "--again", "", "audit folders that are done, or signed, too; a signature is removed"),
    Option("page", "--json", "", "the table as JSON", among="form"),
    Option("page", "--csv", "", "the table as CSV", among="form"),
    Option("page", "--split", "DIR",
           "write a page of the table into DIR (index.html), and beside it a page for each folder", among="form"),
    Option("page", "--verify", "", "verify the folders first; else what is known here counts"),
    Option("page", "--title", "TEXT", "the page's heading", {"default": "Clock dossier"}),
    Option("page", "-o --output", "FILE", OUTPUT),
    Option("year", "-o --output", "FILE", OUTPUT, among="form"),
    Option("year", "--title", "TEXT", "the page's heading"),
    Option("year", "--jobs", (1, 4096), "machines side by side; as many as processors if it is left out", JOBS),
    Option("events", "log", "EVENTS", "a log: CSV whose first line names columns"),
    Option("events", "folders", "FOLDER", "folders of days, or of machines with such in them", {"nargs": "+"}),
    Option("events", "--machine", "COLUMN", "the column that has the machine, called as its folder; `machine` if it is "
           "left out", {"default": "machine"}),
    Option("events", "--time", "COLUMN", "the column that has what the machine's clock showed; `time` if it is left "
           "out", {"default": "time"}),
    Option("events", "--sort", "ORDER", "`given`, as the log has it; `time`, by what clocks showed; `earliest` or "
           "`latest`; given if it is left out",
           {"default": "given", "choices": ["given", "time", "earliest", "latest"]}),
    Option("events", "--split", "DIR", "write the log, the answer (answered.csv) and what `sign` and `verify` take "
           "(events.json) into DIR; the answer to standard output if it is left out"),
    Option("events", "--page", "LENGTH",
           "a page too (index.html), with a timeline of a `second`, a `minute` or a `day`",
           {"choices": ["second", "minute", "day"]}),
    Option("events", "--from", "TIME", "where the timeline begins; at the first event if it is left out",
           {"dest": "begin", "default": ""}),
    Option("events", "--title", "TEXT", "the page's heading", {"default": "Events"}),
    Option("events", "--jobs", (1, 4096), "folders side by side; as many as processors if it is left out", JOBS),
    Option("sign", "--key", "FILE", "a private key, or the public one of a key that an agent holds", REQUIRED),
    Option("page verify sign year events", "--signers", "FILE",
           "who may sign, as ssh-keygen's file of allowed signers has it: signatures are checked, and `year` and "
           "`events` count days that are signed by their machine"),
    Option("now", "--from", "DIR", "where recorders write", REQUIRED | {"dest": "source"}),
    Option("now", "--claim", "FILE", "the claim of any day: its span doesn't matter", REQUIRED),
    Option("now", "--minutes", (1, 1440), "how many; 10 if left out", {"default": 10}),
    Option("now", "--metrics", "FILE", "write what came of it to FILE too, for Prometheus"),
    Option("now", "--follow", (1, 3600),
           "again and again, each 10 seconds if no number is given; on a terminal with a band of the last hour",
           {"metavar": "SECONDS", "nargs": "?", "const": 10}),
    Option("now", "--no-color", "", "no colours on a terminal"),
    Option("audit page verify sign year now events", "--leap-seconds", "FILE",
           "the list of leap seconds; the system's if it is left out"),
    Option("verify", "--second", "", "have the second program, ntpaudit-recheck, judge each answer too"),
    Option("verify", "--answers", "",
           "hold each input and answer to its sum, and have the program judge answers, instead of making all again"),
    Option("verify", "--known", "",
           "leave it at that if a day was made, verified, or with --answers judged here before, and its files have the "
           "sizes that they had then"),
    Option("verify", "--sample", (1, 1_000_000),
           "make so many days again, which --seed draws; the others aren't looked at, or with --answers are judged"),
    Option("verify", "--seed", "TEXT", "what the days are drawn by, such as a throw of dice after all was signed"),
    Option("verify", "--as-signed", "", "status 0 if all is as it was signed, whatever the verdicts, and 1 if not"),
    Option("audit page", "--metrics", "FILE",
           "write what came of it to FILE too, for Prometheus, whole or not at all"),
    Option("keep", "--years", (1, 100), "take away folders whose span ended so many years ago; none if it is left out"),
    Option("keep", "--force", "", "take away as many folders as there are, whatever the clock did meanwhile"),
    Option(f"{ON_FOLDERS} year events", "--state", "DIR",
           "where it is recorded which audits were made or verified here; else below $XDG_STATE_HOME, or "
           "~/.local/state"),
    Option(f"{ON_FOLDERS} year events", "--limit", (1, 1_000_000),
           f"seconds for each folder, which is refused after them; {SECONDS} if it is left out", {"default": SECONDS}),
    Option("day", "--from", "DIR", "where the recorder's files are", REQUIRED | {"dest": "source"}),
    Option("day", "--to", "DIR", "where the days' folders are, with the claim of any day, and evidence",
           REQUIRED | {"dest": "target"}),
    Option("day", "--date", "DATE",
           "the day (UTC), such as 2026-11-22; each whole day before today if it is left out"),
    Option("day", "--clear", (1, 10_000),
           "then take away recordings but those of the newest N days that have any, if folders of days have the same; "
           "a tenth at most; none if it is left out"),
    Option("record", "folder", "FOLDER", "where the captures are left; it is made if it isn't there"),
    Option("record", "--interface", "NAME", "which interface to record", REQUIRED),
    Option("record", "--hourly", "", "begin a new file each hour"),
    Option("record", "--claim", "FILE", "record only a claim's client and servers; what the interface's own "
           "addresses ask if it is left out, or isn't there"),
    Option("filter", "claim", "CLAIM", "a JSON file; if it isn't there, all servers are recorded"),
    Option("measure", "--count", (10, 100_000), "how many packets; 1000 if left out", {"default": 1000}),
    Option("measure", "--load", "", "keep all processors busy meanwhile"),
    Option("measure", "-o --output", "FILE", "write it as JSON to FILE too, for evidence.json to name"),
    Option("picture", "claim", "CLAIM", "a JSON file"),
    Option("picture", "capture", "CAPTURE", "a capture"),
    Option("picture", "--step", (1, 86_400), "seconds of each piece; 64 if it is left out", {"default": 64}),
    Option("help", "topic", "COMMAND", "a command", {"nargs": "?", "choices": list(COMMANDS)}),
]


def parser() -> Parser:
    """The reader of the words of each command, with its help."""
    top = Parser(prog="ntpaudit-dossier", description=ABOUT, formatter_class=argparse.RawDescriptionHelpFormatter,
                 allow_abbrev=False)
    top.add_argument("--version", action="store_true", help="print the versions of dossier and program")
    commands = top.add_subparsers(dest="command", metavar="COMMAND", prog=top.prog)
    for name, words in COMMANDS.items():
        command = commands.add_parser(name, help=words)
        groups: dict[str, argparse._ActionsContainer] = {"": command}
        for option in OPTIONS:
            if name in option.commands.split():
                if option.among not in groups:
                    groups[option.among] = command.add_mutually_exclusive_group()
                option.add_to(groups[option.among])
    top.commands = dict(commands.choices)
    return top


def main(words: list[str]) -> int:
    """Runs a command, and gives its status."""
    if sys.stdout is None:
        return DEVICE
    sys.stdout.reconfigure(errors="backslashreplace")  # type: ignore
    signal.signal(signal.SIGTERM, stop)
    try:
        status = run(parsed(words))
        sys.stdout.flush()
        return status
    except Fault as error:
        say(error.line)
        return error.status
    except OSError as error:
        sys.stdout = io.StringIO()
        say(f"ntpaudit-dossier: the output can't be written ({error.strerror})")
        return DEVICE
    except MemoryError:
        say("ntpaudit-dossier: out of memory")
        return MEMORY
    except KeyboardInterrupt:
        say("ntpaudit-dossier: broken off; what is done isn't done again by the next call")
        return INTERRUPTED
    except Stopped as stopped:
        return 128 + stopped.number
    except Exception:  # (status 1, which Python would give, means no)
        sys.excepthook(*sys.exc_info())
        return MISSING


def stop(number: int, _: object) -> None:
    raise Stopped(number)


def parsed(words: list[str]) -> argparse.Namespace:
    """The command line, or an end with help or with a fault."""
    top = parser()
    if words and (command := top.commands.get(words[0])):
        command.look_at(words[1:])
    given = top.parse_args(words)
    if given.command == "help":
        top.parse_args([*filter(None, [given.topic]), "--help"])
    if not given.command and not given.version:
        top.error("no command: `ntpaudit-dossier help` has them")
    return given


def say(line: str) -> None:
    """Prints a line for a person, in which code isn't marked."""
    try:
        print(plain(line).replace("`", ""), file=sys.stderr, flush=True)
    except OSError:
        pass


def run(given: argparse.Namespace) -> int:
    """Does what the words call for, and gives the status."""
    if given.command in ("audit", "page", "verify", "sign", "keep"):
        return run_on_folders(given, [tidy(folder) for folder in given.folders])
    if given.command == "year":
        return run_year(given, [tidy(folder) for folder in given.folders])
    if given.command == "day":
        from .fleet.day import make_days
        return make_days(given.source, given.target, given.date, SECONDS, given.clear)
    if given.command in ("filter", "record"):
        if given.command == "record":
            from .capture.watch import RecordCall, record
            return record(RecordCall(given.interface, given.folder, given.hourly, given.claim))
        from .capture.recorder import ends_of, filter_of
        print(filter_of(*ends_of(given.claim, [])))
        return 0
    program = find_program()
    if given.command == "events":
        return run_events(given, [tidy(folder) for folder in given.folders], program)
    if given.command == "now":
        return run_now(given, program)
    if given.version:
        print(f"ntpaudit-dossier, form {VERSION} of audit.json\n{program.made.version}, SHA-256 {program.made.sha256}")
        return 0
    if given.command == "measure":
        from .premise.measuring import measure
        return measure(program, given.count, given.load, given.output)
    if given.command == "draft":
        return run_draft(given, program)
    from .page.figure import picture_of
    sys.stdout.write(answer(lambda *_: picture_of(program, given.claim, given.capture, given.step), str))
    return 0


def run_now(given: argparse.Namespace, program: Program) -> int:
    """`now`: the last minutes of what recorders are writing."""
    from .fleet.now import NowCall, follow, show_now
    from .premise.leap import read_list
    wanted = NowCall(given.source, given.claim, given.minutes, read_list(given.leap_seconds), program)
    if given.follow:
        return follow(wanted, given.metrics, given.follow, not given.no_color)
    return show_now(wanted, given.metrics)


def run_year(given: argparse.Namespace, folders: list[str]) -> int:
    """`year`: a calendar of machines, and statements to sign."""
    from .fleet.days import YearCall
    from .fleet.signature import Signers
    from .page.years import Pages, write_year
    from .premise.leap import read_list
    number = given.year or int(now()[:4])
    wanted = YearCall(number, Known(state_of(given.state), writes=False), read_list(given.leap_seconds),
                      int(time.time()), Signers(given.signers))
    pages = Pages(given.title or f"Clocks in {number}", given.output, given.split)
    return write_year(folders, wanted, pages, given.limit, given.jobs)


def run_events(given: argparse.Namespace, folders: list[str], program: Program) -> int:
    """`events`: when the events of a log were."""
    from .fleet.events import EventsCall
    from .fleet.signature import Signers
    from .folder.events import Asked
    from .page.timeline import page_of, write_events
    from .premise.leap import read_list
    asked = Asked(given.machine, given.time, given.sort, given.page, given.begin, given.title)
    call = EventsCall(asked, Known(state_of(given.state), writes=False), read_list(given.leap_seconds), program,
                      given.limit, given.jobs, page_of, Signers(given.signers))
    return write_events(given.log, folders, call, given.split)


def run_on_folders(given: argparse.Namespace, folders: list[str]) -> int:
    """The commands on folders: each by its module of fleet, or by page."""
    if given.command == "page" and given.split and given.output:
        raise fault("--split takes no --output: it writes into a folder", USAGE)
    known = Known(state_of(given.state), writes=given.command != "page" or given.verify)
    if given.command == "keep":
        from .fleet.keeping import keep_all
        return keep_all(folders, given.years, given.force, known, given.limit)
    from .premise.leap import read_list
    leaps = read_list(given.leap_seconds)
    if given.command == "sign":
        from .fleet.signature import Signers
        from .fleet.signing import SignCall, sign_all
        from .page.timeline import page_of
        return sign_all(folders, given.key, SignCall(known, leaps, Signers(given.signers), page_of), given.limit)
    if given.command == "page" and not given.verify:
        from .page.page import write_page
        return write_page(folders, given, known, leaps)
    program = find_program()
    if given.command == "audit":
        from .fleet.audit import AuditCall, audit_all
        from .folder.entry import Options
        wanted = AuditCall(Options(given.step, given.days), given.again, leaps, known, program)
        return audit_all(folders, wanted, given.jobs, given.limit, given.metrics)
    from .fleet.verify import How, Verifier, verify_all
    if given.command == "page":
        from .page.page import write_page
        return write_page(folders, given, known, leaps, Verifier(program, known, leaps))
    from .fleet.signature import Signers
    from .verdict.second import find_second
    from .page.timeline import page_of
    verifier = Verifier(program, known, leaps, find_second() if given.second else None, page_of)
    if (given.sample is None) != (given.seed is None):
        raise fault("--sample and --seed go together: who draws has to name what the days are drawn by", USAGE)
    if given.seed is not None and not given.seed.strip():
        raise fault("--seed is empty: anybody knew before all was signed which days that draws", USAGE)
    if given.as_signed and given.signers is None:
        raise fault("--as-signed takes --signers: a signature that nobody looks at says nothing", USAGE)
    how = How(given.answers, given.known, given.sample, given.seed or "", given.as_signed)
    return verify_all(folders, verifier, Signers(given.signers), given.limit, how)


def tidy(folder: str) -> str:
    """A folder's path without slashes at its end, or dots after these: it ends with the folder's name."""
    if not folder:
        raise fault("an operand is empty", USAGE)
    while folder != (shorter := folder.removesuffix("/.").rstrip("/")):
        folder = shorter
    return folder or "/"


def correction_of(given: argparse.Namespace) -> "Correction | None":
    """What the client's configuration and log say, if they are given."""
    from .folder.files import piped_or_named
    from .premise.client import MAX_OF_A_TEXT, configuration
    from .premise.correction import correction
    from .premise.tracking import read_tracking
    if (given.tracking and not given.chrony) or (given.evidence and not (given.chrony or given.ntpd)):
        raise fault("--tracking takes --chrony, and --evidence takes --chrony or --ntpd", USAGE)
    client = configuration(given.chrony, given.ntpd)
    if client is None:
        return None
    logs = {os.path.basename(path): piped_or_named(path, MAX_OF_A_TEXT) for path in given.tracking or ()}
    log = read_tracking(logs, client.step_s, now()) if logs else None
    return correction(given.oscillator_ppb, client, log, now())


def reading_of(given: argparse.Namespace) -> "Proposal":
    """How a draft comes to its `reading_ns`, by what is named or stands beside the captures."""
    from .capture.recorder import recorders_of
    from .premise.allowance import measured, named, proposed
    from .premise.measurement import read_measurement
    if given.measured:
        return measured(read_measurement(given.measured))
    return named(given.reading_ns) if given.reading_ns is not None else proposed(recorders_of(given.captures))


def run_draft(given: argparse.Namespace, program: Program) -> int:
    """`draft`: a claim of captures on the output, and what has to be looked at in it on standard error."""
    from .folder.placing import write_named
    from .premise.leap import read_list
    from .schema import json_text
    from .verdict.draft import DraftCall, claim_text, draft, of_leaps
    drift = correction_of(given)
    proposed, leaps = drift.drift_ppb if drift else given.oscillator_ppb, read_list(None)
    drift_ppb = proposed if given.drift_ppb is None else given.drift_ppb

    def work(*_: object) -> Written:
        wanted = DraftCall(given.client, given.day, drift_ppb, drift is None and given.drift_ppb is None,
                           reading_of(given), given.bound_ns)
        claim, remarks = draft(program, given.captures, wanted)
        if claim and drift:
            remarks += drift.sentences() + drift.cautions(claim.first, claim.last)
        if claim:
            remarks += of_leaps(claim, leaps)
        return Written(claim_text(claim) if claim else "", remarks)
    drafted = answer(work, Written)
    for remark in drafted.lines:
        say(remark)
    if not drafted.text:
        return 1
    if drift and given.evidence:
        write_named(given.evidence, json_text(drift))
    sys.stdout.write(drafted.text)
    return 0
