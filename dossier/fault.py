"""Faults: what gave no answer, with the line that says why and the status of the call."""
REFUSED, MEMORY, DEVICE, USAGE, MISSING = 2, 3, 4, 5, 70
"""Statuses: an input is refused, out of memory, a device, the command line, something isn't installed."""

NOT_SHOWN = 1
"""The status of a clock that isn't shown, and of a difference."""

OWN = "ntpaudit-dossier: "


class Fault(Exception):
    """A call or a folder that gave no answer: its line, its status, and in the program's words what is wrong and what
    to do, if it said so."""

    def __init__(self, line: str, status: int):
        super().__init__(line)
        self.line, self.status, self.why, self.what = line, status, "", ""

    @property
    def words(self) -> str:
        """The line without the name of who says it."""
        return self.line.removeprefix(OWN)

    def of(self, what: str) -> "Fault":
        """The same of something that is named."""
        return fault(f"{what}: {self.words}", self.status)


def summed(one: int, other: int) -> int:
    """The status of two folders together: a clock that isn't shown is worse than any fault."""
    return NOT_SHOWN if NOT_SHOWN in (one, other) else max(one, other)


class Stopped(BaseException):
    """A signal came: nothing more is begun, and nothing half done is left."""

    def __init__(self, number: int):
        self.number = number


def fault(words: str, status: int = REFUSED) -> Fault:
    """A fault that the dossier finds by itself."""
    return Fault(f"{OWN}{words}", status)
