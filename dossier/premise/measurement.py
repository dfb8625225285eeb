"""What was measured of stamps, as `measure` prints it, leaves it as JSON, and a page shows it."""
import os
from typing import Literal

from ..folder.files import data_named
from ..records import dataclass
from ..schema import Count, Text, Time, read_typed
from ..text import count


@dataclass(frozen=True)
class Measurement:
    packets: Count
    busy: Count
    """How many processes kept processors busy."""
    late: Count
    """How many packets had a later stamp where they left than where they arrived."""
    greatest_ns: Count
    """By how much at the most."""
    median_ns: Count
    """How much earlier the stamps were where packets left, in the median; 0 if they were later."""
    reading_ns: Count
    """What may be claimed by it."""
    tool: Text
    machine: Text
    kernel: Text
    made: Time
    kind: Literal["late"]
    reason: Text = ""
    """What was seen, in words."""

    def lines(self) -> list[str]:
        """What `measure` prints."""
        return [f"packets {self.packets}{f', {self.under}' if self.busy else ''}", f"late {self.late}",
                f"greatest {self.greatest_ns}", f"median {self.median_ns}", f"reading_ns {self.reading_ns}",
                f"({self.why})"]

    @property
    def under(self) -> str:
        return f"beside {count(self.busy, 'busy process', 'busy processes')}"

    @property
    def why(self) -> str:
        seen = f"none of {self.packets:,} packets was stamped later where it left than where it arrived"
        if self.late:
            seen = (f"{self.late:,} of {self.packets:,} packets were stamped later where they left than where they "
                    f"arrived, by {self.greatest_ns:,} ns at the most")
        return f"{seen}. A link within one machine shows the kernel and tcpdump, and no network card"

    def sentence(self) -> str:
        """What a page says."""
        beside = f" {self.under}" if self.busy else ""
        return (f"On {self.machine}, at {self.made}{beside}, {self.why} ({self.tool}, Linux {self.kernel}).")


def read_measurement(path: str) -> Measurement:
    """What a file holds that the command line names."""
    measurement: Measurement = read_typed(os.path.basename(path), Measurement, data_named(path))
    return measurement
