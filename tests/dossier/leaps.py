"""A list of leap seconds of the tests' own, so that no verdict hangs on how old this machine's is."""
import hashlib
from pathlib import Path

FROM_1900 = 2_208_988_800
LATER = 4_000_000_000


def leap_list(path: Path, good_until: int = LATER, *seconds: tuple[int, int]) -> Path:
    """A list of leap seconds, each as the Unix second after it and the difference to TAI, with its own sum."""
    rows = [f"{time + FROM_1900} {offset}" for time, offset in ((63072000, 10), *seconds)]
    head = [str(63072000 + FROM_1900), str(good_until + FROM_1900)]
    digest = hashlib.sha1("".join([*head, *(row.replace(" ", "") for row in rows)]).encode()).hexdigest()
    own = " ".join(digest[k : k + 8].lstrip("0") for k in range(0, 40, 8))
    path.write_text("\n".join(["#\tA list", f"#$\t{head[0]}", f"#@\t{head[1]}", "#",
                               *(f"{row}\t# a day" for row in rows), f"#h\t{own}", ""]))
    return path
