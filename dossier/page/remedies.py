"""What to do about a fault that the dossier finds by itself, in short. Of the program's own it says so itself."""
import re
import shlex

REMEDIES = [
    ("folder is a link", "The folder isn't there itself.", "Name the folder to which the link leads."),
    ("take more room", "What the folder holds, unpacked, is more than a folder may take.",
     "Cut the span, or the capture."),
    ("can't be called", "No other process may be begun, or the file is no program for this machine.",
     "See `ulimit -u` and `ulimit -n`, and what NTPAUDIT names."),
    ("can't be worked on", "What failed stands in parentheses.", "See who may write where, and make room."),
    ("(?<=: )memory$|out of memory$|ended by signal", "The program was refused memory, or was ended from outside.",
     "See what limits it: `ulimit -v`, a container's limit, or fewer `--jobs`."),
    ("can't be read", "A file can't be opened or read.",
     "`ls -l` and `cat FILE > /dev/null` say more. tcpdump may have left it to another user."),
    (r"no claim\.json", "The folder has no claim.",
     "`ntpaudit-dossier draft *.pcap > claim.json`, in the folder, writes one to start from."),
    ("no capture", "The folder has no file *.pcap, *.pcapng or *.cap.", "Put the recording there."),
    ("no such folder|folder can't be read", "The folder can't be read.",
     "See whether its name is right, and who may read it."),
    ("can't be joined", "One of several captures can't be joined with the others.",
     "`ntpaudit list` on each of them says what it is. Take out what is no capture, or of another interface."),
    ("zstd, which isn't installed", "The capture is packed.", "Install zstd, or unpack it elsewhere."),
    ("can't be unpacked(: its gzip is damaged)?", "The packed capture is damaged.",
     "Fetch the file again, in binary mode."),
    ("frames of several kinds", "The capture is of several interfaces, not all of them Ethernet.",
     "Record on one Ethernet interface by its name."),
    ("packets without a time|coarser than micro|no decimal parts", "The times of the capture are of no use.",
     "Record by tcpdump."),
    ("damaged", "The capture is damaged.", "Fetch the file again, in binary mode."),
    ("back and forth", "The capture isn't in order of time.",
     "`reordercap f.pcap ../g.pcap` sorts it: put that in its place."),
    ("can't be written", "The files of the audit can't be written.", "Make room, or see who may write there."),
    ("process of this folder", "The process that audited this folder was ended from outside.",
     "Call again: what is done isn't done again."),
    ("not audited", "There is no audit.json of this form in the folder.", "`ntpaudit-dossier audit FOLDER` first."),
    ("has changed meanwhile", "A file was another one when it was read again.",
     "See who writes there, and call again."),
    ("is a (FIFO|link|socket|device|folder)", "Something else stands in the place of a file.",
     "Put the file itself there. Links aren't followed, since a folder may be a stranger's."),
    ("is too big", "A file is larger than any of its kind.", "See whether it is what its name says."),
    ("isn't one that is taken", "A file of JSON says what it may not say, at the place in parentheses.",
     "`ntpaudit-dossier audit` puts another audit.json there. In evidence.json each name is that of a premise."),
    ("not done within", "It took longer than a folder may.", "`--limit SECONDS` allows for more."),
    ("private copies", "There is no room for copies of what is read.", "Name a folder with room by TMPDIR."),
    ("accept what settle gave", "The program contradicts itself, which no unaltered build of it does.",
     "Put the program in place anew, and audit again."),
    ("program is not", "The program ntpaudit isn't there.",
     "Call `./ntpaudit --version` once, or name it by NTPAUDIT."),
]
"""Patterns of fault lines, why there is such a line, and what to do."""


def remedy(line: str, folder: str = "FOLDER") -> tuple[str, str]:
    """Why there was this fault of a folder, and what to do: by the pattern that ends last, since a stranger's names
    stand before it, or in parentheses behind it."""
    words, best = re.sub(r" \([^(]*\)$", "", line), (0, "", "See docs/REFUSALS.md.")
    for pattern, why, what in REMEDIES:
        seen = re.search(rf"(?s)ntpaudit(-dossier)?: .*({pattern})", words)
        if seen and seen.end() > best[0]:
            best = seen.end(), why, what.replace("FOLDER", shlex.quote(folder))
    return best[1:]
