"""Holds the documents to the program and to the repository: what their blocks print, figures, quotes, links, names, how
many words a page has and which is a fact's home; and the sources of the crates to what pages say of them.

In a block a line `..` stands for any lines. What a block writes is there for the later blocks of its document.
"""
import functools
import json
import os
import re
from collections.abc import Iterator
from pathlib import Path

from tests.support import DATA, ROOT, check, files_in, program, run
from tests.cases import transcript
from tests.dossier.leaps import leap_list
from tests.pages import made_up
from tests.second import claims, columns

DOCUMENTS = sorted([*ROOT.glob("*.md"), *ROOT.glob("docs/*.md"), *ROOT.glob("data/*.md"), *ROOT.glob("bench/*.md"),
                    *ROOT.glob("second/*.md"), *ROOT.glob("judge/*.md")])
CODE = re.compile(r"`([^`]+)`")
WORD = re.compile(r"[A-Za-z_]\w*")


# ---- what the blocks print
def blocks(text: str) -> Iterator[tuple[str, list[str]]]:
    """The commands of the blocks that begin with `$ `, each with the lines that it has to print."""
    for block in re.findall(r"(?:^    .*\n)+", text, flags=re.M):
        if block.startswith("    $ "):
            yield from transcript.commands(line[4:] for line in block.splitlines())


def is_shown(shown: list[str], seen: list[str]) -> bool:
    """Whether the lines are those that are shown, where `..` stands for any lines."""
    if not shown:
        return not seen
    if shown[0] == "..":
        return any(is_shown(shown[1:], seen[at:]) for at in range(len(seen) + 1))
    return bool(seen) and seen[0] == shown[0] and is_shown(shown[1:], seen[1:])


def hold_blocks(document: Path) -> None:
    typed = list(blocks(document.read_text("utf-8")))
    links: dict[str, Path | str] = {"ntpaudit": PROGRAM, "ntpaudit-dossier": ROOT / "ntpaudit-dossier",
                                    "second": ROOT / "second"}
    with transcript.folder(**links) as place:
        answers = transcript.typed([command for command, _ in typed], place, NTPAUDIT=PROGRAM,
                                   XDG_STATE_HOME=f"{place}/.state",
                                   NTPAUDIT_LEAP_SECONDS=str(leap_list(Path(place) / ".leap-seconds")))
        for (command, shown), (_, out, err) in zip(typed, answers):
            seen = [line for line in (out + err).decode().splitlines() if line]
            check(f"{document.name}: {command}", lines=(seen, lambda seen: is_shown(shown, seen)))


def test_allowances() -> None:
    """What the examples come to without a reading allowance, which stands beside what they come to with theirs."""
    for page, name, said in (("README.md", "clients-us",
                              r"\*\*(0\.\d+) ms\*\*[^.]*; (0\.\d+) ms with \[an allowance of 0\]"),
                             ("docs/GUIDE.md", "vlan-ns",
                              r"never more than (0\.\d+) ms off, and (0\.\d+) with a `reading_ns` of 0")):
        claim = json.loads((DATA / f"{name}.claim.json").read_text())
        found = []
        for reading in (claim["reading_ns"], 0):
            words = [PROGRAM, "envelope", "/dev/stdin", DATA / f"{name}.pcap", "--step", "8"]
            _, text, _ = run(words, json.dumps({**claim, "reading_ns": reading}).encode())
            found.append(f"{-(-int(text.split()[-3]) // 1000) / 1000:.3f}")
        check(f"{page}: the example without an allowance",
              said=(re.findall(said, (ROOT / page).read_text("utf-8")), [tuple(found)]))


def hold_quotes(document: Path) -> None:
    """A fenced block whose first line names a file of the crates stands in that file, line for line."""
    for path, quote in re.findall(r"^```\w+\n(?:--|//) (crates/\S+)\n(.*?)^```$", document.read_text("utf-8"),
                                  flags=re.M | re.S):
        file = ROOT / path
        check(f"{document.name}: quote of {path}: {quote.splitlines()[0]}",
              there=(file.exists() and quote in file.read_text("utf-8"), True))


def test_examples() -> None:
    """The root documentation of each library opens with an example, which stands in the file that it names."""
    for root in sorted(ROOT.glob("crates/*/src/lib.rt")):
        crate = root.relative_to(ROOT / "crates").parts[0]
        text = "\n".join(re.findall(r"^//! ?(.*)$", root.read_text("utf-8"), flags=re.M))
        shown = re.search(r"`([\w/]+\.rt)`(?:(?!\.rt`|```).)*\n\n```text\n(.*?)^```$", text, flags=re.M | re.S)
        if crate not in ("lemma_base", "vectors", "worked_examples", "worked_runs"):
            check(f"{crate}'s root documentation", shows_an_example=(bool(shown), True))
        if shown:
            path, quote = shown.groups()
            code = re.sub(r"^\s+", "", (ROOT / "crates" / path).read_text("utf-8"), flags=re.M)
            check(f"{crate}'s example of {path}", there=(re.sub(r"^\s+", "", quote, flags=re.M) in code, True))


def test_statement() -> None:
    """What the theorem from bytes rests on, as docs/statement prints and counts it."""
    status, printed, _ = run([ROOT / "docs/statement"])
    count = printed.decode().splitlines()[-1]
    text = (ROOT / "docs/THEOREM.md").read_text("utf-8")
    lines = int(count.split()[0]) if status == 0 else 0
    check(f"THEOREM.md: {count}", status=(status, 0), said=(f": {count}." in text, True),
          short=(0 < lines <= 400, True))
    for name, clause, most in (("run", "ensures runs { Runs words.now", 90),
                               ("status", "Ends (Some words) files 0", 100)):
        status, printed, _ = run([ROOT / "docs/statement", name])
        page = printed.decode()
        lines = int(page.splitlines()[-1].split()[0]) if status == 0 else 0
        check(f"docs/statement {name}", one_page=(0 < lines <= most, True), has=(clause in page, True))


def test_columns() -> None:
    """FORMATS.md has the lines of tests/second/columns.py: the number of fields, their words, and their names."""
    text = (ROOT / "docs/FORMATS.md").read_text("utf-8")
    words = [column.word for column in columns.SAMPLE if column.word]
    for heading, count in (("The listing", len(columns.LISTING)), ("The samples", len(columns.SAMPLE) + len(words))):
        section = text.split(f"## {heading}\n")[1].split("\n## ")[0]
        last = [int(row) for row in re.findall(r"^\| (?:\d+(?:, | to ))*(\d+) \|", section, flags=re.M)][-1]
        check(f"FORMATS.md: {heading}", fields=(last, count))
    check("FORMATS.md: the words in a line of samples", words=(re.findall(r"`(\w+)` and the", section), words))
    counts = re.search(r"^    (records \d+ requests .*)$", text, flags=re.M)
    check("FORMATS.md: the counts", names=(counts[1].split()[::2] if counts else [], columns.COUNTS))
    for what, line in (("piece", columns.PIECE), ("server's piece", columns.PIECE_OF_SERVER)):
        named = f"`{' '.join(column.name for column in line)}`"
        check(f"FORMATS.md: the line of a {what}", there=(named in text, True))
    check("FORMATS.md: a hull", there=(f"`hull {' '.join(column.name for column in columns.HULL)}`" in text, True))


# ---- how much they say, and where
# The most words of all pages together, and of a page, or of several, without the tables that bench/all makes.
MOST = 31_000
TABLES = re.compile(r"<!-- (?!end)[\w -]+ -->.*?<!-- end -->", re.S)
LIMITS = {
    "README.md": 910, "SECURITY.md": 150, "docs/STABILITY.md": 440, "docs/PROMISES.md": 1700,
    "docs/THEOREM.md": 3100, "docs/DEFINITIONS.md": 4410, "docs/DECISIONS.md": 1480, "docs/FORMATS.md": 4035,
    "docs/GUIDE.md": 2570, "docs/REFUSALS.md": 870, "docs/DOSSIER.md docs/AUDITING.md": 3340, "docs/FLEET.md": 1410,
    "docs/BOUND.md": 690, "docs/RATTLE.md": 990, "second/README.md": 240, "ARCHITECTURE.md CONTRIBUTING.md": 3050,
    "CHANGELOG.md": 600, "bench/README.md": 630, "data/README.md": 600,
}

# A fact, what a paragraph or a table has in it that states the fact (each of these), and the pages that are its home.
FACTS = [
    ("how large a capture may be", [r"4,000,000 records|262,144|1,048,640,000,02"], "FORMATS"),
    ("how many exchanges there may be", [r"1,000,000 exchanges|exchanges[^.]*\| 1,000,000"], "FORMATS"),
    ("how large claims, refutations and certificates may be", [r"65,536|134,217,728"], "FORMATS"),
    ("how many pieces a certificate may have", [r"100,000 (such |of the longest )?pieces"], "FORMATS"),
    ("the limits of a claim's numbers", [r"500,000,000|10\^15"], "FORMATS"),
    ("what the exit statuses are",
     [r"out of memory", r"refused", r"device failed|failed device", r"(?<!\d)[45](?!\d)"], "FORMATS"),
    ("which answers `settle` gives", [r"(?m)^\| (shown|refuted|nothing fits|no evidence) \|"], "FORMATS"),
    ("what `settle` prints", [r"conflict A I B J|open P Q hull|no evidence groups K"], "FORMATS"),
    ("what to do about the answers of `settle`",
     [r"\*\*Nothing fits\*\*: whichever|two camps|Mostly an address is misspelt"], "GUIDE"),
    ("what proves the answers of `settle`", [r"`IsFittedByNone`", r"No course fits|no cover"], "THEOREM DEFINITIONS"),
    ("how `--human` rounds",
     [r"rounded (down|up) to a nanosecond|[Ll]ow ends?[^.|]*rounded|rounded[^.|]*low end"], "FORMATS"),
    ("that `envelope` ignores the claim's bound",
     [r"bound( in the claim)? is ignored|ignores the( claim's)? bound"], "FORMATS"),
    ("how long a tick is", [r"4,?294,?967(\.296)?( ticks)? are a millisecond"], "FORMATS GUIDE"),
    ("the premises, in short", [r"68 years", r"leap second"], "README THEOREM"),
    ("how to come to know a premise", [r"oscillator's data sheet|bulletins of the IERS"], "THEOREM"),
    ("what a server's root distance leaves out", [r"jitter"], "README THEOREM"),
    ("what a yes rests on over files", [r"SHA-256", r"known beforehand"], "THEOREM"),
    ("how long proving and building take", [r"12 to 25 minutes"], "REFUSALS"),
    ("how long the gate takes", [r"200 minutes of one processor"], "DECISIONS"),
    ("how large the steps of a search are", [r"p log n"], "DECISIONS"),
]
# These tell again what others have: what changed and when, how large the inputs of a measurement are, and what a
# stranger's folder is held to.
TELL_AGAIN = ("CHANGELOG.md", "bench/README.md", "data/README.md", "second/README.md", "judge/README.md",
              "docs/DOSSIER.md", "docs/AUDITING.md")


def test_words() -> None:
    for pages, most in LIMITS.items():
        count = sum(len(TABLES.sub("", (ROOT / page).read_text("utf-8")).split()) for page in pages.split())
        check(f"{pages}: the number of its words", words=(count, lambda count: count <= most))
    every = sum(len(page.read_text("utf-8").split()) for page in DOCUMENTS)
    check("all pages: the number of their words", words=(every, lambda every: every <= MOST))


def test_homes() -> None:
    for document in DOCUMENTS:
        if str(document.relative_to(ROOT)) in TELL_AGAIN:
            continue
        paragraphs = document.read_text("utf-8").split("\n\n")
        for fact, patterns, homes in FACTS:
            stating = [text for text in paragraphs if all(re.search(pattern, text) for pattern in patterns)]
            if document.stem in homes.split():
                check(f"{document.name} states {fact}", there=(bool(stating), True))
            else:
                check(f"{document.name} leaves to {homes}: {fact}", stated=([text[:60] for text in stating], []))


def test_ticks() -> None:
    for page in ("README.md", "docs/GUIDE.md", "docs/REFUSALS.md"):
        prose = re.sub(r"^    .*$", "", (ROOT / page).read_text("utf-8"), flags=re.M)
        bare = [text[:60] for text in prose.split("\n\n")
                if re.search(r"\d ticks?\b", text) and not re.search(r"\d (ms|ns)\b|a millisecond", text)]
        check(f"{page}: ticks without milliseconds", paragraphs=(bare, []))


# ---- what the documents name
def hold_links(document: Path) -> None:
    text = document.read_text("utf-8")
    for link in re.findall(r"\]\(([^)#]+)(?:#[^)]*)?\)", text):
        if "://" not in link:
            check(f"{document.name}: link {link}", there=((document.parent / link).exists(), True))
    prose = re.sub(r"^```.*?^```$", "", text, flags=re.M | re.S)
    for path in {code for code in CODE.findall(prose)
                 if re.match(r"(crates|data|docs|tests|bench|dist|dossier|judge|second|\.ci)/", code)}:
        name = path.split()[0]
        if not re.search(r"[A-Z]{4}|[<>|$]", name.removesuffix(".md")):
            check(f"{document.name}: path {name}", there=(any(ROOT.glob(name.rstrip("/"))), True))


def anchors(document: Path) -> set[str]:
    """The anchors of a document's headings, as GitHub makes them."""
    prose = re.sub(r"^```.*?^```$", "", document.read_text("utf-8"), flags=re.M | re.S)
    return {re.sub(r"[^\w\- ]", "", heading.lower()).replace(" ", "-")
            for heading in re.findall(r"^#+ (.*)$", prose, flags=re.M)}


def hold_anchors(document: Path) -> None:
    for path, anchor in set(re.findall(r"\]\(([^)#:]*)#([^)]+)\)", document.read_text("utf-8"))):
        target = document.parent / path if path else document
        there = target.exists() and anchor in anchors(target)
        check(f"{document.name}: link {path}#{anchor}", there=(there, True))


@functools.cache
def commands() -> set[str]:
    return set(re.findall(r"^  (\w+)  ", run([PROGRAM, "--help"])[1].decode(), flags=re.M))


def hold_places(document: Path) -> None:
    """Each word in code font in a line that names paths of crates, or modules of the dossier, is in one of these crates
    or modules, or is a command's name."""
    for line in document.read_text("utf-8").splitlines():
        crates = sorted(set(re.findall(r"crates/(\w+)/", line)))
        modules = [path for path in re.findall(r"`(dossier/[\w/]+\.py)`", line) if (ROOT / path).exists()]
        code = "\n".join([*(code_of(crate, "src", "specs", "proofs") for crate in crates),
                          *((ROOT / path).read_text("utf-8") for path in modules)])
        for word in {word for word in CODE.findall(line) if (crates or modules) and WORD.fullmatch(word)}:
            if "NOUN" not in word and word not in commands():
                check(f"{document.name}: {word} in {' '.join(crates + modules)}",
                      there=(bool(re.search(rf"\b{word}\b", code)), True))


def test_crates() -> None:
    """ARCHITECTURE.md has a line for each crate, with its size to a fifth or two hundred lines, and crates.txt too."""
    there = {folder.name for folder in (ROOT / "crates").iterdir() if (folder / "src").is_dir()}
    section = (ROOT / "ARCHITECTURE.md").read_text("utf-8").split("## The crates\n")[1].split("\n## ")[0]
    listed = dict(re.findall(r"^- (\w+) \(([\d/]+)\): ", section, flags=re.M))
    check("ARCHITECTURE.md has a line for each crate, and for no other", seen=(sorted(listed), sorted(there)))
    for crate, said in listed.items():
        sizes = [code_of(crate, folder).count("\n") for folder in ("src", "specs", "proofs")]
        off = [size for size, hundreds in zip(sizes, map(int, said.split("/")), strict=True)
               if abs(size - 100 * hundreds) > max(200, size / 5)]
        check(f"ARCHITECTURE.md: the size of {crate}", off=(off, []))
    stands_on = dict(re.findall(r"^(\w+)[^:\n]*:(.*)$", (ROOT / "crates.txt").read_text("utf-8"), flags=re.M))
    check("crates.txt has a line for each crate", seen=(sorted(stands_on), sorted(there)))
    others = {name for names in stands_on.values() for name in names.split()} - there
    named = set(CODE.findall((ROOT / "README.md").read_text("utf-8")))
    check("README.md names the toolchain's crates", missing=(sorted(others - named), []))


SHOWN = {"crates/audit_text/specs/CheckReport.antt", "crates/audit_text/src/check_report.rt",
         "crates/fault_words/specs/Slip.antt", "crates/fault_words/src/slip.rt", "crates/vectors/src/lib.rt",
         "crates/worked_examples/src/engines/trial.rt", "crates/worked_runs/src/runs.rt"}
"""These show all numbers of a claim, or are claims, which may lack a new one."""


def test_claim_field() -> None:
    """CONTRIBUTING.md names as many files as it says for a new field of the claim, and each that has all numbers of
    one, or goes up to its last code, and isn't about what they mean."""
    section = (ROOT / "CONTRIBUTING.md").read_text("utf-8").split("## A new field of the claim\n")[1].split("\n## ")[0]
    first, *others = re.findall(r"^\d\. (.*)$", section, flags=re.M)
    listed = {word for line in others for word in re.findall(r"[\w./]+/[\w./]*\w", line)}
    for folder, names in re.findall(r"in (specs|src|proofs) ([^;.]*)", first):
        end = "rt" if folder == "src" else "antt"
        listed |= {f"crates/claim_file/{folder}/{name}.{end}" for name in CODE.findall(names)}
    patterns = ("crates/*/src/**/*.rt", "crates/*/specs/**/*.antt", "crates/*/proofs/**/*.antt", "judge/*.v",
                "second/recheck", "dossier/folder/*.py")
    last = len(claims.Claim.__annotations__)
    codes = re.compile(rf"\b1\.\.{last + 1}u8|\bcode (?:≤ )?{last}\b|MAX_BOUND_NS[^;]*MAX_READING_NS")
    there = {str(file.relative_to(ROOT)) for pattern in patterns for file in ROOT.glob(pattern)
             for text in [file.read_text("utf-8")] if all(name in text for name in claims.MOST) or codes.search(text)}
    check("a new field of the claim", missing=(sorted(there - listed - SHOWN), []),
          gone=([name for name in sorted(listed) if not (ROOT / name).exists()], []),
          count=(f"is 0 then: {len(listed)} files" in section, True))


def test_kit() -> None:
    kit = (ROOT / "dist/MANIFEST").read_text("utf-8").split("toolchain ")[1].strip()
    version = run([PROGRAM, "--version"])[1].decode()
    check("README.md names the kit of dist/MANIFEST",
          there=(f"    {kit}\n" in (ROOT / "README.md").read_text("utf-8"), True))
    check("the program's version names the logic of dist/MANIFEST",
          there=(f"({kit.partition(' ')[2]})" in version, True))


def test_decisions() -> None:
    text = (ROOT / "docs/DECISIONS.md").read_text("utf-8")
    for paragraph in [part for part in text.split("\n\n")[2:] if part and not part.startswith(("## ", "- "))]:
        check(f"DECISIONS.md: {paragraph[:40]}", lead=(paragraph.startswith("**"), True),
              length=(len(paragraph), lambda n: n <= 700))


def code_of(crate: str, *folders: str) -> str:
    files = [file for folder in folders for file in (ROOT / "crates").glob(f"{crate}/{folder}/**/*") if file.is_file()]
    return "\n".join(file.read_text("utf-8") for file in files)


def contracts(code: str, function: str) -> list[str]:
    """The text from each place where the function is declared to its body or its end."""
    heads = re.split(rf"\bfn {function}\b", code)[1:]
    return [re.split(r"\n\s*(?:pub(?:\(\w+\))? )?fn |\n}\n", head)[0] for head in heads]


def definitions() -> dict[str, str]:
    """The text of each definition in the specs, by its name."""
    found: dict[str, str] = {}
    for block in re.split(r"\n\s*\n", code_of("*", "specs")):
        for name in re.findall(r"^(?:\s*pub record |(?:abbrev )?(?:pub )?(?:abbrev )?(?:record )?)(\w+)\b", block,
                               flags=re.M):
            found[name] = found.get(name, "") + "\n" + block
    return found


def has_clause(contract: str, clause: str, defined: dict[str, str]) -> bool:
    """Whether a contract has a clause of this name, or cites a record that has a field of this name."""
    if re.search(rf"\bensures {clause}\b", contract):
        return True
    seen, cited = set[str](), set(WORD.findall(contract))
    for _ in range(3):
        texts = [defined[word] for word in cited - seen if word in defined]
        if any(re.search(rf"^\s+(?:pub )?{clause} :", text, flags=re.M) for text in texts):
            return True
        seen |= cited
        cited = {word for text in texts for word in WORD.findall(text)}
    return False


def test_promises() -> None:
    """Each line of where they stand: a promise, a crate, its functions, and clauses of these."""
    defined = definitions()
    section = (ROOT / "docs/PROMISES.md").read_text("utf-8").split("## Where they stand\n")[1].split("\n## ")[0]
    rows = re.findall(r"^- .* \((\w+)\): (.*): (.*)$", section, flags=re.M)
    check("PROMISES.md says where they stand", rows=(len(rows), lambda count: count > 20),
          all=(len(rows), section.count("\n- ")))
    for crate, functions, clauses in rows:
        code, functions = code_of(crate, "src"), CODE.findall(functions)
        for function in functions:
            *owner, name = function.split("::")
            check(f"PROMISES.md: {crate} has {function}", there=(bool(contracts(code, name)), True),
                  owner=(all(re.search(rf"\b{part}\b", code) for part in owner), True))
        for clause in CODE.findall(clauses):
            named = [text for function in functions for text in contracts(code, function.split("::")[-1])]
            is_there = any(has_clause(text, clause, defined) for text in named)
            check(f"PROMISES.md: {crate}'s {' '.join(functions)} has the clause {clause}",
                  there=(is_there, True))


def test_definitions() -> None:
    """Each word in code font of a section is in one of the crates that it names."""
    for section in re.split(r"^## ", (ROOT / "docs/DEFINITIONS.md").read_text("utf-8"), flags=re.M)[1:]:
        named = [crate for line in re.findall(r"^\*([\w, ]+)\*$", section, flags=re.M) for crate in line.split(", ")]
        own = "\n".join(code_of(crate, "specs", "src") for crate in named)
        heading = section.splitlines()[0]
        check(f"DEFINITIONS.md: {heading}", crates=(bool(named) and all((ROOT / "crates" / one).is_dir()
                                                                        for one in named), True))
        for word in set(CODE.findall(section)):
            if WORD.fullmatch(word):
                check(f"DEFINITIONS.md: {heading}: {word}", there=(bool(re.search(rf"\b{word}\b", own)), True))


def names_in_code(text: str, comment: str) -> set[str]:
    return set(re.findall(r"\w+", re.sub(rf"{comment}.*", "", text)))


def test_comments() -> None:
    """In the comments of the crates' sources a path leads to a file, and a word in code font is in the code."""
    sources = sorted((ROOT / "crates").glob("*/src/**/*.rt"))
    modules = [module for folder in ("specs", "proofs") for module in (ROOT / "crates").glob(f"*/{folder}/**/*.antt")]
    known = names_in_code((ROOT / "crates.txt").read_text("utf-8"), "#") | {file.stem for file in [*sources, *modules]}
    for files, comment in ((sources, "//"), (modules, "--")):
        known = known.union(*(names_in_code(file.read_text("utf-8"), comment) for file in files))
    for source in sources:
        crate, missing = source.relative_to(ROOT / "crates").parts[0], []
        for text in re.findall(r"^\s*//[/!]? (.*)", source.read_text("utf-8"), flags=re.M):
            for path in re.findall(r"\b[a-z_]+/[\w./]*\w", text):
                places = [folder / path for folder in (ROOT / "crates" / crate, ROOT / "crates", ROOT)]
                if not any(place.exists() or place.with_suffix(".antt").exists() for place in places):
                    missing.append(path)
                text = text.replace(path, "/")
            words = {word for code in CODE.findall(text) if re.fullmatch(r"[\w:]+", code)
                     for word in WORD.findall(code)}
            missing += sorted((words | set(re.findall(r"\b[a-z]\w*_\w+", text))) - known)
        check(f"{source.relative_to(ROOT)}: what its comments name", missing=(missing, []))


# ---- want of memory
def test_wants_of_memory() -> None:
    for source in sorted((ROOT / "crates").glob("*/src/**/*.rt")):
        name = str(source.relative_to(ROOT / "crates"))
        if not name.startswith(made_up.TESTS):
            seen = made_up.wants_made_up(source.read_text("utf-8"), made_up.EXCEPTIONS.get(name, ()))
            check(f"crates/{name}: a want of memory that is made up", seen=(seen, []))
    check("made_up.py: a source that makes up nothing", seen=(made_up.wants_made_up(made_up.LAWFUL), []))
    for body in made_up.MAKING_UP:
        seen = made_up.wants_made_up(made_up.LAWFUL.replace("..", body))
        check(f"made_up.py: {body} makes up a want of memory", seen=(seen, bool))
    unimported = made_up.LAWFUL.replace("AllocError, ", "")
    check("made_up.py: a pattern that takes any error", seen=(made_up.wants_made_up(unimported), bool))


# ---- wrong bodies
def is_applicable(crate: Path, edit: Path) -> bool:
    """Whether a wrong body replaces something, each text of which stands once in its file, after the pairs before."""
    texts, path, old, pairs = dict[str, str](), "", "", 0
    for line in edit.read_text("utf-8").splitlines():
        word, _, text = line.partition(":")
        text = text.removeprefix(" ")
        if word == "file":
            path = text
            if not (crate / path).is_file():
                return False
            texts.setdefault(path, (crate / path).read_text("utf-8"))
        elif word == "old":
            old = text
        elif word == "new":
            if not path or not old or texts[path].count(old) != 1 or old == text:
                return False
            texts[path] = texts[path].replace(old, text)
            old, pairs = "", pairs + 1
    return pairs > 0


def names_its_clause(crate: Path, edit: Path, defined: dict[str, str]) -> bool:
    """Whether the clause that the first line says is false is in the crate: `# false: the clause CLAUSE of FUNCTION`,
    or `# false: the clause of FUNCTION` if it has but one. One that is refused by a clause needs no such line."""
    first = edit.read_text("utf-8").splitlines()[0]
    if not first.startswith("#"):
        return True
    said = re.fullmatch(r"# false: the clause (?:(\w+) )?of (?:\w+::)?(\w+)", first)
    named = contracts(code_of(crate.name, "src"), said[2]) if said else []
    return any(has_clause(text, said[1], defined) if said and said[1] else "ensures {" in text for text in named)


def test_wrong_bodies() -> None:
    defined = definitions()
    crates = sorted(folder for folder in (ROOT / "crates").iterdir() if (folder / "src").is_dir())
    tried = [crate for crate in crates if any(crate.glob("must-fail/*.edit"))]
    counts = [sum(len(list(crate.glob(edits))) for crate in crates)
              for edits in ("must-fail*/*.edit", "must-fail/*.edit")]
    without = sum(not any(crate.glob("must-fail*/*.edit")) for crate in crates)
    said = re.search(
        r"There are (\d+) wrong bodies.*? tries (\d+) of them,.*? of (\d+) crates.*? none for (\d+) crates",
        (ROOT / "docs/PROMISES.md").read_text("utf-8"))
    check("PROMISES.md: the wrong bodies, those that the gate tries, crates with such, crates without any",
          said=(said and [int(number) for number in said.groups()], [*counts, len(tried), without]))
    for crate in crates:
        edits = sorted(crate.glob("must-fail*/*.edit"))
        check(f"{crate.name}: the number of its wrong bodies", few=(len(edits), lambda count: count <= 15))
        for edit in edits:
            check(f"{edit.relative_to(ROOT)}", applies=(is_applicable(crate, edit), True),
                  names=(names_its_clause(crate, edit, defined), True))


# ---- listings and pictures
def test_listings() -> None:
    for fields in files_in(DATA, "*.tshark.tsv"):
        capture = fields.with_name(fields.name.replace(".tshark.tsv", ".pcap"))
        made = run([DATA / "list_from_tshark", capture])
        check(f"data/{capture.name}: its listing by tshark",
              run=(made, (0, capture.with_suffix(".list.txt").read_bytes(), b"")))


def test_pictures() -> None:
    for kept in files_in(ROOT / "docs" / "pictures", "*.svg"):
        files = [DATA / f"{kept.stem}.claim.json", DATA / f"{kept.stem.split('.')[0]}.pcap"]
        drawn = run([ROOT / "ntpaudit-dossier", "picture", "--step", "1", *files],
                    env={**os.environ, "NTPAUDIT": PROGRAM})
        check(f"docs/pictures/{kept.name}", drawn=(drawn, (0, kept.read_bytes(), b"")))


PROGRAM = program()


def test_documents() -> None:
    for document in DOCUMENTS:
        hold_blocks(document)
        hold_quotes(document)
        hold_links(document)
        hold_anchors(document)


def test_places() -> None:
    hold_places(ROOT / "ARCHITECTURE.md")
    hold_places(ROOT / "CONTRIBUTING.md")
