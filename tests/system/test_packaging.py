"""Tests what ./install and ./package put in place: the program, the man page, completion, the Debian package.

The man page that docs/manual makes and the completions are held to what `ntpaudit --help` says, and the man page's
examples are run.
"""
import gzip
import json
import os
import re
import shutil
import tempfile
from pathlib import Path

from tests.support import DATA, ROOT, check, is_here, is_shipped, program, run, skip, sum_of, sum_of_sources
from tests.dossier.leaps import leap_list

PROGRAM = program()
BARE = {name: value for name, value in os.environ.items() if name != "NTPAUDIT"}


def check_lint(page: Path) -> None:
    if is_here("mandoc", f"{page.name} by mandoc"):
        check(f"mandoc finds nothing in {page.name}", run=(run(["mandoc", "-T", "lint", page])[:2], (0, b"")))


def check_program(name: str, installed: Path) -> None:
    """That a program lists two packets."""
    check(f"{name} runs", run=(run([installed, "list", DATA / "two-packets.pcap"]),
                               (0, (DATA / "two-packets.list.txt").read_bytes(), b"")))


def manual() -> bytes:
    return run([ROOT / "docs/manual", PROGRAM])[1]


def said(*words: str) -> str:
    """What the program says of itself."""
    return run([PROGRAM, *words])[1].decode()


def options_of_commands() -> dict[str, set[str]]:
    """The names of the commands, and the long options of each, by its help."""
    section = said("--help").split("Commands:\n")[1].split("\n\n")[0]
    names = re.findall(r"^  (\w+)  ", section, flags=re.M)
    return {name: set(re.findall(r"--[a-z]+", said(name, "--help").split("Options:\n")[1].split("\n\n")[0]))
            for name in names if name != "help"}


def test_manual() -> None:
    named = options_of_commands()
    made = manual()
    text = made.decode()
    for sign, escaped in {"-": r"\-", "'": r"\(aq", "\\": r"\(rs"}.items():
        text = text.replace(escaped, sign)
    for name, options in named.items():
        check(f"the man page has {name}",
              seen=(f"\n.TP\n.B {name}\n" in text and f".SY ntpaudit\n.B {name}\n" in text, True))
        for option in options:
            check(f"the man page has {name}'s {option}", seen=(option in text, True))
    version = said("--version").split()[1]
    check("the man page's version", seen=(f'"ntpaudit {version}"' in text, True))
    check("the man page without Markdown", left=(re.findall(r"[`*]{2}|\]\(|^#|^\| |\|--|`\w", text, flags=re.M), []))
    with tempfile.TemporaryDirectory(prefix="ntpaudit-") as folder:
        page = Path(folder) / "ntpaudit.1"
        page.write_bytes(made)
        check_lint(page)
        if is_here("man", "the man page by man"):
            shown = run(["man", "--warnings", "-l", page], env={**os.environ, "LC_ALL": "C.UTF-8", "MANWIDTH": "80"})
            check("man finds nothing", run=(shown[2], b""),
                  wide=([row for row in shown[1].decode().splitlines() if len(row) > 80], []))
        (Path(folder) / "data").mkdir()
        for file in DATA.glob("clients-us*"):
            os.symlink(file, Path(folder) / "data" / file.name)
        for kept, name in {"clients-us.pcap": "recording.pcap", "clients-us.claim.json": "claim.json",
                           "two-packets.refutation.json": "refutation.json"}.items():
            shutil.copy(DATA / kept, Path(folder) / name)
        for letter, machine in (("a", "web-1"), ("b", "web-2")):
            shutil.copy(DATA / "events" / machine / "claim.json", Path(folder) / f"{letter}.json")
            shutil.copy(DATA / "events" / machine / "f.pcap", Path(folder) / f"{letter}.pcap")
        os.symlink(PROGRAM, Path(folder) / "ntpaudit")
        examples = re.findall(r"^(?:\$ )?(ntpaudit \w(?:.*\\\n)*.*)$", text, flags=re.M)
        check("the man page has examples", seen=(len(examples), lambda count: count > len(named)))
        for example in examples:
            status, _, err = run(["sh", "-c", f"PATH=.:$PATH; {example}"], cwd=folder)
            check(f"the man page's example: {example}", status=(status in (0, 1), True), err=(err, b""))


def completed(folder: str, shell: str, *words: str) -> set[str]:
    """What a shell offers for the last of these words, where the programs are in this folder."""
    given = " ".join(repr(word) for word in words)
    script = {
        "bash": f". {ROOT}/completion/ntpaudit.bash; COMP_WORDS=({given}); COMP_CWORD={len(words) - 1}; "
                f"_ntpaudit {words[0]}; printf '%s\\n' \"${{COMPREPLY[@]}}\"",
        "fish": f"source {ROOT}/completion/ntpaudit.fish; complete -C {' '.join(words)!r} | "
                "string replace -r '\t.*' ''",
        "zsh": "_arguments() { print -rl -- ${@%%\\[*} }; _describe() { print -rl -- ${${(P)2}%%:*} }; _files() { }; "
               "_call_program() { shift; \"$@\" }; "
               f"words=({given}); CURRENT={len(words)}; . {ROOT}/completion/_ntpaudit",
    }[shell]
    path = f"{folder}:{os.environ['PATH']}"
    text = run([shell, "-c", script], cwd=DATA, env={**os.environ, "NTPAUDIT": str(PROGRAM), "PATH": path})[1].decode()
    return {word for word in text.split() if re.fullmatch(r"--[a-z-]+|[a-z][a-z.-]*", word)}


def test_completion() -> None:
    """Each shell that is here offers what the programs' help has."""
    named = options_of_commands()
    with tempfile.TemporaryDirectory(prefix="ntpaudit-") as folder:
        os.symlink(Path(PROGRAM).absolute(), Path(folder) / "ntpaudit")
        os.symlink(ROOT / "ntpaudit-dossier", Path(folder) / "ntpaudit-dossier")
        for shell in [shell for shell in ("bash", "fish", "zsh") if is_here(shell, f"completion in {shell}")]:
            for script, commands in (("ntpaudit", named), ("ntpaudit-dossier", dossier_options())):
                offered = completed(folder, shell, script, "")
                check(f"{shell} offers {script}'s commands",
                      seen=(offered - {"--help", "--version"}, {*commands, "help"}))
                check(f"{shell} offers {script}'s own options",
                      seen=(completed(folder, shell, script, "--"), lambda words: {"--help", "--version"} <= words))
                for name, options in commands.items():
                    check(f"{shell} offers {script} {name}'s options",
                          seen=(completed(folder, shell, script, name, "--"), options))
        check("bash offers the commands of a beginning", seen=(completed(folder, "bash", "ntpaudit", "li"), {"list"}))
        check("bash offers files",
              seen=(completed(folder, "bash", "ntpaudit", "list", "two-packets.pc"), {"two-packets.pcap"}))
        check("bash offers no files for a number",
              seen=(completed(folder, "bash", "ntpaudit", "find", "--step", ""), set()))


def dossier_options() -> dict[str, set[str]]:
    """The names of the dossier's commands, and the long options of each, by its help."""
    section = run([ROOT / "ntpaudit-dossier", "help"])[1].decode().split("COMMAND\n")[-1]
    shown = {name: run([ROOT / "ntpaudit-dossier", "help", name])[1].decode()
             for name in re.findall(r"^    (\w+) +\S", section, flags=re.M) if name != "help"}
    option = re.compile(r"^  (?:-\w(?: \w+)?, )?(--[a-z-]+)", flags=re.M)
    return {name: set(option.findall(text)) for name, text in shown.items()}


def test_dossier() -> None:
    """The dossier's man page has what its help has."""
    text = (ROOT / "docs/ntpaudit-dossier.1").read_text("utf-8").replace("\\-", "-")
    named = dossier_options()
    check("the dossier's commands", seen=(len(named), lambda count: count > 6))
    for name, options in {**named, "help": set[str]()}.items():
        check(f"the dossier's man page has {name}",
              seen=(f"\n.TP\n.B {name}\n" in text and f".SY ntpaudit-dossier\n.B {name}\n" in text, True),
              missing=([option for option in options - {"--help"} if f"{option}\\fR" not in text], []))
    check_lint(ROOT / "docs/ntpaudit-dossier.1")
    for called in (ROOT / "second/recheck", ROOT / "dist/ntpaudit-judge"):
        other = called.name if "-" in called.name else f"ntpaudit-{called.name}"
        page = ROOT / f"docs/{other}.1"
        shown, usage = page.read_text("utf-8").replace("\\-", "-"), run([called, "--help"])[1].decode()
        check(f"{other}'s man page", version=(f'"ntpaudit {said("--version").split()[1]}"' in shown, True),
              missing=([word for word in re.findall(r"--[a-z]+|\b[A-Z]{5,}\b", usage) if word not in shown], []))
        check_lint(page)
    check("the dossier's man page's version", seen=(f'"ntpaudit {said("--version").split()[1]}"' in text, True))
    version = run([ROOT / "ntpaudit-dossier", "--version"], env={**os.environ, "NTPAUDIT": PROGRAM})
    check("the dossier's version", run=((version[0], version[2]), (0, b"")),
          program=(said("--version").splitlines()[0] in version[1].decode(), True))


def files_below(folder: Path) -> list[str]:
    return sorted(str(file.relative_to(folder)) for file in folder.rglob("*") if file.is_file())


def compiled(folder: Path) -> tuple[int, int]:
    """How many modules are compiled below a folder, and how many there are."""
    return len(list(folder.rglob("*.pyc"))), len(list(folder.rglob("*.py")))


def test_install(folder: Path) -> None:
    if not is_at_hand("what is installed"):
        return
    prefix = folder / "a prefix"
    status, out, _ = run([ROOT / "install", prefix])
    listed = sorted(line.removeprefix(f"{prefix}/") for line in out.decode().splitlines())
    check("what is installed is said", status=(status, 0),
          files=([file for file in files_below(prefix) if not file.endswith((".pyc", "/installed"))], listed))
    check("the installed dossier is compiled", modules=compiled(prefix / "share/ntpaudit/dossier"))
    broken = folder / "broken"
    shutil.copytree(prefix / "share/ntpaudit/dossier", broken)
    (broken / "broken.py").write_text("(")
    check("what can't be compiled is left as it is", status=(run([ROOT / "debian/compile", broken])[0], 0),
          kept=(list(broken.rglob("__pycache__")), []))
    names = ("bin/ntpaudit", "share/man/man1/ntpaudit.1", "share/bash-completion/completions/ntpaudit")
    for file in (*names, *(name.replace("/ntpaudit", "/ntpaudit-dossier") for name in names)):
        check(f"installed: {file}", seen=(file in listed, True))
    check_program("the installed program", prefix / "bin/ntpaudit")
    files = [DATA / f"vlan-ns.{kind}" for kind in ("claim.json", "pcap", "settle.txt")]
    for name in ("ntpaudit-recheck", "ntpaudit-judge"):
        check(f"the installed {name} runs", run=(run([prefix / "bin" / name, *files]), (0, b"verdict yes\n", b"")))
    dossier = prefix / "bin/ntpaudit-dossier"
    if dossier.exists():
        audits = [folder / name for name in ("one", "two")]
        for audit in audits:
            audit.mkdir()
            shutil.copy(DATA / "clients-us.pcap", audit)
            shutil.copy(DATA / "clients-us.claim.json", audit / "claim.json")
        bare = {**BARE, "XDG_STATE_HOME": str(folder / "state"),
                "NTPAUDIT_LEAP_SECONDS": str(leap_list(folder / "leap-seconds"))}
        status, out, _ = run([dossier, "audit", "--jobs", "2", *audits], cwd=folder, env=bare)
        check("the installed dossier audits folders side by side", status=(status, 0),
              said=(out, lambda seen: seen.count(b"yes") >= 2))
        status, out, _ = run([dossier, "verify", "--second", *audits], env=bare)
        check("and has three programs judge them", status=(status, 0),
              said=(out.count(b"(judged by three programs)"), 2))
    other, tools = folder / "other", folder / "tools"
    tools.mkdir()
    for tool in {tool.name: tool for place in ("/usr/bin", "/bin") for tool in Path(place).iterdir()}.values():
        if not tool.name.startswith("python"):
            os.symlink(tool, tools / tool.name)
    status, out, err = run([ROOT / "install", other], env={**os.environ, "PATH": str(tools)})
    check("without Python there is no man page", status=(status, 0), said=(err.count(b"so there is no man page\n"), 1),
          files=({file for file in listed if file not in files_below(other)}, {"share/man/man1/ntpaudit.1"}))
    (prefix / "bin/other").write_text("somebody else's\n")
    check("what is removed is said", status=(run([ROOT / "install", "--remove", prefix])[0], 0),
          left=(sorted(str(file.relative_to(prefix)) for file in prefix.rglob("*")), ["bin", "bin/other"]))
    system = folder / "usr"
    everywhere = run([ROOT / "install", system])[1].decode().splitlines()
    units = {"lib/systemd/system/ntpaudit-daily.timer", "lib/sysusers.d/ntpaudit.conf"}
    check("systemd's files are put where it reads them", usr=(units - set(files_below(system)), set()),
          other=([file for file in listed if file.startswith("lib/")], []), said=(len(everywhere) > len(listed), True))
    run([ROOT / "install", "--remove", system])
    check("nothing is left", left=(list(system.iterdir()), []))


def test_remove(folder: Path) -> None:
    """What another put in the place of a file, and what lies behind a link, isn't removed."""
    if not is_at_hand("what is removed"):
        return
    prefix, other = folder / "prefix", folder / "checkout"
    own = prefix / "share/ntpaudit/dossier"
    run([ROOT / "install", prefix])
    own.rename(other)
    own.symlink_to(other)
    (prefix / "bin/ntpaudit").write_text("another's\n")
    there = files_below(other)
    status, _, err = run([ROOT / "install", "--remove", prefix])
    lines = err.decode().splitlines()
    check("what another put there, or lies behind a link, is left",
          status=(status, 70), checkout=(files_below(other), there),
          said=({line.split(" is left: ")[1] for line in lines},
                {"it is another file than what was installed", f"{own} is a link"}),
          left=([file for file in files_below(prefix) if "dossier/" not in file],
                ["bin/ntpaudit", "share/ntpaudit/installed"]))
    check("no file behind a link is written", run=(run([ROOT / "install", prefix])[::2],
          (70, f"ntpaudit: {own} is a link, and what it leads to would be written\n".encode())))
    (listed := prefix / "share/ntpaudit/installed").unlink()
    check("what isn't known isn't removed", run=(run([ROOT / "install", "--remove", prefix])[0], 70))
    own.unlink()
    (prefix / "bin/ntpaudit").unlink()
    (prefix / "bin/ntpaudit").symlink_to(other)
    listed.symlink_to(folder / "another's")
    check("no list behind a link is written", run=(run([ROOT / "install", prefix])[0], 70),
          there=((folder / "another's").exists(), False))
    listed.unlink()
    os.mkfifo(listed)
    check("no list that is a FIFO is waited for", run=(run([ROOT / "install", prefix])[0], 70))
    listed.unlink()
    check("a link is replaced, and what it leads to is as it was", run=(run([ROOT / "install", prefix])[0], 0),
          program=((prefix / "bin/ntpaudit").is_symlink(), False), left=(files_below(other), there))


def made_twice(folder: Path, *words: str) -> Path | None:
    """The package, made twice: the same sources give the same. None where it can't be made."""
    name = " ".join(["package", *words])
    if not is_at_hand(name) or not is_here("git", name) or not is_here("rpmbuild" if words else "dpkg-deb", name):
        return None
    if not (ROOT / ".git").exists():
        skip(name, "the repository's history isn't here, and so not its time")
        return None
    packages = list[Path]()
    for place in (folder / "one", folder / "two"):
        place.mkdir()
        for package in packages:
            (place / package.name).symlink_to(folder / "another's")
        status, out, err = run([ROOT / "package", *words], cwd=place)
        check(name, run=((status, err), (0, b"")), through_a_link=((folder / "another's").exists(), False))
        packages.append(place / out.decode().strip())
    check(f"{name}: the same twice", same=(packages[0].read_bytes() == packages[1].read_bytes(), True))
    return packages[0]


def test_package(folder: Path) -> None:
    package = made_twice(folder)
    if not package:
        return
    if is_here("lintian", "the package by lintian"):
        check("lintian finds nothing", run=(run(["lintian", "--allow-root", package]), (0, b"", b"")))
    target = folder / "target"
    target.mkdir(0o755)
    target.chmod(0o755)
    unpacked = run(["dpkg-deb", "-x", package, target])[0]
    check("unpacking it leaves the folder as it was", status=(unpacked, 0),
          mode=(oct(target.stat().st_mode & 0o777), "0o755"),
          inside=(sorted({oct(file.stat().st_mode & 0o777) for file in target.rglob("*") if file.is_dir()}), ["0o755"]))
    hold_links(target / "usr/share/doc/ntpaudit")
    root = folder / "root"
    for kept in ("var/lib/dpkg/info", "var/lib/dpkg/updates", "etc"):
        (root / kept).mkdir(parents=True)
    (root / "var/lib/dpkg/status").touch()
    dpkg = ["dpkg", f"--root={root}", "--force-depends", "--force-not-root", "--force-script-chrootless",
            "--log=/dev/null"]
    if os.geteuid():
        skip("the package put in place by dpkg", "this isn't root")
        return
    made_of = json.loads((target / "usr/share/doc/ntpaudit/ntpaudit.spdx.json").read_text())
    sums = {part["name"]: part["checksums"][0]["checksumValue"] for part in made_of["packages"] if "checksums" in part}
    crates = set(re.findall(r"`(\w+)`", (ROOT / "README.md").read_text("utf-8").split("crates of the toolchain:")[1]
                            .split(".")[0]))
    check("what the package says that it is made of", form=(made_of["spdxVersion"], "SPDX-2.3"),
          program=(sums["ntpaudit"], sum_of((target / "usr/bin/ntpaudit").read_bytes())),
          sources=(sums["sources"], sum_of_sources(ROOT)),
          crates=({part["name"] for part in made_of["packages"]}, {"ntpaudit", "sources", "toolchain", *crates}))
    check("the package is installed", status=(run([*dpkg, "-i", package])[0], 0))
    users = root / "etc/passwd"
    if is_here("systemd-sysusers", "the package's user"):
        check("the package makes its user", user=(users.exists() and "ntpaudit" in users.read_text(), True))
    check_program("the package's program", root / "usr/bin/ntpaudit")
    page = gzip.decompress((root / "usr/share/man/man1/ntpaudit.1.gz").read_bytes())
    check("its man page", same=(page == manual(), True))
    before = files_below(root / "usr")
    said_by = run([root / "usr/bin/ntpaudit-dossier", "--version"], env=BARE)
    check("its dossier runs, is compiled, and keeps nothing more beside itself", status=(said_by[0], 0),
          kept=(files_below(root / "usr"), before), modules=compiled(root / "usr/share/ntpaudit/dossier"))
    check("the package is removed", status=(run([*dpkg, "-r", "ntpaudit"])[0], 0),
          left=([file for file in files_below(root) if not file.startswith(("var/lib/dpkg/", "etc/"))], []))


def test_rpm(folder: Path) -> None:
    """The package for Red Hat: clean by rpmlint, and put into an empty tree by rpm."""
    package = made_twice(folder, "--rpm")
    if not package:
        return
    if is_here("rpmlint", "the package by rpmlint"):
        linted = run(["rpmlint", "-c", ROOT / "redhat/rpmlint.toml", package])
        check("rpmlint finds nothing", status=(linted[0], 0), said=(b" 0 errors, 0 warnings" in linted[1], True))
    root = folder / "root"
    rpm = ["rpm", "--root", root, "--dbpath", "/db", "--nodeps", "--noscripts"]
    if os.geteuid():
        skip("the package put in place by rpm", "this isn't root")
        return
    check("the rpm is installed", status=(run([*rpm, "-i", package])[0], 0))
    run([ROOT / "install", folder / "usr"])
    wanted = {file for file in files_below(folder / "usr") if not file.endswith((".1", ".pyc", "/installed"))}
    check("its files are those of ./install and pages", missing=(wanted - set(files_below(root / "usr")), set()),
          files=(len(wanted), lambda count: count > 50),
          pages=((root / "usr/share/doc/ntpaudit/README.md").exists(), True))
    check_program("the rpm's program", root / "usr/bin/ntpaudit")
    check("its dossier runs", status=(run([root / "usr/bin/ntpaudit-dossier", "--version"], env=BARE)[0], 0))
    check("the rpm is removed", status=(run([*rpm, "-e", "ntpaudit"])[0], 0), left=(files_below(root / "usr"), []))


def hold_links(pages: Path) -> None:
    """A link of a packed page to one of the repository's root or of docs/ that is packed too leads to it, and so does
    one to a schema."""
    packed = {*files_below(pages), "audit.schema.json", "events.schema.json"}
    for page in sorted(pages.glob("*.md")):
        links = [link.split("/") for link in re.findall(r"\]\(([^)#:]+)", page.read_text("utf-8"))]
        lost = ["/".join(parts) for parts in links if parts[-1] in packed and {*parts[:-1]} <= {"..", "docs"}
                and not (pages / "/".join(parts)).exists()]
        check(f"the links of the packed {page.name}", lost=(lost, []))


def is_at_hand(name: str) -> bool:
    """Whether ./install and ./package find a program without building one: a build would take away the file that other
    scripts are calling. Where it isn't so, a case is skipped."""
    if not is_shipped():
        skip(name, "dist/MANIFEST names other sources")
    return is_shipped()


OWN = re.compile(r'"\$(made|top|doc)\b|/dev/null$')
"""Where these scripts write: into folders that they made themselves."""


def test_scripts() -> None:
    """What ./install and ./package write comes to its place by a move that follows no link, but for the one list that
    is looked at before."""
    for name in ("install", "package"):
        text = (ROOT / name).read_text("utf-8")
        moves = [move for move in re.findall(r"\bmv .*", text) if not OWN.search(move.split(" -- ")[1].split(" ")[-1])]
        written = set(re.findall(r'\d?>>?(?!&)\s*("[^"]+|/dev/null)', text))
        check(f"what {name} writes", moves=([move for move in moves if not move.startswith("mv -fT -- ")], []),
              written=({file for file in written if not OWN.match(file)} - {'"$2', '"$prefix/$list'}, set()))


def test_sources() -> None:
    check("dist/MANIFEST names the sources that are here, so nothing has to be built to install it",
          seen=(is_shipped(), True))
