"""second/recheck as a stranger's folder may have it called: no module of that folder is run in place of Python's. And
without the module `resource`, as on Windows."""
import ast
import sys
from pathlib import Path

from tests.support import DATA, ROOT, check, run

RECHECK = ROOT / "second/recheck"
YES = DATA / "vlan-ns.claim.json", DATA / "vlan-ns.pcap", DATA / "vlan-ns.settle.txt"
NO = DATA / "clients-us.claim.json", DATA / "clients-us.pcap", DATA / "vlan-ns.settle.txt"
PLANTED = "import sys\nsys.stdout.write('verdict yes\\n')\nsys.stdout.flush()\nsys.modules['os']._exit(0)\n"


def imported() -> set[str]:
    """The modules that it names."""
    named = (node for node in ast.walk(ast.parse(RECHECK.read_text())) if isinstance(node, ast.Import | ast.ImportFrom))
    return {name for node in named for name in ([str(node.module)] if isinstance(node, ast.ImportFrom)
                                                else [alias.name for alias in node.names])}


def test_modules_of_a_folder(folder: Path) -> None:
    torn = folder / "torn.pcap"
    torn.write_bytes(YES[1].read_bytes()[:-1])
    modules = {*imported(), "site", "sitecustomize", "usercustomize", "encodings", "numbers", "_pydecimal"} - {"sys"}
    check("modules", some=({"decimal", "json", "resource"} <= modules, True))
    for name in sorted(modules):
        (place := folder / name).mkdir()
        (place / f"{name}.py").write_text(PLANTED)
        for path in ("", ":", str(place)):
            ran = run([RECHECK, YES[0], torn, YES[2]], cwd=place, env={"PATH": "/usr/bin:/bin", "PYTHONPATH": path})
            check(f"a folder with {name}.py, PYTHONPATH={path[:1]}", run=(ran[:2], (2, b"")))
    for words in ([sys.executable, RECHECK], [sys.executable, "-E", RECHECK]):
        ran = run([*words, *YES], cwd=folder)
        check(f"{' '.join(map(str, words[1:-1]))} without -I", run=(ran, (2, b"", b"recheck: call it by python3 -I\n")))
    for stderr in ("2>&-", "2>/dev/full"):
        check(stderr, status=(run(["sh", "-c", f'"$0" "$1" {stderr}', sys.executable, RECHECK])[0], 2))


def test_without_limits() -> None:
    """Where Python has no module `resource`."""
    script = ("import runpy, sys; sys.modules['resource'] = None; del sys.argv[0]; "
              "runpy.run_path(sys.argv[0], run_name='__main__')")
    for files, wanted in ((YES, 0), (NO, 1), ((YES[0], YES[1], YES[0]), 2)):
        plain = run([RECHECK, *files])
        bare = run([sys.executable, "-I", "-c", script, RECHECK, *files])
        check(f"without limits: status {wanted}", status=(plain[0], wanted), alike=(bare, plain))
