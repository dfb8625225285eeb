"""Holds what docs/STABILITY.md promises: folders that older versions audited (data/older) are read, verified and shown,
and their texts are today's, byte for byte. The schemas of audit.json and events.json are what the dossier reads.
"""
import json
import os
import re
import shutil
import subprocess
from collections.abc import Callable, Iterator
from contextlib import suppress
from functools import partial
from pathlib import Path
from types import NoneType
from typing import Any, get_args

from tests.support import DATA, ROOT, check, files_in, is_here, run, sum_of
from tests.dossier.audits import ENVIRONMENT, PROGRAM, check_page, dossier, record_of
from tests.dossier.leaps import leap_list

OLDER, VERSION = DATA / "older", 10
FORMS = {"0.7.0": 6, "0.8.0": 8, "0.9.0": 9, "0.9.1": 9, "0.10.0": 9, "0.11.0": 9, "0.11.1": 9, "1.0.0": 9}
"""The form of audit.json of each version."""
VERDICTS = {"nothing-fits": "nothing fits", "refuted": "refuted", "yes": "yes"}


def folders(version: str) -> list[Path]:
    return [OLDER / version / name for name in VERDICTS]


def said(*words: object) -> bytes:
    return run([PROGRAM, *words])[1]


def test_versions(_: Path) -> None:
    """Each version has its folders, which say by which version they were audited."""
    check("data/older", versions=([path.name for path in files_in(OLDER, "*")], sorted(FORMS)))
    for version, form in FORMS.items():
        records = [record_of(folder) for folder in folders(version)]
        check(f"the records of {version}", forms=({record["dossier"] for record in records}, {form}),
              by=({record["program"]["version"].split()[1] for record in records}, {version}),
              verdicts=([record["entries"][0]["verdict"] for record in records], list(VERDICTS.values())))


def test_texts(_: Path) -> None:
    """What an older version left is what today's program prints, and both checkers accept it."""
    for version in FORMS:
        of_none, refuted, yes = folders(version)
        for folder in folders(version):
            inputs, name = [folder / "claim.json", folder / "f.pcap"], f"{version}, {folder.name}"
            lines = (folder / "envelope.txt").read_bytes()
            check(f"the envelope of {name}",
                  text=(said("envelope", *inputs, "--servers", "--least", "--step", 1), lines))
        inputs = [yes / "claim.json", yes / "f.pcap"]
        check(f"the yes of {version}", settle=(said("settle", *inputs), (yes / "certificate.json").read_bytes()),
              report=(said("check", *inputs, yes / "certificate.json"), (yes / "report.txt").read_bytes()),
              second=(run([ROOT / "second/recheck", *inputs, yes / "certificate.json"])[:2], (0, b"verdict yes\n")))
        for folder, claim in ((refuted, "claim.json"), (yes, "bound-0.claim.json")):
            inputs = [folder / claim, folder / "f.pcap", folder / "refutation.json"]
            check(f"the refutation of {version}, {folder.name}",
                  answer=(said("refute", *inputs, "--drift"), b"refuted yes\n"),
                  second=(run([ROOT / "second/recheck", *inputs, "--drift"])[:2], (0, b"refuted yes\n")))
        check(f"nothing fits, of {version}", text=(said("settle", of_none / "claim.json", of_none / "f.pcap"),
                                                   (of_none / "report.txt").read_bytes()))


def test_verify(place: Path) -> None:
    """`verify` comes to the verdict that stands there, says what it doesn't compare, and leaves all as it is."""
    for version, form in FORMS.items():
        for kept, verdict in zip(folders(version), VERDICTS.values()):
            folder = place / version / kept.name
            shutil.copytree(kept, folder)
            status, out, err = dossier("verify", folder)
            check(f"verify of {version}, {kept.name}", status=(status, int(verdict != "yes")), err=(err, b""),
                  line=(out.decode().splitlines()[0], f"{folder}: verified: {verdict}"),
                  form=(f"form {form} of audit.json" in out.decode(), form < VERSION),
                  sign=(form < VERSION and dossier("sign", "--key", "any", folder)[0], form < VERSION and 4),
                  left=({path.name: path.read_bytes() for path in folder.iterdir()},
                        {path.name: path.read_bytes() for path in kept.iterdir()}))


def test_kept(place: Path) -> None:
    """What an older version packed is verified: it wrote the sum of each packed file into audit.json."""
    if not is_here("zstd", "older folders that are kept"):
        return
    for version in FORMS:
        shutil.copytree(OLDER / version / "yes", folder := place / version)
        run(["zstd", "-q", "--rm", "f.pcap"], cwd=folder)
        record = record_of(folder)
        packed = {"sums": {"f.pcap": sum_of((folder / "f.pcap.zst").read_bytes())}}
        (folder / "audit.json").write_text(json.dumps({**record, "kept": packed}))
        check(f"verify of {version}, kept", run=(dossier("verify", folder)[1].decode().splitlines()[0],
                                                 f"{folder}: verified: yes"))
        packed["sums"]["f.pcap"] = "0" * 64
        (folder / "audit.json").write_text(json.dumps({**record, "kept": packed}))
        check(f"verify of {version}, kept otherwise", run=(dossier("verify", folder)[0], 1))


def test_shown(place: Path) -> None:
    """A page that verifies shows an older audit by what is made now, and one that doesn't shows no verdict."""
    for version in FORMS:
        for kept, verdict in zip(folders(version), VERDICTS.values()):
            shutil.copytree(kept, folder := place / version / kept.name)
            asked = ["page", "--json", "--state", place / "state"]
            shown, hidden = (json.loads(dossier(*words, folder)[1])[0] for words in ([*asked, "--verify"], asked))
            claim = json.loads((folder / "claim.json").read_text())
            entry = record_of(kept)["entries"][0]
            check(f"a page of {version}, {kept.name}", verdict=(shown["verdict"], verdict),
                  bound=(shown["bound_ns"], claim["bound_ns"]), least=(shown["least_bound_ns"], entry["least_ns"]))
            if FORMS[version] < max(FORMS.values()):
                check(f"{version}, {kept.name}, without --verify", verdict=(hidden["verdict"], "not verified"))
        audited = sorted((place / version).iterdir())
        check_page(f"a page of {version}", dossier("page", "--verify", *audited)[1].decode())


def test_changed(place: Path) -> None:
    """What was changed in a folder of an older version is said, and so is a form that nobody reads any more."""
    record = (OLDER / "0.8.0/yes/audit.json").read_text()
    changes = {"a verdict": ("audit.json", '"verdict": "yes"', '"verdict": "open", "reason": {"why": "tick"}'),
               "a least bound": ("audit.json", '"least_ns": ', '"least_ns": 1'),
               "a sum of an input": ("audit.json", '"f.pcap": "', '"f.pcap": "0" , "x": "'),
               "a report": ("report.txt", "verdict yes", "verdict  yes"),
               "a claim": ("claim.json", '"bound_ns":2', '"bound_ns":3'),
               "a form to come": ("audit.json", '"dossier": 8', '"dossier": 99'),
               "a form of long ago": ("audit.json", '"dossier": 8', '"dossier": 5')}
    for what, (name, old, new) in changes.items():
        shutil.copytree(OLDER / "0.8.0/yes", folder := place / what)
        text = (folder / name).read_text()
        (folder / name).write_text(text.replace(old, new, 1))
        status, out, _ = dossier("verify", folder)
        check(f"{what} that was changed", changed=((folder / name).read_text() == text, False),
              status=(status != 0, True), said=(b"verified:" in out, False))
    check("the folder itself", same=((OLDER / "0.8.0/yes/audit.json").read_text() == record, True))


# ---- the forms of audit.json and events.json
KINDS: dict[str, tuple[type, ...]] = {"integer": (int,), "number": (int, float), "string": (str,), "null": (NoneType,),
                                      "array": (list,), "object": (dict,), "boolean": (bool,)}


def is_valid(schema: Any, value: Any, known: dict[str, Any]) -> bool:
    """Whether a value is of a JSON Schema, of whose words these are known."""
    def fits(word: str, rule: Any) -> bool:
        match word:
            case "$ref":
                return is_valid(known[rule.removeprefix("#/$defs/")], value, known)
            case "type":
                return type(value) in KINDS[rule]
            case "enum":
                return bool(value in rule)
            case "anyOf":
                return any(is_valid(each, value, known) for each in rule)
            case "required":
                return all(name in value for name in rule)
            case "properties":
                return all(is_valid(rule[name], value[name], known) for name in rule.keys() & value.keys())
            case "additionalProperties":
                return all(rule and is_valid(rule, value[name], known)
                           for name in value.keys() - schema.get("properties", {}).keys())
            case "propertyNames":
                return all(is_valid(rule, name, known) for name in value)
            case "prefixItems":
                return all(is_valid(each, item, known) for each, item in zip(rule, value))
            case "items":
                return all(rule and is_valid(rule, item, known) for item in value[len(schema.get("prefixItems", [])):])
            case "minItems" | "maxItems" | "maxProperties":
                return bool(len(value) >= rule if word == "minItems" else len(value) <= rule)
            case "minimum" | "maximum":
                return bool(value >= rule if word == "minimum" else value <= rule)
            case "pattern":
                return bool(re.search(rule, value))
        raise KeyError(word)
    return all(fits(word, rule) for word, rule in schema.items() if word not in ("$schema", "title", "$defs"))


def with_name(put: Callable[[Any], Any], value: dict[str, Any], name: str, item: Any) -> Any:
    return put({**value, name: item})


def spoilt(record: Any) -> Iterator[tuple[str, Any]]:
    """The record with a name more, one less, or a value of another kind, at each place where a name stands."""
    def at_each(value: Any, put: Callable[[Any], Any], place: str) -> Iterator[tuple[str, Any]]:
        if isinstance(value, dict):
            yield f"{place} with a name more", put({**value, "A name/": 1.5})
            for name, item in value.items():
                rest = {other: each for other, each in value.items() if other != name}
                yield f"{place} without {name}", put(rest)
                yield f"{place} {name} of another kind", put({**value, name: [[None]]})
                yield from at_each(item, partial(with_name, put, value, name), f"{place} {name}")
        elif isinstance(value, list) and value:
            yield from at_each(value[0], lambda new: put([new, *value[1:]]), f"{place} 0")
    yield from at_each(record, lambda new: new, "")


def test_schema(place: Path) -> None:
    """docs/audit.schema.json is what the types say; all that is read is valid by it, and what isn't is refused too."""
    from dossier.folder.entry import read_record
    schema = schema_of("audit")
    made = [Path(shutil.copytree(kept, place / kept.name)) for kept in folders(max(FORMS))]
    dossier("audit", "--again", *made)
    folder = Path(shutil.copytree(made[2], place / "audited"))
    dossier("audit", "--again", "--days", folder)
    newest = [record_of(kept) for kept in (*made, folder)]
    check("records by the schema", valid=([is_valid(schema, record, schema["$defs"]) for record in newest],
                                          [True] * len(newest)))
    record = newest[-1]
    check("spoilt records", seen=(refused(schema, {**record, "entries": record["entries"][:1]}, read_record),
                                  lambda seen: seen > 100))


def test_events(place: Path) -> None:
    """docs/events.schema.json likewise, of an answer as it is made, with all that it may have."""
    from dossier.folder.events import read_events
    schema, kept = schema_of("events"), Path(shutil.copytree(folders(max(FORMS))[2], place / "web-1"))
    dossier("audit", "--again", kept)
    (place / "log.csv").write_text(f"machine,time\nweb-1,{json.loads((kept / 'claim.json').read_text())['from']}\n")
    dossier("events", "--sort", "time", "--split", place / "out", place / "log.csv", kept)
    made = json.loads((place / "out" / "events.json").read_text())
    full = {**made, "signed": made["made"], "machines": [{**made["machines"][0], "by": {".": "web-1"}}]}
    check("answers by the schema", valid=([is_valid(schema, each, schema["$defs"]) for each in (made, full)],
                                          [True] * 2), days=(list(made["machines"][0]["days"]), ["."]),
          read=(bool(read_events(json.dumps(full).encode())), True))
    check("spoilt answers", seen=(refused(schema, full, read_events), lambda seen: seen > 20))
    wrong = json.dumps({**full, "signed": "9999-01-01T00:00:00Z"}).encode()
    check("an answer that was signed in the future", read=(is_read(wrong, read_events), False))


def schema_of(name: str) -> Any:
    """A schema that is kept, which is what docs/schema prints."""
    text = (ROOT / f"docs/{name}.schema.json").read_text()
    words = [name] * (name != "audit")
    check(f"docs/{name}.schema.json", printed=(run([ROOT / "docs/schema", *words]), (0, text.encode(), b"")))
    return json.loads(text)


def refused(schema: Any, record: Any, read: Callable[[bytes], object]) -> int:
    """Has each spoilt record that isn't valid refused by what reads it, and says how many there were."""
    wrong = [(what, each) for what, each in spoilt(record) if not is_valid(schema, each, schema["$defs"])]
    for what, each in wrong:
        check(f"a record{what}", refused=(is_read(json.dumps(each).encode(), read), False))
    return len(wrong)


def is_read(data: bytes, read: Callable[[bytes], object]) -> bool:
    """Whether the dossier takes this."""
    from dossier.fault import Fault
    try:
        return bool(read(data))
    except Fault:
        return False


def test_kinds(_: Path) -> None:
    """A reason and a warning are read by the word that says their kind, with the names of that kind alone."""
    from dossier.folder.entry import Alert, Reason
    from dossier.schema import Mangled, said, typed
    for union, name in ((Reason, "why"), (Alert, "kind")):
        words = [(word, kind) for kind in get_args(union) for word in get_args(kind.__annotations__[name])]
        names = {each for kind in get_args(union) for each in kind.__annotations__}
        check(f"each {name} is of one kind", number=(len(dict(words)), len(words)), all=(len(words) > 10, True))
        for word, kind in words:
            taken = set[str]()
            for each in names:
                with suppress(Mangled):
                    taken |= {each} & vars(typed(union, {name: word, each: KEPT.get(each, 0)})).keys()
            check(f"{name} {word}", read=(typed(union, said(kind(word))), kind(word)),
                  taken=(taken | {name}, set(kind.__annotations__)))


KEPT: dict[str, object] = {"why": None, "kind": None, "file": "", "reference": "", "beside": "", "hull": "empty",
                           "recorded": [0, 0], "piece": None, **dict.fromkeys(
                               ("gaps", "conflicts", "apart", "camps", "asking", "asked", "servers", "seconds",
                                "others", "times"), [])}
"""A value that a name may have."""


def add() -> None:
    """Audits the folders of today's version (`tests/renew older`), with a list of leap seconds of its own."""
    version = said("--version").split()[1].decode()
    (OLDER / version).mkdir()
    newest = OLDER / max(FORMS.keys() - {version})
    leap_list(OLDER / version / "leap-seconds.list")
    for name in VERDICTS:
        (OLDER / version / name).mkdir()
        for file in {"claim.json", "f.pcap", "evidence.json"} & set(os.listdir(newest / name)):
            shutil.copy(newest / name / file, OLDER / version / name)
    subprocess.run([ROOT / "ntpaudit-dossier", "audit", *VERDICTS], cwd=OLDER / version,
                   env={**ENVIRONMENT, "NTPAUDIT_LEAP_SECONDS": "leap-seconds.list"})
    (OLDER / version / "leap-seconds.list").unlink()
