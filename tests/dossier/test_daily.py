"""Tests of what is done each day on many machines: the folders of days, systemd's units, metrics, and the alerts and
the dashboard that read them.

promtool, which comes with Prometheus, and systemd-analyze read what is written for them, where they are installed.
"""
import gzip
import hashlib
import json
import os
import re
import shlex
import shutil
import time
from calendar import timegm
from pathlib import Path
from typing import Any
from unittest.mock import patch

from tests.support import DATA, ROOT, SECONDS, check, is_here, run, runnable, wanting
from tests.dossier.audits import (ENVIRONMENT, PROGRAM, SCRIPT, audited, called, capture_of, check_page, dossier,
                                  folder_of, record_of, rows, skipped, table)
from tests.dossier.test_captures import records_of
from tests.dossier.test_evidence import bare_path, key_of, until_it_listens, why_no_recording
from tests.dossier.test_verdicts import GOOD, good_folder

MONITORING = ROOT / "monitoring"
LINE = re.compile(r'(ntpaudit_[a-z_]+)\{((?:[a-z]+="(?:[^"\\\n]|\\[\\"n])*",?)*)\} (\S+)')


def metrics_of(path: Path) -> dict[tuple[Any, ...], str]:
    """The lines of a file of metrics: each name with its labels, and the value as it stands there."""
    lines = [line for line in path.read_text("utf-8").splitlines() if not line.startswith("#")]
    found = [LINE.fullmatch(line) for line in lines]
    check("the lines of metrics", form=([line for line, match in zip(lines, found) if not match], []))
    return {(match[1].removeprefix("ntpaudit_"),
             *sorted(re.findall(r'([a-z]+)="((?:[^"\\]|\\.)*)"', match[2]))): match[3] for match in found if match}


def by_promtool(name: str, *words: object, given: bytes | None = None) -> None:
    if shutil.which("promtool"):
        status, out, err = run(["promtool", *words], given)
        check(f"promtool on {name}", run=((status, b"FAILED" in out + err), (0, False)),
              said=(out + err if status else b"", b""))
    else:
        skipped(f"promtool on {name}", wanting("promtool"))


def seconds(nanoseconds: int) -> str:
    return f"{nanoseconds // 10**9}.{nanoseconds % 10**9:09}"


def folders_of_all(place: Path) -> list[Path]:
    """Folders of several verdicts, the last two of which have no audit."""
    apart = [word.replace("4:-1000..1000", "4:900000000..900001000") for word in GOOD]
    spoilt = good_folder(place, "spoilt")
    (spoilt / "f.pcap").write_bytes(b"")
    off = [word.replace("-1000..1000", "900000000..900001000") for word in GOOD]
    return [good_folder(place, "good"), good_folder(place, 'a "name"\\n'), good_folder(place, "wrong", bound_ns=1),
            good_folder(place, "off", None, off), good_folder(place, "apart", None, apart),
            good_folder(place, "nothing", client="192.0.2.11"), spoilt, place / "missing"]


def test_metrics(place: Path) -> None:
    """Each figure of the table is a metric, and of the verdicts one is 1; the same by `audit` and by `page`."""
    folders, file, other = folders_of_all(place), place / "m.prom", place / "other.prom"
    status, _, err = dossier("audit", "--metrics", file, *folders)
    check("audit --metrics", run=((status, err), (1, b"")))
    found = metrics_of(file)
    for folder, row in zip(folders, table(*folders)):
        label = ("folder", str(folder).replace("\\", "\\\\").replace('"', '\\"'))
        ones = [dict(labels)["verdict"] for (name, *labels), value in found.items()
                if name == "verdict" and label in labels and value == "1"]
        own = {name: value for (name, *labels), value in found.items() if labels == [label, ("machine", label[1])]}
        check(f"the verdict of {folder.name} as metrics", ones=(ones, [row["verdict"]]),
              all=(sum(name == "verdict" and label in labels for name, *labels in found), 9))
        if row["bound_ns"] is None:
            check(f"no figures of {folder.name} as metrics", figures=([name for name in own if "bound" in name], []))
            continue
        record = record_of(folder)
        least = {} if row["least_bound_ns"] is None else {"least_bound_seconds": seconds(row["least_bound_ns"])}
        end = record["leap_seconds"]["good_until"] * 10**9
        made, span_end = (timegm(time.strptime(text, "%Y-%m-%dT%H:%M:%SZ")) for text in (record["made"], row["end"]))
        check(f"the figures of {folder.name} as metrics",
              own=(own,
                   {**least, "clock_off": str(int(folder.name == "off")),
                    "claimed_bound_seconds": seconds(row["bound_ns"]), "samples": str(row["samples"]),
                    "servers_apart": str(sum(" apart: " in words for words in row["warnings"])),
                    "warnings": str(sum("is a copy" not in words for words in row["warnings"])),
                    "span_end_timestamp_seconds": seconds(span_end * 10**9),
                    "leap_list_end_timestamp_seconds": seconds(end),
                    "last_audit_timestamp_seconds": seconds(made * 10**9),
                    "audit_duration_seconds": seconds(round(record["seconds"] * 10**9))}))
    dossier("page", "--json", "--metrics", other, *folders)
    check("page --metrics", same=(other.read_text(), file.read_text()))
    by_promtool("metrics", "check", "metrics", given=file.read_bytes())
    stranger = dossier("page", "--csv", "--metrics", other, folders[0],
                       env={**ENVIRONMENT, "XDG_STATE_HOME": str(place)})
    check("metrics of what isn't known here", status=(stranger[0], 0),
          lines=([labels[-1] for (_, *labels), value in metrics_of(other).items() if value == "1"],
                 [("verdict", "not verified")]), more=({name for name, *_ in metrics_of(other)}, {"verdict"}))


def test_metrics_of_days(place: Path) -> None:
    folder = folder_of(place, "days", DATA / "clients-us.pcap", DATA / "clients-us.claim.json",
                       **{"from": "2026-11-22T07:03:36Z", "to": "2026-11-24T00:00:00Z"})
    dossier("audit", "--days", "--metrics", place / "m.prom", folder)
    rows, found = table(folder), metrics_of(place / "m.prom")
    ones = [dict(labels) for (name, *labels), value in found.items() if name == "verdict" and value == "1"]
    check("metrics of days", days=([(one["day"], one["verdict"]) for one in ones],
                                   [(row["day"], row["verdict"]) for row in rows]), count=(len(rows), 2))


def test_metrics_written(place: Path) -> None:
    """Whole or not at all, and never in the way of a verdict."""
    good, wrong = good_folder(place, "good"), good_folder(place, "wrong", bound_ns=1)
    dossier("audit", good, wrong)
    for name, path, folders, wanted in (("in no folder", place / "none" / "m.prom", [good], 4),
                                        ("in no folder beside a no", place / "none" / "m.prom", [good, wrong], 1),
                                        ("on a full device", "/dev/full", [good], 4)):
        for command in ("audit", "page"):
            status, out, err = dossier(command, "--metrics", path, *folders)
            check(f"{command}: metrics {name}", status=(status, 4 if command == "page" else wanted),
                  line=((b"can't be written" in err, err.count(b"\n")), (True, 1)), told=(bool(out), True))


ALERTS: dict[str, list[str]] = {
    "good": [], "wrong": ["ClockNotShown"], "off": ["ClockOff"], "apart": ["ClockServerApart"],
    "nothing": ["ClockNotShown"], "spoilt": ["ClockNotAudited"], "missing": ["ClockNotAudited"]}
"""The alerts of each folder."""


def test_alerts(place: Path) -> None:
    """The alert rules, on the metrics of folders of all kinds."""
    rules = MONITORING / "ntpaudit.rules.yml"
    by_promtool("the alert rules", "check", "rules", rules)
    folders = [folder for folder in folders_of_all(place) if folder.name in ALERTS]
    dossier("audit", "--metrics", place / "m.prom", *folders)
    series = [{"series": line.rpartition(" ")[0], "values": f"{line.rpartition(' ')[2]}x10"}
              for line in (place / "m.prom").read_text().splitlines() if not line.startswith("#")]
    text = rules.read_text()
    severity = dict(zip(re.findall(r"alert: (\w+)", text), re.findall(r"severity: (\w+)", text)))
    timed = ("ClockAuditMissing", "ClockNearItsBound", "LeapSecondListEnds", "ClockMetricsMissing")
    summaries = re.findall(r"summary: (.*)", text + (MONITORING / "ntpaudit-now.rules.yml").read_text())
    check("the summaries of alerts", without=([words for words in summaries if "$labels.instance" not in words], []))
    wanted = [of_alerts(name, severity[name], "5m", *(labels_of(series, folder, name) for folder in folders
                                                      if name in ALERTS[folder.name]))
              for name in severity if name not in timed]
    for name, each, tests in (("folders", "1m", [{"interval": "1m", "input_series": series,
                                                  "promql_expr_test": wanted}]), ("times", "15m", timed_alerts())):
        test = {"rule_files": [str(rules)], "evaluation_interval": each, "tests": tests}
        (place / f"{name}.yml").write_text(json.dumps(test))
    by_promtool("alerts of folders", "test", "rules", place / "folders.yml", place / "times.yml")


def series_of(name: str, values: object, **labels: str) -> dict[str, Any]:
    return {"series": f"ntpaudit_{name}{{{','.join(f'{key}={json.dumps(value)}' for key, value in labels.items())}}}",
            "values": values}


def timed_alerts() -> list[dict[str, Any]]:
    """Alerts that look at times: of two machines one falls silent, and one of three near their bounds is a yes."""
    node = {"job": "node", "instance": "web-1"}
    first, second = ({**node, "machine": machine} for machine in ("fleet/a", "fleet/b"))
    audits = [series_of("last_audit_timestamp_seconds", "3600+3600x50", **first),
              series_of("last_audit_timestamp_seconds", "3600x50", **second)]
    yes, beyond, blind = ({**node, "folder": folder} for folder in ("yes", "beyond", "blind"))
    near = [series_of("claimed_bound_seconds", "0.005x50", **own) for own in (yes, beyond, blind)]
    near += [series_of("least_bound_seconds", f"{least}x50", **own)
             for own, least in ((yes, 0.0048), (beyond, 0.0058), (blind, 0.0049))]
    near += [series_of("verdict", "1x50", **own, verdict=verdict)
             for own, verdict in ((yes, "yes"), (beyond, "refuted"), (blind, "no evidence"))]
    leaps = [series_of("leap_list_end_timestamp_seconds", f"{40 * 86_400}x50", **node)]
    gone = [series_of("verdict", "1x400", **first, folder="fleet/a/2026-11-26", verdict="yes"),
            series_of("verdict", "1x120", **second, folder="fleet/b/2026-11-26", verdict="yes")]
    missing = [of_alerts("ClockMetricsMissing", "ticket", "9h"),
               of_alerts("ClockMetricsMissing", "ticket", "26h", second)]
    hours = [of_alerts("ClockAuditMissing", "ticket", "36h"), of_alerts("ClockAuditMissing", "ticket", "38h", second)]
    days = [of_alerts("LeapSecondListEnds", "ticket", "9d"), of_alerts("LeapSecondListEnds", "ticket", "11d", node)]
    near_one = [of_alerts("ClockNearItsBound", "ticket", "1h", yes)]
    none = [of_alerts("ClockMetricsMissing", "ticket", "1h", {})]
    return [{"interval": interval, "input_series": given, "promql_expr_test": asked}
            for interval, given, asked in (("1h", audits, hours), ("1h", near, near_one), ("1d", leaps, days),
                                           ("5m", gone, missing), ("1h", leaps, none))]


def test_alerts_of_now(place: Path) -> None:
    """The alerts on the last minutes. Who is called: the clock is off now, or can't be seen and was off. A step that is
    over, servers that are apart or silent, too few groups, a bound that isn't shown, a recorder that is silent or isn't
    well, and metrics that are gone wait for the day."""
    rules = MONITORING / "ntpaudit-now.rules.yml"
    by_promtool("the alert rules of now", "check", "rules", rules)

    def of(name: str) -> dict[str, str]:
        return {"job": "node", "instance": name, "recorder": "eth0"}
    given = list[dict[str, Any]]()

    def values(name: str, **metrics: str) -> dict[str, str]:
        """The series of a machine; what isn't named is well."""
        well = {"seen": "1x99", "clock_off": "0x99", "groups_heard": "4x99", "groups_needed": "3x99",
                "last_record_age_seconds": "9x99", "refused_files": "0x99", "records_ahead_seconds": "0x99",
                "looked_timestamp_seconds": "0+60x99"}
        given.extend(series_of(f"now_{key}", value, **of(name)) for key, value in {**well, **metrics}.items() if value)
        return of(name)
    well, off, healed = values("well"), values("off", clock_off="0 0 1x90"), values(
        "healed", clock_off="0 0 1 0x90", last_step_timestamp_seconds="_ _ 99x9 stale")
    blind = values("blind", seen="1 1 0x90", clock_off="0 1 stale", groups_heard="4 4 0x90")
    unseen = values("unseen", seen="1 1 0x90", clock_off="0 0 stale")
    mute = values("mute", seen="1 1 1 stale", clock_off="0 1 1 stale", groups_heard="4 4 4 stale", groups_needed="",
                  last_record_age_seconds="9 9 9 stale", looked_timestamp_seconds="0 60 120 stale")
    fitful = values("fitful", seen="1 1" + 12 * " 1 0" + " 1x90", clock_off="0 0" + 12 * " 1 stale" + " 0x90")
    silent, few = values("silent", last_record_age_seconds="0+60x99"), values("few", groups_heard="4 4 2x90")
    files, back = values("files", refused_files="1x99"), values("back", records_ahead_seconds="0 0 2040x90")
    stuck, gone = values("stuck", looked_timestamp_seconds="77x99"), {"job": "node", "instance": "gone"}
    servers = [{**well, "server": server} for server in ("192.0.2.3", "192.0.2.4")]
    given += [series_of(f"now_server_{kind}", value, **one) for one, kind, value in (
        (servers[0], "silent", "0 0 1x90"), (servers[0], "apart", "0x99"), (servers[1], "silent", "0x99"),
        (servers[1], "apart", "0 0 1x90"))]
    room = {**well, "trouble": "room"}
    given += [series_of("now_recorder_trouble", "0 0 1x90", **room),
              series_of("now_recorder_trouble", "0x99", **{**well, "trouble": "lost"})]
    given += [series_of("now_verdict", value, **{**one, "verdict": verdict}) for one, verdict, value in (
        (well, "yes", "1x99"), (off, "refuted", "0 0 1x90"), (few, "refuted", "0 0 1x90"), (few, "yes", "1 1 0x90"),
        (unseen, "refuted", "1x99"), ({**gone, "recorder": "eth0"}, "yes", "1x9"))]
    said: dict[tuple[str, str], dict[str, list[dict[str, str]]]] = {
            ("ClockIsOff", "page"): {"1m": [], "2m": [blind, mute], "4m": [off, blind, mute, fitful],
                                     "20m": [off, blind, mute, fitful], "90m": [off, blind, mute]},
            ("ClockUnseen", "ticket"): {"11m": [], "13m": [blind, unseen]},
            ("ClockStepped", "ticket"): {"1m": [], "3m": [healed], "95m": [healed]},
            ("ClockSetBack", "ticket"): {"2m": [], "4m": [back]},
            ("ClockNotShownNow", "ticket"): {"11m": [], "13m": [{**few, "verdict": "refuted"}]},
            ("ServerApart", "ticket"): {"6m": [], "8m": [servers[1]]},
            ("ServerSilent", "ticket"): {"11m": [], "13m": [servers[0]]},
            ("TooFewGroups", "ticket"): {"6m": [], "8m": [blind, few]},
            ("RecorderSilent", "ticket"): {"4m": [], "6m": [silent]},
            ("RecorderTrouble", "ticket"): {"2m": [], "4m": [room]},
            ("RecordingsRefused", "ticket"): {"4m": [], "6m": [files]},
            ("ClockNowMissing", "ticket"): {"14m": [], "22m": [{"job": "node", "instance": "stuck"}, gone],
                                            "95m": [{"job": "node", "instance": "stuck"}, gone]}}
    assert stuck
    text = rules.read_text()
    names, severities = (re.findall(rf"{word}: (\w+)", text) for word in ("alert", "severity"))
    check("alerts that are tried", severity=(dict(zip(names, severities)), dict(said.keys())))
    asked = list[dict[str, Any]]()
    for (name, severity), times in said.items():
        asked += [of_alerts(name, severity, at, *labels) for at, labels in times.items()]
    nothing = [of_alerts("ClockNowMissing", "ticket", "10m", {})]
    tests = [{"interval": "1m", "input_series": series, "promql_expr_test": words}
             for series, words in ((given, asked), ([], nothing))]
    (place / "test.yml").write_text(json.dumps({"rule_files": [str(rules)], "evaluation_interval": "1m",
                                                "tests": tests}))
    by_promtool("alerts of the last minutes", "test", "rules", place / "test.yml")


def labels_of(series: list[dict[str, str]], folder: object, name: str) -> dict[str, str]:
    """The labels of a folder's series that has an alert: its servers apart, that it was off, or its verdict."""
    kinds = {"ClockServerApart": "servers_apart", "ClockOff": "clock_off"}
    kind, value = kinds.get(name, "verdict"), "" if name in kinds else "1x"
    own, = (line["series"] for line in series if line["series"].startswith(f"ntpaudit_{kind}{{")
            and f'folder="{folder}"' in line["series"] and line["values"].startswith(value))
    return dict(re.findall(r'([a-z]+)="([^"]*)"', own))


def of_alerts(name: str, severity: str, at: object, *labels: dict[str, Any]) -> dict[str, Any]:
    """A test by promtool that of an alert these are there."""
    alerts = [{"alertname": name, "alertstate": "firing", "severity": severity, **own} for own in labels]
    said = [f"ALERTS{{{','.join(f'{label}={json.dumps(value)}' for label, value in own.items())}}}" for own in alerts]
    return {"expr": f'ALERTS{{alertname="{name}",alertstate="firing"}}', "eval_time": at,
            "exp_samples": [{"labels": own, "value": 1} for own in said]}


def test_dashboard(place: Path) -> None:
    """The dashboard reads metrics that there are, in words that Prometheus takes."""
    from dossier.fleet.metrics import HELP
    board = json.loads((MONITORING / "ntpaudit.dashboard.json").read_text())
    asked = [target["expr"].replace("$folder", ".*").replace("$instance", ".*")
             for panel in board["panels"] for target in panel["targets"]]
    rules = "".join(path.read_text() for path in MONITORING.glob("*.yml"))
    named = set(re.findall(r"ntpaudit_(\w+)", " ".join(asked + re.findall(r"expr: (.*)", rules))))
    check("the metrics of dashboard and alerts", unknown=(named - set(HELP), set()), panels=(len(board["panels"]), 14),
          places=(len({(panel["gridPos"]["x"], panel["gridPos"]["y"]) for panel in board["panels"]}), 14),
          numbers=(len({panel["id"] for panel in board["panels"]}), 14))
    groups = [{"name": "asked", "rules": [{"record": f"asked:{number}", "expr": expr}
                                          for number, expr in enumerate(asked)]}]
    (place / "asked.yml").write_text(json.dumps({"groups": groups}))
    by_promtool("the dashboard", "check", "rules", place / "asked.yml")


# ---- days

DAY, NIGHT = 86_400, 1_000_000_000 - 1_000_000_000 % 86_400
"""2001-09-09T00:00:00Z, and the seconds of a day."""


def hours_of(place: Path, hours: Any, night: int = NIGHT) -> Any:
    """A recorder's files of some hours since a night, with exchanges each minute, each last written at its end."""
    words = [f"{server}:-1000..1000@{night + 3600 * hour + second}" for hour in hours for second in range(0, 3600, 60)
             for server in (1, 2)]
    whole = capture_of(place.parent / "whole.pcap", *words).read_bytes()
    records, names, each = records_of(whole), [], 2 * 2 * 60
    for number, hour in enumerate(hours):
        begin = night + 3600 * hour
        names.append(time.strftime("eth0-%Y-%m-%dT%H%M%SZ.pcap", time.gmtime(begin)))
        (place / names[-1]).write_bytes(whole[:24] + b"".join(records[each * number : each * (number + 1)]))
        os.utime(place / names[-1], times=(begin, begin + 3599))
    return names


def recorded(place: Path, hours: Any, night: int = NIGHT) -> tuple[Path, Path, Any]:
    """The folders of recorder and days, with the claim of any day."""
    recorder, days = place / "record", place / "days"
    for path in (recorder, days):
        path.mkdir()
    claim = {"client": "192.0.2.10", "servers": ["192.0.2.1", "192.0.2.2"], "false_max": 0, "bound_ns": 60_000_000,
             "from": "2001-01-01T00:00:00Z", "to": "2001-01-01T00:00:00Z", "drift_ppb": 600_000, "reading_ns": 0}
    (days / "claim.json").write_text(json.dumps(claim))
    return recorder, days, hours_of(recorder, hours, night)


def kept_in(folder: Path) -> dict[str, tuple[bytes, int]]:
    return {path.name: (path.read_bytes(), path.stat().st_mtime_ns) for path in folder.iterdir()}


def test_day(place: Path) -> None:
    """A day's folder has the files of the day and of the hours beside it, and its claim; nothing is written twice."""
    recorder, days, names = recorded(place, range(-3, 29))
    made = days / "2001-09-09"
    words = ("day", "--from", recorder, "--to", days, "--date", "2001-09-09")
    check("day", run=(dossier(*words), (0, f"{made}\n".encode(), b"")))
    claim = json.loads((made / "claim.json").read_text())
    check("the folder of a day", files=(sorted(path.name for path in made.iterdir()), ["claim.json", *names[2:29]]),
          span=((claim["from"], claim["to"]), ("2001-09-09T00:00:00Z", "2001-09-10T00:00:00Z")),
          rest=({**claim, "from": "", "to": ""},
                {**json.loads((days / "claim.json").read_text()), "from": "", "to": ""}),
          same=([(made / name).read_bytes() == (recorder / name).read_bytes() for name in names[2:29]], [True] * 27))
    check("a day is shown", run=(dossier("audit", made)[0], 0), row=(table(made)[0]["verdict"], "yes"))
    before = kept_in(made)
    check("day again", run=(dossier(*words), (0, f"{made}\n".encode(), b"")), same=(kept_in(made) == before, True))
    (made / names[9]).rename(made / f"{names[9]}.zst")
    (made / names[10]).unlink()
    (made / "audit.json").unlink()
    (made / "claim.json").write_text("mine")
    dossier(*words)
    after = kept_in(made)
    check("day of a folder that has some", packed=((names[9] in after, f"{names[9]}.zst" in after), (False, True)),
          missing=(names[10] in after, True), claim=(after["claim.json"][0], b"mine"))
    today = int(time.time()) // DAY * DAY
    own = place / "own"
    own.mkdir()
    recorder, days, _ = recorded(own, range(-60, 2), today)
    (days / "evidence.json").write_text(json.dumps({"drift": "sheet.pdf"}))
    (days / "sheet.pdf").write_text("a sheet")
    paths = [days / time.strftime("%Y-%m-%d", time.gmtime(today - DAY * number)) for number in (2, 1)]
    check("days", run=(dossier("day", "--from", recorder, "--to", days)[:2],
                       (0, "".join(f"{path}\n" for path in paths).encode())),
          evidence=([{"evidence.json", "sheet.pdf"} <= set(kept_in(path)) for path in paths], [True] * 2),
          audited=(dossier("audit", *paths)[0], 0))


def test_day_finished(place: Path) -> None:
    """Nothing is put into a day's folder that is signed, or has an audit and is older than what is audited again."""
    today = int(time.time()) // DAY * DAY
    recorder, days, names = recorded(place, range(-9 * 24, 0, 6), today)
    words = "day", "--from", recorder, "--to", days
    made = {number: days / time.strftime("%Y-%m-%d", time.gmtime(today - DAY * number)) for number in (8, 7, 6, 5)}
    dossier(*words)
    dossier("audit", made[8], made[7], made[6])
    is_signed = is_here("ssh-keygen", "days that are signed")
    if is_signed:
        dossier("sign", "--key", key_of(place, "key")[0], made[6])
    for path in made.values():
        for name in (name for name in names if path.name in name):
            (path / name).unlink()
    (made[8] / "claim.json").unlink()
    (days / "evidence.json").write_text(json.dumps({"drift": "sheet.pdf"}))
    (days / "sheet.pdf").write_text("a sheet")
    before = {number: kept_in(path) for number, path in made.items()}
    own = {number: sorted(name for name in names if path.name in name) for number, path in made.items()}
    for how in "once", "again":
        status, out, err = dossier(*words)
        told = [line for line in err.decode().splitlines() if "nothing is put into it" in line]
        lacking = {number: ", ".join(["evidence.json", "sheet.pdf", *own[number]]) for number in (8, 6)}
        check(f"days that are finished, {how}", status=(status, 0), told=(told, [
            f"{made[8]}: audited, and not of the last week, so nothing is put into it: {lacking[8]}, claim.json",
            *[f"{made[6]}: signed, so nothing is put into it: {lacking[6]}"] * is_signed]),
            listed=({str(path) for path in made.values()} <= set(out.decode().split()), True),
            same=([kept_in(made[number]) == before[number] for number in (8, 6)], [True, is_signed]),
            came=([{"evidence.json", "sheet.pdf", *own[number]} <= set(kept_in(made[number])) for number in (7, 5)],
                  [True] * 2))
    if is_signed:
        hours_of(recorder, range(-6 * 24, -5 * 24), today)
        status, _, err = dossier(*words, "--date", made[6].name)
        check("a day that is finished and lacks much", status=(status, 0), told=(
            (f"{made[6]}: signed, " in err.decode(), err.decode().endswith(" and 18 more\n")), (True, True)))


def test_day_of_others(place: Path) -> None:
    """What isn't finished, isn't there, or isn't a recorder's file."""
    recorder, days, names = recorded(place, range(4))
    words = ("day", "--from", recorder, "--to", days, "--date", "2001-09-09")
    (recorder / names[3]).touch()
    (recorder / "other.pcap").write_bytes(b"")
    (recorder / "eth0-2001-09-32T000000Z.pcap").write_bytes(b"")
    status, out, err = dossier(*words)
    check("a file that grows", run=((status, err), (
        0, f"{names[3]} is still being written: call again when it is finished\n".encode())),
        files=(sorted(kept_in(days / "2001-09-09")), ["claim.json", *names[:3]]))
    os.utime(recorder / names[3], times=(NIGHT, NIGHT + 9999))
    dossier(*words)
    check("a file that grew", files=(sorted(kept_in(days / "2001-09-09")), ["claim.json", *names]))
    status, out, err = dossier(*words[:-1], "2001-09-15")
    check("a day without a recording", run=((status, err), (0, f"{days}/2001-09-15: nothing was recorded\n".encode())),
          files=(list(kept_in(days / "2001-09-15")), ["claim.json"]),
          audit=(dossier("audit", days / "2001-09-15")[0], 4))
    (recorder / names[1]).unlink()
    (recorder / names[1]).symlink_to(recorder / names[2])
    (days / "2001-09-09" / names[1]).unlink()
    check("a recorder's file that is a link",
          run=(dossier(*words), (2, f"{days}/2001-09-09\n".encode(),
                                 f"ntpaudit-dossier: {names[1]} is a link\n".encode())),
          files=(names[1] in kept_in(days / "2001-09-09"), False))
    check("no such date", status=(dossier(*words[:-1], "2001-02-30")[0], 5))
    (days / "claim.json").unlink()
    check("no claim of any day", run=(dossier(*words)[::2], (
        4, b"ntpaudit-dossier: claim.json can't be read (No such file or directory)\n")))


# ---- years


def listed(folder: Path) -> list[str]:
    return sorted(str(path.relative_to(folder)) for path in folder.rglob("*") if path.is_file())


def seen_of(*folders: Path) -> Any:
    """The rows of folders, and their pages without the sums of files, the time, and how a capture is unpacked."""
    differs = r"put together at \S+|<h3>Files</h3>.*?</table>|zstd -d [^\n]*\n|<p>joined\.pcap isn.t kept.*?</p>\n"
    pages = [re.sub(differs, "", dossier("page", folder)[1].decode().replace("../f.pcap", "f.pcap"), flags=re.S)
             for folder in folders]
    return table(*folders), pages


def test_keep(place: Path) -> None:
    """What is kept is verified and shown as before: captures packed, and nothing that is made of them."""
    if not is_here("zstd", "folders that are kept"):
        return
    whole = (DATA / "clients-us.pcap").read_bytes()
    half = whole[:24] + b"".join(records_of(whole)[:70]), whole[:24] + b"".join(records_of(whole)[70:])
    days: dict[str, Any] = {"from": "2026-11-22T07:03:36Z", "to": "2026-11-24T00:00:00Z"}
    one, two, packed, of_days = (folder_of(place, name, **(days if name == "days" else {}))
                                 for name in ("one", "two", "packed", "days"))
    for name, data in zip(("f.pcap", "g.pcap"), half):
        (two / name).write_bytes(data)
    (packed / "f.pcap").unlink()
    (packed / "f.pcap.gz").write_bytes(gzip.compress(whole))
    folders = [one, two, packed, of_days]
    dossier("audit", one, two, packed)
    dossier("audit", "--days", of_days)
    before, files = seen_of(*folders), [set(listed(folder)) for folder in folders]
    check("keep",
          run=(dossier("keep", *folders), (0, "".join(f"{folder}: kept\n" for folder in folders).encode(), b"")))
    gone = [{"f.pcap"}, {"f.pcap", "g.pcap", "joined.pcap"}, {"joined.pcap"},
            {"f.pcap", "2026-11-23/joined.pcap"}]
    came: list[set[str]] = [{"f.pcap.zst"}, {"f.pcap.zst", "g.pcap.zst"}, set(), {"f.pcap.zst"}]
    for folder, had, off, new in zip(folders, files, gone, came):
        check(f"what is kept of {folder.name}", files=(set(listed(folder)), had - off | new))
    check("what is kept is shown as before", same=(seen_of(*folders) == before, True))
    words = ("yes", "yes", "yes", "1 refuted, 1 no evidence")
    verified = [f"{folder}: verified: {word}\n" for folder, word in zip(folders, words)]
    own = {**ENVIRONMENT, "XDG_STATE_HOME": str(place / "x")}
    check("what is kept is verified", run=([dossier("verify", folder, env=own) for folder in folders],
                                           [(int("refuted" in line), line.encode(), b"") for line in verified]))
    check("what is kept isn't audited again", lines=(dossier("audit", one, two, packed)[1].count(b"(unchanged)"), 3),
          days=(dossier("audit", "--days", of_days)[1].count(b"(unchanged)"), 2))
    run(["zstd", "-dqk", one / "f.pcap.zst"])
    check("a capture that is kept is the one that was recorded", same=((one / "f.pcap").read_bytes() == whole, True),
          verified=(dossier("verify", one)[0], 0), check=(run([PROGRAM, "check", one / "claim.json", one / "f.pcap",
                                                               one / "certificate.json"])[0], 0))


def test_kept_on_the_disk(place: Path) -> None:
    """What is packed is on the disk before the capture goes."""
    if not is_here("zstd", "what is packed is on the disk"):
        return
    from dossier.fleet.keeping import keep
    from dossier.folder.jobs import run_one
    from dossier.folder.result import Said
    from dossier.folder.registry import Known
    last = folder_of(place, "last")
    dossier("audit", "--state", place / "state", last)
    log, (fsync, unlink) = place / "log", (os.fsync, os.unlink)

    def noted(words: str) -> None:
        with open(log, "a") as opened:
            opened.write(f"{words}\n")

    def flushed(file: int) -> None:
        noted(f"disk {os.path.basename(os.readlink(f'/proc/self/fd/{file}'))}")
        fsync(file)

    def taken(name: Any, **how: Any) -> None:
        noted(f"away {os.path.basename(name)}")
        unlink(name, **how)
    with patch.object(os, "fsync", flushed), patch.object(os, "unlink", taken):
        run_one(str(last), lambda path, _: keep(path, False, Known(str(place / "state"), True)), Said)
    lines = log.read_text().splitlines()
    check("what is packed is on the disk before the capture goes", order=(
        [line for line in lines if line.startswith("disk ") or line == "away f.pcap"],
        ["disk f.pcap.zst", "disk last", "away f.pcap"]))


def test_kept_and_signed(place: Path) -> None:
    """What is kept is signed, and what is signed is kept; and its name stays."""
    if not (is_here("zstd", "what is kept is signed") and is_here("ssh-keygen", "what is kept is signed")):
        return
    (key, allowed), signed, one = key_of(place, "key"), audited(place, "signed"), audited(place, "one")
    (place / "signers").write_text(allowed)
    dossier("keep", one)
    check("what is kept is signed", run=(dossier("sign", "--key", key, one)[0], 0),
          verified=(dossier("verify", one)[0], 0))
    dossier("sign", "--key", key, signed)
    left = [(signed / name).read_bytes() for name in ("audit.json", "audit.json.sig")]
    check("what is signed is kept", run=(dossier("keep", signed)[:2], (0, f"{signed}: kept\n".encode())),
          same=([(signed / name).read_bytes() for name in ("audit.json", "audit.json.sig")], left),
          files=({"f.pcap", "f.pcap.zst"} & set(listed(signed)), {"f.pcap.zst"}),
          verified=(dossier("verify", "--signers", place / "signers", signed)[0], 0))
    names = {name_of(folder) for folder in (one, signed)}
    dossier("audit", "--again", one)
    check("a name for good", names=(names, {name_by_hand(signed)}), again=(name_of(one), name_by_hand(signed)))


def name_of(folder: Path) -> str:
    from dossier.folder.entry import read_record
    return read_record((folder / "audit.json").read_bytes()).name


YES_LEAVES = "certificate.json bound-0.claim.json refutation.json report.txt envelope.txt"


def name_by_hand(folder: Path, answers: str = YES_LEAVES) -> str:
    """What docs/AUDITING.md has somebody do."""
    script = ("for packed in *.zst; do [ -f \"$packed\" ] && zstd -dqf \"$packed\"; done; "
              f"sha256sum claim.json f*.pcap {answers} | LC_ALL=C sort -k 2 | sha256sum")
    return run(["sh", "-c", script], cwd=folder)[1].decode().split()[0]


def test_kept_by_strangers(place: Path) -> None:
    """Whatever lies in a folder that is kept: nothing but what was audited is verified, and nothing else taken away."""
    if not is_here("zstd", "folders of strangers that are kept"):
        return
    folder = audited(place, "host")
    dossier("keep", folder)
    kept = {path.name: path.read_bytes() for path in folder.iterdir()}
    other = (DATA / "vlan-ns.pcap").read_bytes()
    record = json.loads(kept["audit.json"])

    def forged(**changes: object) -> dict[str, bytes]:
        return {"audit.json": json.dumps({**record, **changes}).encode()}
    packed = run(["zstd", "-qc"], other)[1]
    swapped = {"f.pcap.zst": packed, **forged(kept={"sums": {"f.pcap": hashlib.sha256(packed).hexdigest()}})}
    for name, files, said, status in rows(
            ("another beside it", {"f.pcap": other}, "f.pcap isn't the file that was audited", 1),
            ("another in it", {"f.pcap.zst": packed}, "f.pcap isn't the file that was audited", 1),
            ("another with its sum", swapped, "f.pcap isn't the file that was audited", 1),
            ("a joined one", {"joined.pcap": other}, "joined.pcap isn't of this", 1),
            ("one that isn't there", {"f.pcap.zst": None}, "no capture in the folder", 4),
            ("a name that is no input's", forged(kept={"sums": {"g.pcap": "0" * 64}}), "isn't one that is taken", 2)):
        for file, data in files.items():
            (folder / file).write_bytes(data) if data is not None else (folder / file).unlink()
        found = dossier("verify", folder)
        check(f"kept with {name}", status=(found[0], status), said=(said in found[1].decode(), True),
              page=(table(folder)[0]["verdict"], lambda verdict: verdict in ("not verified", "refused")))
        before = kept_in(folder)
        state = {**ENVIRONMENT, "XDG_STATE_HOME": str(place / "none")}
        dossier("keep", "--years", "1", folder, env=state)
        check(f"nothing is taken away with {name}", same=(kept_in(folder) == before, True))
        for file in files:
            (folder / file).unlink(missing_ok=True)
        for file, data in kept.items():
            (folder / file).write_bytes(data)
    whole = audited(place, "whole")
    record = record_of(whole)
    (whole / "audit.json").write_bytes(forged(kept={"sums": {"f.pcap": "0" * 64}})["audit.json"])
    check("the sum of a packed file that isn't there",
          run=(dossier("verify", whole)[:2], (1, f"{whole}: f.pcap.zst isn't there\n".encode())),
          page=("0" * 64 in dossier("page", "--verify", whole)[1].decode(), False))


def test_kept_and_joined(place: Path) -> None:
    """A kept folder of a joined capture, which isn't kept and is made anew."""
    if not is_here("zstd", "a joined capture"):
        return
    joined, copy = folder_of(place, "joined"), place / "copy"
    (joined / "g.pcap").write_bytes((joined / "f.pcap").read_bytes()[:24])
    dossier("audit", joined)
    dossier("keep", joined)
    shutil.copytree(joined, copy)
    check("a joined capture is made anew", run=(dossier("audit", "--again", copy)[0], 0),
          there=(["joined.pcap" in listed(folder) for folder in (joined, copy)], [False, True]),
          said=("joined.pcap isn\u2019t kept: <code>ntpaudit-dossier" in dossier("page", joined)[1].decode(), True))
    (joined / "joined.pcap").write_bytes((DATA / "vlan-ns.pcap").read_bytes())
    check("kept with another joined capture", run=(dossier("verify", joined)[0], 1),
          page=(table(joined)[0]["verdict"], "not verified"))


def test_keep_refused(place: Path) -> None:
    """What can't be packed, isn't known here, or has a link in the packed file's place: nothing is changed."""
    if not is_here("zstd", "folders that can't be kept"):
        return
    odd, path = audited(place, "odd"), {**ENVIRONMENT, "PATH": f"{place}:{os.environ['PATH']}"}
    (odd / "f.pcap.zst").symlink_to(place / "victim")
    check("keep beside a link", run=(dossier("keep", odd)[0], 2), files=("f.pcap" in listed(odd), True),
          victim=((place / "victim").exists(), False))
    (odd / "f.pcap.zst").unlink()
    before = kept_in(odd)
    for name, script in (("lies", "echo nothing"), ("fails", "exit 1"),
                         ("is cut off", 'head -c 99 "$3" 2>/dev/null || cat')):
        runnable(place / "zstd", f"#!/bin/sh\n{script}\n")
        status, out, _ = dossier("keep", odd, env=path)
        check(f"a zstd that {name}", run=((status, b"f.pcap can't be packed" in out), (4, True)),
              same=(kept_in(odd) == before, True))
    check("keep without zstd", run=(dossier("keep", odd, env=bare_path(place))[0], 70),
          same=(kept_in(odd) == before, True))
    # Of a bound of its own, as in tests/dossier/test_hostile.py.
    stranger = folder_of(place, "stranger", bound_ns=5_000_002)
    dossier("audit", stranger, env={**ENVIRONMENT, "XDG_STATE_HOME": str(place / "none")})
    check("what isn't known isn't kept", run=(dossier("keep", stranger)[0], 5),
          files=("f.pcap" in listed(stranger), True))


def test_keep_older(place: Path) -> None:
    """What an older version audited is left as it is, which is no failure, and is told."""
    older, own = place / "older", audited(place, "own")
    shutil.copytree(DATA / "older/1.0.0/yes", older)
    before, form = kept_in(older), json.loads((older / "audit.json").read_text())["dossier"]
    dossier("verify", older)
    said = f"audited in form {form}, by an older version, and left as it is: ntpaudit-dossier audit makes it anew"
    for words in (), ("--force", "--years", "1"):
        ran = dossier("keep", *words, older)
        check(f"keep {words} of an older form", run=(ran, (0, f"{older}: {said}\n".encode(), b"")),
              same=(kept_in(older), before))
    (own / "audit.json").unlink()
    check("keep of no audit", run=(dossier("keep", own)[0], 4))


def test_years(place: Path) -> None:
    """Folders whose span ended long ago are taken away, if they are as they were audited, and no others."""
    old, lately, kept, changed, more = (good_folder(place, name) if name != "lately" else folder_of(place, name)
                                        for name in ("old", "lately", "kept", "changed", "more"))
    dossier("audit", old, lately, kept, changed, more)
    if not is_here("zstd", "years"):
        return
    dossier("keep", kept)
    check("years that aren't over", run=(dossier("keep", "--years", "90", kept)[0], 0), there=(kept.exists(), True))
    (changed / "report.txt").write_text("mine")
    for name in ("notes.txt", "claim.json.zst"):
        (more / name).write_text("mine")
    status, out, _ = dossier("keep", "--force", "--years", "20", old, kept, changed, more, lately)
    check("years", status=(status, 2),
          gone=([path.exists() for path in (old, kept, changed, more)], [False, False, True, True]),
          left=(listed(more), ["claim.json.zst", "notes.txt"]), changed=("f.pcap" in listed(changed), True),
          said=(out.decode().splitlines()[0], f"{old}: taken away"))
    dossier("keep", "--force", "--years", "1", lately)
    check("what ended lately", there=("claim.json" in listed(lately), True))


def test_clear(place: Path) -> None:
    """Recordings are taken away but the newest days', if folders of days have the same; and a tenth a call."""
    today = int(time.time()) // DAY * DAY
    recorder, days, names = recorded(place, range(-15 * 24, 0, 6), today)
    words = ("day", "--from", recorder, "--to", days, "--clear", "10")
    for wrong in (2099, 1970):  # (what was recorded while the clock was wrong)
        second = timegm((wrong, 12, 31, 23, 0, 0))
        ahead = capture_of(place / "whole.pcap", f"1:-1000..1000@{second % 2**32}x3").read_bytes()
        names.append(time.strftime("eth0-%Y-%m-%dT%H%M%SZ.pcap", time.gmtime(second)))
        (recorder / names[-1]).write_bytes(ahead)
    old = names[:60 - 4 * 9]  # (six days of four; 2099 is the tenth of those that stay, and 1970 the oldest)
    status, _, err = dossier(*words[:-2])
    changed, packed = (days / time.strftime("%Y-%m-%d", time.gmtime(today - 14 * DAY)) / names[at] for at in (4, 5))
    changed.write_bytes(changed.read_bytes()[:-1])
    if shutil.which("zstd"):
        run(["zstd", "-q", "--rm", packed])
    told, left = [], [len(list(recorder.glob("*.pcap")))]
    for _ in range(6):
        status, _, err = dossier(*words)
        told.append([line for line in err.decode().splitlines() if "taken away" in line])
        left.append(len(list(recorder.glob("*.pcap"))))
    kept = {path.name for path in recorder.glob("*.pcap")}
    check("recordings that are taken away", status=(status, 0),
          said=(told[0], ["6 recordings taken away, which folders of days have too"]),
          tenth=([before - after for before, after in zip(left, left[1:])], [6, 5, 5, 4, 3, 0]),
          kept=(sorted(set(old) & kept), [names[4]]), new=(set(names) - set(old) <= kept, True),
          named=(f"{names[-1]} is old and stays" in err.decode(), True))


# ---- systemd


UNITS = ROOT / "systemd"
RECORDER = "ntpaudit-record@.service"


def started_by(unit: str, state: Path) -> list[str]:
    """The words of what a unit begins, whose failure is the unit's."""
    command, = re.findall(r"^ExecStart=([^-].*)$", (UNITS / unit).read_text().replace("\\\n", ""), flags=re.M)
    return shlex.split(command.replace("%S", str(state)).replace("%I", "lo").replace("%%", "%").replace("$$", "$"))


def test_systemd_units(place: Path) -> None:
    """systemd takes the units, and finds them shut."""
    if not shutil.which("systemd-analyze"):
        skipped("systemd's units", wanting("systemd"))
        return
    names = (RECORDER, "ntpaudit-daily.service", "ntpaudit-now.service", "ntpaudit-daily.timer", "ntpaudit-now.timer")
    for name in names:
        text = (UNITS / name).read_text().replace("=ntpaudit-dossier ", f"={SCRIPT} ")
        (place / name.replace("@.", "@lo.")).write_text(text)
    check("what each unit begins is its own", words=([started_by(name, place)[0] for name in names[:3]],
                                                     ["ntpaudit-dossier", "sh", "ntpaudit-dossier"]))
    own = [place / name.replace("@.", "@lo.") for name in names]
    check("systemd-analyze verify", run=(run(["systemd-analyze", "verify", "--man=no", *own]), (0, b"", b"")))
    for unit in own[:3]:
        status, out, _ = run(["systemd-analyze", "security", "--offline=yes", "--threshold=20", "--no-pager", unit])
        check(f"systemd-analyze security {unit.name}", status=(status, 0), told=(b"exposure level" in out, True))


def test_recorder(place: Path) -> None:
    """The recorder's command, called by hand: the names of its files are read by `day`."""
    check("the recorder's unit",
          claim=("ntpaudit/days\n" in re.findall(r"StateDirectory=.*\n", (UNITS / RECORDER).read_text())[0], True))
    if why := why_no_recording():
        skipped("the recorder's command", why)
        return
    (place / "ntpaudit" / "record").mkdir(parents=True)
    words = started_by(RECORDER, place)
    words[0] = str(shutil.which(words[0], path=ROOT))
    until_it_listens(words, ENVIRONMENT)
    from dossier.fleet.day import recordings
    from dossier.folder.files import Folder
    with Folder(str(place / "ntpaudit" / "record")) as folder:
        found, ahead = recordings(folder)
        captures = [name for name in folder.names() if name.endswith(".pcap")]
        check("the recorder's files", read=(([one.name for one in found], ahead), (captures, [])),
              some=(len(captures), 1),
              now=([abs(one.begin - time.time()) < SECONDS and one.grows for one in found], [True] * len(captures)),
              beside=([name for name in folder.names() if name not in captures],
                      ["evidence.json", "lo.recorder.json", "lo.recording"]))


def test_daily(place: Path) -> None:
    """What the daily unit begins, called by hand: folder, audit, page and metrics of a day."""
    state = place / "ntpaudit"
    state.mkdir()
    recorder, days, _ = recorded(state, range(-30, 30))
    environment = {**ENVIRONMENT, "XDG_STATE_HOME": str(place), "PATH": f"{ROOT}:{os.environ['PATH']}"}
    *words, script = started_by("ntpaudit-daily.service", place)
    script = script.replace("day --from", "day --date 2001-09-09 --from")
    status, _, err = run([*words, script], env=environment, cwd=days)
    check("the daily unit", run=((status, err), (0, b"")))
    check_page("the page of the daily unit", (state / "pages" / "index.html").read_text(),
               ["2001/index.html", "2001-09-09.html"])
    check_page("the year of the daily unit", (state / "pages" / "2001" / "index.html").read_text(),
               [f"{called(days)}.html"] * 2)
    ones = [dict(labels) for (name, *labels), value in metrics_of(state / "ntpaudit.prom").items()
            if name == "verdict" and value == "1"]
    check("the metrics of the daily unit", ones=(ones, [{"folder": "2001-09-09", "verdict": "yes"}]))
    check("the record of the daily unit", there=((state / "audits").exists(), True))


def test_daily_failing(place: Path) -> None:
    """Each step of the daily unit that fails stops no other, and the unit fails; a clock that isn't shown is none."""
    (place / "bin").mkdir()
    for day in range(1, 10):
        (place / "days" / f"2001-09-0{day}").mkdir(parents=True)
    runnable(place / "bin/ntpaudit-dossier", f"""#!/bin/sh
echo "$*" >>{place}/called
case "$*" in *--clear*) ;; day*) [ "$FAILS" = day ] || printf '2001-09-0%s\\n' 1 2 3 4 5 6 7 8 9;; esac
case "$*" in $FAILS*) exit "$STATUS";; esac
""")
    steps = ["day --from ../record --to .", "audit 2001-09-03", "page --split", "page --csv", "keep --years",
             "day --from ../record --to . --clear 10"]
    for number, fails in enumerate(("none", "audit", "page --split", "page --csv", "keep", "day*--clear", "day")):
        for status in (1, 2, 4):
            (place / "called").unlink(missing_ok=True)
            ran = run(started_by("ntpaudit-daily.service", place), cwd=place / "days", env={
                **ENVIRONMENT, "PATH": f"{place}/bin:{os.environ['PATH']}", "FAILS": fails, "STATUS": str(status)})
            called = (place / "called").read_text().splitlines()
            wanted = steps if fails != "day" else [steps[0], steps[4], steps[5]]
            is_one = fails != "none" and (status > 1 or fails == "day")
            check(f"the daily unit if {fails} ends with {status}", status=(ran[0], int(is_one)),
                  called=([line.startswith(step) for line, step in zip(called, wanted)], [True] * len(wanted)),
                  count=(len(called), len(wanted)))
