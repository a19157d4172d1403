#!/usr/bin/env -S python3 -B
"""Programs of others that judge what the daemon is delivered with: promtool its alarms and its
counts, lintian its package, mandoc its manuals, systemd-analyze its unit.

A program that is not installed is installed where that may be done; else a line says so, and
nothing is counted for it. The last line is 'N passed, M failed'.
"""
import json
import re
import shutil
import sys
import tempfile
from pathlib import Path

from daemons import HOME, PACKAGING, Tree, binaries, counted
from runner import HERE
import debian
from programs import Cases, answered, paragraphs, ran

ALARMS = PACKAGING / "alarms.yml"
# When an alarm is tried, if it says no other time.
USUAL = "10m15s"
# The exposure by which systemd-analyze judges the unit is at most this, times ten.
EXPOSURE = 15
# By alarm its series, of agents that are well, have too little of the trouble, and have it.
CASES = {it["alarm"][0]: it for it in paragraphs(HERE / "alarms.rows")}


def trial(alarm, summary):
    """What promtool has to try for an alarm, as of its file of tests."""
    series = []
    for name, *agents in (it.split(" | ") for it in CASES[alarm]["series"]):
        name, _, labels = name.removesuffix("}").partition("{")
        for agent, values in zip(("well", "brief", "bad"), agents):
            series.append({"series": f'rignolda_{name}{{instance="{agent}",{labels}}}',
                           "values": values})
    labels = {"instance": "bad", **dict(re.findall(r'(\w+)="(\w+)"', CASES[alarm]["series"][0]))}
    fires = [{"exp_labels": labels, "exp_annotations": {"summary": summary}}]
    return {"interval": "15s", "input_series": series, "alert_rule_test": [
        {"eval_time": "0s", "alertname": alarm},
        {"eval_time": CASES[alarm].get("late", [USUAL])[0], "alertname": alarm, "exp_alerts": fires}]}


def prometheus(cases, room):
    """Whether Prometheus loads the alarms, and each fires for what it has to and else not; whether
    it likes what a root and its child count, and can read what the dashboard asks for."""
    cases.works("Prometheus loads the alarms", "promtool", "check", "rules", ALARMS)
    known = dict(re.findall(r"- alert: (\w+)$.*?summary: (.*?)$", ALARMS.read_text(),
                            re.MULTILINE | re.DOTALL))
    cases.holds("each alarm has a case here", set(known) == set(CASES), set(known) ^ set(CASES))
    for alarm in sorted(set(known) & set(CASES)):
        file = room / f"{alarm}.yml"
        file.write_text(json.dumps({
            "rule_files": [str(ALARMS)], "evaluation_interval": "15s",
            "tests": [trial(alarm, known[alarm])]}))
        cases.works(f"the alarm {alarm} fires where it has to", "promtool", "test", "rules", file)
    with Tree({"left": "root"}, counted) as tree:
        tree.write("colour", "green")
        tree.start()
        cases.holds("a tree is ready", tree.ready())
        for agent in tree:
            status, *said = answered("promtool", "check", "metrics", given=agent.counts())
            cases.holds(f"Prometheus likes the counts of {agent.name}", status == 0, said)
    panels = json.loads((PACKAGING / "dashboard.json").read_text())["panels"]
    asked = [target["expr"] for panel in panels for target in panel["targets"]]
    rules = [{"record": f"asked{at}", "expr": it} for at, it in enumerate(asked)]
    file = room / "dashboard.yml"
    file.write_text(json.dumps({"groups": [{"name": "dashboard", "rules": rules}]}))
    cases.works("Prometheus reads what the dashboard asks for", "promtool", "check", "rules", file)
    cases.holds("each panel asks for something, and has a place of its own",
                all(panel["targets"] for panel in panels)
                and len({json.dumps(panel["gridPos"]) for panel in panels}) == len(panels))


def package(cases, room):
    """What lintian says of the package."""
    if shutil.which("dpkg-deb"):
        file = room / "rignoldad.deb"
        cases.works("a package is made", "make", "-s", "-C", PACKAGING, "deb", f"BIN={binaries()}",
                    f"PACKAGE={file}")
        cases.works("lintian finds no error in the package", "lintian", "--allow-root", "--fail-on",
                    "error", file)


def manuals(cases, _):
    for manual in sorted(PACKAGING.glob("*.[158]")):
        cases.works(f"mandoc warns of nothing in {manual.name}", "mandoc", "-T", "lint", "-W",
                    "warning", manual)


def unit(cases, room):
    """What systemd says of the unit, where its programs are."""
    file = room / "rignoldad.service"
    text = (PACKAGING / "rignoldad.service").read_text()
    # (the manuals are not installed here)
    text = text.replace("/usr/bin/rignoldad", str(binaries() / "rignoldad"))
    file.write_text(re.sub("^Documentation=.*\n", "", text, flags=re.MULTILINE))
    status, said = ran("systemd-analyze", "verify", file)
    cases.holds("the unit is one", status == 0 and not said.strip(), said)
    cases.works("and exposes little", "systemd-analyze", "security", "--offline=true", "--no-pager",
                f"--threshold={EXPOSURE}", file)


# By the program the package of Debian that has it, and what it judges.
PROGRAMS = {"promtool": ("prometheus", prometheus), "lintian": ("lintian", package),
            "mandoc": ("mandoc", manuals), "systemd-analyze": ("systemd", unit)}


def threats(cases):
    """Whether each cell of Threats is that of a row of tests which exist."""
    cells = lambda page: {row[1]: row[2:4] for row in (
        [cell.strip() for cell in line.split("|")] for line in
        (HOME / page).read_text().partition("## Threats")[2].splitlines()) if len(row) == 5}
    said, tried = cells("docs/DAEMON.md"), cells("tests/README.md")
    cases.holds("each threat has its tests", said.keys() == tried.keys(),
                said.keys() ^ tried.keys())
    files = [*HERE.iterdir(), *HOME.glob("rust/*/tests/*.rs"), *HOME.glob("rust/*/src/**/*.rs")]
    text = "\n".join(file.read_text() for file in files if file.is_file())
    there = set(re.findall(r"\b(?:def|fn) (\w+)\b|^(\w+)\(\)", text, re.MULTILINE))
    for who in list(said)[2:]:
        for cell, names in zip(said[who], tried.get(who, ["", ""])):
            tests = re.findall("`(.*?)`", names)
            lacking = [it for it in tests if not {(it, ""), ("", it)} & there]
            cases.holds(f"what is said of who is {who} is tried", bool(cell) == bool(tests)
                        and not lacking, f"{cell} {lacking}", quiet=True)


def main():
    cases = Cases()
    threats(cases)
    debian.install(*(of for name, (of, _) in PROGRAMS.items() if not shutil.which(name)))
    with tempfile.TemporaryDirectory() as room:
        for name, (of, judged) in PROGRAMS.items():
            if shutil.which(name):
                judged(cases, Path(room))
            else:
                print(f"what {name} says is NOT TRIED: apt-get install {of}")
    return cases.sum_up()


if __name__ == "__main__":
    sys.exit(main())
