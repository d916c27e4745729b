#!/usr/bin/env python3
# SPDX-License-Identifier: Apache-2.0
"""What a run of the gate costs: runs `rt ci` and keeps, for each crate, the seconds of a processor that went into its proof,
into the proof of its tests and into its wrong bodies, and for each wrong body its own. The tables are written anew every
minute, so that a run that is ended leaves what it saw, and they are printed at the end.

gate.py [--to FILE] [WORD ..]     (WORDs go to rt ci; FILE is bench/out/gate.md where none is named)

Run it on a machine that has nothing kept for a run from nothing. The seconds are read from /proc four times a second, so each
process may lack its last quarter of a second.
"""
import collections
import os
import subprocess
import sys
import threading
import time

TICK = os.sysconf("SC_CLK_TCK")
KINDS = ("proof", "tests", "edits", "other")
FILE = os.path.join(os.path.dirname(os.path.abspath(__file__)), "out", "gate.md")


def words_of(pid):
    """The words of a process, none where it has ended."""
    try:
        with open(f"/proc/{pid}/cmdline", "rb") as file:
            return file.read().decode(errors="replace").split("\0")[:-1]
    except OSError:
        return []


def folder_of(pid):
    """The folder that a process works in, none where it has ended."""
    try:
        return os.readlink(f"/proc/{pid}/cwd")
    except OSError:
        return ""


def seconds_of(pid):
    """The parent of a process and the seconds of a processor that it took itself."""
    try:
        with open(f"/proc/{pid}/stat", "rb") as file:
            fields = file.read().rpartition(b")")[2].split()
    except OSError:
        return None
    return int(fields[1]), (int(fields[11]) + int(fields[12])) / TICK


def body_of(words, crate):
    """Which wrong body a check tries, by the folder that it goes on from: seed for the crate as it stands, else a number. One
    that goes on from none is the crate's only one, or is tried once more."""
    start = words[words.index("--incremental") + 1] if "--incremental" in words else ""
    number = os.path.basename(start)
    if number == "seed":
        return "(as it stands)"
    folder = os.path.join("crates", crate, "must-fail")
    names = sorted(name for name in os.listdir(folder) if name.endswith(".edit")) if os.path.isdir(folder) else []
    if not number and len(names) == 1:
        number = "0"
    return names[int(number)][: -len(".edit")] if number.isdigit() and int(number) < len(names) else "(from nothing)"


def kind_of(pid):
    """Which crate a process of the toolchain works for, at what, and which wrong body it tries. Such a body is checked in a
    copy of its crate."""
    words = words_of(pid)
    if "--crate-name" not in words:
        return "(rt)", "other", ""
    crate = words[words.index("--crate-name") + 1]
    if "--test" in words or "--tests" in words:
        return crate, "tests", ""
    if "/rt-edit" in folder_of(pid):
        return crate, "edits", body_of(words, crate)
    return crate, "proof", ""


def look(root, taken, known):
    """Notes for each process below root the most seconds that it was seen with."""
    seen = {int(name): seconds_of(name) for name in os.listdir("/proc") if name.isdigit()}
    parents = {pid: it for pid, it in seen.items() if it}
    for pid, (parent, seconds) in parents.items():
        above = parent
        while above in parents and above != root:
            above = parents[above][0]
        if above != root and pid != root:
            continue
        if pid not in known or known[pid][0] == "(rt)":
            known[pid] = kind_of(pid)
        key = (pid, *known[pid])
        taken[key] = max(taken.get(key, 0), seconds)


def table_of(taken, minutes):
    """The tables in Markdown, the dearest crate and the dearest wrong body first."""
    rows = collections.defaultdict(lambda: dict.fromkeys(KINDS, 0.0))
    bodies = collections.Counter()
    for (_, crate, kind, body), seconds in taken.items():
        rows[crate][kind] += seconds
        if kind == "edits":
            bodies[crate, body] += seconds
    whole = {kind: sum(row[kind] for row in rows.values()) for kind in KINDS}
    lines = ["| Crate | Proof | Tests | Wrong bodies | Other | Sum |", "|---|---|---|---|---|---|"]
    for crate, row in [*sorted(rows.items(), key=lambda it: -sum(it[1].values())), ("all", whole)]:
        lines.append(f"| {crate} | " + " | ".join(f"{row[kind]:.0f}" for kind in KINDS) + f" | {sum(row.values()):.0f} |")
    lines.append(f"\n{sum(whole.values()) / 60:.0f} minutes of a processor, {minutes:.0f} by the clock\n")
    lines += ["| Crate | Wrong body | Seconds |", "|---|---|---|"]
    lines += [f"| {crate} | {body} | {seconds:.0f} |" for (crate, body), seconds in bodies.most_common()]
    return "\n".join(lines) + "\n"


def keep(file, text):
    """Writes the file whole or not at all."""
    os.makedirs(os.path.dirname(os.path.abspath(file)), exist_ok=True)
    with open(file + ".new", "w", encoding="utf-8") as out:
        out.write(text)
    os.replace(file + ".new", file)


def watch(root, file, taken, ended):
    """Looks until the run has ended, and keeps the table every minute."""
    start = kept = time.time()
    known = {}
    while not ended.is_set():
        look(root, taken, known)
        if time.time() - kept > 60:
            kept = time.time()
            keep(file, table_of(taken, (kept - start) / 60))
        time.sleep(0.25)
    keep(file, table_of(taken, (time.time() - start) / 60))


def main():
    words, file = sys.argv[1:], FILE
    if words[:1] == ["--to"] and len(words) > 1:
        file, words = words[1], words[2:]
    run = subprocess.Popen(["rt", "ci", *words])
    taken, ended = {}, threading.Event()
    watcher = threading.Thread(target=watch, args=(run.pid, file, taken, ended))
    watcher.start()
    status = run.wait()
    ended.set()
    watcher.join()
    with open(file, encoding="utf-8") as table:
        print("\n" + table.read(), end="")
    return status


sys.exit(main())
