#!/usr/bin/env python3
"""Measures how good the program's plans are and what they take, and writes docs/PERFORMANCE.md and docs/gap.svg.

    bench/numbers.py [TABLE ..] [--program FILE] [--jobs N] [--try FOLDER]
    bench/numbers.py --draw

TABLE is sizes, plan, free, split, side, files or solvers; all but solvers where none is named. What was measured is
kept in bench/numbers.json, table by table, and the tables of the page, what it says in short and the plot are made of
that; the words around them are written by hand and stay. So a run that was stopped is taken up by naming the tables that
it didn't come to, and `--draw` measures nothing. N processes share what is counted and not timed, 2 where it isn't given.
With `--try` few ships are planned, each call is timed once, and all that is written goes to FOLDER.

Which program FILE is, trials/tried.py says. Else Python's standard library is enough; side needs a C++ compiler, and
solvers what bench/general.py tells.
"""
import sys

sys.dont_write_bytecode = True  # no folder of compiled files beside the scripts
sys.path.append(sys.path.pop(0))  # behind the standard library, which has a module of this file's name

# ruff: noqa: E402
import argparse
import contextlib
import ctypes
import datetime
import json
import math
import os
import pathlib
import re
import shutil
import statistics
import subprocess
import tempfile
import time
from concurrent.futures import ProcessPoolExecutor, ThreadPoolExecutor

import gap
import general
import ships
import split

ROOT = pathlib.Path(__file__).resolve().parent.parent
sys.path.append(str(ROOT / "trials"))

from tried import add_program, program_of

USUAL, MOST = 20_000, 100_000  # branchings where none are given, and the most that are tried
PARTS = 8  # the first round of a search leaves one in so many branchings to the others

# Hatches and cranes of the made ships of the first table.
SIZES = [(8, 2), (10, 3), (12, 3), (15, 3), (20, 4), (30, 5), (40, 6), (50, 7), (60, 8)]
# The ships that are told one by one, and those that are searched with no and with the most branchings too.
SHIPS = [
    ("made", [(1, 8, 2), (2, 10, 3), (2, 12, 3), (1, 20, 4), (2, 20, 4), (2, 30, 5), (2, 60, 8)]),
    ("kim", [(1, 10, 2), (3, 20, 3), (5, 30, 4), (6, 35, 4), (7, 45, 6), (8, 60, 8)]),
    ("vessel", [(1, 8, 2), (2, 12, 3), (3, 20, 4), (4, 30, 5), (5, 40, 6), (6, 60, 8)]),
    ("full", [(1, 8, 2), (1, 12, 3), (1, 20, 4), (1, 30, 5), (1, 40, 6), (1, 60, 8)]),
]
THRICE = [("made", (2, 12, 3)), ("made", (2, 20, 4)), ("made", (2, 30, 5)), ("made", (2, 60, 8)), ("vessel", (3, 20, 4)),
          ("full", (1, 60, 8))]
BESIDE = [("made", (2, 10, 3)), ("made", (2, 12, 3)), ("made", (2, 20, 4)), ("made", (2, 30, 5)), ("made", (2, 60, 8)),
          ("full", (1, 60, 8))]
SOLVED = [(1, 9, 3), (1, 15, 3), (1, 20, 4)]  # the first numbers with 35, 58 and 78 tasks


# ---------------------------------------------------------------- runs

# Forks a shell that waits for the end of its input and then becomes the program, says which process that is, and ends.
START = 'exec 3<&0; { read line <&3; exec "$@" 3<&-; } 2>/dev/null & echo $! >&2'


class Run:
    """A run of the program: its status, the lines of its report, its processor seconds, and the most memory in MB.

    It is the child of a shell that is gone before it starts, and so falls to this process: what this one holds itself
    would count as its memory otherwise.
    """

    def __init__(self, program, *words):
        reader, writer = os.pipe()
        with tempfile.TemporaryFile("w+", encoding="ascii") as report:
            shell = subprocess.run(["sh", "-c", START, "sh", program, *words], stdin=reader, stdout=report,
                                   stderr=subprocess.PIPE, text=True, check=True)
            os.close(reader)
            os.close(writer)
            _, status, used = os.wait4(int(shell.stderr), 0)
            report.seek(0)
            self.lines = report.read().splitlines()
        self.status = os.waitstatus_to_exitcode(status)
        self.seconds, self.memory = used.ru_utime + used.ru_stime, used.ru_maxrss / 1024

    @property
    def told(self):
        return dict(line.split(" ", 1) for line in self.lines if " " in line)


def take_orphans():
    """Makes this process the parent of what its children leave behind (PR_SET_CHILD_SUBREAPER of Linux)."""
    if ctypes.CDLL(None, use_errno=True).prctl(36, 1, 0, 0, 0) != 0:
        raise OSError(ctypes.get_errno(), "prctl")


@contextlib.contextmanager
def written(**texts):
    """A folder with these files, each given as lines."""
    with tempfile.TemporaryDirectory() as folder:
        for name, lines in texts.items():
            pathlib.Path(folder, name).write_text("\n".join(lines) + "\n", encoding="ascii")
        yield pathlib.Path(folder)


def least(program, runs, *words):
    """The least processor seconds of several runs, and the most memory and the report of any."""
    found = [Run(program, *words) for _ in range(runs)]
    return min(run.seconds for run in found), max(run.memory for run in found), found[0]


def number(text):
    return int(text) if text is not None and text.isdigit() else None


def search(program, command, kind, numbers, nodes):
    """What a search comes to on a ship that is made from numbers, and what it takes."""
    ship, stow = ships.KINDS[kind](*numbers)
    with written(ship=ship, stow=stow) as folder:
        names = [folder / name for name in ("ship", "stow", "plan", "tree")]
        tasks = sum(line.startswith("task ") for line in Run(program, "tasks", *names[:2]).lines)
        run = Run(program, command, *names, "--nodes", str(nodes))
    if run.status not in (0, 11, 12):
        raise ValueError(f"{command} of {kind} {numbers} ends with {run.status}: {run.lines[0]}")
    told = {name: number(run.told.get(name)) for name in ("given", "end", "bound", "branched")}
    return {"command": command, "ship": f"{kind} {' '.join(map(str, numbers))}", "tasks": tasks, "cranes": numbers[2],
            "moves": len(stow) - 1, "nodes": nodes, "ended": run.lines[0], **told, "seconds": run.seconds,
            "memory": run.memory}


# ---------------------------------------------------------------- what is measured, row by row

def searches(words, asked):
    """What searches come to, a few side by side: each takes a processor of its own."""
    with ThreadPoolExecutor(words.jobs) as pool:
        yield from pool.map(lambda it: search(words.program, *it), asked)


def measure_sizes(words):
    firsts = range(1, (2 if words.few else 10) + 1)
    return searches(words, [(command, "made", (first, *size), USUAL)
                            for size in SIZES for first in firsts for command in ("plan", "free")])


def measure_ships(command, words):
    asked = []
    for kind, all_numbers in SHIPS:
        for numbers in all_numbers[:2] if words.few else all_numbers:
            more = (kind, numbers) in THRICE
            asked += [(command, kind, numbers, nodes) for nodes in (0, USUAL, MOST)
                      if nodes == USUAL or more and (nodes or command == "plan")]
    return searches(words, asked)


def measure_split(words):
    count = 10 if words.few else 200
    with ProcessPoolExecutor(words.jobs) as pool:
        yield from pool.map(split.compare, range(1, count + 1), [words.program] * count)


def measure_side(words):
    """A branching of the program and of plain C++, by turns; C++ begins with the plan that the program began with."""
    with tempfile.TemporaryDirectory() as folder:
        side = os.path.join(folder, "side")
        compiler = next(filter(None, map(shutil.which, ("g++", "clang++", "c++"))))
        subprocess.run([compiler, "-O2", "-std=c++20", "-o", side, ROOT / "bench/side.cpp"], check=True)
        for kind, numbers in BESIDE[:2] if words.few else BESIDE:
            yield beside(words.program, side, kind, numbers, (1, 1) if words.few else (7, 40))


def beside(program, side, kind, numbers, runs):
    ship, stow = ships.KINDS[kind](*numbers)
    with written(ship=ship, stow=stow) as folder:
        names = [folder / name for name in ("ship", "stow", "plan", "tree")]
        dump = [sys.executable, ROOT / "trials/reference.py", "--dump", *names[:2]]
        (folder / "numbers").write_bytes(subprocess.run(dump, capture_output=True, check=True).stdout)
        calls = {"first": ("plan", *names, "--nodes", "0"), "plan": ("plan", *names), "free": ("free", *names)}
        took, told, plain = {name: [] for name in calls}, {}, {"plan": [], "free": []}
        fewest, most = runs
        ends = time.monotonic() + 4  # short runs are taken more often, since theirs are of a few milliseconds
        while len(took["first"]) < fewest or len(took["first"]) < most and time.monotonic() < ends:
            for name, words in calls.items():
                run = Run(program, *words)
                told[name] = [run.lines[0]] + [run.told[word] for word in ("end", "bound", "branched", "given")]
                took[name].append(run.seconds)
            for name, words in (("plan", ()), ("free", ("--free",))):
                words = [side, *words, "--rounds", str(PARTS), folder / "numbers", told[name][-1], str(USUAL), folder / "plain"]
                lines = subprocess.run(words, capture_output=True, text=True, check=True).stdout.splitlines()
                if [line.split()[-1] for line in lines[:4]] != told[name][:4]:
                    raise ValueError(f"{kind} {numbers}: {name} in C++ comes to {lines}, and not to {told[name]}")
                plain[name].append(float(lines[4].split()[1]))
    row = {"ship": f"{kind} {' '.join(map(str, numbers))}"}
    for name, without in (("plan", "first"), ("free", "plan")):
        branched = int(told[name][3])
        row[name] = {"branched": branched, "plain": min(plain[name]),
                     "own": 1e6 * (min(took[name]) - min(took[without])) / branched}
    return row


def measure_files(words):
    """What each command takes on a full ship, with trees of the most branchings and long logs."""
    runs = 1 if words.few else 5
    nodes = 1000 if words.few else MOST
    ship, stow = ships.full(1, 60, 8)
    with written(ship=ship, stow=stow) as folder:
        files = [folder / "ship", folder / "stow"]
        plan, tree, log = folder / "plan", folder / "tree", folder / "log"
        for name, search_by in (("check", "plan"), ("freecheck", "free")):
            search_through(folder / "pipe", tree, words.program, search_by, *files, plan, nodes=nodes)
            lines, size = len(tree.read_text().splitlines()), tree.stat().st_size / 1e6
            yield timed(words.program, runs, f"a tree of {lines:,} lines, {size:.1f} MB", name, *files, plan, tree)
        yield timed(words.program, runs, "the ship file and the list alone", "tasks", *files)
        for name in ("show", "sheet", "picture", "report"):
            yield timed(words.program, runs, "a plan", name, *files, plan)
        text = plan.read_text().splitlines()
        (folder / "late").write_text("\n".join(ships.later(text, 10**12 - 1)) + "\n")
        yield timed(words.program, runs, "the plan so late that it ends at tick 999,999,999,999", "show", *files,
                    folder / "late")
        happened = ships.happened(text, 99_000)
        log.write_text("\n".join(happened) + "\n")
        yield timed(words.program, runs, f"the plan and a log of {len(happened):,} lines", "dispatch", *files, plan, log)
    ship, places = ships.places(200_000, 8)
    with written(ship=ship, log=places) as folder:
        yield timed(words.program, runs, f"a log of {len(places):,} places of eight cranes", "watch", folder / "ship",
                    folder / "log")


def search_through(pipe, tree, program, command, *files, nodes):
    """Searches with all branchings in one round, as where the tree goes to a pipe: no greater tree comes of so many."""
    if not pipe.exists():
        os.mkfifo(pipe)
    with tree.open("wb") as file, subprocess.Popen(["cat", pipe], stdout=file):
        Run(program, command, *files, pipe, "--nodes", str(nodes))


def timed(program, runs, what, command, *files):
    seconds, memory, run = least(program, runs, command, *files)
    if run.status not in (0, 14):
        raise ValueError(f"{command} ends with {run.status}: {run.lines[0]}")
    return {"command": command, "what": what, "first": run.lines[0][:40], "last": run.lines[-1][:40], "seconds": seconds,
            "memory": memory}


def measure_solvers(words):
    for numbers in SOLVED[:1] if words.few else SOLVED:
        for nodes in (USUAL, MOST):
            row = search(words.program, "plan", "made", numbers, nodes)
            yield {**row, "by": f"`qc`, {row['branched']:,} branchings",
                   "proved": "the best" if row["ended"] == "Optimal" else "no"}
            if row["ended"] == "Optimal":
                break
        for told in general.solved(*ships.made(*numbers), 10 if words.few else 60):
            yield {"ship": row["ship"], "tasks": row["tasks"], "cranes": row["cranes"], **told}


# ---------------------------------------------------------------- tables

def text(value, places=None):
    return "none" if value is None else f"{value:,}" if places is None else f"{value:,.{places}f}"


def seconds_text(seconds):
    return f"{seconds:.3f}" if seconds < 0.1 else f"{seconds:.2f}" if seconds < 10 else f"{seconds:.1f}"


def gap_of(row):
    """By how many in a hundred the end lies above the bound; without a plan it is no number."""
    return math.inf if row["end"] is None else 100 * max(0, row["end"] - row["bound"]) / row["end"]


def gap_text(percent):
    return "0" if percent == 0 else "none" if percent == math.inf else f"{percent:.2f}"


def table(heads, rows):
    yield "| " + " | ".join(heads) + " |"
    yield "|" + "---|" * len(heads)
    for row in rows:
        yield "| " + " | ".join(row) + " |"


def middle_and_most(values, form):
    return f"{form(statistics.median(values))}, {form(max(values))}"


def span(values):
    return f"{min(values):,}" if min(values) == max(values) else f"{min(values):,} to {max(values):,}"


def cells_of(rows):
    """How many ships are Optimal, and the middle and the greatest of gap and seconds."""
    return [f"{sum(row['ended'] == 'Optimal' for row in rows)} of {len(rows)}",
            middle_and_most([gap_of(row) for row in rows], gap_text),
            middle_and_most([row["seconds"] for row in rows], seconds_text)]


def table_groups(head, groups):
    """A row for each group of ships: its name, and the rows of both commands."""
    lines = []
    for name, rows in groups:
        if rows:
            lines.append([name] + [span([row[it] for row in rows]) for it in ("tasks", "moves")])
            for command in ("plan", "free"):
                lines[-1] += cells_of([row for row in rows if row["command"] == command])
    return table([head, "Tasks", "Moves", "`plan`: Optimal", "gap %", "s", "`free`: Optimal", "gap %", "s"], lines)


def table_sizes(rows):
    return table_groups("Hatches, cranes", [(f"{hatches}, {cranes}", [row for row in rows if row["ship"].endswith(
        f" {hatches} {cranes}")]) for hatches, cranes in SIZES])


def table_kinds(kept):
    """The ships that are searched one by one, by kind, with the usual number of branchings."""
    rows = [{**row, "command": name} for name in ("plan", "free") for row in kept.get(name, {}).get("rows", [])
            if row["nodes"] == USUAL]
    return table_groups("Kind", [(f"`{kind}`", [row for row in rows if row["ship"].startswith(f"{kind} ")])
                                 for kind, _ in SHIPS if kind != "made"])


def gains(rows):
    """By how many in a hundred the first plan ends before the split, of the ships that have both."""
    return [100 * (row["split"] - row["end"]) / row["split"] for row in rows if None not in (row["split"], row["end"])]


def table_split(rows):
    gained = gains(rows)
    earlier, counts = [gain for gain in gained if gain > 0], []
    counts.append(["ends earlier", len(earlier), f"by {statistics.median(earlier):.1f} % in the middle, "
                   f"{max(earlier):.1f} at most" if earlier else ""])
    counts.append(["ends at the same tick", gained.count(0), ""])
    counts.append(["ends later", sum(gain < 0 for gain in gained), ""])
    for name, has_split, has_plan in (("has a plan where there is no such split", False, True),
                                      ("has none where there is a split", True, False),
                                      ("has none, and there is no such split", False, False)):
        count = sum((row["split"] is not None, row["end"] is not None) == (has_split, has_plan) for row in rows)
        counts.append([name, count, ""])
    return table([f"Of {len(rows)} random ships `plan --nodes 0`", "Ships", ""],
                 [[name, text(count), said] for name, count, said in counts])


def table_side(rows):
    cells = []
    for row in rows:
        cells.append([f"`{row['ship']}`"])
        for name in ("plan", "free"):
            own, plain = row[name]["own"], row[name]["plain"]
            cells[-1] += [text(row[name]["branched"]), f"{own:.1f}", f"{plain:.1f}", f"{own / plain:.1f}"]
    return table(["Ship", "`plan`: branchings", "µs", "C++ µs", "times", "`free`: branchings", "µs", "C++ µs", "times"],
                 cells)


# ---------------------------------------------------------------- in short, and what was taken when

def short(kept):
    """What the tables come to, a line each."""
    for command in ("plan", "free"):
        rows = [row for row in kept.get("sizes", {}).get("rows", []) if row["command"] == command]
        if rows:
            optimal, gaps = sum(row["ended"] == "Optimal" for row in rows), [gap_of(row) for row in rows]
            yield (f"- `{command}`: of {len(rows)} made ships of {span([int(row['ship'].split()[2]) for row in rows])} "
                   f"hatches {optimal} are shown to be `Optimal` within {USUAL:,} branchings; the others leave a gap of "
                   f"{max(gaps):.2f} % at most, of {statistics.median(gap for gap in gaps if gap):.2f} % in the middle. "
                   f"The longest takes {seconds_text(max(row['seconds'] for row in rows))} processor seconds, and "
                   f"none more than {max(row['memory'] for row in rows):.1f} MB.")
            earlier = [row["given"] - row["end"] for row in rows if row["end"] < row["given"]]
            if command == "free":
                yield (f"- Cranes that may go to and fro end earlier than the best plan of `plan` on {len(earlier)} of "
                       f"these ships" + (f", by {span(earlier)} ticks." if earlier else "."))
    full = [row for row in kept.get("plan", {}).get("rows", []) if row["moves"] > 40_000 and row["nodes"] == USUAL]
    for row in full:
        yield (f"- A full ship of {row['tasks']} tasks and {row['moves']:,} moves on {row['cranes']} cranes: "
               f"`{row['ended']}`, gap {gap_text(gap_of(row))} %, {seconds_text(row['seconds'])} processor seconds, "
               f"{row['memory']:.1f} MB.")
    usual = {row["ship"]: row for row in kept.get("plan", {}).get("rows", []) if row["nodes"] == USUAL}
    most = [row for row in kept.get("plan", {}).get("rows", []) if row["nodes"] == MOST]
    if most:
        yield (f"- With {MOST:,} branchings {sum(row['ended'] == 'Optimal' for row in most)} of {len(most)} ships are "
               f"`Optimal` that weren't with {USUAL:,}; earlier ends: "
               f"{sum(row['end'] < usual[row['ship']]['end'] for row in most)}.")
    rows = kept.get("split", {}).get("rows", [])
    if rows:
        gained = gains(rows)
        yield (f"- Beside a split by hand the first plan alone ends earlier on {sum(gain > 0 for gain in gained)} of "
               f"{len(gained)} random ships, at the same tick on {gained.count(0)}, later on "
               f"{sum(gain < 0 for gain in gained)}.")
    for command in ("plan", "free"):
        times = [row[command]["own"] / row[command]["plain"] for row in kept.get("side", {}).get("rows", [])]
        if times:
            yield (f"- A branching of `{command}` takes {min(times):.1f} to {max(times):.1f} times the processor time of "
                   f"plain C++.")
    rows = kept.get("files", {}).get("rows", [])
    if rows:
        slow = max(rows, key=lambda row: row["seconds"])
        rest = max((row for row in rows if not row["command"].endswith("check")), key=lambda row: row["seconds"])
        yield (f"- Of the other commands on the greatest files (50,000 moves, logs at their limit, trees of 100,000 branchings) "
               f"`{slow['command']}` takes longest, {seconds_text(slow['seconds'])} s ({slow['what']}); all but the checks at most "
               f"{seconds_text(rest['seconds'])} s; at most {max(row['memory'] for row in rows):.1f} MB.")
    yield from short_solvers(kept.get("solvers", {}).get("rows", []))


def short_solvers(rows):
    """What general solvers come to beside the best that `qc` came to on the same ships."""
    own = {row["ship"]: row for row in rows if row["by"].startswith("`qc`")}
    others = [(row, own[row["ship"]]) for row in rows if not row["by"].startswith("`qc`")]
    if others:
        counts = [sum(row["end"] is not None and is_so(row["end"] - best["end"]) for row, best in others)
                  for is_so in (lambda by: by < 0, lambda by: by == 0, lambda by: by > 0)]
        yield (f"- General solvers with a minute each, {len(others)} runs on {len(own)} ships: {counts[0]} end earlier than "
               f"`plan`, {counts[1]} at the same tick, {counts[2]} later, {len(others) - sum(counts)} find nothing; "
               f"{sum(row['proved'] == 'the best' for row, _ in others)} show that their plan is the best, where `plan` "
               f"shows it on {sum(row['proved'] == 'the best' for row in own.values())} of the ships.")


def machine():
    """The processors and the memory of this machine."""
    about = pathlib.Path("/proc/cpuinfo").read_text(encoding="ascii")
    model = re.search(r"model name\s*:\s*(.*)", about)
    memory = re.search(r"MemTotal:\s*(\d+)", pathlib.Path("/proc/meminfo").read_text(encoding="ascii"))
    virtual = ", a virtual machine" if re.search(r"flags.*\bhypervisor\b", about) else ""
    return (f"{os.cpu_count()} processors ({model[1] if model else 'unknown'}), {int(memory[1]) / 2**20:.0f} GB{virtual}")


def commit(program):
    """The commit of the checkout in which the program was built, what differs from it, and whether it has checks."""
    above = pathlib.Path(program).resolve().parents
    is_checked = above[0].name == "checked"
    top = above[min(2 if is_checked else 3, len(above) - 1)]
    git = lambda *words: subprocess.run(["git", "-C", top, *words], capture_output=True, text=True, check=False).stdout
    name = git("log", "-1", "--format=%h", "--abbrev=8", "--", "crates", "crates.txt").strip() or "unknown"
    version = Run(program, "--version").lines  # the second one says 'proved with', whichever program it is
    version = f"{version[0]}, compiled with checks and not proved" if is_checked else ", ".join(version)
    changed = bool(git("status", "--porcelain", "crates", "crates.txt"))
    test = top / "package/is-built"
    is_built = test.exists() and subprocess.run([test, *["--checked"] * is_checked], check=False).returncode == 0
    return f"{version}, sources of {name}" + (" with changes" if changed else "" if is_built else ", built before them")


def taken_lines(kept):
    """Which tables were taken of which program, where and when."""
    groups = {}
    for name in TABLES:
        if name in kept:
            taken = kept[name]["taken"]
            groups.setdefault((taken["program"], taken["machine"], taken["few"]), []).append((name, taken))
    for (program, where, few), tables in groups.items():
        first, last = min(taken["from"] for _, taken in tables), max(taken["to"] for _, taken in tables)
        last = last[11:] if first[:10] == last[:10] else last
        loads = [load for _, taken in tables for load in taken["load"]]
        seconds = sum(taken["seconds"] for _, taken in tables)
        yield (f"- {', '.join(TABLES[name][0] for name, _ in tables)}: {program}; {where}; {first} to {last} UTC, "
               f"in {seconds:,.0f} s; the load of the machine, this run in it, {min(loads):.1f} to {max(loads):.1f}"
               + ("; **a try with few ships, each call timed once**." if few else "."))


# ---------------------------------------------------------------- the page

TABLES = {
    "sizes": ("by size", measure_sizes, table_sizes),
    "plan": ("`plan` ship by ship", lambda words: measure_ships("plan", words), None),
    "free": ("`free` ship by ship", lambda words: measure_ships("free", words), None),
    "split": ("splits", measure_split, table_split),
    "side": ("C++", measure_side, table_side),
    "files": ("the other commands", measure_files, None),
    "solvers": ("solvers", measure_solvers, None),
}


def measured(name, words):
    """The rows of a table, and when, on which machine and beside what load they were taken."""
    begun, from_date, loads, rows = time.monotonic(), datetime.datetime.now(datetime.timezone.utc), [], []
    for row in TABLES[name][1](words):
        rows.append(row)
        loads.append(os.getloadavg()[0])
        print(f"\r{name}: {len(rows)} rows, {time.monotonic() - begun:.0f} s", end="", file=sys.stderr, flush=True)
    print(file=sys.stderr)
    to_date = datetime.datetime.now(datetime.timezone.utc)
    taken = {"program": commit(words.program), "machine": machine(), "from": f"{from_date:%Y-%m-%d %H:%M}",
             "to": f"{to_date:%Y-%m-%d %H:%M}", "seconds": round(time.monotonic() - begun),
             "load": [round(min(loads), 1), round(max(loads), 1)], "few": bool(words.few)}
    return {"taken": taken, "rows": rows}


def json_text(kept):
    """One line for each row."""
    parts = []
    for name, part in kept.items():
        rows = ",\n".join(json.dumps(rounded(row)) for row in part["rows"])
        parts.append(f'"{name}": {{"taken": {json.dumps(part["taken"])}, "rows": [\n{rows}\n]}}')
    return "{\n" + ",\n".join(parts) + "\n}\n"


def rounded(row):
    if isinstance(row, dict):
        return {name: rounded(value) for name, value in row.items()}
    return round(row, 5) if isinstance(row, float) else row


def filled(page, kept):
    """The page with what stands between the marks of each table made anew."""
    blocks = {"taken": taken_lines(kept), "short": short(kept), "kinds": table_kinds(kept)}
    blocks.update((name, told(kept[name]["rows"])) for name, (_, _, told) in TABLES.items() if told and name in kept)
    for name, lines in blocks.items():
        mark, end = f"<!-- {name}: by bench/numbers.py -->", f"<!-- end of {name} -->"
        pattern = re.compile(re.escape(mark) + ".*?" + re.escape(end), re.DOTALL)
        if not pattern.search(page):
            raise ValueError(f"the page has no marks of {name}")
        block = "\n".join([mark, "", *lines, "", end])
        page = pattern.sub(lambda _: block, page)
    return page


def write(kept, folder):
    """Writes what was measured, the page and the plot."""
    data, page = ("bench/numbers.json", "docs/PERFORMANCE.md") if folder == ROOT else ("numbers.json", "PERFORMANCE.md")
    (folder / data).write_text(json_text(kept), encoding="utf-8")
    text_of_page = (ROOT / "docs/PERFORMANCE.md").read_text(encoding="utf-8")
    (folder / page).write_text(filled(text_of_page, kept), encoding="utf-8")
    rows = [row for name in ("sizes", "plan", "free") for row in kept.get(name, {}).get("rows", [])
            if row["nodes"] == USUAL and row["end"] and (name == "sizes" or not row["ship"].startswith("made"))]
    if rows:
        (folder / page).with_name("gap.svg").write_text(gap.drawn(rows, gap_of), encoding="utf-8")


def main():
    parser = argparse.ArgumentParser(description="how good, how fast, against what")
    parser.add_argument("tables", nargs="*", metavar="TABLE")
    add_program(parser)
    parser.add_argument("--jobs", type=int, default=2)
    parser.add_argument("--try", dest="few", type=pathlib.Path, metavar="FOLDER")
    parser.add_argument("--draw", action="store_true")
    words = parser.parse_args()
    if not words.draw:
        words.program = program_of(words)
    take_orphans()
    folder = words.few or ROOT
    data = ROOT / "bench/numbers.json" if folder == ROOT else folder / "numbers.json"
    folder.mkdir(exist_ok=True)
    kept = json.loads(data.read_text(encoding="utf-8")) if data.exists() else {}
    for name in [] if words.draw else words.tables or [name for name in TABLES if name != "solvers"]:
        kept[name] = measured(name, words)
        write(kept, folder)
    write(kept, folder)


if __name__ == "__main__":
    main()
