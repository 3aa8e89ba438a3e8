#!/usr/bin/env python3
"""Refuses memory to the built program: one allocation after the other, and all from one on.

    trials/memory.py [--program FILE] [--nodes N] [--voice] [--only WORD] [--workers N]

For each command below it first counts the allocations of a run, then runs it twice for each number n: once with the
nth refused, once with the nth and all after it. Each run must come to one of

- `OutOfMemory`, or nothing at all, with status 9 and every file as before the run;
- the same status, report and files as without a refusal;
- a fault of the file that was being opened or begun: `ReadFault f` with every file as before, or `WriteFault` with
  the first so many of its files whole but for the last, all others as before, and no further file; TREE may also be
  that of an earlier round of the search, which answers.py takes for the whole tree of a bound.

The program is run with `-q`, and nothing may stand on standard error. With --voice it is run without, and lines may
stand there that begin with `qc: `.

With --only those commands are run whose name has the word.

Printed is how often each came, how many allocations were made before the first file was begun, and how many after
that. Only Python's standard library and gcc are needed. It ends with 1 where a run came to anything else. Which program
FILE is, tried.py says.
"""
import argparse
import collections
import multiprocessing
import os
import subprocess
import sys
import tempfile

sys.dont_write_bytecode = True  # no folder of compiled files beside the scripts

from answers import is_of_a_round
from inputs import CHANCES, CHANCES_INPUTS, LEFT, LEFT_INPUTS, LISTED, LISTED_INPUTS, OLDER, OUTPUTS
from tried import add_program, commands_of, program_of

HERE = os.path.dirname(os.path.abspath(__file__))
ROOT = os.path.dirname(HERE)
FOUR = (b"hatches = [2, 6, 10, 14]\nmargin = 1\ntravel = 1\ndeck_move = 10\nhold_move = 10\n"
        b"\n[[crane]]\nname = \"C1\"\nbay = 1\n\n[[crane]]\nname = \"C2\"\nbay = 3\n")
MOVES = b"id,move,cell,length\nA1,D,020082,40\nA2,D,020084,40\nB1,D,060082,40\nB2,D,060084,40\n"
PLAN = b"task,crane,start,end\n2-DD,C1,0,20\n6-DD,C1,21,41\n"
TREE = b"QCTREE 3\nup\nP 2\ndown\nP 2\nend 0 21\n"
FREE_TREE = b"QCFREE 1\nQ 1 2\nend 0 41\n"
HAPPENED = b"tick 25\ndone 2-DD\ntick 3\n"
PLACES = b"0 C1 1\n0 C2 3\n20 C1 1\n21 C2 3\n41 C2 3\n"


def read(*path):
    with open(os.path.join(ROOT, *path), "rb") as file:
        return file.read()


def planned(program, files, command="plan"):
    """The files with the plan and the tree that the program makes of them with a hundred branchings."""
    with tempfile.TemporaryDirectory() as folder:
        for name, data in files.items():
            with open(f"{folder}/{name}", "wb") as file:
                file.write(data)
        subprocess.run([program, command, "s", "m", "p", "t", "--nodes", "100"], cwd=folder, stdout=subprocess.DEVNULL)
        return {name: read(folder, name) for name in "smpt"}


def happened(plan):
    """A log in which each task ends when the plan says."""
    lines, now = [], 0
    for end, task in sorted((int(line.split(",")[3]), line.split(",")[0]) for line in plan.decode().splitlines()[1:]):
        lines += [f"tick {end - now}\n"] * (end > now) + [f"done {task}\n"]
        now = end
    return "".join(lines).encode()


def half_done(log):
    """The first half of a log, and a tick more."""
    lines = log.splitlines(keepends=True)
    return b"".join(lines[:len(lines) // 2]) + b"tick 1\n"


def places():
    """A log of 3,000 places of the vessel's cranes, which keep their margin."""
    return "".join(f"{at} STS-{k + 1} {1 + 4 * k}\n" for at in range(1000) for k in range(3)).encode()


def inputs(program, nodes):
    """Name, words and files of each input."""
    first = {"s": read("examples/first/ship.toml"), "m": read("examples/first/stow.csv")}
    four = {"s": FOUR, "m": MOVES}
    vessel = {"s": read("examples/vessel/ship.toml"), "m": read("examples/vessel/stow.csv")}
    fro = {"s": read("examples/to-and-fro/ship.toml"), "m": read("examples/to-and-fro/stow.csv")}
    judged = dict(four, p=PLAN, t=TREE)
    vessel_judged = planned(program, vessel)
    vessel_free = planned(program, vessel, "free")
    vessel_logs = {"l": happened(vessel_judged["p"]), "w": places()}
    unreached = dict(four, s=FOUR.replace(b"bay = 3\n", b"bay = 3\nto = 1\n").replace(b"bay = 1\n", b"bay = 1\nto = 1\n"))
    return [
        ("plan, first example", ["plan", "s", "m", "p", "t"], first),
        ("plan, four moves", ["plan", "s", "m", "p", "t"], four),
        ("plan, Infeasible", ["plan", "s", "m", "p", "t"], unreached),
        ("plan, no branching", ["plan", "s", "m", "p", "t", "--nodes", "0"], four),
        ("plan over old files", ["plan", "s", "m", "p", "t"], judged),
        ("plan from one's own", ["plan", "s", "m", "q", "t", "--from", "p"], judged),
        ("free, four moves", ["free", "s", "m", "p", "t"], four),
        ("free, to and fro", ["free", "s", "m", "p", "t"], fro),
        ("free over old files, from one's own", ["free", "s", "m", "q", "t", "--from", "p"], dict(judged, t=FREE_TREE)),
        ("freecheck", ["freecheck", "s", "m", "p", "t"], dict(judged, t=FREE_TREE)),
        ("freecheck of a tree alone", ["freecheck", "s", "m", "-", "t"], dict(judged, t=FREE_TREE)),
        ("check", ["check", "s", "m", "p", "t"], judged),
        ("check of a tree alone", ["check", "s", "m", "-", "t"], judged),
        ("tasks", ["tasks", "s", "m"], four),
        ("show", ["show", "s", "m", "p"], judged),
        ("sheet", ["sheet", "s", "m", "p"], judged),
        ("dispatch", ["dispatch", "s", "m", "p", "l"], dict(judged, l=HAPPENED)),
        ("watch", ["watch", "s", "w"], dict(four, w=PLACES)),
        ("picture", ["picture", "s", "m", "p"], judged),
        ("report", ["report", "s", "m", "p"], judged),
        ("moves", LISTED, LISTED_INPUTS),
        ("moves over an old file", LISTED, {**LISTED_INPUTS, "v": OLDER["v"]}),
        ("odds", CHANCES, dict(judged, **CHANCES_INPUTS)),
        ("rest", LEFT, dict(judged, **LEFT_INPUTS)),
        ("rest over old files", LEFT, dict(judged, **LEFT_INPUTS, **{name: OLDER[name] for name in OUTPUTS["rest"]})),
        ("make, one hatch", ["make", "0", "1", "1"], {}),
        ("make, three hatches", ["make", "7", "3", "2"], {}),
        ("unknown word", ["work", "s"], {}),
        ("plan, vessel", ["plan", "s", "m", "p", "t", "--nodes", nodes], vessel),
        ("tasks, vessel", ["tasks", "s", "m"], vessel),
        ("check, vessel", ["check", "s", "m", "p", "t"], vessel_judged),
        ("check of a tree alone, vessel", ["check", "s", "m", "-", "t"], vessel_judged),
        ("show, vessel", ["show", "s", "m", "p"], vessel_judged),
        ("sheet, vessel", ["sheet", "s", "m", "p"], vessel_judged),
        ("plan from one's own, vessel", ["plan", "s", "m", "q", "t", "--nodes", nodes, "--from", "p"], vessel_judged),
        ("free, vessel", ["free", "s", "m", "p", "t", "--nodes", nodes], vessel),
        ("freecheck, vessel", ["freecheck", "s", "m", "p", "t"], vessel_free),
        ("dispatch, vessel", ["dispatch", "s", "m", "p", "l"], {**vessel_judged, **vessel_logs}),
        ("watch, vessel", ["watch", "s", "w"], {**vessel, **vessel_logs}),
        ("picture, vessel", ["picture", "s", "m", "p"], vessel_judged),
        ("report, vessel", ["report", "s", "m", "p"], vessel_judged),
        ("odds, vessel", CHANCES, dict(vessel_judged, **CHANCES_INPUTS)),
        ("rest, vessel", LEFT, dict(vessel_judged, h=half_done(vessel_logs["l"]))),
    ]


class Runs:
    def __init__(self, program, library, folder, voice):
        self.program, self.library, self.folder = program, library, folder
        self.first = [] if voice else ["-q"]
        self.log = os.path.join(folder, "log")
        self.room = os.path.join(folder, "room")
        os.mkdir(self.room)

    def run(self, words, files, **refused):
        """Status, report and the files that are left."""
        for name in os.listdir(self.room):
            os.remove(f"{self.room}/{name}")
        for name, data in files.items():
            with open(f"{self.room}/{name}", "wb") as file:
                file.write(data)
        settings = {"LD_PRELOAD": self.library, **{name: str(value) for name, value in refused.items()}}
        ran = subprocess.run([self.program] + self.first + words, cwd=self.room, env=settings, capture_output=True, timeout=100)
        left = {}
        for name in os.listdir(self.room):
            with open(f"{self.room}/{name}", "rb") as file:
                left[name] = file.read()
        return ran.returncode, ran.stdout, left, ran.stderr

    def count(self, words, files):
        whole = self.run(words, files, REFUSE_LOG=self.log)
        with open(self.log, encoding="ascii") as file:
            return whole, [int(number) for number in file.read().split()]


def verdict(ran, whole, files, voice, outputs, command):
    status, report, left, errors = ran
    if not all(voice and line.startswith(b"qc: ") for line in errors.splitlines()):
        return f"standard error {errors!r}"
    if (status, report, left) == whole[:3]:
        return "answered as without a refusal"
    if status == 9 and report in (b"OutOfMemory\n", b"") and left == files:
        return "OutOfMemory" if report else "status 9 without a report"
    if status == 3 and report.startswith(b"ReadFault ") and left == files:
        return report.decode().strip()
    if status == 4 and report == b"WriteFault\n":
        new = [name for name in outputs if left.get(name) == whole[2].get(name) != files.get(name)]
        is_kept = {**files, **{name: whole[2][name] for name in new}} == left
        if is_kept and new == list(outputs[:len(new)]) and len(new) < len(outputs):
            return f"WriteFault, {len(new)} of {len(outputs)} files whole"
        tree = left.get("t")
        is_alone = command in ("plan", "free") and tree and left == {**files, "t": tree}
        if is_alone and is_of_a_round(command, files["s"], files["m"], tree):
            return "WriteFault, tree of a round, plan as before"
    return f"WRONG: status {status}, report {report[:80]!r}, files {sorted(left)}"


def refuse_all(job):
    """What a command comes to where each of its allocations is refused: its line, how often each thing came."""
    program, library, voice, (name, words, files) = job
    with tempfile.TemporaryDirectory() as folder:
        runs, seen = Runs(program, library, folder, voice), collections.Counter()
        whole, (calls, before_first, before_last) = runs.count(words, files)
        outputs = [name for name in (OUTPUTS.get(words[0]) or ()) if name in words]
        outputs = words[4:2:-1] if words[0] in ("plan", "free") else outputs
        for number in range(1, calls + 1):
            for how in ("REFUSE_AT", "REFUSE_FROM"):
                ran = runs.run(words, files, **{how: number})
                seen[verdict(ran, whole, files, voice, outputs, words[0])] += 1
    made = f", {before_first} before the first file was begun, {before_last - before_first} from then to the last, " \
           f"{calls - before_last} after it" if before_first >= 0 else ""
    return f"{name}: status {whole[0]}, {calls} allocations{made}", seen


def main():
    parser = argparse.ArgumentParser(description="memory that is refused")
    add_program(parser)
    parser.add_argument("--nodes", default="30")
    parser.add_argument("--voice", action="store_true")
    parser.add_argument("--only", default="", help="only what has this in its name")
    parser.add_argument("--workers", type=int, default=2)
    args = parser.parse_args()
    program, wrong, total = program_of(args), 0, collections.Counter()
    with tempfile.TemporaryDirectory() as folder:
        library = os.path.join(folder, "refuse.so")
        subprocess.run(["gcc", "-O1", "-shared", "-fPIC", "-o", library, f"{HERE}/refuse.c", "-ldl"], check=True)
        jobs = [(program, library, args.voice, one) for one in inputs(program, args.nodes)
                if args.only in one[0] and (one[1][0] in commands_of(program) or one[1][0] == "work")]
        with multiprocessing.Pool(args.workers) as pool:
            for line, seen in pool.imap(refuse_all, jobs):
                print(line, flush=True)
                for what, times in sorted(seen.items()):
                    print(f"    {times:6} {what}", flush=True)
                    wrong += times * what.startswith(("WRONG", "standard error"))
                total.update(seen)
    print(f"{sum(total.values())} runs, {wrong} wrong")
    return 1 if wrong else 0


if __name__ == "__main__":
    sys.exit(main())
