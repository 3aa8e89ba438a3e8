#!/usr/bin/env python3
"""Cuts each file of the cases and of the examples at every byte, and compares what the built program then says.

    trials/cuts.py [--program FILE] [--workers N] [--minutes M] [--most BYTES] [--only COMMANDS] [--keep FOLDER]
    trials/cuts.py --write

Each case of crates/qc_rows/data whose words are a plain command on files, and each example under every command with the
files that the program makes of it, is run once for each file that its command reads and each length below that file's
own, with the file cut to it. What must come is worked out by answers.py alone, without the program: the first fault of
the first faulty file, or, where the cut leaves good files, their answer: of `plan` and `free` a tree of the instance, the
plan's end and the bound as the two files give them, and the status that goes with these; of the others the whole report.
All other files must be as before. A file that a command read before behind the same files is not cut again; ship files and
lists of more than 3,000 bytes are cut under `tasks` alone. It ends with 1 where anything differs; the input and both
answers are kept in FOLDER. COMMANDS are those that are tried, with commas between them; after M minutes what is
left is left out. Which program FILE is, tried.py says.

`--write` makes the cut cases of the worked examples (the list `WORKED`) in crates/qc_rows/data anew, with the
outcomes that answers.py gives; it takes no program.
"""
import argparse
import collections
import multiprocessing
import os
import subprocess
import sys
import tempfile
import time
from pathlib import Path

sys.dont_write_bytecode = True  # no folder of compiled files beside the scripts

import cases
from answers import ROLES, SEARCHES, answer, begins_with, read_by, search_fault, split_words, written
from cases import DATA, ROOT, is_long

sys.path.append(str(ROOT / "fuzz"))

from fuzz import example_files
from tried import add_program, commands_of, program_of

# The cases of crates/qc_rows/data of which `--write` makes cut cases: the files of the worked examples, a file that
# several of them share once. The command is that of the new case.
WORKED = {
    "tasks ship": """plan/apart plan/out-of-reach plan/ordered-restows plan/free-restows plan/four-phases plan/travel-3
        plan/hatches-1-and-4 plan/berths plan/places-two-cranes tasks/places tasks/ship-travel-missing
        tasks/ship-margin-range-21 tasks/ship-crane-order tasks/ship-hatches-order tasks/ship-further-key
        tasks/ship-not-toml tasks/not-before-behind-apart tasks/ship-places-one-of-two tasks/ship-places-falling tasks/ship-clear-missing""",
    "tasks stow": """plan/no-task-two-cranes plan/two-cranes plan/nodes-0 plan/apart plan/out-of-reach
        plan/ordered-restows plan/hatches-1-and-4 tasks/list-cell-taken-by-20-foot tasks/list-no-hatch plan/berths
        plan/places-two-cranes tasks/places""",
    "check plan": """check/plan-optimal check/plan-apart check/plan-berths check/plan-berth check/plan-places
        check/plan-end-wrong check/plan-unknown-task check/plan-task-missing check/plan-start-leading-zero
        check/plan-no-tasks""",
    "show plan": "show/gives-way show/later-crane show/broken-ready show/broken-margin show/downward",
    "check tree": """check/plan-optimal check/bound check/infeasible check/no-title check/title-9
        check/carriage-return check/down-too-early check/in-reach check/not-apart check/decided check/not-ring
        check/work-0 check/line-too-long check/end-branchings check/task-leading-zero check/not-forced check/work-short
        check/unknown-task check/end-value check/empty-line-after-end check/berths check/plan-berths
        check/plan-berths-bad-tree check/no-tasks check/packed""",
    "freecheck freetree": """freecheck/to-and-fro freecheck/to-and-fro-tree-alone freecheck/both-cranes-packed freecheck/infeasible
        freecheck/ring freecheck/byte-after-end freecheck/not-conflict-turned""",
    "freecheck plan": "freecheck/to-and-fro freecheck/to-and-fro-too-soon",
}


# ---------------------------------------------------------------- cases

class Case:
    """A command with the bytes of each file by its role; `plan` may be missing where the word is `-`."""

    def __init__(self, name, command, more, files, minus):
        self.name, self.command, self.more, self.files, self.minus = name, command, more, files, minus

    @property
    def reads(self):
        """The roles of the files that the command reads, in its order."""
        return [role for role in read_by(self.command, self.more) if not (role == "plan" and self.minus)]

    @property
    def words(self):
        names = ["-" if role == "plan" and self.minus else role for role in ROLES[self.command]]
        return [self.command, *names, *self.more]

    def key(self, role):
        """What the command is given up to that file."""
        front = self.reads[:self.reads.index(role) + 1]
        return self.command, self.minus, tuple(self.more), tuple(self.files.get(one) for one in front)

    def cut(self, role, length):
        files = {**self.files, role: self.files[role][:length]}
        return Case(self.name, self.command, self.more, files, self.minus)

    def answer(self):
        return answer(self.command, self.files, self.more, self.minus)


def read_case(path):
    """The case of a file, and the file names of its roles; None where it isn't a plain command on files."""
    told = cases.Case(path)
    words, files = told.words, told.files
    if not words or words[0] not in ROLES or told.others & {"word", "fail", "cut"}:
        return None, None
    parsed = split_words(words)
    if parsed is None:
        return None, None
    names, more = parsed
    minus = words[0] in ("check", "freecheck") and names.get("plan") == "-"
    found = {role: files[name] for role, name in names.items() if name in files}
    return Case(told.name, words[0], more, found, minus), names


def read_examples(program):
    """Each example under every command, with the files that the program makes of it."""
    for folder in sorted(path for path in (ROOT / "examples").iterdir() if path.is_dir()):
        for plans in example_files(program, str(folder)):
            for command in ROLES:
                more = ["--nodes", "100", "--from", "own"] if command in SEARCHES else ["--runs", "2"] if command == "odds" else []
                some = {role: plans[role] for role in read_by(command, more) if role in plans}
                minus = command in ("check", "freecheck") and "plan" not in plans
                if begins_with(command) in some and set(read_by(command, more)) - set(some) <= ({"plan"} if minus else set()):
                    yield Case(f"examples/{folder.name}", command, more, some, minus)


# ---------------------------------------------------------------- running

class Runner:
    """Runs cases in a folder of its own, and writes only the files that differ from those of the run before."""

    def __init__(self, program, keep):
        self.program, self.keep = program, keep
        base = "/dev/shm" if os.path.isdir("/dev/shm") else None
        self.folder = tempfile.TemporaryDirectory(prefix="qc-cuts-", dir=base)
        self.counts = collections.Counter()

    def held(self):
        return {name: Path(self.folder.name, name).read_bytes() for name in os.listdir(self.folder.name)}

    def run(self, case):
        held = self.held()
        for name in held.keys() - case.files.keys():
            os.remove(f"{self.folder.name}/{name}")
        for name, data in case.files.items():
            if held.get(name) != data:
                Path(self.folder.name, name).write_bytes(data)
        done = subprocess.run([self.program, "-q", *case.words], cwd=self.folder.name, stdin=subprocess.DEVNULL,
                              capture_output=True, timeout=60, close_fds=False, check=False)
        wrong = "words on standard error" if done.stderr else None
        lines = done.stdout.decode("latin-1").split("\n")
        if lines.pop() != "":
            wrong = "a report without a line feed at its end"
        return (done.returncode, lines), self.held(), wrong

    def judge(self, case, label):
        seen, left, wrong = self.run(case)
        due = case.answer()
        if wrong is None and due is None:
            wrong = search_fault(case.command, case.files, case.more, seen, left)
        elif wrong is None and seen != due:
            wrong = "another answer"
        elif wrong is None and left != {**case.files, **written(case.command, case.files)}:
            wrong = "a file changed, or is written otherwise"
        self.counts[case.command, seen[0]] += 1
        if wrong:
            self.counts["differences", 0] += 1
            place = Path(self.keep, label.replace("/", "-"))
            place.mkdir(parents=True, exist_ok=True)
            for name, data in case.files.items():
                (place / name).write_bytes(data)
            (place / "difference").write_text(f"{wrong}\n{case.words}\nprogram:   {seen}\nreference: {due}\n")
            print(f"{label}: {wrong}", flush=True)


def work(program, keep, last, jobs, counts):
    """Takes cases from the queue until there are no more; those that come too late are counted alone."""
    runner = Runner(program, keep)
    for case, role, lengths in iter(jobs.get, None):
        for length in lengths:
            if time.monotonic() > last:
                runner.counts["too late", 0] += 1
                continue
            runner.judge(case.cut(role, length), f"{case.name}-{case.command}-{role}-{length}")
    counts.put(runner.counts)


def fresh_jobs(cases, most, totals):
    """Each case and role with the lengths whose input wasn't met before."""
    met = set()
    for case in cases:
        for role in case.reads:
            if role not in case.files:
                continue
            is_long = role in ("ship", "stow") and len(case.files[role]) > 3000 and case.command != "tasks"
            if is_long or max(map(len, case.files.values())) > most:
                totals["left out"] += 1
                continue
            totals["files"] += 1
            totals["bytes"] += len(case.files[role])
            lengths = []
            for length in range(len(case.files[role])):
                key = hash(case.cut(role, length).key(role))
                if key not in met:
                    met.add(key)
                    lengths.append(length)
            for first in range(0, len(lengths), 200):
                yield case, role, lengths[first:first + 200]


def run_all(args):
    program = program_of(args)
    cases = [read_case(path)[0] for path in sorted(DATA.glob("*/*.case")) if not is_long(path)]
    cases = [case for case in cases if case] + list(read_examples(program))
    known = commands_of(program)
    cases = [case for case in cases if case.command in known and (not args.only or case.command in args.only.split(","))]
    jobs, done, totals = multiprocessing.Queue(100), multiprocessing.Queue(), collections.Counter()
    last = time.monotonic() + 60 * args.minutes
    workers = [multiprocessing.Process(target=work, args=(program, args.keep, last, jobs, done)) for _ in range(args.workers)]
    for worker in workers:
        worker.start()
    for job in fresh_jobs(cases, args.most, totals):
        jobs.put(job)
    for _ in workers:
        jobs.put(None)
    counts = sum((done.get() for _ in workers), collections.Counter())
    differences, late = counts.pop(("differences", 0), 0), counts.pop(("too late", 0), 0)
    print(f"{len(cases)} cases; {totals['files']} files of {totals['bytes']} bytes cut at every byte, {totals['left out']} "
          f"left out for their length; {sum(counts.values())} runs on different inputs" + f", and {late} too late" * (late > 0))
    for command in sorted(ROLES):
        of_it = sorted((status, count) for (name, status), count in counts.items() if name == command)
        print(f"{command}: " + ", ".join(f"{status}: {count}" for status, count in of_it))
    print(f"{differences} differences")
    return 1 if differences else 0


# ---------------------------------------------------------------- cases of the gate

def write_case(command, role, name):
    """Makes the case in which that file of that case is cut under the command."""
    case, names = read_case(DATA / f"{name}.case")
    case = Case(name, command, [], case.files, case.minus)
    texts, outcomes = cases.Case(DATA / f"{name}.case").given["file"], []
    letters = {"ship": "s", "stow": "m", "plan": "p", "tree": "t", "freetree": "t"}
    for length in range(len(case.files[role])):
        due = case.cut(role, length).answer()
        if due not in outcomes:
            outcomes.append(due)
    what = {"ship": "ship file", "stow": "list", "plan": "plan's file"}.get(role, "tree")
    new = cases.Case()
    new.notes = [[f"# The {what} of {name}, cut at every byte."]] + [[] for _ in outcomes]
    new.given = {
        "words": [command] + ["-" if word == "-" else letters[word] for word in case.words[1:]],
        "file": {letters[one]: texts[names[one]] for one in ROLES[command]
                 if one in case.files and not (one == "plan" and case.minus)},
        "cut": letters[role],
    }
    new.outcomes = [{"status": status, "report": "".join(f"{line}\n" for line in report)} for status, report in outcomes]
    kind = {"stow": "list", "freetree": "tree"}.get(role, role)
    short = name.split("/")[1].removeprefix(f"{kind}-")
    target = DATA / command / f"{kind}-cut-anywhere-{short}.case"
    target.write_text(new.text(), encoding="utf-8")
    return target


def write_all():
    for what, names in WORKED.items():
        for name in names.split():
            print(write_case(*what.split(), name).relative_to(DATA))
    return 0


def main():
    parser = argparse.ArgumentParser(description="qc on files that are cut")
    add_program(parser)
    parser.add_argument("--write", action="store_true")
    parser.add_argument("--workers", type=int, default=2)
    parser.add_argument("--minutes", type=float, default=1e9)
    parser.add_argument("--most", type=int, default=20_000)
    parser.add_argument("--only", default="")
    parser.add_argument("--keep", default="cuts-reported")
    args = parser.parse_args()
    if args.write and args.program is not None:
        parser.error("--write takes no program")
    return write_all() if args.write else run_all(args)


if __name__ == "__main__":
    sys.exit(main())
