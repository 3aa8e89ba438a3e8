#!/usr/bin/env python3
"""Runs the built program on files that were spoilt, and reports what must not come.

    fuzz/fuzz.py [--program FILE] [--count 200000] [--seed 1] [--workers 2] [--only N] [--keep FOLDER]
        [--megabytes 512] [--plain] [--commands NAMES]

Trial N takes an input (the examples, and every case of crates/qc_rows/data whose words are a command with plain names,
with the plans, trees and logs that the program makes of them), spoils one of its files or two by bytes, slices, lines,
numbers, repeats, cuts and pieces of other files, of bay plans also segments and their parts, and runs a command on it:
`plan` and `free` with few branchings and often from a spoilt plan of one's own, `odds` with few runs, the others as they are. What a trial does depends on the seed and N alone: `--only N`
runs it again and prints its files. Reported are

- a run that ends by a signal, writes a line on standard error that doesn't begin with `qc: `, or takes more than ten seconds;
- a status that the command hasn't, or a report whose first line isn't one of that status;
- a file changed or made where the status doesn't allow it, or that `moves` or `rest` writes otherwise than trials/answers.py
  works out;
- `plan` and `free` whose files `check` and `freecheck` don't judge alike (Optimal, Weaker with the same numbers, Infeasible, Bound);
- a report that isn't, line for line, what trials/answers.py works out (of `plan` and `free` a refusal); with --plain that
  isn't asked. NAMES are the commands that are taken, with commas between them.

Where both say of a spoilt ship file something else, and one of them that it is no TOML, that is counted apart and printed:
Python's reader of TOML isn't the program's. The spoilt input of each that is reported is kept in FOLDER. It ends with 1
where anything was reported. Memory is limited to so many megabytes of addresses, 0 for no limit (a program built with a
sanitizer needs that). Which program FILE is, trials/tried.py says.
"""
import argparse
import collections
import csv
import io
import multiprocessing
import os
import random
import re
import resource
import shutil
import subprocess
import sys
import tempfile

sys.dont_write_bytecode = True  # no folder of compiled files beside the scripts

HERE = os.path.dirname(os.path.abspath(__file__))
ROOT = os.path.dirname(HERE)
sys.path.append(f"{ROOT}/trials")

from answers import ROLES, SEARCHES, WRITTEN, answer, begins_with, read_by, split_words, written
from cases import DATA, Case, is_long
from moves import spoilt as spoilt_message
from reference import instance_of, read_ship
from tried import add_program, commands_of, program_of

# The statuses that a command may come to here: files are there, the disk has room, memory too.
SHOWN = {0, 5, 6, 8, 13, 15}
STATUSES = {
    "plan": {0, 5, 6, 8, 10, 11, 12, 13, 15},
    "free": {0, 5, 6, 8, 10, 11, 12, 13, 15},
    "check": {0, 5, 6, 7, 8, 10, 13, 14, 15},
    "freecheck": {0, 5, 6, 7, 8, 10, 13, 14, 15},
    "tasks": {0, 5, 6, 15},
    "show": SHOWN, "sheet": SHOWN, "picture": SHOWN, "report": SHOWN,
    "dispatch": SHOWN | {17},
    "watch": {0, 5, 15, 17, 18},
    "moves": {0, 15, 19},
    "odds": SHOWN | {21},
    "rest": SHOWN | {17, 20},
    "make": {0, 2},
}
DONE = {
    "plan": rb"Optimal", "free": rb"Optimal", "check": rb"Optimal|Bound \d+", "freecheck": rb"Optimal|Bound \d+",
    "tasks": rb"task [0-9A-Z-]+ \d+ \d+|total \d+", "show": rb"direction (up|down)", "sheet": rb"sheet [0-9A-Za-z_-]+",
    "picture": rb"<svg .*>", "report": rb"crane,tasks,moves,.*", "dispatch": rb"start \S+ \S+ \d+|now \d+",
    "watch": rb"Safe \d+", "make": rb"make \d+ \d+ \d", "moves": rb"moves \d+", "odds": rb"runs \d+", "rest": rb"now \d+",
}
FIRST_LINE = {
    2: rb".+",
    5: rb"BadShip (NotToml|(Missing|WrongKind|Range|HatchOrder|Apart|Task|TaskTwice|Same|NameTwice|CraneOrder|Ring) [a-z_]+ \d+)",
    6: rb"BadStow [A-Za-z]+ \d+",
    7: rb"BadTree [A-Za-z]+ \d+",
    8: rb"BadPlan [A-Za-z]+ \d+",
    10: rb"Infeasible",
    11: rb"Budget",
    12: rb"Budget",
    13: rb"Broken (Reach|Ready|Travel|Before|Apart|Margin|Berth|OneWay)( [0-9A-Z-]+){1,2}",
    14: rb"Weaker",
    15: rb"TooLarge (ship|stow|plan|own|log|past|arrival|departure)",
    17: rb"BadLog (TooMany|Line|UnknownCrane|TimeBack|UnknownTask|NotRunning) \d+",
    18: rb"Breach \d+ \S+ \S+",
    19: rb"BadBayPlan [A-Za-z]+ (arrival|departure) \d+",
    20: rb"NoRest (Over|Ready|Bay) \S+",
    21: rb"BadPast [A-Za-z]+ \d+",
}
# How often each command is taken: those that came later more often than the first ones.
TAKEN = ["plan", "plan", "check", "check", "free", "free", "freecheck", "freecheck", "freecheck", "sheet", "dispatch",
         "dispatch", "dispatch", "watch", "watch", "watch", "picture", "report", "show", "tasks", "make", "moves", "moves", "moves",
         "moves", "odds", "odds", "odds", "rest", "rest", "rest", "rest"]
NUMBERS = [b"0", b"1", b"2", b"-1", b"9", b"10", b"21", b"60", b"61", b"240", b"241", b"998", b"999", b"1200", b"2001",
           b"6000", b"6001", b"10000", b"10001", b"65535", b"65536", b"1000000", b"1000001", b"2147483647",
           b"4294967295", b"4294967296", b"9223372036854775807", b"9223372036854775808", b"18446744073709551616",
           b"999999999999", b"1000000000000", b"999999999999999", b"1000000000000000", b"00", b"01", b"+1", b"1.0",
           b"1e3", b"0x10", b"1_000", b"never", b"", b"-0", b"-200", b"-201", b"300", b"301"]
BYTES = [b"\0", b"\n", b"\r", b'"', b"'", b",", b" ", b"\t", b"\xff", b"\xef\xbb\xbf", b"#", b"[", b"]", b"=", b"-", b"0",
         b"9", b"A", b"O", b"P", b"C", b"X", b"W", b"\xc3\xa9", b"\\", b"{", b"}", b"_", b".", b"\r\n", b"\n\n"]


def read_case(path):
    """The files of a case by their roles, or None where they are none for us."""
    if is_long(path):
        return None
    case = Case(path)
    words, files = case.words, case.files
    if not words or words[0] not in ROLES or case.others & {"word", "fail"}:
        return None
    parsed = split_words(words)
    if parsed is None:
        return None
    found = {role: files[name] for role, name in parsed[0].items() if name in files and len(files[name]) <= 20000}
    if words[0] == "moves":
        return found if {"arrival", "departure"} <= set(found) else None
    return found if "ship" in found and ("stow" in found or words[0] == "watch") else None


def events_of(plan):
    """A log in which each task ends when the plan says."""
    lines, now = [], 0
    for end, task in sorted((int(end), task) for task, _, _, end in list(csv.reader(io.StringIO(plan.decode())))[1:]):
        if end > now:
            lines.append(f"tick {end - now}\n")
        lines.append(f"done {task}\n")
        now = end
    return "".join(lines).encode()


def half_done(plan):
    """A log in which about half of the tasks end when the plan says, what runs then is told to need some ticks more, and
    some of these go by."""
    records = list(csv.reader(io.StringIO(plan.decode())))[1:]
    events = events_of(plan).decode().splitlines(keepends=True)
    events = events[:len(events) // 2]
    done = {line.split()[1] for line in events if line.startswith("done")}
    now = sum(int(line.split()[1]) for line in events if line.startswith("tick"))
    running = [task for task, _, start, _ in records if int(start) <= now and task not in done]
    events += [f"left {task} {9 + 2 * number}\n" for number, task in enumerate(running)] + ["tick 3\n"] * bool(running)
    return "".join(events).encode()


def past_of(plan):
    """What the tasks of a plan took in three calls: as planned, a fifth longer, and a tenth shorter."""
    records = list(csv.reader(io.StringIO(plan.decode())))[1:]
    rows = [f"{call},{task.split('-')[1]},{int(end) - int(start)},{max(1, (int(end) - int(start)) * share // 100)}"
            for call, share in (("2601", 100), ("2602", 120), ("2603", 90)) for task, _, start, end in records[:20]]
    return "\n".join(["call,phase,planned,real", *rows, "all,-,100,103", ""]).encode()


def keyed(files):
    """A ship file with the planner's own order and releases for some of the tasks of its list, and that list."""
    inst = instance_of(read_ship(files["ship"]), files["stow"])
    names = [task.name for task in inst.tasks]
    if len(names) < 2:
        return None
    keys = f'before = [["{names[0]}", "{names[-1]}"]]\nnot_before = [["{names[-1]}", 37], ["{names[0]}", 5], ["998-LD", 1]]\n'
    keys = keys.replace(', ["998-LD", 1]', "") if 998 not in read_ship(files["ship"]).hatches else keys
    return {**files, "ship": keys.encode() + files["ship"]}


def places_of(ship, lines):
    """A log of the places in the crane lines of a report, rounded down."""
    travel, found = read_ship(ship).travel, []
    for line in lines:
        _, name, *points = line.split(" ")
        for at, place in (point.split(":") for point in points):
            found.append((int(float(at)), name, int(float(place) // travel)))
    return "".join(f"{at} {name} {place}\n" for at, name, place in sorted(found)).encode()


def made_files(program, files, folder=None):
    """Files by their roles: what the program makes of a ship file and a list, with logs that follow the plan; the same
    with the plan of `free` where that is another; and the further files of an example."""
    made, plans = dict(files), []
    if folder is None and len(files["stow"]) > 8000:
        yield made
        return
    with tempfile.TemporaryDirectory() as room:
        for role in ("ship", "stow"):
            with open(f"{room}/{role}", "wb") as file:
                file.write(files[role])
        for command in SEARCHES:
            role = ROLES[command][-1]
            words = [program, "-q", command, "ship", "stow", f"{command}.csv", role, "--nodes", "20"]
            ran = subprocess.run(words, cwd=room, capture_output=True, timeout=100)
            if os.path.exists(f"{room}/{role}"):
                made[role] = read_file(f"{room}/{role}")
            if os.path.exists(f"{room}/{command}.csv"):
                cranes = [line for line in ran.stdout.decode().splitlines() if line.startswith("crane ")]
                plans.append((read_file(f"{room}/{command}.csv"), cranes))
    for plan, cranes in plans[:1] + [one for one in plans[1:] if one[0] != plans[0][0]]:
        yield {"plan": plan, "own": plan, "events": events_of(plan), "past": past_of(plan), "places": places_of(files["ship"], cranes),
               **made}
        yield {"plan": plan, "own": plan, "events": half_done(plan), "past": past_of(plan), **made}
    if not plans:
        yield made
    for role, name in (("own", "own.csv"), ("events", "happened.txt"), ("places", "log.txt"), ("places", "late.txt"),
                       ("plan", "there-and-back.csv"), ("own", "there-and-back.csv"), ("past", "past.csv")):
        if folder and os.path.exists(f"{folder}/{name}"):
            some = {"plan": plans[0][0], "own": plans[0][0]} if plans else {}
            yield {**some, **made, role: read_file(f"{folder}/{name}")}


def example_files(program, folder):
    """All files of an example by their roles, with those that the program makes; its bay plans by themselves; and the
    same with the keys of the planner's own order and releases."""
    if os.path.exists(f"{folder}/arrival.edi"):
        yield {which: read_file(f"{folder}/{which}.edi") for which in ("arrival", "departure")}
    if os.path.exists(f"{folder}/ship.toml") and os.path.exists(f"{folder}/stow.csv"):
        files = {"ship": read_file(f"{folder}/ship.toml"), "stow": read_file(f"{folder}/stow.csv")}
        yield from made_files(program, files, folder)
        if b"before" not in files["ship"] and keyed(files):
            yield from made_files(program, keyed(files))


def read_file(path):
    with open(path, "rb") as file:
        return file.read()


def read_inputs(program):
    """All inputs in a fixed order: dicts from a file's role to its bytes."""
    inputs, found = [], []
    for name in sorted(os.listdir(f"{ROOT}/examples")):
        folder = f"{ROOT}/examples/{name}"
        if os.path.isdir(folder):
            inputs += example_files(program, folder)
    for command in sorted(ROLES):
        for path in sorted((DATA / command).glob("*.case")):
            files = read_case(path)
            if files and files not in found:
                found.append(files)
    made = {}
    for files in found:
        if "stow" not in files or "arrival" in files:
            inputs.append(files)
            continue
        pair = files["ship"], files["stow"]
        if pair not in made:
            made[pair] = list(made_files(program, dict(zip(("ship", "stow"), pair))))
            inputs += made[pair]
        inputs.append({**made[pair][0], **files})
    return inputs


def spoil_once(rand, data, others):
    size = len(data)
    at = rand.randrange(size + 1)
    end = min(size, at + rand.choice([1, 1, 2, 5, 20, 100]))
    kind = rand.randrange(15)
    if kind == 0:
        return data[:at] + bytes([rand.randrange(256)]) + data[at + 1:]
    if kind == 1:
        return data[:at] + rand.choice(BYTES) + data[at + rand.randrange(2):]
    if kind == 2 and size:
        at = rand.randrange(size)
        return data[:at] + bytes([data[at] ^ (1 << rand.randrange(8))]) + data[at + 1:]
    if kind == 3:
        return data[:at] + data[end:]
    if kind == 4:
        return data[:end] + data[at:end] * rand.choice([1, 1, 2, 20, 200]) + data[end:]
    if kind == 5:
        return data[:at]
    if kind == 6:
        other = rand.choice(others)
        place = rand.randrange(len(other) + 1)
        return data[:at] + other[place:place + rand.choice([3, 30, 300])] + data[end:]
    if kind in (7, 8, 9):
        found = list(re.finditer(rb"\d+", data))
        if found:
            one = rand.choice(found)
            value = int(one.group()[:18])
            near = [value + 1, max(0, value - 1), value * 10, value * 2, value + 4]
            new = rand.choice(NUMBERS) if rand.randrange(2) else str(rand.choice(near)).encode()
            return data[:one.start()] + new + data[one.end():]
    lines = data.splitlines(keepends=True)
    if lines:
        one, two = rand.randrange(len(lines)), rand.randrange(len(lines))
        if kind == 10:
            del lines[one]
        elif kind == 11:
            lines[one:one] = [lines[two]] * rand.choice([1, 1, 2, 30, 300])
        elif kind == 12:
            lines[one], lines[two] = lines[two], lines[one]
        elif kind == 13:
            fields = lines[one].split(b",")
            fields[rand.randrange(len(fields))] = rand.choice(lines[two].split(b","))
            lines[one] = b",".join(fields)
        else:
            lines.insert(one, lines.pop(two))
    return b"".join(lines)


def spoil(rand, data, others):
    for _ in range(rand.choice([1, 1, 1, 2, 3, 6])):
        data = spoil_once(rand, data, others)[:200000]
    return data


class Trial:
    """A command, the words behind its names, files, which of them are spoilt, and whether `-` stands for the plan."""

    def __init__(self, command, more=(), files=(), spoilt=(), minus=False):
        self.command, self.more, self.files, self.spoilt, self.minus = command, list(more), dict(files), spoilt, minus

    @property
    def words(self):
        names = ["-" if role == "plan" and self.minus else role for role in ROLES.get(self.command, ())]
        return [self.command, *names, *self.more]


class Trials:
    def __init__(self, program, inputs, seed, folder, plain, commands):
        self.program, self.seed, self.folder, self.plain = program, seed, folder, plain
        known = commands_of(program)
        self.taken = [command for command in TAKEN if command in known and (not commands or command in commands.split(","))]
        roles = sorted({role for files in inputs for role in files})
        self.inputs = {command: [files for files in inputs if begins_with(command) in files
                                 and ("stow" in files or command in ("watch", "moves"))] for command in ROLES}
        self.pools = {role: [files[role] for files in inputs if role in files] for role in roles}

    def make(self, number):
        rand = random.Random(f"{self.seed} {number}")
        command = rand.choice(self.taken)
        if command == "make":
            some = [str(rand.randint(0, 9)), str(rand.randint(1, 12)), str(rand.randint(1, 8))]
            some[rand.randrange(3)] = rand.choice(NUMBERS).decode()
            return Trial("make", some, spoilt=["words"])
        files, more, minus = dict(rand.choice(self.inputs[command])), [], False
        if command in SEARCHES:
            more = ["--nodes", str(rand.choice([0, 1, 3, 10, 40]))]
            if rand.randrange(2):
                more += ["--from", "own"]
                if "own" not in files or not rand.randrange(4):
                    files["own"] = rand.choice(self.pools[rand.choice(["own", "plan"])])
            if rand.randrange(3):
                files.pop("plan", None), files.pop(ROLES[command][-1], None)
        else:
            for role in read_by(command, ()):
                if role not in files or role != "ship" and not rand.randrange(20):
                    files[role] = rand.choice(self.pools[role])
            for role in WRITTEN.get(command, ()):
                if rand.randrange(2):
                    files[role] = b"an older file\n"
            if command == "odds":
                more = ["--runs", str(rand.choice([1, 2, 3, 7])), "--seed", str(rand.choice([0, 1, 2147483647]))][:rand.choice([2, 4])]
            if command in ("check", "freecheck") and rand.randrange(3) == 0:
                minus = True
        roles = [role for role in read_by(command, more) if not (minus and role == "plan")]
        weighted = roles + roles[1:] if command in ("show", "sheet", "picture", "report", "watch", "tasks", "moves") else roles + roles[2:]
        files = {role: data for role, data in files.items() if role in roles or role in ROLES[command]}
        if minus:
            files.pop("plan", None)
        spoilt = sorted({rand.choice(weighted) for _ in range(rand.choice([1, 1, 1, 2]))})
        for role in spoilt:
            by_parts = command == "moves" and rand.randrange(2)
            files[role] = spoilt_message(rand, files[role]) if by_parts else spoil(rand, files[role], self.pools[role])
        return Trial(command, more, files, spoilt, minus)

    def run(self, words):
        return subprocess.run([self.program, *words], cwd=self.folder, capture_output=True, stdin=subprocess.DEVNULL,
                              timeout=10)

    def clear(self):
        for name in os.listdir(self.folder):
            os.remove(f"{self.folder}/{name}")

    def held(self):
        return {name: read_file(f"{self.folder}/{name}") for name in os.listdir(self.folder)}

    def judge_search(self, trial, ran, held):
        """What is wrong with the files that `plan` or `free` left."""
        status, role, files = ran.returncode, ROLES[trial.command][-1], trial.files
        if status in (5, 6, 8, 13, 15):
            return None if held == files else "a refusal changed files"
        if any(held.get(one) != files[one] for one in read_by(trial.command, trial.more)):
            return "a file that was read changed"
        if role not in held or set(held) - set(ROLES[trial.command]) - {"own"}:
            return "no tree, or a further file"
        with_plan = status in (0, 11)
        if not with_plan and held.get("plan") != files.get("plan"):
            return "no plan was met, and the plan's file changed"
        if with_plan and "plan" not in held:
            return "no plan"
        judge = {"plan": "check", "free": "freecheck"}[trial.command]
        again = self.run([judge, "ship", "stow", "plan" if with_plan else "-", role])
        numbers = dict(line.split(b" ", 1) for line in ran.stdout.splitlines() if b" " in line)
        wanted = {0: (0, b"Optimal\nend %b\nbound %b\n"), 11: (14, b"Weaker\nend %b\nbound %b\n"),
                  10: (10, b"Infeasible\n"), 12: (0, b"Bound %b\n")}[status]
        text = wanted[1]
        if with_plan:
            text = text % (numbers[b"end"], numbers[b"bound"])
        elif status == 12:
            text = text % numbers[b"bound"]
        if (again.returncode, again.stdout) != (wanted[0], text):
            return f"{judge} says {again.returncode} {again.stdout!r}"
        return None

    def judge(self, trial, ran):
        """What is wrong with a run."""
        command, status = trial.command, ran.returncode
        if status < 0:
            return f"ended by signal {-status}"
        if any(not line.startswith(b"qc: ") for line in ran.stderr.splitlines()):
            return f"standard error: {ran.stderr[:300]!r}"
        if status not in STATUSES[command]:
            return f"status {status}"
        if not re.fullmatch(FIRST_LINE[status] if status else DONE[command], ran.stdout.split(b"\n", 1)[0]):
            return f"report {ran.stdout[:200]!r} at status {status}"
        if not ran.stdout.endswith(b"\n"):
            return "a report without a line feed at its end"
        if command == "make":
            ranges = (2147483647, 60, 8)
            plain = all(re.fullmatch("0|[1-9][0-9]{0,9}", word) and least <= int(word) <= most
                        for word, least, most in zip(trial.more, (0, 1, 1), ranges))
            return None if (status == 0) == plain else f"status {status} of {trial.more}"
        if command in SEARCHES:
            wrong = self.judge_search(trial, ran, self.held())
        else:
            due = trial.files if self.plain or status else {**trial.files, **written(command, trial.files)}
            wrong = None if self.plain and command in WRITTEN or self.held() == due else "files changed, or written otherwise"
        return wrong or (None if self.plain else self.judge_second(trial, ran))

    def judge_second(self, trial, ran):
        """What the second opinion says otherwise."""
        if ran.returncode == 15:
            return None
        due = answer(trial.command, trial.files, trial.more, trial.minus)
        if due is None:
            refused = ran.returncode in (5, 6, 8, 13)
            return f"the second opinion refuses nothing, status {ran.returncode}" if refused else None
        seen = ran.returncode, ran.stdout.decode("latin-1").split("\n")[:-1]
        if seen == due:
            return None
        if "ship" in trial.spoilt and ["BadShip NotToml"] in (seen[1], due[1]):
            return f"TOML: {seen[1][:1]}, second opinion {due[1][:1]}"
        return f"{seen[0]} {seen[1][:3]}, second opinion {due[0]} {due[1][:3]}"

    def trial(self, number):
        """The trial, the status or None, and what is wrong."""
        trial = self.make(number)
        self.clear()
        for role, data in trial.files.items():
            with open(f"{self.folder}/{role}", "wb") as file:
                file.write(data)
        try:
            ran = self.run(trial.words)
        except subprocess.TimeoutExpired:
            return trial, None, "more than ten seconds"
        try:
            return trial, ran.returncode, self.judge(trial, ran)
        except subprocess.TimeoutExpired:
            return trial, ran.returncode, "more than ten seconds to judge it"
        except Exception as error:  # the second opinion stopped
            return trial, ran.returncode, f"the second opinion stopped: {error!r}"


def work(args, inputs, first, queue):
    if args.megabytes:
        resource.setrlimit(resource.RLIMIT_AS, (args.megabytes << 20, args.megabytes << 20))
    resource.setrlimit(resource.RLIMIT_CORE, (0, 0))
    base = "/dev/shm" if os.path.isdir("/dev/shm") else None
    folder = tempfile.mkdtemp(prefix="qc-fuzz-", dir=base)
    trials = Trials(args.program, inputs, args.seed, folder, args.plain, args.commands)
    counts = collections.Counter()
    for number in range(first, args.count, args.workers):
        trial, status, wrong = trials.trial(number)
        counts["runs", trial.command, status] += 1
        for role in trial.spoilt:
            counts["files", role, ""] += 1
        if wrong:
            counts["toml" if wrong.startswith("TOML") else "wrong", "", ""] += 1
            kept = f"{args.keep}/{number}"
            shutil.rmtree(kept, ignore_errors=True)
            os.makedirs(kept)
            for role, data in trial.files.items():
                with open(f"{kept}/{role}", "wb") as file:
                    file.write(data)
            print(f"trial {number}: {' '.join(trial.words)}: {wrong}", flush=True)
        if sum(n for key, n in counts.items() if key[0] == "runs") % 500 == 0:
            queue.put((first, dict(counts)))
    queue.put((first, dict(counts)))
    queue.put((first, None))
    shutil.rmtree(folder)


def print_counts(counts):
    files = {key[1]: n for key, n in counts.items() if key[0] == "files"}
    print("spoilt files " + str(sum(files.values())) + ": " + ", ".join(f"{n} {role}" for role, n in sorted(files.items())))
    for command in sorted(STATUSES):
        of_it = sorted((key[2], n) for key, n in counts.items() if key[:2] == ("runs", command) and key[2] is not None)
        print(f"{command}: " + ", ".join(f"{status}: {n}" for status, n in of_it))
    print(f"told otherwise whether a ship file is TOML: {counts['toml', '', '']}; reported: {counts['wrong', '', '']}", flush=True)


def main():
    parser = argparse.ArgumentParser(description="qc on files that were spoilt")
    add_program(parser)
    parser.add_argument("--count", type=int, default=200000)
    parser.add_argument("--seed", type=int, default=1)
    parser.add_argument("--workers", type=int, default=2)
    parser.add_argument("--only", type=int)
    parser.add_argument("--keep", default="fuzz-reported")
    parser.add_argument("--megabytes", type=int, default=512)
    parser.add_argument("--plain", action="store_true")
    parser.add_argument("--commands", default="")
    args = parser.parse_args()
    args.program = program_of(args)
    inputs = read_inputs(args.program)
    if args.only is not None:
        with tempfile.TemporaryDirectory() as folder:
            trials = Trials(args.program, inputs, args.seed, folder, args.plain, args.commands)
            trial, status, wrong = trials.trial(args.only)
            for role, data in trial.files.items():
                print(f"--- {role}{' (spoilt)' if role in trial.spoilt else ''}\n{data.decode('utf-8', 'backslashreplace')}")
            print("---", *trial.words, status, wrong)
        return 0
    print(f"{len(inputs)} inputs, seed {args.seed}, {args.count} trials", flush=True)
    queue, latest, left = multiprocessing.Queue(), {}, args.workers
    for first in range(args.workers):
        multiprocessing.Process(target=work, args=(args, inputs, first, queue)).start()
    while left:
        first, counts = queue.get()
        if counts is None:
            left -= 1
            continue
        latest[first] = counts
        total = collections.Counter()
        for some in latest.values():
            total.update(some)
        done = sum(n for key, n in total.items() if key[0] == "runs")
        if done % 5000 < 500 * args.workers:
            print(f"{done} runs", flush=True)
            print_counts(total)
    total = collections.Counter()
    for some in latest.values():
        total.update(some)
    print("all trials done")
    print_counts(total)
    return 1 if total["wrong", "", ""] else 0


if __name__ == "__main__":
    sys.exit(main())
