#!/usr/bin/env python3
"""Tries `qc odds` by the second opinion on past tasks and chances, and that by itself.

    odds.py rows [--program FILE]
    odds.py itself [--first SEED] [--count SHIPS]
    odds.py ships KEPT [--program FILE] [--first SEED] [--count SHIPS] [--without KEY]
    odds.py dispatcher KEPT [--program FILE] [--first SEED] [--count SHIPS] [--without KEY]
    odds.py words [--program FILE]

`rows`: reports and faults that were worked out by hand, by chances.py and, where a program is told, by it. `itself`:
on random ships and plans each run's starts are those of a course that ends each task when it is through, they keep
all rules with the lengths drawn, a tick more of one task ends the run at most a tick later, and exactly for those
that lead to an end without slack. `ships`: on random ships, plans one way and to and fro and files of past tasks,
some spoilt, the program says to the byte what chances.py says, and leaves all files. `dispatcher`: the ends of all
runs of a call are those at which `qc dispatch` stands at last when it is fed a log of the lengths drawn, and its
starts are those worked out here. `words`: which words are refused. With `--without KEY` no ship has that key. What
differs is kept below KEPT. Status 1 where anything differs. Which program FILE is, tried.py says.
"""
import argparse
import random
import shutil
import subprocess
import sys
import tempfile
from collections import Counter
from dataclasses import replace
from pathlib import Path

sys.dont_write_bytecode = True  # no folder of compiled files beside the scripts

from chances import QUANTILES, Work, draw, lengths_of, odds_report, read_past, up
from faults import ring_fault
from free import first_break
from reference import PHASES, Course, end_of, instance_of, plan_text, read_ship
from ships import KEYS, Maker, add_without, changed_plans, dense_files, serial_plan
from tried import add_program, program_of


# ---------------------------------------------------------------- rows by hand

SHIP = """hatches = [2, 6, 10, 14]
margin = 1
travel = 1
deck_move = 10
hold_move = 10
{keys}
[[crane]]
name = "C1"
bay = 1
{first}
[[crane]]
name = "C2"
bay = {second}
"""
HEADER = "call,phase,planned,real"


def ship(keys="", first="", second=3):
    return SHIP.format(keys=keys, first=first, second=second)


def stow(**counts):
    """A list with so many moves of each hatch and phase, as `h2DD`."""
    rows = ["id,move,cell,length"]
    for name, count in counts.items():
        hatch, phase = int(name[1:-2]), name[-2:]
        rows += [f"{name}{i},{phase[0]},{hatch:02}00{(82 if phase[1] == 'D' else 2) + 2 * i:02},40" for i in range(count)]
    return "\n".join(rows) + "\n"


def plan(*records):
    return "\n".join(["task,crane,start,end", *records]) + "\n"


def past(*records):
    return "\n".join([HEADER, *records]) + "\n"


NEAR, FAR = stow(h2DD=2, h6DD=2), stow(h2DD=2, h14DD=3)
LATE_FIRST = plan("2-DD,C1,22,42", "6-DD,C2,1,21")
ASIDE = plan("2-DD,C1,0,20", "14-DD,C2,1,31")
HALF_AND_MORE = past("a,-,100,50", "a,-,100,150")


def told(runs, end, mean, done, kept, cranes, critical=()):
    done = done if isinstance(done, list) else [done] * 6
    lines = [f"runs {runs}", f"end {end}", f"mean {mean}"] + [f"done {q} {tick}" for q, tick in zip(QUANTILES, done)]
    lines += [f"kept {one}" for one in kept] + [f"crane {one}" for one in cranes] + [f"critical {one}" for one in critical]
    return 0, lines


ROWS = [  # ship, list, plan, past tasks, words, what must come
    # As planned: the second crane is through at 21, and the first, held for 22, at 42.
    (ship(), NEAR, LATE_FIRST, past("a,-,100,100"), [],
     told(1, 42, 42, 42, ["42 1000"], ["C1 42 22 1000", "C2 21 0 0"])),
    # Each takes half as long again: 1 + 30, one bay's travel, 30.
    (ship(), NEAR, LATE_FIRST, past("a,-,2,3"), ["--by", "62"],
     told(1, 42, 62, 62, ["42 0", "62 1000"], ["C1 62 32 1000", "C2 31 0 0"], ["2-DD C1 1000 10", "6-DD C2 1000 10"])),
    (ship(), NEAR, LATE_FIRST, HALF_AND_MORE, ["--runs", "5"],
     told(5, 42, 46, [22, 42, 62, 62, 62, 62], ["42 600"], ["C1 46 20 1000", "C2 19 0 0"], ["2-DD C1 1000 8", "6-DD C2 1000 4"])),
    # The other order of the same two tasks meets the same days.
    (ship(), NEAR, plan("2-DD,C1,0,20", "6-DD,C2,22,42"), HALF_AND_MORE, ["--runs", "5"],
     told(5, 42, 45, [21, 41, 61, 61, 61, 61], ["42 600"], ["C1 26 0 0", "C2 45 26 1000"], ["2-DD C1 1000 8", "6-DD C2 1000 4"])),
    # What is planned later than it must be starts earlier.
    (ship(), NEAR, plan("2-DD,C1,40,60", "6-DD,C2,1,21"), past("a,-,1,1"), ["--by", "41"],
     told(1, 60, 42, 42, ["60 1000", "41 0"], ["C1 42 22 1000", "C2 21 0 0"])),
    # Lengths are rounded up, and what isn't critical isn't told.
    (ship(), FAR, ASIDE, past("a,-,3,4"), [],
     told(1, 31, 41, 41, ["31 0"], ["C1 27 0 0", "C2 41 0 1000"], ["14-DD C2 1000 10"])),
    # Two chains that end at one tick.
    (ship(second=4), stow(h2DD=2, h14DD=2), plan("2-DD,C1,0,20", "14-DD,C2,0,20"), past("a,-,4,5"), [],
     told(1, 20, 25, 25, ["20 0"], ["C1 25 0 1000", "C2 25 0 1000"], ["2-DD C1 1000 5", "14-DD C2 1000 5"])),
    # A call counts once, however many records it has.
    (ship(), NEAR, LATE_FIRST, past("a,-,1,1", *["b,-,1,2"] * 9), ["--runs", "10"],
     told(10, 42, 62, [42, 42, 82, 82, 82, 82], ["42 500"], ["C1 62 32 1000", "C2 31 0 0"], ["2-DD C1 1000 10", "6-DD C2 1000 10"])),
    # Records of the phase that are at most twice as long or short, else of the phase.
    (ship(), stow(h2DD=1, h2DH=4), plan("2-DD,C1,0,10", "2-DH,C1,10,50"),
     past("a,DD,50,100", "a,DH,200,1000", "a,DH,30,60", "a,LD,10,90"), [],
     told(1, 50, 100, 100, ["50 0"], ["C1 100 0 1000", "C2 0 0 0"], ["2-DH C1 1000 40", "2-DD C1 1000 10"])),
    # A crane that is late stands in the way, and a phase that the call hasn't draws from all.
    (ship(first="ready = 100"), stow(h6DD=2), plan("6-DD,C2,101,121"), past("a,LD,2,1"), [],
     told(1, 121, 111, 111, ["121 1000"], ["C1 0 0 0", "C2 111 100 1000"])),
    (ship(), stow(), plan(), past("a,-,1,1"), ["--runs", "3", "--by", "0"],
     told(3, 0, 0, 0, ["0 1000", "0 1000"], ["C1 0 0 1000", "C2 0 0 1000"])),
    (ship("apart = [[2, 14]]"), FAR, plan("2-DD,C1,0,20", "14-DD,C2,20,50"), HALF_AND_MORE, ["--runs", "3", "--seed", "1"],
     told(3, 50, 59, [45, 55, 75, 75, 75, 75], ["50 333"], ["C1 24 0 0", "C2 59 23 1000"],
          ["14-DD C2 1000 10", "2-DD C1 1000 7"])),
]
FAULTS = [
    ("", "Header 1"), ("call,phase,real,planned\na,-,1,1\n", "Header 1"), (HEADER + "\n", "Empty 2"), (HEADER, "Empty 2"),
    (past("a,-,1"), "Fields 2"), (past("a,-,1,1,1"), "Fields 2"), (past("a b,-,1,1"), "Call 2"), (past(",-,1,1"), "Call 2"),
    (past("x" * 21 + ",-,1,1"), "Call 2"), (past("a,DX,1,1"), "Phase 2"), (past("a,,1,1"), "Phase 2"),
    (past("a,-,0,1"), "Number 2"), (past("a,-,01,1"), "Number 2"), (past("a,-,1,1000000000"), "Number 2"),
    (past("a,-,1,0"), "Number 2"), (past("a,-,1,101"), "TooLong 2"), (past("a,-,1,100", "b,-,1,101"), "TooLong 3"),
    (past("a,-,1,1", "b,-,1,1", "a,-,1,1"), "CallTwice 4"), (past(*["a,-,1,1"] * 241), "CallFull 242"),
    (past(*[f"c{i // 240},-,1,1" for i in range(10_001)]), "TooMany 10002"),
    (past(*["a,-,1,1"] * 241, "a,-,0,1"), "CallFull 242"), (past("a b,-,1"), "Fields 2"), (past("a b,DX,0,0"), "Call 2"),
    (past("a,-,1,1", "b,-,1,1", "a,-,1,101"), "TooLong 4"),
]


def all_rows():
    """Files and words, and status and report that must come."""
    for shipped, listed, planned, pasted, words, due in ROWS:
        words = words if "--runs" in words else words + ["--runs", "1"]
        yield (shipped, listed, planned, pasted), words, due
    for pasted, fault in FAULTS:
        yield (ship(), NEAR, LATE_FIRST, pasted), [], (21, [f"BadPast {fault}"])
    good = past(*[f"c{i // 240},-,7,8" for i in range(10_000)])
    yield (ship(), NEAR, LATE_FIRST, None), [], (3, ["ReadFault past"])
    broken = plan("2-DD,C1,21,41", "6-DD,C2,1,21")
    yield (ship(), NEAR, broken, None), [], (13, ["Broken Margin 2-DD 6-DD"])
    yield (ship(), NEAR, LATE_FIRST, "x" * 8_388_609), [], (15, ["TooLarge past"])
    # As many records as may be: each task takes 23 in place of 20, so 1 + 23, a bay's travel, 23.
    yield (ship(), NEAR, LATE_FIRST, good), ["--runs", "7"], told(
        7, 42, 48, 48, ["42 0"], ["C1 48 25 1000", "C2 24 0 0"], ["2-DD C1 1000 3", "6-DD C2 1000 3"])


def options(words):
    names = {"--runs": "runs", "--seed": "seed", "--by": "by"}
    return {names[word]: int(value) for word, value in zip(words[::2], words[1::2])}


def rows(words):
    faults, program = 0, program_of(words, "odds") if words.program else None
    made = list(all_rows())
    for number, (files, more, due) in enumerate(made, 1):
        shipped, listed, planned, pasted = (None if text is None else text.encode() for text in files)
        seen = odds_report(instance_of(read_ship(shipped), listed), planned, pasted, **options(more))
        answers = [("chances.py", seen)]
        if program:
            with tempfile.TemporaryDirectory() as room:
                answers.append(("the program", run(program, Path(room), (shipped, listed, planned, pasted), more)[:2]))
        for whose, seen in answers:
            if seen != due:
                faults += 1
                print(f"row {number}, {whose}: {seen}, not {due}")
    if (draw(0, 1, "2-DD"), draw(2147483647, 10000, "998-LD")) != (3447067545, 1320464836):
        faults += 1
        print("draws differ")
    print(f"{len(made)} rows, {faults} faults")
    return faults


# ---------------------------------------------------------------- random plans and past tasks

def files_of(rng):
    """A random ship file, list and their instance, without a ring."""
    while True:
        if rng.random() < 0.3:
            shipped, listed = dense_files(rng)
        else:
            maker = Maker(rng, rng.random() < 0.3)
            shipped, listed = maker.ship(), maker.stowage()
        read = read_ship(shipped.encode())
        if not ring_fault(read, listed.encode()):
            return shipped.encode(), listed.encode(), instance_of(read, listed.encode())


def random_plan(rng, inst):
    """A feasible plan, or None where a few tries meet none: one task after the other, mostly pulled together, some
    of it later than it must be."""
    for _ in range(20):
        made = serial_plan(inst, rng, 0)
        if first_break(inst, made):
            continue
        if rng.random() < 0.8:
            work = Work(inst, made)
            starts = work.starts([task.ticks for task in inst.tasks])
            made = [(crane, start) for (crane, _), start in zip(made, starts)]
        if rng.random() < 0.3:
            by, moment = rng.randint(1, 30), rng.choice([0] + [start for _, start in made])
            made = [(crane, start + by if start >= moment else start) for crane, start in made]
        if not first_break(inst, made):
            return made
    return None


def random_past(rng, inst):
    """A file of past tasks: few or many calls, of which some have no task of a phase or none of a like length."""
    lengths, records = [task.ticks for task in inst.tasks] or [10], []
    shape = rng.choice(("percent", "usual", "usual", "wild", "one"))
    for call in range(1 if shape == "one" else rng.choice((1, 2, 3, 8, 30))):
        name = f"{call}" + rng.choice(("", "-a", "_B"))
        factor = rng.choice((100, 85, 115, 60, 150))
        for _ in range(rng.choice((1, 2, 5, 12))):
            phase = rng.choice(PHASES + ("-",))
            planned = 100 if shape == "percent" else max(1, rng.choice(lengths) * rng.choice((10, 10, 10, 9, 14, 5, 4, 20, 21, 50)) // 10)
            real = max(1, planned * factor * rng.choice((100, 100, 90, 110, 130, 300)) // 10_000)
            if shape == "wild":
                planned, real = rng.choice(((1, 100), (1, 1), (999_999_999, 1), (999_999_999, 999_999_999), (7, 3), (planned, 1)))
            records.append(f"{name},{phase},{min(planned, 999_999_999)},{min(real, 100 * planned, 999_999_999)}")
    feed = rng.choice(("\n", "\n", "\r\n"))
    return (rng.choice(("", "", "\ufeff")) + feed.join([HEADER] + records) + rng.choice((feed, ""))).encode()


def spoilt_past(rng, data):
    lines = data.decode("utf-8-sig").splitlines()
    at = rng.randrange(len(lines))
    way = rng.choice(("field", "field", "field", "drop", "twice", "swap", "cut", "byte", "fields", "many", "quote"))
    if way == "field" and lines[at].count(",") == 3:
        fields = lines[at].split(",")
        fields[rng.randrange(4)] = rng.choice(("", "0", "1", "01", "-", "DD", "dd", "a b", "a", "999999999", "1000000000", "1e3", "x" * 20,
                                               "x" * 21, "\u00e9", "-1", " 1", "101"))
        lines[at] = ",".join(fields)
    elif way == "drop":
        del lines[at]
    elif way == "twice":
        lines.insert(rng.randrange(len(lines) + 1), lines[at])
    elif way == "swap":
        other = rng.randrange(len(lines))
        lines[at], lines[other] = lines[other], lines[at]
    elif way == "fields":
        lines[at] += rng.choice((",", ",1", ""))
    elif way == "many":
        lines[at + 1:at + 1] = [lines[at]] * rng.choice((2, 239, 240, 241))
    elif way == "quote":
        lines[at] = rng.choice(('"' + lines[at] + '"', ",".join(f'"{field}"' for field in lines[at].split(",")), '"' + lines[at]))
    new = "".join(line + "\n" for line in lines).encode()
    if way == "cut":
        return new[:rng.randrange(len(new) + 1)]
    if way == "byte" and new:
        place = rng.randrange(len(new))
        return new[:place] + bytes([rng.randrange(256)]) + new[place + 1:]
    return new


# ---------------------------------------------------------------- the second opinion by itself

def course_of(inst, planned, lengths):
    """The starts and the last moment of a course in which each task is reported as done when it has taken its length, by
    the rule of the dispatcher; and its log."""
    course, log = Course(inst, planned), []
    while None in course.end:
        running = [j for j in range(len(planned)) if course.start[j] is not None and course.end[j] is None]
        due = [course.start[j] + lengths[j] for j in running]
        later = [moment for moment in course.moments() if moment > course.now]
        moment = min(due + later)
        if moment > course.now:
            course.tick(moment - course.now)
            log.append(f"tick {log_ticks(log, moment, course)}")
        for j in running:
            if course.start[j] + lengths[j] == course.now:
                course.done(j)
                log.append(f"done {inst.tasks[j].name}")
    return course.start, course.now, log


def log_ticks(log, moment, course):
    """The ticks from the log's last moment to this one."""
    return moment - sum(int(line.split()[1]) for line in log if line.startswith("tick"))


def itself(words):
    faults, counts = 0, Counter()
    for seed in range(words.first, words.first + words.count):
        rng = random.Random(seed)
        _, _, inst = files_of(rng)
        planned = random_plan(rng, inst)
        if planned is None:
            counts["ships without a plan"] += 1
            continue
        calls, fault = read_past(random_past(rng, inst))
        work = Work(inst, planned)
        for run in range(1, 4):
            lengths = lengths_of(calls, inst, seed, run)
            starts, end = work.starts(lengths), work.end(lengths)
            counts["runs"] += 1
            complaints = [fault and f"a good file has the fault {fault}"]
            if sum(lengths) < 100_000:
                its_starts, now, _ = course_of(inst, planned, lengths)
                if its_starts != starts or now != end and planned:
                    complaints.append(f"the course starts at {its_starts}, not at {starts}")
            if work.marked(lengths) != work.critical(lengths):
                complaints.append(f"marked are {work.marked(lengths)}, critical {work.critical(lengths)}")
            taken = replace(inst, tasks=tuple(replace(task, ticks=length) for task, length in zip(inst.tasks, lengths)))
            broken = first_break(taken, [(crane, start) for (crane, _), start in zip(planned, starts)])
            if broken:
                complaints.append(f"the starts break {broken}")
            if any(work.end([length + (i == j) for i, length in enumerate(lengths)]) > end + 1 for j in range(len(lengths))):
                complaints.append("a tick more ends it more than a tick later")
            shorter = [min(length, task.ticks) for length, task in zip(lengths, inst.tasks)]
            if any(start > at for start, (_, at) in zip(work.starts(shorter), planned)):
                complaints.append("with shorter lengths a task starts later than planned")
            counts["critical tasks"] += sum(work.critical(lengths))
            for what in filter(None, complaints):
                faults += 1
                print(f"seed {seed}, run {run}: {what}")
    print(f"{words.count} ships, {dict(counts)}: {faults} faults")
    return faults


# ---------------------------------------------------------------- the program

NAMES = ("ship.toml", "stow.csv", "plan.csv", "past.csv")


def run(program, room, files, more, command="odds"):
    """Status, report, standard error and the files after a run; a file that is None isn't there."""
    for path in list(room.iterdir()):
        path.unlink()
    for name, data in zip(NAMES, files):
        if data is not None:
            (room / name).write_bytes(data)
    done = subprocess.run([program, command, *NAMES, *more], cwd=room, capture_output=True, timeout=60)
    held = tuple((room / name).read_bytes() if (room / name).exists() else None for name in NAMES)
    said = done.stderr.decode("utf-8", "backslashreplace").splitlines()
    return done.returncode, done.stdout.decode("latin-1").splitlines(), said, held, len(list(room.iterdir()))


class Kept:
    """A room for runs, and what differs in them."""

    def __init__(self, words):
        self.program, self.kept = program_of(words, "odds"), Path(words.kept)
        self.room = Path(tempfile.mkdtemp(prefix="odds-", dir="/dev/shm" if Path("/dev/shm").is_dir() else None))
        self.counts, self.differences = Counter(), 0

    def differs(self, name, files, what):
        self.differences += 1
        place = self.kept / f"{name}-{self.differences}"
        place.mkdir(parents=True, exist_ok=True)
        for at, data in zip(NAMES, files):
            if data is not None:
                (place / at).write_bytes(data)
        (place / "difference").write_text(what + "\n")
        print(f"{place}: {what[:300]}", flush=True)

    def close(self, count):
        shutil.rmtree(self.room)
        print(f"{count} ships: {dict(sorted(self.counts.items()))}; {self.differences} differences")
        return self.differences


def compare(kept, name, inst, files, more):
    due = odds_report(inst, files[2], files[3], **options(more))
    status, lines, said, held, many = run(kept.program, kept.room, files, more)
    kept.counts[f"status {due[0]}" + (f" {due[1][0].split()[1]}" if due[0] == 21 else "")] += 1
    if (status, lines) != due:
        kept.differs(name, files, f"{more}: {status} {lines}\nnot\n{due}")
    if held != tuple(files) or many != sum(data is not None for data in files):
        kept.differs(name, files, f"{more}: files changed")
    if any(not line.startswith("qc: ") for line in said) or status and not said:
        kept.differs(name, files, f"{more}: said {said}")


def ships(words):
    kept = Kept(words)
    for seed in range(words.first, words.first + words.count):
        rng = random.Random(seed)
        shipped, listed, inst = files_of(rng)
        planned = random_plan(rng, inst)
        if planned is None:
            kept.counts["ships without a plan"] += 1
            continue
        pasted, text = random_past(rng, inst), plan_text(inst, planned).encode()
        for _ in range(3):
            more = ["--runs", str(rng.choice((1, 2, 5, 10, 33, 100)))]
            if rng.random() < 0.7:
                more += ["--seed", str(rng.choice((0, 1, 7, 2_147_483_647, rng.randrange(2 ** 31))))]
            if rng.random() < 0.5:
                more += ["--by", str(rng.choice((0, end_of(inst, planned), end_of(inst, planned) + rng.randint(-5, 20), 999_999_999_999)) if planned else 0)]
            more[-1] = more[-1].replace("-", "")
            compare(kept, seed, inst, (shipped, listed, text, pasted), more)
        for _ in range(4):
            compare(kept, seed, inst, (shipped, listed, text, spoilt_past(rng, pasted)), ["--runs", "2"])
        for changed in rng.sample(changed_plans(inst, planned, rng), 2):
            some = pasted if rng.random() < 0.7 else None if rng.random() < 0.5 else spoilt_past(rng, pasted)
            compare(kept, seed, inst, (shipped, listed, changed.encode(), some), ["--runs", "3"])
    return kept.close(words.count)


def dispatcher(words):
    kept = Kept(words)
    for seed in range(words.first, words.first + words.count):
        rng = random.Random(seed)
        shipped, listed, inst = files_of(rng)
        planned = random_plan(rng, inst)
        if planned is None:
            kept.counts["ships without a plan"] += 1
            continue
        pasted, text, runs = random_past(rng, inst), plan_text(inst, planned).encode(), rng.choice((1, 3, 10))
        calls, ends = read_past(pasted)[0], []
        for number in range(1, runs + 1):
            lengths = lengths_of(calls, inst, seed, number)
            starts, now = Work(inst, planned).starts(lengths), 0
            log, running = [], sorted((start + length, j) for j, (start, length) in enumerate(zip(starts, lengths)))
            for end, j in running:
                while end > now:
                    log.append(f"tick {min(end - now, 999_999_999)}")
                    now += min(end - now, 999_999_999)
                log.append(f"done {inst.tasks[j].name}")
            files = shipped, listed, text, "".join(line + "\n" for line in log).encode()
            status, lines, *_ = run(kept.program, kept.room, files, [], "dispatch")
            due = {f"start {task.name} {inst.cranes[crane].name} {start}" for task, (crane, _), start in zip(inst.tasks, planned, starts)}
            if status or {line for line in lines if line.startswith("start ")} != due or lines[-2:] != ["left 0", "running 0"]:
                kept.differs(seed, files, f"run {number}: dispatch starts otherwise: {status} {lines}\nnot\n{sorted(due)}")
                break
            kept.counts["logs"] += 1
            ends.append(int(lines[-3].removeprefix("now ")))
        if len(ends) < runs:
            continue
        files = shipped, listed, text, pasted
        status, lines, *_ = run(kept.program, kept.room, files, ["--runs", str(runs), "--seed", str(seed)])
        rising, end = sorted(ends), end_of(inst, planned)
        due = [f"mean {up(sum(ends), runs)}"] + [f"done {q} {rising[up(q * runs, 100) - 1]}" for q in QUANTILES]
        due.append(f"kept {end} {1000 * sum(one <= end for one in ends) // runs}")
        kept.counts["reports"] += 1
        if status or lines[2:10] != due:
            kept.differs(seed, files, f"--runs {runs} --seed {seed}: {status} {lines[2:10]}\nnot\n{due}")
    return kept.close(words.count)


GOOD = [[], ["--runs", "1"], ["--runs", "10000"], ["--seed", "2147483647"], ["--by", "999999999999"], ["--by", "0", "--runs", "2", "--seed", "0"],
        ["--runs=3"], ["--seed", "5", "--by", "7"]]
BAD = [["--runs", "0"], ["--runs", "10001"], ["--runs", "01"], ["--seed", "2147483648"], ["--by", "1000000000000"], ["--by", "1", "--by", "2"],
       ["--runs", "1", "--runs", "1"], ["--seed", "0", "--seed", "0"], ["--runs"], ["--runs", "-1"], ["--by", "-1"], ["--by", "x"],
       ["--runs", "+1"], ["--runs", "1.0"], ["--runs", ""], ["--nodes", "3"], ["more"], ["--from", "plan.csv"], ["--seed", "0x1"]]


def words_tried(words):
    faults, program = 0, program_of(words, "odds")
    files = tuple(text.encode() for text in (ship(), NEAR, LATE_FIRST, past("a,-,100,100")))
    with tempfile.TemporaryDirectory() as room:
        for more, is_good in [(more, True) for more in GOOD] + [(more, False) for more in BAD]:
            status, lines, said, held, many = run(program, Path(room), files, more)
            if (status == 0) != is_good or not is_good and (status, lines[:1]) != (2, ["Usage"]) or held != files or many != 4:
                faults += 1
                print(f"{more}: {status} {lines[:2]} {said[:1]}")
    print(f"{len(GOOD) + len(BAD)} rows of words, {faults} faults")
    return faults


def main():
    parser = argparse.ArgumentParser(description="the odds of a plan's end")
    some = parser.add_subparsers(dest="what", required=True)
    for name in ("rows", "itself", "ships", "dispatcher", "words"):
        one = some.add_parser(name)
        if name in ("ships", "dispatcher"):
            one.add_argument("kept", metavar="KEPT")
        if name in ("itself", "ships", "dispatcher"):
            add_without(one)
            one.add_argument("--first", type=int, default=1)
            one.add_argument("--count", type=int, default=300)
        if name != "itself":
            add_program(one)
    words = parser.parse_args()
    KEYS.difference_update(getattr(words, "without", ()))
    tried = {"rows": rows, "itself": itself, "ships": ships, "dispatcher": dispatcher, "words": words_tried}
    sys.exit(tried[words.what](words) > 0)


if __name__ == "__main__":
    main()
