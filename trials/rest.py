#!/usr/bin/env python3
"""Tries `qc rest` by the second opinion on what is left of a plan, and that by itself.

    rest.py rows [--program FILE]
    rest.py itself [--first SEED] [--count SHIPS]
    rest.py ships KEPT [--program FILE] [--first SEED] [--count SHIPS] [--without KEY]

`rows`: reports, files and refusals that were worked out by hand, by replan.py and, where a program is told, by it.
`itself`: on random ships, plans one way and to and fro, real lengths and logs cut at random, the files of replan.py
are read back as what is left, the places are such at which the cranes can be, the old order holds in it, goes the
ways of the plan and is less than a bay's travel late; and what was done joined with any schedule of the rest, also
from other places that can be and with later cranes and releases, keeps the rules, judged by these alone, and where it
is short moves safely at every moment. `ships`: of such ships, some with spoilt logs or plans, the program says and
writes, to the byte, what replan.py does; and the plans that `plan` and `free` then make of the three files, and those
that another order gives, keep the rules when joined with what was done. With `--without KEY` no ship has that key.
What differs is kept below KEPT. Status 1 where anything differs. Which program FILE is, tried.py says.
"""
import argparse
import random
import shutil
import subprocess
import sys
import tempfile
from collections import Counter
from dataclasses import replace
from pathlib import Path

sys.dont_write_bytecode = True  # no folder of compiled files beside the scripts

from chances import Work
from faults import list_fault, ship_or_fault
from free import FreeMotion, first_break
from odds import files_of, random_plan
from reference import (Course, arcs_up, breaks_up, direction_of, end_of, instance_of, least_starts, plan_text, read_plan,
                       read_ship)
from replan import Rest, answer, opened
from ships import KEYS, add_without, changed_plans, happenings, serial_plan, spoilt_happenings
from tried import add_program, program_of


# ---------------------------------------------------------------- rows by hand

SHIP = """hatches = [2, 6, 10, 14]
margin = 1
travel = {travel}
deck_move = {deck}
hold_move = 10
{keys}
[[crane]]
name = "C1"
bay = 1
{second}"""
SECOND = '[[crane]]\nname = "C2"\nbay = 3\n'
NEW = """apart = []
before = []
cover = 0
deck_move = 10
hatches = [2, 6, 10, 14]
hold_move = 10
margin = 1
not_before = []
restows = "free"
travel = 1

[[crane]]
bay = 1
from = 1
name = "C1"
ready = 0
to = 4

[[crane]]
bay = 3
from = 1
name = "C2"
ready = 0
to = 4
"""
PLACED = """hatches = [2, 6]
places = [100, 260]
clear = 250
travel = 1
deck_move = 10
hold_move = 10
[[crane]]
name = "C1"
bay = 100
[[crane]]
name = "C2"
bay = 400
"""


def ship(travel=1, deck=10, keys="", second=SECOND):
    return SHIP.format(travel=travel, deck=deck, keys=keys, second=second)


def stow(*rows):
    return "\n".join(["id,move,cell,length", *rows]) + "\n"


def decks(**counts):
    return stow(*[f"{hatch}{i},D,{int(hatch[1:]):02}{i // 10:02}{80 + 2 * (i % 10):02},40" for hatch, count in counts.items() for i in range(count)])


def plan(*records):
    return "\n".join(["task,crane,start,end", *records]) + "\n"


def log(*lines):
    return "".join(line + "\n" for line in lines)


def changed(text, **lines):
    """A ship's text with some of its lines changed; `bay1` is that of the first crane."""
    found, crane = [], 0
    for line in text.splitlines():
        crane += line == "[[crane]]"
        key = line.split(" = ")[0] + (str(crane) if crane else "")
        found.append(f"{line.split(' = ')[0]} = {lines[key]}" if key in lines else line)
    return "\n".join(found) + "\n"


def told(now, left, *lines):
    return [f"now {now}", f"left {left}", *lines]


TWO = decks(h2=2, h6=2)
FIRST_LATE = plan("2-DD,C1,22,42", "6-DD,C2,1,21")
ALONE = ship(4, second="")
APARTED = plan("2-DD,C1,0,10", "10-DD,C1,18,28")
PAIR = decks(h2=1, h10=1)
H2, H6 = decks(h2=2), decks(h6=2)
NONE, EMPTY = stow(), plan()
KEYED = ship(keys='restows = "ordered"\napart = [[2, 10]]\nnot_before = [["2-LD", 40], ["14-LD", 5]]\n'
                 'before = [["14-LD", "10-DD"], ["2-DD", "10-DD"], ["10-DD", "2-LD"]]',
            second='[[crane]]\nname = "C2"\nbay = 4\nready = 30\nfrom = 2\n')
KEYED_STOW = stow("X,D,0020082,40", "Y,D,100082,40", "X,L,140082,40", "Z,L,020082,40")
EIGHT = 'hatches = [2]\nplaces = [6000]\nclear = 2000\ntravel = 1\ndeck_move = 10\nhold_move = 10\n' + "".join(
    f'[[crane]]\nname = "C{k + 1}"\nbay = {2000 * k}\n' for k in range(8))
B = ship()

# ship, list, plan, log, report or refusal, new ship, new list, old order; None of a file that isn't asked.
ROWS = [
    (B, TWO, FIRST_LATE, "", told(0, 2, "crane C1 1 0", "crane C2 3 0", "end 42", "late 0"), NEW, TWO, FIRST_LATE),
    (B, TWO, FIRST_LATE, log("tick 5"),
     told(5, 1, "running 6-DD C2 16", "crane C1 0 0", "crane C2 2 16", "end 37", "late 0"),
     changed(NEW, bay1=0, bay2=2, ready2=16), H2, plan("2-DD,C1,17,37")),
    (B, TWO, FIRST_LATE, log("tick 5", "done 6-DD", "tick 1", "tick 30", "done 2-DD"),
     told(36, 0, "crane C1 1 0", "crane C2 3 0", "end 0", "late 0"), NEW, NONE, EMPTY),
    (B, TWO, FIRST_LATE, log("tick 100"), "NoRest Over 6-DD", None, None, None),
    (B, TWO, FIRST_LATE, log("tick 5", "left 6-DD 9", "tick 9"), "NoRest Over 6-DD", None, None, None),
    (B, TWO, FIRST_LATE, log("tick 5", "left 6-DD 9", "tick 8"),
     told(13, 1, "running 6-DD C2 1", "crane C1 0 0", "crane C2 2 1", "end 22", "late 0"),
     changed(NEW, bay1=0, bay2=2, ready2=1), H2, plan("2-DD,C1,2,22")),
    (B, TWO, FIRST_LATE, log("tick 5", "left 6-DD 40", "tick 10"),
     told(15, 1, "running 6-DD C2 30", "crane C1 0 0", "crane C2 2 30", "end 51", "late 0"),
     changed(NEW, bay1=0, bay2=2, ready2=30), H2, plan("2-DD,C1,31,51")),
    *[(B, TWO, FIRST_LATE, log(*lines), f"BadLog {fault}", None, None, None) for lines, fault in (
        (["left 6-DD 5"], "NotRunning 1"), (["tick 1", "left 6-DD 0"], "Line 2"), (["tick 1", "left 6-DD 05"], "Line 2"),
        (["tick 1", "left 6-DD  5"], "Line 2"), (["tick 1", "left 9-DD 5"], "UnknownTask 2"),
        (["tick 5", "done 6-DD", "left 6-DD 5"], "NotRunning 3"), (["tick 5", "done 2-DD"], "NotRunning 2"))],
    (ALONE, PAIR, APARTED, log("tick 10", "done 2-DD", "tick 3"), told(13, 1, "crane C1 1 0", "end 18", "late 3"), None, None, None),
    (ALONE, PAIR, APARTED, log("tick 10", "done 2-DD", "tick 4"), told(14, 1, "crane C1 2 0", "end 14", "late 0"), None, None, None),
    (ALONE, PAIR, APARTED, log("tick 10", "done 2-DD", "tick 5"), told(15, 1, "crane C1 2 0", "end 14", "late 1"), None, None, None),
    (ALONE, PAIR, APARTED, log("tick 10", "done 2-DD", "tick 8"),
     told(18, 0, "running 10-DD C1 10", "crane C1 3 10", "end 0", "late 0"), None, NONE, EMPTY),
    # The second crane is on its way to the far side, and the first makes room.
    (ship(4), decks(h6=1, h10=1, h14=1), plan("6-DD,C2,30,40", "10-DD,C1,8,18", "14-DD,C2,48,58"),
     log("tick 18", "done 10-DD", "tick 22", "done 6-DD", "tick 1"),
     told(41, 1, "crane C1 0 0", "crane C2 2 0", "end 18", "late 1"), None, decks(h14=1), plan("14-DD,C2,8,18")),
    (KEYED, KEYED_STOW, plan("2-DD,C1,0,10", "2-LD,C1,54,64", "10-DD,C1,42,52", "14-LD,C2,30,40"), log("tick 4"),
     told(4, 3, "running 2-DD C1 6", "crane C1 1 6", "crane C2 4 26", "end 59", "late 0"),
     changed(NEW, apart="[[2, 10]]", before='[["14-LD", "10-DD"], ["10-DD", "2-LD"]]',
             not_before='[["2-LD", 36], ["10-DD", 6], ["14-LD", 6]]', restows='"ordered"', ready1=6, bay2=4, ready2=26, from2=2),
     stow("Y,D,100082,40", "X,L,140082,40", "Z,L,020082,40"), plan("2-LD,C1,49,59", "10-DD,C1,37,47", "14-LD,C2,26,36")),
    (PLACED, TWO, plan("2-DD,C1,0,20", "6-DD,C2,140,160"), log("tick 30", "done 2-DD", "tick 95"),
     told(125, 1, "crane C1 25 0", "crane C2 275 0", "end 35", "late 0"),
     NEW.replace("cover", "clear = 250\ncover", 1).replace("margin = 1\n", "").replace("restows", "places = [100, 260]\nrestows", 1)
     .replace("[2, 6, 10, 14]", "[2, 6]").replace("to = 4", "to = 2").replace("bay = 1\n", "bay = 25\n").replace("bay = 3\n", "bay = 275\n"),
     H6, plan("6-DD,C2,15,35")),
    (ship(deck=10000, second=""), decks(h2=101), plan("2-DD,C1,0,1010000"), log("tick 9999"), "NoRest Ready C1", None, None, None),
    (EIGHT, decks(h2=1), plan("2-DD,C1,6000,6010"), log("tick 6001"), "NoRest Bay C7", None, None, None),
    (B, TWO, plan("2-DD,C1,21,41", "6-DD,C2,1,21"), log("tick"), "Broken Margin 2-DD 6-DD", None, None, None),
    (B, TWO, FIRST_LATE, None, "ReadFault log", None, None, None),
    (ship(second=SECOND + "ready = 50\n"), decks(h2=2, h14=1), plan("2-DD,C1,0,20", "14-DD,C2,51,61"),
     log("tick 20", "done 2-DD", "tick 2"), told(22, 1, "crane C1 1 0", "crane C2 3 28", "end 39", "late 0"),
     changed(NEW, ready2=28), decks(h14=1), plan("14-DD,C2,29,39")),
]
STATUSES = {"NoRest": 20, "BadLog": 17, "Broken": 13, "ReadFault": 3}


def rows(words):
    faults, program = 0, program_of(words, "rest") if words.program else None
    for number, (shipped, listed, planned, logged, due, *made) in enumerate(ROWS, 1):
        status, lines = (STATUSES[due.split()[0]], [due]) if isinstance(due, str) else (0, due)
        files = [None if text is None else text.encode() for text in (shipped, listed, planned, logged)]
        answers = [("replan.py", answer(files))]
        if program:
            with tempfile.TemporaryDirectory() as room:
                answers.append(("the program", run(program, Path(room), files)[:3]))
        for whose, (its_status, its_lines, its_files) in answers:
            wrong = [name for name, is_, be in zip(("new ship", "new list", "old order"), its_files or (None,) * 3, made)
                     if be is not None and (is_ is None or is_.decode() != be)]
            if (its_status, its_lines) != (status, lines) or wrong or (its_files is None) != (status != 0):
                faults += 1
                print(f"row {number}, {whose}: {its_status} {its_lines}, not {status} {lines}; {wrong} {its_files}")
    if program:
        faults += words_tried(program)
    print(f"{len(ROWS)} rows, {faults} faults")
    return faults


def words_tried(program):
    """Names that are equal, too few, too many."""
    names, faults = ["s", "m", "p", "l", "ns", "nm", "o"], 0
    with tempfile.TemporaryDirectory() as room:
        for name, text in zip(names, (B, TWO, FIRST_LATE, "")):
            (Path(room) / name).write_text(text)
        twice = [names[:i] + [names[j]] + names[i + 1:] for i in range(7) for j in range(7) if i != j]
        for some in twice + [names[:6], names + ["x"], names + ["--nodes", "1"], names[:6] + ["-x"]]:
            done = subprocess.run([program, "-q", "rest", *some], cwd=room, capture_output=True, text=True, timeout=20)
            if done.returncode != 2 or done.stdout.split("\n")[0] != "Usage" or sorted(path.name for path in Path(room).iterdir()) != sorted(names[:4]):
                faults += 1
                print(f"{some}: {done.returncode} {done.stdout[:60]!r}")
    return faults


# ---------------------------------------------------------------- random work

def one_way_plan(rng, inst):
    """A plan that goes one way with random cranes, or None where a few tries meet none."""
    for _ in range(30):
        seen = rng.choice((inst, inst.mirror))
        choices = [[k for k in range(len(seen.cranes)) if seen.reaches(k, j)] for j in range(len(seen.tasks))]
        if not all(choices):
            return None
        cranes = [rng.choice(some) for some in choices]
        arcs = arcs_up(seen, cranes) + [(*rng.sample(pair, 2), 0) for pair in map(list, seen.apart)]
        arcs = [(i, j, max(ticks, seen.tasks[i].ticks)) for i, j, ticks in arcs]
        starts = least_starts(seen, [seen.free_table[j][k] for j, k in enumerate(cranes)], arcs)
        if starts is not None:
            made = list(zip(cranes, starts))
            return made if seen is inst else inst.mirrored(made)
    return None


def worked(rng, inst, planned):
    """The lines of a log up to some moment: tasks take what they take, and now and then a line says what one still needs."""
    if rng.random() < 0.25:
        return happenings(rng, inst, planned)
    course, lines = Course(inst, planned), []
    real = [max(1, task.ticks * rng.choice((50, 80, 100, 100, 110, 150, 300)) // 100) for task in inst.tasks]
    late = max([start + task.ticks for (_, start), task in zip(planned, inst.tasks)], default=0)
    last = rng.choice((0, rng.randint(0, late), rng.randint(0, late), rng.randint(0, late), 2 * late))
    while True:
        running = [j for j in range(len(planned)) if course.runs(j)]
        for j in running:
            if course.start[j] + real[j] <= course.now and rng.random() < 0.97:
                course.done(j)
                lines.append(f"done {inst.tasks[j].name}".encode())
            elif rng.random() < 0.1:
                ticks = max(1, course.start[j] + real[j] - course.now + rng.choice((0, 0, 1, -1, 5, 40)))
                course.told_left(j, ticks)
                lines.append(f"left {inst.tasks[j].name} {ticks}".encode())
        due = [course.start[j] + real[j] for j in range(len(planned)) if course.runs(j)]
        later = [moment for moment in due + list(course.moments()) if moment > course.now]
        if not later or course.now >= last:
            break
        ticks = min(min(later), last) - course.now
        if ticks > 1 and rng.random() < 0.2:
            ticks = rng.randint(1, ticks)
        course.tick(ticks)
        lines.append(f"tick {ticks}".encode())
    for j in range(len(planned)):  # what has taken as long as it was taken to needs a line
        needs = Rest.still_needs(_Seen(inst, course), j) if course.runs(j) else 1
        if needs == 0 and rng.random() < 0.85:
            ticks = rng.choice((1, 3, 20, rng.randint(1, 60)))
            course.told_left(j, ticks)
            lines.append(f"left {inst.tasks[j].name} {ticks}".encode())
    if rng.random() < 0.1:
        lines = lines[:rng.randint(0, len(lines))]
    return lines


class _Seen:
    """What Rest.still_needs asks of itself."""

    def __init__(self, inst, course):
        self.inst, self.course, self.now = inst, course, course.now


def case_of(rng):
    """Files of a random ship, its list, a plan and a log; and the instance and the plan. None where there is no plan."""
    shipped, listed, inst = files_of(rng)
    planned = one_way_plan(rng, inst) if rng.random() < 0.4 else random_plan(rng, inst)
    if planned is None or first_break(inst, planned):
        return None
    if rng.random() < 0.3 and planned:
        by, moment = rng.randint(1, 30), rng.choice([0] + [start for _, start in planned])
        slow = [(crane, start + by if start >= moment else start) for crane, start in planned]
        planned = planned if first_break(inst, slow) else slow
    lines = worked(rng, inst, planned)
    return shipped, listed, inst, planned, b"".join(line + b"\n" for line in lines)


def some_schedule(rng, inst):
    """A feasible schedule of any order and any cranes, pulled together or with slack, or None."""
    made = serial_plan(inst, rng, 0)
    if first_break(inst, made):
        return None
    if rng.random() < 0.8:
        starts = Work(inst, made).starts([task.ticks for task in inst.tasks])
        made = [(crane, start) for (crane, _), start in zip(made, starts)]
    if rng.random() < 0.3:
        by, moment = rng.randint(1, 20), rng.choice([0] + [start for _, start in made])
        slow = [(crane, start + by if start >= moment else start) for crane, start in made]
        made = made if first_break(inst, slow) else slow
    return made


# ---------------------------------------------------------------- the second opinion by itself

def can_be(rest, places):
    """Whether all cranes can be at these places now."""
    near = all(abs(place - stand.place) <= stand.far for place, stand in zip(places, rest.stands))
    return near and all(b - a >= rest.inst.gap for a, b in zip(places, places[1:]))


def other_places(rng, rest):
    """Places at which the cranes can be, as random ones as a few tries meet."""
    for _ in range(20):
        places = [stand.place + rng.randint(-min(stand.far, 30), min(stand.far, 30)) for stand in rest.stands]
        if can_be(rest, places):
            return places
    return rest.places


def complaints_of(rest, ship_read, files):
    """What doesn't hold of what is left."""
    inst, now, travel = rest.inst, rest.now, rest.inst.travel
    if not can_be(rest, rest.places):
        yield f"the cranes can't be at {rest.places}"
    broken = first_break(rest.rest, rest.old)
    if broken:
        yield f"the old order breaks {broken}"
    for seen, was, whole in ((rest.rest, rest.old, (inst, rest.plan)),
                             (rest.rest.mirror, rest.rest.mirrored(rest.old), (inst.mirror, inst.mirrored(rest.plan)))):
        if next(breaks_up(*whole), None) is None and next(breaks_up(seen, was), None) is not None:
            yield "the plan goes one way, and the old order doesn't"
    for j, (_, start) in zip(rest.left, rest.old):
        if not rest.go[j] <= now + start <= rest.go[j] + travel - 1:
            yield f"{inst.tasks[j].name} at {now + start}, gone on with {rest.go[j]}"
    new_ship, fault = ship_or_fault(files[0])
    fault = fault or list_fault(new_ship, files[1])
    if fault or instance_of(new_ship, files[1]) != rest.rest:
        yield f"the files aren't what is left: {fault}"
    elif read_plan(rest.rest, files[2]) != (rest.old, None):
        yield "the old order is read otherwise"


def wrong_union(rest, schedule, ends=None):
    """What is wrong with what was done joined with a schedule of the rest."""
    whole, made = rest.union(schedule, ends)
    broken = first_break(whole, made)
    if broken:
        return f"broken {broken[0]} {[whole.tasks[j].name for j in broken[1:]]}: {plan_text(whole, made)}"
    last = max([*(ends or rest.ends).values(), *(rest.now + end_of(rest.rest, schedule) for _ in schedule[:1])], default=0)
    return None if end_of(whole, made) == last else f"it ends at {end_of(whole, made)}, not at {last}"


def itself(words):
    faults, counts = 0, Counter()
    for seed in range(words.first, words.first + words.count):
        rng = random.Random(seed)
        case = case_of(rng)
        if case is None:
            counts["ships without a plan"] += 1
            continue
        shipped, listed, inst, planned, logged = case
        files = shipped, listed, plan_text(inst, planned).encode(), logged
        found, refused = opened(files)
        status, lines, made = answer(files)
        counts[f"status {status} " + (lines[0].rsplit(" ", 1)[0] if status else "")] += 1
        if refused or status:
            continue
        ship_read, _, rest = found
        wrong = list(complaints_of(rest, ship_read, made))
        counts["plans one way"] += direction_of(inst, planned)[1] is None
        counts["logs with something left"] += bool(rest.left)
        counts["late by some ticks"] += lines[-1] != "late 0"
        for number in range(6 if rest.left else 0):
            places = rest.places if number < 2 else other_places(rng, rest)
            seen = rest.instance(places)
            if number > 3:
                seen = replace(seen, cranes=tuple(replace(crane, ready=crane.ready + rng.choice((0, 0, 5, 30))) for crane in seen.cranes),
                               tasks=tuple(replace(task, release=task.release + rng.choice((0, 0, 0, 25))) for task in seen.tasks))
            schedule = some_schedule(rng, seen)
            if schedule is None:
                continue
            counts["schedules of the rest"] += 1
            counts["from other places"] += places != rest.places
            wrong.append(wrong_union(rest, schedule))
            sooner = {j: end if j not in rest.left_of else rng.randint(rest.now, end) for j, end in rest.ends.items()}
            wrong.append(wrong_union(rest, schedule, sooner))
            whole, joined = rest.union(schedule)
            if end_of(whole, joined) <= 120 and all(task.ticks for task in whole.tasks) and rng.random() < 0.2:
                counts["motions judged at every half tick"] += 1
                wrong.append(FreeMotion(whole, joined).unsafe(2))
        for what in filter(None, wrong):
            faults += 1
            print(f"seed {seed}: {what}", flush=True)
    print(f"{words.count} ships, {dict(sorted(counts.items()))}: {faults} faults")
    return faults


# ---------------------------------------------------------------- the program

READ = ("ship.toml", "stow.csv", "plan.csv", "log.txt")
WRITTEN = ("new-ship.toml", "new-stow.csv", "own.csv")


def run(program, room, files, older=False):
    """Status, report and the three files, None where they are none or as they were; standard error; what is wrong with the
    other files."""
    for path in list(room.iterdir()):
        path.unlink()
    for name, data in zip(READ, files):
        if data is not None:
            (room / name).write_bytes(data)
    before = {}
    for name in WRITTEN if older else ():
        before[name] = b"older " + name.encode()
        (room / name).write_bytes(before[name])
    done = subprocess.run([program, "rest", *READ, *WRITTEN], cwd=room, capture_output=True, timeout=60)
    held = {path.name: path.read_bytes() for path in room.iterdir()}
    wrong = [name for name, data in zip(READ, files) if held.get(name) != data] + sorted(set(held) - {*READ, *WRITTEN})
    written = [held.get(name) for name in WRITTEN]
    if written == [before.get(name) for name in WRITTEN]:
        written = None
    said = done.stderr.decode("utf-8", "backslashreplace").splitlines()
    return done.returncode, done.stdout.decode("latin-1").splitlines(), written, said, wrong


class Kept:
    """A room for runs, and what differs in them."""

    def __init__(self, words):
        self.program, self.kept = program_of(words, "rest"), Path(words.kept)
        self.room = Path(tempfile.mkdtemp(prefix="rest-", dir="/dev/shm" if Path("/dev/shm").is_dir() else None))
        self.counts, self.differences = Counter(), 0

    def differs(self, name, files, what):
        self.differences += 1
        place = self.kept / f"{name}-{self.differences}"
        place.mkdir(parents=True, exist_ok=True)
        for at, data in zip(READ, files):
            if data is not None:
                (place / at).write_bytes(data)
        (place / "difference").write_text(what + "\n")
        print(f"{place}: {what[:400]}", flush=True)

    def close(self, count):
        shutil.rmtree(self.room)
        print(f"{count} ships: {dict(sorted(self.counts.items()))}; {self.differences} differences")
        return self.differences


def compare(kept, name, files, older):
    due = answer(files)
    *seen, said, wrong = run(kept.program, kept.room, files, older)
    kept.counts[f"status {due[0]}" + (" " + due[1][0].split()[1] if due[0] == 20 else "")] += 1
    if tuple(seen) != due:
        kept.differs(name, files, f"{seen}\nnot\n{due}")
    if wrong:
        kept.differs(name, files, f"other files: {wrong}")
    if any(not line.startswith("qc: ") for line in said) or due[0] and not said:
        kept.differs(name, files, f"said {said}")
    return due


def plans_of_the_rest(kept, name, files, rest, rng):
    """The plans that the program makes of the three files, which stand in the room, judged behind what was done."""
    one_way = direction_of(rest.inst, rest.plan)[1] is None
    for command in ("plan", "free"):
        for own in ([], ["--from", "own.csv"]):
            for path in ("plan2.csv", "tree2"):
                (kept.room / path).unlink(missing_ok=True)
            nodes = ["--nodes", str(rng.choice((0, 5, 200)))]
            done = subprocess.run([kept.program, "-q", command, *WRITTEN[:2], "plan2.csv", "tree2", *own, *nodes], cwd=kept.room,
                                  capture_output=True, timeout=100)
            kept.counts[f"{command}{' from the old order' * bool(own)}: status {done.returncode}"] += 1
            if own and done.returncode not in (0, 11) and (command == "free" or one_way):
                kept.differs(name, files, f"{command} from the old order: {done.returncode} {done.stdout}")
            if done.returncode not in (0, 11):
                continue
            schedule, fault = read_plan(rest.rest, (kept.room / "plan2.csv").read_bytes())
            wrong = fault or wrong_union(rest, schedule)
            if not wrong and own and end_of(rest.rest, schedule) > end_of(rest.rest, rest.old):
                wrong = "later than the old order"
            if wrong:
                kept.differs(name, files, f"{command}: {wrong}")
            kept.counts["plans joined with what was done"] += 1


def ships(words):
    kept = Kept(words)
    for seed in range(words.first, words.first + words.count):
        rng = random.Random(seed)
        case = case_of(rng)
        if case is None:
            kept.counts["ships without a plan"] += 1
            continue
        shipped, listed, inst, planned, logged = case
        files = [shipped, listed, plan_text(inst, planned).encode(), logged]
        due = compare(kept, seed, files, rng.random() < 0.5)
        if due[0] == 0 and not kept.differences:
            rest = opened(files)[0][2]
            if rest.left and rng.random() < words.plans:
                plans_of_the_rest(kept, seed, files, rest, rng)
            compare(kept, f"{seed}-again", [*due[2], b""], False)
        for _ in range(2):
            lines = logged.splitlines()
            spoilt = logged[:rng.randint(0, len(logged))] if rng.random() < 0.4 else spoilt_happenings(rng, lines)
            compare(kept, seed, files[:3] + [spoilt], rng.random() < 0.5)
        if rng.random() < 0.3:
            text = rng.choice(changed_plans(inst, planned, rng)).encode()
            compare(kept, seed, files[:2] + [text, rng.choice((logged, None, b"tick 0\n"))], rng.random() < 0.5)
    return kept.close(words.count)


def main():
    parser = argparse.ArgumentParser(description="what is left of a plan")
    some = parser.add_subparsers(dest="what", required=True)
    for name in ("rows", "itself", "ships"):
        one = some.add_parser(name)
        if name == "ships":
            one.add_argument("kept", metavar="KEPT")
            one.add_argument("--plans", type=float, default=0.3, help="of how many the rest is planned")
        if name != "rows":
            add_without(one)
            one.add_argument("--first", type=int, default=1)
            one.add_argument("--count", type=int, default=1000)
        if name != "itself":
            add_program(one)
    words = parser.parse_args()
    KEYS.difference_update(getattr(words, "without", ()))
    sys.exit({"rows": rows, "itself": itself, "ships": ships}[words.what](words) > 0)


if __name__ == "__main__":
    main()
