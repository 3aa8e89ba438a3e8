#!/usr/bin/env python3
"""Where the cranes of a plan stand, worked out from the definition alone.

    motion.py SHIP STOW PLAN

prints what `qc show` must print of a plan that goes one way: the direction, the end, the crane lines and
the Gantt text. It shares no code with the program. Places come from the definition (docs/MODEL.md, "Motion"):
the greatest of the terms of tasks, berths and floor, tick by tick, as exact fractions; a waypoint stands
where two slopes differ. It also tests order, gap, own tasks, own berths and speed at every half tick, and
that no rule is broken, so that a case whose plan doesn't hold is refused here. It is meant for small plans: the
time grows with the end.
"""
import csv
import sys
import tomllib
from fractions import Fraction

PHASES = ["DD", "DH", "LH", "LD"]
LETTERS = {"DD": "D", "DH": "d", "LH": "l", "LD": "L"}


class Ship:
    def __init__(self, path):
        with open(path, "rb") as file:
            table = tomllib.load(file)
        self.hatches = table["hatches"]
        self.places = table.get("places", list(range(1, len(self.hatches) + 1)))
        self.gap = table["clear"] if "places" in table else table["margin"] + 1
        self.travel = table["travel"]
        self.deck, self.hold = table["deck_move"], table["hold_move"]
        self.cover = table.get("cover", 0)
        self.ordered = table.get("restows", "free") == "ordered"
        self.apart = table.get("apart", [])
        self.asked = table.get("before", [])
        self.cranes = table["crane"]
        self.bays = self.places[-1]

    def hatch_of(self, bay):
        for hatch in self.hatches:
            if bay == hatch or (hatch % 2 == 0 and abs(bay - hatch) == 1):
                return hatch
        raise ValueError(f"no hatch takes bay {bay}")


def tasks_of(ship, path):
    """The tasks by name, in order: hatch, phase, bay, length; and the pairs of which the first is before."""
    counts, ids = {}, {}
    with open(path, newline="", encoding="utf-8-sig") as file:
        for row in list(csv.reader(file))[1:]:
            ident, move, cell, _ = row
            hatch = ship.hatch_of(int(cell[:-4]))
            is_deck = int(cell[-2:]) >= 70
            phase = ("DD" if is_deck else "DH") if move == "D" else ("LD" if is_deck else "LH")
            counts[hatch, phase] = counts.get((hatch, phase), 0) + 1
            ids.setdefault(ident, {})[move] = f"{hatch}-{phase}"
    tasks = {}
    for hatch, bay in zip(ship.hatches, ship.places):
        for phase in PHASES:
            moves = counts.get((hatch, phase), 0)
            if moves:
                on_deck = phase in ("DD", "LD")
                length = moves * ship.deck if on_deck else moves * ship.hold + ship.cover
                tasks[f"{hatch}-{phase}"] = (hatch, phase, bay, length)
    before = {(a, b) for a in tasks for b in tasks
              if tasks[a][0] == tasks[b][0] and PHASES.index(tasks[a][1]) < PHASES.index(tasks[b][1])}
    if ship.ordered:
        before |= {(two["D"], two["L"]) for two in ids.values() if len(two) == 2}
    before |= {(a, b) for a, b in ship.asked if a in tasks and b in tasks}
    return tasks, before


class Job:
    def __init__(self, crane, bay, start, length, name):
        self.crane, self.bay, self.start, self.length, self.name = crane, bay, start, length, name
        self.end = start + length


class Seen:
    """A schedule as it is read on the way up: as it is, or the mirror of one that goes down."""

    def __init__(self, ship, jobs, down):
        count, turn = len(ship.cranes), lambda x: ship.bays + 1 - x
        self.travel, self.gap, self.down, self.bays, self.count = ship.travel, ship.gap, down, ship.bays, count
        berths = [(crane["bay"], crane.get("ready", 0)) for crane in ship.cranes]
        if down:
            self.berths = [(turn(bay), ready) for bay, ready in reversed(berths)]
            self.jobs = [Job(count - 1 - j.crane, turn(j.bay), j.start, j.length, j.name) for j in jobs]
        else:
            self.berths, self.jobs = berths, jobs
        self.ends = max([job.end for job in jobs], default=0)

    def floor(self, crane):
        raised = [job.bay - self.gap * (job.crane - crane) for job in self.jobs if job.crane >= crane]
        return min(raised + [bay - self.gap * (w - crane) for w, (bay, _) in enumerate(self.berths) if w >= crane])

    def place_up(self, crane, moment):
        """The place of a crane at a moment, times the travel per bay."""
        terms = [Fraction(self.travel * self.floor(crane))]
        for job in self.jobs:
            if job.crane <= crane:
                bay = job.bay + self.gap * (crane - job.crane)
                terms.append(self.travel * bay - max(Fraction(0), job.start - moment))
        for below, (bay, ready) in enumerate(self.berths):
            if below <= crane:
                terms.append(self.travel * (bay + self.gap * (crane - below)) - max(Fraction(0), moment - ready))
        return max(terms)

    def place(self, crane, moment):
        if not self.down:
            return self.place_up(crane, Fraction(moment))
        return self.travel * (self.bays + 1) - self.place_up(self.count - 1 - crane, Fraction(moment))

    def distance(self, i, j):
        if i.crane == j.crane:
            return 0
        low, high = (i, j) if i.crane < j.crane else (j, i)
        return self.travel * max(0, low.bay - high.bay + self.gap * (high.crane - low.crane))

    def is_upward(self):
        for i in self.jobs:
            for j in self.jobs:
                if i.crane == j.crane and i.bay < j.bay and j.start < i.end + self.travel * (j.bay - i.bay):
                    return False
                apart = self.distance(i, j)
                if i.crane < j.crane and apart > 0 and i.start < j.end + apart:
                    return False
        return True

    def waypoints(self, crane):
        if self.ends == 0:
            return [(0, self.place(crane, 0))]
        line = [self.place(crane, m) for m in range(self.ends + 1)]
        turns = [m for m in range(1, self.ends) if line[m + 1] - line[m] != line[m] - line[m - 1]]
        return [(m, line[m]) for m in [0] + turns + [self.ends]]


def broken(ship, seen, before, jobs):
    """The rules that the plan breaks."""
    found, named = [], {job.name: job for job in jobs}
    for job in jobs:
        crane = ship.cranes[job.crane]
        reach = ship.places[crane.get("from", 1) - 1], ship.places[crane.get("to", len(ship.places)) - 1]
        if not reach[0] <= job.bay <= reach[1]:
            found.append(f"Reach {job.name}")
        if job.start < crane.get("ready", 0) + ship.travel * abs(crane["bay"] - job.bay):
            found.append(f"Ready {job.name}")
        for other, berth in enumerate(ship.cranes):
            if other < job.crane:
                near = berth["bay"] - job.bay + ship.gap * (job.crane - other)
            else:
                near = job.bay - berth["bay"] + ship.gap * (other - job.crane)
            if other != job.crane and near > 0 and job.start < berth.get("ready", 0) + ship.travel * near:
                found.append(f"Berth {job.name}")
    for first, second in before:
        if named[second].start < named[first].end:
            found.append(f"Before {first} {second}")
    for n, i in enumerate(jobs):
        for j in jobs[n + 1:]:
            far = ship.travel * abs(i.bay - j.bay) if i.crane == j.crane else seen.distance(i, j)
            if (i.crane == j.crane or far > 0) and i.start < j.end + far and j.start < i.end + far:
                found.append(f"Travel or Margin {i.name} {j.name}")
            pair = {int(i.name.split("-")[0]), int(j.name.split("-")[0])}
            if any(pair == set(entry) for entry in ship.apart) and i.start < j.end and j.start < i.end:
                found.append(f"Apart {i.name} {j.name}")
    return found


def unsafe(ship, seen, jobs):
    """The half ticks at which the motion isn't safe."""
    found, count = [], len(ship.cranes)
    for half in range(2 * seen.ends + 1):
        moment = Fraction(half, 2)
        at = [seen.place(crane, moment) for crane in range(count)]
        for low in range(count):
            for high in range(low + 1, count):
                if at[high] - at[low] < ship.travel * ship.gap * (high - low):
                    found.append(f"gap of {low} and {high} at {moment}")
        for job in jobs:
            if job.start <= moment <= job.end and at[job.crane] != ship.travel * job.bay:
                found.append(f"{job.name} at {moment}")
        for crane, data in enumerate(ship.cranes):
            if moment <= data.get("ready", 0) and at[crane] != ship.travel * data["bay"]:
                found.append(f"berth of {crane} at {moment}")
            if half and abs(at[crane] - last[crane]) > Fraction(1, 2):
                found.append(f"speed of {crane} at {moment}")
        last = at
    return found


def gantt(ship, jobs, ends):
    lines = [f"gantt {ends}"]
    for k, crane in enumerate(ship.cranes):
        text = ""
        for c in range(60):
            tick = c * ends // 60
            doing = [job for job in jobs if job.crane == k and job.start <= tick < job.end]
            text += LETTERS[doing[0].name.split("-")[1]] if doing else "."
        lines.append(f"{crane['name']:<12}|{text}|")
    return lines


def main():
    ship = Ship(sys.argv[1])
    tasks, before = tasks_of(ship, sys.argv[2])
    names = [crane["name"] for crane in ship.cranes]
    jobs = []
    with open(sys.argv[3], newline="", encoding="utf-8-sig") as file:
        for name, crane, start, end in list(csv.reader(file))[1:]:
            _, _, bay, length = tasks[name]
            assert int(end) == int(start) + length, f"end of {name}"
            jobs.append(Job(names.index(crane), bay, int(start), length, name))
    jobs.sort(key=lambda job: list(tasks).index(job.name))
    up = Seen(ship, jobs, False)
    seen = up if up.is_upward() else Seen(ship, jobs, True)
    problems = broken(ship, up, before, jobs)
    if not seen.is_upward():
        problems.append("goes neither way")
    problems += unsafe(ship, seen, jobs)
    if problems:
        sys.exit("\n".join(problems[:10]))
    print("direction down" if seen.down else "direction up")
    print(f"end {seen.ends}")
    for k, name in enumerate(names):
        print(f"crane {name}" + "".join(f" {tick}:{place}" for tick, place in seen.waypoints(k)))
    print("\n".join(gantt(ship, jobs, seen.ends)))


main()
