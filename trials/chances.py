#!/usr/bin/env python3
"""How often a plan's end is kept with lengths drawn from what past tasks took, worked out from the definitions alone.

    chances.py SHIP STOW PLAN PAST [--runs N] [--seed S] [--by T]

prints what `qc odds` must print. Like reference.py this is a second opinion: nothing is taken from the program or from its
specifications, and it is slow: whether a task is critical it asks by working the plan once more with a tick more of it.
odds.py tries the program by it.
"""
import argparse
import re
import sys

sys.dont_write_bytecode = True  # no folder of compiled files beside the scripts

from faults import list_fault, ring_fault, ship_or_fault
from reference import PHASES, Course, breaks_up, end_of, instance_of, read_plan, records_of

LARGEST = 8_388_608
QUANTILES = (10, 50, 80, 90, 95, 99)
WIDE = 1 << 64


# ---------------------------------------------------------------- what past tasks took

def read_past(data):
    """The calls in the order of the file, each a list of (phase, planned, real), and None; or None and the first fault as
    (kind, record)."""
    records, calls, last = records_of(data), {}, None
    if not records or records[0] != ["call", "phase", "planned", "real"]:
        return None, ("Header", 1)
    for number, record in enumerate(records[1:], 2):
        fault = record_fault(number, record, calls, last)
        if fault:
            return None, (fault, number)
        last = record[0]
        calls.setdefault(last, []).append((record[1], int(record[2]), int(record[3])))
    return (list(calls.values()), None) if calls else (None, ("Empty", 2))


def record_fault(number, record, calls, last):
    """The first fault of a record, with the calls so far and the call of the record before it."""
    if number == 10_002:
        return "TooMany"
    if len(record) != 4:
        return "Fields"
    call, phase, *times = record
    if not re.fullmatch("[0-9A-Za-z_-]{1,20}", call):
        return "Call"
    if phase not in PHASES + ("-",):
        return "Phase"
    if not all(re.fullmatch("[1-9][0-9]{0,8}", time) for time in times):
        return "Number"
    planned, real = map(int, times)
    if real > 100 * planned:
        return "TooLong"
    if call == last and len(calls[call]) == 240:
        return "CallFull"
    return "CallTwice" if call in calls and call != last else None


# ---------------------------------------------------------------- draws and lengths

def mix(x):
    y = (6364136223846793005 * x + 1442695040888963407) % WIDE
    z = y * (2 * y + 1) % WIDE
    low, high = z % (1 << 32), z >> 32
    return (low << 32) + high


def draw(seed, run, text):
    x = mix(mix(seed) + run)
    for byte in text.encode():
        x = mix(x + byte)
    return mix(mix(x)) % (1 << 32)


def pool_of(call, task):
    """The records of a call from which a task draws."""
    own = [record for record in call if record[0] in (task.phase, "-")]
    like = [record for record in own if task.ticks <= 2 * record[1] and record[1] <= 2 * task.ticks]
    return like or own or call


def lengths_of(calls, inst, seed, run):
    call = calls[draw(seed, run, "") % len(calls)]
    lengths = []
    for task in inst.tasks:
        pool = pool_of(call, task)
        _, planned, real = pool[draw(seed, run, task.name) % len(pool)]
        lengths.append(-(-task.ticks * real // planned))
    return lengths


# ---------------------------------------------------------------- a plan worked with other lengths

class Work:
    """A feasible plan that is worked with any lengths, each task as early as its leaders let it."""

    def __init__(self, inst, plan):
        course = Course(inst, plan)
        self.inst, self.plan, self.free, self.leaders = inst, plan, course.free, course.leaders
        self.order = sorted(range(len(plan)), key=lambda j: (plan[j][1], j))

    def starts(self, lengths):
        starts = [None] * len(lengths)
        for j in self.order:
            starts[j] = max([self.free[j]] + [starts[i] + lengths[i] + gap for i, gap in self.leaders[j]])
        return starts

    def end(self, lengths):
        return max((start + length for start, length in zip(self.starts(lengths), lengths)), default=0)

    def critical(self, lengths):
        """The tasks of which a tick more ends the run later, by working it once more for each."""
        end = self.end(lengths)
        return [self.end([length + (i == j) for i, length in enumerate(lengths)]) > end for j in range(len(lengths))]

    def marked(self, lengths):
        """The tasks that end last, and all that lead a marked one without slack."""
        starts, end = self.starts(lengths), self.end(lengths)
        marks = [start + length == end for start, length in zip(starts, lengths)]
        for j in reversed(self.order):
            if marks[j]:
                for i, gap in self.leaders[j]:
                    marks[i] = marks[i] or starts[i] + lengths[i] + gap == starts[j]
        return marks

    def crane(self, k, starts, lengths):
        """A crane's last end, and for how long it is held."""
        data, own = self.inst.cranes[k], [j for j in self.order if self.plan[j][0] == k]
        there, held, last, bay = data.ready, 0, 0, data.bay
        for j in own:
            there += self.inst.travel * abs(self.inst.tasks[j].bay - bay)
            held += starts[j] - there
            there, bay = starts[j] + lengths[j], self.inst.tasks[j].bay
            last = max(last, there)
        return last, held


# ---------------------------------------------------------------- the report

def up(total, count):
    """A mean, rounded up."""
    return -(-total // count)


def report_of(inst, plan, calls, runs, seed, by):
    work, every = Work(inst, plan), range(1, runs + 1)
    tasks, cranes = range(len(plan)), range(len(inst.cranes))
    ends, over, critical = [], [0] * len(plan), [0] * len(plan)
    last, held, is_last = ([0] * len(inst.cranes) for _ in range(3))
    for run in every:
        lengths = lengths_of(calls, inst, seed, run)
        starts = work.starts(lengths)
        ends.append(work.end(lengths))
        for j, is_critical in enumerate(work.critical(lengths)):
            critical[j] += is_critical
            over[j] += max(0, lengths[j] - inst.tasks[j].ticks) if is_critical else 0
        for k in cranes:
            its_last, its_held = work.crane(k, starts, lengths)
            last[k] += its_last
            held[k] += its_held
            is_last[k] += its_last == ends[-1]
    planned, rising = end_of(inst, plan), sorted(ends)
    lines = [f"runs {runs}", f"end {planned}", f"mean {up(sum(ends), runs)}"]
    lines += [f"done {q} {rising[up(q * runs, 100) - 1]}" for q in QUANTILES]
    lines += [f"kept {tick} {1000 * sum(end <= tick for end in ends) // runs}" for tick in [planned] + [by] * (by is not None)]
    for k, crane in enumerate(inst.cranes):
        lines.append(f"crane {crane.name} {up(last[k], runs)} {up(held[k], runs)} {1000 * is_last[k] // runs}")
    for j in sorted((j for j in tasks if over[j]), key=lambda j: (-over[j], j))[:10]:
        crane = inst.cranes[plan[j][0]].name
        lines.append(f"critical {inst.tasks[j].name} {crane} {1000 * critical[j] // runs} {up(over[j], runs)}")
    return lines


def odds_report(inst, data, past, runs=1000, seed=0, by=None):
    """Status and report on a plan's file and a file of past tasks; None stands for one that isn't there."""
    plan, fault = read_plan(inst, data)
    if fault:
        return 8, [f"BadPlan {fault[0]} {fault[1]}"]
    broken = next(breaks_up(inst, plan), ("OneWay",))
    if broken[0] != "OneWay":
        return 13, [" ".join(["Broken", broken[0]] + [inst.tasks[j].name for j in broken[1:]])]
    if past is None:
        return 3, ["ReadFault past"]
    if len(past) > LARGEST:
        return 15, ["TooLarge past"]
    calls, fault = read_past(past)
    if fault:
        return 21, [f"BadPast {fault[0]} {fault[1]}"]
    return 0, report_of(inst, plan, calls, runs, seed, by)


def main():
    parser = argparse.ArgumentParser(description="the odds of a plan's end, plain and slow")
    for name in ("ship", "stow", "plan", "past"):
        parser.add_argument(name)
    parser.add_argument("--runs", type=int, default=1000)
    parser.add_argument("--seed", type=int, default=0)
    parser.add_argument("--by", type=int)
    words = parser.parse_args()
    files = [open(path, "rb").read() for path in (words.ship, words.stow, words.plan, words.past)]
    ship, fault = ship_or_fault(files[0])
    fault = fault or list_fault(ship, files[1]) or ring_fault(ship, files[1])
    if fault:
        sys.exit(fault)
    status, lines = odds_report(instance_of(ship, files[1]), files[2], files[3], words.runs, words.seed, words.by)
    print("\n".join(lines))
    sys.exit(status)


if __name__ == "__main__":
    main()
