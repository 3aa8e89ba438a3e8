#!/usr/bin/env python3
"""What a plan, a bound tree and the least end of a small ship are, worked out from the definitions alone.

    reference.py tasks SHIP STOW
    reference.py show SHIP STOW PLAN
    reference.py sheet SHIP STOW PLAN
    reference.py check SHIP STOW PLAN TREE      (PLAN may be `-`)
    reference.py watch SHIP LOG
    reference.py dispatch SHIP STOW PLAN LOG
    reference.py least SHIP STOW
    reference.py --dump SHIP STOW

All but the last two print what `qc` must print; `least` tries every choice of cranes and orders and prints the least
end of all schedules that go one way, or `none`; `--dump` prints the instance as numbers, for `bench/side.cpp`. Nothing
here is taken from the program or from its specifications: it is a second opinion, meant to be short and slow. Ship
files and lists must be good ones.

Tasks and cranes are counted from 0 here, from 1 in tree files. A plan is a list of (crane, start), one for each task.
Places are crane bays, or decimetres where the ship gives places; times are ticks.
"""
import csv
import io
import itertools
import math
import re
import sys
import tomllib
from bisect import bisect_left
from dataclasses import dataclass, replace
from fractions import Fraction
from functools import cache, cached_property

PHASES = ("DD", "DH", "LH", "LD")
LETTERS = {"DD": "D", "DH": "d", "LH": "l", "LD": "L"}
NEVER = float("inf")  # above every number


# ---------------------------------------------------------------- ships, lists and instances

@dataclass(frozen=True)
class Crane:
    name: str
    ready: int
    bay: int
    low: int   # the least place that it reaches
    high: int  # the greatest


@dataclass(frozen=True)
class Task:
    hatch: int
    phase: str
    bay: int
    ticks: int
    release: int = 0  # it starts at no earlier tick

    @property
    def name(self):
        return f"{self.hatch}-{self.phase}"


@dataclass(frozen=True)
class Instance:
    bays: int
    travel: int
    gap: int
    tasks: tuple
    cranes: tuple
    before: tuple  # sorted pairs of task numbers
    apart: tuple   # sorted pairs, the lower number first

    @cached_property
    def mirror(self):
        turn = lambda x: self.bays + 1 - x
        return Instance(
            self.bays, self.travel, self.gap,
            tuple(replace(task, bay=turn(task.bay)) for task in self.tasks),
            tuple(Crane(crane.name, crane.ready, turn(crane.bay), turn(crane.high), turn(crane.low))
                  for crane in reversed(self.cranes)),
            self.before, self.apart)

    def mirrored(self, plan):
        return [(len(self.cranes) - 1 - crane, start) for crane, start in plan]

    def reaches(self, crane, task):
        return self.cranes[crane].low <= self.tasks[task].bay <= self.cranes[crane].high

    def distance(self, i, v, j, w):
        """The ticks between task i on crane v and task j on another crane w."""
        if v > w:
            i, v, j, w = j, w, i, v
        return self.travel * max(0, self.tasks[i].bay - self.tasks[j].bay + self.gap * (w - v))

    def arrival(self, task, crane):
        """When the crane can be at the task, the other cranes and the task's release left out."""
        data = self.cranes[crane]
        return data.ready + self.travel * abs(data.bay - self.tasks[task].bay)

    def clearing(self, task, crane, other):
        """How long the other crane takes from its start berth to make room for the task; 0 where it needn't move."""
        bay, berth = self.tasks[task].bay, self.cranes[other].bay
        if other > crane:
            return self.travel * max(0, bay - berth + self.gap * (other - crane))
        return self.travel * max(0, berth - bay + self.gap * (crane - other))

    def free_from(self, task, crane):
        """The first tick at which the crane may work on the task as far as its release and all start berths say."""
        moments = [self.tasks[task].release, self.arrival(task, crane)]
        for other, data in enumerate(self.cranes):
            if other != crane and self.clearing(task, crane, other) > 0:
                moments.append(data.ready + self.clearing(task, crane, other))
        return max(moments)


    @cached_property
    def free_table(self):
        """`free_from` of each task and crane."""
        return [[self.free_from(j, k) for k in range(len(self.cranes))] for j in range(len(self.tasks))]

    @cached_property
    def grain(self):
        """The greatest number of ticks of which the travel, all lengths, ready times and releases are multiples."""
        return math.gcd(self.travel, *(task.ticks for task in self.tasks), *(crane.ready for crane in self.cranes),
                        *(task.release for task in self.tasks))

    @cached_property
    def bare_count(self):
        return Count(self, [None] * len(self.tasks))


@dataclass(frozen=True)
class Ship:
    hatches: list
    places: list
    gap: int
    travel: int
    deck_move: int
    hold_move: int
    cover: int
    ordered: bool
    apart: list
    asked: list    # pairs of names, the first task before the second
    released: list  # names, each with the tick before which the task doesn't start
    cranes: tuple

    def hatch_of(self, bay):
        for hatch in self.hatches:
            if bay == hatch or (hatch % 2 == 0 and bay in (hatch - 1, hatch + 1)):
                return hatch
        raise ValueError(f"no hatch takes bay {bay}")


def read_ship(data):
    table = tomllib.loads(data.decode())
    hatches = table["hatches"]
    places = table.get("places", list(range(1, len(hatches) + 1)))
    cranes = tuple(
        Crane(crane["name"], crane.get("ready", 0), crane["bay"], places[crane.get("from", 1) - 1],
              places[crane.get("to", len(hatches)) - 1])
        for crane in table["crane"])
    gap = table["clear"] if "places" in table else table["margin"] + 1
    return Ship(hatches, places, gap, table["travel"], table["deck_move"], table["hold_move"],
                table.get("cover", 0), table.get("restows", "free") == "ordered", table.get("apart", []),
                table.get("before", []), table.get("not_before", []), cranes)


def records_of(data):
    """The records of a list or a plan, without empty lines; each byte is a letter of its number."""
    text = data.removeprefix(b"\xef\xbb\xbf").decode("latin-1")
    return [record for record in csv.reader(io.StringIO(text, newline="")) if record]


def columns_of(header):
    """The places of id, move, cell and length among the names of a header, or None."""
    names = ["".join(chr(ord(c) + 32) if "A" <= c <= "Z" else c for c in field.strip(" ")) for field in header]
    wanted = ("id", "move", "cell", "length")
    return [names.index(name) for name in wanted] if all(names.count(name) == 1 for name in wanted) else None


def moves_of(data):
    """The id, the kind, the cell and the length of each move of a list without a fault."""
    header, *records = records_of(data)
    places = columns_of(header)
    return [[record[at] for at in places] for record in records]


def instance_of(ship, data):
    """The tasks of a ship and its stowage list, and the rules between them."""
    moves = {}  # the ids of each hatch and phase
    for ident, kind, cell, _ in moves_of(data):
        on_deck = int(cell[-2:]) >= 70
        phase = {("D", True): "DD", ("D", False): "DH", ("L", False): "LH", ("L", True): "LD"}[kind, on_deck]
        moves.setdefault((ship.hatch_of(int(cell[:-4])), phase), []).append(ident)
    tasks, doing, releases = [], [], dict(map(tuple, ship.released))
    for hatch, place in zip(ship.hatches, ship.places):
        for phase in PHASES:
            idents = moves.get((hatch, phase), [])
            on_deck = phase in ("DD", "LD")
            ticks = len(idents) * ship.deck_move if on_deck else len(idents) * ship.hold_move + ship.cover
            if idents:
                tasks.append(Task(hatch, phase, place, ticks, releases.get(f"{hatch}-{phase}", 0)))
                doing.append(idents)
    before, apart = set(), set()
    for i, first in enumerate(tasks):
        for j, second in enumerate(tasks):
            if first.hatch == second.hatch and PHASES.index(first.phase) < PHASES.index(second.phase):
                before.add((i, j))
            moved_twice = first.phase[0] == "D" and second.phase[0] == "L" and set(doing[i]) & set(doing[j])
            if ship.ordered and moved_twice or [first.name, second.name] in ship.asked:
                before.add((i, j))
            if i < j and any(sorted(pair) == sorted((first.hatch, second.hatch)) for pair in ship.apart):
                apart.add((i, j))
    return Instance(ship.places[-1], ship.travel, ship.gap, tuple(tasks), ship.cranes,
                    tuple(sorted(before)), tuple(sorted(apart)))


# ---------------------------------------------------------------- the judge of a plan

def breaks_up(inst, plan):
    """Each rule that the plan breaks on the way up, in the order of the rules, with its task or two tasks."""
    count = len(plan)
    end = [start + task.ticks for (_, start), task in zip(plan, inst.tasks)]
    bay = [task.bay for task in inst.tasks]
    pairs = list(itertools.combinations(range(count), 2))

    def overlaps(i, j, rest):
        return plan[j][1] < end[i] + rest and plan[i][1] < end[j] + rest

    for j, (crane, _) in enumerate(plan):
        if not inst.reaches(crane, j):
            yield "Reach", j
    for j, (crane, start) in enumerate(plan):
        if start < max(inst.arrival(j, crane), inst.tasks[j].release):
            yield "Ready", j
    for i, j in pairs:
        if plan[i][0] == plan[j][0] and overlaps(i, j, inst.travel * abs(bay[i] - bay[j])):
            yield "Travel", i, j
    for i, j in pairs:
        if ((i, j) in inst.before and plan[j][1] < end[i]) or ((j, i) in inst.before and plan[i][1] < end[j]):
            yield "Before", i, j
    for i, j in pairs:
        if (i, j) in inst.apart and overlaps(i, j, 0):
            yield "Apart", i, j
    for i, j in pairs:
        if plan[i][0] != plan[j][0]:
            distance = inst.distance(i, plan[i][0], j, plan[j][0])
            if distance > 0 and overlaps(i, j, distance):
                yield "Margin", i, j
    for j, (crane, start) in enumerate(plan):
        for other, data in enumerate(inst.cranes):
            clearing = inst.clearing(j, crane, other) if other != crane else 0
            if clearing > 0 and start < data.ready + clearing:
                yield "Berth", j
    for i, j in pairs:
        if not (keeps_up(inst, plan, end, i, j) and keeps_up(inst, plan, end, j, i)):
            yield "OneWay", i, j


def keeps_up(inst, plan, end, i, j):
    """Whether task i on a lower crane than j's, or at a lower bay of its crane, stands to j as the way up asks."""
    (v, start_i), (w, start_j) = plan[i], plan[j]
    if v == w:
        stretch = inst.tasks[j].bay - inst.tasks[i].bay
        return stretch <= 0 or start_j >= end[i] + inst.travel * stretch
    distance = inst.distance(i, v, j, w)
    return v > w or distance == 0 or start_i >= end[j] + distance


def direction_of(inst, plan):
    """`up` or `down` and no break, or no direction and the first break on the way up."""
    broken = next(breaks_up(inst, plan), None)
    if broken is None:
        return "up", None
    if next(breaks_up(inst.mirror, inst.mirrored(plan)), None) is None:
        return "down", None
    return None, broken


def end_of(inst, plan):
    return max((start + task.ticks for (_, start), task in zip(plan, inst.tasks)), default=0)


# ---------------------------------------------------------------- least starts and the least end of all

def least_starts(inst, heads, arcs, limit=NEVER):
    """The least starts from the heads on that keep each (i, j, ticks): j starts at least so long after i.

    None where none keep them, and where some end reaches the limit.
    """
    starts = list(heads)
    for _ in range(len(starts) + 1):
        if any(start + task.ticks >= limit for start, task in zip(starts, inst.tasks)):
            return None
        raised = False
        for i, j, ticks in arcs:
            if starts[j] < starts[i] + ticks:
                starts[j], raised = starts[i] + ticks, True
        if not raised:
            return starts
    return None  # raised once more than there are tasks: a ring


def arcs_up(inst, cranes):
    """What the way up asks of the starts when each task has its crane, apart pairs left out."""
    arcs = [(i, j, inst.tasks[i].ticks) for i, j in inst.before]
    for i, j in itertools.permutations(range(len(cranes)), 2):
        ticks, stretch = inst.tasks[i].ticks, inst.tasks[j].bay - inst.tasks[i].bay
        if cranes[i] == cranes[j] and stretch > 0:
            arcs.append((i, j, ticks + inst.travel * stretch))
        elif cranes[i] > cranes[j]:
            distance = inst.distance(i, cranes[i], j, cranes[j])
            if distance > 0:
                arcs.append((i, j, ticks + distance))
    return arcs


def best_orders(inst, heads, arcs, best):
    """The least end below `best` over both orders of each apart pair, or `best`."""
    starts = least_starts(inst, heads, arcs, best)
    if starts is None:
        return best
    ends = [start + task.ticks for start, task in zip(starts, inst.tasks)]
    for i, j in inst.apart:
        if starts[i] < ends[j] and starts[j] < ends[i]:
            for first, second in ((i, j), (j, i)):
                order = (first, second, inst.tasks[first].ticks)
                best = best_orders(inst, heads, arcs + [order], best)
            return best
    return max(ends, default=0)


def least_end(inst):
    """The least end of all schedules that go one way, `NEVER` where there is none."""
    best = NEVER
    for seen in (inst, inst.mirror):
        choices = [[crane for crane in range(len(seen.cranes)) if seen.reaches(crane, j)]
                   for j in range(len(seen.tasks))]
        for cranes in itertools.product(*choices):
            heads = [seen.free_table[j][crane] for j, crane in enumerate(cranes)]
            if all(head + task.ticks < best for head, task in zip(heads, seen.tasks)):
                best = best_orders(seen, heads, arcs_up(seen, cranes), best)
    return best


# ---------------------------------------------------------------- counts of crane time

class Count:
    """What the cranes must spend at the least, where each task has the crane given for it or, for None, any.

    Of each crane: `own`, the tasks that it has; `works`, whether it has something to do; `spent`, the ticks that are gone
    whatever comes, the wait, its own tasks and the travel to them; `low` and `high`, the places between which it needs no
    further travel. With `free` the plan may go any way, else it goes upward. Without `lines` no crane waits for its
    neighbours.
    """

    def __init__(self, inst, crane, free=False, lines=True):
        self.inst, self.free = inst, free
        self.own = [[j for j, v in enumerate(crane) if v == k] for k in range(len(inst.cranes))]
        self.works = [bool(own) for own in self.own]
        self.left = {}  # the ticks of the tasks without a crane, by their bays
        for task, v in zip(inst.tasks, crane):
            if v is None:
                self.left[task.bay] = self.left.get(task.bay, 0) + task.ticks
        self.spent, self.low, self.high = [], [], []
        for k, data in enumerate(inst.cranes):
            bays = [inst.tasks[j].bay for j in self.own[k]] or [data.bay]
            self.spent.append(max([self.way(k, bays) + self.ticks(self.own[k])] + (self.lines(k) if lines else [])))
            self.low.append(min(bays + [data.bay]))
            self.high.append(max(bays + [data.bay] if free else bays))

    def ticks(self, tasks):
        return sum(self.inst.tasks[j].ticks for j in tasks)

    def way(self, crane, bays):
        """When the crane has been at all these bays if it does nothing there: going upward it begins at the lowest."""
        data, low, high = self.inst.cranes[crane], min(bays), max(bays)
        first = abs(data.bay - low)
        if self.free:
            first = min(first, abs(data.bay - high))
        return data.ready + self.inst.travel * (first + high - low)

    def lines(self, crane):
        """Each moment before which the crane can't have done its own tasks of some stretch, since it stands still while
        its neighbours work so near that no bay is left where it has or may get work."""
        bay = [task.bay for task in self.inst.tasks]
        wanted = [bay[j] for j in self.own[crane]] + list(self.left)
        moments = []
        for p, q in itertools.combinations_with_replacement(sorted(set(bay)), 2):
            mine = [j for j in self.own[crane] if p <= bay[j] <= q]
            if not mine or not (p == min(wanted) and q <= max(wanted) or p >= min(wanted) and q == max(wanted)):
                continue
            if all(p <= other <= q for other in self.left):
                shut = self.shut(crane, p, q)
                begun = self.begun(crane, [bay[j] for j in mine], shut)
                moments.append(begun + self.ticks(mine) + self.ticks(j for j, _ in shut))
        return moments

    def shut(self, crane, p, q):
        """The neighbours' tasks, with their cranes, during which the crane can be at no bay from p to q."""
        inst = self.inst
        above = [(j, crane + 1) for j in self.own_of(crane + 1) if inst.tasks[j].bay < p + inst.gap]
        return above + [(j, crane - 1) for j in self.own_of(crane - 1) if inst.tasks[j].bay > q - inst.gap]

    def begun(self, crane, bays, shut):
        """When the first of all these tasks begins, and the travel from bay to bay of the crane's own."""
        way = self.way(crane, bays)
        if not shut:
            return way
        first = min(self.inst.free_table[j][v] for j, v in shut)
        return min(way, first + self.inst.travel * (max(bays) - min(bays)))

    def own_of(self, crane):
        return self.own[crane] if 0 <= crane < len(self.own) else []

    def up(self, crane, bay):
        return max(0, bay - self.high[crane])

    def down(self, crane, bay):
        return max(0, self.low[crane] - bay)

    def is_short(self, last):
        """Whether what is left can't be done by that moment."""
        if any(works and spent > last for works, spent in zip(self.works, self.spent)):
            return True
        if not self.left:
            return False
        bays = sorted(self.left)
        rise, sink = self.joined(last, self.up, bays[::-1]), self.joined(last, self.down, bays)
        if rise is None or sink is None:
            return True
        room = sum(self.room(last, k, self.up(k, bays[0]) + self.down(k, bays[-1])) for k in range(len(self.own)))
        return room < sum(self.left.values()) + self.inst.travel * (rise + sink)

    def room(self, last, crane, way):
        return max(0, last - self.spent[crane] - self.inst.travel * way)

    def joined(self, last, way, bays):
        """The bays of travel from each of these bays on to the one before it, by as many cranes as must come so far,
        the furthest bay first; None where all cranes together have no time for what is left there and beyond."""
        cranes, load, total = range(len(self.own)), 0, 0
        for bay, nearer in itertools.zip_longest(bays, bays[1:]):
            load += self.left[bay]
            rooms = sorted((self.room(last, k, way(k, bay)) for k in cranes), reverse=True)
            needed = next((n for n in range(len(rooms) + 1) if sum(rooms[:n]) >= load), None)
            if needed is None:
                return None
            if nearer is not None:
                steps = self.steps([way(k, bay) - way(k, nearer) for k in cranes], needed)
                load += self.inst.travel * steps
                total += steps
        return total

    def steps(self, differences, needed):
        """The travel of the cranes that have least of it."""
        return sum(sorted(differences)[:needed])


class Ways(Count):
    """A count in which a crane goes out of the way of the tasks of a hatch that others have, and comes back to those
    that it has itself. A crane works too where it only makes way."""

    def __init__(self, inst, crane, free=False):
        super().__init__(inst, crane, free)
        self.given = crane
        hatches = sorted({task.bay for task, v in zip(inst.tasks, crane) if v is not None})
        for k, data in enumerate(inst.cranes):
            bays = [inst.tasks[j].bay for j in self.own[k]]
            usual = self.way(k, bays or [data.bay]) - data.ready
            ways = [self.hatch_way(k, hatch, bays) for hatch in hatches]
            bays_moved, low, high = max(ways, key=lambda way: way[0], default=(0, 0, 0))
            if inst.travel * bays_moved > usual:
                spent = data.ready + self.ticks(self.own[k]) + inst.travel * bays_moved
                self.spent[k] = max(self.spent[k], spent)
                self.low[k], self.high[k], self.works[k] = low, high, True

    def hatch_way(self, k, hatch, bays):
        """The bays that crane k moves at the least to be where the hatch's tasks want it, one after the other, and at
        all these bays besides; and the lowest and the highest place that it comes to."""
        inst, place, moved = self.inst, self.inst.cranes[k].bay, 0
        low = high = place
        for task, v in zip(inst.tasks, self.given):
            if v is None or task.bay != hatch:
                continue
            least = hatch + inst.gap * (k - v) if v <= k else -NEVER
            most = hatch - inst.gap * (v - k) if v >= k else NEVER
            wanted = min(max(place, least), most)
            moved += abs(wanted - place)
            place, low, high = wanted, min(low, wanted), max(high, wanted)
        top, bottom = max([high] + bays), min([low] + bays)
        return moved + self.further(top - high, low - bottom, top - place, place - bottom), bottom, top

    def further(self, above, below, to_top, to_bottom):
        """The bays that it moves further to be so far above and below: there and back, or once to where it ends."""
        return min(2 * above + 2 * below, to_top + 2 * below, 2 * above + to_bottom)


def counts_of(inst, crane, free, step=3):
    """The counts of which one must be short: where no task has a crane; and with these cranes, by the way of each
    alone, from the second step on with the time for which neighbours bar it, and in the third with making way too."""
    return [inst.bare_count, Count(inst, crane, free, lines=step > 1)] + ([Ways(inst, crane, free)] if step > 2 else [])


def are_short(inst, counts, v):
    """Whether nothing ends before v by these counts. All moments may be taken for multiples of the grain."""
    last = (v - 1) // inst.grain * inst.grain
    return any(count.is_short(last) for count in counts)


# ---------------------------------------------------------------- nodes and bound trees

class Node:
    """A list of decisions ('A', task, crane) and ('O', first, second) of an instance that is read upward. `step`: how
    much its counts know."""

    is_free = False

    def __init__(self, inst, decisions=(), step=3):
        self.inst, self.decisions, self.step = inst, decisions, step
        self.crane = [None] * len(inst.tasks)
        self.ordered = set(inst.before)
        for kind, first, second in decisions:
            if kind == "A":
                self.crane[first] = second
            else:
                self.ordered.add((first, second))

    def child(self, *decision):
        return Node(self.inst, self.decisions + (decision,), self.step)

    def forced(self, i, j):
        """By how many ticks j starts after i at the least, or None."""
        inst, v, w = self.inst, self.crane[i], self.crane[j]
        ticks, numbers = inst.tasks[i].ticks, []
        if (i, j) in self.ordered:
            numbers.append(ticks)
        if v is not None and w is not None:
            stretch = inst.tasks[j].bay - inst.tasks[i].bay
            if v == w and stretch > 0:
                numbers.append(ticks + inst.travel * stretch)
            if v > w and inst.distance(i, v, j, w) > 0:
                numbers.append(ticks + inst.distance(i, v, j, w))
        return max(numbers, default=None)

    @cached_property
    def arcs(self):
        pairs = itertools.permutations(range(len(self.crane)), 2)
        return [(i, j, ticks) for i, j in pairs if (ticks := self.forced(i, j)) is not None]

    def head(self, j):
        inst = self.inst
        moments = inst.free_table[j]
        if self.crane[j] is not None:
            return moments[self.crane[j]]
        return min((moment for k, moment in enumerate(moments) if inst.reaches(k, j)), default=0)

    def is_out_of_reach(self):
        """Whether the newest decision gives a task to a crane that doesn't reach it."""
        if not self.decisions or self.decisions[-1][0] != "A":
            return False
        return not self.inst.reaches(self.decisions[-1][2], self.decisions[-1][1])

    def is_settled(self, i, j):
        return self.forced(i, j) is not None or self.forced(j, i) is not None

    def is_complete(self):
        return None not in self.crane and all(self.is_settled(i, j) for i, j in self.inst.apart)

    @cached_property
    def starts(self):
        """The least starts, None where a ring leaves none."""
        return least_starts(self.inst, [self.head(j) for j in range(len(self.crane))], self.arcs)

    @property
    def end(self):
        return max((start + task.ticks for start, task in zip(self.starts, self.inst.tasks)), default=0)

    def work_holds(self, v):
        """Whether a leaf `W v` holds: a count of the cranes' time shows that nothing ends before v, with the cranes that
        the tasks have, or with none given."""
        return are_short(self.inst, self.counts, v)

    @cached_property
    def counts(self):
        return counts_of(self.inst, self.crane, self.is_free, self.step)

    @cached_property
    def work_bound(self):
        """The greatest v before which the work doesn't fit, or 0."""
        low, high = 0, 1
        while self.work_holds(high):
            low, high = high, 2 * high
        while high - low > 1:
            middle = (low + high) // 2
            low, high = (middle, high) if self.work_holds(middle) else (low, middle)
        return low

    def may(self, j):
        """The cranes that may do the task: the one that has it, or else all that reach it."""
        if self.crane[j] is not None:
            return [self.crane[j]]
        return [crane for crane in range(len(self.inst.cranes)) if self.inst.reaches(crane, j)]

    def clash(self, i, j):
        """Whether the two tasks can't run together, whichever cranes do them."""
        return all(v == w or self.inst.distance(i, v, j, w) > 0 for v in self.may(i) for w in self.may(j))

    def is_packed(self, tasks):
        """Whether there are tasks, all different, each with a crane that may do it, of which every two clash."""
        return len(tasks) == len(set(tasks)) > 0 and all(self.may(j) for j in tasks) and all(
            self.clash(i, j) for i, j in itertools.combinations(tasks, 2))

    def span(self, tasks):
        """The least width within which each task has its place, as seen from the first crane: a crane one further along
        the rail is seen a gap lower."""
        places = [[self.inst.tasks[j].bay - self.inst.gap * crane for crane in self.may(j)] for j in tasks]
        return min(max(min((place for place in some if place >= low), default=NEVER) for some in places) - low
                   for low in itertools.chain(*places))

    def packed_value(self, tasks):
        """The value of a leaf `Q` with these tasks, or None where the list isn't packed."""
        if not self.is_packed(tasks):
            return None
        work = sum(self.inst.tasks[j].ticks for j in tasks) + self.inst.travel * self.span(tasks)
        return work + min(self.head(j) for j in tasks)


TASK_LIST = rb"((?: (?:0|[1-9][0-9]{0,3})){%s})"
LINES = [(re.compile(pattern), kind) for pattern, kind in (
    (rb"QCTREE (3)", "title"), (rb"(up)", "up"), (rb"(down)", "down"), (rb"(X)", "X"),
    (rb"A" + TASK_LIST % b"1", "A"), (rb"O" + TASK_LIST % b"2", "O"),
    (rb"P" + TASK_LIST % b"0,240", "P"), (rb"C" + TASK_LIST % b"2,240", "C"),
    (rb"Q" + TASK_LIST % b"1,240", "Q"),
    (rb"W ([1-9][0-9]{0,14})", "W"),
    (rb"end ((?:0|[1-9][0-9]{0,6}) (?:0|[1-9][0-9]{0,14}|never))", "end"))]


def parse_line(text):
    """The kind of a tree line and its numbers or text, or None."""
    for pattern, kind in LINES:
        match = pattern.fullmatch(text)
        if match:
            rest = match.group(1)
            return kind, [int(word) for word in rest.split()] if kind in "AOPCQW" else rest.decode()
    return None


class TreeFault(Exception):
    def __init__(self, kind, line):
        super().__init__(kind, line)
        self.kind, self.line = kind, line


class TreeReader:
    """Reads a bound tree. `visit`, where it is given, gets each node with its line's kind and value. `step`: how much
    the counts of its nodes know."""

    def __init__(self, inst, data, visit=None, step=3):
        self.inst, self.data, self.visit, self.step = inst, data, visit, step
        self.number, self.place = 0, 0
        self.value, self.branched = NEVER, 0

    def read(self):
        """Goes through the whole file; raises the first fault."""
        self.line("title")
        self.line("up")
        self.part(Node(self.inst, step=self.step))
        self.line("down")
        self.part(Node(self.inst.mirror, step=self.step))
        return self.finish()

    def finish(self):
        """The last line, and that nothing follows."""
        told = self.line("end")
        if told != f"{self.branched} {bound_text(self.value)}":
            raise TreeFault("Counts", self.number)
        if self.place < len(self.data):
            raise TreeFault("After", self.number + 1)
        return self

    def line(self, *kinds):
        self.number += 1
        feed = self.data.find(b"\n", self.place, self.place + 1200)
        if feed < 0:
            too_long = len(self.data) - self.place >= 1200
            raise TreeFault("LineTooLong" if too_long else "Cut", self.number)
        parsed = self.parse(self.data[self.place:feed])
        self.place = feed + 1
        if parsed is None:
            raise TreeFault("Spelling", self.number)
        if parsed[0] not in kinds:
            raise TreeFault("Place", self.number)
        return parsed if len(kinds) > 1 else parsed[1]

    @staticmethod
    def parse(text):
        return parse_line(text)

    def part(self, root):
        waiting, inst = [root], root.inst
        while waiting:
            node = waiting.pop()
            kind, fields = self.line(*"AOPCQXW")
            if kind in "AOPCQ" and any(not 1 <= number <= len(inst.tasks) for number in fields):
                raise TreeFault("UnknownTask", self.number)
            numbers = [number - 1 for number in fields] if kind in "AOPCQ" else fields
            if kind in "AO":
                value = None
                waiting += reversed(self.children(node, kind, numbers))
            else:
                value = self.leaf(node, kind, numbers)
                self.value = min(self.value, value)
            if self.visit:
                self.visit(node, kind, value)

    def children(self, node, kind, numbers):
        if kind == "O":
            self.expect_pair(node, *numbers)
        if node.crane[numbers[0]] is not None if kind == "A" else node.is_settled(*numbers):
            raise TreeFault("Decided", self.number)
        if self.branched == 1_000_000:
            raise TreeFault("Branchings", self.number)
        self.branched += 1
        if kind == "A":
            return [node.child("A", numbers[0], crane) for crane in range(len(node.inst.cranes))]
        return [node.child("O", *numbers), node.child("O", *reversed(numbers))]

    def expect_pair(self, node, i, j):
        if (i, j) not in node.inst.apart:
            raise TreeFault("NotApart", self.number)

    def leaf(self, node, kind, numbers):
        """The value of a leaf, or the fault of one that doesn't hold."""
        if kind in "PC":
            ring = numbers[:1] if kind == "C" else []
            steps = [node.forced(i, j) for i, j in itertools.pairwise(numbers + ring)]
            if None in steps:
                raise TreeFault("NotCycle" if kind == "C" else "NotForced", self.number)
            if kind == "C":
                return NEVER
            if not numbers:
                return 0
            return node.head(numbers[0]) + sum(steps) + node.inst.tasks[numbers[-1]].ticks
        if kind == "Q":
            value = node.packed_value(numbers)
            if value is None:
                raise TreeFault("NotClash", self.number)
            return value
        if kind == "X" and not node.is_out_of_reach():
            raise TreeFault("InReach", self.number)
        if kind == "W" and not node.work_holds(numbers[0]):
            raise TreeFault("WorkShort", self.number)
        return NEVER if kind == "X" else numbers[0]


def bound_text(value):
    return "never" if value == NEVER else str(value)


# ---------------------------------------------------------------- plan files

def plan_text(inst, plan):
    lines = ["task,crane,start,end"]
    for task, (crane, start) in zip(inst.tasks, plan):
        lines.append(f"{task.name},{inst.cranes[crane].name},{start},{start + task.ticks}")
    return "".join(line + "\n" for line in lines)


def read_plan(inst, data):
    """The plan and no fault, or None and the first fault as (kind, record)."""
    records = records_of(data)
    tasks = {task.name: j for j, task in enumerate(inst.tasks)}
    cranes = {crane.name: k for k, crane in enumerate(inst.cranes)}
    plan = [None] * len(inst.tasks)
    if not records or records[0] != ["task", "crane", "start", "end"]:
        return None, ("Header", 1)
    for number, record in enumerate(records[1:], 2):
        if len(record) != 4:
            return None, ("Fields", number)
        name, crane, *times = record
        if name not in tasks:
            return None, ("UnknownTask", number)
        if crane not in cranes:
            return None, ("UnknownCrane", number)
        if not all(re.fullmatch("0|[1-9][0-9]{0,11}", time) for time in times):
            return None, ("Number", number)
        start, end = map(int, times)
        if end != start + inst.tasks[tasks[name]].ticks:
            return None, ("EndWrong", number)
        if plan[tasks[name]] is not None:
            return None, ("TaskTwice", number)
        plan[tasks[name]] = cranes[crane], start
    return (None, ("TaskMissing", len(records) + 1)) if None in plan else (plan, None)


# ---------------------------------------------------------------- motion

class Motion:
    """Where the cranes of a plan that goes upward stand; places are times the travel per bay."""

    def __init__(self, inst, plan):
        self.inst, self.ends = inst, end_of(inst, plan)
        self.jobs = [(crane, task.bay, start, start + task.ticks) for (crane, start), task in zip(plan, inst.tasks)]

    def floor(self, crane):
        inst = self.inst
        lowest = [bay - inst.gap * (w - crane) for w, bay, _, _ in self.jobs if w >= crane]
        lowest += [data.bay - inst.gap * (w - crane) for w, data in enumerate(inst.cranes) if w >= crane]
        return min(lowest)

    @cache
    def terms(self, crane):
        """What pushes the crane: (place, tick, slope before the tick, slope after it)."""
        inst = self.inst
        terms = [(inst.travel * (bay + inst.gap * (crane - v)), start, 1, 0)
                 for v, bay, start, _ in self.jobs if v <= crane]
        terms += [(inst.travel * (data.bay + inst.gap * (crane - v)), data.ready, 0, -1)
                  for v, data in enumerate(inst.cranes) if v <= crane]
        return terms + [(inst.travel * self.floor(crane), 0, 0, 0)]

    def place(self, crane, moment, parts=1):
        """`parts` times the place at the moment `moment / parts`."""
        best = -NEVER
        for place, tick, earlier, later in self.terms(crane):
            past = moment - parts * tick
            height = parts * place + (later if past > 0 else earlier) * past
            if height > best:
                best = height
        return best

    def turns(self, crane):
        """The ticks at which the slope may change: all, or where ends are late those near a meeting of two terms."""
        if self.ends <= 200:
            return range(1, self.ends)
        terms = self.terms(crane)
        lines = [(place - slope * tick, slope) for place, tick, *both in terms for slope in both]
        near = [tick for _, tick, _, _ in terms]
        near += [(c - a) // (b - d) for (a, b), (c, d) in itertools.permutations(lines, 2) if b != d]
        ticks = {tick + step for tick in near for step in (-1, 0, 1, 2)}
        return sorted(tick for tick in ticks if 0 < tick < self.ends)

    def waypoints(self, crane):
        place, ticks = cache(lambda m: self.place(crane, m)), [0]
        ticks += [m for m in self.turns(crane) if place(m + 1) - place(m) != place(m) - place(m - 1)]
        if self.ends:
            ticks.append(self.ends)
        return [(tick, place(tick)) for tick in ticks]


def motion_of(inst, plan, way):
    return Motion(inst, plan) if way == "up" else Motion(inst.mirror, inst.mirrored(plan))


def crane_lines(inst, plan, way):
    motion, lines = motion_of(inst, plan, way), []
    for k, crane in enumerate(inst.cranes):
        if way == "up":
            points = motion.waypoints(k)
        else:
            wall = inst.travel * (inst.bays + 1)
            points = [(tick, wall - place) for tick, place in motion.waypoints(len(inst.cranes) - 1 - k)]
        lines.append(f"crane {crane.name}" + "".join(f" {tick}:{place}" for tick, place in points))
    return lines


# ---------------------------------------------------------------- reports

def tasks_report(inst):
    name = [task.name for task in inst.tasks]
    lines = [f"task {task.name} {task.bay} {task.ticks}" for task in inst.tasks]
    lines += [f"before {name[i]} {name[j]}" for i, j in inst.before]
    lines += [f"apart {name[i]} {name[j]}" for i, j in inst.apart]
    lines += [f"not_before {task.name} {task.release}" for task in inst.tasks if task.release]
    return 0, lines + [f"total {sum(task.ticks for task in inst.tasks)}"]


def refusal(inst, data):
    """The plan and its direction, or None and the refusal of a plan that is faulty or doesn't hold."""
    plan, fault = read_plan(inst, data)
    if fault:
        return None, None, (8, [f"BadPlan {fault[0]} {fault[1]}"])
    way, broken = direction_of(inst, plan)
    if broken:
        return None, None, (13, [" ".join(["Broken", broken[0]] + [inst.tasks[j].name for j in broken[1:]])])
    return plan, way, None


def show_report(inst, data):
    plan, way, refused = refusal(inst, data)
    if refused:
        return refused
    ends = end_of(inst, plan)
    lines = [f"direction {way}", f"end {ends}"] + crane_lines(inst, plan, way) + [f"gantt {ends}"]
    for k, crane in enumerate(inst.cranes):
        text = ""
        for tick in (c * ends // 60 for c in range(60)):
            doing = [task for task, (v, start) in zip(inst.tasks, plan)
                     if v == k and start <= tick < start + task.ticks]
            text += LETTERS[doing[0].phase] if doing else "."
        lines.append(f"{crane.name:<12}|{text}|")
    return 0, lines


def slots_of(bay):
    """The 20-foot places of a bay."""
    return {bay} if bay % 2 else {bay - 1, bay + 1}


def is_over(cell, other):
    return cell[1] == other[1] and bool(slots_of(cell[0]) & slots_of(other[0])) and cell[2] > other[2]


def turns(moves, lifted):
    """Moves of one task, each an id and a cell, in the order in which they are made."""
    left, made = list(moves), []
    while left:
        free = [(ident, cell) for ident, cell in left
                if not any(is_over(other, cell) if lifted else is_over(cell, other) for _, other in left)]
        made.append(min(free, key=lambda move: ((-1) ** (move[1][1] + 1) * move[1][1], move[1][0])))
        left.remove(made[-1])
    return made


def sheet_report(ship, stow, inst, data):
    plan, fault = read_plan(inst, data)
    if fault:
        return 8, [f"BadPlan {fault[0]} {fault[1]}"]
    broken = next(breaks_up(inst, plan), ("OneWay",))
    if broken[0] != "OneWay":
        return 13, [" ".join(["Broken", broken[0]] + [inst.tasks[j].name for j in broken[1:]])]
    moves = {}
    for ident, kind, text, _ in moves_of(stow):
        cell = int(text[:-4]), int(text[-4:-2]), int(text[-2:])
        phase = kind + ("D" if cell[2] >= 70 else "H")
        moves.setdefault((ship.hatch_of(cell[0]), phase), []).append((ident, cell))
    lines = []
    for k, crane in enumerate(inst.cranes):
        lines.append(f"sheet {crane.name}")
        for start, j in sorted((start, j) for j, (v, start) in enumerate(plan) if v == k):
            task = inst.tasks[j]
            lines.append(f"task {task.name} {start} {start + task.ticks}")
            tick = start + (ship.cover if task.phase == "DH" else 0)
            for ident, (bay, row, tier) in turns(moves[task.hatch, task.phase], task.phase[0] == "D"):
                lines.append(f"{tick} {ident} {task.phase[0]} {bay:02}{row:02}{tier:02}")
                tick += ship.hold_move if task.phase[1] == "H" else ship.deck_move
    return 0, lines


def check_report(inst, data, tree):
    """The report on a plan's file, or None for `-`, with a tree."""
    if data is not None:
        plan, _, refused = refusal(inst, data)
        if refused:
            return refused
    try:
        value = TreeReader(inst, tree).read().value
    except TreeFault as fault:
        return 7, [f"BadTree {fault.kind} {fault.line}"]
    if data is None:
        return (10, ["Infeasible"]) if value == NEVER else (0, [f"Bound {value}"])
    ends = end_of(inst, plan)
    word, status = ("Optimal", 0) if value >= ends else ("Weaker", 14)
    return status, [word, f"end {ends}", f"bound {bound_text(value)}"]


# ---------------------------------------------------------------- logs of reported places

REPORT = re.compile(rb"(0|[1-9][0-9]{0,11}) ([^ \n]+) (0|-?[1-9][0-9]{0,5})")


def read_log(ship, data):
    """A list of (time, place) for each crane, or the kind and line of the first fault."""
    lists = {crane.name.encode(): [] for crane in ship.cranes}
    *lines, cut = data.split(b"\n")
    for number, line in enumerate(lines + [cut] * (cut != b""), 1):
        parts = REPORT.fullmatch(line) if number <= len(lines) else None
        if number > 200_000:
            return None, ("TooMany", number)
        if parts is None:
            return None, ("Line", number)
        time, name, place = int(parts[1]), parts[2], int(parts[3])
        if name not in lists:
            return None, ("UnknownCrane", number)
        if lists[name] and lists[name][-1][0] >= time:  # the times of a list rise
            return None, ("TimeBack", number)
        lists[name].append((time, place))
    return list(lists.values()), None


def place_at(reports, moment):
    """Where a crane is at a moment, whole or not; None where it isn't known."""
    at = bisect_left(reports, moment, key=lambda report: report[0])
    if at < len(reports) and reports[at][0] == moment:
        return Fraction(reports[at][1])
    if at in (0, len(reports)):
        return None
    (a, x), (b, y) = reports[at - 1:at + 1]
    return x + Fraction((y - x) * (moment - a), b - a)


def too_near(ship, lists, moment):
    """The pair of lowest cranes that fails at a moment, or None."""
    places = [place_at(reports, moment) for reports in lists]
    for v, w in itertools.combinations(range(len(lists)), 2):
        if None not in (places[v], places[w]) and places[w] - places[v] < ship.gap * (w - v):
            return v, w
    return None


def watch_report(ship, data):
    lists, fault = read_log(ship, data)
    if fault:
        return 17, [f"BadLog {fault[0]} {fault[1]}"]
    for moment in sorted({time for reports in lists for time, _ in reports}):
        pair = too_near(ship, lists, moment)
        if pair:
            return 18, [f"Breach {moment} {ship.cranes[pair[0]].name} {ship.cranes[pair[1]].name}"]
    return 0, [f"Safe {sum(map(len, lists))}"]


class Course:
    """The course of a plan whose tasks take as long as they do."""

    def __init__(self, inst, plan):
        self.inst, self.plan, self.now, self.told = inst, plan, 0, []
        self.start, self.end = [None] * len(plan), [None] * len(plan)
        self.lefts = {}  # of a task the ticks that the last line `left` says it still needs, and the moment of that line
        tasks = range(len(plan))
        self.free = [inst.free_from(j, crane) for j, (crane, _) in enumerate(plan)]
        self.leaders = [[(i, self.gap(i, j)) for i in tasks if self.leads(i, j)] for j in tasks]
        self.settle()

    def leads(self, i, j):
        (v, s), (w, t) = self.plan[i], self.plan[j]
        tied = (i, j) in self.inst.before or (min(i, j), max(i, j)) in self.inst.apart \
            or v == w or self.inst.distance(i, v, j, w) > 0
        return s < t and tied

    def gap(self, i, j):
        (v, _), (w, _) = self.plan[i], self.plan[j]
        if v == w:
            return self.inst.travel * abs(self.inst.tasks[i].bay - self.inst.tasks[j].bay)
        return self.inst.distance(i, v, j, w)

    def may_start(self, j):
        return self.start[j] is None and self.now >= self.free[j] and all(
            self.end[i] is not None and self.end[i] + gap <= self.now for i, gap in self.leaders[j])

    def settle(self):
        while any(self.may_start(j) for j in range(len(self.plan))):
            j = next(j for j in range(len(self.plan)) if self.may_start(j))
            self.start[j] = self.now
            self.told.append(f"start {self.inst.tasks[j].name} {self.inst.cranes[self.plan[j][0]].name} {self.now}")

    def tick(self, count):
        """Goes on by so many ticks; nothing starts but at one of the moments below."""
        last = self.now + count
        for moment in sorted(m for m in self.moments() if self.now < m < last) + [last]:
            self.now = moment
            self.settle()

    def moments(self):
        """When a task may come to start: where the berths let it, and where the way after an earlier one is over."""
        for j, free in enumerate(self.free):
            if self.start[j] is None:
                yield from [free] + [self.end[i] + gap for i, gap in self.leaders[j] if self.end[i] is not None]

    def runs(self, j):
        return self.start[j] is not None and self.end[j] is None

    def told_left(self, j, ticks):
        if self.runs(j):
            self.lefts[j] = ticks, self.now
        return self.runs(j)

    def done(self, j):
        if not self.runs(j):
            return False
        self.end[j] = self.now
        self.told.append(f"end {self.inst.tasks[j].name} {self.now}")
        self.settle()
        return True

    def notes(self):
        """What each crane waits for that does no task and has some left."""
        for number, crane in enumerate(self.inst.cranes):
            own = [j for j, (v, _) in enumerate(self.plan) if v == number]
            left = [j for j in own if self.start[j] is None]
            if not left or any(self.start[j] is not None and self.end[j] is None for j in own):
                continue
            task = min(left, key=lambda j: self.plan[j][1])
            name = self.inst.tasks[task].name
            ahead = [i for i, _ in self.leaders[task] if self.end[i] is None]
            if ahead:
                first = min(ahead, key=lambda i: (self.plan[i][1], i))
                how = "runs" if self.start[first] is not None else "has no start either"
                yield (f"{crane.name} waits with {name} until {self.inst.cranes[self.plan[first][0]].name}"
                       f" is through with {self.inst.tasks[first].name}, which {how}")
            else:
                at = max([self.now, self.free[task]] + [self.end[i] + gap for i, gap in self.leaders[task]])
                yield f"{crane.name} may begin {name} at tick {at}"


def dispatch_report(inst, data, log):
    return follow(inst, data, log)[:2]


def dispatch_notes(inst, data, log):
    course = follow(inst, data, log)[2]
    return list(course.notes()) if course else []


def follow(inst, data, log):
    """The status and the report, and the course where the log has no fault."""
    plan, fault = read_plan(inst, data)
    if fault:
        return 8, [f"BadPlan {fault[0]} {fault[1]}"], None
    broken = next(breaks_up(inst, plan), ("OneWay",))
    if broken[0] != "OneWay":
        return 13, [" ".join(["Broken", broken[0]] + [inst.tasks[j].name for j in broken[1:]])], None
    course, names = Course(inst, plan), {task.name.encode(): j for j, task in enumerate(inst.tasks)}
    *lines, cut = log.split(b"\n")
    for number, line in enumerate(lines + [cut] * (cut != b""), 1):
        ticks = re.fullmatch(b"tick ([1-9][0-9]{0,8})", line)
        done = re.fullmatch(b"done ([^ ]+)", line, re.DOTALL)
        left = re.fullmatch(b"left ([^ ]+) ([1-9][0-9]{0,8})", line, re.DOTALL)
        named = done or left
        if number > 100_000:
            return 17, [f"BadLog TooMany {number}"], None
        if number > len(lines) or not (ticks or named):
            return 17, [f"BadLog Line {number}"], None
        if ticks:
            course.tick(int(ticks[1]))
        elif named[1] not in names:
            return 17, [f"BadLog UnknownTask {number}"], None
        elif not (course.done(names[done[1]]) if done else course.told_left(names[left[1]], int(left[2]))):
            return 17, [f"BadLog NotRunning {number}"], None
    running = sum(s is not None and e is None for s, e in zip(course.start, course.end))
    return 0, course.told + [f"now {course.now}", f"left {course.start.count(None)}", f"running {running}"], course


def without_releases(inst):
    """The instance in which each task may start from 0 on."""
    return replace(inst, tasks=tuple(replace(task, release=0) for task in inst.tasks))


def dump(inst):
    """The instance, which has no releases, as numbers: all cranes, tasks and pairs, each with its count before them."""
    lists = [[(crane.ready, crane.bay, crane.low, crane.high) for crane in inst.cranes],
             [(task.bay, task.ticks) for task in inst.tasks], inst.before, inst.apart]
    lines = [(inst.bays, inst.travel, inst.gap)]
    for numbers in lists:
        lines += [(len(numbers),), *numbers]
    return [" ".join(map(str, line)) for line in lines]


def main():
    command, *paths = sys.argv[1:]
    files = [None if path == "-" else open(path, "rb").read() for path in paths]
    ship = read_ship(files[0])
    inst = instance_of(ship, files[1]) if command != "watch" else None
    if command == "least":
        end = least_end(inst)
        status, lines = 0, ["none" if end == NEVER else str(end)]
    elif command == "--dump":
        status, lines = 0, dump(inst)
    elif command == "tasks":
        status, lines = tasks_report(inst)
    elif command == "show":
        status, lines = show_report(inst, files[2])
    elif command == "sheet":
        status, lines = sheet_report(ship, files[1], inst, files[2])
    elif command == "watch":
        status, lines = watch_report(ship, files[1])
    elif command == "dispatch":
        status, lines = dispatch_report(inst, files[2], files[3])
    else:
        status, lines = check_report(inst, files[2], files[3])
    print("\n".join(lines))
    sys.exit(status)


if __name__ == "__main__":
    main()
