#!/usr/bin/env python3
"""Tries leaf `W` of the second opinion's trees by brute force.

    closed.py [rows]
    closed.py bounds [--first SEED] [--count SHIPS]

`rows`: ends up to which small assignments are closed, worked out by hand, with what a count that is wrong in one
place says; they are asserted before all else. `bounds`: on random ships of at most five tasks, in nodes of both parts
in which random tasks have a crane, no closed end is above the least end of all schedules that go upward with these
cranes, or, counted as for plans of any direction, above that of all schedules that keep the rules; with an end each
earlier one is closed too; where cranes make way no less is closed than where they only wait for their neighbours, there
no less than where they don't, and there no less than by work alone; and the counts themselves say
what they say when every choice of numbers of cranes is tried. Status 1 where anything differs.
"""
import argparse
import itertools
import random
import sys
from collections import Counter

sys.dont_write_bytecode = True

from packed import least_feasible_end, random_instance, random_node
from reference import (NEVER, PHASES, Count, Crane, Instance, Node, Task, Ways, arcs_up, are_short, best_orders,
                       counts_of)


def closed_at(inst, counts):
    """The greatest end at which something is closed by these counts, or 0."""
    return greatest(lambda v: are_short(inst, counts, v))


def closed_ends(inst, crane, free):
    """The greatest closed ends with these cranes by the way of each alone, by its neighbours too, and by making way."""
    return [closed_at(inst, counts_of(inst, crane, free, step)) for step in (1, 2, 3)]


def greatest(holds):
    """The greatest number from 1 on for which it holds, or 0, where it holds for each lesser one too."""
    low, high = 0, 1
    while holds(high):
        low, high = high, 2 * high
    while high - low > 1:
        middle = (low + high) // 2
        low, high = (middle, high) if holds(middle) else (low, middle)
    return low


# ---------------------------------------------------------------- the least ends of all

def orders_of(inst, cranes, free):
    """The least end with these cranes of all schedules that go upward, or of all that keep the rules."""
    if not all(inst.reaches(k, j) for j, k in enumerate(cranes)):
        return NEVER
    if free:
        return least_feasible_end(inst, cranes)
    heads = [inst.free_table[j][k] for j, k in enumerate(cranes)]
    return best_orders(inst, heads, arcs_up(inst, cranes), NEVER)


class Ends:
    """The least ends of an instance for every choice of cranes, each worked out once."""

    def __init__(self, inst):
        self.inst, self.kept = inst, {}

    def least(self, given, free):
        every = range(len(self.inst.cranes))
        choices = itertools.product(*([v] if v is not None else every for v in given))
        return min(self.end(cranes, free) for cranes in choices)

    def end(self, cranes, free):
        if (cranes, free) not in self.kept:
            self.kept[cranes, free] = orders_of(self.inst, cranes, free)
        return self.kept[cranes, free]


# ---------------------------------------------------------------- rows by hand

def made(travel, gap, cranes, tasks, grown=0):
    """An instance of cranes, each a berth or a berth and a ready time, and tasks, each a bay and its length; tasks of
    one bay follow one another."""
    cranes = [crane if isinstance(crane, tuple) else (crane, 0) for crane in cranes]
    bays = max(bay for bay, _ in tasks) + grown
    seen, listed = Counter(), []
    for bay, ticks in tasks:
        listed.append(Task(bay, PHASES[seen[bay]], bay, ticks))
        seen[bay] += 1
    before = tuple((i, j) for i, j in itertools.combinations(range(len(tasks)), 2) if tasks[i][0] == tasks[j][0])
    return Instance(bays, travel, gap, tuple(listed),
                    tuple(Crane(f"C{k + 1}", ready, berth, 1, bays) for k, (berth, ready) in enumerate(cranes)),
                    before, ())


def node_of(inst, cranes):
    """The node in which the tasks have these cranes, from 1, or none."""
    node = Node(inst)
    for j, crane in enumerate(cranes):
        if crane:
            node = node.child("A", j, crane - 1)
    return node


def ship(tasks):
    """Four bays, two cranes at bays 1 and 3, at a tick a bay and two bays apart."""
    return made(1, 2, (1, 3), tasks, 4 - max(bay for bay, _ in tasks))


class WithoutTheirStart(Count):
    """A neighbour's first task is taken for one that begins when the crane could."""

    def begun(self, crane, bays, shut):
        return self.way(crane, bays)


class FurtherOn(Count):
    """Tasks of the crane above are shut a bay further on, which could run beside the crane's own."""

    def shut(self, crane, p, q):
        more = [(j, crane + 1) for j in self.own_of(crane + 1) if self.inst.tasks[j].bay == p + self.inst.gap]
        return super().shut(crane, p, q) + more


class FurtherOnBothSides(FurtherOn):
    def shut(self, crane, p, q):
        more = [(j, crane - 1) for j in self.own_of(crane - 1) if self.inst.tasks[j].bay == q - self.inst.gap]
        return super().shut(crane, p, q) + more


class FromTheFirstBay(Count):
    """Each crane is taken to come from the first bay."""

    def up(self, crane, bay):
        return bay - min(task.bay for task in self.inst.tasks)


class OneTooMany(Count):
    """Of the cranes that travel on one more is counted than must come."""

    def steps(self, differences, needed):
        return super().steps(differences, needed + 1)


class ThereAndBack(Ways):
    """A crane always comes back from where it goes beside making way."""

    def further(self, above, below, to_top, to_bottom):
        return 2 * above + 2 * below


def turned(inst, crane, free):
    """A count for any direction that turns as on the way up."""
    return Count(inst, crane)


# Name, instance, cranes, whether in any direction, the greatest closed ends where no crane waits for its neighbours,
# where it does and where it makes way for them too, the least end of all; and a wrong count for the node, one for no
# cranes or None, and what they say.
ROWS = [
    ("two hatches side by side: at 20 the second has 20 and 19, at 21 21 and 20",
     ship([(1, 20), (2, 20)]), (0, 0), False, [21, 21, 21], 41, None),
    ("the same from the stern", ship([(1, 20), (2, 20)]).mirror, (0, 0), False, [21, 21, 21], 41, None),
    ("one crane alone: 20, a tick, 20", made(1, 2, (1,), [(1, 20), (2, 20)], 2), (0, 0), False, [41, 41, 41], 41, None),
    ("the same with its tasks", made(1, 2, (1,), [(1, 20), (2, 20)], 2), (1, 1), False, [41, 41, 41], 41,
     (ThereAndBack, Count, 42)),
    ("four hatches", ship([(1, 20), (2, 20), (3, 20), (4, 20)]), (0, 0, 0, 0), False, [41, 41, 41], 41, None),
    # C1 makes way a bay down from its own, which only shows 21 of the 30 for which it is barred.
    ("C1 stands while C2 works beside it", ship([(1, 20), (2, 10), (4, 20)]), (1, 2, 0), False, [28, 33, 33], 33, None),
    # C2 goes to bay 2 and back to 4: 3 beside the work of 10. C1 waits 11, makes way a bay and comes two back.
    ("one hatch, C2 and then C1", ship([(2, 10), (2, 1)]), (2, 1), False, [11, 12, 13], 14, None),
    # C2 stands at bay 3 until 100 and goes three bays up to make way; the task comes behind.
    ("a crane without tasks that makes way", made(1, 2, (1, (3, 100)), [(4, 10)]), (1,), False, [13, 13, 103], 113,
     None),
    # C2 makes way three bays up, and from its berth comes two down: at 18 5 and 13, at 19 6 and 14. C1 can do all by 33.
    ("a crane that makes way and then shares", ship([(1, 10), (1, 10), (4, 10)]), (0, 0, 1), False, [18, 18, 19], 33,
     None),
    ("no cranes say more than the one that is given", ship([(1, 10), (1, 10), (3, 10)]), (1, 0, 0), False, [16, 16, 16],
     20, (Count, None, 15)),
    # Making way alone reaches 26: the third count may say less than the second.
    ("C2 before C1, a task left", ship([(1, 10), (2, 10), (2, 10)]), (2, 0, 1), False, [17, 27, 27], 35,
     (Ways, Count, 26)),
    # C2 goes to bay 2, makes way to bay 4 and comes back: 1 and 2 and 2 beside the work of 11.
    ("to and fro", ship([(2, 10), (2, 1), (2, 1)]), (2, 1, 2), True, [12, 13, 16], 17, None),
    ("one crane amid its bays", made(1, 1, (3,), [(1, 37), (2, 8)], 2), (1, 1), True, [47, 47, 47], 47,
     (turned, turned, 48)),
    # C2 makes way 7 bays for C1, which is 12 with its work; C1 is at its bay after 3 and 7, for 14.
    ("a neighbour that may begin first", made(1, 2, ((-2, 3), 0, 3), [(1, 2), (1, 3), (5, 14)]), (2, 2, 1), False,
     [24, 24, 24], 26, (WithoutTheirStart, Count, 29)),
    ("a neighbour just far enough", made(2, 1, (4, (5, 10)), [(1, 20), (1, 9), (2, 3), (2, 20)]), (1, 0, 2, 2), True,
     [39, 39, 39], 39, (FurtherOn, Count, 50)),
    ("neighbours just far enough", made(2, 1, (4, (5, 10)), [(1, 20), (1, 9), (2, 3), (2, 20)]), (1, 0, 2, 2), True,
     [39, 39, 39], 39, (FurtherOnBothSides, Count, 55)),
    ("cranes that begin amid the bays", made(4, 1, ((3, 11), (4, 0), (6, 12)), [(2, 7), (8, 10)]), (0, 0), False,
     [23, 23, 23], 30, (FromTheFirstBay, FromTheFirstBay, 34)),
    ("as many as must come", made(30, 3, (4, 9, 12), [(2, 60), (2, 80), (10, 150)]), (0, 0, 0), False, [200, 200, 200],
     200, (OneTooMany, OneTooMany, 220)),
]


def said_by(inst, crane, free, count, bare):
    """The greatest end that is closed by a count with these cranes, and by one with none where there is one."""
    counts = [count(inst, crane, free)] + ([bare(inst, [None] * len(crane), free)] if bare else [])
    return closed_at(inst, counts)


def try_rows(tells=False):
    for name, inst, cranes, free, due, least, wrong in ROWS:
        node = node_of(inst, cranes)
        seen, end = closed_ends(inst, node.crane, free), Ends(inst).least(node.crane, free)
        said = said_by(inst, node.crane, free, *wrong[:2]) if wrong else None
        if tells:
            print(f"{name}: {seen}, least end {end}, wrong {said}")
        assert (seen, end) == (due, least), (name, seen, end)
        assert not wrong or said == wrong[2], (name, said)
        assert node.work_bound == due[2] or free, (name, node.work_bound)
    near, far = ship([(1, 20), (2, 20)]), made(1, 250, (100, 400), [(100, 2000), (260, 2000)])
    # In a list the least head counts, 0 and not 1; and places as seen from one crane, not the 160 between the hatches.
    assert Node(near).packed_value([0, 1]) == 41 and sorted(map(Node(near).head, (0, 1))) == [0, 1]
    assert Node(far).packed_value([0, 1]) == 4090


# ---------------------------------------------------------------- brute force

def tiny(rng):
    """A random instance of one to five tasks and one to four cranes."""
    cranes, most = rng.choice(((1, 5), (2, 5), (2, 5), (3, 5), (3, 4), (4, 4)))
    count, gap, scale = rng.randint(1, most), rng.randint(1, 3), rng.choice((1, 1, 2, 3))
    places, place = [], 1
    for _ in range(rng.randint(1, 5)):
        places.append(place)
        place += rng.choice((1, 1, 1, 2, 3, 5))
    doing = sorted(rng.sample([(place, phase) for place in places for phase in range(4)], min(count, 4 * len(places))))
    tasks = tuple(Task(place, PHASES[phase], place, scale * rng.randint(1, rng.choice((4, 12))),
                       scale * rng.choice((0, 0, 0, rng.randint(1, 40))))
                  for place, phase in doing)
    listed, berth, ready = [], rng.randint(1 - gap * cranes, places[-1] + 1), rng.choice((0, 0, 4, 12))
    for k in range(cranes):
        low, high = sorted(rng.choices(places, k=2)) if rng.random() < 0.2 else (places[0], places[-1])
        listed.append(Crane(f"C{k + 1}", scale * rng.randint(0, ready), berth, low, high))
        berth += gap + rng.choice((0, 0, 1, 2, 4))
    pairs = [(i, j) for i, j in itertools.combinations(range(len(tasks)), 2)]
    before = {(i, j) for i, j in pairs if tasks[i].bay == tasks[j].bay}
    before |= {(i, j) for i, j in itertools.permutations(range(len(tasks)), 2)
               if tasks[i].phase[0] == "D" and tasks[j].phase[0] == "L" and rng.random() < 0.1}
    apart = [(i, j) for i, j in pairs if tasks[i].bay != tasks[j].bay and rng.random() < 0.1]
    travel = scale * rng.randint(1, 4)
    return Instance(places[-1], travel, gap, tasks, tuple(listed), tuple(sorted(before)), tuple(apart))


def takes_room(node, v, free):
    """Whether work alone takes until v: a crane its own tasks with its way to them, or all together what is left."""
    rooms, inst = [], node.inst
    for k, data in enumerate(inst.cranes):
        mine = [task for task, crane in zip(inst.tasks, node.crane) if crane == k]
        bays = [task.bay for task in mine] or [data.bay]
        low, high = min(bays), max(bays)
        turn = high - low + min([abs(data.bay - low)] + [abs(data.bay - high)] * free)
        rooms.append(v - 1 - data.ready - sum(task.ticks for task in mine) - inst.travel * turn)
        if mine and rooms[-1] < 0:
            return True
    left = sum(task.ticks for task, crane in zip(inst.tasks, node.crane) if crane is None)
    return left > sum(max(0, room) for room in rooms)


def is_short_by_trying(count, last):
    """`is_short`, by trying every choice of so many cranes at each bay where work is left."""
    if any(works and spent > last for works, spent in zip(count.works, count.spent)):
        return True
    bays, cranes, travel = sorted(count.left), range(len(count.own)), count.inst.travel

    def least(way, order):
        found = []
        for numbers in itertools.product(range(len(count.own) + 1), repeat=len(order)):
            steps = [sum(sorted(way(k, far) - way(k, near) for k in cranes)[:number])
                     for far, near, number in zip(order, order[1:], numbers)]
            if all(sum(sorted((max(0, last - count.spent[k] - travel * way(k, bay)) for k in cranes))[::-1][:number])
                   >= sum(count.left[other] for other in order[:at + 1]) + travel * sum(steps[:at])
                   for at, (bay, number) in enumerate(zip(order, numbers))):
                found.append(sum(steps))
        return min(found, default=NEVER)

    if not bays:
        return False
    ways = [count.up(k, bays[0]) + count.down(k, bays[-1]) for k in cranes]
    rooms = sum(max(0, last - spent - travel * way) for spent, way in zip(count.spent, ways))
    return rooms < sum(count.left.values()) + travel * (least(count.up, bays[::-1]) + least(count.down, bays))


def try_node(node, free, end, rng, counts):
    """What is wrong with the ends that the node is closed at, if anything is."""
    inst, kind = node.inst, "any way" if free else "upward"
    by_step = [counts_of(inst, node.crane, free, step) for step in (1, 2, 3)]
    ends = [greatest(lambda v: takes_room(node, v, free))] + [closed_at(inst, some) for some in by_step]
    counts[f"nodes, {kind}"] += 1
    counts[f"nodes, {kind}, without a schedule"] += end == NEVER
    counts[f"ends that are the least one, {kind}"] += ends[3] == end
    counts[f"ends that are later since cranes make way, {kind}"] += ends[2] < ends[3]
    counts[f"ends that are later since cranes wait, {kind}"] += ends[1] < ends[2]
    counts[f"ends that are later than by work alone, {kind}"] += ends[0] < ends[1]
    counts[f"ends that only no cranes say, {kind}"] += closed_at(inst, by_step[2][1:]) < ends[3]
    counts[f"ends that making way alone doesn't say, {kind}"] += closed_at(inst, by_step[2][2:]) < ends[3]
    if sorted(ends) != ends or ends[3] > end or not free and node.work_bound != ends[3]:
        return f"closed at {ends}, least end {end}"
    for some, last in zip(by_step, ends[1:]):
        if any(are_short(inst, some, v) != (v <= last) for v in range(1, last + 3 * inst.grain + 3)):
            return f"closed at {last}, and not at each earlier end or at a later one"
    for count in by_step[2] + by_step[0][1:]:
        border = greatest(lambda v: count.is_short(v)) if count.is_short(1) else 0
        for last in {0, border, border + 1, rng.randint(0, 2 * border + 2)}:
            counts["counts tried with all choices of numbers"] += 1
            counts["of these short"] += count.is_short(last)
            if count.is_short(last) != is_short_by_trying(count, last):
                return f"a count at {last} says {count.is_short(last)}"
    return None


def try_bounds(first, number):
    counts, wrong = Counter(), 0
    for seed in range(first, first + number):
        rng = random.Random(seed)
        inst = random_instance(rng, 4) if rng.random() < 0.2 else tiny(rng)
        for seen in (inst, inst.mirror):
            ends = Ends(seen)
            for _ in range(4):
                node = random_node(seen, rng)
                for free in (False, True):
                    trouble = try_node(node, free, ends.least(node.crane, free), rng, counts)
                    if trouble:
                        wrong += 1
                        print(f"seed {seed}: {seen} {node.decisions} {free}: {trouble}", flush=True)
    for what, much in sorted(counts.items()):
        print(f"{much:9} {what}")
    print(f"{number} ships, {wrong} differences")
    return wrong


def main():
    parser = argparse.ArgumentParser(description="closed ends by hand and by brute force")
    parser.add_argument("what", nargs="?", choices=("rows", "bounds"), default="rows")
    parser.add_argument("--first", type=int, default=1)
    parser.add_argument("--count", type=int, default=300)
    words = parser.parse_args()
    try_rows(words.what == "rows")
    sys.exit(1 if words.what == "bounds" and try_bounds(words.first, words.count) else 0)


if __name__ == "__main__":
    main()
