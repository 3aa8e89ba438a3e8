#!/usr/bin/env python3
"""Plans that may go to and fro, worked out from the definitions alone: their trees, their search and their motion.

    free.py free SHIP STOW NODES [OWN]
    free.py check SHIP STOW PLAN TREE             (PLAN may be `-`)
    free.py tracks SHIP STOW PLAN

`free` prints what a search in any direction that begins with the plan in OWN, or with none, reports, and then its plan
and its tree; `check` judges a plan and a tree; `tracks` prints the crane lines of a plan. What the three are tried by
stands in freely.py. Nothing here is taken from the program or from its specifications.

A plan is feasible where it keeps all rules but that of one way. A node of a tree says which tasks have a crane, and of
some pairs which is done first; two tasks conflict where they may not run side by side.
"""
import itertools
import sys
from functools import cache

sys.dont_write_bytecode = True

from packed import Search, lists_of, longest_from
from reference import (NEVER, Motion, Node, TreeFault, TreeReader, bound_text, breaks_up, end_of, instance_of,
                       parse_line, plan_text, read_plan, read_ship)


def first_break(inst, plan):
    """The first rule that the plan breaks, that of one way left out, or None."""
    return next((broken for broken in breaks_up(inst, plan) if broken[0] != "OneWay"), None)


# ---------------------------------------------------------------- nodes

class FreeNode(Node):
    """A list of decisions in a tree of plans that go any way."""

    is_free = True

    def __init__(self, inst, decisions=(), step=3):
        super().__init__(inst, decisions, step=step)

    def child(self, *decision):
        return FreeNode(self.inst, self.decisions + (decision,), self.step)

    def rest(self, i, j):
        """The ticks from the end of the one to the start of the other, whichever comes first."""
        v, w = self.crane[i], self.crane[j]
        if v is None or w is None:
            return 0
        if v == w:
            return self.inst.travel * abs(self.inst.tasks[i].bay - self.inst.tasks[j].bay)
        return self.inst.distance(i, v, j, w)

    def conflicts(self, i, j):
        v, w = self.crane[i], self.crane[j]
        both = v is not None and w is not None
        return (min(i, j), max(i, j)) in self.inst.apart or both and (v == w or self.inst.distance(i, v, j, w) > 0)

    def forced(self, i, j):
        return self.inst.tasks[i].ticks + self.rest(i, j) if (i, j) in self.ordered else None

    def is_in_reach(self):
        return all(v is None or self.inst.reaches(v, j) for j, v in enumerate(self.crane))

    def is_solvable(self):
        return self.is_in_reach() and self.starts is not None

    def is_complete(self):
        """Whether each task has a crane, and the least starts with these cranes are a plan that keeps the rules."""
        return None not in self.crane and self.is_solvable() and first_break(self.inst, self.plan) is None

    @property
    def plan(self):
        return list(zip(self.crane, self.starts))

    def overlapping(self):
        """The conflicting pairs without an order whose tasks run at once, or too soon one after the other."""
        starts, tasks = self.starts, self.inst.tasks
        for i, j in itertools.combinations(range(len(starts)), 2):
            rest = self.rest(i, j)
            if self.conflicts(i, j) and not self.is_settled(i, j) \
                    and starts[i] < starts[j] + tasks[j].ticks + rest and starts[j] < starts[i] + tasks[i].ticks + rest:
                yield i, j

    def packed_value(self, tasks):
        """The value of a leaf `Q`, work and travel after the first of the least starts; None where it doesn't hold."""
        if not self.is_solvable() or not self.is_packed(tasks):
            return None
        work = sum(self.inst.tasks[j].ticks for j in tasks) + self.inst.travel * self.span(tasks)
        return work + min(self.starts[j] for j in tasks)


def node_of_plan(inst, plan):
    """The node with the cranes of a feasible plan and the orders of its conflicting pairs."""
    node = FreeNode(inst)
    for j, (crane, _) in enumerate(plan):
        node = node.child("A", j, crane)
    for i, j in itertools.combinations(range(len(plan)), 2):
        if node.conflicts(i, j) and not node.is_settled(i, j):
            node = node.child("O", *((i, j) if plan[i][1] < plan[j][1] else (j, i)))
    return node


def tight_free(inst, plan):
    """The feasible plan with the least starts that its cranes and its orders leave."""
    return node_of_plan(inst, plan).plan


# ---------------------------------------------------------------- trees

class FreeReader(TreeReader):
    """Reads a tree of plans in any direction: one part, without directions."""

    def __init__(self, inst, data, visit=None, step=3):
        super().__init__(inst, data, visit, step=step)

    def read(self):
        self.line("title")
        self.part(FreeNode(self.inst, step=self.step))
        return self.finish()

    @staticmethod
    def parse(text):
        if text == b"QCFREE 1":
            return "title", ""
        parsed = parse_line(text)
        return None if parsed is None or parsed[0] in ("title", "up", "down") else parsed

    def expect_pair(self, node, i, j):
        if i >= j or not node.conflicts(i, j):
            raise TreeFault("NotConflict", self.number)


# ---------------------------------------------------------------- the search

class FreeSearch(Search):
    """The search in any direction, plain and slow. `given`: the end of a plan that it begins with, or NEVER. `met`: the
    plan that it met last, where one ends before that."""

    def __init__(self, inst, given, nodes, step=3):
        self.inst, self.nodes, self.best = inst, nodes, given
        self.value, self.branched, self.met = NEVER, 0, None
        self.lines = ["QCFREE 1"]
        self.visit(FreeNode(inst, step=step))
        self.lines.append(f"end {self.branched} {bound_text(self.value)}")

    def closing(self, node):
        before = self.best
        leaf = super().closing(node)
        if self.best < before:
            self.met = node.plan
        return leaf

    def lists(self, node):
        return free_lists(node)

    def decision(self, node):
        """The lowest task without a crane; else of the pairs that run at once the one whose order tells most."""
        if None in node.crane:
            return "A", node.crane.index(None)

        def rank(pair):
            reaching = [order_end(node, *both) >= self.best for both in (pair, pair[::-1])]
            return -sum(reaching), max(node.starts[j] for j in pair), pair

        return "O", *min(node.overlapping(), key=rank)


def free_lists(node):
    """The packed lists that are tried, each with its value and its line: those of the search in one direction; and
    where an order was decided the longest list from each start on."""
    found = lists_of(node)
    if any(kind == "O" for kind, _, _ in node.decisions):
        for moment in sorted({start for start, v in zip(node.starts, node.crane) if v is not None}):
            tasks = heaviest(node, moment)
            found.append((node.packed_value(tasks), "Q" + numbers_of(tasks)))
    return found


def numbers_of(tasks):
    return "".join(f" {j + 1}" for j in tasks)


def order_end(node, i, j):
    """What ends no earlier where task i is before task j: never where j leads to i, else the chain through both."""
    later = longest_from(node, j)
    if i in later:
        return NEVER
    tail = max(length + node.inst.tasks[k].ticks for k, length in later.items())
    return node.starts[i] + node.inst.tasks[i].ticks + node.rest(i, j) + tail


def heaviest(node, moment):
    """Of the tasks that have a crane and start at the moment or later the longest list in which, with falling places as
    seen from the first crane, cranes don't fall, and at one place there is one crane alone."""
    inst, groups = node.inst, {}
    for j, crane in enumerate(node.crane):
        if crane is not None and node.starts[j] >= moment:
            place = inst.tasks[j].bay - inst.gap * crane
            groups.setdefault(place, {}).setdefault(crane, []).append(j)
    best = {}  # the ticks and tasks of the best list so far that ends with this crane
    for place in sorted(groups, reverse=True):
        earlier = dict(best)
        for crane, tasks in groups[place].items():
            ticks, before = max((earlier[v] for v in sorted(earlier) if v <= crane), key=lambda some: some[0],
                                default=(0, []))
            best[crane] = ticks + sum(inst.tasks[j].ticks for j in tasks), before + tasks
    return sorted(max((best[v] for v in sorted(best)), key=lambda some: some[0])[1])


# ---------------------------------------------------------------- motion

class FreeMotion(Motion):
    """Where the cranes of a plan stand that goes to and fro: each makes way in good time and comes back at once."""

    def place(self, crane, moment, parts=1):
        inst = self.inst
        heights = [parts * inst.travel * self.floor(crane)]
        for v, bay, start, end in self.jobs:
            if v <= crane:
                away = max(0, parts * start - moment, moment - parts * end)
                heights.append(parts * inst.travel * (bay + inst.gap * (crane - v)) - away)
        for v, data in enumerate(inst.cranes[:crane + 1]):
            away = max(0, moment - parts * data.ready)
            heights.append(parts * inst.travel * (data.bay + inst.gap * (crane - v)) - away)
        return max(heights)

    def waypoints(self, crane):
        """Pairs of half ticks and of places in halves of a tick's travel."""
        place = cache(lambda m: self.place(crane, m, 2))
        turns = [m for m in self.halves(crane) if place(m + 1) - place(m) != place(m) - place(m - 1)]
        return [(m, place(m)) for m in [0] + turns + ([2 * self.ends] if self.ends else [])]

    def halves(self, crane):
        """The half ticks at which the crane may turn: all, or where ends are late those at which two of the straight
        lines meet that its place is made of."""
        last = 2 * self.ends
        if last <= 400:
            return range(1, last)
        inst = self.inst
        stays = [(2 * inst.travel * (bay + inst.gap * (crane - v)), 2 * start, 2 * end)
                 for v, bay, start, end in self.jobs if v <= crane]
        stays += [(2 * inst.travel * (data.bay + inst.gap * (crane - v)), 0, 2 * data.ready)
                  for v, data in enumerate(inst.cranes) if v <= crane]
        flat = [place for place, _, _ in stays] + [2 * inst.travel * self.floor(crane)]
        rising = [place - start for place, start, _ in stays]
        falling = [place + end for place, _, end in stays]
        near = {moment for _, start, end in stays for moment in (start, end)}
        near |= {place - line for place in flat for line in rising} | {line - place for place in flat for line in falling}
        near |= {(down - up) // 2 for up in rising for down in falling}
        return sorted(moment for moment in {moment + step for moment in near for step in (-1, 0, 1, 2)} if 0 < moment < last)

    def unsafe(self, parts):
        """What isn't safe at some moment `m / parts`, or None."""
        inst, last = self.inst, None
        for m in range(parts * self.ends + 1):
            at = [self.place(k, m, parts) for k in range(len(inst.cranes))]
            for v, w in itertools.combinations(range(len(at)), 2):
                if at[w] - at[v] < parts * inst.travel * inst.gap * (w - v):
                    return f"cranes {v} and {w} at {m}/{parts}"
            for crane, bay, start, end in self.jobs:
                if parts * start <= m <= parts * end and at[crane] != parts * inst.travel * bay:
                    return f"crane {crane} isn't at its task at {m}/{parts}"
            for k, data in enumerate(inst.cranes):
                if m <= parts * data.ready and at[k] != parts * inst.travel * data.bay:
                    return f"crane {k} isn't at its berth at {m}/{parts}"
                if last and abs(at[k] - last[k]) > 1:
                    return f"crane {k} is too fast at {m}/{parts}"
            last = at
        return None


def half(number):
    """Half of a whole number in print."""
    return ("-" if number < 0 else "") + f"{abs(number) // 2}" + (".5" if number % 2 else "")


def free_crane_lines(inst, plan):
    motion = FreeMotion(inst, plan)
    return [f"crane {crane.name}" + "".join(f" {half(at)}:{half(place)}" for at, place in motion.waypoints(k))
            for k, crane in enumerate(inst.cranes)]


# ---------------------------------------------------------------- reports

def free_report(inst, given, nodes, step=3):
    """Status and report of a search in any direction that begins with this feasible plan, or with none; its plan, or
    None, and the lines of its tree."""
    start = tight_free(inst, given) if given is not None else None
    search = FreeSearch(inst, NEVER if start is None else end_of(inst, start), nodes, step)
    plan = start if search.met is None else search.met
    lines, status = [search.kind], {"Optimal": 0, "Infeasible": 10, "Budget": 12 if plan is None else 11}[search.kind]
    if plan is not None:
        lines.append(f"end {search.best}")
    if search.kind != "Infeasible":
        lines.append(f"bound {search.value}")
    lines.append(f"branched {search.branched}")
    if plan is not None:
        lines.append(f"given {'none' if start is None else end_of(inst, start)}")
        lines += free_crane_lines(inst, plan)
    return status, lines, plan, search.lines


def freecheck_report(inst, data, tree):
    """Status and report on a plan's file, or None for `-`, with a tree."""
    if data is not None:
        plan, fault = read_plan(inst, data)
        if fault:
            return 8, [f"BadPlan {fault[0]} {fault[1]}"]
        broken = first_break(inst, plan)
        if broken:
            return 13, [" ".join(["Broken", broken[0]] + [inst.tasks[j].name for j in broken[1:]])]
    try:
        value = FreeReader(inst, tree).read().value
    except TreeFault as fault:
        return 7, [f"BadTree {fault.kind} {fault.line}"]
    if data is None:
        return (10, ["Infeasible"]) if value == NEVER else (0, [f"Bound {value}"])
    ends = end_of(inst, plan)
    word, status = ("Optimal", 0) if value >= ends else ("Weaker", 14)
    return status, [word, f"end {ends}", f"bound {bound_text(value)}"]


def main():
    command, *paths = sys.argv[1:]
    nodes = int(paths.pop(2)) if command == "free" else 0
    ship, stow, *files = [None if path == "-" else open(path, "rb").read() for path in paths]
    inst = instance_of(read_ship(ship), stow)
    plan = read_plan(inst, files[0])[0] if files and files[0] is not None else None
    if command == "free":
        status, lines, best, tree = free_report(inst, plan, nodes)
        lines += ([] if best is None else plan_text(inst, best).splitlines()) + tree
    elif command == "tracks":
        status, lines = 0, free_crane_lines(inst, plan)
    else:
        status, lines = freecheck_report(inst, files[0], files[1])
    print("\n".join(lines))
    sys.exit(status)


if __name__ == "__main__":
    main()
