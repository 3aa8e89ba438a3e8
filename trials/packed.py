#!/usr/bin/env python3
"""Tries leaf `Q` of the second opinion by brute force, and the search in C++ beside one in Python.

    packed.py rows
    packed.py bounds [--first SEED] [--count SHIPS]
    packed.py side SIDE [--first SEED] [--count SHIPS] [--wide]

`rows`: trees with values and faults that were worked out by hand. `bounds`: on random ships of at most five tasks, no
packed list says more than the least end of all schedules that keep the rules, one way or not, with the cranes that the
node has given; nor does a random tree say more than the least end of all that go one way. `side`: SIDE is
`bench/side.cpp`, built; on random ships, with no plan to begin with, the best or one that ends later, with several
numbers of branchings, and counting as much as now or as in an earlier step, it must find the end, bound and number of branchings that the search below finds, and the end must
be the least of all where it says so; the tree that it writes must be one that such a search may write. With `--wide` the
ships have 8 to 18 tasks, and the least end isn't known. Status 1 where anything differs.
"""
import argparse
import itertools
import random
import subprocess
import sys
import tempfile
from collections import Counter
from pathlib import Path

sys.dont_write_bytecode = True

from faults import is_ring
from judges import SearchJudge
from reference import (NEVER, Node, TreeFault, TreeReader, bound_text, breaks_up, check_report, dump, instance_of,
                       least_end, least_starts, read_ship, without_releases)
from ships import Maker, mended, random_part, text_of


# ---------------------------------------------------------------- rows by hand

SHIP = """hatches = [2, 6, 10, 14]
margin = 1
travel = 1
deck_move = 10
hold_move = 10
[[crane]]
name = "C1"
bay = 1
[[crane]]
name = "C2"
bay = 3
"""
WIDE = """hatches = [2, 6]
places = [100, 260]
clear = 250
travel = 1
deck_move = 1000
hold_move = 1000
[[crane]]
name = "C1"
bay = 100
[[crane]]
name = "C2"
bay = 400
"""


def moves(**counts):
    """A list with so many moves off the deck of each hatch."""
    rows = [f"{hatch}{i},D,{int(hatch[1:]):02}00{82 + 2 * i},40" for hatch, count in counts.items()
            for i in range(count)]
    return "\n".join(["id,move,cell,length"] + rows) + "\n"


def tree(up, down=None, end="0 0", title=3):
    return f"QCTREE {title}\nup\n{up}\ndown\n{up if down is None else down}\nend {end}\n"


NEAR, FAR = moves(h2=2, h6=2), moves(h2=2, h14=3)
ROWS = [
    # Hatches 2 and 6, at bays 1 and 2, are too near for two cranes, whichever they are: 20 and 20 and a tick between.
    (SHIP, NEAR, tree("Q 1 2", end="0 41"), "Bound 41"),
    (SHIP, NEAR, tree("Q 2 1", "Q 1 2", end="0 41"), "Bound 41"),
    (SHIP, NEAR, tree("Q 1", "Q 1 2", end="0 41"), "BadTree Counts 6"),
    (SHIP, NEAR, tree("Q 1", "Q 1 2", end="0 20"), "Bound 20"),
    (SHIP, NEAR, tree("Q 1 1", "Q 1 2", end="0 41"), "BadTree NotClash 3"),
    (SHIP, NEAR, tree("Q 1 3", "Q 1 2", end="0 41"), "BadTree UnknownTask 3"),
    (SHIP, NEAR, tree("Q 1 1 3", "Q 1 2", end="0 41"), "BadTree UnknownTask 3"),
    (SHIP, NEAR, tree("Q", "Q 1 2", end="0 41"), "BadTree Spelling 3"),
    (SHIP, NEAR, tree("Q 01", "Q 1 2", end="0 41"), "BadTree Spelling 3"),
    (SHIP, NEAR, tree("Q" + " 1" * 241, "Q 1 2", end="0 41"), "BadTree Spelling 3"),
    (SHIP, NEAR, tree("Q" + " 1" * 240, "Q 1 2", end="0 41"), "BadTree NotClash 3"),
    (SHIP, NEAR, tree("Q 1 2", end="0 41", title=1), "BadTree Spelling 1"),
    (SHIP, NEAR, tree("Q 1 2", end="0 41", title=2), "BadTree Spelling 1"),
    (SHIP, NEAR, tree("Q 1 2", end="0 41", title=4), "BadTree Spelling 1"),
    (SHIP, NEAR, "QCTREE 3\nQ 1 2\n", "BadTree Place 2"),
    (SHIP, NEAR, "QCTREE 3\nup\nQ 1 2\nQ 1 2\n", "BadTree Place 4"),
    (SHIP, NEAR, "QCTREE 3\nup\nQ 1 2\ndown\nQ 1 2\nQ 1 2\n", "BadTree Place 6"),
    (SHIP, NEAR, tree("Q 1 2", end="0 41") + "Q 1 2\n", "BadTree After 7"),
    # A crane for each task: upward the first one, on the lower crane, goes last.
    (SHIP, NEAR, tree("A 1\nA 2\nQ 1 2\nQ 2 1\nA 2\nQ 1 2\nQ 1 2", "Q 1 2", end="3 41"), "Bound 41"),
    # As seen from the first crane hatch 2 lies at 100 or -150, hatch 6 at 260 or 10: 90 is the least between two.
    (WIDE, NEAR, tree("Q 1 2", end="0 4090"), "Bound 4090"),
    # Bays 1 and 4 leave room for two cranes; that the tasks may not run together makes no clash.
    (SHIP, FAR, tree("Q 1 2", end="0 51"), "BadTree NotClash 3"),
    ("apart = [[2, 14]]\n" + SHIP, FAR, tree("Q 1 2", end="0 51"), "BadTree NotClash 3"),
    # Nor has a task in no crane's reach a place in a list; one out of its crane's reach has.
    (SHIP.replace("bay = 1", "bay = 1\nto = 1").replace("bay = 3", "bay = 3\nto = 1"), moves(h6=1),
     tree("Q 1", end="0 10"), "BadTree NotClash 3"),
    (SHIP.replace("bay = 1", "bay = 1\nto = 1").replace("bay = 3", "bay = 3\nto = 1"), moves(h6=1),
     tree("A 1\nX\nQ 1", "A 1\nX\nX", end="2 11"), "Bound 11"),
]


def try_rows():
    wrong = 0
    for ship, stow, text, due in ROWS:
        inst = instance_of(read_ship(ship.encode()), stow.encode())
        seen = check_report(inst, None, text.encode())[1][0]
        if seen != due:
            wrong += 1
            print(f"{text!r}: {seen}, due {due}")
    print(f"{len(ROWS)} rows, {wrong} otherwise than by hand")
    return wrong


# ---------------------------------------------------------------- brute force

def random_instance(rng, most, wide=False):
    """An instance of at most so many tasks, but at least one."""
    while True:
        maker = Maker(rng, wide)
        maker.tasks = min(maker.tasks, most)
        inst = instance_of(read_ship(maker.ship().encode()), maker.stowage().encode())
        if inst.tasks and not is_ring(len(inst.tasks), inst.before):
            return inst


def least_feasible_end(inst, given, best=NEVER):
    """The least end of all schedules, one way or not, in which each task has the crane that is given, if one is; `best`
    where none ends before that."""
    choices = [[crane] if crane is not None else range(len(inst.cranes)) for crane in given]
    for cranes in itertools.product(*choices):
        if all(inst.reaches(crane, j) for j, crane in enumerate(cranes)):
            heads = [inst.free_from(j, crane) for j, crane in enumerate(cranes)]
            rest = {(i, j): inst.travel * abs(inst.tasks[i].bay - inst.tasks[j].bay) if cranes[i] == cranes[j]
                    else inst.distance(i, cranes[i], j, cranes[j])
                    for i, j in itertools.combinations(range(len(cranes)), 2)}
            rest = {pair: ticks for pair, ticks in rest.items()
                    if cranes[pair[0]] == cranes[pair[1]] or ticks > 0 or pair in inst.apart}
            best = least_order(inst, cranes, heads, [(i, j, inst.tasks[i].ticks) for i, j in inst.before], rest, best)
    return best


def least_order(inst, cranes, heads, arcs, rest, best):
    """The least end below `best` over all orders of the pairs of which one must end so many ticks before the other."""
    starts = least_starts(inst, heads, arcs, best)
    if starts is None:
        return best
    for (i, j), ticks in rest.items():
        ends = [starts[i] + inst.tasks[i].ticks + ticks, starts[j] + inst.tasks[j].ticks + ticks]
        if starts[j] < ends[0] and starts[i] < ends[1]:
            for first, second in ((i, j), (j, i)):
                arc = first, second, inst.tasks[first].ticks + ticks
                best = least_order(inst, cranes, heads, arcs + [arc], rest, best)
            return best
    broken = next(breaks_up(inst, list(zip(cranes, starts))), ("OneWay",))
    assert broken[0] == "OneWay", broken
    return max((start + task.ticks for start, task in zip(starts, inst.tasks)), default=0)


def random_node(inst, rng):
    node = Node(inst)
    for j in rng.sample(range(len(inst.tasks)), rng.randint(0, len(inst.tasks))):
        node = node.child("A", j, rng.choice(node.may(j) or [0]) if rng.random() < 0.95 else rng.randrange(
            len(inst.cranes)))
    return node


def widest(node, tasks):
    """The least width by trying every choice of one crane for each task."""
    places = [[node.inst.tasks[j].bay - node.inst.gap * crane for crane in node.may(j)] for j in tasks]
    return min(max(choice) - min(choice) for choice in itertools.product(*places))


def try_bounds(first, count):
    counts, wrong = Counter(), 0
    for seed in range(first, first + count):
        rng = random.Random(seed)
        inst = random_instance(rng, 5)
        for seen in (inst, inst.mirror):
            for _ in range(3):
                node = random_node(seen, rng)
                end = least_feasible_end(seen, node.crane)
                counts["nodes"] += 1
                counts["nodes without a schedule"] += end == NEVER
                for size in range(1, len(seen.tasks) + 1):
                    for tasks in itertools.combinations(range(len(seen.tasks)), size):
                        value = node.packed_value(tasks)
                        counts["lists that aren't packed"] += value is None
                        if value is None:
                            continue
                        counts["packed lists"] += 1
                        counts["packed lists that say the least end itself"] += value == end
                        counts["packed lists of two tasks or more"] += size > 1
                        counts["packed lists whose places are apart"] += node.span(tasks) > 0
                        if value > end or node.span(tasks) != widest(node, tasks):
                            wrong += 1
                            print(f"seed {seed}: {node.decisions} {tasks} says {value}, least end {end}")
        wrong += try_random_tree(inst, rng, seed, counts)
    for what, number in sorted(counts.items()):
        print(f"{number:9} {what}")
    print(f"{wrong} differences")
    return wrong


def try_random_tree(inst, rng, seed, counts):
    """Whether a random tree with lists says more than the least end of all schedules that go one way."""
    lines = ["QCTREE 3", "up"]
    random_part(Node(inst), lines, rng)
    lines.append("down")
    random_part(Node(inst.mirror), lines, rng)
    try:
        reader = TreeReader(inst, mended(inst, text_of(lines + ["end 0 0"]))).read()
    except TreeFault as fault:
        counts[f"random trees with the fault {fault.kind}"] += 1
        return 0
    least = least_end(inst)
    counts["random trees without a fault"] += 1
    counts["random trees that say the least end itself"] += reader.value == least
    if reader.value <= least:
        return 0
    print(f"seed {seed}: a tree says {reader.value}, least end {least}: {lines}")
    return 1


# ---------------------------------------------------------------- the search

class Search:
    """The search that writes trees, plain and slow. `step`: how much the counts of its nodes know."""

    def __init__(self, inst, given, nodes, step=3):
        self.inst, self.nodes, self.best = inst, nodes, given
        self.value, self.branched = NEVER, 0
        self.lines = ["QCTREE 3", "up"]
        self.visit(Node(inst, step=step))
        self.lines.append("down")
        self.visit(Node(inst.mirror, step=step))
        self.lines.append(f"end {self.branched} {bound_text(self.value)}")

    @property
    def kind(self):
        if self.value == NEVER:
            return "Infeasible"
        return "Optimal" if self.value >= self.best else "Budget"

    def visit(self, node):
        leaf = self.closing(node)
        if leaf is None and self.branched < self.nodes:
            self.branched += 1
            decision = self.decision(node)
            self.lines.append(" ".join([decision[0]] + [str(j + 1) for j in decision[1:]]))
            if decision[0] == "A":
                children = [node.child("A", decision[1], crane) for crane in range(len(self.inst.cranes))]
            else:
                children = [node.child("O", i, j) for i, j in (decision[1:], decision[:0:-1])]
            for child in children:
                self.visit(child)
            return
        ways = [leaf]
        if leaf is None:
            ways = [self.chain(node), (node.work_bound, f"W {node.work_bound}")] + self.lists(node)
        value, line = max(ways, key=lambda way: way[0])
        self.lines.append(line)
        self.value = min(self.value, value)

    def closing(self, node):
        """The leaf that closes the node, or None."""
        if node.is_out_of_reach():
            return NEVER, "X"
        if node.starts is None:
            return NEVER, "C" + "".join(f" {j + 1}" for j in ring_of(node))
        if node.is_complete():
            self.best = min(self.best, node.end)
            return self.chain(node)
        if node.end >= self.best:
            return self.chain(node)
        for value, line in self.lists(node):
            if value >= self.best:
                return value, line
        if self.best < NEVER and node.work_holds(max(1, self.best)):
            return self.best, f"W {self.best}"
        return None

    def lists(self, node):
        return lists_of(node)

    def chain(self, node):
        """A chain of the node's end."""
        if not node.crane:
            return 0, "P"
        j = max(range(len(node.crane)), key=lambda j: node.starts[j] + node.inst.tasks[j].ticks)
        chain = [j]
        while node.starts[chain[0]] > node.head(chain[0]):
            chain.insert(0, next(i for i, j, ticks in node.arcs if j == chain[0]
                                 and node.starts[i] + ticks == node.starts[j]))
        return node.end, "P" + "".join(f" {j + 1}" for j in chain)

    def decision(self, node):
        """The lowest task without a crane; else the pair of apart tasks whose order tells most."""
        if None in node.crane:
            return "A", node.crane.index(None)
        inst, starts = node.inst, node.starts
        ends = [start + task.ticks for start, task in zip(starts, inst.tasks)]
        pairs = [pair for pair in inst.apart if not node.is_settled(*pair)]
        overlapping = [(i, j) for i, j in pairs if starts[i] < ends[j] and starts[j] < ends[i]]

        def rank(pair):
            reaching = [least >= self.best for least in (order_end(node, *pair), order_end(node, *reversed(pair)))]
            return -sum(reaching), max(starts[pair[0]], starts[pair[1]]), pair

        return "O", *min(overlapping or pairs, key=rank)


def order_end(node, i, j):
    """What ends no earlier where task i is before task j: Never where j leads to i, else the chain through both."""
    later = longest_from(node, j)
    if i in later:
        return NEVER
    tail = max(length + node.inst.tasks[k].ticks for k, length in later.items())
    return node.starts[i] + node.inst.tasks[i].ticks + tail


def longest_from(node, j):
    """Each task to which arcs lead from j, with the longest way to its start from that of j."""
    longest = {j: 0}
    for _ in node.crane:
        for i, k, ticks in node.arcs:
            if i in longest and longest[i] + ticks > longest.get(k, -1):
                longest[k] = longest[i] + ticks
    return longest


def lists_of(node):
    """The packed lists that are tried at a node, each with its value and its line: from each bay on all tasks nearer
    than the gap; and these with what the outermost cranes have been given beyond."""
    inst, last, found = node.inst, len(node.inst.cranes) - 1, []
    bays = [task.bay for task in inst.tasks]
    for bay in sorted(set(bays)):
        near = [j for j in range(len(bays)) if bay <= bays[j] < bay + inst.gap]
        more = [j for j in range(len(bays)) if j in near or node.crane[j] == 0 and bays[j] >= bay
                or node.crane[j] == last and bays[j] < bay + inst.gap]
        for tasks in (near, more):
            value = node.packed_value(tasks)
            if value is not None:
                found.append((value, "Q" + "".join(f" {j + 1}" for j in tasks)))
    return found


def ring_of(node):
    """A ring of the node's arcs."""
    after = {j: [k for i, k, _ in node.arcs if i == j] for j in range(len(node.crane))}
    while any(not heads for heads in after.values()):
        ends = {j for j, heads in after.items() if not heads}
        after = {j: [k for k in heads if k not in ends] for j, heads in after.items() if j not in ends}
    ring = [min(after)]
    while after[ring[-1]][0] not in ring:
        ring.append(after[ring[-1]][0])
    return ring[ring.index(after[ring[-1]][0]):]


# ---------------------------------------------------------------- the search in C++

def bare(lines):
    """The lines without the tasks of their leaves."""
    return [line[:1] if line[0] in "PCQ" and line[:2] != "QC" else line for line in lines]


def givens(inst, least, rng):
    """Ends of plans to begin with, or none."""
    if least is None:
        least = Search(inst, NEVER, 40).best
    return [None] if least == NEVER else [None, least, least + rng.randint(1, 30)]


def try_side(side, first, count, wide):
    counts, wrong = Counter(), 0
    with tempfile.TemporaryDirectory(prefix="packed-") as folder:
        numbers, written = Path(folder, "numbers"), Path(folder, "tree")
        for seed in range(first, first + count):
            rng = random.Random(seed)
            inst = without_releases(random_instance(rng, 18 if wide else 6, wide))
            numbers.write_text("\n".join(dump(inst)) + "\n")
            least = None if wide else least_end(inst)
            for nodes in (0, 1, rng.randint(2, 40), 150 if wide else 20_000):
                for given in givens(inst, least, rng):
                    step = rng.choice((1, 2, 3, 3))
                    search = Search(inst, NEVER if given is None else given, nodes, step)
                    due = [search.kind, f"end {'none' if search.best == NEVER else search.best}",
                           f"bound {bound_text(search.value)}", f"branched {search.branched}"]
                    words = [side, "--step", str(step), numbers, "none" if given is None else str(given), str(nodes),
                             written]
                    done = subprocess.run(words, capture_output=True, text=True, timeout=60, check=False)
                    judge = SearchJudge(inst, nodes, given)
                    try:
                        TreeReader(inst, written.read_bytes(), judge.visit, step=step).read()
                        told = judge.complaints
                    except TreeFault as fault:
                        told = [f"{fault.kind} {fault.line}"]
                    counts[f"runs: {search.kind}"] += 1
                    counts["branchings on a pair"] += sum(line[0] == "O" for line in search.lines)
                    counts["nodes"] += judge.branched + judge.leaves.total()
                    for kind, number in judge.leaves.items():
                        counts[f"leaves {kind}"] += number
                    same = bare(search.lines) == bare(written.read_text().splitlines())
                    best = wide or search.kind == "Budget" or min(search.best, search.value) == least
                    if done.stdout.splitlines()[:4] != due or told or not (same and best):
                        wrong += 1
                        print(f"seed {seed}, given {given}, {nodes} branchings, step {step}: {done.stdout.split()}, due {due}; "
                              f"least end {least}; {told[:2]}", flush=True)
    for what, number in sorted(counts.items()):
        print(f"{number:9} {what}")
    print(f"{wrong} differences")
    return wrong


def main():
    parser = argparse.ArgumentParser(description="leaf Q by brute force, and the search in C++ beside one in Python")
    parser.add_argument("what", choices=("rows", "bounds", "side"))
    parser.add_argument("side", nargs="?")
    parser.add_argument("--first", type=int, default=1)
    parser.add_argument("--count", type=int, default=300)
    parser.add_argument("--wide", action="store_true")
    words = parser.parse_args()
    if words.what == "rows":
        wrong = try_rows()
    elif words.what == "bounds":
        wrong = try_bounds(words.first, words.count)
    else:
        wrong = try_side(words.side, words.first, words.count, words.wide)
    sys.exit(1 if wrong else 0)


if __name__ == "__main__":
    main()
