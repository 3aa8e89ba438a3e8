#!/usr/bin/env python3
"""Tries the second opinion of plans that go to and fro (free.py), and beside it a search in C++.

    freely.py rows
    freely.py bounds [--first SEED] [--count SHIPS] [--short]
    freely.py side SIDE [--first SEED] [--count SHIPS] [--wide]

`rows`: plans, trees, faults and tracks that were worked out by hand. `bounds`: on random ships of at most five tasks
and four cranes the search in any direction comes to the least end of all feasible plans, by trying every choice and
every order; what it writes is what such a search may write; no tree says more than the least end, and no node is closed
at more than that of all plans with its cranes; the motion is safe at each third of a tick. `side`: the search of
`bench/side.cpp` finds what the one here finds, by the same nodes. Status 1 where anything differs.
The program itself is tried by compare.py.
"""
import argparse
import itertools
import random
import subprocess
import sys
import tempfile
from collections import Counter
from pathlib import Path

sys.dont_write_bytecode = True

from closed import Ends, closed_ends, made, tiny
from free import (FreeMotion, FreeNode, FreeReader, FreeSearch, first_break, free_crane_lines, free_lists, free_report,
                  freecheck_report, numbers_of, tight_free)
from judges import SearchJudge
from packed import Search, bare, least_feasible_end, random_instance, random_node, ring_of
from reference import (NEVER, PHASES, Crane, Instance, Task, TreeFault, are_short, bound_text, counts_of, dump, end_of,
                       instance_of, least_end, plan_text, read_plan, read_ship, without_releases)
from ships import text_of


# ---------------------------------------------------------------- rows by hand

B = """hatches = [2, 6, 10, 14]
margin = 1
travel = 1
deck_move = 10
hold_move = 10
"""
C1 = '[[crane]]\nname = "C1"\nbay = 1\n'
C2 = '[[crane]]\nname = "C2"\nbay = 3\n'
SWAP = ["X,D,020082,40", "Y,D,060082,40", "X,L,060082,40", "Y,L,020082,40"]  # hatches 2 and 6 change a container


def of(ship_text, rows):
    text = "\n".join(["id,move,cell,length"] + rows) + "\n"
    return instance_of(read_ship(ship_text.encode()), text.encode())


def changes(*pairs):
    """Two hatches of each pair change a container, and each has one more to discharge and one to load."""
    return [row for a, b in pairs for h, other in ((a, b), (b, a))
            for row in (f"R{h},D,{h:02}0082,40", f"D{h},D,{h:02}0084,40", f"R{other},L,{h:02}0082,40",
                        f"L{h},L,{h:02}0084,40")]


def deck(**counts):
    """So many moves off the deck of each hatch."""
    return [f"{hatch}{i},D,{int(hatch[1:]):02}00{82 + 2 * i},40" for hatch, count in counts.items()
            for i in range(count)]


ALONE = of(B.replace("[2, 6, 10, 14]", "[2, 6]") + C1, deck(h2=2, h6=1))
NONE = of(B + C1 + C2, [])
FAR = of(B + C1 + C2, deck(h2=2, h14=3))
NEAR = of(B + C1 + C2, deck(h2=2, h6=2))
NEAR_ALONE = of(B + C1, deck(h2=2, h6=2))
# Two cranes begin amidships and work towards bow and stern: each works 20, goes a bay in 5 and works 20. Two tasks each
# take no less. Upward hatch 2 is begun at 5 at the earliest, and its crane has another task behind it, which ends at 50
# at the earliest; downward the same is true of hatch 18.
AMIDSHIPS = of("""hatches = [2, 6, 10, 14, 18]
margin = 1
travel = 5
deck_move = 10
hold_move = 10
""" + C1.replace("bay = 1", "bay = 2") + C2.replace("bay = 3", "bay = 4"), deck(h2=2, h6=2, h14=2, h18=2))
APART = of("apart = [[2, 14]]\n" + B + C1 + C2, deck(h2=2, h14=3))
OUT = of(B + C1 + "from = 1\nto = 1\n", deck(h6=1))
SWAPPED = of('restows = "ordered"\n' + B + C1, SWAP)
UNTIED = of(B + C1, SWAP)
# Each crane discharges two hatches and loads them on the way back: four times 20, and a bay there and back, 82. Five
# tasks take longer, so each has four; a crane that goes one bay alone does a hatch and then its neighbour, which don't
# change a container: 6 and 10, and 2 and 14 are three bays apart. One way it takes 104, by trying every choice.
CHANGED = of('restows = "ordered"\n' + B + C1 + C2, changes((2, 6), (10, 14)))
PHASED = of("cover = 5\n" + B + C1, ["a,D,020082,40", "b,D,020002,40", "c,L,020002,40", "d,L,020082,40"])
TURNED = of(B + C1, ["a,D,020082,40", "b,D,100082,40", "c,L,100082,40"])

SWAP_PLAN = "task,crane,start,end\n2-DD,C1,0,10\n2-LD,C1,32,42\n6-DD,C1,11,21\n6-LD,C1,21,31\n"

# Ships, the end of a plan to begin with, branchings, and what the report says before the crane lines.
SEARCHES = [
    ("one crane, two hatches: 20, a tick, 10", ALONE, None, 100, 0, ["Optimal", "end 31", "bound 31"]),
    ("no task", NONE, None, 100, 0, ["Optimal", "end 0", "bound 0", "branched 0"]),
    ("two hatches far apart", FAR, None, 20_000, 0, ["Optimal", "end 31", "bound 31"]),
    ("two hatches too near: 20, a tick, 20", NEAR, None, 20_000, 0, ["Optimal", "end 41", "bound 41"]),
    ("apart: 20 and 30", APART, None, 20_000, 0, ["Optimal", "end 50", "bound 50"]),
    ("out of reach", OUT, None, 100, 10, ["Infeasible", "branched 1"]),
    ("a change that no way of one direction does", SWAPPED, None, 20_000, 0, ["Optimal", "end 42", "bound 42"]),
    ("the same without branchings", SWAPPED, None, 0, 12, ["Budget", "bound 41", "branched 0"]),
    ("the same, not ordered", UNTIED, None, 20_000, 0, ["Optimal", "end 41", "bound 41"]),
    ("two cranes amidships", AMIDSHIPS, None, 20_000, 0, ["Optimal", "end 45", "bound 45"]),
    ("hatches that change a container", CHANGED, None, 20_000, 0, ["Optimal", "end 82", "bound 82"]),
    ("four phases", PHASED, None, 20_000, 0, ["Optimal", "end 50", "bound 50"]),
]

ROOM = "QCFREE 1\nA 1\nA 2\nO 1 2\nP 1 2\nP 2 1\nP 2\nA 2\nP 1\nQ 1 2\nend 4 %s\n"  # both tasks of NEAR get cranes
TREES = [
    (NEAR, "QCFREE 1\nQ 1 2\nend 0 41\n", "Bound 41"),
    (NEAR, "QCFREE 1\nQ 2 1\nend 0 41\n", "Bound 41"),
    (NEAR, "QCFREE 1\nP 2\nend 0 21\n", "Bound 21"),
    (NEAR, "QCFREE 1\nP\nend 0 0\n", "Bound 0"),
    (NEAR, "QCFREE 1\nW 21\nend 0 21\n", "Bound 21"),
    (OUT, "QCFREE 1\nA 1\nX\nend 1 never\n", "Infeasible"),
    # Both on C1 end at 41 or, begun at hatch 6, at 42; apart from the second the heads are 0 or 2, and 1.
    (NEAR, ROOM % 21, "Bound 21"),
    (NEAR, ROOM.replace("P 2\n", "Q 1 2\n").replace("P 1\n", "Q 1 2\n") % 41, "Bound 41"),
    (NEAR, "QCFREE 1\nQ 1\nend 0 41\n", "BadTree Counts 3"),
    (NEAR, "QCFREE 1\nQ 1\nend 0 20\n", "Bound 20"),
    (NEAR, "QCFREE 1\nQ 1 2\nend 1 41\n", "BadTree Counts 3"),
    (NEAR, "QCFREE 1\nQ 1 2\nend 0 never\n", "BadTree Counts 3"),
    (NEAR, "QCFREE 1\nQ 1 1\nend 0 41\n", "BadTree NotClash 2"),
    (FAR, "QCFREE 1\nQ 1 2\nend 0 51\n", "BadTree NotClash 2"),
    (APART, "QCFREE 1\nQ 1 2\nend 0 51\n", "BadTree NotClash 2"),
    (OUT, "QCFREE 1\nQ 1\nend 0 10\n", "BadTree NotClash 2"),      # no crane may do it
    (OUT, "QCFREE 1\nA 1\nQ 1\nend 0 11\n", "BadTree NotClash 3"),  # its crane doesn't reach it
    (OUT, "QCFREE 1\nA 1\nP 1\nend 1 11\n", "Bound 11"),
    (NEAR, "", "BadTree Cut 1"),
    (NEAR, "QCFREE 1\nQ 1 2\n", "BadTree Cut 3"),
    (NEAR, "QCFREE 1\nQ 1 2\nend 0 41", "BadTree Cut 3"),
    (NEAR, "QCFREE 1\nP" + " 1" * 599 + "\n", "BadTree Spelling 2"),
    (NEAR, "QCFREE 1\nP" + " 1" * 600, "BadTree LineTooLong 2"),
    (NEAR, "QCFREE 1\nQ 1 2\nend 0 41\n\n", "BadTree After 4"),
    (NEAR, "QCFREE 1\nQ 1 2\nend 0 41\nQ", "BadTree After 4"),
    (NEAR, "QCFREE 1\nQ 1 2\nend 0 42\nQ", "BadTree Counts 3"),
    (NEAR, "QCFREE 2\nQ 1 2\nend 0 41\n", "BadTree Spelling 1"),
    (NEAR, "QCTREE 3\nQ 1 2\nend 0 41\n", "BadTree Spelling 1"),
    (NEAR, "QCFREE 1\nup\nQ 1 2\nend 0 41\n", "BadTree Spelling 2"),
    (NEAR, "QCFREE 1\nQ 1 2\ndown\n", "BadTree Spelling 3"),
    (NEAR, "QCFREE 1\nQCTREE 3\n", "BadTree Spelling 2"),
    (NEAR, "QCFREE 1\nQ\n", "BadTree Spelling 2"),
    (NEAR, "QCFREE 1\nP 01\n", "BadTree Spelling 2"),
    (NEAR, "QCFREE 1\nW 0\n", "BadTree Spelling 2"),
    (NEAR, "QCFREE 1\nC 1\n", "BadTree Spelling 2"),
    (NEAR, "Q 1 2\n", "BadTree Place 1"),
    (NEAR, "QCFREE 1\nQCFREE 1\n", "BadTree Place 2"),
    (NEAR, "QCFREE 1\nend 0 never\n", "BadTree Place 2"),
    (NEAR, "QCFREE 1\nQ 1 2\nQ 1 2\n", "BadTree Place 3"),
    (NEAR, "QCFREE 1\nA 3\n", "BadTree UnknownTask 2"),
    (NEAR, "QCFREE 1\nO 0 1\n", "BadTree UnknownTask 2"),
    (NEAR, "QCFREE 1\nQ 1 1 3\n", "BadTree UnknownTask 2"),
    (NEAR, "QCFREE 1\nO 1 2\n", "BadTree NotConflict 2"),           # none has a crane, and they aren't apart
    (NEAR, "QCFREE 1\nA 1\nA 2\nO 2 1\n", "BadTree NotConflict 4"),
    (NEAR, "QCFREE 1\nA 1\nA 2\nO 1 1\n", "BadTree NotConflict 4"),
    (FAR, "QCFREE 1\nA 1\nA 2\nP\nO 1 2\n", "BadTree NotConflict 5"),  # C1 at bay 1 and C2 at bay 4
    (APART, "QCFREE 1\nO 1 2\nP 1 2\nP 2 1\nend 1 50\n", "Bound 50"),  # before any crane; 20 after 1 or 0
    (APART, "QCFREE 1\nO 2 1\n", "BadTree NotConflict 2"),
    (APART, "QCFREE 1\nO 1 2\nO 1 2\n", "BadTree Decided 3"),
    (NEAR, "QCFREE 1\nA 1\nA 1\n", "BadTree Decided 3"),
    (NEAR, "QCFREE 1\nA 1\nA 2\nO 1 2\nO 1 2\n", "BadTree Decided 5"),
    (PHASED, "QCFREE 1\nA 1\nA 2\nO 1 2\n", "BadTree Decided 4"),   # the phases of a hatch have an order
    (SWAPPED, "QCFREE 1\nO 2 1\n", "BadTree NotConflict 2"),        # no conflict before what is settled
    (NEAR, "QCFREE 1\nP 1 2\n", "BadTree NotForced 2"),
    (NEAR, "QCFREE 1\nA 1\nA 2\nP 1 2\n", "BadTree NotForced 4"),   # upward this would be forced
    (NEAR, "QCFREE 1\nC 1 2\n", "BadTree NotCycle 2"),
    (PHASED, "QCFREE 1\nC 1 2\n", "BadTree NotCycle 2"),
    (NEAR, "QCFREE 1\nX\n", "BadTree InReach 2"),
    (APART, "QCFREE 1\nA 1\nX\n", "BadTree InReach 3"),
    (NEAR, "QCFREE 1\nW 22\n", "BadTree WorkShort 2"),
]

# 2-DD, 6-DD and 10-DD on C1, each before the next and the last before the first.
RING = of(B + C1, deck(h2=1, h6=1, h10=1))
AROUND = "QCFREE 1\nA 1\nA 2\nA 3\nO 1 2\nO 1 3\nP\nO 2 3\n%s\n"
TREES += [(RING, AROUND % "C 1 2 3\nP\nP\nend 6 0", "Bound 0"), (RING, AROUND % "C 2 3 1\nP\nP\nend 6 0", "Bound 0"),
          (RING, AROUND % "C 3 2 1", "BadTree NotCycle 9"), (RING, AROUND % "Q 1 2 3", "BadTree NotClash 9"),
          (RING, AROUND % "P 1 2 3\nP\nP\nend 6 0", "Bound 0"),
          (RING, AROUND % "P 3 1 2 3 1\nP\nP\nend 6 0", "Bound 0")]
# What a wrong count would take: the turn of one way, a way that always comes back, a grain that leaves out ready times.
AMIDST = made(1, 1, (3,), [(1, 37), (2, 8)], 2)
TREES += [(AMIDST, "QCFREE 1\nA 1\nA 2\nW 47\nend 2 47\n", "Bound 47"),
          (AMIDST, "QCFREE 1\nA 1\nA 2\nW 48\n", "BadTree WorkShort 4"),
          (NEAR_ALONE, "QCFREE 1\nA 1\nA 2\nW 41\nend 2 41\n", "Bound 41"),
          (NEAR_ALONE, "QCFREE 1\nA 1\nA 2\nW 42\n", "BadTree WorkShort 4"),
          (made(10, 1, ((1, 3),), [(1, 10)]), "QCFREE 1\nW 13\nend 0 13\n", "Bound 13"),
          (made(10, 1, ((1, 3),), [(1, 10)]), "QCFREE 1\nW 14\n", "BadTree WorkShort 2")]


def try_rows():
    for name, inst, given, nodes, status, due in SEARCHES:
        seen = free_report(inst, given, nodes)
        assert seen[:1] == (status,) and seen[1][:len(due)] == due, (name, seen)
    for inst, text, due in TREES:
        seen = freecheck_report(inst, None, text.encode())[1][0]
        assert seen == due, (text, seen, due)
    try_plans()
    try_tracks()
    print(f"{len(SEARCHES)} searches, {len(TREES)} trees, plans and tracks as by hand")


def try_plans():
    # The change of two containers: the one plan that ends at 42, its track, its tree and a slower plan to begin with.
    status, lines, plan, tree = free_report(SWAPPED, None, 20_000)
    assert status == 0 and lines[4:] == ["given none", "crane C1 0:1 10:1 11:2 31:2 32:1 42:1"]
    assert plan_text(SWAPPED, plan) == SWAP_PLAN and least_end(SWAPPED) == NEVER
    assert freecheck_report(SWAPPED, SWAP_PLAN.encode(), text_of(tree)) == (0, ["Optimal", "end 42", "bound 42"])
    spoilt = text_of(tree[:1] + ["O 2 1"] + tree[2:])
    assert freecheck_report(SWAPPED, SWAP_PLAN.encode(), spoilt) == (7, ["BadTree NotConflict 2"])
    weak = b"QCFREE 1\nP 1 4\nend 0 20\n"
    assert freecheck_report(SWAPPED, SWAP_PLAN.encode(), weak) == (14, ["Weaker", "end 42", "bound 20"])
    own, fault = read_plan(SWAPPED, SWAP_PLAN.replace("32,42", "40,50").encode())
    assert fault is None
    status, lines, plan, _ = free_report(SWAPPED, own, 20_000)
    assert status == 0 and lines[:2] == ["Optimal", "end 42"] and lines[4] == "given 42"
    assert plan_text(SWAPPED, plan) == SWAP_PLAN
    # Begun with a plan of one way that ends at 41 nothing is left to do, and no branching is needed.
    for nodes in (0, 20_000):
        status, lines, _, tree = free_report(NEAR, [(0, 0), (0, 21)], nodes)
        assert status == 0 and lines[:5] == ["Optimal", "end 41", "bound 41", "branched 0", "given 41"]
        assert tree == ["QCFREE 1", "Q 1 2", "end 0 41"] and len(text_of(tree)) == 24
    assert free_report(OUT, None, 100)[3] == ["QCFREE 1", "A 1", "X", "end 1 never"]
    # From amidships each way: the plan and its tracks, and what one way can't do.
    status, lines, plan, _ = free_report(AMIDSHIPS, None, 20_000)
    assert plan == [(0, 25), (0, 0), (1, 0), (1, 25)] and least_end(AMIDSHIPS) == 50
    assert lines[5:] == ["crane C1 0:10 20:10 25:5 45:5", "crane C2 0:20 20:20 25:25 45:25"]
    assert least_end(CHANGED) == 104 and free_report(CHANGED, None, 20_000)[2] == [
        (0, 0), (0, 62), (0, 21), (0, 41), (1, 0), (1, 62), (1, 21), (1, 41)]
    # A plan is tight where the orders that it has leave no start earlier, those of apart tasks too.
    assert tight_free(NEAR, [(0, 5), (1, 40)]) == [(0, 0), (1, 21)]
    assert tight_free(NEAR, [(0, 40), (1, 5)]) == [(0, 22), (1, 1)]
    assert tight_free(APART, [(0, 40), (1, 5)]) == [(0, 31), (1, 1)]


def try_tracks():
    # The crane begins to go away and to come back in the middle, at half a tick and half a bay.
    plan = [(0, 0), (0, 12), (0, 25)]
    assert free_crane_lines(TURNED, plan) == ["crane C1 0:1 10:1 12:3 22:3 23.5:1.5 25:3 35:3"]
    assert free_crane_lines(NONE, []) == ["crane C1 0:1", "crane C2 0:3"]
    # C1 stands at its berth until it is ready, and C2 waits for it.
    late = of(B + C1.replace("bay = 1", "bay = 2\nready = 100") + C2.replace("bay = 3", "bay = 4"), deck(h10=1))
    assert free_crane_lines(late, [(1, 101)]) == ["crane C1 0:2 100:2 101:1 111:1", "crane C2 0:4 100:4 101:3 111:3"]
    # A plan of one way: the crane makes way as late as it may, and here comes back from it.
    assert free_crane_lines(NEAR, [(0, 22), (1, 1)]) == ["crane C1 0:1 1:0 21:0 22:1 42:1",
                                                         "crane C2 0:3 1:2 21:2 22:3 42:3"]


# ---------------------------------------------------------------- brute force

class OneWay(Search):
    """The search in one direction, with the plan that it met last."""

    def __init__(self, inst, nodes):
        self.seen, self.met = inst, None
        super().__init__(inst, NEVER, nodes)

    def closing(self, node):
        before = self.best
        leaf = super().closing(node)
        if self.best < before:
            plan = list(zip(node.crane, node.starts))
            self.met = plan if node.inst is self.seen else self.seen.mirrored(plan)
        return leaf


def try_given(inst, least, counts):
    """Whether a search that begins with a plan of one way keeps what is good of it."""
    met = OneWay(inst, 30).met
    if met is None:
        return
    counts["plans of one way to begin with"] += 1
    ends = end_of(inst, met)
    if tight_free(inst, met) != met:
        yield f"{met} is tight one way, and not in any direction"
    status, lines, plan, _ = free_report(inst, met, 100_000)
    if status or f"given {ends}" not in lines or end_of(inst, plan) != least or (least == ends and plan != met):
        yield f"begun with {met}: {lines}, least end {least}"


def try_ship(inst, rng, least, counts):
    """What is wrong with what is said of the instance, if anything is."""
    upward, root = least_end(inst), FreeNode(inst)
    counts["ships"] += 1
    counts["ships that no plan can do"] += least == NEVER
    counts["ships that only plans to and fro can do"] += least < upward == NEVER
    counts["ships on which to and fro ends earlier"] += least < upward < NEVER
    if least > upward:
        yield f"least end {least}, {upward} one way"
    for given in dict.fromkeys((NEVER, least, upward, least + rng.randint(1, 20))):
        for step in (3, rng.choice((1, 2))):
            search = FreeSearch(inst, given, 100_000, step)
            yield from judge(inst, search, given, least, step, counts)
            if (search.kind, search.best) != (("Infeasible" if least == NEVER else "Optimal"), least):
                yield f"given {given}, step {step}: {search.kind} {search.best}, least end {least}"
            if (search.kind == "Infeasible") == all(root.may(j) for j in range(len(inst.tasks))):
                yield f"{search.kind}, and each task is in reach of a crane or not"
            if search.met:
                yield from judge_plan(inst, search.met, counts)
        for nodes in (0, rng.randint(1, 20)):
            search = FreeSearch(inst, given, nodes)
            counts[f"searches with few branchings: {search.kind}"] += 1
            yield from judge(inst, search, given, least, 3, counts)
            if search.kind == "Budget" and search.branched != nodes:
                yield f"budget of {nodes}, {search.branched} branchings"


def judge(inst, search, given, least, step, counts):
    """What is wrong with the tree that the search wrote."""
    watch = SearchJudge(inst, search.nodes, None if given == NEVER else given)
    reader = FreeReader(inst, text_of(search.lines), watch.visit, step).read()
    counts["nodes judged"] += watch.branched + watch.leaves.total()
    for kind, number in watch.leaves.items():
        counts[f"leaves {kind}"] += number
    seen = reader.value, reader.branched, watch.met
    if search.value > least or seen != (search.value, search.branched, search.best):
        yield f"given {given}: a tree says {reader.value}, least end {least}"
    yield from watch.complaints


def judge_plan(inst, plan, counts):
    """What is wrong with a plan that a search met."""
    counts["plans judged"] += 1
    if first_break(inst, plan) is not None or tight_free(inst, plan) != plan:
        yield f"{plan} breaks {first_break(inst, plan)} or isn't tight"
    late = slowed_feasible(inst, plan)
    if end_of(inst, tight_free(inst, late)) > end_of(inst, late):
        yield f"{late} ends before its tight form"
    for some in (plan, late):
        motion = FreeMotion(inst, some)
        for parts in (1, 2, 3) if motion.ends < 300 else ():
            if motion.unsafe(parts):
                yield f"{some}: {motion.unsafe(parts)}"
        tracks = [motion.waypoints(k) for k in range(len(inst.cranes))] if motion.ends < 3000 else []
        counts["waypoints in halves of a tick"] += sum(at % 2 for track in tracks for at, _ in track)
        if any(len(track) > 4 * len(plan) + 36 for track in tracks):
            yield f"{some} has {list(map(len, tracks))} waypoints"


def slowed_feasible(inst, plan):
    """The plan with all from its middle on begun later by an odd number of ticks."""
    middle = sorted(start for _, start in plan)[len(plan) // 2]
    return [(crane, start + 7 if start >= middle else start) for crane, start in plan]


def try_closed(inst, rng, counts):
    """Whether a node of the instance is closed at more than the least end of all plans with its cranes."""
    for seen in (inst, inst.mirror):
        ends = Ends(seen)
        for _ in range(2):
            crane = random_node(seen, rng).crane
            for free in (False, True):
                closed, end = closed_ends(seen, crane, free), ends.least(crane, free)
                kind = "any way" if free else "upward"
                counts[f"nodes, {kind}"] += 1
                counts[f"closed at the least end itself, {kind}"] += closed[2] == end
                for step in (1, 2):
                    counts[f"closed at more by step {step + 1}, {kind}"] += closed[step] > closed[step - 1]
                if sorted(closed) != closed or closed[2] > end:
                    yield f"{crane}, {kind}: closed at {closed}, least end {end}"
                counts_now = counts_of(seen, crane, free)
                last = closed[2] + 2 * seen.grain + 3
                tried = range(1, last) if last < 300 else {closed[2] or 1, closed[2] + 1, rng.randrange(1, last)}
                if any(are_short(seen, counts_now, v) != (v <= closed[2]) for v in tried):
                    yield f"{crane}, {kind}: closed at {closed[2]}, and not at each earlier end"


def random_part(node, lines, rng):
    """Adds a part of a tree below the node: any branchings and any leaves that hold."""
    inst, count = node.inst, len(node.crane)
    tasks = [j for j in range(count) if node.crane[j] is None]
    pairs = [(i, j) for i in range(count) for j in range(i + 1, count)
             if node.conflicts(i, j) and not node.is_settled(i, j)]
    if (tasks or pairs) and len(lines) < 60 and rng.random() < 0.85:
        if pairs and (not tasks or rng.random() < 0.4):
            i, j = rng.choice(pairs)
            lines.append(f"O {i + 1} {j + 1}")
            children = [node.child("O", i, j), node.child("O", j, i)]
        else:
            i = rng.choice(tasks)
            lines.append(f"A {i + 1}")
            children = [node.child("A", i, crane) for crane in range(len(inst.cranes))]
        for child in children:
            random_part(child, lines, rng)
        return
    if node.starts is None:
        lines.append(rng.choice(["P", "C" + numbers_of(ring_of(node)), "X" if node.is_out_of_reach() else "P"]))
        return
    leaves = [random_chain(node, rng), random_chain(node, rng), FreeSearch.chain(None, node)[1]]
    leaves += ["X"] * 4 if node.is_out_of_reach() else []
    leaves += [line for value, line in free_lists(node) if value is not None] if node.is_in_reach() else []
    leaves += [f"W {node.work_bound}"] * 2 if node.work_bound else []
    lines.append(rng.choice(leaves))


def random_chain(node, rng):
    """A chain of the node's arcs from any task on."""
    if not node.crane:
        return "P"
    chain = [rng.randrange(len(node.crane))]
    while (more := [k for i, k, _ in node.arcs if i == chain[-1]]) and rng.random() < 0.9:
        chain.append(rng.choice(more))
    return "P" + numbers_of(chain)


def try_random_tree(inst, rng, least, counts):
    """Whether a random tree says more than the least end of all feasible plans."""
    lines = ["QCFREE 1"]
    random_part(FreeNode(inst), lines, rng)
    reader = FreeReader(inst, text_of(lines + ["end 0 0"]))
    try:
        reader.read()
    except TreeFault as fault:
        if fault.kind != "Counts":
            yield f"{fault.kind} {fault.line} in {lines}"
    counts["random trees"] += 1
    counts["random trees that say the least end itself"] += reader.value == least
    if reader.value > least:
        yield f"a tree says {reader.value}, least end {least}: {lines}"


def dense(rng):
    """A random instance of a few hatches with several phases each, late cranes and many ordered restows."""
    cranes, gap, scale = rng.choice((1, 2, 2, 3)), rng.randint(1, 3), rng.choice((1, 1, 2))
    places, place = [], 1
    for _ in range(rng.randint(2, 3)):
        places.append(place)
        place += rng.choice((1, 1, 2, 3))
    doing = sorted(rng.sample([(place, phase) for place in places for phase in range(4)], rng.choice((3, 4, 5, 5))))
    tasks = tuple(Task(place, PHASES[phase], place, scale * rng.randint(1, rng.choice((4, 12))),
                       scale * rng.choice((0, 0, 0, rng.randint(1, 40))))
                  for place, phase in doing)
    listed, berth = [], rng.randint(1 - gap, 2)
    for k in range(cranes):
        low, high = sorted(rng.choices(places, k=2)) if rng.random() < 0.1 else (places[0], places[-1])
        listed.append(Crane(f"C{k + 1}", scale * rng.choice((0, 0, rng.randint(1, 15))), berth, low, high))
        berth += gap + rng.choice((0, 0, 1, 2))
    order = rng.choice((0, 0.15, 0.4))
    before = tuple((i, j) for i, j in itertools.permutations(range(len(tasks)), 2)
                   if i < j and tasks[i].bay == tasks[j].bay
                   or tasks[i].phase[0] == "D" and tasks[j].phase[0] == "L" and rng.random() < order)
    apart = tuple((i, j) for i, j in itertools.combinations(range(len(tasks)), 2)
                  if tasks[i].bay != tasks[j].bay and rng.random() < 0.05)
    return Instance(places[-1], scale * rng.randint(1, 3), gap, tasks, tuple(listed), before, apart)


def some_instance(rng):
    kind = rng.random()
    return random_instance(rng, 4) if kind < 0.2 else tiny(rng) if kind < 0.5 else dense(rng)


def try_all(inst, rng, least, counts):
    yield from try_ship(inst, rng, least, counts)
    yield from try_closed(inst, rng, counts)
    yield from try_given(inst, least, counts)
    for _ in range(3):
        yield from try_random_tree(inst, rng, least, counts)


def try_ends(inst, rng, least, counts):
    """The search from nothing and its tree, a random tree and a node, and no more."""
    search, upward = FreeSearch(inst, NEVER, 100_000), least_end(inst)
    counts["ships that no plan can do"] += least == NEVER
    counts["ships that only plans to and fro can do"] += least < upward == NEVER
    counts["ships on which to and fro ends earlier"] += least < upward < NEVER
    value = FreeReader(inst, text_of(search.lines)).read().value
    counts["nodes read"] += len(search.lines) - 2
    if {search.best, search.value, value} != {least} or least > upward:
        yield f"{search.kind} {search.best}, bound {search.value}, read {value}, least end {least}"
    yield from try_random_tree(inst, rng, least, counts)
    crane = random_node(inst, rng).crane
    closed, end = closed_ends(inst, crane, True), Ends(inst).least(crane, True)
    counts["nodes closed"] += 1
    counts["closed at the least end itself"] += closed[2] == end
    if sorted(closed) != closed or closed[2] > end:
        yield f"{crane}: closed at {closed}, least end {end}"


def try_bounds(first, number, trial):
    """Tries so many ships; where it is interrupted it tells what was seen by then."""
    counts, wrong, done = Counter(), 0, 0
    try:
        for seed in range(first, first + number):
            rng = random.Random(seed)
            inst = some_instance(rng)
            for trouble in trial(inst, rng, least_feasible_end(inst, [None] * len(inst.tasks)), counts):
                wrong += 1
                print(f"seed {seed}: {trouble}", flush=True)
            done += 1
    except KeyboardInterrupt:
        print("interrupted")
    for what, much in sorted(counts.items()):
        print(f"{much:9} {what}")
    print(f"{done} ships from {first}, {wrong} differences")
    return wrong


# ---------------------------------------------------------------- the search in C++

def try_side(side, first, number, wide):
    counts, wrong = Counter(), 0
    with tempfile.TemporaryDirectory(prefix="freely-") as folder:
        numbers, written = Path(folder, "numbers"), Path(folder, "tree")
        for seed in range(first, first + number):
            rng = random.Random(seed)
            inst = without_releases(random_instance(rng, 14, True) if wide else some_instance(rng))
            numbers.write_text("\n".join(dump(inst)) + "\n")
            least = FreeSearch(inst, NEVER, 60 if wide else 100_000).best
            for nodes in (0, 1, rng.randint(2, 40), 60 if wide else 20_000):
                for given in dict.fromkeys((NEVER, least, least + rng.randint(1, 30))):
                    step = rng.choice((1, 2, 3, 3))
                    trouble = try_run(side, inst, given, nodes, step, numbers, written, counts)
                    if trouble:
                        wrong += 1
                        print(f"seed {seed}, given {given}, {nodes} branchings, step {step}: {trouble}", flush=True)
    for what, much in sorted(counts.items()):
        print(f"{much:9} {what}")
    print(f"{number} ships from {first}, {wrong} differences")
    return wrong


def try_run(side, inst, given, nodes, step, numbers, written, counts):
    """What differs between the search in C++ and that in Python."""
    search = FreeSearch(inst, given, nodes, step)
    due = [search.kind, f"end {'none' if search.best == NEVER else search.best}", f"bound {bound_text(search.value)}",
           f"branched {search.branched}"]
    end = "none" if given == NEVER else str(given)
    words = [side, "--free", "--step", str(step), numbers, end, str(nodes), written]
    done = subprocess.run(words, capture_output=True, text=True, timeout=60, check=False)
    watch = SearchJudge(inst, nodes, None if given == NEVER else given)
    try:
        FreeReader(inst, written.read_bytes(), watch.visit, step).read()
        told = watch.complaints
    except TreeFault as fault:
        told = [f"{fault.kind} {fault.line}"]
    counts[f"runs: {search.kind}"] += 1
    counts["nodes"] += watch.branched + watch.leaves.total()
    counts["branchings on a pair"] += sum(line[0] == "O" for line in search.lines)
    for kind, much in watch.leaves.items():
        counts[f"leaves {kind}"] += much
    if done.stdout.splitlines()[:4] != due or told:
        return f"{done.stdout.split()}, due {due}; {told[:2]}"
    return None if bare(search.lines) == bare(written.read_text().splitlines()) else "other lines"


def main():
    parser = argparse.ArgumentParser(description="plans to and fro by hand, by brute force, and beside a search in C++")
    parser.add_argument("what", nargs="?", choices=("rows", "bounds", "side"), default="rows")
    parser.add_argument("side", nargs="?")
    parser.add_argument("--first", type=int, default=1)
    parser.add_argument("--count", type=int, default=100)
    parser.add_argument("--wide", action="store_true", help="larger ships, with side")
    parser.add_argument("--short", action="store_true", help="few trials of each ship, with bounds")
    words = parser.parse_args()
    if words.what == "rows":
        wrong = try_rows()
    elif words.what == "bounds":
        wrong = try_bounds(words.first, words.count, try_ends if words.short else try_all)
    else:
        wrong = try_side(words.side, words.first, words.count, words.wide)
    sys.exit(1 if wrong else 0)


if __name__ == "__main__":
    main()
