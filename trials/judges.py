"""What a search may write into a tree, and when a plan is tight and its cranes' motion safe."""
import itertools
import re
from collections import Counter

from reference import NEVER, arcs_up, breaks_up, least_starts


class SearchJudge:
    """Whether a tree is one that a search with at most `nodes` branchings may write that begins with a plan that ends
    then, or with none; the best that it meets where that is better."""

    def __init__(self, inst, nodes, given):
        self.inst, self.nodes, self.is_given = inst, nodes, given is not None
        self.branched, self.leaves = 0, Counter()
        self.met, self.best = given if self.is_given else NEVER, []
        self.complaints = []

    def visit(self, node, kind, value):
        solvable = not node.is_out_of_reach() and node.starts is not None
        complete = node.is_complete()
        met = self.met
        closable = not solvable or complete or met < NEVER and (node.end >= met or node.work_holds(max(1, met)))
        if kind in "AO":
            self.expect(not closable, node, "branched on, and it can be closed")
            self.branched += 1
            return
        self.leaves[kind] += 1
        if node.is_out_of_reach():
            self.expect(kind == "X", node, f"out of reach, closed by {kind}")
        elif not solvable:
            self.expect(kind == "C", node, f"without a solution, closed by {kind}")
        elif complete:
            self.expect(kind == "P" and value == node.end, node, f"complete, closed by {kind} of {value}")
            self.meet(node)
        elif closable:
            self.expect(kind in "PWQ" and value >= self.met, node, f"closed by {kind} of {value}")
        elif kind != "Q" or value < self.met:
            best = ("P", node.end) if node.end >= node.work_bound else ("W", node.work_bound)
            holds = kind in "PWQ" and value >= best[1]
            self.expect(self.branched == self.nodes, node, "given up while branchings are left")
            self.expect(holds, node, f"given up with {kind} of {value}, not {best}")

    def meet(self, node):
        plan = list(zip(node.crane, node.starts))
        plan = plan if node.inst is self.inst else node.inst.mirrored(plan)
        if node.end < self.met:
            self.met, self.best, self.is_given = node.end, [], False
        if node.end == self.met and not self.is_given:
            self.best.append(plan)

    def expect(self, holds, node, text):
        if not holds:
            self.complaints.append(f"node {node.decisions}: {text}")

    def status(self, value):
        """The outcome and exit status that go with the tree's value."""
        if value == NEVER:
            return "Infeasible", 10
        if value >= self.met:
            return "Optimal", 0
        return "Budget", 11 if self.met < NEVER else 12


def tight_starts(inst, plan):
    """The least starts with the plan's cranes and orders, in each direction in which it goes, the way up first."""
    for seen, slots in ((inst, plan), (inst.mirror, inst.mirrored(plan))):
        if next(breaks_up(seen, slots), None) is None:
            arcs = arcs_up(seen, [crane for crane, _ in slots])
            for i, j in seen.apart:
                first, second = (i, j) if slots[i][1] + seen.tasks[i].ticks <= slots[j][1] else (j, i)
                arcs.append((first, second, seen.tasks[first].ticks))
            heads = [seen.free_table[j][crane] for j, (crane, _) in enumerate(slots)]
            yield least_starts(seen, heads, arcs)


def is_tight(inst, plan):
    """Whether no task could start earlier with the same cranes and orders, in a direction in which the plan goes."""
    return [start for _, start in plan] in tight_starts(inst, plan)


def tight_form(inst, plan):
    """The plan with the least starts in its direction."""
    return [(crane, start) for (crane, _), start in zip(plan, next(tight_starts(inst, plan)))]


def given_told(lines):
    """The end of the plan that the search began with, as the report tells it, or None."""
    return next((int(line.removeprefix("given ")) for line in lines if re.fullmatch("given [0-9]+", line)), None)


def first_unsafe(motion, parts):
    """What isn't safe at some moment `m / parts`, or None."""
    inst, last = motion.inst, None
    for m in range(parts * motion.ends + 1):
        at = [motion.place(k, m, parts) for k in range(len(inst.cranes))]
        for v, w in itertools.combinations(range(len(at)), 2):
            if at[w] - at[v] < parts * inst.travel * inst.gap * (w - v):
                return f"cranes {v} and {w} at {m}/{parts}"
        for crane, bay, start, end in motion.jobs:
            if parts * start <= m <= parts * end and at[crane] != parts * inst.travel * bay:
                return f"crane {crane} isn't at its task at {m}/{parts}"
        for k, data in enumerate(inst.cranes):
            first = min((start for v, _, start, _ in motion.jobs if v == k), default=NEVER)
            if m <= parts * data.ready and at[k] != parts * inst.travel * data.bay:
                return f"crane {k} isn't at its berth at {m}/{parts}"
            least = 0 if m - 1 >= parts * first else -1
            if last and not least <= at[k] - last[k] <= 1:
                return f"crane {k} is too fast or turns at {m}/{parts}"
        last = at
    return None

