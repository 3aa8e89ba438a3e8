"""Random ships, stowage lists, plans, bound trees and logs for the trials, and changed ones."""
import itertools
import re
from collections import Counter

from reference import PHASES, Course, Node, TreeFault, TreeReader, bound_text, end_of, plan_text


KEYS = {"before", "not_before"}  # those of the planner's own that random ships may have


def add_without(parser):
    """Adds `--without KEY` to the words of a script, for a program that doesn't know a key yet."""
    parser.add_argument("--without", choices=sorted(KEYS), action="append", default=[], help="ships haven't this key")


# ---------------------------------------------------------------- random ships and lists

class Maker:
    """One random ship and its stowage list."""

    def __init__(self, rng, wide):
        self.rng = rng
        self.large = rng.random() < 0.1     # long times and wide places
        self.placed = rng.random() < 0.35   # places in decimetres
        self.hatches = self.some_hatches()
        count = len(self.hatches)
        self.cranes = rng.choice((1, 1, 1, 2, 2, 2, 2, 3, 3, 3, 4, rng.randint(5, 8)))
        most = (7, 7, 6, 4, 3, 3, 3, 3)[self.cranes - 1]
        self.tasks = min(rng.choice((0, 1, 2, 3, 3, 4, 4, 5, 5, 5, 6, 7)), most, 4 * count)
        if wide:
            self.cranes, self.tasks = rng.randint(2, 5), min(rng.randint(8, 18), 4 * count)
        step = 300 if self.large else 6
        self.places, place = [], rng.randint(1, step)
        for _ in self.hatches:
            self.places.append(place)
            place += rng.randint(1, step)
        if self.placed:
            self.gap = min(1800, rng.choice((1, rng.randint(1, 2 * step), rng.randint(1, step), place)))
        else:
            self.gap = rng.choice((1, 1, 2, 2, 2, 3, 4, rng.randint(1, 21)))

    def some_hatches(self):
        rng = self.rng
        hatches, free = [], rng.choice((1, 1, 1, 2, 5, 90, 150, 960))
        for _ in range(rng.choice((1, 2, 2, 3, 3, 4, 5, 6))):
            free += rng.choice((0, 0, 0, 1, 2))
            even = rng.random() < 0.7
            hatch = free + 1 if even and free % 2 == 1 else free + 2 if even else free + 1 - free % 2
            hatches.append(hatch)
            free = hatch + 2 if even else hatch + 1
        return hatches

    def some_ticks(self, small, large):
        return self.rng.randint(1, large if self.large else small)

    def ship(self):
        rng, count = self.rng, len(self.hatches)
        self.doing = rng.sample([(hatch, phase) for hatch in self.hatches for phase in PHASES], self.tasks)
        keys = [f"hatches = {self.hatches}",
                f"travel = {self.some_ticks(*(3, 100) if self.placed else (5, 10_000))}",
                f"deck_move = {self.some_ticks(12, 10_000)}", f"hold_move = {self.some_ticks(12, 10_000)}"]
        if self.placed:
            keys += [f"places = {self.places}", f"clear = {self.gap}"]
        if not self.placed or rng.random() < 0.1:
            keys.append(f"margin = {self.gap - 1 if not self.placed else 99}")
        if rng.random() < 0.5:
            keys.append(f"cover = {rng.randint(0, 10_000 if self.large else 20)}")
        if rng.random() < 0.6:
            keys.append(f'restows = "{rng.choice(("ordered", "ordered", "free"))}"')
        if count > 1 and rng.random() < 0.5:
            pairs = [rng.sample(self.hatches, 2) for _ in range(rng.choice((1, 1, 2, 4)))]
            keys.append(f"apart = {pairs + pairs[:1] if rng.random() < 0.2 else pairs}")
        if rng.random() < 0.2:
            keys.append('port = "X"')
        if rng.random() < 0.4:
            keys += ["before = " + str(asked_pairs(rng, self.hatches, self.doing))] * ("before" in KEYS)
        if rng.random() < 0.4:
            keys += ["not_before = " + str(releases(rng, self.hatches, self.doing, self.large))] * ("not_before" in KEYS)
        rng.shuffle(keys)
        cranes = self.crane_tables()
        if rng.random() < 0.2:
            keys.append("crane = [" + ", ".join("{" + ", ".join(crane) + "}" for crane in cranes) + "]")
            return "\n".join(keys) + "\n"
        return "\n".join(keys + ["\n[[crane]]\n" + "\n".join(crane) for crane in cranes]) + "\n"

    def crane_tables(self):
        rng, count = self.rng, len(self.hatches)
        bays = self.places[-1] if self.placed else count
        bay = rng.choice((1, rng.randint(1, bays), rng.randint(1 - self.gap * self.cranes, bays)))
        bay = max(bay, -10_000 if self.placed else -200)
        names = rng.sample(["C1", "C2", "C3", "C4", "STS-1", "a_b", "Z" * 12, "9", "C"], self.cranes)
        tables, late = [], rng.choice(names) if rng.random() < 0.25 else None
        for name in names:
            keys = [f'name = "{name}"', f"bay = {bay}"]
            if name == late:
                keys.append(f"ready = {rng.randint(60, 250)}")
            elif late is None and rng.random() < 0.6:
                keys.append(f"ready = {rng.randint(0, 1_000_000 if self.large else rng.choice((5, 30, 80)))}")
            first, last = sorted((rng.randint(1, count), rng.randint(1, count)))
            if rng.random() < 0.25:
                keys.append(f"from = {first}")
            if rng.random() < 0.25:
                keys.append(f"to = {last}" if "from" in keys[-1] else f"to = {rng.randint(1, count)}")
            if rng.random() < 0.05:
                keys.append("colour = 3")
            rng.shuffle(keys)
            tables.append(keys)
            bay += self.gap + rng.choice((0, 0, 1, 2, self.gap if self.cranes < 5 else 3))
        return tables

    def stowage(self):
        rng = self.rng
        rows, used, outs, ins = [], Counter(), [], []
        for hatch, phase in self.doing:
            kind = "D" if phase[0] == "D" else "L"
            for _ in range(rng.choice((1, 1, 2, 2, 3, 4))):
                slot = used[phase]
                used[phase] += 1
                tier = (82 if phase in ("DD", "LD") else 2) + 2 * (slot // 10)
                bay = hatch + rng.choice((-1, 0, 0, 1)) if hatch % 2 == 0 else hatch
                width = 3 if bay >= 100 or rng.random() < 0.1 else 2
                (outs if kind == "D" else ins).append(len(rows))
                cell = f"{bay:0{width}}{slot % 10:02}{tier:02}"
                rows.append([f"R{len(rows)}", kind, cell, "20" if bay % 2 else "40"])
        for out, back in zip(rng.sample(outs, len(outs)), rng.sample(ins, len(ins))):
            if rng.random() < 0.4:
                rows[back][0] = rows[out][0]
        rng.shuffle(rows)
        quote = '"' if rng.random() < 0.1 else ""
        feed = "\r\n" if rng.random() < 0.1 else "\n"
        rows.insert(0, ["id", "move", "cell", "length"])
        if rng.random() < 0.15:  # the columns in another order, with one that counts for nothing
            turn = rng.sample(range(5), 5)
            rows = [[(row + [rng.choice(("", "X", "22.5"))])[at] for at in turn] for row in rows]
        lines = [",".join(quote + field + quote for field in row) for row in rows]
        return ("\ufeff" if rng.random() < 0.05 else "") + feed.join(lines) + feed


def asked_pairs(rng, hatches, doing):
    """Pairs of task names in an order that mostly has no ring: each hatch stands at some moment, and its phases behind
    one another from there on."""
    moment = {hatch: rng.randint(0, 4) for hatch in hatches}
    all_tasks = [(hatch, phase) for hatch in hatches for phase in PHASES]
    pairs = []
    for _ in range(rng.choice((1, 1, 2, 3, 6))):
        some = doing if len(doing) > 1 and rng.random() < 0.9 else all_tasks
        pair = rng.sample(some, 2)
        if rng.random() < 0.97:
            pair.sort(key=lambda task: (moment[task[0]] + PHASES.index(task[1]), task[0]))
        pairs.append([f"{hatch}-{phase}" for hatch, phase in pair])
    return pairs + pairs[:1] if rng.random() < 0.1 else pairs


def releases(rng, hatches, doing, large):
    """Task names, each once, with ticks before which they don't start."""
    some = rng.sample(doing, rng.randint(0, len(doing)))
    more = [task for task in ((hatch, phase) for hatch in hatches for phase in PHASES) if task not in doing]
    some += rng.sample(more, min(len(more), rng.choice((0, 0, 0, 1))))
    return [[f"{hatch}-{phase}", rng.choice((0, 1, rng.randint(0, 30), rng.randint(0, 80), rng.randint(0, 1_000_000 if large else 20)))]
            for hatch, phase in some]


def dense_files(rng):
    """A ship file and a list with work in several phases, late cranes and many ordered restows."""
    hatches = [2, 6, 10, 14][:rng.randint(2, 4)]
    ship = (f"hatches = {hatches}\nmargin = {rng.choice((1, 1, 2))}\ntravel = {rng.choice((1, 2, 3, 5))}\n"
            f'deck_move = {rng.randint(1, 10)}\nhold_move = {rng.randint(1, 10)}\nrestows = "ordered"\n')
    doing = rng.sample([(hatch, phase) for hatch in hatches for phase in PHASES], rng.randint(2, 5))
    if rng.random() < 0.3:
        ship += f"before = {asked_pairs(rng, hatches, doing)}\n" * ("before" in KEYS)
    if rng.random() < 0.3:
        ship += f"not_before = {releases(rng, hatches, doing, False)}\n" * ("not_before" in KEYS)
    bay = rng.choice((1, 1, 2))
    for name in ("C1", "C2", "C3")[:rng.choice((1, 2, 2, 2, 3))]:
        late = f"ready = {rng.randint(1, 25)}\n" if rng.random() < 0.4 else ""
        ship += f'\n[[crane]]\nname = "{name}"\nbay = {bay}\n{late}'
        bay += rng.randint(3, 4)
    rows, off = ["id,move,cell,length"], []
    for hatch, phase in sorted(doing, key=lambda one: one[1][0] == "L"):
        for i in range(rng.randint(1, 3)):
            back = off and phase[0] == "L" and rng.random() < 0.5
            name = off.pop(rng.randrange(len(off))) if back else f"{hatch}-{phase}-{i}"
            if phase[0] == "D":
                off.append(name)
            rows.append(f"{name},{phase[0]},{hatch:02}00{(82 if phase[1] == 'D' else 2) + 2 * i:02},40")
    return ship, "\n".join(rows) + "\n"


# ---------------------------------------------------------------- changed plans and trees

def changed_plans(inst, plan, rng):
    """Texts of plans beside the given one, or of any plans where none is given."""
    slots = list(plan) if plan else [(rng.randrange(len(inst.cranes)), rng.randint(0, 60)) for _ in inst.tasks]
    texts = [plan_text(inst, serial_plan(inst, rng, early)) for early in (0, 1)]
    if not slots:
        return texts
    new, (i, j) = serial_plan(inst, rng, 0), rng.choices(range(len(slots)), k=2)
    after = end_of(inst, new) + inst.travel * 2 * (inst.bays + inst.gap * len(inst.cranes))
    new[i], new[j] = (new[i][0], after), (new[j][0], after + rng.randint(0, 3))
    texts.append(plan_text(inst, new))
    for _ in range(2):
        new, (i, j) = list(slots), rng.choices(range(len(slots)), k=2)
        way = rng.choice(("shift", "shift", "shift", "cranes", "crane", "starts", "later"))
        if way == "shift":
            new[i] = new[i][0], max(0, new[i][1] + rng.choice((-3, -2, -1, 1, 2, 3, 30)))
        elif way == "cranes":
            new[i], new[j] = (new[j][0], new[i][1]), (new[i][0], new[j][1])
        elif way == "crane":
            new[i] = rng.randrange(len(inst.cranes)), new[i][1]
        elif way == "starts":
            new[i], new[j] = (new[i][0], new[j][1]), (new[j][0], new[i][1])
        else:
            by = rng.randint(1, 5)
            new = [(crane, start + by) for crane, start in new]
        texts.append(plan_text(inst, new))
    lines = plan_text(inst, slots).splitlines()
    fault = rng.choice(("drop", "twice", "end", "zero", "name", "crane", "shuffle", "fields", "header"))
    at = rng.randrange(1, len(lines))
    name, crane, start, end = lines[at].split(",")
    if fault == "drop":
        del lines[at]
    elif fault == "shuffle":
        lines[1:] = rng.sample(lines[1:], len(lines) - 1)
    elif fault == "header":
        lines[0] += " "
    else:
        lines[at] = {"twice": lines[rng.randrange(1, len(lines))], "end": f"{name},{crane},{start},{int(end) + 1}",
                     "zero": f"{name},{crane},0{start},{end}", "name": f"{name}X,{crane},{start},{end}",
                     "crane": f"{name},C99,{start},{end}", "fields": f"{name},{crane},{start}"}[fault]
    return texts + ["\n".join(lines) + "\n"]


def serial_plan(inst, rng, early):
    """One task after the other in a random order, which seldom goes one way; too early for other cranes' berths."""
    waiting, slots, now = list(range(len(inst.tasks))), {}, 0
    while waiting:
        free = [j for j in waiting if not any((i, j) in inst.before for i in waiting)] or waiting
        j = rng.choice(free if rng.random() < 0.95 else waiting)
        cranes = [k for k in range(len(inst.cranes)) if inst.reaches(k, j)] or [0]
        crane = rng.choice(cranes)
        start = max(now, inst.arrival(j, crane), inst.free_from(j, crane) - early)
        for i, (v, begin) in slots.items():
            far = inst.distance(i, v, j, crane) if v != crane else inst.travel * abs(
                inst.tasks[i].bay - inst.tasks[j].bay)
            start = max(start, begin + inst.tasks[i].ticks + far)
        slots[j] = crane, start
        now = start
        waiting.remove(j)
    return [slots[j] for j in range(len(inst.tasks))]


def changed_trees(inst, text, rng):
    """Bytes of trees: the given one with a change, with or without its last line mended, and random ones."""
    texts = []
    for _ in range(2):
        lines = text.decode().splitlines()
        at = rng.randrange(len(lines))
        words = lines[at].split()
        way = rng.choice(("number", "number", "number", "drop", "twice", "swap", "leaf", "title", "cut", "more",
                          "space", "long"))
        if way == "number" and words[-1].isdigit() and words[0] != "QCTREE":
            which = rng.randrange(1, len(words))
            if words[which].isdigit():
                words[which] = str(max(0, int(words[which]) + rng.choice((-1, 1, -2, 2, 5))))
            lines[at] = " ".join(words)
        elif way == "drop":
            del lines[at]
        elif way == "twice":
            lines.insert(at, lines[at])
        elif way == "swap":
            other = rng.randrange(len(lines))
            lines[at], lines[other] = lines[other], lines[at]
        elif way == "leaf" and words[0] in "PCQXW":
            lines[at] = rng.choice(("P", "X", "W 1", "P 1", "P 1 2", "C 1 2", "C 1", "W 0", "up", "P 01", "W 50", "Q 1",
                                    "Q 1 2", "Q 2 1"))
        elif way == "title":
            lines[0] = rng.choice(TITLES)
        elif way == "space":
            lines[at] += " "
        elif way == "long":
            lines[at] = rng.choice("PQ") + " 1" * rng.choice((240, 241, 599, 600))
        new = text_of(lines)
        if way == "cut":
            new = new[:rng.randrange(len(new))]
        elif way == "more":
            new += rng.choice((b"\n", b"x", b"end 0 0\n"))
        texts.append(mended(inst, new) if rng.random() < 0.5 else new)
    for _ in range(3):
        lines = ["QCTREE 3", "up"]
        random_part(Node(inst), lines, rng)
        lines.append("down")
        random_part(Node(inst.mirror), lines, rng)
        texts.append(mended(inst, text_of(lines + ["end 0 0"])))
    for lines in (text.decode().splitlines(), texts[-1].decode().splitlines()):
        texts += trees_of_changed_lists(inst, lines, rng)
    for some in nearly_packed(Node(inst), rng):
        line = "Q" + "".join(f" {j + 1}" for j in some)
        texts.append(text_of(["QCTREE 3", "up", line, "down", line, "end 0 0"]))
    return texts


TITLES = ("QCTREE 1", "QCTREE 2", "QCTREE 3", "QCTREE 3", "QCTREE 4")


def text_of(lines):
    return "".join(line + "\n" for line in lines).encode()


def trees_of_changed_lists(inst, lines, rng):
    """The tree with a `Q` line changed, moved or put where none is wanted, or with a title under which none may stand;
    where the tree has no such line, one is made of another leaf first."""
    leaves = [at for at, line in enumerate(lines) if line.split()[0] in "PCQXW"]
    at = rng.choice([at for at in leaves if lines[at][0] == "Q"] or leaves)
    numbers = re.findall("[0-9]+", lines[at]) if lines[at][0] in "PCQ" else []
    numbers = numbers or [str(rng.randint(1, len(inst.tasks) or 1))]
    lines[at] = " ".join(["Q", *numbers])
    way = rng.choice(("more", "more", "fewer", "twice", "turned", "none", "other", "unknown", "spelling", "title",
                      "title", "place", "place", "leaf"))
    new, other = list(numbers), str(rng.randint(1, len(inst.tasks) or 1))
    tied = [str(j + 1) for pair in inst.before + inst.apart for i, j in (pair, pair[::-1]) if str(i + 1) in numbers]
    if tied and rng.random() < 0.5:
        other = rng.choice(tied)
    if way == "more":
        new.insert(rng.randint(0, len(new)), other)
    elif way == "fewer":
        del new[rng.randrange(len(new))]
    elif way == "twice":
        new.append(rng.choice(new))
    elif way == "turned":
        new.reverse()
    elif way == "none":
        new.clear()
    elif way == "other":
        new[rng.randrange(len(new))] = other
    elif way == "unknown":
        new.insert(rng.randint(0, len(new)), rng.choice(("0", str(len(inst.tasks) + 1), "9999")))
    elif way == "spelling":
        new[-1] = rng.choice(("0" + new[-1], new[-1] + " ", "", "12345", "-1", "1,2"))
    lines = lines[:at] + [" ".join(["Q", *new])] + lines[at + 1:]
    if way == "title":
        lines[0] = rng.choice(TITLES)
    elif way == "place":
        down, last = lines.index("down"), len(lines)
        lines.insert(rng.choice((0, 1, 2, at, down, down + 1, last - 1, last)), lines[at])
    elif way == "leaf":
        lines[at] = rng.choice("PC") + lines[at][1:]
    return [text_of(lines), mended(inst, text_of(lines))]


def mended(inst, data):
    """The tree with the last line that it must have, where that alone is wrong."""
    reader = TreeReader(inst, data)
    try:
        reader.read()
    except TreeFault as fault:
        if fault.kind == "Counts":
            lines = data.decode().split("\n")
            lines[fault.line - 1] = f"end {reader.branched} {bound_text(reader.value)}"
            return "\n".join(lines).encode()
    return data


def random_part(node, lines, rng):
    """Adds a part of a tree below the node: any branchings, any leaves, a few of them wrong."""
    inst, count = node.inst, len(node.inst.tasks)
    tasks = [j for j in range(count) if node.crane[j] is None]
    pairs = [pair for pair in inst.apart if not node.is_settled(*pair)]
    wild = rng.random() < 0.01
    below = not node.is_out_of_reach() or rng.random() < 0.1
    if (tasks or pairs) and len(lines) < 80 and rng.random() < 0.8 and below:
        if pairs and (not tasks or rng.random() < 0.3):
            i, j = rng.choice(pairs)
            lines.append(f"O {i + 1} {j + 1}" if not wild else f"O {j + 1} {i + 1}")
            children = [node.child("O", i, j), node.child("O", j, i)]
        else:
            i = rng.choice(tasks) if not wild else rng.randrange(count)
            lines.append(f"A {i + 1}")
            children = [node.child("A", i, crane) for crane in range(len(inst.cranes))]
        for child in children:
            random_part(child, lines, rng)
        return
    ring = random_ring(node, rng) if node.starts is None else None
    strays = any(kind == "A" and not inst.reaches(crane, task) for kind, task, crane in node.decisions)
    if rng.random() < (0.9 if node.is_out_of_reach() else 0.3 if strays else 0):
        lines.append("X")
    elif ring and rng.random() < 0.9:
        lines.append("C" + "".join(f" {j + 1}" for j in ring))
    elif count and rng.random() < 0.5:
        lines.append("Q" + "".join(f" {j + 1}" for j in random_packed(node, rng)))
    elif node.work_bound and rng.random() < 0.5:
        less = -1 if rng.random() < 0.03 else rng.choice((0, 0, 0, 1, 5))
        lines.append(f"W {max(1, node.work_bound - less)}")
    else:
        lines.append("P" + "".join(f" {j + 1}" for j in random_chain(node, rng)))


def random_chain(node, rng):
    count, chain = len(node.inst.tasks), []
    if not count or rng.random() < 0.05:
        return chain
    chain.append(rng.randrange(count))
    while len(chain) < 12:
        later = [j for i, j, _ in node.arcs if i == chain[-1]]
        if not later or rng.random() < 0.1:
            break
        chain.append(rng.choice(later))
    if rng.random() < 0.01:
        chain.append(rng.randrange(count))
    return chain


def random_packed(node, rng):
    """Tasks of which no two can run together, in any order; seldom with one more, which may clash with none, be tied to
    one of them in other ways, or be in no crane's reach."""
    inst, some = node.inst, []
    for j in rng.sample(range(len(inst.tasks)), len(inst.tasks)):
        if node.is_packed(some + [j]) and (not some or rng.random() < 0.8):
            some.append(j)
    if not some or rng.random() < 0.04:
        tied = [j for pair in inst.before + inst.apart for i, j in (pair, pair[::-1]) if i in some and j not in some]
        lost = [j for j in range(len(inst.tasks)) if not node.may(j)]
        some.insert(rng.randint(0, len(some)), rng.choice(tied or lost or range(len(inst.tasks))))
    return some


def nearly_packed(node, rng):
    """Two tasks that are tied otherwise and can run together, and three of which only the outer two can."""
    inst = node.inst
    loose = [pair for pair in itertools.combinations(range(len(inst.tasks)), 2) if not node.clash(*pair)]
    tied = [pair for pair in loose if {pair, pair[::-1]} & {*inst.before, *inst.apart}]
    between = [(i, j, k) for i, k in loose for j in range(len(inst.tasks))
               if j not in (i, k) and node.clash(i, j) and node.clash(j, k)]
    return [rng.choice(some) for some in (tied, between) if some]


def random_ring(node, rng):
    """A ring of forced steps, or None where a few walks find none."""
    for _ in range(20):
        chain = random_chain(node, rng)
        for place, j in enumerate(chain):
            if j in chain[:place]:
                return chain[chain.index(j):place]
    return None



def slowed(plan, rng):
    """The plan with its tasks from some moment on begun later."""
    moment, more = rng.choice([0] + [start for _, start in plan]), rng.randint(0, 30)
    return [(crane, start + more if start >= moment else start) for crane, start in plan]


# ---------------------------------------------------------------- logs of what happens

SPOILT = (b"tick 0", b"tick 01", b"tick 1000000000", b"tick", b"tick  3", b" tick 3", b"tick 3 ", b"tick -1", b"done", b"done ",
          b"done 9999-DD", b"done 2-DD x", b"left 2-DD 0", b"left 2-DD 05", b"left 2-DD  5", b"left 2-DD 1000000000", b"left 9999-DD 5",
          b"left 2-DD", b"left 5", b"left  2-DD 5", b"left 2-DD 5 ", b"left 2-DD 5 6", b"left 2-DD -5", b"left 2-DD 999999999", b"stop", b"", b"tick 3\r", b"DONE 2-DD")


def happenings(rng, inst, plan):
    """The lines of a log beside a plan: ticks in one line or in several, tasks that end early, late or when they were
    due; a few name a task that doesn't run."""
    course, lines = Course(inst, plan), []
    for _ in range(rng.choice((0, 1, 3, 10, 40))):
        running = [j for j in range(len(plan)) if course.start[j] is not None and course.end[j] is None]
        if running and rng.random() < 0.5:
            j = rng.choice(running)
            lines.append(f"done {inst.tasks[j].name}".encode())
            course.done(j)
        elif running and rng.random() < 0.2:
            j, ticks = rng.choice(running), rng.choice((1, 5, rng.randint(1, 60), 999_999_999))
            lines.append(f"left {inst.tasks[j].name} {ticks}".encode())
            course.told_left(j, ticks)
        elif plan and rng.random() < 0.02:
            lines.append(f"{rng.choice(('done', 'left'))} {rng.choice(inst.tasks).name}".encode())
        else:
            due = [course.start[j] + inst.tasks[j].ticks - course.now for j in running]
            ticks = max(1, rng.choice(due + [1, 2, 5, 30, rng.randint(1, 90)]) + rng.choice((0, 0, 0, 1, -1)))
            lines.append(f"tick {ticks}".encode())
            course.tick(ticks)
    return lines


def spoilt_happenings(rng, lines):
    """The bytes of a log that is spoilt."""
    lines = list(lines)
    if rng.random() < 0.8:
        lines.insert(rng.randint(0, len(lines)), rng.choice(SPOILT))
        return b"".join(line + b"\n" for line in lines)
    data = b"".join(line + b"\n" for line in lines)
    return data[:rng.randint(0, len(data))]


# ---------------------------------------------------------------- logs of places

def reported(rng, ship):
    """The lines of a log of places: few times, so that many are equal, places about the gap apart and below 0, each
    crane's in order of time and mixed with those of the others."""
    last, gap = rng.choice((4, 10, 25, 40)), ship.gap
    base, loose = rng.randint(-3 * gap, 3 * gap), rng.choice((0, 0, 1, 2, gap))
    lines = []
    for k, crane in enumerate(ship.cranes):
        times = sorted(rng.sample(range(last + 1), rng.choice((0, 1, 2, 2, 3, 4, min(6, last)))))
        place = base + k * (gap + loose)
        own = []
        for time in times:
            own.append(f"{time} {crane.name} {place}")
            place += rng.choice((0, 0, 0, 1, -1, loose, -loose, rng.randint(-gap, gap)))
        lines.append(own)
    return mixed(rng, lines)


def reported_along(rng, ship, waypoints):
    """The lines of a log of places that says where the cranes stand at the waypoints of a plan, each a time and a place
    times the travel, rounded down; of some cranes a few are left out."""
    lines = [[f"{at} {crane.name} {place // ship.travel}" for at, place in points if rng.random() < 0.9]
             for crane, points in zip(ship.cranes, waypoints)]
    return mixed(rng, lines)


def mixed(rng, lists):
    found = []
    while any(lists):
        found.append(rng.choice([own for own in lists if own]).pop(0))
    return found


def spoilt_places(rng, lines):
    """The bytes of a log with one or two faults, or none that shows."""
    lines = [line.encode() for line in lines]
    for _ in range(rng.choice((1, 1, 2))):
        at = rng.randrange(len(lines)) if lines else 0
        time, name, place = lines[at].split(b" ", 2) if lines and lines[at].count(b" ") == 2 else (b"0", b"C1", b"1")
        new = rng.choice((
            b"", b"%s %s" % (time, name), b"%s  %s %s" % (time, name, place), b"%s %s  %s" % (time, name, place),
            b"%s %s %s " % (time, name, place), b" %s %s %s" % (time, name, place), b"0%s %s %s" % (time, name, place),
            b"-%s %s %s" % (time, name, place), b"%s %s -0" % (time, name), b"%s %s 0" % (time, name),
            b"%s %s +1" % (time, name), b"%s %s -999999" % (time, name), b"%s %s 1000000" % (time, name),
            b"999999999999 %s %s" % (name, place), b"1000000000000 %s %s" % (name, place), b"%s X %s" % (time, place),
            b"%s %s %s" % (time, name[:-1], place), b"%s %s\r %s" % (time, name, place),
            b"%s %s %s\r" % (time, name, place), b"%s,%s,%s" % (time, name, place), b"%s %s 1.5" % (time, name),
            b"%s %s\xff %s" % (time, name, place)))
        way = rng.choice(("new", "new", "new", "twice", "swap", "drop", "byte"))
        if not lines or way == "new":
            lines[at:at + 1] = [new]
        elif way == "twice":
            lines.insert(rng.randint(0, len(lines)), lines[at])
        elif way == "swap":
            other = rng.randrange(len(lines))
            lines[at], lines[other] = lines[other], lines[at]
        elif way == "drop":
            del lines[at]
        elif lines[at]:
            place = rng.randrange(len(lines[at]))
            lines[at] = lines[at][:place] + bytes([rng.randrange(256)]) + lines[at][place + 1:]
    data = b"".join(line + b"\n" for line in lines)
    return data[:-1] if rng.random() < 0.15 else data
