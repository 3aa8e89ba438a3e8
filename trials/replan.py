#!/usr/bin/env python3
"""What is left of a plan in the middle of work, worked out from the definitions alone.

    replan.py SHIP STOW PLAN LOG NEWSHIP NEWSTOW OWN

prints what `qc rest` must print and writes its three files. Like reference.py this is a second opinion: nothing is taken
from the program or from its specifications. rest.py tries the program by it.
"""
import sys
from dataclasses import dataclass, replace

sys.dont_write_bytecode = True  # no folder of compiled files beside the scripts

from bayplan import cell_text
from faults import list_fault, read_table, ring_fault, ship_or_fault
from reference import Instance, end_of, follow, instance_of, moves_of, plan_text


@dataclass
class Stand:
    """Where a crane is: held by a task that runs or by its ready time, or loose since it was last through."""
    is_held: bool
    place: int
    since: int  # the end of what holds it, or of what it did last
    far: int    # how far it may have gone since


class Rest:
    """What a plan's course leaves: `ends` and `left_of` of what has a start, `go` of what has none, where the cranes are and
    where they are taken to be, the instance of what is left and the old order in it."""

    def __init__(self, inst, plan, course):
        self.inst, self.plan, self.course, self.now = inst, plan, course, course.now
        tasks = range(len(plan))
        self.left = [j for j in tasks if course.start[j] is None]
        self.running = [j for j in tasks if course.runs(j)]
        self.left_of = {j: self.still_needs(j) for j in self.running}
        self.ends = {j: course.end[j] if course.end[j] is not None else self.now + self.left_of[j]
                     for j in tasks if course.start[j] is not None}
        self.order = sorted(self.left, key=lambda j: (plan[j][1], j))
        self.go = self.gone_on()
        self.stands = [self.stand(k) for k in range(len(inst.cranes))]
        self.places = self.taken_places()
        self.number = {j: n for n, j in enumerate(self.left)}
        self.rest = self.instance(self.places)
        self.old = self.old_order()

    def still_needs(self, j):
        if j in self.course.lefts:
            ticks, moment = self.course.lefts[j]
            return max(0, ticks - (self.now - moment))
        return max(0, self.course.start[j] + self.inst.tasks[j].ticks - self.now)

    def gone_on(self):
        """When each task without a start would start in the old order, if all took as long as it is taken to."""
        go = {}
        for j in self.order:
            free = self.inst.free_from(j, self.plan[j][0])
            behind = [(self.ends[i] if i in self.ends else go[i] + self.inst.tasks[i].ticks) + gap
                      for i, gap in self.course.leaders[j]]
            go[j] = max([self.now, free] + behind)
        return go

    def own(self, k):
        """The tasks without a start of a crane."""
        return [j for j in self.left if self.plan[j][0] == k]

    def stand(self, k):
        crane, inst = self.inst.cranes[k], self.inst
        for i in self.running:
            if self.plan[i][0] == k:
                return Stand(True, inst.tasks[i].bay, self.ends[i], 0)
        if crane.ready > self.now:
            return Stand(True, crane.bay, crane.ready, 0)
        done = [(end, inst.tasks[j].bay) for j, end in self.ends.items() if self.plan[j][0] == k]
        since, place = max(done, default=(crane.ready, crane.bay))
        return Stand(False, place, since, (self.now - since) // inst.travel)

    def off(self, j):
        """How far the crane of a task without a start may still be from it."""
        return -((self.now - self.go[j]) // self.inst.travel)

    def top(self, k):
        """The highest place at which crane k can be, as far as itself and those beyond it say."""
        gap, found = self.inst.gap, []
        for w in range(k, len(self.stands)):
            found.append(self.stands[w].place + self.stands[w].far - gap * (w - k))
            if not self.stands[w].is_held:
                found += [self.inst.tasks[j].bay + self.off(j) - gap * (w - k) for j in self.own(w)]
        return min(found)

    def taken_places(self):
        places = []
        for k, stand in enumerate(self.stands):
            some = [min(stand.place, self.top(k))]
            if not stand.is_held:
                some += [self.inst.tasks[j].bay - self.off(j) for j in self.own(k)]
            if k:
                some.append(places[-1] + self.inst.gap)
            places.append(max(some))
        return places

    def instance(self, places):
        """The instance of what is left, with the cranes at these places."""
        inst, number = self.inst, self.number
        tasks = []
        for j in self.left:
            tied = [i for i in self.running if (i, j) in inst.before or (min(i, j), max(i, j)) in inst.apart]
            release = max([inst.tasks[j].release - self.now, 0] + [self.left_of[i] for i in tied])
            tasks.append(replace(inst.tasks[j], release=release))
        cranes = tuple(replace(crane, bay=place, ready=stand.since - self.now if stand.is_held else 0)
                       for crane, place, stand in zip(inst.cranes, places, self.stands))
        pairs = [tuple((number[i], number[j]) for i, j in some if i in number and j in number)
                 for some in (inst.before, inst.apart)]
        return Instance(inst.bays, inst.travel, inst.gap, tuple(tasks), cranes, *pairs)

    def old_order(self):
        starts = {}
        for j in self.order:
            free = self.rest.free_from(self.number[j], self.plan[j][0])
            starts[j] = max([free] + [starts[i] + self.inst.tasks[i].ticks + gap
                                      for i, gap in self.course.leaders[j] if i in starts])
        return [(self.plan[j][0], starts[j]) for j in self.left]

    # ------------------------------------------------ what is told and written

    def refusal(self, with_places):
        """The kind and the name that are told where nothing is written, or None."""
        over = [j for j in self.running if self.left_of[j] == 0]
        if over:
            return f"Over {self.inst.tasks[over[0]].name}"
        for crane in self.rest.cranes:
            if crane.ready > 1_000_000:
                return f"Ready {crane.name}"
            if with_places and not -10_000 <= crane.bay <= 16_000:
                return f"Bay {crane.name}"
        return None

    def report(self):
        end = end_of(self.rest, self.old)
        late = self.now + end - max(self.go[j] + self.inst.tasks[j].ticks for j in self.left) if self.left else 0
        name = lambda j: f"{self.inst.tasks[j].name} {self.inst.cranes[self.plan[j][0]].name}"
        return [f"now {self.now}", f"left {len(self.left)}",
                *[f"running {name(j)} {self.left_of[j]}" for j in self.running],
                *[f"crane {crane.name} {crane.bay} {crane.ready}" for crane in self.rest.cranes],
                f"end {end}", f"late {late}"]

    def ship_text(self, table):
        """The text of the new ship file, by the table of the old one."""
        hatches, left = table["hatches"], {self.inst.tasks[j].name for j in self.left}
        keys = {"apart": table.get("apart", []), "before": [pair for pair in table.get("before", []) if set(pair) <= left],
                "cover": table.get("cover", 0), "deck_move": table["deck_move"], "hatches": hatches,
                "hold_move": table["hold_move"], "restows": table.get("restows", "free"), "travel": table["travel"],
                "not_before": [[task.name, task.release] for task in self.rest.tasks if task.release]}
        keys |= {key: table[key] for key in (("clear", "places") if "places" in table else ("margin",))}
        lines = [f"{key} = {toml(value)}" for key, value in sorted(keys.items())]
        for crane, place in zip(table["crane"], self.rest.cranes):
            own = {"bay": place.bay, "from": crane.get("from", 1), "name": place.name, "ready": place.ready,
                   "to": crane.get("to", len(hatches))}
            lines += ["", "[[crane]]"] + [f"{key} = {toml(value)}" for key, value in own.items()]
        return "".join(line + "\n" for line in lines)

    def stow_text(self, ship, stow):
        left, lines = {(task.hatch, task.phase) for task in self.rest.tasks}, ["id,move,cell,length"]
        for ident, kind, text, length in moves_of(stow):
            cell = int(text[:-4]), int(text[-4:-2]), int(text[-2:])
            hold = cell[2] < 70
            phase = {"D": "DH" if hold else "DD", "L": "LH" if hold else "LD"}[kind]
            if (ship.hatch_of(cell[0]), phase) in left:
                lines.append(f"{ident},{kind},{cell_text(cell)},{length}")
        return "".join(line + "\n" for line in lines)

    def files(self, ship, table, stow):
        """The three files."""
        return [text.encode("latin-1") for text in (self.ship_text(table), self.stow_text(ship, stow), plan_text(self.rest, self.old))]

    def union(self, schedule, ends=None):
        """An instance and a plan of the whole: what has a start as it was, each as long as it took or is taken to, and the
        rest by a schedule of it."""
        ends, taken = ends or self.ends, list(self.inst.tasks)
        made = [None] * len(taken)
        for j, end in ends.items():
            made[j] = self.plan[j][0], self.course.start[j]
            taken[j] = replace(taken[j], ticks=end - self.course.start[j])
        for j, (crane, start) in zip(self.left, schedule):
            made[j] = crane, self.now + start
        return replace(self.inst, tasks=tuple(taken)), made


def toml(value):
    if isinstance(value, list):
        return "[" + ", ".join(map(toml, value)) + "]"
    return f'"{value}"' if isinstance(value, str) else str(value)


def opened(files):
    """Of the bytes of ship, list, plan and log, None for one that isn't there: the ship, its table and what is left, and
    None; or the status and the report of what is refused before."""
    names = ("ship", "stow", "plan", "log")
    for at, name in enumerate(names[:2]):
        if files[at] is None:
            return None, (3, [f"ReadFault {name}"])
        if name == "ship":
            ship, fault = ship_or_fault(files[0])
            if fault:
                return None, (5, [fault])
    fault = list_fault(ship, files[1])
    if fault:
        return None, (6, [fault])
    fault = ring_fault(ship, files[1])
    if fault:
        return None, (5, [fault])
    if files[2] is None:
        return None, (3, ["ReadFault plan"])
    inst = instance_of(ship, files[1])
    status, lines, course = follow(inst, files[2], b"" if files[3] is None else files[3])
    if status in (8, 13):
        return None, (status, lines)
    if files[3] is None:
        return None, (3, ["ReadFault log"])
    if status:
        return None, (status, lines)
    return (ship, read_table(files[0]), Rest(inst, course.plan, course)), None


def answer(files):
    """Status, report and the three files, None where none is written."""
    found, refused = opened(files)
    if refused:
        return *refused, None
    ship, table, rest = found
    kind = rest.refusal("places" in table)
    if kind:
        return 20, [f"NoRest {kind}"], None
    return 0, rest.report(), rest.files(ship, table, files[1])


def main():
    files = [open(path, "rb").read() for path in sys.argv[1:5]]
    status, lines, made = answer(files)
    print("\n".join(lines))
    for path, data in zip(sys.argv[5:8], made or ()):
        with open(path, "wb") as file:
            file.write(data)
    sys.exit(status)


if __name__ == "__main__":
    main()
