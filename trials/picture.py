#!/usr/bin/env python3
"""A second opinion of `picture` and `report`, and a look at every example's drawing.

    trials/picture.py [--program FILE] [--png FOLDER]
    trials/picture.py --draw SHIP STOW PLAN
    trials/picture.py --rows SHIP STOW PLAN

The first form plans each example by the program, takes its plan to and fro too where it has one, draws the plans and
reports them, and tells of each drawing whether it is well-formed XML with as many boxes as there are tasks, whether it
and the figures are those of this page, and whether `rsvg-convert` (Debian's librsvg2-bin) renders it, into FOLDER where
one is named. It ends with 1 where one isn't so. On random ships and plans compare.py asks the same of both texts.

The others print what this page draws and reports of a feasible plan. Where its cranes stand is worked out by
reference.py, and by free.py where it goes to and fro, in half ticks. They take no program. Which one FILE is, tried.py
says.
"""
import argparse
import pathlib
import shutil
import subprocess
import sys
import tempfile
import xml.etree.ElementTree as tree

sys.dont_write_bytecode = True  # no folder of compiled files beside the scripts

from free import FreeMotion, first_break
from reference import PHASES, direction_of, end_of, instance_of, motion_of, moves_of, read_plan, read_ship
from tried import add_program, program_of

INKS = ["#1f3a93", "#b3261e", "#1b7837", "#762a83", "#8c510a", "#01665e", "#c51b7d", "#333333"]
TINTS = ["#c6d2f2", "#f4c7c9", "#c9e8cf", "#e3cfe8", "#ecd9bd", "#c3e6e2", "#f6cfe4", "#d9d9d9"]
COLOURS = {"DD": "#9ecae1", "DH": "#3182bd", "LH": "#e6550d", "LD": "#fdbe85"}
HEADS = ["tasks", "moves", "not ready", "work", "moving", "waiting", "idle", "end", "share, 0.1 %"]


class Plan:
    """What is drawn of a feasible plan. Tracks are pairs of a moment and a place, in ticks and in places times travel, or
    both in halves of these where it goes to and fro."""

    def __init__(self, ship, stow, inst, plan):
        self.hatches, self.places, self.travel, self.gap = ship.hatches, ship.places, ship.travel, ship.gap
        self.cranes = inst.cranes
        self.tasks = [(task.hatch, PHASES.index(task.phase), crane, start, start + task.ticks)
                      for task, (crane, start) in zip(inst.tasks, plan)]
        self.held = [(task.name, task.hatch, task.release) for task, (crane, start) in zip(inst.tasks, plan)
                     if start == task.release > self.there(inst, plan, task, crane, start)]
        self.end = end_of(inst, plan)
        way, _ = direction_of(inst, plan)
        self.way, self.parts = way and f"direction {way}", 1 if way else 2
        self.tracks = tracks_of(inst, plan, way)
        self.moves = {}
        for _, kind, cell, _ in moves_of(stow):
            phase = PHASES.index(kind + ("D" if int(cell[-2:]) >= 70 else "H"))
            hatch = ship.hatch_of(int(cell[:-4]))
            self.moves[hatch, phase] = self.moves.get((hatch, phase), 0) + 1

    def there(self, inst, plan, task, crane, start):
        """When the crane of a task can be there, from its start bay and from those of its tasks that start before."""
        data, way = inst.cranes[crane], lambda bay: inst.travel * abs(bay - task.bay)
        return max([data.ready + way(data.bay)] + [begun + other.ticks + way(other.bay)
                                                   for other, (doer, begun) in zip(inst.tasks, plan)
                                                   if doer == crane and begun < start])

    def figures(self, k):
        mine = [t for t in self.tasks if t[2] == k]
        work = sum(t[4] - t[3] for t in mine)
        last = max((t[4] for t in mine), default=0)
        ready = min(self.cranes[k].ready, self.end)
        done = max(last, ready)
        d = self.parts
        parts = sum(max(0, min(v[0], d * done) - max(u[0], d * ready))
                    for u, v in zip(self.tracks[k], self.tracks[k][1:]) if u[1] != v[1])
        assert parts % d == 0
        moving = parts // d
        total = sum(t[4] - t[3] for t in self.tasks) or 1
        waiting = done - ready - work - moving
        assert ready + work + moving + waiting + self.end - done == self.end and waiting >= 0
        return [len(mine), sum(self.moves[t[0], t[1]] for t in mine), ready, work, moving, waiting, self.end - done,
                last, 1000 * work // total]

    def rows(self):
        yield "crane,tasks,moves,not_ready,work,moving,waiting,idle,end,share"
        for k, crane in enumerate(self.cranes):
            yield ",".join([crane.name] + [str(n) for n in self.figures(k)])

    def draw(self):
        """The lines of the drawing."""
        t, end = self.travel, max(self.end, 1)
        wide = min((b - a for a, b in zip(self.places, self.places[1:])), default=1) * t
        half = self.gap * t
        edges = [2 * b * t + s * wide for b in self.places for s in (-1, 1)]
        fine = 2 // self.parts
        edges += [fine * p + s * half for track in self.tracks for _, p in track for s in (-1, 1)]
        low, high = min(edges), max(edges)
        across = lambda q: 900 + 14400 * (q - low) // (high - low)
        down = lambda m: 1500 + 9600 * m // end
        point = lambda m: 1500 + 9600 * m // (self.parts * end)
        column = lambda b: (across(2 * b * t - wide), across(2 * b * t + wide))
        place = dict(zip(self.hatches, self.places))
        count = len(self.cranes)

        def rect(x, y, width, height, rest):
            return f'<rect x="{x}" y="{y}" width="{width}" height="{height}" {rest}'

        def line(x1, y1, x2, y2, rest):
            return f'<line x1="{x1}" y1="{y1}" x2="{x2}" y2="{y2}" {rest}/>'

        def text(x, y, style, words):
            return f'<text x="{x}" y="{y}" {style}>{words}</text>'

        height = 12050 + 200 * (count + 1)
        yield (f'<svg xmlns="http://www.w3.org/2000/svg" viewBox="0 0 16200 {height}" '
               'font-family="sans-serif" font-size="150">')
        yield rect(0, 0, 16200, height, 'fill="#ffffff"/>')
        yield text(900, 330, 'font-size="260"', f"end {self.end}")
        if self.way:
            yield text(4300, 330, 'font-size="260"', self.way)
        for x, phase, words in [(900, "DD", "DD deck discharge"), (2700, "DH", "DH hold discharge"),
                                (4500, "LH", "LH hold load"), (5950, "LD", "LD deck load")]:
            yield rect(x, 560, 180, 180, f'fill="{COLOURS[phase]}" stroke="#333333" stroke-width="16"/>')
            yield text(x + 240, 705, 'fill="#000000"', words)
        yield line(7400, 650, 7800, 650, 'stroke="#333333" stroke-width="24"')
        yield text(7880, 705, 'fill="#000000"', "a crane")
        yield line(8600, 650, 9000, 650, 'stroke="#333333" stroke-width="24" stroke-dasharray="70 70"')
        yield text(9080, 705, 'fill="#000000"', "not ready")
        yield rect(9900, 560, 400, 180, 'fill="#c6d2f2"/>')
        yield text(10380, 705, 'fill="#000000"', "half the gap to each side: bands may touch")
        yield text(900, 960, 'font-weight="bold"', "bow")
        yield text(15300, 960, 'font-weight="bold" text-anchor="end"', "stern")
        for y, word in [(1130, "hatch"), (11500, "hatch"), (11680, "place")]:
            yield text(840, y, 'text-anchor="end" fill="#666666"', word)
        for i, (hatch, bay) in enumerate(zip(self.hatches, self.places)):
            left, right = column(bay)
            middle = (left + right) // 2
            size, small = (150, 120) if right - left >= 500 else (90, 80)
            yield rect(left, 1500, right - left, 9600, f'fill="{"#f7f7f7" if i % 2 else "#efefef"}"/>')
            yield text(middle, 1130, f'font-size="{size}" text-anchor="middle"', hatch)
            yield text(middle, 11500, f'font-size="{size}" text-anchor="middle"', hatch)
            yield text(middle, 11680, f'font-size="{small}" fill="#666666" text-anchor="middle"', bay)
        step = next(s for p in range(12) for s in (10**p, 2 * 10**p, 5 * 10**p) if end // s <= 12)
        for m in range(0, self.end + 1, step):
            yield line(900, down(m), 15300, down(m), 'stroke="#c4c4c4" stroke-width="8"')
            yield text(840, down(m) + 50, 'text-anchor="end"', m)
        for k, track in enumerate(self.tracks):
            band = [(across(fine * p - half), point(m)) for m, p in track]
            band += [(across(fine * p + half), point(m)) for m, p in reversed(track)]
            points = "".join(f" {x},{y}" for x, y in band)
            yield f'<polygon fill="{TINTS[k % 8]}" fill-opacity="0.6" points="{points}"/>'
        phases = list(COLOURS)
        for hatch, phase, k, start, stop in self.tasks:
            left, right = column(place[hatch])
            inset = min(20, (right - left) // 4)
            told = f'{hatch}-{phases[phase]} {self.cranes[k].name} {start} to {stop}'
            yield rect(left + inset, down(start), right - left - 2 * inset, down(stop) - down(start),
                       f'fill="{COLOURS[phases[phase]]}" stroke="{INKS[k % 8]}" stroke-width="16">'
                       f"<title>{told}</title></rect>")
        for name, hatch, tick in self.held:
            left, right = column(place[hatch])
            yield (f'<line x1="{left}" y1="{down(tick)}" x2="{right}" y2="{down(tick)}" stroke="#8c8c8c" stroke-width="16" '
                   f'stroke-dasharray="60 40"><title>{name} not before {tick}</title></line>')
        for k, track in enumerate(self.tracks):
            points = "".join(f" {across(fine * p)},{point(m)}" for m, p in track)
            for ink, width in [("#ffffff", 44), (INKS[k % 8], 24)]:
                yield f'<polyline fill="none" stroke="{ink}" stroke-width="{width}" points="{points}"/>'
            x, ready = across(fine * track[0][1]), min(self.cranes[k].ready, self.end)
            yield line(x, 1500, x, down(ready), 'stroke="#ffffff" stroke-width="24" stroke-dasharray="70 70"')
        for hatch, phase, k, start, stop in self.tasks:
            left, right = column(place[hatch])
            tall = down(stop) - down(start)
            if tall >= 110:
                words = phases[phase] + (f" {stop - start}" if right - left >= 800 else "")
                yield text((left + right) // 2, down(start) + tall // 2 + 45, 'font-size="130" text-anchor="middle" '
                           'stroke="#ffffff" stroke-width="30" paint-order="stroke"', words)
        for k, track in enumerate(self.tracks):
            style = f'font-size="170" font-weight="bold" text-anchor="middle" fill="{INKS[k % 8]}"'
            yield text(across(fine * track[0][1]), 1440, style, self.cranes[k].name)
            yield text(across(fine * track[-1][1]), 11290, style, self.cranes[k].name)
        yield line(900, down(self.end), 15300, down(self.end), 'stroke="#000000" stroke-width="20"')
        yield text(900, 12190, 'fill="#666666"', "crane")
        for i, head in enumerate(HEADS):
            yield text(3300 + 1500 * i, 12190, 'text-anchor="end" fill="#666666"', head)
        for k, crane in enumerate(self.cranes):
            yield text(900, 12390 + 200 * k, f'font-weight="bold" fill="{INKS[k % 8]}"', crane.name)
            for i, figure in enumerate(self.figures(k)):
                yield text(3300 + 1500 * i, 12390 + 200 * k, 'text-anchor="end"', figure)
        yield "</svg>"


def tracks_of(inst, plan, way):
    """The waypoints of each crane, in the order of the cranes."""
    if way is None:
        motion = FreeMotion(inst, plan)
        return [motion.waypoints(k) for k in range(len(inst.cranes))]
    motion = motion_of(inst, plan, way)
    tracks = [motion.waypoints(k) for k in range(len(inst.cranes))]
    if way == "up":
        return tracks
    wall = inst.travel * (inst.bays + 1)
    return [[(at, wall - place) for at, place in track] for track in reversed(tracks)]


def answer(stow, ship, inst, data, drawn):
    """Status and lines of `picture`, or of `report`, on a plan's file."""
    plan, fault = read_plan(inst, data)
    if fault:
        return 8, [f"BadPlan {fault[0]} {fault[1]}"]
    broken = first_break(inst, plan)
    if broken:
        return 13, [" ".join(["Broken", broken[0]] + [inst.tasks[j].name for j in broken[1:]])]
    plan = Plan(ship, stow, inst, plan)
    return 0, list(plan.draw() if drawn else plan.rows())


def plans_of(program, folder, work):
    """The plans of an example with their names: the one that is found, and the one to and fro."""
    plan, fro = work / "plan", folder / "there-and-back.csv"
    plan.unlink(missing_ok=True)
    subprocess.run([program, "plan", folder / "ship.toml", folder / "stow.csv", plan, work / "tree"], capture_output=True)
    return [(name, path) for name, path in ((folder.name, plan), (f"{folder.name} there and back", fro)) if path.exists()]


def look(program, folder, name, plan, work, png):
    """What is wrong with the drawing and the figures of an example's plan."""
    ship, stow = folder / "ship.toml", folder / "stow.csv"
    call = lambda *words: subprocess.run([program, *map(str, words)], capture_output=True, text=True)
    drawn, told = call("picture", ship, stow, plan), call("report", ship, stow, plan)
    files = ship.read_bytes(), stow.read_bytes()
    inst = instance_of(read_ship(files[0]), files[1])
    wrong = []
    if len(tree.fromstring(drawn.stdout).findall(".//{*}rect/{*}title")) != len(inst.tasks):
        wrong.append(f"not a box for each of {len(inst.tasks)} tasks")
    for ran, is_drawn, what in ((drawn, True, "drawing"), (told, False, "figures")):
        due = answer(files[1], read_ship(files[0]), inst, plan.read_bytes(), is_drawn)
        if (ran.returncode, ran.stdout.splitlines()) != due:
            wrong.append(f"other {what} than here, status {ran.returncode}")
    if shutil.which("rsvg-convert"):
        target = png / f"{name}.png" if png else work / "png"
        if subprocess.run(["rsvg-convert", "-w", "1620", "-o", target], input=drawn.stdout, text=True).returncode:
            wrong.append("it isn't rendered")
    return wrong


def tell(paths, is_drawn):
    """Prints what this page draws or reports of a plan, and gives the status."""
    ship, stow, plan = (path.read_bytes() for path in paths)
    status, lines = answer(stow, read_ship(ship), instance_of(read_ship(ship), stow), plan, is_drawn)
    print("\n".join(lines))
    return status


def look_at_all(program, png):
    """Looks at the drawings of all examples; 1 where one isn't as it must be."""
    if png:
        png.mkdir(parents=True, exist_ok=True)
    here = pathlib.Path(__file__).resolve().parent.parent
    failed = 0
    with tempfile.TemporaryDirectory() as work:
        for folder in sorted(p for p in (here / "examples").iterdir() if (p / "ship.toml").exists()):
            for name, plan in plans_of(program, folder, pathlib.Path(work)):
                wrong = look(program, folder, name, plan, pathlib.Path(work), png)
                failed += bool(wrong)
                print(f"{name}: " + ("; ".join(wrong) or "ok"))
    return 1 if failed else 0


def main():
    parser = argparse.ArgumentParser(description="drawings and figures of plans")
    add_program(parser)
    parser.add_argument("--png", type=pathlib.Path, metavar="FOLDER")
    parser.add_argument("--draw", nargs=3, type=pathlib.Path, metavar=("SHIP", "STOW", "PLAN"))
    parser.add_argument("--rows", nargs=3, type=pathlib.Path, metavar=("SHIP", "STOW", "PLAN"))
    words = parser.parse_args()
    if words.draw or words.rows:
        return tell(words.draw or words.rows, bool(words.draw))
    return look_at_all(program_of(words), words.png)


if __name__ == "__main__":
    sys.exit(main())
