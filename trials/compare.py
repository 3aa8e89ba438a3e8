#!/usr/bin/env python3
"""Compares every command of the built program but `make` and `moves` with the second opinion on random small ships.

    trials/compare.py KEPT [--program FILE] [--first SEED] [--count SHIPS] [--workers N] [--minutes M] [--wide]
        [--without KEY]

Each seed makes one ship and its list. `tasks`; `plan` and `free` with several numbers of branchings, from nothing,
from one's own plan and from one that breaks a rule; `check` and `freecheck` on what they wrote, on changed plans, and
on trees that were changed or made here; `show`, `sheet`, `dispatch`, `picture` and `report` on plans of one way, to
and fro, slowed and broken; `watch`, `dispatch` and `rest` on logs, and `odds` on past tasks, a third of them spoilt.
Every report and every file is compared with what reference.py, free.py, picture.py, chances.py and replan.py work out
from the definitions. The search of `free` is made here once more, node by node, and where a ship is tiny its end is
compared with the least one of all plans, by trying every choice and order. Of each difference the files and the two
answers are kept in a folder under KEPT. Prints counts and the first differences; status 1 where there is any. With
`--wide` the ships have 8 to 18 tasks, and least ends aren't known; with `--without KEY` none has that key. Which
program FILE is, tried.py says.
"""
import argparse
import multiprocessing
import random
import shutil
import subprocess
import sys
import tempfile
import time
import traceback
from collections import Counter
from fractions import Fraction
from pathlib import Path

sys.dont_write_bytecode = True  # no folder of compiled files beside the scripts

from chances import odds_report
from faults import ring_fault
from free import (FreeMotion, FreeNode, FreeReader, FreeSearch, first_break, free_crane_lines, freecheck_report, tight_free)
from freely import random_part as random_free_part
from judges import SearchJudge, first_unsafe, given_told, is_tight, tight_form
from odds import random_past, spoilt_past
from packed import bare, least_feasible_end
from picture import answer as drawing, tracks_of
from reference import (NEVER, TreeFault, TreeReader, bound_text, check_report, crane_lines, direction_of, dispatch_notes,
                       dispatch_report, end_of, instance_of, least_end, motion_of, plan_text, read_log, read_plan, read_ship, refusal,
                       sheet_report, show_report, tasks_report, too_near, watch_report)
from replan import answer as rest_of
from ships import (KEYS, Maker, add_without, changed_plans, changed_trees, dense_files, happenings, reported, reported_along, slowed,
                   spoilt_happenings, spoilt_places, text_of)
from tried import add_program, commands_of, program_of

SEARCHED = 250  # branchings of a tree whose search is made here once more
TINY = 700      # choices of cranes that are all tried


# ---------------------------------------------------------------- free trees

def spoilt_tree(text, rng):
    """The bytes of a free tree with one change."""
    lines = text.decode().splitlines()
    at = rng.randrange(len(lines))
    words = lines[at].split()
    way = rng.choice(("number", "number", "number", "drop", "twice", "swap", "line", "title", "cut", "more", "turn"))
    if way == "number" and words[1:] and at:
        which = rng.randrange(1, len(words))
        words[which] = str(max(0, int(words[which]) + rng.choice((-1, 1, -2, 2)))) if words[which].isdigit() else "0"
        lines[at] = " ".join(words)
    elif way == "drop":
        del lines[at]
    elif way == "twice":
        lines.insert(at, lines[at])
    elif way == "swap":
        other = rng.randrange(len(lines))
        lines[at], lines[other] = lines[other], lines[at]
    elif way == "line":
        lines[at] = rng.choice(("P", "X", "W 1", "W 50", "P 1", "P 1 2", "C 1 2", "Q 1", "Q 1 2", "Q 2 1", "A 1", "O 1 2",
                                "O 2 1", "up", "down", "P 01", "Q 1 1", "P" + " 1" * rng.choice((240, 241, 599, 600))))
    elif way == "title":
        lines[0] = rng.choice(("QCTREE 2", "QCTREE 3", "QCFREE 2", "QCFREE 1 ", "up"))
    elif way == "turn" and words[2:]:
        lines[at] = " ".join(words[:1] + words[:0:-1])
    new = text_of(lines)
    if way == "cut":
        return new[:rng.randrange(len(new))]
    return new + rng.choice((b"\n", b"x", b"end 0 0\n")) if way == "more" else new


def mended_free(inst, text):
    """The free tree with the last line that it should have, where that is all that is wrong with it."""
    reader = FreeReader(inst, text)
    try:
        reader.read()
    except TreeFault as fault:
        if fault.kind == "Counts":
            lines = text.decode().splitlines()
            lines[-1] = f"end {reader.branched} {bound_text(reader.value)}"
            return text_of(lines)
    return text


def free_trees(inst, text, rng):
    """Bytes of free trees: a random one, and the given one and that spoilt."""
    lines = ["QCFREE 1"]
    random_free_part(FreeNode(inst), lines, rng)
    made = mended_free(inst, text_of(lines + ["end 0 0"]))
    yield made
    for tree in (text, text, text, made, made):
        changed = spoilt_tree(tree, rng)
        yield mended_free(inst, changed) if rng.random() < 0.5 else changed


# ---------------------------------------------------------------- the comparison

class Case:
    """One ship and list in a folder of their own, and what differs."""

    def __init__(self, program, known, seed, kept, wide):
        self.program, self.known, self.seed, self.kept, self.wide = program, known, seed, kept, wide
        self.rng, self.counts, self.differences = random.Random(seed), Counter(ships=1), []
        base = "/dev/shm" if Path("/dev/shm").is_dir() else None
        self.folder = Path(tempfile.mkdtemp(prefix="compare-", dir=base))
        if not wide and self.rng.random() < 0.4:
            ship, stow = dense_files(self.rng)
        else:
            maker = Maker(self.rng, wide)
            ship, stow = maker.ship(), maker.stowage()
        self.write("ship", ship.encode())
        self.write("stow", stow.encode())
        self.ship = read_ship(self.read("ship"))
        self.inst = instance_of(self.ship, self.read("stow"))
        self.ring = ring_fault(self.ship, self.read("stow"))

    def write(self, name, data):
        (self.folder / name).write_bytes(data)

    def read(self, name):
        path = self.folder / name
        return path.read_bytes() if path.exists() else None

    def run(self, *words):
        done = subprocess.run([self.program, *words], cwd=self.folder, capture_output=True, timeout=300)
        lines, self.said = done.stdout.decode().splitlines(), done.stderr.decode().splitlines()
        first = lines[0].split() if lines else [""]
        kind = " ".join(first[:2] if first[0] in ("Broken", "BadPlan", "BadTree", "BadLog", "BadPast", "NoRest", "direction") else first[:1])
        kind = kind if words[0] not in ("tasks", "sheet", "dispatch", "picture", "report", "odds", "rest") or done.returncode else ""
        self.counts[f"{words[0]}: {kind} status {done.returncode}"] += 1
        return done.returncode, lines

    def expect(self, what, seen, due):
        """Notes a difference, with all files as they stand."""
        if seen == due:
            return
        self.differences.append(what)
        place = self.kept / f"{self.seed}-{len(self.differences)}"
        shutil.copytree(self.folder, place, dirs_exist_ok=True)
        (place / "difference").write_text(f"{what}\nprogram:   {seen}\nreference: {due}\n")

    def compare(self):
        if self.ring:
            for words in (["tasks"], ["plan", "plan.csv", "tree.txt"], ["free", "plan.csv", "tree.txt"], ["show", "plan.csv"]):
                words[1:1] = ["ship", "stow"]
                self.expect(words[0], self.run(*words), (5, [self.ring]))
            shutil.rmtree(self.folder)
            return self.differences
        least = None if self.wide else least_end(self.inst)
        if not self.wide:
            self.counts["ships without a one-way plan" if least == NEVER else "ships with a one-way plan"] += 1
        self.expect("tasks", self.run("tasks", "ship", "stow"), tasks_report(self.inst))
        self.one_way(least)
        self.to_and_fro(least)
        self.watch()
        shutil.rmtree(self.folder)
        return self.differences

    # ------------------------------------------------ plans of one way

    def one_way(self, least):
        for nodes in (0, self.rng.randint(2, 60), 150) if self.wide else (0, 1, 5, self.rng.randint(2, 40), None):
            self.plan(nodes, least)
            if nodes in (150, None) or self.rng.random() < 0.2:
                self.check("plan.csv" if self.read("plan.csv") else "-")
            if self.read("plan.csv") and self.rng.random() < 0.5:
                self.plan_from(nodes, least)
        plan, tree = self.read("plan.csv"), self.read("tree.txt")
        slots = read_plan(self.inst, plan)[0] if plan else None
        if plan:
            self.look()
        for text in changed_plans(self.inst, slots, self.rng) if self.rng.random() < 0.5 else ():
            self.write("plan.csv", text.encode())
            self.check("plan.csv")
            if self.rng.random() < 0.2:
                self.look()
        if plan:
            self.write("plan.csv", plan)
        for data in changed_trees(self.inst, tree, self.rng) if self.rng.random() < 0.5 else ():
            self.write("tree.txt", data)
            self.check("plan.csv" if plan and self.rng.random() < 0.5 else "-")

    def plan_from(self, nodes, least):
        """One run of `plan` that begins with the plan that is there, slowed down, or with one that breaks a rule."""
        if self.differences:
            return  # what is there may be no plan
        own = slowed(read_plan(self.inst, self.read("plan.csv"))[0], self.rng)
        self.write("own.csv", plan_text(self.inst, own).encode())
        self.plan(nodes, least, own)
        broken = [(crane, max(0, start - self.rng.randint(0, 3))) for crane, start in own]
        if own and direction_of(self.inst, broken)[1]:
            self.from_broken("plan", broken, refusal(self.inst, plan_text(self.inst, broken).encode())[2])

    def from_broken(self, command, broken, due):
        """A plan of one's own that breaks a rule is refused, and the files stay."""
        self.write("own.csv", plan_text(self.inst, broken).encode())
        before = self.read("plan.csv"), self.read("tree.txt")
        seen = self.run(command, "ship", "stow", "plan.csv", "tree.txt", "--from", "own.csv")
        self.expect(f"{command} from a broken plan", seen, due)
        self.expect(f"{command} from a broken plan: files", (self.read("plan.csv"), self.read("tree.txt")), before)

    def searched(self, command, nodes, own):
        """Runs `plan` or `free` over no older files; None branchings stand for those that it takes by itself."""
        for name in ("plan.csv", "tree.txt"):
            (self.folder / name).unlink(missing_ok=True)
        option = [] if nodes is None else ["--nodes", str(nodes)]
        option += [] if own is None else ["--from", "own.csv"]
        return f"{command} {option}", self.run(command, "ship", "stow", "plan.csv", "tree.txt", *option)

    def plan(self, nodes, least, own=None):
        name, seen = self.searched("plan", nodes, own)
        nodes, given = 20_000 if nodes is None else nodes, given_told(seen[1])
        if self.goes_on(nodes, given):
            self.rounds(name, nodes, seen, TreeReader(self.inst, self.read("tree.txt") or b""),
                        lambda slots: direction_of(self.inst, slots)[1] or (not is_tight(self.inst, slots) or None))
            return
        judge = SearchJudge(self.inst, nodes, given)
        if own is not None:
            self.counts["plans from one's own"] += 1
            self.expect(f"{name}: given no later", judge.met <= end_of(self.inst, tight_form(self.inst, own)), True)
        if not self.wide and judge.met < NEVER:
            self.counts[f"given {'the least end' if given == least else 'a later end'}"] += 1
            self.expect(f"{name}: given a plan", least <= given, True)
        try:
            reader = TreeReader(self.inst, self.read("tree.txt"), judge.visit).read()
        except TreeFault as fault:
            self.expect(f"{name}: tree", seen, ("BadTree", fault.kind, fault.line))
            return
        self.counted("", judge)
        self.expect(f"{name}: nodes", judge.complaints, [])
        word = self.answered(name, seen, reader, judge, given, lambda plan: self.written(name, plan, judge))
        if word == "Budget":
            self.expect(f"{name}: branchings spent", reader.branched, nodes)
            self.expect(f"{name}: bound at most the least end", self.wide or reader.value <= least, True)
        elif not self.wide:
            self.expect(f"{name}: least end", reader.value, least)
        most = 2 * max(2, len(self.inst.cranes)) ** (len(self.inst.tasks) + len(self.inst.apart))
        if nodes >= most:
            self.counts["branchings enough for an answer"] += 1
            self.expect(f"{name}: answered", word != "Budget", True)

    def goes_on(self, nodes, given):
        """Whether a search may go on in rounds, each with an aim and a number of branchings of its own."""
        return given is not None and nodes >= 8 and len(self.inst.tasks) > 19

    def rounds(self, name, nodes, seen, reader, break_of):
        """Looks at what the tree, the plan and the report of rounds say together; the tree is read, and not judged."""
        self.counts["searches that may go on in rounds"] += 1
        try:
            reader.read()
        except TreeFault as fault:
            self.expect(f"{name}: tree", seen, ("BadTree", fault.kind, fault.line))
            return
        told = dict(line.split(" ", 1) for line in seen[1] if " " in line)
        self.expect(f"{name}: bound", told.get("bound"), str(reader.value))
        branched = int(told.get("branched", -1))
        least, most = (nodes, nodes) if seen[1][0] == "Budget" else (reader.branched, nodes)
        self.expect(f"{name}: branchings", least <= branched <= most, True)
        slots, fault = read_plan(self.inst, self.read("plan.csv") or b"")
        self.expect(f"{name}: plan file", fault, None)
        if not fault:
            self.expect(f"{name}: end", told.get("end"), str(end_of(self.inst, slots)))
            self.expect(f"{name}: plan holds", break_of(slots), None)

    def counted(self, kind, judge):
        self.counts[f"{kind}nodes judged"] += judge.branched + judge.leaves.total()
        for leaf, count in judge.leaves.items():
            self.counts[f"{kind}nodes judged that are leaves {leaf}"] += count

    def answered(self, name, seen, reader, judge, given, told):
        """Compares a report with what the tree and the plan say; `told`: the lines that a plan's file gives."""
        word, status = judge.status(reader.value)
        lines = [word]
        if word != "Infeasible":
            lines += [f"end {judge.met}"] * (judge.met < NEVER) + [f"bound {reader.value}"]
        lines.append(f"branched {reader.branched}")
        plan = self.read("plan.csv")
        self.expect(f"{name}: a plan is written", plan is not None, judge.met < NEVER)
        if plan:
            lines.append("given none" if given is None else f"given {given}")
            lines += told(plan)
        self.expect(f"{name}: report", seen, (status, lines))
        return word

    def written(self, name, plan, judge):
        """What the report says behind the branchings of the plan of one way that was written."""
        slots, fault = read_plan(self.inst, plan)
        if fault:
            self.expect(f"{name}: plan file", fault, None)
            return []
        self.expect(f"{name}: plan text", plan.decode(), plan_text(self.inst, slots))
        self.expect(f"{name}: the given one or one of the best met", judge.is_given or slots in judge.best, True)
        self.expect(f"{name}: end", end_of(self.inst, slots), judge.met)
        way, broken = direction_of(self.inst, slots)
        self.expect(f"{name}: goes one way", broken, None)
        if broken:
            return []
        self.expect(f"{name}: tight", is_tight(self.inst, slots), True)
        if end_of(self.inst, slots) <= 150 and self.rng.random() < 0.2:
            self.counts["motions judged at every third of a tick"] += 1
            self.expect(f"{name}: safe", first_unsafe(motion_of(self.inst, slots, way), 3), None)
        return [f"direction {way}"] + crane_lines(self.inst, slots, way)

    def check(self, plan):
        """`check` with the plan, or with `-`, on the files as they stand."""
        data = self.read(plan) if plan != "-" else None
        due = check_report(self.inst, data, self.read("tree.txt"))
        self.expect(f"check {plan}", self.run("check", "ship", "stow", plan, "tree.txt"), due)

    # ------------------------------------------------ what is shown of a plan

    def look(self):
        """The commands that show a plan, on that which is there."""
        plan, stow = self.read("plan.csv"), self.read("stow")
        dues = [("show", show_report(self.inst, plan)), ("sheet", sheet_report(self.ship, stow, self.inst, plan)),
                ("picture", drawing(stow, self.ship, self.inst, plan, True)),
                ("report", drawing(stow, self.ship, self.inst, plan, False))]
        for command, due in dues:
            self.expect(command, self.run(command, "ship", "stow", "plan.csv"), due)
        slots, _ = read_plan(self.inst, plan)
        lines = happenings(self.rng, self.inst, slots or [])
        if slots is None or self.rng.random() < 0.33:
            log = spoilt_happenings(self.rng, lines)
        else:
            log = b"".join(line + b"\n" for line in lines)
        self.write("log", log)
        self.expect("dispatch", self.run("dispatch", "ship", "stow", "plan.csv", "log"), dispatch_report(self.inst, plan, log))
        notes = [line.removeprefix("qc: note: ") for line in self.said if " waits with " in line or " may begin " in line]
        self.counts["notes of what cranes wait for"] += len(notes)
        self.expect("what cranes wait for", notes, dispatch_notes(self.inst, plan, log))
        if "rest" in self.known:
            self.rest(plan, log)
        if "odds" in self.known:
            self.odds(plan)

    def rest(self, plan, log):
        """What is left behind the log, and its three files."""
        names = "new-ship", "new-stow", "new-own"
        for name in names:
            (self.folder / name).unlink(missing_ok=True)
        status, lines, made = rest_of([self.read("ship"), self.read("stow"), plan, log])
        seen = self.run("rest", "ship", "stow", "plan.csv", "log", *names)
        self.expect("rest", seen, (status, lines))
        self.expect("rest: files", [self.read(name) for name in names], made or [None] * 3)

    def odds(self, plan):
        past, rng = random_past(self.rng, self.inst), self.rng
        if rng.random() < 0.33:
            past = spoilt_past(rng, past)
        self.write("past", past)
        runs, seed, by = rng.choice((1, 2, 5)), rng.randrange(2 ** 31), rng.randint(0, 200)
        words = ["--runs", str(runs), "--seed", str(seed), "--by", str(by)]
        due = odds_report(self.inst, plan, past, runs, seed, by)
        self.expect("odds", self.run("odds", "ship", "stow", "plan.csv", "past", *words), due)

    # ------------------------------------------------ plans to and fro

    def to_and_fro(self, one_way):
        """`free` and `freecheck`; `one_way` is the least end of plans of one way, where that is known."""
        for nodes in (0, self.rng.randint(2, 60)) if self.wide else (0, self.rng.randint(1, 40), None):
            if not self.free(nodes, one_way) or self.differences:
                continue
            self.freecheck("plan.csv" if self.read("plan.csv") and self.rng.random() < 0.8 else "-")
            if self.read("plan.csv") and self.rng.random() < 0.5:
                self.free_from(nodes, one_way)
        plan, tree = self.read("plan.csv"), self.read("tree.txt")
        if self.differences or tree is None:
            return
        slots = read_plan(self.inst, plan)[0] if plan else None
        if plan:
            self.look()
        some = list(changed_plans(self.inst, slots, self.rng)) if self.rng.random() < 0.5 else []
        if plan:
            some.append(plan_text(self.inst, slowed(slots, self.rng)))
        for text in some:
            self.write("plan.csv", text.encode())
            self.freecheck("plan.csv")
            if self.rng.random() < 0.3:
                self.look()
        if plan:
            self.write("plan.csv", plan)
        for data in free_trees(self.inst, tree, self.rng) if self.rng.random() < 0.5 else ():
            self.write("tree.txt", data)
            self.freecheck("plan.csv" if plan and self.rng.random() < 0.5 else "-")

    def free_from(self, nodes, one_way):
        """One run of `free` that begins with the plan that is there, slowed down, or with one that breaks a rule."""
        own = slowed(read_plan(self.inst, self.read("plan.csv"))[0], self.rng)
        self.write("own.csv", plan_text(self.inst, own).encode())
        self.free(nodes, one_way, own)
        broken = [(crane, max(0, start - self.rng.randint(0, 3))) for crane, start in own]
        if not self.differences and first_break(self.inst, broken):
            due = freecheck_report(self.inst, plan_text(self.inst, broken).encode(), b"")
            self.from_broken("free", broken, due)

    def free(self, nodes, one_way, own=None):
        """One run of `free`; whether it left a tree that holds."""
        start = self.first_plan(nodes, own)
        name, seen = self.searched("free", nodes, own)
        nodes, given = 20_000 if nodes is None else nodes, given_told(seen[1])
        self.counts["free from one's own"] += own is not None
        if self.goes_on(nodes, given):
            self.rounds(name, nodes, seen, FreeReader(self.inst, self.read("tree.txt") or b"", None),
                        lambda slots: first_break(self.inst, slots))
            return True
        judge = SearchJudge(self.inst, nodes, given)
        tree = self.read("tree.txt")
        many = tree is not None and tree.count(b"\n") > 2 * SEARCHED * (1 + len(self.inst.cranes))
        try:
            reader = FreeReader(self.inst, tree or b"", None if many else judge.visit).read()
        except TreeFault as fault:
            self.expect(f"{name}: tree", seen, ("BadTree", fault.kind, fault.line))
            return False
        if many:
            self.counts["free trees that were read alone"] += 1
            self.expect(f"{name}: bound and branchings", [f"bound {reader.value}", f"branched {reader.branched}"],
                        [line for line in seen[1] if line.split()[0] in ("bound", "branched")])
            return True
        self.counted("free ", judge)
        self.expect(f"{name}: nodes", judge.complaints, [])
        self.expect(f"{name}: given", given, None if start is None else end_of(self.inst, start))
        word = self.answered(name, seen, reader, judge, given, lambda plan: self.written_free(name, plan))
        if word == "Budget":
            self.expect(f"{name}: branchings spent", reader.branched, nodes)
        if reader.branched <= SEARCHED:
            self.search_again(name, nodes, start, tree)
        self.least(name, word, judge.met, one_way, reader.value)
        return True

    def first_plan(self, nodes, own):
        """The plan that `free` must begin with, or None: that of `plan` with as many branchings, from the own plan where
        it goes one way, or the own plan made tight where that ends no later."""
        one = None if own is None or direction_of(self.inst, own)[1] else own
        _, seen = self.searched("plan", nodes, one)
        found = self.read("plan.csv")
        best = read_plan(self.inst, found)[0] if found else None
        mine = tight_free(self.inst, own) if own is not None else None
        if mine is not None and (best is None or end_of(self.inst, mine) <= end_of(self.inst, best)):
            return mine
        return best

    def written_free(self, name, plan):
        """What the report says behind the branchings of the plan that was written."""
        slots, fault = read_plan(self.inst, plan)
        self.expect(f"{name}: plan file", fault, None)
        if fault:
            return []
        self.expect(f"{name}: plan text", plan.decode(), plan_text(self.inst, slots))
        self.expect(f"{name}: feasible", first_break(self.inst, slots), None)
        self.expect(f"{name}: tight", tight_free(self.inst, slots), slots)
        if end_of(self.inst, slots) <= 150 and self.rng.random() < 0.2:
            self.counts["motions to and fro judged at every third of a tick"] += 1
            self.expect(f"{name}: safe", FreeMotion(self.inst, slots).unsafe(3), None)
        return free_crane_lines(self.inst, slots)

    def search_again(self, name, nodes, start, tree):
        """The search in Python must go through the same nodes, and meet the same plan."""
        search = FreeSearch(self.inst, NEVER if start is None else end_of(self.inst, start), nodes)
        self.counts["free searches made again"] += 1
        self.counts["free branchings made again"] += search.branched
        lines = tree.decode().splitlines()
        self.counts["free branchings on a pair"] += sum(line[0] == "O" for line in lines)
        self.counts["free trees with other lists"] += lines != search.lines
        self.expect(f"{name}: lines", bare(lines), bare(search.lines))
        due = start if search.met is None else search.met
        plan = self.read("plan.csv")
        self.expect(f"{name}: plan", plan and read_plan(self.inst, plan)[0], due)
        self.counts["free plans that the search found"] += search.met is not None

    def least(self, name, word, end, one_way, bound):
        """Where there are few choices: the bound is at most the least end of all plans, and an answer is that end."""
        choices = 1
        for j in range(len(self.inst.tasks)):
            choices *= sum(self.inst.reaches(k, j) for k in range(len(self.inst.cranes)))
        if self.wide or word == "Budget" or len(self.inst.tasks) > 5 or choices > TINY:
            return
        least = least_feasible_end(self.inst, [None] * len(self.inst.tasks), end)
        self.counts["free ends compared with the least of all"] += 1
        self.counts["ships that only plans to and fro can do"] += least < one_way == NEVER
        self.counts["runs in which to and fro ends earlier"] += least < one_way < NEVER
        self.expect(f"{name}: least end", (bound, least), (least, end))

    def freecheck(self, plan):
        """`freecheck` with the plan, or with `-`, on the files as they stand."""
        data = self.read(plan) if plan != "-" else None
        due = freecheck_report(self.inst, data, self.read("tree.txt"))
        self.expect(f"freecheck {plan}", self.run("freecheck", "ship", "stow", plan, "tree.txt"), due)

    # ------------------------------------------------ logs of places

    def watch(self):
        plan = read_plan(self.inst, self.read("plan.csv"))[0] if self.read("plan.csv") else None
        for _ in range(2):
            if plan and not first_break(self.inst, plan) and self.rng.random() < 0.4:
                way = direction_of(self.inst, plan)[0]
                parts = 1 if way else 2
                tracks = [[(at // parts, place // parts) for at, place in track]
                          for track in tracks_of(self.inst, plan, way)]
                lines = reported_along(self.rng, self.ship, tracks)
            else:
                lines = reported(self.rng, self.ship)
            data = b"".join(line.encode() + b"\n" for line in lines)
            data = spoilt_places(self.rng, lines) if self.rng.random() < 0.33 else data
            self.write("places", data)
            seen = self.run("watch", "ship", "places")
            self.expect("watch", seen, watch_report(self.ship, data))
            if self.rng.random() < 0.1:
                self.moments(seen, data)

    def moments(self, seen, data):
        """Each moment m / d by itself, d from 1 to 6: under Safe no pair fails at any, under Breach one by that time."""
        lists, fault = read_log(self.ship, data)
        last = 0 if fault else max((time for reports in lists for time, _ in reports), default=0)
        if fault or last > 40:
            return
        moments = sorted({Fraction(m, d) for d in range(1, 7) for m in range(d * last + 1)})
        fails = next((moment for moment in moments if too_near(self.ship, lists, moment)), None)
        self.counts["logs of places tried at every sixth of a tick"] += 1
        self.expect("watch: safe", seen[0] == 0, fails is None)
        if seen[0] == 18 and fails is not None:
            self.expect("watch: the first breach", fails <= int(seen[1][0].split()[1]), True)


def try_seed(job):
    """The seed, what differs and the counts; nothing where the time is over."""
    program, known, seed, kept, wide, last = job
    if time.monotonic() > last:
        return seed, [], Counter()
    case = Case(program, known, seed, kept, wide)
    try:
        case.compare()
    except Exception:  # the second opinion itself stopped
        case.differences.append(traceback.format_exc())
    return seed, case.differences, case.counts


def main():
    parser = argparse.ArgumentParser(description="qc against the second opinion")
    parser.add_argument("kept", type=Path)
    add_program(parser)
    parser.add_argument("--first", type=int, default=1)
    parser.add_argument("--count", type=int, default=100)
    parser.add_argument("--workers", type=int, default=2)
    parser.add_argument("--minutes", type=float, default=1e9)
    parser.add_argument("--wide", action="store_true")
    add_without(parser)
    words = parser.parse_args()
    KEYS.difference_update(words.without)
    program, last = program_of(words), time.monotonic() + 60 * words.minutes
    words.kept.mkdir(parents=True, exist_ok=True)
    known = commands_of(program)
    jobs = [(program, known, seed, words.kept, words.wide, last) for seed in range(words.first, words.first + words.count)]
    counts, differing = Counter(), []
    with multiprocessing.Pool(words.workers) as pool:
        for seed, found, seen in pool.imap_unordered(try_seed, jobs, 4):
            counts.update(seen)
            if found:
                differing.append(seed)
                print(f"seed {seed}: {found[:3]}", flush=True)
            if counts["ships"] % 1000 == 0 and seen:
                print(f"{counts['ships']} ships, {len(differing)} with differences", flush=True)
    for what, count in sorted(counts.items()):
        print(f"{count:9} {what}")
    print(f"{len(differing)} ships with differences, kept in {words.kept}")
    sys.exit(1 if differing else 0)


if __name__ == "__main__":
    main()
