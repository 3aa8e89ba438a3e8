#!/usr/bin/env python3
"""Works out what the cases of `plan` and `make` must come to, and compares it with what stands in them.

    trials/outcomes.py SIDE [--write]
    trials/outcomes.py SIDE --plan SHIP STOW NODES [END|OWN]

SIDE is `bench/side.cpp`, built. Each outcome of a case in crates/qc_rows/data/plan and data/make that says what a
search answered is worked out anew from the files of the case: status, report, TREE and PLAN. The search is that of
packed.py; SIDE must find the same, and judges.py must let a search write its tree. The nodes of a large ship would
take too long there, so that one is left to SIDE. What none of them knows is the plan that is found before the search:
its end is the outcome's line `given`, its text the outcome's PLAN, and both are judged by the files (a plan that holds,
goes one way, can't be made tighter, ends then, and with `--from` is the planner's own where that ends no later). Where
the search meets a better plan, that is the PLAN. Outcomes that say the same are one. A tree stands whole where it has
one text alone by the search's rules: at each leaf one chain, or one list, which is told by rising task numbers; else
the case keeps what it had. `--write` puts the values into the case files; comments stay, so they must be read again.
Whatever can't be worked out is printed, and is left as it was. For a new case write its outcome with the line `given`
and with PLAN, or of `make` with the line `end`.

`--plan` prints report and tree of any two files, with a plan that ends at END or is in the file OWN, or with none.
Status 1 where anything differs or can't be worked out.
"""
import argparse
import difflib
import subprocess
import sys
import tempfile
from pathlib import Path

sys.dont_write_bytecode = True  # no folder of compiled files beside the scripts

from cases import DATA, Case, content
from faults import list_fault, ring_fault, ship_or_fault
from judges import SearchJudge, is_tight, tight_form
from packed import Search, bare, lists_of
from reference import (NEVER, TreeReader, bound_text, crane_lines, direction_of, dump, end_of, instance_of, plan_text,
                       read_plan)
from ships import text_of

LARGE = 30     # tasks of a ship whose search is left to SIDE
USUAL = 20_000
MADE = 500
SEARCHED = (0, 10, 11, 12)  # statuses of what a search answered


# ---------------------------------------------------------------- what a search answers

class Teller(Search):
    """The search, with the plan that it met last where it met a better one, and whether its tree has one text alone."""

    def __init__(self, inst, given, nodes):
        self.met, self.is_sole, self.seen = None, True, inst
        super().__init__(inst, given, nodes)

    def closing(self, node):
        before = self.best
        leaf = super().closing(node)
        if self.best < before:
            plan = list(zip(node.crane, node.starts))
            self.met = plan if node.inst is self.seen else node.inst.mirrored(plan)
        if leaf is not None and leaf[1][0] == "Q":
            self.look(node, [line for value, line in lists_of(node) if value >= self.best])
        elif leaf is not None:
            self.look(node, leaf[1:])
        elif self.branched >= self.nodes:
            ways = [self.chain(node), (node.work_bound, f"W {node.work_bound}")] + lists_of(node)
            self.look(node, [line for value, line in ways if value == max(ways)[0]])
        return leaf

    def look(self, node, lines):
        """Notes a leaf that could be another one as well, of these lines or of the tasks of the first; a chain is
        written before all else."""
        if lines[0][0] == "P":
            self.is_sole &= chains(node) == 1
        else:
            self.is_sole &= lines[0][0] != "C" and len(set(lines)) == 1  # a ring may begin anywhere


def chains(node):
    """The number of chains that show the node's end."""
    starts, tasks = node.starts, node.inst.tasks
    if not starts:
        return 1
    count = [0] * len(starts)
    for j in sorted(range(len(starts)), key=lambda j: starts[j]):
        count[j] = (starts[j] == node.head(j)) + sum(
            count[i] for i, k, ticks in node.arcs if k == j and starts[i] + ticks == starts[j])
    return sum(count[j] for j in range(len(starts)) if starts[j] + tasks[j].ticks == node.end)


class Answer:
    """What a search with so many branchings answers that begins with a plan of that end: `kind`, `best`, `value`,
    `branched`, `tree`; and, where the ship isn't large, `met` and `is_sole`."""

    def __init__(self, side, inst, given, nodes):
        self.given = given
        with tempfile.TemporaryDirectory(prefix="outcomes-") as folder:
            numbers, written = Path(folder, "numbers"), Path(folder, "tree")
            numbers.write_text("\n".join(dump(inst)) + "\n")
            words = [side, numbers, "none" if given == NEVER else str(given), str(nodes), written]
            told = subprocess.run(words, capture_output=True, text=True, check=True).stdout.splitlines()
            self.tree = written.read_text().splitlines()
        self.kind, best, bound, branched = (line.split()[-1] for line in told[:4])
        self.best = NEVER if best == "none" else int(best)
        self.value = NEVER if bound == "never" else int(bound)
        self.branched = int(branched)
        self.met, self.is_sole, self.differs = None, False, False
        if len(inst.tasks) <= LARGE:
            search = Teller(inst, given, nodes)
            judge = SearchJudge(inst, nodes, None if given == NEVER else given)
            reader = TreeReader(inst, text_of(search.lines), judge.visit).read()
            told = reader.value, reader.branched, judge.met, judge.complaints
            self.differs = bare(search.lines) != bare(self.tree) or told != (
                self.value, self.branched, self.best, []) or search.best != self.best
            self.tree, self.met, self.is_sole = search.lines, search.met, search.is_sole

    @property
    def status(self):
        return {"Infeasible": 10, "Optimal": 0, "Budget": 12 if self.best == NEVER else 11}[self.kind]

    def report(self, inst, plan):
        """The report of `plan` that goes with the PLAN that was written, if one was."""
        if self.kind == "Infeasible":
            return [self.kind, f"branched {self.branched}"]
        if plan is None:
            return [self.kind, f"bound {self.value}", f"branched {self.branched}"]
        way, _ = direction_of(inst, plan)
        given = "none" if self.given == NEVER else self.given
        return [self.kind, f"end {self.best}", f"bound {self.value}", f"branched {self.branched}", f"given {given}",
                f"direction {way}"] + crane_lines(inst, plan, way)

    def summary(self, ship, inst, rows):
        """The summary of `make`."""
        check = "Bound" if self.best == NEVER else "Optimal" if self.kind == "Optimal" else "Weaker"
        return [ship, f"rows {rows}", f"tasks {len(inst.tasks)}", f"work {sum(task.ticks for task in inst.tasks)}",
                f"plan {self.kind}", f"end {'none' if self.best == NEVER else self.best}",
                f"bound {bound_text(self.value)}", f"check {check}"]


# ---------------------------------------------------------------- ships that `make` makes

def made(number, hatches, cranes):
    """The made ship and list as files."""
    ship = [f"hatches = {[4 * k - 2 for k in range(1, hatches + 1)]}", "margin = 1", "travel = 60", "deck_move = 120",
            "hold_move = 110", "cover = 240"]
    for k in range(1, cranes + 1):
        ship += ["[[crane]]", f'name = "C{k}"', f"bay = {2 * k - 1}"]
    rows, state = ["id,move,cell,length"], number
    for hatch in range(2, 4 * hatches, 4):
        for phase in ("DD", "DH", "LH", "LD"):
            state = (1103515245 * state + 12345) % 2147483648
            for i in range(state // 65536 % 31):
                tier = (82 if phase in ("DD", "LD") else 2) + 2 * (i // 10)
                bay = f"{hatch:02}"
                rows.append(f"{hatch}-{phase}-{i},{phase[0]},{bay}{i % 10:02}{tier:02},40")
    return "\n".join(ship + [""]).encode(), "\n".join(rows + [""]).encode()


# ---------------------------------------------------------------- case files

def report_of(outcome):
    """The bytes of the report or of what a part of it is wanted, or None where it may be any."""
    told = outcome["report"]
    return None if told == "@any" else content(told["front"] if isinstance(told, dict) else told)


def told_of(outcome, name):
    """What the outcome says of a file, or None."""
    return outcome.get("left", {}).get(name)


def left_of(outcome, name):
    """The bytes that the file must hold, or None where the outcome says none."""
    told = told_of(outcome, name)
    return None if told in (None, "@any", "@absent") or isinstance(told, dict) else content(told)


def text_with(lines, old):
    """The text of these lines: as it stood, where that is the same."""
    text = "".join(f"{line}\n" for line in lines)
    return old if old != "@any" and content(old) == text.encode() else text


class Words:
    """The names and options of a command line of `plan` as it stands in a case."""

    def __init__(self, words):
        self.names, self.nodes, self.own = [], USUAL, None
        rest, takes = list(words[1:]), True
        while rest:
            word = rest.pop(0)
            option, _, value = word.partition("=")
            if takes and word == "--":
                takes = False
            elif takes and option in ("--nodes", "--from"):
                value = value if "=" in word else rest.pop(0)
                if option == "--nodes":
                    self.nodes = int(value)
                else:
                    self.own = value
            else:
                self.names.append(word)


class Trouble(Exception):
    """Why an outcome can't be worked out."""


def read_instance(ship, stow):
    """The instance of two files, or None where one of them is faulty."""
    ship, fault = ship_or_fault(ship)
    return None if fault or list_fault(ship, stow) or ring_fault(ship, stow) else instance_of(ship, stow)


def given_of(outcome, inst, words, files):
    """The end with which the search began, by the outcome's report, and the outcome's plan."""
    plan = left_of(outcome, words.names[2])
    lines = report_of(outcome).decode().splitlines()
    given = next((line.split()[1] for line in lines if line.startswith("given ")), "none")
    given = NEVER if given == "none" else int(given)
    if plan is None:
        if given != NEVER:
            raise Trouble("a plan was given and none is left")
        return given, None
    slots, fault = read_plan(inst, plan)
    if fault or plan_text(inst, slots).encode() != plan:
        raise Trouble(f"its plan is none: {fault}")
    if direction_of(inst, slots)[1] or not is_tight(inst, slots):
        raise Trouble("its plan breaks a rule or could be tighter")
    if end_of(inst, slots) > given:
        raise Trouble("its plan ends after the given one")
    if words.own is not None:
        own, fault = read_plan(inst, files[words.own])
        own = tight_form(inst, own)
        if given > end_of(inst, own) or given == end_of(inst, own) and end_of(inst, slots) == given and slots != own:
            raise Trouble("its plan isn't the planner's own")
    return given, slots


def worked_out(side, outcome, inst, words, files):
    """What the search answers, and the lines that the outcome must have: of the report under None, of files by their names."""
    given, slots = given_of(outcome, inst, words, files)
    answer = Answer(side, inst, given, words.nodes)
    if answer.differs:
        raise Trouble("the two searches differ")
    plan = None
    if answer.best < given:
        plan = answer.met
    elif answer.best < NEVER:
        plan = slots
        if end_of(inst, slots) != given:
            raise Trouble("the given plan is better than what is met, and isn't known")
    if plan is None and answer.best < NEVER:
        raise Trouble("the plan that is met isn't known")
    name, tree = words.names[2], words.names[3]
    lines = plan_text(inst, plan).splitlines() if plan is not None else None
    return answer, {None: answer.report(inst, plan), name: lines, tree: answer.tree}


def holds_anyhow(side, outcome, inst, words):
    """Whether an outcome whose report may be any comes with a plan that is best and with none to begin with: its status
    and, where one is told, the end of its plan."""
    least = Answer(side, inst, NEVER, USUAL)
    answers = [Answer(side, inst, given, words.nodes) for given in (least.best, NEVER)]
    plan = left_of(outcome, words.names[2])
    ends = {answer.best for answer in answers}
    if plan:
        ends.add(end_of(inst, read_plan(inst, plan)[0]))
    return least.kind == "Optimal" and len(ends) == 1 and {answer.status for answer in answers} == {outcome["status"]}


def renew(outcome, status, new, whole=True, sole=()):
    """Puts what was worked out into the outcome; the report where it is whole, and files that may be any where they are
    of those that have one text alone."""
    outcome["status"] = status
    report = outcome["report"]
    if isinstance(report, dict):
        report["front"] = text_with(new[None], report["front"])
    elif whole and report != "@any":
        outcome["report"] = text_with(new[None], report)
    for name, told in outcome.get("left", {}).items():
        if name in new and (told != "@any" or name in sole) and told != "@absent" and not isinstance(told, dict):
            if new[name] is None:
                raise Trouble(f"{name} is left, and no such file is made")
            outcome["left"][name] = text_with(new[name], told)


def cuts_of(case, words):
    """For a case with a cut, each instance that its files come to, with the files."""
    whole, name = case.files, case.given["cut"]
    for length in range(len(whole[name])):
        files = {**whole, name: whole[name][:length]}
        inst = read_instance(files[words.names[0]], files[words.names[1]])
        if inst is not None and (words.own is None or read_plan(inst, files[words.own])[1] is None):
            yield inst, files


def renew_plan(side, case):
    """Works out the outcomes of a case of `plan`; the notes on what could not be, or isn't the only tree."""
    words, notes, last = Words(case.words), [], None
    cut = "cut" in case.given
    if cut:
        runs = list(cuts_of(case, words))
    else:
        files = case.files
        runs = [(read_instance(files[words.names[0]], files[words.names[1]]), files)]
    for outcome in case.outcomes:
        if outcome["status"] not in SEARCHED:
            continue
        try:
            last = renew_outcome(side, outcome, words, runs, notes)
        except Trouble as trouble:
            last = None
            notes.append(f"status {outcome['status']}: {trouble}")
    for outcome in case.outcomes:
        if outcome["status"] == 4 and last and not cut:  # a run that fails on the way to the last outcome
            renew(outcome, 4, last[0], whole=False, sole=last[1])
    if "fail" not in case.others and not cut:
        first = [at for at, outcome in enumerate(case.outcomes) if case.outcomes.index(outcome) == at]
        case.notes = case.notes[:1] + [case.notes[at + 1] for at in first]
        case.outcomes = [case.outcomes[at] for at in first]
    return notes


def renew_outcome(side, outcome, words, runs, notes):
    """Works out one outcome: the lines that it must have and the files with one text alone, or None where its report may
    be any."""
    inst, files = fitting(outcome, runs, words)
    if outcome["report"] == "@any":
        if not holds_anyhow(side, outcome, inst, words):
            raise Trouble("its report may be any, and it hangs on the plan that is given")
        return None
    answer, new = worked_out(side, outcome, inst, words, files)
    name, tree = words.names[2], words.names[3]
    if told_of(outcome, name) == "@absent" and new[name] is not None:
        raise Trouble("a plan is there now")
    sole = {tree} if answer.is_sole else set()
    renew(outcome, answer.status, new, sole=sole)
    if left_of(outcome, tree) and not answer.is_sole:
        notes.append("the tree isn't the only one")
    if told_of(outcome, tree) == "@any":
        notes.append("any tree")
    return new, sole


def fitting(outcome, runs, words):
    """The run whose plan the outcome tells."""
    plan = left_of(outcome, words.names[2])
    for inst, files in runs:
        if len(runs) == 1 or plan and read_plan(inst, plan)[1] is None:
            return inst, files
    raise Trouble("no run fits it")


def renew_made(side, case):
    """Works out the outcome of a case of `make` that tells what a search answered."""
    numbers = [word for word in case.words[1:] if word != "--"]
    notes = []
    for outcome in case.outcomes:
        report = report_of(outcome)
        if outcome["status"] == 2 or report is None:
            if outcome["status"] != 2:
                notes.append("its report may be any")
            continue
        ship, stow = made(*map(int, numbers))
        inst = read_instance(ship, stow)
        end = next(int(line.split()[1]) for line in report.decode().splitlines() if line.startswith("end "))
        first = " ".join(["make", *numbers])
        told = [Answer(side, inst, given, MADE).summary(first, inst, stow.count(b"\n") - 1)
                for given in (end, end + 1000, NEVER)]
        if told[0] != told[1] or told[0] != told[2]:
            notes.append(f"it hangs on the plan that is given: {told[0][4:]}, {told[1][4:]} or {told[2][4:]}")
        renew(outcome, outcome["status"], {None: told[0]})
    return notes


# ---------------------------------------------------------------- all cases

def try_case(side, path, writes):
    """The number of lines that differ, and the notes."""
    case = Case(path)
    old = path.read_text(encoding="utf-8")
    if case.text() != old:
        return 0, ["it isn't read whole"]
    if case.words[:1] == ["plan"]:
        if all(outcome["status"] not in SEARCHED for outcome in case.outcomes):
            return 0, []
        notes = renew_plan(side, case)
    elif case.words[:1] == ["make"]:
        notes = renew_made(side, case)
    else:
        return 0, []
    new = case.text()
    if new != old and writes:
        path.write_text(new, encoding="utf-8")
    return difference(old, new), notes


def difference(old, new):
    """How many lines are in one of both texts alone."""
    return sum(line[0] in "+-" for line in difflib.ndiff(old.splitlines(), new.splitlines()))


def try_cases(side, writes):
    total = differing = noted = 0
    for path in sorted(DATA.glob("plan/*.case")) + sorted(DATA.glob("make/*.case")):
        lines, notes = try_case(side, path, writes)
        total += 1
        differing += lines > 0
        noted += any(note != "any tree" for note in notes)
        if lines or notes:
            print(f"{path.relative_to(DATA)}: {lines} lines{' written' if lines and writes else ''}"
                  + "".join(f"; {note}" for note in dict.fromkeys(notes)), flush=True)
    print(f"{total} cases, {differing} with other values, {noted} with something that isn't settled")
    return differing + noted > 0


def tell_plan(side, ship, stow, nodes, given=None):
    inst = read_instance(Path(ship).read_bytes(), Path(stow).read_bytes())
    slots, end = None, NEVER
    if given is not None and given.isdigit():
        end = int(given)
    elif given is not None:
        slots = tight_form(inst, read_plan(inst, Path(given).read_bytes())[0])
        end = end_of(inst, slots)
    answer = Answer(side, inst, end, int(nodes))
    plan = answer.met if answer.met else slots
    if plan is None and answer.best < NEVER:
        lines = [answer.kind, f"end {answer.best}", f"bound {answer.value}", f"branched {answer.branched}"]
    else:
        lines = answer.report(inst, plan)
    print("\n".join(lines + ["the searches differ"] * answer.differs))
    print("\n".join(answer.tree[:60]))
    print("one text alone" if answer.is_sole else "one of several texts")
    return False


def main():
    parser = argparse.ArgumentParser(description="what cases of plan and make must come to")
    parser.add_argument("side")
    parser.add_argument("--write", action="store_true")
    parser.add_argument("--plan", nargs="+")
    words = parser.parse_args()
    wrong = tell_plan(words.side, *words.plan) if words.plan else try_cases(words.side, words.write)
    sys.exit(1 if wrong else 0)


if __name__ == "__main__":
    main()
