#!/usr/bin/env python3
"""Rows of the ship's keys `before` and `not_before`, worked out by hand.

    constraints.py [--program FILE]

Each is asked of the second opinion, and of the program where one is told. Of `plan` and `free` the second opinion is asked
whether the plan holds and is one of least end, by trying all. Status 1 where anything differs.
"""
import argparse
import subprocess
import sys
import tempfile
from pathlib import Path

sys.dont_write_bytecode = True  # no folder of compiled files beside the scripts

from answers import answer, opened
from free import first_break
from packed import least_feasible_end
from reference import NEVER, direction_of, end_of, least_end, read_plan
from tried import add_program, program_of

SHIP = """hatches = [2, 6, 10, 14]
margin = 1
travel = {travel}
deck_move = 10
hold_move = 10
{keys}
[[crane]]
name = "C1"
bay = 1
"""


def ship(keys="", travel=1):
    return SHIP.format(keys=keys, travel=travel)


def stow(*rows):
    return "\n".join(["id,move,cell,length", *rows]) + "\n"


def plan(*records):
    return "\n".join(["task,crane,start,end", *records]) + "\n"


def tree(leaf, end):
    return f"QCTREE 3\nup\n{leaf}\ndown\n{leaf}\nend 0 {end}\n"


TWO = stow("A1,D,020082,40", "A2,D,020084,40", "B1,D,060082,40")  # two tasks, of 20 and 10
ONE = stow("A1,D,020082,40")
THREE = stow("A1,D,020082,40", "B1,D,060082,40", "C1,D,100082,40")
MOVED = stow("X,D,020082,40", "X,L,060082,40")
BACKWARD = plan("2-DD,C1,12,32", "6-DD,C1,1,11")
TASKS = ["task 2-DD 1 20", "task 6-DD 2 10"]
MANY = str([["2-DD", 1]] * 241)
LOG = "tick 5\nleft 2-DD 3\ndone 2-DD\ntick 20\ntick 7\n"

ROWS = [  # ship, list, command, its further files, status, lines of the report (of a search the first ones), plan
    (ship('before = [["6-DD", "2-DD"], ["14-LD", "2-DD"]]'), TWO, "tasks", (), 0, [*TASKS, "before 6-DD 2-DD", "total 30"], None),
    (ship('before = [["6-DD", "2-DD"], ["14-LD", "2-DD"]]'), TWO, "plan", (), 0, ["Optimal", "end 32", "bound 32"], BACKWARD),
    # The first entry counts for nothing; the second goes against the container that moves from hatch 2 to 6.
    (ship('restows = "ordered"\nbefore = [["2-LD", "6-DD"], ["6-LD", "2-DD"]]'), MOVED, "tasks", (), 5, ["BadShip Ring before 2"], None),
    (ship('before = [["6-DD", "10-DD"], ["10-DD", "2-DD"]]'), TWO, "tasks", (), 0, [*TASKS, "total 30"], None),
    *[(ship(f"before = {value}"), TWO, "tasks", (), 5, [f"BadShip {fault}"], None) for value, fault in (
        ('"x"', "WrongKind before 0"), ('[["2-DD", "6-DD"], ["2-DD"]]', "WrongKind before 2"), ('[["3-DD", "2-DD"]]', "Task before 1"),
        ('[["2-DX", "2-DD"]]', "Task before 1"), ('[["02-DD", "2-DD"]]', "Task before 1"), ('[["2-DD", "2-DD"]]', "Same before 1"),
        (str([["2-DD", "6-DD"]] * 241), "Range before 0"))],
    *[(ship(f"not_before = {value}"), TWO, "tasks", (), 5, [f"BadShip {fault}"], None) for value, fault in (
        ('[["2-DD", -1]]', "Range not_before 1"), ('[["2-DD", 1000001]]', "Range not_before 1"), ('[["2-DD", "5"]]', "WrongKind not_before 1"),
        ('[["2-DD", 5], ["6-DD", 0], ["2-DD", 6]]', "TaskTwice not_before 3"), (MANY, "Range not_before 0"),
        ('"x"', "WrongKind not_before 0"), ('[["2-DD"]]', "WrongKind not_before 1"), ('[[2, 5]]', "WrongKind not_before 1"),
        ('[["2-DD", 5, 6]]', "WrongKind not_before 1"), ('[["3-DD", 5]]', "Task not_before 1"), ('[["2-dd", -1]]', "Task not_before 1"),
        ('[["2-DD", 5], ["2-DD", -1]]', "Range not_before 2"), ('[["2-DD", 5.0]]', "WrongKind not_before 1"),
        ('[["2-DD", true]]', "WrongKind not_before 1"))],
    # The keys' order: a fault of `before` ahead of one of `not_before`, and that ahead of the cranes'.
    (ship('not_before = [["2-DD", -1]]\nbefore = [["2-DD", "2-DD"]]'), TWO, "tasks", (), 5, ["BadShip Same before 1"], None),
    (ship('not_before = [["2-DD", -1]]') + "ready = -1\n", TWO, "tasks", (), 5, ["BadShip Range not_before 1"], None),
    (ship('not_before = [["6-DD", 50], ["10-DD", 9]]'), TWO, "tasks", (), 0, [*TASKS, "not_before 6-DD 50", "total 30"], None),
    (ship('not_before = [["6-DD", 0], ["2-DD", 1000000]]'), TWO, "tasks", (), 0, [*TASKS, "not_before 2-DD 1000000", "total 30"], None),
    (ship('not_before = [["6-DD", 50], ["10-DD", 9]]'), TWO, "plan", (), 0, ["Optimal", "end 60", "bound 60"],
     plan("2-DD,C1,0,20", "6-DD,C1,50,60")),
    (ship('not_before = [["2-DD", 7]]'), TWO, "plan", (), 0, ["Optimal", "end 32", "bound 32"], BACKWARD),
    (ship('not_before = [["2-DD", 7]]'), TWO, "check", (plan("2-DD,C1,6,26", "6-DD,C1,27,37"), tree("P", 0)), 13, ["Broken Ready 2-DD"], None),
    # One task of 10 at the crane's berth, which may start from 3 on: lists see that, work doesn't, but by the tick.
    *[(ship('not_before = [["2-DD", 3]]', 10), ONE, "check", (plan("2-DD,C1,3,13"), tree(leaf, end)), status, lines, None)
      for leaf, end, status, lines in (
          ("P 1", 13, 0, ["Optimal", "end 13", "bound 13"]), ("Q 1", 13, 0, ["Optimal", "end 13", "bound 13"]),
          ("P 1", 10, 7, ["BadTree Counts 6"]), ("Q 1", 10, 7, ["BadTree Counts 6"]),
          ("W 10", 10, 14, ["Weaker", "end 13", "bound 10"]), ("W 11", 11, 7, ["BadTree WorkShort 3"]))],
    # Only to and fro: hatch 2, then 10, then 6.
    (ship('before = [["2-DD", "10-DD"], ["10-DD", "6-DD"]]'), THREE, "plan", (), 10, ["Infeasible"], None),
    (ship('before = [["2-DD", "10-DD"], ["10-DD", "6-DD"]]'), THREE, "free", (), 0, ["Optimal", "end 33", "bound 33"],
     plan("2-DD,C1,0,10", "6-DD,C1,23,33", "10-DD,C1,12,22")),
    # With real lengths a task keeps its release; a line `left` changes nothing here.
    (ship('not_before = [["6-DD", 30]]'), TWO, "dispatch", (plan("2-DD,C1,0,20", "6-DD,C1,30,40"), LOG), 0,
     ["start 2-DD C1 0", "end 2-DD 5", "start 6-DD C1 30", "now 32", "left 0", "running 1"], None),
]
FURTHER = {"check": ("plan", "tree"), "dispatch": ("plan", "events"), "tasks": (), "plan": (), "free": ()}


def by_search(command, files):
    """Of a search: the least end of all, by trying all."""
    _, inst, refused = opened(files)
    if refused:
        return refused
    least = least_end(inst) if command == "plan" else least_feasible_end(inst, [None] * len(inst.tasks))
    return (10, ["Infeasible"]) if least == NEVER else (0, ["Optimal", f"end {least}", f"bound {least}"])


def wrong_plan(command, files, text, end):
    """What is wrong with a plan that ends then."""
    inst = opened(files)[1]
    made, fault = read_plan(inst, text.encode())
    broken = fault or (direction_of(inst, made)[1] if command == "plan" else first_break(inst, made))
    return broken or (f"it ends at {end_of(inst, made)}" if end_of(inst, made) != end else None)


def ran(program, command, files):
    """Status and lines of the program, and the plan that it writes."""
    with tempfile.TemporaryDirectory() as room:
        for role, data in files.items():
            (Path(room) / role).write_bytes(data)
        names = ["ship", "stow"] + (["plan", "tree"] if command in ("plan", "free") else list(FURTHER[command]))
        done = subprocess.run([program, "-q", command, *names], cwd=room, capture_output=True, timeout=60)
        made = (Path(room) / "plan").read_text() if command in ("plan", "free") and (Path(room) / "plan").exists() else None
        return done.returncode, done.stdout.decode().splitlines(), made


def main():
    parser = argparse.ArgumentParser(description="the planner's own order and releases")
    add_program(parser)
    words = parser.parse_args()
    program, faults = program_of(words) if words.program else None, 0
    for number, (shipped, listed, command, more, status, lines, made) in enumerate(ROWS, 1):
        files = {role: text.encode() for role, text in zip(("ship", "stow", *FURTHER[command]), (shipped, listed, *more))}
        searched = command in ("plan", "free")
        seen = [("the second opinion", *(by_search(command, files) if searched else answer(command, files)), made)]
        if made and wrong_plan(command, files, made, int(lines[1].split()[1])):
            faults += 1
            print(f"row {number}: the plan is wrong: {wrong_plan(command, files, made, int(lines[1].split()[1]))}")
        if program:
            seen.append(("the program", *ran(program, command, files)))
        for whose, its_status, its_lines, its_plan in seen:
            its_lines = its_lines[:len(lines)] if searched else its_lines
            if (its_status, its_lines, its_plan) != (status, lines, made):
                faults += 1
                print(f"row {number}, {command}, {whose}: {its_status} {its_lines} {its_plan}, not {status} {lines} {made}")
    print(f"{len(ROWS)} rows, {faults} faults")
    sys.exit(faults > 0)


if __name__ == "__main__":
    main()
