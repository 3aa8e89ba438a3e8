#!/usr/bin/env python3
"""Gives the built program the longest logs, most past tasks, largest trees and files at their limits, and prints what it took.

    trials/greatest.py [--program FILE] [--nodes 1000000] [--only WORD]

For each trial: `ok` or `WRONG`, what was tried, status and first line of the report, processor seconds, and the most
memory in MB. Those of trees plan the made ship 2 of 60 hatches and 8 cranes with so many branchings, one way and to and
fro, and judge both answers by `check` and `freecheck`, with the plan and without; what these say must be what the search
said. Trees that are made here have the most branchings, and one more. It ends with 1 where another status or first line
came than was wanted, more than 512 MB were taken, or more than a second by `rest`. Which program FILE is, tried.py says.
"""
import argparse
import functools
import runpy
import subprocess
import sys
import tempfile
from pathlib import Path

sys.dont_write_bytecode = True  # no folder of compiled files beside the scripts

from tried import add_program, commands_of, program_of

ROOT = Path(__file__).resolve().parent.parent
ships = runpy.run_path(str(ROOT / "bench" / "ships.py"))
made, full = ships["made"], ships["full"]

LIMIT = 8_388_608  # bytes of a file but for trees
MOST = 1_000_000  # branchings of a tree
# Runs a command and notes what it took; from a process of its own, whose memory is small, since that of the process that
# begins another is counted with it.
MEASURE = """import os, sys
pid = os.posix_spawn(sys.argv[2], sys.argv[2:], os.environ)
_, status, used = os.wait4(pid, 0)
open(sys.argv[1], "w").write(f"{os.waitstatus_to_exitcode(status)} {used.ru_utime + used.ru_stime} {used.ru_maxrss}")"""
SHIP = (ROOT / "examples/first/ship.toml").read_bytes()
STOW = (ROOT / "examples/first/stow.csv").read_bytes()


class Room:
    def __init__(self, program, folder):
        self.program, self.folder, self.wrong = program, Path(folder), 0

    def write(self, name, data):
        (self.folder / name).write_bytes(data)

    def run(self, words):
        """Status, the lines of the report, processor seconds and the most memory in MB."""
        call = [sys.executable, "-I", "-S", "-c", MEASURE, "used", self.program, "-q", *words]
        with open(self.folder / "report", "wb") as report:
            subprocess.run(call, cwd=self.folder, stdout=report, check=True)
        status, seconds, most = (self.folder / "used").read_text().split()
        lines = (self.folder / "report").read_text("latin-1").splitlines()
        return int(status), lines, float(seconds), int(most) / 1024

    def expect(self, what, words, status, first, within=1e9):
        """Runs it; `first`: one of the first lines that are wanted, or None for any; `within`: so many seconds."""
        seen, lines, seconds, most = self.run(words)
        right = seen == status and most < 512 and seconds < within and (first is None or lines[:1] and lines[0] in first)
        self.wrong += not right
        told = lines[0][:70] if lines else ""
        print(f"{'ok   ' if right else 'WRONG'} {what}: {words[0]} {seen} {told}; {seconds:.2f} s, {most:.0f} MB", flush=True)
        return lines


def logs(room):
    """Logs of the most lines, and of one more, on a plan of 227 tasks and 8 cranes."""
    ship, rows = made(2, 60, 8)
    room.write("s", ("\n".join(ship) + "\n").encode()), room.write("m", ("\n".join(rows) + "\n").encode())
    room.expect("a plan of 60 hatches and 8 cranes", ["plan", "s", "m", "p", "t", "--nodes", "0"], 11, ["Budget"])
    ends = sorted((int(line.split(",")[3]), line.split(",")[0]) for line in (room.folder / "p").read_text().splitlines()[1:])
    lines, now = [], 0
    for end, task in ends:
        lines += ["tick 1"] * min(end - now, 400) + [f"tick {end - now - 400}"] * (end - now > 400) + [f"done {task}"]
        now = end
    lines += ["tick 1"] * (100_000 - len(lines))
    for count, status, first in ((100_000, 0, None), (100_001, 17, ["BadLog TooMany 100001"])):
        room.write("l", "".join(line + "\n" for line in (lines + ["tick 1"])[:count]).encode())
        told = room.expect(f"a log of {count} lines", ["dispatch", "s", "m", "p", "l"], status, first)
        if status == 0 and told[-2:] != ["left 0", "running 0"]:
            room.wrong += 1
            print(f"WRONG the log of {count} lines ends with {told[-3:]}")
    for count, status, first in ((200_000, 0, ["Safe 200000"]), (200_001, 17, ["BadLog TooMany 200001"])):
        rows = [f"{k} C{1 + k % 8} {1 + 2 * (k % 8)}\n" for k in range(count)]
        room.write("w", "".join(rows).encode())
        room.expect(f"{count} reported places", ["watch", "s", "w"], status, first)
    for number in (100_000, 50_000, 10_000) if "rest" in commands_of(room.program) else ():
        room.write("h", "".join(line + "\n" for line in lines[:number]).encode())
        room.expect(f"what is left behind a log of {number} lines", ["rest", "s", "m", "p", "h", "ns", "nm", "o"], 0, None, 1)
    room.write("w", "".join(f"{k} C1 {1 + k % 2}\n" for k in range(199_998)).encode() + b"0 C2 9\n199997 C2 2\n")
    room.expect("200,000 places of two cranes that come too near at the end", ["watch", "s", "w"], 18, None)
    for command in ("sheet", "picture", "report", "show"):
        room.expect("that plan", [command, "s", "m", "p"], 0, None)


def half_done(plan, count):
    """A log of so many lines up to the middle of a plan: half of them ticks, the others what tasks that run still need."""
    rows = [line.split(",") for line in plan.splitlines()[1:]]
    middle = max(int(row[3]) for row in rows) // 2
    ends = sorted((int(row[3]), row[0]) for row in rows if int(row[3]) <= middle)
    running = [f"left {row[0]} {int(row[3]) - middle}" for row in rows if int(row[2]) < middle < int(row[3])]
    lines, now = [], 0
    for end, task in ends:
        lines += [f"tick {end - now}"] * (end > now) + [f"done {task}"]
        now = end
    spare = min(middle - now, count // 2)
    lines += [f"tick {middle - now - spare}"] * (middle - now > spare) + ["tick 1"] * spare
    return lines + [running[k % len(running)] for k in range(count - len(lines))]


def left(room):
    """What is left in the middle of a plan of 240 tasks and 49,940 moves on 8 cranes, by the longest log."""
    ship, rows = full(1, 60, 8)
    room.write("s", ("\n".join(ship) + "\n").encode()), room.write("m", ("\n".join(rows) + "\n").encode())
    room.expect("a plan of 240 tasks", ["plan", "s", "m", "p", "t", "--nodes", "0"], 11, ["Budget"])
    lines = half_done((room.folder / "p").read_text(), 100_000)
    words = ["rest", "s", "m", "p", "h", "ns", "nm", "o"]
    for count, status, first in ((100_000, 0, None), (100_001, 17, ["BadLog TooMany 100001"])):
        room.write("h", "".join(line + "\n" for line in (lines + lines[-1:])[:count]).encode())
        told = room.expect(f"a log of {count} lines up to its middle", words, status, first, 1)
        if status == 0:
            print("     " + ", ".join(told[:2] + told[-2:]))
    room.expect("what is left, planned anew", ["plan", "ns", "nm", "p2", "t2", "--nodes", "0", "--from", "o"], 11, ["Budget"])


def chances(room):
    """The most past tasks and runs, on a plan of 227 tasks and 8 cranes."""
    ship, rows = made(2, 60, 8)
    room.write("s", ("\n".join(ship) + "\n").encode()), room.write("m", ("\n".join(rows) + "\n").encode())
    room.expect("a plan of 60 hatches and 8 cranes", ["plan", "s", "m", "p", "t", "--nodes", "0"], 11, ["Budget"])
    phases = ("DD", "DH", "LH", "LD", "-")
    records = "".join(f"c{k // 240},{phases[k % 5]},{100 + k * 37 % 3000},{100 + k * 53 % 3000}\n" for k in range(10_000))
    room.write("q", ("call,phase,planned,real\n" + records).encode())
    for runs in (1, 1000, 10_000):
        room.expect(f"10,000 past tasks, {runs} runs", ["odds", "s", "m", "p", "q", "--runs", str(runs)], 0, [f"runs {runs}"])
    for what, data, status, first in (
            ("a record more", ("call,phase,planned,real\n" + records + "c9,-,1,1\n").encode(), 21, ["BadPast TooMany 10002"]),
            ("blank lines", padded(b"call,phase,planned,real\na,-,1,1\n", b"\n"), 0, ["runs 1000"]),
            ("commas", padded(b"call,phase,planned,real\n", b","), 21, ["BadPast Fields 2"]),
            ("one field", padded(b"call,phase,planned,real\n", b"x"), 21, ["BadPast Fields 2"]),
            ("quotes", padded(b"call,phase,planned,real\n", b'"'), 21, ["BadPast Fields 2"]),
            ("line feeds and a byte more", padded(b"call,phase,planned,real\n", b"\n") + b"\n", 15, ["TooLarge past"])):
        room.write("q", data)
        room.expect(f"past tasks of {len(data):,} bytes, {what}", ["odds", "s", "m", "p", "q"], status, first)


def trees(room, nodes):
    """Trees of so many branchings at 60 hatches."""
    ship, rows = made(2, 60, 8)
    room.write("s", ("\n".join(ship) + "\n").encode()), room.write("m", ("\n".join(rows) + "\n").encode())
    for command, judge in (("plan", "check"), ("free", "freecheck")):
        words = [command, "s", "m", "p", "t", "--nodes", str(nodes)]
        lines = room.expect(f"60 hatches, 8 cranes, {nodes} branchings", words, 11, ["Budget"])
        told = dict(line.split(" ", 1) for line in lines[1:] if " " in line)
        size = (room.folder / "t").stat().st_size
        number = (room.folder / "t").read_bytes().count(b"\n")
        what = f"its tree of {told['branched']} branchings, {number:,} lines, {size / 1e6:.1f} MB"
        seen = room.expect(what, [judge, "s", "m", "p", "t"], 14, ["Weaker"])
        right = seen[1:] == [f"end {told['end']}", f"bound {told['bound']}"] and told["branched"] == str(nodes)
        room.wrong += not right
        print(f"{'ok   ' if right else 'WRONG'} {seen}")
        room.expect(what + ", alone", [judge, "s", "m", "-", "t"], 0, [f"Bound {told['bound']}"])


def padded(front, piece, back=b""):
    """The front, the piece as often as it goes into a file, and the back."""
    return front + piece * ((LIMIT - len(front) - len(back)) // len(piece)) + back


def limits(room):
    """Files at the limit of bytes, on the first example."""
    room.write("m", STOW), room.write("s", SHIP)
    keys = b"".join(b"k%d=1\n" % number for number in range(2_000_000))
    plain = SHIP.split(b"[[crane]]")[0]
    several = [
        ("further keys", keys[:keys.rindex(b"\n", 0, LIMIT - len(SHIP)) + 1] + SHIP, 0, None),
        ("tables", padded(SHIP, b"[[further]]\n"), 0, None),
        ("an array of numbers", padded(b"a = [", b"1,", b"]\n" + SHIP), 0, None),
        ("an array of tables", padded(b"a = [", b"{},", b"]\n" + SHIP), 0, None),
        ("cranes", padded(plain, b"[[crane]]\n"), 5, ["BadShip Range crane 0"]),
        ("a crane of many keys", SHIP + keys[:1_000_000].rpartition(b"\n")[0] + b"\n", 0, None),
        ("digits in a number", padded(b"a = ", b"1", b"\n" + SHIP), 5, ["BadShip NotToml"]),
        ("letters in a text", padded(b'a = "', b"x", b'"\n' + SHIP), 0, None),
        ("a comment", padded(b"#", b"x", b"\n" + SHIP), 0, None),
        ("line feeds", padded(SHIP, b"\n"), 0, None),
        ("brackets in one another", padded(b"a = ", b"[", b""), 5, ["BadShip NotToml"]),
        ("a key of many parts", padded(b"a", b".a", b" = 1\n" + SHIP), 5, ["BadShip NotToml"]),
        ("a byte more", padded(SHIP, b"\n") + b"\n", 15, ["TooLarge ship"]),
    ]
    for what, data, status, first in several:
        room.write("x", data)
        room.expect(f"a ship file of {len(data):,} bytes, {what}", ["tasks", "x", "m"], status, first)
    for what, data, status, first in (
            ("records of two bytes", padded(b"", b",\n"), 6, ["BadStow Header 1"]),
            ("blank lines", padded(STOW, b"\n"), 0, None), ("commas", padded(STOW, b","), 6, None),
            ("quotes", padded(STOW, b'"'), 6, None), ("a byte more", padded(STOW, b"\n") + b"\n", 15, ["TooLarge stow"])):
        data += b"\n" * (LIMIT - len(data))
        room.write("x", data)
        room.expect(f"a list of {len(data):,} bytes, {what}", ["tasks", "s", "x"], status, first)
    room.run(["plan", "s", "m", "p", "t"])
    record = (room.folder / "p").read_bytes().splitlines(keepends=True)[1]
    plan = padded(b"task,crane,start,end\n", record)
    room.write("o", plan)
    for words in (["check", "s", "m", "o", "t"], ["freecheck", "s", "m", "o", "t"], ["plan", "s", "m", "p", "t", "--from", "o"],
                  ["free", "s", "m", "p", "t", "--from", "o"], ["dispatch", "s", "m", "o", "m"], ["report", "s", "m", "o"]):
        room.expect(f"a plan's file of {len(plan):,} bytes", words, 8, ["BadPlan TaskTwice 3"])
    for words, line in ((["dispatch", "s", "m", "p", "x"], b"tick 1\n"), (["watch", "s", "x"], b"1 C1 1\n")):
        room.write("x", line * (LIMIT // len(line) + 1))
        room.expect(f"a log of {LIMIT // len(line) * len(line) + len(line):,} bytes", words, 15, ["TooLarge log"])
        room.write("x", b"x" * LIMIT)
        room.expect(f"a log of one line of {LIMIT:,} bytes", words, 17, ["BadLog Line 1"])


@functools.cache
def tree(task, count):
    """The lines of a node and of all below it, so many of which branch: on tasks from this one on, over eight cranes, in
    the first children that have room for it down to the 9th task. Leaves are empty chains."""
    if count == 0:
        return b"P\n"
    lines, left, room = b"A %d\n" % task, count - 1, (8 ** (9 - task) - 1) // 7
    for _ in range(8):
        lines += tree(task + 1, min(left, room))
        left -= min(left, room)
    assert left == 0
    return lines


def edges(room):
    """Trees of the most branchings, and of one more: the fault stands where that one does."""
    ship, rows = made(2, 60, 8)
    room.write("s", ("\n".join(ship) + "\n").encode()), room.write("m", ("\n".join(rows) + "\n").encode())
    for count in (MOST, MOST + 1):
        parts = {"check": b"QCTREE 3\nup\n" + tree(1, 600_000) + b"down\n" + tree(1, count - 600_000),
                 "freecheck": b"QCFREE 1\n" + tree(1, count)}
        for command, nodes in parts.items():
            room.write("t", nodes + b"end %d 0\n" % count)
            line = nodes[:nodes.rindex(b"A")].count(b"\n") + 1
            first = "Bound 0" if count == MOST else f"BadTree Branchings {line}"
            room.expect(f"a tree of {count:,} branchings", [command, "s", "m", "-", "t"], 0 if count == MOST else 7, [first])


def main():
    parser = argparse.ArgumentParser(description="the longest logs, the largest trees, files at their limits")
    add_program(parser)
    parser.add_argument("--nodes", type=int, default=MOST)
    parser.add_argument("--only", default="", help="logs, chances, left, trees or limits")
    words = parser.parse_args()
    program = program_of(words)
    with tempfile.TemporaryDirectory(prefix="greatest-") as folder:
        room = Room(program, folder)
        known = commands_of(program)
        for name, part in (("logs", logs), *[("chances", chances)] * ("odds" in known), *[("left", left)] * ("rest" in known),
                           ("limits", limits), ("edges", edges), ("trees", lambda room: trees(room, words.nodes))):
            if words.only in name:
                part(room)
    print(f"{room.wrong} wrong")
    return 1 if room.wrong else 0


if __name__ == "__main__":
    sys.exit(main())
