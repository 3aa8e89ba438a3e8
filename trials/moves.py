#!/usr/bin/env python3
"""Tries `qc moves` by the second opinion on bay plans, and that by itself.

    moves.py rows FOLDER [--program FILE]
    moves.py itself [--first SEED] [--count PAIRS]
    moves.py pairs KEPT [--program FILE] [--first SEED] [--count PAIRS] [--spoilt N] [--cut-every K]
    moves.py large [--program FILE]

`rows`: each folder in FOLDER has `arrival.edi`, `departure.edi`, `status`, `report`, and `stow.csv` where a list is
written; bayplan.py must say the same, and where a program is told it too, also of the good ones cut at every byte.
`itself`: on random pairs of plans the list of bayplan.py turns the first plan into the second with moves that are
each legal, what it says of the classes holds word by word, on small ones a search of all legal moves finds no shorter
list, and a ship's reader takes the list. `pairs`: of random pairs in both versions of the message, with all signs,
line ends and odds and ends, the program says, to the byte, what bayplan.py says, and writes the same list or leaves
the file as it was; then of each pair N spoilt ones (bytes, bits, segments dropped, doubled, exchanged or moved,
numbers), and of every K-th pair each file cut at every byte, which must be refused, except where line breaks or
blanks alone are missing. What differs is kept below KEPT. `large`: 20,000 containers, 25,000 and 25,001 of them,
files at the limit of bytes, seconds and memory. Status 1 where anything differs. Which program FILE is, tried.py
says.
"""
import argparse
import itertools
import os
import random
import re
import shutil
import subprocess
import sys
import tempfile
from collections import Counter
from pathlib import Path

sys.dont_write_bytecode = True  # no folder of compiled files beside the scripts

from bayplan import (Segment, answer, cell_text, classes_of, end_of_segment, is_over, list_of, list_text, passed, plain,
                     read_plan, signs_of, slots_of)
from faults import list_fault, slots
from greatest import MEASURE
from reference import read_ship
from tried import add_program, program_of


# ---------------------------------------------------------------- random plans

class Yard:
    """Random pairs of plans: ids with cells, no two of one plan with one id or overlapping cells."""

    def __init__(self, rng, small=False):
        self.rng, self.small = rng, small
        hatches = rng.sample((2, 6, 10, 50, 98, 102, 998), rng.choice((1, 1, 2)) if small else rng.choice((1, 2, 3, 4)))
        rows = rng.sample(range(100), 1 if small else rng.choice((1, 2, 3)))
        tiers = rng.sample((2, 4, 6, 8, 68, 70, 72, 82, 84, 86, 88, 98), rng.choice((2, 3)) if small else rng.choice((3, 5, 8)))
        self.cells = [(bay, row, tier) for hatch in hatches for bay in (hatch - 1, hatch, hatch + 1) for row in rows
                      for tier in tiers]
        self.ids = set()

    def fresh(self):
        rng = self.rng
        while True:
            kind = rng.randrange(6)
            if kind < 4:
                ident = "".join(rng.choice("ABCTQ") for _ in range(3)) + "U" + str(rng.randrange(10 ** 7)).zfill(7)
            elif kind == 4:
                ident = rng.choice("PQRSTUVW") + rng.choice("abc?+:'-*~#.0")
            else:
                ident = "".join(chr(rng.choice([c for c in range(0x21, 0x7F) if c not in b',"'])) for _ in range(rng.randint(1, 20)))
            if ident.encode() not in self.ids:
                self.ids.add(ident.encode())
                return ident.encode()

    def free(self, plan):
        taken = {(slot, *cell[1:]) for cell in plan.values() for slot in slots_of(cell[0])}
        return [cell for cell in self.cells if not taken & {(slot, *cell[1:]) for slot in slots_of(cell[0])}]

    def add(self, plan, count):
        for _ in range(count):
            free = self.free(plan)
            if not free:
                return
            plan[self.fresh()] = self.rng.choice(free)

    def pair(self):
        rng, a = self.rng, {}
        most = 4 if self.small else rng.choice((0, 3, 10, 25, 60))
        self.add(a, rng.randint(0, most))
        b = dict(a)
        for ident in rng.sample(sorted(b), min(len(b), rng.choice((0, 0, 1, 2, len(b) // 2, len(b))))):
            del b[ident]
        for _ in range(rng.choice((0, 0, 1, 3))):
            if len(b) > 1 and rng.random() < 0.5:  # two of one length change places
                one, two = rng.sample(sorted(b), 2)
                if b[one][0] % 2 == b[two][0] % 2:
                    b[one], b[two] = b[two], b[one]
            elif b:
                ident = rng.choice(sorted(b))
                cell = b.pop(ident)
                b[ident] = rng.choice(self.free(b) or [cell])
        self.add(b, rng.choice((0, 0, 1, 2, most // 2)))
        return self.mixed(a), self.mixed(b)

    def mixed(self, plan):
        some = list(plan.items())
        self.rng.shuffle(some)
        return some


# ---------------------------------------------------------------- messages

SIGNS = (b":+.? '", b":+.? '", b":+,?*'", b";*.# ~", b":+.  '", b"^|.!x;", b"/-+\\0&")
LENGTHS = {True: (b"22G1", b"2210", b"20DC", b"2"), False: (b"42G1", b"4310", b"L5G1", b"9500", b"45R1", b"P5G1", b"M", b"4")}


class Message:
    """Writes a plan as a message of the older or of the newer version, with what may stand around it."""

    def __init__(self, rng, which, containers):
        self.rng, self.which, self.containers = rng, which, containers
        self.is_new = rng.random() < 0.5
        self.told = rng.random() < 0.5
        una = rng.choice(SIGNS) if self.told else SIGNS[0]
        self.una, self.end = una, una[5:6]
        self.has_release = una[3:4] != b" "
        self.component, self.element, self.release = una[0:1], una[1:2], una[3:4] if self.has_release else b""
        self.signs = {*una[0:2], una[5], *self.release}

    def text(self, some):
        """The bytes as they stand in a segment; without a release sign, signs are left out."""
        if self.has_release:
            return b"".join(self.release * (byte in self.signs) + bytes([byte]) for byte in some)
        return bytes(byte for byte in some if byte not in self.signs)

    def can_say(self, ident):
        return self.has_release or not set(ident) & self.signs

    def segment(self, *elements):
        """A segment of elements, each bytes or a list of its components."""
        return self.element.join(
            self.component.join(map(self.text, element)) if isinstance(element, list) else self.text(element)
            for element in elements)

    def few(self, *segments):
        return [self.segment(*segment) for segment in segments if self.rng.random() < 0.3]

    def free_text(self):
        return self.rng.choice((b"GANG 1", b"it's ?", b"LOC+147+0010182::5'EQD+CN+X+22G1'", b"UNT+4+1'", b"\xfc\xe4\xff?'", b"?", b""))

    def position(self, cell):
        bay, row, tier = cell
        wide = f"{bay:03}{row:02}{tier:02}".encode()
        if bay < 100 and self.rng.random() < 0.4:
            wide = self.rng.choice((b"", b" ", b"  ")) + wide[1:] + self.rng.choice((b"", b" "))
        lists = [b"9711", b"5"] if self.is_new else self.rng.choice(([b"", b"5"], [b"", b"5"], [b"139", b" 5 "], [b"9711"], []))
        return [wide, *lists]

    def place(self, ident, cell):
        rng, is_short = self.rng, cell[0] % 2 == 1
        if ident is not None and rng.random() < 0.1:
            at = rng.randrange(len(ident) + 1)
            ident = ident[:at] + b" " + ident[at:]
        size = rng.choice(LENGTHS[is_short] + (b"", b" " + LENGTHS[is_short][0]))
        name = [ident or rng.choice((b"", b" "))] + [b"6346", b"5"] * (self.is_new and rng.random() < 0.7)
        box = self.segment(b"EQD", b"CN", name, [size, b"6346", b"5"] if self.is_new else [size], b"", b"", b"5")
        begin = [self.segment(b"LOC", b"147", self.position(cell))]
        before = self.few([b"GID", b"1"], [b"GDS", b"DRY"], [b"FTX", b"AAI", b"", b"", self.free_text()], [b"MEA", b"WT", b"", [b"KGM", b"21000"]])
        ports = self.few([b"LOC", b"9", [b"XXAAA", b"139", b"6"]], [b"LOC", b"11", [b"XXBBB", b"139", b"6"]], [b"RFF", [b"BM", b"1"]])
        after = self.few([b"NAD", b"CA", [b"QQL", b"172", b"20"]], [b"TMP", b"2", [b"-18", b"CEL"]], [b"DGS", b"IMD", b"3"], [b"EQA", b"RG", b"X"])
        more = [self.segment(b"EQD", b"CN", ident or b"X", b"XX") for _ in range(rng.choice((1, 2)))] if rng.random() < 0.05 else []
        more += [self.segment(b"EQD", b"BB", b"X")] if rng.random() < 0.05 else []
        if self.is_new:
            return begin + [box] + more + before + ports + after
        return begin + before + ports + [box] + more + after

    def empty_place(self):
        """A place without a container, also one that names no cell."""
        begin = self.segment(b"LOC", b"147", self.rng.choice(([b"ABC", b"", b"87"], [b"0020082", b"", b"5"], [b""])))
        return [begin] + self.few([b"EQD", b"BB", b"X"], [b"EQD", b"CH", b"0020082"], [b"EQD", b""], [b"MEA", b"WT"])

    def segments(self):
        rng = self.rng
        body = self.few([b"BGM", [rng.choice((b"", b"658", b"659"))], b"PLAN1", rng.choice((b"9", b"5", b"9", b""))], [b"DTM", [b"137", b"2611300800", b"201"]],
                        [b"TDT", b"20", b"1E", b"", b"", [b"QQL", b"172", b"20"]], [b"LOC", b"5", [b"XXAAA", b"139", b"6"]],
                        [b"EQD", b"BB", b"X"], [b"UNS", b"D"], [b"CNT", b"16", b"1"])
        for ident, cell in self.containers:
            body += self.place(ident, cell)
            if rng.random() < 0.05:
                body += self.empty_place()
        version = [b"BAPLIE", b"D", b"13B" if self.is_new else b"95B", b"UN", b"SMDG31" if self.is_new else b"SMDG22"]
        body.insert(0, self.segment(b"UNH", b"7", version))
        count = str(len(body) + 1).encode()
        body.append(self.segment(b"UNT", rng.choice((count, count, count.zfill(9))), b"7"))
        if rng.random() < 0.5:
            body.insert(0, self.segment(b"UNB", [b"UNOA", b"2"], b"QQA", b"QQB"))
            body.append(self.segment(b"UNZ", rng.choice((b"1", b"01")), b"1"))
        return body

    def bytes(self):
        return self.joined(self.segments())

    def joined(self, segments):
        """The file of these segments."""
        rng = self.rng
        between = rng.choice((b"", b"", b"\n", b"\r\n", b" ", b"\x1a\n", b"\t"))
        text = b"".join(segment + self.end + between for segment in segments)
        if self.told:
            text = b"UNA" + self.una + between + text
        text = rng.choice((b"", b"", b"", b"\n ", b"\xef\xbb\xbf")) + text + rng.choice((b"", b"", b"\n", b"\x1a", b" \0 "))
        if rng.random() < 0.2:
            text = b"\r\n".join(text[at:at + 80] for at in range(0, len(text), 80))
        return text


def written(rng, which, containers):
    """A message's file, and the containers that it tells; a few of a departure are told without an id."""
    message = Message(rng, which, containers)
    told = [(ident, cell) for ident, cell in containers if message.can_say(ident)]
    message.containers = [(None if which == "departure" and rng.random() < 0.03 else ident, cell) for ident, cell in told]
    if rng.random() < 0.04 and message.containers:
        faulty(rng, message)
    return message.bytes()


def faulty(rng, message):
    """Makes one container one that can't be listed, or the message one that is no whole plan."""
    at = rng.randrange(len(message.containers))
    ident, cell = message.containers[at]
    other = rng.choice(message.containers)
    message.containers[at] = rng.choice((
        (None, cell), (b"X" * 21, cell), (b"A\xe9", cell), (b"A\x7f", cell), (other[0], cell), (ident, other[1]),
        (ident, (0, *cell[1:])), (ident, (*cell[:2], 0)), (ident, (*cell[:2], cell[2] + 1)), (ident, (cell[0] + 1, *cell[1:])),
        (b"NEW-" + cell_text(other[1]).encode(), cell), (b'A"B', cell), (b"A,B", cell)))


def pair_of(rng):
    a, b = Yard(rng).pair()
    return written(rng, "arrival", a), written(rng, "departure", b)


# ---------------------------------------------------------------- spoilt messages

def pieces_of(data):
    """What stands before the segments, the segments with their end signs, and what stands behind, of a file that can be
    cut up; None of another."""
    text = plain(data)
    try:
        signs, at = signs_of(text)
    except Exception:
        return None
    front, pieces = text[:at], []
    while (begin := passed(text, at)) < len(text):
        end = end_of_segment(text, begin, signs)
        if end is None:
            break
        pieces.append(text[at:end + 1])
        at = end + 1
    return front, pieces, text[at:], signs


def recounted(pieces, signs):
    """The segments with what UNT should say of their number."""
    tags = [Segment(piece.lstrip(bytes(range(33)))[:-1], signs).tag for piece in pieces]
    if b"UNH" in tags and b"UNT" in tags:
        at = tags.index(b"UNT")
        count = str(at - tags.index(b"UNH") + 1).encode()
        plus = bytes([signs.element])
        parts = pieces[at].split(plus)
        if len(parts) > 1:
            parts[1] = count
            pieces = pieces[:at] + [plus.join(parts)] + pieces[at + 1:]
    return pieces


def exchanged_segments(rng, data):
    cut = pieces_of(data)
    if cut is None or not cut[1]:
        return data
    front, pieces, back, signs = cut
    one, two = rng.randrange(len(pieces)), rng.randrange(len(pieces))
    way = rng.choice(("drop", "drop", "twice", "swap", "move", "two"))
    if way == "drop":
        del pieces[one]
    elif way == "twice":
        pieces.insert(two, pieces[one])
    elif way == "swap":
        pieces[one], pieces[two] = pieces[two], pieces[one]
    elif way == "move":
        pieces.insert(two, pieces.pop(one))
    else:
        pieces[min(one, two):max(one, two)] = []
    if rng.random() < 0.7:
        pieces = recounted(pieces, signs)
    return front + b"".join(pieces) + back


def exchanged_parts(rng, data):
    """One component or element exchanged for another, or for a word that matters somewhere."""
    parts = list(re.finditer(rb"[^+:'*;~|^]+", data))
    if not parts:
        return data
    one, two = rng.choice(parts), rng.choice(parts)
    new = rng.choice((two.group(), two.group(), b"", b"147", b"CN", b"BB", b"5", b"87", b"4", b"LOADONLY", b"BAPLIE", b"MOVINS", b"0020081",
                      b"2", b"G", b"22G1", b"30G1", b"UNT", b"UNG", b"EQD", b"LOC", b" ", b"0" * 10, b"1", b"x" * 4100))
    return data[:one.start()] + new + data[one.end():]


def spoilt(rng, data):
    for _ in range(rng.choice((1, 1, 1, 2, 3))):
        at, way = rng.randrange(len(data) + 1), rng.randrange(9)
        if way == 0:
            data = data[:at] + bytes([rng.randrange(256)]) + data[at + 1:]
        elif way == 1 and data:
            at = rng.randrange(len(data))
            data = data[:at] + bytes([data[at] ^ (1 << rng.randrange(8))]) + data[at + 1:]
        elif way == 2:
            data = data[:at] + rng.choice((b"'", b"?", b"+", b":", b"UNA:+.? '", b"\n", b" ", b"''", b"?'")) + data[at + rng.randrange(2):]
        elif way == 3:
            data = data[:at]
        elif way in (4, 5):
            data = exchanged_parts(rng, data)
        else:
            data = exchanged_segments(rng, data)
    return data


# ---------------------------------------------------------------- the second opinion by itself

def leads(first, rows, second):
    """What is wrong with the rows as a way from the one plan to the other, or None."""
    state = dict(first)
    for number, (ident, kind, cell) in enumerate(rows):
        if any(is_over(other, cell) for other in state.values()):
            return f"row {number}: something stands over {cell}"
        if kind == "D":
            if state.get(ident) != cell:
                return f"row {number}: {ident} isn't at {cell}"
            del state[ident]
        else:
            taken = {(slot, *other[1:]) for other in state.values() for slot in slots_of(other[0])}
            if ident in state or taken & {(slot, *cell[1:]) for slot in slots_of(cell[0])}:
                return f"row {number}: {ident} can't be put at {cell}"
            state[ident] = cell
    return None if state == dict(second) else "it doesn't lead to the second plan"


def least_moves(first, second, most):
    """The least number of legal moves from the one plan to the other, up to `most`, by trying all; containers may be put
    at any cell of either plan."""
    cells = sorted({cell for _, cell in first + second})
    ids = sorted({ident for ident, _ in first + second})
    goal, reached = frozenset(second), {frozenset(first)}
    seen = set(reached)
    for count in range(most + 1):
        if goal in reached:
            return count
        further = set()
        for state in reached:
            there = dict(state)
            for ident in ids:
                rows = [(ident, "D", there[ident])] if ident in there else [(ident, "L", cell) for cell in cells]
                for row in rows:
                    after = state - {(ident, row[2])} if row[1] == "D" else state | {(ident, row[2])}
                    if after not in seen and leads(list(state), [row], list(after)) is None:
                        seen.add(after)
                        further.add(after)
        reached = further
    return None


def lifted_word_by_word(first, second, classes):
    """Whether the lifted ids are what the definition says of them: a still one is lifted exactly where its cell is over
    one that a discharged, loaded or restowed id leaves or comes to, or over that of a lifted one."""
    a, b = dict(first), dict(second)
    cells = [a[ident] for ident, name in classes.items() if name in ("discharged", "restowed", "lifted")]
    cells += [b[ident] for ident, name in classes.items() if name in ("loaded", "restowed", "lifted")]
    return all((classes[ident] == "lifted") == any(is_over(a[ident], cell) for cell in cells)
               for ident in a if classes[ident] in ("lifted", "staying"))


SHIP = """hatches = {hatches}
margin = 1
travel = 1
deck_move = 10
hold_move = 10
[[crane]]
name = "C1"
bay = 1
"""


def ship_with(rng, rows):
    """A ship that has the hatches of the rows' bays, or one without some of them."""
    hatches = sorted({bay + {1: 1, 3: -1, 2: 0, 0: 0}[bay % 4] for bay in {cell[0] for _, _, cell in rows}} or {2})
    if len(hatches) > 1 and rng.random() < 0.3:
        hatches.remove(rng.choice(hatches))
    return read_ship(SHIP.format(hatches=hatches).encode())


def itself(words):
    faults, counts = 0, Counter()
    for seed in range(words.first, words.first + words.count):
        rng = random.Random(seed)
        small = rng.random() < 0.3
        first, second = Yard(rng, small).pair()
        rows, told = list_of(first, second)
        classes = classes_of(first, second)
        complaints = [leads(first, rows, second)]
        if not lifted_word_by_word(first, second, classes):
            complaints.append("the lifted ones aren't those of the definition")
        if len(rows) != told[0] + told[1] + 2 * (told[2] + told[3]):
            complaints.append("the counts don't sum up")
        ship = ship_with(rng, rows)
        bare = [number for number, (_, _, cell) in enumerate(rows, 2) if not any(cell[0] in slots(hatch) for hatch in ship.hatches)]
        due = f"BadStow NoHatch {bare[0]}" if bare else None
        if list_fault(ship, list_text(rows)) != due:
            complaints.append(f"the list is read otherwise: {list_fault(ship, list_text(rows))}, not {due}")
        if small and len(rows) <= 8 and len({ident for ident, _ in first + second}) <= 4:
            counts["searches of all moves"] += 1
            least = least_moves(first, second, len(rows))
            if least != len(rows):
                complaints.append(f"{least} moves do, not {len(rows)}")
        for which, containers in (("arrival", first), ("departure", second)):
            message = Message(rng, which, [one for one in containers])
            message.containers = [one for one in containers if message.can_say(one[0])]
            plan, fault = read_plan(which, message.bytes())
            if fault or plan.containers != message.containers:
                complaints.append(f"{which}: read as {fault or plan.containers}, not as {message.containers}")
        counts.update(classes.values())
        for what in filter(None, complaints):
            faults += 1
            print(f"seed {seed}: {what}")
    print(f"{words.count} pairs, {dict(counts)}: {faults} faults")
    return faults


# ---------------------------------------------------------------- the program

class Runs:
    """Runs of the program on two files in a folder of its own, and what differs."""

    def __init__(self, program, kept):
        self.program, self.kept = program, kept
        self.folder = Path(tempfile.mkdtemp(prefix="moves-", dir="/dev/shm" if Path("/dev/shm").is_dir() else None))
        self.counts, self.differences = Counter(), 0

    def run(self, name, arrival, departure, due=None):
        older = None if self.counts["runs"] % 2 else b"id,move,cell,length\nOLD,D,020082,40\n"
        files = {"a.edi": arrival, "d.edi": departure, "s.csv": older}
        for at, data in files.items():
            (self.folder / at).unlink(missing_ok=True)
            if data is not None:
                (self.folder / at).write_bytes(data)
        done = subprocess.run([self.program, "moves", "a.edi", "d.edi", "s.csv"], cwd=self.folder, capture_output=True, timeout=20)
        held = {path.name: path.read_bytes() for path in self.folder.iterdir()}
        status, lines, stow = due or answer(arrival, departure)
        files["s.csv"] = older if stow is None else stow
        seen = done.returncode, done.stdout.decode("latin-1").splitlines(), held
        self.counts["runs"] += 1
        self.counts[f"status {status}" + (f" {lines[0].split()[1]}" if status == 19 else "")] += 1
        wanted = status, lines, {at: data for at, data in files.items() if data is not None}
        said = done.stderr.decode("utf-8", "backslashreplace").splitlines()
        odd = [line for line in said if not line.startswith("qc: ")]
        if seen != wanted or odd or (status not in (0,) and not said):
            self.differences += 1
            place = self.kept / f"{name}-{self.differences}"
            place.mkdir(parents=True, exist_ok=True)
            for at, data in (("arrival.edi", arrival), ("departure.edi", departure), ("stow.csv", stow), ("seen.csv", held.get("s.csv"))):
                if data is not None:
                    (place / at).write_bytes(data)
            (place / "difference").write_text(f"{seen[:2]}\nnot\n{wanted[:2]}\nfiles {'differ' if seen[2] != wanted[2] else 'alike'}\n"
                                              f"standard error: {said}\n")
            print(f"{place}: {seen[:2]} not {wanted[:2]}, files {'differ' if seen[2] != wanted[2] else 'alike'}, said {said[:2]}")

    def close(self):
        shutil.rmtree(self.folder)


def is_all_there(data, cut):
    """Whether nothing but bytes that are passed over is missing."""
    return not data[len(cut):].strip(bytes(range(33)))


def cuts(runs, name, arrival, departure):
    """Each of both good files cut at every byte: refused, or the same answer where nothing that counts is missing. Gives
    how many cuts the second opinion takes for another plan; the program is run where there are runs."""
    whole, taken = answer(arrival, departure), 0
    for which, data in enumerate((arrival, departure)):
        for at in range(len(data)):
            both = [arrival, departure]
            both[which] = data[:at]
            due = answer(*both)
            if due[0] != 19 and not (is_all_there(data, data[:at]) and due == whole):
                print(f"{name}: the {('arrival', 'departure')[which]} cut at {at} isn't refused")
                taken += 1
            if runs:
                runs.run(f"{name}-{which}-{at}", *both, due)
    return taken


def pairs(words):
    runs = Runs(program_of(words, "moves"), Path(words.kept))
    for seed in range(words.first, words.first + words.count):
        rng = random.Random(seed)
        arrival, departure = pair_of(rng)
        runs.run(seed, arrival, departure)
        for number in range(words.spoilt):
            both = [arrival, departure]
            which = rng.randrange(2)
            both[which] = spoilt(rng, both[which])
            runs.run(f"{seed}-{number}", *both)
        if seed % words.cut_every == 0 and answer(arrival, departure)[0] == 0 and len(arrival) + len(departure) < 12000:
            runs.counts["pairs cut at every byte"] += 1
            runs.differences += cuts(runs, seed, arrival, departure)
    runs.close()
    print(f"{words.count} pairs: {dict(sorted(runs.counts.items()))}; {runs.differences} differences")
    return runs.differences


def rows(words):
    faults, runs = 0, Runs(program_of(words, "moves"), Path("moves-kept")) if words.program else None
    folders = sorted(path for path in Path(words.folder).iterdir() if (path / "report").is_file())
    for folder in folders:
        some = {name: (folder / name).read_bytes() for name in os.listdir(folder)}
        due = int(some["status"]), some["report"].decode().splitlines(), some.get("stow.csv")
        both = some["arrival.edi"], some["departure.edi"]
        if answer(*both) != due:
            faults += 1
            print(f"{folder.name}: {answer(*both)}, not {due}")
        if runs:
            runs.run(folder.name, *both, due)
        if due[0] == 0 and len(both[0]) + len(both[1]) < 12000:
            faults += cuts(runs, folder.name, *both)
    faults += runs.differences if runs else 0
    print(f"{len(folders)} folders, {faults} faults")
    return faults


# ---------------------------------------------------------------- large plans

def stack(count, turn):
    """So many containers on 40-foot cells, each at another one in another turn."""
    return b"".join(b"LOC+147+%03d%02d%02d::5'EQD+CN+T%dU%d+4310'" % (2 + 4 * (i // 4900), i // 49 % 100, 2 + 2 * (i % 49), turn, i)
                    for i in range(count))


def message(body, count):
    return b"UNH+1+BAPLIE:D:95B:UN:SMDG22'" + body + b"UNT+%d+1'" % (2 * count + 2)


def large(words):
    program, faults = program_of(words, "moves"), 0
    room = Path(tempfile.mkdtemp(prefix="moves-"))
    one = {n: message(stack(n, 1), n) for n in (20_000, 25_000, 25_001)}
    other = {n: message(stack(n, 2), n) for n in (20_000, 25_000, 25_001)}
    wide = message(b"", 0) + b" " * (8_388_608 - len(message(b"", 0)))
    held = b"UNH+1+BAPLIE'" + b"''" * 4_194_000
    cases = [("20,000 containers, all others", one[20_000], other[20_000]), ("25,000 containers, all others", one[25_000], other[25_000]),
             ("25,000 containers, none moved", one[25_000], one[25_000]), ("25,001 on departure", one[25_000], other[25_001]),
             ("25,001 on arrival", one[25_001], one[25_000]), ("blanks up to the limit", wide, wide),
             ("a byte more than the limit", one[20_000], wide + b" "), ("one segment without an end", b"UNH+1+BAPLIE'" + b"A" * 8_388_000, wide),
             ("empty segments", held, wide), ("release signs alone", b"UNH+1+BAPLIE'FTX+" + b"?" * 8_388_000, wide),
             ("many elements", b"UNH+1+BAPLIE'" + (b"FTX" + b"+" * 4093 + b"'") * 2040 + b"UNT+2042+1'", wide)]
    for name, arrival, departure in cases:
        status, lines, stow = answer(arrival, departure)
        (room / "a").write_bytes(arrival), (room / "d").write_bytes(departure), (room / "s").unlink(missing_ok=True)
        call = [sys.executable, "-I", "-S", "-c", MEASURE, "used", program, "-q", "moves", "a", "d", "s"]
        told = subprocess.run(call, cwd=room, capture_output=True, check=True).stdout.decode().splitlines()
        its_status, seconds, most = (room / "used").read_text().split()
        made = (room / "s").read_bytes() if (room / "s").exists() else None
        right = (int(its_status), told, made) == (status, lines, stow) and int(most) < 512 * 1024
        faults += not right
        print(f"{'ok   ' if right else 'WRONG'} {name}: {its_status} {told[0]}; {float(seconds):.2f} s, {int(most) // 1024} MB", flush=True)
    shutil.rmtree(room)
    return faults


def main():
    parser = argparse.ArgumentParser(description="bay plans and the list of moves")
    some = parser.add_subparsers(dest="what", required=True)
    for name in ("rows", "itself", "pairs", "large"):
        one = some.add_parser(name)
        if name == "rows":
            one.add_argument("folder", metavar="FOLDER")
        if name == "pairs":
            one.add_argument("kept", metavar="KEPT")
            one.add_argument("--spoilt", type=int, default=4)
            one.add_argument("--cut-every", type=int, default=500)
        if name in ("itself", "pairs"):
            one.add_argument("--first", type=int, default=1)
            one.add_argument("--count", type=int, default=5000)
        if name != "itself":
            add_program(one)
    words = parser.parse_args()
    sys.exit({"rows": rows, "itself": itself, "pairs": pairs, "large": large}[words.what](words) > 0)


if __name__ == "__main__":
    main()
