#!/usr/bin/env python3
"""What two BAPLIE bay plans come to, and the list of moves from the one to the other, worked out from the formats alone.

    bayplan.py ARRIVAL DEPARTURE [STOW]

prints what `qc moves` must print and writes the list where STOW is given. `answer` gives status, report and list of the
bytes of two files; `read_plan` one plan or its first fault. Like reference.py this is a second opinion: nothing is taken
from the program or from its specifications. moves.py tries the program by it.

A cell is a bay, a row and a tier; a plan's containers are ids, as bytes, with cells, in the order of the file.
"""
import sys
from dataclasses import dataclass, field

sys.dont_write_bytecode = True  # no folder of compiled files beside the scripts

from faults import cell_fault

LARGEST = 8_388_608
CLASSES = ("discharged", "loaded", "restowed", "lifted", "staying")
ENVELOPES = (b"UNA", b"UNB", b"UNG", b"UNH", b"UNE", b"UNZ")


class Fault(Exception):
    """Kind and segment of the first fault of a file."""

    def __init__(self, kind, number):
        super().__init__(kind, number)
        self.kind, self.number = kind, number


# ---------------------------------------------------------------- segments

@dataclass(frozen=True)
class Signs:
    component: int = ord(":")
    element: int = ord("+")
    release: int | None = ord("?")
    end: int = ord("'")


def plain(data):
    """The bytes of a file without a mark at its beginning and without line breaks."""
    return data.removeprefix(b"\xef\xbb\xbf").replace(b"\r", b"").replace(b"\n", b"")


def passed(text, at):
    """The first place from `at` on with a byte above 32, or the end."""
    while at < len(text) and text[at] <= 32:
        at += 1
    return at


def is_sign(byte):
    return 0x21 <= byte <= 0x7E and not chr(byte).isalnum()


def signs_of(text):
    """The signs, and where the segments begin."""
    at = passed(text, 0)
    if text[at:at + 3] != b"UNA":
        return Signs(), at
    six = text[at + 3:at + 9]
    if len(six) < 6:
        raise Fault("Una", 0)
    component, element, _, release, _, end = six
    several = [component, element, end] + [release] * (release != 0x20)
    if len(set(several)) < len(several) or not all(map(is_sign, several)):
        raise Fault("Una", 0)
    return Signs(component, element, None if release == 0x20 else release, end), at + 9


def end_of_segment(text, at, signs):
    """Where the segment's end sign stands among its first 4,097 bytes, or None."""
    last = min(len(text), at + 4097)
    while at < last:
        if text[at] == signs.end:
            return at
        at += 2 if text[at] == signs.release else 1
    return None


def cut_up(raw, signs):
    """The elements of a segment, each a list of components."""
    elements, at = [[bytearray()]], 0
    while at < len(raw):
        byte = raw[at]
        if byte == signs.element:
            elements.append([bytearray()])
        elif byte == signs.component:
            elements[-1].append(bytearray())
        else:
            at += byte == signs.release
            elements[-1][-1] += raw[at:at + 1]
        at += 1
    return [[bytes(component) for component in element] for element in elements]


class Segment:
    def __init__(self, raw, signs):
        self.raw, self.elements = raw, cut_up(raw, signs)

    def part(self, element, component=0):
        some = self.elements[element] if element < len(self.elements) else []
        return some[component] if component < len(some) else b""

    @property
    def tag(self):
        return self.part(0)


# ---------------------------------------------------------------- a plan

@dataclass
class BayPlan:
    containers: list = field(default_factory=list)
    unnamed: int = 0
    bundled: int = 0
    other: int = 0


def cell_text(cell):
    return f"{cell[0]:02}{cell[1]:02}{cell[2]:02}"


def slots_of(bay):
    """The 20-foot places of a bay."""
    return (bay,) if bay % 2 else (bay - 1, bay + 1)


class Reader:
    """Reads a plan; `which` is `arrival` or `departure`."""

    def __init__(self, which, data):
        self.which, self.text = which, plain(data)
        self.plan, self.number = BayPlan(), 0
        self.stage, self.has_envelope = "first", False
        self.begun = None                      # the number of UNH
        self.place, self.has_container, self.has_other = None, False, False
        self.ids, self.taken = set(), set()

    def read(self):
        self.signs, at = signs_of(self.text)
        while True:
            self.number += 1
            at = passed(self.text, at)
            if at == len(self.text):
                self.expect(self.stage == "over", "Cut")
                return self.plan
            self.expect(self.stage != "over", "After")
            end = end_of_segment(self.text, at, self.signs)
            if end is None:
                self.expect(len(self.text) - at > 4096, "Cut")
                self.expect(False, "TooLong")
            self.take(Segment(self.text[at:end], self.signs))
            at = end + 1

    def expect(self, holds, kind):
        if not holds:
            raise Fault(kind, self.number)

    def take(self, segment):
        tag = segment.tag
        self.expect(len(tag) == 3 and all(65 <= byte <= 90 for byte in tag), "Tag")
        self.expect(self.may_come(tag), "Place")
        if tag == b"UNB":
            self.stage, self.has_envelope = "envelope", True
        elif tag == b"UNH":
            self.expect(segment.part(2) == b"BAPLIE", "NotBaplie")
            self.stage, self.begun = "message", self.number
        elif tag == b"BGM":
            self.expect(segment.part(3) not in (b"1", b"2", b"3", b"4"), "Partial")
            self.expect(segment.part(1, 3) != b"LOADONLY", "Partial")
        elif tag == b"UNT":
            self.expect_count(segment, self.number - self.begun + 1)
            self.close()
            self.stage = "behind" if self.has_envelope else "over"
        elif tag == b"UNZ":
            self.expect_count(segment, 1)
            self.stage = "over"
        elif tag == b"LOC" and segment.part(1) == b"147":
            self.close()
            self.place = segment
        elif tag == b"EQD":
            self.equipment(segment)

    def may_come(self, tag):
        if self.stage == "message":
            return tag not in ENVELOPES
        return tag in {"first": (b"UNB", b"UNH"), "envelope": (b"UNH",), "behind": (b"UNZ",)}[self.stage]

    def expect_count(self, segment, count):
        told = segment.part(1)
        self.expect(1 <= len(told) <= 9 and all(48 <= byte <= 57 for byte in told) and int(told) == count, "Count")

    def close(self):
        """The place that is open is over."""
        self.plan.other += self.has_other and not self.has_container
        self.place, self.has_container, self.has_other = None, False, False

    def equipment(self, segment):
        if segment.part(1) != b"CN":
            self.has_other = self.place is not None
            return
        self.expect(self.place is not None, "NoPlace")
        if self.has_container:
            self.plan.bundled += 1
            return
        self.has_container = True
        self.container(segment)

    def container(self, segment):
        plan, place = self.plan, self.place
        self.expect(len(plan.containers) < 25_000, "TooMany")
        self.expect(place.part(2, 2).strip(b" ") in (b"", b"5"), "CellKind")
        text = place.part(2).strip(b" ").decode("latin-1")
        kind = cell_fault(text)
        self.expect(kind is None, kind)
        bay, row, tier = int(text[:-4]), int(text[-4:-2]), int(text[-2:])
        ident = segment.part(2).replace(b" ", b"")
        if not ident and self.which == "departure":
            ident = b"NEW-" + cell_text((bay, row, tier)).encode()
            plan.unnamed += 1
        self.expect(1 <= len(ident) <= 20 and all(0x21 <= byte <= 0x7E and byte not in b',"' for byte in ident), "Id")
        size = segment.part(3).lstrip(b" ")[:1]
        self.expect(size in (b"", b"2", b"4", b"9") or b"G" <= size <= b"P", "Size")
        self.expect(not size or (size == b"2") == (bay % 2 == 1), "LengthMismatch")
        self.expect(ident not in self.ids, "IdTwice")
        cells = {(slot, row, tier) for slot in slots_of(bay)}
        self.expect(not cells & self.taken, "CellTaken")
        self.ids.add(ident)
        self.taken |= cells
        plan.containers.append((ident, (bay, row, tier)))


def read_plan(which, data):
    """The plan and None, or None and its first fault as (kind, segment)."""
    try:
        return Reader(which, data).read(), None
    except Fault as fault:
        return None, (fault.kind, fault.number)


# ---------------------------------------------------------------- from one plan to the other

def is_deck(cell):
    return cell[2] >= 70


def is_over(cell, other):
    """Whether what stands at the one cell keeps what stands at the other from being lifted."""
    return (cell[1] == other[1] and is_deck(cell) == is_deck(other) and cell[2] > other[2]
            and not set(slots_of(cell[0])).isdisjoint(slots_of(other[0])))


def classes_of(first, second):
    """The class of each id of either plan, by the containers of both."""
    a, b = dict(first), dict(second)
    found = {ident: "discharged" if ident not in b else "restowed" if a[ident] != b[ident] else "still" for ident in a}
    found.update((ident, "loaded") for ident in b if ident not in a)
    lowest = {}  # the lowest tier that is worked, of each row, side and 20-foot place

    def columns(cell):
        return [(cell[1], is_deck(cell), slot) for slot in slots_of(cell[0])]

    def work(cell):
        for column in columns(cell):
            lowest[column] = min(cell[2], lowest.get(column, 100))

    for plan, some in ((a, ("discharged", "restowed")), (b, ("loaded", "restowed"))):
        for ident, cell in plan.items():
            if found[ident] in some:
                work(cell)
    for ident, cell in sorted(a.items(), key=lambda container: container[1][2]):
        if found[ident] == "still":
            is_lifted = any(lowest.get(column, 100) < cell[2] for column in columns(cell))
            found[ident] = "lifted" if is_lifted else "staying"
            if is_lifted:
                work(cell)
    return found


def list_of(first, second):
    """The moves from the one plan to the other, each an id, `D` or `L`, and a cell, and how many ids each class has."""
    classes = classes_of(first, second)
    out = [(ident, "D", cell) for ident, cell in first if classes[ident] in ("discharged", "restowed", "lifted")]
    back = [(ident, "L", cell) for ident, cell in second if classes[ident] in ("loaded", "restowed", "lifted")]
    out.sort(key=lambda row: (-row[2][2], row[2][0], row[2][1]))
    back.sort(key=lambda row: (row[2][2], row[2][0], row[2][1]))
    counts = list(classes.values())
    return out + back, [counts.count(name) for name in CLASSES]


def list_text(rows):
    lines = [b"id,move,cell,length"]
    for ident, kind, cell in rows:
        lines.append(b"%s,%s,%s,%s" % (ident, kind.encode(), cell_text(cell).encode(), b"20" if cell[0] % 2 else b"40"))
    return b"".join(line + b"\n" for line in lines)


# ---------------------------------------------------------------- answers

def answer(arrival, departure):
    """Status, report and list of the bytes of two files, None where there is no such file; the list is None where none
    is written."""
    plans = []
    for which, data in (("arrival", arrival), ("departure", departure)):
        if data is None:
            return 3, [f"ReadFault {which}"], None
        if len(data) > LARGEST:
            return 15, [f"TooLarge {which}"], None
        plan, fault = read_plan(which, data)
        if fault:
            return 19, [f"BadBayPlan {fault[0]} {which} {fault[1]}"], None
        plans.append(plan)
    a, b = plans
    rows, counts = list_of(a.containers, b.containers)
    lines = [f"moves {len(rows)}"] + [f"{name} {count}" for name, count in zip(CLASSES, counts)]
    lines += [f"unnamed {b.unnamed}", f"bundled {a.bundled + b.bundled}", f"other {a.other + b.other}"]
    return 0, lines, list_text(rows)


def main():
    arrival, departure, *stow = sys.argv[1:]
    files = []
    for path in (arrival, departure):
        with open(path, "rb") as file:
            files.append(file.read())
    status, lines, made = answer(*files)
    print("\n".join(lines))
    if stow and made is not None:
        with open(stow[0], "wb") as file:
            file.write(made)
    sys.exit(status)


if __name__ == "__main__":
    main()
