"""The first fault of a ship file or of a stowage list, worked out from the formats alone.

`ship_or_fault` and `list_fault` answer what `qc` must print of a file of any bytes, as `BadShip Range travel 0`,
`ring_fault` what it prints of two good files whose order has a ring. Like
reference.py this is a second opinion: nothing is taken from the program, TOML and CSV are read by Python's library.
"""
import re
import tomllib
from dataclasses import replace

from reference import PHASES, columns_of, instance_of, read_ship, records_of

REQUIRED = object()


class Fault(Exception):
    """Kind, key and number of the first fault of a ship file."""

    def __init__(self, kind, key="", number=0):
        super().__init__(kind, key, number)
        self.text = "BadShip NotToml" if kind == "NotToml" else f"BadShip {kind} {key} {number}"


def is_integer(value):
    return isinstance(value, int) and not isinstance(value, bool)


class Table:
    """The keys of the file, or of its crane of that number."""

    def __init__(self, table, number=0):
        self.table, self.number = table, number

    def value(self, key, kind, default=REQUIRED):
        if key not in self.table:
            if default is REQUIRED:
                raise Fault("Missing", key, self.number)
            return default
        value = self.table[key]
        if not (is_integer(value) if kind is int else isinstance(value, kind)):
            raise Fault("WrongKind", key, self.number)
        return value

    def number_within(self, key, low, high, default=REQUIRED):
        value = self.value(key, int, default)
        if key in self.table and not low <= value <= high:
            raise Fault("Range", key, self.number)
        return value

    def array(self, key, least, most, default=REQUIRED):
        value = self.value(key, list, default)
        if key in self.table and not least <= len(value) <= most:
            raise Fault("Range", key, self.number)
        return value


def slots(hatch):
    """The bays that a hatch takes."""
    return range(hatch - 1, hatch + 2) if hatch % 2 == 0 else range(hatch, hatch + 1)


def judge_elements(key, values, low, high, in_order):
    """The numbers of an array, each in its range and in order with the one before it."""
    for k, value in enumerate(values, 1):
        if not is_integer(value):
            raise Fault("WrongKind", key, k)
        if not low <= value <= high:
            raise Fault("Range", key, k)
        if k > 1 and not in_order(values[k - 2], value):
            raise Fault("HatchOrder", key, k)


def judge_apart(pairs, hatches):
    for k, pair in enumerate(pairs, 1):
        if not (isinstance(pair, list) and len(pair) == 2 and all(map(is_integer, pair))):
            raise Fault("WrongKind", "apart", k)
        if pair[0] == pair[1] or not set(pair) <= set(hatches):
            raise Fault("Apart", "apart", k)


def judge_before(pairs, hatches):
    names = [f"{hatch}-{phase}" for hatch in hatches for phase in PHASES]
    for k, pair in enumerate(pairs, 1):
        if not (isinstance(pair, list) and len(pair) == 2 and all(isinstance(name, str) for name in pair)):
            raise Fault("WrongKind", "before", k)
        if not set(pair) <= set(names):
            raise Fault("Task", "before", k)
        if pair[0] == pair[1]:
            raise Fault("Same", "before", k)


def judge_releases(entries, hatches):
    names, told = [f"{hatch}-{phase}" for hatch in hatches for phase in PHASES], set()
    for k, entry in enumerate(entries, 1):
        if not (isinstance(entry, list) and len(entry) == 2 and isinstance(entry[0], str) and is_integer(entry[1])):
            raise Fault("WrongKind", "not_before", k)
        name, tick = entry
        if name not in names:
            raise Fault("Task", "not_before", k)
        if not 0 <= tick <= 1_000_000:
            raise Fault("Range", "not_before", k)
        if name in told:
            raise Fault("TaskTwice", "not_before", k)
        told.add(name)


def judge_cranes(cranes, hatches, berths, gap):
    names = []
    for k, keys in enumerate(cranes, 1):
        if not isinstance(keys, dict):
            raise Fault("WrongKind", "crane", k)
        crane = Table(keys, k)
        name = crane.value("name", str)
        plain = all(letter.isascii() and (letter.isalnum() or letter in "-_") for letter in name)
        if not (1 <= len(name.encode()) <= 12 and plain):
            raise Fault("Range", "name", k)
        crane.number_within("ready", 0, 1_000_000, 0)
        bay = crane.number_within("bay", *berths)
        first = crane.number_within("from", 1, hatches, 1)
        crane.number_within("to", first, hatches, hatches)
        if name in names:
            raise Fault("NameTwice", "name", k)
        if k > 1 and bay < cranes[k - 2]["bay"] + gap:
            raise Fault("CraneOrder", "crane", k)
        names.append(name)


def is_narrow(value):
    """Whether all numbers of a value take 64 bits at most."""
    if isinstance(value, (list, dict)):
        return all(map(is_narrow, value.values() if isinstance(value, dict) else value))
    return not is_integer(value) or -(1 << 63) <= value < 1 << 63


def read_table(data):
    """The table of a file. A byte order mark at its beginning is passed over, wider numbers than of 64 bits are refused,
    and the seconds of a time may be left out, as in TOML 1.1; Python's reader stands at 1.0, takes no such mark, and
    numbers of any width."""
    try:
        text = data.removeprefix(b"\xef\xbb\xbf").decode()
        table = tomllib.loads(re.sub(r"(?<![\d:+-])(\d\d:\d\d)(?![\d:])", r"\1:00", text))
    except (UnicodeDecodeError, tomllib.TOMLDecodeError):
        raise Fault("NotToml") from None
    if not is_narrow(table):
        raise Fault("NotToml")
    return table


def judge_ship(data):
    table = read_table(data)
    ship = Table(table)
    hatches = ship.array("hatches", 1, 60)
    judge_elements("hatches", hatches, 1, 998, lambda one, next_: slots(next_)[0] > slots(one)[-1])
    with_places = "places" in table
    if with_places:
        places = ship.array("places", len(hatches), len(hatches))
        judge_elements("places", places, 1, 6_000, lambda one, next_: next_ > one)
        gap = ship.number_within("clear", 1, 2_000)
    else:
        gap = ship.number_within("margin", 0, 20) + 1
    ship.number_within("travel", 1, 100 if with_places else 10_000)
    ship.number_within("deck_move", 1, 10_000)
    ship.number_within("hold_move", 1, 10_000)
    ship.number_within("cover", 0, 10_000, 0)
    if ship.value("restows", str, "free") not in ("free", "ordered"):
        raise Fault("Range", "restows")
    judge_apart(ship.array("apart", 0, 100, []), hatches)
    judge_before(ship.array("before", 0, 240, []), hatches)
    judge_releases(ship.array("not_before", 0, 240, []), hatches)
    judge_cranes(ship.array("crane", 1, 8), len(hatches), (-10_000, 16_000) if with_places else (-200, 300), gap)


def ship_or_fault(data):
    """The ship and None, or None and what `qc` says of the file."""
    try:
        judge_ship(data)
    except Fault as fault:
        return None, fault.text
    return read_ship(data), None


def cell_fault(text):
    """The first fault of a cell, or None."""
    if not 6 <= len(text) <= 7:
        return "Length"
    if not all(letter in "0123456789" for letter in text):
        return "Digit"
    if int(text[:-4]) == 0:
        return "BayZero"
    if int(text[-2:]) % 2:
        return "TierOdd"
    return "TierZero" if int(text[-2:]) == 0 else None


def row_fault(record, ship, earlier):
    """The first fault of a move, with the moves before it; adds it to them where there is none."""
    if len(record) != 4:
        return "Fields"
    ident, kind, cell, length = record
    if not 1 <= len(ident) <= 20 or not all("!" <= letter <= "~" and letter not in ',"' for letter in ident):
        return "Id"
    if kind not in ("D", "L"):
        return "MoveKind"
    fault = cell_fault(cell)
    if fault:
        return fault
    bay, place = int(cell[:-4]), int(cell[-4:])
    if length != ("20" if bay % 2 else "40"):
        return "LengthMismatch"
    if not any(bay in slots(hatch) for hatch in ship.hatches):
        return "NoHatch"
    if ("id", kind, ident) in earlier:
        return "IdTwice"
    taken = {("slot", kind, slot, place) for slot in ((bay,) if bay % 2 else (bay - 1, bay + 1))}
    if taken & earlier:
        return "CellTaken"
    earlier.update(taken, [("id", kind, ident)])
    return None


def list_fault(ship, data):
    """What `qc` says of the list, or None where it is a good one."""
    records, earlier = records_of(data), set()
    places = columns_of(records[0]) if records else None
    if places is None:
        return "BadStow Header 1"
    for number, record in enumerate(records[1:], 2):
        if number == 50_002:
            fault = "TooMany"
        elif len(record) != len(records[0]):
            fault = "Fields"
        else:
            fault = row_fault([record[at] for at in places], ship, earlier)
        if fault:
            return f"BadStow {fault} {number}"
    return None


def is_ring(count, pairs):
    """Whether one of so many tasks comes before itself by pairs: tasks with none left before them go, until none does."""
    left = set(range(count))
    while True:
        first = {j for j in left if not any(i in left for i, k in pairs if k == j)}
        if not first:
            return bool(left)
        left -= first


def ring_fault(ship, data):
    """What `qc` says of a ship and its list, good ones, where the planner's own order has a ring, else None."""
    for k in range(1, len(ship.asked) + 1):
        inst = instance_of(replace(ship, asked=ship.asked[:k]), data)
        if is_ring(len(inst.tasks), inst.before):
            return f"BadShip Ring before {k}"
    return None
