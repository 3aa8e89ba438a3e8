"""Ships, stowage lists and logs that are made from numbers.

`made NUMBER HATCHES CRANES` is the ship of `qc make`: four phases a hatch, each of 0 to 30 moves, cranes side by side at
the bow. `kim` has one task a hatch, of 3 to 180 ticks, after the size of the ships of Kim and Park (2004). `vessel` has
four phases and most work amidships, `full` four phases a hatch of 176 to 236 moves each, some of 20 feet; both have
cranes spread over the ship.
"""
PHASES = (("D", 82), ("D", 2), ("L", 2), ("L", 82))


def draws(number):
    """The numbers 0 to 30 that follow from a first one, by a linear congruence modulo 2^31."""
    while True:
        number = (1103515245 * number + 12345) % 2147483648
        yield number // 65536 % 31


def ship(hatches, bays, margin, travel, deck, hold, cover):
    """A ship file with cranes C1, C2 and so on at these bays."""
    lines = [f"hatches = {hatches}", f"margin = {margin}", f"travel = {travel}",
             f"deck_move = {deck}", f"hold_move = {hold}", f"cover = {cover}"]
    for number, bay in enumerate(bays, 1):
        lines += ["", "[[crane]]", f'name = "C{number}"', f"bay = {bay}"]
    return lines


def moves(hatch, phase, count):
    """Moves of 40 feet, ten to a tier."""
    kind, tier = PHASES[phase]
    return [f"{hatch}-{phase}-{i},{kind},{hatch:03}{i % 10:02}{tier + 2 * (i // 10):02},40" for i in range(count)]


def layered(hatch, phase, count):
    """Moves of 40 feet over pairs of 20 feet and under them, in 14 rows, every third tier of 40 feet."""
    kind, tier = PHASES[phase]
    rows = []
    for i in range(count):
        high, row = divmod(i, 14)
        for bay in [hatch] if high % 3 == 2 else [hatch - 1, hatch + 1]:
            rows.append(f"{bay}-{phase}-{i},{kind},{bay:03}{row:02}{tier + 2 * high - 10 * (phase in (0, 3)):02},"
                        f"{20 if bay % 2 else 40}")
    return rows[:count]


def listed(hatches, count_of, moves_of=moves):
    """A stowage list: of each hatch and phase as many moves as `count_of` says of the hatch's number."""
    return ["id,move,cell,length"] + [row for k in range(hatches) for phase in range(4)
                                      for row in moves_of(4 * k + 2, phase, count_of(k))]


def bays_of(hatches):
    return [4 * k + 2 for k in range(hatches)]


def made(number, hatches, cranes):
    draw = draws(number)
    return (ship(bays_of(hatches), [2 * k + 1 for k in range(cranes)], 1, 60, 120, 110, 240),
            listed(hatches, lambda k: next(draw)))


def kim(number, tasks, cranes):
    draw = draws(number)
    rows = ["id,move,cell,length"]
    for k in range(tasks):
        count = 3 + (31 * next(draw) + next(draw)) % 178
        rows += [f"{k}-{i},D,{4 * k + 2:03}{i // 13:02}{70 + 2 * (i % 13):02},40" for i in range(count)]
    gap = max(2, tasks // cranes)
    return ship(bays_of(tasks), [1 + gap * k for k in range(cranes)], 1, 1, 1, 1, 0), rows


def vessel(number, hatches, cranes):
    draw = draws(number)
    middle = lambda k: 1 + min(k, hatches - 1 - k)
    return (ship(bays_of(hatches), [1 + k * hatches // cranes for k in range(cranes)], 1, 30, 100, 120, 300),
            listed(hatches, lambda k: min(90, middle(k) * next(draw) // 3)))


def full(number, hatches, cranes):
    draw = draws(number)
    return (ship(bays_of(hatches), [1 + k * hatches // cranes for k in range(cranes)], 1, 60, 120, 110, 240),
            listed(hatches, lambda k: 176 + 2 * next(draw), layered))


KINDS = {"made": made, "kim": kim, "vessel": vessel, "full": full}


def later(plan, end):
    """A plan, as lines, that is begun so much later that it ends at a tick."""
    head, *records = [line.split(",") for line in plan]
    by = end - max(int(record[3]) for record in records)
    return [",".join(head)] + [",".join([task, crane, str(int(start) + by), str(int(ended) + by)])
                               for task, crane, start, ended in records]


def happened(plan, lines):
    """A log of some so many lines in which each task of a plan, as lines, is done when it ends there."""
    ends = sorted((int(record[3]), record[0]) for record in (line.split(",") for line in plan[1:]))
    last, log, now = ends[-1][0], [], 0
    for end, task in ends:
        count = min(end - now, max(1, lines * end // last - lines * now // last))
        log += [f"tick {(end - now) * (i + 1) // count - (end - now) * i // count}" for i in range(count)]
        log.append(f"done {task}")
        now = end
    return log


def places(lines, cranes):
    """A ship of 60 hatches, and a log in which cranes side by side go to and fro together: none is too near to another,
    so that all is judged."""
    log = []
    for i in range(lines):
        time, crane = divmod(i, cranes)
        log.append(f"{time} C{crane + 1} {2 * crane + time % 2}")
    return ship(bays_of(60), [2 * k + 1 for k in range(cranes)], 1, 1, 10, 10, 0), log
