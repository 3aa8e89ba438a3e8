"""Plans a ship as one does by hand, each crane a run of whole hatches, and compares `qc plan` with that.

Of all splits in which the cranes work runs of hatches in the order in which they stand, that one is taken in which
the last crane is done first, where each works alone: it comes to its run, works it and goes on. It is tried both
ways along the ship. All tasks then start as early as the rules allow; of two apart tasks the one that would start
first is done first. Nothing here is taken from the program: rules and files are those of trials/reference.py.
"""
import os
import random
import subprocess
import sys
import tempfile

sys.path.append(os.path.join(os.path.dirname(os.path.dirname(os.path.abspath(__file__))), "trials"))

from reference import NEVER, arcs_up, end_of, instance_of, least_starts, plan_text, read_ship  # noqa: E402


# ---------------------------------------------------------------- the split

def runs_of(inst):
    """The crane of each task by the best split of an instance that is read upward, or None."""
    bays = sorted({task.bay for task in inst.tasks})
    tasks = {bay: [j for j, task in enumerate(inst.tasks) if task.bay == bay] for bay in bays}
    done = [0] + [NEVER] * len(bays)            # by when the cranes so far have done the first so many hatches
    choices = []
    for crane in range(len(inst.cranes)):
        with_it, begins = list(done), list(range(len(bays) + 1))
        for first, before in enumerate(done[:-1]):
            if before == NEVER:
                continue
            time = 0
            for number in range(first, len(bays)):
                j = tasks[bays[number]][0]
                if not inst.reaches(crane, j):
                    break
                if number == first:
                    time = inst.free_from(j, crane)
                else:
                    time += inst.travel * (bays[number] - bays[number - 1])
                time += sum(inst.tasks[i].ticks for i in tasks[bays[number]])
                if max(time, before) < with_it[number + 1]:
                    with_it[number + 1], begins[number + 1] = max(time, before), first
        done = with_it
        choices.append(begins)
    if done[-1] == NEVER:
        return None
    cranes, front = [0] * len(inst.tasks), len(bays)
    for crane, begins in reversed(list(enumerate(choices))):
        for number in range(begins[front], front):
            for j in tasks[bays[number]]:
                cranes[j] = crane
        front = begins[front]
    return cranes


def starts_of(inst, cranes):
    """The least starts with these cranes, apart tasks in the order in which they would start, or None."""
    arcs = arcs_up(inst, cranes)
    starts = least_starts(inst, [inst.free_from(j, crane) for j, crane in enumerate(cranes)], arcs)
    for i, j in inst.apart if starts is not None else ():
        if starts[i] + inst.tasks[i].ticks <= starts[j] or starts[j] + inst.tasks[j].ticks <= starts[i]:
            arcs.append((i, j, inst.tasks[i].ticks) if starts[i] <= starts[j] else (j, i, inst.tasks[j].ticks))
            continue
        pair = (i, j) if starts[i] <= starts[j] else (j, i)
        for first, second in (pair, pair[::-1]):
            order = (first, second, inst.tasks[first].ticks)
            later = least_starts(inst, starts, arcs + [order])
            if later is not None:
                break
        else:
            return None
        arcs.append(order)
        starts = later
    return starts


def split(inst):
    """The plan of the best split both ways, or None."""
    plans = []
    for seen, turn in ((inst, lambda plan: plan), (inst.mirror, inst.mirrored)):
        cranes = runs_of(seen)
        starts = None if cranes is None else starts_of(seen, cranes)
        if starts is not None:
            plans.append(turn(list(zip(cranes, starts))))
    return min(plans, key=lambda plan: end_of(inst, plan), default=None)


# ---------------------------------------------------------------- random ships

def random_ship(rng):
    """A ship of 10 to 60 hatches and 2 to 8 cranes, as lines of its file and of its list."""
    hatches, cranes = rng.randint(10, 60), rng.randint(2, 8)
    margin, ready = rng.choice((0, 1, 1, 1, 2)), rng.random() < 0.4
    first, step = rng.randint(-10, hatches), rng.choice((margin + 1, max(margin + 1, hatches // cranes)))
    lines = [f"hatches = {[4 * k + 2 for k in range(hatches)]}", f"margin = {margin}",
             f"travel = {rng.choice((1, 10, 30, 60, 100))}", f"deck_move = {rng.choice((90, 100, 120))}",
             f"hold_move = {rng.choice((100, 110, 130))}", f"cover = {rng.choice((0, 240, 300))}"]
    ordered = rng.random() < 0.4
    lines += [f'restows = "{"ordered" if ordered else "free"}"']
    if rng.random() < 0.5:
        pairs = [rng.sample(range(hatches), 2) for _ in range(rng.randint(1, 4))]
        lines += [f"apart = {[[4 * a + 2, 4 * b + 2] for a, b in pairs]}"]
    reaches = rng.random() < 0.4
    for k in range(cranes):
        lines += ["", "[[crane]]", f'name = "C{k + 1}"', f"bay = {first + step * k}"]
        if ready and rng.random() < 0.6:
            lines += [f"ready = {rng.randint(0, 5000)}"]
        if reaches:
            middle, wide = hatches * k // cranes, hatches // 2 + 1
            lines += [f"from = {max(1, middle - wide)}", f"to = {min(hatches, middle + 1 + wide)}"]
    rows, most = [], rng.choice((10, 20, 30))
    for k in range(hatches):
        for phase, (kind, tier) in enumerate((("D", 82), ("D", 2), ("L", 2), ("L", 82))):
            count = rng.randint(0, most) if rng.random() < 0.9 else 0
            rows += [[f"{k}-{phase}-{i}", kind, f"{4 * k + 2:03}{i % 10:02}{tier + 2 * (i // 10):02}"]
                     for i in range(count)]
    again = [row for row in rows if row[1] == "L"]
    out = [row for row in rows if row[1] == "D"]
    for row in rng.sample(again, min(len(again), rng.choice((0, 1, 3, 8)))):
        if out:
            row[0] = out.pop(rng.randrange(len(out)))[0]
    return lines, ["id,move,cell,length"] + [",".join(row + ["40"]) for row in rows]


# ---------------------------------------------------------------- the program beside it

def run(program, *words):
    answer = subprocess.run([program, "-q", *words], capture_output=True, text=True, check=False)
    lines = answer.stdout.splitlines()
    return lines[0] if lines else "", dict(line.split(" ", 1) for line in lines if " " in line)


def compare(seed, program):
    """The ends of the first plan and of the split of a random ship, each None where there is none. The split's plan must
    be one that `check` takes."""
    lines, rows = random_ship(random.Random(seed))
    with tempfile.TemporaryDirectory() as folder:
        ship, stow, own, tree, plan = (os.path.join(folder, f) for f in ("ship", "stow", "own", "tree", "plan"))
        for name, text in ((ship, lines), (stow, rows)):
            with open(name, "w", encoding="ascii") as file:
                file.write("\n".join(text) + "\n")
        ended, told = run(program, "plan", ship, stow, plan, tree, "--nodes", "0")
        by_hand = write_split(ship, stow, own)
        if by_hand is not None and run(program, "check", ship, stow, own, tree)[1].get("end") != str(by_hand):
            raise ValueError(f"check doesn't take the split of the ship of seed {seed}")
    return {"seed": seed, "ended": ended, "end": int(told["end"]) if "end" in told else None, "split": by_hand}


def write_split(ship, stow, plan):
    """Writes the plan of the best split; its end, or None where there is none."""
    with open(ship, "rb") as file:
        data = read_ship(file.read())
    with open(stow, "rb") as file:
        inst = instance_of(data, file.read())
    found = split(inst)
    if found is None:
        return None
    text = plan_text(inst, found)
    with open(plan, "wb") as file:
        file.write(text if isinstance(text, bytes) else text.encode("ascii"))
    return end_of(inst, found)
