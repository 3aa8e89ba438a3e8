#!/usr/bin/env python3
"""Tries that each file which the built program writes is whole or as it was, whatever stops a run.

    trials/whole.py [--program FILE] [--pairs N]

prints a line for each kind of trial: `ok` or `WRONG`, what was tried, and what was seen. The kinds are

- `plan`, also from one's own plan, `free`, `moves` and `rest` are killed at each call of the system by which they open, read,
  write, store, rename or remove a file, without older files and over older ones, and each of these calls fails: each file
  is as before or whole, and none is whole where one that is written ahead of it isn't (TREE is ahead of PLAN; the new ship
  file, the new list and the old order come in this order); TREE may also be that of an earlier round of the search, which
  answers.py takes for the whole tree of a bound; each is stored before it is renamed, and where one of both fails, the
  status is that of a failed write;
- the commands that read alone are killed at each of these calls, and each fails: all files are as before;
- two runs with different ships write the same TREE and PLAN at once, N times (300), `plan` or `free` each: each file is
  one of both, whole;
- TREE or PLAN is a link to a file, to another link, to no file yet or to a device, `/dev/full`, `/dev/stdout`,
  `/dev/fd/1`, a pipe, a `>(..)` of bash, a file below `/proc/self/cwd`, an empty name; and what `moves` and `rest` write is
  a link, `/dev/full` or `/dev/stdout`;
- rights and owner of the files that are replaced, parts that were left behind, long names.

It needs Linux, bash, strace and, for the owner, root. It ends with 1 where anything else came than was wanted. Which
program FILE is, tried.py says.
"""
import argparse
import collections
import os
import re
import shutil
import stat
import subprocess
import sys
import tempfile
import threading
import time

sys.dont_write_bytecode = True  # no folder of compiled files beside the scripts

from answers import is_of_a_round
from inputs import CHANCES, CHANCES_INPUTS, LEFT, LEFT_INPUTS, LISTED, LISTED_INPUTS, OLDER, OUTPUTS
from tried import add_program, commands_of, program_of

ROOT = os.path.dirname(os.path.dirname(os.path.abspath(__file__)))
CALLS = ["openat", "read", "write", "fsync", "rename", "unlink", "close", "statx", "chown", "fchmod"]
PLANNED = ["plan", "s", "m", "p", "t"]
FREED = ["free", "s", "m", "p", "t"]
FAULT = b"WriteFault\n"
KINDS = {"t": "tree", "p": "plan", "v": "list", "x": "new ship", "y": "new list", "z": "old order"}
FIRST_WORDS = {"plan": ("Optimal", "Budget"), "free": ("Optimal", "Budget"), "moves": ("moves",), "rest": ("now",)}
wrong = 0


def read(path):
    try:
        with open(path, "rb") as file:
            return file.read()
    except OSError:
        return None


def example(name):
    return read(f"{ROOT}/examples/{name}/ship.toml"), read(f"{ROOT}/examples/{name}/stow.csv")


class Room:
    """A folder with the files of an example."""

    def __init__(self, program, inputs, older=(), others=()):
        base = "/dev/shm" if os.path.isdir("/dev/shm") else None
        self.program, self.path = program, tempfile.mkdtemp(prefix="qc-whole-", dir=base)
        self.write("s", inputs[0]), self.write("m", inputs[1])
        for name, data in [(name, OLDER[name]) for name in older] + list(dict(others).items()):
            self.write(name, data)

    def __enter__(self):
        return self

    def __exit__(self, *_):
        shutil.rmtree(self.path)

    def at(self, name):
        return os.path.join(self.path, name)

    def write(self, name, data):
        with open(self.at(name), "wb") as file:
            file.write(data)

    def read(self, name):
        return read(self.at(name))

    def left(self):
        return {name: self.read(name) for name in sorted(os.listdir(self.path)) if name not in ("s", "m", "log")}

    def run(self, words=PLANNED, how=(), **more):
        more.setdefault("stdout", subprocess.PIPE)
        return subprocess.run([*how, self.program, *words], cwd=self.path, stdin=subprocess.DEVNULL,
                              stderr=subprocess.DEVNULL, timeout=100, **more)


def told(name, is_right, what):
    global wrong
    wrong += not is_right
    print(f"{'ok   ' if is_right else 'WRONG'} {name}: {what}", flush=True)


def planned(program, inputs, words=PLANNED, others=()):
    """The files that a run makes which nothing stops."""
    with Room(program, inputs, (), others) as room:
        room.run(words)
        return room.left()


# ---------------------------------------------------------------- kills and failing calls

def calls_of(program, inputs, older, words, others):
    """How often a run makes each call."""
    with Room(program, inputs, older, others) as room:
        room.run(words, ["strace", "-o", "log", "-e", "trace=" + ",".join(CALLS)])
        return collections.Counter(re.findall(r"^(\w+)\(", room.read("log").decode(errors="replace"), re.MULTILINE))


def judge(left, older, whole, others, outputs, command, inputs):
    """What a stopped run left, or None where it may not be left: of its files, the first so many are whole."""
    before = {name: OLDER[name] for name in older}
    if any(left.get(name) != data for name, data in others.items()):
        return None
    if any(not re.fullmatch(f"[{''.join(outputs)}]\\.part[1-9]?", name) for name in left.keys() - others.keys() - set(outputs)):
        return None
    states = ["as before" if left.get(name) == before.get(name) else "whole" if left.get(name) == whole[name] else None
              for name in outputs]
    if command in ("plan", "free") and states == [None, "as before"] and is_of_a_round(command, *inputs[:2], left.get("t") or b""):
        return "tree of a round, plan as before"
    if None in states or sorted(states, reverse=True) != states:
        return None
    return ", ".join(f"{KINDS[name]} {state}" for name, state in zip(outputs, states))


def all_of(outputs, state):
    return ", ".join(f"{KINDS[name]} {state}" for name in outputs)


def injected(program, inputs, words, others, older, what):
    """Runs so often as there are calls, each time with one of them killed or failing; the call, its number, what the run
    came to and what it left."""
    for call, count in sorted(calls_of(program, inputs, older, words, others).items()):
        for number in range(1, count + 1):
            with Room(program, inputs, older, others) as room:
                how = ["strace", "-o", "log", "-e", f"trace={call}", "-e", f"inject={call}:{what}:when={number}"]
                ran = room.run(words, how)
                yield call, number, ran, room.left()


def kills(program, name, inputs, words, others):
    whole, outputs = planned(program, inputs, words, others), OUTPUTS[words[0]]
    for older in dict.fromkeys(((), outputs[1:], outputs)):
        seen, bad, kept = collections.Counter(), [], 0
        for call, number, _, left in injected(program, inputs, words, others, older, "signal=KILL"):
            what = judge(left, older, whole, others, outputs, words[0], inputs)
            kept += any(".part" in one for one in left)
            seen[what] += 1
            if what is None:
                bad.append(f"{call} {number}: {sorted(left)}")
        told(f"{name}, killed at each of {sum(seen.values())} calls, over {' and '.join(older) or 'no older files'}", not bad,
             ", ".join(f"{count} times {what}" for what, count in sorted(seen.items(), key=str))
             + f"; {kept} times a part was left behind" + (f"; {bad[:3]}" if bad else ""))


def failures(program, name, inputs, words, others):
    """Each call fails: the run comes to ReadFault or WriteFault, or to its answer with both files whole, with 4 where the
    report is cut or a file couldn't be stored or renamed; or, where the program couldn't be loaded, to an end by the
    system's loader."""
    whole, outputs, done = planned(program, inputs, words, others), OUTPUTS[words[0]], FIRST_WORDS[words[0]]
    for older in ((), outputs):
        seen, bad = collections.Counter(), []
        for call, number, ran, left in injected(program, inputs, words, others, older, "error=EIO"):
            what = judge(left, older, whole, others, outputs, words[0], inputs)
            first = (ran.stdout or b"").split(b"\n")[0].split(b" ")[0].decode(errors="replace")
            kinds = {0: done[:1], 3: ("ReadFault",), 4: ("WriteFault", "", *done), 11: ("Budget",), 127: ("",)}
            right = what and first in kinds.get(ran.returncode, ()) and (
                first not in done or what == all_of(outputs, "whole")) and (
                ran.returncode not in (3, 127) or what == all_of(outputs, "as before")) and (
                call not in ("fsync", "rename") or ran.returncode == 4)
            seen[f"{ran.returncode} {first}".strip() + f", {what}"] += 1
            if not right or any(".part" in one for one in left) and call not in ("unlink", "close"):
                bad.append(f"{call} {number}: {ran.returncode} {first} {sorted(left)}")
        told(f"{name}, each of {sum(seen.values())} calls fails, over {' and '.join(older) or 'no older files'}", not bad,
             ", ".join(f"{count} times {what}" for what, count in sorted(seen.items())) + (f"; {bad[:6]}" if bad else ""))


def stored(program, name, inputs, words, others):
    """Each new file is stored by the system before it is renamed."""
    with Room(program, inputs, (), others) as room:
        room.run(words, ["strace", "-o", "log", "-e", "trace=fsync,rename"])
        calls = re.findall(r"^(\w+)\(", room.read("log").decode(errors="replace"), re.MULTILINE)
    count = len(calls) // 2
    due = count >= 2 if words[0] in ("plan", "free") else count == len(OUTPUTS[words[0]])  # a tree may be put there by each round
    told(f"{name}, what puts its files in their places", due and calls == ["fsync", "rename"] * count, ", ".join(calls))


def readers(program, inputs, whole):
    """The commands that write no file: killed at each call, and each call fails."""
    others = {"p": whole["p"], "t": whole["t"], "f": planned(program, inputs, FREED)["t"], "w": b"0 C1 1\n21 C1 2\n",
              "l": read(f"{ROOT}/examples/first/happened.txt"), **CHANCES_INPUTS}
    shown = [[command, "s", "m", "p"] for command in ("show", "sheet", "picture", "report")]
    for words in (["check", "s", "m", "p", "t"], ["freecheck", "s", "m", "p", "f"], ["tasks", "s", "m"], *shown,
                  ["dispatch", "s", "m", "p", "l"], ["watch", "s", "w"], *[CHANCES] * ("odds" in commands_of(program))):
        seen, bad = collections.Counter(), []
        for what in ("signal=KILL", "error=EIO"):
            for call, number, ran, left in injected(program, inputs, words, others, (), what):
                report = (ran.stdout or b"").split(b"\n")[0].split(b" ")[0].decode(errors="replace")
                seen["killed" if "KILL" in what else ran.returncode] += 1
                right = ran.returncode in ((-9, 137, 0) if "KILL" in what else (0, 3, 4, 127))
                if left != others or not right or ran.returncode == 3 and report != "ReadFault":
                    bad.append(f"{what} {call} {number}: {ran.returncode} {report} {sorted(left)}")
        told(f"{words[0]}, killed at each call, and each fails", not bad, "all files as before; status "
             + ", ".join(f"{status} {count} times" for status, count in sorted(seen.items(), key=str)) + (f"; {bad[:4]}" if bad else ""))


# ---------------------------------------------------------------- two at once

def pairs(program, count, commands):
    one, two = example("first"), example("restows")
    words = [[command, s, m, "p", "t"] for command, s, m in zip(commands, ("s", "s2"), ("m", "m2"))]
    wholes = [planned(program, inputs, [command, "s", "m", "p", "t"]) for command, inputs in zip(commands, (one, two))]
    seen, bad = collections.Counter(), []
    for _ in range(count):
        with Room(program, one) as room:
            room.write("s2", two[0]), room.write("m2", two[1])
            runs = [subprocess.Popen([program, *some], cwd=room.path, stdout=subprocess.DEVNULL) for some in words]
            statuses = sorted(run.wait(100) for run in runs)
            left = room.left()
            which = [[index for index, whole in enumerate(wholes) if left.get(name) == whole[name]] for name in ("t", "p")]
            if statuses != [0, 0] or not all(which) or set(left) != {"t", "p", "s2", "m2"}:
                bad.append((statuses, which, sorted(left)))
            else:
                seen[f"tree of run {which[0][0] + 1}, plan of run {which[1][0] + 1}"] += 1
    told(f"{' and '.join(commands)} at once on the same files, {count} times", not bad,
         ", ".join(f"{times} times {what}" for what, times in sorted(seen.items())) + (f"; {bad[:3]}" if bad else ""))


# ---------------------------------------------------------------- links, devices, pipes

def facts(name, ran, status, report=None, **wanted):
    failed = [fact.replace("_", " ") for fact, holds in wanted.items() if not holds]
    right = ran.returncode == status and (report is None or ran.stdout == report) and not failed
    told(name, right, f"status {ran.returncode}; " + (f"NOT {failed}" if failed else "; ".join(fact.replace("_", " ") for fact in wanted)))


def links(program, inputs, whole):
    for name, path in (("tree", "t"), ("plan", "p")):
        for there in (True, False):
            with Room(program, inputs) as room:
                os.mkdir(room.at("folder"))
                if there:
                    room.write("folder/f", b"an older file\n")
                os.symlink("folder/f", room.at("l"))
                os.symlink("l", room.at(path))
                ran = room.run()
                facts(f"the {name} is a link to a link to {'an older file' if there else 'no file yet'} in a folder", ran, 0,
                      the_link_stays=os.path.islink(room.at(path)), the_next_link_stays=os.readlink(room.at("l")) == "folder/f",
                      the_file_is_whole=room.read("folder/f") == whole[path], nothing_else_is_left=os.listdir(room.at("folder")) == ["f"])
    with Room(program, inputs) as room:
        os.symlink("/dev/null", room.at("t"))
        facts("the tree is a link to /dev/null", room.run(), 0, the_link_stays=os.readlink(room.at("t")) == "/dev/null",
              dev_null_stays=stat.S_ISCHR(os.stat("/dev/null").st_mode), the_plan_is_whole=room.read("p") == whole["p"])


def devices(program, inputs, whole):
    for words, what in ((["plan", "s", "m", "p", "/dev/full"], "tree"), (["plan", "s", "m", "/dev/full", "t"], "plan")):
        with Room(program, inputs) as room:
            ran = room.run(words)
            facts(f"the {what} is /dev/full", ran, 4, FAULT, no_plan=room.read("p") is None,
                  tree_whole_or_none=room.read("t") == (whole["t"] if what == "plan" else None),
                  dev_full_stays=stat.S_ISCHR(os.stat("/dev/full").st_mode))
    with Room(program, inputs) as room:
        report = room.run().stdout
    for device in ("/dev/stdout", "/dev/fd/1", "/proc/self/fd/1"):
        for words, path in ((["plan", "s", "m", "p", device], "t"), (["plan", "s", "m", device, "t"], "p")):
            with Room(program, inputs) as room:
                ran = room.run(words)
                facts(f"the {KINDS[path]} is {device}, a pipe", ran, 0, whole[path] + report)
            with Room(program, inputs) as room:
                with open(room.at("out"), "ab") as out:
                    ran = room.run(words, stdout=out)
                facts(f"the {KINDS[path]} is {device}, a file that is appended to", ran, 0,
                      file_and_report_are_there=room.read("out") == whole[path] + report)
    for words, path in ((["plan", "s", "m", "p", "pipe"], "t"), (["plan", "s", "m", "pipe", "t"], "p")):
        with Room(program, inputs) as room:
            os.mkfifo(room.at("pipe"))
            got = []
            reader = threading.Thread(target=lambda: got.append(room.read("pipe")))
            reader.start()
            ran = room.run(words)
            reader.join(20)
            facts(f"the {KINDS[path]} is a named pipe", ran, 0, it_came_whole=got == [whole[path]],
                  the_pipe_stays=stat.S_ISFIFO(os.stat(room.at("pipe")).st_mode))


def names_of_the_system(program, inputs, whole):
    for words, path in ((["s", "m", "p", ">(cat >&3)"], "t"), (["s", "m", ">(cat >&3)", "t"], "p")):
        with Room(program, inputs) as room:
            line = f'exec 3>got; "$0" plan {" ".join(words)}; status=$?; exec 3>&-; wait; exit $status'
            ran = subprocess.run(["bash", "-c", line, program], cwd=room.path, stdout=subprocess.PIPE,
                                 stderr=subprocess.DEVNULL, timeout=100)
            for _ in range(100):
                if room.read("got") == whole[path]:
                    break
                time.sleep(0.05)
            facts(f"the {KINDS[path]} is >(cat) of bash", ran, 0, it_came_whole=room.read("got") == whole[path])
    for words, path in ((["plan", "s", "m", "p", "/proc/self/cwd/t"], "t"), (["plan", "s", "m", "/proc/self/cwd/p", "t"], "p")):
        for older in ((), ("t", "p")):
            with Room(program, inputs, older) as room:
                held = room.at("held")
                if older:
                    os.link(room.at(path), held)
                ran = room.run(words)
                facts(f"the {KINDS[path]} is /proc/self/cwd/{path}, {'an older file' if older else 'no file yet'}", ran, 0,
                      both_whole=(room.read("t"), room.read("p")) == (whole["t"], whole["p"]),
                      an_older_file_is_replaced=read(held) == (OLDER[path] if older else None))
    for words, path in ((["plan", "s", "m", "p", ""], "t"), (["plan", "s", "m", "", "t"], "p")):
        with Room(program, inputs) as room:
            ran = room.run(words)
            facts(f"the {KINDS[path]} has an empty name", ran, 4, FAULT, nothing_is_left=all(
                name in ("t", "p") and data == whole[name] for name, data in room.left().items()))


def links_of_others(program, inputs, words, others):
    """What `moves` and `rest` write is a link, or a device."""
    command, outputs, whole = words[0], OUTPUTS[words[0]], planned(program, inputs, words, others)
    with Room(program, inputs, (), others) as room:
        report = room.run(words).stdout
    for path in outputs:
        for there in (True, False):
            with Room(program, inputs, (), others) as room:
                os.mkdir(room.at("folder"))
                if there:
                    room.write("folder/f", b"an older file\n")
                os.symlink("folder/f", room.at(path))
                ran = room.run(words)
                facts(f"{command}: the {KINDS[path]} is a link to {'an older file' if there else 'no file yet'} in a folder", ran, 0, report,
                      the_link_stays=os.path.islink(room.at(path)), the_file_is_whole=room.read("folder/f") == whole[path],
                      nothing_else_is_left=os.listdir(room.at("folder")) == ["f"],
                      the_others_are_whole=all(room.read(name) == whole[name] for name in outputs if name != path))
        at, ahead = words.index(path), outputs[:outputs.index(path)]
        with Room(program, inputs, (), others) as room:
            ran = room.run([*words[:at], "/dev/full", *words[at + 1:]])
            facts(f"{command}: the {KINDS[path]} is /dev/full", ran, 4, FAULT,
                  those_ahead_whole_or_none=all(room.read(name) in (None, whole[name]) for name in ahead),
                  those_behind_none=all(room.read(name) is None for name in outputs if name != path and name not in ahead))
        with Room(program, inputs, (), others) as room:
            ran = room.run([*words[:at], "/dev/stdout", *words[at + 1:]])
            facts(f"{command}: the {KINDS[path]} is /dev/stdout, a pipe", ran, 0, whole[path] + report)


# ---------------------------------------------------------------- rights, parts, names

def rights(program, inputs, whole):
    with Room(program, inputs, ("t", "p")) as room:
        modes = {"t": 0o640, "p": 0o664}
        for name, mode in modes.items():
            os.chmod(room.at(name), mode)
            if os.getuid() == 0:
                os.chown(room.at(name), 65534, 65534)
        owner = os.stat(room.at("t")).st_uid
        ran = room.run()
        facts(f"older files with rights of their own{', of another user' if owner else ''}", ran, 0,
              rights_kept=all(stat.S_IMODE(os.stat(room.at(name)).st_mode) == mode for name, mode in modes.items()),
              owner_and_group_kept=all((os.stat(room.at(name)).st_uid, os.stat(room.at(name)).st_gid) in ((owner, owner), (owner, os.getgid()))
                                       for name in modes),
              both_whole=(room.read("t"), room.read("p")) == (whole["t"], whole["p"]))
    with Room(program, inputs) as room:
        old = os.umask(0o027)
        ran = room.run()
        os.umask(old)
        facts("new files under a mask of 027", ran, 0, rights_are_640=all(stat.S_IMODE(os.stat(room.at(name)).st_mode) == 0o640 for name in "tp"))


def parts(program, inputs, whole):
    for count in (1, 10):
        with Room(program, inputs) as room:
            names = ["t.part"] + [f"t.part{number}" for number in range(1, count)]
            for name in names:
                room.write(name, b"left behind\n")
            ran = room.run()
            made = {"t": whole["t"], "p": whole["p"]} if count < 10 else {}
            facts(f"{count} of the ten names of a part are taken", ran, 0 if count < 10 else 4,
                  they_are_kept=room.left() == {**dict.fromkeys(names, b"left behind\n"), **made})
    for length, status in ((250, 0), (251, 4)):
        with Room(program, inputs) as room:
            name = "t" * length
            ran = room.run(["plan", "s", "m", "p", name])
            facts(f"the tree has a name of {length} bytes", ran, status, nothing_but_whole_files=room.left() ==
                  ({"p": whole["p"], name: whole["t"]} if status == 0 else {}))


def main():
    parser = argparse.ArgumentParser(description="files are whole or as they were")
    add_program(parser)
    parser.add_argument("--pairs", type=int, default=300)
    args = parser.parse_args()
    program, inputs = program_of(args), example("first")
    whole = planned(program, inputs)
    told("plan of the first example, which nothing stops", set(whole) == {"t", "p"}, f"leaves {sorted(whole)}")
    if wrong:
        return 1
    links(program, inputs, whole)
    devices(program, inputs, whole)
    names_of_the_system(program, inputs, whole)
    rights(program, inputs, whole)
    parts(program, inputs, whole)
    own, made = {"o": whole["p"]}, {**LEFT_INPUTS, "p": whole["p"]}
    further = [("moves of two bay plans", inputs, LISTED, LISTED_INPUTS), ("rest of the first example", inputs, LEFT, made)]
    further = [one for one in further if one[2][0] in commands_of(program)]
    for _, files, words, others in further:
        links_of_others(program, files, words, others)
    for name, files, words, others in (
            ("plan of the first example", inputs, PLANNED, {}),
            ("plan of the first example from one's own", inputs, [*PLANNED, "--from", "o"], own),
            ("free of the first example", inputs, FREED, {}),
            ("free of the first example from one's own", inputs, [*FREED, "--from", "o"], own),
            ("free of what goes to and fro", example("to-and-fro"), FREED, {}),
            ("plan of the vessel, 30 branchings", example("vessel"), [*PLANNED, "--nodes", "30"], {}), *further):
        stored(program, name, files, words, others)
        kills(program, name, files, words, others)
        failures(program, name, files, words, others)
    readers(program, inputs, whole)
    for commands in (("plan", "plan"), ("free", "plan"), ("free", "free")):
        pairs(program, args.pairs, commands)
    print(f"{wrong} wrong")
    return 1 if wrong else 0


if __name__ == "__main__":
    sys.exit(main())
