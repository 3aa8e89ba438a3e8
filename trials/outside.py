#!/usr/bin/env python3
"""Runs the built program where the outside fails: full disks, folders in place of files, closed output and more.

    trials/outside.py [--program FILE]

prints a line for each trial: `ok` or `WRONG`, what was tried, the status and what is left. Some trials mount a small
tmpfs or become `nobody`, so it is run as root; without root they are skipped, and said so. It ends with 1 where
anything else came than was wanted. The wanted answers are those of docs/FORMATS.md. That files are whole or as they
were, whatever stops a run, is tried by whole.py. Which program FILE is, tried.py says.
"""
import argparse
import os
import pty
import re
import resource
import shutil
import signal
import subprocess
import sys
import tempfile
import threading
import time
import tty

sys.dont_write_bytecode = True  # no folder of compiled files beside the scripts

from inputs import CHANCES, CHANCES_INPUTS, LEFT, LEFT_INPUTS, LISTED, LISTED_INPUTS, OLDER, OUTPUTS
from tried import add_program, commands_of, program_of

ROOT = os.path.dirname(os.path.dirname(os.path.abspath(__file__)))
SHIP = open(f"{ROOT}/examples/first/ship.toml", "rb").read()
STOW = open(f"{ROOT}/examples/first/stow.csv", "rb").read()
VESSEL = open(f"{ROOT}/examples/vessel/ship.toml", "rb").read()
VESSEL_STOW = open(f"{ROOT}/examples/vessel/stow.csv", "rb").read()
PLANNED = ["plan", "s", "m", "p", "t"]
FREED = ["free", "s", "m", "p", "f"]
OWNED = ["plan", "s", "m", "p", "t", "--from", "o"]
IS_ROOT = os.getuid() == 0
FAULT = b"WriteFault\n"
program = None
wrong = 0


def read(path):
    try:
        with open(path, "rb") as file:
            return file.read()
    except OSError:
        return None


class Room:
    """A folder with the files of an example, and the whole tree and plan that come of them."""

    def __init__(self, ship=SHIP, stow=STOW, words=()):
        self.path = tempfile.mkdtemp(prefix="qc-trial-")
        os.chmod(self.path, 0o755)
        self.write("s", ship), self.write("m", stow)
        self.run(PLANNED + list(words))
        self.tree, self.plan = self.read("t"), self.read("p")
        for name in ("t", "p"):
            if self.read(name) is not None:
                os.remove(self.at(name))

    def fill(self):
        """Writes the plan, both trees, a plan of one's own and both logs."""
        self.run(FREED)
        self.write("p", self.plan), self.write("t", self.tree), self.write("o", self.plan)
        self.write("l", open(f"{ROOT}/examples/first/happened.txt", "rb").read())
        self.write("w", b"0 C1 1\n20 C1 1\n21 C1 2\n")
        for name, data in {**LISTED_INPUTS, **LEFT_INPUTS, **CHANCES_INPUTS}.items():
            self.write(name, data)
        return self

    def at(self, name):
        return os.path.join(self.path, name)

    def write(self, name, data):
        with open(self.at(name), "wb") as file:
            file.write(data)

    def read(self, name):
        return read(self.at(name))

    def parts(self, folder="."):
        """The new files that a run left behind, which it had begun beside others."""
        return sorted(name for name in os.listdir(self.at(folder)) if ".part" in name)

    def run(self, words, before=None, how=None, **more):
        more.setdefault("stdout", subprocess.PIPE)
        return subprocess.run((how or []) + [program, "-q"] + words, cwd=self.path, stderr=subprocess.PIPE,
                              stdin=subprocess.DEVNULL, preexec_fn=before, timeout=100, **more)


def told(name, is_right, what):
    global wrong
    wrong += not is_right
    print(f"{'ok   ' if is_right else 'WRONG'} {name}: {what}", flush=True)


def expect(name, ran, status, report=None, **facts):
    """Says whether status and report are as wanted, and each of the named facts holds."""
    right = ran.returncode == status and not ran.stderr and (report is None or ran.stdout == report)
    failed = [fact.replace("_", " ") for fact, holds in facts.items() if not holds]
    first = (ran.stdout or b"").split(b"\n")[0].decode(errors="replace")
    facts_told = "; ".join(fact.replace("_", " ") for fact in facts)
    told(name, right and not failed, f"status {ran.returncode} {first}".strip() + (f"; {facts_told}" if not failed else f"; NOT {failed}")
         + (f"; standard error {ran.stderr[:100]!r}" if ran.stderr else ""))


class Disk:
    """A tmpfs of some bytes on a folder of the room."""

    def __init__(self, room, size, inodes=None):
        self.path = room.at("disk")
        os.mkdir(self.path)
        options = f"size={size}" + (f",nr_inodes={inodes}" if inodes else "")
        subprocess.run(["mount", "-t", "tmpfs", "-o", options, "tmpfs", self.path], check=True)

    def __enter__(self):
        return self.path

    def __exit__(self, *_):
        subprocess.run(["umount", self.path], check=True)


def fill(path):
    with open(f"{path}/filler", "wb", buffering=0) as file:
        try:
            while True:
                file.write(b"x" * 4096)
        except OSError:
            pass


def full_disks():
    more = ["--nodes", "3000"]
    room = Room(VESSEL, VESSEL_STOW, more)
    for what in ("no tree", "an older tree"):
        with Disk(room, "16k") as disk:
            if what == "an older tree":
                room.write("disk/t", b"an older tree\n")
            older = read(f"{disk}/t")
            ran = room.run(["plan", "s", "m", "p", "disk/t"] + more)
            expect(f"the disk of the tree is full after 16 kB, 3,000 branchings, {what} before", ran, 4, FAULT,
                   tree_as_before=read(f"{disk}/t") == older, no_plan=room.read("p") is None,
                   no_part_left=not room.parts("disk") + room.parts())
        os.rmdir(room.at("disk"))
    room = Room()
    with Disk(room, "16k") as disk:
        fill(disk)
        ran = room.run(["plan", "s", "m", "p", "disk/t"])
        expect("the disk of the tree has no room at all", ran, 4, FAULT, no_tree=read(f"{disk}/t") is None,
               no_plan=room.read("p") is None, no_part_left=not room.parts("disk") + room.parts())
        ran = room.run(["plan", "s", "m", "disk/p", "t"])
        expect("the disk of the plan has no room at all", ran, 4, FAULT, no_plan=read(f"{disk}/p") is None,
               tree_is_whole=room.read("t") == room.tree, no_part_left=not room.parts("disk") + room.parts())
        for words in (["free", "s", "m", "p", "disk/f"], ["plan", "s", "m", "p", "disk/t", "--from", "o"]):
            os.path.exists(room.at("p")) and os.remove(room.at("p"))
            room.write("o", room.plan)
            ran = room.run(words)
            expect(f"the disk of the tree has no room at all, {' '.join(words)}", ran, 4, FAULT, no_plan=room.read("p") is None,
                   own_plan_kept=room.read("o") == room.plan, no_part_left=not room.parts("disk") + room.parts())
        for name, words in judged():
            room.fill()
            with open(room.at("disk/out"), "wb") as out:
                ran = room.run(words, stdout=out)
            expect(f"the disk of the report of {name} has no room at all", ran, 4)
    for words, path, target, kept in others_written():
        room = Room().fill()
        whole = whole_of(room, words)
        with Disk(room, "16k") as disk:
            room.write(f"disk/{path}", OLDER[path])
            fill(disk)
            ran = room.run(target(f"disk/{path}"))
            expect(f"{words[0]}: the disk of {path} has no room at all", ran, 4, FAULT, it_is_kept=read(f"{disk}/{path}") == OLDER[path],
                   the_others_are_whole_or_none=kept(room, whole), no_part_left=not room.parts("disk") + room.parts())
    room = Room()
    with Disk(room, "1m", inodes=1) as disk:
        ran = room.run(["plan", "s", "m", "p", "disk/t"])
        expect("the disk of the tree takes no further file", ran, 4, FAULT, no_tree=read(f"{disk}/t") is None,
               no_plan=room.read("p") is None, no_part_left=not room.parts())
        ran = room.run(["plan", "s", "m", "disk/p", "t"])
        expect("the disk of the plan takes no further file", ran, 4, FAULT, no_tree=room.read("t") is None,
               no_plan=read(f"{disk}/p") is None, no_part_left=not room.parts())
    room = Room(VESSEL, VESSEL_STOW, more)
    older = {"t": b"an older tree\n" * 9000, "p": b"an older plan\n"}
    for name, data in older.items():
        room.write(name, data)
    ran = room.run(PLANNED + more, before=lambda: resource.setrlimit(resource.RLIMIT_FSIZE, (8192, 8192)))
    told("the system allows files of 8,192 bytes, with the default action of SIGXFSZ",
         ran.returncode in (4, -signal.SIGXFSZ) and {name: room.read(name) for name in older} == older,
         f"{'ended by SIGXFSZ' if ran.returncode < 0 else f'status {ran.returncode}'}; both older files kept; "
         f"{len(room.parts())} part left behind")

    def ignored():
        signal.signal(signal.SIGXFSZ, signal.SIG_IGN)
        resource.setrlimit(resource.RLIMIT_FSIZE, (8192, 8192))
    room = Room(VESSEL, VESSEL_STOW, more)
    ran = room.run(PLANNED + more, before=ignored, restore_signals=False)
    expect("the system allows files of 8,192 bytes, SIGXFSZ ignored", ran, 4, FAULT, no_tree=room.read("t") is None,
           no_plan=room.read("p") is None, no_part_left=not room.parts())


def known(*some):
    """Of these words those whose command the program has."""
    return [words for words in some if words[0] in commands_of(program)]


def others_written():
    """Of each file that `moves` and `rest` write: their words, its name, the words with another name for it, and whether
    those that are written ahead of it are whole or none, and those behind it none."""
    for words in known(LISTED, LEFT):
        for path in OUTPUTS[words[0]]:
            outputs, at = OUTPUTS[words[0]], words.index(path)

            def target(name, words=words, at=at):
                return [*words[:at], name, *words[at + 1:]]

            def kept(room, whole, path=path, outputs=outputs):
                ahead = outputs[:outputs.index(path)]
                states = [room.read(name) is not None for name in ahead]
                return (all(room.read(name) in (None, whole[name]) for name in ahead) and sorted(states, reverse=True) == states
                        and all(room.read(name) is None for name in outputs if name != path and name not in ahead))
            yield words, path, target, kept


def whole_of(room, words):
    """What the command writes where nothing fails, which is taken away again."""
    room.run(words)
    whole = {name: room.read(name) for name in OUTPUTS[words[0]]}
    for name in whole:
        os.remove(room.at(name))
    return whole


def no_rights():
    def nobody(room, words):
        return room.run(words, how=["setpriv", "--reuid=65534", "--regid=65534", "--clear-groups"])
    room = Room()
    ran = nobody(room, PLANNED)
    expect("a folder that can't be written, as nobody", ran, 4, FAULT, no_tree=room.read("t") is None)
    room.write("t", b"an older tree\n"), room.write("p", b"an older plan\n")
    ran = nobody(room, PLANNED)
    expect("an older tree that can't be written, as nobody", ran, 4, FAULT, older_tree_kept=room.read("t") == b"an older tree\n",
           older_plan_kept=room.read("p") == b"an older plan\n")
    for name in ("t", "p"):
        os.chmod(room.at(name), 0o666)
    ran = nobody(room, PLANNED)
    expect("older files that can be written in a folder that can't, as nobody", ran, 4, FAULT,
           older_tree_kept=room.read("t") == b"an older tree\n", older_plan_kept=room.read("p") == b"an older plan\n")
    os.chmod(room.path, 0o777)
    os.chmod(room.at("p"), 0o644)
    ran = nobody(room, PLANNED)
    expect("an older plan that can't be written, as nobody", ran, 4, FAULT, older_tree_kept=room.read("t") == b"an older tree\n",
           older_plan_kept=room.read("p") == b"an older plan\n", no_part_left=not room.parts())
    for words, path, target, kept in others_written():
        room = Room().fill()
        whole = whole_of(room, words)
        os.chmod(room.path, 0o777)
        room.write(path, OLDER[path])
        expect(f"{words[0]}: an older {path} that can't be written, as nobody", nobody(room, words), 4, FAULT,
               it_is_kept=room.read(path) == OLDER[path], the_others_are_whole_or_none=kept(room, whole), no_part_left=not room.parts())
    for name, word, words in read_ones():
        room = Room().fill()
        os.chmod(room.at(name), 0)
        expect(f"{words[0]}: a {word} file that can't be read, as nobody", nobody(room, words), 3, f"ReadFault {word}\n".encode())


def kinds_of_files():
    for name, word, words in read_ones():
        for how in ("a folder in place of the", "no", "a link to nothing in place of the", "a link to itself in place of the"):
            room = Room().fill()
            os.remove(room.at(name))
            if how.startswith("a folder"):
                os.mkdir(room.at(name))
            elif how.startswith("a link"):
                os.symlink("nothing" if "nothing" in how else name, room.at(name))
            expect(f"{words[0]}: {how} {word} file", room.run(words), 3, f"ReadFault {word}\n".encode())
    room = Room()
    os.mkdir(room.at("t"))
    expect("a folder in place of the tree that is to be written", room.run(PLANNED), 4, FAULT, no_plan=room.read("p") is None)
    room = Room()
    os.mkdir(room.at("p"))
    expect("a folder in place of the plan that is to be written", room.run(PLANNED), 4, FAULT, no_tree=room.read("t") is None)
    room = Room()
    expect("a tree in a folder that isn't there", room.run(["plan", "s", "m", "p", "no/t"]), 4, FAULT, no_plan=room.read("p") is None)
    for words, path, target, kept in others_written():
        room = Room().fill()
        whole = whole_of(room, words)
        os.mkdir(room.at(path))
        expect(f"{words[0]}: a folder in place of {path} that is to be written", room.run(words), 4, FAULT,
               it_stays=os.listdir(room.at(path)) == [], no_part_left=not room.parts(),
               the_others_are_none=all(room.read(name) is None for name in OUTPUTS[words[0]]))
        os.rmdir(room.at(path))
        expect(f"{words[0]}: {path} is to be in a folder that isn't there", room.run(target(f"no/{path}")), 4, FAULT,
               the_others_are_none=all(room.read(name) is None for name in OUTPUTS[words[0]]), no_part_left=not room.parts())
        expect(f"{words[0]}: {path} is to be /dev/null", room.run(target("/dev/null")), 0, None,
               the_others_are_whole=all(room.read(name) == whole[name] for name in whole if name != path))
    room = Room().fill()
    for words, place, word in ((LISTED, 1, "arrival"), (LISTED, 2, "departure"), (CHANCES, 4, "past"), (LEFT, 4, "log")):
        if not known(words):
            continue
        some = lambda name: [*words[:place], name, *words[place + 1:]]
        expect(f"/dev/zero as {word} of {words[0]}", room.run(some("/dev/zero")), 15, f"TooLarge {word}\n".encode())
        status, report = {"arrival": (19, b"BadBayPlan Cut arrival 1\n"), "departure": (19, b"BadBayPlan Cut departure 1\n"),
                          "past": (21, b"BadPast Header 1\n"), "log": (0, None)}[word]
        expect(f"/dev/null as {word} of {words[0]}", room.run(some("/dev/null")), status, report)
    room = Room()
    for what, status, report in (("/dev/zero", 15, b"TooLarge ship\n"), ("/dev/urandom", 15, b"TooLarge ship\n"),
                                 ("/dev/null", 5, b"BadShip Missing hatches 0\n"), ("/proc/self/mem", 3, b"ReadFault ship\n")):
        expect(f"{what} as ship file", room.run(["tasks", what, "m"]), status, report)
    for command in ("check", "freecheck"):
        expect(f"/dev/zero as tree of {command}", room.run([command, "s", "m", "-", "/dev/zero"]), 7, b"BadTree LineTooLong 1\n")
    room.fill()
    for command, words in (("dispatch", ["s", "m", "p"]), ("watch", ["s"])):
        expect(f"/dev/zero as log of {command}", room.run([command, *words, "/dev/zero"]), 15, b"TooLarge log\n")
        expect(f"/dev/null as log of {command}", room.run([command, *words, "/dev/null"]), 0,
               b"Safe 0\n" if command == "watch" else b"start 2-DD C1 0\nnow 0\nleft 1\nrunning 1\n")
    for command in ("plan", "free"):
        expect(f"/dev/zero as own plan of {command}", room.run([command, "s", "m", "p", "t", "--from", "/dev/zero"]), 15,
               b"TooLarge own\n", tree_as_before=room.read("t") == room.tree)
        expect(f"/dev/null as own plan of {command}", room.run([command, "s", "m", "p", "t", "--from", "/dev/null"]), 8,
               b"BadPlan Header 1\n", tree_as_before=room.read("t") == room.tree)
    room = Room()
    expect("/dev/full as tree to be written", room.run(["plan", "s", "m", "p", "/dev/full"]), 4, FAULT, no_plan=room.read("p") is None)
    expect("/dev/full as plan to be written", room.run(["plan", "s", "m", "/dev/full", "t"]), 4, FAULT,
           tree_is_whole=room.read("t") == room.tree)
    expect("/dev/null as tree to be written", room.run(["plan", "s", "m", "p", "/dev/null"]), 0, None,
           plan_is_whole=room.read("p") == room.plan)


def same_files():
    def older(room):
        room.write("t", b"an older tree\n")
    for how, plan, make in (("./t", "./t", older), ("a link", "p", lambda room: (older(room), os.symlink("t", room.at("p")))),
                            ("a link to no file yet", "p", lambda room: os.symlink("t", room.at("p")))):
        room = Room()
        make(room)
        expect(f"the plan is the tree, by {how}", room.run(["plan", "s", "m", plan, "t"]), 4, FAULT,
               tree_is_whole=room.read("t") == room.tree, no_part_left=not room.parts())
    room = Room()
    older(room), os.link(room.at("t"), room.at("p"))
    expect("the plan is a second name of the older tree, which is replaced", room.run(PLANNED), 0, None,
           tree_is_whole=room.read("t") == room.tree, plan_is_whole=room.read("p") == room.plan)
    for command in ("plan", "free"):
        for what, words in (("plan", ["./o", "t"]), ("tree", ["p", "./o"])):
            room = Room()
            room.write("o", room.plan)
            expect(f"{command}: the {what} is the own plan by another path", room.run([command, "s", "m", *words, "--from", "o"]), 4, FAULT,
                   it_is_kept=room.read("o") == room.plan, the_other_file_isnt_there=room.read("t" if what == "plan" else "p") is None,
                   no_part_left=not room.parts())
    for role, name in (("the ship file", "s"), ("the list", "m")):
        room = Room()
        before = room.read(name)
        expect(f"the tree is {role}, by another path", room.run(["plan", "s", "m", "p", f"./{name}"]), 4, FAULT,
               it_is_kept=room.read(name) == before, no_plan=room.read("p") is None, no_part_left=not room.parts())
        room = Room()
        expect(f"the plan is {role}, by another path", room.run(["plan", "s", "m", f"./{name}", "t"]), 4, FAULT,
               it_is_kept=room.read(name) == before, no_tree=room.read("t") is None, no_part_left=not room.parts())
    for words, path, target, kept in others_written():
        for name in [name for name in words[1:] if name not in OUTPUTS[words[0]]]:
            for how in ("by another path", "as a link to it"):
                room = Room().fill()
                whole, before = whole_of(room, words), room.read(name)
                if how.startswith("as"):
                    os.symlink(name, room.at(path))
                ran = room.run(target(f"./{name}") if how.startswith("by") else words)
                if how.startswith("as"):
                    os.remove(room.at(path))
                expect(f"{words[0]}: {path} is the {name} that is read, {how}", ran, 4, FAULT, it_is_kept=room.read(name) == before,
                       the_others_are_whole_or_none=kept(room, whole), no_part_left=not room.parts())
    if known(LISTED):
        room = Room().fill()
        room.write("d", LISTED_INPUTS["d"][:LISTED_INPUTS["d"].rindex(b"UNT")])
        expect("moves: the list is the arrival by another path, and the departure is cut", room.run(["moves", "a", "d", "./a"]), 19,
               b"BadBayPlan Cut departure 10\n", it_is_kept=room.read("a") == LISTED_INPUTS["a"], no_part_left=not room.parts())
    for one, other in (("y", "x"), ("z", "x"), ("z", "y")) if known(LEFT) else ():
        room = Room().fill()
        whole = whole_of(room, LEFT)
        ran = room.run([word if word != one else f"./{other}" for word in LEFT])
        expect(f"rest: {one} is {other}, by another path", ran, 4, FAULT,
               the_first_is_whole_or_none=room.read(other) in (None, whole[other]), no_part_left=not room.parts())
    room = Room()
    expect("the plan is the tree by the same name", room.run(["plan", "s", "m", "t", "t"]), 2, None, no_file=room.read("t") is None)


def judged():
    """Each command with its words, and words that are none."""
    plain = [[command, "s", "m", "p"] for command in ("show", "sheet", "picture", "report")]
    some = [PLANNED, FREED, OWNED, ["check", "s", "m", "p", "t"], ["freecheck", "s", "m", "p", "f"], ["tasks", "s", "m"], *plain,
            ["dispatch", "s", "m", "p", "l"], ["watch", "s", "w"], ["make", "0", "1", "1"], *known(LISTED, LEFT, CHANCES)]
    return [(words[0] + " --from" * ("--from" in words), words) for words in some] + [("usage", [])]


def read_ones():
    """Each file that a command reads by its name and word, with the words of the command."""
    words = {"s": "ship", "m": "stow", "p": "plan", "t": "tree", "f": "tree", "o": "own", "l": "log", "w": "log", "h": "log",
             "a": "arrival", "d": "departure", "q": "past"}
    for command in (["tasks", "s", "m"], ["check", "s", "m", "p", "t"], ["freecheck", "s", "m", "p", "f"], ["show", "s", "m", "p"],
                    ["sheet", "s", "m", "p"], ["picture", "s", "m", "p"], ["report", "s", "m", "p"],
                    ["dispatch", "s", "m", "p", "l"], ["watch", "s", "w"]):
        yield from ((name, words[name], command) for name in command[1:])
    for command in known(LISTED, LEFT, CHANCES):
        names = {"moves": "ad", "rest": "smph", "odds": "smpq"}[command[0]]
        yield from ((name, words[name], command) for name in names)
    for command in ("plan", "free"):
        more = [command, "s", "m", "q", "x", "--from", "o"]
        yield from ((name, words[name], more) for name in "smo")


def output():
    for name, words in judged():
        for how in ("/dev/full", "a pipe that nobody reads", "closed"):
            room = Room().fill()
            older = {file: room.read(file) for file in "smptfolwadhq"}
            outputs = OUTPUTS.get(words[0], ()) if words else ()
            whole = whole_of(room, words) if outputs and outputs[0] in "vx" else {}
            if how == "/dev/full":
                with open("/dev/full", "wb") as out:
                    ran = room.run(words, stdout=out)
            elif how == "closed":
                ran = room.run(words, before=lambda: os.close(1), stdout=None)
            else:
                reader, writer = os.pipe()
                os.close(reader)
                ran = room.run(words, stdout=writer)
                os.close(writer)
            expect(f"{name}, standard output is {how}", ran, 141 if "pipe" in how else 4, None,
                   all_files_whole={file: room.read(file) for file in older} == older, no_part_left=not room.parts(),
                   what_is_written_is_whole=all(room.read(name) == data for name, data in whole.items()))
    room = Room()
    ran = room.run(PLANNED, before=lambda: (os.close(0), os.close(1), os.close(2)), stdout=None)
    expect("plan, input, output and error closed", ran, 4, None, tree_is_whole=room.read("t") == room.tree,
           plan_is_whole=room.read("p") == room.plan)
    room = Room()
    ran = room.run(PLANNED, before=lambda: resource.setrlimit(resource.RLIMIT_NOFILE, (4, 4)))
    expect("the system allows no second open file", ran, 4, b"", no_tree=room.read("t") is None, no_plan=room.read("p") is None)


def changes_meanwhile():
    room = Room()
    rows = b"".join(b"B%d,D,02%02d%02d,40\n" % (n, n // 14, 70 + n % 14 * 2) for n in range(1400))
    whole = b"id,move,cell,length\n" + rows + b"\n" * (8388608 - 20 - len(rows))
    seen = {}
    for turn in range(60):
        room.write("m", whole)

        def shrink():
            time.sleep(0.0004 * (turn % 20))
            os.truncate(room.at("m"), (turn * 7919) % 30000)
        thread = threading.Thread(target=shrink)
        thread.start()
        ran = room.run(["tasks", "s", "m"])
        thread.join()
        key = (ran.returncode, ran.stdout.split(b" ")[0])
        seen[key] = seen.get(key, 0) + 1
    right = all(key in ((0, b"task"), (6, b"BadStow"), (0, b"total")) for key in seen)
    told("the list shrinks while it is read, 60 times", right, ", ".join(f"{n} times status {k[0]}" for k, n in sorted(seen.items())))
    os.mkfifo(room.at("pipe"))
    for part, status in ((SHIP, 0), (SHIP[: len(SHIP) // 2], 5), (b"", 5)):
        def feed():
            with open(room.at("pipe"), "wb", buffering=0) as pipe:
                for at in range(0, len(part), 7):
                    pipe.write(part[at:at + 7])
        room.write("m", STOW)
        thread = threading.Thread(target=feed)
        thread.start()
        ran = room.run(["tasks", "pipe", "m"])
        thread.join()
        expect(f"the ship file is a pipe that gives {len(part)} of {len(SHIP)} bytes, 7 at a time", ran, status)
    right, begun, killed, took = 0, 0, 0, None
    for turn in range(21):  # the first one isn't killed, and tells how long one takes
        room = Room.__new__(Room)
        room.path = tempfile.mkdtemp(prefix="qc-trial-")
        room.write("s", VESSEL), room.write("m", VESSEL_STOW)
        since = time.monotonic()
        process = subprocess.Popen([program, "free"] + PLANNED[1:] + ["--nodes", "100000"], cwd=room.path, stdout=subprocess.DEVNULL)
        if took is None:
            process.wait()
            took = time.monotonic() - since
            continue
        time.sleep(took * turn / 22)
        process.kill()
        is_killed = process.wait() == -signal.SIGKILL  # on a busy machine it may be through
        killed += is_killed
        right += not is_killed or room.read("t") is None and room.read("p") is None
        begun += room.parts() == ["t.part"]
    told(f"free is killed while it searches, {killed} of 20 times", right == 20 and begun > 0,
         f"{right - 20 + killed} times neither file is there, {begun} times a part of the tree is left behind")


def at_a_terminal(room, words):
    """The status of a run whose output and error are a terminal, and what it writes there."""
    ours, its = pty.openpty()
    tty.setraw(its)
    pieces = []

    def listen():
        try:
            while piece := os.read(ours, 65536):
                pieces.append(piece)
        except OSError:
            pass  # the run's end is closed
    thread = threading.Thread(target=listen)
    thread.start()
    ran = subprocess.run([program] + words, cwd=room.path, stdin=subprocess.DEVNULL, stdout=its, stderr=its, timeout=100)
    os.close(its)
    thread.join()
    os.close(ours)
    return ran.returncode, b"".join(pieces)


def lines_told(written):
    """The lines that are written over, of which one is empty where it is cleared, and what stands behind them."""
    lines = re.match(rb"(?:\r[^\r\x1b]*\x1b\[K)*", written)
    return re.findall(rb"\r([^\r\x1b]*)\x1b\[K", lines[0]), written[lines.end():]


def told_at_a_terminal(name, room, words, are_due):
    """Tries a command at a terminal: these lines are due, the last one clears the line, and the report stands behind it.
    With `-q`, or where standard error is none, there is no line."""
    ran = room.run(words)
    status, written = at_a_terminal(room, words)
    lines, rest = lines_told(written)
    told(f"{name}, at a terminal", status == ran.returncode and are_due(lines) and rest.startswith(ran.stdout),
         f"status {status}; {len(lines)} lines, the last {lines[-2:]}; then the report")
    quiet = at_a_terminal(room, ["-q"] + words)
    told(f"{name}, at a terminal with -q", quiet == (ran.returncode, ran.stdout), "the report alone")
    piped = subprocess.run([program] + words, cwd=room.path, capture_output=True, stdin=subprocess.DEVNULL, timeout=100)
    told(f"{name}, standard error is a pipe", piped.stdout == ran.stdout and not re.search(rb"[\r\x1b]", piped.stderr), "no line")


def number_in(name, line):
    """The number behind a name in a line, if it is there."""
    found = re.search(rb", " + name + rb" ([0-9,]+)", line)
    return int(found[1].replace(b",", b"")) if found else None


def is_search_told(lines):
    """Whether lines tell of a first plan and then of each thousand branchings of the first round of 3,000, ends fall, and the
    last clears."""
    *lines, last = lines or [b"none"]
    form = re.compile(rb"(first plan|[0-9]{1,3}(,[0-9]{3})* branchings)(, end [0-9,]+)?(, bound [0-9,]+)?")
    ends = [end for end in (number_in(b"end", line) for line in lines) if end is not None]
    begun = [line.startswith(b"first plan") for line in lines]
    return (last == b"" and all(form.fullmatch(line) for line in lines) and ends == sorted(ends, reverse=True)
            and begun == sorted(begun, reverse=True) and begun[:1] == [True]
            and all(any(line.startswith(b"%d,000 branchings, end " % n) for line in lines) for n in (1, 2)))


def terminals():
    room = Room(VESSEL, VESSEL_STOW)
    told_at_a_terminal("plan of the vessel", room, PLANNED + ["--nodes", "3000"], is_search_told)
    if "odds" not in commands_of(program):
        return
    room = Room().fill()
    few = ["odds", "s", "m", "p", "q", "--runs"]
    for runs, due in ((1000, []), (2000, []), (2001, [b"2,000 of 2,001 runs", b""]),
                      (5000, [b"2,000 of 5,000 runs", b"3,000 of 5,000 runs", b"4,000 of 5,000 runs", b""])):
        told_at_a_terminal(f"odds with {runs} runs", room, few + [str(runs)], lambda lines, due=due: lines == due)


def main():
    global program
    parser = argparse.ArgumentParser(description="runs where the outside fails")
    add_program(parser)
    program = program_of(parser.parse_args())
    if IS_ROOT:
        full_disks()
        no_rights()
    else:
        print("skipped: full disks and missing rights, which need root")
    kinds_of_files()
    same_files()
    output()
    changes_meanwhile()
    terminals()
    for name in os.listdir(tempfile.gettempdir()):
        if name.startswith("qc-trial-"):
            shutil.rmtree(os.path.join(tempfile.gettempdir(), name), ignore_errors=True)
    print(f"{wrong} wrong")
    return 1 if wrong else 0


if __name__ == "__main__":
    sys.exit(main())
