#!/usr/bin/env python3
"""Where the seconds of a crate's proof go.

    bench/dear.py modules CRATE [MOST]
        Proves the crate from nothing, one job, and tells the seconds by kind of module, by function and by module.
    bench/dear.py goals CRATE FUNCTION
        Tells which goals of a function (as module.Type.function) take seconds. Each goal is put into a module of its own,
        with the answer that it has, or with `search rules`. A goal that takes seconds so, and that search doesn't close,
        is often closed at once by `grind (arith, common_steps)`.

The crates below must be built as they are now, by `package/build-program CRATE`. Nothing in the
checkout is changed. The toolchain writes a file for each module as it ends with it, so the times of these files tell what
each took, with what it was the first to load: some seconds for the first of a run, and for the first that uses a tactic.
"""

import os
import re
import shutil
import subprocess
import sys
import tempfile
from pathlib import Path

ROOT = Path(__file__).resolve().parent.parent
KIT = Path(os.path.realpath(shutil.which("rt") or "/opt/rattle/bin/rt")).parent.parent
PARTS = "Answers Code Given Goals Invariants Key Kinds Layout Lts Met Mir Named Proof Reads Statement Symbol TheLink Tie"


def crates():
    """Each crate with those that it stands on, of the repository and of the toolchain."""
    found = {}
    for line in (ROOT / "crates.txt").read_text().splitlines():
        name, colon, uses = line.partition("#")[0].partition(":")
        if colon:
            found[name.strip()] = uses.split()
    return found


def below(crate, uses):
    """The crates of the repository on which one stands, lowest first."""
    found = []
    for one in uses[crate]:
        if one in uses:
            found += [it for it in [*below(one, uses), one] if it not in found]
    return found


def rattle(crate, folder, words):
    """Checks a crate whose sources stand in a folder, over the libraries as they are built, and gives what is printed."""
    uses = crates()
    built = {it: ROOT / f"crates/qc_cli/out/rlib/{it}.rlib" for it in below(crate, uses)}
    missing = [it for it, at in built.items() if not (at / "format").exists()]
    if missing:
        sys.exit(f"dear.py: build these first: {' '.join(missing)}")
    root = "src/main.rt" if (Path(folder) / "src/main.rt").exists() else "src/lib.rt"
    line = [KIT / "bin/rattle", "check", "--crate-name", crate, root, "--jobs", "1"]
    for one in ["std", *uses[crate]]:
        line += ["--extern", f"{one}={built.get(one, KIT / f'rlibs/{one}.rlib')}"]
    for at in [KIT / "rlibs", *[it.parent for it in built.values()]]:
        line += ["-L", f"dependency={at}"]
    line += ["--antt-project", KIT / "rattle/logic/antt-project.json", "--logic-built", KIT / "logic_built"]
    said = subprocess.run(
        [*map(str, line), "--links", f"{crate}=", *map(str, words)],
        cwd=folder, stdout=subprocess.PIPE, stderr=subprocess.STDOUT, text=True, check=False,
    )
    return said.stdout


def modules(kept, since=0.0):
    """The seconds of each module that was written to a folder of kept work, by the times of their files."""
    files = []
    for at in Path(kept).rglob("*.oantt"):
        time = at.stat().st_mtime
        if time > since:
            files.append((time, re.sub(r"(\.decls)?\.oantt$", "", at.name)))
    took = {}
    before = None
    for time, name in sorted(files):
        took[name] = took.get(name, 0.0) + (0.0 if before is None else time - before)
        before = time
    return took


def tell(title, took, most):
    """Prints the dearest of some seconds."""
    print(f"-- {title}, {sum(took.values()):.0f} s in all")
    for name, seconds in sorted(took.items(), key=lambda it: -it[1])[:most]:
        print(f"{seconds:8.2f}  {name}")


def tell_modules(crate, most):
    with tempfile.TemporaryDirectory() as kept:
        said = rattle(crate, ROOT / "crates" / crate, ["--incremental", kept])
        took = modules(kept)
    kinds, functions = {}, {}
    for name, seconds in took.items():
        owner, _, part = name.rpartition(".")
        is_part = part in PARTS.split()
        kind = part if is_part else "other"
        kinds[kind] = kinds.get(kind, 0.0) + seconds
        if is_part:
            owner = re.sub(r"^Rattle-\w+-(proofs|specs\.contracts)\.", "", owner)
            functions[owner] = functions.get(owner, 0.0) + seconds
    tell("by kind", kinds, most)
    tell("by function", functions, most)
    tell("by module", took, most)
    print(said.splitlines()[-1])


def tell_goals(crate, function):
    home = ROOT / "crates" / crate
    path = function.replace(".", "/")
    with tempfile.TemporaryDirectory() as there:
        folder, kept, made = (Path(there) / it for it in ("crate", "kept", "made"))
        kept.mkdir()
        for part in ("src", "specs", "proofs"):
            if (home / part).is_dir():
                shutil.copytree(home / part, folder / part)
        named = ["--start", function.replace(".", "::"), "--generated", made]
        said = rattle(crate, folder, ["--incremental", kept, *named])
        offered = made / f"Rattle-{crate}-proofs" / path / "AnswersOffered.antt"
        if not offered.exists():
            sys.exit(said)
        goals = re.findall(r"(?:-- (\S+)\n)?pub (\S+) : goal\.\S+\n\S+ ([^=\n]*)= \?", offered.read_text())
        answers = folder / "proofs" / path / "Answers.antt"
        text = answers.read_text() if answers.exists() else ""
        head = re.split(r"^pub ", text, maxsplit=1, flags=re.M)[0]
        if f".{function}.Goals as goal" not in head:
            head = f"use Rattle.{crate}.proofs.{function}.Goals as goal\n{head}"
        if not re.search(r"Common\.\{[^}]*\brules\b", head):
            head = f"use Rattle.std.proofs.Common.{{rules}}\n{head}"
        answers.with_suffix("").mkdir(parents=True, exist_ok=True)
        parts = {}
        top, uses, lines = "", "", ""
        for number, (at, goal, names) in enumerate(goals):
            own = re.search(rf"^pub {re.escape(goal)} :[\s\S]*?(?=^pub |\Z)", text, re.M)
            body = own.group(0) if own else f"pub {goal} : goal.{goal}\n{goal} {names}= search rules\n"
            (answers.with_suffix("") / f"G{number}.antt").write_text(f"{head}\n{body}")
            parts[f"G{number}"] = f"{goal}  {at}{'  (answered)' if own else ''}"
            top += f"mod G{number}\n"
            uses += f"use Rattle.{crate}.proofs.{function}.Answers.G{number} as g{number}\n"
            lines += f"\npub {goal} : goal.{goal}\n{goal} = g{number}.{goal}\n"
        answers.write_text(f"{top}use Rattle.{crate}.proofs.{function}.Goals as goal\n{uses}{lines}")
        since = max((it.stat().st_mtime for it in kept.rglob("*.oantt")), default=0.0)
        rattle(crate, folder, ["--incremental", kept, "--only", function.replace(".", "::"), "--allow-holes"])
        took = {name.rpartition(".")[2]: it for name, it in modules(kept, since).items() if f".{function}." in name}
    tell("goals", {parts[it]: took[it] for it in parts if it in took}, len(parts))
    for it in parts:
        if it not in took:
            print(f"  not closed  {parts[it]}")


def main():
    words = sys.argv[1:]
    if len(words) in (2, 3) and words[0] == "modules" and words[1] in crates():
        tell_modules(words[1], int(words[2]) if len(words) == 3 else 20)
    elif len(words) == 3 and words[0] == "goals" and words[1] in crates():
        tell_goals(words[1], words[2])
    else:
        sys.exit(__doc__)


main()
