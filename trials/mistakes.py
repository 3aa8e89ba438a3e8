#!/usr/bin/env python3
"""Tries mistakes as planners make them, and compares what the program says on both outputs.

    trials/mistakes.py [NAME ..] [--program FILE]

The mistakes are those of trials/mistakes/table.py, and of bay_plans.py, past_tasks.py and what_is_left.py beside it: the
files of an example with one change each. Each is made and run in a folder of its own. The exit status, the first line of
the report and all lines on standard error must be those of the table, and every file but those that `plan` writes as it
was. Each is run again with -q as the first word: the report must
be the same to the byte, and nothing may come on standard error. With NAME only the mistakes of those names are tried. It
ends with 1 where anything differs. Which program FILE is, tried.py says.
"""
import argparse
import subprocess
import sys
import tempfile
from pathlib import Path

sys.dont_write_bytecode = True  # no folder of compiled files beside the scripts

ROOT = Path(__file__).resolve().parent.parent
sys.path.append(str(ROOT / "trials/mistakes"))

from bay_plans import BAY_PLANS
from past_tasks import PAST_TASKS
from table import BASES, MISTAKES as OTHERS
from tried import add_program, program_of
from what_is_left import WHAT_IS_LEFT


MISTAKES = OTHERS + BAY_PLANS + PAST_TASKS + WHAT_IS_LEFT


def begun(base):
    """The files that a mistake begins from."""
    folder, further = BASES[base]
    files = {name: (ROOT / "examples" / folder / name).read_bytes() for name in ("ship.toml", "stow.csv")}
    for name, what in further.items():
        files[name] = what.encode() if isinstance(what, str) else (ROOT / what[0] / what[1]).read_bytes()
    return files


def changed(old, change):
    """A file with a change."""
    if isinstance(change, (str, bytes)):
        return change.encode() if isinstance(change, str) else change
    if change[0] == "crlf":
        return old.replace(b"\n", b"\r\n")
    if change[0] == "cut":
        return old[:-change[1]]
    if isinstance(change, tuple):
        return (ROOT / change[0] / change[1]).read_bytes()
    text = old.decode()
    for before, after in change:
        if text.count(before) != 1:
            raise SystemExit(f"{before!r} stands {text.count(before)} times")
        text = text.replace(before, after)
    return text.encode()


def files_of(base, changes):
    files = begun(base)
    for name, change in changes.items():
        if change is None:
            del files[name]
        else:
            files[name] = changed(files.get(name, b""), change)
    return files


def ran(program, words, files):
    """Status, report, standard error and the files behind a run."""
    with tempfile.TemporaryDirectory() as folder:
        for name, data in files.items():
            Path(folder, name).write_bytes(data)
        done = subprocess.run([program, *words], cwd=folder, stdin=subprocess.DEVNULL, capture_output=True, timeout=100)
        left = {path.name: path.read_bytes() for path in Path(folder).iterdir()}
        return done.returncode, done.stdout, done.stderr, left


def differences(program, mistake):
    _, base, words, changes, status, report, lines = mistake
    words = words.split(" ") if words else []
    files = files_of(base, changes)
    got, out, err, left = ran(program, words, files)
    if got != status:
        yield f"status {got}, not {status}"
    first = out.decode().split("\n")[0]
    if first != report:
        yield f"report {first!r}, not {report!r}"
    said = err.decode("utf-8", "backslashreplace").splitlines()
    if said != lines:
        yield "said" + "".join(f"\n        {line}" for line in said) + "\n      not" \
            + "".join(f"\n        {line}" for line in lines)
    written = {word for word in words[1:5] if words[0] == "plan"}
    for name, data in files.items():
        if left.get(name) != data and not (name in written and name not in ("ship.toml", "stow.csv")):
            yield f"{name} was changed"
    quiet, quiet_out, quiet_err, _ = ran(program, ["-q", *words], files)
    if (quiet, quiet_out, quiet_err) != (got, out, b""):
        yield f"with -q status {quiet}, report {quiet_out[:60]!r}, standard error {quiet_err[:60]!r}"


def main():
    parser = argparse.ArgumentParser(description="mistakes as planners make them")
    parser.add_argument("names", nargs="*", metavar="NAME")
    add_program(parser)
    words = parser.parse_args()
    unknown = sorted(set(words.names) - {mistake[0] for mistake in MISTAKES})
    if unknown:
        parser.error(f"there is no mistake {', '.join(unknown)}")
    program = program_of(words)
    tried = [mistake for mistake in MISTAKES if not words.names or mistake[0] in words.names]
    failed = 0
    for mistake in tried:
        found = list(differences(program, mistake))
        failed += bool(found)
        for what in found:
            print(f"FAILED {mistake[0]}: {what}")
    print(f"{len(tried)} mistakes, {failed} not as expected")
    sys.exit(failed > 0)


main()
