"""Which program a script takes that runs the built one: those of trials, of fuzz, and bench/numbers.py.

Each has the words `--program FILE`. Without them it takes the proved program of this checkout, crates/qc_cli/out/qc_cli,
which `./qc --prove` makes. `--program checked` is the one that is compiled with checks and not proved,
out/checked/qc_cli, which package/try-program makes; `./checked` would be a file of that name. Which one is taken and what
it is, by where it stands, is said in one line on standard error. Where it isn't there a line says how both are made, and
the script ends with 1.
"""
import os
import subprocess
import sys
from pathlib import Path

ROOT = Path(__file__).resolve().parent.parent
PROVED = (ROOT / "crates/qc_cli/out/qc_cli").resolve()
CHECKED = (ROOT / "out/checked/qc_cli").resolve()
KINDS = {PROVED: "the proved program of this checkout",
         CHECKED: "the program of this checkout compiled with checks and not proved"}


def add_program(parser):
    """Adds `--program FILE` to the words of a script."""
    parser.add_argument("--program", metavar="FILE", help="the program; 'checked' for the one that package/try-program "
                        "compiles with checks; the proved one of this checkout where it isn't given")


def program_of(words, command=None):
    """The path of the program that a script's words tell, once it is said which one that is. Without the command that the
    script needs it ends."""
    script = Path(sys.argv[0]).name
    program = {None: PROVED, "checked": CHECKED}.get(words.program) or Path(words.program).resolve()
    if not (program.is_file() and os.access(program, os.X_OK)):
        sys.exit(f"{script}: there is no program {program}; ./qc --prove makes the proved one, and package/try-program "
                 "the one compiled with checks")
    print(f"{script}: takes {program}, {KINDS.get(program, 'a file')}", file=sys.stderr, flush=True)
    if command and command not in commands_of(program):
        sys.exit(f"{script}: this program has no command {command}")
    return str(program)


def commands_of(program):
    """The commands that a program has, as its usage names them; a trial leaves out what it hasn't."""
    lines = subprocess.run([program, "-q"], capture_output=True, text=True, timeout=100).stdout.splitlines()
    return {line.split()[1] for line in lines if line.startswith("qc ") and len(line.split()) > 1}
