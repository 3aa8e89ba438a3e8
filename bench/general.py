"""Gives ships to general solvers, for bench/numbers.py: what each found and proved in its processor time.

CBC and Gecode are Debian's coinor-cbc, minizinc and flatzinc; HiGHS is that in Debian's python3-scipy. Each solver has
half of its seconds for each of the two ways. One that isn't there is left out.

The model has no start of a task. On the way up a crane does the bays in order, and at a hatch a higher crane comes
before a lower one; so the phases of a hatch fall to cranes that never rise, and each crane does its share in one go.
What counts is `t[b, k]`, when crane k can have done all its work at the first bays up to b and be at b: no less than at
the bay before, plus the way and its work; and no less than when a higher crane has made room, wherever that worked.
Only the end asks whether a crane works at a bay at all, with a constant of no more than the travel along the ship.
Ships with ready times, reaches, apart pairs or ordered restows aren't taken.
"""
import json
import os
import re
import resource
import shutil
import subprocess
import sys
import tempfile

HERE = os.path.dirname(os.path.abspath(__file__))
sys.path.append(os.path.join(os.path.dirname(HERE), "trials"))

PYTHONS = (sys.executable, "/usr/bin/python3")
WORKER = "import sys; sys.path.append(sys.argv[1]); import general; general.worker(sys.argv[2])"


def instance(ship, stow):
    """The instance of a ship file and a list, both as lines."""
    from reference import instance_of, read_ship
    inst = instance_of(read_ship("\n".join(ship).encode()), ("\n".join(stow) + "\n").encode())
    simple = all(crane.ready == 0 and (crane.low, crane.high) == (1, inst.bays) for crane in inst.cranes)
    if not simple or inst.apart or any(inst.tasks[i].bay != inst.tasks[j].bay for i, j in inst.before):
        raise ValueError("a ship with ready times, reaches, apart pairs or ordered restows")
    return inst


class Model:
    """A mixed-integer program: least `e` over rows of coefficients by names, each at least a number."""

    def __init__(self, inst):
        self.inst, self.rows = inst, []
        self.places = sorted({task.bay for task in inst.tasks})
        self.cranes = range(len(inst.cranes))
        self.whole, self.free = [], []
        self.shares()
        self.times()

    def row(self, least, **terms):
        self.rows.append((terms, least))

    def shares(self):
        """x: task j is crane k's; z: crane k works at bay b."""
        tasks = self.inst.tasks
        for j, task in enumerate(tasks):
            names = [f"x{j}_{k}" for k in self.cranes]
            self.whole += names
            self.row(1, **dict.fromkeys(names, 1))
            self.row(-1, **dict.fromkeys(names, -1))
            for k in self.cranes:
                self.row(0, **{f"z{self.places.index(task.bay)}_{k}": 1, f"x{j}_{k}": -1})
            if j + 1 < len(tasks) and tasks[j + 1].bay == task.bay:
                for top in self.cranes[:-1]:
                    lower = range(top + 1)
                    self.row(0, **{f"x{j + 1}_{k}": 1 for k in lower}, **{f"x{j}_{k}": -1 for k in lower})
        self.whole += [f"z{b}_{k}" for b in range(len(self.places)) for k in self.cranes]

    def work(self, b, k):
        return {f"x{j}_{k}": -task.ticks for j, task in enumerate(self.inst.tasks) if task.bay == self.places[b]}

    def times(self):
        inst, places = self.inst, self.places
        for k in self.cranes:
            berth = inst.cranes[k].bay
            for b, place in enumerate(places):
                work, own = self.work(b, k), f"t{b}_{k}"
                self.free.append(own)
                self.row(inst.travel * (place - berth), **{own: 1}, **work)
                down = inst.travel * max(0, berth - place)
                self.row(-down, **{own: 1, f"z{b}_{k}": -2 * down}, **work)
                if b:
                    self.row(inst.travel * (place - places[b - 1]), **{own: 1, f"t{b - 1}_{k}": -1}, **work)
                for w in range(k + 1, len(self.cranes)):
                    edge = place + inst.gap * (w - k)
                    near = max(at for at, other in enumerate(places) if other < edge)
                    self.row(inst.travel * (edge - places[near]), **{own: 1, f"t{near}_{w}": -1}, **work)
                beyond = inst.travel * self.furthest(place, k)
                self.row(-beyond, **{"e": 1, own: -1, f"z{b}_{k}": -beyond})

    def furthest(self, place, k):
        """The bays by which a crane that no longer works may be pushed on after the end, or from its berth."""
        inst = self.inst
        return max(0, *(place + inst.gap * (w - k) - min(self.places[0], inst.cranes[w].bay)
                        for w in range(k, len(self.cranes))))

    def write_lp(self, path):
        term = lambda name, number: f"{'+' if number >= 0 else '-'} {abs(number)} {name}"
        with open(path, "w", encoding="ascii") as file:
            print("Minimize\n obj: e\nSubject To", file=file)
            for at, (terms, least) in enumerate(self.rows):
                print(f" r{at}: " + " ".join(term(*pair) for pair in terms.items()) + f" >= {least}", file=file)
            print("Bounds", *(f" {name} free" for name in self.free), "Binaries", *(f" {name}" for name in self.whole),
                  "End", sep="\n", file=file)

    def write_json(self, path):
        with open(path, "w", encoding="ascii") as file:
            json.dump({"whole": self.whole, "free": self.free, "rows": self.rows}, file)

    def write_minizinc(self, path):
        """The same with a crane for each task. The lowest tasks are tried first."""
        inst, most = self.inst, 10 * sum(task.ticks for task in self.inst.tasks)
        bays, cranes, lines = range(len(self.places)), self.cranes, []
        lines += [f"array[0..{len(inst.tasks) - 1}] of var 0..{len(cranes) - 1}: c;", f"var 0..{most}: e;",
                  f"array[0..{len(bays) - 1}, 0..{len(cranes) - 1}] of var {-most}..{most}: t;"]
        for terms, least in self.rows:
            if any(name[0] in "te" for name in terms):
                parts = [f"{number} * {self.symbol(name)}" for name, number in terms.items()]
                lines.append(f"constraint {' + '.join(parts)} >= {least};")
        for j in range(len(inst.tasks) - 1):
            if inst.tasks[j].bay == inst.tasks[j + 1].bay:
                lines.append(f"constraint c[{j}] >= c[{j + 1}];")
        lines += [f"constraint {len(cranes)} * e >= {sum(task.ticks for task in inst.tasks)};",
                  "solve :: seq_search([int_search(c, input_order, indomain_min), "
                  "int_search([t[b, k] | b in index_set_1of2(t), k in index_set_2of2(t)], input_order, indomain_min), "
                  "int_search([e], input_order, indomain_min)]) minimize e;", 'output ["end ", show(e), "\\n"];']
        with open(path, "w", encoding="ascii") as file:
            print(*lines, sep="\n", file=file)

    def symbol(self, name):
        if name == "e":
            return "e"
        first, second = name[1:].split("_")
        if name[0] == "t":
            return f"t[{first}, {second}]"
        if name[0] == "x":
            return f"bool2int(c[{first}] = {second})"
        at = [j for j, task in enumerate(self.inst.tasks) if task.bay == self.places[int(first)]]
        return "bool2int(" + " \\/ ".join(f"c[{j}] = {second}" for j in at) + ")"


# ---------------------------------------------------------------- solvers: the end found, the bound, whether it is done

def within(seconds, *words):
    """What a program prints until it has taken so many seconds of a processor."""
    limit = lambda: resource.setrlimit(resource.RLIMIT_CPU, (seconds, seconds + 2))
    return subprocess.run(words, stdout=subprocess.PIPE, stderr=subprocess.DEVNULL, text=True, check=False,
                          preexec_fn=limit).stdout


def cbc(model, folder, seconds):
    path = os.path.join(folder, "ship.lp")
    model.write_lp(path)
    told = within(seconds + 20, "cbc", path, "sec", str(seconds), "ratio", "0", "allow", "0", "solve", "quit")
    best, lower = re.search(r"Objective value:\s+(\S+)", told), re.search(r"Lower bound:\s+(\S+)", told)
    end = float(best[1]) if best and "No feasible" not in told else None
    return end, float(lower[1]) if lower else end, "Optimal solution found" in told


def highs(model, folder, seconds):
    path = os.path.join(folder, "ship.json")
    model.write_json(path)
    told = within(seconds, next(filter(has_scipy, PYTHONS)), "-I", "-B", "-c", WORKER, HERE, path)
    lines = re.findall(r"\d+\s+\d+\s+\d+\s+[\d.]+%\s+(\S+)\s+(\S+)\s+\S+", told)
    closing = re.search(r"Primal bound\s+(\S+)\s+Dual bound\s+(\S+)", told)
    if closing:
        lines.append((closing[2], closing[1]))
    bound, end = map(float, lines[-1]) if lines else (0, float("inf"))
    return end if end < 1e12 else None, max(bound, 0), bool(re.search(r"Status\s+Optimal", told))


def gecode(model, folder, seconds):
    path = os.path.join(folder, "ship.mzn")
    model.write_minizinc(path)
    told = within(seconds, "minizinc", "--solver", "gecode", "-a", path)
    ends, done = re.findall(r"^end (\d+)", told, re.MULTILINE), "==========" in told
    end = float(ends[-1]) if ends else None
    return end, end if done else None, done


def has_scipy(python):
    tried = subprocess.run([python, "-c", "import scipy.optimize"], stderr=subprocess.DEVNULL, check=False)
    return tried.returncode == 0


SOLVERS = {"cbc": ("CBC", cbc, lambda: shutil.which("cbc")),
           "highs": ("HiGHS", highs, lambda: any(map(has_scipy, PYTHONS))),
           "gecode": ("Gecode", gecode, lambda: shutil.which("minizinc") and shutil.which("fzn-gecode"))}


def worker(path):
    """Solves a program by HiGHS, which prints its bounds as it goes."""
    import numpy
    from scipy.optimize import Bounds, LinearConstraint, milp
    from scipy.sparse import lil_matrix
    with open(path, encoding="ascii") as file:
        model = json.load(file)
    names = {name: at for at, name in enumerate(model["whole"] + model["free"] + ["e"])}
    matrix = lil_matrix((len(model["rows"]), len(names)))
    for at, (terms, _) in enumerate(model["rows"]):
        for name, number in terms.items():
            matrix[at, names[name]] = number
    whole = numpy.array([name[0] in "xz" for name in names], dtype=float)
    low = [-numpy.inf if name[0] == "t" else 0 for name in names]
    high = [1 if name[0] in "xz" else numpy.inf for name in names]
    cost = [float(name == "e") for name in names]
    rows = LinearConstraint(matrix.tocsr(), [least for _, least in model["rows"]])
    milp(cost, integrality=whole, bounds=Bounds(low, high), constraints=rows, options={"disp": True, "mip_rel_gap": 0})


def taken():
    """The processor time of all programs that were run so far, in seconds."""
    used = resource.getrusage(resource.RUSAGE_CHILDREN)
    return used.ru_utime + used.ru_stime


def solve(inst, solver, seconds):
    """The end that the solver found, the bound of both ways, of how many it is through, and the seconds it took."""
    before, ways = taken(), []
    for seen in (inst, inst.mirror):
        with tempfile.TemporaryDirectory() as folder:
            ways.append(solver(Model(seen), folder, seconds // 2))
    ends, bounds = [end for end, _, _ in ways if end is not None], [bound for _, bound, _ in ways]
    bound = None if None in bounds else min(bounds)
    return min(ends, default=None), bound, sum(done for _, _, done in ways), taken() - before


def version(name):
    """The version of a solver: that of its Debian package, of HiGHS that of scipy, in which it is."""
    words = {"cbc": ["dpkg-query", "-W", "-f", "${Version}", "coinor-cbc"],
             "highs": [next(filter(has_scipy, PYTHONS)), "-c", "import scipy; print(scipy.__version__)"],
             "gecode": ["dpkg-query", "-W", "-f", "${Version}", "flatzinc"]}[name]
    told = subprocess.run(words, capture_output=True, text=True, check=False).stdout
    return ("of scipy " if name == "highs" else "") + (re.match(r"[\d.]*", told)[0] or "of a version that isn't known")


def solved(ship, stow, seconds):
    """A row for each solver that is there: the end, the bound, what it proved, and the seconds it took."""
    inst = instance(ship, stow)
    for name, (called, solver, is_there) in SOLVERS.items():
        if is_there():
            end, bound, done, took = solve(inst, solver, seconds)
            yield {"by": f"{called} {version(name)}", "end": end and round(end), "bound": bound and int(bound + 1e-6),
                   "proved": ("no", "one way", "the best")[done], "seconds": took}
