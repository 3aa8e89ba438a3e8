"""What a command must answer on files of any bytes, as reference.py, free.py, picture.py and faults.py work it out.

`answer` gives status and report, or None where `plan` or `free` goes on to search; `search_fault` then says what is wrong
with such an answer. `written` gives the files that `moves` or `rest` writes. Files are bytes by their roles: `ship`, `stow`,
`plan`, `tree`, `freetree`, `own`, `places`, `events`, `past`, `arrival`, `departure`, and those that are written, `list`,
`newship`, `newstow`, `neworder`.
"""
import bayplan
import replan
from chances import odds_report
from faults import list_fault, ring_fault, ship_or_fault
from free import FreeReader, first_break, freecheck_report, tight_free
from judges import tight_form
from picture import answer as drawing
from reference import (NEVER, TreeFault, TreeReader, check_report, direction_of, dispatch_report, end_of, instance_of,
                       read_plan, refusal, sheet_report, show_report, tasks_report, watch_report)

ROLES = {
    "plan": ["ship", "stow", "plan", "tree"],
    "check": ["ship", "stow", "plan", "tree"],
    "free": ["ship", "stow", "plan", "freetree"],
    "freecheck": ["ship", "stow", "plan", "freetree"],
    "tasks": ["ship", "stow"],
    "show": ["ship", "stow", "plan"],
    "sheet": ["ship", "stow", "plan"],
    "dispatch": ["ship", "stow", "plan", "events"],
    "watch": ["ship", "places"],
    "picture": ["ship", "stow", "plan"],
    "report": ["ship", "stow", "plan"],
    "moves": ["arrival", "departure", "list"],
    "odds": ["ship", "stow", "plan", "past"],
    "rest": ["ship", "stow", "plan", "events", "newship", "newstow", "neworder"],
}
SEARCHES = ("plan", "free")
# What is written by the commands that search nothing.
WRITTEN = {"moves": ["list"], "rest": ["newship", "newstow", "neworder"]}
# The word for a file in a report, where it isn't that of its role.
WORDS = {"freetree": "tree", "events": "log", "places": "log"}
NUMBERS = {"--nodes": (0, 1_000_000), "--runs": (1, 10_000), "--seed": (0, 2_147_483_647), "--by": (0, 999_999_999_999)}
OPTIONS = {"plan": ("--nodes", "--from"), "free": ("--nodes", "--from"), "odds": ("--runs", "--seed", "--by")}


def read_by(command, more):
    """The roles of the files that a command reads, in its order."""
    if command in SEARCHES:
        return ["ship", "stow"] + ["own"] * ("--from" in more)
    return [role for role in ROLES[command] if role not in WRITTEN.get(command, ())]


def begins_with(command):
    """The role of the file that a command must have, beside a ship's list where it reads one."""
    return "arrival" if command == "moves" else "ship"


def opened(files):
    """The ship and its instance and None, or None, None and the status and report of the first of both files that isn't
    there or is faulty."""
    if "ship" not in files:
        return None, None, (3, ["ReadFault ship"])
    ship, fault = ship_or_fault(files["ship"])
    if fault:
        return None, None, (5, [fault])
    if "stow" not in files:
        return None, None, (3, ["ReadFault stow"])
    fault = list_fault(ship, files["stow"])
    if fault:
        return None, None, (6, [fault])
    fault = ring_fault(ship, files["stow"])
    if fault:
        return None, None, (5, [fault])
    return ship, instance_of(ship, files["stow"]), None


def missing(role):
    return 3, [f"ReadFault {WORDS.get(role, role)}"]


def answer(command, files, more=(), minus=False):
    """Status and report; None where `plan` or `free` searches. `minus`: `-` stands in place of the plan."""
    if command == "watch":
        return watched(files)
    if command in WRITTEN:
        return whole_answer(command, files)[:2]
    ship, inst, refused = opened(files)
    if refused:
        return refused
    if command == "tasks":
        return tasks_report(inst)
    if command in SEARCHES:
        return owned(command, inst, files) if "--from" in more else None
    plan = files.get("plan")
    if plan is None and not minus:
        return missing("plan")
    if command == "show":
        return show_report(inst, plan)
    if command == "sheet":
        return sheet_report(ship, files["stow"], inst, plan)
    if command in ("picture", "report"):
        return drawing(files["stow"], ship, inst, plan, command == "picture")
    role = ROLES[command][-1]
    last = files.get(role)
    report = {"dispatch": dispatch_report, "check": check_report, "freecheck": freecheck_report}.get(command)
    plan = None if minus else plan
    if command == "odds":
        told = {word.removeprefix("--"): int(value) for word, value in zip(more[::2], more[1::2])}
        return odds_report(inst, plan, last, **told)
    if last is not None:
        return report(inst, plan, last)
    refused = report(inst, plan, b"")
    return refused if refused[0] in (8, 13) else missing(role)


def whole_answer(command, files):
    """Status, report and what is written of `moves` and `rest`."""
    read = [files.get(role) for role in read_by(command, ())]
    if command == "moves":
        status, lines, text = bayplan.answer(*read)
        return status, lines, None if text is None else [text]
    return replan.answer(read)


def is_of_a_round(command, ship, stow, tree):
    """Whether this is the whole tree of a search, `plan` or `free`, as one of its rounds leaves it."""
    files = {"ship": ship, "stow": stow, {"plan": "tree", "free": "freetree"}[command]: tree}
    return answer({"plan": "check", "free": "freecheck"}[command], files, [], True)[0] == 0


def written(command, files):
    """The files that a command makes that searches nothing, by their roles."""
    made = whole_answer(command, files)[2] if command in WRITTEN else None
    return dict(zip(WRITTEN[command], made)) if made else {}


def watched(files):
    if "ship" not in files:
        return missing("ship")
    ship, fault = ship_or_fault(files["ship"])
    if fault:
        return 5, [fault]
    return watch_report(ship, files["places"]) if "places" in files else missing("places")


def owned(command, inst, files):
    """The refusal of a plan of one's own, or None."""
    if "own" not in files:
        return missing("own")
    if command == "plan":
        return refusal(inst, files["own"])[2]
    refused = freecheck_report(inst, files["own"], b"")
    return refused if refused[0] in (8, 13) else None


def search_fault(command, files, more, seen, left):
    """What is wrong with an answer of `plan` or `free` on good files, or None; `left`: the files after it."""
    status, lines = seen
    _, inst, _ = opened(files)
    roles = read_by(command, more)
    if any(left.get(role) != files[role] for role in roles):
        return "a file that was read changed"
    role = ROLES[command][-1]
    if set(left) - set(files) - {"plan", role}:
        return "a further file is left"
    try:
        tree = (TreeReader if command == "plan" else FreeReader)(inst, left.get(role, b"")).read()
    except TreeFault as fault:
        return f"the tree has the fault {fault.kind} {fault.line}"
    value = "never" if tree.value == NEVER else str(tree.value)
    told = dict(line.split(" ", 1) for line in lines if line.split(" ")[0] in ("end", "bound", "branched", "given"))
    if int(told.get("branched", -1)) < tree.branched or status != 10 and told.get("bound") != value:
        return "the report and the tree differ"
    if status not in (0, 11):
        kept = left.get("plan") == files.get("plan") and "--from" not in more
        word = {10: "Infeasible", 12: "Budget"}.get(status)
        return None if kept and lines[:1] == [word] and (value == "never") == (status == 10) else "no plan, wrongly"
    plan, fault = read_plan(inst, left.get("plan", b""))
    broken = fault or (direction_of(inst, plan)[1] if command == "plan" else first_break(inst, plan))
    if broken:
        return f"the plan is refused: {broken}"
    end = end_of(inst, plan)
    is_best = tree.value >= end
    if told.get("end") != str(end) or is_best != (status == 0) or lines[0] != ("Optimal" if is_best else "Budget"):
        return "the report and the plan differ"
    if "--from" in more:
        own = (tight_form if command == "plan" else tight_free)(inst, read_plan(inst, files["own"])[0])
        if told.get("given") == "none" or int(told["given"]) > end_of(inst, own) or end > int(told["given"]):
            return "later than one's own plan"
    return None


def split_words(words):
    """The names of a command's files by their roles, and the words behind them; None where they aren't plain ones."""
    roles, names, more, rest = ROLES[words[0]], {}, [], words[1:]
    while rest:
        word = rest.pop(0)
        if word in OPTIONS.get(words[0], ()) and rest and word not in more:
            value = rest.pop(0)
            if word in NUMBERS:
                low, high = NUMBERS[word]
                if not (value.isdigit() and value.isascii() and str(int(value)) == value and low <= int(value) <= high):
                    return None
            else:
                names["own"] = value
            more += [word, value if word in NUMBERS else "own"]
        elif word.startswith("-") and word != "-" or len(names) - ("own" in names) == len(roles):
            return None
        else:
            names[roles[len(names) - ("own" in names)]] = word
    is_whole = all(role in names for role in roles) and (words[0] == "odds" or len(set(names.values())) == len(names))
    return (names, more) if is_whole else None
