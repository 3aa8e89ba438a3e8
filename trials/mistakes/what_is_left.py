"""Mistakes in the words of `rest` and in its log, and where what is left of a plan can't be planned; as in table.py."""

from table import usage

REST = "rest ship.toml stow.csv plan.csv happened.txt newship.toml newstow.csv own.csv"
WORDS = "qc:     qc rest SHIP STOW PLAN LOG NEWSHIP NEWSTOW OWN"
NO_FILE = "qc: the system said: No such file or directory (os error 2)"

# Eight cranes two hundred metres apart, of which the first goes to the stern's end of the rail.
FAR_SHIP = "hatches = [2]\nplaces = [6000]\nclear = 2000\ntravel = 1\ndeck_move = 10\nhold_move = 10\n" + "".join(
    f'\n[[crane]]\nname = "C{n + 1}"\nbay = {2000 * n}\n' for n in range(8))

# Both tasks by cranes of their own, so that both can run.
TWO_CRANES = ('hatches = [2, 6]\nmargin = 0\ntravel = 1\ndeck_move = 10\nhold_move = 10\n\n[[crane]]\nname = "C1"\nbay = 1\n'
              '\n[[crane]]\nname = "C2"\nbay = 2\n')
TWO_PLAN = "task,crane,start,end\n2-DD,C1,0,20\n6-DD,C2,0,10\n"


def rest(name, log, report, lines, status=20, words=REST, **files):
    changes = {file.replace("_", "."): text for file, text in files.items()}
    return (name, "first", words, {"happened.txt": log, **changes}, status, report, lines)


def over(task):
    return (f"qc: happened.txt: {task} still runs by this log, and its ticks are over: report done {task}, or by left {task} N how "
            "many ticks it still needs")


def missing(what, name, file):
    return (f"no {what}, of the rest", "first", REST, {file: None}, 3, f"ReadFault {name.lower()}",
            [f"qc: {file}: this file, {name}, isn't there or can't be read", NO_FILE])


def alike(name, words, one, other, file):
    return usage(name, words, [f'qc: {one} and {other} are the same file "{file}": rest needs seven different names'])


WHAT_IS_LEFT = [
    # ---- files that aren't there
    missing("ship file", "SHIP", "ship.toml"),
    missing("list", "STOW", "stow.csv"),
    missing("plan", "PLAN", "plan.csv"),
    missing("log", "LOG", "happened.txt"),
    # ---- what can't be planned
    rest("a task that should be over", "tick 25\n", "NoRest Over 2-DD", [over("2-DD")]),
    rest("a task that should be over by what it needed", "tick 5\nleft 2-DD 9\ntick 9\n", "NoRest Over 2-DD", [over("2-DD")]),
    rest("two tasks that should be over", "tick 25\n", "NoRest Over 2-DD", [over("2-DD"), over("6-DD")],
         ship_toml=TWO_CRANES, plan_csv=TWO_PLAN),
    rest("a crane that is ready too late", "tick 5\nleft 2-DD 999999999\n", "NoRest Ready C1",
         ["qc: happened.txt: the task that C1 works takes it more than 1000000 ticks from here on, and a ship file's ready is at most "
          "1000000: ask again once it needs less, or correct its line left"]),
    rest("a crane off the rail", "tick 6001\n", "NoRest Bay C7",
         ["qc: C7 would have to stand below decimetre -10000 or above 16000 by now, where no ship file can put it: leave cranes without "
          "a task out of SHIP"], ship_toml=FAR_SHIP, stow_csv="id,move,cell,length\nA,D,020082,40\n",
         plan_csv="task,crane,start,end\n2-DD,C1,6000,6010\n"),
    # ---- the log and the plan
    rest("a task that isn't there, of the rest", "tick 5\ndone 2-LH\n", "BadLog UnknownTask 2",
         ['qc: happened.txt, line 2: "2-LH" is no task of this ship and list; qc tasks tells their names'], 17),
    rest("a task that is done ahead of its start", "tick 5\ndone 6-DD\n", "BadLog NotRunning 2",
         ['qc: happened.txt, line 2: "6-DD" doesn\'t run then: a task is done once, and after its start was told'], 17),
    rest("a log that doesn't end its line, of the rest", "tick 5", "BadLog Line 1",
         ['qc: happened.txt, line 1: "tick 5": no line feed ends it: the log was cut off, or its last line has none; a line is '
          'tick N, done TASK or left TASK N, as done 2-DD'], 17),
    # ---- files that can't be made
    rest("a new ship file in no folder", "tick 5\n", "WriteFault",
         ["qc: out/ship.toml: this file couldn't be made or written", NO_FILE], 4, REST.replace("newship", "out/ship")),
    rest("an old order in no folder", "tick 5\n", "WriteFault",
         ["qc: out/own.csv: this file couldn't be made or written", NO_FILE], 4, REST.replace("own.csv", "out/own.csv")),
    rest("the new list over the list by another path", "tick 5\n", "WriteFault",
         ["qc: ./stow.csv: this file couldn't be made or written",
          "qc: it is a file that this call has read or made, and no such file is written over"], 4,
         REST.replace("newstow.csv", "./stow.csv")),
    # ---- the words
    usage("rest misspelt", "rests ship.toml stow.csv", ['qc: "rests" is no command; the nearest is rest']),
    usage("no OWN", REST.rsplit(" ", 1)[0], ["qc: rest needs OWN too; the words are", WORDS]),
    usage("one name for three files", "rest ship.toml stow.csv plan.csv happened.txt new.txt",
          ["qc: rest needs NEWSTOW too; the words are", WORDS]),
    usage("an eighth name", REST + " tree.txt", ['qc: "tree.txt" is one word too many for rest; the words are', WORDS]),
    usage("branchings for rest", REST + " --nodes 5",
          ['qc: rest has no option "--nodes"; a file of that name is written ./--nodes']),
    alike("the new list over the list", REST.replace("newstow", "stow"), "STOW", "NEWSTOW", "stow.csv"),
    alike("the old order over the plan", REST.replace("own", "plan"), "PLAN", "OWN", "plan.csv"),
    alike("the new ship file over the ship file", REST.replace("newship", "ship"), "SHIP", "NEWSHIP", "ship.toml"),
    alike("the old order over the new list", REST.replace("own", "newstow"), "NEWSTOW", "OWN", "newstow.csv"),
    alike("the log over itself", REST.replace("newship.toml", "happened.txt"), "LOG", "NEWSHIP", "happened.txt"),
    alike("the plan for its log", REST.replace("happened.txt", "plan.csv"), "PLAN", "LOG", "plan.csv"),
]
