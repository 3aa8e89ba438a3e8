"""Mistakes as planners make them: the files of an example with one change each, the words, and what must come.

`BASES` are the files that a mistake begins from. A mistake is its name, its base, the words, the changes (a file's name
with pairs of old and new text, each old text once; with a whole new text or bytes; or with None for a file that isn't
there), the exit status, the first line of the report, and all lines on standard error. The lines were written by hand.
"""

FIRST_PLAN = "task,crane,start,end\n2-DD,C1,0,20\n6-DD,C1,21,31\n"

# examples/restows: 2-DD 20 ticks, 10-LH doesn't exist, 10-LD 20 ticks, 14-DD 10 ticks; C1 at 1, C2 at 3
RESTOWS_PLAN = "task,crane,start,end\n2-DD,C1,0,20\n10-LD,C1,22,42\n14-DD,C2,43,53\n"

# restows in an order that no plan which goes one way keeps, so that without a branching no plan is known
ORDERED_SHIP = """hatches = [2, 6, 10, 14]
margin = 1
travel = 1
deck_move = 10
hold_move = 10
restows = "ordered"

[[crane]]
name = "C1"
bay = 1
"""
ORDERED_LIST = "id,move,cell,length\nX,D,020082,40\nY,D,060082,40\nX,L,060082,40\nY,L,020082,40\n"

# base: the folder of examples that ship.toml and stow.csv come from, and further files
BASES = {
    "first": ("first", {"plan.csv": FIRST_PLAN, "tree.txt": ("examples", "first/tree.txt"),
                        "happened.txt": ("examples", "first/happened.txt")}),
    "infeasible": ("infeasible", {}),
    "vessel": ("vessel", {}),
    "places": ("places", {"log.txt": ("examples", "places/log.txt")}),
    "restows": ("restows", {"plan.csv": RESTOWS_PLAN}),
    "bay-plans": ("bay-plans", {"arrival.edi": ("examples", "bay-plans/arrival.edi"),
                                "departure.edi": ("examples", "bay-plans/departure.edi")}),
}

TASKS = "tasks ship.toml stow.csv"
CHECK = "check ship.toml stow.csv plan.csv tree.txt"
FREE_CHECK = "freecheck ship.toml stow.csv plan.csv tree.txt"
SHOW = "show ship.toml stow.csv plan.csv"
PLAN = "plan ship.toml stow.csv new.csv newtree.txt"
WATCH = "watch ship.toml log.txt"
DISPATCH = "dispatch ship.toml stow.csv plan.csv happened.txt"

HATCHES = "1 to 60 whole numbers from 1 to 998 in brackets, bow to stern, as [2, 6, 10]"
PLACES = "one whole number from 1 to 6000 for each hatch, in decimetres, as [400, 550, 900]"
MARGIN = "a whole number from 0 to 20, the bays that stay free between two cranes"
CLEAR = "a whole number from 1 to 2000, the least distance of two cranes in decimetres"
TRAVEL = "a whole number from 1 to 10000, the ticks of travel for each bay"
TRAVEL_BY_PLACES = "a whole number from 1 to 100, the ticks of travel for each decimetre"
DECK = "a whole number from 1 to 10000, the ticks of a move on deck"
HOLD = "a whole number from 1 to 10000, the ticks of a move in the hold"
COVER = "a whole number from 0 to 10000, the ticks for the hatch cover"
RESTOWS = '"free" or "ordered"'
BEFORE = ("at most 240 pairs of tasks in brackets, as [[\"2-DD\", \"6-DD\"]], of which the first ends before the "
          "second starts")
NOT_BEFORE = ("at most 240 pairs of a task and a tick from 0 to 1000000 in brackets, as [[\"2-DD\", 600]], before which "
              "it doesn't start")
APART = "at most 100 pairs of hatches in brackets, as [[20, 24]]"
CRANE = "1 to 8 cranes, each below a line [[crane]] of its own"
NAME = '1 to 12 letters from A to Z or a to z, digits, - and _ between double quotes, as "STS-1"'
READY = "a whole number from 0 to 1000000, the tick from which the crane may leave its place"
BAY = "a whole number from -200 to 300, the crane bay where the crane stands at first; that of the first hatch is 1"
BAY_BY_PLACES = "a whole number from -10000 to 16000, the decimetre where the crane stands at first"
FROM = "the number of the crane's first hatch, counted from 1 in hatches"
TO = "the number of the crane's last hatch, counted from 1 in hatches and not below from"
HEADER = "id,move,cell,length"
PLAN_HEADER = "task,crane,start,end"
ID = "an id is 1 to 20 letters, digits and signs of ASCII without spaces, commas and double quotes"
CELL = "a cell is bay, row and tier in six or seven digits, as 010482"
LENGTH = ("or the bay where the container stands; odd bays are of 20 feet and even ones of 40, and 45 feet are "
          "written 40")
TICK = "it is a tick in 1 to 12 digits, without a leading 0"
LINE = "a line is TIME NAME PLACE, as 10 C1 5"
REPORT = "a line is tick N, done TASK or left TASK N, as done 2-DD"
ORDER = "SHIP, STOW, PLAN and TREE stand in this order, and this file was named as"
OF_OTHERS = "qc: a tree belongs to its ship file and its list: where one of them changed, plan again"
SEMICOLONS = "semicolons stand between the columns: save the table with commas between them"
TABS = "tabs stand between the columns: save the table with commas between them"


def ship(name, change, report, lines, base="vessel", words=TASKS, status=5):
    return (name, base, words, {"ship.toml": change}, status, report, lines)


def stow(name, change, report, lines, base="vessel", words=TASKS, status=6):
    return (name, base, words, {"stow.csv": change}, status, report, lines)


def plan(name, change, report, lines, base="first", words=CHECK, status=8):
    return (name, base, words, {"plan.csv": change}, status, report, lines)


def tree(name, change, report, lines, base="first", words=CHECK, status=7):
    return (name, base, words, {"tree.txt": change}, status, report, lines)


def log(name, change, report, lines, base="places", words=WATCH, status=17):
    return (name, base, words, {"log.txt": change}, status, report, lines)


def course(name, change, report, lines, base="first", words=DISPATCH, status=17):
    return (name, base, words, {"happened.txt": change}, status, report, lines)


def usage(name, words, lines, base="first"):
    return (name, base, words, {}, 2, "Usage", lines)


def move(n):
    """One of many moves on the vessel, each of its own id and place."""
    at, kind = (n, "D") if n < 30000 else (n - 30000, "L")
    return f"X{n},{kind},{4 + at // 4900 * 4:02}{at % 100:02}{2 + at // 100 % 49 * 2:02},40\n"


def cut(text):
    """A text as a line shows it: its first 60 bytes."""
    return f'"{text}"' if len(text) <= 60 else f'"{text[:60]}"..'


FIRST_HEAD = "hatches = [2, 6]\nmargin = 1\ntravel = 1\ndeck_move = 10\nhold_move = 10\n\n"
PIECE = '[[crane]]\nname = "C1"\nbay = 1\n'

MISTAKES = [
    # ---- keys that aren't keys, taken silently and answered Optimal or Done
    ("restows below a crane", "restows", PLAN,
     {"ship.toml": [('restows = "ordered"\n', ""), ('name = "C2"\nbay = 3\n', 'name = "C2"\nbay = 3\nrestows = "ordered"\n')]},
     0, "Optimal",
     ['qc: note: ship.toml, line 20: the key "restows" in the second [[crane]] is no key of a crane and isn\'t read; '
      'keys of the ship stand above the first [[crane]]']),
    ship("covers", [("margin = 1\n", "margin = 1\ncovers = 30\n")], "Optimal",
         ['qc: note: ship.toml, line 4: the key "covers" is no key of the ship and isn\'t read; the nearest is cover'],
         base="first", words=PLAN, status=0),
    ship("Restows", [('restows = "ordered"\n', 'Restows = "ordered"\n')], "Optimal",
         ['qc: note: ship.toml, line 9: the key "Restows" is no key of the ship and isn\'t read; the nearest is restows'],
         base="restows", words=PLAN, status=0),
    ship("appart", [("apart = [[2, 14]]\n", "appart = [[2, 14]]\n")], "Optimal",
         ['qc: note: ship.toml, line 12: the key "appart" is no key of the ship and isn\'t read; the nearest is apart'],
         base="restows", words=PLAN, status=0),
    ship("redy", [('name = "C2"\nbay = 3\n', 'name = "C2"\nbay = 3\nredy = 100\n')], "Optimal",
         ['qc: note: ship.toml, line 21: the key "redy" in the second [[crane]] is no key of a crane and isn\'t read; '
          'the nearest is ready'],
         base="restows", words=PLAN, status=0),
    ship("reach", [('bay = 1\n', 'bay = 1\nreach = [1, 2]\n')], "Optimal",
         ['qc: note: ship.toml, line 11: the key "reach" in the first [[crane]] is no key of a crane and isn\'t read'],
         base="first", words=PLAN, status=0),
    # ---- other notes
    ship("bay above the cranes", [("margin = 1\n", "margin = 1\nbay = 1\n")], "Optimal",
         ['qc: note: ship.toml, line 4: the key "bay" is no key of the ship and isn\'t read; keys of a crane stand below '
          'its line [[crane]]'], base="first", words=PLAN, status=0),
    ship("bay of the ship for a crane bay", [("bay = 11\n", "bay = 51\n")], "task 1-DD 1 330",
         ["qc: note: ship.toml, line 30: the third [[crane]] stands at crane bay 51, 37 bays from any hatch; bay counts the "
          "hatches of the list, 1 to 14, and not the bays of the ship"], status=0),
    ship("a crane far ahead", [("bay = 1\n", "bay = -40\n")], "task 1-DD 1 330",
         ["qc: note: ship.toml, line 20: the first [[crane]] stands at crane bay -40, 41 bays from any hatch; bay counts the "
          "hatches of the list, 1 to 14, and not the bays of the ship"], status=0),
    ship("bay of the ship for a decimetre", [("bay = 400\n", "bay = 11\n")], "task 2-DD 400 4000",
         ["qc: note: ship.toml, line 14: the first [[crane]] stands at decimetre 11, 389 decimetres from any hatch; bay counts "
          "decimetres, as places does, and not the bays of the ship"], base="places", status=0),
    ship("a crane far ahead in decimetres", [("bay = 400\n", "bay = 12\n")], "task 2-DD 400 4000", [], base="places", status=0),
    ship("clear in metres", [("clear = 270\n", "clear = 27\n")], "task 2-DD 400 4000",
         ["qc: note: ship.toml, line 7: clear = 27 lets cranes come as near as 27 decimetres; 27 metres are clear = 270"],
         base="places", status=0),
    ship("margin beside places", [("clear = 270\n", "clear = 270\nmargin = 1\n")], "task 2-DD 400 4000",
         ["qc: note: ship.toml, line 8: margin isn't read beside places; clear takes its place"], base="places", status=0),
    ship("clear without places", [("margin = 1\n", "margin = 1\nclear = 270\n")], "task 2-DD 1 20",
         ["qc: note: ship.toml, line 4: clear isn't read without places; margin takes its place"], base="first", status=0),
    ("an old plan beside Infeasible", "first", "plan ship.toml stow.csv plan.csv newtree.txt",
     {"ship.toml": [("bay = 1\n", "bay = 1\nto = 1\n")]}, 10, "Infeasible",
     ["qc: note: 6-DD lies where no crane comes, by from and to of the ship file",
      "qc: note: plan.csv: this plan was there before and isn't of this run"]),
    ("a task that no crane reaches, to and fro", "first", "free ship.toml stow.csv newplan.csv newtree.txt",
     {"ship.toml": [("bay = 1\n", "bay = 1\nto = 1\n")]}, 10, "Infeasible",
     ["qc: note: 6-DD lies where no crane comes, by from and to of the ship file"]),
    ("no plan that goes one way", "infeasible", "plan ship.toml stow.csv newplan.csv newtree.txt", {}, 10, "Infeasible",
     ["qc: note: no plan goes one way; qc free looks for one in which cranes go to and fro"]),
    ("an old plan beside no plan", "first", "plan ship.toml stow.csv plan.csv newtree.txt --nodes 0",
     {"ship.toml": ORDERED_SHIP, "stow.csv": ORDERED_LIST}, 12, "Budget",
     ["qc: note: no plan was found yet: --nodes N allows up to 1000000 branchings, and --from OWN begins with a plan of yours",
      "qc: note: plan.csv: this plan was there before and isn't of this run"]),
    # ---- ship files that are no TOML
    ship("decimal comma", [("travel = 60\n", "travel = 1,5\n")], "BadShip NotToml",
         ['qc: ship.toml, line 7: "travel = 1,5" isn\'t TOML: numbers are whole and have no comma: choose a smaller tick']),
    ship("spaces in a number", [("deck_move = 110\n", "deck_move = 1 100\n")], "BadShip NotToml",
         ['qc: ship.toml, line 8: "deck_move = 1 100" isn\'t TOML: a number has no spaces in it']),
    ship("a 0 ahead", [("travel = 60\n", "travel = 060\n")], "BadShip NotToml",
         ['qc: ship.toml, line 7: "travel = 060" isn\'t TOML: a number has no 0 ahead']),
    ship("a text without quotes", [('restows = "ordered"\n', "restows = ordered\n")], "BadShip NotToml",
         ['qc: ship.toml, line 13: "restows = ordered" isn\'t TOML: a text stands between double quotes, and a number has no '
          'unit']),
    ship("a unit", [("travel = 60\n", "travel = 60 s\n")], "BadShip NotToml",
         ['qc: ship.toml, line 7: "travel = 60 s" isn\'t TOML: a text stands between double quotes, and a number has no unit']),
    ship("curly quotes", [('name = "STS-1"\n', "name = \u201cSTS-1\u201d\n")], "BadShip NotToml",
         ["qc: ship.toml, line 19: \"name = \u201cSTS-1\u201d\" isn't TOML: the quotes are curly ones: write straight ones"]),
    ship("an open quote", [('name = "STS-1"\n', 'name = "STS-1\n')], "BadShip NotToml",
         ['qc: ship.toml, line 19: "name = "STS-1" isn\'t TOML: a text ends with the quotes with which it begins']),
    ship("semicolons in a list", [("[[20, 24]]", "[[20; 24]]")], "BadShip NotToml",
         ['qc: ship.toml, line 16: "apart = [[20; 24]]" isn\'t TOML: values have commas between them, and no semicolons']),
    ship("no comma in a list", [("[[20, 24]]", "[[20 24]]")], "BadShip NotToml",
         ['qc: ship.toml, line 16: "apart = [[20 24]]" isn\'t TOML: a bracket isn\'t closed, or a comma is missing']),
    ship("a colon for the equals sign", [("margin = 1\n", "margin: 1\n")], "BadShip NotToml",
         ['qc: ship.toml, line 6: "margin: 1" isn\'t TOML: a key and its value have an equals sign between them']),
    ship("a key of two words", [("deck_move = 110\n", "deck move = 110\n")], "BadShip NotToml",
         ['qc: ship.toml, line 8: "deck move = 110" isn\'t TOML: a key is one word, as deck_move']),
    ship("no value", [("cover = 240\n", "cover =\n")], "BadShip NotToml",
         ['qc: ship.toml, line 10: "cover =" isn\'t TOML: the value is missing']),
    ship("a comment of another language", [("# Cranes keep", "// Cranes keep")], "BadShip NotToml",
         ["qc: ship.toml, line 5: " + cut("// Cranes keep one bay free between them. A tick is a second.")
          + " isn't TOML: a comment begins with #"]),
    ship("a key twice", [("travel = 60\n", "travel = 60\nmargin = 2\n")], "BadShip NotToml",
         ['qc: ship.toml, line 8: "margin = 2" isn\'t TOML: the key stands twice']),
    ship("cranes in one bracket", [('[[crane]]\nname = "STS-1"', '[crane]\nname = "STS-1"'),
                                   ('[[crane]]\nname = "STS-2"', '[crane]\nname = "STS-2"'),
                                   ('[[crane]]\nname = "STS-3"', '[crane]\nname = "STS-3"')], "BadShip NotToml",
         ['qc: ship.toml, line 22: "[crane]" isn\'t TOML: each crane begins with a line [[crane]], in two brackets']),
    ship("Latin-1", FIRST_HEAD.replace("margin", "# Gl\u00fccksburg\nmargin").encode("latin-1") + PIECE.encode(),
         "BadShip NotToml",
         ['qc: ship.toml, line 2: "# Gl\\xFCcksburg" isn\'t UTF-8, as in a text saved as Latin-1 or Windows-1252: save the '
          'file as UTF-8'], base="first"),
    ship("UTF-16", (FIRST_HEAD + PIECE).encode("utf-16"), "BadShip NotToml",
         ["qc: ship.toml: the file is in UTF-16: save it as UTF-8; a ship file is wanted"], base="first"),
    ship("a workbook", b"PK\x03\x04\x14\x00\x06\x00\x08\x00", "BadShip NotToml",
         ["qc: ship.toml: the file is a workbook (or another archive) and no text: save it from the program that made it as "
          "text; a ship file is wanted"], base="first"),
    ship("a PDF", b"%PDF-1.7\n%\xe2\xe3\xcf\xd3\n", "BadShip NotToml",
         ["qc: ship.toml: the file is a PDF and no text; a ship file is wanted"], base="first"),
    ("SHIP and STOW exchanged", "vessel", "tasks stow.csv ship.toml", {}, 5, "BadShip NotToml",
     ["qc: stow.csv: this is a stowage list, and a ship file is wanted here: " + ORDER + " SHIP"]),
    # ---- keys of the ship that are missing
    ship("an empty file", "", "BadShip Missing hatches 0",
         ["qc: ship.toml: the file is empty; a ship file is wanted"], base="first"),
    ship("hold-move", [("hold_move = 130", "hold-move = 130")], "BadShip Missing hold_move 0",
         ['qc: ship.toml, line 9: the key "hold-move" is written hold_move']),
    ship("holdmove", [("hold_move = 130", "holdmove = 130")], "BadShip Missing hold_move 0",
         ['qc: ship.toml, line 9: the key "holdmove" is written hold_move']),
    ship("Hatches", [("hatches = [1", "Hatches = [1")], "BadShip Missing hatches 0",
         ['qc: ship.toml, line 3: the key "Hatches" is written hatches']),
    ship("no travel", [("travel = 60\n", "")], "BadShip Missing travel 0",
         ["qc: ship.toml: the key travel is missing; it may be " + TRAVEL]),
    ship("no hatches", [("hatches = [1, 4, 8, 12, 16, 20, 24, 28, 32, 36, 40, 44, 48, 51]\n", "\n")],
         "BadShip Missing hatches 0",
         ["qc: ship.toml: the key hatches is missing; it may be " + HATCHES]),
    ship("margin below a crane", [("margin = 1\n", ""), ("bay = 6\n", "bay = 6\nmargin = 1\n")], "BadShip Missing margin 0",
         ["qc: ship.toml, line 24: the key margin stands below the second [[crane]]; keys of the ship stand above the first "
          "[[crane]]"]),
    ship("margin with places", [("clear = 270\n", "margin = 1\n")], "BadShip Missing clear 0",
         ["qc: ship.toml: the key clear is missing; it may be " + CLEAR,
          "qc: with places the key clear takes the place of margin"], base="places"),
    ship("clear for margin", [("margin = 1\n", "clear = 270\n")], "BadShip Missing margin 0",
         ["qc: ship.toml: the key margin is missing; it may be " + MARGIN,
          "qc: clear is read only with places; without them margin says how many bays stay free"], base="first"),
    ship("no crane", [(PIECE, "")], "BadShip Missing crane 0",
         ["qc: ship.toml: the key crane is missing; it may be " + CRANE], base="first"),
    ship("cranes", [("[[crane]]", "[[cranes]]")], "BadShip Missing crane 0",
         ['qc: ship.toml, line 8: the key "cranes" is written crane'], base="first"),
    # ---- keys of a crane that are missing
    ship("no bay", [("bay = 6\n", "")], "BadShip Missing bay 2",
         ["qc: ship.toml, line 22: the second [[crane]] has no key bay; it may be " + BAY]),
    ship("no name", [('name = "STS-3"\n', "")], "BadShip Missing name 3",
         ["qc: ship.toml, line 28: the third [[crane]] has no key name; it may be " + NAME]),
    ship("Name", [('name = "STS-3"\n', 'Name = "STS-3"\n')], "BadShip Missing name 3",
         ['qc: ship.toml, line 29: the key "Name" is written name']),
    ship("bays for bay", [("bay = 6\n", "bays = 6\n")], "BadShip Missing bay 2",
         ['qc: ship.toml, line 24: the key "bays" is written bay']),
    # ---- values of another kind
    ship("a decimal point", [("travel = 60\n", "travel = 1.5\n")], "BadShip WrongKind travel 0",
         ["qc: ship.toml, line 7: travel is 1.5, and may be " + TRAVEL + "; numbers are whole: choose a smaller tick"]),
    ship("a number in quotes", [("travel = 60\n", 'travel = "60"\n')], "BadShip WrongKind travel 0",
         ['qc: ship.toml, line 7: travel is "60", and may be ' + TRAVEL + "; a number has no quotes"]),
    ship("a clock time", [("ready = 900\n", "ready = 00:15:00\n")], "BadShip WrongKind ready 2",
         ["qc: ship.toml, line 25: ready is 00:15:00, and may be " + READY + "; times are counted in ticks"]),
    ship("metres with a point", [("clear = 270\n", "clear = 27.0\n")], "BadShip WrongKind clear 0",
         ["qc: ship.toml, line 7: clear is 27.0, and may be " + CLEAR
          + "; decimetres and ticks are whole: 27.5 metres are 275 decimetres"], base="places"),
    ship("one hatch without brackets", [("hatches = [2, 6]\n", "hatches = 2\n")], "BadShip WrongKind hatches 0",
         ["qc: ship.toml, line 2: hatches is 2, and may be " + HATCHES], base="first"),
    ship("a hatch in quotes", [("hatches = [2, 6]\n", 'hatches = [2, "6"]\n')], "BadShip WrongKind hatches 2",
         ["qc: ship.toml, line 2: element 2 of hatches can't stand there; hatches may be " + HATCHES], base="first"),
    ship("a pair without its brackets", [("[[20, 24]]", "[20, 24]")], "BadShip WrongKind apart 1",
         ["qc: ship.toml, line 16: element 1 of apart is 20; apart may be " + APART]),
    ship("three apart", [("[[20, 24]]", "[[20, 24, 28]]")], "BadShip WrongKind apart 1",
         ["qc: ship.toml, line 16: element 1 of apart can't stand there; apart may be " + APART]),
    ship("one crane in one bracket", [("[[crane]]", "[crane]")], "BadShip WrongKind crane 0",
         ["qc: ship.toml, line 8: crane may be " + CRANE + "; a crane begins with a line [[crane]], in two brackets"],
         base="first"),
    ship("a name that is a number", [('name = "C1"\n', "name = 1\n")], "BadShip WrongKind name 1",
         ["qc: ship.toml, line 9: name is 1, and may be " + NAME], base="first"),
    ship("true for ordered", [('restows = "ordered"\n', "restows = true\n")], "BadShip WrongKind restows 0",
         ["qc: ship.toml, line 13: restows is true, and may be " + RESTOWS]),
    # ---- values out of range
    ship("margin in decimetres", [("margin = 1\n", "margin = 270\n")], "BadShip Range margin 0",
         ["qc: ship.toml, line 6: margin is 270, and may be " + MARGIN]),
    ship("travel 0", [("travel = 60\n", "travel = 0\n")], "BadShip Range travel 0",
         ["qc: ship.toml, line 7: travel is 0, and may be " + TRAVEL]),
    ship("travel for each bay with places", [("travel = 2\n", "travel = 600\n")], "BadShip Range travel 0",
         ["qc: ship.toml, line 8: travel is 600, and may be " + TRAVEL_BY_PLACES
          + "; with places it counts for each decimetre and not for each bay"], base="places"),
    ship("milliseconds", [("deck_move = 110\n", "deck_move = 110000\n")], "BadShip Range deck_move 0",
         ["qc: ship.toml, line 8: deck_move is 110000, and may be " + DECK]),
    ship("hold_move 0", [("hold_move = 130\n", "hold_move = 0\n")], "BadShip Range hold_move 0",
         ["qc: ship.toml, line 9: hold_move is 0, and may be " + HOLD]),
    ship("cover below 0", [("cover = 240\n", "cover = -1\n")], "BadShip Range cover 0",
         ["qc: ship.toml, line 10: cover is -1, and may be " + COVER]),
    ship("Ordered", [('restows = "ordered"\n', 'restows = "Ordered"\n')], "BadShip Range restows 0",
         ['qc: ship.toml, line 13: restows is "Ordered", and may be ' + RESTOWS]),
    ship("hatch 0", [("hatches = [2, 6]\n", "hatches = [0, 2, 6]\n")], "BadShip Range hatches 1",
         ["qc: ship.toml, line 2: element 1 of hatches is 0; hatches may be " + HATCHES], base="first"),
    ship("no hatch", [("hatches = [2, 6]\n", "hatches = []\n")], "BadShip Range hatches 0",
         ["qc: ship.toml, line 2: hatches is [], and may be " + HATCHES], base="first"),
    ship("too many hatches", [("hatches = [2, 6]\n", "hatches = [" + ", ".join(str(4 * k - 2) for k in range(1, 62)) + "]\n")],
         "BadShip Range hatches 0",
         ["qc: ship.toml, line 2: hatches has 61 elements, and may be " + HATCHES], base="first"),
    ship("a place short", [("places = [400, 550, 900]\n", "places = [400, 550]\n")], "BadShip Range places 0",
         ["qc: ship.toml, line 4: places has 2 elements and hatches has 3; there is one place for each hatch"], base="places"),
    ship("places in millimetres", [("places = [400, 550, 900]\n", "places = [4000, 5500, 9000]\n")], "BadShip Range places 3",
         ["qc: ship.toml, line 4: element 3 of places is 9000; places may be " + PLACES], base="places"),
    ship("a space in a name", [('name = "STS-1"\n', 'name = "STS 1"\n')], "BadShip Range name 1",
         ['qc: ship.toml, line 19: name is "STS 1", and may be ' + NAME]),
    ship("a long name", [('name = "STS-1"\n', 'name = "Burchardkai-1"\n')], "BadShip Range name 1",
         ['qc: ship.toml, line 19: name is "Burchardkai-1", and may be ' + NAME]),
    ship("ready by a clock's seconds", [("ready = 900\n", "ready = 1764000000\n")], "BadShip Range ready 2",
         ["qc: ship.toml, line 25: ready is 1764000000, and may be " + READY]),
    ship("bay in decimetres", [("bay = 11\n", "bay = 900\n")], "BadShip Range bay 3",
         ["qc: ship.toml, line 30: bay is 900, and may be " + BAY]),
    ship("from by the hatch's bay", [("from = 6\n", "from = 20\n")], "BadShip Range from 3",
         ["qc: ship.toml, line 32: from is 20, and may be " + FROM,
          "qc: hatch 20 is number 6 of the list, so write from = 6"]),
    ship("to below from", [("from = 6\n", "from = 6\nto = 3\n")], "BadShip Range to 3",
         ["qc: ship.toml, line 33: to is 3, and may be " + TO]),
    # ---- orders of the ship file
    ship("hatches that share a bay", [("hatches = [2, 6]\n", "hatches = [2, 4]\n")], "BadShip HatchOrder hatches 2",
         ["qc: ship.toml, line 2: hatch 4 stands behind hatch 2 in the list, and its bays 3 to 5 don't lie wholly behind bays "
          "1 to 3; hatches stand from bow to stern, and an even hatch takes the bays on both sides too"], base="first"),
    ship("hatches from the stern", [("hatches = [2, 6]\n", "hatches = [6, 2]\n")], "BadShip HatchOrder hatches 2",
         ["qc: ship.toml, line 2: hatch 2 stands behind hatch 6 in the list, and its bays 1 to 3 don't lie wholly behind bays "
          "5 to 7; hatches stand from bow to stern, and an even hatch takes the bays on both sides too"], base="first"),
    ship("places that fall", [("places = [400, 550, 900]\n", "places = [900, 550, 400]\n")], "BadShip HatchOrder places 2",
         ["qc: ship.toml, line 4: place 550 stands behind 900 in the list; places rise strictly from the first hatch to the "
          "last"], base="places"),
    ship("cranes side by side", [("bay = 6\n", "bay = 2\n")], "BadShip CraneOrder crane 2",
         ["qc: ship.toml, line 24: the second [[crane]] stands at 2 and the one before it at 1; cranes stand along the rail "
          "with rising bays and at least 2 bays apart, so it may stand at 3 or above"]),
    ship("cranes too near in decimetres", [("bay = 900\n", "bay = 600\n")], "BadShip CraneOrder crane 2",
         ["qc: ship.toml, line 18: the second [[crane]] stands at 600 and the one before it at 400; cranes stand along the rail "
          "with rising bays and at least 270 decimetres apart, so it may stand at 670 or above"], base="places"),
    ship("a name twice", [('name = "STS-2"', 'name = "STS-1"')], "BadShip NameTwice name 2",
         ['qc: ship.toml, line 23: the name "STS-1" of the second [[crane]] is that of an earlier one; each crane has a name '
          'of its own']),
    ship("apart by crane bays", [("[[20, 24]]", "[[6, 7]]")], "BadShip Apart apart 1",
         ["qc: ship.toml, line 16: pair 1 of apart names 6, which is no hatch of hatches; pairs name hatches by their bays, as "
          "hatches does"]),
    ship("apart with itself", [("[[20, 24]]", "[[20, 20]]")], "BadShip Apart apart 1",
         ["qc: ship.toml, line 16: pair 1 of apart names one hatch twice; two different hatches are wanted"]),
    ship("a phase that there is not", [("margin = 1\n", 'margin = 1\nbefore = [["6-DD", "2-DX"]]\n')], "BadShip Task before 1",
         ['qc: ship.toml, line 4: pair 1 of before names "6-DD" and "2-DX"; a task is a number of hatches, - and DD, DH, LH or '
          'LD, as "2-DD"'], base="first"),
    ship("before itself", [("margin = 1\n", 'margin = 1\nbefore = [["6-DD", "6-DD"]]\n')], "BadShip Same before 1",
         ["qc: ship.toml, line 4: pair 1 of before names 6-DD twice; two different tasks are wanted"], base="first"),
    ship("hatches before one another", [("margin = 1\n", "margin = 1\nbefore = [[6, 2]]\n")], "BadShip WrongKind before 1",
         ["qc: ship.toml, line 4: element 1 of before can't stand there; before may be " + BEFORE], base="first"),
    ship("each before the other", [("margin = 1\n", 'margin = 1\nbefore = [["6-DD", "2-DD"], ["2-DD", "6-DD"]]\n')],
         "BadShip Ring before 2",
         ["qc: ship.toml, line 4: by pair 2 of before 2-DD ends before 6-DD starts, and by the pairs ahead of it, phases of a "
          "hatch and ordered restows 6-DD ends before 2-DD starts"], base="first"),
    ship("a release of a phase that there is not", [("margin = 1\n", 'margin = 1\nnot_before = [["2-DX", 5]]\n')], "BadShip Task not_before 1",
         ['qc: ship.toml, line 4: entry 1 of not_before names "2-DX"; a task is a number of hatches, - and DD, DH, LH or LD, as '
          '"2-DD"'], base="first"),
    ship("a release ahead of the work", [("margin = 1\n", 'margin = 1\nnot_before = [["2-DD", 5], ["6-DD", -1]]\n')],
         "BadShip Range not_before 2",
         ["qc: ship.toml, line 4: entry 2 of not_before gives 6-DD the tick -1; it may be a whole number from 0 to 1000000"],
         base="first"),
    ship("two releases of one task", [("margin = 1\n", 'margin = 1\nnot_before = [["2-DD", 5], ["6-DD", 0], ["2-DD", 6]]\n')],
         "BadShip TaskTwice not_before 3",
         ["qc: ship.toml, line 4: entry 3 of not_before names 2-DD, as entry 1 does; a task has one tick"], base="first"),
    ship("a release of a hatch", [("margin = 1\n", "margin = 1\nnot_before = [[2, 5]]\n")], "BadShip WrongKind not_before 1",
         ["qc: ship.toml, line 4: element 1 of not_before can't stand there; not_before may be " + NOT_BEFORE], base="first"),
    ship("a release without brackets of its own", [("margin = 1\n", 'margin = 1\nnot_before = ["2-DD", 5]\n')],
         "BadShip WrongKind not_before 1",
         ["qc: ship.toml, line 4: element 1 of not_before can't stand there; not_before may be " + NOT_BEFORE], base="first"),
    ship("a release of a task without a move", [("margin = 1\n", 'margin = 1\nnot_before = [["2-LD", 5]]\n')], "task 2-DD 1 20",
         ["qc: note: ship.toml, line 4: entry 1 of not_before, 2-LD, says nothing: the list has no move of it"],
         base="first", status=0),
    ship("a start ahead of the release", [("margin = 1\n", 'margin = 1\nnot_before = [["6-DD", 40]]\n')], "Broken Ready 6-DD",
         ["qc: plan.csv, line 3, record 3: 6-DD starts at 21, and by not_before at no earlier tick than 40: 6-DD may start at "
          "40, and ends at 50 then"], base="first", words=SHOW, status=13),
    ship("before a task without a move", [("margin = 1\n", 'margin = 1\nbefore = [["6-DD", "2-LD"]]\n')], "task 2-DD 1 20",
         ["qc: note: ship.toml, line 4: pair 1 of before, 6-DD and 2-LD, says nothing: the list has no move of one of them"],
         base="first", status=0),
    # ---- the stowage list: its form
    stow("semicolons", "id;move;cell;length\nA1;D;020082;40\n", "BadStow Header 1",
         ['qc: stow.csv, line 1, record 1: "id;move;cell;length" isn\'t the header ' + HEADER + ": " + SEMICOLONS],
         base="first"),
    stow("tabs", "id\tmove\tcell\tlength\nA1\tD\t020082\t40\n", "BadStow Header 1",
         ['qc: stow.csv, line 1, record 1: "id\\tmove\\tcell\\tlength" isn\'t the header ' + HEADER + ": " + TABS], base="first"),
    stow("a column twice", [("id,move,cell,length", "id,move,cell,length,ID")], "BadStow Header 1",
         ['qc: stow.csv, line 1, record 1: "id,move,cell,length,ID" isn\'t the header ' + HEADER
          + ": each of the four names stands in one column alone"]),
    stow("a further name alone", [("id,move,cell,length", "id,move,cell,length,weight")], "BadStow Fields 2",
         ["qc: stow.csv, line 2, record 2: the record has 4 fields, and the header has 5"
          ": some are missing, or the line is no record of the table"]),
    stow("names in another order", [("id,move,cell,length", "move,id,cell,length")], "BadStow MoveKind 2",
         ['qc: stow.csv, line 2, record 2: the move is "HLXU000002"; it is D for discharge or L for load']),
    stow("columns of a table's own", "Port,ID,Move,Cell,Length\nDEHAM,A1,D,020082,40\nDEHAM,A2,D,020084,20\n",
         "BadStow LengthMismatch 3",
         ['qc: stow.csv, line 3, record 3: the length is "20", and bay 2 is even: write 40, or the bay where the container '
          "stands; odd bays are of 20 feet and even ones of 40, and 45 feet are written 40"], base="first"),
    stow("columns behind a table's own", "Port,ID,Move,Cell,Length\nDEHAM,A1,D,020082,40,,\n", "BadStow Fields 2",
         ["qc: stow.csv, line 2, record 2: the record has 7 fields, and the header has 5"
          ": those behind the header's last are empty: delete their columns"], base="first"),
    stow("another name", [("id,move,cell,length", "container,move,cell,length")], "BadStow Header 1",
         ['qc: stow.csv, line 1, record 1: "container,move,cell,length" isn\'t the header ' + HEADER
          + ": a column is missing or has another name"]),
    stow("no header", [("id,move,cell,length\n", "")], "BadStow Header 1",
         ['qc: stow.csv, line 1, record 1: "HLXU000002,D,010484,20" isn\'t the header ' + HEADER + ": the header is missing"]),
    stow("a line of the spreadsheet", "sep=,\nid,move,cell,length\n", "BadStow Header 1",
         ['qc: stow.csv, line 1, record 1: "sep=," isn\'t the header ' + HEADER
          + ": this line is the spreadsheet's own: delete it"], base="first"),
    stow("an empty list", "", "BadStow Header 1", ["qc: stow.csv: the file is empty; a stowage list is wanted"], base="first"),
    stow("a list in UTF-16", "id,move,cell,length\n".encode("utf-16"), "BadStow Header 1",
         ["qc: stow.csv: the file is in UTF-16: save it as UTF-8; a stowage list is wanted"], base="first"),
    stow("a workbook for a list", b"PK\x03\x04\x14\x00\x06\x00", "BadStow Header 1",
         ["qc: stow.csv: the file is a workbook (or another archive) and no text: save it from the program that made it as "
          "text; a stowage list is wanted"], base="first"),
    ("the ship file for both", "first", "tasks ship.toml ship.toml", {}, 6, "BadStow Header 1",
     ["qc: ship.toml: this is a ship file, and a stowage list is wanted here: " + ORDER + " STOW"]),
    stow("a mark and then semicolons", b"\xef\xbb\xbfid;move;cell;length\n", "BadStow Header 1",
         ['qc: stow.csv, line 1, record 1: "id;move;cell;length" isn\'t the header ' + HEADER + ": " + SEMICOLONS],
         base="first"),
    # ---- the stowage list: its records
    stow("a record with semicolons", [("A2,D,020084,40", "A2;D;020084;40")], "BadStow Fields 3",
         ["qc: stow.csv, line 3, record 3: the record has 1 field, and needs four, " + HEADER + ": " + SEMICOLONS],
         base="first"),
    stow("a column short", [("A2,D,020084,40", "A2,D,020084")], "BadStow Fields 3",
         ["qc: stow.csv, line 3, record 3: the record has 3 fields, and needs four, " + HEADER
          + ": some are missing, or the line is no record of the table"], base="first"),
    stow("a further column", [("A2,D,020084,40", "A2,D,020084,40,heavy")], "BadStow Fields 3",
         ["qc: stow.csv, line 3, record 3: the record has 5 fields, and needs four, " + HEADER
          + ": delete further columns; a field that has a comma stands between double quotes"], base="first"),
    stow("commas behind", [("A2,D,020084,40", "A2,D,020084,40,,")], "BadStow Fields 3",
         ["qc: stow.csv, line 3, record 3: the record has 6 fields, and needs four, " + HEADER
          + ": those behind the fourth are empty: delete their columns"], base="first"),
    stow("an empty record", [("A2,D,020084,40\n", "A2,D,020084,40\n,,,\n")], "BadStow Id 4",
         ["qc: stow.csv, line 4, record 4: the record is empty: delete the line"], base="first"),
    stow("a line below the table", [("A3,D,060082,40\n", "A3,D,060082,40\nTotal: 3 moves\n")], "BadStow Fields 5",
         ["qc: stow.csv, line 5, record 5: the record has 1 field, and needs four, " + HEADER
          + ": some are missing, or the line is no record of the table"], base="first"),
    stow("empty lines between", [("A2,D,020084,40\n", "\n\nA2,X,020084,40\n")], "BadStow MoveKind 3",
         ['qc: stow.csv, line 5, record 3: the move is "X"; it is D for discharge or L for load'], base="first"),
    stow("no id", [("A2,D,020084,40", ",D,020084,40")], "BadStow Id 3",
         ['qc: stow.csv, line 3, record 3: the id is "": it is missing; ' + ID], base="first"),
    stow("a space in an id", [("A2,D,020084,40", "HLXU 000002,D,020084,40")], "BadStow Id 3",
         ['qc: stow.csv, line 3, record 3: the id is "HLXU 000002": it has a space; ' + ID], base="first"),
    stow("a long id", [("A2,D,020084,40", "HLXU000002/BOOKING4711,D,020084,40")], "BadStow Id 3",
         ['qc: stow.csv, line 3, record 3: the id is "HLXU000002/BOOKING4711": it is too long; ' + ID], base="first"),
    stow("an id that isn't ASCII", [("A2,D,020084,40", "\u00dcA2,D,020084,40")], "BadStow Id 3",
         ['qc: stow.csv, line 3, record 3: the id is "\u00dcA2": it has a letter or a sign that isn\'t ASCII, or one that '
          "can't be seen; " + ID], base="first"),
    stow("a small letter", [("A2,D,020084,40", "A2,d,020084,40")], "BadStow MoveKind 3",
         ['qc: stow.csv, line 3, record 3: the move is "d"; write D'], base="first"),
    stow("a word for the move", [("A2,D,020084,40", "A2,Load,020084,40")], "BadStow MoveKind 3",
         ['qc: stow.csv, line 3, record 3: the move is "Load"; write L'], base="first"),
    stow("a restow as a move", [("A2,D,020084,40", "A2,R,020084,40")], "BadStow MoveKind 3",
         ['qc: stow.csv, line 3, record 3: the move is "R"; it is D for discharge or L for load'], base="first"),
    stow("no move", [("A2,D,020084,40", "A2,,020084,40")], "BadStow MoveKind 3",
         ['qc: stow.csv, line 3, record 3: the move is ""; it is D for discharge or L for load'], base="first"),
    stow("a lost 0", [("HLXU000002,D,010484,20", "HLXU000002,D,10484,20")], "BadStow Length 2",
         ['qc: stow.csv, line 2, record 2: the cell is "10484": its leading 0 is lost, as a spreadsheet does that reads cells '
          'as numbers: import the column as text; ' + CELL]),
    stow("a cell with signs", [("A2,D,020084,40", "A2,D,02-00-84,40")], "BadStow Length 3",
         ['qc: stow.csv, line 3, record 3: the cell is "02-00-84": bay, row and tier stand without signs between them; '
          + CELL], base="first"),
    stow("a cell with a point", [("A2,D,020084,40", "A2,D,20084.0,40")], "BadStow Digit 3",
         ['qc: stow.csv, line 3, record 3: the cell is "20084.0": a spreadsheet took it for a number: import the column as '
          'text; ' + CELL], base="first"),
    stow("a letter O", [("A2,D,020084,40", "A2,D,O20084,40")], "BadStow Digit 3",
         ['qc: stow.csv, line 3, record 3: the cell is "O20084": it has a letter or a sign, and is digits alone; ' + CELL],
         base="first"),
    stow("no cell", [("A2,D,020084,40", "A2,D,,40")], "BadStow Length 3",
         ['qc: stow.csv, line 3, record 3: the cell is "": it is missing; ' + CELL], base="first"),
    stow("a space behind the cell", [("A2,D,020084,40", "A2,D,020084 ,40")], "BadStow Digit 3",
         ['qc: stow.csv, line 3, record 3: the cell is "020084 ": there are spaces around it; ' + CELL], base="first"),
    stow("bay 0", [("A2,D,020084,40", "A2,D,000084,40")], "BadStow BayZero 3",
         ['qc: stow.csv, line 3, record 3: the cell is "000084": its bay is 0, and bays count from 1; ' + CELL], base="first"),
    stow("an odd tier", [("A2,D,020084,40", "A2,D,020083,40")], "BadStow TierOdd 3",
         ['qc: stow.csv, line 3, record 3: the cell is "020083": its tier, the last two digits, is odd, and tiers are even; '
          + CELL], base="first"),
    stow("tier 0", [("A2,D,020084,40", "A2,D,020000,40")], "BadStow TierZero 3",
         ['qc: stow.csv, line 3, record 3: the cell is "020000": its tier, the last two digits, is 00, and tiers begin at 02; '
          + CELL], base="first"),
    stow("20 at an even bay", [("A2,D,020084,40", "A2,D,020084,20")], "BadStow LengthMismatch 3",
         ['qc: stow.csv, line 3, record 3: the length is "20", and bay 2 is even: write 40, ' + LENGTH], base="first"),
    stow("40 at an odd bay", [("HLXU000002,D,010484,20", "HLXU000002,D,010484,40")], "BadStow LengthMismatch 2",
         ['qc: stow.csv, line 2, record 2: the length is "40", and bay 1 is odd: write 20, ' + LENGTH]),
    stow("45 feet", [("A2,D,020084,40", "A2,D,020084,45")], "BadStow LengthMismatch 3",
         ['qc: stow.csv, line 3, record 3: the length is "45", and bay 2 is even: write 40, ' + LENGTH], base="first"),
    stow("a type for a length", [("A2,D,020084,40", "A2,D,020084,42G1")], "BadStow LengthMismatch 3",
         ['qc: stow.csv, line 3, record 3: the length is "42G1", and bay 2 is even: write 40, ' + LENGTH], base="first"),
    stow("no hatch at a bay", [("A2,D,020084,40", "A2,D,040084,40")], "BadStow NoHatch 3",
         ["qc: stow.csv, line 3, record 3: no hatch of the ship file takes bay 4; an even hatch takes its own bay and those on "
          "both sides, an odd one its own alone",
          "qc: the nearest hatches are 2 and 6"], base="first"),
    stow("a bay behind the last hatch", [("A2,D,020084,40", "A2,D,100084,40")], "BadStow NoHatch 3",
         ["qc: stow.csv, line 3, record 3: no hatch of the ship file takes bay 10; an even hatch takes its own bay and those "
          "on both sides, an odd one its own alone",
          "qc: the last hatch is 6"], base="first"),
    stow("a container twice", [("A2,D,020084,40", "A1,D,020084,40")], "BadStow IdTwice 3",
         ['qc: stow.csv, line 3, record 3: "A1" is discharged in line 2 already; each container is discharged once'],
         base="first"),
    stow("a place twice", [("A2,D,020084,40", "A2,D,020082,40")], "BadStow CellTaken 3",
         ['qc: stow.csv, line 3, record 3: "A2" at "020082" overlaps "A1" at "020082" of line 2; each place is discharged '
          'once'], base="first"),
    stow("a 20-foot place below a 40-foot one", [("A2,D,020084,40", "A2,D,010082,20")], "BadStow CellTaken 3",
         ['qc: stow.csv, line 3, record 3: "A2" at "010082" overlaps "A1" at "020082" of line 2; each place is discharged '
          'once'], base="first"),
    stow("too many moves", HEADER + "\n" + "".join(move(n) for n in range(50001)), "BadStow TooMany 50002",
         ["qc: stow.csv, line 50002, record 50002: this is a move behind the 50000th, and a list has no more"]),
    # ---- the plan: its form and its records
    plan("a plan with semicolons", FIRST_PLAN.replace(",", ";"), "BadPlan Header 1",
         ['qc: plan.csv, line 1, record 1: "task;crane;start;end" isn\'t the header ' + PLAN_HEADER + ": " + SEMICOLONS]),
    plan("a list for a plan", "id,move,cell,length\nA1,D,020082,40\n", "BadPlan Header 1",
         ["qc: plan.csv: this is a stowage list, and a plan is wanted here: " + ORDER + " PLAN"]),
    plan("a tree for a plan", "QCTREE 3\nup\n", "BadPlan Header 1",
         ["qc: plan.csv: this is a bound tree, and a plan is wanted here: " + ORDER + " PLAN"]),
    plan("a plan with a column more", [("task,crane,start,end", "task,crane,start,end,note")], "BadPlan Header 1",
         ['qc: plan.csv, line 1, record 1: "task,crane,start,end,note" isn\'t the header ' + PLAN_HEADER
          + ": it has these four columns alone: delete the others"]),
    plan("a note in a plan's record", [("6-DD,C1,21,31", "6-DD,C1,21,31,late")], "BadPlan Fields 3",
         ["qc: plan.csv, line 3, record 3: the record has 5 fields, and needs four, " + PLAN_HEADER
          + ": delete further columns; a field that has a comma stands between double quotes"]),
    plan("a task in small letters", [("6-DD,C1,21,31", "6-dd,C1,21,31")], "BadPlan UnknownTask 3",
         ['qc: plan.csv, line 3, record 3: the task "6-dd" is written 6-DD']),
    plan("a task of another hatch", [("6-DD,C1,21,31", "10-DD,C1,21,31")], "BadPlan UnknownTask 3",
         ['qc: plan.csv, line 3, record 3: the ship file and the list have no task "10-DD"; a task is a hatch and DD, DH, LH or '
          'LD, as 2-DD, and qc tasks SHIP STOW prints all of them']),
    plan("an empty record of a plan", [("6-DD,C1,21,31\n", "6-DD,C1,21,31\n,,,\n")], "BadPlan UnknownTask 4",
         ["qc: plan.csv, line 4, record 4: the record is empty: delete the line"]),
    plan("a crane in small letters", [("6-DD,C1,21,31", "6-DD,c1,21,31")], "BadPlan UnknownCrane 3",
         ['qc: plan.csv, line 3, record 3: no crane is named "c1"; the nearest is C1']),
    plan("a crane by its number", [("14-DD,C2,43,53", "14-DD,2,43,53")], "BadPlan UnknownCrane 4",
         ['qc: plan.csv, line 4, record 4: no crane is named "2"; the cranes are C1, C2'], base="restows", words=SHOW),
    plan("a clock time in a plan", [("6-DD,C1,21,31", "6-DD,C1,07:30,31")], "BadPlan Number 3",
         ['qc: plan.csv, line 3, record 3: the start is "07:30": times are counted in ticks from the beginning of the plan, '
          'and not by a clock; ' + TICK]),
    plan("a decimal in a plan", [("6-DD,C1,21,31", "6-DD,C1,21.0,31")], "BadPlan Number 3",
         ['qc: plan.csv, line 3, record 3: the start is "21.0": ticks are whole and have neither point nor comma; ' + TICK]),
    plan("a start below 0", [("2-DD,C1,0,20", "2-DD,C1,-1,19")], "BadPlan Number 2",
         ['qc: plan.csv, line 2, record 2: the start is "-1": no task starts before tick 0; ' + TICK]),
    plan("no end", [("6-DD,C1,21,31", "6-DD,C1,21,")], "BadPlan Number 3",
         ['qc: plan.csv, line 3, record 3: the end is "": it is missing; ' + TICK]),
    plan("a 0 ahead in a plan", [("2-DD,C1,0,20", "2-DD,C1,00,20")], "BadPlan Number 2",
         ['qc: plan.csv, line 2, record 2: the start is "00": it has a 0 ahead; ' + TICK]),
    plan("a start moved alone", [("6-DD,C1,21,31", "6-DD,C1,25,31")], "BadPlan EndWrong 3",
         ["qc: plan.csv, line 3, record 3: the task takes 10 ticks, so from 25 on it ends at 35, and not at 31"]),
    plan("a task twice", [("6-DD,C1,21,31\n", "6-DD,C1,21,31\n6-DD,C1,41,51\n")], "BadPlan TaskTwice 4",
         ['qc: plan.csv, line 4, record 4: the task "6-DD" stands in line 3 already; each task has one record']),
    plan("a task missing", [("6-DD,C1,21,31\n", "")], "BadPlan TaskMissing 3",
         ["qc: plan.csv: 1 task has no record: 6-DD; a plan has one for each task that qc tasks SHIP STOW prints"]),
    ("a plan of one's own with a wrong end", "first", PLAN + " --from plan.csv",
     {"plan.csv": [("6-DD,C1,21,31", "6-DD,C1,21,32")]}, 8, "BadPlan EndWrong 3",
     ["qc: plan.csv, line 3, record 3: the task takes 10 ticks, so from 21 on it ends at 31, and not at 32"]),
    # ---- plans that break a rule
    ("Reach", "first", CHECK, {"ship.toml": [("bay = 1\n", "bay = 1\nto = 1\n")]}, 13, "Broken Reach 6-DD",
         ["qc: plan.csv, line 3, record 3: 6-DD stands at crane bay 2, and C1 reaches 1 to 1; no crane reaches it, by from and "
          "to of the ship file"]),
    plan("Ready", [("6-DD,C1,21,31", "6-DD,C1,0,10"), ("2-DD,C1,0,20", "2-DD,C1,11,31")], "Broken Ready 6-DD",
         ["qc: plan.csv, line 3, record 3: 6-DD starts at 0; C1 is ready at 0 and goes 1 bay in 1 tick: 6-DD may start at 1, "
          "and ends at 11 then"], status=13),
    plan("Travel", [("6-DD,C1,21,31", "6-DD,C1,20,30")], "Broken Travel 2-DD 6-DD",
         ["qc: plan.csv, line 3, record 3: C1 does 2-DD to 20 and 6-DD from 20, and goes 1 bay in 1 tick between: 6-DD may "
          "start at 21, and ends at 31 then"], status=13),
    plan("Before", [("10-LD,C1,22,42", "10-LD,C2,2,22")], "Broken Before 2-DD 10-LD",
         ["qc: plan.csv, line 3, record 3: 10-LD starts at 2, and 2-DD is before it and ends at 20: 10-LD may start at 20, and "
          "ends at 40 then"], base="restows", words=SHOW, status=13),
    plan("Apart", [("14-DD,C2,43,53", "14-DD,C2,10,20")], "Broken Apart 2-DD 14-DD",
         ["qc: plan.csv, line 4, record 4: 14-DD starts at 10, and 2-DD goes on to 20; their hatches are apart, so they are "
          "never worked at the same time: 14-DD may start at 20, and ends at 30 then"], base="restows", words=SHOW, status=13),
    plan("Margin", [("14-DD,C2,43,53", "14-DD,C2,42,52")], "Broken Margin 10-LD 14-DD",
         ["qc: plan.csv, line 4, record 4: 14-DD (C2, from 42) and 10-LD (C1, to 42) stand 1 bay apart, 2 are needed: 14-DD may "
          "start at 43, and ends at 53 then"], base="restows", words=SHOW, status=13),
    plan("cranes that would pass", [("2-DD,C1,0,20", "2-DD,C2,2,22"), ("10-LD,C1,22,42", "10-LD,C1,23,43"),
                                    ("14-DD,C2,43,53", "14-DD,C2,60,70")], "Broken Margin 2-DD 10-LD",
         ["qc: plan.csv, line 3, record 3: 10-LD (C1, from 23) and 2-DD (C2, to 22) stand 2 bays apart in the wrong order, and "
          "cranes can't pass each other: 10-LD may start at 26, and ends at 46 then"],
         base="restows", words=SHOW, status=13),
    ("Berth", "restows", SHOW,
     {"ship.toml": [('name = "C2"\nbay = 3\n', 'name = "C2"\nbay = 3\nready = 100\n')],
      "plan.csv": [("14-DD,C2,43,53", "14-DD,C2,101,111")]}, 13, "Broken Berth 10-LD",
     ["qc: plan.csv, line 3, record 3: 10-LD (C1, from 22) is too near to C2, which stands at crane bay 3 and can't leave it "
      "before 100: 10-LD may start at 102, and ends at 122 then"]),
    plan("to and fro", [("10-LD,C1,22,42", "10-LD,C1,34,54"), ("14-DD,C2,43,53", "14-DD,C1,23,33")],
         "Broken OneWay 10-LD 14-DD",
         ["qc: plan.csv, line 3, record 3: the plan can be worked, but its cranes go to and fro: from 14-DD to 10-LD the way is "
          "down, and other tasks go up; only a tree of all feasible plans speaks of such a plan, and qc freecheck judges it; qc "
          "sheet, dispatch, odds, rest, picture and report take it"],
         base="restows", words=SHOW, status=13),
    # ---- the tree
    tree("Windows' lines", ("crlf",), "BadTree Spelling 1",
         ["qc: tree.txt, line 1: the lines end with a carriage return, as on Windows: a tree's end with a line feed alone; plan "
          "again"]),
    tree("a tree cut off", ("cut", 3), "BadTree Cut 10",
         ['qc: tree.txt, line 10: "end 4 ": the file ends here, and a tree goes on: it was cut off; copy it again, or plan '
          'again']),
    tree("an empty tree", "", "BadTree Cut 1", ["qc: tree.txt: the file is empty; a bound tree is wanted"]),
    tree("a plan for a tree", FIRST_PLAN, "BadTree Spelling 1",
         ["qc: tree.txt: this is a plan, and a bound tree is wanted here: " + ORDER + " TREE"]),
    tree("a word changed", [("P 1 2\n", "P  1 2\n")], "BadTree Spelling 5",
         ['qc: tree.txt, line 5: "P  1 2": no line of a tree looks like this: the file was changed, or is no tree']),
    tree("a line too few", [("A 2\nP 1 2\n", "P 1 2\n")], "BadTree NotForced 4",
         ["qc: tree.txt, line 4: \"P 1 2\": its tasks don't wait for each other as it says", OF_OTHERS]),
    tree("a task of another list", [("A 1\nA 2\nP 1 2\n", "A 1\nA 3\nP 1 2\n")], "BadTree UnknownTask 4",
         ['qc: tree.txt, line 4: "A 3": it names a task that the ship file and the list haven\'t', OF_OTHERS]),
    tree("another bound", [("end 4 31\n", "end 4 30\n")], "BadTree Counts 10",
         ['qc: tree.txt, line 10: "end 4 30": the tree has another number of branchings or another value', OF_OTHERS]),
    tree("a line behind the end", [("end 4 31\n", "end 4 31\n\n")], "BadTree After 11",
         ['qc: tree.txt, line 11: "": the file goes on behind its last line: delete what stands there, or plan again']),
    tree("a long line", [("P 1 2\n", "P 1 2" + " 1" * 700 + "\n")], "BadTree LineTooLong 5",
         ["qc: tree.txt, line 5: " + cut("P 1 2" + " 1" * 700) + ": the line has more than 1200 bytes, so it is none of a tree"]),
    tree("a tree of all plans", "QCFREE 1\nQ 1 2\nend 0 31\n", "BadTree Spelling 1",
         ["qc: tree.txt, line 1: this is a tree of all feasible plans, whichever way their cranes go: check it with qc "
          "freecheck"]),
    ("a tree of one-way plans", "first", FREE_CHECK, {}, 7, "BadTree Spelling 1",
     ["qc: tree.txt, line 1: this is a tree of plans that go one way: check it with qc check"]),
    ("an order of tasks without cranes", "first", FREE_CHECK, {"tree.txt": "QCFREE 1\nO 1 2\nP\nP\nend 1 0\n"}, 7,
     "BadTree NotConflict 2",
     ['qc: tree.txt, line 2: "O 1 2": it branches on the order of two tasks that can run together by their cranes so far, or '
      'names the higher one first', OF_OTHERS]),
    ("the tree of another ship", "restows", "check ship.toml stow.csv - tree.txt",
     {"tree.txt": ("examples", "first/tree.txt")}, 7, "BadTree Place 6",
     ['qc: tree.txt, line 6: "down": another line is due here: the file was changed, or is no tree of this ship and list',
      OF_OTHERS]),
    # ---- the log
    log("commas in a log", [("4000 C1 400\n", "4000,C1,400\n")], "BadLog Line 2",
        ['qc: log.txt, line 2: "4000,C1,400": single spaces stand between the three, and no commas, semicolons or tabs; '
         + LINE]),
    log("a log by a clock", [("4000 C1 400\n", "07:30 C1 400\n")], "BadLog Line 2",
        ['qc: log.txt, line 2: "07:30 C1 400": times are counted in ticks, and not by a clock; ' + LINE]),
    log("a place with a point", [("4000 C1 400\n", "4000 C1 40.0\n")], "BadLog Line 2",
        ['qc: log.txt, line 2: "4000 C1 40.0": times and places are whole numbers; ' + LINE]),
    log("the crane first", [("4000 C1 400\n", "C1 4000 400\n")], "BadLog Line 2",
        ['qc: log.txt, line 2: "C1 4000 400": the time stands first, then the crane and its place; ' + LINE]),
    log("two spaces", [("4000 C1 400\n", "4000  C1 400\n")], "BadLog Line 2",
        ['qc: log.txt, line 2: "4000  C1 400": there is one space between the three and none besides; ' + LINE]),
    log("Windows' lines in a log", ("crlf",), "BadLog Line 1",
        ['qc: log.txt, line 1: "0 C1 400": the lines end with a carriage return, as on Windows: they end with a line feed '
         'alone; ' + LINE]),
    log("no line feed at the end", ("cut", 1), "BadLog Line 8",
        ['qc: log.txt, line 8: "7240 C2 550": no line feed ends it: the log was cut off, or its last line has none; ' + LINE]),
    log("an empty line", [("4000 C1 400\n", "\n4000 C1 400\n")], "BadLog Line 2",
        ['qc: log.txt, line 2: "": the line is empty: delete it; ' + LINE]),
    log("a crane that isn't there", [("4000 C1 400\n", "4000 STS-1 400\n")], "BadLog UnknownCrane 2",
        ['qc: log.txt, line 2: no crane is named "STS-1"; the cranes are C1, C2']),
    log("a time that goes back", [("4240 C1 280\n", "3999 C1 280\n")], "BadLog TimeBack 3",
        ['qc: log.txt, line 3: the time of "C1" is "3999", and in line 2 it was "4000" already; the lines of each crane stand '
         'in order of time']),
    # ---- the log of what happened
    course("commas in a log of ticks", [("tick 25\n", "tick,25\n")], "BadLog Line 1",
           ['qc: happened.txt, line 1: "tick,25": two words stand in a line, with one space between them and none besides; '
            + REPORT]),
    course("no ticks", [("tick 25\n", "tick 0\n")], "BadLog Line 1",
           ['qc: happened.txt, line 1: "tick 0": ticks are counted in digits, from 1 to 999999999 and without a leading 0; '
            + REPORT]),
    course("another word", [("done 2-DD\n", "end 2-DD\n")], "BadLog Line 2",
           ['qc: happened.txt, line 2: "end 2-DD": the first word is tick, done or left; ' + REPORT]),
    course("no line feed behind the last tick", ("cut", 1), "BadLog Line 3",
           ['qc: happened.txt, line 3: "tick 2": no line feed ends it: the log was cut off, or its last line has none; '
            + REPORT]),
    course("a task that isn't there", [("done 2-DD\n", "done 2-LH\n")], "BadLog UnknownTask 2",
           ['qc: happened.txt, line 2: "2-LH" is no task of this ship and list; qc tasks tells their names']),
    course("a task that is done twice", [("tick 2\n", "done 2-DD\n")], "BadLog NotRunning 3",
           ['qc: happened.txt, line 3: "2-DD" doesn\'t run then: a task is done once, and after its start was told']),
    course("no ticks that a task needs still", [("done 2-DD\n", "left 2-DD\n")], "BadLog Line 2",
           ['qc: happened.txt, line 2: "left 2-DD": behind left stand a task and a number of ticks, with one space between words '
            'and none besides; ' + REPORT]),
    course("a task that needs nothing more", [("done 2-DD\n", "left 2-DD 0\n")], "BadLog Line 2",
           ['qc: happened.txt, line 2: "left 2-DD 0": ticks are counted in digits, from 1 to 999999999 and without a leading 0; '
            + REPORT]),
    course("what a task needs that is done", [("tick 2\n", "left 2-DD 3\n")], "BadLog NotRunning 3",
           ['qc: happened.txt, line 3: "2-DD" doesn\'t run then: what it still needs is told after its start and before its '
            'end']),
    course("a task that needs longer", "tick 5\nleft 2-DD 30\n", "start 2-DD C1 0", [], status=0),
    # ---- what cranes wait for by the log; of restows 2-DD and 14-DD are apart, and 10-LD is too near to 14-DD
    course("a crane that may begin soon", "tick 20\ndone 2-DD\n", "start 2-DD C1 0",
           ["qc: note: C1 may begin 6-DD at tick 21"], status=0),
    course("a crane that waits for a task that runs", "tick 5\n", "start 2-DD C1 0",
           ["qc: note: C2 waits with 14-DD until C1 is through with 2-DD, which runs"], base="restows", status=0),
    course("a crane that waits for one that waits itself", "tick 20\ndone 2-DD\n", "start 2-DD C1 0",
           ["qc: note: C1 may begin 10-LD at tick 22",
            "qc: note: C2 waits with 14-DD until C1 is through with 10-LD, which has no start either"], base="restows",
           status=0),
    course("the last crane at work", "tick 20\ndone 2-DD\ntick 2\ndone 10-LD\ntick 1\n", "start 2-DD C1 0", [],
           base="restows", status=0),
    # ---- the words
    usage("no LOG", "dispatch ship.toml stow.csv plan.csv",
          ["qc: dispatch needs LOG too; the words are", "qc:     qc dispatch SHIP STOW PLAN LOG"]),
    usage("no words", "", ["qc: no word was given, or one that isn't text in UTF-8; a command stands first, and qc --help says "
                           "what they are"]),
    usage("a command misspelt", "pln ship.toml stow.csv new.csv newtree.txt",
          ['qc: "pln" is no command; the nearest is plan']),
    usage("a file for the command", "ship.toml stow.csv",
          ['qc: "ship.toml" is no command; qc --help says what they are']),
    usage("help on a command", "help plan",
          ["qc: help stands without other words; qc plan --help tells what plan does"]),
    usage("help on a word", "--help me", ["qc: --help stands without other words; qc COMMAND --help tells what one command does"]),
    usage("help behind the files", PLAN + " --help",
          ["qc: --help stands directly behind the command, without other words: qc plan --help"]),
    usage("the version and a word", "--version x", ["qc: --version stands without other words: qc --version"]),
    usage("the version of a command", "tasks -V", ["qc: -V stands without other words: qc -V"]),
    usage("quiet behind the command", "tasks -q ship.toml stow.csv", ["qc: -q stands ahead of the command: qc -q tasks"]),
    usage("no TREE", "plan ship.toml stow.csv new.csv",
          ["qc: plan needs TREE too; the words are", "qc:     qc plan SHIP STOW PLAN TREE [--nodes N] [--from OWN]"]),
    usage("only SHIP", "tasks ship.toml", ["qc: tasks needs STOW too; the words are", "qc:     qc tasks SHIP STOW"]),
    usage("a word too many", "tasks ship.toml stow.csv plan.csv",
          ['qc: "plan.csv" is one word too many for tasks; the words are', "qc:     qc tasks SHIP STOW"]),
    usage("node", PLAN + " --node 100", ['qc: plan has no option "--node"; the nearest is --nodes']),
    usage("an option that isn't", PLAN + " --verbose",
          ['qc: plan has no option "--verbose"; it has --nodes N and --from OWN, and a file of that name is written '
           './--verbose']),
    usage("an option of another command", CHECK + " --nodes 5",
          ['qc: check has no option "--nodes"; a file of that name is written ./--nodes']),
    usage("nodes without a number", PLAN + " --nodes", ["qc: behind --nodes its value is missing"]),
    usage("a number for nodes that is an option", PLAN + " --nodes --from own.csv",
          ["qc: behind --nodes its value is missing"]),
    usage("an option for OWN", PLAN + " --from --nodes", ["qc: behind --from its value is missing"]),
    usage("an option with its value for OWN", PLAN + " --from --nodes 3", ["qc: behind --from its value is missing"]),
    usage("a word with a dash for OWN", PLAN + " --from -x", ["qc: behind --from its value is missing"]),
    usage("a word with a dash for OWN, to and fro", "free ship.toml stow.csv new.csv newtree.txt --from -x",
          ["qc: behind --from its value is missing"]),
    usage("branchings below 0", PLAN + " --nodes -5",
          ['qc: N behind --nodes can\'t be "-5": it is a whole number from 0 to 1000000, in digits alone and without a '
           'leading 0']),
    usage("nodes twice", PLAN + " --nodes 1 --nodes 2", ["qc: --nodes stands twice"]),
    usage("too many branchings", PLAN + " --nodes 10000000",
          ['qc: N behind --nodes can\'t be "10000000": it is a whole number from 0 to 1000000, in digits alone and without a '
           'leading 0']),
    usage("branchings with a comma", PLAN + " --nodes 20,000",
          ['qc: N behind --nodes can\'t be "20,000": it is a whole number from 0 to 1000000, in digits alone and without a '
           'leading 0']),
    usage("one file for plan and tree", "plan ship.toml stow.csv new.csv new.csv",
          ['qc: PLAN and TREE are the same file "new.csv": plan needs four different names']),
    usage("the plan over its own", PLAN + " --from new.csv",
          ['qc: PLAN and OWN behind --from are the same file "new.csv": OWN is only read, so name another file for PLAN']),
    usage("the ship file for OWN", PLAN + " --from ship.toml",
          ['qc: SHIP and OWN behind --from are the same file "ship.toml": OWN is a plan to begin with, so name another file '
           'for OWN']),
    usage("too many hatches to make", "make 1 61 2",
          ['qc: HATCHES can\'t be "61": it is a whole number from 1 to 60, in digits alone and without a leading 0']),
    # ---- files that can't be read or written
    ("no ship file", "first", TASKS, {"ship.toml": None}, 3, "ReadFault ship",
     ["qc: ship.toml: this file, SHIP, isn't there or can't be read", "qc: the system said: No such file or directory (os error 2)"]),
    ("a list in another folder", "first", "tasks ship.toml lists/stow.csv", {}, 3, "ReadFault stow",
     ["qc: lists/stow.csv: this file, STOW, isn't there or can't be read",
      "qc: the system said: No such file or directory (os error 2)"]),
    ("no tree", "first", CHECK, {"tree.txt": None}, 3, "ReadFault tree",
     ["qc: tree.txt: this file, TREE, isn't there or can't be read", "qc: the system said: No such file or directory (os error 2)"]),
    ("a folder that isn't there", "first", "plan ship.toml stow.csv out/plan.csv newtree.txt", {}, 4, "WriteFault",
     ["qc: out/plan.csv: this file couldn't be made or written",
      "qc: the system said: No such file or directory (os error 2)"]),
    ("a name that steers a terminal", "first", "plan ship.toml stow.csv out/\x1b[2J\np.csv newtree.txt", {}, 4, "WriteFault",
     ["qc: out/?[2J?p.csv: this file couldn't be made or written",
      "qc: the system said: No such file or directory (os error 2)"]),
    ("the plan over the list", "first", "plan ship.toml stow.csv ./stow.csv newtree.txt", {}, 4, "WriteFault",
     ["qc: ./stow.csv: this file couldn't be made or written",
      "qc: it is a file that this call has read or made, and no such file is written over"]),
    # ---- sentences that no mistake above comes to
    ("Reach, where another crane reaches it", "restows", SHOW, {"ship.toml": [("bay = 1\n", "bay = 1\nto = 2\n")]}, 13,
     "Broken Reach 10-LD",
     ["qc: plan.csv, line 3, record 3: 10-LD stands at crane bay 3, and C1 reaches 1 to 2: give the task to C2"]),
    plan("no task at all", PLAN_HEADER + "\n", "BadPlan TaskMissing 2",
         ["qc: plan.csv: 2 tasks have no record: 2-DD 6-DD; a plan has one for each task that qc tasks SHIP STOW prints"]),
    plan("a start of 13 digits", [("6-DD,C1,21,31", "6-DD,C1,1234567890123,31")], "BadPlan Number 3",
         ['qc: plan.csv, line 3, record 3: the start is "1234567890123": it has more than 12 digits; ' + TICK]),
    plan("a start with a sign ahead", [("6-DD,C1,21,31", "6-DD,C1,+21,31")], "BadPlan Number 3",
         ['qc: plan.csv, line 3, record 3: the start is "+21": it isn\'t digits alone; ' + TICK]),
    stow("an id with a comma", [("A2,D,020084,40", '"A,2",D,020084,40')], "BadStow Id 3",
         ['qc: stow.csv, line 3, record 3: the id is "A,2": it has a comma or a double quote; ' + ID], base="first"),
    stow("a byte that is no text", (HEADER + "\nA1,D,0200").encode() + b"\xff2,40\n", "BadStow Digit 2",
         ['qc: stow.csv, line 2, record 2: the cell is "0200\\xFF2": it has a letter or a sign, and is digits alone; ' + CELL],
         base="first"),
    stow("a cell of four digits", [("A2,D,020084,40", "A2,D,0284,40")], "BadStow Length 3",
         ['qc: stow.csv, line 3, record 3: the cell is "0284": it has another length; ' + CELL], base="first"),
    stow("a container loaded twice", [("A3,D,060082,40\n", "A3,D,060082,40\nB1,L,020082,40\nB1,L,020084,40\n")],
         "BadStow IdTwice 6",
         ['qc: stow.csv, line 6, record 6: "B1" is loaded in line 5 already; each container is loaded once'], base="first"),
    stow("bytes of 0", b"id,move\0", "BadStow Header 1",
         ["qc: stow.csv: the file has bytes of 0 and is no text: save it as UTF-8; a stowage list is wanted"], base="first"),
    ("a list of a byte too many", "first", TASKS, {"stow.csv": b"x" * 8388609}, 15, "TooLarge stow",
     ["qc: stow.csv: this file, STOW, has more than 8388608 bytes, and may have no more"]),
    ("a device for SHIP", "first", "tasks /dev/zero stow.csv", {}, 15, "TooLarge ship",
     ["qc: /dev/zero: this file, SHIP, has more than 8388608 bytes, and may have no more"]),
    ("a device for STOW", "first", "tasks ship.toml /dev/zero", {}, 15, "TooLarge stow",
     ["qc: /dev/zero: this file, STOW, has more than 8388608 bytes, and may have no more"]),
    ("a device for LOG", "places", "watch ship.toml /dev/zero", {}, 15, "TooLarge log",
     ["qc: /dev/zero: this file, LOG, has more than 8388608 bytes, and may have no more"]),
    ("a device for TREE", "first", "check ship.toml stow.csv - /dev/zero", {}, 7, "BadTree LineTooLong 1",
     ["qc: /dev/zero: this file, TREE, has the fault that was reported, and can't be read again to show it"]),
    ship("many keys that aren't read", [("margin = 1\n", "margin = 1\n" + "".join(f"zz{n:02} = 1\n" for n in range(21)))],
         "task 2-DD 1 20",
         [f'qc: note: ship.toml, line {4 + n}: the key "zz{n:02}" is no key of the ship and isn\'t read' for n in range(20)]
         + ["qc: note: further keys of the ship file aren't read"], base="first", status=0),
    ship("a bay beyond the rail, in decimetres", [('name = "C2"\nbay = 900\n', 'name = "C2"\nbay = 20000\n')],
         "BadShip Range bay 2", ["qc: ship.toml, line 18: bay is 20000, and may be " + BAY_BY_PLACES], base="places"),
    log("a place that is no number", [("4000 C1 400", "4000 C1 x")], "BadLog Line 2",
        ['qc: log.txt, line 2: "4000 C1 x": it isn\'t a time, a crane\'s name and a place; ' + LINE]),
]
