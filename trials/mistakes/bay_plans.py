"""Mistakes in bay plans, as lines send them: rows of the table of mistakes (table.py), for `moves`."""

UNH = "UNH+1+BAPLIE:D:95B:UN:SMDG22"
BGM = "BGM++PLAN+9"


def place(cell, more=("EQD+CN+P+4310",)):
    """The segments of a place and of what stands there."""
    return [f"LOC+147+{cell}::5", *more]


def message(*segments, count=None, head=UNH):
    """A message, a segment a line: its head, these, and its end with their number."""
    all_ = [head, *segments]
    return "".join(f"{it}'\n" for it in [*all_, f"UNT+{count or len(all_) + 1}+1"])


ONE = message(*place("0020082"))
MOVES = "moves arrival.edi departure.edi new.csv"
LEFT_OUT = ("qc: a container that is to be left out gets BB for CN in its EQD: its place then counts as other, and the count "
            "in UNT still holds")
CELL = "a cell is bay, row and tier in six or seven digits, as 0010482"
ID = "an id is 1 to 20 letters, digits and signs of ASCII without commas and double quotes, and "
SENT_AGAIN = "the file was cut short; have it sent again"


def bad(name, text, report, lines, file="arrival"):
    """A bay plan with a fault, and what is said of it."""
    other = "departure" if file == "arrival" else "arrival"
    return (name, "bay-plans", MOVES, {f"{file}.edi": text, f"{other}.edi": ONE}, 19, "BadBayPlan " + report,
            [f"qc: {file}.edi{line}" if line != LEFT_OUT else line for line in lines])


def noted(name, arrival, departure, report, lines):
    """Two bay plans that are read, and what is noted on them."""
    return (name, "bay-plans", MOVES, {"arrival.edi": arrival, "departure.edi": departure}, 0, report, lines)


BAY_PLANS = [
    ("the example of bay plans", "bay-plans", MOVES, {}, 0, "moves 47", [
        "qc: note: arrival.edi: 4 stay on deck at bays at which the hold is worked: a plan doesn't tell the covers, so add a D "
        "and an L row for each that stands on a cover to be opened, and for what is over it",
        "qc: note: departure.edi: 1 of it have no id yet and are named by their cells, the first NEW-140482",
        "qc: note: arrival.edi: 1 more are bundled with the first of their place, and move with it: they have no row",
        "qc: note: 2 change their places: where that is from hatch to hatch, the ship file wants restows = \"ordered\""]),
    ("no plan of the arrival", "bay-plans", MOVES, {"arrival.edi": None}, 3, "ReadFault arrival",
     ["qc: arrival.edi: this file, ARRIVAL, isn't there or can't be read",
      "qc: the system said: No such file or directory (os error 2)"]),
    ("a device for DEPARTURE", "bay-plans", "moves arrival.edi /dev/zero new.csv", {}, 15, "TooLarge departure",
     ["qc: /dev/zero: this file, DEPARTURE, has more than 8388608 bytes, and may have no more"]),
    bad("equal service characters", "UNA++.? '\n" + ONE, "Una arrival 0",
        [": the characters behind UNA are \"++.? '\": the first, the second and the sixth are three different ones; most files "
         "have :+.? and a blank and '"]),
    bad("a letter for a service character", "UNA:+.X '\n" + ONE, "Una arrival 0",
        [": the characters behind UNA are \":+.X '\": the first, the second, the fourth and the sixth are no letters and no "
         "digits, and can be seen; most files have :+.? and a blank and '"]),
    bad("a file of two plans", ONE + ONE, "After arrival 5",
        [f', line 5: segment 5 is "{UNH}": the plan is over with the segment before it, and a file holds one plan alone: delete '
         "what follows"]),
    bad("a plan cut between two segments", "".join(f"{line}\n" for line in ONE.splitlines()[:3]), "Cut arrival 4",
        [": the file ends ahead of segment 4, and its plan isn't over, which UNT ends, and UNZ where there was a UNB: "
         + SENT_AGAIN]),
    bad("a plan cut amid a segment", ONE[:-2], "Cut arrival 4", [f', line 4: segment 4 is "UNT+4+1": no \' ends it: {SENT_AGAIN}'],
        ),
    bad("a spreadsheet for a plan", "id,move\n" + 5000 * "x", "TooLong arrival 1",
        [', line 1: segment 1 is "id,movexxxxxxxxxxxxxxxxxxxxxxxxxxxxxxxxxxxxxxxxxxxxxxxxxxxxx"..: nothing ends it within 4096 '
         "bytes: the file has other service characters than its UNA tells, or it is no BAPLIE"]),
    bad("a quote that isn't released", message("FTX+AAI+++it's late", *place("0020082")), "Tag arrival 3",
        [', line 2: segment 3 is "s late": it doesn\'t begin with three capital letters: a \' before it has no ? ahead and so '
         "ended a segment, or the file is of another kind"]),
    bad("two messages in one envelope", "UNB+UNOA:2+A+B+261130:0600+1'\n" + ONE + ONE + "UNZ+2+1'\n", "Place arrival 6",
        [f', line 6: segment 6 is "{UNH}": a second message begins, and a file holds one plan alone: cut it in two']),
    bad("a plan in a group", "UNB+UNOA:2+A+B+261130:0600+1'\nUNG+BAPLIE'\n" + ONE, "Place arrival 2",
        [', line 2: segment 2 is "UNG+BAPLIE": it is of a group of messages: have the message sent without groups']),
    bad("a plan without its head", ONE.split("\n", 1)[1], "Place arrival 1",
        [', line 1: segment 1 is "LOC+147+0020082::5": it stands outside of the message, which UNH begins and UNT ends']),
    bad("a list of moves of the line", ONE.replace("BAPLIE", "MOVINS"), "NotBaplie arrival 1",
        [f', line 1: segment 1 is "{UNH.replace("BAPLIE", "MOVINS")}": the message is "MOVINS"; ask the line for the bay plan, '
         "BAPLIE, of the whole ship"]),
    bad("a change of a plan", message("BGM++PLAN+4", *place("0020082")), "Partial departure 2",
        [', line 2: segment 2 is "BGM++PLAN+4": the message tells changes of a plan alone, by its function; ask the line for a '
         "plan of the whole ship, of function 9 or 5"], file="departure"),
    bad("a plan of the loads alone", message("BGM+659:::LOADONLY+PLAN+9", *place("0020082")), "Partial departure 2",
        [', line 2: segment 2 is "BGM+659:::LOADONLY+PLAN+9": the message tells what is loaded alone; ask the line for a plan '
         "of the whole ship, of function 9 or 5"], file="departure"),
    bad("a place that was deleted", message(*place("0020082"), count=7), "Count arrival 4",
        [', line 4: segment 4 is "UNT+7+1": it tells of "7" segments, and from UNH to it there are 4: the file isn\'t whole, or '
         "was changed by hand; have it sent again"]),
    bad("an envelope that tells of two messages", "UNB+UNOA:2+A+B+261130:0600+1'\n" + ONE + "UNZ+2+1'\n", "Count arrival 6",
        [', line 6: segment 6 is "UNZ+2+1": it tells of "2" messages, and there is 1: the file isn\'t whole; have it sent again']),
    bad("a container ahead of the places", message("EQD+CN+P+4310"), "NoPlace arrival 2",
        [', line 2: segment 2 is "EQD+CN+P+4310": it is a container ahead of any place: each stands behind the LOC+147 that '
         "tells its cell"]),
    bad("a place by a carrier's own numbers", message("LOC+147+ABC::87", "EQD+CN+P+4310"), "CellKind arrival 3",
        [', line 3: segment 3 is "EQD+CN+P+4310": at the place "ABC" of segment 2, whose agency is "87": it is numbered in a '
         "carrier's own way and can't be listed; places by ISO numbers have agency 5", LEFT_OUT]),
    bad("a container that isn't planned yet", message(*place("", ["EQD+CN+P+4310"])), "Length departure 3",
        [', line 3: segment 3 is "EQD+CN+P+4310": at the place "" of segment 2, which is no cell: it is missing, so the '
         "container isn't planned yet; " + CELL, LEFT_OUT], file="departure"),
    bad("a place that lost its leading 0", message(*place("20082")), "Length arrival 3",
        [', line 3: segment 3 is "EQD+CN+P+4310": at the place "20082" of segment 2, which is no cell: its leading 0 is lost, '
         "as a spreadsheet does that reads cells as numbers: import the column as text; " + CELL, LEFT_OUT]),
    bad("a place of an odd tier", message(*place("0020081")), "TierOdd arrival 3",
        [', line 3: segment 3 is "EQD+CN+P+4310": at the place "0020081" of segment 2, which is no cell: its tier, the last two '
         "digits, is odd, and tiers are even; " + CELL, LEFT_OUT]),
    bad("a container without an id on arrival", message(*place("0020082", ["EQD+CN++4310"])), "Id arrival 3",
        [', line 3: segment 3 is "EQD+CN++4310": at the place "0020082" of segment 2, the id is "": it is missing; ' + ID
         + "on arrival each container has one", LEFT_OUT]),
    bad("a comma in an id", message(*place("0020082", ["EQD+CN+P,1+4310"])), "Id departure 3",
        [', line 3: segment 3 is "EQD+CN+P,1+4310": at the place "0020082" of segment 2, the id is "P,1": it has a comma or a '
         "double quote; " + ID + "one that is left empty for a departure is made from the cell", LEFT_OUT], file="departure"),
    bad("a container of 30 feet", message(*place("0020082", ["EQD+CN+P+3010"])), "Size arrival 3",
        [', line 3: segment 3 is "EQD+CN+P+3010": at the place "0020082" of segment 2, the size is "3010"; by its first '
         "character 2 is 20 feet, 4 is 40, 9 and L are 45, and G to P are more than 40; 10, 24 and 30 feet can't be listed",
         LEFT_OUT]),
    bad("20 feet at an even bay", message(*place("0020082", ["EQD+CN+P+2210"])), "LengthMismatch arrival 3",
        [', line 3: segment 3 is "EQD+CN+P+2210": at the place "0020082" of segment 2, the size is "2210", and the bay is one '
         "of 40 feet, as even ones are: one of the two is wrong, so ask the line which", LEFT_OUT]),
    bad("a container twice", message(*place("0020082"), *place("0060082")), "IdTwice arrival 5",
        [', line 5: segment 5 is "EQD+CN+P+4310": "P" at "0060082" has the id of "P" at "0020082" of segment 3; each container '
         "stands once in a plan, and for a departure an id that is left empty is made from the cell", LEFT_OUT]),
    bad("an id that is made twice", message(*place("0060082", ["EQD+CN+NEW-020082+4310"]), *place("0020082", ["EQD+CN++4310"])),
        "IdTwice departure 5",
        [', line 5: segment 5 is "EQD+CN++4310": "" at "0020082" has the id of "NEW-020082" at "0060082" of segment 3; each '
         "container stands once in a plan, and for a departure an id that is left empty is made from the cell", LEFT_OUT],
        file="departure"),
    bad("two containers in one place", message(*place("0020082"), *place("0010082", ["EQD+CN+U+2210"])), "CellTaken arrival 5",
        [', line 5: segment 5 is "EQD+CN+U+2210": "U" at "0010082" overlaps "P" at "0020082" of segment 3; each place holds '
         "one container, and further ones that are bundled with it stand behind the same LOC", LEFT_OUT]),
    noted("two ships", ONE, ONE.replace("+P+", "+Q+").replace("0020082", "0060082"), "moves 2",
          ["qc: note: departure.edi: no id of it is in the plan of the arrival: are both of one ship, and is this one more than "
           "what is loaded?"]),
    noted("one container written in two ways", ONE.replace("+P+", "+abcu-1+") + "", ONE.replace("+P+", "+ABCU1+"), "moves 2",
          ["qc: note: departure.edi: no id of it is in the plan of the arrival: are both of one ship, and is this one more than "
           "what is loaded?",
           "qc: note: departure.edi: abcu-1 goes and ABCU1 comes to its place: is that one container, written in two ways?"]),
    noted("a container of two lengths", ONE, message(*place("0030082", ["EQD+CN+P+2210"])), "moves 2",
          ["qc: note: departure.edi: P is 20 feet long in one plan and 40 in the other: is it one container?",
           "qc: note: 1 change their places: where that is from hatch to hatch, the ship file wants restows = \"ordered\""]),
    noted("a part of a plan", ONE, message("BGM+659+PLAN+9", *place("0020082")), "moves 0",
          ["qc: note: departure.edi: its document code is 659, as of a part of a plan; the list takes it for the plan of the "
           "whole ship"]),
    noted("a place of something else", ONE, message(*place("0020082"), *place("0020084", ["EQD+BB+X"])), "moves 0",
          ["qc: note: departure.edi: 1 of its places hold no container but something else, and have no row"]),
    ("one plan named twice", "bay-plans", "moves arrival.edi arrival.edi new.csv", {}, 2, "Usage",
     ['qc: ARRIVAL and DEPARTURE are the same file "arrival.edi": moves needs three different names']),
    ("the list over a plan", "bay-plans", "moves arrival.edi departure.edi departure.edi", {}, 2, "Usage",
     ['qc: DEPARTURE and STOW are the same file "departure.edi": moves needs three different names']),
]
