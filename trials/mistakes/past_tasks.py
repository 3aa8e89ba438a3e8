"""Mistakes in past tasks and in the words of `odds`; as in table.py."""

from table import FIRST_PLAN, SEMICOLONS, usage

HEADER = "call,phase,planned,real"
ODDS = "odds ship.toml stow.csv plan.csv past.csv"
CALL = "a call's name is 1 to 20 letters, digits, - or _"
PHASE = "the phase is DD, DH, LH, LD, or - for any"
LENGTH = "planned and real are whole numbers from 1, of at most 9 digits"
ORDER = "SHIP, STOW, PLAN and PAST stand in this order, and this file was named as"
MANY = [f"26{n:02},-,100,{100 + n}" for n in range(20)]


def table(*records):
    return "\n".join([HEADER, *records]) + "\n"


def past(name, change, report, lines, words=ODDS, status=21):
    change = table(*change) if isinstance(change, list) else change
    return (name, "first", words, {"past.csv": change}, status, report, lines)


def noted(name, records, lines, words=ODDS, first="runs 1000"):
    return past(name, records, first, ["qc: note: past.csv: " + line for line in lines], words, 0)


def told(name, record, report, why):
    """A second record of past tasks that has a fault."""
    return past(name, ["2610,-,100,100", record], f"BadPast {report} 3", ["qc: past.csv, line 3, record 3: " + why])


PAST_TASKS = [
    # ---- past tasks
    ("no past tasks", "first", ODDS, {}, 3, "ReadFault past",
     ["qc: past.csv: this file, PAST, isn't there or can't be read", "qc: the system said: No such file or directory (os error 2)"]),
    past("past tasks of a byte too many", b"x" * 8388609, "TooLarge past",
         ["qc: past.csv: this file, PAST, has more than 8388608 bytes, and may have no more"], status=15),
    past("an empty table of past tasks", "", "BadPast Header 1",
         ["qc: past.csv: the file is empty; a table of past tasks is wanted"]),
    past("past tasks in another order", "call,phase,real,planned\n2611,-,100,100\n", "BadPast Header 1",
         [f'qc: past.csv, line 1, record 1: "call,phase,real,planned" isn\'t the header {HEADER}: the columns stand in this order']),
    past("past tasks with semicolons", "call;phase;planned;real\n2611;-;100;100\n", "BadPast Header 1",
         [f'qc: past.csv, line 1, record 1: "call;phase;planned;real" isn\'t the header {HEADER}: {SEMICOLONS}']),
    past("a plan for past tasks", FIRST_PLAN, "BadPast Header 1",
         [f"qc: past.csv: this is a plan, and a table of past tasks is wanted here: {ORDER} PAST"]),
    past("past tasks for the plan", ["2611,-,100,100"], "BadPlan Header 1",
         [f"qc: past.csv: this is a table of past tasks, and a plan is wanted here: {ORDER} PLAN"],
         words="odds ship.toml stow.csv past.csv plan.csv", status=8),
    past("a header alone", [], "BadPast Empty 2",
         ["qc: past.csv: there is no record behind the header; a record is a task of an earlier call, as 2611,DD,330,365"]),
    told("a past task without its length", "2611,DD,100", "Fields",
         f"the record has 3 fields, and needs four, {HEADER}: some are missing, or the line is no record of the table"),
    told("an empty past task", ",,,", "Call", "the record is empty: delete the line"),
    told("no call", ",DD,100,100", "Call", 'the call is "": it is missing; ' + CALL),
    told("a call with a space", "MV 2611,DD,100,100", "Call", 'the call is "MV 2611": it has a space; ' + CALL),
    told("a call with a point", "26.11,DD,100,100", "Call", 'the call is "26.11": it has another sign; ' + CALL),
    told("a long call", "x" * 21 + ",DD,100,100", "Call", f'the call is "{"x" * 21}": it is too long; ' + CALL),
    told("a phase in small letters", "2611,dd,100,100", "Phase", 'the phase is "dd"; write DD'),
    told("a phase in words", "2611,deck,100,100", "Phase", 'the phase is "deck"; ' + PHASE),
    told("no phase", "2611,,100,100", "Phase", 'the phase is ""; ' + PHASE),
    told("no planned length", "2611,DD,,100", "Number", 'planned is "": it is missing; ' + LENGTH),
    told("a real length of 0", "2611,DD,100,0", "Number", 'real is "0": a task takes some time; ' + LENGTH),
    told("a length below 0", "2611,DD,-5,100", "Number", 'planned is "-5": no length is below 0; ' + LENGTH),
    told("a length by a clock", "2611,DD,100,1:40", "Number",
         'real is "1:40": lengths are counted in one unit, and not by a clock; ' + LENGTH),
    told("a length with a point", "2611,DD,1.5,1.7", "Number",
         'planned is "1.5": it has a point or a comma: choose a smaller unit; ' + LENGTH),
    told("a length with a space", "2611,DD,100,1 00", "Number", 'real is "1 00": it has a space; ' + LENGTH),
    told("a length with a 0 ahead", "2611,DD,0100,100", "Number", 'planned is "0100": it has a 0 ahead; ' + LENGTH),
    told("a length of ten digits", "2611,DD,100,1000000000", "Number", 'real is "1000000000": it has more than 9 digits; ' + LENGTH),
    told("a length with a unit", "2611,DD,100s,100", "Number", 'planned is "100s": it isn\'t digits alone; ' + LENGTH),
    told("minutes and seconds", "2611,DD,5,501", "TooLong",
         "real is 501, more than 100 times planned, which is 5: are planned and real in one unit?"),
    past("a call in two places", ["2610,-,100,100", "2611,-,100,100", "2610,-,100,100"], "BadPast CallTwice 4",
         ['qc: past.csv, line 4, record 4: "2610" stands in line 2 already, and another call between: the records of a call stand '
          "together"]),
    past("a call of too many tasks", ["2611,-,100,100"] * 241, "BadPast CallFull 242",
         ['qc: past.csv, line 242, record 242: "2611" has 240 records ahead of this one: a call has at most 240 tasks']),
    past("too many past tasks", [f"{n // 240},-,100,100" for n in range(10001)], "BadPast TooMany 10002",
         ["qc: past.csv, line 10002, record 10002: only 10000 records are read: leave out the oldest calls"]),
    # ---- what chances are worth
    noted("one call", MANY[:1], ["1 call: a day on which all is slow isn't in these chances"]),
    noted("eight calls", MANY[:8], ["8 calls: chances are rough, one call makes some 125 of 1000 runs"]),
    noted("three calls and a hundred runs", MANY[:3], ["3 calls: chances are rough, one call makes some 33 of 100 runs"],
          ODDS + " --runs 100", "runs 100"),
    noted("nineteen calls", MANY[:19], ["19 calls: chances are rough, one call makes some 53 of 1000 runs"]),
    noted("twenty calls", MANY, []),
    noted("calls without a phase", MANY + [f"27{n},LD,100,100" for n in range(10, 14)],
          [f"call 27{n} has no task of phase DD: others of it stand in" for n in range(10, 13)]),
    noted("a phase that the ship hasn't either", MANY + ["2700,DD,100,100"], []),
    # ---- the words
    usage("no PAST", "odds ship.toml stow.csv plan.csv",
          ["qc: odds needs PAST too; the words are", "qc:     qc odds SHIP STOW PLAN PAST [--runs N] [--seed S] [--by T]"]),
    usage("no runs", ODDS + " --runs 0",
          ['qc: N behind --runs can\'t be "0": it is a whole number from 1 to 10000, in digits alone and without a leading 0']),
    usage("too many runs", ODDS + " --runs=10001",
          ['qc: N behind --runs can\'t be "10001": it is a whole number from 1 to 10000, in digits alone and without a leading 0']),
    usage("a great seed", ODDS + " --seed 2147483648",
          ['qc: S behind --seed can\'t be "2147483648": it is a whole number from 0 to 2147483647, in digits alone and without a '
           'leading 0']),
    usage("a tick of 13 digits", ODDS + " --by 1000000000000",
          ['qc: T behind --by can\'t be "1000000000000": it is a whole number from 0 to 999999999999, in digits alone and without a '
           'leading 0']),
    usage("a tick by a clock", ODDS + " --by 07:30",
          ['qc: T behind --by can\'t be "07:30": it is a whole number from 0 to 999999999999, in digits alone and without a '
           'leading 0']),
    usage("a tick twice", ODDS + " --by 1 --by 2", ["qc: --by stands twice"]),
    usage("no number of runs", ODDS + " --runs", ["qc: behind --runs its value is missing"]),
    usage("an option of odds misspelt", ODDS + " --run 5", ['qc: odds has no option "--run"; the nearest is --runs']),
    usage("an option of plan", ODDS + " --nodes 5",
          ['qc: odds has no option "--nodes"; it has --runs N, --seed S and --by T, and a file of that name is written ./--nodes']),
    usage("an option of odds for plan", "plan ship.toml stow.csv new.csv newtree.txt --runs 5",
          ['qc: plan has no option "--runs"; it has --nodes N and --from OWN, and a file of that name is written ./--runs']),
    usage("odds misspelt", "ods ship.toml stow.csv plan.csv past.csv", ['qc: "ods" is no command; the nearest is odds']),
]
