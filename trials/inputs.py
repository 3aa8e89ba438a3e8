"""Small inputs that several trials share, for `examples/first`: its plan half done, past tasks; and two bay plans.

`LISTED`, `LEFT` and `CHANCES` are the words of `moves`, `rest` and `odds` on files of one or two letters, and the inputs
that they need beside `s`, `m` and `p`, the ship, its list and its plan.
"""
ARRIVAL = (b"UNB+UNOA:2+A+B'UNH+1+BAPLIE:D:95B:UN:SMDG22'LOC+147+0020082::5'EQD+CN+P+4310'LOC+147+0020084::5'EQD+CN+Q+4310'"
           b"LOC+147+0060082::5'EQD+CN+R+4310'LOC+147+0060002::5'EQD+CN+S+4310'UNT+10+1'UNZ+1+1'\n")
DEPARTURE = (b"UNA:+.? '\nUNH+1+BAPLIE:D:13B:UN:SMDG31'\nLOC+147+0020082:9711:5'\nEQD+CN+N?'1:6346:5+45R1'\nLOC+147+0020084:9711:5'\n"
             b"EQD+CN+Q+42G1'\nLOC+147+0100082:9711:5'\nEQD+CN+R+42G1'\nLOC+147+0060002:9711:5'\nEQD+CN+S+42G1'\nUNT+10+1'\n")
PAST = b"call,phase,planned,real\n2601,DD,20,25\n2601,DH,100,90\n2602,-,15,15\nall,-,100,130\n"
HALF_DONE = b"tick 5\nleft 2-DD 18\ntick 2\n"

LISTED = ["moves", "a", "d", "v"]
LISTED_INPUTS = {"a": ARRIVAL, "d": DEPARTURE}
LEFT = ["rest", "s", "m", "p", "h", "x", "y", "z"]
LEFT_INPUTS = {"h": HALF_DONE}
CHANCES = ["odds", "s", "m", "p", "q", "--runs", "20"]
CHANCES_INPUTS = {"q": PAST}

# What a command writes, in the order in which it does.
OUTPUTS = {"plan": ("t", "p"), "free": ("t", "p"), "moves": ("v",), "rest": ("x", "y", "z")}
OLDER = {"t": b"an older tree\n", "p": b"an older plan\n", "v": b"an older list\n", "x": b"an older ship\n", "y": b"an older list\n",
         "z": b"an older order\n"}
