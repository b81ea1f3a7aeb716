"""orderset trace: the cuts of the trial's lines, as plug counts them, and of the gateway's commands."""
import json
import os
import random
import re
import subprocess
import xml.etree.ElementTree

from command_files import so

SVG = "{http://www.w3.org/2000/svg}"


def counts(out):
    """The counts alone, as plug prints them; a refused call has none."""
    return "".join(re.findall(r": (\d+ \d+\n)", out))


def as_plug(desk):
    """What plug prints of a trace with lines of none of the forms, and of random ones."""
    chance, texts = random.Random(1), ["n 2\np 7 100\np 8 5\np 7 101\nc 8 3\np 7 102\np 7 102\ng 7\nr 7\nr 7\nx\nn 3\np 0 0\np 0 0\n"]
    for _ in range(20):
        text = f"n {chance.randint(2, 9)}\n"
        for _ in range(30):
            key = chance.randint(0, 5)
            text += chance.choice([f"p {key} {chance.randint(0, 2)}\n", f"r {key}\n", f"g {key}\n"])
        texts.append(text)
    stored = 0
    for text in texts:
        due = subprocess.run([desk.plug], input=text, text=True, stdout=subprocess.PIPE, stderr=subprocess.DEVNULL,
                             check=True).stdout
        seen = desk.run("trace", desk.file("trial.trace", text.encode()))
        so(counts(seen[1]) == due and due, "trace counts as plug does", text, seen, due)
        bad = [line for line in text.splitlines() if not re.fullmatch(r"n \d+|p \d+ \d+|[rg] \d+", line)]
        so(seen[0] == (1 if bad else 0), "its status", bad, seen)
        stored += len(due.splitlines())
    so(stored > 100, "calls are tried", stored)


COMMANDS = """new 7 100
acknowledge 7
acknowledge 7
fill 7 40
new 7 5
new 8 0
basket 3 new 9 5 new 10 6 withdraw 7
list
show 9
withdraw 10
fill 9 5
"""
DUE = """line 1: new 7 100: 80 1
line 2: acknowledge 7: 80 1
line 4: fill 7 40: 80 1
line 5: new 7 5: no 17: the key of a new order is held, by an order or by another value
line 6: new 8 0: no 19: the quantity is zero, or more than is open
line 7: basket 3 new 9 5 new 10 6 withdraw 7, record 1 of 3: 80 1
line 7: basket 3 new 9 5 new 10 6 withdraw 7, record 2 of 3: 80 1
line 7: basket 3 new 9 5 new 10 6 withdraw 7, record 3 of 3: 80 1
line 10: withdraw 10: 80 1
line 11: fill 9 5: 80 1
"""


def commands(desk):
    path = desk.file("gateway.trace", COMMANDS.encode())
    desk.asked("commands", "trace", [path], 0, DUE)
    desk.asked("in layout 2", "trace", [path, "--layout", "2", "--slots", "50"], 0, DUE)
    desk.asked("from standard input", "trace", ["-"], 0, DUE, input=COMMANDS)
    told = [json.loads(line) for line in desk.run("trace", "--json", path)[1].splitlines()]
    so(told[0] == {"line": 1, "call": "new 7 100", "cuts": 81, "before": 80, "after": 1, "neither": 0, "refused": 0} and
       told[3] == {"line": 5, "call": "new 7 5", "no": 17} and len(told) == 10, "objects", told)
    small = "make 2\nnew 1 5\nnew 2 5\nmake 9 2\nnew 0x%032x 5\nmake 1\nmake 70000\n" % (5 << 64)
    seen = desk.run("trace", "-", input=small)
    so(seen[0] == 0 and "line 3: new 2 5: no 28: " in seen[1] and "line 5: new 0x" in seen[1] and
       seen[1].count(": no 1: ") == 2 and counts(seen[1]) == "80 1\n80 1\n", "sets of the trace", seen)
    for line in "sell 7", "new 7", "new  7 5", "new 7 5 ", "basket 0", "basket 9", "basket 2 new 1 1", "basket 1 list", \
            "c 8 3", "p 1", "":
        seen = desk.asked(f"the line {line!r}", "trace", ["-"], 1, "line 2: new 1 5: 80 1\n",
                          f"orderset trace: -: line 1 is no command: {line}\n", input=f"{line}\nnew 1 5\n")


def pictures(desk):
    path, out = desk.path("gateway.trace"), desk.path("cuts.svg")
    desk.asked("a picture too", "trace", [path, "--svg", out], 0, DUE)
    squares = [(r.get("class"), int(r.get("x")), int(r.get("y"))) for r in
               xml.etree.ElementTree.parse(out).getroot().iter(SVG + "rect")]
    so(len(squares) == 81 * 8 and len({s[1:] for s in squares}) == len(squares), "a square for each cut", len(squares))
    for i in range(8):
        of = squares[81 * i:81 * i + 81]
        so([s[0] for s in of] == ["before"] * 80 + ["after"], "each but the last leaves the orders from before", of)
        so(len({s[1] for s in of}) == len({s[2] for s in of}) == 9, "nine by nine")
    so(desk.run("trace", path, "--svg", "-")[1] == open(out).read(), "a picture alone on standard output")
    same = desk.run("trace", "-", "--svg", "-", input="n 3\np 1 1\np 1 1\n")[1]
    so(same.count('class="same"') == 81 and same.count('class="before"') == 80, "a call that changes nothing", same[:300])
    desk.asked("a picture over the trace", "trace", [path, "--svg", path], 2, "", re.compile("end in .svg"))
    desk.asked("a picture over a file", "trace", [path, "--svg", desk.file("text.svg", b"x")], 2, "",
               re.compile("no picture of this tool"))
    os.remove(out)


TESTS = as_plug, commands, pictures
