"""orderset log: the messages of a log."""
import json
import os
import re
import subprocess

from command_files import Image, so

MESSAGES = ["new 7 100", "a\tb\\c", "é", "x" * 384, "last"]
SHOWN = ["new 7 100", "a\\x09b\\x5cc", "\\xc3\\xa9", "x" * 384, "last"]


def messages(desk):
    path = desk.path("new.log")
    so(desk.run("create-log", path, "--cells", "5")[0] == 0, "a log is made")
    desk.asked("an empty log", "log", [path], 0, "", f"orderset log: {path}: no messages\n")
    desk.asked("an empty log", "log", [path, "--number", "1"], 1, "", re.compile("no 31: .*; the log is empty\n"))
    subprocess.run([desk.program("recorder"), path], input="".join(m + "\n" for m in MESSAGES).encode(), check=True,
                   stdout=subprocess.DEVNULL)
    shown = [f"{i + 1}: {text}\n" for i, text in enumerate(SHOWN)]
    desk.asked("a log", "log", [path], 0, "".join(shown[1:]))
    desk.asked("the last two", "log", [path, "--last", "2"], 0, "".join(shown[3:]))
    desk.asked("more than there are", "log", [path, "--last", "100"], 0, "".join(shown[1:]))
    desk.asked("one of them", "log", [path, "--number", "3"], 0, shown[2])
    desk.asked("its bytes", "log", [path, "--number", "3", "--raw"], 0, "é")
    desk.asked("all bytes", "log", ["--raw", path, "--last=2"], 0, MESSAGES[3] + MESSAGES[4])
    for number in "1", "6", "18446744073709551615":
        desk.asked(f"message {number}", "log", [path, "--number", number], 1, "", re.compile("no 31: .*; 2 to 5 can\n"))
    told = [json.loads(line) for line in desk.run("log", "--json", path)[1].splitlines()]
    so([bytes.fromhex(t["message"]).decode() for t in told] == MESSAGES[1:] and
       [t["number"] for t in told] == [2, 3, 4, 5] and told[2]["length"] == 384, "objects", told)


def others(desk):
    path = desk.file("a.img", Image(6))  # as long as a log of two cells
    desk.asked("a set", "log", [path], 2, "", re.compile("no 1018: .*; it is a set: orderset show shows it\n"))
    desk.asked("a set", "log", [desk.file("b.img", Image(8))], 2, "", re.compile("no 30: .*; it is a set"))
    desk.asked("zeros", "log", [desk.file("c.img", bytes(100))], 2, "", re.compile(": no 30: [^;]*\n"))
    desk.asked("two numbers", "log", [path, "--last", "1", "--number", "1"], 2, "", re.compile("and not both"))
    desk.asked("two forms", "log", [path, "--raw", "--json"], 2, "", re.compile("and not both"))
    for word in "--last=0", "--number=0", "--last=x":
        desk.asked(word, "log", [path, word], 2, "", re.compile("is followed by a number"))
    for name in "a.img", "b.img", "c.img":
        os.remove(desk.path(name))


TESTS = messages, others
