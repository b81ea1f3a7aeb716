"""orderset check: a line for each file, what is wrong and what to do, and the worst status."""
import json
import os
import re
import shutil

from command_files import Image, log_area, order, picture_image, so

LINE = "accepted, layout 1, 20 slots, 5 open orders, 15 spare, next version 9 " \
    "(5 live, 2 hidden, 1 removed, 2 void, 1 broken, 9 empty)"


# ---- what recovery refuses

def refused_images():
    """Each refusal that bytes can have: its number, the slot that recovery names, what check must say, the bytes."""
    def damaged(*words):
        image = picture_image()
        image.set_words(*words)
        return image

    yield 1, 0, "it has 2687 bytes; a set has 384 to 8388608, a multiple of 128", picture_image().bytes[:-1]
    yield 1, 0, "it has 256 bytes", picture_image().bytes[:256]
    yield 1, 0, "it has 0 bytes", b""
    yield 2, 0, "its length is that of 20 slots; its header says 0 slots and layout 0", bytes(2688)
    yield 3, 0, "its length is that of 19 slots; its header says 20 slots and layout 1", picture_image().bytes[:-128]
    yield 3, 0, "its header says 20 slots and layout 3", damaged(1, 3)
    yield 3, 0, "line A of the header", damaged(7, 1)
    yield 5, 0, "\n  slot 9: broken", damaged(16 * 9 + 8, 2)
    yield 6, 7, "\n  slot 7: unknown", damaged(16 * 7 + 2, 1 + 256 * 24 + (1 << 16))
    yield 6, 2, "0000000001001801", damaged(16 * 2 + 2, 1 + 256 * 24 + (1 << 24))
    yield 22, 2, "line A, whole, version 2:\n        0000000000000001 00000000000003ea 0000000000001803", \
        damaged(16 * 2 + 2, 3 + 256 * 24)
    yield 23, 4, "\n  slot 4: unknown", damaged(16 * 4 + 2, 1 + 256 * 81)
    yield 23, 6, "\n  slot 6: unknown", damaged(16 * 6 + 2, 2 + 256)
    yield 24, 2, "line B, whole, version 2:\n        0000000000000001 0000000000000000 0000000000000000 " \
        "0000000000000000\n        0000000000000000 0000000000000000 0000000000000009", damaged(16 * 2 + 14, 9)
    image = picture_image()
    image.write(12, 5, 1012, b"x")
    yield 7, 0, "2 slots share version 5:\n  slot 5: unknown, key 1001, version 5", image
    image = picture_image()
    image.write(12, 7, 1005, b"x", records=2)
    yield 7, 0, "3 slots share version 7:\n  slot 7: ", image
    image = picture_image()
    for slot in range(12, 18):
        image.write(slot, 1, slot)
        image.tear(slot)
    yield 25, 0, "7 slots are broken and 2 are void\n  slot 10: void, of version 8\n  slot 11: void", image
    image = Image(9)
    for slot in range(1, 10):
        image.write(slot, slot, slot, b"x")
    yield 8, 0, "all 9 slots are live", image


def accepted(desk):
    path = desk.file("good.img", picture_image())
    out = desk.asked("a good file", "check", [path], 0, re.compile(f"^{re.escape(path)}: {re.escape(LINE)}\n"))[1]
    for line in ["  2 void (slots 10, 11):\n  of a basket that a power cut or a kill struck;",
                 "  1 broken (slot 9):\n  a power cut or a kill struck the call that wrote there;"]:
        so(line in out, f"check of a good file says: {line}", out)
    empty = desk.file("new.img", Image(8))
    seen = desk.run("check", empty)
    so(seen[0] == 0 and len(seen[1].splitlines()) == 1, "of a file without a finding there is one line", seen)
    image = Image(3, 2)
    image.write(1, 1, (1 << 64) + 7, order(1, 5))
    image.write(2, 2, 7, bytes(range(72)))
    desk.asked("layout 2", "check", [desk.file("two.img", image)], 0,
               re.compile(r": accepted, layout 2, 3 slots, 2 open orders, 1 spare, next version 3 \(2 live, 1 empty\)\n"))
    image.set_words(16 * 2 + 3, 1 + 256 * 73)
    desk.asked("layout 2, damaged", "check", [desk.file("two.img", image)], 1, re.compile("refused, no 23 of slot 2: "))


def refused(desk):
    for number, slot, says, content in refused_images():
        path = desk.file(f"no{number}.img", content)
        named = f"refused, no {number}" + (f" of slot {slot}" if slot else "")
        what = f"a file with no {number}"
        out = desk.asked(what, "check", [path], 1, re.compile(f"no{number}.img: {named}: "))[1]
        so(says in out, f"check of {what} says: {says}", out)
        so(out.count("share version") == (number == 7), "only records in conflict are said to share a version", out)
        so("What to do:" in out, f"check of {what} says what to do", out)


def heads(desk):
    path = desk.path("good.img")
    seen = desk.run("check", path, "--heads")
    so(seen[0] == 0 and seen[1].endswith("  19 heads\n  1 compared: 5 held keys\n  average 1.00, longest 1\n"),
       "the heads of a file", seen)
    table = "  1 heads\n" + "".join(f"  {i} compared: 1 held keys\n" for i in range(1, 6)) + "  average 3.00, longest 5\n"
    for words in ["--heads=1", path], ["--heads", "1", path], [path, "--heads", "1"]:
        seen = desk.run("check", *words)
        so(seen[0] == 0 and seen[1].endswith(table), f"one head by {words[:2]}", seen)
    for word in "--heads=0", "--heads=65537", "--heads=x", "--heads=", "--heads=7x":
        desk.asked("a number of heads", "check", [word, path], 2, "", re.compile("from 1 to 65536"))


def several(desk):
    """Each file has its line, in the order of the words or of the names, and the worst status counts."""
    good, bad, log = desk.path("good.img"), desk.file("bad.img", picture_image().bytes[:-128]), \
        desk.file("messages.log", log_area())
    seen = desk.run("check", good, "/nowhere/none.img", bad, log)
    lines = [line for line in seen[1].splitlines() if re.match("/[^ ]*: (accepted|refused)", line)]
    so([line.split(":")[0] for line in lines] == [good, bad, log], "a line for each file", seen)
    so(seen[0] == 2 and seen[2] == "orderset check: /nowhere/none.img: No such file or directory\n", "the worst status", seen)
    so(lines[2] == f"{log}: accepted, a message log, 2 cells, 896 bytes, messages 1 to 1", "a log is accepted", lines)
    so(desk.run("check", good, bad)[0] == 1 and desk.run("check", good, log)[0] == 0, "1 and 0")
    empty = desk.file("empty.log", bytes(448 * 3))
    desk.asked("an empty log", "check", [empty], 0, f"{empty}: accepted, a message log, 3 cells, 1344 bytes, empty\n")
    zeros = desk.file("zeros.img", bytes(896))
    seen = desk.asked("zeros with the length of a set", "check", [zeros], 1, re.compile("refused, no 2: "))
    so("it can be read as a message log of 2 cells, which is empty" in seen[1], "zeros may be a log", seen)
    folder = desk.path("sets")
    os.mkdir(folder)
    for name, of in ("b.img", good), ("a.log", log), (".hidden", bad):
        shutil.copy(of, os.path.join(folder, name))
    os.mkfifo(os.path.join(folder, "fifo"))
    os.mkdir(os.path.join(folder, "inner"))
    seen = desk.run("check", folder)
    lines = [line.split(":")[0] for line in seen[1].splitlines() if ": accepted" in line]
    so(seen[0] == 0 and lines == [f"{folder}/a.log", f"{folder}/b.img"] and seen[2] == "", "a directory", seen)
    shutil.copy(bad, os.path.join(folder, "c.img"))
    so(desk.run("check", folder + "/")[0] == 1, "a directory with a bad file has status 1")
    shutil.rmtree(folder)


def objects(desk):
    good, bad, log = desk.path("good.img"), desk.path("bad.img"), desk.path("messages.log")
    name = desk.file('a"b\\c\u00fc\n.img', picture_image())
    seen = desk.run("check", "--json", "--heads", good, bad, log, "/nowhere/none", name)
    told = [json.loads(line) for line in seen[1].splitlines()]
    so(seen[0] == 2 and [t["file"] for t in told] == [good, bad, log, "/nowhere/none", name], "an object for each", seen)
    so(told[0] == {"file": good, "kind": "set", "accepted": True, "refusal": 0, "fault_slot": 0, "layout": 1, "slots": 20,
                   "bytes": 2688, "spare": 15, "next_version": 9, "live": 5, "hidden": 2, "removed": 1, "void": 2,
                   "broken": 1, "empty": 9, "unknown": 0, "heads": 19, "compared": [5], "average": 1.0, "longest": 1},
       "an accepted set", told[0])
    so(told[1]["accepted"] is False and told[1]["refusal"] == 3 and told[1]["bytes"] == 2560, "a refused one", told[1])
    so(told[2] == {"file": log, "kind": "log", "accepted": True, "cells": 2, "bytes": 896, "first": 1, "last": 1},
       "a log", told[2])
    so(told[3] == {"file": "/nowhere/none", "kind": None, "accepted": None}, "one that cannot be read", told[3])
    os.remove(name)


TESTS = accepted, refused, heads, several, objects
