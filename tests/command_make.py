"""orderset create, create-log, copy, dump and load: new files, and texts."""
import json
import os
import re
import resource
import stat

from command_files import Image, order, picture_image, so

HARD = resource.getrlimit(resource.RLIMIT_FSIZE)[1]


def by_key(text):
    return sorted(text.splitlines(), key=lambda line: int(line.split(":")[0], 0))


def create(desk):
    path = desk.path("new.img")
    desk.asked("a set", "create", [path, "--slots", "1000"], 0,
               f"{path}: made, layout 1, 1000 slots, 128128 bytes, room for 999 open orders\n")
    so(open(path, "rb").read() == bytes(Image(1000).bytes), "it is an empty set")
    so(stat.S_IMODE(os.stat(path).st_mode) == 0o600, "of its owner", os.stat(path))
    desk.asked("a file that exists", "create", [path, "--slots", "9"], 2, "",
               f"orderset create: {path}: no 1012: there is a file of that name\n")
    two = desk.path("two.img")
    seen = desk.run("create", two, "--slots=9", "--layout=2", "--mode", "0640", "--json")
    so(seen[0] == 0 and json.loads(seen[1]) == {"file": two, "kind": "set", "slots": 9, "layout": 2, "bytes": 1280},
       "a set of layout 2", seen)
    so(open(two, "rb").read() == bytes(Image(9, 2).bytes), "it is an empty set of layout 2")
    so(stat.S_IMODE(os.stat(two).st_mode) == 0o640, "with its permissions", os.stat(two))
    log = desk.path("new.log")
    desk.asked("a log", "create-log", [log, "--cells", "9"], 0,
               f"{log}: made, a message log, 9 cells, 4032 bytes, keeps the last 8 messages\n")
    so(open(log, "rb").read() == bytes(4032), "it is an empty log")
    seen = desk.run("create-log", desk.path("two.log"), "--cells", "2", "--mode=640", "--json")
    so(json.loads(seen[1]) == {"file": desk.path("two.log"), "kind": "log", "cells": 2, "bytes": 896}, "another", seen)
    before = desk.names()
    for words, says in ([], "how many slots"), (["--slots", "1"], "from 2 to 65535: 1"), (["--slots", "65536"], "65535"), \
            (["--slots", "x"], "a number"), (["--slots", "9", "--layout", "3"], "from 1 to 2"), \
            (["--slots", "9", "--mode", "8"], "octal"), (["--slots", "9", "--mode", "1000"], "octal"), \
            (["--slots"], "needs what follows"), (["--slots", "9", "--cells", "9"], "no such option: --cells"):
        desk.asked(f"create {words}", "create", [desk.path("none.img"), *words], 2, "", re.compile(says))
    for words in [], ["--cells", "1"], ["--cells", "1001"]:
        desk.asked(f"create-log {words}", "create-log", [desk.path("none.log"), *words], 2, "", re.compile("cells"))
    desk.asked("no such folder", "create", ["/nowhere/a.img", "--slots", "9"], 2, "", re.compile("No such file"))
    so(desk.names() == before, "what is refused leaves no name", desk.names().keys() ^ before.keys())


def copy(desk):
    """The orders of the source, in order of version, whatever the slots and the layout."""
    source, to = desk.file("source.img", picture_image()), desk.path("copy.img")
    due = {1: "1002", 2: "1004", 3: "1001", 4: "1005", 5: "1006"}  # by version
    for words, slots, layout in ([], 20, 1), (["--slots", "2000"], 2000, 1), (["--slots", "6"], 6, 1), \
            (["--layout", "2"], 20, 2), (["--slots", "65535", "--layout=2", "--mode=644"], 65535, 2):
        seen = desk.run("copy", source, to, *words)
        so(seen == (0, f"{to}: made with 5 open orders, layout {layout}, {slots} slots\n", ""), f"copy {words}", seen)
        told = [json.loads(line) for line in desk.run("show", "--json", to)[1].splitlines()]
        so({o["version"]: str(int(o["key"], 0)) for o in told} == due, "in order of version", told)
        source_told = [json.loads(line) for line in desk.run("show", "--json", source)[1].splitlines()]
        so({int(o["key"], 0): o["value"] for o in told} == {int(o["key"]): o["value"] for o in source_told},
           f"copy {words} has the same orders", told)
        so(json.loads(desk.run("check", "--json", to)[1])["slots"] == slots, "and so many slots")
        back = desk.path("back.img")
        seen = desk.run("copy", to, back, "--layout", "1", "--slots", "20")
        so(seen[0] == 0 and by_key(desk.run("show", back)[1]) == by_key(desk.run("show", source)[1]),
           f"copy {words}, and back again", seen)
        os.remove(to)
        os.remove(back)
    so(open(source, "rb").read() == picture_image().bytes, "the source stays as it was")


def misfits(desk):
    source, to = desk.path("source.img"), desk.path("misfit.img")
    before = desk.names()
    desk.asked("too few slots", "copy", [source, to, "--slots", "4"], 2, "",
               re.compile("not made: 2 of 5 open orders do not fit; the first has key 1005: no 28: "))
    long = Image(9)
    for slot, length in (1, 72), (2, 73), (3, 80):
        long.write(slot, slot, 100 + slot, b"x" * length)
    path = desk.file("long.img", long)
    desk.asked("values of 73 bytes and more", "copy", [path, to, "--layout", "2"], 2, "",
               re.compile("not made: 2 of 3 open orders do not fit; the first has key 102: no 10: "))
    wide = Image(9, 2)
    for slot, high in (1, 0), (2, 5), (3, 0):
        wide.write(slot, slot, (high << 64) + slot, b"x")
    path2 = desk.file("wide.img", wide)
    desk.asked("keys over 64 bits", "copy", [path2, to, "--layout", "1"], 2, "",
               re.compile(f"not made: 1 of 3 open orders do not fit; the first has key 0x{5:016x}{2:016x}: no 1015: "))
    desk.asked("a file that exists", "copy", [source, path], 2, "", re.compile("no 1012: "))
    desk.asked("itself", "copy", [source, source], 2, "", re.compile("no 1012: "))
    for content in picture_image().bytes[:-128], b"":
        bad = desk.file("bad.img", content)
        desk.asked("a refused source", "copy", [bad, to], 2, "", re.compile("refused, no "))
    for name in "long.img", "wide.img", "bad.img":
        os.remove(desk.path(name))
    so(desk.names() == before, "nothing is made", desk.names().keys() ^ before.keys())


def no_room(desk):
    """A disk that is full, a limit of a file's size, a disk that gives back other bytes: no name is left."""
    source, to = desk.path("source.img"), desk.path("none.img")
    before = desk.names()
    for words in ["create", to, "--slots", "9"], ["copy", source, to], ["load", to], ["create-log", to, "--cells", "9"]:
        text = {"input": "# layout 1, 9 slots\n7: 1 byte 41\n"} if words[0] == "load" else {}
        desk.asked("a full disk", *words[:1], words[1:], 2, "", f"orderset {words[0]}: {to}: No space left on device\n",
                   env=desk.preloaded(PRELOAD_FULL="1"), **text)
        desk.asked("a limit of a file's size", *words[:1], words[1:], 2, "", re.compile(": File too large\n"),
                   preexec_fn=lambda: resource.setrlimit(resource.RLIMIT_FSIZE, (500, HARD)), **text)
        if words[0] in ("copy", "load"):
            desk.asked("a disk that gives other bytes", *words[:1], words[1:], 2, "", re.compile(": Input/output error\n"),
                       env=desk.preloaded(PRELOAD_OTHER_BYTES="1"), **text)
        so(desk.names() == before, f"{words[0]} leaves no name", desk.names().keys() ^ before.keys())


DUMP = """# layout 1, 20 slots
1001: acknowledged, ordered 100, filled 0
1002: acknowledged, ordered 200, filled 50
1004: 15 bytes 62792068616e643a2073656c6c2035
1005: sent, ordered 10, filled 0
1006: sent, ordered 20, filled 0
"""


def dump_and_load(desk):
    source, to = desk.path("source.img"), desk.path("loaded.img")
    desk.asked("a set", "dump", [source], 0, DUMP)
    objects = [json.loads(line) for line in desk.run("dump", "--json", source)[1].splitlines()]
    so([o["key"] for o in objects] == ["1001", "1002", "1004", "1005", "1006"], "a dump as objects", objects)
    desk.asked("a dump", "load", [to], 0, f"{to}: made with 5 open orders, layout 1, 20 slots\n", input=DUMP)
    desk.asked("what was loaded", "dump", [to], 0, DUMP)
    os.remove(to)
    wide = Image(9, 2)
    wide.write(1, 1, (7 << 64) + 1, bytes(range(72)))
    wide.write(2, 2, 1, b"")
    wide.write(3, 3, 3 << 64, order(1, 5))
    wide.write(4, 4, 2, order(1, 5, 5))
    wide.write(5, 5, (1 << 128) - 1, b"A")
    text = desk.run("dump", desk.file("wide.img", wide))[1]
    so(text.count("\n") == 6 and text.startswith("# layout 2, 9 slots\n0x") and
       by_key(text.partition("\n")[2]) == text.splitlines()[1:], "a dump of layout 2 is by key", text)
    so("0x" + "f" * 32 + ": 1 byte 41\n" in text and f"0x{1:032x}: 0 bytes\n" in text, "values of 0 and 1 bytes", text)
    seen = desk.run("load", to, "--slots", "12", input=text)
    so(seen[0] == 0 and desk.run("dump", to)[1] == text.replace("9 slots", "12 slots"), "and it is loaded", seen)
    os.remove(to)
    desk.asked("an empty dump", "load", [to], 0, re.compile("made with 0 open orders"), input="# layout 1, 2 slots\n")
    os.remove(to)
    largest = "# layout 1, 65535 slots\n" + "".join(f"{key}: sent, ordered {key + 1}, filled {key}\n" for key in range(65534))
    seen = desk.run("load", to, input=largest)
    so(seen[0] == 0 and desk.run("dump", to)[1] == largest, "the largest", seen)
    os.remove(to)


def bad_lines(desk):
    to, before = desk.path("loaded.img"), desk.names()
    good = "# layout 1, 20 slots\n1: sent, ordered 5, filled 0\n"
    for line in "", "2", "2:", "2: ", "2: sent", "2 : 1 byte 41", "2: 1 byte 4", "2: 1 byte 411", "2: 2 bytes 41", \
            "2: 1 bytes 41", "2: 1 byte 4G", "2: 1 byte 4A ", " 2: 1 byte 41", "x: 1 byte 41", "0x2: 1 byte 41", \
            "18446744073709551616: 1 byte 41", "-1: 1 byte 41", "2: sent, ordered 5, filled 5", "2: 1 byte 4A", \
            "2: lost, ordered 5, filled 0", "2: sent, ordered 5, filled 0 ", "2: sent, ordered 05, filled 0", \
            "2: 81 bytes " + "41" * 81, "2: 1 byte 41\0":
        desk.asked(f"the line {line!r}", "load", [to], 2, "", re.compile("not made: line 3 is no order"),
                   input=good + line + "\n3: 1 byte 41\n")
    desk.asked("an input that ends inside a line", "load", [to], 2, "", re.compile("line 3 is no order: the input ended"),
               input=good + "2: 1 byte 41")
    for text, says in (good + "2: 1 byte 41\n1: 1 byte 41\n", "1 of 3 orders do not fit; the first is on line 4: no 20: "), \
            (good + "0x" + "1" * 32 + ": 1 byte 41\n", "1 of 2 orders do not fit; the first is on line 3: no 1015: "), \
            ("# layout 2, 9 slots\n1: 73 bytes " + "41" * 73 + "\n", "the first is on line 2: no 10: "), \
            ("# layout 1, 2 slots\n1: 0 bytes\n2: 0 bytes\n3: 0 bytes\n", "2 of 3 orders do not fit; the first is on line 3: no 28: "), \
            ("1: 0 bytes\n", "how many slots"), ("# layout 1, 65536 slots\n", "no 1: "), ("# layout 3, 9 slots\n", "no 32: "):
        desk.asked(f"the text {text[:60]!r}", "load", [to], 2, "", re.compile(says), input=text)
    desk.asked("a file that exists", "load", [desk.path("source.img")], 2, "", re.compile("no 1012: "), input=good)
    so(desk.names() == before, "nothing is made", desk.names().keys() ^ before.keys())


TESTS = create, copy, misfits, no_room, dump_and_load, bad_lines
