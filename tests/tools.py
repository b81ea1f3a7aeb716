#!/usr/bin/env python3
"""tests/tools.py FOLDER runs orderset-show and orderset-check of that folder on good, wrong and damaged files, and
compares what they print and their status with what the files, made here byte by byte, must give. It ends with status 1
at the first thing that is not so.

tests/tools.py --picture FILE writes the file of which docs/picture.svg is the picture."""
import fcntl
import os
import re
import resource
import struct
import subprocess
import sys
import tempfile
import time
import xml.etree.ElementTree

CLASSES = "live hidden removed void broken empty unknown".split()
SVG = "{http://www.w3.org/2000/svg}"
HARD = resource.getrlimit(resource.RLIMIT_FSIZE)[1]
# what a tool tells when the machine has so much to do that a step takes a second
PROGRESS = re.compile(r"^[a-z-]+: (reading and recovering the file|counting the slots|slots [a-z ]+, \d+ of \d+)\n",
                      re.M)


# ---- files, from document 01's sentences

class Image:
    """An image of N slots, formatted."""

    def __init__(self, slots, layout=1):
        self.slots, self.layout, self.bytes = slots, layout, bytearray(128 * (slots + 1))
        self.set_words(0, slots, layout)

    def set_words(self, word, *values):
        struct.pack_into(f"<{len(values)}Q", self.bytes, 8 * word, *values)

    def word(self, word):
        return struct.unpack_from("<Q", self.bytes, 8 * word)[0]

    def write(self, slot, version, key, value=b"", kind=1, records=0):
        """Both lines whole, with close bit 1."""
        one = self.layout == 1
        head = [key & (1 << 64) - 1] + ([] if one else [key >> 64])
        head.append(kind + 256 * len(value) + 65536 * records)
        words = list(struct.unpack("<10Q", value.ljust(80, b"\0")))
        in_a = 6 - len(head)
        stamp = 2 * version + 1
        self.set_words(16 * slot, 1, *head, *words[:in_a], stamp)
        self.set_words(16 * slot + 8, 1, *words[in_a:in_a + 6], stamp)

    def tear(self, slot):
        """A cut before the last store of line B."""
        self.set_words(16 * slot + 8, 1 - self.word(16 * slot + 8))


def order(state, ordered, filled=0):
    return struct.pack("<3Q", state, ordered, filled)


def picture_image():
    """Slots of every class: a basket of three was struck, of which slot 9 is broken and slots 10 and 11 are void."""
    image = Image(20)
    image.write(1, 1, 1001, order(1, 100))
    image.write(2, 2, 1002, order(2, 200, 50))
    image.write(3, 3, 1003, order(1, 30))
    image.write(4, 4, 1004, b"by hand: sell 5")
    image.write(5, 5, 1001, order(2, 100))
    image.write(6, 6, 1003, kind=2)
    image.write(7, 7, 1005, order(1, 10), records=2)
    image.write(8, 7, 1006, order(1, 20), records=2)
    for slot in 9, 10, 11:
        image.write(slot, 8, 1000 + slot, order(1, slot), records=3)
    image.tear(9)
    return image


ORDERS = """1002: acknowledged, ordered 200, filled 50
1004: 15 bytes 62792068616e643a2073656c6c2035
1001: acknowledged, ordered 100, filled 0
1005: sent, ordered 10, filled 0
1006: sent, ordered 20, filled 0
"""

SLOTS = """slot 1: hidden, key 1001, version 1: sent, ordered 100, filled 0
slot 2: live, key 1002, version 2: acknowledged, ordered 200, filled 50
slot 3: hidden, key 1003, version 3: sent, ordered 30, filled 0
slot 4: live, key 1004, version 4: 15 bytes 62792068616e643a2073656c6c2035
slot 5: live, key 1001, version 5: acknowledged, ordered 100, filled 0
slot 6: removed, key 1003, version 6
slot 7: live, key 1005, version 7, one of 2 of a basket: sent, ordered 10, filled 0
slot 8: live, key 1006, version 7, one of 2 of a basket: sent, ordered 20, filled 0
slot 9: broken; in its words: key 1009, version 8, one of 3 of a basket: sent, ordered 9, filled 0
slot 10: void, key 1010, version 8, one of 3 of a basket: sent, ordered 10, filled 0
slot 11: void, key 1011, version 8, one of 3 of a basket: sent, ordered 11, filled 0
""" + "".join(f"slot {slot}: empty\n" for slot in range(12, 21))

# ---- running and comparing

count = 0


def so(right, what, *seen):
    global count
    count += 1
    if not right:
        print(f"NOT SO: {what}", *(repr(s)[:2000] for s in seen), sep="\n  ")
        sys.exit(1)


class Desk:
    def __init__(self, tools, folder):
        self.tools, self.folder = os.path.abspath(tools), folder

    def file(self, name, content):
        path = os.path.join(self.folder, name)
        with open(path, "wb") as f:
            f.write(content.bytes if isinstance(content, Image) else content)
        return path

    def run(self, tool, *arguments, **options):
        out = {"stdout": subprocess.PIPE, "stderr": subprocess.PIPE, **options}
        done = subprocess.run([os.path.join(self.tools, tool), *arguments], text=True, **out)
        return done.returncode, done.stdout, PROGRESS.sub("", done.stderr)

    def asked(self, what, tool, arguments, status, out="", error=""):
        """The status, all of standard output, and all of standard error; a pattern is searched for."""
        seen = self.run(tool, *arguments)
        for name, due, found in ("status", status, seen[0]), ("output", out, seen[1]), ("error", error, seen[2]):
            right = due.search(found) if isinstance(due, re.Pattern) else due == found
            so(right, f"{what}: the {name} of {tool} is {due!r}", found, seen)
        return seen


def accepted(desk):
    image = picture_image()
    path = desk.file("orders.img", image)
    os.chmod(path, 0o444)
    before = os.stat(path)
    desk.asked("a good file", "orderset-show", [path], 0, ORDERS)
    desk.asked("a good file", "orderset-show", ["--", path], 0, ORDERS)
    desk.asked("a good file", "orderset-show", [path, "--slots"], 0, SLOTS)
    desk.asked("a good file", "orderset-show", [path, "--count"], 0,
               "5 live, 2 hidden, 1 removed, 2 void, 1 broken, 9 empty\n")
    desk.asked("a good file", "orderset-show", [path, "--heads"], 0,
               "19 heads\n1 compared: 5 held keys\naverage 1.00, longest 1\n")
    desk.asked("a good file", "orderset-show", ["--heads=1", path], 0, "1 heads\n" +
               "".join(f"{i} compared: 1 held keys\n" for i in range(1, 6)) + "average 3.00, longest 5\n")
    out = desk.asked("a good file", "orderset-check", [path], 0, re.compile("^[^\n]*orders.img: accepted\n"))[1]
    for line in ["layout 1, 20 slots, 2688 bytes; 5 open orders, 15 spare slots; next version 9",
                 "slots: 5 live, 2 hidden, 1 removed, 2 void, 1 broken, 9 empty",
                 "2 void (slots 10, 11):\n  of a basket that a power cut or a kill struck;",
                 "1 broken (slot 9):\n  a power cut or a kill struck the call that wrote there;"]:
        so(line in out, f"check of a good file says: {line}", out)
    after = os.stat(path)
    so(open(path, "rb").read() == image.bytes and before.st_mtime_ns == after.st_mtime_ns, "the file stays as it was")
    empty = desk.file("empty.img", Image(8))
    desk.asked("an empty set", "orderset-show", [empty], 0, "", re.compile("no open orders"))
    so("void (" not in desk.run("orderset-check", empty)[1], "there is nothing to say of void slots where none is")


def second_layout(desk):
    image = Image(3, 2)
    image.write(1, 1, (1 << 64) + 7, order(1, 5))
    image.write(2, 2, 7, bytes(range(72)))
    path = desk.file("two.img", image)
    desk.asked("layout 2", "orderset-show", [path], 0, f"0x{1:016x}{7:016x}: sent, ordered 5, filled 0\n"
               f"0x{0:016x}{7:016x}: 72 bytes {bytes(range(72)).hex()}\n")
    desk.asked("layout 2", "orderset-check", [path], 0, re.compile("\nlayout 2, 3 slots, 512 bytes; 2 open orders"))
    image.set_words(16 * 2 + 3, 1 + 256 * 73)
    path = desk.file("two-damaged.img", image)
    desk.asked("layout 2, damaged", "orderset-check", [path], 1, re.compile("refused, no 23 of slot 2\n"))


# ---- what recovery refuses

def refused_images():
    """Each refusal that bytes can have: its number, the slot that recovery names, what check must say, the bytes."""
    def damaged(*words):
        image = picture_image()
        image.set_words(*words)
        return image

    yield 1, 0, "it has 2687 bytes; a set has 384 to 8388608, a multiple of 128", picture_image().bytes[:-1]
    yield 1, 0, "it has 256 bytes", picture_image().bytes[:256]
    yield 1, 0, "it has 0 bytes", b""
    yield 2, 0, "its length is that of 20 slots; its header says 0 slots and layout 0", bytes(2688)
    yield 3, 0, "its length is that of 19 slots; its header says 20 slots and layout 1", picture_image().bytes[:-128]
    yield 3, 0, "its header says 20 slots and layout 3", damaged(1, 3)
    yield 3, 0, "line A of the header", damaged(7, 1)
    yield 5, 0, "\n  slot 9: broken", damaged(16 * 9 + 8, 2)
    yield 6, 7, "\n  slot 7: unknown", damaged(16 * 7 + 2, 1 + 256 * 24 + (1 << 16))
    yield 6, 2, "0000000001001801", damaged(16 * 2 + 2, 1 + 256 * 24 + (1 << 24))
    yield 22, 2, "line A, whole, version 2:\n        0000000000000001 00000000000003ea 0000000000001803", \
        damaged(16 * 2 + 2, 3 + 256 * 24)
    yield 23, 4, "\n  slot 4: unknown", damaged(16 * 4 + 2, 1 + 256 * 81)
    yield 23, 6, "\n  slot 6: unknown", damaged(16 * 6 + 2, 2 + 256)
    yield 24, 2, "line B, whole, version 2:\n        0000000000000001 0000000000000000 0000000000000000 " \
        "0000000000000000\n        0000000000000000 0000000000000000 0000000000000009", damaged(16 * 2 + 14, 9)
    image = picture_image()
    image.write(12, 5, 1012, b"x")
    yield 7, 0, "2 slots share version 5:\n  slot 5: unknown, key 1001, version 5", image
    image = picture_image()
    image.write(12, 7, 1005, b"x", records=2)
    yield 7, 0, "3 slots share version 7:\n  slot 7: ", image
    image = picture_image()
    for slot in range(12, 18):
        image.write(slot, 1, slot)
        image.tear(slot)
    yield 25, 0, "7 slots are broken and 2 are void\n  slot 10: void, of version 8\n  slot 11: void", image
    image = Image(9)
    for slot in range(1, 10):
        image.write(slot, slot, slot, b"x")
    yield 8, 0, "all 9 slots are live", image


def refused(desk):
    met = set()
    for number, slot, says, content in refused_images():
        met.add(number)
        path = desk.file(f"no{number}.img", content)
        named = f"refused, no {number}" + (f" of slot {slot}" if slot else "")
        what = f"a file with no {number}"
        out = desk.asked(what, "orderset-check", [path], 1, re.compile(f"no{number}.img: {named}\n"))[1]
        so(says in out, f"check of {what} says: {says}", out)
        so(out.count("share version") == (number == 7), "only records in conflict are said to share a version", out)
        so("What to do:" in out, f"check of {what} says what to do", out)
        desk.asked(what, "orderset-show", [path], 1, "", re.compile(f"{named}: "))
        slots = desk.run("orderset-show", "--slots", path)
        so(slots[0] == 1, "the slots of a refused file are shown, with status 1", slots)
        length = len(content.bytes if isinstance(content, Image) else content)
        so(len(slots[1].splitlines()) == (length // 128 - 1 if number != 1 else 0), "each slot is shown", slots)
        if slot:
            so(f"\nslot {slot}: unknown" in slots[1] and f"; no {number}: " in slots[1], "a slot says its fault", slots)
        picture_of(desk, path, 1)
    so(met == {1, 2, 3, 5, 6, 7, 8, 22, 23, 24, 25}, "each refusal that bytes can have is met", met)


def logs(desk):
    area = bytearray(896)
    struct.pack_into("<9Q", area, 448, 1, 1, 0x203, 0, 0, 0, 0, 3, 0x78)  # message 1 is "x"
    path = desk.file("messages.log", area)
    says = re.compile("it can be read as a message log of 2 cells, with messages 1 to 1; this tool is for sets\n")
    desk.asked("a log", "orderset-show", [path], 1, "", says)
    desk.asked("a log", "orderset-check", [path], 1, says)


# ---- pictures

def picture_of(desk, path, status):
    out = path + ".svg"
    seen = desk.run("orderset-show", "--svg", out, path)
    so(seen[0] == status and seen[1] == "", "a picture is made", seen)
    return xml.etree.ElementTree.parse(out).getroot()


def squares_of(root):
    return [(r.get("class"), *(int(r.get(a)) for a in ("x", "y", "width", "height"))) for r in root.iter(SVG + "rect")]


def looked_at(root, slots, counts, line):
    squares, texts = squares_of(root), [t.text for t in root.iter(SVG + "text")]
    so(len(squares) == slots, f"a picture has {slots} squares", len(squares))
    wide, high = int(root.get("width")), int(root.get("height"))
    places = {(x, y) for _, x, y, _, _ in squares}
    pitch = min((b[1] - a[1] for a, b in zip(squares, squares[1:])), key=abs, default=100)
    so(len(places) == slots and all(w == h and 3 <= w <= pitch for _, _, _, w, h in squares), "squares are apart")
    so(all(0 <= x and x + w <= wide and 0 <= y and y + w <= high for _, x, y, w, _ in squares), "squares are inside")
    so(places == set() or [(x, y) for _, x, y, _, _ in squares] == sorted(places, key=lambda p: (p[1], p[0])),
       "squares go by slot")
    for i, name in enumerate(CLASSES[:len(counts)]):
        so(sum(s[0] == name for s in squares) == counts[i], f"{counts[i]} squares are {name}")
        so(name not in texts or texts[texts.index(name) + 1] == str(counts[i]), f"the legend says {counts[i]} {name}")
        so(name in texts or name == "unknown" and counts[i] == 0, f"the legend has {name}", texts)
    so(line in texts, f"the numbers are {line!r}", texts[:4])


def pictures(desk):
    path = os.path.join(desk.folder, "orders.img")
    root = picture_of(desk, path, 0)
    looked_at(root, 20, [5, 2, 1, 2, 1, 9, 0],
              "layout 1   N 20   2688 bytes   live 5   spare 15   next version 9")
    so([s[0] for s in squares_of(root)] == [line.split()[2].strip(",;") for line in SLOTS.splitlines()],
       "each square has the class of its slot")
    titles = [r.find(SVG + "title").text for r in root.iter(SVG + "rect")]
    so("\n".join(titles) + "\n" == SLOTS, "a square has its slot's line as title", titles)
    drawn = open(path + ".svg").read()
    so(drawn == open("docs/picture.svg").read(), "docs/picture.svg is the picture of this file")
    so(desk.run("orderset-show", "--svg", "-", path) == (0, drawn, ""), "a picture goes to standard output")
    for slots in 2, 8, 101, 401, 2501, 10001, 65535:
        image = Image(slots)
        for slot in range(1, slots, 3):
            image.write(slot, slot, slot, b"x")
        live = len(range(1, slots, 3))
        root = picture_of(desk, desk.file("large.img", image), 0)
        looked_at(root, slots, [live, 0, 0, 0, 0, slots - live, 0],
                  f"layout 1   N {slots}   {128 * (slots + 1)} bytes   live {live}   spare {slots - live}   "
                  f"next version {max(range(1, slots, 3)) + 1}")
    image = picture_image()
    image.set_words(16 * 2 + 2, 3 + 256 * 24)
    root = picture_of(desk, desk.file("a<&>\xfc.img", image), 1)
    looked_at(root, 20, [0, 0, 0, 0, 1, 9, 10], "layout 1   N 20   2688 bytes")
    so([t.text for t in root.iter(SVG + "text")][0] == "a<&>??.img", "the name of the file is text")
    so(len([r for r in root.iter(SVG + "rect") if r.get("stroke")]) == 1, "the slot at fault is marked")


def picture_names(desk):
    path = os.path.join(desk.folder, "orders.img")
    link = os.path.join(desk.folder, "link.svg")
    os.link(path, link)
    whole = open(path, "rb").read()
    desk.asked("a picture over the set", "orderset-show", ["--svg", link, path], 2, "", re.compile("take the place"))
    desk.asked("a picture of any name", "orderset-show", ["--svg", path, path], 2, "", re.compile("end in .svg"))
    desk.asked("no such folder", "orderset-show", ["--svg", "/nowhere/a.svg", path], 2, "", re.compile("No such file"))
    so(open(path, "rb").read() == whole, "no picture takes the place of a set")
    os.remove(link)


def in_folder(desk):
    """Each name of the folder with what it is and holds."""
    def told(name):
        path = os.path.join(desk.folder, name)
        return os.readlink(path) if os.path.islink(path) else open(path, "rb").read() if os.path.isfile(path) else ""
    return {name: told(name) for name in os.listdir(desk.folder)}


def picture_places(desk):
    """A picture is never written through a link, nor over anything but a picture of the tool."""
    path, out = os.path.join(desk.folder, "orders.img"), os.path.join(desk.folder, "out.svg")
    other = desk.file("other.img", Image(3))

    def refuses(what, says):
        before = in_folder(desk)
        desk.asked(what, "orderset-show", ["--svg", out, path], 2, "", re.compile(says))
        so(in_folder(desk) == before, f"{what}: nothing in the folder changes", in_folder(desk).keys() ^ before.keys())
        os.remove(out)

    for what, name in ("another set", other), ("the set", path), ("a name that is free", path + ".none"), \
            ("a picture", path + ".svg"):
        os.symlink(name, out)
        refuses(f"a link to {what}", "out.svg: a link")
    os.link(other, out)
    refuses("another set by a second name", "no picture of this tool")
    svg = b'<?xml version="1.0" encoding="UTF-8"?>\n<svg xmlns="http://www.w3.org/2000/svg"/>\n'
    for what, content in ("a text", b"a text"), ("an empty file", b""), ("a set", Image(5)), ("another picture", svg):
        desk.file("out.svg", content)
        refuses(f"{what} of that name", "no picture of this tool")
    os.mkfifo(out)
    refuses("a pipe of that name", "no picture of this tool")


def picture_made(desk):
    """Whole under its name or not at all; no other name is left."""
    path, out = desk.file("small.img", Image(2)), os.path.join(desk.folder, "made.svg")
    preload = {**os.environ, "LD_PRELOAD": os.path.join(desk.tools, "preload.so"), "PRELOAD_NO_RENAME": "1"}
    for how, environment in ("", None), (" without RENAME_NOREPLACE", preload):
        before = set(os.listdir(desk.folder))
        for turn in "made", "replaced":
            seen = desk.run("orderset-show", "--svg", out, path, env=environment, preexec_fn=lambda: os.umask(0o027))
            so(seen == (0, "", ""), f"a picture is {turn}{how}", seen)
            so(set(os.listdir(desk.folder)) == before | {"made.svg"}, f"a picture{how} leaves no other name",
               set(os.listdir(desk.folder)) ^ before)
        so(os.stat(out).st_mode & 0o777 == 0o640 and os.stat(out).st_nlink == 1, "it is a file as any other",
           os.stat(out))
        so(xml.etree.ElementTree.parse(out).getroot().tag == SVG + "svg", "it is a picture")
        os.remove(out)
    seen = desk.run("orderset-show", "--svg", out, path, env={**preload, "PRELOAD_NO_UNLINK": "1"})
    so(seen == (0, "", ""), "a picture with two names is made", seen)
    for name in ["made.svg"] + [name for name in os.listdir(desk.folder) if name.startswith(".orderset-show-")]:
        os.remove(os.path.join(desk.folder, name))
    before = in_folder(desk)
    seen = desk.run("orderset-show", "--svg", out, path,
                    preexec_fn=lambda: resource.setrlimit(resource.RLIMIT_FSIZE, (1000, HARD)))
    so(seen == (2, "", f"orderset-show: {out}: File too large\n"), "a picture that cannot be written is told", seen)
    so(in_folder(desk) == before, "a picture that cannot be written leaves no name",
       in_folder(desk).keys() ^ before.keys())


# ---- a file is read once, under the lock, and what is said is of that copy

def read_once(desk):
    area = bytearray(896)
    struct.pack_into("<9Q", area, 448, 1, 1, 0x203, 0, 0, 0, 0, 3, 0x78)
    contents = [content for _, _, _, content in refused_images()] + [picture_image(), area]
    for content in contents:
        path = desk.file("once.img", content)
        for tool in "orderset-check", "orderset-show":
            due = desk.run(tool, path)
            for swap in "fifo", "short", "other":
                os.remove(path)
                desk.file("once.img", content)
                desk.file("once.img.other", Image(5))
                environment = {**os.environ, "LD_PRELOAD": os.path.join(desk.tools, "preload.so"),
                               "PRELOAD_SWAP": swap, "PRELOAD_FILE": path}
                try:
                    seen = desk.run(tool, path, env=environment, timeout=10)
                except subprocess.TimeoutExpired:
                    seen = "it hangs"
                so(seen == due, f"{tool} says the same where the name becomes {swap} after it was read", seen, due)
            os.remove(path)
            desk.file("once.img", content)
    for tool in "orderset-check", "orderset-show":
        path = desk.file("once.img", picture_image())
        seen = desk.run(tool, path, env={**environment, "PRELOAD_SWAP": "cut"})
        so(seen == (2, "", f"{tool}: {path}: Input/output error\n"), f"{tool} tells that the file becomes shorter", seen)


# ---- files that cannot be read, and arguments

def unreadable(desk):
    path = os.path.join(desk.folder, "orders.img")
    fifo = os.path.join(desk.folder, "fifo")
    os.mkfifo(fifo)
    for tool in "orderset-show", "orderset-check":
        desk.asked("a missing file", tool, ["/nowhere/orders.img"], 2, "",
                   f"{tool}: /nowhere/orders.img: No such file or directory\n")
        desk.asked("a folder", tool, [desk.folder], 2, "", re.compile("no 1013: "))
        desk.asked("a pipe", tool, [fifo], 2, "", re.compile("no 1013: "))
        with open(path, "rb") as file:
            fcntl.flock(file, fcntl.LOCK_EX)
            desk.asked("a file that is written", tool, [path], 2, "", re.compile("no 1011: "))
            fcntl.flock(file, fcntl.LOCK_SH)
            so(desk.run(tool, path)[0] == 0, f"{tool} reads beside other readers")
        if os.geteuid():
            os.chmod(path, 0)
            desk.asked("a file of others", tool, [path], 2, "", re.compile("Permission denied"))
            os.chmod(path, 0o444)
        with open("/dev/full", "w") as full:
            seen = desk.run(tool, path, stdout=full)
            so(seen[0] == 2 and "standard output" in seen[2], "a full disk is told", seen)
        words = ["/bin/sh", "-c", 'exec "$0" "$1" >&-', os.path.join(desk.tools, tool), path]
        closed = subprocess.run(words, text=True, stderr=subprocess.PIPE)
        so(closed.returncode == 2 and "standard output" in closed.stderr, "a closed output is told", closed)


def limited(desk):
    """The copy in memory is no file of the user's: the soft limit of a file's size is not for it, the hard one is."""
    path = os.path.join(desk.folder, "orders.img")
    for tool in "orderset-show", "orderset-check":
        for hard, status, says in (HARD, 0, ""), (1000, 2, "copy in memory: File too large"):
            seen = desk.run(tool, path, preexec_fn=lambda: resource.setrlimit(resource.RLIMIT_FSIZE, (1000, hard)))
            so(seen[0] == status and says in seen[2], f"{tool} with a limit of a file's size, status {status}", seen)


def arguments(desk):
    path = os.path.join(desk.folder, "orders.img")
    for tool in "orderset-show", "orderset-check":
        desk.asked("help", tool, ["--help"], 0, re.compile(f"^usage: {tool} "))
        desk.asked("the version", tool, ["--version"], 0, re.compile(rf"^{tool} \d+\.\d+\.\d+\n$"))
        for words, says in ([], "which file"), (["--no"], "no such option: --no"), ([path, path], "the second"), \
                (["-x", path], "no such option: -x"):
            seen = desk.asked(f"arguments {words}", tool, words, 2, "", re.compile(says))
            so("--help tells more" in seen[2], "bad arguments are told where help is", seen)
    desk.asked("no picture", "orderset-show", [path, "--svg"], 2, "", re.compile("--svg needs"))
    for words in ["--slots", "--svg", "a.svg"], ["--slots", "--count"], ["--count", "--heads"], ["--heads=7", "--slots"]:
        desk.asked("two of them", "orderset-show", [*words, path], 2, "", re.compile("no two of them"))
    for word in "--heads=0", "--heads=65537", "--heads=x", "--heads=", "--heads=7x":
        desk.asked("a number of heads", "orderset-show", [word, path], 2, "", re.compile("from 1 to 65536"))


def progress(desk):
    """A reader that waits makes the tool wait; what it tells meanwhile is on standard error."""
    path = desk.file("long.img", Image(10000))
    command = [os.path.join(desk.tools, "orderset-show"), "--slots", path]
    with subprocess.Popen(command, text=True, stdout=subprocess.PIPE, stderr=subprocess.PIPE) as tool:
        time.sleep(2.5)
        out, error = tool.communicate()
    so(tool.returncode == 0 and len(out.splitlines()) == 10000, "a reader that waits gets all", tool.returncode)
    so(re.search(r"^orderset-show: slots shown, \d+ of 10000$", error, re.M), "progress is told", error)


def main():
    if sys.argv[1] == "--picture":
        open(sys.argv[2], "wb").write(picture_image().bytes)
        return
    tools = os.path.abspath(sys.argv[1])
    os.chdir(os.path.join(os.path.dirname(os.path.abspath(__file__)), ".."))
    with tempfile.TemporaryDirectory() as folder:
        desk = Desk(tools, folder)
        for test in accepted, refused, logs, pictures, picture_names, picture_places, picture_made, read_once, \
                unreadable, limited, arguments, second_layout, progress:
            test(desk)
    print(f"tools: {count} comparisons")


if __name__ == "__main__":
    main()
