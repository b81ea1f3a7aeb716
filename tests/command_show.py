"""orderset show: orders, slots, counts and pictures."""
import json
import os
import re
import resource
import subprocess
import time
import xml.etree.ElementTree

from command_files import CLASSES, Image, ORDERS, SLOTS, log_area, order, picture_image, so
from command_check import refused_images

SVG = "{http://www.w3.org/2000/svg}"
HARD = resource.getrlimit(resource.RLIMIT_FSIZE)[1]


def accepted(desk):
    image = picture_image()
    path = desk.file("orders.img", image)
    os.chmod(path, 0o444)
    before = os.stat(path)
    desk.asked("a good file", "show", [path], 0, ORDERS)
    desk.asked("a good file", "show", ["--", path], 0, ORDERS)
    desk.asked("a good file", "show", [path, "--slots"], 0, SLOTS)
    desk.asked("a good file", "show", [path, "--count"], 0,
               "5 live, 2 hidden, 1 removed, 2 void, 1 broken, 9 empty\n")
    after = os.stat(path)
    so(open(path, "rb").read() == image.bytes and before.st_mtime_ns == after.st_mtime_ns, "the file stays as it was")
    empty = desk.file("empty.img", Image(8))
    desk.asked("an empty set", "show", [empty], 0, "", re.compile("no open orders"))


def second_layout(desk):
    image = Image(3, 2)
    image.write(1, 1, (1 << 64) + 7, order(1, 5))
    image.write(2, 2, 7, bytes(range(72)))
    path = desk.file("two.img", image)
    desk.asked("layout 2", "show", [path], 0, f"0x{1:016x}{7:016x}: sent, ordered 5, filled 0\n"
               f"0x{0:016x}{7:016x}: 72 bytes {bytes(range(72)).hex()}\n")


def objects(desk):
    """One object a line, with the members that the manual page tells."""
    path = desk.path("orders.img")
    orders = [json.loads(line) for line in desk.run("show", "--json", path)[1].splitlines()]
    so([o["key"] for o in orders] == [line.split(":")[0] for line in ORDERS.splitlines()], "the objects are the orders",
       orders)
    so(orders[0] == {"key": "1002", "slot": 2, "version": 2, "value": order(2, 200, 50).hex(), "state": "acknowledged",
                     "ordered": 200, "filled": 50}, "an order has its fields", orders[0])
    so(orders[1] == {"key": "1004", "slot": 4, "version": 4, "value": b"by hand: sell 5".hex()}, "any value is hex",
       orders[1])
    slots = [json.loads(line) for line in desk.run("show", "--json", "--slots", path)[1].splitlines()]
    so([s["class"] for s in slots] == [line.split()[2].strip(",;") for line in SLOTS.splitlines()],
       "each slot is an object with its class", slots)
    so(slots[9]["records"] == 3 and slots[9]["fault"] == 0 and slots[9]["slot"] == 10, "and its number", slots[9])
    counts = json.loads(desk.run("show", "--json", "--count", path)[1])
    so(counts == {"live": 5, "hidden": 2, "removed": 1, "void": 2, "broken": 1, "empty": 9}, "the counts", counts)


def refused(desk):
    met = set()
    for number, slot, _, content in refused_images():
        met.add(number)
        path = desk.file(f"no{number}.img", content)
        named = f"refused, no {number}" + (f" of slot {slot}" if slot else "")
        what = f"a file with no {number}"
        desk.asked(what, "show", [path], 1, "", re.compile(f"{named}: .*; orderset check tells what to do\n"))
        slots = desk.run("show", "--slots", path)
        so(slots[0] == 1, "the slots of a refused file are shown, with status 1", slots)
        length = len(content.bytes if isinstance(content, Image) else content)
        so(len(slots[1].splitlines()) == (length // 128 - 1 if number != 1 else 0), "each slot is shown", slots)
        if slot:
            so(f"\nslot {slot}: unknown" in slots[1] and f"; no {number}: " in slots[1], "a slot says its fault", slots)
        picture_of(desk, path, 1)
    so(met == {1, 2, 3, 5, 6, 7, 8, 22, 23, 24, 25}, "each refusal that bytes can have is met", met)


def logs(desk):
    path = desk.file("messages.log", log_area())
    desk.asked("a log", "show", [path], 1, "",
               re.compile("it can be read as a message log of 2 cells; orderset log shows it\n"))


# ---- pictures

def picture_of(desk, path, status):
    out = path + ".svg"
    seen = desk.run("show", "--svg", out, path)
    so(seen[0] == status and seen[1] == "", "a picture is made", seen)
    return xml.etree.ElementTree.parse(out).getroot()


def squares_of(root):
    return [(r.get("class"), *(int(r.get(a)) for a in ("x", "y", "width", "height"))) for r in root.iter(SVG + "rect")]


def looked_at(root, slots, counts, line):
    squares, texts = squares_of(root), [t.text for t in root.iter(SVG + "text")]
    so(len(squares) == slots, f"a picture has {slots} squares", len(squares))
    wide, high = int(root.get("width")), int(root.get("height"))
    places = {(x, y) for _, x, y, _, _ in squares}
    pitch = min((b[1] - a[1] for a, b in zip(squares, squares[1:])), key=abs, default=100)
    so(len(places) == slots and all(w == h and 3 <= w <= pitch for _, _, _, w, h in squares), "squares are apart")
    so(all(0 <= x and x + w <= wide and 0 <= y and y + w <= high for _, x, y, w, _ in squares), "squares are inside")
    so(places == set() or [(x, y) for _, x, y, _, _ in squares] == sorted(places, key=lambda p: (p[1], p[0])),
       "squares go by slot")
    for i, name in enumerate(CLASSES[:len(counts)]):
        so(sum(s[0] == name for s in squares) == counts[i], f"{counts[i]} squares are {name}")
        so(name not in texts or texts[texts.index(name) + 1] == str(counts[i]), f"the legend says {counts[i]} {name}")
        so(name in texts or name == "unknown" and counts[i] == 0, f"the legend has {name}", texts)
    so(line in texts, f"the numbers are {line!r}", texts[:4])


def pictures(desk):
    path = desk.path("orders.img")
    root = picture_of(desk, path, 0)
    looked_at(root, 20, [5, 2, 1, 2, 1, 9, 0],
              "layout 1   N 20   2688 bytes   live 5   spare 15   next version 9")
    so([s[0] for s in squares_of(root)] == [line.split()[2].strip(",;") for line in SLOTS.splitlines()],
       "each square has the class of its slot")
    titles = [r.find(SVG + "title").text for r in root.iter(SVG + "rect")]
    so("\n".join(titles) + "\n" == SLOTS, "a square has its slot's line as title", titles)
    drawn = open(path + ".svg").read()
    so(drawn == open("docs/command-picture.svg").read(), "docs/command-picture.svg is the picture of this file")
    so(desk.run("show", "--svg", "-", path) == (0, drawn, ""), "a picture goes to standard output")
    for slots in 2, 8, 101, 401, 2501, 10001, 65535:
        image = Image(slots)
        for slot in range(1, slots, 3):
            image.write(slot, slot, slot, b"x")
        live = len(range(1, slots, 3))
        root = picture_of(desk, desk.file("large.img", image), 0)
        looked_at(root, slots, [live, 0, 0, 0, 0, slots - live, 0],
                  f"layout 1   N {slots}   {128 * (slots + 1)} bytes   live {live}   spare {slots - live}   "
                  f"next version {max(range(1, slots, 3)) + 1}")
    image = picture_image()
    image.set_words(16 * 2 + 2, 3 + 256 * 24)
    root = picture_of(desk, desk.file("a<&>\xfc.img", image), 1)
    looked_at(root, 20, [0, 0, 0, 0, 1, 9, 10], "layout 1   N 20   2688 bytes")
    so([t.text for t in root.iter(SVG + "text")][0] == "a<&>??.img", "the name of the file is text")
    so(len([r for r in root.iter(SVG + "rect") if r.get("stroke")]) == 1, "the slot at fault is marked")


def picture_names(desk):
    path = desk.path("orders.img")
    link = desk.path("link.svg")
    os.link(path, link)
    whole = open(path, "rb").read()
    desk.asked("a picture over the set", "show", ["--svg", link, path], 2, "", re.compile("take the place"))
    desk.asked("a picture of any name", "show", ["--svg", path, path], 2, "", re.compile("end in .svg"))
    desk.asked("no such folder", "show", ["--svg", "/nowhere/a.svg", path], 2, "", re.compile("No such file"))
    so(open(path, "rb").read() == whole, "no picture takes the place of a set")
    os.remove(link)


def picture_places(desk):
    """A picture is never written through a link, nor over anything but a picture of the tool."""
    path, out = desk.path("orders.img"), desk.path("out.svg")
    other = desk.file("other.img", Image(3))

    def refuses(what, says):
        before = desk.names()
        desk.asked(what, "show", ["--svg", out, path], 2, "", re.compile(says))
        so(desk.names() == before, f"{what}: nothing in the folder changes", desk.names().keys() ^ before.keys())
        os.remove(out)

    for what, name in ("another set", other), ("the set", path), ("a name that is free", path + ".none"), \
            ("a picture", path + ".svg"):
        os.symlink(name, out)
        refuses(f"a link to {what}", "out.svg: a link")
    os.link(other, out)
    refuses("another set by a second name", "no picture of this tool")
    svg = b'<?xml version="1.0" encoding="UTF-8"?>\n<svg xmlns="http://www.w3.org/2000/svg"/>\n'
    for what, content in ("a text", b"a text"), ("an empty file", b""), ("a set", Image(5)), ("another picture", svg):
        desk.file("out.svg", content)
        refuses(f"{what} of that name", "no picture of this tool")
    os.mkfifo(out)
    refuses("a pipe of that name", "no picture of this tool")


def picture_made(desk):
    """Whole under its name or not at all; no other name is left."""
    path, out = desk.file("small.img", Image(2)), desk.path("made.svg")
    preload = desk.preloaded(PRELOAD_NO_RENAME="1")
    for how, environment in ("", None), (" without RENAME_NOREPLACE", preload):
        before = set(os.listdir(desk.folder))
        for turn in "made", "replaced":
            seen = desk.run("show", "--svg", out, path, env=environment, preexec_fn=lambda: os.umask(0o027))
            so(seen == (0, "", ""), f"a picture is {turn}{how}", seen)
            so(set(os.listdir(desk.folder)) == before | {"made.svg"}, f"a picture{how} leaves no other name",
               set(os.listdir(desk.folder)) ^ before)
        so(os.stat(out).st_mode & 0o777 == 0o640 and os.stat(out).st_nlink == 1, "it is a file as any other",
           os.stat(out))
        so(xml.etree.ElementTree.parse(out).getroot().tag == SVG + "svg", "it is a picture")
        os.remove(out)
    seen = desk.run("show", "--svg", out, path, env={**preload, "PRELOAD_NO_UNLINK": "1"})
    so(seen == (0, "", ""), "a picture with two names is made", seen)
    for name in ["made.svg"] + [name for name in os.listdir(desk.folder) if name.startswith(".orderset-picture-")]:
        os.remove(desk.path(name))
    before = desk.names()
    seen = desk.run("show", "--svg", out, path,
                    preexec_fn=lambda: resource.setrlimit(resource.RLIMIT_FSIZE, (1000, HARD)))
    so(seen == (2, "", f"orderset show: {out}: File too large\n"), "a picture that cannot be written is told", seen)
    so(desk.names() == before, "a picture that cannot be written leaves no name",
       desk.names().keys() ^ before.keys())


def progress(desk):
    """A reader that waits makes the tool wait; what it tells meanwhile is on standard error."""
    path = desk.file("long.img", Image(10000))
    command = [desk.program("orderset"), "show", "--slots", path]
    with subprocess.Popen(command, text=True, stdout=subprocess.PIPE, stderr=subprocess.PIPE) as tool:
        time.sleep(2.5)
        out, error = tool.communicate()
    so(tool.returncode == 0 and len(out.splitlines()) == 10000, "a reader that waits gets all", tool.returncode)
    so(re.search(r"^orderset show: slots shown, \d+ of 10000$", error, re.M), "progress is told", error)


TESTS = accepted, second_layout, objects, refused, logs, pictures, picture_names, picture_places, picture_made, progress
