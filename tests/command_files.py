"""What the tests of the command share: files that are made here byte by byte, and the command that is run on them."""
import os
import re
import struct
import subprocess
import sys

CLASSES = "live hidden removed void broken empty unknown".split()
# what the command tells when the machine has so much to do that a step takes a second
PROGRESS = re.compile(r"^orderset [a-z-]+: (looking at the file|reading the file|recovering the file|counting the slots|"
                      r"making the file|copying the open orders|reading the text|records tried|[a-z ]+, \d+( of \d+)?)\n", re.M)


# ---- files, from document 01's sentences

class Image:
    """An image of N slots, formatted."""

    def __init__(self, slots, layout=1):
        self.slots, self.layout, self.bytes = slots, layout, bytearray(128 * (slots + 1))
        self.set_words(0, slots, layout)

    def set_words(self, word, *values):
        struct.pack_into(f"<{len(values)}Q", self.bytes, 8 * word, *values)

    def word(self, word):
        return struct.unpack_from("<Q", self.bytes, 8 * word)[0]

    def write(self, slot, version, key, value=b"", kind=1, records=0):
        """Both lines whole, with close bit 1."""
        one = self.layout == 1
        head = [key & (1 << 64) - 1] + ([] if one else [key >> 64])
        head.append(kind + 256 * len(value) + 65536 * records)
        words = list(struct.unpack("<10Q", value.ljust(80, b"\0")))
        in_a = 6 - len(head)
        stamp = 2 * version + 1
        self.set_words(16 * slot, 1, *head, *words[:in_a], stamp)
        self.set_words(16 * slot + 8, 1, *words[in_a:in_a + 6], stamp)

    def tear(self, slot):
        """A cut before the last store of line B."""
        self.set_words(16 * slot + 8, 1 - self.word(16 * slot + 8))


def order(state, ordered, filled=0):
    return struct.pack("<3Q", state, ordered, filled)


def picture_image():
    """Slots of every class: a basket of three was struck, of which slot 9 is broken and slots 10 and 11 are void."""
    image = Image(20)
    image.write(1, 1, 1001, order(1, 100))
    image.write(2, 2, 1002, order(2, 200, 50))
    image.write(3, 3, 1003, order(1, 30))
    image.write(4, 4, 1004, b"by hand: sell 5")
    image.write(5, 5, 1001, order(2, 100))
    image.write(6, 6, 1003, kind=2)
    image.write(7, 7, 1005, order(1, 10), records=2)
    image.write(8, 7, 1006, order(1, 20), records=2)
    for slot in 9, 10, 11:
        image.write(slot, 8, 1000 + slot, order(1, slot), records=3)
    image.tear(9)
    return image


ORDERS = """1002: acknowledged, ordered 200, filled 50
1004: 15 bytes 62792068616e643a2073656c6c2035
1001: acknowledged, ordered 100, filled 0
1005: sent, ordered 10, filled 0
1006: sent, ordered 20, filled 0
"""

SLOTS = """slot 1: hidden, key 1001, version 1: sent, ordered 100, filled 0
slot 2: live, key 1002, version 2: acknowledged, ordered 200, filled 50
slot 3: hidden, key 1003, version 3: sent, ordered 30, filled 0
slot 4: live, key 1004, version 4: 15 bytes 62792068616e643a2073656c6c2035
slot 5: live, key 1001, version 5: acknowledged, ordered 100, filled 0
slot 6: removed, key 1003, version 6
slot 7: live, key 1005, version 7, one of 2 of a basket: sent, ordered 10, filled 0
slot 8: live, key 1006, version 7, one of 2 of a basket: sent, ordered 20, filled 0
slot 9: broken; in its words: key 1009, version 8, one of 3 of a basket: sent, ordered 9, filled 0
slot 10: void, key 1010, version 8, one of 3 of a basket: sent, ordered 10, filled 0
slot 11: void, key 1011, version 8, one of 3 of a basket: sent, ordered 11, filled 0
""" + "".join(f"slot {slot}: empty\n" for slot in range(12, 21))


def log_area():
    """A log of two cells, in which message 1 is "x"."""
    area = bytearray(896)
    struct.pack_into("<9Q", area, 448, 1, 1, 0x203, 0, 0, 0, 0, 3, 0x78)
    return area


# ---- running and comparing

comparisons = [0]


def so(right, what, *seen):
    comparisons[0] += 1
    if not right:
        print(f"NOT SO: {what}", *(repr(s)[:2000] for s in seen), sep="\n  ")
        sys.exit(1)


class Desk:
    def __init__(self, tools, folder, plug=None):
        self.tools, self.folder, self.plug = os.path.abspath(tools), folder, plug

    def path(self, name):
        return os.path.join(self.folder, name)

    def program(self, name):
        return os.path.join(self.tools, name)

    def file(self, name, content):
        with open(self.path(name), "wb") as f:
            f.write(content.bytes if isinstance(content, Image) else content)
        return self.path(name)

    def preloaded(self, **what):
        libraries = os.environ.get("SAN_LIBRARY", "") + ":" + self.program("preload.so")
        return {**os.environ, "LD_PRELOAD": libraries, **what}

    def run(self, subcommand, *arguments, **options):
        """Status, standard output and standard error."""
        out = {"stdout": subprocess.PIPE, "stderr": subprocess.PIPE, "stdin": subprocess.DEVNULL, **options}
        if "input" in out:
            del out["stdin"]
        done = subprocess.run([self.program("orderset"), subcommand, *arguments], text=True, **out)
        return done.returncode, done.stdout, PROGRESS.sub("", done.stderr or "")

    def asked(self, what, subcommand, arguments, status, out="", error="", **options):
        """The status, all of standard output, and all of standard error; a pattern is searched for."""
        seen = self.run(subcommand, *arguments, **options)
        for name, due, found in ("status", status, seen[0]), ("output", out, seen[1]), ("error", error, seen[2]):
            right = due.search(found) if isinstance(due, re.Pattern) else due == found
            so(right, f"{what}: the {name} of {subcommand} is {due!r}", found, seen)
        return seen

    def names(self):
        """Each name of the folder with what it is and holds."""
        def told(name):
            path = self.path(name)
            return os.readlink(path) if os.path.islink(path) else open(path, "rb").read() if os.path.isfile(path) else ""
        return {name: told(name) for name in os.listdir(self.folder)}
