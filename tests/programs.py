#!/usr/bin/env python3
"""tests/programs.py FOLDER runs the gateway and the recorder of that folder on files that are not theirs, with little
stack, without locks, without RENAME_NOREPLACE, with a limit of the file's size, with long names and on xfs. A file that is refused
keeps its bytes, its blocks and its times; a file that is not made leaves no name. It ends with status 1 at the first
thing that is not so."""
import os
import resource
import stat
import struct
import subprocess
import sys
import tempfile

CELL, SLOT = 448, 128
count = 0


def so(right, what, *seen):
    global count
    count += 1
    if not right:
        print(f"NOT SO: {what}", *(repr(s)[:2000] for s in seen), sep="\n  ")
        sys.exit(1)


class Programs:
    def __init__(self, tools, folder):
        self.tools, self.folder = tools, folder

    def path(self, name):
        return os.path.join(self.folder, name)

    def run(self, program, *words, text="", limit=None, **environment):
        """Status and all that it says."""
        done = subprocess.run([os.path.join(self.tools, program), *words], text=True, input=text, timeout=60,
                              stdout=subprocess.PIPE, stderr=subprocess.STDOUT, env={**os.environ, **environment},
                              preexec_fn=limit and (lambda: resource.setrlimit(*limit)))
        return done.returncode, done.stdout

    def preloaded(self, what):
        return {"LD_PRELOAD": os.environ.get("SAN_LIBRARY", "") + ":" + os.path.join(self.tools, "preload.so"), what: "1"}

    def make(self, name, slots, layout=1):
        seen = self.run("gateway", self.path(name), "make", str(slots), str(layout))
        so(seen[0] == 0, f"a set of {slots} slots is made", seen)
        return self.path(name)

    def file(self, name, content):
        with open(self.path(name), "wb") as file:
            file.write(content)
        return self.path(name)

    def sparse(self, name, length):
        self.file(name, b"")
        os.truncate(self.path(name), length)
        return self.path(name)


def as_it_is(path):
    """All that a write or a claim of blocks would change; a large file is sparse. It is synced first, so that the file
    system changes its blocks no more."""
    if stat.S_ISREG(os.stat(path).st_mode):
        with open(path, "rb") as file:
            os.fsync(file)
    found = os.stat(path)
    told = [found.st_size, found.st_blocks, found.st_mtime_ns, found.st_ctime_ns, stat.S_IFMT(found.st_mode)]
    return told + [open(path, "rb").read() if stat.S_ISREG(found.st_mode) and found.st_size < 1 << 24 else b""]


# ---- files of another kind

def refuses(programs, program, words, path, number, what):
    before = as_it_is(path)
    seen = programs.run(program, path, *words, text="new 7 100\n")
    so(seen[0] == 1 and f"no {number}" in seen[1], f"{program} {words} refuses {what} with {number}", seen)
    so(as_it_is(path) == before, f"{program} {words} leaves {what} as it was", seen)


RECORDER, GATEWAY = ((), ("list",)), ((), ("new", "7", "100"), ("list",))


def sets(programs):
    """896 m bytes are a set of 7 m - 1 slots and a log of 2 m cells; 128,128 are 1,000 slots and 286 cells."""
    for slots in 6, 13, 1000, 3499:
        for layout in 1, 2:
            path = programs.make("set", slots, layout)
            so(os.path.getsize(path) % CELL == 0, "the length is that of a log too")
            for words in RECORDER:
                refuses(programs, "recorder", words, path, 1018, f"a set of {slots} slots")
            os.remove(path)
    path = programs.make("set", 1001)
    for words in RECORDER:
        refuses(programs, "recorder", words, path, 30, "a set of another length")


def logs(programs):
    for cells, messages in (2, 0), (2, 1), (2, 5), (286, 7), (4, 3):
        path = programs.file("log", bytes(CELL * cells))
        if messages:
            seen = programs.run("recorder", path, text="message\n" * messages)
            so(seen == (0, "".join(f"message {i + 1}\n" for i in range(messages))), "a log is taken", seen)
        for words in GATEWAY:
            word = struct.unpack("<Q", open(path, "rb").read(8))[0]
            refuses(programs, "gateway", words, path, 2 if word == 0 else 3, f"a log of {cells} cells")


def others(programs):
    image = bytearray(open(programs.make("good", 6), "rb").read())
    so(programs.run("gateway", programs.path("good"), "new", "7", "100")[0] == 0, "a set is taken")
    for slot, line in (1, 0), (6, 1), (3, 0):
        struct.pack_into("<Q", image, SLOT * slot + 64 * line, 2)
        path = programs.file("marked", bytes(image))
        for words in GATEWAY:
            refuses(programs, "gateway", words, path, 5, "a set with a mark of 2")
    area = bytearray(CELL * 5)
    struct.pack_into("<Q", area, CELL * 4, 2)
    for words in RECORDER:
        refuses(programs, "recorder", words, programs.file("marked", bytes(area)), 1018, "a log with a mark of 2")
    for length in 0, 447, 448, 600 << 20, 1001 * CELL:
        for words in RECORDER:
            refuses(programs, "recorder", words, programs.sparse("sparse", length), 30, f"a file of {length} bytes")
    for length in 0, 383, 600 << 20, 65537 * SLOT:
        for words in GATEWAY:
            refuses(programs, "gateway", words, programs.sparse("sparse", length), 1, f"a file of {length} bytes")
    for length in SLOT * 3, 65536 * SLOT:
        for words in GATEWAY:
            refuses(programs, "gateway", words, programs.sparse("sparse", length), 2, f"{length} bytes of zeros")
    os.mkfifo(programs.path("fifo"))
    for program in "recorder", "gateway":
        refuses(programs, program, ("list",), programs.path("fifo"), 1013, "a pipe")


# ---- what a machine may lack

def little_stack(programs):
    """256 KB, where recovery of the largest set takes ten times that."""
    limit = resource.RLIMIT_STACK, (256 << 10, 256 << 10)
    for layout, key in (1, "7"), (2, "0x%032x" % 7):
        path = programs.path(f"large{layout}")
        for words, says in (("make", "65535", str(layout)), "made"), (("new", key, "5"), "done"), (("list",), "1 held"), \
                ((), "recovered 1"):
            seen = programs.run("gateway", path, *words, limit=limit)
            so(seen[0] == 0 and says in seen[1], f"with 256 KB of stack gateway {words} works", seen)
        for word, says in ("--heads", "longest 1"), ("--count", "1 live"):
            seen = programs.run("orderset-show", word, path, limit=limit)
            so(seen[0] == 0 and says in seen[1], f"with 256 KB of stack orderset-show {word} works", seen)
        for words, says in (("check", "--heads"), "longest 1"), (("show", "--count"), "1 live"), \
                (("copy", programs.path("copy")), "made with 1"):
            seen = programs.run("orderset", words[0], path, words[1], limit=limit)
            so(seen[0] == 0 and says in seen[1], f"with 256 KB of stack orderset {words} works", seen)
        os.remove(programs.path("copy"))


def not_made(programs):
    path = programs.path("new")
    for what, says, options in ("without locks", "No locks available", programs.preloaded("PRELOAD_NO_LOCK")), \
            ("with a limit of the file's size", "File too large", {"limit": (resource.RLIMIT_FSIZE, (1000, 1000))}):
        seen = programs.run("gateway", path, "make", "10", **options)
        so(os.listdir(programs.folder) == [], f"a make {what} leaves no name", os.listdir(programs.folder), seen)
        so(seen[0] == 1 and says in seen[1], f"{what} nothing is made", seen)


def linked(programs):
    """Where a file system has no RENAME_NOREPLACE, a link serves; it replaces nothing either."""
    without = programs.preloaded("PRELOAD_NO_RENAME")
    path = programs.path("new")
    seen = programs.run("gateway", path, "make", "10", **without)
    so(seen == (0, f"made {path}: 10 slots, layout 1\n"), "a set is made by a link", seen)
    so(os.listdir(programs.folder) == ["new"], "with one name", os.listdir(programs.folder))
    so(os.stat(path).st_nlink == 1, "and one link", os.stat(path))
    seen = programs.run("gateway", path, "new", "7", "100")
    so(seen[0] == 0, "it takes orders", seen)
    seen = programs.run("gateway", path, "make", "10", **without)
    so(seen[0] == 1 and "no 1012" in seen[1], "and is not replaced", seen)


def second_name(programs):
    """Where the other name cannot be removed, the set is made, and has both names."""
    path = programs.path("new")
    without = {**programs.preloaded("PRELOAD_NO_RENAME"), "PRELOAD_NO_UNLINK": "1"}
    seen = programs.run("gateway", path, "make", "10", **without)
    names = sorted(os.listdir(programs.folder))
    so(seen[0] == 0 and f"made {path}" in seen[1] and len(names) == 2 and names[1].startswith("new.new-") and
       os.stat(path).st_nlink == 2, "a set with two names is made", seen, names)


def long_names(programs):
    """All that the file system takes; the other name is never the same, also of a name that ends like one."""
    for length in 5, 99, 100, 101, 200, 247, 248, 251, 252, 255:
        for end in "", ".new":
            path = programs.path("n" * (length - len(end)) + end)
            seen = programs.run("gateway", path, "make", "10")
            so(seen[0] == 0, f"a set with a name of {length} bytes is made", seen)
            so(os.listdir(programs.folder) == [os.path.basename(path)], "a long name leaves no other", seen)
            so(programs.run("gateway", path, "new", "7", "5")[0] == 0, "it takes an order", seen)
            os.remove(path)


def on_memory(programs):
    """With MAP_SYNC a write is flushes; not so on xfs, where a file may share blocks."""
    path, log = programs.make("set", 10), programs.file("log", bytes(CELL * 4))
    for number, (what, says) in enumerate((("PRELOAD_MEMORY", "flush and fence"), ("PRELOAD_XFS", "msync (fallback)"))):
        seen = programs.run("gateway", path, "new", str(number), "5", **programs.preloaded(what))
        so(seen[0] == 0 and says in seen[1], f"the gateway goes by {says} with {what}", seen)
        seen = programs.run("recorder", log, text="message\n", **programs.preloaded(what))
        so(seen == (0, f"message {number + 1}\n"), f"the recorder goes by {says} with {what}", seen)


def examples(programs):
    """Memory of one's own; and a message log that the recorder makes, which replaces nothing."""
    seen = programs.run("raw")
    so(seen == (0, "durable: version 1\n7: buy 100; slots compared: 1\n"), "raw keeps an order", seen)
    path = programs.path("log")
    so(programs.run("recorder", path, "make", "4") == (0, ""), "a log is made")
    so(os.path.getsize(path) == 4 * CELL, "it has four cells")
    so(programs.run("recorder", path, text="a\nb\n")[0] == 0, "it takes messages")
    seen = programs.run("recorder", path, "make", "4")
    so(seen[0] == 1 and "no 1012" in seen[1], "it is not replaced", seen)
    so(programs.run("recorder", path, "list") == (0, "1: a\n2: b\n"), "and is listed")
    for cells in "1", "1001", "4294967300", "18446744073709551620":
        seen = programs.run("recorder", programs.path("none"), "make", cells)
        so(seen[0] == 1 and "no 30" in seen[1], f"recorder make {cells} makes nothing", seen)
    for cells in "x", "4x", "", " 4", "+4", "-4294967292", "-4":
        seen = programs.run("recorder", programs.path("none"), "make", cells)
        so(seen[0] == 2 and "usage" in seen[1], f"recorder make {cells!r} is no number of cells", seen)
    so(not os.path.exists(programs.path("none")), "no file is there")


def usage(programs):
    """Arguments that are no commands: status 2, and nothing is carried out."""
    path = programs.make("set", 10)
    before = as_it_is(path)
    for words in ("make",), ("make", "x"), ("make", "1", "2", "3"), ("new",), ("new", "7"), ("new", "7", "x"), ("new", "0x7", "1"), \
            ("sell", "7"), ("basket", "0"), ("basket", "9"), ("basket", "2", "new", "1", "1"), ("basket", "1", "show", "7"), \
            ("new", "7", "1", "x"), ("heads",), ("count",):
        seen = programs.run("gateway", path, *words)
        so(seen[0] == 2 and as_it_is(path) == before, f"gateway {words} is no command", seen)
    for words in ("make", "1"), ("make", "65536"), ("make", "4294967298"), ("make", "10", "3"), ("make", "10", "0"):
        seen = programs.run("gateway", programs.path("none"), *words)
        so(seen[0] == 1 and "no " in seen[1], f"gateway {words} makes nothing", seen)
    for path, hints in (programs.path("none"), True), (os.path.join(path, "none"), False), ("", False):
        seen = programs.run("gateway", path, "list")
        so(seen[0] == 1 and ("make N" in seen[1]) == hints, f"gateway {path!r}: make is proposed where a file is missing", seen)
    seen = programs.run("gateway", programs.path("none/none"), "make", "10")
    so(seen[0] == 1 and "make N" not in seen[1], "a make in no folder proposes no make", seen)
    key = "0x20261116000000000000000000000007"
    seen = programs.run("gateway", path := programs.path("set"), "new", key, "1")
    so(seen[0] == 1 and f"new {key}: no 1015" in seen[1], "a key that is too wide is shown whole", seen)
    seen = programs.run("gateway", path, text="new 7 1 x\nsell 7\nnew 7  1\nlist")
    so(seen[0] == 1 and "not a command: new 7 1 x\nnot a command: sell 7\nnot a command: new 7  1\nnot a command: list (the input "
       "ended inside this line)\n" in seen[1], "a line that is no command is shown whole", seen)
    so(programs.run("gateway")[0] == programs.run("recorder")[0] == 2, "a file is to be named")


def main():
    tools = os.path.abspath(sys.argv[1])
    for test in sets, logs, others, little_stack, not_made, linked, second_name, long_names, \
            on_memory, examples, usage:
        with tempfile.TemporaryDirectory(dir=tools) as folder:
            test(Programs(tools, folder))
    print(f"programs: {count} comparisons")


if __name__ == "__main__":
    main()
