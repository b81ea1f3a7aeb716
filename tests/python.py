#!/usr/bin/env python3
"""tests/python.py FOLDER [SEED] tests bindings/python on files below that folder, by the library that ORDERSET_LIBRARY
names and FOLDER/preload.so: that the header says what the module says; the examples of its documentation; random calls
on sets of both layouts against a dict, and on logs against a list; files, locks and modes; arguments of every wrong
kind; threads, fork, signals and kills; a sync that fails. Each part runs in a process of its own, so that an
interpreter that crashes is seen. It ends with status 1 at the first thing that is not so, and prints its seed."""
import contextlib
import copy
import ctypes
import doctest
import errno
import gc
import inspect
import itertools
import os
import pathlib
import pickle
import random
import shutil
import signal
import struct
import subprocess
import sys
import tempfile
import threading
import time

ROOT = os.path.join(os.path.dirname(os.path.abspath(__file__)), "..")
sys.dont_write_bytecode = True
sys.path.insert(0, os.path.join(ROOT, "bindings/python"))
import orderset  # noqa: E402
from orderset import Error, Flush, Item, Key, Kind, Log, Mode, Number, Order, Set, SlotClass, State  # noqa: E402

CALLS, HISTORIES, APPENDS, LOGS, KILLS = 150, 12, 100, 4, 24
count = 0


def so(right, what, *seen):
    global count
    count += 1
    if not right:
        print(f"NOT SO: {what}", *(repr(s)[:2000] for s in seen), sep="\n  ", flush=True)
        sys.exit(1)


def refused(number, call, *arguments):
    """The error of a call that is refused with this number."""
    try:
        got = call(*arguments)
    except Error as error:
        so(error.number is Number(number) and error.number == number, f"{call} is refused with {number}", error)
        return error
    return so(False, f"{call} is refused with {number}", got)


def raises(kind, call, *arguments):
    """The words of an exception of this kind."""
    shown = [f"{a.bit_length()} bits" if isinstance(a, int) and a.bit_length() > 300 else repr(a)[:80] for a in arguments]
    what = f"{getattr(call, '__qualname__', call)}({', '.join(shown)}) is a {kind.__name__}"
    try:
        got = call(*arguments)
    except kind as error:
        so(not isinstance(error, Error), what, error)
        return str(error)
    except Exception as error:
        so(False, what, error)
    return so(False, what, got)


def bytes_of(path):
    with open(path, "rb") as file:
        return file.read()


# ---- the header

C_TYPES = {ctypes.c_uint32: "uint32_t", ctypes.c_uint64: "uint64_t", ctypes.c_int32: "int32_t", ctypes.c_int: "int",
           ctypes.c_size_t: "size_t", ctypes.c_uint8: "uint8_t", None: "void"}
STRUCTS = {orderset._Key: "key", orderset._Item: "item", orderset._Record: "record", orderset._Order: "order",
           orderset._Statistics: "statistics", orderset._LogStatistics: "log_statistics"}
# what a pointer without a type is, in the calls that have one: a handle, or an output
CONST = "orderset_compared", "orderset_layout", "orderset_count", "orderset_room"


def c_type(kind, call, place):
    """The type of an argument, or of a result where the place is -1, as the header has it."""
    handle = "struct orderset_log" if "_log_" in call else "struct orderset"
    if kind is ctypes.c_char_p:
        return "const char *" if place == -1 or call.endswith(("_create", "_open", "_snapshot")) else "const void *"
    if kind is ctypes.c_void_p:
        return ("const " if call in CONST else "") + f"{handle} *" if place == 0 else "void *"
    if kind is ctypes.POINTER(ctypes.c_void_p):
        return f"{handle} **"
    if isinstance(kind, type) and issubclass(kind, ctypes._Pointer):
        return ("const " if kind._type_ is orderset._Item else "") + c_type(kind._type_, call, place) + " *"
    return f"struct orderset_{STRUCTS[kind]}" if kind in STRUCTS else C_TYPES[kind]


def header(folder):
    """The C compiler is asked: the types of the functions, sizes, offsets and numbers."""
    lines = ['#include "orderset.h"', "#define IS(a, b) _Static_assert((a) == (b), #a)"]
    for call, (result, arguments) in orderset._CALLS.items():
        told = ", ".join(c_type(kind, call, place) for place, kind in enumerate(arguments)) or "void"
        lines.append(f"{c_type(result, call, -1)} {call}({told});")
    for kind, name in STRUCTS.items():
        lines.append(f"IS(sizeof(struct orderset_{name}), {ctypes.sizeof(kind)});")
        for field, _ in kind._fields_:
            at = getattr(kind, field)
            lines.append(f"IS(offsetof(struct orderset_{name}, {field}), {at.offset});")
            lines.append(f"IS(sizeof((struct orderset_{name}){{0}}.{field}), {at.size});")
    prefixes = {Number: "", Mode: "", Flush: "FLUSH_", SlotClass: "SLOT_", State: "", Kind: ""}
    for kind, prefix in prefixes.items():
        lines += [f"IS(ORDERSET_{prefix}{member.name}, {int(member)});" for member in kind]
    lines += [f"IS(ORDERSET_{name}, {value});" for name, value in (
        ("VALUE_MAX", orderset.VALUE_MAX), ("VALUE_MAX_2", orderset.VALUE_MAX_2), ("BASKET_MAX", orderset.BASKET_MAX),
        ("LOG_MESSAGE_MAX", orderset.MESSAGE_MAX), ("COUNTS", len(orderset._Statistics().count)))]
    done = subprocess.run(["cc", "-std=c11", "-fsyntax-only", f"-I{ROOT}/include", "-x", "c", "-"], text=True,
                          input="\n".join(lines), stdout=subprocess.PIPE, stderr=subprocess.STDOUT)
    so(done.returncode == 0, "the header says the same", done.stdout)
    asked = {name[9:] for name in orderset._CALLS}
    text = open(f"{ROOT}/include/orderset.h").read()
    so({f"orderset_{name}" for name in asked} | {"orderset_errno", "orderset_log_errno"} ==
       {name for name in ctypes_names(text)}, "every call of the header is in the module", ctypes_names(text))
    for number in Number:
        so(Error(number).words == orderset._library.orderset_strerror(number).decode(), f"{number} has words")
    told = next(line.split('"')[1] for line in text.splitlines() if "ORDERSET_VERSION_STRING" in line)
    so(orderset.version() == told, "the library is of the header's version", orderset.version())
    so(set(orderset.__all__) == {name for name, value in vars(orderset).items() if not name.startswith("_") and
                                 (isinstance(value, int) or getattr(value, "__module__", "") == "orderset")},
       "what the module gives is in its list", orderset.__all__)


def ctypes_names(text):
    """The functions that the header declares."""
    done = subprocess.run(["cc", "-std=c11", "-E", "-P", "-x", "c", "-"], input=text, text=True, capture_output=True)
    return set(word.split("(")[0].lstrip("*") for line in done.stdout.split(";") for word in line.split()
               if word.lstrip("*").startswith("orderset_") and "(" in word)


def types(folder):
    """Strictly typed, where mypy is installed: the module, and that a wrong call is a finding."""
    if not shutil.which("mypy"):
        print("python: mypy is not there: the types are not tested")
        return
    check = ["mypy", "--strict", "--cache-dir", f"{folder}/cache", "--python-executable", sys.executable]
    done = subprocess.run([*check, f"{ROOT}/bindings/python/orderset"], capture_output=True, text=True)
    so(done.returncode == 0, "the module is strictly typed", done.stdout, done.stderr)
    with open(f"{folder}/use.py", "w") as file:
        file.write("from orderset import Item, Log, Record, Set\n\n"
                   "def right(s: Set, g: Log) -> list[Record]:\n"
                   "    s.basket([Item.insert(7, b'')])\n"
                   "    held: bytes = s.get(7) or b''\n"
                   "    for number, message in g:\n"
                   "        held += message * number\n"
                   "    with s as same:\n"
                   "        return list(same)\n\n"
                   "def wrong(s: Set) -> None:\n"
                   "    s.insert('7', b'')\n"
                   "    s.insert(7, 'seven')\n"
                   "    s.get(7).decode()\n")
    done = subprocess.run([*check, f"{folder}/use.py"], capture_output=True, text=True,
                          env={**os.environ, "MYPYPATH": f"{ROOT}/bindings/python"})
    found = [line.split(":")[1] for line in done.stdout.splitlines() if ": error:" in line]
    so(found == ["12", "13", "14"], "the types show three wrong calls and no other", done.stdout, done.stderr)


def documentation(folder):
    os.chdir(folder)
    failed, tried = doctest.testmod(orderset)
    so(failed == 0 and tried > 10, "the examples of the documentation are right", failed, tried)
    for name, thing in inspect.getmembers(orderset):
        if name in orderset.__all__ and inspect.isclass(thing):
            so(thing.__doc__, f"{name} has documentation")


# ---- a dict, call by call

class Plain:
    def __init__(self, slots, layout):
        self.slots, self.layout, self.map = slots, layout, {}
        self.most = 80 if layout == 1 else 72
        bits = 64 if layout == 1 else 128
        self.keys = random.sample([*range(12), *(random.getrandbits(bits) for _ in range(8)), (1 << bits) - 1], 12)

    def any_key(self):
        return random.choice(self.keys) if random.randrange(40) else 1 << 64 | random.getrandbits(64)

    def any_value(self):
        if random.randrange(4) == 0:
            return struct.pack("<3Q", random.randrange(1, 4), random.randrange(5), random.randrange(5))
        size = random.randrange(self.most + 1) if random.randrange(20) else self.most + random.randrange(1, 30)
        return random.choice([bytes, bytearray, lambda b: memoryview(bytes(b))])(random.randbytes(size))

    def order(self, key):
        value = self.map.get(key, b"")
        state, ordered, filled = struct.unpack("<3Q", value) if len(value) == 24 else (0, 0, 0)
        return (state, ordered, filled) if state in (1, 2) and filled < ordered else None

    def wide(self, key):
        return self.layout == 1 and key >= 1 << 64

    def full(self, new=1):
        return len(self.map) + new >= self.slots

    # each gives what is due, a number or an answer, and makes the change where it is one

    def write(self, key, value, replace):
        if self.wide(key):
            return 1015
        if len(value) > self.most:
            return 10
        if (key in self.map) != replace:
            return 21 if replace else 20
        if not replace and self.full():
            return 28
        self.map[key] = bytes(value)
        return None

    def remove(self, key):
        return 1015 if self.wide(key) else self.map.pop(key, None) is not None

    def book_new(self, key, quantity):
        due = 1015 if self.wide(key) else 17 if key in self.map else 19 if quantity == 0 else 28 if self.full() else None
        if due is None:
            self.map[key] = struct.pack("<3Q", 1, quantity, 0)
        return due

    def step(self, key, name, quantity):
        order = self.order(key)
        if self.wide(key) or not order:
            return 1015 if self.wide(key) else 18
        state, ordered, filled = order
        if name == "book_acknowledge":
            self.map[key] = struct.pack("<3Q", 2, ordered, filled)
            return state == 1
        if name == "book_fill" and not 0 < quantity <= ordered - filled:
            return 19
        if name == "book_fill" and quantity < ordered - filled:
            self.map[key] = struct.pack("<3Q", state, ordered, filled + quantity)
        else:
            del self.map[key]
        return None

    def basket(self, items):
        """Each is tested for all keys before the next."""
        keys = [item.key for item in items]
        if not 0 < len(items) <= 8:
            return 26
        for number, bad in (1015, any(map(self.wide, keys))), (26, any(item.kind not in (1, 2, 3) for item in items)), \
                (27, len(set(keys)) < len(keys)), (10, any(item.kind != 3 and len(item.value) > self.most for item in items)):
            if bad:
                return number
        for item in items:
            if (item.key in self.map) != (item.kind != 1):
                return 20 if item.kind == 1 else 21
        if self.full(sum(item.kind == 1 for item in items)):
            return 28
        return None

    def take(self, items):
        for item in items:
            if item.kind == 3:
                del self.map[item.key]
            else:
                self.map[item.key] = bytes(item.value)


def given(call, *arguments):
    """What a call gives: its answer, or the number of its refusal, of type Number."""
    try:
        return call(*arguments)
    except Error as error:
        so(error.errno is None, "a refusal has no errno", error)
        return error.number


def same(got, due):
    return got == due and type(got) is type(due)


def any_basket(plain):
    size = random.randrange(11) if random.randrange(12) == 0 else random.randrange(1, 9)
    items = []
    for key in random.sample(plain.keys, min(size, len(plain.keys))):
        key = key if random.randrange(40) else plain.any_key()
        kind = (2 + random.randrange(2) if key in plain.map else 1) if random.randrange(25) else random.randrange(5)
        items.append(Item(Kind(kind), key, b"" if kind == 3 else plain.any_value()))
    return items + items[:1] * (random.randrange(25) == 0)


def one_call(orders, plain):
    key, value = plain.any_key(), plain.any_value()
    quantity = random.choice([0, 1, 2, 3, 5, (1 << 64) - 1])
    name = random.choice(["insert", "replace", "remove", "book_new", "book_acknowledge", "book_fill", "book_fill",
                          "book_withdraw", "basket", "basket"])
    if name == "basket":
        items = any_basket(plain)
        due, got = plain.basket(items), given(orders.basket, random.choice([list, tuple, iter])(items))
        if due is None and got == 28:
            return  # some spare slots may not be taken
        if due is None:
            plain.take(items)
    elif name in ("insert", "replace"):
        due, got = plain.write(key, value, name == "replace"), given(getattr(orders, name), key, value)
    elif name == "remove":
        due, got = plain.remove(key), given(orders.remove, key)
    elif name == "book_new":
        due, got = plain.book_new(key, quantity), given(orders.book_new, key, quantity)
    else:
        arguments = [key, quantity] if name == "book_fill" else [key]
        due, got = plain.step(key, name, quantity), given(getattr(orders, name), *arguments)
    due = Number(due) if type(due) is int else due
    so(same(got, due), f"{name} of {key} gives {due!r}", got, plain.map)


def shows(orders, plain, mode):
    """Everything that the file tells is what the dict has."""
    records = list(orders)
    so({record.key: record.value for record in records} == plain.map, "an iteration gives the map", records, plain.map)
    so([r.slot for r in records] == sorted({r.slot for r in records}), "the slots rise", records)
    for record in records:
        so(record.slot_class is SlotClass.LIVE and record.fault == 0 and type(record.value) is bytes, "an order is live", record)
        order = plain.order(record.key)
        so(record.order() == (order and Order(State(order[0]), *order[1:])), "order knows an order", record)
        so(str(record.key) == (f"{int(record.key):#034x}" if plain.layout == 2 else f"{int(record.key)}"),
           "a key is printed as the tools print it", record.key)
    for key in plain.keys:
        held, place = plain.map.get(key), orders.locate(key)
        so(same(orders.get(key), held) and (key in orders) == (held is not None), f"get of {key} gives the value", held)
        so((place is None) == (held is None), f"locate of {key}", place)
        if place:
            record = orders.slot(place.slot)
            so((record.key, record.version, record.value) == (key, place.version, held), "slot gives what locate finds", record)
            so(0 < orders.compared <= len(plain.map), "locate compares slots", orders.compared)
    told = orders.statistics()
    so(orders.count == told.live == told.count[SlotClass.LIVE] == len(plain.map) and orders.layout == told.layout == plain.layout
       and orders.room == plain.slots - 1 - len(plain.map) and told.spare == plain.slots - len(plain.map)
       and told.slots == plain.slots == sum(told.count.values()) and told.bytes == 128 * (plain.slots + 1)
       and told.mode is mode and (told.flush is Flush.NONE) == (mode is not Mode.WRITE) and told.compared == orders.compared
       and told.refusal == told.error == 0, "the statistics are those of the map", told, plain.map)


def sets(folder):
    path, other = pathlib.Path(folder, "set.img"), pathlib.Path(folder, "other.img")
    for history in range(HISTORIES):
        plain = Plain(random.choice([2, 3, 6, 13, 40]), 1 + history % 2)
        Set.create(path, plain.slots, plain.layout)
        orders = Set(path, Mode.WRITE)
        for step in range(CALLS):
            one_call(orders, plain)
            if random.randrange(20) == 0:
                shows(orders, plain, Mode.WRITE)
                with Set(path, Mode.LIVE) as copied:
                    shows(copied, plain, Mode.LIVE)
                    random.choice([orders, copied]).snapshot(other)
                with Set(other) as copied:
                    shows(copied, plain, Mode.READ)
                other.unlink()
            if random.randrange(30) == 0:
                orders.close()
                for mode in Mode.READ, Mode.INSPECT:
                    with Set(str(path), mode) as copied:
                        shows(copied, plain, mode)
                orders = Set(os.fsencode(path), Mode.WRITE)
        shows(orders, plain, Mode.WRITE)
        orders.close()
        path.unlink()


def logs(folder):
    path = f"{folder}/messages.log"
    for _ in range(LOGS):
        cells, told = random.choice([2, 3, 5, 30]), []
        Log.create(path, cells)
        log = Log(path, Mode.WRITE)
        for _ in range(APPENDS):
            message = random.randbytes(random.randrange(0, 386) if random.randrange(4) else random.randrange(4))
            due = len(told) + 1 if 0 < len(message) <= 384 else Number.BAD_MESSAGE
            so(same(given(log.append, message), due), f"append of {len(message)} bytes gives {due}", told)
            if due is not Number.BAD_MESSAGE:
                told.append(message)
            if random.randrange(12) == 0:
                log.close()
                log = Log(path, random.choice(list(Mode)))
                first = max(1, len(told) - cells + 2)
                so(log.range() == range(first, len(told) + 1), "the numbers that can be read", log.range(), first, len(told))
                so(list(log) == list(enumerate(told, 1))[first - 1:], "an iteration gives the messages", told)
                for number in {0, first - 1, *range(first, len(told) + 1), len(told) + 1, (1 << 64) - 1}:
                    due = told[number - 1] if first <= number <= len(told) else Number.NO_MESSAGE
                    so(same(given(log.read, number), due), f"read of {number}", told)
                s = log.statistics()
                so((s.cells, s.bytes, s.first, s.last, s.error) == (cells, 448 * cells, first, len(told), 0), "statistics", s)
                if s.mode is not Mode.WRITE:
                    refused(1014, log.append, b"message")
                    log.close()
                    log = Log(path, Mode.WRITE)
        log.close()
        os.remove(path)


# ---- files, locks, modes, errors

def files(folder):
    path, other = f"{folder}/set.img", f"{folder}/other"
    error = refused(1010, Set, path, Mode.WRITE)
    so(error.errno == errno.ENOENT and str(error) == f"a call of the system failed (1010): {os.strerror(errno.ENOENT)}",
       "an error has errno and its words", error)
    again = pickle.loads(pickle.dumps(error))
    so((again.number, again.errno, str(again)) == (error.number, error.errno, str(error)), "an error is pickled", again)
    so(error.errno == refused(1010, Log, path).errno == errno.ENOENT, "a log that is missing has errno")
    so(Number(4711) == 4711 and str(Error(4711)) == "a number that is not defined (4711)", "a number of a later library is told")
    for slots, layout, due in (1, 1, 1), (65536, 1, 1), (0, 1, 1), ((1 << 32) - 1, 1, 1), (6, 0, 32), (6, 3, 32):
        refused(due, Set.create, path, slots, layout)
    for cells in 0, 1, 1001, (1 << 32) - 1:
        refused(30, Log.create, path, cells)
    so(os.listdir(folder) == [], "nothing was made", os.listdir(folder))
    Set.create(path, 6)
    refused(1012, Set.create, path, 6)
    refused(1012, Log.create, path, 6)
    refused(1018, Log, path)
    refused(1013, Set, folder)
    for mode in 3, 5, 7, (1 << 32) - 1:
        refused(1020, Set, path, mode)
        refused(1020, Log, path, mode)
    with Set(path, Mode.WRITE) as orders:
        refused(1011, Set, path, Mode.WRITE)
        refused(1011, Set, path)
        orders.insert(7, b"seven")
        refused(1012, orders.snapshot, path)
        place = orders.locate(7)
        so(orders.slot(place.slot).value == b"seven", "a slot is read")
        for slot in 0, 7, (1 << 32) - 1:
            refused(1019, orders.slot, slot)
    reader, before = Set(path), bytes_of(path)
    for call in (reader.insert, 8, b""), (reader.replace, 7, b""), (reader.remove, 7), (reader.basket, [Item.remove(7)]), \
            (reader.book_new, 8, 1), (reader.book_fill, 8, 1), (reader.book_withdraw, 8), (reader.book_acknowledge, 8):
        refused(1014, *call)
    so(bytes_of(path) == before, "a reader changes nothing")
    with Set(path, Mode.WRITE) as orders:
        so(orders.remove(7) is True and orders.remove(7) is False, "remove tells whether the key was held")
    so(reader.get(7) == b"seven", "a reader sees the file as it was")
    damaged = bytearray(before)
    damaged[128 * place.slot + 16] = 3  # the kind
    with open(other, "wb") as file:
        file.write(damaged)
    refused(22, Set, other, Mode.WRITE)
    with Set(other, Mode.INSPECT) as orders:
        told = orders.statistics()
        so((told.refusal, told.fault_slot, told.live) == (22, place.slot, 0), "an inspection tells the refusal", told)
        so(orders.slot(place.slot).fault == 22 and orders.slot(place.slot).slot_class is SlotClass.UNKNOWN, "and the slot")
        for call in (orders.get, 7), (orders.locate, 7), (list, orders), (orders.insert, 7, b""):
            refused(22, *call)
        so(orders.count == orders.room == 0 and orders.layout == 1, "of a refused file nothing is counted")
    so(Order(State.SENT, 1, 2).open == 0 and Order(State.SENT, 5, 2).open == 3, "what is open of an order")
    so(Order.of(b"") is None and Order.of(struct.pack("<3Q", 2, 5, 1)) == Order(State.ACKNOWLEDGED, 5, 1), "an order of bytes")
    key = pickle.loads(pickle.dumps(Key(7, 2)))
    so(key == 7 and str(key) == "0x" + "7".zfill(32) and hash(key) == hash(7) and type(key + 1) is int, "a key is an int", key)


def closing(folder):
    """A file is closed by close, by with, also where an exception ends it, and when nothing refers to it any more."""
    path, log_path = f"{folder}/set.img", f"{folder}/messages.log"
    Set.create(path, 6)
    Log.create(log_path, 6)
    orders, log = Set(path, Mode.WRITE), Log(log_path, Mode.WRITE)
    orders.insert(7, b"seven")
    log.append(b"one")
    so(orders.closed is log.closed is False, "a file is open")
    step, messages = iter(orders), iter(log)
    next(step), next(messages)
    for file in orders, log, orders, log:
        file.close()
        so(file.closed is True, "a file is closed")
    for call in (next, step), (next, iter(orders)), (orders.insert, 8, b""), (orders.replace, 7, b""), (orders.remove, 7), (orders.get, 7), \
            (orders.locate, 7), (orders.basket, [Item.remove(7)]), (orders.book_new, 8, 1), (orders.book_fill, 8, 1), \
            (orders.book_acknowledge, 8), (orders.book_withdraw, 8), (orders.slot, 1), (orders.statistics,), (orders.__enter__,), \
            (orders.__contains__, 7), (orders.snapshot, f"{folder}/other"), (log.append, b"two"), (log.read, 1), (log.range,), (log.statistics,), (next, iter(log)), \
            (log.__enter__,), *((getattr, orders, name) for name in ("compared", "layout", "count", "room")):
        so("closed" in raises(ValueError, *call), f"{call} of a closed file is refused")
    so(list(messages) == [], "the iteration of the one message ended")
    with contextlib.suppress(KeyError), Set(path, Mode.WRITE) as orders:
        raise KeyError
    so(orders.closed, "an exception closes the file")
    for _ in range(3):
        Set(path, Mode.WRITE).insert
        Log(log_path, Mode.WRITE).append
    so(next(iter(Set(path, Mode.WRITE))).key == 7, "an iteration keeps its file open")
    gc.collect()
    for kind in Set, Log:
        file = kind.__new__(kind)
        refused(1010, file.__init__, f"{folder}/none")
        so(file.closed, "a file that could not be opened is closed")
        for call in (file.statistics,), (list, file), (getattr(file, "get", None) or file.read, 7):
            so("closed" in raises(ValueError, *call), "a file that could not be opened is refused")
        raises(AttributeError, kind.__new__(kind).statistics)
    orders, log = Set(path, Mode.WRITE), Log(log_path, Mode.WRITE)
    for file, how in itertools.product((orders, log), (copy.copy, copy.deepcopy, pickle.dumps)):
        raises(TypeError, how, file)
    so(orders.get(7) == b"seven" and log.read(1) == b"one", "it is open still")
    done = subprocess.run([sys.executable, "-c", "import orderset"], env={**os.environ, "ORDERSET_LIBRARY": "/none/none.so",
                          "PYTHONPATH": f"{ROOT}/bindings/python"}, capture_output=True, text=True)
    so(done.returncode == 1 and "ImportError" in done.stderr and "ORDERSET_LIBRARY" in done.stderr, "a missing library is told", done.stderr)


# ---- arguments

class Odd:
    """What is a number, or a path, by a method that fails or closes the file."""

    def __init__(self, act):
        self.act = act

    def __index__(self):
        return self.act()

    __fspath__ = __index__


def fails():
    raise KeyError("odd")


def arguments(folder):
    """Of every wrong kind: a TypeError or a ValueError, and the file stays as it was."""
    path, log_path = f"{folder}/set.img", f"{folder}/messages.log"
    Set.create(path, 6, 2)
    Log.create(log_path, 6)
    orders, log = Set(path, Mode.WRITE), Log(log_path, Mode.WRITE)
    orders.book_new(7, 100)
    log.append(b"one")
    before = bytes_of(path) + bytes_of(log_path)
    no_numbers = [None, "7", b"7", 7.0, 7j, [], {}, object(), int, ..., memoryview(b"7")]
    keys = [(-1, ValueError), (1 << 128, ValueError), (-1 << 200, ValueError), (10 ** 5000, ValueError)]
    words = [(-1, ValueError), (1 << 64, ValueError), (1 << 64 | 5, ValueError), (10 ** 5000, ValueError)]
    halves = [(-1, ValueError), (1 << 32, ValueError), (1 << 32 | 1, ValueError)]
    wrong = [(value, TypeError) for value in no_numbers]
    no_bytes = [(value, TypeError) for value in (None, "text", 7, 7.0, [1, 2], {}, object(), Key(7))]
    places = [(orders.get, 0, [7], keys), (orders.locate, 0, [7], keys), (orders.remove, 0, [7], keys), (orders.__contains__, 0, [7], keys),
              (orders.insert, 0, [7, b""], keys), (orders.replace, 0, [7, b""], keys), (orders.book_new, 0, [8, 1], keys),
              (orders.book_new, 1, [8, 1], words), (orders.book_acknowledge, 0, [7], keys), (orders.book_fill, 0, [7, 1], keys),
              (orders.book_fill, 1, [7, 1], words), (orders.book_withdraw, 0, [7], keys), (orders.slot, 0, [1], halves),
              (log.read, 0, [1], words), (Key, 0, [7], keys)]
    for call, place, right, numbers in places:
        for value, kind in wrong + numbers:
            raises(kind, call, *right[:place], value, *right[place + 1:])
        raises(KeyError, call, *right[:place], Odd(fails), *right[place + 1:])
        raises(TypeError, call, *right[:place], Odd(lambda: None), *right[place + 1:])
        raises(TypeError, call)
        raises(TypeError, call, *right, 1, 2, 3)
    for call, right in (orders.insert, [8]), (orders.replace, [7]), (log.append, []), (Order.of, []):
        for value, kind in no_bytes:
            raises(kind, call, *right, value)
    for size in 73, 81, 1 << 20:
        refused(10, orders.insert, 8, bytes(size))
        refused(10, orders.replace, 7, bytearray(size))
        refused(10, orders.basket, [Item.insert(8, bytes(size))])
    for size in 0, 385, 1 << 20:
        refused(29, log.append, bytes(size))
    refused(28, lambda: [orders.basket([Item.insert(i, b"") for i in range(10, 16)])])
    for items, kind in (None, TypeError), (7, TypeError), ([7], TypeError), (["x"], TypeError), ([None], TypeError), \
            ([Item("x", 7)], TypeError), ([Item(1, "7")], TypeError), ([Item(1, 8, "x")], TypeError), ([Item(1, 8, None)], TypeError), \
            ([Item(1, -1)], ValueError), ([Item(1, 1 << 128)], ValueError), ([Item(-1, 8)], ValueError), ([Item(1 << 32 | 1, 8)], ValueError), \
            ([Item(1, Odd(lambda: 1 << 200))], ValueError), (Item.remove(7), TypeError):
        raises(kind, orders.basket, items)
    for items, due in ([], 26), ([Item.remove(7)] * 9, 26), (itertools.repeat(Item.remove(7)), 26), ([Item(0, 7)], 26), ([Item(4, 7)], 26), \
            ([Item.remove(7)] * 2, 27), ([Item.insert(7, b"")], 20), ([Item.remove(8)], 21):
        refused(due, orders.basket, items)
    for make in (lambda p: Set.create(p, 6)), (lambda p: Log.create(p, 6)), Set, Log, orders.snapshot:
        for name, kind in (None, TypeError), (7, TypeError), ([], TypeError), (f"{folder}/new\0img", ValueError), (b"new\0img", ValueError), \
                ("\0", ValueError), ("\ud800", ValueError), (Odd(lambda: 7), TypeError), (Odd(fails), KeyError):
            raises(kind, make, name)
        so(refused(1010, make, "").errno == errno.ENOENT, "an empty name is of no file")
        so(refused(1010, make, "n" * 5000).errno == errno.ENAMETOOLONG, "a name that is too long is refused")
    for make, right, place in (Set.create, [f"{folder}/new", 6, 1], 1), (Set.create, [f"{folder}/new", 6, 1], 2), \
            (Log.create, [f"{folder}/new", 6], 1), (Set, [path, 0], 1), (Log, [path, 0], 1):
        for value, kind in wrong + halves:
            raises(kind, make, *right[:place], value, *right[place + 1:])
    so(sorted(os.listdir(folder)) == ["messages.log", "set.img"], "no file was made", os.listdir(folder))
    so(bytes_of(path) + bytes_of(log_path) == before, "the files are as they were")
    so(orders.get(True) is None and orders.get(Odd(lambda: 7)) is not None, "what is an integer is a key")
    raises(ValueError, orders.get, Odd(lambda: orders.close() or 7))
    raises(ValueError, log.read, Odd(lambda: log.close() or 1))


# ---- threads, fork, signals

def threads(folder):
    """Calls of several threads come one after another."""
    path = f"{folder}/set.img"
    Set.create(path, 400)
    failed, orders = [], Set(path, Mode.WRITE)

    def work(part):
        try:
            for i in range(60):
                orders.insert(4 * i + part, bytes([part]))
                orders.get(4 * i + part)
                if i % 3 == 0:
                    orders.remove(4 * i + part)
                if i % 20 == 0:
                    sum(1 for _ in orders)
        except BaseException as error:
            failed.append(error)

    workers = [threading.Thread(target=work, args=(part,)) for part in range(4)]
    for worker in workers:
        worker.start()
    for worker in workers:
        worker.join()
    so(failed == [], "threads share a file", failed)
    due = {4 * i + part: bytes([part]) for part in range(4) for i in range(60) if i % 3}
    so({record.key: record.value for record in orders} == due and orders.count == len(due), "what all of them made is there")


def closed_meanwhile(folder):
    """Another thread closes the file: every call is made, or refused."""
    path = f"{folder}/set.img"
    Set.create(path, 40)
    for _ in range(20):
        orders, told = Set(path, Mode.WRITE), []

        def work():
            try:
                while True:
                    orders.remove(1)
                    orders.insert(1, b"one")
            except ValueError as error:
                told.append(str(error))

        worker = threading.Thread(target=work)
        worker.start()
        time.sleep(random.random() / 500)
        orders.close()
        worker.join()
        so(told == ["the file is closed"], "a thread is told that the file is closed", told)
    orders, told, begun = Set(path, Mode.WRITE), [], threading.Event()
    worker = threading.Thread(target=lambda: told.append(
        orders._ask(lambda handle: (begun.set(), time.sleep(0.2), orders._finalizer.alive))))
    worker.start()
    begun.wait()
    orders.close()
    worker.join()
    so(told == [(None, None, True)], "a close waits for the call of another thread", told)


def by_signals(folder):
    """A signal handler makes calls, and in the end closes the file: the call under way ends first."""
    path = f"{folder}/set.img"
    Set.create(path, 40)
    orders, seen = Set(path, Mode.WRITE), []

    def handle(number, frame):
        seen.append(orders.get(1))
        if len(seen) > 40:
            orders.close()

    signal.signal(signal.SIGALRM, handle)
    signal.setitimer(signal.ITIMER_REAL, 0.001, 0.0007)
    told = ""
    try:
        while True:
            orders.insert(1, b"one")
            orders.replace(1, b"two")
            orders.remove(1)
    except ValueError as error:
        told = str(error)
    signal.setitimer(signal.ITIMER_REAL, 0)
    so(told == "the file is closed" and set(seen) <= {None, b"one", b"two"} and len(seen) > 40, "a handler makes calls", told, seen)
    with Set(path, Mode.WRITE) as orders:
        so(orders.get(1) in (None, b"one", b"two"), "the file is opened again")
        told = orders._ask(lambda handle: (orders.close(), orders.closed, orders._finalizer.alive))
        so(told == (None, True, True) and not orders._finalizer.alive, "a close inside a call waits for its end", told)


def forked(folder):
    """A process made by fork does not use the file of its parent, and may close it."""
    path = f"{folder}/set.img"
    Set.create(path, 6)
    orders = Set(path, Mode.WRITE)
    orders.insert(7, b"seven")
    held = threading.Event()

    def hold():
        with orders._lock:
            held.set()
            time.sleep(1)

    holder = threading.Thread(target=hold)
    holder.start()
    held.wait()
    child = os.fork()
    if child == 0:
        signal.alarm(10)  # where it waits for a lock
        so("another process" in raises(ValueError, orders.insert, 8, b"eight"), "a child is refused")
        for call in (orders.get, 7), (list, orders), (orders.statistics,), (getattr, orders, "count"):
            so("another process" in raises(ValueError, *call), "a child is refused")
        orders.close()
        so(orders.closed, "a child closes the file")
        os._exit(0)
    so(os.waitpid(child, 0)[1] == 0, "a child is refused, also where a thread had the lock")
    holder.join()
    refused(1011, Set, path, Mode.WRITE)
    orders.insert(8, b"eight")
    so(orders.get(7) == b"seven" and orders.count == 2, "the parent goes on")


# ---- kills

def told_until(folder, kill, path, seed):
    """A process makes calls and says each before it begins and when it is answered; it is killed. What it said."""
    reading, writing = os.pipe()
    child = os.fork()
    if child == 0:
        os.close(reading)
        random.seed(seed)
        with Set(path, Mode.WRITE) as orders, Log(f"{path}.log", Mode.WRITE) as log:
            for i in itertools.count(1):
                key, value = random.randrange(10), random.randbytes(random.randrange(81))
                others = [k for k in range(10, 13) if k not in orders]
                os.write(writing, f"begin {key} {value.hex()}\n".encode())
                (orders.replace if key in orders else orders.insert)(key, value)
                os.write(writing, b"done\n")
                items = [Item.insert(k, value) for k in others] or [Item.remove(k) for k in range(10, 13)]
                os.write(writing, f"basket {len(others)} {value.hex()}\n".encode())
                orders.basket(items)
                os.write(writing, b"done\n")
                os.write(writing, f"append {i} {value.hex()}\n".encode())
                log.append(value + b".")
                os.write(writing, b"done\n")
    os.close(writing)
    lines, rest = [], b""
    while len(lines) < kill:
        rest += os.read(reading, 4096)
        *more, rest = rest.split(b"\n")
        lines += more
    if random.randrange(2):
        time.sleep(random.random() / 1000)
    os.kill(child, signal.SIGKILL)
    while more := os.read(reading, 4096):
        rest += more
    os.close(reading)
    so(os.waitpid(child, 0)[1] == signal.SIGKILL, "the process was killed")
    return [line.decode() for line in lines + rest.split(b"\n")[:-1]]


def kills(folder):
    """What was answered is there; the call that was not, wholly or not at all."""
    path, plain, messages = f"{folder}/set.img", {}, []
    Set.create(path, 40)
    Log.create(f"{path}.log", 9)
    for run in range(KILLS):
        lines = told_until(folder, random.randrange(1, 60), path, random.getrandbits(32))
        struck = None
        for line in lines:
            if line != "done":
                what, key, value = line.split(" ")
                struck = what, int(key), bytes.fromhex(value)
                continue
            plain, messages, struck = *after(struck, plain, messages), None
        with Set(path, Mode.WRITE) as orders, Log(f"{path}.log", Mode.WRITE) as log:
            seen, said = {record.key: record.value for record in orders}, list(log)
        later, more = after(struck, plain, messages) if struck else (plain, messages)
        so(seen in (plain, later), "what was answered is there", seen, plain, struck)
        so([message for _, message in said] in (messages[-8:], more[-8:]), "the messages that were answered are there", said, struck)
        plain, messages = seen, more if said and said[-1][1] == more[-1] and said[-1][0] == len(more) else messages


def after(call, plain, messages):
    """The map and the messages after a call."""
    what, key, value = call
    if what == "append":
        return plain, [*messages, value + b"."]
    if what == "begin":
        return {**plain, key: value}, messages
    if key:
        return {**plain, **{k: value for k in range(10, 13) if k not in plain}}, messages
    return {k: v for k, v in plain.items() if k < 10}, messages


# ---- a sync that fails

SYNCS = """
import errno, os, sys
from orderset import Error, Flush, Log, Mode, Number, Set

def number(call, *arguments):
    try:
        call(*arguments)
    except Error as error:
        return int(error.number), error.errno
    return 0, None

Set.create("set.img", 6), Log.create("log", 6)
orders, log = Set("set.img", Mode.WRITE), Log("log", Mode.WRITE)
orders.insert(7, b"seven"), log.append(b"one")
if orders.statistics().flush is not Flush.MSYNC:
    print("no sync")
    sys.exit()
os.environ["PRELOAD_NO_SYNC"] = "1"
print(number(orders.insert, 8, b"eight"), number(log.append, b"two"))
del os.environ["PRELOAD_NO_SYNC"]
print(number(orders.get, 7), number(orders.insert, 9, b""), number(list, orders), number(log.read, 1), number(list, log))
print(orders.statistics().error, log.statistics().error, orders.count, orders.room, orders.layout)
orders.close(), log.close()
with Set("set.img", Mode.WRITE) as orders, Log("log", Mode.WRITE) as log:
    print(orders.get(7), orders.get(8) in (None, b"eight"), log.read(1), orders.insert(9, b"nine"))
"""


def syncs(folder):
    done = subprocess.run([sys.executable, "-c", SYNCS], cwd=folder, capture_output=True, text=True,
                          env={**os.environ, "PYTHONPATH": os.path.abspath(f"{ROOT}/bindings/python"), "LD_PRELOAD": PRELOAD})
    due = ("(1016, 5) (1016, 5)\n(1017, None) (1017, None) (1017, None) (1017, None) (1017, None)\n5 5 2 3 1\n"
           "b'seven' True b'one' None\n")
    so(done.returncode == 0 and done.stdout in (due, "no sync\n"), "a sync that fails is told, and stops the file", done.stdout, done.stderr)


# ---- the parts

PARTS = header, types, documentation, sets, logs, files, closing, arguments, threads, closed_meanwhile, by_signals, forked, kills, syncs


def run_part(part, folder, seed):
    """In a process of its own; the comparisons that it made."""
    global count
    reading, writing = os.pipe()
    child = os.fork()
    if child == 0:
        status = 1
        try:
            random.seed(f"{seed} {part.__name__}")
            part(folder)
            os.write(writing, str(count).encode())
            status = 0
        except SystemExit as ended:
            status = ended.code
        except BaseException:
            sys.excepthook(*sys.exc_info())
            print(f"NOT SO: {part.__name__} ends without an exception")
        finally:
            sys.stdout.flush()
            os._exit(status)
    os.close(writing)
    told = os.read(reading, 64)
    os.close(reading)
    status = os.waitstatus_to_exitcode(os.waitpid(child, 0)[1])
    if status < 0:
        print(f"NOT SO: the interpreter does not crash in the part {part.__name__}: signal {-status}")
    if status:
        sys.exit(1)
    return int(told)


def main():
    global PRELOAD
    tools, seed = os.path.abspath(sys.argv[1]), int(sys.argv[2]) if len(sys.argv) > 2 else random.getrandbits(32)
    PRELOAD = os.environ.get("SAN_LIBRARY", "") + ":" + os.path.join(tools, "preload.so")
    print(f"python: seed {seed}", flush=True)
    total = 0
    for part in PARTS:
        with tempfile.TemporaryDirectory(dir=tools) as folder:
            total += run_part(part, folder, seed)
    print(f"python: {total} comparisons, seed {seed}")


if __name__ == "__main__":
    main()
