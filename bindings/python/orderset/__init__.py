"""A persistent order set and a message log, each in a file: what a call has returned is there after a power cut or a
kill, and a call that is struck is there wholly or not at all. The calls are those of orderset.h, which says more of
files, locks and restarts: orderset_insert(set, ...) is Set.insert(...), orderset_log_read(log, ...) is Log.read(...),
and so on. The library behind it is proved; its handle and this module are not.

>>> from orderset import Error, Item, Log, Mode, Number, Set
>>> Set.create("orders.img", 1000)  # once: room for 999 open orders, layout 1
>>> with Set("orders.img", Mode.WRITE) as orders:
...     orders.book_new(7, 100)
...     orders.book_fill(7, 40)
...     orders.basket([Item.insert(8, b"eight"), Item.insert(9, b"nine")])  # both or neither
...     for record in orders:
...         print(f"{record.key}: {record.order() or record.value}")
7: Order(state=<State.SENT: 1>, ordered=100, filled=40)
8: b'eight'
9: b'nine'

A call that is refused raises an Error with its number and its words, and changed nothing:

>>> orders = Set("orders.img", Mode.WRITE)
>>> try:
...     orders.insert(8, b"again")
... except Error as error:
...     print(int(error.number), error.number is Number.KEY_EXISTS, error.words)
20 True the key of an insert is held
>>> orders.get(8), orders.get(10), 7 in orders, orders.count, orders.room
(b'eight', None, True, 3, 996)
>>> orders.close()

A log:

>>> Log.create("messages.log", 1000)  # once: the last 999 messages can be read
>>> with Log("messages.log", Mode.WRITE) as log:
...     number = log.append(b"8=FIX.4.4")
...     print(log.read(number), list(log))
b'8=FIX.4.4' [(1, b'8=FIX.4.4')]

An argument of another type is a TypeError. A ValueError is a number that is negative or too large for any call, a path
with a zero byte, a file that is closed, and one that was opened by another process: a process made by fork does not
use the files of its parent, and keeps their locks until it closes them, ends or calls exec. Threads may share a file:
its calls come one after another.

After Number.NOT_DURABLE every call but close, statistics, count, room, layout and compared is refused: open the file
again, and ask whether the call was done. So after a KeyboardInterrupt, or another exception of a signal handler, in a
call: it is perhaps done, although it returned nothing.

The shared library is liborderset.so.1, where the system's loader finds it (LD_LIBRARY_PATH, ldconfig), or the file that
the environment variable ORDERSET_LIBRARY names. Python 3.9 or later; x86-64 Linux; no other module is needed."""
from __future__ import annotations

import builtins
import ctypes
import enum
import itertools
import operator
import os
import threading
import weakref
from ctypes import POINTER, byref, c_char_p, c_int, c_int32, c_size_t, c_uint8, c_uint32, c_uint64, c_void_p
from dataclasses import dataclass
from types import TracebackType
from typing import Any, Iterable, Iterator, Optional, SupportsIndex, Tuple, Type, TypeVar, Union

__all__ = ["BASKET_MAX", "Error", "Flush", "Item", "Key", "Kind", "Log", "LogStatistics", "MESSAGE_MAX", "Mode",
           "Number", "Order", "Place", "Record", "Set", "SlotClass", "State", "Statistics", "VALUE_MAX", "VALUE_MAX_2",
           "version"]

Path = Union[str, bytes, "os.PathLike[str]", "os.PathLike[bytes]"]
Bytes = Union[bytes, bytearray, memoryview]

VALUE_MAX = 80
"""The bytes of a value, at the most."""
VALUE_MAX_2 = 72
"""The same in layout 2."""
MESSAGE_MAX = 384
"""The bytes of a message, at the most."""
BASKET_MAX = 8
"""The keys of a basket, at the most."""

# ---- numbers


class _Numbers(enum.IntEnum):
    """Numbers of the header. One that only a later library has is a member without a name of its own."""

    @classmethod
    def _missing_(cls, value: object) -> Optional[_Numbers]:
        if not isinstance(value, int):
            return None
        member = int.__new__(cls, value)
        member._name_, member._value_ = f"NUMBER_{value}", value
        return member


# from src/refusals.def
class Number(_Numbers):
    """What a call gives where it is not done; an Error has one that is no answer."""

    BAD_IMAGE_LENGTH = 1
    """The length is not 128 * (N + 1) with N from 2 to 65,535: not a file of the set, or cut short or extended."""
    NOT_FORMATTED = 2
    """Word 0 of the header is zero: not a file of the set, or not formatted."""
    BAD_HEADER = 3
    """The header is not the one for this length and layout: not a file of the set, or cut short or extended."""
    BAD_INDEX_LENGTH = 4
    """Heads has 0 or more than 65,536 numbers, or next has not N + 1."""
    BAD_MARK = 5
    """A mark is neither 0 nor 1: the file is damaged."""
    BAD_KIND_BITS = 6
    """The kind word of a slot has bits above bit 23, or its number of records is 1 or over 8: the file is damaged."""
    VERSION_SHARED = 7
    """Of slots with one version the numbers of records differ, or there are more than that, or two have one key: the
    file is damaged."""
    NO_SPARE_SLOT = 8
    """No slot is spare: the file is damaged."""
    EXHAUSTED = 9
    """The next version, or in a log the next number, is 2^63 or more."""
    VALUE_TOO_LONG = 10
    """The value is too long: over 80 bytes, or in layout 2 over 72."""
    INDEX_MISMATCH = 11
    """A chain of the index is not one of this file, or the live count is too low."""
    BUFFER_TOO_SHORT = 13
    """The output is shorter than the value or the message, or a list shorter than its stores."""
    COUNT_TOO_HIGH = 14
    """A count exceeds 8."""
    BAD_STORES = 15
    """The stores are not those of two lines of the image, or one is outside."""
    NEW_KEY_EXISTS = 17
    """The key of a new order is held, by an order or by another value."""
    NO_ORDER = 18
    """The key is not held, or holds no order."""
    BAD_QUANTITY = 19
    """The quantity is zero, or more than is open."""
    KEY_EXISTS = 20
    """The key of an insert is held."""
    KEY_MISSING = 21
    """The key of a replace, or in a basket of a remove, is not held."""
    BAD_KIND = 22
    """The kind of a slot is neither put nor remove: the file is damaged."""
    BAD_VALUE_LENGTH = 23
    """The length of a slot is too high, or a remove has one: the file is damaged."""
    BAD_TAIL = 24
    """A value byte of a slot past its length is not zero: the file is damaged."""
    TOO_MANY_BROKEN = 25
    """More than eight slots are broken or void: no power cut leaves that; look at the memory or the disk, and whether
    every start made the image durable."""
    BAD_BASKET = 26
    """The basket has no key or more than eight, or an item of a kind that there is not."""
    KEY_TWICE = 27
    """A key comes twice in the basket."""
    FULL = 28
    """No room: too few slots may be taken, or with the new keys no slot would be spare."""
    BAD_MESSAGE = 29
    """The message is empty or over 384 bytes."""
    BAD_LOG_LENGTH = 30
    """The length is not 448 * K with K from 2 to 1,000: not a file of the log, or cut short or extended."""
    NO_MESSAGE = 31
    """No message with this number can be read."""
    BAD_LAYOUT = 32
    """The layout is neither 1 nor 2."""
    BAD_LINE_LENGTH = 33
    """A line has not 64 bytes, or the answer about it not 8."""
    NOT_FOUND = 1000
    """The key is not held: an answer."""
    ALREADY_ACKNOWLEDGED = 1001
    """The order was acknowledged before: an answer."""
    END = 1002
    """There is no further open order: an answer."""
    ERRNO = 1010
    """A call of the system failed."""
    LOCKED = 1011
    """The file is open for writing elsewhere, or is being copied."""
    FILE_EXISTS = 1012
    """There is a file of that name."""
    NOT_REGULAR = 1013
    """Not a regular file."""
    READ_ONLY = 1014
    """The file was not opened for writing."""
    KEY_TOO_WIDE = 1015
    """The key is over 64 bits, and the file is of layout 1."""
    NOT_DURABLE = 1016
    """The call could not be made durable, and is perhaps done: open the file again and ask."""
    STOPPED = 1017
    """An earlier call could not be made durable, or its thread was cancelled in it: open the file again."""
    NOT_A_LOG = 1018
    """A mark is neither 0 nor 1: not a file of the log, or damaged."""
    NO_SLOT = 1019
    """There is no slot of that number."""
    BAD_MODE = 1020
    """The mode is none of read, write, inspect and live."""
    BUSY = 1021
    """The file is written so fast that no look at one moment was possible for a second."""
# end of src/refusals.def


class Mode(_Numbers):
    """How a file is opened."""

    READ = 0
    """A copy, recovered, as the file was at the open; every change is refused."""
    WRITE = 1
    """The file itself, alone."""
    INSPECT = 2
    """A copy for the support desk, also of a file that recovery refuses: then each call but slot, statistics, count,
    room, layout, compared and close is refused by that number. Of a log it is READ."""
    LIVE = 4
    """As READ, without the lock: a file that a gateway has open, as it is at one moment. It may show the call in flight
    before that call is durable. Number.BUSY: the file is written too fast."""


class Flush(_Numbers):
    """How a call becomes durable: by msync, or on non-volatile memory by line flushes and a fence."""

    NONE = 0
    """A copy: nothing does."""
    MSYNC = 1
    CLFLUSH = 2
    CLFLUSHOPT = 3
    CLWB = 4


class SlotClass(_Numbers):
    """What a slot holds."""

    LIVE = 0
    """The value of a held key."""
    HIDDEN = 1
    """A value that a later record of its key hides."""
    REMOVE = 2
    """A record that its key was removed."""
    VOID = 3
    """Of a basket that a cut struck; only in Mode.INSPECT."""
    BROKEN = 4
    """A cut struck the call that wrote it: no error."""
    EMPTY = 5
    """Not used yet."""
    UNKNOWN = 6
    """A whole record of a file that recovery refuses."""


class State(_Numbers):
    """The state of an order."""

    SENT = 1
    ACKNOWLEDGED = 2


class Kind(_Numbers):
    """What a basket does with a key."""

    INSERT = 1
    REPLACE = 2
    REMOVE = 3


# ---- include/orderset.h as it is; tests/python.py holds it against the header


class _Key(ctypes.Structure):
    _fields_ = [("low", c_uint64), ("high", c_uint64)]


class _Item(ctypes.Structure):
    _fields_ = [("kind", c_uint32), ("key", _Key), ("value", c_char_p), ("length", c_size_t)]


class _Record(ctypes.Structure):
    _fields_ = [("slot", c_uint32), ("slot_class", c_uint32), ("fault", c_uint32), ("records", c_uint32), ("key", _Key),
                ("version", c_uint64), ("length", c_uint64), ("value", c_uint8 * VALUE_MAX),
                ("reserved", c_uint64 * 4)]


class _Order(ctypes.Structure):
    _fields_ = [("state", c_uint64), ("ordered", c_uint64), ("filled", c_uint64)]


class _Statistics(ctypes.Structure):
    _fields_ = [("mode", c_uint32), ("flush", c_uint32), ("layout", c_uint32), ("slots", c_uint32), ("heads", c_uint32),
                ("live", c_uint32), ("spare", c_uint32), ("compared", c_uint32), ("opened", c_uint32),
                ("refusal", c_uint32), ("fault_slot", c_uint32), ("error", c_int32), ("next_version", c_uint64),
                ("bytes", c_uint64), ("count", c_uint64 * 6), ("reserved", c_uint64 * 8)]


class _LogStatistics(ctypes.Structure):
    _fields_ = [("mode", c_uint32), ("flush", c_uint32), ("cells", c_uint32), ("error", c_int32), ("bytes", c_uint64),
                ("first", c_uint64), ("last", c_uint64), ("reserved", c_uint64 * 8)]


_CALLS: dict[str, tuple[Any, list[Any]]] = {
    "orderset_strerror": (c_char_p, [c_uint32]),
    "orderset_version": (c_char_p, []),
    "orderset_create": (c_uint32, [c_char_p, c_uint32, c_uint32]),
    "orderset_open": (c_uint32, [c_char_p, c_uint32, POINTER(c_void_p)]),
    "orderset_snapshot": (c_uint32, [c_void_p, c_char_p]),
    "orderset_close": (None, [c_void_p]),
    "orderset_insert": (c_uint32, [c_void_p, _Key, c_char_p, c_size_t]),
    "orderset_replace": (c_uint32, [c_void_p, _Key, c_char_p, c_size_t]),
    "orderset_remove": (c_uint32, [c_void_p, _Key]),
    "orderset_basket": (c_uint32, [c_void_p, POINTER(_Item), c_size_t]),
    "orderset_get": (c_uint32, [c_void_p, _Key, c_void_p, c_size_t, POINTER(c_size_t)]),
    "orderset_locate": (c_uint32, [c_void_p, _Key, POINTER(c_uint32), POINTER(c_uint64)]),
    "orderset_compared": (c_uint32, [c_void_p]),
    "orderset_book_new": (c_uint32, [c_void_p, _Key, c_uint64]),
    "orderset_book_acknowledge": (c_uint32, [c_void_p, _Key]),
    "orderset_book_fill": (c_uint32, [c_void_p, _Key, c_uint64]),
    "orderset_book_withdraw": (c_uint32, [c_void_p, _Key]),
    "orderset_order_of": (c_int, [c_char_p, c_size_t, POINTER(_Order)]),
    "orderset_next": (c_uint32, [c_void_p, POINTER(_Record)]),
    "orderset_slot": (c_uint32, [c_void_p, c_uint32, POINTER(_Record)]),
    "orderset_layout": (c_uint32, [c_void_p]),
    "orderset_count": (c_uint32, [c_void_p]),
    "orderset_room": (c_uint32, [c_void_p]),
    "orderset_stat": (None, [c_void_p, POINTER(_Statistics)]),
    "orderset_log_create": (c_uint32, [c_char_p, c_uint32]),
    "orderset_log_open": (c_uint32, [c_char_p, c_uint32, POINTER(c_void_p)]),
    "orderset_log_close": (None, [c_void_p]),
    "orderset_log_append": (c_uint32, [c_void_p, c_char_p, c_size_t, POINTER(c_uint64)]),
    "orderset_log_read": (c_uint32, [c_void_p, c_uint64, c_void_p, c_size_t, POINTER(c_size_t)]),
    "orderset_log_range": (c_uint32, [c_void_p, POINTER(c_uint64), POINTER(c_uint64)]),
    "orderset_log_stat": (None, [c_void_p, POINTER(_LogStatistics)]),
}


def _load() -> ctypes.CDLL:
    """Not by find_library, which may give a library of another major version."""
    path = os.environ.get("ORDERSET_LIBRARY") or "liborderset.so.1"
    try:
        library = ctypes.CDLL(path, use_errno=True)
        for name, (result, arguments) in _CALLS.items():
            call = getattr(library, name)
            call.restype, call.argtypes = result, arguments
    except (OSError, AttributeError) as error:
        raise ImportError(f"the library orderset cannot be loaded: {error} (ORDERSET_LIBRARY may name it)") from error
    return library


_library = _load()


def version() -> str:
    """The version of the library that runs."""
    return str(_library.orderset_version().decode())


# ---- errors


class Error(Exception):
    """Why a call was refused, or how it failed. A refused call changed nothing; of Number.NOT_DURABLE that is not
    known.

    >>> print(Error(28))
    no room: too few slots may be taken, or with the new keys no slot would be spare (28)"""

    def __init__(self, number: int, errno: Optional[int] = None) -> None:
        super().__init__(number, errno)
        self.number = Number(number)
        self.words = str(_library.orderset_strerror(number).decode())
        """The number in words."""
        self.errno = errno
        """Of Number.ERRNO and Number.NOT_DURABLE, else None."""

    def __str__(self) -> str:
        why = "" if self.errno is None else f": {os.strerror(self.errno)}"
        return f"{self.words} ({int(self.number)}){why}"


def _done(number: int, answer: Optional[Number] = None) -> bool:
    """Right after the call: it is done, or gave that answer, or is refused."""
    if number == 0:
        return True
    if number == answer:
        return False
    has_errno = number in (Number.ERRNO, Number.NOT_DURABLE)
    raise Error(number, ctypes.get_errno() if has_errno else None)


# ---- what calls take: ctypes cuts a number off that is too long for its type, and a path at a zero byte


def _number(number: SupportsIndex, bits: int) -> int:
    given = operator.index(number)
    if not 0 <= given < 1 << bits:
        raise ValueError(f"the number is to be from 0 to 2**{bits} - 1")
    return given


def _key(key: SupportsIndex) -> _Key:
    number = _number(key, 128)
    return _Key(number & (1 << 64) - 1, number >> 64)


def _bytes(value: Bytes) -> bytes:
    return value if type(value) is bytes else memoryview(value).tobytes()


def _path(path: Path) -> bytes:
    name = os.fsencode(path)
    if b"\0" in name:
        raise ValueError("a path has no zero byte")
    return name


# ---- what calls give


class Key(int):
    """A key as a file gives it, an int. It is printed as the tools print it: in layout 1 in decimal digits, in layout 2
    as 0x and 32 hexadecimal digits.

    >>> print(Key(7), Key(7, 2), Key(7, 2) == 7)
    7 0x00000000000000000000000000000007 True"""

    layout: int

    def __new__(cls, number: SupportsIndex, layout: int = 1) -> Key:
        key = super().__new__(cls, _number(number, 128))
        key.layout = layout
        return key

    def __str__(self) -> str:
        return f"{int(self):#034x}" if self.layout == 2 else int.__repr__(self)

    __repr__ = __str__


@dataclass(frozen=True)
class Order:
    """An order of the book: a value of 24 bytes."""

    state: State
    ordered: int
    filled: int

    @staticmethod
    def of(value: Bytes) -> Optional[Order]:
        """The order that the value is, if it is one."""
        given, order = _bytes(value), _Order()
        if not _library.orderset_order_of(given, len(given), byref(order)):
            return None
        return Order(State(order.state), order.ordered, order.filled)

    @property
    def open(self) -> int:
        """What is open of it; nothing where `filled` is above `ordered`, which no order of a file has."""
        return max(self.ordered - self.filled, 0)


@dataclass(frozen=True)
class Record:
    """An open order, or what a slot holds."""

    slot: int
    """Its slot, from 1."""
    slot_class: SlotClass
    fault: int
    """What recovery refuses of this slot by itself: 5, 6, 22, 23 or 24; else 0."""
    records: int
    """Of the basket that wrote it, 2 to 8; 0: it was written alone."""
    key: Key
    version: int
    """Of the call that wrote it."""
    value: bytes

    def order(self) -> Optional[Order]:
        """The value as an order of the book, if it is one."""
        return Order.of(self.value)


@dataclass(frozen=True)
class Place:
    """Where a key stands."""

    slot: int
    version: int


@dataclass(frozen=True)
class Item:
    """One key of a basket. A remove has no value.

    >>> Item.remove(7)
    Item(kind=<Kind.REMOVE: 3>, key=7, value=b'')"""

    kind: Kind
    key: int
    value: Bytes = b""

    @staticmethod
    def insert(key: int, value: Bytes) -> Item:
        return Item(Kind.INSERT, key, value)

    @staticmethod
    def replace(key: int, value: Bytes) -> Item:
        return Item(Kind.REPLACE, key, value)

    @staticmethod
    def remove(key: int) -> Item:
        return Item(Kind.REMOVE, key)


@dataclass(frozen=True)
class Statistics:
    """What Set.statistics tells."""

    mode: Mode
    flush: Flush
    layout: int
    """1 or 2; 0 where the header says neither."""
    slots: int
    """N; 0 where the length is of no set."""
    heads: int
    """B; 0 where the length is of no set."""
    live: int
    """Open orders; of a refused file 0."""
    spare: int
    """N less the open orders; of a refused file 0."""
    compared: int
    """As Set.compared."""
    opened: int
    """Void slots that recovery found, and that the open opened unless in Mode.INSPECT."""
    refusal: int
    """Of recovery, in Mode.INSPECT; else 0."""
    fault_slot: int
    """The slot that it names; 0 where there is none."""
    error: int
    """errno of Number.NOT_DURABLE, else 0."""
    next_version: int
    """Of the next call that stores."""
    bytes: int
    """The length of the file."""
    count: dict[SlotClass, int]
    """Slots by what they hold; of a refused file a whole record is in none of them."""


@dataclass(frozen=True)
class LogStatistics:
    """What Log.statistics tells."""

    mode: Mode
    flush: Flush
    cells: int
    """K."""
    error: int
    """errno of Number.NOT_DURABLE, else 0."""
    bytes: int
    """The length of the file."""
    first: int
    """The first number that can be read; of an empty log 1."""
    last: int
    """The last one; of an empty log 0."""


# ---- files

_Self = TypeVar("_Self", bound="_File")


class _File:
    """An open file. It is closed by close, at the end of its `with` block, or when nothing refers to it any more."""

    def __init__(self, opens: Any, closes: Any, path: Path, mode: SupportsIndex) -> None:
        name, number, handle = _path(path), _number(mode, 32), c_void_p()
        self._handle, self._lock, self._process = handle, threading.RLock(), os.getpid()
        self._under_way = self._closing = False
        # before the open, so that no handle is left behind where an exception comes between the two; not at the exit
        # of the interpreter, as another thread may still be in a call
        self._finalizer = weakref.finalize(self, closes, handle)
        self._finalizer.atexit = False
        _done(opens(name, number, byref(handle)))

    def _ask(self, call: Any, *arguments: Any) -> Any:
        """One call at a time. A signal handler may come in between: its calls are made, and its close waits for the
        call under way. After fork another thread may have the lock for good: it is not asked for."""
        if self._process != os.getpid():
            raise ValueError("the file was opened by another process")
        with self._lock:
            before, self._under_way = self._under_way, True
            try:
                if self.closed:
                    raise ValueError("the file is closed")
                return call(self._handle, *arguments)
            finally:
                self._under_way = before
                if self._closing and not before:
                    self._finalizer()

    def _call(self, call: Any, *arguments: Any, answer: Optional[Number] = None) -> bool:
        return _done(self._ask(call, *arguments), answer)

    @property
    def closed(self) -> bool:
        """Also where the open was refused."""
        return self._closing or not self._handle or not self._finalizer.alive

    def close(self) -> None:
        """Ends the handle; again it does nothing. There is nothing to make durable."""
        if self._process != os.getpid():
            self._finalizer()
            return
        with self._lock:
            if self._under_way:
                self._closing = True
            else:
                self._finalizer()

    def __enter__(self: _Self) -> _Self:
        if self.closed:
            raise ValueError("the file is closed")
        return self

    def __exit__(self, kind: Optional[Type[BaseException]], error: Optional[BaseException],
                 trace: Optional[TracebackType]) -> None:
        self.close()

    def __reduce__(self) -> Any:
        raise TypeError("an open file is not copied")


class Set(_File):
    """A set in a file, opened in a mode: a map from keys to values. Keys are numbers of up to 64 bits in layout 1 and
    of up to 128 in layout 2, values have up to 80 bytes and up to 72."""

    def __init__(self, path: Path, mode: SupportsIndex = Mode.READ) -> None:
        super().__init__(_library.orderset_open, _library.orderset_close, path, mode)

    @staticmethod
    def create(path: Path, slots: SupportsIndex, layout: SupportsIndex = 1) -> None:
        """Makes a file of an empty set with so many slots, 2 to 65,535: room for `slots - 1` open orders."""
        _done(_library.orderset_create(_path(path), _number(slots, 32), _number(layout, 32)))

    def snapshot(self, path: Path) -> None:
        """Makes a new file with the open orders as they are between two calls; the set stays as it is, in any mode."""
        self._call(_library.orderset_snapshot, _path(path))

    # -- changes

    def insert(self, key: SupportsIndex, value: Bytes) -> None:
        """Gives the key, which is not held, the value."""
        given = _bytes(value)
        self._call(_library.orderset_insert, _key(key), given, len(given))

    def replace(self, key: SupportsIndex, value: Bytes) -> None:
        """Gives the key, which is held, the value in the place of the one that it has."""
        given = _bytes(value)
        self._call(_library.orderset_replace, _key(key), given, len(given))

    def remove(self, key: SupportsIndex) -> bool:
        """Drops the key; False where it was not held."""
        return self._call(_library.orderset_remove, _key(key), answer=Number.NOT_FOUND)

    def basket(self, items: Iterable[Item]) -> None:
        """Changes 1 to 8 distinct keys, all or none."""
        given = []
        for item in itertools.islice(items, BASKET_MAX + 1):  # nine are refused as more are
            if not isinstance(item, Item):
                raise TypeError(f"a basket has items, not {type(item).__name__}")
            given.append((_number(item.kind, 32), _key(item.key), _bytes(item.value)))
        lent = (_Item * len(given))(*(_Item(kind, key, value, len(value)) for kind, key, value in given))
        self._call(_library.orderset_basket, lent, len(given))

    def book_new(self, key: SupportsIndex, quantity: SupportsIndex) -> None:
        """Gives the key, which is not held, a sent order of the quantity."""
        self._call(_library.orderset_book_new, _key(key), _number(quantity, 64))

    def book_acknowledge(self, key: SupportsIndex) -> bool:
        """Makes the key's sent order an acknowledged one; False where it was that before."""
        return self._call(_library.orderset_book_acknowledge, _key(key), answer=Number.ALREADY_ACKNOWLEDGED)

    def book_fill(self, key: SupportsIndex, quantity: SupportsIndex) -> None:
        """Adds the quantity to what is filled of the key's order; a fill of all that is open removes it."""
        self._call(_library.orderset_book_fill, _key(key), _number(quantity, 64))

    def book_withdraw(self, key: SupportsIndex) -> None:
        """Removes the key's order."""
        self._call(_library.orderset_book_withdraw, _key(key))

    # -- questions

    def get(self, key: SupportsIndex) -> Optional[bytes]:
        """What the key holds; None where it is not held."""
        output, length = ctypes.create_string_buffer(VALUE_MAX), c_size_t()
        held = self._call(_library.orderset_get, _key(key), output, VALUE_MAX, byref(length), answer=Number.NOT_FOUND)
        return output.raw[:length.value] if held else None

    def locate(self, key: SupportsIndex) -> Optional[Place]:
        """Where the key stands; None where it is not held."""
        slot, at = c_uint32(), c_uint64()
        held = self._call(_library.orderset_locate, _key(key), byref(slot), byref(at), answer=Number.NOT_FOUND)
        return Place(slot.value, at.value) if held else None

    def __contains__(self, key: SupportsIndex) -> bool:
        return self.locate(key) is not None

    def orders(self) -> Iterator[Record]:
        """The open orders by rising slot; so does `for record in set`. Changes may come between two steps: a key that
        is held throughout and is not changed comes once; one that is changed meanwhile once, twice or not at all."""
        record = _Record()
        while self._call(_library.orderset_next, byref(record), answer=Number.END):
            yield self._record(record)

    __iter__ = orders

    def slot(self, slot: SupportsIndex) -> Record:
        """What slot 1 to N holds, whatever its class."""
        record = _Record()
        self._call(_library.orderset_slot, _number(slot, 32), byref(record))
        return self._record(record)

    def _record(self, record: _Record) -> Record:
        key = Key(record.key.high << 64 | record.key.low, self.layout)
        value = bytes(record.value)[:record.length]
        return Record(record.slot, SlotClass(record.slot_class), record.fault, record.records, key, record.version,
                      value)

    @property
    def compared(self) -> int:
        """The slots that the last insert, replace, remove, get, locate or `in` compared."""
        return int(self._ask(_library.orderset_compared))

    @property
    def layout(self) -> int:
        """1 or 2; 0 where the header says neither."""
        return int(self._ask(_library.orderset_layout))

    @property
    def count(self) -> int:
        """The open orders. No slot is looked at."""
        return int(self._ask(_library.orderset_count))

    @property
    def room(self) -> int:
        """For how many more orders there is room. No slot is looked at."""
        return int(self._ask(_library.orderset_room))

    def statistics(self) -> Statistics:
        """How the set stands. It looks at every slot."""
        s = _Statistics()
        self._ask(_library.orderset_stat, byref(s))
        count = {SlotClass(i): slots for i, slots in enumerate(s.count)}
        return Statistics(Mode(s.mode), Flush(s.flush), s.layout, s.slots, s.heads, s.live, s.spare, s.compared,
                          s.opened, s.refusal, s.fault_slot, s.error, s.next_version, s.bytes, count)


class Log(_File):
    """A message log in a file, opened in a mode: messages of 1 to 384 bytes, numbered from 1, of which the last can be
    read."""

    def __init__(self, path: Path, mode: SupportsIndex = Mode.READ) -> None:
        super().__init__(_library.orderset_log_open, _library.orderset_log_close, path, mode)

    @staticmethod
    def create(path: Path, cells: SupportsIndex) -> None:
        """Makes a file of an empty log with so many cells, 2 to 1,000: the last `cells - 1` messages can be read."""
        _done(_library.orderset_log_create(_path(path), _number(cells, 32)))

    def append(self, message: Bytes) -> int:
        """Appends a message and gives its number."""
        given, number = _bytes(message), c_uint64()
        self._call(_library.orderset_log_append, given, len(given), byref(number))
        return number.value

    def _read(self, number: SupportsIndex, answer: Optional[Number] = None) -> Optional[bytes]:
        output, length = ctypes.create_string_buffer(MESSAGE_MAX), c_size_t()
        found = self._call(_library.orderset_log_read, _number(number, 64), output, MESSAGE_MAX, byref(length),
                           answer=answer)
        return output.raw[:length.value] if found else None

    def read(self, number: SupportsIndex) -> bytes:
        """The message with this number; an Error with Number.NO_MESSAGE where it cannot be read."""
        return self._read(number) or b""

    def range(self) -> builtins.range:
        """The numbers that can be read."""
        first, last = c_uint64(), c_uint64()
        self._call(_library.orderset_log_range, byref(first), byref(last))
        return builtins.range(first.value, last.value + 1)

    def messages(self) -> Iterator[Tuple[int, bytes]]:
        """The messages that can be read, with their numbers, which rise; so does `for number, message in log`. A number
        whose message is not complete, as a damaged file can have it, is left out."""
        for number in self.range():
            message = self._read(number, Number.NO_MESSAGE)
            if message is not None:
                yield number, message

    __iter__ = messages

    def statistics(self) -> LogStatistics:
        """How the log stands."""
        s = _LogStatistics()
        self._ask(_library.orderset_log_stat, byref(s))
        return LogStatistics(Mode(s.mode), Flush(s.flush), s.cells, s.error, s.bytes, s.first, s.last)
