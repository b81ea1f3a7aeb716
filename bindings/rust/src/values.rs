use crate::sys;
use std::cmp::Ordering;
use std::fmt;
use std::hash::{Hash, Hasher};
use std::ops::Deref;

/// A key: up to 64 bits in layout 1, up to 128 in layout 2. It is printed as the tools print it: one of layout 1, or that
/// was made from a `u32` or a `u64`, in decimal digits; one of layout 2, or that was made from a `u128`, as 0x and 32
/// hexadecimal digits. Keys of one number are equal.
///
/// It is made from a `u32`, a `u64` or a `u128`, so write `set.get(7u64)`. A literal without its type, as in `set.get(7)`, is
/// an `i32` to Rust, which may be negative: from one a key is made by `Key::try_from(7)?`, which refuses a negative number.
#[derive(Clone, Copy)]
pub struct Key {
    number: u128,
    wide: bool,
}

impl Key {
    /// The number that it is.
    pub fn number(self) -> u128 {
        self.number
    }

    pub(crate) fn words(self) -> sys::Key {
        sys::Key { low: self.number as u64, high: (self.number >> 64) as u64 }
    }

    fn of(words: sys::Key, wide: bool) -> Key {
        Key { number: u128::from(words.high) << 64 | u128::from(words.low), wide }
    }
}

impl From<u32> for Key {
    fn from(key: u32) -> Key {
        Key { number: key.into(), wide: false }
    }
}

impl From<u64> for Key {
    fn from(key: u64) -> Key {
        Key { number: key.into(), wide: false }
    }
}

impl From<u128> for Key {
    fn from(key: u128) -> Key {
        Key { number: key, wide: true }
    }
}

impl TryFrom<i32> for Key {
    type Error = std::num::TryFromIntError;

    fn try_from(key: i32) -> Result<Key, Self::Error> {
        u32::try_from(key).map(Key::from)
    }
}

impl TryFrom<i64> for Key {
    type Error = std::num::TryFromIntError;

    fn try_from(key: i64) -> Result<Key, Self::Error> {
        u64::try_from(key).map(Key::from)
    }
}

impl PartialEq for Key {
    fn eq(&self, other: &Key) -> bool {
        self.number == other.number
    }
}

impl Eq for Key {}

impl PartialOrd for Key {
    fn partial_cmp(&self, other: &Key) -> Option<Ordering> {
        Some(self.cmp(other))
    }
}

impl Ord for Key {
    fn cmp(&self, other: &Key) -> Ordering {
        self.number.cmp(&other.number)
    }
}

impl Hash for Key {
    fn hash<H: Hasher>(&self, state: &mut H) {
        self.number.hash(state);
    }
}

impl fmt::Display for Key {
    fn fmt(&self, f: &mut fmt::Formatter<'_>) -> fmt::Result {
        if self.wide {
            write!(f, "{:#034x}", self.number)
        } else {
            write!(f, "{}", self.number)
        }
    }
}

impl fmt::Debug for Key {
    fn fmt(&self, f: &mut fmt::Formatter<'_>) -> fmt::Result {
        write!(f, "Key({self})")
    }
}

/// Up to N bytes that were copied out of a file; a slice of them.
#[derive(Clone, Copy)]
pub struct Bytes<const N: usize> {
    pub(crate) bytes: [u8; N],
    pub(crate) length: usize, // at most N
}

/// What a key holds: up to 80 bytes in layout 1, up to 72 in layout 2.
pub type Value = Bytes<{ sys::VALUE_MAX }>;
/// A message of the log: 1 to 384 bytes.
pub type Message = Bytes<{ sys::MESSAGE_MAX }>;

impl<const N: usize> Bytes<N> {
    pub(crate) const NONE: Bytes<N> = Bytes { bytes: [0; N], length: 0 };
}

impl<const N: usize> Deref for Bytes<N> {
    type Target = [u8];
    fn deref(&self) -> &[u8] {
        &self.bytes[..self.length]
    }
}

impl<const N: usize> AsRef<[u8]> for Bytes<N> {
    fn as_ref(&self) -> &[u8] {
        self
    }
}

impl<const N: usize, T: AsRef<[u8]> + ?Sized> PartialEq<T> for Bytes<N> {
    fn eq(&self, other: &T) -> bool {
        **self == *other.as_ref()
    }
}

impl<const N: usize> Eq for Bytes<N> {}

impl<const N: usize> fmt::Debug for Bytes<N> {
    fn fmt(&self, f: &mut fmt::Formatter<'_>) -> fmt::Result {
        (**self).fmt(f)
    }
}

/// Numbers of the C header as an enum. A number that is none of them gives the last one.
macro_rules! numbered {
    ($($(#[$doc:meta])* $name:ident { $($(#[$of:meta])* $variant:ident = $number:literal,)* })*) => {$(
        $(#[$doc])*
        #[derive(Clone, Copy, Debug, PartialEq, Eq, Hash)]
        #[repr(u32)]
        pub enum $name { $($(#[$of])* $variant = $number,)* }

        impl $name {
            pub(crate) fn of(number: u32) -> $name {
                let all = [$($name::$variant,)*];
                all.into_iter().find(|one| *one as u32 == number).unwrap_or(all[all.len() - 1])
            }
        }
    )*};
}

numbered! {
    /// Which keys and values a set has: [`Key`], [`Value`].
    Layout {
        /// Keys of 64 bits and values of up to 80 bytes.
        One = 1,
        /// Keys of 128 bits and values of up to 72 bytes.
        Two = 2,
    }

    /// How a file is opened.
    Mode {
        /// A copy, recovered, as the file was at the open; every change is refused.
        Read = 0,
        /// The file itself, alone.
        Write = 1,
        /// A copy for the support desk, also of a file that recovery refuses: then each call but
        /// [`crate::Set::slot`] and [`crate::Set::statistics`] is refused by that number. Of a log it is
        /// [`Mode::Read`].
        Inspect = 2,
        /// As [`Mode::Read`], without the lock: a file that a gateway has open, as it is at one moment. It may show the
        /// call in flight before that call is durable, and is refused where the file is never still for a second.
        Live = 4,
    }

    /// How a call becomes durable: by msync, or on non-volatile memory by line flushes and a fence.
    Flush {
        /// A copy: nothing does.
        None = 0,
        /// The fallback.
        Msync = 1,
        /// clflush and mfence.
        Clflush = 2,
        /// clflushopt and sfence.
        Clflushopt = 3,
        /// clwb and sfence.
        Clwb = 4,
    }

    /// What a slot holds.
    SlotClass {
        /// The value of a held key.
        Live = 0,
        /// A value that a later record of its key hides.
        Hidden = 1,
        /// A record that its key was removed.
        Remove = 2,
        /// Of a basket that a cut struck; only in [`Mode::Inspect`].
        Void = 3,
        /// A cut struck the call that wrote it: no error.
        Broken = 4,
        /// Not used yet.
        Empty = 5,
        /// A whole record of a file that recovery refuses.
        Unknown = 6,
    }

    /// The state of an order.
    State {
        /// The order is with the exchange.
        Sent = 1,
        /// The exchange has acknowledged it.
        Acknowledged = 2,
    }
}

/// An order of the book: a value of 24 bytes.
#[derive(Clone, Copy, Debug, PartialEq, Eq)]
pub struct Order {
    /// Sent or acknowledged.
    pub state: State,
    /// The quantity.
    pub ordered: u64,
    /// What is filled of it.
    pub filled: u64,
}

impl Order {
    /// The order that the value is, if it is one.
    pub fn of(value: &[u8]) -> Option<Order> {
        let mut order = sys::Order::default();
        // SAFETY: the value has so many bytes, and the order is written.
        let is_order = unsafe { sys::orderset_order_of(value.as_ptr().cast(), value.len(), &mut order) };
        (is_order != 0).then(|| Order {
            state: State::of(order.state as u32),
            ordered: order.ordered,
            filled: order.filled,
        })
    }

    /// What is open of it; nothing where `filled` is above `ordered`, which no order of a file has.
    pub fn open(&self) -> u64 {
        self.ordered.saturating_sub(self.filled)
    }
}

/// An open order, or what a slot holds.
#[derive(Clone, Debug, PartialEq, Eq)]
pub struct Record {
    /// Its slot, from 1.
    pub slot: u32,
    /// What the slot holds.
    pub class: SlotClass,
    /// What recovery refuses of this slot by itself: 5, 6, 22, 23 or 24; else 0.
    pub fault: u32,
    /// Of the basket that wrote it, 2 to 8; 0: it was written alone.
    pub records: u32,
    /// The key.
    pub key: Key,
    /// The version of the call that wrote it.
    pub version: u64,
    /// The value.
    pub value: Value,
}

impl Record {
    pub(crate) fn of(record: &sys::Record, wide: bool) -> Record {
        let length = (record.length as usize).min(sys::VALUE_MAX);
        Record {
            slot: record.slot,
            class: SlotClass::of(record.slot_class),
            fault: record.fault,
            records: record.records,
            key: Key::of(record.key, wide),
            version: record.version,
            value: Bytes { bytes: record.value, length },
        }
    }

    /// The value as an order of the book, if it is one.
    pub fn order(&self) -> Option<Order> {
        Order::of(&self.value)
    }
}

/// Where a key stands.
#[derive(Clone, Copy, Debug, PartialEq, Eq)]
pub struct Place {
    /// Its slot, from 1.
    pub slot: u32,
    /// The version of the call that wrote it.
    pub version: u64,
}

/// One key of a basket.
#[derive(Clone, Copy, Debug, PartialEq, Eq)]
pub enum Item<'a> {
    /// Gives the key, which is not held, the value.
    Insert(Key, &'a [u8]),
    /// Gives the key, which is held, another value.
    Replace(Key, &'a [u8]),
    /// Drops the key, which is held.
    Remove(Key),
}

impl<'a> Item<'a> {
    /// [`Item::Insert`].
    pub fn insert(key: impl Into<Key>, value: &'a [u8]) -> Item<'a> {
        Item::Insert(key.into(), value)
    }

    /// [`Item::Replace`].
    pub fn replace(key: impl Into<Key>, value: &'a [u8]) -> Item<'a> {
        Item::Replace(key.into(), value)
    }

    /// [`Item::Remove`].
    pub fn remove(key: impl Into<Key>) -> Item<'a> {
        Item::Remove(key.into())
    }

    /// The value is lent with it.
    pub(crate) fn lent(&self) -> sys::Item {
        let (kind, key, value): (u32, Key, &[u8]) = match *self {
            Item::Insert(key, value) => (sys::INSERT, key, value),
            Item::Replace(key, value) => (sys::REPLACE, key, value),
            Item::Remove(key) => (sys::REMOVE, key, &[]),
        };
        sys::Item { kind, key: key.words(), value: value.as_ptr().cast(), length: value.len() }
    }
}

/// What [`crate::Set::statistics`] tells.
#[derive(Clone, Debug, PartialEq, Eq)]
pub struct Statistics {
    /// How it was opened.
    pub mode: Mode,
    /// How a call becomes durable.
    pub flush: Flush,
    /// None where the header says neither.
    pub layout: Option<Layout>,
    /// N; 0 where the length is of no set.
    pub slots: u32,
    /// B; 0 where the length is of no set.
    pub heads: u32,
    /// Open orders; of a refused file 0.
    pub live: u32,
    /// N less the open orders; of a refused file 0.
    pub spare: u32,
    /// As [`crate::Set::compared`].
    pub compared: u32,
    /// Void slots that recovery found, and that the open opened unless in [`Mode::Inspect`].
    pub opened: u32,
    /// Of recovery, in [`Mode::Inspect`]; 0 where there is none.
    pub refusal: u32,
    /// The slot that it names; 0 where there is none.
    pub fault_slot: u32,
    /// errno of [`crate::Kind::NotDurable`], 0 where there was none.
    pub error: i32,
    /// The version of the next call that stores.
    pub next_version: u64,
    /// The length of the file.
    pub bytes: u64,
    count: [u64; sys::COUNTS],
}

impl Statistics {
    pub(crate) fn of(s: &sys::Statistics) -> Statistics {
        Statistics {
            mode: Mode::of(s.mode),
            flush: Flush::of(s.flush),
            layout: (s.layout != 0).then(|| Layout::of(s.layout)),
            slots: s.slots,
            heads: s.heads,
            live: s.live,
            spare: s.spare,
            compared: s.compared,
            opened: s.opened,
            refusal: s.refusal,
            fault_slot: s.fault_slot,
            error: s.error,
            next_version: s.next_version,
            bytes: s.bytes,
            count: s.count,
        }
    }

    /// How many slots are of that class; of [`SlotClass::Unknown`] it is not counted, and 0.
    pub fn count(&self, class: SlotClass) -> u64 {
        self.count.get(class as usize).copied().unwrap_or(0)
    }
}

/// What [`crate::Log::statistics`] tells.
#[derive(Clone, Debug, PartialEq, Eq)]
pub struct LogStatistics {
    /// How it was opened.
    pub mode: Mode,
    /// How a call becomes durable.
    pub flush: Flush,
    /// K.
    pub cells: u32,
    /// errno of [`crate::Kind::NotDurable`], 0 where there was none.
    pub error: i32,
    /// The length of the file.
    pub bytes: u64,
    /// The first number that can be read; of an empty log 1.
    pub first: u64,
    /// The last one; of an empty log 0.
    pub last: u64,
}

impl LogStatistics {
    pub(crate) fn of(s: &sys::LogStatistics) -> LogStatistics {
        LogStatistics {
            mode: Mode::of(s.mode),
            flush: Flush::of(s.flush),
            cells: s.cells,
            error: s.error,
            bytes: s.bytes,
            first: s.first,
            last: s.last,
        }
    }
}
