//! include/orderset.h as it is. A test below holds what stands here against the header.
use std::os::raw::{c_char, c_int, c_void};

pub const NOT_FOUND: u32 = 1000;
pub const ALREADY_ACKNOWLEDGED: u32 = 1001;
pub const END: u32 = 1002;
pub const ERRNO: u32 = 1010;
pub const NOT_DURABLE: u32 = 1016;

pub const INSERT: u32 = 1;
pub const REPLACE: u32 = 2;
pub const REMOVE: u32 = 3;

pub const VALUE_MAX: usize = 80;
pub const MESSAGE_MAX: usize = 384;
pub const BASKET_MAX: usize = 8;
pub const COUNTS: usize = 6;

#[repr(C)]
#[derive(Clone, Copy)]
pub struct Key {
    pub low: u64,
    pub high: u64,
}

#[repr(C)]
#[derive(Clone, Copy)]
pub struct Item {
    pub kind: u32,
    pub key: Key,
    pub value: *const c_void,
    pub length: usize,
}

#[repr(C)]
#[derive(Clone, Copy)]
pub struct Record {
    pub slot: u32,
    pub slot_class: u32,
    pub fault: u32,
    pub records: u32,
    pub key: Key,
    pub version: u64,
    pub length: u64,
    pub value: [u8; VALUE_MAX],
    pub reserved: [u64; 4],
}

impl Record {
    /// All zeros: an iteration begins with it.
    pub const NONE: Record = Record {
        slot: 0,
        slot_class: 0,
        fault: 0,
        records: 0,
        key: Key { low: 0, high: 0 },
        version: 0,
        length: 0,
        value: [0; VALUE_MAX],
        reserved: [0; 4],
    };
}

#[repr(C)]
#[derive(Clone, Copy, Default)]
pub struct Order {
    pub state: u64,
    pub ordered: u64,
    pub filled: u64,
}

#[repr(C)]
#[derive(Clone, Copy, Default)]
pub struct Statistics {
    pub mode: u32,
    pub flush: u32,
    pub layout: u32,
    pub slots: u32,
    pub heads: u32,
    pub live: u32,
    pub spare: u32,
    pub compared: u32,
    pub opened: u32,
    pub refusal: u32,
    pub fault_slot: u32,
    pub error: i32,
    pub next_version: u64,
    pub bytes: u64,
    pub count: [u64; COUNTS],
    pub reserved: [u64; 8],
}

#[repr(C)]
#[derive(Clone, Copy, Default)]
pub struct LogStatistics {
    pub mode: u32,
    pub flush: u32,
    pub cells: u32,
    pub error: i32,
    pub bytes: u64,
    pub first: u64,
    pub last: u64,
    pub reserved: [u64; 8],
}

#[repr(C)]
pub struct Set {
    opaque: [u8; 0],
}

#[repr(C)]
pub struct Log {
    opaque: [u8; 0],
}

extern "C" {
    pub fn orderset_strerror(number: u32) -> *const c_char;
    pub fn orderset_version() -> *const c_char;

    pub fn orderset_create(path: *const c_char, slots: u32, layout: u32) -> u32;
    pub fn orderset_open(path: *const c_char, mode: u32, set: *mut *mut Set) -> u32;
    pub fn orderset_snapshot(set: *mut Set, path: *const c_char) -> u32;
    pub fn orderset_close(set: *mut Set);
    pub fn orderset_insert(set: *mut Set, key: Key, value: *const c_void, length: usize) -> u32;
    pub fn orderset_replace(set: *mut Set, key: Key, value: *const c_void, length: usize) -> u32;
    pub fn orderset_remove(set: *mut Set, key: Key) -> u32;
    pub fn orderset_basket(set: *mut Set, items: *const Item, count: usize) -> u32;
    pub fn orderset_get(set: *mut Set, key: Key, output: *mut c_void, room: usize, length: *mut usize) -> u32;
    pub fn orderset_locate(set: *mut Set, key: Key, slot: *mut u32, version: *mut u64) -> u32;
    pub fn orderset_book_new(set: *mut Set, key: Key, quantity: u64) -> u32;
    pub fn orderset_book_acknowledge(set: *mut Set, key: Key) -> u32;
    pub fn orderset_book_fill(set: *mut Set, key: Key, quantity: u64) -> u32;
    pub fn orderset_book_withdraw(set: *mut Set, key: Key) -> u32;
    pub fn orderset_order_of(value: *const c_void, length: usize, order: *mut Order) -> c_int;
    pub fn orderset_next(set: *mut Set, record: *mut Record) -> u32;
    pub fn orderset_slot(set: *mut Set, slot: u32, record: *mut Record) -> u32;
    pub fn orderset_compared(set: *const Set) -> u32;
    pub fn orderset_layout(set: *const Set) -> u32;
    pub fn orderset_count(set: *const Set) -> u32;
    pub fn orderset_room(set: *const Set) -> u32;
    pub fn orderset_stat(set: *mut Set, statistics: *mut Statistics);

    pub fn orderset_log_create(path: *const c_char, cells: u32) -> u32;
    pub fn orderset_log_open(path: *const c_char, mode: u32, log: *mut *mut Log) -> u32;
    pub fn orderset_log_close(log: *mut Log);
    pub fn orderset_log_append(log: *mut Log, message: *const c_void, length: usize, number: *mut u64) -> u32;
    pub fn orderset_log_read(
        log: *mut Log,
        number: u64,
        output: *mut c_void,
        room: usize,
        length: *mut usize,
    ) -> u32;
    pub fn orderset_log_range(log: *mut Log, first: *mut u64, last: *mut u64) -> u32;
    pub fn orderset_log_stat(log: *mut Log, statistics: *mut LogStatistics);
}

/// The C compiler is asked whether the header says the same: sizes, offsets, numbers and the types of the functions.
#[cfg(test)]
mod tests {
    use super::*;
    use crate::{Flush, Kind, Layout, Mode, SlotClass, State};
    use std::fmt::Write;
    use std::mem::{offset_of, size_of};
    use std::process::{Command, Stdio};

    const PROTOTYPES: &str = "
        const char *orderset_strerror(uint32_t);
        const char *orderset_version(void);
        uint32_t orderset_create(const char *, uint32_t, uint32_t);
        uint32_t orderset_open(const char *, uint32_t, struct orderset **);
        uint32_t orderset_snapshot(struct orderset *, const char *);
        void orderset_close(struct orderset *);
        uint32_t orderset_insert(struct orderset *, struct orderset_key, const void *, size_t);
        uint32_t orderset_replace(struct orderset *, struct orderset_key, const void *, size_t);
        uint32_t orderset_remove(struct orderset *, struct orderset_key);
        uint32_t orderset_basket(struct orderset *, const struct orderset_item *, size_t);
        uint32_t orderset_get(struct orderset *, struct orderset_key, void *, size_t, size_t *);
        uint32_t orderset_locate(struct orderset *, struct orderset_key, uint32_t *, uint64_t *);
        uint32_t orderset_book_new(struct orderset *, struct orderset_key, uint64_t);
        uint32_t orderset_book_acknowledge(struct orderset *, struct orderset_key);
        uint32_t orderset_book_fill(struct orderset *, struct orderset_key, uint64_t);
        uint32_t orderset_book_withdraw(struct orderset *, struct orderset_key);
        int orderset_order_of(const void *, size_t, struct orderset_order *);
        uint32_t orderset_next(struct orderset *, struct orderset_record *);
        uint32_t orderset_slot(struct orderset *, uint32_t, struct orderset_record *);
        uint32_t orderset_compared(const struct orderset *);
        uint32_t orderset_layout(const struct orderset *);
        uint32_t orderset_count(const struct orderset *);
        uint32_t orderset_room(const struct orderset *);
        void orderset_stat(struct orderset *, struct orderset_statistics *);
        uint32_t orderset_log_create(const char *, uint32_t);
        uint32_t orderset_log_open(const char *, uint32_t, struct orderset_log **);
        void orderset_log_close(struct orderset_log *);
        uint32_t orderset_log_append(struct orderset_log *, const void *, size_t, uint64_t *);
        uint32_t orderset_log_read(struct orderset_log *, uint64_t, void *, size_t, size_t *);
        uint32_t orderset_log_range(struct orderset_log *, uint64_t *, uint64_t *);
        void orderset_log_stat(struct orderset_log *, struct orderset_log_statistics *);
    ";

    /// BadImageLength is BAD_IMAGE_LENGTH.
    fn c_name(name: &str) -> String {
        let mut c = String::new();
        for letter in name.chars() {
            if letter.is_uppercase() && !c.is_empty() {
                c.push('_');
            }
            c.push(letter.to_ascii_uppercase());
        }
        c
    }

    fn kinds(c: &mut String) {
        for kind in Kind::ALL {
            let _ = writeln!(c, "IS(ORDERSET_{}, {});", c_name(&format!("{kind:?}")), *kind as u32);
        }
    }

    fn structs(c: &mut String) {
        macro_rules! holds {
            ($type:ty, $name:literal, $($field:ident)*) => {
                let _ = writeln!(c, "IS(sizeof(struct {}), {});", $name, size_of::<$type>());
                $(let _ = writeln!(c, "IS(offsetof(struct {}, {}), {});", $name, stringify!($field),
                    offset_of!($type, $field));)*
            };
        }
        holds!(Key, "orderset_key", low high);
        holds!(Item, "orderset_item", kind key value length);
        holds!(Record, "orderset_record", slot slot_class fault records key version length value reserved);
        holds!(Order, "orderset_order", state ordered filled);
        holds!(Statistics, "orderset_statistics", mode flush layout slots heads live spare compared opened refusal
            fault_slot error next_version bytes count reserved);
        holds!(LogStatistics, "orderset_log_statistics", mode flush cells error bytes first last reserved);
    }

    fn numbers(c: &mut String) {
        for (name, number) in [
            ("ORDERSET_NOT_FOUND", NOT_FOUND),
            ("ORDERSET_ALREADY_ACKNOWLEDGED", ALREADY_ACKNOWLEDGED),
            ("ORDERSET_END", END),
            ("ORDERSET_ERRNO", ERRNO),
            ("ORDERSET_NOT_DURABLE", NOT_DURABLE),
            ("ORDERSET_INSERT", INSERT),
            ("ORDERSET_REPLACE", REPLACE),
            ("ORDERSET_REMOVE", REMOVE),
            ("ORDERSET_VALUE_MAX", VALUE_MAX as u32),
            ("ORDERSET_LOG_MESSAGE_MAX", MESSAGE_MAX as u32),
            ("ORDERSET_BASKET_MAX", BASKET_MAX as u32),
            ("ORDERSET_COUNTS", COUNTS as u32),
            ("1", Layout::One as u32),
            ("2", Layout::Two as u32),
            ("ORDERSET_READ", Mode::Read as u32),
            ("ORDERSET_WRITE", Mode::Write as u32),
            ("ORDERSET_INSPECT", Mode::Inspect as u32),
            ("ORDERSET_LIVE", Mode::Live as u32),
            ("ORDERSET_FLUSH_NONE", Flush::None as u32),
            ("ORDERSET_FLUSH_MSYNC", Flush::Msync as u32),
            ("ORDERSET_FLUSH_CLFLUSH", Flush::Clflush as u32),
            ("ORDERSET_FLUSH_CLFLUSHOPT", Flush::Clflushopt as u32),
            ("ORDERSET_FLUSH_CLWB", Flush::Clwb as u32),
            ("ORDERSET_SLOT_LIVE", SlotClass::Live as u32),
            ("ORDERSET_SLOT_HIDDEN", SlotClass::Hidden as u32),
            ("ORDERSET_SLOT_REMOVE", SlotClass::Remove as u32),
            ("ORDERSET_SLOT_VOID", SlotClass::Void as u32),
            ("ORDERSET_SLOT_BROKEN", SlotClass::Broken as u32),
            ("ORDERSET_SLOT_EMPTY", SlotClass::Empty as u32),
            ("ORDERSET_SLOT_UNKNOWN", SlotClass::Unknown as u32),
            ("ORDERSET_SENT", State::Sent as u32),
            ("ORDERSET_ACKNOWLEDGED", State::Acknowledged as u32),
        ] {
            let _ = writeln!(c, "IS({name}, {number});");
        }
    }

    #[test]
    fn the_header_says_the_same() {
        let mut c = String::from("#include \"orderset.h\"\n#define IS(a, b) _Static_assert((a) == (b), #a)\n");
        c.push_str(PROTOTYPES);
        kinds(&mut c);
        structs(&mut c);
        numbers(&mut c);
        let include = concat!(env!("CARGO_MANIFEST_DIR"), "/../../include");
        let mut compiler = Command::new("cc")
            .args(["-std=c11", "-fsyntax-only", "-I", include, "-x", "c", "-"])
            .stdin(Stdio::piped())
            .spawn()
            .expect("cc runs");
        std::io::Write::write_all(&mut compiler.stdin.take().unwrap(), c.as_bytes()).unwrap();
        assert!(compiler.wait().unwrap().success(), "NOT SO: the header says the same");
    }
}
