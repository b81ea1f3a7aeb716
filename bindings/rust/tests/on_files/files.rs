//! Files, locks, modes and errors.
use crate::scratch::Scratch;
use orderset::{Error, Flush, Item, Key, Kind, Layout, Log, Mode, Order, Set, SlotClass, State};
use std::os::unix::fs::FileExt;
use std::{fs, io, thread};

fn made(name: &str, layout: Layout) -> (Scratch, Set) {
    let file = Scratch::new(name);
    Set::create(&file.0, 6, layout).unwrap();
    let set = Set::open(&file.0, Mode::Write).unwrap();
    (file, set)
}

fn refused<T: std::fmt::Debug>(got: orderset::Result<T>, kind: Kind) -> Error {
    let error = got.expect_err("NOT SO: it is refused");
    assert_eq!(error.kind(), kind, "NOT SO: {error}");
    assert_eq!(error.number(), kind as u32, "NOT SO: the number of {error}");
    error
}

/// As orderset-show prints them.
#[test]
fn keys_are_printed_as_by_the_tools() {
    for (layout, text) in [(Layout::One, "7"), (Layout::Two, "0x00000000000000000000000000000007")] {
        let file = Scratch::new("keys");
        Set::create(&file.0, 5, layout).unwrap();
        let mut set = Set::open(&file.0, Mode::Write).unwrap();
        assert_eq!((set.count(), set.room(), set.layout()), (0, 4, Some(layout)), "NOT SO: an empty set has room");
        set.book_new(7u32, 100).unwrap();
        assert_eq!((set.count(), set.room()), (1, 3), "NOT SO: an order takes room");
        let key = set.orders().unwrap().next().unwrap().key;
        assert_eq!(key.to_string(), text, "NOT SO: a key is printed as by the tools");
        assert!(key == Key::from(7u128) && key == Key::from(7u64) && key.number() == 7, "NOT SO: keys are equal");
        assert_eq!(format!("{:?}", key), format!("Key({text})"), "NOT SO: a key is shown");
    }
    assert_eq!(Key::from(u64::MAX).to_string(), u64::MAX.to_string(), "NOT SO: 64 bits in decimal digits");
    assert_eq!(Key::from(u128::MAX).to_string(), format!("0x{}", "f".repeat(32)), "NOT SO: 128 bits in hexadecimal");
    assert_eq!(Key::try_from(7).unwrap(), Key::from(7u64), "NOT SO: a literal without its type is a key");
    assert!(Key::try_from(-1).is_err() && Key::try_from(-1i64).is_err(), "NOT SO: a negative number is no key");
    assert_eq!(orderset::version(), env!("CARGO_PKG_VERSION"), "NOT SO: the library is of the crate's version");
}

/// The error of the system as it is; any other inside.
#[test]
fn errors_are_errors_of_io() {
    let file = Scratch::new("io");
    let io = io::Error::from(Set::open(&file.0, Mode::Write).unwrap_err());
    assert_eq!(io.kind(), io::ErrorKind::NotFound, "NOT SO: {io}");
    let io = io::Error::from(Set::create(&file.0, 1, Layout::One).unwrap_err());
    let inner = io.get_ref().and_then(|error| error.downcast_ref::<Error>());
    assert_eq!(inner.map(Error::number), Some(1), "NOT SO: {io}");
}

#[test]
fn a_second_handle_is_locked_out() {
    let (file, set) = made("locked", Layout::One);
    refused(Set::open(&file.0, Mode::Write), Kind::Locked);
    refused(Set::open(&file.0, Mode::Read), Kind::Locked);
    drop(set);
    Set::open(&file.0, Mode::Write).unwrap();
}

#[test]
fn a_reader_changes_nothing_and_sees_the_file_as_it_was() {
    let (file, mut set) = made("reader", Layout::One);
    set.insert(7u64, b"seven").unwrap();
    drop(set);
    let mut reader = Set::open(&file.0, Mode::Read).unwrap();
    let bytes = fs::read(&file.0).unwrap();
    refused(reader.insert(8u64, b""), Kind::ReadOnly);
    refused(reader.replace(7u64, b""), Kind::ReadOnly);
    refused(reader.remove(7u64), Kind::ReadOnly);
    refused(reader.basket(&[Item::remove(7u64)]), Kind::ReadOnly);
    refused(reader.book_new(8u64, 1), Kind::ReadOnly);
    assert_eq!(fs::read(&file.0).unwrap(), bytes, "NOT SO: the file is as it was");
    assert_eq!(reader.statistics().flush, Flush::None, "NOT SO: a copy is not flushed");
    let mut writer = Set::open(&file.0, Mode::Write).unwrap();
    assert_ne!(writer.statistics().flush, Flush::None, "NOT SO: a writer flushes");
    assert!(writer.remove(7u64).unwrap(), "NOT SO: the key was held");
    assert!(!writer.remove(7u64).unwrap(), "NOT SO: the key is not held");
    assert_eq!(reader.get(7u64).unwrap().unwrap(), b"seven", "NOT SO: a reader sees the file as it was");
}

#[test]
fn a_file_in_use_is_looked_at_and_copied() {
    let (file, mut set) = made("live", Layout::Two);
    let copy = Scratch::new("live-copy");
    set.insert(7u64, b"seven").unwrap();
    refused(Set::open(&file.0, Mode::Read), Kind::Locked);
    let live = Set::open(&file.0, Mode::Live).unwrap();
    set.snapshot(&copy.0).unwrap();
    refused(set.snapshot(&copy.0), Kind::FileExists);
    set.remove(7u64).unwrap();
    for looked in [live, Set::open(&copy.0, Mode::Read).unwrap()] {
        assert_eq!(looked.get(7u64).unwrap().unwrap(), b"seven", "NOT SO: a look and a snapshot have the order");
    }
    assert!(Set::open(&file.0, Mode::Live).unwrap().get(7u64).unwrap().is_none(), "NOT SO: a later look has it not");
}

#[test]
fn wrong_files_are_refused() {
    let file = Scratch::new("wrong");
    let error = refused(Set::open(&file.0, Mode::Write), Kind::Errno);
    let io = error.io().expect("NOT SO: it has the error of the system");
    assert_eq!(io.kind(), io::ErrorKind::NotFound, "NOT SO: {error}");
    refused(Set::open(env!("CARGO_TARGET_TMPDIR"), Mode::Read), Kind::NotRegular);
    refused(Set::open("a\0b", Mode::Read), Kind::Errno);
    fs::write(&file.0, b"another file").unwrap();
    refused(Set::open(&file.0, Mode::Write), Kind::BadImageLength);
    refused(Log::open(&file.0, Mode::Write), Kind::BadLogLength);
    refused(Set::create(&file.0, 6, Layout::One), Kind::FileExists);
    assert_eq!(fs::read(&file.0).unwrap(), b"another file", "NOT SO: the file is as it was");
    fs::write(&file.0, [0; 896]).unwrap(); // as long as a set of 6 slots and a log of 2 cells
    refused(Set::open(&file.0, Mode::Write), Kind::NotFormatted);
    assert!(Log::open(&file.0, Mode::Write).unwrap().range().unwrap().is_empty(), "NOT SO: zeros are an empty log");
    fs::remove_file(&file.0).unwrap();
    refused(Set::create(&file.0, 1, Layout::One), Kind::BadImageLength);
    Set::create(&file.0, 6, Layout::Two).unwrap();
    refused(Log::open(&file.0, Mode::Read), Kind::NotALog);
}

/// A file that recovery refuses is told by an inspection, with the slot.
#[test]
fn a_damaged_file_is_inspected() {
    let (file, mut set) = made("damaged", Layout::One);
    set.insert(7u64, b"seven").unwrap();
    let slot = set.locate(7u64).unwrap().unwrap().slot;
    drop(set);
    let mut bytes = fs::read(&file.0).unwrap();
    bytes[slot as usize * 128 + 16] = 3; // the kind
    fs::write(&file.0, bytes).unwrap();
    refused(Set::open(&file.0, Mode::Write), Kind::BadKind);
    let set = Set::open(&file.0, Mode::Inspect).unwrap();
    let told = set.statistics();
    assert_eq!((told.refusal, told.fault_slot), (22, slot), "NOT SO: the refusal and its slot");
    let record = set.slot(slot).unwrap();
    assert_eq!((record.class, record.fault), (SlotClass::Unknown, 22), "NOT SO: the slot's fault");
    refused(set.get(7u64), Kind::BadKind);
    refused(set.orders(), Kind::BadKind);
}

#[test]
fn an_iteration_tells_that_the_file_was_overwritten() {
    let (file, mut set) = made("overwritten", Layout::One);
    for key in 7..10u64 {
        set.insert(key, b"").unwrap();
    }
    let mut all = set.orders().unwrap();
    assert_eq!(all.by_ref().count(), 3, "NOT SO: three orders");
    all.result().unwrap();
    let mut all = set.orders().unwrap();
    fs::OpenOptions::new().write(true).open(&file.0).unwrap().write_all_at(&[0; 8], 8).unwrap(); // the layout
    assert_eq!(all.by_ref().count(), 1, "NOT SO: the order before it");
    refused(all.result(), Kind::BadHeader);
}

#[test]
fn calls_are_refused_by_the_papers_numbers() {
    let (_file, mut set) = made("numbers", Layout::One);
    refused(set.insert(1u128 << 64, b""), Kind::KeyTooWide);
    refused(set.get(1u128 << 64), Kind::KeyTooWide);
    refused(set.insert(7u64, &[0; 81]), Kind::ValueTooLong);
    set.insert(7u64, &[0; 80]).unwrap();
    refused(set.insert(7u64, b""), Kind::KeyExists);
    refused(set.replace(8u64, b""), Kind::KeyMissing);
    refused(set.book_new(7u64, 1), Kind::NewKeyExists);
    refused(set.book_fill(7u64, 1), Kind::NoOrder);
    refused(set.book_new(8u64, 0), Kind::BadQuantity);
    refused(set.basket(&[]), Kind::BadBasket);
    refused(set.basket(&[Item::remove(7u64); 9]), Kind::BadBasket);
    refused(set.basket(&[Item::remove(7u64); 2]), Kind::KeyTwice);
    for key in 8..12u64 {
        set.insert(key, b"").unwrap();
    }
    refused(set.insert(12u64, b""), Kind::Full);
    refused(set.slot(0), Kind::NoSlot);
    refused(set.slot(7), Kind::NoSlot);
    let told = set.statistics();
    assert_eq!((told.layout, told.slots, told.live, told.spare), (Some(Layout::One), 6, 5, 1), "NOT SO: {told:?}");
    assert_eq!((told.count(SlotClass::Live), told.count(SlotClass::Empty)), (5, 1), "NOT SO: {told:?}");
}

#[test]
fn a_made_up_order_has_nothing_open() {
    let order = |ordered, filled| Order { state: State::Sent, ordered, filled };
    let open = |ordered, filled| std::panic::catch_unwind(|| order(ordered, filled).open()).ok();
    assert_eq!(open(100, 40), Some(60), "NOT SO: 60 of 100 are open");
    for (ordered, filled) in [(5, 6), (0, u64::MAX), (7, 7)] {
        assert_eq!(open(ordered, filled), Some(0), "NOT SO: of {ordered} with {filled} filled nothing is open");
    }
}

#[test]
fn layout_2_has_wide_keys_and_72_bytes() {
    let (_file, mut set) = made("wide", Layout::Two);
    set.insert(u128::MAX, &[1; 72]).unwrap();
    refused(set.insert(0u64, &[1; 73]), Kind::ValueTooLong);
    assert_eq!(set.get(u128::MAX).unwrap().unwrap(), [1; 72], "NOT SO: the value is held");
    assert_eq!(set.get(u64::MAX).unwrap(), None, "NOT SO: the high word is compared");
}

#[test]
fn errors_are_said_in_words() {
    let (file, mut set) = made("words", Layout::One);
    let error = refused(set.replace(7u64, b""), Kind::KeyMissing);
    assert!(error.text().contains("is not held"), "NOT SO: {error}");
    assert_eq!(error.to_string(), format!("{} (21)", error.text()), "NOT SO: the number is shown");
    assert!(error.io().is_none() && std::error::Error::source(&error).is_none(), "NOT SO: no error of the system");
    drop((set, file));
    let error = refused(Set::open("/no folder/no file", Mode::Write), Kind::Errno);
    assert!(std::error::Error::source(&error).is_some(), "NOT SO: {error}");
    assert!(error.to_string().contains("(1010): "), "NOT SO: {error}");
}

#[test]
fn a_set_moves_to_another_thread() {
    let (file, mut set) = made("thread", Layout::One);
    let set = thread::spawn(move || set.insert(7u64, b"there").map(|()| set)).join().unwrap().unwrap();
    assert_eq!(set.get(7u64).unwrap().unwrap(), b"there", "NOT SO: the other thread's insert");
    drop(set);
    assert_eq!(Set::open(&file.0, Mode::Read).unwrap().orders().unwrap().count(), 1, "NOT SO: one order");
}

#[test]
fn a_log_refuses_by_number() {
    let file = Scratch::new("log");
    refused(Log::create(&file.0, 1), Kind::BadLogLength);
    Log::create(&file.0, 3).unwrap();
    let mut log = Log::open(&file.0, Mode::Write).unwrap();
    refused(log.append(b""), Kind::BadMessage);
    refused(log.append(&[0; 385]), Kind::BadMessage);
    for i in 1..=4u8 {
        assert_eq!(log.append(&[i; 384]).unwrap(), i.into(), "NOT SO: messages are numbered from 1");
    }
    assert_eq!(log.range().unwrap(), 3..=4, "NOT SO: two of three cells are shown");
    refused(log.read(2), Kind::NoMessage);
    assert_eq!(log.read(3).unwrap(), [3; 384], "NOT SO: the message");
    assert_eq!(log.statistics().cells, 3, "NOT SO: the cells");
    refused(Log::open(&file.0, Mode::Write), Kind::Locked);
    drop(log);
    refused(Log::open(&file.0, Mode::Read).unwrap().append(b"x"), Kind::ReadOnly);
}

/// A message that is not complete, as no cut leaves it behind a later one, is left out.
#[test]
fn a_damaged_message_is_left_out() {
    let file = Scratch::new("damaged_log");
    Log::create(&file.0, 4).unwrap();
    let mut log = Log::open(&file.0, Mode::Write).unwrap();
    for i in 1..=3u8 {
        log.append(&[i]).unwrap();
    }
    drop(log);
    let mut bytes = fs::read(&file.0).unwrap();
    bytes[2 * 448 + 8] = 0; // the length of message 2
    fs::write(&file.0, bytes).unwrap();
    let log = Log::open(&file.0, Mode::Read).unwrap();
    refused(log.read(2), Kind::NoMessage);
    let numbers: Vec<u64> = log.messages().unwrap().map(|(number, _)| number).collect();
    assert_eq!(numbers, [1, 3], "NOT SO: the others are given");
}
