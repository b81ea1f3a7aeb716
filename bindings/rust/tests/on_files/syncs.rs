//! After a sync that fails: msync of this program takes the place of the system's.
use crate::scratch::Scratch;
use orderset::{Error, Flush, Kind, Layout, Log, Mode, Set};
use std::cell::Cell;
use std::os::raw::{c_int, c_long, c_void};

thread_local! {
    static FAILING: Cell<bool> = const { Cell::new(false) };
}

const SYS_MSYNC: c_long = 26;
const EIO: c_int = 5;

extern "C" {
    fn syscall(number: c_long, ...) -> c_long;
    fn __errno_location() -> *mut c_int;
}

#[no_mangle]
extern "C" fn msync(address: *mut c_void, length: usize, flags: c_int) -> c_int {
    // SAFETY: the arguments are the caller's, and errno is this thread's.
    unsafe {
        if FAILING.get() {
            *__errno_location() = EIO;
            return -1;
        }
        syscall(SYS_MSYNC, address, length, flags) as c_int
    }
}

/// The error of a call whose sync fails.
fn failed<T: std::fmt::Debug>(call: impl FnOnce() -> orderset::Result<T>) -> Error {
    FAILING.set(true);
    let got = call();
    FAILING.set(false);
    let error = got.expect_err("NOT SO: a failed sync is told");
    assert_eq!(error.kind(), Kind::NotDurable, "NOT SO: {error}");
    let io = error.io().expect("NOT SO: it has the error of the sync");
    assert_eq!(io.raw_os_error(), Some(EIO), "NOT SO: {error}");
    error
}

fn stopped<T: std::fmt::Debug>(got: orderset::Result<T>) {
    assert_eq!(got.expect_err("NOT SO: it is refused").kind(), Kind::Stopped, "NOT SO: it is stopped");
}

#[test]
fn a_set_is_stopped_by_a_failed_sync() {
    let file = Scratch::new("stopped_set");
    Set::create(&file.0, 6, Layout::One).unwrap();
    let mut set = Set::open(&file.0, Mode::Write).unwrap();
    set.insert(7u64, b"seven").unwrap();
    if set.statistics().flush != Flush::Msync {
        return; // on non-volatile memory there is no sync that fails
    }
    failed(|| set.insert(8u64, b"eight"));
    stopped(set.get(7u64));
    stopped(set.remove(7u64));
    stopped(set.orders());
    assert_eq!(set.statistics().error, EIO, "NOT SO: the statistics have the error");
    drop(set);
    let set = Set::open(&file.0, Mode::Write).unwrap();
    assert_eq!(set.get(7u64).unwrap().unwrap(), b"seven", "NOT SO: what was answered is there");
    let eight = set.get(8u64).unwrap();
    assert!(eight.map_or(true, |value| value == b"eight"), "NOT SO: the insert is done or not: {eight:?}");
}

#[test]
fn a_log_is_stopped_by_a_failed_sync() {
    let file = Scratch::new("stopped_log");
    Log::create(&file.0, 3).unwrap();
    let mut log = Log::open(&file.0, Mode::Write).unwrap();
    log.append(b"one").unwrap();
    if log.statistics().flush != Flush::Msync {
        return;
    }
    failed(|| log.append(b"two"));
    stopped(log.read(1));
    stopped(log.range());
    stopped(log.messages());
    stopped(log.append(b"three"));
}
