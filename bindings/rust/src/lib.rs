//! A persistent order set and a message log, each in a file: what a call has returned is there after a power cut or a
//! kill, and a call that is struck is there wholly or not at all. The calls below are those of `orderset.h`, which
//! says more of files, locks and restarts; the library behind it is proved, its handle and this crate are not.
//!
//! ```
//! use orderset::{Item, Layout, Mode, Set};
//!
//! # let path = std::env::temp_dir().join(format!("orderset-doc-{}.img", std::process::id()));
//! # let _ = std::fs::remove_file(&path);
//! # let read = path.clone();
//! # fn run(path: std::path::PathBuf) -> orderset::Result<()> {
//! Set::create(&path, 1000, Layout::One)?; // once: room for 999 open orders
//! let mut set = Set::open(&path, Mode::Write)?;
//! set.book_new(7u64, 100)?;
//! set.book_fill(7u64, 40)?;
//! set.basket(&[Item::insert(8u64, b"eight"), Item::insert(9u64, b"nine")])?; // both or neither
//! assert_eq!(set.insert(8u64, b"again").unwrap_err().text(), "the key of an insert is held");
//! assert_eq!(set.get(8u64)?.unwrap(), b"eight");
//! for record in set.orders()? {
//!     match record.order() {
//!         Some(order) => println!("{}: {} of {} open", record.key, order.open(), order.ordered),
//!         None => println!("{}: {:?}", record.key, record.value),
//!     }
//! }
//! # assert_eq!(set.orders()?.filter_map(|record| record.order()).map(|order| order.open()).sum::<u64>(), 60);
//! # Ok(())
//! # }
//! # run(path).unwrap();
//! # std::fs::remove_file(read).unwrap();
//! ```
//!
//! A log:
//! ```
//! use orderset::{Log, Mode};
//!
//! # let path = std::env::temp_dir().join(format!("orderset-doc-{}.log", std::process::id()));
//! # let _ = std::fs::remove_file(&path);
//! # let read = path.clone();
//! # fn run(path: std::path::PathBuf) -> orderset::Result<()> {
//! Log::create(&path, 1000)?; // once: the last 999 messages can be read
//! let mut log = Log::open(&path, Mode::Write)?;
//! let number = log.append(b"8=FIX.4.4")?;
//! assert_eq!(log.read(number)?, b"8=FIX.4.4");
//! for (number, message) in log.messages()? {
//!     println!("{number}: {} bytes", message.len());
//! }
//! # Ok(())
//! # }
//! # run(path).unwrap();
//! # std::fs::remove_file(read).unwrap();
//! ```
//!
//! One handle writes a file at a time, in all processes; a program that does not ask for the lock (flock) is not held
//! off, and one that cuts the file short while it is open ends the process. After [`Kind::NotDurable`] every call is
//! refused: open the file again, and ask whether the call was done.
//!
//! `cargo build` links `liborderset.a` from the folder that the environment variable `ORDERSET_LIB` names, or else from
//! `target/lib` of the repository, where `make lib` leaves it. `cargo doc` needs no library.
#![deny(missing_docs)]
#![warn(missing_debug_implementations, unsafe_op_in_unsafe_fn)]

mod error;
mod log;
mod set;
mod sys;
mod values;

pub use error::{Error, Kind, Result};
pub use log::{Log, Messages};
pub use set::{Orders, Set};
pub use values::{
    Bytes, Flush, Item, Key, Layout, LogStatistics, Message, Mode, Order, Place, Record, SlotClass, State, Statistics,
    Value,
};

use std::ffi::CString;
use std::io;
use std::os::unix::ffi::OsStrExt;
use std::path::Path;

/// The version of the library that is linked.
pub fn version() -> &'static str {
    // SAFETY: it is never null, and a constant of the library that ends with a zero.
    unsafe { std::ffi::CStr::from_ptr(sys::orderset_version()) }.to_str().unwrap_or("")
}

/// A path for C; one with a zero byte is of no file.
fn c_path(path: &Path) -> Result<CString> {
    CString::new(path.as_os_str().as_bytes())
        .map_err(|error| Error::system(io::Error::new(io::ErrorKind::InvalidInput, error)))
}
