use crate::error::done;
use crate::values::Bytes;
use crate::{c_path, sys, LogStatistics, Message, Mode, Result};
use std::fmt;
use std::iter::FusedIterator;
use std::ops::RangeInclusive;
use std::path::Path;
use std::ptr::{self, NonNull};

/// A message log in a file: messages of 1 to 384 bytes, numbered from 1, of which the last can be read. As with a set,
/// what an append returned is durable, a drop closes the file, and one thread uses it at a time.
pub struct Log {
    handle: NonNull<sys::Log>,
}

// SAFETY: as of Set.
unsafe impl Send for Log {}

impl Log {
    /// Makes a file of an empty log with so many cells, 2 to 1,000: the last `cells - 1` messages can be read.
    pub fn create(path: impl AsRef<Path>, cells: u32) -> Result<()> {
        let path = c_path(path.as_ref())?;
        // SAFETY: a string that ends with a zero.
        done(unsafe { sys::orderset_log_create(path.as_ptr(), cells) })
    }

    /// Opens a file and recovers it.
    pub fn open(path: impl AsRef<Path>, mode: Mode) -> Result<Log> {
        let path = c_path(path.as_ref())?;
        let mut log = ptr::null_mut();
        // SAFETY: a string that ends with a zero, and the handle is written.
        done(unsafe { sys::orderset_log_open(path.as_ptr(), mode as u32, &mut log) })?;
        let handle = NonNull::new(log).expect("a file that was opened has a handle");
        Ok(Log { handle })
    }

    // SAFETY of all calls below: as of Set.

    /// Appends a message and gives its number.
    pub fn append(&mut self, message: &[u8]) -> Result<u64> {
        let mut number = 0;
        done(unsafe {
            let bytes = message.as_ptr().cast();
            sys::orderset_log_append(self.handle.as_ptr(), bytes, message.len(), &mut number)
        })?;
        Ok(number)
    }

    /// The message with this number; [`crate::Kind::NoMessage`] where it cannot be read.
    pub fn read(&self, number: u64) -> Result<Message> {
        let mut message = Message::NONE;
        done(unsafe {
            let output = message.bytes.as_mut_ptr().cast();
            sys::orderset_log_read(self.handle.as_ptr(), number, output, sys::MESSAGE_MAX, &mut message.length)
        })?;
        let Bytes { bytes, length } = message;
        Ok(Bytes { bytes, length: length.min(sys::MESSAGE_MAX) })
    }

    /// The numbers that can be read; an empty range of an empty log.
    pub fn range(&self) -> Result<RangeInclusive<u64>> {
        let (mut first, mut last) = (1, 0);
        done(unsafe { sys::orderset_log_range(self.handle.as_ptr(), &mut first, &mut last) })?;
        Ok(first..=last)
    }

    /// The messages that can be read, with their numbers, which rise. The log is borrowed meanwhile.
    pub fn messages(&self) -> Result<Messages<'_>> {
        Ok(Messages { log: self, numbers: self.range()? })
    }

    /// How the log stands.
    pub fn statistics(&self) -> LogStatistics {
        let mut statistics = sys::LogStatistics::default();
        unsafe { sys::orderset_log_stat(self.handle.as_ptr(), &mut statistics) };
        LogStatistics::of(&statistics)
    }
}

impl Drop for Log {
    fn drop(&mut self) {
        // SAFETY: no call follows.
        unsafe { sys::orderset_log_close(self.handle.as_ptr()) }
    }
}

impl fmt::Debug for Log {
    fn fmt(&self, f: &mut fmt::Formatter<'_>) -> fmt::Result {
        f.debug_struct("Log").finish_non_exhaustive()
    }
}

/// The messages of a log: [`Log::messages`].
#[derive(Debug)]
pub struct Messages<'a> {
    log: &'a Log,
    numbers: RangeInclusive<u64>,
}

impl Iterator for Messages<'_> {
    type Item = (u64, Message);

    /// A number whose message is not complete, as a damaged file can have it, is left out.
    fn next(&mut self) -> Option<(u64, Message)> {
        let log = self.log;
        self.numbers.by_ref().find_map(|number| log.read(number).ok().map(|message| (number, message)))
    }
}

impl FusedIterator for Messages<'_> {}
