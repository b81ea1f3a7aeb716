use crate::sys;
use std::ffi::CStr;
use std::{fmt, io};

/// Why a call was refused, or how it failed: the number of the C header, and the error of the system where there is
/// one. A refused call changed nothing; of [`Kind::NotDurable`] that is not known.
pub struct Error {
    number: u32,
    io: Option<io::Error>,
}

/// What a call that can be refused gives.
pub type Result<T> = std::result::Result<T, Error>;

impl Error {
    /// Right after the call, while errno is its own.
    pub(crate) fn of(number: u32) -> Error {
        let has_errno = number == sys::ERRNO || number == sys::NOT_DURABLE;
        Error { number, io: has_errno.then(io::Error::last_os_error) }
    }

    pub(crate) fn system(io: io::Error) -> Error {
        Error { number: sys::ERRNO, io: Some(io) }
    }

    /// The number: 1 to 33 of the set and the log, from 1010 on of their files.
    pub fn number(&self) -> u32 {
        self.number
    }

    /// The number as one of the kinds.
    pub fn kind(&self) -> Kind {
        Kind::of(self.number)
    }

    /// The number in words.
    pub fn text(&self) -> &'static str {
        // SAFETY: it is never null, and a constant of the library that ends with a zero.
        let text = unsafe { CStr::from_ptr(sys::orderset_strerror(self.number)) };
        text.to_str().unwrap_or("")
    }

    /// Of [`Kind::Errno`] and [`Kind::NotDurable`].
    pub fn io(&self) -> Option<&io::Error> {
        self.io.as_ref()
    }
}

impl fmt::Display for Error {
    fn fmt(&self, f: &mut fmt::Formatter<'_>) -> fmt::Result {
        write!(f, "{} ({})", self.text(), self.number)?;
        self.io.as_ref().map_or(Ok(()), |io| write!(f, ": {io}"))
    }
}

/// As a program shows it whose `main` returns the error: with the words.
impl fmt::Debug for Error {
    fn fmt(&self, f: &mut fmt::Formatter<'_>) -> fmt::Result {
        f.debug_struct("Error").field("number", &self.number).field("text", &self.text()).field("io", &self.io).finish()
    }
}

impl std::error::Error for Error {
    fn source(&self) -> Option<&(dyn std::error::Error + 'static)> {
        self.io.as_ref().map(|io| io as _)
    }
}

/// Of [`Kind::Errno`] the error of the system. Any other is of [`io::ErrorKind::Other`] and holds this error, also that of
/// [`Kind::NotDurable`], whose error of the system is its source: what is to be done after it hangs on the number.
impl From<Error> for io::Error {
    fn from(error: Error) -> io::Error {
        match error {
            Error { io: Some(io), number: sys::ERRNO } => io,
            error => io::Error::other(error),
        }
    }
}

/// The call is done, or refused.
pub(crate) fn done(number: u32) -> Result<()> {
    if number == 0 {
        Ok(())
    } else {
        Err(Error::of(number))
    }
}

/// The call is done, or gave that answer, or is refused.
pub(crate) fn done_or(number: u32, answer: u32) -> Result<bool> {
    if number == answer {
        Ok(false)
    } else {
        done(number).map(|()| true)
    }
}

macro_rules! kinds {
    ($($(#[$doc:meta])* $name:ident = $number:literal,)*) => {
        /// The numbers of refusals and errors. The names are those of the C headers.
        #[derive(Clone, Copy, Debug, PartialEq, Eq, Hash)]
        #[non_exhaustive]
        #[repr(u32)]
        pub enum Kind {
            $($(#[$doc])* $name = $number,)*
            /// A number that no call here gives.
            Other = u32::MAX,
        }

        impl Kind {
            #[cfg(test)]
            pub(crate) const ALL: &'static [Kind] = &[$(Kind::$name,)*];

            fn of(number: u32) -> Kind {
                match number {
                    $($number => Kind::$name,)*
                    _ => Kind::Other,
                }
            }
        }
    };
}

// from src/refusals.def
kinds! {
    /// The length is not 128 * (N + 1) with N from 2 to 65,535: not a file of the set, or cut short or extended.
    BadImageLength = 1,
    /// Word 0 of the header is zero: not a file of the set, or not formatted.
    NotFormatted = 2,
    /// The header is not the one for this length and layout: not a file of the set, or cut short or extended.
    BadHeader = 3,
    /// Heads has 0 or more than 65,536 numbers, or next has not N + 1.
    BadIndexLength = 4,
    /// A mark is neither 0 nor 1: the file is damaged.
    BadMark = 5,
    /// The kind word of a slot has bits above bit 23, or its number of records is 1 or over 8: the file is damaged.
    BadKindBits = 6,
    /// Of slots with one version the numbers of records differ, or there are more than that, or two have one key: the
    /// file is damaged.
    VersionShared = 7,
    /// No slot is spare: the file is damaged.
    NoSpareSlot = 8,
    /// The next version, or in a log the next number, is 2^63 or more.
    Exhausted = 9,
    /// The value is too long: over 80 bytes, or in layout 2 over 72.
    ValueTooLong = 10,
    /// A chain of the index is not one of this file, or the live count is too low.
    IndexMismatch = 11,
    /// The output is shorter than the value or the message, or a list shorter than its stores.
    BufferTooShort = 13,
    /// A count exceeds 8.
    CountTooHigh = 14,
    /// The stores are not those of two lines of the image, or one is outside.
    BadStores = 15,
    /// The key of a new order is held, by an order or by another value.
    NewKeyExists = 17,
    /// The key is not held, or holds no order.
    NoOrder = 18,
    /// The quantity is zero, or more than is open.
    BadQuantity = 19,
    /// The key of an insert is held.
    KeyExists = 20,
    /// The key of a replace, or in a basket of a remove, is not held.
    KeyMissing = 21,
    /// The kind of a slot is neither put nor remove: the file is damaged.
    BadKind = 22,
    /// The length of a slot is too high, or a remove has one: the file is damaged.
    BadValueLength = 23,
    /// A value byte of a slot past its length is not zero: the file is damaged.
    BadTail = 24,
    /// More than eight slots are broken or void: no power cut leaves that; look at the memory or the disk, and whether
    /// every start made the image durable.
    TooManyBroken = 25,
    /// The basket has no key or more than eight, or an item of a kind that there is not.
    BadBasket = 26,
    /// A key comes twice in the basket.
    KeyTwice = 27,
    /// No room: too few slots may be taken, or with the new keys no slot would be spare.
    Full = 28,
    /// The message is empty or over 384 bytes.
    BadMessage = 29,
    /// The length is not 448 * K with K from 2 to 1,000: not a file of the log, or cut short or extended.
    BadLogLength = 30,
    /// No message with this number can be read.
    NoMessage = 31,
    /// The layout is neither 1 nor 2.
    BadLayout = 32,
    /// A line has not 64 bytes, or the answer about it not 8.
    BadLineLength = 33,
    /// A call of the system failed.
    Errno = 1010,
    /// The file is open for writing elsewhere, or is being copied.
    Locked = 1011,
    /// There is a file of that name.
    FileExists = 1012,
    /// Not a regular file.
    NotRegular = 1013,
    /// The file was not opened for writing.
    ReadOnly = 1014,
    /// The key is over 64 bits, and the file is of layout 1.
    KeyTooWide = 1015,
    /// The call could not be made durable, and is perhaps done: open the file again and ask.
    NotDurable = 1016,
    /// An earlier call could not be made durable, or its thread was cancelled in it: open the file again.
    Stopped = 1017,
    /// A mark is neither 0 nor 1: not a file of the log, or damaged.
    NotALog = 1018,
    /// There is no slot of that number.
    NoSlot = 1019,
    /// The mode is none of read, write, inspect and live.
    BadMode = 1020,
    /// The file is written so fast that no look at one moment was possible for a second.
    Busy = 1021,
}
// end of src/refusals.def
