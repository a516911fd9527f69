//! What the codes of the library come to.

use std::fmt;

use crate::numbers::{BookFault, RequestFault};
use crate::sys;

/// Why a call has no answer.
#[derive(Clone, Debug, PartialEq, Eq)]
#[non_exhaustive]
pub enum Error {
    /// What a call was lent holds something else: a fetch, say, that memory was refused.
    WrongHandle,
    /// Memory was refused. Nothing has changed; but a fetch that was told something is gone.
    OutOfMemory,
    /// A number is none of those that the call takes.
    NoSuchNumber,
    /// A text is not UTF-8, or gives no URL by itself.
    NotAUrl,
    /// A URL is neither http nor https.
    NotHttp,
    /// A name is no token, or a value no header value.
    NotAHeader,
    /// A time is 2^48 seconds or more.
    TooLate,
    /// What came is not what the fetch awaits. It stands where it stood.
    NotAwaited,
    /// No request can be made of what is asked for. A fetch tells why, and the index of a bad header.
    NoRequest {
        /// Why, where a fetch was begun, and not a rule asked.
        fault: Option<RequestFault>,
        /// Which header, where one is at fault.
        header: Option<usize>,
    },
    /// A host is no domain as a URL has it, or a localhost name: it is never known.
    NotAHost,
    /// A request has no such part or choice, as a load has no mode.
    NoSuchPart,
    /// A text is not that of a book: its first line that is none, counted from 1, and why.
    NotABook {
        /// The line.
        line: u64,
        /// Why it is none.
        fault: BookFault,
    },
    /// A scenario is refused: its place, `json` or the way from the root to the value.
    NotAScenario(String),
    /// A code that this version of the crate does not know.
    Unknown(u32),
}

/// What a call came to.
pub type Result<T> = std::result::Result<T, Error>;

impl Error {
    pub(crate) fn of(code: u32) -> Error {
        match code {
            sys::WRONG_HANDLE => Error::WrongHandle,
            sys::OUT_OF_MEMORY => Error::OutOfMemory,
            sys::NO_SUCH_NUMBER => Error::NoSuchNumber,
            sys::NOT_A_URL => Error::NotAUrl,
            sys::NOT_HTTP => Error::NotHttp,
            sys::NOT_A_HEADER => Error::NotAHeader,
            sys::TOO_LATE => Error::TooLate,
            sys::NOT_AWAITED => Error::NotAwaited,
            sys::NO_REQUEST => Error::NoRequest { fault: None, header: None },
            sys::NOT_A_HOST => Error::NotAHost,
            _ => Error::Unknown(code),
        }
    }
}

impl fmt::Display for Error {
    fn fmt(&self, into: &mut fmt::Formatter<'_>) -> fmt::Result {
        match self {
            Error::WrongHandle => into.write_str("what is lent holds something else"),
            Error::OutOfMemory => into.write_str("out of memory"),
            Error::NoSuchNumber => into.write_str("no such number"),
            Error::NotAUrl => into.write_str("it gives no URL by itself"),
            Error::NotHttp => into.write_str("the URL is neither http nor https"),
            Error::NotAHeader => into.write_str("it is no header"),
            Error::TooLate => into.write_str("the time is 2^48 seconds or more"),
            Error::NotAwaited => into.write_str("it is not what the fetch awaits"),
            Error::NoRequest { fault: Some(fault), header: Some(at) } => {
                write!(into, "no request can be made of it: {fault}, header {at}")
            }
            Error::NoRequest { fault: Some(fault), .. } => {
                write!(into, "no request can be made of it: {fault}")
            }
            Error::NoRequest { .. } => into.write_str("no request can be made of it"),
            Error::NotAHost => into.write_str("the host is never known"),
            Error::NoSuchPart => into.write_str("the request has no such part"),
            Error::NotABook { line, fault } => write!(into, "no book: line {line}: {fault}"),
            Error::NotAScenario(place) => write!(into, "the scenario is refused at {place}"),
            Error::Unknown(code) => write!(into, "code {code}"),
        }
    }
}

impl std::error::Error for Error {}

/// Whether it holds, or the error that the code stands for.
pub(crate) fn told(code: u32) -> Result<bool> {
    match code {
        sys::OK => Ok(true),
        sys::NO => Ok(false),
        other => Err(Error::of(other)),
    }
}

/// It was done, or the request has no such part.
pub(crate) fn done(code: u32) -> Result<()> {
    if told(code)? {
        Ok(())
    } else {
        Err(Error::NoSuchPart)
    }
}
