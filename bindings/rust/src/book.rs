//! The known hosts and the preflight cache.

use crate::error::{told, Error, Result};
use crate::handle::{written, Owned};
use crate::numbers::BookFault;
use crate::sys;

/// Known HSTS hosts, and the CORS-preflight cache. Times are in seconds since any fixed moment, which is 1970 for a book
/// that lasts over restarts.
#[derive(Debug)]
pub struct Book(pub(crate) Owned);

// SAFETY: `law_handle_crosses` of the library says that a handle with a book may go to another thread.
unsafe impl Send for Book {}

/// What a Strict-Transport-Security field says: for how many seconds, and whether of the names under the host too.
#[derive(Clone, Copy, Debug, PartialEq, Eq)]
pub struct Sts {
    /// The seconds.
    pub max_age: u64,
    /// The names under the host.
    pub include_subdomains: bool,
}

impl Book {
    /// An empty book.
    pub fn new() -> Result<Book> {
        // SAFETY: the handle is empty, and lent to one call.
        Owned::made(|handle| unsafe { sys::fiorrudda_book(handle) }).map(Book)
    }

    /// The book that [`Book::export`] wrote. [`Error::NotABook`] where the text is none: nothing is read of it then.
    pub fn read(text: impl AsRef<[u8]>) -> Result<Book> {
        let (text, made, mut line, mut reason) = (text.as_ref(), Owned::empty(), 0, 0);
        // SAFETY: the slice is as long as is said; the numbers are lent to this call alone.
        let code = unsafe {
            sys::fiorrudda_book_of_text(
                made.lent(),
                text.as_ptr(),
                text.len(),
                &mut line,
                &mut reason,
            )
        };
        if told(code)? {
            return Ok(Book(made));
        }
        let fault = BookFault::of(reason).ok_or(Error::Unknown(reason))?;
        Err(Error::NotABook { line, fault })
    }

    /// The book as a text, so that what it knows lasts over restarts.
    pub fn export(&self) -> Result<Vec<u8>> {
        // SAFETY: nothing else has the handle, and the room is another.
        let text = written(|room, size, len| unsafe {
            sys::fiorrudda_book_text(self.0.lent(), room, size, len)
        })?;
        Ok(text.unwrap_or_default())
    }

    /// Notes a Strict-Transport-Security field of a host, and says whether it counts (RFC 6797, section 8.1).
    pub fn note(
        &mut self,
        host: impl AsRef<[u8]>,
        field: impl AsRef<[u8]>,
        now: u64,
    ) -> Result<bool> {
        let (host, field) = (host.as_ref(), field.as_ref());
        // SAFETY: the slices are as long as is said, and nothing else has the handle.
        told(unsafe {
            sys::fiorrudda_note_host(
                self.0.lent(),
                host.as_ptr(),
                host.len(),
                field.as_ptr(),
                field.len(),
                now,
            )
        })
    }

    /// Whether a host is known, so that its http URLs are asked by https (RFC 6797, section 8.2).
    pub fn is_known(&self, host: impl AsRef<[u8]>, now: u64) -> Result<bool> {
        let host = host.as_ref();
        // SAFETY: as above.
        told(unsafe {
            sys::fiorrudda_known_host(self.0.lent(), host.as_ptr(), host.len(), now)
        })
    }
}

/// What a Strict-Transport-Security field says, unless it is to be ignored (RFC 6797, section 6.1).
pub fn parse_sts(field: impl AsRef<[u8]>) -> Result<Option<Sts>> {
    let (field, mut max_age, mut subdomains) = (field.as_ref(), 0, 0);
    // SAFETY: the slice is as long as is said; the numbers are lent to this call alone.
    let code = unsafe {
        sys::fiorrudda_sts(field.as_ptr(), field.len(), &mut max_age, &mut subdomains)
    };
    Ok(told(code)?.then_some(Sts { max_age, include_subdomains: subdomains == 1 }))
}
