//! Header lists, and the rules on them alone.

use crate::error::{done, told, Result};
use crate::handle::{each, word, written, Owned};
use crate::sys;

/// A header list (Fetch, section 2.2.2).
#[derive(Debug)]
pub struct Headers(pub(crate) Owned);

// SAFETY: `law_handle_crosses` of the library says that a handle with a header list may go to another thread.
unsafe impl Send for Headers {}

impl Headers {
    /// An empty list.
    pub fn new() -> Result<Headers> {
        // SAFETY: the handle is empty, and lent to one call.
        Owned::made(|handle| unsafe { sys::fiorrudda_headers(handle) }).map(Headers)
    }

    /// A list of pairs of a name and a value.
    pub fn of<N: AsRef<[u8]>, V: AsRef<[u8]>>(
        pairs: impl IntoIterator<Item = (N, V)>,
    ) -> Result<Headers> {
        let mut made = Headers::new()?;
        for (name, value) in pairs {
            made.append(name, value)?;
        }
        Ok(made)
    }

    /// "append". [`NotAHeader`](crate::Error::NotAHeader) where the name is no token, or the value no header value.
    pub fn append(&mut self, name: impl AsRef<[u8]>, value: impl AsRef<[u8]>) -> Result<()> {
        let (name, value) = (name.as_ref(), value.as_ref());
        // SAFETY: the slices are as long as is said, and nothing else has the handle.
        done(unsafe {
            sys::fiorrudda_append(
                self.0.lent(),
                name.as_ptr(),
                name.len(),
                value.as_ptr(),
                value.len(),
            )
        })
    }

    /// "get": the values of a name, joined by a comma and a space.
    pub fn get(&self, name: impl AsRef<[u8]>) -> Result<Option<Vec<u8>>> {
        let name = name.as_ref();
        // SAFETY: as above; the room is another.
        written(|room, size, len| unsafe {
            sys::fiorrudda_get(self.0.lent(), name.as_ptr(), name.len(), room, size, len)
        })
    }

    /// The headers in order, as pairs of a name and a value.
    pub fn pairs(&self) -> Result<Vec<(Vec<u8>, Vec<u8>)>> {
        // SAFETY: as above.
        let names = each(|at, room, size, len| unsafe {
            sys::fiorrudda_name_at(self.0.lent(), at, room, size, len)
        })?;
        let values = each(|at, room, size, len| unsafe {
            sys::fiorrudda_value_at(self.0.lent(), at, room, size, len)
        })?;
        Ok(names.into_iter().zip(values).collect())
    }
}

/// "CORS check" of an answer's list (Fetch, section 4.10), for a serialised origin, and whether the credentials mode is
/// include.
pub fn passes_cors_check(
    origin: impl AsRef<[u8]>,
    include: bool,
    answer: &Headers,
) -> Result<bool> {
    let origin = origin.as_ref();
    // SAFETY: the slice is as long as is said, and nothing else has the handle.
    told(unsafe {
        sys::fiorrudda_cors_check(origin.as_ptr(), origin.len(), include, answer.0.lent())
    })
}

/// Whether the answer of a URL is kept from a page in mode no-cors (Fetch, section 3.7).
pub fn keeps_from(
    page: impl AsRef<[u8]>,
    url: impl AsRef<[u8]>,
    answer: &Headers,
) -> Result<bool> {
    let (page, url) = (page.as_ref(), url.as_ref());
    // SAFETY: as above.
    told(unsafe {
        sys::fiorrudda_resource_policy(
            page.as_ptr(),
            page.len(),
            url.as_ptr(),
            url.len(),
            answer.0.lent(),
        )
    })
}

/// "determine nosniff" of an answer's list (Fetch, section 3.6).
pub fn says_nosniff(answer: &Headers) -> Result<bool> {
    // SAFETY: nothing else has the handle.
    told(unsafe { sys::fiorrudda_nosniff(answer.0.lent()) })
}

/// The essence of the MIME type of a list, in lower case (Fetch, section 3.5).
pub fn essence(answer: &Headers) -> Result<Option<String>> {
    // SAFETY: as above; the room is another.
    let text = written(|room, size, len| unsafe {
        sys::fiorrudda_essence(answer.0.lent(), room, size, len)
    })?;
    Ok(text.map(word))
}

/// The CORS-unsafe request-header names of a list, in lower case and in order (Fetch, section 2.2.2).
pub fn unsafe_names(asked: &Headers) -> Result<Vec<String>> {
    // SAFETY: as above.
    let names = each(|at, room, size, len| unsafe {
        sys::fiorrudda_unsafe_name(asked.0.lent(), at, room, size, len)
    })?;
    Ok(names.into_iter().map(word).collect())
}

/// The names that an answer's list exposes (Fetch, section 2.2.6); `include` where the credentials mode is that.
pub fn exposed_names(answer: &Headers, include: bool) -> Result<Vec<String>> {
    // SAFETY: as above.
    let names = each(|at, room, size, len| unsafe {
        sys::fiorrudda_exposed_name(answer.0.lent(), include, at, room, size, len)
    })?;
    Ok(names.into_iter().map(word).collect())
}
