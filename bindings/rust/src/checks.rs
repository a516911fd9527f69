//! Rules on a request that a client makes: mixed content, preflights, and what a page sees of an answer.

use crate::asked::{Client, Request};
use crate::error::{told, Error, Result};
use crate::handle::{word, written, Owned};
use crate::headers::Headers;
use crate::numbers::{NetworkError, Tainting};
use crate::sys;

/// The verdict on a preflight's answer.
#[derive(Clone, Debug, PartialEq, Eq)]
pub enum Verdict {
    /// It passes, and is learnt for so many seconds.
    Passes {
        /// The seconds.
        age: u64,
    },
    /// It is refused, by a network error, and for a header that is not allowed.
    Refused {
        /// The error.
        error: NetworkError,
        /// The header, where one is not allowed.
        header: Option<String>,
    },
}

/// What a page sees of an answer.
#[derive(Debug)]
pub struct Seen {
    /// The status, or 0.
    pub status: u16,
    /// The headers.
    pub headers: Headers,
}

type Mixed = unsafe extern "C" fn(*mut sys::Handle, *mut sys::Handle, *const u8, usize) -> u32;

fn mixed(call: Mixed, client: &Client, request: &Request, redirect: &[u8]) -> Result<bool> {
    // SAFETY: the slice is as long as is said; the handles are two, and nothing else has them.
    told(unsafe { call(client.0.lent(), request.0.lent(), redirect.as_ptr(), redirect.len()) })
}

/// Whether a request, redirected to a URL unless that is empty, is upgraded as mixed content (section 4.1 there).
pub fn is_mixed_upgraded(
    client: &Client,
    request: &Request,
    redirect: impl AsRef<[u8]>,
) -> Result<bool> {
    mixed(sys::fiorrudda_mixed_upgraded, client, request, redirect.as_ref())
}

/// Whether a request, redirected to a URL unless that is empty, is blocked as mixed content (section 4.4 there).
pub fn is_mixed_blocked(
    client: &Client,
    request: &Request,
    redirect: impl AsRef<[u8]>,
) -> Result<bool> {
    mixed(sys::fiorrudda_mixed_blocked, client, request, redirect.as_ref())
}

/// All bytes of the CORS-preflight request, unless its mode, method and headers ask for none (Fetch, section 4.8).
pub fn preflight(client: &Client, request: &Request) -> Result<Option<Vec<u8>>> {
    // SAFETY: the handles are two, and nothing else has them; the room is another.
    written(|room, size, len| unsafe {
        sys::fiorrudda_preflight(client.0.lent(), request.0.lent(), room, size, len)
    })
}

/// The verdict on an answer to the preflight of a request (Fetch, section 4.8, steps 7 and 8).
pub fn preflight_verdict(
    client: &Client,
    request: &Request,
    status: u16,
    answer: &Headers,
) -> Result<Verdict> {
    let (client, request, answer) = (client.0.lent(), request.0.lent(), answer.0.lent());
    let (mut error, mut age) = (0, 0);
    // SAFETY: the handles are three, and nothing else has them; the numbers are lent to this call alone.
    let code = unsafe {
        sys::fiorrudda_verdict(client, request, answer, status, &mut error, &mut age)
    };
    if told(code)? {
        return Ok(Verdict::Passes { age });
    }
    let header = written(|room, size, len| unsafe {
        sys::fiorrudda_refused_name(client, request, answer, status, room, size, len)
    })?;
    let error = NetworkError::of(error).ok_or(Error::Unknown(error))?;
    Ok(Verdict::Refused { error, header: header.map(word) })
}

/// What a page sees of an answer: the basic, cors or opaque filtered response (Fetch, section 2.2.6).
pub fn seen(
    client: &Client,
    request: &Request,
    status: u16,
    answer: &Headers,
    tainting: Tainting,
) -> Result<Seen> {
    let (shown, mut status_seen) = (Owned::empty(), 0);
    // SAFETY: the handles are four, and nothing else has them; the number is lent to this call alone.
    told(unsafe {
        sys::fiorrudda_filtered(
            shown.lent(),
            client.0.lent(),
            request.0.lent(),
            answer.0.lent(),
            status,
            tainting as u32,
            &mut status_seen,
        )
    })?;
    Ok(Seen { status: status_seen as u16, headers: Headers(shown) })
}

/// Whether an answer to a request is blocked for its MIME type (Fetch, section 2.10).
pub fn is_type_blocked(request: &Request, answer: &Headers) -> Result<bool> {
    // SAFETY: the handles are two, and nothing else has them.
    told(unsafe { sys::fiorrudda_type_blocked(request.0.lent(), answer.0.lent()) })
}

/// Whether an answer to a request is blocked since it says nosniff (Fetch, section 3.6.1).
pub fn is_nosniff_blocked(request: &Request, answer: &Headers) -> Result<bool> {
    // SAFETY: as above.
    told(unsafe { sys::fiorrudda_nosniff_blocked(request.0.lent(), answer.0.lent()) })
}
