//! Rules on texts alone.

use crate::error::{told, Result};
use crate::handle::{word, written};
use crate::numbers::ReferrerPolicy;
use crate::sys;

/// A call of one text.
fn asked(call: unsafe extern "C" fn(*const u8, usize) -> u32, text: &[u8]) -> Result<bool> {
    // SAFETY: the slice is as long as is said.
    told(unsafe { call(text.as_ptr(), text.len()) })
}

/// A call of two texts.
fn asked_of_both(
    call: unsafe extern "C" fn(*const u8, usize, *const u8, usize) -> u32,
    a: &[u8],
    b: &[u8],
) -> Result<bool> {
    // SAFETY: the slices are as long as is said, and only read.
    told(unsafe { call(a.as_ptr(), a.len(), b.as_ptr(), b.len()) })
}

/// The serialised origin of an http or https URL (HTML, section 7.1.1).
pub fn origin(url: impl AsRef<[u8]>) -> Result<String> {
    let url = url.as_ref();
    // SAFETY: the slice is as long as is said, and the room another.
    let text = written(|room, size, len| unsafe {
        sys::fiorrudda_origin(url.as_ptr(), url.len(), room, size, len)
    })?;
    Ok(word(text.unwrap_or_default()))
}

/// Whether two http or https URLs have the same origin (HTML, section 7.1.1).
pub fn same_origin(a: impl AsRef<[u8]>, b: impl AsRef<[u8]>) -> Result<bool> {
    asked_of_both(sys::fiorrudda_same_origin, a.as_ref(), b.as_ref())
}

/// Whether the origins of two URLs are schemelessly same site; the site of a domain is its last two labels.
pub fn same_site(a: impl AsRef<[u8]>, b: impl AsRef<[u8]>) -> Result<bool> {
    asked_of_both(sys::fiorrudda_same_site, a.as_ref(), b.as_ref())
}

/// Whether a URL is potentially trustworthy (Secure Contexts, section 3.2).
pub fn is_trustworthy(url: impl AsRef<[u8]>) -> Result<bool> {
    asked(sys::fiorrudda_trustworthy, url.as_ref())
}

/// Whether a URL has a bad port, to which nothing is sent (Fetch, section 2.9).
pub fn is_bad_port(url: impl AsRef<[u8]>) -> Result<bool> {
    asked(sys::fiorrudda_bad_port, url.as_ref())
}

/// Whether a method is forbidden to scripts (Fetch, section 2.2.1).
pub fn is_forbidden_method(method: impl AsRef<[u8]>) -> Result<bool> {
    asked(sys::fiorrudda_forbidden_method, method.as_ref())
}

/// Whether a name and a value are a forbidden request-header, which no script can set (Fetch, section 2.2.2).
pub fn is_forbidden_header(name: impl AsRef<[u8]>, value: impl AsRef<[u8]>) -> Result<bool> {
    asked_of_both(sys::fiorrudda_forbidden_header, name.as_ref(), value.as_ref())
}

/// Whether a name and a value are a CORS-safelisted request-header (Fetch, section 2.2.2).
pub fn is_safelisted(name: impl AsRef<[u8]>, value: impl AsRef<[u8]>) -> Result<bool> {
    asked_of_both(sys::fiorrudda_safelisted, name.as_ref(), value.as_ref())
}

/// Whether a whole body matches an integrity text (Subresource Integrity, section 3.3).
pub fn matches_integrity(metadata: impl AsRef<[u8]>, body: impl AsRef<[u8]>) -> Result<bool> {
    asked_of_both(sys::fiorrudda_integrity, metadata.as_ref(), body.as_ref())
}

/// The referrer that a policy tells `target` of the page `source`, if any (Referrer Policy, section 8.3).
pub fn referrer(
    policy: ReferrerPolicy,
    source: impl AsRef<[u8]>,
    target: impl AsRef<[u8]>,
) -> Result<Option<String>> {
    let (source, target) = (source.as_ref(), target.as_ref());
    // SAFETY: the slices are as long as is said, and the room another.
    let text = written(|room, size, len| unsafe {
        sys::fiorrudda_referrer(
            policy as u32,
            source.as_ptr(),
            source.len(),
            target.as_ptr(),
            target.len(),
            room,
            size,
            len,
        )
    })?;
    Ok(text.map(word))
}

/// Whether a word of a policy matches a URL, for a page and a number of redirects (CSP 3, section 6.7.2).
pub fn source_matches(
    expression: impl AsRef<[u8]>,
    url: impl AsRef<[u8]>,
    page: impl AsRef<[u8]>,
    redirects: u32,
) -> Result<bool> {
    let (expression, url, page) = (expression.as_ref(), url.as_ref(), page.as_ref());
    // SAFETY: the slices are as long as is said, and only read.
    told(unsafe {
        sys::fiorrudda_source_matches(
            expression.as_ptr(),
            expression.len(),
            url.as_ptr(),
            url.len(),
            page.as_ptr(),
            page.len(),
            redirects,
        )
    })
}
