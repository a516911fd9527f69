//! The document that fetches, and what it asks for.

use crate::error::{done, Result};
use crate::handle::Owned;
use crate::numbers::{Credentials, CrossOrigin, Kind, Mode, Redirect, ReferrerPolicy};
use crate::sys;

/// A document that fetches (HTML, section 8.1.3.2).
#[derive(Debug)]
pub struct Client(pub(crate) Owned);

// SAFETY: `law_handle_crosses` of the library says that a handle with a client may go to another thread.
unsafe impl Send for Client {}

impl Client {
    /// A document by its URL, at the top, with the default referrer policy.
    pub fn new(url: impl AsRef<[u8]>) -> Result<Client> {
        let url = url.as_ref();
        Client::within(url, url, ReferrerPolicy::Default)
    }

    /// A document by its URL, that of the page at the top, and its referrer policy.
    pub fn within(
        url: impl AsRef<[u8]>,
        top: impl AsRef<[u8]>,
        policy: ReferrerPolicy,
    ) -> Result<Client> {
        let (url, top) = (url.as_ref(), top.as_ref());
        // SAFETY: the slices are as long as is said and only read; the handle is empty.
        Owned::made(|handle| unsafe {
            sys::fiorrudda_client(
                handle,
                url.as_ptr(),
                url.len(),
                top.as_ptr(),
                top.len(),
                policy as u32,
            )
        })
        .map(Client)
    }

    /// Adds the policies of a header's value (CSP 3, section 2.2), enforced or only reporting.
    pub fn policy(&mut self, value: impl AsRef<[u8]>, enforced: bool) -> Result<&mut Client> {
        let value = value.as_ref();
        // SAFETY: the slice is as long as is said, and nothing else has the handle.
        done(unsafe {
            sys::fiorrudda_client_policy(self.0.lent(), value.as_ptr(), value.len(), enforced)
        })?;
        Ok(self)
    }

    /// Adds the value of the Cookie header for the origin of a URL.
    pub fn cookie(
        &mut self,
        url: impl AsRef<[u8]>,
        value: impl AsRef<[u8]>,
    ) -> Result<&mut Client> {
        let (url, value) = (url.as_ref(), value.as_ref());
        // SAFETY: as above.
        done(unsafe {
            sys::fiorrudda_client_cookie(
                self.0.lent(),
                url.as_ptr(),
                url.len(),
                value.as_ptr(),
                value.len(),
            )
        })?;
        Ok(self)
    }
}

/// What a script asks of `fetch` (Fetch, section 5.6), or what an element loads (HTML, section 2.5.1). A part that the
/// one or the other does not have is [`NoSuchPart`](crate::Error::NoSuchPart).
#[derive(Debug)]
pub struct Request(pub(crate) Owned);

// SAFETY: `law_handle_crosses` of the library says that a handle with a request may go to another thread.
unsafe impl Send for Request {}

impl Request {
    /// What a script asks for, by a method: mode cors, credentials mode same-origin, redirect mode follow.
    pub fn new(method: impl AsRef<[u8]>, url: impl AsRef<[u8]>) -> Result<Request> {
        let (method, url) = (method.as_ref(), url.as_ref());
        // SAFETY: the slices are as long as is said; the handle is empty.
        Owned::made(|handle| unsafe {
            sys::fiorrudda_request(
                handle,
                method.as_ptr(),
                method.len(),
                url.as_ptr(),
                url.len(),
            )
        })
        .map(Request)
    }

    /// What an element loads that no parser inserted, without `crossorigin`, nonce and integrity.
    pub fn load(kind: Kind, url: impl AsRef<[u8]>) -> Result<Request> {
        let url = url.as_ref();
        // SAFETY: as above.
        Owned::made(|handle| unsafe {
            sys::fiorrudda_load(handle, kind as u32, url.as_ptr(), url.len())
        })
        .map(Request)
    }

    /// Adds a header. One that is none is told where a fetch is begun.
    pub fn header(
        &mut self,
        name: impl AsRef<[u8]>,
        value: impl AsRef<[u8]>,
    ) -> Result<&mut Request> {
        let (name, value) = (name.as_ref(), value.as_ref());
        // SAFETY: the slices are as long as is said, and nothing else has the handle.
        done(unsafe {
            sys::fiorrudda_request_header(
                self.0.lent(),
                name.as_ptr(),
                name.len(),
                value.as_ptr(),
                value.len(),
            )
        })?;
        Ok(self)
    }

    fn text(&mut self, which: u32, text: &[u8]) -> Result<&mut Request> {
        // SAFETY: as above.
        done(unsafe {
            sys::fiorrudda_request_text(self.0.lent(), which, text.as_ptr(), text.len())
        })?;
        Ok(self)
    }

    fn choose(&mut self, choice: u32, number: u32) -> Result<&mut Request> {
        // SAFETY: nothing else has the handle.
        done(unsafe { sys::fiorrudda_request_choose(self.0.lent(), choice, number) })?;
        Ok(self)
    }

    /// The body of what a script asks for.
    pub fn body(&mut self, body: impl AsRef<[u8]>) -> Result<&mut Request> {
        self.text(sys::REQUEST_BODY, body.as_ref())
    }

    /// The integrity metadata.
    pub fn integrity(&mut self, metadata: impl AsRef<[u8]>) -> Result<&mut Request> {
        self.text(sys::REQUEST_INTEGRITY, metadata.as_ref())
    }

    /// The nonce of an element.
    pub fn nonce(&mut self, nonce: impl AsRef<[u8]>) -> Result<&mut Request> {
        self.text(sys::REQUEST_NONCE, nonce.as_ref())
    }

    /// The mode of what a script asks for.
    pub fn mode(&mut self, mode: Mode) -> Result<&mut Request> {
        self.choose(sys::CHOOSE_MODE, mode as u32)
    }

    /// The credentials mode of what a script asks for.
    pub fn credentials(&mut self, mode: Credentials) -> Result<&mut Request> {
        self.choose(sys::CHOOSE_CREDENTIALS, mode as u32)
    }

    /// The redirect mode of what a script asks for.
    pub fn redirect(&mut self, mode: Redirect) -> Result<&mut Request> {
        self.choose(sys::CHOOSE_REDIRECT, mode as u32)
    }

    /// Whether the referrer is the client, or none.
    pub fn referrer(&mut self, client: bool) -> Result<&mut Request> {
        self.choose(sys::CHOOSE_REFERRER, client.into())
    }

    /// The referrer policy.
    pub fn referrer_policy(&mut self, policy: ReferrerPolicy) -> Result<&mut Request> {
        self.choose(sys::CHOOSE_REFERRER_POLICY, policy as u32)
    }

    /// Whether a script listens to the upload.
    pub fn upload(&mut self, listens: bool) -> Result<&mut Request> {
        self.choose(sys::CHOOSE_UPLOAD, listens.into())
    }

    /// The `crossorigin` attribute of an element.
    pub fn crossorigin(&mut self, attribute: CrossOrigin) -> Result<&mut Request> {
        self.choose(sys::CHOOSE_CROSSORIGIN, attribute as u32)
    }

    /// Whether a parser inserted the element.
    pub fn parser(&mut self, inserted: bool) -> Result<&mut Request> {
        self.choose(sys::CHOOSE_PARSER, inserted.into())
    }
}
