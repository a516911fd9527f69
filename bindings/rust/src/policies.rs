//! Content security policies, and what violates them.

use crate::asked::{Client, Request};
use crate::error::{told, Result};
use crate::handle::{word, written, Owned};
use crate::headers::Headers;
use crate::numbers::Check;
use crate::sys;

/// Policies that are parsed and read once (CSP 3, section 2.2).
#[derive(Debug)]
pub struct Policies(Owned);

/// A violation: the policy's number, the enforced ones first; whether it is enforced; the effective directive; the URL
/// that is reported.
#[derive(Clone, Debug, PartialEq, Eq)]
pub struct Violation {
    /// The policy's number.
    pub policy: u32,
    /// Whether it is enforced, and blocks.
    pub enforced: bool,
    /// The effective directive.
    pub directive: String,
    /// The URL that is reported.
    pub url: String,
}

impl Policies {
    /// Those in the Content-Security-Policy headers of a list, and in its Content-Security-Policy-Report-Only headers.
    pub fn of_headers(headers: &Headers) -> Result<Policies> {
        // SAFETY: the handle is empty, and nothing else has the list.
        Owned::made(|handle| unsafe { sys::fiorrudda_policies(handle, headers.0.lent()) })
            .map(Policies)
    }

    /// Those of values that are enforced.
    pub fn enforced<V: AsRef<[u8]>>(values: impl IntoIterator<Item = V>) -> Result<Policies> {
        let named = values.into_iter().map(|value| ("Content-Security-Policy", value));
        Policies::of_headers(&Headers::of(named)?)
    }

    /// Whether an enforced policy has `upgrade-insecure-requests`.
    pub fn upgrades(&self) -> Result<bool> {
        // SAFETY: nothing else has the handle.
        told(unsafe { sys::fiorrudda_upgrades(self.0.lent()) })
    }

    /// The violations by a request, or by its response (CSP 3, section 4.1). `redirect` is the URL to which the request
    /// was redirected, or empty.
    pub fn violations(
        &self,
        client: &Client,
        request: &Request,
        redirect: impl AsRef<[u8]>,
        check: Check,
    ) -> Result<Vec<Violation>> {
        let (found, redirect) = (Owned::empty(), redirect.as_ref());
        // SAFETY: the slice is as long as is said; the handles are four, and nothing else has them.
        let code = unsafe {
            sys::fiorrudda_check(
                found.lent(),
                self.0.lent(),
                client.0.lent(),
                request.0.lent(),
                redirect.as_ptr(),
                redirect.len(),
                check as u32,
            )
        };
        if told(code)? {
            return Ok(Vec::new());
        }
        listed(&found)
    }
}

pub(crate) fn listed(found: &Owned) -> Result<Vec<Violation>> {
    let mut told_of = Vec::new();
    let (mut policy, mut enforced) = (0, 0);
    loop {
        let at = told_of.len();
        // SAFETY: nothing else has the handle; the numbers are lent to this call alone.
        let code = unsafe {
            sys::fiorrudda_violation(found.lent(), at, &mut policy, &mut enforced)
        };
        if !told(code)? {
            return Ok(told_of);
        }
        let directive = written(|room, size, len| unsafe {
            sys::fiorrudda_violation_directive(found.lent(), at, room, size, len)
        })?;
        let url = written(|room, size, len| unsafe {
            sys::fiorrudda_violation_url(found.lent(), at, room, size, len)
        })?;
        told_of.push(Violation {
            policy,
            enforced: enforced == 1,
            directive: word(directive.unwrap_or_default()),
            url: word(url.unwrap_or_default()),
        });
    }
}
