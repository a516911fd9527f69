//! A browser's fetch engine that is proved: each rule by a call, whole fetches that touch nothing, and whole plays of
//! scenarios, over the C library of Fiorrudda. Nothing of this crate is proved.
//!
//! ```
//! use fiorrudda::{passes_cors_check, Headers};
//!
//! let answer = Headers::of([("Access-Control-Allow-Origin", "*")])?;
//! assert!(passes_cors_check("https://app.example", false, &answer)?);
//! assert!(!passes_cors_check("https://app.example", true, &answer)?);
//! # Ok::<(), fiorrudda::Error>(())
//! ```
//!
//! Texts are any bytes, as `&str` and `&[u8]`. What a call is given it takes or refuses by an [`Error`].
//!
//! # Threads
//!
//! A thing is used by one thread at a time, even to be read, so none is `Sync`. Another thread may take one over where
//! that is proved: [`Headers`], [`Book`], [`Client`] and [`Request`] are `Send`, [`Policies`] and [`Fetch`] are not.
//! Threads share a `Mutex<Book>`.
//!
//! ```
//! fn is_send<T: Send>() {}
//! is_send::<fiorrudda::Headers>();
//! is_send::<fiorrudda::Client>();
//! is_send::<fiorrudda::Request>();
//! is_send::<std::sync::Arc<std::sync::Mutex<fiorrudda::Book>>>();
//! ```
//!
//! ```compile_fail
//! fn is_send<T: Send>() {}
//! is_send::<fiorrudda::Fetch>();
//! ```
//!
//! ```compile_fail
//! fn is_send<T: Send>() {}
//! is_send::<fiorrudda::Policies>();
//! ```
//!
//! ```compile_fail
//! fn is_sync<T: Sync>() {}
//! is_sync::<fiorrudda::Headers>();
//! ```

#![warn(unreachable_pub)]

mod asked;
mod book;
mod checks;
mod error;
mod fetch;
mod handle;
mod headers;
mod numbers;
mod play;
mod policies;
mod rules;
pub mod sys;

pub use asked::{Client, Request};
pub use book::{parse_sts, Book, Sts};
pub use checks::{
    is_mixed_blocked, is_mixed_upgraded, is_nosniff_blocked, is_type_blocked, preflight,
    preflight_verdict, seen, Seen, Verdict,
};
pub use error::{Error, Result};
pub use fetch::{Act, Call, Fetch, Outcome, Response, Sent, Told};
pub use headers::{
    essence, exposed_names, keeps_from, passes_cors_check, says_nosniff, unsafe_names, Headers,
};
pub use numbers::*;
pub use play::{play, reports};
pub use policies::{Policies, Violation};
pub use rules::{
    is_bad_port, is_forbidden_header, is_forbidden_method, is_safelisted, is_trustworthy,
    matches_integrity, origin, referrer, same_origin, same_site, source_matches,
};

/// The version of this crate, which is that of the library that it is for.
pub const VERSION: &str = env!("CARGO_PKG_VERSION");
