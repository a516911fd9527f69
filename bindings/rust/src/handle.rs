//! The handle that each thing owns, and the room that a text is written to.

use std::cell::UnsafeCell;
use std::ptr;

use crate::error::{told, Error, Result};
use crate::sys;

/// Bytes that hold most texts, so that these are written by one call.
const ROOM: usize = 256;

/// A handle that is freed with its owner. The cell lets a call that only reads take the word, which each call does; it
/// keeps the handle from being shared, and its pointer keeps it from being sent where a thing does not say otherwise.
#[derive(Debug)]
pub(crate) struct Owned(UnsafeCell<sys::Handle>);

impl Owned {
    pub(crate) fn empty() -> Owned {
        Owned(UnsafeCell::new(sys::Handle { at: ptr::null_mut() }))
    }

    /// What a call makes in an empty handle.
    pub(crate) fn made(make: impl FnOnce(*mut sys::Handle) -> u32) -> Result<Owned> {
        let made = Owned::empty();
        match make(made.lent()) {
            sys::OK => Ok(made),
            code => Err(Error::of(code)),
        }
    }

    /// The handle for one call. No call is given it twice, since each takes things of several types, one of a type.
    pub(crate) fn lent(&self) -> *mut sys::Handle {
        self.0.get()
    }
}

impl Drop for Owned {
    fn drop(&mut self) {
        // SAFETY: the handle was made empty, is not copied, and no other call has it.
        unsafe { sys::fiorrudda_free(self.lent()) }
    }
}

/// The text that a call writes, if it writes one.
pub(crate) fn written(
    mut call: impl FnMut(*mut u8, usize, *mut usize) -> u32,
) -> Result<Option<Vec<u8>>> {
    let mut room = vec![0; ROOM];
    let mut len = 0;
    let mut code = call(room.as_mut_ptr(), room.len(), &mut len);
    if code == sys::TOO_SHORT {
        room = vec![0; len];
        code = call(room.as_mut_ptr(), room.len(), &mut len);
    }
    if !told(code)? {
        return Ok(None);
    }
    room.truncate(len);
    Ok(Some(room))
}

/// The texts that a call writes by their index, until there is none.
pub(crate) fn each(
    mut call: impl FnMut(usize, *mut u8, usize, *mut usize) -> u32,
) -> Result<Vec<Vec<u8>>> {
    let mut found = Vec::new();
    while let Some(text) = written(|room, size, len| call(found.len(), room, size, len))? {
        found.push(text);
    }
    Ok(found)
}

/// A text of which the library says that it has these bytes alone, as a name or a URL: Latin-1, as it prints them.
pub(crate) fn word(text: Vec<u8>) -> String {
    text.into_iter().map(char::from).collect()
}
