//! Whole plays of scenarios.

use crate::error::{told, Error, Result};
use crate::handle::word;
use crate::sys;

/// Bytes that hold the text of most plays, so that these are played once.
const ROOM: usize = 65_536;

/// Plays a scenario, the bytes of its JSON, over its own servers, and gives the text that `fetchplay play` prints.
/// [`Error::NotAScenario`] where it is refused.
pub fn play(scenario: impl AsRef<[u8]>) -> Result<String> {
    played(sys::fiorrudda_play, scenario.as_ref())
}

/// Plays a scenario of at most 16 documents, likewise, with the reports of its documents' violations, and gives the
/// text that `cspreport play` prints. [`Error::NotAScenario`] where it is refused.
pub fn reports(scenario: impl AsRef<[u8]>) -> Result<String> {
    played(sys::fiorrudda_reports, scenario.as_ref())
}

/// A call that plays a scenario and writes a text.
type Call = unsafe extern "C" fn(*const u8, usize, *mut u8, usize, *mut usize) -> u32;

fn played(call: Call, scenario: &[u8]) -> Result<String> {
    let (mut room, mut len) = (vec![0; ROOM], 0);
    loop {
        // SAFETY: the slice and the room are as long as is said.
        let code = unsafe {
            call(
                scenario.as_ptr(),
                scenario.len(),
                room.as_mut_ptr(),
                room.len(),
                &mut len,
            )
        };
        if code == sys::TOO_SHORT {
            room = vec![0; len];
            continue;
        }
        let is_played = told(code)?;
        room.truncate(len);
        let text = word(room);
        return if is_played { Ok(text) } else { Err(Error::NotAScenario(text)) };
    }
}
