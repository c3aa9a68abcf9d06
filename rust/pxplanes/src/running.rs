use crate::error::{ended, Result};
use pxplanes_sys as sys;

/// Room that is enough for what most commands write. A longer image is drawn once all the same, since `NO_ROOM` is answered before it is
/// drawn; a longer text is made twice.
const ROOM: usize = 1 << 21;

/// What the program writes for the words of a command, as `tidy` or `tile 600 400`, with a text as its standard input.
pub fn run(text: impl AsRef<[u8]>, words: impl AsRef<[u8]>) -> Result<Vec<u8>> {
    let (text, words) = (text.as_ref(), words.as_ref());
    let mut out = vec![0; ROOM];
    loop {
        let mut found = sys::Found::default();
        let (room, to) = (out.len(), out.as_mut_ptr());
        let status =
            unsafe { sys::pxplanes_run(text.as_ptr(), text.len(), words.as_ptr(), words.len(), to, room, &mut found) };
        out.resize(found.room as usize, 0);
        if status != sys::NO_ROOM {
            ended(status, &found)?;
            out.shrink_to_fit();
            return Ok(out);
        }
    }
}
