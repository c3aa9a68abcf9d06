use pxplanes_sys as sys;
use std::fmt;

/// Why there is no answer. A later version may have more reasons, so a `match` has an arm for the others.
#[derive(Clone, Debug, PartialEq, Eq)]
#[non_exhaustive]
pub enum Error {
    /// The text is no scene, or no listing: its first bad line, and the word of the cause.
    Malformed {
        /// The line, from 1.
        line: u32,
        /// Why it is bad.
        cause: String,
    },
    /// A limit is passed; `line` is 0 where it is none of a line.
    Limit {
        /// The line, from 1, or 0.
        line: u32,
        /// The word of the limit.
        kind: String,
        /// What was found there.
        number: i64,
    },
    /// The words name no command of the program.
    NoCommand,
    /// There was no memory for the call.
    Memory,
    /// The clock is past the last, which it names.
    NoClock {
        /// How many clocks there are.
        clocks: u64,
    },
    /// The operation is past the last, which it names.
    NoOperation {
        /// How many operations there are.
        operations: u64,
    },
    /// A window has not so many columns or rows, or lies past the widest picture.
    NoWindow,
    /// The scene has no face of this number.
    NoFace {
        /// The greatest face number.
        faces: u32,
    },
    /// No microinstruction, or one with a place past the memory, by its index.
    NoMicro {
        /// Which of those given it is, from 0.
        index: u64,
    },
}

/// What a call gives.
pub type Result<T> = std::result::Result<T, Error>;

impl fmt::Display for Error {
    fn fmt(&self, to: &mut fmt::Formatter<'_>) -> fmt::Result {
        match self {
            Error::Malformed { line, cause } => write!(to, "malformed line {line}: {cause}"),
            Error::Limit { line, kind, number } => write!(to, "limit line {line}: {kind} {number}"),
            Error::NoCommand => write!(to, "the words name no command"),
            Error::Memory => write!(to, "no memory"),
            Error::NoClock { clocks } => write!(to, "there are {clocks} clocks"),
            Error::NoOperation { operations } => write!(to, "there are {operations} operations"),
            Error::NoFace { faces } => write!(to, "faces are numbered from 1 to {faces}"),
            Error::NoWindow => write!(to, "a window has not so many columns or rows"),
            Error::NoMicro { index } => write!(to, "microinstruction {index} is none"),
        }
    }
}

impl std::error::Error for Error {}

/// The longest word of the library, and some room.
const LONGEST: usize = 32;

/// A word that the library writes.
pub(crate) fn name(write: impl FnOnce(*mut u8, usize) -> usize) -> String {
    let mut word = [0; LONGEST];
    let len = write(word.as_mut_ptr(), word.len());
    String::from_utf8_lossy(&word[..len.min(LONGEST)]).into_owned()
}

/// What a call answers that ended with a status, which is no `NO_ROOM`.
pub(crate) fn ended(status: u32, found: &sys::Found) -> Result<()> {
    Err(match status {
        sys::OK => return Ok(()),
        sys::MALFORMED => Error::Malformed {
            line: found.line,
            cause: name(|word, len| unsafe { sys::pxplanes_cause_name(found.cause, word, len) }),
        },
        sys::LIMIT => Error::Limit {
            line: found.line,
            kind: name(|word, len| unsafe { sys::pxplanes_kind_name(found.kind, word, len) }),
            number: found.number,
        },
        sys::USAGE => Error::NoCommand,
        sys::MEMORY => Error::Memory,
        sys::NO_CLOCK => Error::NoClock { clocks: found.clocks },
        sys::NO_OPERATION => Error::NoOperation { operations: found.operations },
        sys::NO_FACE => Error::NoFace { faces: found.faces },
        sys::NO_WINDOW => Error::NoWindow,
        sys::NO_MICRO => Error::NoMicro { index: found.number as u64 },
        other => unreachable!("the library answered {other}"),
    })
}

/// Calls with buffers of no element, and once more with as many as are needed, where some are; what was found, and the buffers.
pub(crate) fn filled<T: Clone + Default, const N: usize>(
    mut call: impl FnMut(&mut [Vec<T>; N], &mut sys::Found) -> u32,
) -> Result<(sys::Found, [Vec<T>; N])> {
    let mut found = sys::Found::default();
    let mut buffers = std::array::from_fn(|_| Vec::new());
    let mut status = call(&mut buffers, &mut found);
    if status == sys::NO_ROOM {
        let room = found.room as usize;
        buffers = std::array::from_fn(|_| vec![T::default(); room]);
        status = call(&mut buffers, &mut found);
    }
    ended(status, &found)?;
    Ok((found, buffers))
}
