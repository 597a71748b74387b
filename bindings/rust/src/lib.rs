//! Mullerpink for Rust: an interpreter of WebAssembly's integer part, whose code is proved. This wrapper is not.
//!
//! Each call stands alone, so nothing is to be freed, and any thread may make it.

mod calls;
mod raw;

pub use calls::{call, call_bytes, Bounds, CallError, Refusal, Trap, Value};

use std::fmt;

/// Why there is no answer.
#[derive(Clone, Copy, Debug, PartialEq, Eq)]
pub enum Error {
    /// The words ask for no call; of a typed call: its turns are out of their range.
    BadWords,
    TooLong,
    /// The bytes are no module that is read; of a session: the script is no JSON.
    Unreadable,
    /// There is no function of the name; of a session: the JSON is no script.
    NoFunction,
    InvalidModule,
    OutOfMemory,
    BadArguments,
    /// The call is given bytes, and the module takes none.
    TakesNoBytes,
}

impl fmt::Display for Error {
    fn fmt(&self, f: &mut fmt::Formatter<'_>) -> fmt::Result {
        write!(f, "{self:?}")
    }
}

impl std::error::Error for Error {}

fn error_of(code: u32) -> Error {
    match code {
        2 => Error::BadWords,
        4 => Error::TooLong,
        5 => Error::Unreadable,
        6 => Error::NoFunction,
        7 => Error::InvalidModule,
        10 => Error::BadArguments,
        13 => Error::TakesNoBytes,
        _ => Error::OutOfMemory,
    }
}

/// There is no room.
const NO_ROOM: u32 = 9;

/// What writes to room, in as much of it as it takes.
fn written(mut write: impl FnMut(&mut [u8]) -> raw::Ran) -> Result<String, Error> {
    let mut room = vec![0; 4096];
    loop {
        let ran = write(&mut room);
        match ran.code {
            0 => {
                room.truncate(ran.count);
                return Ok(String::from_utf8_lossy(&room).into_owned());
            }
            NO_ROOM => room.resize(room.len() * 4, 0),
            code => return Err(error_of(code)),
        }
    }
}

/// The line of a run, as the program `mullerpink_run` prints it: options, the name of an export, and its arguments.
pub fn run(words: &[&str], module: &[u8]) -> Result<String, Error> {
    let words = words.join("\0");
    written(|out| raw::run(words.as_bytes(), module, out))
}

/// The lines of a session, as the program `mullerpink` prints them.
pub fn session(script: &str) -> Result<String, Error> {
    written(|out| raw::session(script.as_bytes(), out))
}
