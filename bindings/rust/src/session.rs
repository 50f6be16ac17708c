//! Sessions.

use crate::handle::Handle;
use crate::{raw, Serial};
use std::error::Error;
use std::fmt;
use std::ops::Range;

/// How an answer to a line that was taken begins.
const TAKEN: [&str; 8] = ["ok", "enabled", "next", "state", "waiting", "report", "record", "limits"];

/// A session of `ct_tool interact`: it is told the lines of a schedule (docs/SCHEDULES.md), and answers each.
///
/// ```
/// use malletochre::{Session, SessionError};
///
/// # fn main() -> Result<(), SessionError> {
/// let mut session = Session::open()?;
/// session.tell("members 3")?;
/// assert_eq!(session.tell("1 submit set 0 7")?, 1..4);
/// assert_eq!(session.ask("next 2")?, "next 2 receive data 1.1 from 1");
/// let refused = session.tell("2 begin").unwrap_err();
/// assert_eq!(refused.to_string(), "line 4: 2 begin: refused 2 Nothing: instance 0 idle");
/// # Ok(())
/// # }
/// ```
pub struct Session {
    handle: Handle,
    lines: usize,
}

/// What a session couldn't do.
#[derive(Clone, Debug, PartialEq, Eq)]
#[non_exhaustive]
pub enum SessionError {
    /// A line was refused: its number, from 1, the line without blanks around it, and the fault. It changed nothing.
    Refused {
        /// The line's number among those that were told, from 1.
        number: usize,
        /// The line.
        line: String,
        /// The fault, in the words of docs/SCHEDULES.md.
        fault: String,
    },
    /// A text that was told or asked as a line has a line feed in it, or a question was told: the session is as it was.
    NoLine,
    /// Memory was refused. Where bytes were told the session is closed; else what it was told stays.
    OutOfMemory,
    /// The board of batches refused one, as no line can bring about. The session is closed.
    Board,
    /// The session was closed by an error before.
    Closed,
    /// No step was told yet, so there is no group to speak of.
    NoWorld,
    /// The run has more steps than a diagram shows.
    TooLong,
}

impl SessionError {
    /// The error of this number of ct.h, or Ok at 0.
    fn of(number: u32) -> Result<(), SessionError> {
        Err(match number {
            0 => return Ok(()),
            raw::OUT_OF_MEMORY => SessionError::OutOfMemory,
            raw::BOARD => SessionError::Board,
            raw::NOT_OPEN => SessionError::Closed,
            raw::NO_WORLD => SessionError::NoWorld,
            raw::TOO_LONG => SessionError::TooLong,
            number => unreachable!("the library answers {number}"),
        })
    }
}

impl fmt::Display for SessionError {
    fn fmt(&self, f: &mut fmt::Formatter<'_>) -> fmt::Result {
        f.write_str(match self {
            SessionError::Refused { number, line, fault } => return write!(f, "line {number}: {line}: {fault}"),
            SessionError::NoLine => "that is not one line, or a question was told",
            SessionError::OutOfMemory => "out of memory",
            SessionError::Board => "board refused",
            SessionError::Closed => "the session is closed",
            SessionError::NoWorld => "no step was told yet",
            SessionError::TooLong => "the run is too long for a diagram",
        })
    }
}

impl Error for SessionError {}

impl Session {
    /// A session that was told nothing; an error where memory is refused.
    pub fn open() -> Result<Session, SessionError> {
        let session = Session { handle: Handle::closed(), lines: 0 };
        SessionError::of(unsafe { raw::ct_session_open(session.handle.at()) })?;
        Ok(session)
    }

    /// Tells it bytes: lines, or parts of lines, each ended by a line feed. What is answered to the lines that these bytes end, a line
    /// each, takes the place of what was in `answers`.
    pub fn tell_bytes(&mut self, bytes: &[u8], answers: &mut Vec<u8>) -> Result<(), SessionError> {
        answers.clear();
        SessionError::of(unsafe { raw::ct_tell(self.handle.at(), bytes.as_ptr(), bytes.len()) })?;
        self.lines += bytes.iter().filter(|byte| **byte == b'\n').count();
        self.copy(answers);
        Ok(())
    }

    /// Copies what waits into the room that is empty.
    fn copy(&self, room: &mut Vec<u8>) {
        if room.capacity() == 0 {
            room.reserve(64);
        }
        let mut length = unsafe { raw::ct_answers(self.handle.at(), room.as_mut_ptr(), room.capacity()) };
        if length > room.capacity() {
            room.reserve(length);
            length = unsafe { raw::ct_answers(self.handle.at(), room.as_mut_ptr(), room.capacity()) };
        }
        // So many bytes were written.
        unsafe { room.set_len(length) }
    }

    /// Tells it a line, and gives the serials of the envelopes that its steps sent.
    pub fn tell(&mut self, line: &str) -> Result<Range<Serial>, SessionError> {
        let answer = self.ask(line)?;
        let serials = answer.strip_prefix("ok").ok_or(SessionError::NoLine)?.trim();
        let (first, last) = serials.split_once('-').unwrap_or((serials, serials));
        Ok(match (first.parse::<Serial>(), last.parse::<Serial>()) {
            (Ok(first), Ok(last)) => first..last + 1,
            _ => 0..0,
        })
    }

    /// The answer to a line, which may be a question, without its line feed.
    pub fn ask(&mut self, line: &str) -> Result<String, SessionError> {
        if line.contains('\n') {
            return Err(SessionError::NoLine);
        }
        let mut answer = Vec::new();
        self.tell_bytes(format!("{line}\n").as_bytes(), &mut answer)?;
        let answer = String::from_utf8_lossy(&answer).trim_end_matches('\n').to_owned();
        if TAKEN.contains(&answer.split(' ').next().unwrap_or_default()) {
            return Ok(answer);
        }
        Err(SessionError::Refused { number: self.lines, line: line.trim().to_owned(), fault: answer })
    }

    /// The record of the steps so far, as `ct replay` and `ct_tool` read it: JSON, without a line feed.
    pub fn record(&mut self) -> Result<String, SessionError> {
        SessionError::of(unsafe { raw::ct_record(self.handle.at()) })?;
        Ok(self.text())
    }

    /// The diagram of the steps so far, as SVG.
    pub fn diagram(&mut self) -> Result<String, SessionError> {
        SessionError::of(unsafe { raw::ct_diagram(self.handle.at()) })?;
        Ok(self.text())
    }

    /// What waits, which is UTF-8.
    fn text(&self) -> String {
        let mut bytes = Vec::new();
        self.copy(&mut bytes);
        String::from_utf8_lossy(&bytes).into_owned()
    }
}

impl Drop for Session {
    fn drop(&mut self) {
        unsafe { raw::ct_session_close(self.handle.at()) }
    }
}
