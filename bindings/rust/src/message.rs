//! Messages and their commands.

use crate::{raw, MemberNumber};
use std::fmt;

/// What a message asks of a table of 16 registers of 64 bits, numbered from 0.
#[derive(Clone, Copy, Debug, PartialEq, Eq, PartialOrd, Ord, Hash)]
pub enum Command {
    /// The register gets the value.
    Set(u8, u64),
    /// The register grows by the amount, up to `u64::MAX`.
    Add(u8, u64),
    /// The second register gets the value of the first.
    Copy(u8, u8),
}

impl Command {
    /// The command by its numbers of ct.h: its kind, its register, and the rest.
    #[inline]
    pub(crate) fn numbers(self) -> (u8, u8, u64) {
        match self {
            Command::Set(register, value) => (1, register, value),
            Command::Add(register, amount) => (2, register, amount),
            Command::Copy(from, to) => (3, from, u64::from(to)),
        }
    }

    pub(crate) fn of(kind: u8, register: u8, rest: u64) -> Option<Command> {
        Some(match kind {
            1 => Command::Set(register, rest),
            2 => Command::Add(register, rest),
            3 => Command::Copy(register, rest as u8),
            _ => return None,
        })
    }
}

/// Its text in a record: `["set",0,7]`.
impl fmt::Display for Command {
    fn fmt(&self, f: &mut fmt::Formatter<'_>) -> fmt::Result {
        let (name, register, rest) = match *self {
            Command::Set(register, value) => ("set", register, value),
            Command::Add(register, amount) => ("add", register, amount),
            Command::Copy(from, to) => ("copy", from, u64::from(to)),
        };
        write!(f, "[\"{name}\",{register},{rest}]")
    }
}

/// A message: the number-th command, counted from 1, that its origin broadcast. Messages are ordered as a decision delivers them.
#[derive(Clone, Copy, Debug, PartialEq, Eq, PartialOrd, Ord, Hash)]
pub struct Message {
    /// The member that broadcast it.
    pub origin: MemberNumber,
    /// Its number among those of its origin, from 1.
    pub number: u32,
    /// What it asks for.
    pub command: Command,
}

impl Message {
    /// The message of these fields, which the library wrote; None where they say that there is none.
    pub(crate) fn of(message: raw::Message) -> Option<Message> {
        let command = Command::of(message.command, message.reg, message.value)?;
        Some(Message { origin: message.origin, number: message.number, command })
    }
}

/// Its name: `1.2`.
impl fmt::Display for Message {
    fn fmt(&self, f: &mut fmt::Formatter<'_>) -> fmt::Result {
        write!(f, "{}.{}", self.origin, self.number)
    }
}
