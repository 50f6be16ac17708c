//! The log of a member, for `ct_tool merge` (docs/LOGS.md): each method writes the line of one act, in one write, before it returns.
//! After an error the line may stand in part, and the member has to stop before it sends anything.

use std::fmt::Display;
use std::fs::{File, OpenOptions};
use std::io::{ErrorKind, Result, Write};

/// A message, by its origin and its number there. A value has them in order.
pub type Message = (u8, u32);

pub struct Log {
    file: File,
    member: u8,
}

impl Log {
    /// A new log of this member of so many; an error where there is one, as a member that comes back has forgotten what it promised.
    pub fn open(path: &str, member: u8, members: u8, batch: u32) -> Result<Log> {
        let file = OpenOptions::new().append(true).create_new(true).open(path)?;
        let mut log = Log { file, member };
        log.write(&format!("members {members}\nbatch {batch}\n"))?;
        Ok(log)
    }

    fn write(&mut self, text: &str) -> Result<()> {
        let written = self.file.write(text.as_bytes())?;
        if written == text.len() { Ok(()) } else { Err(ErrorKind::WriteZero.into()) }
    }

    fn act(&mut self, act: impl Display, stated: impl Display) -> Result<()> {
        let line = format!("{} {act} {stated}", self.member);
        self.write(&format!("{}\n", line.trim_end()))
    }

    /// `command`: as in a schedule, `set 0 7`; of a receipt it may be left out.
    pub fn submit(&mut self, command: &str) -> Result<()> { self.act("submit", command) }
    pub fn receive_data(&mut self, it: Message, sender: u8, command: &str) -> Result<()> {
        self.act(format!("receive data {}.{} from {sender}", it.0, it.1), command)
    }

    /// `kind`: `est`, whose value stands with its ts, `prop` or `dec`, with their value, `ack` or `nack`. `sender`: whose step sent it.
    pub fn receive_est(&mut self, instance: u32, round: u32, sender: u8, value: &[Message], ts: u32) -> Result<()> {
        self.act(format!("receive est {instance}/{round} from {sender}"), with_ts(value, ts))
    }
    pub fn receive(&mut self, kind: &str, instance: u32, round: u32, sender: u8, value: Option<&[Message]>) -> Result<()> {
        self.act(format!("receive {kind} {instance}/{round} from {sender}"), value.map(text_of).unwrap_or_default())
    }

    pub fn begin(&mut self, proposal: &[Message]) -> Result<()> { self.act("begin", text_of(proposal)) }
    pub fn enter(&mut self, estimate: &[Message], ts: u32) -> Result<()> { self.act("enter", with_ts(estimate, ts)) }
    pub fn choose(&mut self, sender: u8, estimate: &[Message]) -> Result<()> { self.act(format!("choose {sender}"), text_of(estimate)) }
    pub fn adopt(&mut self, proposal: &[Message], round: u32) -> Result<()> { self.act("adopt", with_ts(proposal, round)) }
    pub fn suspect(&mut self) -> Result<()> { self.act("suspect", "") }
    pub fn conclude(&mut self) -> Result<()> { self.act("conclude", "") }
    /// The batch in the order in which it is delivered; so with `follow`.
    pub fn deliver(&mut self, batch: &[Message]) -> Result<()> { self.act("deliver", text_of(batch)) }
    pub fn follow(&mut self, batch: &[Message]) -> Result<()> { self.act("follow", text_of(batch)) }
}

fn text_of(value: &[Message]) -> String {
    let names: Vec<String> = value.iter().map(|(origin, number)| format!("{origin}.{number}")).collect();
    format!("{{{}}}", names.join(","))
}

fn with_ts(value: &[Message], ts: u32) -> String {
    format!("{} ts {ts}", text_of(value))
}
