//! Envelopes.

use crate::{raw, Instance, MemberNumber, Message, Round, Serial};

/// What was sent to one member.
#[derive(Clone, Copy, Debug, PartialEq, Eq, Hash)]
pub struct Envelope {
    /// Its place among all that were sent, from 1.
    pub serial: Serial,
    /// The member that it goes to.
    pub to: MemberNumber,
    /// What it carries.
    pub content: Content,
}

/// What an envelope carries: an instance, a round of it, and the member that it is `from`. The value of an estimate, a proposal and a
/// decision is that of [`World::value`](crate::World::value).
#[allow(missing_docs)]
#[derive(Clone, Copy, Debug, PartialEq, Eq, Hash)]
pub enum Content {
    /// A message.
    Data(Message),
    /// The estimate of a member at the beginning of a round; `ts` is the round in which it took that over, 0 before the first.
    Estimate { instance: Instance, round: Round, from: MemberNumber, ts: Round },
    /// The proposal of the round's coordinator.
    Proposal { instance: Instance, round: Round },
    /// The member took the proposal over.
    Ack { instance: Instance, round: Round, from: MemberNumber },
    /// The member took the coordinator for crashed.
    Nack { instance: Instance, round: Round, from: MemberNumber },
    /// The instance's decision, as the round's coordinator made it.
    Decision { instance: Instance, round: Round },
}

impl Envelope {
    /// The envelope of these fields, which the library wrote; None where they say that there is none.
    pub(crate) fn of(serial: Serial, letter: raw::Letter) -> Option<Envelope> {
        let raw::Letter { message, instance, round, ts, kind, to, from } = letter;
        let content = match kind {
            1 => Content::Data(Message::of(message)?),
            2 => Content::Estimate { instance, round, from, ts },
            3 => Content::Proposal { instance, round },
            4 => Content::Ack { instance, round, from },
            5 => Content::Nack { instance, round, from },
            6 => Content::Decision { instance, round },
            _ => return None,
        };
        Some(Envelope { serial, to, content })
    }
}
