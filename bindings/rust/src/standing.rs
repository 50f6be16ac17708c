//! Where members stand.

use crate::{raw, Instance, MemberNumber, Round, MAX_MEMBERS};
use std::collections::{BTreeMap, BTreeSet};
use std::fmt;

/// Where a member stands. While no instance is open, there is no phase, its round and ts are 0, and its sets empty.
#[derive(Clone, Debug, PartialEq, Eq)]
pub struct Standing {
    /// The last instance that it began, 0 before the first.
    pub instance: Instance,
    /// The round of its open instance, 0 before the first.
    pub round: Round,
    /// The phase of that round.
    pub phase: Option<Phase>,
    /// The round in which it took its estimate over; 0: the estimate is its own.
    pub ts: Round,
    /// The members whose estimates it got for the round, each with the ts.
    pub heard: BTreeMap<MemberNumber, Round>,
    /// Those whose acks it got for the round.
    pub acked: BTreeSet<MemberNumber>,
    /// Those whose acks or nacks it got for the round.
    pub replied: BTreeSet<MemberNumber>,
    /// Whether it has crashed.
    pub has_crashed: bool,
}

/// The phase of a round.
#[derive(Clone, Copy, Debug, PartialEq, Eq, Hash)]
pub enum Phase {
    /// No round is running.
    Rest,
    /// The coordinator gathers estimates.
    Gather,
    /// The coordinator's proposal is awaited.
    Wait,
    /// The coordinator counts replies.
    Tally,
}

impl Standing {
    pub(crate) fn of(it: raw::Standing) -> Standing {
        Standing {
            instance: it.instance,
            round: it.round,
            phase: Phase::of(it.phase),
            ts: it.ts,
            heard: members(it.heard).map(|member| (member, it.heard_ts[usize::from(member) - 1])).collect(),
            acked: members(it.acked).collect(),
            replied: members(it.replied).collect(),
            has_crashed: it.has_crashed,
        }
    }
}

/// The members of a set, member 1 the lowest bit.
fn members(bits: u16) -> impl Iterator<Item = MemberNumber> {
    (1..=MAX_MEMBERS).filter(move |member| bits >> (member - 1) & 1 == 1)
}

impl Phase {
    fn of(number: u8) -> Option<Phase> {
        match number {
            1 => Some(Phase::Rest),
            2 => Some(Phase::Gather),
            3 => Some(Phase::Wait),
            4 => Some(Phase::Tally),
            _ => None,
        }
    }
}

/// Its name.
impl fmt::Display for Phase {
    fn fmt(&self, out: &mut fmt::Formatter<'_>) -> fmt::Result {
        fmt::Debug::fmt(self, out)
    }
}
