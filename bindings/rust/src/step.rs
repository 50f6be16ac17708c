//! Steps.

use crate::raw;
use crate::{Command, MemberNumber, Serial};
use std::fmt;

/// One step of a member, which stands first. docs/ALGORITHM.md says what each does.
#[derive(Clone, Copy, Debug, PartialEq, Eq, Hash)]
pub enum Step {
    /// Broadcasts a message with this command.
    Submit(MemberNumber, Command),
    /// Receives the envelope of this serial.
    Receive(MemberNumber, Serial),
    /// Opens the next instance.
    Begin(MemberNumber),
    /// Enters the next round.
    Enter(MemberNumber),
    /// The coordinator proposes the estimate of the second member.
    Choose(MemberNumber, MemberNumber),
    /// Takes the coordinator's proposal over.
    Adopt(MemberNumber),
    /// Takes the coordinator for crashed.
    Suspect(MemberNumber),
    /// The coordinator ends its round.
    Conclude(MemberNumber),
    /// Delivers the decision of the open instance.
    Deliver(MemberNumber),
    /// Begins the next instance, delivers its decision and closes it.
    Follow(MemberNumber),
    /// Stops for good.
    Crash(MemberNumber),
    /// The serial moves to the end of the waiting line.
    Postpone(MemberNumber, Serial),
    /// The serial leaves the waiting line.
    Lose(MemberNumber, Serial),
    /// The serial, which was received or lost, joins the end of the waiting line again.
    Repeat(MemberNumber, Serial),
}

/// The names of the steps, as records have them, by the numbers of ct.h from 1.
const NAMES: [&str; 14] = [
    "submit", "receive", "begin", "enter", "choose", "adopt", "suspect", "conclude", "deliver", "follow", "crash", "postpone", "lose",
    "repeat",
];

impl Step {
    /// The member that takes it.
    pub fn member(self) -> MemberNumber {
        self.numbers().member
    }

    /// The step by its numbers of ct.h.
    #[inline]
    pub(crate) fn numbers(self) -> raw::Step {
        let of = |kind, member, a| raw::Step { kind, member, a, ..raw::Step::default() };
        match self {
            Step::Submit(member, command) => {
                let (a, b, c) = command.numbers();
                raw::Step { kind: 1, member, a: u32::from(a), b, c }
            }
            Step::Receive(member, serial) => of(2, member, serial),
            Step::Begin(member) => of(3, member, 0),
            Step::Enter(member) => of(4, member, 0),
            Step::Choose(member, from) => of(5, member, u32::from(from)),
            Step::Adopt(member) => of(6, member, 0),
            Step::Suspect(member) => of(7, member, 0),
            Step::Conclude(member) => of(8, member, 0),
            Step::Deliver(member) => of(9, member, 0),
            Step::Follow(member) => of(10, member, 0),
            Step::Crash(member) => of(11, member, 0),
            Step::Postpone(member, serial) => of(12, member, serial),
            Step::Lose(member, serial) => of(13, member, serial),
            Step::Repeat(member, serial) => of(14, member, serial),
        }
    }

    /// The step of these numbers, which the library wrote; None where they say that there is none.
    pub(crate) fn of(step: raw::Step) -> Option<Step> {
        let member = step.member;
        Some(match step.kind {
            1 => Step::Submit(member, Command::of(step.a as u8, step.b, step.c)?),
            2 => Step::Receive(member, step.a),
            3 => Step::Begin(member),
            4 => Step::Enter(member),
            5 => Step::Choose(member, step.a as u8),
            6 => Step::Adopt(member),
            7 => Step::Suspect(member),
            8 => Step::Conclude(member),
            9 => Step::Deliver(member),
            10 => Step::Follow(member),
            11 => Step::Crash(member),
            12 => Step::Postpone(member, step.a),
            13 => Step::Lose(member, step.a),
            14 => Step::Repeat(member, step.a),
            _ => return None,
        })
    }
}

/// Its text in a record: `["submit",1,["set",0,7]]`.
impl fmt::Display for Step {
    fn fmt(&self, f: &mut fmt::Formatter<'_>) -> fmt::Result {
        let numbers = self.numbers();
        write!(f, "[\"{}\",{}", NAMES[usize::from(numbers.kind) - 1], numbers.member)?;
        match self {
            Step::Submit(_, command) => write!(f, ",{command}]"),
            Step::Receive(..) | Step::Choose(..) | Step::Postpone(..) | Step::Lose(..) | Step::Repeat(..) => write!(f, ",{}]", numbers.a),
            _ => f.write_str("]"),
        }
    }
}
