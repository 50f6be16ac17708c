//! Why a step is refused.

use std::fmt;

/// Why a step is refused: the first cause that applies, in the order in which they are tested (docs/ALGORITHM.md). A step that is refused
/// changes nothing.
#[derive(Clone, Copy, Debug, PartialEq, Eq, Hash)]
#[non_exhaustive]
pub enum Refusal {
    /// The member is none of the group's.
    NoSuchMember,
    /// The member has crashed.
    Crashed,
    /// The serial is not in the member's waiting line.
    NotWaiting,
    /// An instance is open.
    Busy,
    /// All that was received is delivered.
    Nothing,
    /// No instance is open.
    Idle,
    /// The phase of the round is another than the step's.
    WrongPhase,
    /// The member has the decision of the open instance.
    Decided,
    /// Fewer than a majority were heard, or replied.
    TooFew,
    /// That member was not heard, or another that was heard has a larger timestamp.
    NotLargest,
    /// The round's proposal was not received.
    NoProposal,
    /// The round's proposal was received.
    HasProposal,
    /// There is no decision of the open instance or, for Follow, of the one after the last.
    Undecided,
    /// A register of the command is 16 or more.
    BadCommand,
    /// The serial was never sent to the member.
    NotSent,
    /// The serial is in the member's waiting line.
    StillWaiting,
    /// A limit would be passed.
    Full(Limit),
    /// Memory was refused.
    OutOfMemory,
    /// The board of batches refused one, which that of a world never does.
    Board,
}

/// A limit of a run.
#[derive(Clone, Copy, Debug, PartialEq, Eq, Hash)]
#[non_exhaustive]
pub enum Limit {
    /// 65,535 messages of a member.
    Submissions,
    /// 1,024 instances begun by a member.
    Instances,
    /// 10,000 rounds of an instance.
    Rounds,
    /// 1,000,000 envelopes sent.
    Envelopes,
    /// As many batches posted as the world has cells.
    Cells,
    /// 1,000,000 steps.
    Steps,
}

/// The refusals by the numbers of ct.h, from 1.
const NUMBERED: [Refusal; 24] = [
    Refusal::NoSuchMember,
    Refusal::Crashed,
    Refusal::NotWaiting,
    Refusal::Busy,
    Refusal::Nothing,
    Refusal::Idle,
    Refusal::WrongPhase,
    Refusal::Decided,
    Refusal::TooFew,
    Refusal::NotLargest,
    Refusal::NoProposal,
    Refusal::HasProposal,
    Refusal::Undecided,
    Refusal::BadCommand,
    Refusal::NotSent,
    Refusal::StillWaiting,
    Refusal::Full(Limit::Submissions),
    Refusal::Full(Limit::Instances),
    Refusal::Full(Limit::Rounds),
    Refusal::Full(Limit::Envelopes),
    Refusal::Full(Limit::Cells),
    Refusal::Full(Limit::Steps),
    Refusal::OutOfMemory,
    Refusal::Board,
];

impl Refusal {
    /// The refusal of this number of ct.h, or Ok at 0. Others never come where a step is well formed and the world open.
    #[inline]
    pub(crate) fn of(number: u32) -> Result<(), Refusal> {
        match number {
            0 => Ok(()),
            number => Err(Refusal::try_from(number).unwrap_or_else(|_| unreachable!("the library answers {number}"))),
        }
    }
}

/// The refusal of a number of ct.h, 1 to 24; the number where there is none.
impl TryFrom<u32> for Refusal {
    type Error = u32;

    fn try_from(number: u32) -> Result<Refusal, u32> {
        NUMBERED.get((number as usize).wrapping_sub(1)).copied().ok_or(number)
    }
}

/// Its number of ct.h.
impl From<Refusal> for u32 {
    fn from(refusal: Refusal) -> u32 {
        (1..).zip(NUMBERED).find(|(_, it)| *it == refusal).map_or(0, |(number, _)| number)
    }
}

/// Its name, as records and schedules have it: `TooFew`, `Full(Cells)`.
impl fmt::Display for Refusal {
    fn fmt(&self, f: &mut fmt::Formatter<'_>) -> fmt::Result {
        fmt::Debug::fmt(self, f)
    }
}

impl std::error::Error for Refusal {}
