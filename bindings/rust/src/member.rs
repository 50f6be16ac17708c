//! What is asked of a member.

use crate::handle::list;
use crate::{raw, Envelope, Instance, MemberNumber, Message, Refusal, Serial, Standing, Step, World, REGISTERS};

/// A member of a world's group, to be asked.
///
/// ```
/// # use malletochre::{Command, Setup, Step, World};
/// # let mut world = World::open(Setup::of(3)).unwrap();
/// world.apply(Step::Submit(1, Command::Set(0, 7))).unwrap();
/// world.apply(Step::Receive(2, 2)).unwrap();
/// let second = world.member(2).unwrap();
/// assert_eq!(second.received().map(|message| message.to_string()).collect::<Vec<_>>(), ["1.1"]);
/// assert_eq!(second.next(), Some(Step::Begin(2)));
/// // What it relayed to itself waits.
/// assert_eq!(second.serials(), [5]);
/// assert!(world.member(4).is_none());
/// ```
#[derive(Clone, Copy)]
pub struct Member<'a> {
    world: &'a World,
    number: MemberNumber,
}

impl<'a> Member<'a> {
    /// The member of this number, which is one of the group's.
    pub(crate) fn of(world: &'a World, number: MemberNumber) -> Member<'a> {
        Member { world, number }
    }

    /// Its number, from 1.
    pub fn number(self) -> MemberNumber {
        self.number
    }

    /// Whether it has crashed.
    pub fn has_crashed(self) -> bool {
        self.world.enabled(Step::Crash(self.number)) == Err(Refusal::Crashed)
    }

    /// What a driver does next here: the first step that is allowed of Deliver, Follow, Begin, Choose (of the least member that was heard
    /// with the largest ts), Adopt, Conclude, Enter and Suspect.
    pub fn next(self) -> Option<Step> {
        Step::of(unsafe { raw::ct_next(self.world.at(), self.number) })
    }

    /// Where it stands.
    ///
    /// ```
    /// # use malletochre::{Command, Phase, Setup, Step, World};
    /// # let mut world = World::open(Setup::of(3)).unwrap();
    /// for step in [Step::Submit(2, Command::Set(0, 7)), Step::Receive(2, 2), Step::Begin(2)] {
    ///     world.apply(step).unwrap();
    /// }
    /// // It coordinates round 1, so that it sends itself its estimate.
    /// let estimate = world.apply(Step::Enter(2)).unwrap().start;
    /// world.apply(Step::Receive(2, estimate)).unwrap();
    /// let standing = world.member(2).unwrap().standing();
    /// assert_eq!((standing.instance, standing.round, standing.phase), (1, 1, Some(Phase::Gather)));
    /// assert_eq!(standing.heard, [(2, 0)].into());
    /// assert!(standing.acked.is_empty());
    /// ```
    pub fn standing(self) -> Standing {
        Standing::of(unsafe { raw::ct_standing_of(self.world.at(), self.number) })
    }

    /// The serials of the envelopes that wait here, in the order of its line.
    pub fn serials(self) -> Vec<Serial> {
        list(0, |room, length| unsafe { raw::ct_waiting(self.world.at(), self.number, room, length) }).unwrap_or_default()
    }

    /// The envelopes that wait here, in the order of its line.
    ///
    /// ```
    /// # use malletochre::{Command, Content, Setup, Step, World};
    /// # let mut world = World::open(Setup::of(3)).unwrap();
    /// world.apply(Step::Submit(1, Command::Set(0, 7))).unwrap();
    /// let envelope = world.member(3).unwrap().waiting().next().unwrap();
    /// assert_eq!((envelope.serial, envelope.to), (3, 3));
    /// assert!(matches!(envelope.content, Content::Data(message) if message.command == Command::Set(0, 7)));
    /// ```
    pub fn waiting(self) -> impl ExactSizeIterator<Item = Envelope> + DoubleEndedIterator + 'a {
        self.serials().into_iter().map(move |serial| self.world.envelope(serial).expect("an envelope"))
    }

    /// The messages that it received, in order of first receipt.
    pub fn received(self) -> impl ExactSizeIterator<Item = Message> + DoubleEndedIterator {
        let messages = self.world.messages(|room, length| unsafe { raw::ct_received(self.world.at(), self.number, room, length) });
        messages.unwrap_or_default().into_iter()
    }

    /// The decision that it got for an instance, in the order of messages; None where it got none.
    pub fn decided(self, instance: Instance) -> Option<Vec<Message>> {
        self.world.messages(|room, length| unsafe { raw::ct_decided(self.world.at(), self.number, instance, room, length) })
    }

    /// The messages that it delivered, in order.
    pub fn delivered(self) -> impl ExactSizeIterator<Item = Message> + DoubleEndedIterator {
        let messages = self.world.messages(|room, length| unsafe { raw::ct_delivered(self.world.at(), self.number, room, length) });
        messages.unwrap_or_default().into_iter()
    }

    /// The values of its registers, after the commands of what it delivered.
    pub fn table(self) -> [u64; REGISTERS] {
        let mut table = [0; REGISTERS];
        unsafe { raw::ct_table(self.world.at(), self.number, table.as_mut_ptr(), REGISTERS) };
        table
    }
}
