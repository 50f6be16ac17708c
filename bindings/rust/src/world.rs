//! Worlds.

use crate::handle::{list, Handle};
use crate::{raw, Envelope, Member, MemberNumber, Message, OpenError, RecordError, Refusal, Serial, Setup, Step, Steps};
use std::fmt;
use std::ops::Range;

/// A group of members, what is on its way between them, what each received, decided and delivered, and the record of the steps so far.
///
/// Whatever is asked of it, the record is a run of the algorithm that ends in this state, and the state is safe: two decisions of an
/// instance are equal, and of the sequences that two members delivered one begins the other.
pub struct World {
    handle: Handle,
    setup: Setup,
}

impl World {
    /// A world without steps.
    pub fn open(setup: Setup) -> Result<World, OpenError> {
        let world = World { handle: Handle::closed(), setup };
        OpenError::of(unsafe { raw::ct_world_open(world.at(), setup.members, setup.cells, setup.bound) })?;
        Ok(world)
    }

    /// A world of its own with the same setup and record. It takes as long as replaying the record.
    ///
    /// ```
    /// # use malletochre::{Command, Setup, Step, World};
    /// # fn main() -> Result<(), Box<dyn std::error::Error>> {
    /// let mut world = World::open(Setup::of(3))?;
    /// world.apply(Step::Submit(1, Command::Set(0, 7)))?;
    /// let mut other = world.try_clone()?;
    /// other.apply(Step::Crash(2))?;
    /// assert_eq!((world.steps().len(), other.steps().len()), (1, 2));
    /// # Ok(())
    /// # }
    /// ```
    pub fn try_clone(&self) -> Result<World, OpenError> {
        let world = World { handle: Handle::closed(), setup: self.setup };
        OpenError::of(unsafe { raw::ct_copy(self.at(), world.at()) })?;
        Ok(world)
    }

    /// The handle for a call of the library. Between calls nothing of it is borrowed, and there is one call at a time, as a world is not
    /// `Sync`.
    pub(crate) fn at(&self) -> *mut raw::Handle {
        self.handle.at()
    }

    /// What it was made of.
    pub fn setup(&self) -> Setup {
        self.setup
    }

    /// Does the step, and gives the serials of the envelopes that it sent; or refuses it, and nothing has changed. It takes time by what
    /// the step touches.
    ///
    /// ```
    /// # use malletochre::{Command, Refusal, Setup, Step, World};
    /// let mut world = World::open(Setup::of(3)).unwrap();
    /// assert_eq!(world.apply(Step::Submit(1, Command::Add(0, 5))), Ok(1..4));
    /// assert_eq!(world.apply(Step::Receive(1, 2)), Err(Refusal::NotWaiting));
    /// assert_eq!(world.apply(Step::Receive(1, 1)).map(|sent| sent.len()), Ok(0));
    /// ```
    #[inline]
    pub fn apply(&mut self, step: Step) -> Result<Range<Serial>, Refusal> {
        let raw::Step { c, a, b, kind, member } = step.numbers();
        let effect = unsafe { raw::ct_apply(self.at(), kind, member, a, b, c) };
        Refusal::of(effect.refusal)?;
        Ok(effect.first..effect.first + effect.count)
    }

    /// Whether the step is allowed now, want of memory apart; else why it would be refused.
    pub fn enabled(&self, step: Step) -> Result<(), Refusal> {
        let raw::Step { c, a, b, kind, member } = step.numbers();
        Refusal::of(unsafe { raw::ct_enabled(self.at(), kind, member, a, b, c) })
    }

    /// The steps so far.
    ///
    /// ```
    /// # use malletochre::{Command, Setup, Step, World};
    /// # let mut world = World::open(Setup::of(3)).unwrap();
    /// world.apply(Step::Submit(1, Command::Set(0, 7))).unwrap();
    /// world.apply(Step::Crash(3)).unwrap();
    /// assert_eq!(world.steps().next(), Some(Step::Submit(1, Command::Set(0, 7))));
    /// assert_eq!(world.steps().len(), 2);
    /// ```
    pub fn steps(&self) -> Steps<'_> {
        Steps::of(self)
    }

    /// The record, as `ct replay` and `ct_tool` read it: JSON, without a line feed.
    ///
    /// ```
    /// # use malletochre::{Setup, Step, World};
    /// # let mut world = World::open(Setup::of(2)).unwrap();
    /// world.apply(Step::Crash(2)).unwrap();
    /// assert_eq!(world.record(), r#"{"batch":1048560,"cells":64,"n":2,"steps":[["crash",2]],"version":3}"#);
    /// ```
    pub fn record(&self) -> String {
        let Setup { members, cells, bound } = self.setup;
        let steps: Vec<String> = self.steps().map(|step| step.to_string()).collect();
        format!("{{\"batch\":{bound},\"cells\":{cells},\"n\":{members},\"steps\":[{}],\"version\":3}}", steps.join(","))
    }

    /// A world with the setup and the steps of a record, as `ct replay` and `ct_tool` read it. It takes as long as replaying it.
    ///
    /// ```
    /// # use malletochre::{RecordError, Refusal, World};
    /// let text = r#"{"batch":9,"cells":4,"n":2,"steps":[["submit",1,["set",0,7]],["receive",2,2]],"version":3}"#;
    /// assert_eq!(World::of_record(text).unwrap().record(), text);
    /// assert_eq!(World::of_record(&text.replace("2,2", "2,1")).unwrap_err(), RecordError::Refused(2, Refusal::NotWaiting));
    /// for (old, new, at) in [("2,2", "2,2.0", 2), ("receive", "begin", 2), ("\"n\"", "\"m\"", 0), ("3}", "2}", 0), ("3}", "3}}", 0)] {
    ///     assert_eq!(World::of_record(&text.replace(old, new)).unwrap_err(), RecordError::NoRecord(at));
    /// }
    /// ```
    pub fn of_record(record: &str) -> Result<World, RecordError> {
        let handle = Handle::closed();
        let told = unsafe { raw::ct_open_record(handle.at(), record.as_ptr(), record.len()) };
        RecordError::of(told)?;
        Ok(World { handle, setup: Setup { members: told.members, cells: told.cells, bound: told.bound } })
    }

    /// What is asked of a member; None where it is none of the group's.
    pub fn member(&self, member: MemberNumber) -> Option<Member<'_>> {
        (1..=self.setup.members).contains(&member).then(|| Member::of(self, member))
    }

    /// The members, rising.
    pub fn members(&self) -> impl ExactSizeIterator<Item = Member<'_>> + DoubleEndedIterator + '_ {
        let members: Vec<MemberNumber> = (1..=self.setup.members).collect();
        members.into_iter().map(move |member| Member::of(self, member))
    }

    /// The envelope of a serial, wherever it is now; None where it was not sent.
    pub fn envelope(&self, serial: Serial) -> Option<Envelope> {
        Envelope::of(serial, unsafe { raw::ct_envelope(self.at(), serial) })
    }

    /// The value that the envelope of a serial carries, in the order of messages: of an estimate, a proposal or a decision. None where
    /// that serial was not sent, or its envelope carries none.
    pub fn value(&self, serial: Serial) -> Option<Vec<Message>> {
        self.messages(|room, length| unsafe { raw::ct_value(self.at(), serial, room, length) })
    }

    /// The messages that a call of the library writes.
    pub(crate) fn messages(&self, call: impl Fn(*mut raw::Message, usize) -> usize) -> Option<Vec<Message>> {
        let written = list(raw::Message::default(), call)?;
        Some(written.into_iter().map(|it| Message::of(it).expect("a message")).collect())
    }
}

impl fmt::Debug for World {
    fn fmt(&self, f: &mut fmt::Formatter<'_>) -> fmt::Result {
        f.debug_struct("World").field("setup", &self.setup).field("steps", &self.steps().len()).finish()
    }
}

impl Drop for World {
    fn drop(&mut self) {
        unsafe { raw::ct_world_close(self.at()) }
    }
}
