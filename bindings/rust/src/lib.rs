//! A rehearsal of Chandra and Toueg's atomic broadcast, in process, to test implementations against: each step that an implementation
//! takes is told to a [`World`], which does it, or says why the algorithm refuses it.
//!
//! ```
//! use malletochre::{Command, Refusal, Setup, Step, World};
//!
//! # fn main() -> Result<(), Box<dyn std::error::Error>> {
//! let mut world = World::open(Setup::of(3))?;
//! assert_eq!(world.apply(Step::Submit(1, Command::Set(0, 7)))?, 1..4);
//! for member in 1..=3 {
//!     // The envelope to member 2 has serial 2; members 2 and 3 relay the message.
//!     world.apply(Step::Receive(member, u32::from(member)))?;
//!     world.apply(Step::Begin(member))?;
//!     world.apply(Step::Enter(member))?;
//! }
//! // Member 2 coordinates round 1. It has heard nobody yet, and may not propose.
//! assert_eq!(world.apply(Step::Choose(2, 2)), Err(Refusal::TooFew));
//! # Ok(())
//! # }
//! ```
//!
//! A [`Walk`] draws steps at random, as `ct_tool walk` does; a [`Shrinker`], or [`shrunk`], makes a run that passes a test smaller. A
//! [`Session`] is told lines of a schedule instead (docs/SCHEDULES.md) and answers each, as `ct_tool interact` does.
//!
//! The library behind it is proved: the record of a world is a run of the algorithm, whatever is asked of it, and each refusal is the
//! cause exactly. This wrapper isn't: bindings/README.md tells what it has to keep, which is that a handle stays where it is, and that
//! there is one call on it at a time. So worlds, walks, shrinkers and sessions are `Send` and not `Sync`:
//!
//! ```
//! fn goes_to_another_thread<T: Send>() {}
//! goes_to_another_thread::<malletochre::World>();
//! goes_to_another_thread::<malletochre::Walk>();
//! goes_to_another_thread::<malletochre::Shrinker>();
//! goes_to_another_thread::<malletochre::Session>();
//! ```
//!
//! ```compile_fail
//! fn is_shared_by_threads<T: Sync>() {}
//! is_shared_by_threads::<malletochre::World>();
//! ```
//!
//! ```compile_fail
//! fn is_shared_by_threads<T: Sync>() {}
//! is_shared_by_threads::<malletochre::Session>();
//! ```
#![warn(missing_docs)]

mod envelope;
mod handle;
mod member;
mod message;
mod record;
mod refusal;
mod session;
mod setup;
mod shrinker;
mod standing;
mod step;
mod steps;
mod walk;
mod world;

use malletochre_sys as raw;

pub use envelope::{Content, Envelope};
pub use member::Member;
pub use message::{Command, Message};
pub use record::RecordError;
pub use refusal::{Limit, Refusal};
pub use session::{Session, SessionError};
pub use setup::{OpenError, Setup, MAX_BOUND, MAX_CELLS, MAX_MEMBERS, REGISTERS};
pub use shrinker::{shrunk, ShrinkError, Shrinker};
pub use standing::{Phase, Standing};
pub use step::Step;
pub use steps::Steps;
pub use walk::{Turn, Walk, WalkOptions};
pub use world::World;

/// A member of a group, counted from 1.
pub type MemberNumber = u8;

/// The place of an envelope among all that were sent, counted from 1.
pub type Serial = u32;

/// An instance of consensus, counted from 1.
pub type Instance = u32;

/// A round of an instance, counted from 1.
pub type Round = u32;
