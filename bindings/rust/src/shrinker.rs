//! Runs that are made smaller.

use crate::handle::Handle;
use crate::{raw, Setup, Step, World};
use std::error::Error;
use std::fmt;

/// It makes a run that passes a test of the caller's smaller trial by trial, as `ct_tool shrink` does for a goal.
///
/// Each trial is the run without some steps, in a fresh world of the caller's with the same setup. [`shrunk`] makes them all, where the
/// test is one of the world.
///
/// ```
/// use malletochre::{Command, Setup, Shrinker, Step, World};
///
/// # fn main() -> Result<(), Box<dyn std::error::Error>> {
/// let mut world = World::open(Setup::of(3))?;
/// world.apply(Step::Submit(1, Command::Set(0, 7)))?;
/// world.apply(Step::Crash(2))?;
/// let mut shrinker = Shrinker::open(&world, false, 10_000)?;
/// while shrinker.next()? {
///     let mut trial = World::open(world.setup())?;
///     while let Some(step) = shrinker.turn(&trial) {
///         trial.apply(step)?;
///     }
///     shrinker.told(&trial, trial.members().any(|it| it.has_crashed()))?;
/// }
/// let mut least = World::open(world.setup())?;
/// while let Some(step) = shrinker.turn(&least) {
///     least.apply(step)?;
/// }
/// assert_eq!(least.steps().collect::<Vec<_>>(), [Step::Crash(2)]);
/// # Ok(())
/// # }
/// ```
pub struct Shrinker {
    handle: Handle,
}

/// Why a shrinker refuses a call.
#[derive(Clone, Copy, Debug, PartialEq, Eq)]
#[non_exhaustive]
pub enum ShrinkError {
    /// No trial is asked for.
    NoTrial,
    /// Memory was refused.
    OutOfMemory,
}

impl Shrinker {
    /// Before the first of so many trials at most of this world's run. Where the test names members, no trial gives them other numbers. It
    /// takes as long as replaying the record.
    pub fn open(world: &World, names_members: bool, trials: u32) -> Result<Shrinker, ShrinkError> {
        let shrinker = Shrinker { handle: Handle::closed() };
        ShrinkError::of(unsafe { raw::ct_shrink_open(shrinker.handle.at(), world.at(), names_members, trials) })?;
        Ok(shrinker)
    }

    /// Asks for the next trial, and answers whether there is one: there is none where no step can be left out, or so many trials were made.
    /// Until the trial was told it is asked for again, from its first step.
    #[allow(clippy::should_implement_trait)]
    pub fn next(&mut self) -> Result<bool, ShrinkError> {
        match ShrinkError::of(unsafe { raw::ct_shrink_next(self.handle.at()) }) {
            Err(ShrinkError::NoTrial) => Ok(false),
            asked => asked.map(|()| true),
        }
    }

    /// The next step of the trial, in this world as it stands, where it is allowed; None behind the last. In place of one that the rules
    /// refuse there, its member does what else it may, or it is left out. Where no trial is asked for, the steps are those of the smallest
    /// run so far.
    pub fn turn(&mut self, world: &World) -> Option<Step> {
        Step::of(unsafe { raw::ct_shrink_turn(self.handle.at(), world.at()) }.step)
    }

    /// Tells what the trial came to: whether the test is passed in this world. Where it is, in fewer steps than the smallest run so far
    /// has, the world's run is that from here on.
    ///
    /// ```
    /// # use malletochre::{Setup, ShrinkError, Shrinker, World};
    /// let world = World::open(Setup::of(3)).unwrap();
    /// let mut shrinker = Shrinker::open(&world, false, 10_000).unwrap();
    /// assert_eq!((shrinker.next(), shrinker.turn(&world), shrinker.is_least()), (Ok(false), None, true));
    /// assert_eq!(shrinker.told(&world, true), Err(ShrinkError::NoTrial));
    /// ```
    pub fn told(&mut self, world: &World, passed: bool) -> Result<(), ShrinkError> {
        ShrinkError::of(unsafe { raw::ct_shrink_told(self.handle.at(), world.at(), passed) })
    }

    /// Whether no step of the smallest run can be left out, as far as the trials were told.
    pub fn is_least(&self) -> bool {
        unsafe { raw::ct_shrink_is_least(self.handle.at()) }
    }

    /// A fresh world in which the steps were applied until it passed, and whether it did.
    fn tried(&mut self, setup: Setup, passes: &mut impl FnMut(&World) -> bool) -> Result<(World, bool), ShrinkError> {
        let mut trial = World::open(setup).map_err(|_| ShrinkError::OutOfMemory)?;
        while !passes(&trial) {
            match self.turn(&trial) {
                // It is allowed, so only memory can be refused.
                Some(step) => trial.apply(step).map_err(|_| ShrinkError::OutOfMemory)?,
                None => return Ok((trial, false)),
            };
        }
        Ok((trial, true))
    }
}

/// The smallest run that so many trials at most leave of this world's, which passes: each trial is asked before each of its steps, and
/// behind the last, whether it passes. Where the test names members, no trial gives them other numbers.
///
/// ```
/// use malletochre::{shrunk, Turn, Walk, WalkOptions, World};
///
/// # fn main() -> Result<(), Box<dyn std::error::Error>> {
/// let passes = |world: &World| world.members().any(|it| it.standing().round == 3);
/// let mut walk = Walk::open(WalkOptions { seed: 7, ..WalkOptions::of(3) })?;
/// let mut world = World::open(walk.setup())?;
/// while !passes(&world) {
///     if let Turn::Step(step) = walk.turn(&world) {
///         drop(world.apply(step));
///     }
/// }
/// let least = shrunk(&world, false, 10_000, passes)?;
/// // One member has a message, begins, and suspects two coordinators.
/// assert_eq!((passes(&least), least.steps().len()), (true, 8));
/// # Ok(())
/// # }
/// ```
pub fn shrunk(world: &World, names_members: bool, trials: u32, mut passes: impl FnMut(&World) -> bool) -> Result<World, ShrinkError> {
    let mut shrinker = Shrinker::open(world, names_members, trials)?;
    while shrinker.next()? {
        let (trial, passed) = shrinker.tried(world.setup(), &mut passes)?;
        shrinker.told(&trial, passed)?;
    }
    shrinker.tried(world.setup(), &mut |_: &World| false).map(|(least, _)| least)
}

impl ShrinkError {
    /// The error of this number of ct.h, or Ok at 0.
    fn of(number: u32) -> Result<(), ShrinkError> {
        match number {
            0 => Ok(()),
            raw::NO_TRIAL => Err(ShrinkError::NoTrial),
            raw::OUT_OF_MEMORY => Err(ShrinkError::OutOfMemory),
            number => unreachable!("the library answers {number}"),
        }
    }
}

impl fmt::Display for ShrinkError {
    fn fmt(&self, f: &mut fmt::Formatter<'_>) -> fmt::Result {
        f.write_str(match self {
            ShrinkError::NoTrial => "no trial is asked for",
            ShrinkError::OutOfMemory => "out of memory",
        })
    }
}

impl Error for ShrinkError {}

impl fmt::Debug for Shrinker {
    fn fmt(&self, f: &mut fmt::Formatter<'_>) -> fmt::Result {
        f.debug_struct("Shrinker").field("is_least", &self.is_least()).finish()
    }
}

impl Drop for Shrinker {
    fn drop(&mut self) {
        unsafe { raw::ct_shrink_close(self.handle.at()) }
    }
}
