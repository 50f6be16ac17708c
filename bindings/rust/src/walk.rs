//! Walks.

use crate::handle::Handle;
use crate::{raw, OpenError, Setup, Step, World};
use std::fmt;

pub use raw::WalkOptions;

/// A walk, the random run that `ct_tool walk` makes of options, asked turn by turn what it tries next.
///
/// The caller applies the step in a world of its own, or doesn't; the turns behind go by the world as it stands then. Where each step
/// is applied in a world of [`Walk::setup`], the record is the one that `ct_tool walk` prints.
///
/// ```
/// use malletochre::{Turn, Walk, WalkOptions, World};
///
/// # fn main() -> Result<(), Box<dyn std::error::Error>> {
/// let mut walk = Walk::open(WalkOptions { seed: 7, ..WalkOptions::of(3) })?;
/// let mut world = World::open(walk.setup())?;
/// loop {
///     match walk.turn(&world) {
///         // The rules may refuse it.
///         Turn::Step(step) => drop(world.apply(step)),
///         Turn::Rest => {}
///         Turn::Over => break,
///     }
/// }
/// assert_eq!(world.member(1).unwrap().delivered().len(), 8);
/// # Ok(())
/// # }
/// ```
pub struct Walk {
    handle: Handle,
    options: WalkOptions,
}

/// What a turn of a walk comes to.
#[derive(Clone, Copy, Debug, PartialEq, Eq)]
pub enum Turn {
    /// The step is tried: where the rules refuse it, the next turn is asked for all the same.
    Step(Step),
    /// Nothing is tried.
    Rest,
    /// All turns were made.
    Over,
}

impl Walk {
    /// A walk before its first turn.
    ///
    /// ```
    /// # use malletochre::{OpenError, Walk, WalkOptions};
    /// assert_eq!(Walk::open(WalkOptions { crashes: 2, ..WalkOptions::of(4) }).unwrap_err(), OpenError::BadOptions);
    /// ```
    pub fn open(options: WalkOptions) -> Result<Walk, OpenError> {
        let walk = Walk { handle: Handle::closed(), options };
        OpenError::of(unsafe { raw::ct_walk_open(walk.handle.at(), &options) })?;
        Ok(walk)
    }

    /// The setup of the world that `ct_tool walk` makes.
    pub fn setup(&self) -> Setup {
        Setup { members: self.options.members, cells: self.options.cells, bound: self.options.batch }
    }

    /// The next turn, in this world as it stands.
    pub fn turn(&mut self, world: &World) -> Turn {
        let turn = unsafe { raw::ct_walk_turn(self.handle.at(), world.at()) };
        match Step::of(turn.step) {
            Some(step) => Turn::Step(step),
            None if turn.kind == raw::TURN_OVER => Turn::Over,
            None => Turn::Rest,
        }
    }
}

impl fmt::Debug for Walk {
    fn fmt(&self, f: &mut fmt::Formatter<'_>) -> fmt::Result {
        f.debug_struct("Walk").field("options", &self.options).finish()
    }
}

impl Drop for Walk {
    fn drop(&mut self) {
        unsafe { raw::ct_walk_close(self.handle.at()) }
    }
}
