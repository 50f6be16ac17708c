//! The steps of a record.

use crate::{raw, Step, World};

/// How many steps are copied at once.
const BLOCK: usize = 256;

/// The steps of a world's record, in order.
pub struct Steps<'a> {
    world: &'a World,
    block: [raw::Step; BLOCK],
    taken: usize,
    length: usize,
}

impl<'a> Steps<'a> {
    pub(crate) fn of(world: &'a World) -> Steps<'a> {
        let mut nothing = raw::Step::default();
        let length = unsafe { raw::ct_steps(world.at(), 0, &mut nothing, 0) };
        Steps { world, block: [raw::Step::default(); BLOCK], taken: 0, length }
    }
}

impl Iterator for Steps<'_> {
    type Item = Step;

    fn next(&mut self) -> Option<Step> {
        if self.taken == self.length {
            return None;
        }
        if self.taken % BLOCK == 0 {
            unsafe { raw::ct_steps(self.world.at(), self.taken, self.block.as_mut_ptr(), BLOCK) };
        }
        let step = Step::of(self.block[self.taken % BLOCK]);
        self.taken += 1;
        Some(step.expect("a step"))
    }

    fn size_hint(&self) -> (usize, Option<usize>) {
        (self.length - self.taken, Some(self.length - self.taken))
    }
}

impl ExactSizeIterator for Steps<'_> {}
