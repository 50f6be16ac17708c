//! What the library's calls are given.

use crate::raw;
use std::ptr::{null_mut, NonNull};

/// A world, a walk, a shrinker or a session as C holds it, at one address for as long as it lives. It is let go closed: its owner closes it
/// first.
pub(crate) struct Handle(NonNull<raw::Handle>);

// The library keeps nothing that belongs to a thread. `NonNull` keeps a handle from being `Sync`, so no two calls on one are at the same
// time.
unsafe impl Send for Handle {}

impl Handle {
    pub(crate) fn closed() -> Handle {
        Handle(NonNull::from(Box::leak(Box::new(raw::Handle { at: null_mut(), is_open: false }))))
    }

    #[inline]
    pub(crate) fn at(&self) -> *mut raw::Handle {
        self.0.as_ptr()
    }
}

impl Drop for Handle {
    fn drop(&mut self) {
        // It came from a box, and nobody else has it.
        drop(unsafe { Box::from_raw(self.0.as_ptr()) });
    }
}

/// The elements that the call writes, or None where it says that there is no such list. `call` takes a room and its length, writes no
/// more than that and answers how many elements there are.
pub(crate) fn list<T: Copy>(zero: T, call: impl Fn(*mut T, usize) -> usize) -> Option<Vec<T>> {
    let mut room = [zero; 8];
    let count = call(room.as_mut_ptr(), room.len());
    if count == raw::NONE {
        return None;
    }
    if count <= room.len() {
        return Some(room[..count].to_vec());
    }
    let mut room = vec![zero; count];
    call(room.as_mut_ptr(), count);
    Some(room)
}
