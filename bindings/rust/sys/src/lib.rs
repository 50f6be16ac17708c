//! The calls of libct, as bindings/ct.h declares them; what they and their numbers mean stands there.
#![allow(missing_docs)]

use std::ffi::c_void;

/// In place of a count: there is no such list.
pub const NONE: usize = usize::MAX;

// What calls answer beside the refusals of steps.
pub const OUT_OF_MEMORY: u32 = 23;
pub const BOARD: u32 = 24;
pub const NOT_OPEN: u32 = 25;
pub const BAD_SETUP: u32 = 28;
pub const NO_WORLD: u32 = 29;
pub const TOO_LONG: u32 = 30;
pub const NO_RECORD: u32 = 31;
pub const BAD_OPTIONS: u32 = 32;
pub const NO_TRIAL: u32 = 33;

/// The kind of a turn of a walk where all were made.
pub const TURN_OVER: u8 = 3;

/// A world, a walk, a shrinker or a session, as C holds it: zeros at first.
#[repr(C)]
pub struct Handle {
    pub at: *mut c_void,
    pub is_open: bool,
}

#[repr(C)]
#[derive(Clone, Copy, Default)]
pub struct Step {
    pub c: u64,
    pub a: u32,
    pub b: u8,
    pub kind: u8,
    pub member: u8,
}

#[repr(C)]
#[derive(Clone, Copy)]
pub struct Effect {
    pub refusal: u32,
    pub first: u32,
    pub count: u32,
}

#[repr(C)]
#[derive(Clone, Copy)]
pub struct Opened {
    pub at: usize,
    pub refusal: u32,
    pub bound: u32,
    pub cells: u16,
    pub members: u8,
}

#[repr(C)]
#[derive(Clone, Copy, Default)]
pub struct Message {
    pub value: u64,
    pub number: u32,
    pub origin: u8,
    pub command: u8,
    pub reg: u8,
}

#[repr(C)]
#[derive(Clone, Copy, Default)]
pub struct Letter {
    pub message: Message,
    pub instance: u32,
    pub round: u32,
    pub ts: u32,
    pub kind: u8,
    pub to: u8,
    pub from: u8,
}

#[repr(C)]
#[derive(Clone, Copy, Default)]
pub struct Standing {
    pub instance: u32,
    pub round: u32,
    pub ts: u32,
    pub heard_ts: [u32; 16],
    pub heard: u16,
    pub acked: u16,
    pub replied: u16,
    pub member: u8,
    pub phase: u8,
    pub has_crashed: bool,
}

/// The options of a walk, under their names in `ct_tool walk --help`, which says what each does.
#[repr(C)]
#[derive(Clone, Copy, Debug, PartialEq, Eq)]
pub struct WalkOptions {
    /// Up to 100,000, for each member.
    pub turns: u32,
    pub seed: u32,
    /// 1 to 1,048,560.
    pub batch: u32,
    /// Up to 100,000.
    pub every: u32,
    /// Up to 256, as are `scatter` and `lasting`.
    pub rate: u16,
    /// Up to 1,024.
    pub cells: u16,
    /// Up to 1,000, as are `postpone`, `lose`, `repeat` and `cut`.
    pub submit: u16,
    pub postpone: u16,
    pub lose: u16,
    pub repeat: u16,
    pub scatter: u16,
    pub lasting: u16,
    pub cut: u16,
    /// 1 to 16.
    pub members: u8,
    /// A member, or 0.
    pub crash: u8,
    /// Fewer than half of the members.
    pub crashes: u8,
}

impl WalkOptions {
    /// Those of `ct_tool walk --members ..`: all others are as where they aren't given.
    pub fn of(members: u8) -> WalkOptions {
        let (turns, seed, batch, every) = (1_000, 0, 1_048_560, 0);
        let (rate, cells, submit, postpone, lose, repeat) = (64, 64, 8, 0, 0, 0);
        let (scatter, lasting, cut, crash, crashes) = (0, 0, 0, 0, 0);
        WalkOptions {
            turns,
            seed,
            batch,
            every,
            rate,
            cells,
            submit,
            postpone,
            lose,
            repeat,
            scatter,
            lasting,
            cut,
            members,
            crash,
            crashes,
        }
    }
}

#[repr(C)]
#[derive(Clone, Copy)]
pub struct Turn {
    pub step: Step,
    pub kind: u8,
}

extern "C" {
    pub fn ct_world_open(world: *mut Handle, members: u8, cells: u16, bound: u32) -> u32;
    pub fn ct_open_record(world: *mut Handle, text: *const u8, length: usize) -> Opened;
    pub fn ct_world_close(world: *mut Handle);
    pub fn ct_copy(from: *mut Handle, into: *mut Handle) -> u32;
    pub fn ct_apply(world: *mut Handle, kind: u8, member: u8, a: u32, b: u8, c: u64) -> Effect;
    pub fn ct_enabled(world: *mut Handle, kind: u8, member: u8, a: u32, b: u8, c: u64) -> u32;
    pub fn ct_next(world: *mut Handle, member: u8) -> Step;
    pub fn ct_standing_of(world: *mut Handle, member: u8) -> Standing;
    pub fn ct_steps(world: *mut Handle, from: usize, room: *mut Step, length: usize) -> usize;
    pub fn ct_waiting(world: *mut Handle, member: u8, room: *mut u32, length: usize) -> usize;
    pub fn ct_envelope(world: *mut Handle, serial: u32) -> Letter;
    pub fn ct_value(world: *mut Handle, serial: u32, room: *mut Message, length: usize) -> usize;
    pub fn ct_received(world: *mut Handle, member: u8, room: *mut Message, length: usize) -> usize;
    pub fn ct_decided(world: *mut Handle, member: u8, instance: u32, room: *mut Message, length: usize) -> usize;
    pub fn ct_delivered(world: *mut Handle, member: u8, room: *mut Message, length: usize) -> usize;
    pub fn ct_table(world: *mut Handle, member: u8, room: *mut u64, length: usize) -> usize;
    pub fn ct_walk_open(walk: *mut Handle, options: *const WalkOptions) -> u32;
    pub fn ct_walk_close(walk: *mut Handle);
    pub fn ct_walk_turn(walk: *mut Handle, world: *mut Handle) -> Turn;
    pub fn ct_shrink_open(shrink: *mut Handle, world: *mut Handle, names_members: bool, trials: u32) -> u32;
    pub fn ct_shrink_close(shrink: *mut Handle);
    pub fn ct_shrink_next(shrink: *mut Handle) -> u32;
    pub fn ct_shrink_turn(shrink: *mut Handle, world: *mut Handle) -> Turn;
    pub fn ct_shrink_told(shrink: *mut Handle, world: *mut Handle, passed: bool) -> u32;
    pub fn ct_shrink_is_least(shrink: *mut Handle) -> bool;
    pub fn ct_session_open(session: *mut Handle) -> u32;
    pub fn ct_session_close(session: *mut Handle);
    pub fn ct_tell(session: *mut Handle, bytes: *const u8, length: usize) -> u32;
    pub fn ct_answers(session: *mut Handle, room: *mut u8, length: usize) -> usize;
    pub fn ct_record(session: *mut Handle) -> u32;
    pub fn ct_diagram(session: *mut Handle) -> u32;
}
