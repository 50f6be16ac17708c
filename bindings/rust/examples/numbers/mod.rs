//! Steps by their numbers.

use malletochre::{Command, Step};

/// The step of these numbers: kind, member, a, b, c of ct.h.
pub fn step(numbers: &[u64]) -> Option<Step> {
    let [kind, member, a, b, c] = *<&[u64; 5]>::try_from(numbers).ok()?;
    let member = member as u8;
    let command = match a {
        1 => Command::Set(b as u8, c),
        2 => Command::Add(b as u8, c),
        _ => Command::Copy(b as u8, c as u8),
    };
    let serial = a as u32;
    Some(match kind {
        1 => Step::Submit(member, command),
        2 => Step::Receive(member, serial),
        3 => Step::Begin(member),
        4 => Step::Enter(member),
        5 => Step::Choose(member, a as u8),
        6 => Step::Adopt(member),
        7 => Step::Suspect(member),
        8 => Step::Conclude(member),
        9 => Step::Deliver(member),
        10 => Step::Follow(member),
        11 => Step::Crash(member),
        12 => Step::Postpone(member, serial),
        13 => Step::Lose(member, serial),
        14 => Step::Repeat(member, serial),
        _ => return None,
    })
}
