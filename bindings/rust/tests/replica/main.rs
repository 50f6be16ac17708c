//! Tests a small implementation (member.rs) step by step: whatever it does, on a network that delays, loses and reorders, with members
//! that crash, each step has to be allowed by the world, and what it sends and delivers has to be what the world says.

mod member;

use malletochre::{Command, Content, Refusal, Setup, Step, World};
use member::{Act, Member, To, Value, Wire};
use std::collections::BTreeMap;
use std::ops::Range;

/// A number at random (splitmix64).
struct Chance(u64);

impl Chance {
    fn below(&mut self, bound: usize) -> usize {
        self.0 = self.0.wrapping_add(0x9e37_79b9_7f4a_7c15);
        let mut it = self.0;
        it = (it ^ (it >> 30)).wrapping_mul(0xbf58_476d_1ce4_e5b9);
        it = (it ^ (it >> 27)).wrapping_mul(0x94d0_49bb_1331_11eb);
        ((it ^ (it >> 31)) % bound as u64) as usize
    }
}

/// The members under test, what is on its way to each, by serial, and the world that judges them.
struct Rehearsal {
    world: World,
    members: BTreeMap<u8, Member>,
    letters: BTreeMap<u8, Vec<(u32, Wire)>>,
}

impl Rehearsal {
    fn of(members: u8) -> Rehearsal {
        let world = World::open(Setup { cells: 1024, ..Setup::of(members) }).unwrap();
        let all = 1..=members;
        let letters = all.clone().map(|number| (number, Vec::new())).collect();
        Rehearsal { world, members: all.map(|number| (number, Member::new(number, members))).collect(), letters }
    }

    /// The world takes the step, and has sent what the member has.
    fn told(&mut self, step: Step, sent: Option<(To, Wire)>) -> Result<(), Refusal> {
        let serials = self.world.apply(step)?;
        let receivers: Vec<u8> = match sent {
            None => Vec::new(),
            Some((To::One(receiver), _)) => vec![receiver],
            Some((To::All, _)) => self.letters.keys().copied().collect(),
        };
        assert_eq!(serials.len(), receivers.len(), "{step} sent to {receivers:?}");
        for (serial, receiver) in serials.zip(receivers) {
            let wire = sent.as_ref().unwrap().1.clone();
            assert_eq!(self.world.envelope(serial).unwrap().to, receiver, "{step}");
            assert_eq!(wire_of(&self.world, serial), wire, "{step}");
            self.letters.get_mut(&receiver).unwrap().push((serial, wire));
        }
        Ok(())
    }

    fn submit(&mut self, number: u8, command: Command) -> Result<(), Refusal> {
        let sent = self.members.get_mut(&number).unwrap().submit();
        self.told(Step::Submit(number, command), Some(sent))
    }

    /// The member receives the letter at this place, or the network loses it.
    fn receive(&mut self, number: u8, at: usize, is_lost: bool) -> Result<(), Refusal> {
        let (serial, wire) = self.letters.get_mut(&number).unwrap().swap_remove(at);
        if is_lost {
            return self.told(Step::Lose(number, serial), None);
        }
        let sent = self.members.get_mut(&number).unwrap().receive(&wire);
        self.told(Step::Receive(number, serial), sent)
    }

    fn act(&mut self, number: u8, act: Act) -> Result<(), Refusal> {
        let sent = self.members.get_mut(&number).unwrap().act(act);
        self.told(step_of(number, act), sent)
    }

    /// A turn of a member at random, which crashes once in a while as long as a majority is up.
    fn turn(&mut self, chance: &mut Chance, up: &mut Vec<u8>, losses: usize) -> Result<(), Refusal> {
        let number = up[chance.below(up.len())];
        if chance.below(400) == 0 && 2 * (up.len() - 1) > self.members.len() {
            up.retain(|it| *it != number);
            return self.told(Step::Crash(number), None);
        }
        if chance.below(20) == 0 {
            return self.submit(number, Command::Add(chance.below(16) as u8, chance.below(100) as u64));
        }
        let is_quick = chance.below(50) == 0;
        let next = self.members.get_mut(&number).unwrap().next(|coordinator| is_quick || !up.contains(&coordinator));
        let waiting = self.letters[&number].len();
        match next {
            Some(act) if waiting == 0 || chance.below(2) == 0 => self.act(number, act),
            _ if waiting == 0 => Ok(()),
            _ => self.receive(number, chance.below(waiting), chance.below(1000) < losses),
        }
    }
}

fn step_of(number: u8, act: Act) -> Step {
    match act {
        Act::Begin => Step::Begin(number),
        Act::Enter => Step::Enter(number),
        Act::Choose(from) => Step::Choose(number, from),
        Act::Adopt => Step::Adopt(number),
        Act::Suspect => Step::Suspect(number),
        Act::Conclude => Step::Conclude(number),
        Act::Deliver => Step::Deliver(number),
    }
}

/// What the world says that an envelope carries, in the words of the implementation.
fn wire_of(world: &World, serial: u32) -> Wire {
    let value = || -> Value { world.value(serial).unwrap().iter().map(|it| (it.origin, it.number)).collect() };
    match world.envelope(serial).unwrap().content {
        Content::Data(message) => Wire::Data((message.origin, message.number)),
        Content::Estimate { instance, round, from, ts } => Wire::Estimate { instance, round, from, value: value(), ts },
        Content::Proposal { instance, round } => Wire::Proposal { instance, round, value: value() },
        Content::Ack { instance, round, from } => Wire::Reply { instance, round, from, acks: true },
        Content::Nack { instance, round, from } => Wire::Reply { instance, round, from, acks: false },
        Content::Decision { instance, round } => Wire::Decision { instance, round, value: value() },
    }
}

/// A run of a group under a schedule drawn from a seed: how many messages the member with most of them delivered.
fn rehearse(members: u8, seed: u64, losses: usize) -> Result<usize, Refusal> {
    let mut chance = Chance(seed);
    let mut rehearsal = Rehearsal::of(members);
    let mut up: Vec<u8> = (1..=members).collect();
    for _ in 0..1500 {
        rehearsal.turn(&mut chance, &mut up, losses)?;
    }
    for member in rehearsal.world.members() {
        let delivered: Vec<(u8, u32)> = member.delivered().map(|it| (it.origin, it.number)).collect();
        assert_eq!(delivered, rehearsal.members[&member.number()].delivered, "seed {seed}, member {}", member.number());
        assert_eq!(member.has_crashed(), !up.contains(&member.number()));
        assert_eq!(member.serials().len(), rehearsal.letters[&member.number()].len());
    }
    Ok(rehearsal.members.values().map(|member| member.delivered.len()).max().unwrap())
}

fn rehearse_all(members: u8, seeds: Range<u64>, losses: usize) -> usize {
    let run = |seed| rehearse(members, seed, losses).unwrap_or_else(|refusal| panic!("seed {seed}: {refusal}"));
    seeds.map(run).sum()
}

#[test]
fn each_step_of_random_schedules_is_allowed() {
    assert!(rehearse_all(3, 0..40, 0) > 1000);
    assert!(rehearse_all(5, 0..20, 0) > 200);
    assert!(rehearse_all(1, 0..5, 0) > 100);
}

#[test]
fn each_step_is_allowed_where_letters_are_lost() {
    assert!(rehearse_all(3, 100..140, 5) > 100);
}

#[test]
fn worlds_go_to_other_threads() {
    let run = || std::thread::spawn(|| rehearse(3, 7, 0));
    let delivered = [run(), run()].map(|thread| thread.join().unwrap());
    assert!(delivered[0].unwrap() > 10);
    assert_eq!(delivered[0], delivered[1]);

    let mut rehearsal = Rehearsal::of(3);
    rehearsal.submit(1, Command::Set(0, 7)).unwrap();
    let world = std::thread::spawn(move || rehearsal.world.try_clone().unwrap()).join().unwrap();
    assert_eq!(world.steps().len(), 1);
}

/// A coordinator that proposes after the first estimate is stopped there.
#[test]
fn a_hasty_coordinator_is_refused() {
    let mut rehearsal = Rehearsal::of(3);
    rehearsal.submit(2, Command::Set(0, 7)).unwrap();
    rehearsal.receive(2, 0, false).unwrap();
    rehearsal.act(2, Act::Begin).unwrap();
    rehearsal.act(2, Act::Enter).unwrap();
    rehearsal.receive(2, 0, false).unwrap();
    assert_eq!(rehearsal.act(2, Act::Choose(2)), Err(Refusal::TooFew));
}
