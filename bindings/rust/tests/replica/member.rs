//! A small implementation, in plain Rust, that knows nothing of the library: a member that relays messages, agrees on batches by a
//! rotating coordinator, and delivers them instance by instance.

use std::collections::{BTreeMap, BTreeSet};

pub type Message = (u8, u32);
pub type Value = BTreeSet<Message>;

/// What a member sends.
#[derive(Clone, Debug, PartialEq)]
pub enum Wire {
    Data(Message),
    Estimate { instance: u32, round: u32, from: u8, value: Value, ts: u32 },
    Proposal { instance: u32, round: u32, value: Value },
    Reply { instance: u32, round: u32, from: u8, acks: bool },
    Decision { instance: u32, round: u32, value: Value },
}

/// To whom it goes.
#[derive(Clone, Copy, Debug, PartialEq)]
pub enum To {
    All,
    One(u8),
}

/// What a member does by itself.
#[derive(Clone, Copy, Debug, PartialEq)]
pub enum Act {
    Begin,
    Enter,
    Choose(u8),
    Adopt,
    Suspect,
    Conclude,
    Deliver,
}

#[derive(Clone, Copy, PartialEq)]
enum Phase {
    Closed,
    Rest,
    Gather,
    Wait,
    Tally,
}

/// What came for a round.
#[derive(Default)]
struct Ballot {
    estimates: BTreeMap<u8, (u32, Value)>,
    proposal: Option<Value>,
    replies: BTreeMap<u8, bool>,
}

pub struct Member {
    number: u8,
    members: u8,
    submitted: u32,
    received: Value,
    pub delivered: Vec<Message>,
    relayed: BTreeSet<(u32, u32)>,
    decisions: BTreeMap<u32, Value>,
    ballots: BTreeMap<(u32, u32), Ballot>,
    instance: u32,
    round: u32,
    phase: Phase,
    estimate: Value,
    ts: u32,
}

impl Member {
    pub fn new(number: u8, members: u8) -> Member {
        Member {
            number,
            members,
            submitted: 0,
            received: Value::new(),
            delivered: Vec::new(),
            relayed: BTreeSet::new(),
            decisions: BTreeMap::new(),
            ballots: BTreeMap::new(),
            instance: 0,
            round: 0,
            phase: Phase::Closed,
            estimate: Value::new(),
            ts: 0,
        }
    }

    fn is_majority(&self, count: usize) -> bool {
        2 * count > usize::from(self.members)
    }

    fn coordinator(&self, round: u32) -> u8 {
        (round % u32::from(self.members)) as u8 + 1
    }

    fn ballot(&mut self) -> &mut Ballot {
        self.ballots.entry((self.instance, self.round)).or_default()
    }

    fn pending(&self) -> Value {
        self.received.iter().filter(|it| !self.delivered.contains(it)).copied().collect()
    }

    /// Broadcasts its next message.
    pub fn submit(&mut self) -> (To, Wire) {
        self.submitted += 1;
        (To::All, Wire::Data((self.number, self.submitted)))
    }

    /// Takes what came, and gives what it relays.
    pub fn receive(&mut self, wire: &Wire) -> Option<(To, Wire)> {
        match wire.clone() {
            Wire::Data(message) => {
                let is_new = self.received.insert(message);
                return (is_new && message.0 != self.number).then(|| (To::All, wire.clone()));
            }
            Wire::Estimate { instance, round, from, value, ts } => {
                self.ballots.entry((instance, round)).or_default().estimates.entry(from).or_insert((ts, value));
            }
            Wire::Proposal { instance, round, value } => {
                self.ballots.entry((instance, round)).or_default().proposal.get_or_insert(value);
            }
            Wire::Reply { instance, round, from, acks } => {
                self.ballots.entry((instance, round)).or_default().replies.entry(from).or_insert(acks);
            }
            Wire::Decision { instance, round, value } => {
                self.decisions.entry(instance).or_insert(value);
                let is_new = self.relayed.insert((instance, round));
                return (is_new && self.coordinator(round) != self.number).then(|| (To::All, wire.clone()));
            }
        }
        None
    }

    /// What it does next, where there is something to do. `suspects` is asked whether the coordinator seems to have crashed.
    pub fn next(&mut self, suspects: impl FnOnce(u8) -> bool) -> Option<Act> {
        let coordinator = self.coordinator(self.round);
        let members = self.members;
        let is_decided = self.decisions.contains_key(&self.instance);
        let has_pending = !self.pending().is_empty();
        let phase = self.phase;
        let ballot = self.ballot();
        match phase {
            Phase::Closed => has_pending.then_some(Act::Begin),
            _ if is_decided => Some(Act::Deliver),
            Phase::Rest => Some(Act::Enter),
            Phase::Gather => {
                let largest = ballot.estimates.values().map(|(ts, _)| *ts).max()?;
                let from = *ballot.estimates.iter().find(|(_, (ts, _))| *ts == largest)?.0;
                (2 * ballot.estimates.len() > usize::from(members)).then_some(Act::Choose(from))
            }
            Phase::Wait if ballot.proposal.is_some() => Some(Act::Adopt),
            Phase::Wait => suspects(coordinator).then_some(Act::Suspect),
            Phase::Tally => (2 * ballot.replies.len() > usize::from(members)).then_some(Act::Conclude),
        }
    }

    /// Does it, and gives what it sends.
    pub fn act(&mut self, act: Act) -> Option<(To, Wire)> {
        let number = self.number;
        match act {
            Act::Begin => {
                self.estimate = self.pending();
                self.instance += 1;
                (self.round, self.ts, self.phase) = (0, 0, Phase::Rest);
                None
            }
            Act::Enter => {
                self.round += 1;
                let coordinator = self.coordinator(self.round);
                self.phase = if coordinator == number { Phase::Gather } else { Phase::Wait };
                let (instance, round, ts) = (self.instance, self.round, self.ts);
                Some((To::One(coordinator), Wire::Estimate { instance, round, from: number, value: self.estimate.clone(), ts }))
            }
            Act::Choose(from) => {
                self.estimate = self.ballot().estimates[&from].1.clone();
                self.phase = Phase::Wait;
                Some((To::All, Wire::Proposal { instance: self.instance, round: self.round, value: self.estimate.clone() }))
            }
            Act::Adopt => {
                self.estimate = self.ballot().proposal.clone()?;
                self.ts = self.round;
                Some(self.reply(true))
            }
            Act::Suspect => Some(self.reply(false)),
            Act::Conclude => {
                self.phase = Phase::Rest;
                let acks = self.ballot().replies.values().filter(|acks| **acks).count();
                let decision = Wire::Decision { instance: self.instance, round: self.round, value: self.estimate.clone() };
                self.is_majority(acks).then_some((To::All, decision))
            }
            Act::Deliver => {
                self.deliver();
                None
            }
        }
    }

    fn deliver(&mut self) {
        let batch = self.decisions[&self.instance].clone();
        let new: Vec<Message> = batch.into_iter().filter(|it| !self.delivered.contains(it)).collect();
        self.delivered.extend(new);
        self.phase = Phase::Closed;
    }

    fn reply(&mut self, acks: bool) -> (To, Wire) {
        let coordinator = self.coordinator(self.round);
        self.phase = if coordinator == self.number { Phase::Tally } else { Phase::Rest };
        (To::One(coordinator), Wire::Reply { instance: self.instance, round: self.round, from: self.number, acks })
    }
}
