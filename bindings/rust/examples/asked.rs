//! Prints what worlds and sessions answer, as the same program in other languages does: bindings/python/tests/asked.py says how it is
//! called, bindings/tests/asking.py, walking.py and shrinking.py what it reads.

mod numbers;

use malletochre::{shrunk, Command, Content, Envelope, Member, Message, Phase, Refusal, Session, SessionError, Setup, Standing, Step};
use malletochre::{Turn, Walk, WalkOptions, World, MAX_BOUND};
use std::error::Error;
use std::fmt::Write;

const INSTANCES: [u32; 8] = [0, 1, 2, 3, 4, 5, 256, 257];
const OWN_STEPS: [u64; 8] = [3, 4, 5, 6, 7, 8, 9, 10];
const LOOKED_BACK: u32 = 150;

fn text(messages: impl IntoIterator<Item = Message>) -> String {
    messages.into_iter().fold(String::new(), |mut text, it| {
        let (name, register, rest) = match it.command {
            Command::Set(register, value) => ("set", register, value),
            Command::Add(register, amount) => ("add", register, amount),
            Command::Copy(from, to) => ("copy", from, u64::from(to)),
        };
        write!(text, " {it}={name},{register},{rest}").unwrap();
        text
    })
}

fn value(messages: Option<Vec<Message>>) -> String {
    messages.map_or(String::from(" -"), text)
}

fn name(refusal: Result<(), Refusal>) -> String {
    refusal.map_or_else(|refusal| refusal.to_string(), |()| String::from("ok"))
}

fn stands(it: &Standing) -> String {
    let phase = it.phase.map_or(String::from("-"), |phase| phase.to_string());
    let crashed = if it.has_crashed { " crashed" } else { "" };
    let heard: String = it.heard.iter().map(|(member, ts)| format!(" {member}:{ts}")).collect();
    let [acked, replied] = [&it.acked, &it.replied].map(|set| set.iter().map(|member| format!(" {member}")).collect::<String>());
    format!("stands {} {} {phase} {}{crashed} heard{heard} acked{acked} replied{replied}", it.instance, it.round, it.ts)
}

/// The step of these numbers of ct.h.
fn step(numbers: &[u64]) -> Step {
    numbers::step(numbers).expect("a step")
}

/// The world that is asked, and the last serial that it sent.
struct Asked {
    world: World,
    last: u32,
}

impl Asked {
    fn of(members: u8, cells: u16, bound: u32) -> Asked {
        Asked { world: World::open(Setup { members, cells, bound }).expect("a world"), last: 0 }
    }

    fn ask_member(&self, member: Member<'_>) {
        let number = member.number();
        println!("member {number} {}", if member.has_crashed() { "crashed" } else { "up" });
        println!("{}", stands(&member.standing()));
        println!("next {}", member.next().map_or(String::from("-"), |step| step.to_string()));
        let own = OWN_STEPS.map(|kind| step(&[kind, u64::from(number), u64::from(kind == 5), 0, 0]));
        println!("may {}", own.map(|step| name(self.world.enabled(step))).join(" "));
        println!("waiting{}", member.waiting().map(|it| format!(" {}", it.serial)).collect::<String>());
        println!("received{}\ndelivered{}", text(member.received()), text(member.delivered()));
        println!("table{}", member.table().map(|value| format!(" {value}")).concat());
        for instance in INSTANCES {
            println!("decided {instance}{}", value(member.decided(instance)));
        }
    }

    fn ask_envelope(&self, serial: u32) {
        let told = self.world.envelope(serial).map_or(String::from("-"), |Envelope { to, content, .. }| match content {
            Content::Data(message) => format!("data to {to}{}", text([message])),
            Content::Estimate { instance, round, from, ts } => format!("est to {to} {instance}/{round} from {from} ts {ts}"),
            Content::Proposal { instance, round } => format!("prop to {to} {instance}/{round}"),
            Content::Ack { instance, round, from } => format!("ack to {to} {instance}/{round} from {from}"),
            Content::Nack { instance, round, from } => format!("nack to {to} {instance}/{round} from {from}"),
            Content::Decision { instance, round } => format!("dec to {to} {instance}/{round}"),
        });
        println!("#{serial} {told} value{}", value(self.world.value(serial)));
    }

    fn ask(&self) {
        self.world.members().for_each(|member| self.ask_member(member));
        (self.last.saturating_sub(LOOKED_BACK)..=self.last + 1).for_each(|serial| self.ask_envelope(serial));
    }

    fn apply(&mut self, step: Step) -> Result<(u32, usize), Refusal> {
        let sent = self.world.apply(step)?;
        self.last = if sent.is_empty() { self.last } else { sent.end - 1 };
        Ok((sent.start, sent.len()))
    }

    fn steps(&mut self, times: u64, step: Step) {
        for _ in 1..times {
            let _ = self.apply(step);
        }
        let enabled = name(self.world.enabled(step));
        let (came_to, (first, count)) = self.apply(step).map_or_else(|it| (Err(it), (0, 0)), |sent| (Ok(()), sent));
        println!("came to {enabled} {} {first} {count}", name(came_to));
    }

    fn turns(&mut self, times: u64, number: u8, receives_first: bool) {
        let mut done = 0;
        for _ in 0..times {
            let member = self.world.member(number).expect("a member");
            let serials = member.serials();
            let next = member.next().filter(|step| !(receives_first && matches!(step, Step::Suspect(_))));
            let receipt = serials.first().map(|serial| Step::Receive(number, *serial));
            let step = if receives_first { receipt.or(next) } else { next.or(receipt) };
            done += usize::from(step.map_or(false, |step| self.apply(step).is_ok()));
        }
        println!("{done}");
    }

    /// The record of the world, and of a copy's record opened again, which is asked from here on.
    fn record(&mut self) {
        println!("{}", self.world.record());
        let copy = self.world.try_clone().expect("a copy");
        self.world = World::of_record(&copy.record()).expect("the record");
        println!("{}", self.world.record());
    }
}

fn worlds(text: &str) -> Result<(), Box<dyn Error>> {
    let mut asked = Asked::of(1, 0, 1);
    for line in text.lines() {
        let (word, rest) = line.split_once(' ').unwrap_or((line, ""));
        let n: Vec<u64> = rest.split_whitespace().map(str::parse).collect::<Result<_, _>>()?;
        match word {
            "world" => asked = Asked::of(n[0].try_into()?, n[1].try_into()?, n[2].try_into()?),
            "step" => asked.steps(n[0], step(&n[1..])),
            "ask" => asked.ask(),
            "record" => asked.record(),
            _ => asked.turns(n[0], n[1].try_into()?, word == "take"),
        }
    }
    Ok(())
}

/// The records of walks with these options, which are in the order of ct.h.
fn walks(text: &str) -> Result<(), Box<dyn Error>> {
    for line in text.lines() {
        let n: Vec<u32> = line.split_whitespace().map(str::parse).collect::<Result<_, _>>()?;
        let (word, byte) = (|i: usize| n[i] as u16, |i: usize| n[i] as u8);
        let mut walk = Walk::open(WalkOptions {
            turns: n[0],
            seed: n[1],
            batch: n[2],
            every: n[3],
            rate: word(4),
            cells: word(5),
            submit: word(6),
            postpone: word(7),
            lose: word(8),
            repeat: word(9),
            scatter: word(10),
            lasting: word(11),
            cut: word(12),
            members: byte(13),
            crash: byte(14),
            crashes: byte(15),
        })?;
        let mut world = World::open(walk.setup())?;
        loop {
            match walk.turn(&world) {
                Turn::Step(step) => drop(world.apply(step)),
                Turn::Rest => {}
                Turn::Over => break,
            }
        }
        println!("{}", world.record());
    }
    Ok(())
}

/// Whether the world shows the goal of this place in GOALS of bindings/tests/shrinking.py.
fn shows(goal: &str, world: &World) -> bool {
    match goal {
        "0" => world.members().any(|it| it.delivered().len() >= 2),
        "1" => world.members().any(|it| it.standing().round >= 3),
        "2" => world.member(1).map_or(false, |it| it.decided(1).is_some()),
        _ => world.members().all(|it| it.standing().phase == Some(Phase::Wait) && it.standing().round >= 2),
    }
}

/// The records of smaller runs.
fn shrinks(text: &str) -> Result<(), Box<dyn Error>> {
    for line in text.lines() {
        let words: Vec<&str> = line.split(' ').collect();
        let least = shrunk(&World::of_record(words[3])?, words[1] == "1", words[2].parse()?, |world| shows(words[0], world))?;
        println!("{}", least.record());
    }
    Ok(())
}

fn sessions(text: &str) -> Result<(), SessionError> {
    let mut session = Session::open()?;
    for line in text.lines() {
        let (word, rest) = line.split_once(' ').unwrap_or((line, ""));
        let rest = rest.replace("\\n", "\n");
        let told = match word {
            "tell" => session.tell(&rest).map(|sent| format!("{} {}", sent.start, sent.len())),
            "ask" => session.ask(&rest),
            "record" => session.record(),
            _ => session.diagram().map(|text| text.trim().to_owned()),
        };
        println!(
            "{}",
            told.unwrap_or_else(|error| match error {
                SessionError::NoWorld | SessionError::TooLong => format!("{error:?}"),
                _ => error.to_string(),
            })
        );
    }
    Ok(())
}

/// Opens worlds and sessions, and drops them.
fn many(count: usize) -> Result<(), Box<dyn Error>> {
    for _ in 0..count {
        let (mut world, mut session) = (World::open(Setup { members: 3, cells: 64, bound: MAX_BOUND })?, Session::open()?);
        world.apply(Step::Submit(1, Command::Set(0, 7)))?;
        session.tell("members 3")?;
        session.tell("1 submit set 0 7")?;
    }
    Ok(())
}

fn main() -> Result<(), Box<dyn Error>> {
    let words: Vec<String> = std::env::args().skip(1).collect();
    match (words[0].as_str(), words.get(1)) {
        ("many", Some(count)) => many(count.parse()?)?,
        ("worlds", Some(path)) => worlds(&std::fs::read_to_string(path)?)?,
        ("walks", Some(path)) => walks(&std::fs::read_to_string(path)?)?,
        ("shrinks", Some(path)) => shrinks(&std::fs::read_to_string(path)?)?,
        ("sessions", Some(path)) => sessions(&std::fs::read_to_string(path)?)?,
        _ => (1..).map_while(|number| Refusal::try_from(number).ok()).for_each(|it| println!("{} {it}", u32::from(it))),
    }
    Ok(())
}
