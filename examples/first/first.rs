//! Three members deliver a message. The coordinator of round 1 proposes too early once, which is refused.

use malletochre::{Command, Refusal, Setup, Step, World};

/// The member's next step, or a receipt; whether it moved.
fn turn(world: &mut World, number: u8) -> Result<bool, Refusal> {
    let member = world.member(number).unwrap();
    let receipt = member.serials().first().map(|serial| Step::Receive(number, *serial));
    let step = match member.next() {
        None | Some(Step::Suspect(_)) => receipt,
        step => step,
    };
    step.map_or(Ok(false), |step| world.apply(step).map(|_| true))
}

fn main() -> Result<(), Box<dyn std::error::Error>> {
    let mut world = World::open(Setup::of(3))?;
    world.apply(Step::Submit(1, Command::Set(0, 7)))?;
    for _ in 0..3 {
        turn(&mut world, 2)?; // receives, begins, enters round 1, which it coordinates
    }
    if let Err(refusal) = world.apply(Step::Choose(2, 2)) {
        println!("refused {refusal}");
    }
    while turn(&mut world, 1)? | turn(&mut world, 2)? | turn(&mut world, 3)? {}
    for member in world.members() {
        let names: Vec<String> = member.delivered().map(|it| it.to_string()).collect();
        println!("member {} delivered {} register 0 is {}", member.number(), names.join(" "), member.table()[0]);
    }
    Ok(())
}
