//! steps FILE: does the steps of a file by typed calls, and prints the record that the world has then. The file has the numbers of
//! members, of cells and the bound, and then five numbers a step, as bindings/tests/inputs.py writes them. The steps a second go to
//! standard error.

mod numbers;

use malletochre::{Setup, World};
use std::time::Instant;

fn main() -> Result<(), Box<dyn std::error::Error>> {
    let text = std::fs::read_to_string(std::env::args().nth(1).ok_or("a file is to be named")?)?;
    let mut lines = text.lines().map(|line| line.split(' ').map(str::parse).collect::<Result<Vec<u64>, _>>());
    let setup = lines.next().ok_or("no setup")??;
    let setup = Setup { members: setup[0].try_into()?, cells: setup[1].try_into()?, bound: setup[2].try_into()? };
    let mut steps = Vec::new();
    for line in lines {
        steps.push(numbers::step(&line?).ok_or("no step")?);
    }
    let mut world = World::open(setup)?;
    let start = Instant::now();
    for step in &steps {
        world.apply(*step)?;
    }
    let took = start.elapsed().as_secs_f64();
    eprintln!("Rust: {} steps, {took:.3} s, {:.0} steps/s", steps.len(), steps.len() as f64 / took);
    println!("{}", world.record());
    Ok(())
}
