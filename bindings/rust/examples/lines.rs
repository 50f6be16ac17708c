//! lines FILE [once]: tells a session the lines of a file, one at a time or all at once, and prints the answers. The lines a second go to
//! standard error.

use malletochre::Session;
use std::io::Write;
use std::time::Instant;

fn main() -> Result<(), Box<dyn std::error::Error>> {
    let words: Vec<String> = std::env::args().collect();
    let text = std::fs::read(words.get(1).ok_or("a file is to be named")?)?;
    let mut session = Session::open()?;
    let (mut said, mut answers) = (Vec::new(), Vec::new());
    let start = Instant::now();
    if words.len() > 2 {
        session.tell_bytes(&text, &mut said)?;
    } else {
        for line in text.split_inclusive(|byte| *byte == b'\n') {
            session.tell_bytes(line, &mut answers)?;
            said.extend_from_slice(&answers);
        }
    }
    let took = start.elapsed().as_secs_f64();
    let lines = said.iter().filter(|byte| **byte == b'\n').count();
    eprintln!("Rust: {lines} lines, {took:.3} s, {:.0} lines/s", lines as f64 / took);
    std::io::stdout().write_all(&said)?;
    Ok(())
}
