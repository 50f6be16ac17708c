//! Writes the log of a group of one member, which delivers ten messages in one batch:
//!
//!     rustc -A dead_code log_demo.rs && ./log_demo 1.log && ct_tool merge 1.log

mod log;

use log::{Log, Message};
use std::io::Result;
use std::process::ExitCode;

const MESSAGES: u32 = 10;

fn write(path: &str) -> Result<()> {
    let mut log = Log::open(path, 1, 1, 16)?;
    let value: Vec<Message> = (1..=MESSAGES).map(|number| (1, number)).collect();
    for message in &value {
        log.submit("set 0 7")?;
        log.receive_data(*message, 1, "set 0 7")?;
    }
    log.begin(&value)?;
    log.enter(&value, 0)?;
    log.receive_est(1, 1, 1, &value, 0)?;
    log.choose(1, &value)?;
    log.receive("prop", 1, 1, 1, Some(&value))?;
    log.adopt(&value, 1)?;
    log.receive("ack", 1, 1, 1, None)?;
    log.conclude()?;
    log.receive("dec", 1, 1, 1, Some(&value))?;
    log.deliver(&value)
}

fn main() -> ExitCode {
    let path = match std::env::args().nth(1) {
        Some(path) => path,
        None => {
            eprintln!("usage: log_demo FILE");
            return ExitCode::from(2);
        }
    };
    match write(&path) {
        Ok(()) => ExitCode::SUCCESS,
        Err(fault) => {
            eprintln!("{path}: {fault}");
            ExitCode::FAILURE
        }
    }
}
