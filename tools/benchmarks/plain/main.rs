//! The program that `planar` is compared with: plain Rust without proofs, which reads the same
//! scripts, reports and pictures from standard input and writes the same lines.
//!
//! Scripts may have one list only. Faults end with the same status, but where in a text they stand
//! is not told, and of several faults another one may be told; a member that is given twice has to
//! be well-formed each time.

mod calls;
mod faults;
mod picture;
mod reader;
mod reports;
mod rows;
mod search;
mod writer;

use faults::Fault;
use std::io::{self, Read, Write};
use std::process::ExitCode;

const USAGE: &str = "usage: plain run|replay|check < INPUT";

/// The greatest length of a script, and of a report and a picture.
const SCRIPT_LENGTH: usize = 1_048_576;
const REPORT_LENGTH: usize = 268_435_456;

/// Standard input, of at most so many bytes.
fn read_input(limit: usize) -> Result<Vec<u8>, Fault> {
    let mut text = Vec::new();
    io::stdin()
        .lock()
        .take(limit as u64 + 1)
        .read_to_end(&mut text)
        .map_err(|_| Fault::READ_FAULT)?;
    if text.len() > limit {
        Err(Fault::TOO_LONG)
    } else {
        Ok(text)
    }
}

fn perform(command: &str) -> Result<Vec<u8>, Stop> {
    match command {
        "run" => {
            let script = reports::Script::read(&read_input(SCRIPT_LENGTH)?)?;
            if script.lists.len() > 1 {
                return Err(Stop::Usage(
                    "plain: a script of several lists is not carried out",
                ));
            }
            Ok(script.run()?)
        }
        "replay" => Ok(reports::Report::read(read_input(REPORT_LENGTH)?)?.replay()?),
        "check" => Ok(reports::check(read_input(REPORT_LENGTH)?)?),
        _ => Err(Stop::Usage(USAGE)),
    }
}

enum Stop {
    Fault(Fault),
    Usage(&'static str),
}

impl From<Fault> for Stop {
    fn from(fault: Fault) -> Stop {
        Stop::Fault(fault)
    }
}

fn main() -> ExitCode {
    let words: Vec<String> = std::env::args().skip(1).collect();
    let command = if words.len() == 1 {
        words[0].as_str()
    } else {
        ""
    };
    let done = perform(command).and_then(|mut line| {
        line.push(b'\n');
        let mut output = io::stdout().lock();
        output
            .write_all(&line)
            .and_then(|()| output.flush())
            .map_err(|_| Stop::Fault(Fault::WRITE_FAULT))
    });
    match done {
        Ok(()) => ExitCode::SUCCESS,
        Err(Stop::Fault(fault)) => {
            eprintln!("planar: {fault}");
            ExitCode::from(1)
        }
        Err(Stop::Usage(text)) => {
            eprintln!("{text}");
            ExitCode::from(2)
        }
    }
}
