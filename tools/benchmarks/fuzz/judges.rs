//! The two judges of a text: the C library of the proved program, and the plain program.

use plain::reports;
use std::fmt;
use std::panic::catch_unwind;

#[derive(Clone, Copy)]
pub enum Verb {
    Check,
    Replay,
}

impl fmt::Display for Verb {
    fn fmt(&self, f: &mut fmt::Formatter<'_>) -> fmt::Result {
        f.write_str(match self {
            Verb::Check => "check",
            Verb::Replay => "replay",
        })
    }
}

pub enum Answer {
    /// The line of a lawful picture or a true report.
    Done(String),
    /// The fault, as its line names it.
    Fault(String),
    /// No answer of those that are due: what came instead.
    Other(String),
}

impl Answer {
    /// Whether it is the fault of a text that is not of its form.
    pub fn is_form_fault(&self) -> bool {
        matches!(self, Answer::Fault(line) if ["50 ", "52 ", "53 ", "54 "].iter().any(|number| line.starts_with(number)))
    }

    /// The number and the name of the fault, if it is one, or what came instead.
    pub fn fault(&self) -> Option<String> {
        match self {
            Answer::Done(_) => None,
            Answer::Fault(line) => Some(line.split(' ').take(2).collect::<Vec<_>>().join(" ")),
            Answer::Other(_) => Some(String::from("no answer")),
        }
    }

    pub fn agrees_with(&self, due: &Answer) -> bool {
        match (self, due) {
            (Answer::Done(line), Answer::Done(other)) => line == other,
            (Answer::Fault(line), Answer::Fault(other)) => {
                line == other || self.is_form_fault() && due.is_form_fault()
            }
            _ => false,
        }
    }
}

impl fmt::Display for Answer {
    fn fmt(&self, f: &mut fmt::Formatter<'_>) -> fmt::Result {
        match self {
            Answer::Done(line) | Answer::Fault(line) => f.write_str(line),
            Answer::Other(what) => write!(f, "no answer, but {what}"),
        }
    }
}

// as in c/fezdrok.h
const DONE: u8 = 0;
const FAULT: u8 = 1;
const TOO_SMALL: u8 = 4;

type Judge = unsafe extern "C" fn(*const u8, usize, *mut u8, usize, *mut usize) -> u8;

extern "C" {
    fn fezdrok_check(
        input: *const u8,
        input_length: usize,
        output: *mut u8,
        output_length: usize,
        size: *mut usize,
    ) -> u8;
    fn fezdrok_replay(
        input: *const u8,
        input_length: usize,
        output: *mut u8,
        output_length: usize,
        size: *mut usize,
    ) -> u8;
}

pub fn by_library(verb: Verb, text: &[u8]) -> Answer {
    let judge: Judge = match verb {
        Verb::Check => fezdrok_check,
        Verb::Replay => fezdrok_replay,
    };
    let mut output = vec![0; 128];
    loop {
        let mut size = 0;
        // each list is as long as is said
        let status = unsafe {
            judge(
                text.as_ptr(),
                text.len(),
                output.as_mut_ptr(),
                output.len(),
                &mut size,
            )
        };
        if status == TOO_SMALL && size > output.len() {
            output.resize(size, 0);
            continue;
        }
        let told = String::from_utf8_lossy(&output[..size.min(output.len())]).into_owned();
        let line = told.strip_suffix('\n');
        return match (
            status,
            line,
            line.and_then(|line| line.strip_prefix("planar: ")),
        ) {
            (DONE, Some(line), None) => Answer::Done(line.to_string()),
            (FAULT, _, Some(line)) => Answer::Fault(line.to_string()),
            _ => Answer::Other(format!("status {status} and {told:?}")),
        };
    }
}

pub fn by_plain(verb: Verb, text: &[u8]) -> Answer {
    let judged = catch_unwind(|| match verb {
        Verb::Check => reports::check(text.to_vec()),
        Verb::Replay => reports::Report::read(text.to_vec()).and_then(|report| report.replay()),
    });
    match judged {
        Ok(Ok(line)) => Answer::Done(String::from_utf8_lossy(&line).into_owned()),
        Ok(Err(fault)) => Answer::Fault(fault.to_string()),
        Err(_) => Answer::Other(String::from("a panic")),
    }
}
