//! The plain Rust twin of `rbac replay --memory`: the office of sorted vectors in `office.rs`, and
//! serde_json and csv for the lines.

use std::io::{self, BufRead, BufReader, Read, Write};
use std::process::ExitCode;

#[path = "replay/answers.rs"]
mod answers;
#[path = "replay/assignments.rs"]
mod assignments;
#[allow(dead_code)]
mod office;
#[path = "replay/questions.rs"]
mod questions;
#[allow(dead_code)]
#[path = "replay/requests.rs"]
mod requests;

use answers::{write_done, write_report, write_told, write_untold};
use office::{Command, Office};
use requests::{Asked, Untold, read_request};

const LONGEST_LINE: usize = 65_536;

/// Does what a line asks for, and writes the answer with its LF.
fn answer(office: &mut Office, line: &[u8], text: &mut Vec<u8>) -> Result<(), Untold> {
    match read_request(line)? {
        Asked::Question(question) => write_told(text, office.answer(&question)?),
        Asked::Command(command) => {
            let plan = office.plan(&command)?;
            match command {
                Command::ImportAssignments(_) => write_report(text, &plan.report),
                _ => write_done(text),
            }
            office.commit(plan);
        }
    }
    Ok(())
}

fn replay(source: impl Read, mut sink: impl Write) -> Result<(), (String, u64)> {
    let mut source = BufReader::new(source);
    let mut office = Office::default();
    let (mut line, mut text) = (Vec::new(), Vec::new());
    let mut answered = 0;
    for number in 1u64.. {
        line.clear();
        let mut rest = source.by_ref().take(LONGEST_LINE as u64 + 1);
        let count = rest.read_until(b'\n', &mut line);
        if count.map_err(|_| ("Read".to_owned(), answered))? == 0 {
            break;
        }
        if line.last() == Some(&b'\n') {
            line.pop();
        }
        if line.len() > LONGEST_LINE {
            return Err((format!("Line {number}"), answered));
        }
        if line.iter().all(|byte| b" \t\r".contains(byte)) {
            continue;
        }
        text.clear();
        if let Err(untold) = answer(&mut office, &line, &mut text) {
            write_untold(&mut text, &untold);
        }
        sink.write_all(&text).map_err(|_| ("Write".to_owned(), answered))?;
        answered += 1;
    }
    Ok(())
}

fn main() -> ExitCode {
    let words: Vec<String> = std::env::args().skip(1).collect();
    if words != ["replay", "--memory"] {
        eprintln!("rbac: give replay --memory");
        return ExitCode::from(2);
    }
    match replay(io::stdin().lock(), io::stdout().lock()) {
        Ok(()) => ExitCode::SUCCESS,
        Err((cause, answered)) => {
            eprintln!("rbac: stop {cause} after {answered}");
            ExitCode::from(1)
        }
    }
}
