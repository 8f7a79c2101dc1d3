//! Times decisions and commands from Rust, as quick.c does from C: the lines of the office are on standard input.

use rbac_office::{Error, Office};
use std::hint::black_box;
use std::io::{self, BufRead};
use std::time::Instant;

const ROUNDS: usize = 200;
const DECISIONS: usize = 2048;
const COMMANDS: usize = 256;

/// The median time of a call, in nanoseconds.
fn per_call(count: usize, mut work: impl FnMut() -> Result<(), Error>) -> Result<u128, Error> {
    let mut took = Vec::new();
    for _ in 0..ROUNDS {
        let start = Instant::now();
        work()?;
        took.push(start.elapsed().as_nanos() / count as u128);
    }
    took.sort_unstable();
    Ok(took[ROUNDS / 2])
}

fn main() -> Result<(), Box<dyn std::error::Error>> {
    let office = Office::new()?;
    for line in io::stdin().lock().split(b'\n') {
        office.answer(&line?)?;
    }
    let asked: Vec<_> = (0..DECISIONS).map(|at| (format!("s{}", at * 37 % 1000), format!("o{}", at * 91 % 1000))).collect();
    let lines = [br#"{"fn":"addUser","user":"extra"}"#.as_slice(), br#"{"fn":"deleteUser","user":"extra"}"#];
    let mut granted = 0;
    let decision = per_call(DECISIONS, || {
        granted = 0;
        for (session, object) in &asked {
            granted += usize::from(office.check(session, "read", object)?);
        }
        Ok(())
    })?;
    let command = per_call(COMMANDS, || {
        for at in 0..COMMANDS {
            black_box(office.answer(lines[at % 2])?);
        }
        Ok(())
    })?;
    println!("{decision} {command} {granted}");
    Ok(())
}
