//! Answers the lines of standard input by the Rust crate, as lines.c does by the library.

use rbac_office::{Conflict, Error, Office};
use std::io::{self, BufRead, Write};

/// What rbac_check or rbac_check_user returns for three names, between which there are tabs.
fn decide(decision_about: impl Fn(&str, &str, &str) -> Result<bool, Error>, line: &[u8]) -> Result<i64, Error> {
    // `let else` is younger than the compiler of Debian 12.
    let line = match std::str::from_utf8(line) {
        Ok(line) => line,
        Err(_) => return Ok(-1),
    };
    let names: Vec<&str> = line.split('\t').collect();
    match decision_about(names[0], names[1], names[2]) {
        Ok(access) => Ok(access.into()),
        Err(Error::Refused { code, .. }) => Ok(-i64::from(code)),
        Err(error) => Err(error),
    }
}

/// The sets that a command would violate, each with those who would violate it or with its roles, or minus a code.
fn conflicts(office: &Office, line: &[u8]) -> Result<String, Error> {
    let line = String::from_utf8_lossy(line);
    let words: Vec<&str> = line.split('\t').collect();
    let found = match words[..] {
        ["assignment", user, role] => office.assignment_conflicts(user, role),
        ["activation", user, session, role] => office.activation_conflicts(user, session, role),
        ["creation", user, ..] => office.creation_conflicts(user, &words[2..]).map(|sets| {
            sets.into_iter().map(|one| format!("{},{}", one.set, one.roles.join(","))).collect()
        }),
        ["users", asc, desc] => office.static_conflicts(asc, desc).map(pairs),
        [_, asc, desc] => office.dynamic_conflicts(asc, desc).map(pairs),
        _ => Ok(Vec::new()),
    };
    match found {
        Ok(rows) => Ok(rows.join(";")),
        Err(Error::Refused { code, .. }) => Ok(format!("-{code}")),
        Err(error) => Err(error),
    }
}

/// The pairs of a set and who would violate it.
fn pairs(conflicts: Vec<Conflict>) -> Vec<String> {
    conflicts.into_iter().map(|one| format!("{},{}", one.set, one.holder)).collect()
}

fn main() -> Result<(), Box<dyn std::error::Error>> {
    let mut office = Office::new()?;
    let mut out = io::BufWriter::new(io::stdout().lock());
    for line in io::stdin().lock().split(b'\n') {
        let line = line?;
        match line.as_slice() {
            [b'?', names @ ..] => writeln!(out, "{}", decide(|a, b, c| office.check(a, b, c), names)?)?,
            [b'!', names @ ..] => writeln!(out, "{}", decide(|a, b, c| office.check_user(a, b, c), names)?)?,
            [b'%', words @ ..] => writeln!(out, "{}", conflicts(&office, words)?)?,
            b"#" => writeln!(out, "{}", office.revision()?)?,
            b"=" => {
                let mut rows = office.rows()?;
                rows.reverse();
                office = Office::load(&rows, office.revision()?)?;
                writeln!(out, "{}", rows.len())?;
            }
            _ => {
                out.write_all(&office.answer(&line)?)?;
                out.write_all(b"\n")?;
            }
        }
    }
    out.flush()?;
    Ok(())
}
