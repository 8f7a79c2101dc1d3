//! The plain Rust twin of `rbac serve`: httparse for the heads, the bodies and answers of `replay.rs`, and the
//! office of sorted vectors in `office.rs`. It has no file.
//!
//! http LINES PORT LIMIT: carries out the lines of the file, listens on the port of 127.0.0.1, prints a line,
//! and answers LIMIT connections, one after the other.

use std::fs;
use std::io::{self, Read, Write};
use std::net::{TcpListener, TcpStream};
use std::time::Duration;

#[path = "replay/answers.rs"]
mod answers;
#[path = "replay/assignments.rs"]
mod assignments;
#[path = "http/heads.rs"]
mod heads;
#[allow(dead_code)]
mod office;
#[path = "replay/questions.rs"]
mod questions;
#[path = "replay/requests.rs"]
mod requests;

use answers::{write_done, write_report, write_told, write_untold};
use heads::{Call, LONGEST_HEAD, read_call};
use office::{Command, Office};
use requests::{Asked, Untold, read_body, read_request};

/// How long a read or a write of a connection may wait.
const PATIENCE: Option<Duration> = Some(Duration::from_secs(5));

/// Does what is asked for, and writes the answer with its LF.
fn perform(office: &mut Office, asked: Asked, text: &mut Vec<u8>) -> Result<(), Untold> {
    match asked {
        Asked::Question(question) => write_told(text, office.answer(&question)?),
        Asked::Command(command) => {
            let plan = office.plan(&command)?;
            match command {
                Command::ImportAssignments(_) => write_report(text, &plan.report),
                _ => write_done(text),
            }
            office.commit(plan);
        }
    }
    Ok(())
}

/// The status of an answer without a value.
fn status_of(untold: &Untold) -> u16 {
    match untold {
        Untold::BadName | Untold::BadRequest | Untold::BadCsv(_) => 400,
        Untold::UnknownFunction => 404,
        Untold::TooManyRecords | Untold::Refused(_) => 409,
    }
}

/// Writes the answer to a body, and returns its status.
fn answer(office: &mut Office, call: &Call, body: &[u8], text: &mut Vec<u8>) -> u16 {
    match read_body(call.function, body).and_then(|asked| perform(office, asked, text)) {
        Ok(()) => 200,
        Err(untold) => refuse(&untold, text),
    }
}

/// Writes the answer that reports why there is no value, and returns its status.
fn refuse(untold: &Untold, text: &mut Vec<u8>) -> u16 {
    write_untold(text, untold);
    status_of(untold)
}

/// Reads a request, does what it asks for, writes the answer, and returns its status.
fn do_request(
    office: &mut Office,
    stream: &mut TcpStream,
    text: &mut Vec<u8>,
) -> io::Result<u16> {
    let mut buffer = [0; LONGEST_HEAD];
    let call = match read_call(stream, &mut buffer)? {
        Ok(call) => call,
        Err(404) => return Ok(refuse(&Untold::UnknownFunction, text)),
        Err(status) => {
            refuse(&Untold::BadRequest, text);
            return Ok(status);
        }
    };
    let begun = call.count.min(call.end - call.head_end);
    let mut body = buffer[call.head_end..call.head_end + begun].to_vec();
    stream.take((call.count - begun) as u64).read_to_end(&mut body)?;
    if body.len() < call.count {
        return Ok(refuse(&Untold::BadRequest, text));
    }
    Ok(answer(office, &call, &body, text))
}

fn phrase_of(status: u16) -> &'static str {
    match status {
        200 => "OK",
        400 => "Bad Request",
        404 => "Not Found",
        405 => "Method Not Allowed",
        409 => "Conflict",
        411 => "Length Required",
        413 => "Payload Too Large",
        431 => "Request Header Fields Too Large",
        501 => "Not Implemented",
        _ => unreachable!("no answer has this status"),
    }
}

/// The bytes of a reply, which has the text of an answer without its LF.
fn reply(status: u16, text: &[u8]) -> Vec<u8> {
    let body = &text[..text.len() - 1];
    let allow = if status == 405 { "Allow: POST\r\n" } else { "" };
    let mut bytes = format!(
        "HTTP/1.1 {status} {}\r\nContent-Type: application/json\r\nContent-Length: {}\r\n\
         Connection: close\r\n{allow}\r\n",
        phrase_of(status),
        body.len()
    )
    .into_bytes();
    bytes.extend_from_slice(body);
    bytes
}

/// Answers one connection.
fn serve(office: &mut Office, mut stream: TcpStream) -> io::Result<()> {
    stream.set_read_timeout(PATIENCE)?;
    stream.set_write_timeout(PATIENCE)?;
    let mut text = Vec::new();
    let status = do_request(office, &mut stream, &mut text)?;
    stream.write_all(&reply(status, &text))
}

/// The office after the lines of a file.
fn office_of(path: &str) -> io::Result<Office> {
    let mut office = Office::default();
    for line in fs::read(path)?.split(|byte| *byte == b'\n').filter(|line| !line.is_empty()) {
        let done = read_request(line).and_then(|asked| perform(&mut office, asked, &mut Vec::new()));
        done.expect("a line that is accepted");
    }
    Ok(office)
}

fn main() -> io::Result<()> {
    let words: Vec<String> = std::env::args().skip(1).collect();
    let [lines, port, limit] = words.as_slice() else {
        panic!("give LINES PORT LIMIT");
    };
    let mut office = office_of(lines)?;
    let listener = TcpListener::bind(("127.0.0.1", port.parse().expect("a port")))?;
    println!("listening on 127.0.0.1:{port}");
    for stream in listener.incoming().take(limit.parse().expect("a number")) {
        // A connection that ends early counts as answered.
        let _ = serve(&mut office, stream?);
    }
    Ok(())
}
