//! http_client REQUEST REPLY COUNT ROUNDS PORT..: sends the request of a file to the ports of 127.0.0.1, COUNT times
//! to each in turn and all of that ROUNDS times, on a connection of its own each time, and reads until the server
//! closes it. It prints a line for each round: the nanoseconds with each port. A reply that isn't that
//! of the other file ends the program.

use std::io::{self, Read, Write};
use std::net::TcpStream;
use std::time::Instant;

/// Reads the whole reply to a request into `reply`.
fn ask(port: u16, request: &[u8], reply: &mut Vec<u8>) -> io::Result<()> {
    let mut stream = TcpStream::connect(("127.0.0.1", port))?;
    stream.write_all(request)?;
    reply.clear();
    stream.read_to_end(reply)?;
    Ok(())
}

/// The nanoseconds of this number of requests, whose replies are all as wanted.
fn time(port: u16, count: u32, request: &[u8], wanted: &[u8]) -> io::Result<u128> {
    let mut reply = Vec::new();
    let start = Instant::now();
    for _ in 0..count {
        ask(port, request, &mut reply)?;
        assert!(reply == wanted, "another reply by port {port}");
    }
    Ok(start.elapsed().as_nanos())
}

fn main() -> io::Result<()> {
    let words: Vec<String> = std::env::args().skip(1).collect();
    let [request, wanted, count, rounds, ports @ ..] = words.as_slice() else {
        panic!("give REQUEST REPLY COUNT ROUNDS PORT..");
    };
    let (request, wanted) = (std::fs::read(request)?, std::fs::read(wanted)?);
    let (count, rounds): (u32, u32) =
        (count.parse().expect("a number"), rounds.parse().expect("a number"));
    let ports: Vec<u16> = ports.iter().map(|it| it.parse().expect("a port")).collect();
    for _ in 0..rounds {
        let mut told = Vec::new();
        for port in &ports {
            told.push(time(*port, count, &request, &wanted)?.to_string());
        }
        println!("{}", told.join(" "));
    }
    Ok(())
}
