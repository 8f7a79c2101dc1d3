//! Heads of requests over HTTP, read by httparse, and what they call.

use std::io::{self, Read};

use httparse::{EMPTY_HEADER, Error, Header, Request, Status};

use super::requests::{Function, function_named};

/// The most bytes that a head may have.
pub const LONGEST_HEAD: usize = 8_192;

/// The most fields that a head may have.
const MOST_FIELDS: usize = 64;

/// The most bytes that a body of JSON may have, and one of CSV.
const LONGEST_JSON: usize = 65_536;
const LONGEST_CSV: usize = 2_097_152;

/// What a head calls, how many bytes its body has, and where the bytes that were read with the head end and
/// those that were read after it.
pub struct Call {
    pub function: &'static Function,
    pub count: usize,
    pub head_end: usize,
    pub end: usize,
}

/// Reads a head into the buffer: its call, or the status by which it is refused.
pub fn read_call(
    source: &mut impl Read,
    buffer: &mut [u8; LONGEST_HEAD],
) -> io::Result<Result<Call, u16>> {
    let mut end = 0;
    while end < buffer.len() {
        let taken = source.read(&mut buffer[end..])?;
        if taken == 0 {
            return Ok(Err(400));
        }
        end += taken;
        let mut fields = [EMPTY_HEADER; MOST_FIELDS];
        let mut head = Request::new(&mut fields);
        match head.parse(&buffer[..end]) {
            Ok(Status::Complete(head_end)) => {
                let judged = judge(&head);
                return Ok(judged.map(|(function, count)| Call { function, count, head_end, end }));
            }
            Ok(Status::Partial) => {}
            Err(Error::TooManyHeaders) => return Ok(Err(431)),
            Err(_) => return Ok(Err(400)),
        }
    }
    Ok(Err(431))
}

/// The function that a head calls, and how many bytes its body has.
fn judge(head: &Request) -> Result<(&'static Function, usize), u16> {
    if head.headers.iter().any(|field| is_named(field, "transfer-encoding")) {
        return Err(501);
    }
    let length = one_length(head.headers)?;
    let function = head.path.and_then(function_in).ok_or(404u16)?;
    if head.method != Some("POST") {
        return Err(405);
    }
    let most = if function.takes_csv() { LONGEST_CSV } else { LONGEST_JSON };
    // What is longer than any number is too long.
    let count = length.ok_or(411u16)?.parse().unwrap_or(usize::MAX);
    if count > most { Err(413) } else { Ok((function, count)) }
}

fn is_named(field: &Header, name: &str) -> bool {
    field.name.eq_ignore_ascii_case(name)
}

/// The Content-Length of a head, all of which have to be the same digits.
fn one_length<'b>(fields: &[Header<'b>]) -> Result<Option<&'b str>, u16> {
    let mut told = None;
    for field in fields.iter().filter(|field| is_named(field, "content-length")) {
        let value = std::str::from_utf8(field.value).map_err(|_| 400u16)?;
        let is_length = !value.is_empty() && value.bytes().all(|byte| byte.is_ascii_digit());
        if !is_length || told.is_some_and(|before| before != value) {
            return Err(400);
        }
        told = Some(value);
    }
    Ok(told)
}

/// The function that a target names.
fn function_in(target: &str) -> Option<&'static Function> {
    function_named(target.strip_prefix("/v1/")?).ok()
}
