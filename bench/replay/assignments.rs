//! Assignments as CSV, read by csv.

use csv::{ByteRecord, ReaderBuilder};

use super::office::{Pair, limit};
use super::requests::{Untold, is_name};

/// The user and the role of a record.
fn read_pair(number: usize, record: &ByteRecord) -> Result<Pair, Untold> {
    let text = |at: usize| std::str::from_utf8(&record[at]).ok();
    if record.len() != 2 {
        return Err(Untold::BadCsv(number));
    }
    let (Some(user), Some(role)) = (text(0), text(1)) else {
        return Err(Untold::BadCsv(number));
    };
    if !is_name(user) || !is_name(role) {
        return Err(Untold::BadName);
    }
    Ok((user.to_owned(), role.to_owned()))
}

/// The pairs of a text with the header `user,role`.
pub fn read_assignments(text: &[u8]) -> Result<Vec<Pair>, Untold> {
    let reader = ReaderBuilder::new().has_headers(false).flexible(true).from_reader(text);
    let mut records = reader.into_byte_records();
    match records.next() {
        Some(Ok(record)) if record == *["user", "role"].as_slice() => {}
        _ => return Err(Untold::BadCsv(0)),
    }
    let mut pairs = Vec::new();
    for (record, number) in records.zip(1..) {
        if number > limit::RECORDS {
            return Err(Untold::TooManyRecords);
        }
        let record = record.map_err(|_| Untold::BadCsv(number))?;
        pairs.push(read_pair(number, &record)?);
    }
    Ok(pairs)
}
