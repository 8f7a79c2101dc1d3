//! The rows in which an office is stored. The kinds of names, pairs and cardinalities are numbers, as in its
//! tables.

use super::office::{Office, Pair};
use super::sums::{START, sum_of};

#[derive(Clone)]
pub enum Stored {
    Name(u8, String),
    Pair(u8, String, String),
    Grant(String, String, String),
    Cardinality(u8, String, u32),
    Lock(String),
}

fn names(kind: u8, names: &[String]) -> impl Iterator<Item = Stored> + '_ {
    names.iter().map(move |it| Stored::Name(kind, it.clone()))
}

fn pairs(kind: u8, pairs: &[Pair]) -> impl Iterator<Item = Stored> + '_ {
    pairs.iter().map(move |it| Stored::Pair(kind, it.0.clone(), it.1.clone()))
}

fn cardinalities(kind: u8, entries: &[(String, u32)]) -> impl Iterator<Item = Stored> + '_ {
    entries.iter().map(move |it| Stored::Cardinality(kind, it.0.clone(), it.1))
}

/// All rows of an office, by its relations.
pub fn rows_of(office: &Office) -> Vec<Stored> {
    let mut rows: Vec<Stored> = names(1, &office.users).collect();
    rows.extend(names(2, &office.roles));
    rows.extend(names(3, &office.objects));
    rows.extend(pairs(1, &office.permissions));
    rows.extend(pairs(2, &office.assignments));
    let grants = office.grants.iter().cloned();
    rows.extend(grants.map(|it| Stored::Grant(it.0, it.1, it.2)));
    rows.extend(office.locked.iter().cloned().map(Stored::Lock));
    rows.extend(pairs(3, &office.edges));
    rows.extend(pairs(4, &office.closure));
    rows.extend(pairs(5, &office.statics.members));
    rows.extend(cardinalities(1, &office.statics.cardinalities));
    rows.extend(pairs(6, &office.dynamics.members));
    rows.extend(cardinalities(2, &office.dynamics.cardinalities));
    rows.extend(pairs(7, &office.sessions));
    rows.extend(pairs(8, &office.active));
    rows
}

fn sum_names(sum: u64, names: &[&String]) -> u64 {
    names.iter().fold(sum, |sum, name| sum_of(sum_of(sum, name.as_bytes()), b"\n"))
}

fn sum_row(sum: u64, row: &Stored) -> u64 {
    match row {
        Stored::Name(kind, a) => sum_names(sum_of(sum, &[*kind]), &[a]),
        Stored::Pair(kind, a, b) => sum_names(sum_of(sum, &[*kind]), &[a, b]),
        Stored::Grant(a, b, c) => sum_names(sum, &[a, b, c]),
        Stored::Cardinality(kind, a, number) => {
            sum_of(sum_names(sum_of(sum, &[*kind]), &[a]), &number.to_be_bytes())
        }
        Stored::Lock(a) => sum_names(sum, &[a]),
    }
}

/// A checksum of rows.
pub fn sum_rows(rows: &[Stored]) -> u64 {
    rows.iter().fold(START, sum_row)
}
