//! The order of roles by their numbers: a role's number is its place among the roles in byte order.
//!
//! A check of all users or sessions computes the numbers of each one's roles once, and then reads the table.

use super::{Pair, with_first};

/// For each two of the roles, whether the first is the second or senior to it.
pub struct Table {
    rows: Vec<Vec<bool>>,
}

/// The place of a role among the roles.
pub fn number(roles: &[String], role: &str) -> usize {
    roles.partition_point(|it| it.as_str() < role)
}

/// The numbers of the second names of the pairs.
pub fn second_numbers(roles: &[String], pairs: &[Pair]) -> Vec<usize> {
    pairs.iter().map(|pair| number(roles, &pair.1)).collect()
}

/// The row of a role, by its run of the closure, of which all second names are roles.
fn row_of(roles: &[String], run: &[Pair], role: &String) -> Vec<bool> {
    let mut run = run.iter().peekable();
    let mut is_below = |other: &String| run.next_if(|pair| pair.1 == *other).is_some();
    roles.iter().map(|other| is_below(other) || other == role).collect()
}

impl Table {
    pub fn new(roles: &[String], closure: &[Pair]) -> Table {
        let row = |role: &String| row_of(roles, with_first(closure, role), role);
        Table { rows: roles.iter().map(row).collect() }
    }

    pub fn geq(&self, above: usize, below: usize) -> bool {
        self.rows[above][below]
    }

    /// Whether one of the roles of these numbers is the role of this number, or senior to it.
    pub fn reaches(&self, numbers: &[usize], below: usize) -> bool {
        numbers.iter().any(|number| self.geq(*number, below))
    }

    /// How many of the roles are the role of this number, or senior to it. Only the report uses it.
    #[allow(dead_code)]
    pub fn count_above(&self, below: usize) -> usize {
        self.rows.iter().filter(|row| row[below]).count()
    }

    /// Whether each of the runs has fewer of the members than the cardinality.
    pub fn keep_below(&self, runs: &[Vec<usize>], members: &[usize], cardinality: u32) -> bool {
        let reached = |run: &[usize]| members.iter().filter(|it| self.reaches(run, **it)).count();
        runs.iter().all(|run| reached(run) < cardinality as usize)
    }
}
