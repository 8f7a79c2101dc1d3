//! The role report: a heading, and a line for each role with its six numbers.

use super::office::table::{Table, number, second_numbers};
use super::office::{Office, Triple, with_first, with_pair};
use std::io::Write;

const HEADING: &str =
    "    assigned  authorized     granted   permitted     juniors     seniors  role\n";

/// What the report counts, by the numbers of roles.
struct Numbers {
    table: Table,
    /// For each user, the roles that it is assigned.
    assigned: Vec<Vec<usize>>,
    /// For each permission, the roles that it is granted to.
    granted: Vec<Vec<usize>>,
    /// For each grant, its role.
    grants: Vec<usize>,
}

fn third_numbers(roles: &[String], grants: &[Triple]) -> Vec<usize> {
    grants.iter().map(|grant| number(roles, &grant.2)).collect()
}

impl Numbers {
    fn new(office: &Office) -> Numbers {
        let roles = &office.roles;
        let of_user = |user: &String| second_numbers(roles, with_first(&office.assignments, user));
        let of_permission = |(object, operation): &(String, String)| {
            third_numbers(roles, with_pair(&office.grants, object, operation))
        };
        Numbers {
            table: Table::new(roles, &office.closure),
            assigned: office.users.iter().map(of_user).collect(),
            granted: office.permissions.iter().map(of_permission).collect(),
            grants: third_numbers(roles, &office.grants),
        }
    }

    /// The numbers of the role with this number, except that of its juniors.
    fn counts(&self, role: usize) -> [usize; 5] {
        let (assigned, granted, table) = (self.assigned.iter(), self.granted.iter(), &self.table);
        [
            assigned.clone().filter(|run| run.contains(&role)).count(),
            assigned.filter(|run| table.reaches(run, role)).count(),
            self.grants.iter().filter(|it| **it == role).count(),
            granted.filter(|run| run.iter().any(|it| table.geq(role, *it))).count(),
            table.count_above(role) - 1,
        ]
    }
}

/// Writes the report.
pub fn report_roles(office: &Office, sink: &mut Vec<u8>) {
    let numbers = Numbers::new(office);
    sink.extend_from_slice(HEADING.as_bytes());
    for role in &office.roles {
        let counts = numbers.counts(number(&office.roles, role));
        let [assigned, authorized, granted, permitted, seniors] = counts;
        let juniors = with_first(&office.closure, role).len();
        for count in [assigned, authorized, granted, permitted, juniors, seniors] {
            let _ = write!(sink, "{count:>12}");
        }
        let _ = writeln!(sink, "  {role}");
    }
}
