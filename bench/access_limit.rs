//! The limit of `access.rt.bench`: what a decision costs if names are numbers in hash tables, and the juniors
//! of each role, the roles of each session and the grants of each permission are bit sets. It reads the same
//! lines and prints the same ones. It has no plans, no limits and no separation of duty.

use std::collections::HashMap;
use std::io::stdin;
use std::time::Instant;

/// The most roles of an office, a bit for each.
const MOST_ROLES: usize = 1_024;

type RoleSet = [u64; MOST_ROLES / 64];

/// Numbers of names, in the order of their first use.
#[derive(Default)]
struct Names(HashMap<String, usize>);

impl Names {
    /// The number of a name, a new one if it has none.
    fn number(&mut self, name: &str) -> usize {
        let next = self.0.len();
        *self.0.entry(name.to_string()).or_insert(next)
    }
}

#[derive(Default)]
struct Office {
    roles: Names,
    objects: Names,
    operations: Names,
    /// For each role, its juniors and itself.
    below: Vec<RoleSet>,
    /// For each session, its activated roles and their juniors.
    sessions: HashMap<String, RoleSet>,
    /// For each permission, by its object and its operation, the roles to which it is granted.
    granted: HashMap<(usize, usize), RoleSet>,
}

/// Why there is no decision.
#[derive(PartialEq)]
enum Refusal {
    NoSession,
    NoObject,
    NoOperation,
}

fn set(roles: &mut RoleSet, role: usize) {
    roles[role / 64] |= 1 << (role % 64);
}

fn has(roles: &RoleSet, role: usize) -> bool {
    roles[role / 64] >> (role % 64) & 1 == 1
}

fn unite(roles: &mut RoleSet, others: &RoleSet) {
    roles.iter_mut().zip(others).for_each(|(part, other)| *part |= other);
}

fn meet(roles: &RoleSet, others: &RoleSet) -> bool {
    roles.iter().zip(others).any(|(part, other)| part & other != 0)
}

impl Office {
    /// Carries out a command, which is accepted.
    fn carry_out(&mut self, words: &[&str]) {
        match words {
            ["addRole", role] => {
                let role = self.roles.number(role);
                let mut below = RoleSet::default();
                set(&mut below, role);
                self.below.push(below);
            }
            ["addPermObj", object] => {
                self.objects.number(object);
            }
            ["addPermission", object, operation] => {
                let permission = self.permission(object, operation);
                self.granted.insert(permission, RoleSet::default());
            }
            ["grantPermission", object, operation, role] => {
                let permission = self.permission(object, operation);
                let role = self.roles.number(role);
                set(self.granted.get_mut(&permission).expect("a permission"), role);
            }
            ["addInheritance", asc, desc] => self.add_inheritance(asc, desc),
            ["createSession", _, session, roles @ ..] => self.create_session(session, roles),
            ["addUser", _] | ["assignUser", _, _] => {}
            _ => panic!("{words:?}"),
        }
    }

    fn permission(&mut self, object: &str, operation: &str) -> (usize, usize) {
        (self.objects.number(object), self.operations.number(operation))
    }

    /// Adds an inheritance. There is no session yet that would get more roles by it.
    fn add_inheritance(&mut self, asc: &str, desc: &str) {
        assert!(self.sessions.is_empty());
        let (asc, desc) = (self.roles.number(asc), self.roles.number(desc));
        let more = self.below[desc];
        for below in self.below.iter_mut().filter(|below| has(below, asc)) {
            unite(below, &more);
        }
    }

    fn create_session(&mut self, session: &str, roles: &[&str]) {
        let mut all = RoleSet::default();
        for role in roles {
            unite(&mut all, &self.below[self.roles.number(role)]);
        }
        self.sessions.insert(session.to_string(), all);
    }

    fn check_access(&self, question: &Question) -> Result<bool, Refusal> {
        let roles = self.sessions.get(&question.session).ok_or(Refusal::NoSession)?;
        let object = self.objects.0.get(&question.object).ok_or(Refusal::NoObject)?;
        let operation = self.operations.0.get(&question.operation).ok_or(Refusal::NoOperation)?;
        let granted = self.granted.get(&(*object, *operation));
        Ok(granted.is_some_and(|granted| meet(roles, granted)))
    }
}

struct Question {
    session: String,
    operation: String,
    object: String,
    wanted: bool,
}

/// Asks the questions `times` times, and prints how many answers were right and how long it took.
fn time(label: &str, rounds: u32, office: &Office, questions: &[Question]) {
    let is_right = |question: &&Question| office.check_access(question) == Ok(question.wanted);
    let start = Instant::now();
    let mut right = 0;
    for _ in 0..rounds {
        right += questions.iter().filter(is_right).count();
    }
    println!("{label} {right} {}", start.elapsed().as_nanos());
}

fn main() {
    let mut office = Office::default();
    let mut questions = Vec::new();
    for line in stdin().lines() {
        let line = line.expect("a line");
        let words: Vec<&str> = line.split(' ').collect();
        match words.as_slice() {
            ["-", command @ ..] => office.carry_out(command),
            ["?", session, operation, object, wanted] => questions.push(Question {
                session: session.to_string(),
                operation: operation.to_string(),
                object: object.to_string(),
                wanted: *wanted == "1",
            }),
            ["!", label, rounds] => {
                time(label, rounds.parse().expect("a number"), &office, &questions);
                questions.clear();
            }
            _ => panic!("{line}"),
        }
    }
}
