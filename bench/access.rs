//! The floor of `access.rt.bench` in plain Rust: decisions over sorted vectors of texts with the
//! closure stored. It reads the same lines and prints the same ones, in two ways to decide: `floor`
//! asks for no more than the answer, and `same` makes the tests of the proved one in their order.

use std::io::stdin;
use std::time::Instant;

mod office;

use office::{Office, has_name, has_pair, has_triple, read_command, with_first, with_pair};

struct Question {
    session: String,
    operation: String,
    object: String,
    wanted: bool,
}

/// Whether a role of the session, or a junior of it, has the grant.
fn is_allowed(office: &Office, question: &Question) -> bool {
    let Question { session, operation, object, .. } = question;
    let has_grant = |role: &str| has_triple(&office.grants, object, operation, role);
    with_first(&office.active, session).iter().any(|(_, role)| {
        has_grant(role) || with_first(&office.closure, role).iter().any(|(_, it)| has_grant(it))
    })
}

/// The same, with the refusals: `None` if something is missing.
fn check_access(office: &Office, question: &Question) -> Option<bool> {
    let Question { session, operation, object, .. } = question;
    if with_first(&office.sessions, session).is_empty() || !has_name(&office.objects, object) {
        return None;
    }
    if !has_pair(&office.permissions, object, operation)
        && !office.permissions.iter().any(|permission| permission.1 == *operation)
    {
        return None;
    }
    let granted = with_pair(&office.grants, object, operation);
    let held = with_first(&office.active, session);
    Some(granted.iter().any(|grant| held.iter().any(|pair| office.geq(&pair.1, &grant.2))))
}

fn time(label: &str, rounds: u32, questions: &[Question], answer: impl Fn(&Question) -> bool) {
    let start = Instant::now();
    let mut right = 0;
    for _ in 0..rounds {
        right += questions.iter().filter(|question| answer(question)).count();
    }
    println!("{label} {right} {}", start.elapsed().as_nanos());
}

fn main() {
    let mut office = Office::default();
    let mut questions = Vec::new();
    for line in stdin().lines() {
        let line = line.expect("a line");
        let words: Vec<&str> = line.split(' ').collect();
        match words.as_slice() {
            ["-", command @ ..] => {
                let plan = office.plan(&read_command(command).expect("a command"));
                office.commit(plan.expect("an accepted command"));
            }
            ["?", session, operation, object, wanted] => questions.push(Question {
                session: session.to_string(),
                operation: operation.to_string(),
                object: object.to_string(),
                wanted: *wanted == "1",
            }),
            ["!", label, rounds] => {
                let rounds = rounds.parse().expect("a number");
                let floor = |it: &Question| is_allowed(&office, it) == it.wanted;
                time(label, rounds, &questions, floor);
                let same = |it: &Question| check_access(&office, it) == Some(it.wanted);
                time(&format!("{label}/same"), rounds, &questions, same);
                questions.clear();
            }
            _ => panic!("{line}"),
        }
    }
}
