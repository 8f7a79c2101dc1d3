//! The rows that an accepted command removes and adds.

use super::{Change, Command, Names, Office, OrderChange, Pair, Pairs, Plan, Refusal, Report, Row};
use super::{has_name, has_pair, with_first, with_pair};

fn name(names: Names, name: &str) -> Row {
    Row::Name(names, name.to_string())
}

fn pair(pairs: Pairs, a: &str, b: &str) -> Row {
    Row::Pair(pairs, a.to_string(), b.to_string())
}

fn grant(object: &str, operation: &str, role: &str) -> Row {
    Row::Grant(object.to_string(), operation.to_string(), role.to_string())
}

fn put_each(changes: &mut Vec<Change>, pairs: Pairs, first: &str, seconds: &[String]) {
    changes.extend(seconds.iter().map(|second| Change::Put(pair(pairs, first, second))));
}

fn take_each<'a>(changes: &mut Vec<Change>, pairs: Pairs, run: impl Iterator<Item = &'a Pair>) {
    changes.extend(run.map(|it| Change::Take(pair(pairs, &it.0, &it.1))));
}

/// A role and the edge that is added with it.
fn new_role(role: &str, asc: &str, desc: &str) -> Vec<Change> {
    let role = Change::Put(name(Names::Roles, role));
    vec![role, Change::Put(pair(Pairs::Edges, asc, desc))]
}

impl Office {
    /// Judges a command, and returns its changes if it is accepted.
    pub fn plan(&self, command: &Command) -> Result<Plan, Refusal> {
        match self.judge(command) {
            Some(refusal) => Err(refusal),
            None => Ok(self.make(command)),
        }
    }

    fn make(&self, command: &Command) -> Plan {
        let mut changes = Vec::new();
        let mut report = Report::default();
        let mut order = None;
        match command {
            Command::AddUser(user) => changes.push(Change::Put(name(Names::Users, user))),
            Command::DeleteUser(user) => {
                changes.push(Change::Take(name(Names::Users, user)));
                self.take_lock(&mut changes, user);
                let assigned = with_first(&self.assignments, user).iter();
                take_each(&mut changes, Pairs::Assignments, assigned);
                self.take_ended(&mut changes, |_, owner| owner != user);
            }
            Command::AddRole(role) => changes.push(Change::Put(name(Names::Roles, role))),
            Command::DeleteRole(role) => {
                changes.push(Change::Take(name(Names::Roles, role)));
                let assigned = self.assignments.iter().filter(|it| it.1 == *role);
                take_each(&mut changes, Pairs::Assignments, assigned);
                let granted = self.grants.iter().filter(|it| it.2 == *role);
                changes.extend(granted.map(|it| Change::Take(grant(&it.0, &it.1, &it.2))));
                self.take_ended(&mut changes, |session, owner| {
                    self.goes_on_without_role(session, owner, role)
                });
            }
            Command::AddPermObj(object) => changes.push(Change::Put(name(Names::Objects, object))),
            Command::DeletePermObj(object) => {
                changes.push(Change::Take(name(Names::Objects, object)));
            }
            Command::AddPermission(object, operation) => {
                changes.push(Change::Put(pair(Pairs::Permissions, object, operation)));
            }
            Command::DeletePermission(object, operation) => {
                changes.push(Change::Take(pair(Pairs::Permissions, object, operation)));
                let granted = with_pair(&self.grants, object, operation).iter();
                changes.extend(granted.map(|it| Change::Take(grant(&it.0, &it.1, &it.2))));
            }
            Command::GrantPermission(object, operation, role) => {
                changes.push(Change::Put(grant(object, operation, role)));
            }
            Command::RevokePermission(object, operation, role) => {
                changes.push(Change::Take(grant(object, operation, role)));
            }
            Command::AssignUser(user, role) => {
                changes.push(Change::Put(pair(Pairs::Assignments, user, role)));
            }
            Command::DeassignUser(user, role) => {
                changes.push(Change::Take(pair(Pairs::Assignments, user, role)));
                self.take_ended(&mut changes, |session, owner| {
                    owner != user || self.goes_on_without_role(session, owner, role)
                });
            }
            Command::AddInheritance(asc, desc) => {
                order = Some(OrderChange::Puts(self.hierarchy().gained(asc, desc)));
                changes.push(Change::Put(pair(Pairs::Edges, asc, desc)));
            }
            Command::DeleteInheritance(asc, desc) => {
                let takes = self.hierarchy().lost(asc, desc);
                changes.push(Change::Take(pair(Pairs::Edges, asc, desc)));
                self.take_ended(&mut changes, |session, owner| {
                    self.goes_on_without_pairs(session, owner, &takes)
                });
                order = Some(OrderChange::Takes(takes));
            }
            Command::AddAscendant(asc, desc) => {
                order = Some(OrderChange::Puts(self.hierarchy().gained(asc, desc)));
                changes = new_role(asc, asc, desc);
            }
            Command::AddDescendant(asc, desc) => {
                order = Some(OrderChange::Puts(self.hierarchy().gained(asc, desc)));
                changes = new_role(desc, asc, desc);
            }
            Command::CreateSet(kind, set, roles, cardinality) => {
                changes.push(Change::Put(Row::Cardinality(*kind, set.clone(), *cardinality)));
                put_each(&mut changes, Pairs::Members(*kind), set, roles);
            }
            Command::AddMember(kind, set, role) => {
                changes.push(Change::Put(pair(Pairs::Members(*kind), set, role)));
            }
            Command::DeleteMember(kind, set, role) => {
                changes.push(Change::Take(pair(Pairs::Members(*kind), set, role)));
            }
            Command::SetCardinality(kind, set, cardinality) => {
                let entries = self.sets(*kind).cardinalities.iter();
                for (_, before) in entries.filter(|it| it.0 == *set && it.1 != *cardinality) {
                    changes.push(Change::Take(Row::Cardinality(*kind, set.clone(), *before)));
                    changes.push(Change::Put(Row::Cardinality(*kind, set.clone(), *cardinality)));
                }
            }
            Command::DeleteSet(kind, set) => {
                for (_, before) in self.sets(*kind).cardinalities.iter().filter(|it| it.0 == *set) {
                    changes.push(Change::Take(Row::Cardinality(*kind, set.clone(), *before)));
                }
                let members = with_first(&self.sets(*kind).members, set).iter();
                take_each(&mut changes, Pairs::Members(*kind), members);
            }
            Command::CreateSession(user, session, roles) => {
                changes.push(Change::Put(pair(Pairs::Sessions, session, user)));
                put_each(&mut changes, Pairs::Active, session, roles);
            }
            Command::DeleteSession(user, session) => self.take_session(&mut changes, session, user),
            Command::AddActiveRole(_, session, role) => {
                changes.push(Change::Put(pair(Pairs::Active, session, role)));
            }
            Command::DropActiveRole(_, session, role) => {
                changes.push(Change::Take(pair(Pairs::Active, session, role)));
            }
            Command::LockUserAccount(user) => {
                self.take_ended(&mut changes, |_, owner| owner != user);
                if !has_name(&self.locked, user) {
                    changes.push(Change::Put(name(Names::Locked, user)));
                }
            }
            Command::UnlockUserAccount(user) => self.take_lock(&mut changes, user),
            Command::ImportAssignments(records) => self.import(&mut changes, &mut report, records),
        }
        Plan { changes, report, order }
    }

    fn take_lock(&self, changes: &mut Vec<Change>, user: &str) {
        if has_name(&self.locked, user) {
            changes.push(Change::Take(name(Names::Locked, user)));
        }
    }

    fn take_session(&self, changes: &mut Vec<Change>, session: &str, user: &str) {
        changes.push(Change::Take(pair(Pairs::Sessions, session, user)));
        take_each(changes, Pairs::Active, with_first(&self.active, session).iter());
    }

    fn take_ended(&self, changes: &mut Vec<Change>, goes_on: impl Fn(&str, &str) -> bool) {
        for (session, owner) in &self.sessions {
            if !goes_on(session, owner) {
                self.take_session(changes, session, owner);
            }
        }
    }

    fn goes_on_without_role(&self, session: &str, user: &str, gone: &str) -> bool {
        let held = with_first(&self.assignments, user);
        let is_held = |role: &str| held.iter().any(|it| it.1 != gone && self.geq(&it.1, role));
        with_first(&self.active, session).iter().all(|it| is_held(&it.1))
    }

    fn goes_on_without_pairs(&self, session: &str, user: &str, lost: &[Pair]) -> bool {
        let held = with_first(&self.assignments, user);
        let is_held = |role: &str| {
            held.iter().any(|it| self.geq(&it.1, role) && !has_pair(lost, &it.1, role))
        };
        with_first(&self.active, session).iter().all(|it| is_held(&it.1))
    }

    fn import(&self, changes: &mut Vec<Change>, report: &mut Report, records: &[Pair]) {
        let mut added = Vec::new();
        for ((user, role), number) in records.iter().zip(1..) {
            match self.judge_assignment(&added, user, role) {
                Some(Refusal::AlreadyAssigned) => report.already += 1,
                Some(refusal) => report.refused.push((number, refusal)),
                None => {
                    changes.push(Change::Put(pair(Pairs::Assignments, user, role)));
                    super::insert(&mut added, (user.clone(), role.clone()));
                    report.assigned += 1;
                }
            }
        }
    }
}
