//! Whether a command is accepted, and if not, the first of its refusals that holds.

use super::Refusal::*;
use super::table::{Table, number, second_numbers};
use super::{Command, Office, Pair, Refusal, Separation};
use super::{has_name, has_pair, has_triple, limit, with_first};

/// The refusal of the first test that holds.
macro_rules! refuse {
    ($($test:expr => $refusal:expr),* $(,)?) => {{
        $(if $test { return Some($refusal); })*
        None
    }};
}

impl Office {
    pub fn judge(&self, command: &Command) -> Option<Refusal> {
        match command {
            Command::AddUser(user) => refuse! {
                has_name(&self.users, user) => UserExists,
                self.users.len() >= limit::USERS => TooMany("user"),
            },
            Command::DeleteUser(user) => refuse! { !has_name(&self.users, user) => NoUser },
            Command::AddRole(role) => refuse! {
                has_name(&self.roles, role) => RoleExists,
                self.roles.len() >= limit::ROLES => TooMany("role"),
            },
            Command::DeleteRole(role) => refuse! {
                !has_name(&self.roles, role) => NoRole,
                self.is_in_use(role) => RoleInUse,
            },
            Command::AddPermObj(object) => refuse! {
                has_name(&self.objects, object) => ObjectExists,
                self.objects.len() >= limit::OBJECTS => TooMany("object"),
            },
            Command::DeletePermObj(object) => refuse! {
                !has_name(&self.objects, object) => NoObject,
                !with_first(&self.permissions, object).is_empty() => ObjectInUse,
            },
            Command::AddPermission(object, operation) => refuse! {
                !has_name(&self.objects, object) => NoObject,
                has_pair(&self.permissions, object, operation) => PermissionExists,
                self.permissions.len() >= limit::PERMISSIONS => TooMany("permission"),
            },
            Command::DeletePermission(object, operation) => refuse! {
                !has_name(&self.objects, object) => NoObject,
                !has_pair(&self.permissions, object, operation) => NoPermission,
            },
            Command::GrantPermission(object, operation, role) => refuse! {
                !has_name(&self.objects, object) => NoObject,
                !has_pair(&self.permissions, object, operation) => NoPermission,
                !has_name(&self.roles, role) => NoRole,
                has_triple(&self.grants, object, operation, role) => AlreadyGranted,
                self.grants.len() >= limit::GRANTS => TooMany("grant"),
            },
            Command::RevokePermission(object, operation, role) => refuse! {
                !has_name(&self.objects, object) => NoObject,
                !has_pair(&self.permissions, object, operation) => NoPermission,
                !has_name(&self.roles, role) => NoRole,
                !has_triple(&self.grants, object, operation, role) => NotGranted,
            },
            Command::AssignUser(user, role) => self.judge_assignment(&[], user, role),
            Command::DeassignUser(user, role) => refuse! {
                !has_name(&self.users, user) => NoUser,
                !has_name(&self.roles, role) => NoRole,
                !has_pair(&self.assignments, user, role) => NotAssigned,
            },
            Command::AddInheritance(asc, desc) => self.judge_inheritance(asc, desc),
            Command::DeleteInheritance(asc, desc) => refuse! {
                !has_name(&self.roles, asc) => NoRole,
                !has_name(&self.roles, desc) => NoRole,
                !has_pair(&self.edges, asc, desc) => NoEdge,
            },
            Command::AddAscendant(asc, desc) => refuse! {
                !has_name(&self.roles, desc) => NoRole,
                has_name(&self.roles, asc) => RoleExists,
                self.roles.len() >= limit::ROLES => TooMany("role"),
                self.edges.len() >= limit::EDGES => TooMany("edge"),
            },
            Command::AddDescendant(asc, desc) => refuse! {
                !has_name(&self.roles, asc) => NoRole,
                has_name(&self.roles, desc) => RoleExists,
                self.roles.len() >= limit::ROLES => TooMany("role"),
                self.edges.len() >= limit::EDGES => TooMany("edge"),
            },
            Command::CreateSet(kind, set, roles, n) => self.judge_set(*kind, set, roles, *n),
            Command::AddMember(kind, set, role) => self.judge_member(*kind, set, role),
            Command::DeleteMember(kind, set, role) => {
                let (members, number) = (self.members(*kind, set), self.number(*kind, set));
                refuse! {
                    number.is_none() => NoSet,
                    !has_name(&self.roles, role) => NoRole,
                    !has_pair(&self.sets(*kind).members, set, role) => NoMember,
                    number.is_some_and(|it| it as usize >= members.len()) => BadCardinality,
                }
            }
            Command::SetCardinality(kind, set, n) => self.judge_cardinality(*kind, set, *n),
            Command::DeleteSet(kind, set) => refuse! { self.number(*kind, set).is_none() => NoSet },
            Command::CreateSession(user, session, roles) => {
                self.judge_session(user, session, roles)
            }
            Command::DeleteSession(user, session) => refuse! {
                !has_name(&self.users, user) => NoUser,
                with_first(&self.sessions, session).is_empty() => NoSession,
                !has_pair(&self.sessions, session, user) => NotOwner,
            },
            Command::AddActiveRole(user, session, role) => {
                self.judge_activation(user, session, role)
            }
            Command::DropActiveRole(user, session, role) => refuse! {
                !has_name(&self.users, user) => NoUser,
                with_first(&self.sessions, session).is_empty() => NoSession,
                !has_name(&self.roles, role) => NoRole,
                !has_pair(&self.sessions, session, user) => NotOwner,
                !has_pair(&self.active, session, role) => NotActive,
            },
            Command::LockUserAccount(user) => refuse! { !has_name(&self.users, user) => NoUser },
            Command::UnlockUserAccount(user) => refuse! { !has_name(&self.users, user) => NoUser },
            Command::ImportAssignments(records) => refuse! {
                records.len() > limit::RECORDS => TooMany("record"),
            },
        }
    }

    fn is_in_use(&self, role: &str) -> bool {
        self.edges.iter().any(|edge| edge.0 == role || edge.1 == role)
            || self.statics.members.iter().any(|member| member.1 == role)
            || self.dynamics.members.iter().any(|member| member.1 == role)
    }

    fn members(&self, kind: Separation, set: &str) -> &[Pair] {
        with_first(&self.sets(kind).members, set)
    }

    /// The cardinality of a set.
    pub fn number(&self, kind: Separation, set: &str) -> Option<u32> {
        let cardinalities = &self.sets(kind).cardinalities;
        let at = cardinalities.partition_point(|entry| entry.0.as_str() < set);
        cardinalities.get(at).filter(|entry| entry.0 == set).map(|entry| entry.1)
    }

    fn is_reached(&self, held: &[Pair], role: &str) -> bool {
        held.iter().any(|pair| self.geq(&pair.1, role))
    }

    /// The verdict on an assignment, if these pairs are assigned too.
    pub fn judge_assignment(&self, added: &[Pair], user: &str, role: &str) -> Option<Refusal> {
        if let Some(refusal) = self.refuse_assignment(added, user, role) {
            return Some(refusal);
        }
        let held = with_first(&self.assignments, user);
        let since = with_first(added, user);
        let violated = self.first_with_one(Separation::Static, held, since, role);
        violated.map(|set| StaticSeparation(set.clone()))
    }

    fn refuse_assignment(&self, added: &[Pair], user: &str, role: &str) -> Option<Refusal> {
        refuse! {
            !has_name(&self.users, user) => NoUser,
            !has_name(&self.roles, role) => NoRole,
            has_pair(&self.assignments, user, role) || has_pair(added, user, role) => AlreadyAssigned,
            self.assignments.len() + added.len() >= limit::ASSIGNMENTS => TooMany("assignment"),
        }
    }

    /// The first set of which the roles so far and one more make as many members as its cardinality.
    fn first_with_one(
        &self,
        kind: Separation,
        held: &[Pair],
        since: &[Pair],
        more: &str,
    ) -> Option<&String> {
        let has_with = |set: &str, cardinality: u32| {
            let members = self.members(kind, set);
            members.iter().any(|member| self.geq(more, &member.1)) && {
                let reached = members.iter().filter(|member| {
                    self.is_reached(held, &member.1)
                        || self.is_reached(since, &member.1)
                        || self.geq(more, &member.1)
                });
                reached.count() >= cardinality as usize
            }
        };
        let sets = &self.sets(kind).cardinalities;
        sets.iter().find(|(set, cardinality)| has_with(set, *cardinality)).map(|entry| &entry.0)
    }

    fn judge_inheritance(&self, asc: &str, desc: &str) -> Option<Refusal> {
        if let Some(refusal) = self.refuse_inheritance(asc, desc) {
            return Some(refusal);
        }
        let of_user = |user: &String| with_first(&self.assignments, user);
        let users = self.users.iter().map(of_user);
        if let Some(set) = self.first_violated(Separation::Static, users, asc, desc) {
            return Some(StaticSeparation(set.clone()));
        }
        let of_session = |session: &Pair| with_first(&self.active, &session.0);
        let sessions = self.sessions.iter().map(of_session);
        let violated = self.first_violated(Separation::Dynamic, sessions, asc, desc);
        violated.map(|set| DynamicSeparation(set.clone()))
    }

    fn refuse_inheritance(&self, asc: &str, desc: &str) -> Option<Refusal> {
        refuse! {
            !has_name(&self.roles, asc) => NoRole,
            !has_name(&self.roles, desc) => NoRole,
            has_pair(&self.edges, asc, desc) => EdgeExists,
            self.geq(desc, asc) => Cycle,
            self.edges.len() >= limit::EDGES => TooMany("edge"),
        }
    }

    /// The first set that one of these holders of roles would violate with `desc` below `asc`.
    fn first_violated<'a>(
        &'a self,
        kind: Separation,
        holders: impl Iterator<Item = &'a [Pair]>,
        asc: &str,
        desc: &str,
    ) -> Option<&'a String> {
        let is_touched = |set: &str| self.members(kind, set).iter().any(|it| self.geq(desc, &it.1));
        let sets = &self.sets(kind).cardinalities;
        if !sets.iter().any(|(set, _)| is_touched(set)) {
            return None;
        }
        let holders: Vec<&[Pair]> = holders.filter(|held| self.is_reached(held, asc)).collect();
        if holders.is_empty() {
            return None;
        }
        let table = Table::new(&self.roles, &self.closure);
        let desc = number(&self.roles, desc);
        let with_desc = |held: &&[Pair]| {
            let mut numbers = second_numbers(&self.roles, held);
            numbers.push(desc);
            numbers
        };
        let runs: Vec<Vec<usize>> = holders.iter().map(with_desc).collect();
        let is_violated = |set: &str, cardinality: u32| {
            let members = second_numbers(&self.roles, self.members(kind, set));
            members.iter().any(|member| table.geq(desc, *member))
                && !table.keep_below(&runs, &members, cardinality)
        };
        sets.iter().find(|(set, cardinality)| is_violated(set, *cardinality)).map(|entry| &entry.0)
    }

    fn refuse_as(kind: Separation, set: &str) -> Refusal {
        match kind {
            Separation::Static => StaticSeparation(set.to_string()),
            Separation::Dynamic => DynamicSeparation(set.to_string()),
        }
    }

    fn kind_of_sets(kind: Separation) -> &'static str {
        match kind {
            Separation::Static => "ssdSet",
            Separation::Dynamic => "dsdSet",
        }
    }

    /// Whether all that hold roles, the users or the sessions, pass the test.
    fn all_holders(&self, kind: Separation, test: impl Fn(&[Pair]) -> bool) -> bool {
        match kind {
            Separation::Static => {
                self.users.iter().all(|user| test(with_first(&self.assignments, user)))
            }
            Separation::Dynamic => {
                self.sessions.iter().all(|session| test(with_first(&self.active, &session.0)))
            }
        }
    }

    fn judge_set(
        &self,
        kind: Separation,
        set: &str,
        roles: &[String],
        cardinality: u32,
    ) -> Option<Refusal> {
        refuse! {
            !roles.iter().all(|role| has_name(&self.roles, role)) => NoRole,
            self.number(kind, set).is_some() => SetExists,
            cardinality < 2 || cardinality as usize > roles.len() => BadCardinality,
            self.sets(kind).cardinalities.len() >= limit::SETS => TooMany(Self::kind_of_sets(kind)),
            roles.len() > limit::MEMBERS => TooMany("member"),
            !self.all_holders(kind, |held| {
                let reached = roles.iter().filter(|role| self.is_reached(held, role));
                reached.count() < cardinality as usize
            }) => Self::refuse_as(kind, set),
        }
    }

    fn judge_member(&self, kind: Separation, set: &str, role: &str) -> Option<Refusal> {
        let members = self.members(kind, set);
        let Some(cardinality) = self.number(kind, set) else {
            return Some(NoSet);
        };
        refuse! {
            !has_name(&self.roles, role) => NoRole,
            has_pair(&self.sets(kind).members, set, role) => MemberExists,
            members.len() >= limit::MEMBERS => TooMany("member"),
            !self.all_holders(kind, |held| {
                !self.is_reached(held, role) || {
                    let reached = members.iter().filter(|it| self.is_reached(held, &it.1));
                    reached.count() + 1 < cardinality as usize
                }
            }) => Self::refuse_as(kind, set),
        }
    }

    fn judge_cardinality(&self, kind: Separation, set: &str, cardinality: u32) -> Option<Refusal> {
        let members = self.members(kind, set);
        let Some(before) = self.number(kind, set) else {
            return Some(NoSet);
        };
        refuse! {
            cardinality < 2 || cardinality as usize > members.len() => BadCardinality,
            cardinality < before && !self.all_holders(kind, |held| {
                let reached = members.iter().filter(|it| self.is_reached(held, &it.1));
                reached.count() < cardinality as usize
            }) => Self::refuse_as(kind, set),
        }
    }

    fn judge_session(&self, user: &str, session: &str, roles: &[String]) -> Option<Refusal> {
        let held = with_first(&self.assignments, user);
        let refusal = refuse_session(self, user, session, roles, held);
        refusal.or_else(|| {
            let has_all = |set: &str, cardinality: u32| {
                let members = self.members(Separation::Dynamic, set).iter();
                let reached = members
                    .filter(|member| roles.iter().any(|role| self.geq(role, &member.1)))
                    .count();
                reached >= cardinality as usize
            };
            let mut sets = self.dynamics.cardinalities.iter();
            let violated = sets.find(|(set, cardinality)| has_all(set, *cardinality));
            violated.map(|(set, _)| DynamicSeparation(set.clone()))
        })
    }

    fn judge_activation(&self, user: &str, session: &str, role: &str) -> Option<Refusal> {
        if let Some(refusal) = self.refuse_activation(user, session, role) {
            return Some(refusal);
        }
        let held = with_first(&self.active, session);
        let violated = self.first_with_one(Separation::Dynamic, held, &[], role);
        violated.map(|set| DynamicSeparation(set.clone()))
    }

    fn refuse_activation(&self, user: &str, session: &str, role: &str) -> Option<Refusal> {
        refuse! {
            !has_name(&self.users, user) => NoUser,
            with_first(&self.sessions, session).is_empty() => NoSession,
            !has_name(&self.roles, role) => NoRole,
            !has_pair(&self.sessions, session, user) => NotOwner,
            has_pair(&self.active, session, role) => AlreadyActive,
            !self.is_reached(with_first(&self.assignments, user), role) => NotAuthorized,
            with_first(&self.active, session).len() >= limit::ACTIVE_ROLES => TooMany("activeRole"),
        }
    }
}

fn refuse_session(
    office: &Office,
    user: &str,
    session: &str,
    roles: &[String],
    held: &[Pair],
) -> Option<Refusal> {
    refuse! {
        !has_name(&office.users, user) => NoUser,
        !roles.iter().all(|role| has_name(&office.roles, role)) => NoRole,
        !with_first(&office.sessions, session).is_empty() => SessionExists,
        !roles.iter().all(|role| office.is_reached(held, role)) => NotAuthorized,
        has_name(&office.locked, user) => UserLocked,
        office.sessions.len() >= limit::SESSIONS => TooMany("session"),
        roles.len() > limit::ACTIVE_ROLES => TooMany("activeRole"),
    }
}
