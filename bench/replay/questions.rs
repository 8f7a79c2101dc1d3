//! The questions: access decisions and the review functions, over sorted vectors.

use super::office::Refusal::*;
use super::office::{Office, Pair, Refusal, Separation, Triple};
use super::office::{has_name, has_pair, has_triple, with_first, with_pair};

pub enum Question {
    CheckAccess(String, String, String),
    AssignedUsers(String),
    AssignedRoles(String),
    AuthorizedUsers(String),
    AuthorizedRoles(String),
    RolePermissions(String),
    UserPermissions(String),
    SessionRoles(String),
    SessionPermissions(String),
    RoleOperationsOnObject(String, String),
    UserOperationsOnObject(String, String),
    Sets(Separation),
    SetRoles(Separation, String),
    CardinalityOf(Separation, String),
    PermissionRoles(String, String),
}

/// The value of an answer.
pub enum Told<'a> {
    Truth(bool),
    Number(u32),
    Names(Vec<&'a str>),
    Permissions(Vec<(&'a str, &'a str)>),
}

/// Returns this refusal unless the test holds.
fn need(test: bool, refusal: Refusal) -> Result<(), Refusal> {
    if test { Ok(()) } else { Err(refusal) }
}

fn seconds(pairs: &[Pair]) -> Vec<&str> {
    pairs.iter().map(|it| it.1.as_str()).collect()
}

fn has_role(roles: &[&str], role: &str) -> bool {
    roles.binary_search(&role).is_ok()
}

/// What is granted to one of these roles.
fn granted<'a>(grants: &'a [Triple], roles: &[&str]) -> Vec<(&'a str, &'a str)> {
    let of_roles = grants.iter().filter(|grant| has_role(roles, &grant.2));
    let mut permissions: Vec<_> = of_roles.map(|it| (it.0.as_str(), it.1.as_str())).collect();
    permissions.dedup();
    permissions
}

/// The grants on an object.
fn on_object<'a>(grants: &'a [Triple], object: &str) -> &'a [Triple] {
    let rest = &grants[grants.partition_point(|it| it.0.as_str() < object)..];
    &rest[..rest.partition_point(|it| it.0 == object)]
}

impl Office {
    pub fn answer(&self, question: &Question) -> Result<Told<'_>, Refusal> {
        Ok(match question {
            Question::CheckAccess(session, operation, object) => {
                Told::Truth(self.check_access(session, operation, object)?)
            }
            Question::AssignedUsers(role) => {
                self.need_role(role)?;
                let of_role = self.assignments.iter().filter(|it| it.1 == *role);
                Told::Names(of_role.map(|it| it.0.as_str()).collect())
            }
            Question::AssignedRoles(user) => {
                self.need_user(user)?;
                Told::Names(seconds(with_first(&self.assignments, user)))
            }
            Question::AuthorizedUsers(role) => Told::Names(self.authorized_users(role)?),
            Question::AuthorizedRoles(user) => Told::Names(self.roles_of_user(user)?),
            Question::RolePermissions(role) => {
                Told::Permissions(granted(&self.grants, &self.roles_of_role(role)?))
            }
            Question::UserPermissions(user) => {
                Told::Permissions(granted(&self.grants, &self.roles_of_user(user)?))
            }
            Question::SessionRoles(session) => Told::Names(self.roles_of_session(session)?),
            Question::SessionPermissions(session) => {
                Told::Permissions(granted(&self.grants, &self.roles_of_session(session)?))
            }
            Question::RoleOperationsOnObject(role, object) => {
                let roles = self.roles_of_role(role)?;
                Told::Names(self.operations_of(&roles, object)?)
            }
            Question::UserOperationsOnObject(user, object) => {
                let roles = self.roles_of_user(user)?;
                Told::Names(self.operations_of(&roles, object)?)
            }
            Question::Sets(kind) => {
                let sets = self.sets(*kind).cardinalities.iter();
                Told::Names(sets.map(|it| it.0.as_str()).collect())
            }
            Question::SetRoles(kind, set) => {
                self.cardinality(*kind, set)?;
                Told::Names(seconds(with_first(&self.sets(*kind).members, set)))
            }
            Question::CardinalityOf(kind, set) => Told::Number(self.cardinality(*kind, set)?),
            Question::PermissionRoles(object, operation) => {
                self.need_object(object)?;
                need(has_pair(&self.permissions, object, operation), NoPermission)?;
                let grants = with_pair(&self.grants, object, operation).iter();
                Told::Names(grants.map(|it| it.2.as_str()).collect())
            }
        })
    }

    fn need_user(&self, user: &str) -> Result<(), Refusal> {
        need(has_name(&self.users, user), NoUser)
    }

    fn need_role(&self, role: &str) -> Result<(), Refusal> {
        need(has_name(&self.roles, role), NoRole)
    }

    fn need_object(&self, object: &str) -> Result<(), Refusal> {
        need(has_name(&self.objects, object), NoObject)
    }

    fn need_session(&self, session: &str) -> Result<(), Refusal> {
        need(!with_first(&self.sessions, session).is_empty(), NoSession)
    }

    fn cardinality(&self, kind: Separation, set: &str) -> Result<u32, Refusal> {
        self.number(kind, set).ok_or(NoSet)
    }

    fn check_access(&self, session: &str, op: &str, object: &str) -> Result<bool, Refusal> {
        self.need_session(session)?;
        self.need_object(object)?;
        if !has_pair(&self.permissions, object, op) {
            need(self.permissions.iter().any(|it| it.1 == op), NoOperation)?;
            return Ok(false);
        }
        let has_grant = |role: &str| has_triple(&self.grants, object, op, role);
        Ok(with_first(&self.active, session).iter().any(|(_, role)| {
            has_grant(role) || with_first(&self.closure, role).iter().any(|it| has_grant(&it.1))
        }))
    }

    /// These roles and their juniors, in byte order.
    fn with_juniors<'a>(&'a self, pairs: &'a [Pair]) -> Vec<&'a str> {
        let mut roles = seconds(pairs);
        for (_, role) in pairs {
            roles.extend(with_first(&self.closure, role).iter().map(|it| it.1.as_str()));
        }
        roles.sort_unstable();
        roles.dedup();
        roles
    }

    fn roles_of_user(&self, user: &str) -> Result<Vec<&str>, Refusal> {
        self.need_user(user)?;
        Ok(self.with_juniors(with_first(&self.assignments, user)))
    }

    fn roles_of_session(&self, session: &str) -> Result<Vec<&str>, Refusal> {
        self.need_session(session)?;
        Ok(self.with_juniors(with_first(&self.active, session)))
    }

    /// The role and its juniors, in byte order.
    fn roles_of_role<'a>(&'a self, role: &'a str) -> Result<Vec<&'a str>, Refusal> {
        self.need_role(role)?;
        let mut roles = seconds(with_first(&self.closure, role));
        let at = roles.partition_point(|it| *it < role);
        roles.insert(at, role);
        Ok(roles)
    }

    fn authorized_users(&self, role: &str) -> Result<Vec<&str>, Refusal> {
        self.need_role(role)?;
        let seniors = self.closure.iter().filter(|it| it.1 == role);
        let mut roles: Vec<&str> = seniors.map(|it| it.0.as_str()).collect();
        let at = roles.partition_point(|it| *it < role);
        roles.insert(at, role);
        let held = self.assignments.iter().filter(|it| has_role(&roles, &it.1));
        let mut users: Vec<&str> = held.map(|it| it.0.as_str()).collect();
        users.dedup();
        Ok(users)
    }

    fn operations_of(&self, roles: &[&str], object: &str) -> Result<Vec<&str>, Refusal> {
        self.need_object(object)?;
        let permissions = granted(on_object(&self.grants, object), roles);
        Ok(permissions.into_iter().map(|(_, operation)| operation).collect())
    }
}
