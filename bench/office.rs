//! The office in plain Rust: sorted vectors of texts, the closure of the role hierarchy stored beside
//! its edges, and the same rules in the same order as the proved one has.

use std::cmp::Ordering;

#[path = "closure.rs"]
mod closure;
mod judging;
mod planning;
pub mod table;

pub use closure::{Hierarchy, Pair, contains as has_pair, merge, with_first, without};

pub type Triple = (String, String, String);

/// The limits of an office of version 2.
pub mod limit {
    pub const USERS: usize = 20_000;
    pub const ROLES: usize = 1_024;
    pub const OBJECTS: usize = 2_000;
    pub const PERMISSIONS: usize = 5_000;
    pub const GRANTS: usize = 20_000;
    pub const ASSIGNMENTS: usize = 20_000;
    pub const EDGES: usize = 4_096;
    pub const SETS: usize = 64;
    pub const MEMBERS: usize = 32;
    pub const SESSIONS: usize = 1_000;
    pub const ACTIVE_ROLES: usize = 32;
    pub const RECORDS: usize = 10_000;
}

/// Why a command is refused.
#[derive(Clone, Debug, PartialEq)]
pub enum Refusal {
    NoUser,
    UserExists,
    NoRole,
    RoleExists,
    NoObject,
    ObjectExists,
    NoPermission,
    PermissionExists,
    AlreadyAssigned,
    NotAssigned,
    AlreadyGranted,
    NotGranted,
    EdgeExists,
    NoEdge,
    Cycle,
    RoleInUse,
    ObjectInUse,
    SetExists,
    NoSet,
    MemberExists,
    NoMember,
    BadCardinality,
    StaticSeparation(String),
    DynamicSeparation(String),
    NoSession,
    SessionExists,
    NotOwner,
    NotAuthorized,
    AlreadyActive,
    NotActive,
    /// More than the limit of this kind.
    TooMany(&'static str),
    /// Only questions are refused by this, and some of the programs have none.
    #[allow(dead_code)]
    NoOperation,
    UserLocked,
}

/// Which separation of duty sets are meant.
#[derive(Clone, Copy, PartialEq)]
pub enum Separation {
    Static,
    Dynamic,
}

pub enum Command {
    AddUser(String),
    DeleteUser(String),
    AddRole(String),
    DeleteRole(String),
    AddPermObj(String),
    DeletePermObj(String),
    AddPermission(String, String),
    DeletePermission(String, String),
    GrantPermission(String, String, String),
    RevokePermission(String, String, String),
    AssignUser(String, String),
    DeassignUser(String, String),
    AddInheritance(String, String),
    DeleteInheritance(String, String),
    AddAscendant(String, String),
    AddDescendant(String, String),
    CreateSet(Separation, String, Vec<String>, u32),
    AddMember(Separation, String, String),
    DeleteMember(Separation, String, String),
    SetCardinality(Separation, String, u32),
    DeleteSet(Separation, String),
    CreateSession(String, String, Vec<String>),
    DeleteSession(String, String),
    AddActiveRole(String, String, String),
    DropActiveRole(String, String, String),
    LockUserAccount(String),
    UnlockUserAccount(String),
    ImportAssignments(Vec<Pair>),
}

/// The command of this line.
pub fn read_command(words: &[&str]) -> Option<Command> {
    use Command::*;
    use Separation::{Dynamic, Static};
    let text = |at: usize| words[at].to_string();
    let names = |from: usize| {
        let mut names: Vec<String> = words[from..].iter().map(|it| it.to_string()).collect();
        names.sort();
        names.dedup();
        names
    };
    let number = |at: usize| words[at].parse::<u32>().ok();
    Some(match *words.first()? {
        "addUser" => AddUser(text(1)),
        "deleteUser" => DeleteUser(text(1)),
        "addRole" => AddRole(text(1)),
        "deleteRole" => DeleteRole(text(1)),
        "addPermObj" => AddPermObj(text(1)),
        "deletePermObj" => DeletePermObj(text(1)),
        "addPermission" => AddPermission(text(1), text(2)),
        "deletePermission" => DeletePermission(text(1), text(2)),
        "grantPermission" => GrantPermission(text(1), text(2), text(3)),
        "revokePermission" => RevokePermission(text(1), text(2), text(3)),
        "assignUser" => AssignUser(text(1), text(2)),
        "deassignUser" => DeassignUser(text(1), text(2)),
        "addInheritance" => AddInheritance(text(1), text(2)),
        "deleteInheritance" => DeleteInheritance(text(1), text(2)),
        "addAscendant" => AddAscendant(text(1), text(2)),
        "addDescendant" => AddDescendant(text(1), text(2)),
        "createSsdSet" => CreateSet(Static, text(1), names(3), number(2)?),
        "addSsdRoleMember" => AddMember(Static, text(1), text(2)),
        "deleteSsdRoleMember" => DeleteMember(Static, text(1), text(2)),
        "setSsdSetCardinality" => SetCardinality(Static, text(1), number(2)?),
        "deleteSsdSet" => DeleteSet(Static, text(1)),
        "createDsdSet" => CreateSet(Dynamic, text(1), names(3), number(2)?),
        "addDsdRoleMember" => AddMember(Dynamic, text(1), text(2)),
        "deleteDsdRoleMember" => DeleteMember(Dynamic, text(1), text(2)),
        "setDsdSetCardinality" => SetCardinality(Dynamic, text(1), number(2)?),
        "deleteDsdSet" => DeleteSet(Dynamic, text(1)),
        "createSession" => CreateSession(text(1), text(2), names(3)),
        "deleteSession" => DeleteSession(text(1), text(2)),
        "addActiveRole" => AddActiveRole(text(1), text(2), text(3)),
        "dropActiveRole" => DropActiveRole(text(1), text(2), text(3)),
        "lockUserAccount" => LockUserAccount(text(1)),
        "unlockUserAccount" => UnlockUserAccount(text(1)),
        "importAssignments" => {
            let records = words[1..].chunks(2);
            ImportAssignments(records.map(|it| (it[0].to_string(), it[1].to_string())).collect())
        }
        _ => return None,
    })
}

/// The set of the office that has a row of a name or of a pair.
#[derive(Clone, Copy)]
pub enum Names {
    Users,
    Locked,
    Roles,
    Objects,
}

#[derive(Clone, Copy)]
pub enum Pairs {
    Permissions,
    Assignments,
    Edges,
    Sessions,
    Active,
    Members(Separation),
}

pub enum Row {
    Name(Names, String),
    Pair(Pairs, String, String),
    Grant(String, String, String),
    Cardinality(Separation, String, u32),
}

pub enum Change {
    Put(Row),
    Take(Row),
}

/// The pairs that the order of roles gains or loses.
pub enum OrderChange {
    Puts(Vec<Pair>),
    Takes(Vec<Pair>),
}

/// The report of an import.
#[derive(Default)]
pub struct Report {
    pub assigned: u32,
    pub already: u32,
    pub refused: Vec<(u32, Refusal)>,
}

#[allow(dead_code)]
pub struct Plan {
    pub changes: Vec<Change>,
    pub report: Report,
    pub order: Option<OrderChange>,
}

#[allow(dead_code)]
impl Plan {
    /// How many rows are changed, including those of the closure.
    pub fn count(&self) -> usize {
        let pairs = match &self.order {
            Some(OrderChange::Puts(pairs) | OrderChange::Takes(pairs)) => pairs.len(),
            None => 0,
        };
        self.changes.len() + pairs
    }

    /// How many records of an import are reported as refused, including those of pairs assigned before.
    pub fn told(&self) -> usize {
        self.report.already as usize + self.report.refused.len()
    }
}

#[derive(Default)]
pub struct Sets {
    pub members: Vec<Pair>,
    pub cardinalities: Vec<(String, u32)>,
}

#[derive(Default)]
pub struct Office {
    pub users: Vec<String>,
    pub locked: Vec<String>,
    pub roles: Vec<String>,
    pub objects: Vec<String>,
    pub permissions: Vec<Pair>,
    pub assignments: Vec<Pair>,
    pub grants: Vec<Triple>,
    pub edges: Vec<Pair>,
    pub closure: Vec<Pair>,
    pub sessions: Vec<Pair>,
    pub active: Vec<Pair>,
    pub statics: Sets,
    pub dynamics: Sets,
}

pub fn compare_triple(triple: &Triple, first: &str, second: &str, third: &str) -> Ordering {
    let by_first = triple.0.as_str().cmp(first);
    let by_second = by_first.then_with(|| triple.1.as_str().cmp(second));
    by_second.then_with(|| triple.2.as_str().cmp(third))
}

pub fn has_name(names: &[String], name: &str) -> bool {
    names.binary_search_by(|it| it.as_str().cmp(name)).is_ok()
}

pub fn has_triple(triples: &[Triple], first: &str, second: &str, third: &str) -> bool {
    triples.binary_search_by(|it| compare_triple(it, first, second, third)).is_ok()
}

/// The triples with these first two names.
pub fn with_pair<'a>(triples: &'a [Triple], first: &str, second: &str) -> &'a [Triple] {
    let below = |it: &Triple| (it.0.as_str(), it.1.as_str()) < (first, second);
    let rest = &triples[triples.partition_point(below)..];
    &rest[..rest.partition_point(|it| it.0 == first && it.1 == second)]
}

pub fn insert<T: Ord>(entries: &mut Vec<T>, entry: T) {
    if let Err(at) = entries.binary_search(&entry) {
        entries.insert(at, entry);
    }
}

fn remove<T: Ord>(entries: &mut Vec<T>, entry: &T) {
    if let Ok(at) = entries.binary_search(entry) {
        entries.remove(at);
    }
}

impl Office {
    pub fn geq(&self, a: &str, b: &str) -> bool {
        self.hierarchy().geq(a, b)
    }

    pub fn hierarchy(&self) -> Hierarchy<'_> {
        Hierarchy { edges: &self.edges, pairs: &self.closure }
    }

    pub fn sets(&self, kind: Separation) -> &Sets {
        match kind {
            Separation::Static => &self.statics,
            Separation::Dynamic => &self.dynamics,
        }
    }

    fn sets_mut(&mut self, kind: Separation) -> &mut Sets {
        match kind {
            Separation::Static => &mut self.statics,
            Separation::Dynamic => &mut self.dynamics,
        }
    }

    fn names_mut(&mut self, names: Names) -> &mut Vec<String> {
        match names {
            Names::Users => &mut self.users,
            Names::Locked => &mut self.locked,
            Names::Roles => &mut self.roles,
            Names::Objects => &mut self.objects,
        }
    }

    fn pairs_mut(&mut self, pairs: Pairs) -> &mut Vec<Pair> {
        match pairs {
            Pairs::Permissions => &mut self.permissions,
            Pairs::Assignments => &mut self.assignments,
            Pairs::Edges => &mut self.edges,
            Pairs::Sessions => &mut self.sessions,
            Pairs::Active => &mut self.active,
            Pairs::Members(kind) => &mut self.sets_mut(kind).members,
        }
    }

    fn put(&mut self, row: Row) {
        match row {
            Row::Name(names, name) => insert(self.names_mut(names), name),
            Row::Pair(pairs, a, b) => insert(self.pairs_mut(pairs), (a, b)),
            Row::Grant(a, b, c) => insert(&mut self.grants, (a, b, c)),
            Row::Cardinality(kind, set, n) => {
                insert(&mut self.sets_mut(kind).cardinalities, (set, n));
            }
        }
    }

    fn take(&mut self, row: Row) {
        match row {
            Row::Name(names, name) => remove(self.names_mut(names), &name),
            Row::Pair(pairs, a, b) => remove(self.pairs_mut(pairs), &(a, b)),
            Row::Grant(a, b, c) => remove(&mut self.grants, &(a, b, c)),
            Row::Cardinality(kind, set, n) => {
                remove(&mut self.sets_mut(kind).cardinalities, &(set, n));
            }
        }
    }

    /// Removes the roles that were activated in a session, if the first of the changes remove each of them, and returns
    /// how many they are. Otherwise it removes none.
    fn take_roles(&mut self, changes: &[Change]) -> usize {
        let Some(Change::Take(Row::Pair(Pairs::Active, session, _))) = changes.first() else {
            return 0;
        };
        let start = self.active.partition_point(|it| it.0 < *session);
        let rest = &self.active[start..];
        let roles = &rest[..rest.partition_point(|it| it.0 == *session)];
        let takes = |change: &Change, role: &Pair| {
            matches!(change, Change::Take(Row::Pair(Pairs::Active, a, b)) if *a == role.0 && *b == role.1)
        };
        let count = roles.len();
        if changes.len() < count || !roles.iter().zip(changes).all(|(role, change)| takes(change, role)) {
            return 0;
        }
        self.active.drain(start..start + count);
        count
    }

    /// Makes the changes of a plan. The roles that were activated in a session are removed together.
    pub fn commit(&mut self, plan: Plan) {
        let mut changes = plan.changes.into_iter();
        loop {
            let taken = self.take_roles(changes.as_slice());
            match changes.nth(taken) {
                Some(Change::Put(row)) => self.put(row),
                Some(Change::Take(row)) => self.take(row),
                None => break,
            }
        }
        match plan.order {
            Some(OrderChange::Puts(pairs)) if !pairs.is_empty() => {
                let closure = std::mem::take(&mut self.closure);
                self.closure = merge(closure, pairs);
            }
            Some(OrderChange::Takes(pairs)) if !pairs.is_empty() => {
                without(&mut self.closure, &pairs);
            }
            _ => {}
        }
    }
}
