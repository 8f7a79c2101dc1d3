//! The office of stored rows, if they are those of a good one of version 2. Otherwise the first check that
//! fails is returned, in the order of the proved program.

use super::office::table::{Table, second_numbers};
use super::office::{Office, Pair, Separation};
use super::office::{has_name, has_pair, has_triple, insert, limit, with_first};
use super::rows::Stored;

/// Why rows make no office.
#[derive(Debug, PartialEq)]
pub enum Unfit {
    /// There are more of this kind than its limit.
    TooMany(&'static str),
    /// The check of this number fails.
    Damaged(u8),
}

/// Refuses if one of the tests holds, by the first.
macro_rules! refuse {
    ($($test:expr => $unfit:expr),* $(,)?) => {{
        $(if $test { return Err($unfit); })*
        Ok(())
    }};
}

fn are_firsts_in(names: &[String], pairs: &[Pair]) -> bool {
    pairs.iter().all(|pair| has_name(names, &pair.0))
}

fn are_seconds_in(names: &[String], pairs: &[Pair]) -> bool {
    pairs.iter().all(|pair| has_name(names, &pair.1))
}

fn has_more_with_first(pairs: &[Pair], limit: usize) -> bool {
    pairs.iter().any(|pair| with_first(pairs, &pair.0).len() > limit)
}

/// Whether the edges have a cycle: those that lead to no further edge are removed as long as there are any.
fn has_cycle(edges: &[Pair]) -> bool {
    let mut left = edges.to_vec();
    loop {
        let leads_on = |edge: &&Pair| !with_first(&left, &edge.1).is_empty();
        let kept: Vec<Pair> = left.iter().filter(leads_on).cloned().collect();
        if kept.len() == left.len() {
            return !left.is_empty();
        }
        left = kept;
    }
}

impl Office {
    /// The office of these rows.
    pub fn of_rows(rows: Vec<Stored>) -> Result<Office, Unfit> {
        let mut office = Office::default();
        for row in rows {
            office.add(row)?;
        }
        office.refuse_limits()?;
        office.refuse_early()?;
        office.refuse_late()?;
        Ok(office)
    }

    /// Inserts a row of a known kind, whose key no row has.
    fn add(&mut self, row: Stored) -> Result<(), Unfit> {
        if self.has_key(&row).unwrap_or(true) {
            return Err(Unfit::Damaged(1));
        }
        self.store(row);
        Ok(())
    }

    /// Whether a row has this key, and `None` if there are no rows of its kind.
    fn has_key(&self, row: &Stored) -> Option<bool> {
        Some(match row {
            Stored::Name(1, name) => has_name(&self.users, name),
            Stored::Name(2, name) => has_name(&self.roles, name),
            Stored::Name(3, name) => has_name(&self.objects, name),
            Stored::Pair(1, a, b) => has_pair(&self.permissions, a, b),
            Stored::Pair(2, a, b) => has_pair(&self.assignments, a, b),
            Stored::Pair(3, a, b) => has_pair(&self.edges, a, b),
            Stored::Pair(4, a, b) => has_pair(&self.closure, a, b),
            Stored::Pair(5, a, b) => has_pair(&self.statics.members, a, b),
            Stored::Pair(6, a, b) => has_pair(&self.dynamics.members, a, b),
            Stored::Pair(7, a, b) => has_pair(&self.sessions, a, b),
            Stored::Pair(8, a, b) => has_pair(&self.active, a, b),
            Stored::Grant(a, b, c) => has_triple(&self.grants, a, b, c),
            Stored::Cardinality(1, set, _) => self.number(Separation::Static, set).is_some(),
            Stored::Cardinality(2, set, _) => self.number(Separation::Dynamic, set).is_some(),
            Stored::Lock(name) => has_name(&self.locked, name),
            _ => return None,
        })
    }

    fn store(&mut self, row: Stored) {
        match row {
            Stored::Name(1, name) => insert(&mut self.users, name),
            Stored::Name(2, name) => insert(&mut self.roles, name),
            Stored::Name(3, name) => insert(&mut self.objects, name),
            Stored::Pair(1, a, b) => insert(&mut self.permissions, (a, b)),
            Stored::Pair(2, a, b) => insert(&mut self.assignments, (a, b)),
            Stored::Pair(3, a, b) => insert(&mut self.edges, (a, b)),
            Stored::Pair(4, a, b) => insert(&mut self.closure, (a, b)),
            Stored::Pair(5, a, b) => insert(&mut self.statics.members, (a, b)),
            Stored::Pair(6, a, b) => insert(&mut self.dynamics.members, (a, b)),
            Stored::Pair(7, a, b) => insert(&mut self.sessions, (a, b)),
            Stored::Pair(8, a, b) => insert(&mut self.active, (a, b)),
            Stored::Grant(a, b, c) => insert(&mut self.grants, (a, b, c)),
            Stored::Cardinality(1, set, n) => insert(&mut self.statics.cardinalities, (set, n)),
            Stored::Cardinality(2, set, n) => insert(&mut self.dynamics.cardinalities, (set, n)),
            Stored::Lock(name) => insert(&mut self.locked, name),
            _ => {}
        }
    }

    /// The limits of version 2.
    fn refuse_limits(&self) -> Result<(), Unfit> {
        let (statics, dynamics) = (&self.statics, &self.dynamics);
        refuse! {
            self.users.len() > limit::USERS => Unfit::TooMany("user"),
            self.roles.len() > limit::ROLES => Unfit::TooMany("role"),
            self.objects.len() > limit::OBJECTS => Unfit::TooMany("object"),
            self.permissions.len() > limit::PERMISSIONS => Unfit::TooMany("permission"),
            self.grants.len() > limit::GRANTS => Unfit::TooMany("grant"),
            self.assignments.len() > limit::ASSIGNMENTS => Unfit::TooMany("assignment"),
            self.edges.len() > limit::EDGES => Unfit::TooMany("edge"),
            statics.cardinalities.len() > limit::SETS => Unfit::TooMany("ssdSet"),
            dynamics.cardinalities.len() > limit::SETS => Unfit::TooMany("dsdSet"),
            has_more_with_first(&statics.members, limit::MEMBERS)
                || has_more_with_first(&dynamics.members, limit::MEMBERS) => Unfit::TooMany("member"),
            self.sessions.len() > limit::SESSIONS => Unfit::TooMany("session"),
            has_more_with_first(&self.active, limit::ACTIVE_ROLES) => Unfit::TooMany("activeRole"),
        }
    }

    /// The checks before those of the hierarchy: that everything the rows refer to exists, and that a session has
    /// one user.
    fn refuse_early(&self) -> Result<(), Unfit> {
        let has_one_user = |session: &Pair| with_first(&self.sessions, &session.0).len() <= 1;
        refuse! {
            !self.is_core_complete() || !self.is_hierarchy_complete() => Unfit::Damaged(3),
            !self.are_sets_complete(Separation::Static) => Unfit::Damaged(3),
            !self.are_sets_complete(Separation::Dynamic) => Unfit::Damaged(3),
            !self.are_sessions_complete() => Unfit::Damaged(3),
            !self.sessions.iter().all(has_one_user) => Unfit::Damaged(4),
        }
    }

    fn is_core_complete(&self) -> bool {
        are_firsts_in(&self.objects, &self.permissions)
            && self.grants.iter().all(|it| has_pair(&self.permissions, &it.0, &it.1))
            && self.grants.iter().all(|it| has_name(&self.roles, &it.2))
            && are_firsts_in(&self.users, &self.assignments)
            && are_seconds_in(&self.roles, &self.assignments)
            && self.locked.iter().all(|user| has_name(&self.users, user))
    }

    fn is_hierarchy_complete(&self) -> bool {
        are_firsts_in(&self.roles, &self.edges)
            && are_seconds_in(&self.roles, &self.edges)
            && are_firsts_in(&self.roles, &self.closure)
            && are_seconds_in(&self.roles, &self.closure)
    }

    fn are_sets_complete(&self, kind: Separation) -> bool {
        let members = &self.sets(kind).members;
        members.iter().all(|member| self.number(kind, &member.0).is_some())
            && are_seconds_in(&self.roles, members)
    }

    fn are_sessions_complete(&self) -> bool {
        let has_session = |pair: &Pair| !with_first(&self.sessions, &pair.0).is_empty();
        are_seconds_in(&self.users, &self.sessions)
            && self.active.iter().all(has_session)
            && are_seconds_in(&self.roles, &self.active)
    }

    /// The checks of the hierarchy, and then of what depends on it.
    fn refuse_late(&self) -> Result<(), Unfit> {
        if !self.hierarchy().is_closed() {
            let check = if has_cycle(&self.edges) { 5 } else { 6 };
            return Err(Unfit::Damaged(check));
        }
        let (statics, dynamics) = (Separation::Static, Separation::Dynamic);
        refuse! {
            !self.have_cardinalities(statics) || !self.have_cardinalities(dynamics) => Unfit::Damaged(7),
            !self.sessions.iter().all(|it| self.is_authorized_in(&it.0, &it.1)) => Unfit::Damaged(8),
        }?;
        let table = Table::new(&self.roles, &self.closure);
        refuse! {
            !self.are_kept(statics, &table) => Unfit::Damaged(9),
            !self.are_kept(dynamics, &table) => Unfit::Damaged(10),
            self.sessions.iter().any(|it| has_name(&self.locked, &it.1)) => Unfit::Damaged(11),
        }
    }

    /// Whether the cardinality of each set is from two to the number of its members.
    fn have_cardinalities(&self, kind: Separation) -> bool {
        let sets = self.sets(kind);
        sets.cardinalities.iter().all(|(set, cardinality)| {
            let members = with_first(&sets.members, set).len();
            *cardinality >= 2 && *cardinality as usize <= members
        })
    }

    /// Whether the user is authorized for each role that was activated in the session.
    fn is_authorized_in(&self, session: &str, user: &str) -> bool {
        let held = with_first(&self.assignments, user);
        let is_held = |role: &str| held.iter().any(|it| self.geq(&it.1, role));
        with_first(&self.active, session).iter().all(|it| is_held(&it.1))
    }

    /// Whether each static set is kept by each user, or each dynamic set by each session.
    fn are_kept(&self, kind: Separation, table: &Table) -> bool {
        let numbers = |run: &[Pair]| second_numbers(&self.roles, run);
        let runs: Vec<Vec<usize>> = match kind {
            Separation::Static => {
                self.users.iter().map(|user| numbers(with_first(&self.assignments, user))).collect()
            }
            Separation::Dynamic => {
                self.sessions.iter().map(|it| numbers(with_first(&self.active, &it.0))).collect()
            }
        };
        let sets = self.sets(kind);
        sets.cardinalities.iter().all(|(set, cardinality)| {
            let members = numbers(with_first(&sets.members, set));
            table.keep_below(&runs, &members, *cardinality)
        })
    }
}
