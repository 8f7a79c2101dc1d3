//! An office of roles in this process, by the library librbac.
//!
//! ```no_run
//! let office = rbac_office::Office::new()?;
//! office.answer(br#"{"fn":"addUser","user":"ann"}"#)?;
//! if office.check("s1", "open", "safe")? {
//!     // ..
//! }
//! # Ok::<(), rbac_office::Error>(())
//! ```
//!
//! An `Office` answers the lines of docs/reference/api.md, and decides about access without a line. docs/howto/embed.md says when to use
//! it, and what is proved about it. An office may be used by several threads. `check`, `check_user` and `revision` run side by
//! side; each other call waits for those before it, and runs alone.

use std::fmt;
use std::sync::{PoisonError, RwLock, RwLockReadGuard, RwLockWriteGuard};

mod conflicts;
mod ffi;

pub use conflicts::{Conflict, ViolatedSet};

use ffi::{Handle, RowLengths};

/// Answers of this length need no second call.
const ROOM: usize = 4096;
/// So many rows are read at once, at most.
const ROWS: usize = 64;
/// So many bytes are enough for two names.
const LONGEST_PAIR: usize = 128;

/// Why a call has no result.
#[derive(Clone, Debug, PartialEq, Eq)]
pub enum Error {
    /// The office refused: the code and the name are those of docs/reference/api.md.
    Refused { code: u32, name: &'static str },
    /// An allocation failed. A line was done then, or nothing was, and the revision shows which.
    Memory,
    /// There is no such table.
    NoTable,
}

impl Error {
    /// The error for a code of the library that isn't `ffi::DONE`.
    fn of(code: u32) -> Error {
        match code {
            ffi::MEMORY => Error::Memory,
            ffi::ABSENT => Error::NoTable,
            _ => Error::Refused { code, name: name_of(code) },
        }
    }
}

/// The name of a refusal of a question without a line, or of a load.
fn name_of(code: u32) -> &'static str {
    match code {
        1 => "BadName",
        2 => "NoUser",
        4 => "NoRole",
        6 => "NoObject",
        16 => "Cycle",
        26 => "NoSession",
        28 => "NotOwner",
        29 => "NotAuthorized",
        32 => "TooMany",
        33 => "NoOperation",
        37 => "UserLocked",
        52 => "Damaged",
        _ => "Unknown",
    }
}

impl fmt::Display for Error {
    fn fmt(&self, to: &mut fmt::Formatter<'_>) -> fmt::Result {
        match self {
            Error::Refused { code, name } => write!(to, "the office refused: {code} {name}"),
            Error::Memory => write!(to, "an allocation failed"),
            Error::NoTable => write!(to, "there is no such table"),
        }
    }
}

impl std::error::Error for Error {}

/// A table of an office.
#[derive(Clone, Copy, Debug, PartialEq, Eq)]
#[repr(u32)]
pub enum Table {
    Users,
    Roles,
    Objects,
    /// Object, operation.
    Permissions,
    /// User, role.
    Assignments,
    /// Ascendant, descendant.
    Inheritances,
    /// Senior, junior.
    ClosurePairs,
    /// Static separation of duty set, role.
    StaticMembers,
    /// Dynamic separation of duty set, role.
    DynamicMembers,
    /// Session, user.
    Sessions,
    /// Session, role.
    ActivatedRoles,
    /// Object, operation, role.
    Grants,
    /// Static separation of duty set.
    StaticCardinalities,
    /// Dynamic separation of duty set.
    DynamicCardinalities,
    /// Locked user.
    Locks,
}

impl Table {
    /// All tables, in the order of their numbers.
    pub const ALL: [Table; 15] = [
        Table::Users,
        Table::Roles,
        Table::Objects,
        Table::Permissions,
        Table::Assignments,
        Table::Inheritances,
        Table::ClosurePairs,
        Table::StaticMembers,
        Table::DynamicMembers,
        Table::Sessions,
        Table::ActivatedRoles,
        Table::Grants,
        Table::StaticCardinalities,
        Table::DynamicCardinalities,
        Table::Locks,
    ];
}

/// A row of a table. Names that the table doesn't have are empty.
#[derive(Clone, Debug, PartialEq, Eq)]
pub struct Row {
    pub table: Table,
    pub names: [String; 3],
    /// The cardinality of a separation of duty set, otherwise 0.
    pub number: u32,
}

/// Why a decision is as it is. About a user it is the first that applies, from `Locked` on; about a session it is `NotGranted`,
/// `NotActive` or `Allowed`.
#[derive(Clone, Debug, PartialEq, Eq)]
pub enum Reason {
    /// There is access.
    Allowed {
        /// An assigned role, or one that was activated, which is the next role or a senior of it.
        held: String,
        /// The role that is granted the permission.
        granted: String,
    },
    /// The user is locked.
    Locked,
    /// The permission is granted to no role.
    NotGranted,
    /// The user is authorized for no role to which it is granted.
    NotAuthorized,
    /// No session may have such a role.
    Separated {
        /// The first of these roles.
        role: String,
        /// The first dynamic set that it violates alone.
        set: String,
    },
    /// The session has no role to which it is granted.
    NotActive,
}

impl Reason {
    /// The reason with this number and these names.
    fn of(number: u32, first: String, second: String) -> Reason {
        match number {
            1 => Reason::Allowed { held: first, granted: second },
            2 => Reason::Locked,
            3 => Reason::NotGranted,
            4 => Reason::NotAuthorized,
            5 => Reason::Separated { role: first, set: second },
            _ => Reason::NotActive,
        }
    }
}

/// An office in memory.
#[derive(Debug)]
pub struct Office {
    handle: RwLock<Handle>,
}

impl Office {
    /// A new and empty office.
    pub fn new() -> Result<Office, Error> {
        let mut handle = Handle::none();
        // SAFETY: the handle has no office yet.
        match unsafe { ffi::rbac_open(&mut handle) } {
            ffi::DONE => Ok(Office { handle: RwLock::new(handle) }),
            code => Err(Error::of(code)),
        }
    }

    /// The office that has exactly these rows, in any order. Its revision counts on from the one that is given.
    pub fn load(rows: &[Row], revision: u64) -> Result<Office, Error> {
        let office = Office::new()?;
        {
            let mut handle = office.lock();
            for row in rows {
                let [first, second, third] = &row.names;
                // SAFETY: the pointers and lengths are those of texts, and the lock is held.
                let code = unsafe {
                    ffi::rbac_add_row(
                        &mut *handle,
                        row.table as u32,
                        first.as_ptr(),
                        first.len(),
                        second.as_ptr(),
                        second.len(),
                        third.as_ptr(),
                        third.len(),
                        row.number,
                    )
                };
                if code != ffi::DONE {
                    return Err(Error::of(code));
                }
            }
            // SAFETY: the lock is held.
            let code = unsafe { ffi::rbac_load(&mut *handle, revision) };
            if code != ffi::DONE {
                return Err(Error::of(code));
            }
        }
        Ok(office)
    }

    /// The handle, while no other thread uses it. No call of the library panics, so it is whole also if a thread did.
    fn lock(&self) -> RwLockWriteGuard<'_, Handle> {
        self.handle.write().unwrap_or_else(PoisonError::into_inner)
    }

    /// The handle, while no other thread changes the office.
    fn read(&self) -> RwLockReadGuard<'_, Handle> {
        self.handle.read().unwrap_or_else(PoisonError::into_inner)
    }

    /// The answer to a line of docs/reference/api.md, as `rbac replay` writes it, both without a line feed.
    pub fn answer(&self, line: &[u8]) -> Result<Vec<u8>, Error> {
        let mut room = [0; ROOM];
        let mut length = 0;
        let mut handle = self.lock();
        // SAFETY: the pointers and lengths are those of slices, and the lock is held.
        let code = unsafe {
            ffi::rbac_answer(&mut *handle, line.as_ptr(), line.len(), room.as_mut_ptr(), room.len(), &mut length)
        };
        match code {
            ffi::DONE => Ok(room[..length].to_vec()),
            ffi::SHORT => kept_answer(&mut handle, length),
            _ => Err(Error::of(code)),
        }
    }

    /// Whether the session may do the operation on the object.
    ///
    /// With an error the access has to be denied.
    pub fn check(&self, session: &str, operation: &str, object: &str) -> Result<bool, Error> {
        self.decide(ffi::rbac_check, session, operation, object)
    }

    /// Whether the user could do the operation on the object in some session: whether the user may create a session for which
    /// `check` returns true, as long as there may be one more.
    ///
    /// With an error the access has to be denied.
    pub fn check_user(&self, user: &str, operation: &str, object: &str) -> Result<bool, Error> {
        self.decide(ffi::rbac_check_user, user, operation, object)
    }

    /// What the library decides about the holder, which is a session or a user.
    fn decide(&self, decision: ffi::Decision, holder: &str, operation: &str, object: &str) -> Result<bool, Error> {
        let handle = self.read();
        // SAFETY: the pointers and lengths are those of texts, and the lock is held for reading.
        let decided = unsafe {
            decision(
                &*handle,
                holder.as_ptr(),
                holder.len(),
                operation.as_ptr(),
                operation.len(),
                object.as_ptr(),
                object.len(),
            )
        };
        match decided {
            1 => Ok(true),
            0 => Ok(false),
            refusal => Err(Error::of(refusal.unsigned_abs())),
        }
    }

    /// Why `check` decides as it does: `Allowed` exactly if it returns true.
    pub fn explain(&self, session: &str, operation: &str, object: &str) -> Result<Reason, Error> {
        self.explain_holder(ffi::rbac_explain_session, session, operation, object)
    }

    /// Why `check_user` decides as it does: `Allowed` exactly if it returns true.
    pub fn explain_user(&self, user: &str, operation: &str, object: &str) -> Result<Reason, Error> {
        self.explain_holder(ffi::rbac_explain_user, user, operation, object)
    }

    /// The reason of the decision about the holder, which is a session or a user.
    fn explain_holder(&self, explanation: ffi::Explanation, holder: &str, operation: &str, object: &str) -> Result<Reason, Error> {
        let mut names = [0; LONGEST_PAIR];
        let mut reason = RowLengths::default();
        // SAFETY: the pointers and lengths are those of texts and of an array, and the lock is held.
        let code = unsafe {
            explanation(
                &mut *self.lock(),
                holder.as_ptr(),
                holder.len(),
                operation.as_ptr(),
                operation.len(),
                object.as_ptr(),
                object.len(),
                names.as_mut_ptr(),
                names.len(),
                &mut reason,
            )
        };
        if code != ffi::DONE {
            return Err(Error::of(code));
        }
        let (first, second) = two_names(&names, &reason);
        Ok(Reason::of(reason.number, first, second))
    }

    /// How many commands the office has accepted. A decision holds as long as this stays the same.
    pub fn revision(&self) -> Result<u64, Error> {
        let mut revision = 0;
        // SAFETY: the lock is held for reading.
        match unsafe { ffi::rbac_revision(&*self.read(), &mut revision) } {
            ffi::DONE => Ok(revision),
            code => Err(Error::of(code)),
        }
    }

    /// The rows of all tables, which `load` takes.
    pub fn rows(&self) -> Result<Vec<Row>, Error> {
        let mut rows = Vec::new();
        let mut handle = self.lock();
        for table in Table::ALL {
            let mut index = 0;
            loop {
                let count = append_rows(&mut handle, table, index, &mut rows)?;
                if count == 0 {
                    break;
                }
                index += count;
            }
        }
        Ok(rows)
    }

    /// The rows of the table with this first name, in byte order.
    pub fn rows_with(&self, table: Table, first: &str) -> Result<Vec<Row>, Error> {
        let mut rows = Vec::new();
        let (mut start, mut end) = (0, 0);
        let mut handle = self.lock();
        // SAFETY: the pointer and the length are those of a text, and the lock is held.
        let code =
            unsafe { ffi::rbac_range(&mut *handle, table as u32, first.as_ptr(), first.len(), &mut start, &mut end) };
        if code != ffi::DONE {
            return Err(Error::of(code));
        }
        while rows.len() < end - start {
            append_rows(&mut handle, table, start + rows.len(), &mut rows)?;
        }
        rows.truncate(end - start);
        Ok(rows)
    }
}

/// The first two names of a row, which stand one directly after the other.
fn two_names(names: &[u8], row: &RowLengths) -> (String, String) {
    let (first, second) = names[..row.first + row.second].split_at(row.first);
    (String::from_utf8_lossy(first).into_owned(), String::from_utf8_lossy(second).into_owned())
}

/// The answer to the last line, which has this length.
fn kept_answer(handle: &mut Handle, mut length: usize) -> Result<Vec<u8>, Error> {
    let mut answer = vec![0; length];
    // SAFETY: the pointer and the length are those of a vector, and the caller holds the lock.
    match unsafe { ffi::rbac_kept_answer(handle, answer.as_mut_ptr(), answer.len(), &mut length) } {
        ffi::DONE => Ok(answer),
        code => Err(Error::of(code)),
    }
}

/// Appends some rows of the table from this place on, and returns how many: 0 if there is none.
fn append_rows(handle: &mut Handle, table: Table, index: usize, rows: &mut Vec<Row>) -> Result<usize, Error> {
    let mut names = [0; ROOM];
    let mut lengths = [RowLengths::default(); ROWS];
    let mut count = 0;
    // SAFETY: the pointers and lengths are those of arrays, and the caller holds the lock.
    let code = unsafe {
        ffi::rbac_rows(
            handle,
            table as u32,
            index,
            names.as_mut_ptr(),
            names.len(),
            lengths.as_mut_ptr(),
            lengths.len(),
            &mut count,
        )
    };
    if code != ffi::DONE {
        return Err(Error::of(code));
    }
    let mut left = &names[..];
    let mut name = |length| {
        let (name, others) = left.split_at(length);
        left = others;
        String::from_utf8_lossy(name).into_owned()
    };
    for row in &lengths[..count] {
        let names = [name(row.first), name(row.second), name(row.third)];
        rows.push(Row { table, names, number: row.number });
    }
    Ok(count)
}

impl Drop for Office {
    fn drop(&mut self) {
        // SAFETY: nothing uses the office afterwards.
        unsafe { ffi::rbac_close(self.handle.get_mut().unwrap_or_else(PoisonError::into_inner)) }
    }
}

#[cfg(test)]
mod tests {
    use super::{Conflict, Error, Office, Reason, Row, Table, ViolatedSet};
    use std::thread;

    fn row(table: Table, first: &str, second: &str) -> Row {
        Row { table, names: [first.to_string(), second.to_string(), String::new()], number: 0 }
    }

    fn refused(code: u32, name: &'static str) -> Error {
        Error::Refused { code, name }
    }

    #[test]
    fn decisions_are_refused() {
        let office = Office::new().unwrap();
        assert_eq!(office.check("s", "p", "o"), Err(refused(26, "NoSession")));
        assert_eq!(office.check("", "p", "o"), Err(refused(1, "BadName")));
        assert_eq!(office.check("s", "\n", "o"), Err(refused(1, "BadName")));
        assert_eq!(office.check_user("u", "p", "o"), Err(refused(2, "NoUser")));
        assert_eq!(office.check_user("", "p", "o"), Err(refused(1, "BadName")));
    }

    #[test]
    fn long_answers_are_whole() {
        let office = Office::new().unwrap();
        for number in 0..1000 {
            let line = format!(r#"{{"fn":"addUser","user":"u{number}"}}"#);
            assert_eq!(office.answer(line.as_bytes()).unwrap(), br#"{"ok":true}"#);
        }
        office.answer(br#"{"fn":"addRole","role":"r"}"#).unwrap();
        let records: String = (0..1000).map(|number| format!("u{number},r\\r\\n")).collect();
        let line = format!(r#"{{"fn":"importAssignments","csv":"user,role\r\n{records}"}}"#);
        office.answer(line.as_bytes()).unwrap();
        let answer = office.answer(br#"{"fn":"assignedUsers","role":"r"}"#).unwrap();
        assert!(answer.len() > super::ROOM && answer.ends_with(br#""u999"]}"#));
        assert_eq!(office.revision(), Ok(1002));
    }

    #[test]
    fn rows_are_loaded() {
        let rows = vec![row(Table::Users, "ann", ""), row(Table::Roles, "clerk", ""), row(Table::Assignments, "ann", "clerk")];
        let office = Office::load(&rows, 7).unwrap();
        assert_eq!(office.rows().unwrap(), rows);
        assert_eq!(office.revision(), Ok(7));
        assert_eq!(Office::load(&rows[2..], 0).unwrap_err(), refused(52, "Damaged"));
        assert_eq!(Office::load(&[row(Table::Users, "", "")], 0).unwrap_err(), refused(1, "BadName"));
    }

    fn shop() -> Office {
        let office = Office::new().unwrap();
        for line in [
            r#"{"fn":"addUser","user":"ann"}"#,
            r#"{"fn":"addUser","user":"bob"}"#,
            r#"{"fn":"addRole","role":"buyer"}"#,
            r#"{"fn":"addRole","role":"payer"}"#,
            r#"{"fn":"addPermObj","object":"safe"}"#,
            r#"{"fn":"addPermission","object":"safe","operation":"open"}"#,
            r#"{"fn":"grantPermission","object":"safe","operation":"open","role":"buyer"}"#,
            r#"{"fn":"createSsdSet","set":"s","roles":["buyer","payer"],"cardinality":2}"#,
            r#"{"fn":"createDsdSet","set":"d","roles":["buyer","payer"],"cardinality":2}"#,
            r#"{"fn":"assignUser","user":"ann","role":"buyer"}"#,
            r#"{"fn":"createSession","user":"ann","session":"t","roles":["buyer"]}"#,
            r#"{"fn":"createSession","user":"ann","session":"u","roles":[]}"#,
        ] {
            assert_eq!(office.answer(line.as_bytes()).unwrap(), br#"{"ok":true}"#, "{line}");
        }
        office
    }

    #[test]
    fn decisions_are_explained() {
        let office = shop();
        let allowed = Reason::Allowed { held: "buyer".to_string(), granted: "buyer".to_string() };
        assert_eq!(office.explain_user("ann", "open", "safe"), Ok(allowed.clone()));
        assert_eq!(office.explain_user("bob", "open", "safe"), Ok(Reason::NotAuthorized));
        assert_eq!(office.explain_user("eve", "open", "safe"), Err(refused(2, "NoUser")));
        assert_eq!(office.explain("t", "open", "safe"), Ok(allowed));
        assert_eq!(office.explain("u", "open", "safe"), Ok(Reason::NotActive));
        assert_eq!(office.explain("v", "open", "safe"), Err(refused(26, "NoSession")));
    }

    #[test]
    fn conflicts_are_named() {
        let office = shop();
        let conflict = |set: &str, holder: &str| Conflict { set: set.to_string(), holder: holder.to_string() };
        assert_eq!(office.assignment_conflicts("ann", "payer"), Ok(vec!["s".to_string()]));
        assert_eq!(office.assignment_conflicts("bob", "payer"), Ok(vec![]));
        assert_eq!(office.activation_conflicts("ann", "t", "payer"), Err(refused(29, "NotAuthorized")));
        assert_eq!(office.activation_conflicts("ann", "t", "buyer"), Ok(vec![]));
        assert_eq!(office.static_conflicts("buyer", "payer"), Ok(vec![conflict("s", "ann")]));
        assert_eq!(office.dynamic_conflicts("buyer", "payer"), Ok(vec![conflict("d", "t")]));
        assert_eq!(office.static_conflicts("payer", "buyer"), Ok(vec![]));
        assert_eq!(office.static_conflicts("payer", "payer"), Err(refused(16, "Cycle")));
    }

    #[test]
    fn conflicts_of_a_session_are_named() {
        let office = shop();
        assert_eq!(office.creation_conflicts("ann", &["buyer", "buyer"]), Ok(vec![]));
        assert_eq!(office.creation_conflicts("ann", &[]), Ok(vec![]));
        assert_eq!(office.creation_conflicts("eve", &["none"]), Err(refused(2, "NoUser")));
        assert_eq!(office.creation_conflicts("ann", &["buyer", "none"]), Err(refused(4, "NoRole")));
        assert_eq!(office.creation_conflicts("bob", &["buyer"]), Err(refused(29, "NotAuthorized")));
        assert_eq!(office.creation_conflicts("bob", &[""]), Err(refused(1, "BadName")));
        for line in [
            r#"{"fn":"deleteSsdSet","set":"s"}"#,
            r#"{"fn":"assignUser","user":"ann","role":"payer"}"#,
            r#"{"fn":"lockUserAccount","user":"bob"}"#,
        ] {
            assert_eq!(office.answer(line.as_bytes()).unwrap(), br#"{"ok":true}"#, "{line}");
        }
        let violated = ViolatedSet { set: "d".to_string(), roles: vec!["buyer".to_string(), "payer".to_string()] };
        assert_eq!(office.creation_conflicts("ann", &["payer", "buyer"]), Ok(vec![violated]));
        assert_eq!(office.creation_conflicts("bob", &[]), Err(refused(37, "UserLocked")));
    }

    #[test]
    fn many_conflicts_are_named() {
        let office = Office::new().unwrap();
        let done = |line: &str| assert_eq!(office.answer(line.as_bytes()).unwrap(), br#"{"ok":true}"#, "{line}");
        let name = |letter: char, number: usize| format!("{letter}{number:02}{}", "x".repeat(61));
        done(r#"{"fn":"addUser","user":"ann"}"#);
        let roles: Vec<String> = (0..32).map(|number| name('r', number)).collect();
        for role in &roles {
            done(&format!(r#"{{"fn":"addRole","role":"{role}"}}"#));
            done(&format!(r#"{{"fn":"assignUser","user":"ann","role":"{role}"}}"#));
        }
        for number in 0..64 {
            let set = name('s', number);
            done(&format!(r#"{{"fn":"createDsdSet","set":"{set}","roles":{roles:?},"cardinality":2}}"#));
        }
        let wanted: Vec<ViolatedSet> =
            (0..64).map(|number| ViolatedSet { set: name('s', number), roles: roles.clone() }).collect();
        let asked: Vec<&str> = roles.iter().map(String::as_str).collect();
        assert_eq!(office.creation_conflicts("ann", &asked), Ok(wanted));
    }

    #[test]
    fn rows_are_found_by_their_first_name() {
        let mut rows = vec![row(Table::Users, "ann", ""), row(Table::Users, "bob", ""), row(Table::Users, "cat", "")];
        rows.extend((0..200).map(|number| row(Table::Roles, &format!("r{number:03}"), "")));
        rows.push(row(Table::Assignments, "ann", "r007"));
        rows.extend((0..200).map(|number| row(Table::Assignments, "bob", &format!("r{number:03}"))));
        rows.push(row(Table::Assignments, "cat", "r007"));
        let office = Office::load(&rows, 0).unwrap();
        assert_eq!(office.rows_with(Table::Assignments, "bob").unwrap(), rows[204..404]);
        assert_eq!(office.rows_with(Table::Assignments, "ann").unwrap(), rows[203..204]);
        assert_eq!(office.rows_with(Table::Assignments, "bo").unwrap(), []);
        assert_eq!(office.rows_with(Table::Users, "").unwrap(), []);
    }

    /// A thread decides while another one has the office for reading. It would wait forever for a lock that only one may have.
    #[test]
    fn decisions_run_side_by_side() {
        let office = Office::new().unwrap();
        let _other = office.read();
        thread::scope(|scope| {
            scope.spawn(|| {
                assert_eq!(office.check("s", "p", "o"), Err(refused(26, "NoSession")));
                assert_eq!(office.check_user("u", "p", "o"), Err(refused(2, "NoUser")));
                assert_eq!(office.revision(), Ok(0));
            });
        });
    }

    #[test]
    fn threads_share_an_office() {
        let office = Office::new().unwrap();
        thread::scope(|scope| {
            for number in 0..4 {
                let office = &office;
                scope.spawn(move || {
                    for at in 0..200 {
                        let line = format!(r#"{{"fn":"addUser","user":"t{number}-{at}"}}"#);
                        office.answer(line.as_bytes()).unwrap();
                    }
                });
            }
        });
        assert_eq!(office.revision(), Ok(800));
    }
}
