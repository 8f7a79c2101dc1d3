//! The separation of duty sets that a command would violate.

use crate::ffi::{self, Handle, RowLengths};
use crate::{Error, Office, LONGEST_PAIR, ROWS};

/// A separation of duty set that an inheritance would violate, with the first user who would be authorized for too many of its
/// roles, or with the first session that would have too many.
#[derive(Clone, Debug, PartialEq, Eq)]
pub struct Conflict {
    pub set: String,
    pub holder: String,
}

/// A dynamic separation of duty set that a new session would violate, with those of its roles that the session would have, in
/// byte order.
#[derive(Clone, Debug, PartialEq, Eq)]
pub struct ViolatedSet {
    pub set: String,
    pub roles: Vec<String>,
}

/// What one call of the library returns: so many conflicts from a place on, and how many there are in all.
struct Found {
    names: [u8; LONGEST_PAIR * ROWS],
    rows: [RowLengths; ROWS],
    count: usize,
    total: usize,
}

impl Office {
    /// The static separation of duty sets that would be violated if the user were assigned to the role, in byte order. If
    /// assignUser is refused with StaticSeparation, it names the first.
    pub fn assignment_conflicts(&self, user: &str, role: &str) -> Result<Vec<String>, Error> {
        let pairs = self.violations(|handle, index, found| {
            // SAFETY: the pointers and lengths are those of texts and of arrays, and the lock is held.
            unsafe {
                ffi::rbac_assignment_conflicts(
                    handle,
                    user.as_ptr(),
                    user.len(),
                    role.as_ptr(),
                    role.len(),
                    index,
                    found.names.as_mut_ptr(),
                    found.names.len(),
                    found.rows.as_mut_ptr(),
                    found.rows.len(),
                    &mut found.count,
                    &mut found.total,
                )
            }
        })?;
        Ok(pairs.into_iter().map(|(set, _)| set).collect())
    }

    /// The dynamic separation of duty sets that would be violated if the role were activated in the user's session, in byte
    /// order. If addActiveRole is refused with DynamicSeparation, it names the first.
    pub fn activation_conflicts(&self, user: &str, session: &str, role: &str) -> Result<Vec<String>, Error> {
        let pairs = self.violations(|handle, index, found| {
            // SAFETY: the pointers and lengths are those of texts and of arrays, and the lock is held.
            unsafe {
                ffi::rbac_activation_conflicts(
                    handle,
                    user.as_ptr(),
                    user.len(),
                    session.as_ptr(),
                    session.len(),
                    role.as_ptr(),
                    role.len(),
                    index,
                    found.names.as_mut_ptr(),
                    found.names.len(),
                    found.rows.as_mut_ptr(),
                    found.rows.len(),
                    &mut found.count,
                    &mut found.total,
                )
            }
        })?;
        Ok(pairs.into_iter().map(|(set, _)| set).collect())
    }

    /// The static separation of duty sets that would be violated if `asc` became an immediate ascendant of `desc`, in byte
    /// order, each with the first user who would violate it. If addInheritance is refused with StaticSeparation, it names the
    /// first.
    pub fn static_conflicts(&self, asc: &str, desc: &str) -> Result<Vec<Conflict>, Error> {
        self.inheritance_conflicts(false, asc, desc)
    }

    /// The dynamic sets that would be violated, each with the first session that would violate it. If addInheritance is refused
    /// with DynamicSeparation, it names the first.
    pub fn dynamic_conflicts(&self, asc: &str, desc: &str) -> Result<Vec<Conflict>, Error> {
        self.inheritance_conflicts(true, asc, desc)
    }

    fn inheritance_conflicts(&self, of_sessions: bool, asc: &str, desc: &str) -> Result<Vec<Conflict>, Error> {
        let pairs = self.violations(|handle, index, found| {
            // SAFETY: the pointers and lengths are those of texts and of arrays, and the lock is held.
            unsafe {
                ffi::rbac_inheritance_conflicts(
                    handle,
                    of_sessions.into(),
                    asc.as_ptr(),
                    asc.len(),
                    desc.as_ptr(),
                    desc.len(),
                    index,
                    found.names.as_mut_ptr(),
                    found.names.len(),
                    found.rows.as_mut_ptr(),
                    found.rows.len(),
                    &mut found.count,
                    &mut found.total,
                )
            }
        })?;
        Ok(pairs.into_iter().map(|(set, holder)| Conflict { set, holder }).collect())
    }

    /// The dynamic separation of duty sets that a new session of the user with these roles would violate, in byte order. If
    /// createSession is refused with DynamicSeparation, it names the first.
    pub fn creation_conflicts(&self, user: &str, roles: &[&str]) -> Result<Vec<ViolatedSet>, Error> {
        let names = roles.concat();
        let lengths: Vec<usize> = roles.iter().map(|role| role.len()).collect();
        let pairs = self.violations(|handle, index, found| {
            // SAFETY: the pointers and lengths are those of texts, of a vector and of arrays, and the lock is held.
            unsafe {
                ffi::rbac_creation_conflicts(
                    handle,
                    user.as_ptr(),
                    user.len(),
                    names.as_ptr(),
                    lengths.as_ptr(),
                    lengths.len(),
                    index,
                    found.names.as_mut_ptr(),
                    found.names.len(),
                    found.rows.as_mut_ptr(),
                    found.rows.len(),
                    &mut found.count,
                    &mut found.total,
                )
            }
        })?;
        let mut sets: Vec<ViolatedSet> = Vec::new();
        for (set, role) in pairs {
            match sets.last_mut() {
                Some(last) if last.set == set => last.roles.push(role),
                _ => sets.push(ViolatedSet { set, roles: vec![role] }),
            }
        }
        Ok(sets)
    }

    /// The pairs of names that a function of the library returns from a place on, until it has returned all.
    fn violations(&self, from: impl Fn(&mut Handle, usize, &mut Found) -> u32) -> Result<Vec<(String, String)>, Error> {
        let mut pairs = Vec::new();
        let mut found =
            Found { names: [0; LONGEST_PAIR * ROWS], rows: [RowLengths::default(); ROWS], count: 0, total: 1 };
        let mut handle = self.lock();
        while pairs.len() < found.total {
            let code = from(&mut handle, pairs.len(), &mut found);
            if code != ffi::DONE {
                return Err(Error::of(code));
            }
            let mut left = &found.names[..];
            for row in &found.rows[..found.count] {
                pairs.push(crate::two_names(left, row));
                left = &left[row.first + row.second..];
            }
        }
        Ok(pairs)
    }
}
