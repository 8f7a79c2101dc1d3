//! The functions of rbac.h.

use std::os::raw::c_int;
use std::ptr;

pub const DONE: u32 = 0;
pub const MEMORY: u32 = 40;
pub const SHORT: u32 = 60;
pub const ABSENT: u32 = 61;

/// The handle of an office.
#[derive(Debug)]
#[repr(C)]
pub struct Handle {
    at: *mut u8,
}

// SAFETY: a handle may go from thread to thread, as crates/rbac_c proves.
unsafe impl Send for Handle {}

// SAFETY: the functions that take a handle behind a `*const` only read it and its office.
unsafe impl Sync for Handle {}

impl Handle {
    /// The handle of no office.
    pub fn none() -> Handle {
        Handle { at: ptr::null_mut() }
    }
}

/// The lengths of the names of a row, and its number.
#[derive(Clone, Copy, Default)]
#[repr(C)]
pub struct RowLengths {
    pub first: usize,
    pub second: usize,
    pub third: usize,
    pub number: u32,
}

/// A decision about a holder, which is a session or a user.
pub type Decision = unsafe extern "C" fn(*const Handle, *const u8, usize, *const u8, usize, *const u8, usize) -> i32;

/// A reason about a holder, which is a session or a user.
pub type Explanation = unsafe extern "C" fn(
    *mut Handle,
    *const u8,
    usize,
    *const u8,
    usize,
    *const u8,
    usize,
    *mut u8,
    usize,
    *mut RowLengths,
) -> u32;

#[link(name = "rbac")]
extern "C" {
    pub fn rbac_open(office: *mut Handle) -> u32;
    pub fn rbac_close(office: *mut Handle);
    pub fn rbac_answer(
        office: *mut Handle,
        line: *const u8,
        line_length: usize,
        out: *mut u8,
        out_length: usize,
        length: *mut usize,
    ) -> u32;
    pub fn rbac_kept_answer(office: *mut Handle, out: *mut u8, out_length: usize, length: *mut usize) -> u32;
    pub fn rbac_check(
        office: *const Handle,
        session: *const u8,
        session_length: usize,
        operation: *const u8,
        operation_length: usize,
        object: *const u8,
        object_length: usize,
    ) -> i32;
    pub fn rbac_check_user(
        office: *const Handle,
        user: *const u8,
        user_length: usize,
        operation: *const u8,
        operation_length: usize,
        object: *const u8,
        object_length: usize,
    ) -> i32;
    pub fn rbac_explain_user(
        office: *mut Handle,
        user: *const u8,
        user_length: usize,
        operation: *const u8,
        operation_length: usize,
        object: *const u8,
        object_length: usize,
        out: *mut u8,
        out_length: usize,
        reason: *mut RowLengths,
    ) -> u32;
    pub fn rbac_explain_session(
        office: *mut Handle,
        session: *const u8,
        session_length: usize,
        operation: *const u8,
        operation_length: usize,
        object: *const u8,
        object_length: usize,
        out: *mut u8,
        out_length: usize,
        reason: *mut RowLengths,
    ) -> u32;
    pub fn rbac_assignment_conflicts(
        office: *mut Handle,
        user: *const u8,
        user_length: usize,
        role: *const u8,
        role_length: usize,
        index: usize,
        out: *mut u8,
        out_length: usize,
        sets: *mut RowLengths,
        set_count: usize,
        count: *mut usize,
        total: *mut usize,
    ) -> u32;
    pub fn rbac_activation_conflicts(
        office: *mut Handle,
        user: *const u8,
        user_length: usize,
        session: *const u8,
        session_length: usize,
        role: *const u8,
        role_length: usize,
        index: usize,
        out: *mut u8,
        out_length: usize,
        sets: *mut RowLengths,
        set_count: usize,
        count: *mut usize,
        total: *mut usize,
    ) -> u32;
    pub fn rbac_inheritance_conflicts(
        office: *mut Handle,
        of_sessions: c_int,
        asc: *const u8,
        asc_length: usize,
        desc: *const u8,
        desc_length: usize,
        index: usize,
        out: *mut u8,
        out_length: usize,
        sets: *mut RowLengths,
        set_count: usize,
        count: *mut usize,
        total: *mut usize,
    ) -> u32;
    pub fn rbac_creation_conflicts(
        office: *mut Handle,
        user: *const u8,
        user_length: usize,
        roles: *const u8,
        role_lengths: *const usize,
        role_count: usize,
        index: usize,
        out: *mut u8,
        out_length: usize,
        sets: *mut RowLengths,
        set_count: usize,
        count: *mut usize,
        total: *mut usize,
    ) -> u32;
    pub fn rbac_revision(office: *const Handle, revision: *mut u64) -> u32;
    pub fn rbac_rows(
        office: *mut Handle,
        table: u32,
        index: usize,
        out: *mut u8,
        out_length: usize,
        rows: *mut RowLengths,
        row_count: usize,
        count: *mut usize,
    ) -> u32;
    pub fn rbac_range(
        office: *mut Handle,
        table: u32,
        first: *const u8,
        first_length: usize,
        start: *mut usize,
        end: *mut usize,
    ) -> u32;
    pub fn rbac_add_row(
        office: *mut Handle,
        table: u32,
        first: *const u8,
        first_length: usize,
        second: *const u8,
        second_length: usize,
        third: *const u8,
        third_length: usize,
        number: u32,
    ) -> u32;
    pub fn rbac_load(office: *mut Handle, revision: u64) -> u32;
}
