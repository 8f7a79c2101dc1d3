//! The texts of answers: JSON without spaces, keys in byte order. serde_json escapes no more than
//! `"` and `\` in a name, since a name has no control character.

use serde::Serialize;
use std::io::Write;

use super::office::{Refusal, Report};
use super::questions::Told;
use super::requests::Untold;

pub fn write_done(text: &mut Vec<u8>) {
    text.extend_from_slice(b"{\"ok\":true}\n");
}

fn write_value(text: &mut Vec<u8>, value: &impl Serialize) {
    text.extend_from_slice(b"{\"ok\":true,\"value\":");
    serde_json::to_writer(&mut *text, value).expect("a vector accepts all bytes");
    text.extend_from_slice(b"}\n");
}

pub fn write_told(text: &mut Vec<u8>, told: Told) {
    match told {
        Told::Truth(value) => write_value(text, &value),
        Told::Number(value) => write_value(text, &value),
        Told::Names(value) => write_value(text, &value),
        Told::Permissions(value) => write_value(text, &value),
    }
}

/// The answer to an import.
pub fn write_report(text: &mut Vec<u8>, report: &Report) {
    let record =
        |it: &(u32, Refusal)| format!("{{\"code\":{},\"record\":{}}}", name_of(&it.1).0, it.0);
    let refused: Vec<String> = report.refused.iter().map(record).collect();
    let (already, assigned, refused) = (report.already, report.assigned, refused.join(","));
    let value =
        format!("{{\"already\":{already},\"assigned\":{assigned},\"refused\":[{refused}]}}");
    writeln!(text, "{{\"ok\":true,\"value\":{value}}}").expect("a vector accepts all bytes");
}

/// The code and the name of a refusal.
fn name_of(refusal: &Refusal) -> (u32, &'static str) {
    match refusal {
        Refusal::NoUser => (2, "NoUser"),
        Refusal::UserExists => (3, "UserExists"),
        Refusal::NoRole => (4, "NoRole"),
        Refusal::RoleExists => (5, "RoleExists"),
        Refusal::NoObject => (6, "NoObject"),
        Refusal::ObjectExists => (7, "ObjectExists"),
        Refusal::NoPermission => (8, "NoPermission"),
        Refusal::PermissionExists => (9, "PermissionExists"),
        Refusal::AlreadyAssigned => (10, "AlreadyAssigned"),
        Refusal::NotAssigned => (11, "NotAssigned"),
        Refusal::AlreadyGranted => (12, "AlreadyGranted"),
        Refusal::NotGranted => (13, "NotGranted"),
        Refusal::EdgeExists => (14, "EdgeExists"),
        Refusal::NoEdge => (15, "NoEdge"),
        Refusal::Cycle => (16, "Cycle"),
        Refusal::RoleInUse => (17, "RoleInUse"),
        Refusal::ObjectInUse => (18, "ObjectInUse"),
        Refusal::SetExists => (19, "SetExists"),
        Refusal::NoSet => (20, "NoSet"),
        Refusal::MemberExists => (21, "MemberExists"),
        Refusal::NoMember => (22, "NoMember"),
        Refusal::BadCardinality => (23, "BadCardinality"),
        Refusal::StaticSeparation(_) => (24, "StaticSeparation"),
        Refusal::DynamicSeparation(_) => (25, "DynamicSeparation"),
        Refusal::NoSession => (26, "NoSession"),
        Refusal::SessionExists => (27, "SessionExists"),
        Refusal::NotOwner => (28, "NotOwner"),
        Refusal::NotAuthorized => (29, "NotAuthorized"),
        Refusal::AlreadyActive => (30, "AlreadyActive"),
        Refusal::NotActive => (31, "NotActive"),
        Refusal::TooMany(_) => (32, "TooMany"),
        Refusal::NoOperation => (33, "NoOperation"),
        Refusal::UserLocked => (37, "UserLocked"),
    }
}

/// What a refusal has besides its code and name, with the comma before it.
fn told_with(refusal: &Refusal) -> String {
    match refusal {
        Refusal::StaticSeparation(set) | Refusal::DynamicSeparation(set) => {
            format!(",\"set\":{}", serde_json::to_string(set).expect("a text"))
        }
        Refusal::TooMany(kind) => format!(",\"kind\":\"{kind}\""),
        _ => String::new(),
    }
}

/// The answer that reports why there is no value.
pub fn write_untold(text: &mut Vec<u8>, untold: &Untold) {
    let (code, name, more) = match untold {
        Untold::BadName => (1, "BadName", String::new()),
        Untold::BadRequest => (34, "BadRequest", String::new()),
        Untold::UnknownFunction => (35, "UnknownFunction", String::new()),
        Untold::BadCsv(record) => (36, "BadCsv", format!(",\"record\":{record}")),
        Untold::TooManyRecords => (32, "TooMany", ",\"kind\":\"record\"".to_owned()),
        Untold::Refused(refusal) => {
            let (code, name) = name_of(refusal);
            (code, name, told_with(refusal))
        }
    };
    let answer = format!("{{\"code\":{code},\"error\":\"{name}\"{more}}}");
    writeln!(text, "{answer}").expect("a vector accepts all bytes");
}
