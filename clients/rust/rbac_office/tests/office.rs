//! The office through the library: RBAC_LIBRARY names the folder of librbac. `cargo test --offline`.

use rbac_office::{Error, Office};

/// Whether a line is answered as it should be.
fn answers(office: &Office, line: &str, wanted: &str) {
    assert_eq!(String::from_utf8(office.answer(line.as_bytes()).unwrap()).unwrap().trim_end(), wanted, "{line}");
}

#[test]
fn lines_are_answered() {
    let office = Office::new().unwrap();
    answers(&office, r#"{"fn":"addUser","user":"ann"}"#, r#"{"ok":true}"#);
    answers(&office, r#"{"fn":"addUser","user":"ann"}"#, r#"{"code":3,"error":"UserExists"}"#);
}

#[test]
fn refusals_have_codes() {
    let office = Office::new().unwrap();
    assert_eq!(office.check("s", "p", "o"), Err(Error::Refused { code: 26, name: "NoSession" }));
    assert_eq!(office.check("", "p", "o"), Err(Error::Refused { code: 1, name: "BadName" }));
}

/// An office in which ann may open the safe in the session s1, and bob has the session s2 without roles.
fn decided() -> Office {
    let office = Office::new().unwrap();
    for line in [
        r#"{"fn":"addUser","user":"ann"}"#,
        r#"{"fn":"addUser","user":"bob"}"#,
        r#"{"fn":"addRole","role":"boss"}"#,
        r#"{"fn":"addPermObj","object":"safe"}"#,
        r#"{"fn":"addPermission","object":"safe","operation":"open"}"#,
        r#"{"fn":"grantPermission","object":"safe","operation":"open","role":"boss"}"#,
        r#"{"fn":"assignUser","user":"ann","role":"boss"}"#,
        r#"{"fn":"createSession","user":"ann","session":"s1","roles":["boss"]}"#,
        r#"{"fn":"createSession","user":"bob","session":"s2","roles":[]}"#,
    ] {
        answers(&office, line, r#"{"ok":true}"#);
    }
    office
}

#[test]
fn decisions_allow_deny_and_refuse() {
    let office = decided();
    assert_eq!(office.check("s1", "open", "safe"), Ok(true));
    assert_eq!(office.check("s2", "open", "safe"), Ok(false));
    assert_eq!(office.check("s3", "open", "safe"), Err(Error::Refused { code: 26, name: "NoSession" }));
    assert_eq!(office.check("s1", "burn", "safe"), Err(Error::Refused { code: 33, name: "NoOperation" }));
    assert_eq!(office.check("s1", "open", "vault"), Err(Error::Refused { code: 6, name: "NoObject" }));
    answers(&office, r#"{"fn":"deassignUser","user":"ann","role":"boss"}"#, r#"{"ok":true}"#);
    assert_eq!(office.check("s1", "open", "safe"), Err(Error::Refused { code: 26, name: "NoSession" }));
}

#[test]
fn decisions_about_users_allow_deny_and_refuse() {
    let office = decided();
    answers(&office, r#"{"fn":"deleteSession","user":"ann","session":"s1"}"#, r#"{"ok":true}"#);
    assert_eq!(office.check_user("ann", "open", "safe"), Ok(true));
    assert_eq!(office.check_user("bob", "open", "safe"), Ok(false));
    assert_eq!(office.check_user("eve", "open", "safe"), Err(Error::Refused { code: 2, name: "NoUser" }));
    assert_eq!(office.check_user("ann", "burn", "safe"), Err(Error::Refused { code: 33, name: "NoOperation" }));
    assert_eq!(office.check_user("ann", "open", "vault"), Err(Error::Refused { code: 6, name: "NoObject" }));
    answers(&office, r#"{"fn":"lockUserAccount","user":"ann"}"#, r#"{"ok":true}"#);
    assert_eq!(office.check_user("ann", "open", "safe"), Ok(false));
}

#[test]
fn threads_share_an_office() {
    let office = decided();
    std::thread::scope(|scope| {
        for _ in 0..4 {
            scope.spawn(|| {
                for _ in 0..1_000 {
                    assert_eq!(office.check("s1", "open", "safe"), Ok(true));
                    assert_eq!(office.check("s2", "open", "safe"), Ok(false));
                    assert_eq!(office.check_user("ann", "open", "safe"), Ok(true));
                }
            });
        }
    });
}

#[test]
fn blank_and_long_lines_are_refused() {
    let office = Office::new().unwrap();
    let bad = r#"{"code":34,"error":"BadRequest"}"#;
    let user = r#"{"fn":"addUser","user":"ann"}"#;
    for line in ["", " ", "\t\r"] {
        answers(&office, line, bad);
    }
    let long = |size| user.to_string() + &" ".repeat(size - user.len());
    answers(&office, &long(65_537), bad);
    answers(&office, &long(65_536), r#"{"ok":true}"#);
}
