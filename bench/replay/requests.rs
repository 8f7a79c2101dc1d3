//! What a line asks for, read by serde_json.

use serde_json::{Map, Value};

use super::assignments::read_assignments;
use super::office::Command::*;
use super::office::Separation::{Dynamic, Static};
use super::office::{Command, Refusal};
use super::questions::Question;
use super::questions::Question::*;

const LONGEST_NAME: usize = 64;

pub enum Asked {
    Command(Command),
    Question(Question),
}

/// Why a line is answered by no value.
#[derive(Debug)]
pub enum Untold {
    BadName,
    BadRequest,
    UnknownFunction,
    BadCsv(usize),
    TooManyRecords,
    Refused(Refusal),
}

impl From<Refusal> for Untold {
    fn from(refusal: Refusal) -> Self {
        Untold::Refused(refusal)
    }
}

/// The values at the keys of a request, once they are judged.
struct Fields(Map<String, Value>);

impl Fields {
    fn text(&mut self, key: &str) -> String {
        match self.0.get_mut(key) {
            Some(Value::String(text)) => std::mem::take(text),
            _ => String::new(),
        }
    }

    fn user(&mut self) -> String {
        self.text("user")
    }

    fn role(&mut self) -> String {
        self.text("role")
    }

    fn object(&mut self) -> String {
        self.text("object")
    }

    fn operation(&mut self) -> String {
        self.text("operation")
    }

    fn session(&mut self) -> String {
        self.text("session")
    }

    fn set(&mut self) -> String {
        self.text("set")
    }

    fn asc(&mut self) -> String {
        self.text("asc")
    }

    fn desc(&mut self) -> String {
        self.text("desc")
    }

    /// The roles in byte order, each once.
    fn roles(&mut self) -> Vec<String> {
        let Some(Value::Array(values)) = self.0.get_mut("roles").map(Value::take) else {
            return Vec::new();
        };
        let text = |value| if let Value::String(text) = value { Some(text) } else { None };
        let mut roles: Vec<String> = values.into_iter().filter_map(text).collect();
        roles.sort();
        roles.dedup();
        roles
    }

    fn number(&self) -> u32 {
        let number = self.0.get("cardinality").and_then(Value::as_u64);
        number.and_then(|it| u32::try_from(it).ok()).unwrap_or(0)
    }

    /// Whether there is a value of the right kind at the key.
    fn has(&self, key: &str) -> bool {
        match (key, self.0.get(key)) {
            ("cardinality", Some(Value::Number(number))) => {
                number.as_u64().is_some_and(|it| u32::try_from(it).is_ok())
            }
            ("roles", Some(Value::Array(values))) => values.iter().all(Value::is_string),
            ("roles" | "cardinality", _) => false,
            (_, value) => value.is_some_and(Value::is_string),
        }
    }

    /// Whether the texts at the key are names.
    fn is_named(&self, key: &str) -> bool {
        match self.0.get(key) {
            Some(Value::String(text)) => key == "csv" || is_name(text),
            Some(Value::Array(values)) => values.iter().filter_map(Value::as_str).all(is_name),
            _ => true,
        }
    }
}

pub fn is_name(text: &str) -> bool {
    let is_printable = text.bytes().all(|byte| byte >= 0x20 && byte != 0x7f);
    (1..=LONGEST_NAME).contains(&text.len()) && is_printable
}

/// A function with the keys of its arguments in their order, and what it asks for.
pub struct Function {
    name: &'static str,
    keys: &'static [&'static str],
    asked: Reads,
}

enum Reads {
    Command(fn(&mut Fields) -> Command),
    Question(fn(&mut Fields) -> Question),
    Import,
}

macro_rules! functions {
    ($($name:literal ($($key:literal),*) $kind:ident $build:expr;)*) => {
        &[$(Function { name: $name, keys: &[$($key),*], asked: Reads::$kind($build) }),*]
    };
}

/// The functions in byte order of their names, except the import.
const FUNCTIONS: &[Function] = functions! {
    "addActiveRole" ("user", "session", "role") Command
        |it| AddActiveRole(it.user(), it.session(), it.role());
    "addAscendant" ("asc", "desc") Command |it| AddAscendant(it.asc(), it.desc());
    "addDescendant" ("asc", "desc") Command |it| AddDescendant(it.asc(), it.desc());
    "addDsdRoleMember" ("set", "role") Command |it| AddMember(Dynamic, it.set(), it.role());
    "addInheritance" ("asc", "desc") Command |it| AddInheritance(it.asc(), it.desc());
    "addPermObj" ("object") Command |it| AddPermObj(it.object());
    "addPermission" ("object", "operation") Command |it| AddPermission(it.object(), it.operation());
    "addRole" ("role") Command |it| AddRole(it.role());
    "addSsdRoleMember" ("set", "role") Command |it| AddMember(Static, it.set(), it.role());
    "addUser" ("user") Command |it| AddUser(it.user());
    "assignUser" ("user", "role") Command |it| AssignUser(it.user(), it.role());
    "assignedRoles" ("user") Question |it| AssignedRoles(it.user());
    "assignedUsers" ("role") Question |it| AssignedUsers(it.role());
    "authorizedRoles" ("user") Question |it| AuthorizedRoles(it.user());
    "authorizedUsers" ("role") Question |it| AuthorizedUsers(it.role());
    "checkAccess" ("session", "operation", "object") Question
        |it| CheckAccess(it.session(), it.operation(), it.object());
    "createDsdSet" ("set", "roles", "cardinality") Command
        |it| CreateSet(Dynamic, it.set(), it.roles(), it.number());
    "createSession" ("user", "roles", "session") Command
        |it| CreateSession(it.user(), it.session(), it.roles());
    "createSsdSet" ("set", "roles", "cardinality") Command
        |it| CreateSet(Static, it.set(), it.roles(), it.number());
    "deassignUser" ("user", "role") Command |it| DeassignUser(it.user(), it.role());
    "deleteDsdRoleMember" ("set", "role") Command |it| DeleteMember(Dynamic, it.set(), it.role());
    "deleteDsdSet" ("set") Command |it| DeleteSet(Dynamic, it.set());
    "deleteInheritance" ("asc", "desc") Command |it| DeleteInheritance(it.asc(), it.desc());
    "deletePermObj" ("object") Command |it| DeletePermObj(it.object());
    "deletePermission" ("object", "operation") Command
        |it| DeletePermission(it.object(), it.operation());
    "deleteRole" ("role") Command |it| DeleteRole(it.role());
    "deleteSession" ("user", "session") Command |it| DeleteSession(it.user(), it.session());
    "deleteSsdRoleMember" ("set", "role") Command |it| DeleteMember(Static, it.set(), it.role());
    "deleteSsdSet" ("set") Command |it| DeleteSet(Static, it.set());
    "deleteUser" ("user") Command |it| DeleteUser(it.user());
    "dropActiveRole" ("user", "session", "role") Command
        |it| DropActiveRole(it.user(), it.session(), it.role());
    "dsdRoleSetCardinality" ("set") Question |it| CardinalityOf(Dynamic, it.set());
    "dsdRoleSetRoles" ("set") Question |it| SetRoles(Dynamic, it.set());
    "dsdRoleSets" () Question |_| Sets(Dynamic);
    "grantPermission" ("object", "operation", "role") Command
        |it| GrantPermission(it.object(), it.operation(), it.role());
    "lockUserAccount" ("user") Command |it| LockUserAccount(it.user());
    "permissionRoles" ("object", "operation") Question
        |it| PermissionRoles(it.object(), it.operation());
    "revokePermission" ("object", "operation", "role") Command
        |it| RevokePermission(it.object(), it.operation(), it.role());
    "roleOperationsOnObject" ("role", "object") Question
        |it| RoleOperationsOnObject(it.role(), it.object());
    "rolePermissions" ("role") Question |it| RolePermissions(it.role());
    "sessionPermissions" ("session") Question |it| SessionPermissions(it.session());
    "sessionRoles" ("session") Question |it| SessionRoles(it.session());
    "setDsdSetCardinality" ("set", "cardinality") Command
        |it| SetCardinality(Dynamic, it.set(), it.number());
    "setSsdSetCardinality" ("set", "cardinality") Command
        |it| SetCardinality(Static, it.set(), it.number());
    "ssdRoleSetCardinality" ("set") Question |it| CardinalityOf(Static, it.set());
    "ssdRoleSetRoles" ("set") Question |it| SetRoles(Static, it.set());
    "ssdRoleSets" () Question |_| Sets(Static);
    "unlockUserAccount" ("user") Command |it| UnlockUserAccount(it.user());
    "userOperationsOnObject" ("user", "object") Question
        |it| UserOperationsOnObject(it.user(), it.object());
    "userPermissions" ("user") Question |it| UserPermissions(it.user());
};

const IMPORT: Function =
    Function { name: "importAssignments", keys: &["csv"], asked: Reads::Import };

impl Function {
    /// Whether it has a text of assignments as its argument.
    pub fn takes_csv(&self) -> bool {
        matches!(self.asked, Reads::Import)
    }
}

pub fn function_named(name: &str) -> Result<&'static Function, Untold> {
    match FUNCTIONS.binary_search_by(|it| it.name.cmp(name)) {
        Ok(at) => Ok(&FUNCTIONS[at]),
        Err(_) if name == IMPORT.name => Ok(&IMPORT),
        Err(_) => Err(Untold::UnknownFunction),
    }
}

pub fn read_request(line: &[u8]) -> Result<Asked, Untold> {
    let Ok(Value::Object(object)) = serde_json::from_slice(line) else {
        return Err(Untold::BadRequest);
    };
    let name = object.get("fn").and_then(Value::as_str).ok_or(Untold::BadRequest)?;
    read_arguments(function_named(name)?, object)
}

/// What the body of a request asks for whose head calls this function.
pub fn read_body(function: &Function, body: &[u8]) -> Result<Asked, Untold> {
    if function.takes_csv() {
        return Ok(Asked::Command(ImportAssignments(read_assignments(body)?)));
    }
    let object = match body {
        [] => Map::new(),
        _ => serde_json::from_slice(body).map_err(|_| Untold::BadRequest)?,
    };
    read_arguments(function, object)
}

/// What a function is asked for with the arguments at its keys.
fn read_arguments(function: &Function, object: Map<String, Value>) -> Result<Asked, Untold> {
    let mut fields = Fields(object);
    if !function.keys.iter().all(|key| fields.has(key)) {
        return Err(Untold::BadRequest);
    }
    if !function.keys.iter().all(|key| fields.is_named(key)) {
        return Err(Untold::BadName);
    }
    Ok(match function.asked {
        Reads::Command(build) => Asked::Command(build(&mut fields)),
        Reads::Question(build) => Asked::Question(build(&mut fields)),
        Reads::Import => {
            let pairs = read_assignments(fields.text("csv").as_bytes())?;
            Asked::Command(ImportAssignments(pairs))
        }
    })
}
