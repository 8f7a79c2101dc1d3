-- Names the rows of an office, and what is at fault in them. tools/office.sql and tools/damage.sql read it.
--
-- The views have the terms of docs/explanation/model.md. They work for damaged offices too, and for tables without types and keys.

-- An office of version 1 has no table of locks. This empty one is read in its place.
ATTACH 'file:absent?mode=memory' AS absent;
CREATE TABLE absent.locked_row (a TEXT);

CREATE TEMP VIEW version(number) AS SELECT version FROM meta_row WHERE tag = 'rbac';

CREATE TEMP VIEW user(name) AS SELECT a FROM name_row WHERE kind = 1;
CREATE TEMP VIEW role(name) AS SELECT a FROM name_row WHERE kind = 2;
CREATE TEMP VIEW object(name) AS SELECT a FROM name_row WHERE kind = 3;
CREATE TEMP VIEW locked(user) AS SELECT a FROM locked_row, version WHERE number = 2;

CREATE TEMP VIEW permission(object, operation) AS SELECT a, b FROM pair_row WHERE kind = 1;
CREATE TEMP VIEW assignment(user, role) AS SELECT a, b FROM pair_row WHERE kind = 2;
CREATE TEMP VIEW inheritance(ascendant, descendant) AS SELECT a, b FROM pair_row WHERE kind = 3;
CREATE TEMP VIEW closure(senior, junior) AS SELECT a, b FROM pair_row WHERE kind = 4;
CREATE TEMP VIEW session(name, user) AS SELECT a, b FROM pair_row WHERE kind = 7;
CREATE TEMP VIEW activation(session, role) AS SELECT a, b FROM pair_row WHERE kind = 8;

-- The permission assignment, kept in the order in which it is looked up: by role.
CREATE TEMP TABLE permission_assignment (role, object, operation, PRIMARY KEY (role, object, operation)) WITHOUT ROWID;
INSERT OR IGNORE INTO permission_assignment SELECT role, ob, op FROM grant_row;

-- Separation of duty sets, and their members by role. The kind is `static` or `dynamic`: sets of different kinds may have
-- the same name.
CREATE TEMP VIEW duty_set(kind, name, cardinality) AS SELECT iif(kind = 1, 'static', 'dynamic'), name, n FROM set_row;
CREATE TEMP TABLE member (role, kind, duty_set, PRIMARY KEY (role, kind, duty_set)) WITHOUT ROWID;
INSERT OR IGNORE INTO member SELECT b, iif(kind = 5, 'static', 'dynamic'), a FROM pair_row WHERE kind IN (5, 6);

-- The roles for which a user is authorized, each with the assigned role that gives it.
CREATE TEMP VIEW authorized(user, assigned, role) AS
SELECT user, role, role FROM assignment
UNION ALL
SELECT user, senior, junior FROM assignment JOIN closure ON senior = role;

-- The roles of a session, each with the activated role that gives it.
CREATE TEMP VIEW session_role(session, activated, role) AS
SELECT session, role, role FROM activation
UNION ALL
SELECT session, senior, junior FROM activation JOIN closure ON senior = role;

-- The members of a set that a role gives to whoever has it: the role itself, and its juniors.
CREATE TEMP TABLE given (role, kind, duty_set, member, PRIMARY KEY (role, kind, duty_set, member)) WITHOUT ROWID;
INSERT OR IGNORE INTO given
SELECT role, kind, duty_set, role FROM member
UNION ALL
SELECT senior, kind, duty_set, role FROM closure CROSS JOIN member ON role = junior;

-- The members of a set that a user is authorized for, and those that a session has, each with the assigned or activated
-- role that gives it. Static sets bind users alone.
CREATE TEMP VIEW held(kind, duty_set, holder, name, member, given_by) AS
SELECT kind, duty_set, 'user', user, member, role FROM assignment JOIN given USING (role)
UNION ALL
SELECT kind, duty_set, 'session', session, member, role FROM activation JOIN given USING (role) WHERE kind = 'dynamic';

-- How many members of each set each of these has.
CREATE TEMP VIEW holding(kind, duty_set, cardinality, holder, name, members) AS
SELECT kind, name, cardinality, 'user', user, (
    SELECT count(DISTINCT member) FROM assignment JOIN given USING (role)
    WHERE assignment.user = one.user AND given.kind = duty_set.kind AND given.duty_set = duty_set.name
)
FROM duty_set, (SELECT DISTINCT user FROM assignment) AS one
UNION ALL
SELECT kind, duty_set.name, cardinality, 'session', session.name, (
    SELECT count(DISTINCT member) FROM activation JOIN given USING (role)
    WHERE activation.session = session.name AND given.kind = 'dynamic' AND given.duty_set = duty_set.name
)
FROM duty_set, session WHERE kind = 'dynamic';

-- How many there may be of each kind in each version.
-- bin/limits writes this table from server/internal/limits/limits.csv.
CREATE TEMP TABLE most (kind, version, number, PRIMARY KEY (kind, version)) WITHOUT ROWID;
INSERT INTO most VALUES
('user', 1, 5000), ('user', 2, 20000),
('role', 1, 256), ('role', 2, 1024),
('object', 1, 2000), ('object', 2, 2000),
('permission', 1, 5000), ('permission', 2, 5000),
('grant', 1, 20000), ('grant', 2, 20000),
('assignment', 1, 20000), ('assignment', 2, 20000),
('edge', 1, 1024), ('edge', 2, 4096),
('ssdSet', 1, 64), ('ssdSet', 2, 64),
('dsdSet', 1, 64), ('dsdSet', 2, 64),
('member', 1, 32), ('member', 2, 32),
('session', 1, 1000), ('session', 2, 1000),
('activeRole', 1, 32), ('activeRole', 2, 32),
('record', 1, 10000), ('record', 2, 10000),
('byte', 1, 2097152), ('byte', 2, 2097152);
-- The end of the table.

-- How many there are of each kind, and how many there may be in this office. Members are counted in the set that has the most, activated
-- roles in the session that has the most.
CREATE TEMP VIEW room(kind, count, most) AS
SELECT kind, count, (SELECT most.number FROM most WHERE most.kind = counts.kind AND most.version = version.number)
FROM (
    SELECT 'user' AS kind, (SELECT count(*) FROM user) AS count
    UNION ALL SELECT 'role', (SELECT count(*) FROM role)
    UNION ALL SELECT 'object', (SELECT count(*) FROM object)
    UNION ALL SELECT 'permission', (SELECT count(*) FROM permission)
    UNION ALL SELECT 'grant', (SELECT count(*) FROM permission_assignment)
    UNION ALL SELECT 'assignment', (SELECT count(*) FROM assignment)
    UNION ALL SELECT 'edge', (SELECT count(*) FROM inheritance)
    UNION ALL SELECT 'ssdSet', (SELECT count(*) FROM duty_set WHERE kind = 'static')
    UNION ALL SELECT 'dsdSet', (SELECT count(*) FROM duty_set WHERE kind = 'dynamic')
    UNION ALL SELECT 'member', (SELECT coalesce(max(n), 0) FROM (SELECT count(*) AS n FROM member GROUP BY kind, duty_set))
    UNION ALL SELECT 'session', (SELECT count(*) FROM session)
    UNION ALL SELECT 'activeRole', (SELECT coalesce(max(n), 0) FROM (SELECT count(*) AS n FROM activation GROUP BY session))
) AS counts, version;

-- From here on: what is at fault if the file is not a good office. First the closure, from the inheritances alone:

CREATE TEMP TABLE reached (senior, junior, PRIMARY KEY (senior, junior)) WITHOUT ROWID;
INSERT OR IGNORE INTO reached
WITH RECURSIVE found(senior, junior) AS (
    SELECT ascendant, descendant FROM inheritance
    UNION
    SELECT senior, descendant FROM found JOIN inheritance ON ascendant = junior
)
SELECT senior, junior FROM found;

CREATE TEMP VIEW text(part, value) AS
SELECT 'name_row', a FROM name_row
UNION ALL SELECT 'pair_row', a FROM pair_row
UNION ALL SELECT 'pair_row', b FROM pair_row
UNION ALL SELECT 'grant_row', ob FROM grant_row
UNION ALL SELECT 'grant_row', op FROM grant_row
UNION ALL SELECT 'grant_row', role FROM grant_row
UNION ALL SELECT 'set_row', name FROM set_row
UNION ALL SELECT 'locked_row', user FROM locked;

CREATE TEMP VIEW counted(kind, name, cardinality, members) AS
SELECT kind, name, cardinality,
    (SELECT count(*) FROM member WHERE member.kind = duty_set.kind AND member.duty_set = duty_set.name)
FROM duty_set;

-- A row for each fault: the number of its check in docs/reference/tables.md, or 32 for a limit; what is at fault; and where. Bytes that are
-- not UTF-8 are not found here.
CREATE TEMP VIEW fault(number, what, first, second, third) AS
SELECT 1, 'more than one row of the version', quote(tag), quote(version), NULL FROM meta_row
WHERE (SELECT count(*) FROM meta_row) > 1
UNION ALL SELECT 1, 'a version that is not a number', quote(tag), quote(version), NULL FROM meta_row
WHERE typeof(version) <> 'integer'
UNION ALL SELECT 1, 'an unknown kind of a name', quote(kind), quote(a), NULL FROM name_row
WHERE typeof(kind) <> 'integer' OR kind NOT BETWEEN 1 AND 3
UNION ALL SELECT 1, 'an unknown kind of a pair', quote(kind), quote(a), quote(b) FROM pair_row
WHERE typeof(kind) <> 'integer' OR kind NOT BETWEEN 1 AND 8
UNION ALL SELECT 1, 'an unknown kind of a set', quote(kind), quote(name), quote(n) FROM set_row
WHERE typeof(kind) <> 'integer' OR kind NOT BETWEEN 1 AND 2
UNION ALL SELECT 1, 'a cardinality that is not a number from 0 to 4294967295', quote(kind), quote(name), quote(n) FROM set_row
WHERE typeof(n) <> 'integer' OR n NOT BETWEEN 0 AND 4294967295
UNION ALL SELECT 1, 'a value that is not text', part, quote(value), NULL FROM text WHERE typeof(value) <> 'text'
UNION ALL SELECT 1, 'a name that occurs more than once', kind, a, count(*) FROM name_row GROUP BY kind, a HAVING count(*) > 1
UNION ALL SELECT 1, 'a pair that occurs more than once, of kind ' || kind, a, b, count(*) FROM pair_row
GROUP BY kind, a, b HAVING count(*) > 1
UNION ALL SELECT 1, 'a grant that occurs more than once', ob, op, role FROM grant_row GROUP BY ob, op, role HAVING count(*) > 1
UNION ALL SELECT 1, 'a set that occurs more than once', kind, name, count(*) FROM set_row GROUP BY kind, name HAVING count(*) > 1
UNION ALL SELECT 1, 'a lock that occurs more than once', user, count(*), NULL FROM locked GROUP BY user HAVING count(*) > 1
UNION ALL SELECT 2, 'an invalid name', part, quote(value), NULL FROM text
WHERE length(CAST(value AS BLOB)) NOT BETWEEN 1 AND 64 OR instr(CAST(value AS BLOB), x'00')
OR value GLOB '*[' || char(1) || '-' || char(31) || char(127) || ']*'
UNION ALL SELECT 32, 'too many of a kind', kind, count, most FROM room WHERE count > most
UNION ALL SELECT 3, 'a permission on no object', object, operation, NULL FROM permission
WHERE object NOT IN (SELECT name FROM object)
UNION ALL SELECT 3, 'an assignment of no user, or to no role', user, role, NULL FROM assignment
WHERE user NOT IN (SELECT name FROM user) OR role NOT IN (SELECT name FROM role)
UNION ALL SELECT 3, 'an inheritance of no role', ascendant, descendant, NULL FROM inheritance
WHERE ascendant NOT IN (SELECT name FROM role) OR descendant NOT IN (SELECT name FROM role)
UNION ALL SELECT 3, 'a pair of the closure of no role', senior, junior, NULL FROM closure
WHERE senior NOT IN (SELECT name FROM role) OR junior NOT IN (SELECT name FROM role)
UNION ALL SELECT 3, 'a member of no ' || kind || ' set, or that is not a role', duty_set, role, NULL FROM member
WHERE (kind, duty_set) NOT IN (SELECT kind, name FROM duty_set) OR role NOT IN (SELECT name FROM role)
UNION ALL SELECT 3, 'a session of no user', name, user, NULL FROM session WHERE user NOT IN (SELECT name FROM user)
UNION ALL SELECT 3, 'an activated role of no session, or that is not a role', session, role, NULL FROM activation
WHERE session NOT IN (SELECT name FROM session) OR role NOT IN (SELECT name FROM role)
UNION ALL SELECT 3, 'a grant of no permission, or to no role', object, operation, role FROM permission_assignment
WHERE (object, operation) NOT IN permission OR role NOT IN (SELECT name FROM role)
UNION ALL SELECT 3, 'a lock of no user', user, NULL, NULL FROM locked WHERE user NOT IN (SELECT name FROM user)
UNION ALL SELECT 4, 'a session of more than one user', name, group_concat(user, ', '), NULL FROM session
GROUP BY name HAVING count(*) > 1
UNION ALL SELECT 5, 'an inheritance in a cycle', ascendant, descendant, NULL FROM inheritance
WHERE ascendant = descendant OR (descendant, ascendant) IN reached
UNION ALL SELECT 6, 'a pair that the closure lacks', senior, junior, NULL FROM reached WHERE (senior, junior) NOT IN closure
UNION ALL SELECT 6, 'a pair too many in the closure', senior, junior, NULL FROM closure WHERE (senior, junior) NOT IN reached
UNION ALL SELECT 7, 'a cardinality that is not from 2 to the number of members, of a ' || kind || ' set', name, cardinality, members
FROM counted WHERE cardinality NOT BETWEEN 2 AND members
UNION ALL SELECT 8, 'an activated role for which the user is not authorized', session.name, session.user, activation.role
FROM session JOIN activation ON session = name WHERE NOT EXISTS (
    SELECT 1 FROM assignment
    WHERE assignment.user = session.user
    AND (assignment.role = activation.role OR (assignment.role, activation.role) IN reached)
)
UNION ALL SELECT 9, 'a user with too many members of a static set', duty_set, name, members FROM holding
WHERE kind = 'static' AND members >= cardinality
UNION ALL SELECT 10, 'a session with too many members of a dynamic set', duty_set, name, members FROM holding
WHERE holder = 'session' AND members >= cardinality
UNION ALL SELECT 11, 'a session of a locked user', name, user, NULL FROM session WHERE user IN locked;
