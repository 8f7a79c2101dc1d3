-- The office as request lines, to compare with another dump, or to make the same office in a new file. To compare:
--
--     sqlite3 -readonly 'file:COPY?immutable=1' < tools/dump.sql > DUMP
--
-- Run it in the folder of the repository, on a copy that `rbac check` calls good. It reads the copy and does not write it.
--
-- Whoever knows the name of a session can use it. So a session's line has the digest of its name (tools/office.sql) at the key
-- `digest`, and `rbac replay` refuses it with 34 BadRequest: it makes the same office without its sessions. To have them too:
--
--     sqlite3 -readonly -cmd '.parameter set @with_sessions 1' 'file:COPY?immutable=1' < tools/dump.sql > DUMP
--     rbac init NEW
--     rbac replay NEW < DUMP
--
-- Then each line is accepted: what a line uses is made by a line before it, and what has been made so far is a part of a good
-- office, so no limit is exceeded and no set is violated. Protect such a dump like the office.
--
-- Equal offices have equal dumps. The closure is not written, since it follows from the inheritances. The version is not written
-- either: the new office has version 2.

.bail on
.read tools/office.sql
.mode list
.headers off

SELECT json_object('fn', 'addUser', 'user', name) FROM user ORDER BY name;
SELECT json_object('fn', 'addRole', 'role', name) FROM role ORDER BY name;
SELECT json_object('fn', 'addInheritance', 'asc', ascendant, 'desc', descendant)
FROM inheritance ORDER BY ascendant, descendant;
SELECT json_object('fn', 'addPermObj', 'object', name) FROM object ORDER BY name;
SELECT json_object('fn', 'addPermission', 'object', object, 'operation', operation) FROM permission ORDER BY object, operation;
SELECT json_object('fn', 'grantPermission', 'object', object, 'operation', operation, 'role', role)
FROM permission_assignment ORDER BY object, operation, role;

SELECT json_object(
    'fn', iif(kind = 'static', 'createSsdSet', 'createDsdSet'),
    'set', name,
    'roles', (
        SELECT json_group_array(role)
        FROM (SELECT role FROM member WHERE member.kind = duty_set.kind AND member.duty_set = name ORDER BY role)
    ),
    'cardinality', cardinality
)
FROM duty_set ORDER BY kind DESC, name;

SELECT json_object('fn', 'assignUser', 'user', user, 'role', role) FROM assignment ORDER BY user, role;

SELECT json_object(
    'fn', 'createSession',
    'user', user,
    'roles', (SELECT json_group_array(role) FROM (SELECT role FROM activation WHERE activation.session = name ORDER BY role)),
    iif(@with_sessions, 'session', 'digest'), shown
)
FROM session JOIN shown_session USING (name) ORDER BY shown;

SELECT json_object('fn', 'lockUserAccount', 'user', user) FROM locked ORDER BY user;
