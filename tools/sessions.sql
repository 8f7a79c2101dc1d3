-- The sessions, and what each may do: a CSV line for each activated role and each permission that it gives.
--
--     sqlite3 -readonly 'file:COPY?immutable=1' < tools/sessions.sql
--
-- Run it in the folder of the repository, on a copy that `rbac check` calls good. It reads the copy and does not write it.
--
-- digest, user          the digest of the session's name, and the session's user
-- activated             an activated role; empty if the session has none
-- object, operation     a permission; empty if the activated role gives none
-- granted               the role to which the permission is granted: the activated role itself, or a junior of it
-- With the parameter @with_sessions (tools/office.sql) the first column is `session`, and has the names.

.bail on
.read tools/office.sql
.headers off

SELECT iif(@with_sessions, 'session', 'digest'), 'user', 'activated', 'object', 'operation', 'granted';

SELECT shown, user, activation.role, object, operation, permitted.role
FROM session JOIN shown_session USING (name)
LEFT JOIN activation ON activation.session = name
LEFT JOIN (SELECT * FROM session_role JOIN permission_assignment USING (role)) AS permitted
    ON permitted.session = name AND activated = activation.role
ORDER BY shown, activation.role, object, operation, permitted.role;
