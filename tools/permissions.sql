-- Who may do what, and by which role: a CSV line for each permission of each user and each way in which the user has it.
--
--     sqlite3 -readonly 'file:COPY?immutable=1' < tools/permissions.sql
--
-- Run it in the folder of the repository, on a copy that `rbac check` calls good. It reads the copy and does not write it.
--
-- user, locked          the user, and `yes` if the user is locked and so gets no session
-- object, operation     the permission
-- assigned              the role that the user is assigned
-- granted               the role to which the permission is granted: the assigned role itself, or a junior of it
-- violated              a dynamic set that `granted` violates by itself and its juniors, so that no session can have this role:
--                       the first such set in byte order; empty if there is none
-- To get the lines of one user, one role, one object or one operation, set a parameter, or several of them:
--
--     sqlite3 -readonly -cmd ".parameter set @user 'ann'" 'file:COPY?immutable=1' < tools/permissions.sql
--
-- The parameters are @user, @role, @object and @operation. A role is that at `assigned` or at `granted`.
--
-- A user without a permission has no line. If `locked` is no and `violated` is empty, `granted` can be activated alone, and that
-- session has the permission. If that holds for no line of a user and a permission, no session of the user can have it.

.bail on
.read tools/office.sql
.headers off
.print user,locked,object,operation,assigned,granted,violated

-- The roles that no session can have, each with the first dynamic set in the way.
CREATE TEMP TABLE forbidden (role, violated, PRIMARY KEY (role)) WITHOUT ROWID;
INSERT INTO forbidden
SELECT role, min(duty_set) FROM (
    SELECT given.role, duty_set FROM given JOIN duty_set ON duty_set.kind = given.kind AND name = duty_set
    WHERE given.kind = 'dynamic' GROUP BY given.role, duty_set HAVING count(*) >= cardinality
)
GROUP BY role;

SELECT user, iif(user IN locked, 'yes', 'no'), object, operation, assigned, role, violated
FROM authorized JOIN permission_assignment USING (role) LEFT JOIN forbidden USING (role)
WHERE (@user IS NULL OR user = @user) AND (@role IS NULL OR @role IN (assigned, role))
    AND (@object IS NULL OR object = @object) AND (@operation IS NULL OR operation = @operation)
ORDER BY user, object, operation, assigned, role;
