-- How near each user and each session is to each separation of duty set: a CSV line for each member that it has.
--
--     sqlite3 -readonly 'file:COPY?immutable=1' < tools/near.sql
--
-- Run it in the folder of the repository, on a copy that `rbac check` calls good. It reads the copy and does not write it.
--
-- left                  how many more members violate the set: cardinality - members. The nearest come first.
-- kind, set, cardinality    the set, `static` or `dynamic`
-- holder, name          `user` and the user, or `session` and the digest of the session's name; with the parameter
--                       @with_sessions (tools/office.sql), the name itself
-- members               how many members the user is authorized for, or are roles of the session
-- member, by            one of them, and the assigned or activated role that gives it: the member itself, or a senior of it
--
-- `left` is at least 1 for users and static sets, and for sessions and dynamic sets: the program refuses the rest.
-- For a user and a dynamic set it may be 0 or less. Such a user could violate the set by activating these members in one
-- session, but the program refuses that. A holder without a member of a set has no line.

.bail on
.read tools/office.sql
.headers off
.print left,kind,set,cardinality,holder,name,members,member,by

-- Kept in tables, since both are read more than once.
CREATE TEMP TABLE kept AS SELECT * FROM held;
CREATE TEMP TABLE counted_members (
    kind, duty_set, holder, name, members, PRIMARY KEY (kind, duty_set, holder, name)
) WITHOUT ROWID;
INSERT INTO counted_members
SELECT kind, duty_set, holder, name, count(DISTINCT member) FROM kept GROUP BY kind, duty_set, holder, name;

SELECT cardinality - members AS left, kept.kind, kept.duty_set, cardinality, kept.holder,
    iif(kept.holder = 'session', shown, kept.name) AS label, members, member, given_by
FROM kept
JOIN counted_members USING (kind, duty_set, holder, name)
JOIN duty_set ON duty_set.kind = kept.kind AND duty_set.name = kept.duty_set
LEFT JOIN shown_session ON shown_session.name = kept.name
ORDER BY left, kept.kind, kept.duty_set, kept.holder, label, member, given_by;
