-- Damage: the rows by which `rbac check` refuses an office, a line for each. A good office has none.
--
--     sqlite3 COPY < tools/damage.sql
--
-- Run it in the folder of the repository, on a copy: sqlite3 merges the log of the copy, if there is one.
--
-- The number of the check in docs/howto/operate.md comes first, or 32 for a limit, then what is at fault, and the row. The row of a
-- session has its name, which is all that is needed to use the session: protect the output like the office.

.read tools/rows.sql
.mode list
.headers off

SELECT number || '|' || what || coalesce('|' || first, '') || coalesce('|' || second, '') || coalesce('|' || third, '')
FROM fault ORDER BY number = 32, number;
