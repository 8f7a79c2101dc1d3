-- Room: how many there are of each kind, and how many more the version of the office allows. CSV.
--
--     sqlite3 -readonly 'file:COPY?immutable=1' < tools/room.sql
--
-- Run it in the folder of the repository, on a copy that `rbac check` calls good. It reads the copy and does not write it.
--
-- version               1 or 2
-- kind                  as in the table of limits in docs/reference/api.md; `record` and `byte`, limits of an import, are left out
-- count, limit, left    how many there are, how many there may be, and how many more may be added
-- `member` is counted for the set that has the most members, `activeRole` for the session that has the most activated roles.

.bail on
.read tools/office.sql
.headers off
.print version,kind,count,limit,left

SELECT number, kind, count, most, most - count FROM version, room;
