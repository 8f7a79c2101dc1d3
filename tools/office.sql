-- Refuses a file that is not a good office, and names the rows of an office. The reports begin with it.
--
-- Run it in the folder of the repository, on a copy that `rbac check` calls good, to ask questions of your own:
--     sqlite3 -readonly -init tools/office.sql 'file:COPY?immutable=1'
-- With -readonly the copy is not written. With immutable=1 sqlite3 makes no file beside it either.
--
-- tools/rows.sql has the views, with the terms of docs/explanation/model.md. The check at the end repeats that of `rbac check` as far as SQL
-- can, so that no tool reports on a wrong file. It is no substitute: bytes that are not UTF-8 are not found here.

.bail on
.mode csv
.separator , "\n"
.headers on
.nullvalue ""

-- sqlite3 stops at a row that does not meet a constraint, and prints the name of the constraint.
CREATE TEMP TABLE file (
    log INTEGER CONSTRAINT "a log is beside this file: run rbac check on the copy first" CHECK (log = 0),
    tables INTEGER CONSTRAINT "this is no office: a table is missing" CHECK (tables = 5),
    integrity TEXT CONSTRAINT "the database is damaged" CHECK (integrity = 'ok')
);
INSERT INTO file VALUES (
    (SELECT coalesce(length(readfile(file || '-wal')), 0) FROM pragma_database_list WHERE name = 'main'),
    (
        SELECT count(*) FROM main.sqlite_schema
        WHERE type = 'table' AND lower(name) IN ('meta_row', 'name_row', 'pair_row', 'grant_row', 'set_row')
    ),
    (SELECT group_concat(integrity_check) FROM pragma_integrity_check)
);

.read tools/rows.sql

CREATE TEMP TABLE office (
    version INTEGER CONSTRAINT "this is no office of version 1 or 2" CHECK (version IS NOT NULL AND version IN (1, 2)),
    locks INTEGER CONSTRAINT "this is no office: the table of locks is missing" CHECK (locks >= version - 1),
    faults INTEGER CONSTRAINT "this is no good office: rbac check says why" CHECK (faults = 0)
);
INSERT INTO office VALUES (
    (SELECT number FROM version),
    (SELECT count(*) FROM main.sqlite_schema WHERE type = 'table' AND lower(name) = 'locked_row'),
    (SELECT count(*) FROM fault)
);

-- How a report shows each session. Whoever knows the name of a session can use it, so a report has a digest in its place: the
-- first 32 hexadecimal digits of the SHA3-256 of the name. If the parameter @with_sessions is 1, a report has the name:
--     sqlite3 -readonly -cmd '.parameter set @with_sessions 1' 'file:COPY?immutable=1' < tools/sessions.sql
CREATE TEMP TABLE shown_session (name, shown, PRIMARY KEY (name)) WITHOUT ROWID;
INSERT INTO shown_session
SELECT name, iif(@with_sessions, name, lower(hex(substr(sha3(name, 256), 1, 16)))) FROM session;
