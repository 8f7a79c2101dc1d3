-- A picture of the roles and of the separation of duty sets, as Graphviz text.
--
--     sqlite3 -readonly 'file:COPY?immutable=1' < tools/picture.sql | dot -Tsvg > roles.svg
--
-- Run it in the folder of the repository, on a copy that `rbac check` calls good. It reads the copy and does not write it.
--
-- A box is a role, with how many users are assigned to it and authorized for it. An arrow leads from a role to one that it
-- inherits from. An ellipse is a set, filled if it is dynamic, with its cardinality; dashed lines lead to its members.

.bail on
.read tools/office.sql
.mode list
.headers off

-- Each role and each set with a name for Graphviz, and its own name as Graphviz reads it in a label: `\`, `"` and `&` mean
-- something else there.
CREATE TEMP VIEW label(name, text) AS
SELECT name, replace(replace(replace(name, '\', '\\'), '"', '\"'), '&', '&amp;')
FROM (SELECT name FROM role UNION SELECT name FROM duty_set);
CREATE TEMP TABLE node AS
SELECT 'role' AS kind, name, 'r' || row_number() OVER (ORDER BY name) AS id FROM role
UNION ALL
SELECT kind, name, 's' || row_number() OVER (ORDER BY kind DESC, name) FROM duty_set;

SELECT 'digraph roles {
    rankdir = TB; nodesep = 0.4; ranksep = 0.5;
    node [fontname = "sans-serif", fontsize = 12]; edge [arrowsize = 0.8];';

SELECT printf('    %s [shape = box, style = rounded, label = "%s\nusers: %d assigned, %d authorized"];', id, text,
    (SELECT count(*) FROM assignment WHERE role = node.name),
    (SELECT count(DISTINCT user) FROM authorized WHERE role = node.name))
FROM node JOIN label USING (name) WHERE kind = 'role' ORDER BY name;

SELECT printf('    %s [shape = ellipse, color = firebrick, %slabel = "%s set %s\ncardinality %d"];', id,
    iif(kind = 'dynamic', 'style = filled, fillcolor = mistyrose, ', ''), kind, text, cardinality)
FROM node JOIN duty_set USING (kind, name) JOIN label USING (name) ORDER BY kind DESC, name;

SELECT printf('    %s -> %s;', upper.id, lower.id)
FROM inheritance
JOIN node AS upper ON upper.kind = 'role' AND upper.name = ascendant
JOIN node AS lower ON lower.kind = 'role' AND lower.name = descendant
ORDER BY ascendant, descendant;

SELECT printf('    %s -> %s [dir = none, style = dashed, color = firebrick];', one.id, many.id)
FROM member
JOIN node AS one ON one.kind = member.kind AND one.name = duty_set
JOIN node AS many ON many.kind = 'role' AND many.name = role
ORDER BY member.kind DESC, duty_set, role;

SELECT '}';
