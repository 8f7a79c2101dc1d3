"""The limits of an office: the table beside the front is what the definition says, and all others have them from that table.

Whoever changes a limit changes server/internal/limits/limits.csv, and runs `bin/limits` and `bin/openapi`.
"""

import re
import sys

from machine.limits import SCRIPTS
from machine.state import COUNTED, LIMITS, MOST

from . import markdown, sources
from .architecture import said_by

sys.path.insert(0, str(sources.ROOT / "bin"))
from definitions import CRATES, definitions, plain  # noqa: E402

# Where a page or another text names limits: what it says, with the kinds in place of the numbers.
QUOTED = {
    "README.md": [
        "at most {user} users and {assignment} assignments, which is one role for each user; {role} roles; {object} objects; "
        "{permission} permissions; {grant} grants; and {session} sessions"
    ],
    "CHANGELOG.md": ["an office has room for {session}."],
    "bench/cluster": ["an office has room for {user} users."],
    "deploy/default.conf": ["an office has room for {session}."],
    "docs/DECISIONS.md": ["at {role} roles the copy takes"],
    "docs/howto/audit.md": ["each of {assignment} assignments can give {grant} grants"],
    "docs/howto/console.md": ["with {role} roles in a chain"],
    "docs/howto/install.md": ["an office has room for {session}."],
    "docs/howto/integrate.md": ["An office has at most {session} sessions, and a session {activeRole} activated roles."],
    "docs/howto/operate.md": ["at {session} nobody can log in"],
    "docs/howto/policy.md": ["If there are {ssdSet} sets of its sort", "If there are {dsdSet} sets of its sort"],
    "docs/reference/front.md": ["at {session} nobody can log in"],
    "docs/reference/lists.md": ["a chain of {role} roles"],
    "docs/reference/requests.md": [
        '`"kind":"activeRole"` at {activeRole} activated roles',
        "the limit of {activeRole} doesn't allow",
    ],
    "docs/tutorial/secured-front.md": ["an office has room for {session}."],
}

# What looks like a limit: a number with what it counts, or one that is called so.
NOUNS = {
    "users": ["user"], "roles": ["role", "activeRole", "member"], "objects": ["object"], "permissions": ["permission"], "grants": ["grant"],
    "assignments": ["assignment"], "inheritances": ["edge"], "edges": ["edge"], "sets": ["ssdSet", "dsdSet"], "members": ["member"],
    "sessions": ["session"], "records": ["record"],
}  # fmt: skip
COUNTING = re.compile(
    rf"(?<![\d,.])(\d[\d,]*)((?: \w+)??) ({'|'.join(NOUNS)})\b|\b(?:room for|limit of|at) (\d[\d,]*)(?![\d,]*\d)"
)

# The same numbers in programs that can't read the table, as they write them.
WRITTEN = {
    "bench/office.rs": [
        f"pub const {name}: usize = {{{kind}:_}};" for name, kind in {
            "USERS": "user", "ROLES": "role", "OBJECTS": "object", "PERMISSIONS": "permission", "GRANTS": "grant", "ASSIGNMENTS": "assignment",
            "EDGES": "edge", "SETS": "ssdSet", "MEMBERS": "member", "SESSIONS": "session", "ACTIVE_ROLES": "activeRole", "RECORDS": "record",
        }.items()
    ],
    "bench/access_limit.rs": ["const MOST_ROLES: usize = {role:_};"],
    **dict.fromkeys(["bench/order.rs", "bench/order.rt.bench", "bench/sets.rs", "bench/sets.rt.bench"], ["const ROLES: usize = {role:_};"]),
    "tests/office/csv.rt.test": ["const MOST_BYTES: usize = {byte:_};", "text(alloc, {record:_}, "],
    "tests/office/commands/limits.rt.test": [
        '"{user} addUser u# = 0"', '"{old[user]} addUser u# = 0"', "{permission} addPermission safe p# = 0",
        " {permission} grantPermission safe p@ r# = 0",
    ],
    "tests/office/commands/separation.rt.test": ["{ssdSet} createXsdSet t# r1,r2 2 = 0", "{dsdSet} createXsdSet t# ", "createXsdSet pay r*{member} 2 = 0"],
}  # fmt: skip

# The scripts of the tests in Rattle that have the lines of those of the plain model, by their names.
ALIKE = {
    "roles": "roles",
    "objects": "objects",
    "edges": "edges",
    "sessions": "sessions",
    "activated_roles": "activated roles",
    "activated_roles_count_without_their_juniors": "activated roles without their juniors",
}


def defined(name):
    """What a definition of the kinds says of each kind, by its variant, in its order: the parameters behind it, and the value."""
    text = definitions(plain(CRATES / "rbac_sets/specs/Kind.antt", "--"))[name]
    found = re.findall(rf"^{name} (\w+)(.*?) = (.*)$", text, re.M)
    if not found:
        raise ValueError(f"{name} has no line for a kind")
    return {kind: (parameters.strip(), value) for kind, parameters, value in found}


def computed(value, version):
    """A number that depends on the version."""
    condition = re.fullmatch(r"if version == (\d+) then (\d+) else (.*)", value)
    if condition:
        return int(condition[2]) if int(condition[1]) == version else computed(condition[3], version)
    return int(value)


def check_definition(bench):
    """The table has the kinds of the definitions in their order, by their words, with the limits of each version."""
    words, limits = defined("word_of"), defined("limit_of")
    bench.same("the kinds", [f'codes "{kind}"' for kind in LIMITS], [value for _, value in words.values()])
    bench.same("the kinds that have a limit", list(limits), list(words))
    for (kind, given), (parameters, value) in zip(LIMITS.items(), limits.values(), strict=True):
        bench.same(f"the parameter of {kind}", parameters, "version")
        bench.same(f"{kind}: {value}", list(given), [computed(value, version) for version in range(1, len(given) + 1)])
        versions = [int(number) for number in re.findall(r"version == (\d+)", value)]
        bench.same(f"versions of {kind} without a column", [one for one in versions if one > len(given)], [])


def check_table(bench):
    """The table of the API's page has each kind with its limits in each version, and says what it counts."""
    text = markdown.section(markdown.page("reference/api.md"), "### Sizes and limits")
    (heads,) = re.findall(r"^\| Kind \|(.*)\| What is counted \|$", text, re.M)
    versions = [int(number) for number in re.findall(r"Version (\d)", heads)]
    bench.same("the versions", sorted(versions), list(range(1, len(LIMITS["user"]) + 1)))
    said = {kind.strip("`"): cells for kind, *cells in markdown.tables(text)[1]}
    wanted = {kind: [*(f"{limits[version - 1]:,}" for version in versions), COUNTED[kind]] for kind, limits in LIMITS.items()}
    bench.same("the rows", list(said.items()), list(wanted.items()))


def check_copies(bench):
    """The copy of the clients in Python is the table byte for byte, and the tools for auditors have what bin/limits writes."""
    copy = (sources.ROOT / "clients/python/rbac_policy/limits.csv").read_bytes()
    bench.same("the copy: bin/limits renews it", copy, (sources.ROOT / "server/internal/limits/limits.csv").read_bytes())
    bench.same("bin/limits --check", said_by("bin/limits", "--check"), (0, ""))


def texts():
    """The pages, and other texts that may name limits, each in one line."""
    paths = [*sorted(markdown.DOCS.rglob("*.md")), *(sources.ROOT / name for name in QUOTED if not name.startswith("docs/"))]
    for path in paths:
        yield str(path.relative_to(sources.ROOT)), re.sub(r"\s+(?:# )?", " ", path.read_text(encoding="utf-8"))


def is_limit(words):
    """Whether what COUNTING has found is a limit of what it counts."""
    number, _, noun, called = words
    return int((number or called).replace(",", "")) in ([MOST[kind] for kind in NOUNS[noun]] if noun else MOST.values())


def check_quoted(bench):
    """Each limit that a page names is that of the table, and no page names another one."""
    numbers = {kind: f"{most:,}" for kind, most in MOST.items()}
    for name, text in texts():
        quoted = [words.format_map(numbers) for words in QUOTED.get(name, [])]
        for said in quoted:
            bench.same(f"{name} states: {said}", said in text, True)
        for said in quoted:
            text = text.replace(said, "")
        if name != "docs/reference/api.md":
            found = ["".join(match[0]) for match in COUNTING.finditer(text) if is_limit(match.groups(""))]
            bench.same(f"limits in {name} that QUOTED lacks", found, [])
    bench.same("one role for each user, as README.md says", MOST["assignment"], MOST["user"])


def check_written(bench):
    """Programs that can't read the table have its numbers."""
    old = {kind: limits[0] for kind, limits in LIMITS.items()}
    for name, lines in WRITTEN.items():
        text = (sources.ROOT / name).read_text(encoding="utf-8")
        for line in lines:
            said = line.format(**MOST, old=old)
            bench.same(f"{name} has {said}", said in text, True)


def check_rattle(bench):
    """The tests in Rattle have the table, and lead to the limits by the scripts with which the plain model is tested."""
    text = (sources.ROOT / "tests/office/published.rt.test").read_text(encoding="utf-8")
    rows = [
        f'(Kind::{kind[0].upper()}{kind[1:]}, "{kind}", {", ".join(f"{most:_}" for most in limits)}),'
        for kind, limits in LIMITS.items()
    ]
    bench.same("the table", re.findall(r"^ +(\(Kind::.*)$", text, re.M), rows)
    text = (sources.ROOT / "tests/office/commands/limits.rt.test").read_text(encoding="utf-8")
    for name, script in ALIKE.items():
        (found,) = re.findall(rf'^fn {name}\(.*?let script = "(.*?)";', text, re.M | re.S)
        bench.same(
            f"the lines of {name}", *(sorted(map(str.strip, one.strip().splitlines())) for one in (found, SCRIPTS[script]))
        )
