"""The sources of rbac-node, compared with the pages. These checks need neither Go nor etcd."""

import json
import re

from front.sources import all_sources
from program.bench import TESTS

SOURCES = TESTS.parent / "server/internal"


def check_functions(bench):
    """The functions of the node are those of the pages, with commands and questions apart."""
    text = (SOURCES / "api/table.go").read_text(encoding="utf-8")
    paths = json.loads((TESTS.parent / "docs/openapi.json").read_text(encoding="utf-8"))["paths"]
    for kind in ("commands", "questions"):
        table = re.search(rf"{kind} += `(.*?)`", text, re.S)[1]
        given = re.sub(r"^.*?:", "", table, flags=re.M).split()
        wanted = [path[len("/v1/") :] for path, methods in paths.items() for one in methods.values() if one["tags"] == [kind]]
        bench.same(kind, sorted(given), sorted(wanted))


def check_length(bench):
    """The page is short."""
    page = (TESTS.parent / "docs/howto/cluster.md").read_text(encoding="utf-8")
    bench.same("a page of under 420 lines", page.count("\n") < 420, True)


def check_limits(bench):
    """The intervals and limits on the page are those of the sources."""
    page = " ".join((TESTS.parent / "docs/howto/cluster.md").read_text(encoding="utf-8").split())
    sources = all_sources()
    for source, text in [
        ('"every", 10_000', "After each 10,000 commands"),
        ('"every-bytes", 64<<20', "after each 64 MiB of commands since the last snapshot"),
        ('"hang-timeout", time.Minute', "that answers nothing for a minute"),
        ("maxSnapshots = 3", "A node keeps three snapshots"),
        ("member.Snapshots[1].Revision", "the commands after the last snapshot but one"),
        ('"timeout", 10*time.Second', "mostly within 10 seconds"),
        ("maxReadyAge = 3 * time.Second", "`rbac_node_age_seconds` | it is above 3"),
        ('Code: 60, Name: "Unavailable"', '503 with `{"code":60,"error":"Unavailable"}`'),
        ('Code: 61, Name: "Diverged"', '503 with `{"code":61,"error":"Diverged"}`'),
    ]:
        bench.same(f"{source} and {text}", (source in sources, text in page), (True, True))
