"""What the front itself lists, its options and metrics, is what its pages list. Those of a node over etcd are beside them."""

import re

import pytest

from pages import markdown
from program.bench import TESTS

from .monitored import used_front
from .program import refused_start

PAGES = {name: markdown.page(name) for name in ("reference/front.md", "howto/callers.md", "howto/cluster.md")}

# Options of other programs on the pages: of etcd, etcdctl, curl, useradd, systemctl, bin/node and the tests; and of `record adopt` and
# `setup`.
OTHERS = {
    "advertise-client-urls", "build", "by", "cacert", "cert-file", "data-dir", "dns", "endpoints", "force-new-cluster", "gate", "home-dir",
    "initial-advertise-peer-urls", "initial-cluster", "initial-cluster-state", "initial-cluster-token", "key-file", "listen-client-urls",
    "listen-peer-urls", "long", "now", "part", "peer-", "peer-urls", "prefix", "print-value-only", "quota-backend-bytes", "reason", "retry",
    "retry-all-errors", "shell", "system", "trusted-ca-file", "unix-socket", "version", "without-later-commands",
}  # fmt: skip

# Options whose default depends on the machine, or on the kind of office.
DEPENDING = {"connections", "name", "refused"}


def options():
    """The options of `serve` and `callers` as their help lists them, each with its default if it is one word."""
    said = "".join(refused_start(word, "--help")[1] for word in ("serve", "callers"))
    found = re.findall(r"^  --([a-z-]+)(?: \S+)?\n {8}.*?(?: \(default: ([^ ]+?)\).*)?$", said, re.M)
    return {name: re.sub(r"(?<=h)0m0s$|(?<=m)0s$", "", default) for name, default in found}


def listed_options():
    """The options that the tables of both pages list, each with its default if it is one word."""
    rows = markdown.tables(markdown.section(PAGES["reference/front.md"], "## 7. Options"))[0]
    rows += [row for table in markdown.tables(PAGES["howto/cluster.md"]) for row in table if row[0].startswith("`--")]
    found = {}
    for names, text in rows:
        default = re.search(r"\(default: ([\w.:,]+)\)", text)
        *others, last = re.findall(r"`--([a-z-]+)`", names)
        found |= dict.fromkeys(others, "") | {last: default[1].replace(",", "") if default else ""}
    return found


def check_options(bench):
    """The pages list each option with its default, and name no other one; so does the unit of the node."""
    known, listed = options(), listed_options()
    bench.same("the options", sorted(listed), sorted(known))
    for name in known.keys() & listed.keys() - DEPENDING:
        bench.same(f"the default of --{name}", listed[name], known[name])
    unit = (TESTS.parent / "deploy/rbac-node.service").read_text(encoding="utf-8")
    for place, text in {**PAGES, "the unit": unit}.items():
        used = set(re.findall(r"(?<![\w-])--([a-z][a-z-]+)", text))
        bench.same(f"options in {place} that are none", sorted(used - known.keys() - OTHERS), [])


def check_commands(bench):
    """Each command of the list has a help of its own, with no option twice, and refuses an option that isn't there by one line."""
    _, said, _ = refused_start("--help")
    names = re.findall(r"^  rbac-node ((?:record )?[a-z]+) ", said, re.M)
    bench.same("all commands", {"serve", "setup", "adopt", "callers", "health", "backup", "restore", "record verify", "record sign"} <= set(names), True)
    for name in names:
        status, out, said = refused_start(*name.split(), "--help")
        found = re.findall(r"^  --([a-z-]+)", out, re.M)
        bench.same(f"{name} --help", (status, out.startswith(f"rbac-node {name} "), said, sorted(set(found))), (0, True, "", sorted(found)))
        for option in found:
            bench.same(f"{name} --{option}", "not defined" in refused_start(*name.split(), f"--{option}", bench.path("none/x"))[2], False)
        status, out, said = refused_start(*name.split(), "--no-such-option")
        bench.same(f"{name}: another option", (status, out, said.count("\n"), f"rbac-node {name} --help" in said), (1, "", 1, True))
    for words in ([], ["fly"], ["record"], ["record", "fly"], ["fly", "--help"]):
        status, out, said = refused_start(*words)
        bench.same(f"{words}", (status, out, said.count("\n")), (2, "", 1))


def metrics_of(text):
    """The metrics of the node in what /metrics answers."""
    return set(re.findall(r"^# TYPE (rbac_\w+)", text, re.M))


def metrics_on(*pages):
    return set(re.findall(r"rbac_node_\w+", "".join(PAGES[page] for page in pages)))


@pytest.mark.needs("openssl")
def check_metrics(bench):
    """The page lists each metric of the front, and no other one."""
    (text,) = used_front(bench)
    bench.same("metrics of the page", sorted(metrics_on("reference/front.md", "howto/callers.md")), sorted(metrics_of(text)))
