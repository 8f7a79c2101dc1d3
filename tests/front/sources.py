"""The sources of the front, compared with its pages. These checks need no Go."""

import re

from pages import markdown
from program.bench import TESTS

SERVER = TESTS.parent / "server"
SOURCES = SERVER / "internal"
PAGE = markdown.page("reference/front.md") + markdown.page("howto/callers.md")
LISTS = markdown.page("reference/lists.md")


def text_of(*names):
    return "".join((SOURCES / name).read_text(encoding="utf-8") for name in names)


def all_sources():
    """All sources of the server, without its libraries."""
    return "".join(path.read_text(encoding="utf-8") for folder in ("cmd/rbac-node", "internal") for path in sorted((SERVER / folder).rglob("*.go")))


def keys_of_functions():
    """The keys of each function, by the table in the sources."""
    found = {}
    for table in re.findall(r"(?:commands|questions) += `(.*?)`", text_of("api/table.go"), re.S):
        for row in table.strip().splitlines():
            keys, _, names = row.partition(":")
            found.update({name: keys.split() for name in names.split()})
    return found


def check_functions(bench):
    """The front has the 51 functions."""
    bench.same("how many functions", len(keys_of_functions()), 51)


def check_refusals(bench):
    """The refusals of the front are those of the page."""
    found = re.findall(r'Refusal\{Status: http\.Status(\w+), Code: (\d+), Name: "(\w+)"\}', text_of("api/api.go"))
    for _, code, name in found:
        if name not in ("Diverged", "UnknownFunction"):
            bench.same(f"{code} {name}", f"{code} {name}" in PAGE or f'"code":{code},"error":"{name}"' in PAGE, True)
    bench.same("how many", len(found), 9)


def check_limits(bench):
    """The limits on the page are those of the sources."""
    page, sources = markdown.in_one_line(PAGE + LISTS + markdown.page("howto/record.md")), all_sources()
    for source, text in [
        (
            "RequestTimeout, headTimeout = 10 * time.Second, 5 * time.Second",
            "5 seconds to send a head and 10 to send a whole request",
        ),
        ("writeTimeout = 10 * time.Second", "10 seconds to take an answer"),
        ("idleTimeout  = 2 * time.Minute", "may be idle for 2 minutes"),
        ("defaultConnections = 20_000", "(default: 20,000, or what the limit of file descriptors allows)"),
        ("endTimeout = 10 * time.Second", "the requests in flight, for up to 10 seconds"),
        ("defaultCallerRequests = 64", "64 requests in flight (`--caller-requests`)"),
        ("mostLarge, mostLargeOfOne = 64, 16", "16 requests for lists and snapshots at once"),
        ("MostKeyBits = 8192", "8,192 bits"),
        ("mostEvents, mostEventBytes = 10_000, 8 << 20", "or as many as have 8 MiB"),
        ("mostCallers = 1000", "at most 1,000 callers"),
        ("longestJWT = 8192", "A JWT** has at most 8,192 bytes"),
        ("MaxLineBytes = 65_536", "a line of at most 65,536 bytes"),
        ("MostReads = 900_000_000", "1,000,000,000 reads"),
        ("mostBytes = 4 << 20", "have 4 MiB each at most"),
        ("mostLines, mostOfCaller = 200, 20", "200 lines are written for one second, of one caller 20"),
        ("mostRefused = 1024", "of more than 1,024 bytes only this is recorded"),
        ("begunBytes = 256", "its first 256 bytes at `begins`"),
        ("Reserve = 16 << 20", "16 MiB of the disk"),
        ("mostSyslog = 7500", "has at most 7,500 bytes"),
        ("longestReason = 256", "up to 256 bytes of UTF-8"),
        ("nobody = 65534", "65534, which is nobody"),
        ("silenceTimeout = 5 * time.Second", "the replay has answered none for 5 seconds"),
    ]:
        bench.same(f"{source} and {text}", (source in sources, text in page), (True, True))
