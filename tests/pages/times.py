"""Times on the pages: each that was measured is in a section that names a date, a disk and the sizes of the office."""

import re

from . import markdown, sources

PAGES = ["README.md"]
PAGES += ["docs/reference/api.md", *(f"docs/howto/{name}.md" for name in ("audit", "cluster", "integrate", "operate"))]

# A time, or a rate.
TIME = r"(?<![\w.,-])\d[\d,.]*(?: to \d[\d,.]*)? ?(?:microseconds|milliseconds|us|ms|seconds|s|minutes|hours)\b"
RATE = r"(?<![\w.,-])\d[\d,.]* (?:decisions )?a second\b"
VAGUE = r"\b(?:takes?|took|in|over|about) (?:a|an|half an?) (?:second|minute|hour)\b"

# The times that nobody measured: they are settings of the program and of what is beside it, or promises.
SETTINGS = {
    "docs/reference/api.md": ["5 seconds"],
    "docs/howto/cluster.md": ["10 seconds", "30 seconds", "90 seconds", "10 s"],
    "docs/howto/integrate.md": ["3 seconds", "5 seconds", "10 seconds", "100 seconds"],
    "docs/howto/operate.md": ["10 seconds", "30 seconds", "60 seconds"],
}

# What a section has to name beside a time.
NAMED = {
    "a date": r"\b20\d\d-\d\d-\d\d\b",
    "a disk": r"\b(?:ext4|tmpfs|in memory|on a disk)\b",
    "sizes": r"\b(?:\d[\d,]* users|one user|the limits)\b",
}


def parts(text):
    """The sections of a page, by their headings, without what is in blocks of code."""
    plain = re.sub(r"^```.*?^```$", "", text, flags=re.M | re.S)
    return {part.partition("\n")[0]: markdown.in_one_line(part) for part in re.split(r"^## ", plain, flags=re.M)}


def measured(path, text):
    """The times of a section that are not settings."""
    found = [match[0] for pattern in (TIME, RATE, VAGUE) for match in re.finditer(pattern, text)]
    return [time for time in found if time not in SETTINGS.get(path, [])]


def check_measured(bench):
    """A section with a measured time names a date, a disk and sizes. Each setting that is listed here is on its page."""
    count = 0
    for path in PAGES:
        text = (sources.ROOT / path).read_text(encoding="utf-8")
        for setting in SETTINGS.get(path, []):
            bench.same(f"{path} has {setting}", setting in markdown.in_one_line(text), True)
        for heading, part in parts(text).items():
            times = measured(path, part)
            count += len(times)
            for what, pattern in NAMED.items() if times else ():
                bench.same(f"{path}, {heading}: beside {times} there is {what}", bool(re.search(pattern, part)), True)
    bench.same("times are found", count > 15, True)
