"""The files of the console as they are in the repository. This check needs no front."""

import re

from program.bench import TESTS

SITE = TESTS.parent / "server/internal/console/site"
MOST_LINES, MOST_BYTES, LONGEST_FILE = 3_600, 200_000, 800


def check_size(bench):
    """The files are few and small, and name nothing from elsewhere."""
    texts = {path.name: path.read_text(encoding="utf-8") for path in SITE.iterdir()}
    lines = {name: text.count("\n") for name, text in texts.items()}
    bench.judge("lines", [f"{sum(lines.values())} lines"] if sum(lines.values()) >= MOST_LINES else [])
    bench.judge("lines of one file", [f"{name}: {count}" for name, count in lines.items() if count >= LONGEST_FILE])
    size = sum(path.stat().st_size for path in SITE.iterdir())
    bench.judge("bytes", [f"{size} bytes"] if size >= MOST_BYTES else [])
    foreign = r"https?://(?!www\.w3\.org/2000/svg)|innerHTML|outerHTML|insertAdjacentHTML|document\.write|eval\(|localStorage|sessionStorage|cookie"
    bench.judge(
        "what no file may have", [f"{name}: {found[0]}" for name, text in texts.items() if (found := re.findall(foreign, text))]
    )
    return {"lines of HTML, CSS and JavaScript": sum(lines.values()), "bytes of the console": size}
