"""References of pages, sources and tools to a section of a page, and links with anchors: each leads to a heading that is there."""

import re
import subprocess

from . import sources

ROOT = sources.ROOT

# The folders of pages: one for each kind of reader.
FOLDERS = ("", "tutorial", "howto", "reference", "explanation")

# Files whose text is not ours, or is no text.
OTHERS = re.compile(
    r"^(LICENSE|release/NOTICES|crates\.txt)$|^tests/(rows|edits|inputs)/|\.(png|svg|ico|jsonl|answers|gz|tar|xz|rt|antt)$"
)

# What stands before the words of a comment that goes on in the next line.
CONTINUED = re.compile(r"\n[ \t]*(?:#|//|--|\*|;|\.\\\"|>)?[ \t]*")

# A page, with its link if it is one, and how a section follows it.
PAGE = r"((?:\.\./)*(?:[\w-]+/)*[\w-]+\.md)(?:\]\([^)\s]*\))?"
NUMBERS = r"[Ss]ections? (\d+(?:(?:, | and | to )\d+)*)(?!\.\d)"
OF_PAGE = re.compile(rf"{PAGE}(?:, |,? whose |,? has from | has )?{NUMBERS}")
BEFORE_PAGE = re.compile(rf"{NUMBERS} of \[?{PAGE}")
TITLED = re.compile(rf"{PAGE}, (?:section )?\"([^\"\n]+)\"")
BARE = re.compile(NUMBERS)
# A section of a standard, by its name before the number.
STANDARD = re.compile(r"(?:RFC \d+|INCITS 359-2012|PEP \d+),? $")
LINK = re.compile(r"\]\(([^)\s]*)#([^)\s]*)\)")
# A link to a file or a folder of the repository as a whole.
PLAIN_LINK = re.compile(r"\]\(([^)\s:#]+)\)")


def headings(page):
    """The headings of a page, without the signs before them and without what is shown as code."""
    text = re.sub(r"^(```+).*?^\1", "", page, flags=re.M | re.S)
    return [found.strip() for found in re.findall(r"^#{1,6} (.*)$", text, re.M)]


def anchor(heading):
    """The anchor that a heading gets where pages are shown."""
    return re.sub(r"[^\w\- ]", "", re.sub(r"[`*]|\]\([^)]*\)", "", heading).lower()).replace(" ", "-")


def numbers(text):
    """The numbers of sections that a reference names."""
    found = [int(one) for one in re.findall(r"\d+", text)]
    return list(range(found[0], found[-1] + 1)) if " to " in text else found


def path_of(name, page):
    """The path of a page that is named in a file, or None: beside the file, from the top, or in a folder of docs/."""
    for path in ((ROOT / name).parent / page, ROOT / page, *(ROOT / "docs" / folder / page for folder in FOLDERS)):
        if path.is_file():
            return path
    return None


def has_number(page, number):
    return any(heading.startswith(f"{number}. ") for heading in headings(page))


def has_title(page, title):
    return title in [re.sub(r"^\d+\. ", "", heading) for heading in headings(page)]


def faults_of(name, text):
    """The references of a file that lead nowhere, and how many references there are."""
    faults, count = [], 0
    line = CONTINUED.sub(" ", text)

    def judge(reference, page, holds):
        nonlocal count
        count += 1
        path = path_of(name, page)
        if path is None or not holds(path.read_text(encoding="utf-8")):
            faults.append(reference)

    taken = []
    for pattern, page_at, numbers_at in ((OF_PAGE, 1, 2), (BEFORE_PAGE, 2, 1)):
        for found in pattern.finditer(line):
            taken.append(found.span())
            for number in numbers(found[numbers_at]):
                judge(found[0], found[page_at], lambda page, number=number: has_number(page, number))
    for found in TITLED.finditer(line):
        judge(found[0], found[1], lambda page, title=found[2]: has_title(page, title))
    if name.endswith(".md"):
        for found in BARE.finditer(line):
            is_other = any(first <= found.start() < last for first, last in taken) or STANDARD.search(line[: found.start()])
            for number in [] if is_other else numbers(found[1]):
                judge(f"own {found[0]}", name, lambda page, number=number: has_number(page, number))
        for target, wanted in LINK.findall(text):
            if not target.startswith("http"):
                judge(f"{target}#{wanted}", target or name, lambda page, wanted=wanted: wanted in map(anchor, headings(page)))
        for target in PLAIN_LINK.findall(re.sub(r"^(```+).*?^\1", "", text, flags=re.M | re.S)):
            count += 1
            if not ((ROOT / name).parent / target).exists():
                faults.append(target)
    return faults, count


def files():
    """The files of the repository that may refer to a page."""
    done = subprocess.run(["git", "ls-files"], cwd=ROOT, capture_output=True, text=True, check=False)
    if done.returncode:
        return [path for path in ROOT.rglob("*") if path.is_file() and not {".git", "out"} & {*path.parts}]
    return [ROOT / name for name in done.stdout.splitlines() if (ROOT / name).is_file()]


def check_references(bench):
    """Each reference to a section leads to a heading of the page that it names."""
    count = 0
    for path in files():
        name = str(path.relative_to(ROOT))
        if OTHERS.search(name) or name == "tests/pages/sections.py":
            continue
        try:
            text = path.read_text(encoding="utf-8")
        except UnicodeDecodeError:
            continue
        faults, found = faults_of(name, text)
        count += found
        if found:
            bench.same(f"references of {name} that lead nowhere", faults, [])
    bench.same("there are references", count > 200, True)


def check_wrong_references(bench):
    """A wrong number, a page that is not there, a wrong title and a wrong anchor are found, however they are written."""
    for text, wrong in [
        ("as front.md, section 6, says", []),
        ("as front.md, section 16, says", ["front.md, section 16"]),
        ("as [front.md](front.md), section 16", ["front.md](front.md), section 16"]),
        ("(docs/NOWHERE.md, section 1)", ["docs/NOWHERE.md, section 1"]),
        ("Section 41 of docs/howto/operate.md", ["Section 41 of docs/howto/operate.md"]),
        ("front.md, sections 6 and 77", ["front.md, sections 6 and 77"]),
        ("front.md, sections 8 to 10", ["front.md, sections 8 to 10"]),
        ("-- see docs/howto/audit.md,\n-- section 99", ["docs/howto/audit.md, section 99"]),
        ("# docs/howto/audit.md, section\n# 99", ["docs/howto/audit.md, section 99"]),
        ("tests/README.md, \"The edits\", and tests/README.md, \"The fish\"", ['tests/README.md, "The fish"']),
        ("section 3, and section 33", ["own section 33"]),
        ("RFC 9110, section 33", []),
        ("[x](front.md#6-operating), [y](front.md#7-operating), [z](#3-where-it-listens), [w](#none)",
         ["front.md#7-operating", "#none"]),
        ("[a](NOWHERE.md#one)", ["NOWHERE.md#one"]),
        ("[a](api.md), [b](../howto/operate.md), [c](../../tests), [d](operate.md), [e](https://example.com/x.md)", ["operate.md"]),
    ]:  # fmt: skip
        bench.same(text, faults_of("docs/reference/front.md", text)[0], wrong)
    bench.same("a comment of SQL", faults_of("tools/x.sql", "-- model.md, section 3")[0], ["model.md, section 3"])
