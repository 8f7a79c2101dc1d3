"""Broken consoles, each an edit of the sources, and the check that finds it. Without `--long` only the places of the edits are looked at.

With `--long` each is built and tried by its check, which has to say what is wrong. An edit is found however its place is broken into
lines and spaced.
"""

import os
import re
import shutil
from importlib import import_module

import pytest

from front.running import PROGRAM, build
from program.bench import TESTS, Bench

from .running import LONG

ROOT = TESTS.parent
SITE = "console/site/"

# The edits: a file, a text that occurs in it once, the text that replaces it, the check, and how the message of the check begins.
BREAKS = {
    "a list of a review with formulas": (
        SITE + "files.js", "('*[=+\\-@＝＋－＠])/g", "('*[=])/g", "reviews.check_names", "-2+3 in the CSV",
    ),
    "a list of a review in which two names are the same": (
        SITE + "files.js", "('*[=+\\-@＝＋－＠])/g", "([=+\\-@＝＋－＠])/g", "reviews.check_names", "'=1 in the CSV",
    ),
    "a report with formulas": ("reports/write.go", '"=+-@＝＋－＠"', '"=+-＝＋－＠"', "reports.check_names", "formulas in the file"),
    "buttons on paper": (
        SITE + "style.css", "#notice, form, button, td fieldset", "#notice, form, td fieldset", "reviews.check_print", "nothing to press",
    ),
    "forms on paper": (
        SITE + "style.css", "#notice, form, button, td fieldset", "#notice, button, td fieldset", "looks.check_print", "what can be pressed",
    ),
    "a review on paper without room to sign": (
        SITE + "style.css", "  .paper { display: revert; }\n", "", "reviews.check_print", "room to sign",
    ),
    "a review on paper without decisions": (
        SITE + "review.js", 'h("span", { class: "paper" }, wordsOf(line))', 'h("span", { class: "paper" })', "reviews.check_print", "decisions on paper",
    ),
    "a part of a review on paper": (SITE + "review.js", "() => lines(true)]", "() => lines()]", "reviews.check_print", "the list on paper"),
    "a report on paper without room to sign": (
        SITE + "style.css", "  .sign { display: block; }\n", "", "reports.check_task", "its text",
    ),
    "a review that is there after the logout": (
        SITE + "app.js", "    logout();\n    forgetReview();\n", "    logout();\n", "reviews.check_rights", "nothing is left of it",
    ),
    "a review without new assignments": (
        SITE + "review.js", "            found.lines.push(newLine(row, true));\n", "", "reviews.check_course", "what is different",
    ),
    "a review that takes new assignments for old ones": (
        SITE + "review.js", "found.lines.push(newLine(row, true));", "found.lines.push(newLine(row));", "reviews.check_course", "what is different",
    ),
    "a review in which what is assigned again stays removed": (
        SITE + "review.js", "            Object.assign(line, newLine(row, true)); // Somebody has assigned it again.\n", "",
        "reviews.check_assigned_meanwhile", "all are there",
    ),
    "lists that are not read to their end": (
        SITE + "api.js", "found[i].next && queries[i][1]?.limit === undefined", "false", "many.check_role", "no senior role",
    ),
    "locked users who may do something": (
        SITE + "objects.js", "!isLocked.has(one) && usable", "usable", "hierarchy.check_locked", "dave",
    ),
    "users who may do what no session can": (
        SITE + "objects.js", "roles.filter((each) => !violated(each))", "roles", "hierarchy.check_objects", "who may: ",
    ),
    "senior roles that a set bars and nobody names": (
        SITE + "hierarchy.js", "for (const role of reached(this.seniors, member))", "for (const role of [member])", "hierarchy.check_users", "barred",
    ),
    "a notice that stays when an action begins": (
        SITE + "parts.js", "    last = control;\n    hush();", "    last = control;", "notices.check_gone", "not in 12.0 seconds: the notice is gone by the next action",
    ),
    "a notice above the page": (
        SITE + "style.css", "#notice > div { border-top", "#notice > div { position: fixed; bottom: 0; width: 100%; border-top", "notices.check_covers", "covered at",
    ),
    "an answer that is lost when something is read": (
        SITE + "parts.js", "error.isChange ? LOST : UNREAD", "LOST", "notices.check_lost", "a file",
    ),
    "an answer of something in between": (
        SITE + "api.js", "if (!reply.ok && isRefusal(answer) && !UNKNOWN.has(answer.code)) {", "if (!reply.ok) {", "answers.check_done", "502: ",
    ),
    "a command that is refused since the browser has sent it again": (
        SITE + "parts.js", "isLost || mayBeRepeated(error) ? await", "isLost ? await", "answers.check_again", "a user: ",
    ),
    "a page of two revisions": (
        SITE + "api.js", "if (!reading.isMixed || count === MOST_READINGS) {", "if (count === 1) {", "revisions.check_role", "no senior role: ",
    ),
    "a user who is deleted though somebody else has made it": (
        SITE + "users.js", ", revision: reading.revision })));", " })));", "revisions.check_deleted", "Delete frank: ",
    ),
    "a review that keeps what is gone": (
        SITE + "review.js", 'now.has(keyOf(line)) ? "" : "gone"', '""', "reviews.check_assigned_meanwhile", "erin is gone",
    ),
}  # fmt: skip


# What tells words and signs apart, however they are spaced.
TOKEN = re.compile(r"\w+|[^\w\s]")


def place_of(old):
    """A pattern of a text, with any white space between its words and signs."""
    return re.compile(r"\s*".join(re.escape(one) for one in TOKEN.findall(old)))


def edited(bench, name):
    """The path of the file that an edit changes, below server/internal, and its text with the edit."""
    file, old, new, *_ = BREAKS[name]
    text, count = place_of(old).subn(lambda _: new, (ROOT / "server/internal" / file).read_text(encoding="utf-8"))
    bench.same("the places of the edit", count, 1)
    return file, text


def broken(bench, file, text):
    """A copy of what builds the front, with another text in a file."""
    root = bench.folder / "sources"
    for one in ("node", "vendor", "library"):
        (root / "bin").mkdir(parents=True, exist_ok=True)
        shutil.copy(ROOT / "bin" / one, root / "bin" / one)
    for one in ("server", "library", "release", "clients/go"):
        shutil.copytree(ROOT / one, root / one)
    shutil.copy(ROOT / "VERSION", root / "VERSION")
    (root / "server/internal" / file).write_text(text, encoding="utf-8")
    return root


def faults_of(folder, check, program):
    """What a check finds with another program: what it compares, or that it does not come to its end."""
    folder.mkdir()
    inner = Bench(folder)
    module, function = check.split(".")
    usual, os.environ[PROGRAM] = os.environ[PROGRAM], program
    try:
        getattr(import_module(f"console.{module}"), function)(inner)
    except TimeoutError as error:
        inner.faults.append(f"{error}")
    finally:
        os.environ[PROGRAM] = usual
    return inner.faults


@pytest.mark.parametrize("name", BREAKS)
def check_break(bench, name):
    """A broken console is found by its check."""
    file, text = edited(bench, name)
    if os.environ.get(LONG):
        *_, check, said = BREAKS[name]
        program = build(bench.folder, broken(bench, file, text))
        found = faults_of(bench.folder / "tried", check, program)
        bench.judge(f"{check} finds {name}", [] if any(one.startswith(said) for one in found) else [f"it finds {found}"])


def check_places(bench):
    """The place of an edit is found when the sources are broken into lines in another way."""
    for old, text, count in [
        ("one(two, [3]);", "one(\n    two,\n    [ 3 ]\n);", 1), ("one(two);", "one (two) ; one(two);", 2), ("one(two);", "one(twos);", 0),
        ("/^'*[=+\\-@]/", "x = /^'*[=+\\-@]/.test(text)", 1),
    ]:  # fmt: skip
        bench.same(f"{old} in {text}", len(place_of(old).findall(text)), count)
