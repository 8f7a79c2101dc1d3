"""What the units, the settings and the pages say about the same things. This needs no package."""

import re

from deploy.common import DEPLOY
from pages import markdown

# Where an office, its socket, its backups and its settings are.
PLACES = ["/var/lib/rbac/NAME", "/run/rbac/NAME.sock", "/var/backups/rbac/NAME", "/etc/rbac/NAME.conf"]


def check_settings(bench):
    """Each setting of default.conf is used by a unit, and each unit that reads it has the same default, but for the options of the front:
    an upgrade replaces units, and no office may begin to end sessions because of it."""
    settings = dict(re.findall(r"^(\w+)=(.*)$", (DEPLOY / "default.conf").read_text(encoding="utf-8"), re.M))
    used = set()
    for path in sorted(DEPLOY.glob("rbac-*@.service")):
        text = path.read_text(encoding="utf-8")
        names = set(re.findall(r"\$\{?([A-Z]+)\}?", text)) - {"MAINPID"}
        used |= names
        bench.same(f"{path.name}: settings that are unknown", names - set(settings), set())
        defaults = dict(re.findall(r"^Environment=(\w+)=(.*)$", text, re.M))
        wanted = {name: value for name, value in settings.items() if name in names and name != "OPTIONS"}
        bench.same(f"{path.name}: its defaults", defaults, wanted)
        files = re.findall(r"^EnvironmentFile=(.*)$", text, re.M)
        wanted = ["-/etc/rbac/default.conf", "-/etc/rbac/%i.conf"] if names else []
        bench.same(f"{path.name}: the settings of one office win", files, wanted)
    bench.same("settings that are used", used, set(settings))


def check_page(bench):
    """The pages about installing and operating name the units, and where the units and the package have everything."""
    page = markdown.in_one_line(markdown.page("howto/install.md") + markdown.page("howto/operate.md"))
    for words in (*PLACES, "keeps the last 48", "8080"):
        bench.same(f"the pages name {words}", words in page, True)
    units = "".join(path.read_text(encoding="utf-8") for path in DEPLOY.glob("rbac-*@.*"))
    for words in (*(place.replace("NAME", "%i") for place in PLACES), "BACKUPS=48", "PORT=8080"):
        bench.same(f"the units name {words}", words in units, True)
