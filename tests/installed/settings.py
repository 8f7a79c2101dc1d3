"""The settings of the package: a new installation ends sessions, and an upgrade changes no settings, whoever wrote them."""

import shutil
import subprocess
from pathlib import Path

import pytest

from deploy.installed import CHANGED_ROOT, on_layer
from needs import skip

from .running import made, older

# The settings of packages whose upgrade replaces them unless somebody has changed them.
EARLIER = b"""# The settings of all offices of this machine.
OPTIONS=
BACKUPS=48
PORT=8080
"""

SCRIPT = """
cd /mnt/repository
settings=/etc/rbac/default.conf
quietly() { DEBIAN_FRONTEND=noninteractive "$@" < /dev/null > /mnt/quiet 2>&1 || cat /mnt/quiet; }
options() { echo "$1: $(OPTIONS=none; . "$settings"; echo "$OPTIONS")"; }
purge() { quietly dpkg --purge rbac; ls "$settings" 2> /dev/null; }
quietly dpkg -i "$new"; options new; stat -c '%U %a' "$settings"
sed -i 's/^OPTIONS=.*/OPTIONS=--no-record/' "$settings"; quietly dpkg -i "$new"; options 'changed, and installed again'
rm "$settings"; quietly dpkg -i "$new"; ls "$settings" 2> /dev/null || echo 'removed, and installed again: none'
purge
quietly dpkg -i "$old"; options old; quietly dpkg -i "$new"; options 'unchanged, and upgraded'
quietly dpkg --remove rbac; quietly dpkg -i "$new"; options 'removed, and installed again'
purge
quietly dpkg -i "$old"; echo 'OPTIONS=--no-record' > "$settings"; quietly dpkg -i "$new"; options 'changed, and upgraded'
purge
quietly dpkg -i "$new"; options 'new again'
"""

SAID = """new: --session-idle 8h --session-age 24h
root 644
changed, and installed again: --no-record
removed, and installed again: none
old: 
unchanged, and upgraded: 
removed, and installed again: 
changed, and upgraded: --no-record
new again: --session-idle 8h --session-age 24h
"""


def with_settings(package, folder):
    """Makes an older package whose settings are a file of the package."""
    path, tree = older(package, folder), folder / "settings"
    subprocess.run(["dpkg-deb", "-R", path, tree], check=True)
    (tree / "etc/rbac").mkdir(parents=True, exist_ok=True)
    (tree / "etc/rbac/default.conf").write_bytes(EARLIER)
    (tree / "DEBIAN/conffiles").write_text("/etc/rbac/default.conf\n", encoding="ascii")
    command = ["dpkg-deb", "--root-owner-group", "-Zgzip", "-z1", "--build", tree, path]
    subprocess.run(command, check=True, stdout=subprocess.DEVNULL)
    shutil.rmtree(tree)
    return path


@pytest.mark.gate
@pytest.mark.needs("root", "layers")
def check_settings(bench):
    """A new installation ends sessions. An upgrade of a package whose settings nobody has changed, or somebody has, changes no option."""
    folder = Path(bench.path("older"))
    folder.mkdir()
    new, old = made()[0], with_settings(made()[0], folder)
    script = f"new={new.name} old={old.name}\n{SCRIPT}"
    done = on_layer(bench, CHANGED_ROOT, script, new, old)
    if not done:
        skip("layers")
    bench.same("what is said", done.out.decode(), SAID)
