"""A layer above the files of this machine, in which systemd may be booted: the commands of docs/howto/operate.md for nginx."""

import shutil

import pytest

from needs import skip
from pages import markdown
from program.bench import PROGRAM

from .common import DEPLOY, run

PAGE = markdown.section(markdown.page("howto/operate.md"), "## 8. A proxy before the program alone")

# A layer above the files of this machine, with the files that are installed.
LAYER = """
set -e
layer=$1; repository=$2; script=$3
mount -t tmpfs tmpfs "$layer"
mkdir "$layer/upper" "$layer/work" "$layer/root"
root=$layer/root
mount -t overlay overlay -o "lowerdir=/,upperdir=$layer/upper,workdir=$layer/work" "$root" || exit 9
unset RBAC_PROGRAM
cp -r "$repository" "$root/mnt/repository"
cp "$script" "$root/mnt/script"
"""

CHANGED_ROOT = """
mount -t proc proc "$root/proc"
mount --bind /dev "$root/dev"
chroot "$root" sh /mnt/script
"""

# The most time that a script takes on a busy machine, with systemd booted for it.
BOOTED_SECONDS = 1830

# systemd is booted, runs the script, and ends. What systemd-nspawn leaves in /run is gone with the layer.
BOOTED = """
mkdir -p /run/systemd
mount -t tmpfs tmpfs /run/systemd
: > "$root/etc/machine-id"
cat > "$root/etc/systemd/system/script.service" <<'END'
[Unit]
SuccessAction=exit-force
FailureAction=exit-force
After=basic.target
[Service]
Type=oneshot
ExecStart=/bin/sh /mnt/script
StandardOutput=truncate:/mnt/said
StandardError=truncate:/mnt/errors
END
timeout 1800 systemd-nspawn -q -D "$root" --machine="rbac-$$" --register=no --keep-unit --private-network \
    --boot -- --unit=script.service > "$root/mnt/console" 2>&1 < /dev/null || test -s "$root/mnt/said" || exit 9
cat "$root/mnt/said"; cat "$root/mnt/errors" >&2
"""

# What the commands of the page leave for nginx, also if they are run again. nginx makes no file that others can read.
PROXY = """
openssl req -x509 -newkey ec -pkeyopt ec_paramgen_curve:prime256v1 -nodes -days 2 -subj /CN=a \\
    -keyout /etc/nginx/rbac.key -out /etc/nginx/rbac.crt 2> /dev/null
echo 'ann:x' >> /etc/nginx/rbac-auditors.users
echo '{}' >> /var/log/rbac/administrators.log
nginx -t -q
"""

PROXY_FOUND = """
cat /etc/nginx/rbac-auditors.users /var/log/rbac/administrators.log
stat -c '%n %U %G %a' /etc/logrotate.d/rbac /etc/nginx/rbac-*.users /var/log/rbac /var/log/rbac/*
logrotate --debug /etc/logrotate.d/rbac 2>&1 | grep -c '^error' || true
logrotate --debug /etc/logrotate.d/nginx 2>&1 | grep -c /var/log/rbac || true
"""

PROXY_MADE = """ann:x
{}
/etc/logrotate.d/rbac root root 644
/etc/nginx/rbac-administrators.users root www-data 640
/etc/nginx/rbac-applications.users root www-data 640
/etc/nginx/rbac-auditors.users root www-data 640
/var/log/rbac root adm 750
/var/log/rbac/administrators.log www-data adm 640
/var/log/rbac/applications.log www-data adm 640
/var/log/rbac/auditors.log www-data adm 640
0
0
"""


def block_with(words):
    """Returns the one block of commands of the page that contains a text, to be run in the folder of the repository."""
    (found,) = [block for block in markdown.blocks(PAGE, "sh") if words in "\n".join(block)]
    return "\n".join(["cd /mnt/repository", *found, ""])


def on_layer(bench, how, script, *more):
    """Returns what a script prints on a layer above the files of this machine, with its status; None if no layer can be made.

    The folder of the repository is /mnt/repository there, and has further files.
    """
    layer, copied = bench.folder / "layer", bench.folder / "repository"
    layer.mkdir()
    (copied / "release").mkdir(parents=True)
    shutil.copy(PROGRAM, copied / "release/rbac")
    shutil.copytree(DEPLOY, copied / "deploy")
    for one in more:
        shutil.copy(one, copied)
    path = bench.write("script", script.encode())
    done = run(["unshare", "-m", "sh", "-c", LAYER + how, "sh", layer, copied, path], timeout=BOOTED_SECONDS)
    if done.status == 9 or (b"mount" in done.err and not done.out):
        return None
    return done


@pytest.mark.needs("root", "layers", "nginx", "openssl", "logrotate")
def check_behind_nginx(bench):
    """The commands of the page that put nginx in front leave files that only those may read who should, and a log that is kept."""
    commands = block_with("deploy/nginx/logrotate")
    done = on_layer(bench, CHANGED_ROOT, "\n".join(["set -e", commands, PROXY, commands, PROXY_FOUND]))
    if not done:
        skip("layers")
    bench.same("what exists for nginx", (done.out.decode(), done.status), (PROXY_MADE, 0))
