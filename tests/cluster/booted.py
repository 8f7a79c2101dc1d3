"""The unit of the node under a systemd that is booted on a layer above the files of this machine, with one member of etcd."""

import pytest

from deploy.installed import BOOTED, BOOTED_SECONDS, on_layer
from needs import skip
from pages import markdown
from program.bench import TESTS

from .running import build

# As apt-get and bin/node would leave it. No unit may wait for a network that does not exist.
BEFORE = """
set -e
NAME=a ME=127.0.0.1 PEERS=a=http://127.0.0.1:2380 ETCD=http://127.0.0.1:2379
for unit in NetworkManager systemd-networkd ifupdown; do
    ln -sf /dev/null "/etc/systemd/system/$unit-wait-online.service"
done
cd /mnt/repository
install -m 755 rbac-node /usr/local/bin/rbac-node
"""

# What the node answers, when it is started again, how many files it may open, and how it ends.
ASKING = """
healthy() { curl -s -f "http://$ME:8080/healthz" > /dev/null; }
ready() { for turn in $(seq 100); do ! healthy || return 0; sleep 0.1; done; echo 'no node'; }
ask() { curl -s -w '\\n' -d '{"user":"ann"}' "http://$ME:8080/v1/$1"; }
of_node() { systemctl show rbac-node -p "$1"; }
process() { systemctl show rbac-node -p MainPID --value; }
ready; ask addUser
stat -c '%n %U %a' /var/lib/rbac-node
awk '/open files/ { print ($4 == $5) }' "/proc/$(process)/limits"
systemctl restart rbac-node; ready; ask addUser
systemctl kill -s KILL rbac-node; ready; ask addUser; of_node NRestarts
mkdir /etc/systemd/system/rbac-node.service.d
printf '[Service]\nWatchdogSec=2s\n' > /etc/systemd/system/rbac-node.service.d/watchdog.conf
systemctl daemon-reload; systemctl restart rbac-node; ready; hung=$(process); kill -STOP "$hung"
for turn in $(seq 200); do [ "$(process)" = "$hung" ] || break; sleep 0.1; done
sleep 0.5; ready; ask addUser; of_node NRestarts
of_node MemoryMax
install -m 640 -g rbac deploy/callers.jsonl /etc/rbac-node.callers
socket=/var/lib/rbac-node/socket
sed -i "s|--listen $ME:8080|--listen unix:$socket --callers /etc/rbac-node.callers --etcd-open|" /etc/default/rbac-node
own() { curl -s -o /dev/null -w '%{http_code}\n' --unix-socket "$socket" -d '{"user":"ann"}' http://localhost/v1/assignedRoles; }
own_is() { for turn in $(seq 300); do [ "$(own)" != "$1" ] || break; sleep 0.1; done; own; }
systemctl restart rbac-node; own_is 200
echo '{"fn":"fly"}' >> /etc/rbac-node.callers; systemctl reload rbac-node 2> /dev/null || echo 'not reloaded'; own_is 200
sed -i '/fly/d; /unix:0/d' /etc/rbac-node.callers; systemctl reload rbac-node; own_is 403
systemctl stop rbac-node; of_node Result; of_node ExecMainStatus
systemctl stop etcd; systemctl start rbac-node; systemctl stop rbac-node; of_node Result
"""

EXISTS = '{"code":3,"error":"UserExists"}'

SAID = f"""{{"ok":true}}
/var/lib/rbac-node rbac 700
1
{EXISTS}
{EXISTS}
NRestarts=1
{EXISTS}
NRestarts=1
MemoryMax=3221225472
200
not reloaded
200
403
Result=success
ExecMainStatus=0
Result=success
"""


@pytest.mark.timeout(2 * BOOTED_SECONDS)
@pytest.mark.needs("root", "boots", "systemd-nspawn", "curl", "units of etcd")
def check_unit(bench):
    """The commands of the page make a node that systemd runs: it is started again, reads its callers again, and ends with status 0."""
    installing, starting = markdown.blocks(markdown.page("howto/cluster.md"), "text")
    built = next(number for number, line in enumerate(installing) if line.startswith("bin/node --build"))
    own_way = " ".join(installing[:built]).replace("\\", "").split()
    bench.same("what the test does in its own way", own_way[:2], ["apt-get", "install"])
    listed = (TESTS / "packages").read_text(encoding="utf-8").split()
    bench.same("packages that the tests don't install", [name for name in own_way[2:] if name not in listed], [])
    script = "\n".join([BEFORE, *installing[built + 1 :], *starting, ASKING])
    done = on_layer(bench, BOOTED, script, build(bench.shared))
    if not done:
        skip("boots")
    bench.same("what the node does", done.out.decode(), SAID)
