"""What deploy/prometheus has: rules that raise an alarm if something is wrong and not otherwise, and a dashboard. Both name what a front
serves, as Prometheus itself reads it."""

import json
import re
import signal
import ssl
import subprocess
import urllib.parse
import urllib.request
from pathlib import Path

import pytest

from program.bench import SECONDS, TESTS
from program.web import free_port

from .identities import bearer, openssl, secured
from .program import HOST, Front, over_tls, until
from .setups import set_up

FOLDER = TESTS.parent / "deploy/prometheus"
RULES, DASHBOARD = FOLDER / "alerts.yml", FOLDER / "dashboard.json"
ADMIN = bearer("another")

# What makes a key, and a certificate that ends after some days.
CERTIFICATE = """openssl req -x509 -newkey ec -pkeyopt ec_paramgen_curve:P-256 -nodes -subj /CN=localhost -days {days} \\
    -addext subjectAltName=DNS:localhost,IP:127.0.0.1 -keyout {name}.key -out {name}.crt 2> made"""

# What a front serves has these labels besides, or they are of histograms. Prometheus makes the metric itself.
OF_PROMETHEUS, BY_PROMETHEUS = {"instance", "job", "le"}, {"up"}
WORDS_OF_PROMQL = {"sum", "by", "rate", "increase", "histogram_quantile", "and", "label_values", "time"}

# For each alert series that raise it, and series that don't, as promtool writes them: one value a minute.
HOUR = "x60"
ALERTS = {
    "FrontUnreachable": ({'up{job="rbac"}': f"0{HOUR}"}, {'up{job="rbac"}': f"1{HOUR}", 'up{job="other"}': f"0{HOUR}"}),
    "OfficeNotReady": ({"rbac_node_ready": f"0{HOUR}"}, {"rbac_node_ready": f"1{HOUR}"}),
    "RecordBroken": ({"rbac_node_record_broken": f"1{HOUR}"}, {"rbac_node_record_broken": f"0{HOUR}"}),
    "RecordFailing": ({"rbac_node_record_failing": f"1{HOUR}"}, {"rbac_node_record_failing": f"0{HOUR}"}),
    "OfficeOpen": ({"rbac_node_open": f"1{HOUR}"}, {"rbac_node_open": f"0{HOUR}"}),
    "CallersRefused": (
        {"rbac_node_callers_refused_timestamp_seconds": f"1.8e9{HOUR}"}, {"rbac_node_callers_refused_timestamp_seconds": f"0{HOUR}"}
    ),
    "ManyRefused": (
        {'rbac_node_refused_total{status="401"}': "0+120x60"},
        {'rbac_node_refused_total{status="401"}': "0+30x60", 'rbac_node_refused_total{status="429"}': "0+900x60"},
    ),
    "ManyDenied": (
        {'rbac_node_decisions_total{decision="denied"}': "0+6x1400 8400+600x60"},
        {'rbac_node_decisions_total{decision="denied"}': "0+600x1460", 'rbac_node_decisions_total{decision="allowed"}': "0+6x1400 8400+600x60"},
    ),
    "DecisionsUnlogged": (
        {"rbac_node_decisions_unlogged_total": "0x50 3x60"}, {"rbac_node_decisions_unlogged_total": f"3{HOUR}"}
    ),
    "Unanswered": (
        {'rbac_node_answers_total{kind="command",status="503"}': "0+30x60"},
        {'rbac_node_answers_total{kind="command",status="200"}': "0+900x60", 'rbac_node_answers_total{kind="command",status="503"}': f"7{HOUR}"},
    ),
    "SlowAnswers": (
        {'rbac_node_answer_seconds_bucket{kind="command",le="1"}': "0+50x60", 'rbac_node_answer_seconds_bucket{kind="command",le="4"}': "0+60x60",
         'rbac_node_answer_seconds_bucket{kind="command",le="+Inf"}': "0+60x60"},
        {'rbac_node_answer_seconds_bucket{kind="command",le="1"}': "0+60x60", 'rbac_node_answer_seconds_bucket{kind="command",le="+Inf"}': "0+60x60"},
    ),
    "OfficeDiffered": ({"rbac_node_office_differed_total": f"0x50 1{HOUR}"}, {"rbac_node_office_differed_total": f"1{HOUR}"}),
    "ReplayRestarts": (
        {'rbac_node_replay_starts_total{replay="office"}': "0+1x60"},
        {'rbac_node_replay_starts_total{replay="office"}': f"9{HOUR}"},
    ),
    "ManyWaiting": ({'rbac_node_replay_waiting{replay="office"}': f"1001{HOUR}"}, {'rbac_node_replay_waiting{replay="office"}': f"1000{HOUR}"}),
    "OfficeNearlyFull": (
        {'rbac_node_room{kind="session"}': f"200{HOUR}", 'rbac_node_limit{kind="session"}': f"1000{HOUR}"},
        {'rbac_node_room{kind="session"}': f"201{HOUR}", 'rbac_node_limit{kind="session"}': f"1000{HOUR}",
         'rbac_node_room{kind="member"}': f"0{HOUR}", 'rbac_node_limit{kind="member"}': f"32{HOUR}",
         'rbac_node_room{kind="activeRole"}': f"0{HOUR}", 'rbac_node_limit{kind="activeRole"}': f"32{HOUR}"},
    ),
    "CertificateEnds": (
        {'rbac_node_certificate_not_after_seconds{option="tls-cert"}': f"2590000{HOUR}"},
        {'rbac_node_certificate_not_after_seconds{option="tls-cert"}': f"2600000{HOUR}"},
    ),
    "FewFilesLeft": (
        {'process_open_fds{job="rbac"}': f"900{HOUR}", 'process_max_fds{job="rbac"}': f"1000{HOUR}"},
        {'process_open_fds{job="rbac"}': f"700{HOUR}", 'process_max_fds{job="rbac"}': f"1000{HOUR}"},
    ),
}  # fmt: skip


def with_instance(series):
    """A series of a front."""
    name, _, labels = series.rstrip("}").partition("{")
    return f'{name}{{instance="a:8443"{"," if labels else ""}{labels}}}'


# What compares with a day: it is tried for so long, with fewer looks at all rules.
OF_A_DAY = {"ManyDenied"}


def tested_by_promtool(names, minutes, every):
    """A file of tests of promtool: each of these alerts is raised by its series, and by no others."""
    tests = []
    for name, (bad, good) in ALERTS.items():
        if name not in names:
            continue
        for series, is_raised in ((bad, True), (good, False)):
            alerts = {"eval_time": f"{minutes}m", "alertname": name, "exp_alerts": []}
            tests.append({
                "interval": "1m", "name": f"{name} {is_raised}", "alert_rule_test": [alerts],
                "input_series": [{"series": with_instance(one), "values": values} for one, values in series.items()],
                "promql_expr_test": [{
                    "expr": f'count(ALERTS{{alertname="{name}",alertstate="firing"}}) or vector(0)', "eval_time": f"{minutes}m",
                    "exp_samples": [{"labels": "{}", "value": int(is_raised)}],
                }],
            })  # fmt: skip
            if is_raised:
                del tests[-1]["alert_rule_test"]  # The texts of the annotations are those of the file.
    return json.dumps({"rule_files": [str(RULES)], "evaluation_interval": every, "tests": tests})


def run(*words):
    """The status of a command, and what it prints on both outputs."""
    done = subprocess.run(list(map(str, words)), capture_output=True, text=True, timeout=2 * SECONDS, check=False)
    return done.returncode, done.stdout + done.stderr


@pytest.mark.slow
@pytest.mark.needs("promtool")
def check_rules(bench):
    """Each rule raises an alarm if something is wrong, and none if all is well, and says what to do."""
    bench.same("check rules", run("promtool", "check", "rules", RULES)[0], 0)
    text = RULES.read_text(encoding="utf-8")
    bench.same("the rules that are tried", re.findall(r"^ +- alert: (\w+)$", text, re.M), list(ALERTS))
    for word in ("summary", "description", "severity"):
        bench.same(f"each has {word}", len(re.findall(rf"\b{word}: ", text)), len(ALERTS))
    paths = [
        bench.write("hour.yml", tested_by_promtool(ALERTS.keys() - OF_A_DAY, 55, "1m").encode()),
        bench.write("day.yml", tested_by_promtool(OF_A_DAY, 1455, "5m").encode()),
    ]
    status, said = run("promtool", "test", "rules", *paths)
    bench.judge("test rules", [] if status == 0 else [said[-3000:]])


def used_front(bench):
    """A front with a certificate, which has answered something of each sort at a socket."""
    openssl(bench, CERTIFICATE.format(name="front", days=40))
    files = [word for name in ("cert front.crt", "key front.key", "ca front.crt") for option, path in [name.split()] for word in (f"--tls-{option}", bench.path(path))]
    front = secured(bench, "--log-decisions", "1", *files, listen=f"unix:{bench.path('socket')}")
    with front:
        front.ask("addUser", {"user": "ann"}, **ADMIN)
        front.ask("checkAccess", {"session": "s", "operation": "o", "object": "x"}, **ADMIN)
        front.ask("addUser", {"user": "bob"})
        yield front.exchange("GET", "/metrics", **ADMIN)[1]


def ends_of(front, **fields):
    """When certificates end, by the metrics."""
    text = front.exchange("GET", "/metrics", **fields)[1]
    return {option: int(float(value)) for option, value in re.findall(r'^rbac_node_certificate_not_after_seconds{option="([\w-]+)"} (\S+)$', text, re.M)}


@pytest.mark.needs("openssl")
def check_certificates(bench):
    """The metrics say when the certificates of the front and of its clients' authority end, also after others have taken their place, and of
    several the one that ends first. A file that can't be read ends at 0."""
    for name, days in (("front", 40), ("other", 20), ("third", 60)):
        openssl(bench, CERTIFICATE.format(name=name, days=days))
    end = {}
    for name in ("front", "other", "third"):
        said = openssl(bench, f"openssl x509 -enddate -noout -in {name}.crt").decode().strip().removeprefix("notAfter=")
        end[name] = int(ssl.cert_time_to_seconds(said))
    texts = {name: Path(bench.path(f"{name}.crt")).read_bytes() for name in end}
    authority = bench.write("authority.crt", texts["third"] + texts["front"])
    pair = ["--tls-cert", bench.path("front.crt"), "--tls-key", bench.path("front.key")]
    with secured(bench, *pair, "--tls-ca", authority, listen=f"unix:{bench.path('socket')}") as front:
        bench.same("at the start", ends_of(front, **ADMIN), {"tls-cert": end["front"], "tls-ca": end["front"]})
        bench.write("front.crt", texts["other"] + texts["third"])
        bench.write("authority.crt", texts["third"])
        bench.same("others", ends_of(front, **ADMIN), {"tls-cert": end["other"], "tls-ca": end["third"]})
        bench.write("front.crt", b"none")
        bench.same("no certificate", ends_of(front, **ADMIN)["tls-cert"], 0)
    with Front(bench) as front:
        bench.same("without TLS", ends_of(front), {})
        bench.same("HEAD", front.exchange("HEAD", "/metrics"), (200, ""))


def served_by(text):
    """The names of all samples, each with its labels."""
    found = {}
    for name, labels in re.findall(r"^([a-z]\w*)(?:\{(.*)\})? ", text, re.M):
        found.setdefault(name, set()).update(re.findall(r'(\w+)="', labels))
    return found


def named_in(expression):
    """The metrics of an expression, each with the labels that it is asked for; and the labels that are kept."""
    plain = re.sub(r'"[^"]*"|\$\w+|\d+[smhd]?\b', "", expression)
    kept = {one.strip() for group in re.findall(r"by ?\(([^)]*)\)", plain) for one in group.split(",")}
    plain = re.sub(r"by ?\([^)]*\)", "", plain)
    metrics = {name: set(re.findall(r"(\w+) ?[=!]", labels)) for name, labels in re.findall(r"\b([a-z]\w+)(?:\{([^}]*)\})?", re.sub(r"\[.*?\]", "", plain))}
    return {name: labels for name, labels in metrics.items() if name not in WORDS_OF_PROMQL and name != "instance"}, kept


def of_dashboard():
    """The queries of the dashboard's panels."""
    return [target["expr"] for panel in json.loads(DASHBOARD.read_text(encoding="utf-8"))["panels"] for target in panel["targets"]]


def expressions():
    """All expressions of the rules and of the dashboard."""
    text = RULES.read_text(encoding="utf-8")
    found = re.findall(r"^ +expr: ([^|\n].*)$", text, re.M) + re.findall(r"^ +expr: \|\n((?: {10,}.*\n)+)", text, re.M)
    dashboard = json.loads(DASHBOARD.read_text(encoding="utf-8"))
    found += of_dashboard()
    return found + [variable["definition"] for variable in dashboard["templating"]["list"] if "definition" in variable]


@pytest.mark.needs("openssl")
def check_names(bench):
    """Each metric of the rules and of the dashboard is one that a front serves, with these labels."""
    (text,) = used_front(bench)
    served = served_by(text)
    found = expressions()
    bench.same("all expressions", len(found) > len(ALERTS) + 15, True)
    for expression in found:
        metrics, kept = named_in(expression)
        bench.judge(f"{expression}: has metrics", [] if metrics else [str(metrics)])
        bench.same(f"{expression}: metrics that are none", [name for name in metrics if name not in served.keys() | BY_PROMETHEUS], [])
        known = set().union(OF_PROMETHEUS, *(served.get(name, set()) for name in metrics))
        bench.same(f"{expression}: labels that are none", sorted(set().union(kept, *metrics.values()) - known), [])


def check_dashboard(bench):
    """The panels of the dashboard have numbers of their own, lie beside each other, and name the sources that Grafana asks for."""
    dashboard = json.loads(DASHBOARD.read_text(encoding="utf-8"))
    panels = dashboard["panels"]
    bench.same("numbers", [panel["id"] for panel in panels], list(range(1, len(panels) + 1)))
    cells = [(x, y) for panel in panels for at in [panel["gridPos"]] for x in range(at["x"], at["x"] + at["w"]) for y in range(at["y"], at["y"] + at["h"])]
    bench.same("cells with two panels, or beyond the edge", (len(cells) - len(set(cells)), [x for x, _ in cells if x > 23]), (0, []))
    variables = {variable["name"] for variable in dashboard["templating"]["list"]}
    bench.same("variables that are none", set(re.findall(r"\$\{?(\w+)", json.dumps(dashboard))) - variables - {"__rate_interval", "__all"}, set())
    bench.same("sources", {panel["datasource"]["uid"] for panel in panels}, {"${datasource}"})


@pytest.mark.needs("promtool", "openssl")
def check_exposition(bench):
    """promtool reads all metrics, and finds no name or text strange."""
    (text,) = used_front(bench)
    done = subprocess.run(["promtool", "check", "metrics"], input=text, capture_output=True, text=True, check=False)
    strange = {line.split()[0] for line in (done.stdout + done.stderr).splitlines()}
    bench.same("what promtool finds strange", (done.returncode, strange), (0, set()))


@pytest.mark.needs("promtool")
def check_scraped(bench):
    """Debian's Prometheus, with the lines that `rbac-node setup` prints and the rules, reads the metrics over TLS, and raises no alarm. It
    has series for each query of the dashboard. Debian has no Grafana: nobody has looked at the panels here."""
    folder, port, own = bench.folder / "etc", free_port(), free_port()
    folder.mkdir()
    listen = f"{HOST}:{port}"
    said = set_up(bench, "--folder", str(folder), "--dns", HOST, "--listen", listen, "bank")[1]
    (job,) = re.findall(r"^(  - job_name: rbac\n(?:    .*\n)+)", said, re.M)
    (token,) = re.findall(r"^The token of the administrator.*\n +(\w+)$", said, re.M)
    administrator = {"Authorization": f"Bearer {token}"}
    bench.write("prometheus.yml", f"global: {{scrape_interval: 1s, evaluation_interval: 1s}}\nrule_files: [{RULES}]\nscrape_configs:\n{job}".encode())
    bench.same("check config", run("promtool", "check", "config", bench.path("prometheus.yml"))[0], 0)
    etc = [f"--{name}={folder}/bank.{ending}" for name, ending in (("callers", "callers"), ("tokens", "tokens"), ("tls-cert", "crt"), ("tls-key", "key"))]
    front = Front(bench, *etc, listen=listen)
    front.port = port
    front.connection = lambda: over_tls(bench, port, authority="etc/bank.crt")

    def query(text):
        with urllib.request.urlopen(f"http://{HOST}:{own}/api/v1/query?{urllib.parse.urlencode({'query': text})}", timeout=SECONDS) as reply:
            return [(one["metric"], one["value"][1]) for one in json.load(reply)["data"]["result"]]

    def is_read():
        try:
            return [value for _, value in query("rbac_node_ready")] == ["1"]
        except OSError:
            return False

    words = ["prometheus", f"--config.file={bench.path('prometheus.yml')}", f"--storage.tsdb.path={bench.path('data')}",
             f"--web.listen-address={HOST}:{own}"]  # fmt: skip
    with front, subprocess.Popen(words, stdout=subprocess.DEVNULL, stderr=subprocess.DEVNULL) as prometheus:
        try:
            until(is_read, "Prometheus has read the metrics")
            bench.same("the job", [one[0]["job"] for one in query("up == 1")], ["rbac"])
            bench.same("what the front is built of", [one[0]["version"] for one in query("rbac_node_build_info")], [front_version()])
            bench.same("alarms", query("ALERTS"), [])
            front.ask("addUser", {"user": "ann"}, **administrator)
            front.ask("checkAccess", {"session": "s", "operation": "o", "object": "x"}, **administrator)
            front.ask("addUser", {"user": "bob"})
            queries = [one.replace("$instance", ".*").replace("$__rate_interval", "1m") for one in of_dashboard()]
            until(lambda: all(map(query, queries)), "Prometheus has series for each query of the dashboard")
            bench.same("queries without a series", [one for one in queries if not query(one)], [])
            bench.same("queries", len(queries) > 15, True)
        finally:
            prometheus.terminate()
        front.end()


def front_version():
    return (TESTS.parent / "VERSION").read_text(encoding="ascii").strip()


def check_replay(bench):
    """The figures of the replay: how long it took, how often it was started, and how much waits while it answers nothing."""
    with Front(bench) as front:

        def figure(name):
            text = front.exchange("GET", "/metrics")[1]
            found = re.search(rf'^rbac_node_replay_{name}{{replay="office"}} (\S+)$', text, re.M)
            return float(found[1]) if found else 0

        before = figure("answer_seconds_count")
        for user in "abc":
            front.ask("addUser", {"user": user})
        front.ask("assignedRoles", {"user": "a"})  # It needs no replay.
        bench.same("answers", figure("answer_seconds_count") - before, 3)
        bench.same("seconds", 0 < figure("answer_seconds_sum") < SECONDS, True)
        bench.same("nothing waits", figure("waiting"), 0)
        (replay,) = front.replays()
        subprocess.run(["kill", "-STOP", str(replay)], check=True)
        asking = [front.connection() for _ in range(5)]
        for number, one in enumerate(asking):
            one.request("POST", "/v1/addUser", json.dumps({"user": f"u{number}"}))
        until(lambda: figure("waiting") == len(asking), "five wait")
        subprocess.run(["kill", "-CONT", str(replay)], check=True)
        bench.same("the answers", [one.getresponse().status for one in asking], [200] * len(asking))
        bench.same("nothing waits again", figure("waiting"), 0)
        starts = figure("starts_total")
        subprocess.run(["kill", "-KILL", str(replay)], check=True)
        until(lambda: figure("starts_total") == starts + 1, "it is started again")
        front.process.send_signal(signal.SIGTERM)
        front.process.wait(SECONDS)
