"""How pytest runs the tests of this folder.

A check is a function `check_*` of any module. It gets a `bench`: a folder of its own, and comparisons that don't end it
(program/bench.py). It fails if a comparison failed or nothing was compared, and is skipped if what it needs is missing. The last
line says how many comparisons there were.

    pytest tests -n 4 --dist loadgroup    all checks, side by side
    pytest tests/front -k sessions        some of them
    pytest tests/front --seed 17          random ones with this seed
"""

import fcntl
import gc
import os
import random
import resource
import shutil
import subprocess
import sys
import tempfile
import traceback
from pathlib import Path

import pytest

TESTS = Path(__file__).resolve().parent
sys.path.insert(0, str(TESTS))

from counted import Counted  # noqa: E402
from namespaces import CLONE_NEWNET, CLONE_NEWNS, leave_chroot, make_private, setns, unshare  # noqa: E402
from needs import NEEDS, avoidable, lacking, reason_of  # noqa: E402
from program.bench import PROGRAM, Bench, folder_of  # noqa: E402

# Modules that checks share, and commands.
collect_ignore = sorted(path.name for path in TESTS.glob("*.py"))

# Programs that checks and scripts call by their names: first those of the Python that runs this, then those of root.
os.environ["PATH"] = os.pathsep.join([os.path.dirname(sys.executable), os.environ.get("PATH", ""), "/usr/sbin", "/sbin"])

# How many faults of a check are shown.
MOST_SHOWN = 10


def pytest_addoption(parser):
    group = parser.getgroup("tests of the office")
    group.addoption("--gate", action="store_true", help="also the checks that .ci/run makes and bin/test doesn't")
    group.addoption("--long", action="store_true", help="also the checks of --gate, and as many cases as take hours")
    group.addoption("--installed", action="store_true", help="a check that is skipped for want of a Debian package has failed")
    group.addoption("--needing", help="only the checks that need one of these, such as root,mounts")
    group.addoption("--not-needing", help="only the checks that need none of these")
    group.addoption("--seed", type=int, help="what checks with a random seed take in its place")


def pytest_configure(config):
    if not os.access(PROGRAM, os.X_OK):
        raise pytest.UsageError(f"there is no program {PROGRAM}")
    if not (config.getoption("--gate") or config.getoption("--long")):
        # Debian's packages are compressed as quickly as can be; with --gate, as those of a release.
        os.environ["DPKG_DEB_COMPRESSOR_LEVEL"] = "1"
    if not hasattr(config, "workerinput"):
        leave_chroot()
        config.pluginmanager.register(Counted(config), "counted")


# ---- Collecting -------------------------------------------------------------------------------------------------------------


@pytest.hookimpl(hookwrapper=True)
def pytest_collection():
    """Collects without looking for garbage, of which there is none: the modules and the checks stay."""
    gc.disable()
    yield
    gc.freeze()
    gc.enable()


class Checks(pytest.Module):
    """A module with its checks; a function that it imports is a check of the other module."""

    def collect(self):
        return [item for item in super().collect() if item.function.__module__ == self.obj.__name__]


def pytest_pycollect_makemodule(module_path, parent):
    return Checks.from_parent(parent, path=module_path)


def pytest_generate_tests(metafunc):
    """Gives a check of the mark `seeds` those that are known to be worth trying, and random ones."""
    if mark := metafunc.definition.get_closest_marker("seeds"):
        known, drawn = mark.args, mark.kwargs.get("drawn", 1)
        given = [*known, *(None for _ in range(drawn))]
        names = [*(f"seed {one}" for one in known), *(f"drawn {number}" for number in range(drawn))]
        metafunc.parametrize("seed", given, indirect=True, ids=names)


@pytest.hookimpl(trylast=True)
def pytest_collection_modifyitems(config, items):
    """Leaves out what is for another run, skips what lacks something, and puts first what takes long."""
    is_long = config.getoption("--long")
    without = [] if is_long else ["long"] if config.getoption("--gate") else ["gate", "long"]
    later = {item for item in items if any(map(item.get_closest_marker, without)) or is_elsewhere(config, item)}
    if later:
        config.hook.pytest_deselected(items=later)
        items[:] = [item for item in items if item not in later]
    for item in items:
        if gone := lacking(needed_by(item)):
            item.add_marker(pytest.mark.skip(reason=reason_of(gone)))
        if is_long and not item.get_closest_marker("timeout"):
            item.add_marker(pytest.mark.timeout(0))
    items.sort(key=turn_of)


def turn_of(item):
    """When a check's turn is. What is slow comes first: groups, then what needs no front, while the front is built, then the others."""
    if not item.get_closest_marker("slow"):
        return (1,)
    return 0, item.get_closest_marker("xdist_group") is None, "libraries of the server" in needed_by(item)


def needed_by(item):
    """The names of what a check needs."""
    return [name for mark in item.iter_markers("needs") for name in mark.args]


def is_elsewhere(config, item):
    """Whether a check is for another run, by what it needs."""
    needs = set(needed_by(item))
    wanted, others = config.getoption("--needing"), config.getoption("--not-needing")
    return bool(wanted and needs.isdisjoint(wanted.split(",")) or others and not needs.isdisjoint(others.split(",")))


@pytest.hookimpl(optionalhook=True)
def pytest_xdist_make_scheduler(config, log):
    """Hands out checks one by one, and groups of them together."""
    if config.getoption("dist") != "loadgroup":
        return None
    from xdist.scheduler import LoadGroupScheduling

    class Scheduling(LoadGroupScheduling):
        """That of xdist 3.1 hands out again what a process that has crashed had finished, and waits for it without an end."""

        def remove_node(self, node):
            units = self.assigned_work.pop(node)
            left = [(scope, name) for scope, unit in units.items() for name, is_done in unit.items() if not is_done]
            if not left:
                return None
            (_, crashed), *others = left
            for scope, name in others:
                self.workqueue.setdefault(scope, {})[name] = False
            for other in self.assigned_work:
                self._reschedule(other)
            return crashed

    return Scheduling(config, log)


# ---- What checks get --------------------------------------------------------------------------------------------------------


@pytest.fixture
def bench(request):
    """A folder to work in, and comparisons that are counted and don't end the check."""
    with tempfile.TemporaryDirectory(dir=folder_of(request.function)) as outside:
        bench = Bench(Path(outside).resolve() / "files")
        bench.folder.mkdir()
        bench.is_long, bench.is_gate = request.config.getoption("--long"), request.config.getoption("--gate")
        bench.shared = Path(outside).resolve()
        yield bench


@pytest.fixture
def seed(request):
    """A seed that is known, or a random one, which is printed; --seed chooses it."""
    chosen = request.param
    if chosen is None:
        chosen = request.config.getoption("--seed")
    if chosen is None:
        chosen = random.randrange(10**9)
    print(f"seed {chosen}: pytest {request.node.nodeid.partition('[')[0]} --seed {chosen}")
    return chosen


@pytest.fixture(scope="session")
def built(tmp_path_factory):
    """Returns a function that builds something once for all processes of this run, and returns its folder."""
    base = tmp_path_factory.getbasetemp()
    if "PYTEST_XDIST_WORKER" in os.environ:
        base = base.parent
    base.chmod(0o755)

    def build(name, make):
        folder, failed = base / name, base / f"{name}.failed"
        with open(base / f"{name}.lock", "w", encoding="ascii") as lock:
            fcntl.flock(lock, fcntl.LOCK_EX)
            if failed.exists():
                pytest.fail(f"{name} can't be built: {failed.read_text(encoding='utf-8')}", pytrace=False)
            if not (folder / ".made").exists():
                folder.mkdir(mode=0o755)
                try:
                    make(folder)
                except Exception:
                    failed.write_text(traceback.format_exc(), encoding="utf-8")
                    raise
                (folder / ".made").touch()
        return folder

    return build


@pytest.fixture(scope="session")
def own_mounts():
    """Whether this process, of root, has mounts of its own from now on."""
    if lacking(["mounts", "root"]) or not unshare(CLONE_NEWNS):
        return False
    make_private()
    return True


@pytest.fixture(scope="session")
def loopback():
    """A network with nothing but the loopback device, as an open file; None unless this is root."""
    if lacking(["root", "ip"]):
        yield None
        return
    with open("/proc/thread-self/ns/net", "rb") as before:
        if not unshare(CLONE_NEWNET):
            yield None
            return
        subprocess.run(["ip", "link", "set", "lo", "up"], check=True)
        with open("/proc/thread-self/ns/net", "rb") as network:
            setns(before, CLONE_NEWNET)
            yield network


@pytest.fixture
def own_network(loopback):
    """Puts a check into that network, if there is one."""
    if loopback is None:
        yield
        return
    with open("/proc/thread-self/ns/net", "rb") as before:
        setns(loopback, CLONE_NEWNET)
        yield
        setns(before, CLONE_NEWNET)


# ---- Running ----------------------------------------------------------------------------------------------------------------


def processor_seconds():
    """What this process and the programs that it ran have used."""
    used = [resource.getrusage(who) for who in (resource.RUSAGE_SELF, resource.RUSAGE_CHILDREN)]
    return sum(one.ru_utime + one.ru_stime for one in used)


@pytest.hookimpl(hookwrapper=True)
def pytest_runtest_setup(item):
    """Counts what it takes to build what a check shares with others, at the check that is the first to need it."""
    start = processor_seconds()
    yield
    item.user_properties.append(("built", round(processor_seconds() - start, 2)))


@pytest.hookimpl(tryfirst=True)
def pytest_pyfunc_call(pyfuncitem):
    """Runs a check, and judges it by what its bench has counted."""
    bench = pyfuncitem.funcargs.get("bench")
    if bench is None:
        return None
    given = {name: pyfuncitem.funcargs[name] for name in pyfuncitem._fixtureinfo.argnames}
    start, fault, counts = processor_seconds(), None, None
    try:
        counts = pyfuncitem.obj(**given)
    except Exception as raised:
        fault = raised
    used = round(processor_seconds() - start, 2)
    pyfuncitem.user_properties += [("comparisons", bench.passed), ("processor", used), ("partly", bench.left_out)]
    if isinstance(counts, dict):
        pyfuncitem.user_properties.append(("counts", {name: count for name, count in counts.items() if isinstance(count, int)}))
    judge(bench, fault)
    return True


def judge(bench, fault):
    """Lets a check fail by what its bench has counted or what it has raised, or skips it."""
    if bench.faults:
        shown = bench.faults[:MOST_SHOWN]
        if len(bench.faults) > MOST_SHOWN:
            shown.append(f"and {len(bench.faults) - MOST_SHOWN} more")
        if fault:
            shown.append("".join(traceback.format_exception(fault)))
        count = f"{len(bench.faults)} of {len(bench.faults) + bench.passed} comparisons failed"
        pytest.fail("\n".join([count, *shown]), pytrace=False)
    if fault is not None:
        name = missing_program(fault)
        if name is None:
            raise fault
        pytest.skip(reason_of([name]))
    if not bench.passed:
        pytest.fail("nothing was compared", pytrace=False)


def missing_program(fault):
    """The program for want of which a check has ended; None if it has ended otherwise."""
    name = os.path.basename(str(getattr(fault, "filename", "")))
    is_missing = isinstance(fault, FileNotFoundError) and name in NEEDS and shutil.which(name) is None
    return name if is_missing else None


@pytest.hookimpl(hookwrapper=True)
def pytest_runtest_makereport(item, call):
    """Where all packages are installed, a skip that one of them would have made needless is a failure."""
    report = (yield).get_result()
    if report.skipped and item.config.getoption("--installed"):
        reason = report.longrepr[2].removeprefix("Skipped: ")
        if fault := avoidable(reason):
            report.outcome, report.longrepr = "failed", f"skipped, {reason}: {fault}"
