"""What all cases of pytest share: which programs are tested, the order of the cases, and which of them may be skipped. Also the counts of what happened in random
mornings."""
import collections
import fnmatch
import os
import pathlib
import sys
import unittest

import pytest

ROOT = pathlib.Path(__file__).resolve().parent
sys.dont_write_bytecode = True
# The programs of this repository are tested, unless these variables name others.
for variable, crate in (("DOCKER", "docker"), ("DESK", "desk")):
    os.environ[variable] = os.environ.get(variable) or str(ROOT / "crates" / crate / "out" / crate)
# In fewer mornings something may not happen.
ENOUGH = 500
SEEN = pytest.StashKey[collections.Counter]()


def pytest_addoption(parser):
    parser.addoption("--seed", type=int, default=1, help="the first of the seeds of the random mornings")
    parser.addoption("--mornings", type=int, default=ENOUGH, help="the number of random mornings")


def pytest_configure(config):
    config.stash[SEEN] = collections.Counter()


# ---- The order of the cases


def weight(item):
    """Cases that may take long come first, so that the run doesn't wait for them at its end: random mornings, cases with a limit of their own, and groups."""
    limit = item.get_closest_marker("timeout")
    return hasattr(item.module, "MORNINGS"), limit.args[0] if limit else 0, item.get_closest_marker("xdist_group") is not None


# The workers of xdist read the groups in the same hook, and theirs would come before this one.
@pytest.hookimpl(tryfirst=True)
def pytest_collection_modifyitems(items):
    for item in items:
        # One process runs all cases of a class that has something in common, such as a server or a browser.
        if item.cls is not None and "setUpClass" in dir(item.cls) and item.cls.setUpClass.__func__ is not unittest.TestCase.setUpClass.__func__:
            item.add_marker(pytest.mark.xdist_group(f"{item.module.__name__}.{item.cls.__name__}"))
    items.sort(key=weight, reverse=True)
    if any("launchers" not in item.path.parts for item in items):
        for program in (os.environ["DOCKER"], os.environ["DESK"]):
            if not pathlib.Path(program).exists():
                pytest.exit(f"{program} isn't built: tests/run builds it", 2)


# ---- Which cases may be skipped


def may_be_skipped():
    """The cases that may be skipped, as patterns, each with the reason that the case gives."""
    lines = (ROOT / "tests" / "skipped").read_text(encoding="utf-8").splitlines()
    return [line.split("  ", 1) for line in lines if line and not line.startswith("#")]


@pytest.hookimpl(hookwrapper=True)
def pytest_runtest_makereport(item):
    """A case that is skipped counts as failed, unless the list allows it."""
    outcome = yield
    report = outcome.get_result()
    name = item.nodeid.partition("[")[0].partition("@")[0]
    if report.skipped and not any(fnmatch.fnmatchcase(name, pattern) and why in str(report.longrepr) for pattern, why in may_be_skipped()):
        report.outcome = "failed"
        report.longrepr = f"it was skipped, and tests/skipped doesn't list it: {report.longrepr}"


# ---- What happened in random mornings


@pytest.fixture
def seen(pytestconfig):
    """How often each thing happened in random mornings."""
    return pytestconfig.stash[SEEN]


def pytest_generate_tests(metafunc):
    """A case for each seed, in a file that says how many random mornings a seed is for."""
    if hasattr(metafunc.module, "MORNINGS") and "seed" in metafunc.fixturenames:
        first, number = metafunc.config.getoption("seed"), metafunc.config.getoption("mornings") // metafunc.module.MORNINGS
        metafunc.parametrize("seed", range(first, first + number))


@pytest.hookimpl(optionalhook=True)
def pytest_testnodedown(node):
    """Adds what a worker of xdist counted."""
    node.config.stash[SEEN].update(getattr(node, "workeroutput", {}).get("seen", {}))


def pytest_sessionfinish(session):
    """Fails if something never happened in enough mornings."""
    seen = session.config.stash[SEEN]
    if hasattr(session.config, "workeroutput"):
        session.config.workeroutput["seen"] = dict(seen)
    elif never_seen(session.config):
        session.exitstatus = pytest.ExitCode.TESTS_FAILED


def never_seen(config):
    """What never happened in enough mornings."""
    return [name for name, number in config.stash[SEEN].items() if not number] if config.getoption("mornings") >= ENOUGH else []


def pytest_terminal_summary(terminalreporter, config):
    """Prints how often each thing happened."""
    for name, number in sorted(config.stash[SEEN].items()):
        terminalreporter.write_line(f"{number:7} {name}")
    for name in never_seen(config):
        terminalreporter.write_line(f"FAILED  in these random mornings it never happened: {name}")
