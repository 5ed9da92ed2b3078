"""What `tools/check` adds to pytest: which tests run, and an end that names what was left out."""
import os
import pathlib
from collections import Counter, defaultdict

import pytest
from _pytest.terminal import TerminalReporter

from . import support

TIMES = pathlib.Path(__file__).resolve().parent / "times.txt"
# How many seconds a class of tests may take and still be one of --quick.
QUICK = 5.0


def pytest_addoption(parser: pytest.Parser) -> None:
    """The options of `tools/check`."""
    group = parser.getgroup("tools/check")
    group.addoption("--quick", action="store_true", help=f"run only classes of tests that took at most {QUICK:g} seconds when they were last timed")
    group.addoption("--long", action="store_true", help="run also the tests that take minutes each")
    group.addoption("--whole", action="store_true", help="fail if a test was left out that isn't one of --long")
    group.addoption("--pictures", metavar="FOLDER", help="save there what pages and windows look like")
    group.addoption("--times", action="store_true", help=f"write {TIMES.name} anew: how many seconds each class of tests took")


def pytest_configure(config: pytest.Config) -> None:
    """Hands the options on: the workers of xdist and the tests read them from the environment."""
    if config.getoption("--long"):
        os.environ["DRAFT_LONG"] = "1"
    if config.getoption("--pictures"):
        os.environ["DRAFT_PICTURES"] = str(pathlib.Path(config.getoption("--pictures")).resolve())


def class_of(nodeid: str) -> str:
    """The file and the class of a test, as `tests/test_sheet.py::Lines`."""
    return nodeid.rpartition("::")[0]


def read_times(text: str) -> dict[str, float]:
    """How many seconds each class took, from lines of a class and a number."""
    return {name: float(seconds) for name, _, seconds in (line.rpartition(" ") for line in text.splitlines()) if name}


def pytest_collection_modifyitems(config: pytest.Config, items: list[pytest.Item]) -> None:
    """With --quick drops the tests of classes that are slow, or were never timed."""
    if not config.getoption("--quick"):
        return
    times = read_times(TIMES.read_text(encoding="utf-8"))
    slow = [item for item in items if times.get(class_of(item.nodeid), QUICK + 1) > QUICK]
    config.hook.pytest_deselected(items=slow)
    items[:] = [item for item in items if item not in set(slow)]


def reasons_left_out(skipped: list[pytest.TestReport]) -> Counter[str]:
    """Why tests were left out, and how many for each reason."""
    return Counter(str(report.longrepr[2] if isinstance(report.longrepr, tuple) else report.longrepr).removeprefix("Skipped: ") for report in skipped)


def pytest_terminal_summary(terminalreporter: TerminalReporter, config: pytest.Config) -> None:
    """Names what was left out, and writes the times where they are wanted."""
    for reason, count in reasons_left_out(terminalreporter.stats.get("skipped", [])).items():
        terminalreporter.write_line(f"left out: {count} tests: {reason}")
    if config.getoption("--times"):
        seconds: defaultdict[str, float] = defaultdict(float)
        for reports in terminalreporter.stats.values():
            for report in reports:
                if isinstance(report, pytest.TestReport):
                    seconds[class_of(report.nodeid)] += report.duration
        TIMES.write_text("".join(f"{name} {spent:.1f}\n" for name, spent in sorted(seconds.items())), encoding="utf-8")


@pytest.hookimpl(trylast=True)  # type: ignore[misc] # pytest 7 has no types for it
def pytest_sessionfinish(session: pytest.Session) -> None:
    """With --whole, fails where a test was left out that isn't one of --long."""
    reporter = session.config.pluginmanager.get_plugin("terminalreporter")
    if reporter and session.config.getoption("--whole") and set(reasons_left_out(reporter.stats.get("skipped", []))) - {support.LONG}:
        session.exitstatus = pytest.ExitCode.TESTS_FAILED
