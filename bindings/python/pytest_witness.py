"""A plugin of pytest: a test that takes locks against an order fails, with the report as its text.

    pytest --witness                    each test that makes a reversal fails
    pytest --witness-known FILE         and each that goes against an order of the file (orders(1))
    pytest --witness-learn FILE         which gets the orders of this run too

pytest runs once more then, under `record`: the command of that name in PATH, or the one that WITNESS_RECORD names. After each
test in which a thread asked for a lock while it held another one, what there is so far is looked at. A test with
@pytest.mark.witness(off=True) doesn't fail by its reports, nor does a later one by them.
"""

import json
import os
import shutil
import subprocess
import sys
import tempfile
import threading
from multiprocessing.connection import Client, Listener

import pytest

import witness

# Where pytest, under `record`, finds the pytest that has begun it.
_ADDRESS = "WITNESS_PYTEST"
if _ADDRESS in os.environ:
    witness.patch()


def pytest_addoption(parser):
    group = parser.getgroup("witness", "lock order reversals")
    group.addoption("--witness", action="store_true", help="fail each test that makes a lock order reversal")
    group.addoption("--witness-known", metavar="FILE", help="and each that goes against an order of the file")
    group.addoption("--witness-learn", metavar="FILE", help="as --witness-known, and add the orders of this run to the file")


def pytest_configure(config):
    config.addinivalue_line("markers", "witness(off): with off=True the test doesn't fail by its lock order reversals")
    if _ADDRESS in os.environ and not hasattr(config, "workerinput"):
        config.pluginmanager.register(_Watcher(os.environ[_ADDRESS]), "witness-watcher")


@pytest.hookimpl(tryfirst=True)
def pytest_cmdline_main(config):
    option = config.option
    if _ADDRESS in os.environ or not (option.witness or option.witness_known or option.witness_learn):
        return None
    record = os.environ.get("WITNESS_RECORD") or shutil.which("record")
    if record is None:
        raise pytest.UsageError("--witness needs the command `record` in PATH, or named by WITNESS_RECORD")
    return _run_under(record, option, list(config.invocation_params.args))


def _run_under(record, option, words):
    """Runs pytest with these words under the recorder, and answers its questions. Its status."""
    with tempfile.TemporaryDirectory() as folder:
        log, address = os.path.join(folder, "log"), os.path.join(folder, "socket")
        orders = []
        if option.witness_learn:
            orders = ["--learn", option.witness_learn]
        elif option.witness_known:
            orders = ["--known", option.witness_known]
        with Listener(address, "AF_UNIX") as listener:
            answers = threading.Thread(target=_answer, args=(listener, record, option, folder), daemon=True)
            answers.start()
            status = subprocess.call(
                [record, "--quiet", "--log-file", log, *orders, "--", sys.executable, "-m", "pytest", *words],
                env={**os.environ, _ADDRESS: address},
            )
        with open(log, encoding="utf-8", errors="replace") as file:
            said = [line for line in file if line.startswith(("record: ", "! "))]
    sys.stdout.write("".join(said))
    against = any(line.startswith("! ") for line in said)
    return 1 if status == 0 and against else status


def _answer(listener, record, option, folder):
    """To each name of a recorder's folder: the texts of all reports that there are so far."""
    try:
        with listener.accept() as asks:
            while True:
                asks.send(_reports(record, option, asks.recv(), os.path.join(folder, "json")))
    except (EOFError, OSError):
        pass


def _of_single_locks(single):
    """Whether these very locks were taken both ways, and how the threads come to hang."""
    if not single:
        return []
    schedule = single.get("schedule")
    return [single["text"]] + (["hangs so: " + schedule["text"]] if schedule and schedule["result"] == "hangs" else [])


def _reports(record, option, records, file):
    known = option.witness_learn or option.witness_known
    orders = ["--known", known] if known and os.path.exists(known) else []
    subprocess.call(
        [record, "--json", file, *orders, "--show", records],
        stdout=subprocess.DEVNULL, stderr=subprocess.DEVNULL,
    )
    try:
        with open(file, encoding="utf-8", errors="replace") as opened:
            found = json.load(opened)
    except (OSError, ValueError):
        return []
    texts = ["\n".join(each["text"] + _of_single_locks(each["single"]))
             for each in found["reports"] if not each["silenced"] and each["kind"] in ("reversal", "duplicate", "circle", "self")
             and (each["kind"] != "duplicate" or each["counts"])]
    return texts + ["against an order of %s: %s" % (known, line[2:].split("\t")[0]) for line in found["told"] if line.startswith("! ")]


class _Watcher:
    """Under the recorder: asks after each phase of a test what is new."""

    def __init__(self, address):
        self._asks = Client(address, "AF_UNIX")
        self._seen = set()
        self._nested = 0

    def _news(self):
        """The texts that weren't there before."""
        if witness.nested() == self._nested:
            return []
        self._nested = witness.nested()
        self._asks.send(os.environ["RECORDER_DIRECTORY"])
        news = [text for text in self._asks.recv() if self._key(text) not in self._seen]
        self._seen.update(map(self._key, news))
        return news

    @staticmethod
    def _key(text):
        """A report without what comes to be known of its single locks later."""
        return text.split("\nsingle locks:")[0]

    @pytest.hookimpl(hookwrapper=True, trylast=True)
    def pytest_runtest_makereport(self, item, call):
        outcome = yield
        report = outcome.get_result()
        news = self._news()
        mark = item.get_closest_marker("witness")
        if not news or (mark and mark.kwargs.get("off")):
            return
        text = "\n".join(news)
        if report.passed:
            report.outcome, report.longrepr = "failed", text
        else:
            report.sections.append(("lock orders", text))
