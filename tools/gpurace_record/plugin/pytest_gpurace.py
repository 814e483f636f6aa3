"""A plugin of pytest, under gpurace-record: says which test makes a launch, and fails a test in whose launches something is found.

`gpurace-record pytest -p pytest_gpurace ..`; without gpurace-record it does nothing.
"""
import json
import os
import time

import pytest

WAITS = 60.0  # seconds for the judging of a test's launches


def pytest_configure(config):
    label, folder = os.environ.get("GPURACE_LABEL"), os.environ.get("GPURACE_TESTS", "")
    if label:
        worker = os.environ.get("PYTEST_XDIST_WORKER", "")
        if worker:  # each has a label of its own
            os.environ["GPURACE_LABEL"] = label = f"{label}.{worker}"
        config.pluginmanager.register(Tests(label, folder, worker), "gpurace-tests")


class Tests:
    def __init__(self, label, folder, worker):
        """Nobody judges where no folder is given."""
        self.label, self.folder = label, folder
        self.found, self.asked = os.path.join(folder, "judged"), os.path.join(folder, f"asked{worker}")

    @pytest.hookimpl(hookwrapper=True)
    def pytest_runtest_protocol(self, item):
        with open(self.label, "w") as out:
            out.write(item.nodeid.replace("\n", " ") + "\n")
        yield
        with open(self.label, "w"):
            pass

    @pytest.hookimpl(hookwrapper=True)
    def pytest_runtest_makereport(self, item, call):
        outcome = yield
        report = outcome.get_result()
        if self.folder and call.when == "call" and report.passed:
            found = self.findings(item.nodeid.replace("\n", " "))
            if found:
                report.outcome, report.longrepr = "failed", "\n".join(found)

    def findings(self, test):
        """What was found in the test's launches, once all of them are judged."""
        with open(self.asked, "w"):
            pass
        end = time.monotonic() + WAITS
        while os.path.exists(self.asked) and time.monotonic() < end:
            time.sleep(0.005)
        found = {}
        if os.path.exists(self.found):
            with open(self.found) as lines:
                for launch in map(json.loads, lines):
                    if launch["label"] == test:
                        found.update((it["fingerprint"], it["text"]) for it in launch["findings"])
        return [line for text in found.values() for line in text]
