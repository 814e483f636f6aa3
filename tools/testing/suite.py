"""The tests of the folder tests/, and how they are run side by side."""

import concurrent.futures
import dataclasses
import importlib.util
import os
import typing
import unittest

from testing import documents, transcript


@dataclasses.dataclass
class Outcome:
    """What came of one test. `why` is the difference of a failure, or why a test was skipped."""

    name: str
    kind: str  # passed, failed or skipped
    why: str = ""


@dataclasses.dataclass
class Group:
    """Tests that run one after another, as they share a folder."""

    names: typing.List[str]
    run: typing.Callable[[typing.Callable[[str], bool]], typing.Iterator[Outcome]]


def is_named(name, words):
    return not words or any(word in name for word in words)


def transcript_group(path, name, program, top):
    runs = transcript.read(path, name)

    def run(is_wanted):
        for made, difference in transcript.differences(runs, program, top, is_wanted):
            yield Outcome(made.name, "failed" if difference else "passed", difference)

    return Group([it.name for it in runs.runs], run)


def document_group(document, program, top):
    def run(is_wanted):
        difference = documents.difference(document, program, top)
        yield Outcome(document.name, "failed" if difference else "passed", difference)

    return Group([document.name], run)


def cases_of(suite):
    for it in suite:
        if isinstance(it, unittest.TestSuite):
            yield from cases_of(it)
        else:
            yield it


def outcome_of(name, case):
    result = unittest.TestResult()
    case.run(result)
    for _, text in result.failures + result.errors:
        return Outcome(name, "failed", text)
    for _, why in result.skipped:
        return Outcome(name, "skipped", why)
    return Outcome(name, "passed")


def python_groups(path, name):
    """The tests of a Python file, each of which runs by itself."""
    spec = importlib.util.spec_from_file_location(f"tests_{path.stem}", path)
    module = importlib.util.module_from_spec(spec)
    spec.loader.exec_module(module)
    for case in cases_of(unittest.defaultTestLoader.loadTestsFromModule(module)):
        full = f"{name}: {case.id().rpartition('.')[2].replace('test_', '', 1).replace('_', ' ')}"

        def run(is_wanted, case=case, full=full):
            if is_wanted(full):
                yield outcome_of(full, case)

        yield Group([full], run)


def groups(top, program):
    """All tests: those of the files of tests/, and those of the documents."""
    found = []
    for path in sorted((top / "tests").rglob("*")):
        name = str(path.relative_to(top / "tests").with_suffix(""))
        if path.suffix == ".py":
            found += python_groups(path, name)
        elif path.suffix == ".run":
            found.append(transcript_group(path, name, program, top))
    return found + [document_group(it, program, top) for it in documents.documents(top)]


def outcomes(found, words):
    """Runs the tests with these words in their names, as many side by side as there are processors."""

    def run(group):
        return list(group.run(lambda name: is_named(name, words)))

    wanted = [it for it in found if any(is_named(name, words) for name in it.names)]
    with concurrent.futures.ThreadPoolExecutor(max_workers=len(os.sched_getaffinity(0))) as pool:
        for done in concurrent.futures.as_completed([pool.submit(run, it) for it in wanted]):
            yield from done.result()
