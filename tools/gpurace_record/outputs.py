"""What a run has found as text, JSON, SARIF and JUnit (docs/OUTPUT.md)."""
from __future__ import annotations

import dataclasses
import itertools
import json
import os
import re
import shlex
import xml.etree.ElementTree as xml
from typing import Any, Callable, Dict, List, Optional, Tuple
from urllib.parse import quote

from . import page
from .finding import Access, Finding
from .judging import Launch
from .known import Baseline, Suppressions
from .report import NEW, Entry, Report
from .sides import PLACE

VERSION = 1
SARIF = "https://docs.oasis-open.org/sarif/sarif/v2.1.0/errata01/os/schemas/sarif-schema-2.1.0.json"
RULES = {"race": ("DataRace", "Two work-items access a word, one of them modifies it, and nothing orders the two."),
         "divergence": ("DivergentBarrier", "Not all work-items of a group meet a barrier alike."),
         "out-of-bounds": ("OutOfBounds", "An access to global or local memory is in no buffer."),
         "unmatched": ("UnmatchedAcquire", "An acquire never gets a release that it names.")}
NOT_OF_XML = re.compile("[^\t\n\r\u0020-\ud7ff\ue000-\ufffd\U00010000-\U0010ffff]")


def launch_object(launch: Launch, kept: bool) -> Dict[str, Any]:
    return {"number": launch.number, "kernel": launch.kernel, "label": launch.label or None, "seed": launch.seed,
            "folder": launch.folder if kept else None, "verdict": launch.verdict, "size": launch.size, "records": launch.records,
            "findings": [it.fingerprint() for it in launch.findings], "reasons": [{"name": it.name, "text": it.text} for it in launch.reasons],
            "notes": launch.notes, "end": launch.end}


def finding_object(mark: str, entry: Entry) -> Dict[str, Any]:
    it = entry.finding
    accesses = [{key: value or None if key in ("place", "text", "scope", "order") else value
                 for key, value in dataclasses.asdict(access).items() if key not in ("marks", "nth")} for access in it.accesses]
    return {"fingerprint": mark, "kind": it.kind, "kernel": it.kernel, "title": it.title, "cause": it.cause, "message": it.message,
            "words": it.words, "shown": it.shown or None, "word": it.word or None, "buffers": [dataclasses.asdict(buffer) for buffer in it.maps], "accesses": accesses,
            "is_equal": it.is_equal, "is_doubtful": it.is_doubtful, "state": entry.state, "why": entry.why or None,
            "launches": len(entry.launches), "text": list(it.lines())}


def as_json(report: Report, words: List[str]) -> str:
    baseline = next((it for it in report.filters if isinstance(it, Baseline)), None)
    rules = [rule for it in report.filters if isinstance(it, Suppressions) for rule in it.rules]
    made = {"gpurace_record": VERSION, "status": report.status(), "program": words,
            "reasons": [dataclasses.asdict(reason) for reason in report.reasons()],
            "launches": [launch_object(launch, bool(report.kept)) for launch in report.launches],
            "findings": [finding_object(*it) for it in report.entries().items()],
            "gone": baseline.gone(report) if baseline else [],
            "suppressions": [{"line": rule.number, **rule.patterns, "why": rule.why, "matched": rule.matched} for rule in rules]}
    return json.dumps(made, indent=1) + "\n"


class Artifacts:
    """The texts of kernels by their URIs: a file of --sources, or else the name that the text has in its launch, below the kernel's name. Another
    text of that name has a number. None where a text is not known."""

    def __init__(self, report: Report):
        self.texts: Dict[str, Optional[List[str]]] = {}
        for launch in report.launches:
            for file in launch.texts:
                self.uri(launch, file)

    def uri(self, launch: Launch, file: str) -> str:
        text, is_path = launch.texts.get(file), "/" in file
        folder, name = os.path.split(os.path.relpath(file)) if is_path else (launch.kernel, file)
        for number in itertools.count(1):
            uri = quote(os.fsencode(os.path.join(folder if number == 1 else f"{folder}.{number}", name)))
            if self.texts.setdefault(uri, text) == text or (is_path and text is None):
                break
        return uri

    def location(self, launch: Launch, place: str, text: str, said: str) -> Dict[str, Any]:
        at = PLACE.fullmatch(place)
        if not at:
            return {"message": {"text": said}}
        region: Dict[str, Any] = {"startLine": max(1, int(at[2])), "startColumn": max(1, int(at[3]))}
        if text:
            region["snippet"] = {"text": text}
        physical = {"artifactLocation": {"uri": self.uri(launch, at[1])}, "region": region}
        return {"physicalLocation": physical, "message": {"text": said}}

    def stack(self, launch: Launch, access: Access) -> Dict[str, Any]:
        """The calls that lead to an access, and it as the innermost frame."""
        frames = [self.location(launch, access.place, access.text, access.sentence())]
        frames += [self.location(launch, call.place, call.text, f"called at {call.place}") for call in access.calls]
        return {"message": {"text": access.sentence()}, "frames": [{"location": frame} for frame in frames]}


def result(mark: str, entry: Entry, artifacts: Artifacts, has_baseline: bool) -> Dict[str, Any]:
    it, launch = entry.finding, entry.launches[0]
    places = [artifacts.location(launch, access.place, access.text, access.sentence()) for access in it.accesses]
    made = {"ruleId": RULES[it.kind][0], "level": "warning" if it.is_doubtful else "error",
            "message": {"text": f"{it.title}{': ' if it.message else ''}{it.message}"}, "occurrenceCount": len(entry.launches),
            "partialFingerprints": {"gpurace/v1": mark}, "locations": places[:1],
            "relatedLocations": [{"id": number, **place} for number, place in enumerate(places[1:], 1)]}
    if any(access.calls for access in it.accesses):
        made["stacks"] = [artifacts.stack(launch, access) for access in it.accesses if access.calls]
    if has_baseline:
        made["baselineState"] = "unchanged" if entry.state == "known" else "new"
    if entry.state == "suppressed":
        made["suppressions"] = [{"kind": "external", "justification": entry.why}]
    return made


def as_sarif(report: Report, words: List[str]) -> str:
    """SARIF 2.1.0: a result for each finding, with the texts of the kernels."""
    baseline = next((it for it in report.filters if isinstance(it, Baseline)), None)
    artifacts = Artifacts(report)
    results = [result(mark, entry, artifacts, bool(baseline)) for mark, entry in report.entries().items()]
    for it in baseline.gone(report) if baseline else []:
        results.append({"ruleId": RULES[it["kind"]][0], "baselineState": "absent", "level": "note",
                        "message": {"text": f"gone: {it['kind']} in {it['kernel']}: {'; '.join(it['texts'])}"}})
    rules = [{"id": name, "shortDescription": {"text": text}} for name, text in RULES.values()]
    notes = [{"level": "warning", "descriptor": {"id": reason.name}, "message": {"text": reason.text}} for reason in report.reasons()]
    run = {"tool": {"driver": {"name": "gpurace", "rules": rules}}, "results": results, "columnKind": "utf16CodeUnits",
           "artifacts": [{"location": {"uri": uri}, "contents": {"text": "\n".join(lines) + "\n"}} for uri, lines in artifacts.texts.items() if lines],
           "invocations": [{"executionSuccessful": not report.run_reasons, "exitCode": report.status(), "arguments": words,
                            "toolExecutionNotifications": notes}]}
    return json.dumps({"$schema": SARIF, "version": "2.1.0", "runs": [run]}, indent=1) + "\n"


def case(suite: xml.Element, name: str, of: str) -> xml.Element:
    return xml.SubElement(suite, "testcase", {"name": name, "classname": of, "time": "0"})


def note(made: xml.Element, kind: str, message: str, lines: List[str]) -> None:
    xml.SubElement(made, kind, {"message": NOT_OF_XML.sub("?", message), "type": kind}).text = NOT_OF_XML.sub("?", "\n".join(lines))


def kernel_case(suite: xml.Element, label: str, kernel: str, launches: List[Launch]) -> None:
    """A kernel, in a test where these are named: it has failed where something new is found, and is skipped where nothing is known."""
    made = case(suite, kernel, label or "kernels")
    new: Dict[str, Finding] = {it.fingerprint(): it for launch in launches for it in launch.findings if it.state == NEW}
    certain = [it for it in new.values() if not it.is_doubtful]
    doubts = [f"doubtful: {it.title}" for it in new.values() if it.is_doubtful] + [reason.text for launch in launches for reason in launch.reasons]
    if certain:
        note(made, "failure", "; ".join(it.title for it in certain), [line for it in certain for line in it.lines()])
    elif doubts:
        note(made, "skipped", doubts[0], list(dict.fromkeys(doubts)))


def as_junit(report: Report, words: List[str]) -> str:
    """JUnit: a case for each kernel, and one for the run where something keeps it from being an answer."""
    kernels: Dict[Tuple[str, str], List[Launch]] = {}
    for launch in report.launches:
        kernels.setdefault((launch.label, launch.kernel), []).append(launch)
    suite = xml.Element("testsuite", {"name": "gpurace"})
    for (label, kernel), launches in kernels.items():
        kernel_case(suite, label, kernel, launches)
    of_run = [reason.text for reason in report.reasons() if not any(reason.text == it.text for launch in report.launches for it in launch.reasons)
              and reason.name != "doubtful"]
    run = case(suite, shlex.join(words)[:200] or "the run", "run")
    if of_run:
        note(run, "error", of_run[0], of_run)
    cases = suite.findall("testcase")
    for name, tag in (("failures", "failure"), ("errors", "error"), ("skipped", "skipped")):
        suite.set(name, str(sum(it.find(tag) is not None for it in cases)))
    suite.set("tests", str(len(cases)))
    whole = xml.Element("testsuites")
    whole.append(suite)
    return '<?xml version="1.0" encoding="UTF-8"?>\n' + xml.tostring(whole, encoding="unicode") + "\n"


def as_text(report: Report, words: List[str]) -> str:
    return "".join(f"{line}\n" for line in report.lines())


FORMS: Dict[str, Callable[[Report, List[str]], str]] = {"json": as_json, "sarif": as_sarif, "junit": as_junit, "html": page.as_html, "report": as_text}
