"""Findings that are known, in a file of a baseline, and those that are suppressed by a line of a file."""
from __future__ import annotations

import dataclasses
import fnmatch
import json
import os
from typing import Any, Dict, Iterator, List

from .finding import Finding, fingerprint_of
from .judging import count
from .report import Filter, Report

KEYS = ("kind", "kernel", "buffers", "cause", "texts")
VERSION = 1
PATTERNS = ("kernel", "buffer", "place")


class Wrong(Exception):
    """A file that is not as it should be, or not there."""


def entry_of(finding: Finding) -> Dict[str, Any]:
    return {"kind": finding.kind, "kernel": finding.kernel, "buffers": finding.buffers(), "cause": finding.cause, "texts": finding.texts()}


def is_alike(one: Dict[str, Any], other: Dict[str, Any]) -> bool:
    return all(one[key] == other[key] or (key == "cause" and not (one[key] and other[key])) for key in KEYS)


class Baseline(Filter):
    """The findings that a file has are known: by kernel, buffers, cause and the text of their lines. A cause that was not known in time is like
    any other."""

    def __init__(self, path: str, is_updated: bool):
        self.path, self.is_updated = path, is_updated
        self.known: Dict[str, Dict[str, Any]] = {}
        if os.path.exists(path):
            self.known = {fingerprint_of(*(it[key] for key in KEYS)): it for it in self.read()}
        elif not is_updated:
            raise Wrong(f"there is no {path}; --update-baseline writes it")

    def read(self) -> List[Dict[str, Any]]:
        try:
            with open(self.path, encoding="utf-8") as given:
                made = json.load(given)
            if made["gpurace_baseline"] != VERSION or any(key not in it for it in made["findings"] for key in KEYS):
                raise ValueError
            return made["findings"]
        except (OSError, ValueError, KeyError, TypeError):
            raise Wrong(f"{self.path} is no baseline of version {VERSION}") from None

    def see(self, finding: Finding) -> None:
        it = entry_of(finding)
        if self.is_updated or finding.fingerprint() in self.known or any(is_alike(it, other) for other in self.known.values()):
            finding.state = "known"

    def gone(self, report: Report) -> List[Dict[str, Any]]:
        """Known findings that no launch has, of kernels all of whose launches were judged whole."""
        launched = {launch.kernel for launch in report.launches} - {launch.kernel for launch in report.launches if launch.reasons}
        found = [entry_of(entry.finding) for entry in report.entries().values()]
        return [it for it in self.known.values() if it["kernel"] in launched and not any(is_alike(it, other) for other in found)]

    def lines(self, report: Report) -> Iterator[str]:
        known = [entry for entry in report.entries().values() if entry.state == "known"]
        yield f"{count(len(known), 'known finding')} of {self.path}{', to be written anew' if self.is_updated else ''}"
        for it in self.gone(report):
            buffers = f" on {', '.join(it['buffers'])}" if it["buffers"] else ""
            yield f"    gone: {it['kind']} in {it['kernel']}{buffers}" + "".join(f", `{text}`" for text in it["texts"])

    def text(self, report: Report) -> str:
        """What is known now: the findings of this run, and those of kernels that it did not judge whole."""
        found = [entry_of(entry.finding) for entry in report.entries().values() if entry.state == "known"]
        gone = self.gone(report)
        found += [{key: it[key] for key in KEYS} for it in self.known.values() if it not in gone and not any(is_alike(it, other) for other in found)]
        lines = sorted(json.dumps(it, ensure_ascii=False) for it in found)
        return f'{{"gpurace_baseline": {VERSION}, "findings": [\n' + ",\n".join(lines) + "\n]}\n"


@dataclasses.dataclass
class Rule:
    number: int
    patterns: Dict[str, str]
    why: str
    matched: int = 0

    def matches(self, finding: Finding) -> bool:
        values = {"kernel": [finding.kernel], "buffer": finding.buffers(), "place": [access.place for access in finding.accesses]}
        return all(any(fnmatch.fnmatchcase(value, pattern) for value in values[key]) for key, pattern in self.patterns.items())


class Suppressions(Filter):
    """Lines `KEY PATTERN [KEY PATTERN..] -- WHY`, with the keys kernel, buffer and place; `#` begins a comment."""

    def __init__(self, path: str):
        self.path = path
        try:
            with open(path, encoding="utf-8") as given:
                lines = [(number, line.strip()) for number, line in enumerate(given, 1)]
        except (OSError, UnicodeDecodeError):
            raise Wrong(f"{path} can't be read") from None
        self.rules = [self.rule(number, line) for number, line in lines if line and not line.startswith("#")]

    def rule(self, number: int, line: str) -> Rule:
        said, dashes, why = line.partition(" -- ")
        words = said.split()
        patterns = dict(zip(words[::2], words[1::2]))
        is_right = words and len(words) == 2 * len(patterns) and set(patterns) <= set(PATTERNS) and why.strip()
        if not is_right:
            raise Wrong(f"{self.path}: line {number} is not KEY PATTERN .. -- WHY, with the keys {', '.join(PATTERNS)}")
        return Rule(number, patterns, why.strip())

    def see(self, finding: Finding) -> None:
        rule = next((it for it in self.rules if it.matches(finding)), None)
        if rule:
            rule.matched += 1
            finding.state, finding.why = "suppressed", rule.why

    def lines(self, report: Report) -> Iterator[str]:
        for rule in self.rules:
            matched = f"suppressed {count(rule.matched, 'time')}" if rule.matched else "matched nothing"
            yield f"{self.path}, line {rule.number}: {matched}: {rule.why}"
