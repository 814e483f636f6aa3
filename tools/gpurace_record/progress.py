"""How far the judging is, on a terminal."""
from __future__ import annotations

import sys


class Progress:
    """How many of so many launches are left to judge, by Rich, where that and a terminal are there; else nothing is shown."""

    def __init__(self, most: int):
        self.most, self.bar = most, None
        if sys.stderr.isatty():
            try:
                from rich.console import Console
                from rich.progress import Progress as Bar
                self.bar = Bar(console=Console(stderr=True), transient=True)
            except ImportError:
                pass

    def __enter__(self) -> Progress:
        if self.bar:
            self.bar.start()
            self.task = self.bar.add_task("judging", total=self.most)
        return self

    def __exit__(self, *_: object) -> None:
        if self.bar:
            self.bar.stop()

    def left(self, number: int) -> None:
        if self.bar:
            self.most = max(self.most, number)
            self.bar.update(self.task, total=self.most, completed=self.most - number)
