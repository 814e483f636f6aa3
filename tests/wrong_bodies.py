"""The wrong bodies: each fits the sources, the fact that it names is there, and few are tried by hand alone."""

import pathlib
import re
import runpy
import shutil
import tempfile
import unittest

TOP = pathlib.Path(__file__).resolve().parent.parent
TOOL = runpy.run_path(str(TOP / "tools" / "wrong_bodies"))
MOST_BY_HAND = 150


def faults_of_edits(crate, bodies, sources):
    """Why wrong bodies can't be applied to the sources of their crate. They are tried on a copy, each by itself."""
    with tempfile.TemporaryDirectory() as folder:
        shutil.copytree(sources, pathlib.Path(folder) / "crates" / crate / "src")
        copy = TOOL["Copy"](pathlib.Path(folder), crate)
        for body in bodies:
            why = copy.apply(body) if body.changes else "it changes nothing"
            copy.restore()
            if why:
                yield f"{body.label()}: {why}"


def faults_of_facts(bodies):
    """Which of the facts that wrong bodies name are nowhere."""
    for body in bodies:
        if body.fact:
            file, function = body.fact
            path = TOP / "crates" / file
            if not path.is_file() or not re.search(rf"\bfn {function}\(", path.read_text()):
                yield f"{body.label()}: there is no fact {function} in {file}"


class WrongBodies(unittest.TestCase):
    maxDiff = None

    def setUp(self):
        crates = {path.parent.parent.name for path in (TOP / "crates").glob("*/*/*.edit")}
        self.bodies = {crate: TOOL["bodies_of"](crate, []) for crate in sorted(crates)}

    def test_each_text_that_is_replaced_occurs_once(self):
        self.assertGreater(len(self.bodies), 20)
        faults = [fault for crate, bodies in self.bodies.items() for fault in faults_of_edits(crate, bodies, TOP / "crates" / crate / "src")]
        self.assertEqual(faults, [])

    def test_each_fact_that_is_named_is_there(self):
        bodies = [body for each in self.bodies.values() for body in each]
        self.assertGreater(sum(bool(body.fact) for body in bodies), 20)
        self.assertEqual(list(faults_of_facts(bodies)), [])

    def test_few_are_tried_by_hand_alone(self):
        self.assertLessEqual(len(list((TOP / "crates").glob("*/wrong/*.edit"))), MOST_BY_HAND)

    def test_a_stale_edit_is_found(self):
        edits = {
            "fits": "file: src/lib.rt\nold: a = 1\nnew: a = 2\nold: a = 2\nnew: a = 3\n",
            "gone": "file: src/lib.rt\nold: c = 1\nnew: c = 2\n",
            "gone_by_then": "file: src/lib.rt\nold: a = 1\nnew: a = 2\nold: a = 1\nnew: a = 3\n",
            "nothing": "file: src/lib.rt\n",
            "twice": "file: src/lib.rt\nold:  = 1\nnew:  = 2\n",
            "without_fact": "fact: gr_model_tests/src/facts/model.rt no_such_fact\n",
            "without_file": "file: src/none.rt\nold: a = 1\nnew: a = 2\n",
        }
        with tempfile.TemporaryDirectory() as folder:
            room = pathlib.Path(folder)
            (room / "src").mkdir()
            (room / "src" / "lib.rt").write_text("fn f() {\n    let a = 1;\n    let b = 1;\n}\n")
            for name, text in edits.items():
                (room / f"{name}.edit").write_text(text)
            bodies = [TOOL["read_edit"]("made", room / f"{name}.edit") for name in edits]
            found = [*faults_of_edits("made", [body for body in bodies if not body.fact], room / "src"), *faults_of_facts(bodies)]
        self.assertEqual(
            found,
            [
                "made/gone: its text is there 0 times in src/lib.rt",
                "made/gone_by_then: its text is there 0 times in src/lib.rt",
                "made/nothing: it changes nothing",
                "made/twice: its text is there 2 times in src/lib.rt",
                "made/without_file: there is no file src/none.rt",
                "made/without_fact: there is no fact no_such_fact in gr_model_tests/src/facts/model.rt",
            ],
        )
