#!/usr/bin/env python3
"""Tests of the plan of tools/build.py, which prove nothing."""
import contextlib
import io
import signal
import tempfile
import threading
import time
import unittest
from pathlib import Path

import build


class PlanTest(unittest.TestCase):
    def test_longest_chain_comes_first(self):
        # One processor can do the chain a, b, c while the other does d and e: 3 seconds, which no order is below.
        needs = {"a": [], "b": ["a"], "c": ["b"], "d": [], "e": []}
        seconds = {"a": 1.0, "b": 1.0, "c": 1.0, "d": 1.5, "e": 1.5}
        plan = build.Plan(needs, needs, seconds)
        times = plan.simulated(2)
        self.assertEqual(max(end for _, end, _ in times), 3.0)
        self.assertEqual(plan.bound(2), 3.0)
        self.assertEqual(plan.next_crate(), "a")

    def test_each_crate_begins_after_those_it_needs(self):
        needs = build.dependencies()
        names = build.at_or_below("cti", needs)
        plan = build.Plan(names, needs, build.expected_seconds(names))
        times = {name: (begin, end) for begin, end, name in plan.simulated(4)}
        self.assertEqual(set(times), names)
        for name, (begin, _) in times.items():
            for other in needs[name]:
                self.assertLessEqual(times[other][1], begin)

    def test_never_more_at_once_than_asked(self):
        needs = build.dependencies()
        names = build.at_or_below("cti", needs)
        plan = build.Plan(names, needs, build.expected_seconds(names))
        times = plan.simulated(3)
        for begin, _, _ in times:
            self.assertLessEqual(sum(first <= begin < last for first, last, _ in times), 3)

    def test_plan_is_near_the_bound(self):
        needs = build.dependencies()
        names = build.at_or_below("cti", needs)
        seconds = {name: 60 * build.table(build.TABLE).get(name, 1.0) for name in names}
        plan = build.Plan(names, needs, seconds)
        for lanes in (1, 2, 3, 4, 8):
            whole = max(end for _, end, _ in plan.simulated(lanes))
            self.assertLessEqual(whole, 1.15 * plan.bound(lanes), f"{lanes} at once")

    def test_simulation_changes_nothing(self):
        plan = build.Plan({"a", "b"}, {"a": [], "b": ["a"]}, {"a": 1.0, "b": 2.0})
        plan.begin("a", 0.0)
        self.assertEqual(plan.simulated(1, 0.25), [(0.0, 1.0, "a"), (1.0, 3.0, "b")])
        self.assertEqual((plan.waiting, set(plan.running), plan.proved), ({"b"}, {"a"}, set()))
        plan.put_back("a")
        self.assertEqual(plan.next_crate(), "a")


class Crate:
    """A crate whose proofs end as told, one after the other, and at last well."""

    def __init__(self, kit, name, deps, statuses=(), built=False):
        self.kit, self.name, self.deps, self.statuses, self.built = kit, name, deps, list(statuses), built
        self.is_program, self.folder, self.stamps = name == "program", f"{kit.folder}/{name}", 0

    def below(self):
        found = []
        for dep in self.deps:
            found += [it for it in [*dep.below(), dep] if it not in found]
        return found

    def stamp(self):
        self.stamps += 1
        return self.name

    def is_built(self):
        return self.built

    def build_rlib(self, flags, anew):
        self.kit.begun.append((self.name, flags[1]))
        with self.kit.lock_of_count:
            self.kit.at_once += 1
            self.kit.most = max(self.kit.most, self.kit.at_once)
        time.sleep(0.02)
        with self.kit.lock_of_count:
            self.kit.at_once -= 1
        print(f"the proof of {self.name}", file=self.out)
        return self.statuses.pop(0) if self.statuses else 0

    def run(self, flags, arguments):
        self.kit.begun.append((self.name, " ".join(arguments)))
        return 0


class Kit:
    """What is called of the kit's library. There is memory for so many proofs."""

    def __init__(self, folder, room):
        self.folder, self.room = folder, room
        self.begun, self.at_once, self.most, self.lock_of_count = [], 0, 0, threading.Lock()

    def fits(self, *needs):
        return len(needs) <= self.room

    def guarded(self):
        return []

    help_of = stop_on_unread = stop_on_links = lambda self, *_: None

    def lock(self, crates):
        return []


class BuildTest(unittest.TestCase):
    """Builds `program` over a chain `low`, `high` and beside it `side`."""

    def setUp(self):
        self.folder = tempfile.TemporaryDirectory()
        self.last, build.LAST = build.LAST, Path(self.folder.name, "last-build")
        self.handler = signal.getsignal(signal.SIGINT)

    def tearDown(self):
        build.LAST = self.last
        signal.signal(signal.SIGINT, self.handler)
        self.folder.cleanup()

    def build(self, room=4, lanes=4, **changes):
        """The kit after a build, whether all was proved, and what was said."""
        kit = Kit(self.folder.name, room)
        low = Crate(kit, "low", [], **changes.get("low", {}))
        high = Crate(kit, "high", [low], **changes.get("high", {}))
        side = Crate(kit, "side", [], **changes.get("side", {}))
        program = Crate(kit, "program", [high, side])
        needs = {"low": [], "high": ["low"], "side": [], "program": ["high", "side"]}
        plan = build.Plan(set(needs), needs, {"low": 1.0, "high": 2.0, "side": 1.0, "program": 1.0})
        with contextlib.redirect_stdout(io.StringIO()) as said:
            is_proved = build.Build(kit, program, plan, lanes).prove_all()
        return kit, is_proved, said.getvalue()

    def names(self, kit):
        return [name for name, _ in kit.begun]

    def test_proves_each_crate_once_and_runs_the_program_last(self):
        kit, is_proved, said = self.build(lanes=1)
        self.assertTrue(is_proved)
        libraries = [("low", "1"), ("high", "1"), ("side", "1")]
        self.assertEqual(kit.begun, [*libraries, ("program", "infer ../../examples/facts.pl")])
        self.assertIn("[4 of 4] program in ", said)
        self.assertEqual(set(build.table(build.LAST)), {"low", "high", "side", "program"})

    def test_side_by_side(self):
        kit, is_proved, _ = self.build()
        self.assertTrue(is_proved)
        self.assertEqual(kit.most, 2)

    def test_memory_for_one(self):
        kit, is_proved, _ = self.build(room=1)
        self.assertTrue(is_proved)
        self.assertEqual(kit.most, 1)

    def test_spare_processors_help_the_only_proof(self):
        kit, _, _ = self.build(side={"built": True})
        self.assertEqual(kit.begun[:2], [("low", "4"), ("high", "4")])

    def test_what_is_built_is_passed_over(self):
        kit, is_proved, _ = self.build(low={"built": True}, side={"built": True})
        self.assertTrue(is_proved)
        self.assertEqual(self.names(kit), ["high", "program"])

    def test_what_stands_on_a_changed_crate_is_proved_anew(self):
        kit, _, _ = self.build(high={"built": True}, side={"built": True})
        self.assertEqual(self.names(kit), ["low", "high", "program"])

    def test_a_failure_is_shown_and_nothing_more_begins(self):
        kit, is_proved, said = self.build(low={"statuses": [1]})
        self.assertFalse(is_proved)
        self.assertNotIn("high", self.names(kit))
        self.assertIn("== low\nthe proof of low", said)

    def test_a_proof_that_is_killed_runs_again(self):
        kit, is_proved, said = self.build(low={"statuses": [-signal.SIGKILL]})
        self.assertTrue(is_proved)
        self.assertEqual(self.names(kit).count("low"), 2)
        self.assertIn("low was killed, most likely for memory: 3 at once from here on", said)

    def test_killed_alone_is_a_failure(self):
        _, is_proved, said = self.build(lanes=1, low={"statuses": [-signal.SIGKILL]})
        self.assertFalse(is_proved)
        self.assertIn("== low\n", said)


if __name__ == "__main__":
    unittest.main()
