"""Campaigns over ten small systems: each planted fault is found and made as short as it can be, and the right systems pass."""
import os
import sys
import unittest

sys.path[:0] = [os.path.dirname(os.path.abspath(__file__))]

from testing_folder import NEEDS, NEEDS_HYPOTHESIS, NEEDS_PROGRAM, InFolder  # noqa: E402

SEEDS = (1, 2, 3)

RUNS, STEPS = 1000, 4
"""How much is played of each right system: short runs, as a run costs more than a step."""


@NEEDS
@NEEDS_PROGRAM
@NEEDS_HYPOTHESIS
class Systems(InFolder):
    def test_planted_faults_are_found_and_made_short(self):
        from testing_systems import SYSTEMS

        for kind in SYSTEMS:
            for seed in SEEDS:
                with self.subTest(system=kind.__name__, seed=seed):
                    result = self.campaign(kind(planted=True), kind.script, runs=200, seed=seed)
                    self.assertIsNotNone(result.finding, "not found in %d runs" % result.runs)
                    self.assertFalse(result.finding.flaky)
                    self.assertIn("/".join(result.finding.reports), kind.shortest)

    def test_right_systems_pass(self):
        from testing_systems import SYSTEMS

        for kind in SYSTEMS:
            with self.subTest(system=kind.__name__):
                result = self.campaign(kind(planted=False), kind.script, runs=RUNS, steps=STEPS, seed=1)
                self.assertEqual((result.finding, result.stopped, result.runs, result.status()), (None, None, RUNS, 0))


if __name__ == "__main__":
    unittest.main()
