"""Checks that nothing that a server answers and no scenario costs more than it is long: each row of
python/tests/commands/costs_of_answers.py and python/tests/commands/costs_of_scenarios.py, within twice its seconds of
processor time, in one of three tries: what costs the square of its length is far above that each time, and what runs
beside it is not. On a machine that is slower than the one where the seconds were set they are more by as much. It needs
python3 (3.9 or later). Plays are made by bin/fetchplay, or by the program that FETCHPLAY names."""
from __future__ import annotations

import os

from fiorrudda.commands import running
from fiorrudda.places import ROOT
from tests import base
from tests.commands import costs_of_answers, costs_of_scenarios


TRIES = 3  # of a cost that is above what it is allowed


def setUpModule() -> None:
    """Builds the program where it must be, and then calls it without what looks whether it is new."""
    if "FETCHPLAY" not in os.environ:
        running.played(b'{"format":1,"documents":[]}')
        os.environ["FETCHPLAY"] = os.path.join(ROOT, "crates", "fetchplay", "out", "fetchplay")


class Checks(base.Checks):
    def check_cost(self, name: str, work: costs_of_answers.Work, most: int) -> None:
        for _ in range(TRIES):
            slower, began = base.pace(), base.spent()
            work(self.compare)
            took, allowed = base.spent() - began, 2 * most * max(slower, base.pace())
            if took <= allowed:
                return
        self.fault(f"{name}: {took:.1f} s, and at most {allowed:.1f} are allowed here")

    def test_costs(self) -> None:
        costs = costs_of_answers.COSTS + costs_of_scenarios.COSTS
        for name, work, most in costs:
            self.check_cost(name, work, most)
        self.counted(f"{len(costs)} costs, each within its seconds")


def main() -> int:
    return base.main("commands/check_costs", __name__)
