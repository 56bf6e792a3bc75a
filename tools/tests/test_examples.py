"""That stored outputs of examples/ agree with one another. Each is compared with what the program writes by `cvc_examples`."""

import unittest
from pathlib import Path

EXAMPLES = Path(__file__).resolve().parent.parent.parent / "examples"


def without_nets(report):
    """The report that `check` writes without the word `nets`."""
    return "".join(line for line in report.splitlines(keepends=True) if not line.startswith("net "))


class Modes(unittest.TestCase):
    def test_reports_are_those_of_checks(self):
        rows = [line.split() for line in (EXAMPLES / "three_modes" / "modes").read_text().splitlines() if not line.startswith("#")]
        reports = [without_nets((EXAMPLES / file.replace("/power", "/report")).read_text()) for _, file in rows]
        texts = [f"CVC modes {len(rows)}\n", *(f"mode {name}\n{report}" for (name, _), report in zip(rows, reports))]
        total = sum(int(report.split()[-1]) for report in reports)
        self.assertEqual((EXAMPLES / "three_modes" / "told.modes").read_text(), "".join(texts) + f"total {total}\n")
