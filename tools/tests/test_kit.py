"""Tests of bin/cvc-kit, on small files and on the folders of examples/ with their stored reports."""

import json
import os
import subprocess
import sys
import tempfile
import unittest
from pathlib import Path

ROOT = Path(__file__).resolve().parent.parent.parent
EXAMPLES = ROOT / "examples"
sys.path.insert(0, str(ROOT / "tools"))

from cvc_kit.text import read_mv, read_number  # noqa: E402


class Kit(unittest.TestCase):
    """Runs the program in a folder of its own."""

    def setUp(self):
        folder = tempfile.TemporaryDirectory()
        self.addCleanup(folder.cleanup)
        self.folder = Path(folder.name)

    def file(self, name, text):
        data = text if isinstance(text, bytes) else text.encode()
        (self.folder / name).write_bytes(data)
        return name

    def kit(self, *words, status=0):
        program = [sys.executable, str(ROOT / "bin" / "cvc-kit"), *map(str, words)]
        done = subprocess.run(program, cwd=self.folder, stdout=subprocess.PIPE, stderr=subprocess.PIPE, timeout=60)
        told = done.stdout.decode("utf-8", "replace") + done.stderr.decode("utf-8", "replace")
        self.assertNotIn("Traceback", told)
        self.assertEqual(done.returncode, status, told)
        return told


class Lint(Kit):
    def warned(self, text, *codes):
        told = self.kit("lint", self.file("n", text), status=1 if codes else 0)
        found = [line.split(": ")[2] for line in told.splitlines() if ": warning: " in line]
        self.assertEqual(sorted(found), sorted(codes), told)

    def test_each_warning(self):
        inverter = ".SUBCKT inv A Y VDD VSS\nMN Y A VSS VSS nch L=1 W=1\n.ENDS\n"
        self.warned(inverter)
        self.warned("*.CONNECT a b\n*.JOIN c d\n*.EQUIV e=f\n" + inverter, "joined-nets", "joined-nets", "joined-nets")
        self.warned(".option scale=1u\n" + inverter, "option")
        self.warned(".option scale=1\n.options reltol=1m\n" + inverter)
        self.warned("*.SCALE METER\n*.MEGA\n" + inverter)
        self.warned("*.SCALE MICRON\n" + inverter, "scale")
        self.warned("*.MEGA\nR1 a b 1M\n", "scale")
        self.warned("Level shifter test\n" + inverter, "title")
        self.warned(inverter.replace("VSS\n", "VSS ; text\n", 1), "semicolon")
        self.warned("*.GLOBAL g!\n*+ h!\n" + inverter, "star-plus")
        self.warned("R1 a b 1k $text here\n", "dollar")
        self.warned(".END\n" + inverter, "end")
        self.warned(inverter.replace(" VSS VSS", " 0 vdd!"), "ground", "bang")
        self.warned("R1 a A 1\nR2 a A 2\n", "case")
        self.warned("R1 a b c 1k rp\n", "bulk-terminal")
        self.warned(".SUBCKT top a b c d\nX1 a b c d inv\n.ENDS\n" + inverter, "top")

    def test_errors(self):
        text = "VX a 0 1\n.include x\nM1 d g s b n W='2*w'\nX1 a b nfoundry\n.tran 1n\n+ ok\n"
        told = self.kit("lint", self.file("n", text), status=2)
        for part in ("n:1: error: unsupported", "n:2: error: unsupported", "n:3:", "n:4: error: unknown-cell", "n:5: error: unknown-card", "5 errors"):
            self.assertIn(part, told)

    def test_examples_are_clean(self):
        for folder in sorted(EXAMPLES.iterdir()):
            self.assertIn("0 errors, 0 warnings", self.kit("lint", folder / "netlist.cdl"))


class Start(Kit):
    def test_rows(self):
        netlist = EXAMPLES / "two_domains" / "netlist.cdl"
        told = self.kit("start", netlist, "top=CHIP")
        for part in ("# 10 devices M; L 60n; W 1u, 2u, 4u", "nch nmos Vth=?", "VSS power 0  # guess", "DIN input ? ?", "XSPARE/B"):
            self.assertIn(part, told)
        self.kit("start", netlist, "--to", ".")
        self.assertIn("stands there", self.kit("start", netlist, "--to", ".", status=2))


class Review(Kit):
    def words(self, name):
        folder = EXAMPLES / name
        return [folder / "netlist.cdl", folder / "models", folder / "power"], folder / "report"

    def test_text_json_and_page(self):
        files, report = self.words("two_domains")
        told = self.kit("review", *files, "--report", report, status=1)
        for part in ("nets without any bound: 1: XSPARE/B", "undeclared ports of the top: 1: DOUT", "3 findings of 2 causes", "gate high from VDDA (800)"):
            self.assertIn(part, told)
        told = json.loads(self.kit("review", *files, "--report", report, "--json", "--html", "page", status=1))
        self.assertEqual(len(told["findings"]), 3)
        page = (self.folder / "page").read_text()
        self.assertIn('"XSPARE/MPB"', page)
        self.assertNotIn("http", page)

    def test_every_bound_has_an_origin(self):
        for folder in sorted(EXAMPLES.iterdir()):
            files, report = self.words(folder.name)
            status = 0 if "errors 0" in report.read_text() else 1
            self.assertNotIn("? (", self.kit("review", *files, "--report", report, "--all", status=status))

    def test_checker(self):
        files, report = self.words("level_shifter")
        (self.folder / "checker").write_text(f"#!/bin/sh\ncat '{report}'\n")
        (self.folder / "refuser").write_text("#!/bin/sh\necho refused models line 7 bad-row\nexit 4\n")
        for name in ("checker", "refuser"):
            os.chmod(self.folder / name, 0o755)
        self.assertIn("0 findings", self.kit("review", *files, "--cvc", "./checker"))
        self.assertIn("models:7: bad-row", self.kit("review", *files, "--cvc", "./refuser", status=2))
        self.kit("review", *files, "--cvc", "./none", status=2)
        self.assertIn("is no report with `nets`", self.kit("review", *files, "--report", self.words("io_pad")[1], status=2))


REPORT = "CVC report\ntop T devices 2 nets 2 declared 1\nnet a declared 0 1\nnet b ? 5\n{}errors {}\n"
ONE = "forward-bias X1/D1 d limit 600 found 700\n"
TWO = "floating-gate X1/M1 n net b\n"


class Reports(Kit):
    def test_diff(self):
        one = self.file("one", REPORT.format(ONE, 1))
        two = self.file("two", REPORT.format(ONE + TWO, 2))
        other = self.file("other", REPORT.format(ONE.replace("700", "900"), 1))
        self.assertIn("0 new, 0 changed, 0 gone, 1 the same", self.kit("diff", one, one))
        self.assertIn("new floating-gate", self.kit("diff", one, two, status=1))
        self.assertIn("0 new, 0 changed, 1 gone", self.kit("diff", two, one))
        self.assertIn("0 new, 1 changed", self.kit("diff", one, other, status=1))

    def test_waive(self):
        report = self.file("r", REPORT.format(ONE + TWO, 2))

        def waive(rows, status):
            return self.kit("waive", report, self.file("w", rows), "--today", "2026-06-01", status=status)

        self.assertIn("0 findings left", waive("# c\nforward-bias X1/D* 2026-06-01 found<=700 clamp\n* X1/M1 2027-01-01 spare\n", 0))
        self.assertIn("2 findings left", waive("forward-bias X1/D1 2027-01-01 found<=699 clamp\n", 1))
        self.assertIn("expired on 2026-05-31", waive("* * 2026-05-31 all\n", 1))
        self.assertIn("unused", waive("* * 2027-01-01 all\n* zz 2027-01-01 none\n", 3))
        for rows in ("x y 2027-01-01 r\n", "* y 2027-13-01 r\n", "* y 2027-01-01\n"):
            self.assertIn("w:1:", waive(rows, 2))

    def test_cut_reports(self):
        text = REPORT.format(ONE + TWO, 2)
        for end in range(0, len(text) - 1, 7):
            self.kit("diff", self.file("cut", text[:end]), "cut", status=2)


class Prepare(Kit):
    TABLE = "x nmos_rf M 1 2 3 4\nx rp3 R 1 2 sub=3\nbulk R rdiff\n"

    def test_changes(self):
        netlist = "a title\nXM1 d g s b nmos_rf w=1u\n+ l=2u\n* note\nX2 p q v rp3 r=1k\nR3 a b v 1000 rdiff\nR4 a b 1\n"
        told = self.kit("prepare", self.file("n", netlist), "--title", "--table", self.file("t", self.TABLE), "--map", "m")
        want = "* a title\nMXM1 d g s b $[nmos_rf] $w=1u $l=2u\n\n* note\nRX2 p q $[rp3] $SUB=v $r=1k\nR3 a b 1000 $[rdiff] $SUB=v\nR4 a b 1\n"
        self.assertEqual(told, want)
        self.assertIn("6 R3 a b 1000", (self.folder / "m").read_text())

    def test_pins(self):
        netlist = "XM1 / nmos_rf $PINS G=g D=d B=b S=s\nXM2 d g s b nmos_rf w=1u\n"
        row = "x nmos_rf M 1 2 3 4\n"
        told = self.kit("prepare", self.file("n", netlist), "--table", self.file("t", row + "pins nmos_rf D G S B\n"))
        self.assertEqual(told, "MXM1 d g s b $[nmos_rf]\nMXM2 d g s b $[nmos_rf] $w=1u\n")
        for rows, part in ((row, "pins nmos_rf PORT.."), (row + "pins nmos_rf D G S\n", "have no `B`"), (row + "pins nmos_rf D G S B E\n", "`E` is not connected")):
            self.assertIn(part, self.kit("prepare", "n", "--table", self.file("t", rows), status=2))
        self.assertIn("pins zz changes no card", self.kit("prepare", "n", "--table", self.file("t", row + "pins nmos_rf D G S B\npins zz a\n")))

    def test_refusals(self):
        table = self.file("t", self.TABLE)
        for netlist in ("*.JOIN a b\n", "X1 a b c nmos_rf\n", "R3 a b 0 rdiff\n", "X1 a b c d nmos_rf\nMX1 a b c d n\n", "V1 a 0 1\n", "R1 a b 'x'\n"):
            self.assertIn("n:", self.kit("prepare", self.file("n", netlist), "--table", table, status=2))
        for row in ("pins c\n", "pins c a a\n", "x c M 1 2 3\n", "x c R 1 3\n", "bulk M n\n", "y\n"):
            self.assertIn("t:1:", self.kit("prepare", self.file("n", ""), "--table", self.file("t", row), status=2))


class BadInput(Kit):
    def test_no_traceback(self):
        self.file("empty", "")
        self.file("binary", bytes(range(256)) * 50)
        self.file("huge", b"R1 a b " + b"x" * 3_000_000)
        self.file("equals", b"M = = =\n.SUBCKT\n*.GLOBAL =\nX1 $PINS\n")
        for name in ("binary", "huge", "equals", "missing", ".", "bad\udcffname".encode("utf-8", "surrogateescape")):
            alone = [[command, name] for command in ("lint", "start", "prepare")]
            for words in (*alone, ["diff", name, name], ["waive", name, name], ["review", name, name, name, "--cvc", "/nowhere"]):
                program = [sys.executable, str(ROOT / "bin" / "cvc-kit"), *words]
                done = subprocess.run(program, cwd=self.folder, stdout=subprocess.PIPE, stderr=subprocess.PIPE, timeout=60)
                self.assertNotIn(b"Traceback", done.stderr)
                self.assertEqual(done.returncode, 2, (words, done.stdout, done.stderr))

    def test_empty_and_help(self):
        self.file("empty", "")
        for words in (["lint", "empty"], ["start", "empty"], ["prepare", "empty"], ["--help"]):
            self.kit(*words)
        for command in ("lint", "start", "review", "diff", "waive", "prepare"):
            self.assertIn("exit status", self.kit(command, "--help"))


class Numbers(unittest.TestCase):
    def test_worked_values(self):
        unit = 10**24
        for text, value in (("0.2u", unit // 5_000_000), ("10uF", unit // 100_000), ("-.5meg", -500_000 * unit), ("1e-25", 0), ("-1.9e-24", -1), ("1e", unit)):
            self.assertEqual(read_number(text), value, text)
        for text in ("1e12", "1t", "1mil", "1A", ".", "", "1k5", "1e+", "1e99999999999999"):
            self.assertIsNone(read_number(text), text)
        self.assertEqual([read_mv(text) for text in ("1200m", "1000", "1000.001", "1.2005")], [1200, 1_000_000, None, None])


if __name__ == "__main__":
    unittest.main()
