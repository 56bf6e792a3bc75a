"""Tests of bin/cvc, with a program in the place of the built one that writes what a test wants."""

import os
import shutil
import subprocess
import tempfile
import unittest
from pathlib import Path

ROOT = Path(__file__).resolve().parent.parent.parent
STAND_IN = """#!/bin/sh
# writes what the file `answer` holds, and ends with the status in `status`
cat "${0%/*}/answer"
exit "$(cat "${0%/*}/status")"
"""
STAND_IN_KIT = """#!/bin/sh
# in the place of rt: tells its words and the copied files, and that the program ended
echo 'run=ended status=1 proved=no' >&2
for word in "$@"; do
  case $word in
    *=/*) echo "${word%%=*}: $(tr '\\n' ';' <"${word#*=}")" ;;
    *) echo "$word" ;;
  esac
done
"""


class Words(unittest.TestCase):
    """Runs a copy of bin/cvc, beside which the stand-in counts as built."""

    def setUp(self):
        folder = tempfile.TemporaryDirectory()
        self.addCleanup(folder.cleanup)
        self.folder = Path(folder.name) / "files"
        self.folder.mkdir()
        self.top = Path(folder.name) / "checkout"
        for name in ("bin", "docs", "tools"):
            shutil.copytree(ROOT / name, self.top / name, ignore=shutil.ignore_patterns("__pycache__"))
        shutil.copy(ROOT / "crates.txt", self.top)
        self.out = self.top / "crates" / "cvc" / "out"
        self.out.mkdir(parents=True)
        (self.out / "cvc").write_text(STAND_IN)
        (self.out / "cvc").chmod(0o755)
        (self.out / "built").touch()
        files = {"n": "R1 a b 1\nM1 d g s b nx\n", "m": "R resistor\n", "bad": "R resistor\nzz yy\n", "p": "a power 1\nb power x\n", "q": "b power 2\n"}
        files.update({"log": "0 0 1\n0 0 01\n", "report": "CVC report\nerrors 0\n", "expected": "a ? ?\nz 0 0\n", "edits": "recheck\nunset z\n"})
        files.update({"list": "# modes\non  p\noff q # falls\n", "long": "a p\n" * 17})
        for name, text in files.items():
            (self.folder / name).write_text(text)

    def told(self, words, answer, status):
        """What stands on standard error where the program gives this answer."""
        (self.out / "answer").write_text(answer)
        (self.out / "status").write_text(str(status))
        done = subprocess.run([str(self.top / "bin" / "cvc"), *words.split()], cwd=self.folder, capture_output=True, text=True, timeout=60)
        self.assertEqual((done.stdout, done.returncode), (answer, status), done.stderr)
        return done.stderr

    def test_accepted(self):
        for words in ("check n m p", "prove n m p", "verify n m p log report", "expect n m p expected", "modes n m list", "session n m p edits"):
            self.assertEqual(self.told(words, "x\n", 0), "")
            if not words.startswith("verify"):
                self.assertEqual(self.told(words, "x\n", 1), "")

    def test_refused_lines(self):
        for words, answer, status, parts in (
            ("check n m p", "refused netlist line 2 no-model", 6, ("n:2: no-model: M1 d g s b nx", "no row for nx, which line 2")),
            ("prove n bad p", "refused models line 2 unknown-kind", 4, ("bad:2: unknown-kind: zz yy", "what to do: write nmos")),
            ("prove n m p top=zz", "refused netlist line 0 no-top", 3, ("n: no-top\n",)),
            ("verify n m p log report nets", "refused log line 2 bad-row", 10, ("log:2: bad-row: 0 0 01", "DEVICE SLOT VALUE")),
            ("verify n m p log report", "refused report line 1 file-too-long", 10, ("report:1: file-too-long: CVC report",)),
            ("expect n m p expected", "refused expected line 2 unknown-net", 11, ("expected:2: unknown-net: z 0 0", "names a net")),
            ("expect n m p expected", "refused power line 2 bad-voltage", 5, ("p:2: bad-voltage: b power x",)),
            ("modes n m long", "refused modes line 17 too-many-modes", 12, ("long:17: too-many-modes: a p", "at most 16")),
            ("modes n m list", "refused mode on power line 2 bad-voltage", 5, ("in the mode on:", "p:2: bad-voltage: b power x")),
            ("modes n m list", "refused mode off power line 1 unknown-net", 6, ("in the mode off:", "q:1: unknown-net: b power 2")),
            ("modes n m list", "refused mode off netlist line 2 no-model", 6, ("n:2: no-model", "no row for nx")),
            ("session n m p edits", "refused edits line 2 not-there", 13, ("edits:2: not-there: unset z", "what to do")),
        ):
            told = self.told(words, answer + "\n", status)
            for part in parts:
                self.assertIn(part, told)

    def test_session_at_its_end(self):
        told = self.told("session n m p edits", "CVC session\nrecheck 1 errors 0\nrefused power line 2 unknown-net\n", 6)
        self.assertIn("row 2 of the supplies as they stand at the end: unknown-net", told)

    def test_verdicts(self):
        for answer, part in (
            ("rejected line 2", "log:2: this line does not follow from the lines before it: 0 0 01"),
            ("rejected device X1/R1", "X1/R1 hands on a voltage that no line has"),
            ("rejected byte 13", "report: the report is not the one that the log leads to, from line 2 on"),
        ):
            self.assertIn(part, self.told("verify n m p log report", answer + "\n", 1))

    def test_unread(self):
        (self.folder / "q").unlink()
        for words, name in (("verify n m p none report", "none"), ("verify n m p log none", "none"), ("expect n m none log", "none"), ("modes n m list", "q")):
            self.assertEqual(self.told(words, "", 7), f"bin/cvc: {name}: there is no such file\n")
        self.assertEqual(self.told("session n . p edits", "", 7), "bin/cvc: .: is a folder\n")
        self.assertEqual(self.told("session n m p edits", "", 7), "bin/cvc: a file could not be read to its end\n")

    def test_other_statuses(self):
        self.assertIn("the words are refused: missing-word", self.told("verify n m p log", "refused words missing-word\n", 2))
        self.assertIn("bin/cvc --help lists the words", self.told("", "refused words no-command\n", 2))
        self.assertIn("a front of the text", self.told("expect n m p expected", "CVC", 8))
        self.assertIn("no memory", self.told("modes n m list", "", 9))

    def test_unproved_copies_the_files(self):
        kit = self.folder / "kit"
        kit.mkdir()
        (kit / "rt").write_text(STAND_IN_KIT)
        (kit / "rt").chmod(0o755)
        (self.folder / "list").write_text("# modes\non  p\noff q # falls\nnone zz\n")
        for words, told in (
            ("verify n m q log report", "--data\nlog: 0 0 1;0 0 01;\n--data\nreport: CVC report;errors 0;\n--\nverify\nnetlist\nmodels\npower\nlog\nreport\n"),
            ("session n m q edits", "edits: recheck;unset z;\n--\nsession\nnetlist\nmodels\npower\nedits\n"),
            ("expect n m zz expected", "--data\nexpected: a ? ?;z 0 0;\n--\nexpect\nnetlist\nmodels\npower\nexpected\n"),
            ("modes n m list", "power2: b power 2;\n--data\nmodes: # modes;on power1;off power2;none power3;\n--\nmodes\nnetlist\nmodels\nmodes\n"),
            ("modes n m", "--\nmodes\nn\nm\n"),
            ("gen 0 1", "--\ngen\n0\n1\n"),
        ):
            program = [str(self.top / "bin" / "cvc"), "--unproved", *words.split()]
            path = f"{kit}:{os.environ['PATH']}"
            done = subprocess.run(program, cwd=self.folder, capture_output=True, text=True, timeout=60, env={**os.environ, "PATH": path})
            self.assertEqual(done.returncode, 1, done.stderr)
            self.assertTrue(done.stdout.endswith(told), done.stdout)
            self.assertIn("this answer is not proved", done.stderr)

    def test_help_names_each_command_and_status(self):
        told = subprocess.run([str(self.top / "bin" / "cvc"), "--help"], capture_output=True, text=True, timeout=60).stdout
        manual = (ROOT / "docs" / "cvc.1").read_text()
        for command in ("check", "serial", "gen", "prove", "verify", "expect", "modes", "session"):
            self.assertIn(f"bin/cvc {command} ", told)
            self.assertIn(f".B cvc {command}\n", manual)
        for status in (*range(15), 70):
            self.assertIn(f"\n{status:4}  ", told)

    def test_every_word_is_explained(self):
        table = (ROOT / "docs" / "REFUSALS.md").read_text()
        causes = (ROOT / "crates" / "cvc_base" / "src" / "cause.rt").read_text()
        words = {part.split('"')[0] for part in causes.split('b"')[1:]}
        self.assertIn("bad-row", words)
        for word in sorted(words | {"too-many-modes", "not-there"}):
            self.assertIn(f"\n| `{word}` | ", table)


if __name__ == "__main__":
    unittest.main()
