"""`waive`: the findings of a report that no waiver covers. A waiver has a reason and a last day, and an expired one covers nothing.

A row of the waivers is RULE PATH UNTIL REASON.., with `#` at its beginning for a comment. RULE is a rule's name or `*`; in PATH each `*` stands
for any bytes, also for `/`; UNTIL is YYYY-MM-DD, the last day on which the waiver counts. `found<=N` in front of the reason bounds the number
`found` of a finding, in millivolts: a finding beyond it is not covered."""

import argparse
import datetime
import re
from dataclasses import dataclass
from typing import List, Optional, Pattern

from .report import Finding, RULES, read_report
from .rows import rows_of
from .text import KitError, counted, shown

SUMMARY = "takes the waived findings out of a report"
EXIT = """exit status:
  0  each finding is waived, and each waiver is used and not expired
  1  findings are left
  2  a file is no report or has no waivers that can be read
  3  no finding is left, but a waiver is unused or expired"""


@dataclass
class Waiver:
    """A row of the waivers."""

    line: int
    rule: str
    path: str
    pattern: Pattern[str]
    until: datetime.date
    most: Optional[int]
    reason: str
    used: int = 0

    def covers(self, finding: Finding) -> bool:
        """Whether it speaks of a finding, whatever its last day."""
        if self.rule not in ("*", finding.rule) or not self.pattern.match(finding.path):
            return False
        if self.most is None:
            return True
        return finding.said.startswith("limit") and finding.numbers[1] <= self.most


def configure(parser: argparse.ArgumentParser) -> None:
    """The words of the subcommand."""
    parser.add_argument("report", metavar="REPORT", help="a report of the checker")
    parser.add_argument("waivers", metavar="WAIVERS", help="rows RULE PATH UNTIL [found<=N] REASON..")
    parser.add_argument("--today", metavar="DATE", type=day_word, help="the day to judge by, YYYY-MM-DD; without it the day of the run")


def day_word(word: str) -> datetime.date:
    """A day of the command line."""
    day = read_day(word)
    if day is None:
        raise argparse.ArgumentTypeError(f"`{word}` is no day YYYY-MM-DD")
    return day


def read_day(word: str) -> Optional[datetime.date]:
    """A day, or None."""
    if not re.fullmatch(r"\d{4}-\d{2}-\d{2}", word, re.ASCII):
        return None
    try:
        return datetime.date(*map(int, word.split("-")))
    except ValueError:
        return None


def run(args: argparse.Namespace) -> int:
    """Prints the findings that are left, then what is to be said of waivers."""
    report, waivers = read_report(args.report), read_waivers(args.waivers)
    today = args.today or datetime.date.today()
    left = [finding for finding in report.findings if not is_waived(finding, waivers, today)]
    for finding in left:
        print(finding.words)
    stale = 0
    for waiver in waivers:
        said = complaint(waiver, today)
        if said:
            stale += 1
            print(f"{args.waivers}:{waiver.line}: {said}: {waiver.rule} {waiver.path}: {waiver.reason}")
    waived = len(report.findings) - len(left)
    print(f"{counted(len(left), 'finding')} left, {waived} waived, {counted(stale, 'waiver')} unused or expired")
    return 1 if left else 3 if stale else 0


def is_waived(finding: Finding, waivers: List[Waiver], today: datetime.date) -> bool:
    """Whether a waiver that still counts covers a finding; each that speaks of it is marked as used."""
    waived = False
    for waiver in waivers:
        if waiver.covers(finding):
            waiver.used += 1
            waived |= waiver.until >= today
    return waived


def complaint(waiver: Waiver, today: datetime.date) -> str:
    """What is to be said of a waiver, or nothing."""
    if waiver.until < today:
        return f"expired on {waiver.until}, {counted(waiver.used, 'finding')}"
    return "" if waiver.used else "unused"


def read_waivers(path: str) -> List[Waiver]:
    """The rows of a waivers file. A `#` begins a comment only at a row's beginning, since paths and reasons may have one."""
    return [read_waiver(path, line, tokens) for line, tokens in rows_of(path, comments=False) if not tokens[0].startswith("#")]


def read_waiver(path: str, line: int, tokens: List[str]) -> Waiver:
    """One row."""

    def bad(about: str) -> KitError:
        return KitError(f"{path}:{line}: {about}")

    if len(tokens) < 4:
        raise bad("a row is RULE PATH UNTIL REASON..; the reason may not be missing")
    rule, where, day, *reason = tokens
    if rule not in ("*", *RULES):
        raise bad(f"`{shown(rule)}` is no rule")
    until = read_day(day)
    if until is None:
        raise bad(f"`{shown(day)}` is no day YYYY-MM-DD")
    bound = re.fullmatch(r"found<=(-?\d{1,9})", reason[0], re.ASCII)
    if bound and len(reason) < 2:
        raise bad("the reason is missing")
    words = reason[1:] if bound else reason
    pattern = re.compile(".*".join(map(re.escape, where.split("*"))) + r"\Z", re.S)
    return Waiver(line, rule, where, pattern, until, int(bound.group(1)) if bound else None, " ".join(words))
