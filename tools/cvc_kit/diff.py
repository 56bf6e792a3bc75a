"""`diff`: two reports compared by finding: what is new, what changed its numbers, what is gone."""

import argparse
from collections import Counter, defaultdict
from typing import Dict, List, Tuple

from .report import Finding, Net, Report, read_report
from .text import counted

SUMMARY = "compares two reports by finding"
EXIT = """exit status:
  0  nothing is new and no numbers changed (findings may be gone)
  1  a finding is new, or its numbers changed
  2  a file is no report"""

Key = Tuple[str, str, str]


def configure(parser: argparse.ArgumentParser) -> None:
    """The words of the subcommand."""
    parser.add_argument("old", metavar="OLD", help="a report of the checker")
    parser.add_argument("new", metavar="NEW", help="a later report")
    parser.add_argument("--nets", action="store_true", help="compare the lines of nets too; they don't move the status")


def run(args: argparse.Namespace) -> int:
    """Prints the differences by kind."""
    old, new = read_report(args.old), read_report(args.new)
    if old.top != new.top:
        print(f"tops differ: {old.top} and {new.top}")
    added, changed, gone = compare(old.findings, new.findings)
    for finding in added:
        print(f"new {finding.words}")
    for before, after in changed:
        print(f"changed {after.words} (was {before.said})")
    for finding in gone:
        print(f"gone {finding.words}")
    if args.nets:
        print_nets(old, new)
    same = len(new.findings) - len(added) - len(changed)
    print(f"{len(added)} new, {len(changed)} changed, {len(gone)} gone, {same} the same")
    return 1 if added or changed else 0


def key_of(finding: Finding) -> Key:
    """What makes two findings the same one: rule, path and model."""
    return finding.rule, finding.path, finding.model


def compare(old: List[Finding], new: List[Finding]) -> Tuple[List[Finding], List[Tuple[Finding, Finding]], List[Finding]]:
    """Findings that are new, those whose numbers changed, and those that are gone, in the order of the reports."""
    same = Counter(finding.words for finding in old) & Counter(finding.words for finding in new)
    left, right = rest_of(old, same), rest_of(new, same)
    by_key: Dict[Key, List[Finding]] = defaultdict(list)
    for finding in reversed(left):
        by_key[key_of(finding)].append(finding)
    added, changed = [], []
    for finding in right:
        before = by_key[key_of(finding)]
        if before:
            changed.append((before.pop(), finding))
        else:
            added.append(finding)
    taken = {before.line for before, _ in changed}
    return added, changed, [finding for finding in left if finding.line not in taken]


def rest_of(findings: List[Finding], same: "Counter[str]") -> List[Finding]:
    """The findings without those that stand in both reports."""
    left, rest = Counter(same), []
    for finding in findings:
        if left[finding.words] > 0:
            left[finding.words] -= 1
        else:
            rest.append(finding)
    return rest


def print_nets(old: Report, new: Report) -> None:
    """The nets that one report alone has, and those whose lines differ."""
    before, after = ({net.name: net for net in report.nets} for report in (old, new))
    moved = [name for name, net in after.items() if name in before and before[name] != net]
    for name in moved:
        print(f"net {name} {net_text(before[name])} -> {net_text(after[name])}")
    added, gone = [name for name in after if name not in before], [name for name in before if name not in after]
    print(f"{counted(len(moved), 'net')} moved, {len(added)} new, {len(gone)} gone")


def net_text(net: Net) -> str:
    """A net's bounds as the report writes them."""
    low, high = ("?" if bound is None else str(bound) for bound in (net.low, net.high))
    return f"{'declared ' if net.declared else ''}{low} {high}"
