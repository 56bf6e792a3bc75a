"""`review`: runs the checker and tells first what it could not judge, then the findings by cause, model, cell and device."""

import argparse
import json
import subprocess
from collections import Counter
from dataclasses import dataclass
from pathlib import Path
from typing import Dict, List, Tuple

from .circuit import Checked, causes, judged
from .flat import flatten
from .netlist import read_netlist
from .page import page
from .report import Finding, RULES, Report, parse_report, read_report
from .rows import Chooser, read_models, read_power
from .text import KitError, counted, refuse_faults, shown, write_file
from .words import top_word

SUMMARY = "runs the checker, tells what it could not judge, and groups the findings by cause"
EXIT = "exit status: 0 no finding, 1 findings, 2 a file is refused or the checker could not run"
MOST_SHOWN = 12
CHECKER = Path(__file__).resolve().parent.parent.parent / "bin" / "cvc"
Group = Tuple[str, str, str, str, str]  # rule, cause, model, cell, device


@dataclass
class Review:
    """What there is to say: a checked circuit, its coverage, and each finding with its cause and its device."""

    checked: Checked
    rules: Dict[str, Tuple[int, int]]
    findings: List[Tuple[Finding, str, int]]

    def groups(self) -> "Counter[Group]":
        """How many findings have one rule, cause, model, cell and device."""
        return Counter(self.group_of(*item) for item in self.findings)

    def group_of(self, finding: Finding, cause: str, number: int) -> Group:
        node, card, _ = self.checked.flat.devices[number]
        return finding.rule, cause, finding.model, node.cell.name, card.name


def configure(parser: argparse.ArgumentParser) -> None:
    """The words of the subcommand."""
    for name in ("netlist", "models", "power"):
        parser.add_argument(name, metavar=name.upper())
    parser.add_argument("top", metavar="top=NAME", nargs="?", type=top_word, help="the cell that is checked")
    parser.add_argument("--cvc", metavar="PROGRAM", default=str(CHECKER), help="the checker; without it bin/cvc beside this program")
    parser.add_argument("--report", metavar="FILE", help="a report with `nets` of these files, in place of a run")
    parser.add_argument("--json", action="store_true", help="write JSON, with all findings")
    parser.add_argument("--html", metavar="FILE", help="write a page of the nets and findings too")
    parser.add_argument("--all", action="store_true", help=f"every name and every group, not the first {MOST_SHOWN}")


def run(args: argparse.Namespace) -> int:
    """Gathers the review and writes it."""
    report = read_report(args.report) if args.report else checked_report(args)
    review = review_of(args, report)
    if args.html:
        write_file(args.html, page(review))
    print(json.dumps(as_json(review), indent=1) if args.json else as_text(review, 10**9 if args.all else MOST_SHOWN))
    return 1 if report.findings else 0


def checked_report(args: argparse.Namespace) -> Report:
    """What the checker says of the files."""
    words = [args.cvc, "check", args.netlist, args.models, args.power, *([f"top={args.top}"] if args.top else []), "nets"]
    try:
        done = subprocess.run(words, stdout=subprocess.PIPE, stdin=subprocess.DEVNULL, check=False)
    except (OSError, ValueError) as fault:
        raise KitError(f"{args.cvc}: {getattr(fault, 'strerror', None) or fault}")
    text = done.stdout.decode("utf-8", "surrogateescape")
    if done.returncode in (0, 1):
        return parse_report("the checker's report", text)
    refusal = text.split()
    path = {"netlist": args.netlist, "models": args.models, "power": args.power}.get(refusal[1] if len(refusal) == 5 else "")
    if path is not None:
        raise KitError(f"{path}:{refusal[3]}: {refusal[4]} (refused by the checker; docs/REFUSALS.md, and `cvc-kit lint` for the netlist)")
    raise KitError(f"{args.cvc}: ended with status {done.returncode}{': ' + shown(text.strip()) if text.strip() else ''}")


def review_of(args: argparse.Namespace, report: Report) -> Review:
    """Puts files and report together."""
    netlist = read_netlist(args.netlist)
    refuse_faults(args.netlist, netlist.faults)
    flat = flatten(netlist, netlist.top(args.top))
    chooser = Chooser(flat, read_models(args.models), args.models)
    read_power(args.power)
    rows = [chooser.row_of(node, card) for node, card, _ in flat.devices]
    checked = Checked(flat, rows, report)
    found = [(finding, *causes(checked, finding)) for finding in report.findings]
    return Review(checked, judged(checked), found)


def coverage(review: Review) -> Dict[str, List[str]]:
    """Names of nets that want a look: without bounds, with one bound, and undeclared ones that come from outside."""
    nets, flat = review.checked.report.nets, review.checked.flat
    outer = nets[: flat.outer]
    count = sum(1 for _ in flat.netlist.globals)
    return {
        "no_bound": [net.name for net in nets if net.low is None and net.high is None],
        "one_bound": [net.name for net in nets if (net.low is None) != (net.high is None)],
        "undeclared_globals": [net.name for net in outer[:count] if not net.declared],
        "undeclared_ports": [net.name for net in outer[count:] if not net.declared],
    }


def listed(names: List[str], most: int) -> str:
    """A count with the first names."""
    more = f" and {len(names) - most} more" if len(names) > most else ""
    return f"{len(names)}{': ' if names else ''}{' '.join(names[:most])}{more}"


def as_text(review: Review, most: int) -> str:
    """The review for a reader."""
    report, names = review.checked.report, coverage(review)
    devices, nets, declared = report.counts
    lines = [f"top {report.top}: {counted(devices, 'device')}, {counted(nets, 'net')}, {declared} declared", "", "coverage"]
    lines.append(f"  nets without any bound: {listed(names['no_bound'], most)}")
    lines.append(f"  nets with one bound: {listed(names['one_bound'], most)}")
    lines.append(f"  undeclared globals: {listed(names['undeclared_globals'], most)}")
    lines.append(f"  undeclared ports of the top: {listed(names['undeclared_ports'], most)}")
    about, known = review.rules.get("any", (0, 0))
    lines.append(f"  transistors and diodes that no rule could judge: {about - known} of {about}")
    lines.append(f"  capacitors and bipolars, which no rule looks at: {review.rules.get('none', (0, 0))[0]}")
    for rule in RULES:
        if rule in review.rules:
            about, known = review.rules[rule]
            lines.append(f"  {rule}: bounds known for {known} of {about}")
    return "\n".join(lines + ["", *findings_text(review, most)])


def findings_text(review: Review, most: int) -> List[str]:
    """The findings by cause, the most frequent first, and below each cause by model, cell and device."""
    groups = review.groups()
    by_cause: Dict[Tuple[str, str], List[Tuple[Group, int]]] = {}
    for group, count in groups.items():
        by_cause.setdefault(group[:2], []).append((group, count))
    totals = {cause: sum(count for _, count in rows) for cause, rows in by_cause.items()}
    lines = [f"{counted(len(review.findings), 'finding')} of {counted(len(by_cause), 'cause')}, {counted(len(groups), 'group')}"]
    ranked = sorted(by_cause, key=lambda cause: (-totals[cause], RULES.index(cause[0]), cause[1]))
    first = {review.group_of(*item): item[0].path for item in reversed(review.findings)}
    for cause in ranked[:most]:
        lines.append(f"{totals[cause]:7} {cause[0]}: {cause[1] or 'a bound of unknown origin'}")
        rows = sorted(by_cause[cause], key=lambda row: -row[1])
        for group, count in rows[:most]:
            lines.append(f"{count:12} {group[2]} {group[4]} in {group[3] or 'the main level'}, as {first[group]}")
        if len(rows) > most:
            lines.append(f"{'':12} and {len(rows) - most} more groups (--all)")
    if len(ranked) > most:
        lines.append(f"{'':7} and {len(ranked) - most} more causes (--all)")
    return lines


def as_json(review: Review) -> Dict[str, object]:
    """The review for a program; voltages are millivolts."""
    report = review.checked.report
    devices, nets, declared = report.counts
    keys = ("rule", "cause", "model", "cell", "device")
    return {
        "top": report.top,
        "devices": devices,
        "nets": nets,
        "declared": declared,
        "coverage": {**coverage(review), "rules": {rule: {"about": a, "known": k} for rule, (a, k) in review.rules.items()}},
        "groups": [{**dict(zip(keys, group)), "count": count} for group, count in review.groups().most_common()],
        "findings": [{"rule": f.rule, "path": f.path, "model": f.model, "said": f.said, "cause": cause} for f, cause, _ in review.findings],
    }
