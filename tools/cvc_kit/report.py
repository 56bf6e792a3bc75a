"""A report of the checker: its head, the lines of nets, and the findings."""

from dataclasses import dataclass, field
from typing import List, NamedTuple, Optional, Tuple

from .text import KitError, lines_of, read_file, shown

REPORT_LIMIT = 4_294_967_296
RULES = (
    "overvoltage-gs",
    "overvoltage-gd",
    "overvoltage-ds",
    "overvoltage-bs",
    "overvoltage-bd",
    "overvoltage-bg",
    "forward-bias",
    "source-bulk",
    "possible-leak",
    "supply-path",
    "floating-gate",
    "sure-leak",
)
PLAIN = ("limit", "{}", "found", "{}")
SHAPES = {rule: PLAIN for rule in RULES}
SHAPES["possible-leak"] = SHAPES["sure-leak"] = ("gate", "{}", "{}", "channel", "{}", "{}")
SHAPES["supply-path"] = ("ends", "{}", "{}", "{}", "{}")
SHAPES["floating-gate"] = ("net", "*")


class Finding(NamedTuple):
    """A line of a finding; `said` is what stands behind the model, `numbers` the millivolts in it, `line` its line in the report."""

    rule: str
    path: str
    model: str
    said: str
    numbers: Tuple[int, ...]
    line: int

    @property
    def words(self) -> str:
        """The line as the report has it."""
        return f"{self.rule} {self.path} {self.model} {self.said}"


class Net(NamedTuple):
    """A line of a net; an unknown bound is None."""

    name: str
    declared: bool
    low: Optional[int]
    high: Optional[int]


@dataclass
class Report:
    """A whole report."""

    path: str
    top: str = "-"
    counts: Tuple[int, int, int] = (0, 0, 0)
    nets: List[Net] = field(default_factory=list)
    findings: List[Finding] = field(default_factory=list)


def read_report(path: str) -> Report:
    """The report in a file."""
    return parse_report(path, read_file(path, REPORT_LIMIT))


def parse_report(path: str, text: str) -> Report:
    """The report of a text; `path` stands in messages."""
    lines = lines_of(text)

    def bad(number: int, about: str) -> KitError:
        return KitError(f"{path}:{number}: {about}")

    if not lines or lines[0] != "CVC report":
        if lines and lines[0].startswith("refused "):
            raise bad(1, f"no report but a refusal: {shown(lines[0])}")
        raise bad(1, "no report: the first line is not `CVC report`")
    report = Report(path)
    head = lines[1].split(" ") if len(lines) > 1 else []
    counts = [number(word) for word in head[3::2]]
    if len(head) != 8 or head[::2] != ["top", "devices", "nets", "declared"] or None in counts:
        raise bad(2, "no line `top T devices D nets N declared P`")
    report.top, report.counts = head[1], tuple(counts)
    for at, line in enumerate(lines[2:], 3):
        words = line.split(" ")
        if words[0] == "errors" and len(words) == 2:
            if at != len(lines):
                raise bad(at + 1, "a line behind `errors`")
            if number(words[1]) != len(report.findings):
                raise bad(at, f"{words[1]} errors are told, and {len(report.findings)} findings stand here")
            return report
        item = read_net(words) if words[0] == "net" else read_finding(words, at)
        if item is None:
            raise bad(at, f"neither a net nor a finding: {shown(line)}")
        (report.nets if words[0] == "net" else report.findings).append(item)
    raise bad(len(lines), "the report is cut off: there is no line `errors`")


def number(word: str) -> Optional[int]:
    """A plain decimal number."""
    digits = word[1:] if word.startswith("-") else word
    return int(word) if digits.isascii() and digits.isdigit() and len(digits) < 12 else None


def read_net(words: List[str]) -> Optional[Net]:
    """The net of a line, or None."""
    declared = len(words) == 5 and words[2] == "declared"
    if len(words) != 4 and not declared:
        return None
    bounds = [None if word == "?" else number(word) for word in words[-2:]]
    if any(bound is None and word != "?" for bound, word in zip(bounds, words[-2:])):
        return None
    return Net(words[1], declared, bounds[0], bounds[1])


def read_finding(words: List[str], line: int) -> Optional[Finding]:
    """The finding of a line, or None."""
    shape = SHAPES.get(words[0])
    if shape is None or len(words) != 3 + len(shape):
        return None
    numbers = []
    for want, word in zip(shape, words[3:]):
        value = number(word) if want == "{}" else None
        if value is None and want != "*" and want != word:
            return None
        if value is not None:
            numbers.append(value)
    return Finding(words[0], words[1], words[2], " ".join(words[3:]), tuple(numbers), line)
