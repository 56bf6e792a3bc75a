"""A checked circuit: devices with their rows, nets with the bounds of the report, and where each bound comes from."""

from collections import deque
from dataclasses import dataclass, field
from typing import Dict, Iterator, List, Optional, Tuple

from .flat import Flat
from .report import Finding, Report
from .rows import ModelRow
from .text import KitError, volts

LOW, HIGH = 0, 1
Bound = Tuple[int, int]  # a net and a side
BIAS_PINS = {"gs": (1, 2), "gd": (1, 0), "ds": (0, 2), "bs": (3, 2), "bd": (3, 0), "bg": (3, 1)}
PIN_NAMES = {"M": ("drain", "gate", "source", "bulk"), "D": ("anode", "cathode"), "Q": ("collector", "base", "emitter")}


@dataclass
class Checked:
    """A flat list, its rows, and a report of it. `bounds` of a net are its low and its high in the report."""

    flat: Flat
    rows: List[ModelRow]
    report: Report
    bounds: List[Tuple[Optional[int], Optional[int]]] = field(default_factory=list)
    origins: Dict[Bound, int] = field(default_factory=dict)
    numbers: Dict[str, int] = field(default_factory=dict)

    def __post_init__(self) -> None:
        names = [net.name for net in self.report.nets]
        if names != self.flat.names or self.report.counts[0] != len(self.flat.devices):
            raise KitError(f"{self.report.path}: is no report with `nets` of {self.flat.netlist.path} with this top")
        self.bounds = [(net.low, net.high) for net in self.report.nets]
        for number in range(len(self.flat.devices)):
            self.numbers.setdefault(self.flat.device_path(number), number)
        self.origins = find_origins(self)

    def bound(self, at: Bound) -> Optional[int]:
        """The millivolts of a bound."""
        return self.bounds[at[0]][at[1]]

    def origin(self, at: Bound) -> str:
        """The declared net that a bound comes from, and the millivolts."""
        number = self.origins.get(at)
        return f"{'?' if number is None else self.flat.names[number]} ({volts(self.bound(at))})"


def gives(checked: Checked, number: int) -> Iterator[Tuple[Bound, int, Bound]]:
    """What a device hands on: the bound at which it arrives, the millivolts, and the bound that they come from."""
    pins, row, bounds = checked.flat.devices[number][2], checked.rows[number], checked.bounds
    if row.kind in ("capacitor", "bipolar"):
        return
    first, second = (pins[0], pins[2]) if row.kind in ("nmos", "pmos") else pins[:2]
    if row.kind == "diode":
        low, high = bounds[second][LOW], bounds[first][HIGH]
        if low is not None:
            yield (first, LOW), low + row.drop, (second, LOW)
        if high is not None:
            yield (second, HIGH), high - row.drop, (first, HIGH)
        return
    for near, far in ((first, second), (second, first)):
        low, high = bounds[near]
        if row.kind in ("resistor", "inductor"):
            yield from ((((far, side), value, (near, side))) for side, value in ((LOW, low), (HIGH, high)) if value is not None)
        else:
            yield from through_channel(row, near, far, (low, high), pins[1], bounds[pins[1]])


def through_channel(row: ModelRow, near: int, far: int, ends: tuple, gate: int, gates: tuple) -> Iterator[Tuple[Bound, int, Bound]]:
    """What a transistor hands on from one end; where gate and channel agree, both count as the source."""
    (low, high), (gate_low, gate_high), threshold = ends, gates, row.thresholds[0]
    if row.kind == "nmos" and gate_high is not None:
        if low is not None and low + threshold <= gate_high:
            yield (far, LOW), low, (near, LOW)
        if high is not None:
            value = min(high, gate_high - threshold)
            yield from limited((far, HIGH), value, ((high, (near, HIGH)), (gate_high - threshold, (gate, HIGH))))
    if row.kind == "pmos" and gate_low is not None:
        if high is not None and gate_low + threshold <= high:
            yield (far, HIGH), high, (near, HIGH)
        if low is not None:
            value = max(low, gate_low + threshold)
            yield from limited((far, LOW), value, ((low, (near, LOW)), (gate_low + threshold, (gate, LOW))))


def limited(at: Bound, value: int, causes: tuple) -> Iterator[Tuple[Bound, int, Bound]]:
    """A value that is the lesser or the greater of two, by each of them that it equals."""
    yield from ((at, value, cause) for offered, cause in causes if offered == value)


def find_origins(checked: Checked) -> Dict[Bound, int]:
    """For each bound the declared net from which devices hand it on, by the bounds of the report."""
    fans: Dict[int, List[int]] = {}
    for number, (_, _, pins) in enumerate(checked.flat.devices):
        for net in set(pins):
            fans.setdefault(net, []).append(number)
    declared = {number for number, net in enumerate(checked.report.nets) if net.declared}
    origins = {(net, side): net for net in declared for side in (LOW, HIGH)}
    waiting = deque(origins)
    while waiting:
        cause = waiting.popleft()
        for number in fans.get(cause[0], ()):
            for at, value, source in gives(checked, number):
                if source == cause and at[0] not in declared and at not in origins and checked.bound(at) == value:
                    origins[at] = origins[cause]
                    waiting.append(at)
    return origins


def causes(checked: Checked, finding: Finding) -> Tuple[str, Optional[int]]:
    """The cause of a finding in words, by declared nets, and the number of its device."""
    number = checked.numbers.get(finding.path)
    if number is None:
        raise KitError(f"{checked.report.path}:{finding.line}: the netlist has no device {finding.path}")
    pins, kind = checked.flat.devices[number][2], checked.rows[number].kind
    if finding.rule == "floating-gate":
        node, name = checked.flat.nets[pins[1]]
        return f"nothing drives the net {name} of {node.cell.name or 'the main level'}", number
    if finding.rule == "supply-path":
        return f"between {checked.flat.names[pins[0]]} and {checked.flat.names[pins[1]]}", number
    parts = leak_parts(checked, pins, kind) if "leak" in finding.rule else bias_parts(checked, finding, pins, kind)
    return ", ".join(f"{role} from {checked.origin(at)}" for role, at in parts), number


def leak_parts(checked: Checked, pins: tuple, kind: str) -> List[Tuple[str, Bound]]:
    """The gate's bound and the channel's that make a leak."""
    side, word = (LOW, "low") if kind == "nmos" else (HIGH, "high")
    pick = min if kind == "nmos" else max
    known = [pin for pin in (pins[0], pins[2]) if checked.bound((pin, side)) is not None]
    end = pick(known, key=lambda pin: checked.bound((pin, side)), default=pins[0])
    return [(f"gate {word}", (pins[1], side)), (f"channel {word}", (end, side))]


def bias_parts(checked: Checked, finding: Finding, pins: tuple, kind: str) -> List[Tuple[str, Bound]]:
    """The high and the low whose difference a finding tells."""
    if finding.rule.startswith("overvoltage-"):
        x, y = BIAS_PINS[finding.rule[-2:]]
        pairs = [(x, y), (y, x)]
    elif finding.rule == "forward-bias":
        pairs = [(0, 1)]
    else:
        pairs = [(3, 2), (3, 0)] if kind == "nmos" else [(2, 3), (0, 3)]
    names = PIN_NAMES["D" if kind == "diode" else "M"]
    for high, low in pairs:
        top, bottom = checked.bound((pins[high], HIGH)), checked.bound((pins[low], LOW))
        if top is not None and bottom is not None and top - bottom == finding.numbers[1]:
            return [(f"{names[high]} high", (pins[high], HIGH)), (f"{names[low]} low", (pins[low], LOW))]
    return []


def judged(checked: Checked) -> Dict[str, Tuple[int, int]]:
    """For each rule of how many devices it speaks, and for how many of them the bounds that it needs are known; `any` counts
    the transistors and diodes for which some rule but `floating-gate` has its bounds, `none` the devices that no rule looks at."""
    counts: Dict[str, List[int]] = {}

    def count(rule: str, known: bool) -> bool:
        pair = counts.setdefault(rule, [0, 0])
        pair[0] += 1
        pair[1] += known
        return known

    for number, (_, _, pins) in enumerate(checked.flat.devices):
        row = checked.rows[number]
        known = [[bound is not None for bound in checked.bounds[pin]] for pin in pins]
        if row.kind in ("nmos", "pmos"):
            count("any", any([count(rule, can) for rule, can in mos_rules(row, known)]))
        elif row.kind == "diode":
            count("any", count("forward-bias", known[0][HIGH] and known[1][LOW]))
        elif row.kind in ("resistor", "inductor"):
            count("supply-path", all(checked.report.nets[pin].declared for pin in pins))
        else:
            count("none", False)
    return {rule: (pair[0], pair[1]) for rule, pair in counts.items()}


def mos_rules(row: ModelRow, known: List[List[bool]]) -> Iterator[Tuple[str, bool]]:
    """The rules that look at a transistor, each with whether its bounds are known."""
    for key in row.limits:
        x, y = BIAS_PINS[key[1:]]
        yield f"overvoltage-{key[1:]}", (known[x][HIGH] and known[y][LOW]) or (known[y][HIGH] and known[x][LOW])
    drain, gate, source, bulk = known
    side = LOW if row.kind == "nmos" else HIGH
    yield "source-bulk", bulk[1 - side] and (drain[side] or source[side])
    leak = all(gate) and (drain[LOW] or source[LOW]) and (drain[HIGH] or source[HIGH])
    yield "possible-leak", leak
    if row.thresholds[0] != row.thresholds[1]:
        yield "sure-leak", leak
