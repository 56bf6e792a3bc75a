"""Row files: the models and the power file, and the row that a device takes."""

from dataclasses import dataclass, field
from typing import Dict, List, Optional, Tuple

from .cards import Device
from .flat import Flat, Node, parameter
from .text import BAD_BYTE, KitError, ROWS_LIMIT, lines_of, read_file, read_mv, read_number, shown, too_long

KINDS = {"nmos": "M", "pmos": "M", "resistor": "R", "diode": "D", "capacitor": "C", "inductor": "L", "bipolar": "Q"}
LIMITS = ("vgs", "vgd", "vds", "vbs", "vbd", "vbg")
KEYS = {"nmos": ("vth", "vj", *LIMITS), "pmos": ("vth", "vj", *LIMITS), "diode": ("vf",)}


@dataclass
class ModelRow:
    """A row of a models file. `thresholds` are the corner that conducts most and the one that conducts least, in millivolts."""

    name: str
    kind: str
    line: int
    thresholds: Tuple[int, int] = (0, 0)
    drop: int = 0
    junction: int = 0
    limits: Dict[str, int] = field(default_factory=dict)
    tests: List[Tuple[str, bool, int]] = field(default_factory=list)


@dataclass
class PowerRow:
    """A row of a power file, in millivolts."""

    name: str
    low: int
    high: int
    line: int


def rows_of(path: str, comments: bool = True) -> List[Tuple[int, List[str]]]:
    """The rows of a file with their lines."""
    rows = []
    for number, raw in enumerate(lines_of(read_file(path, ROWS_LIMIT)), 1):
        if BAD_BYTE.search(raw):
            raise KitError(f"{path}:{number}: bad-byte: a control byte")
        tokens = (raw.split("#", 1)[0] if comments else raw).replace("\t", " ").split(" ")
        tokens = [token for token in tokens if token]
        if any(map(too_long, tokens)):
            raise KitError(f"{path}:{number}: long-token: a token of more than 1024 bytes")
        if tokens:
            rows.append((number, tokens))
    return rows


def read_models(path: str) -> List[ModelRow]:
    """The rows of a models file; the first refused one ends the subcommand."""
    return [model_row(path, line, tokens) for line, tokens in rows_of(path)]


def model_row(path: str, line: int, tokens: List[str]) -> ModelRow:
    """One row of a models file."""

    def refuse(word: str, about: str) -> KitError:
        return KitError(f"{path}:{line}: {word}: {shown(about)}")

    if len(tokens) < 2:
        raise refuse("bad-row", "a row is NAME KIND ITEM..")
    kind = tokens[1].lower()
    if kind not in KINDS:
        raise refuse("unknown-kind", tokens[1])
    row, given = ModelRow(tokens[0], kind, line), set()
    for item in tokens[2:]:
        at = next((k for k, byte in enumerate(item) if byte in "<>="), -1)
        sign = item[at : at + 2] if at >= 0 and item[at] == ">" else item[at : at + 1]
        left, right = item[:at], item[at + len(sign) :]
        if at < 1 or sign == ">" or (sign[0] == ">" and sign != ">=") or not right:
            raise refuse("bad-row", item)
        if sign != "=":
            number = read_number(right)
            if number is None:
                raise refuse("bad-row", item)
            row.tests.append((left.lower(), sign == "<", number))
            continue
        key = left.lower()
        if key not in KEYS.get(kind, ()):
            raise refuse("unknown-key", item)
        if key in given:
            raise refuse("bad-row", f"{item}: the key stands twice")
        given.add(key)
        values = [read_mv(value) for value in (right.split(":", 1) if key == "vth" else [right])]
        if None in values:
            raise refuse("bad-voltage", item)
        if key != "vth" and values[0] < 0:
            raise refuse("negative", item)
        put_voltage(row, key, values)
    if kind in ("nmos", "pmos") and "vth" not in given:
        raise refuse("missing-vth", tokens[0])
    return row


def put_voltage(row: ModelRow, key: str, values: List[int]) -> None:
    """Puts a voltage where it belongs."""
    if key == "vth":
        values = [abs(value) for value in values] if row.kind == "pmos" else values
        row.thresholds = (min(values), max(values))
    elif key == "vf":
        row.drop = values[0]
    elif key == "vj":
        row.junction = values[0]
    else:
        row.limits[key] = values[0]


def read_power(path: str) -> List[PowerRow]:
    """The rows of a power file; the first refused one ends the subcommand."""
    rows: Dict[str, PowerRow] = {}
    for line, tokens in rows_of(path):
        word = tokens[1].lower() if len(tokens) > 1 else ""
        if (word, len(tokens)) not in (("power", 3), ("input", 4)):
            raise KitError(f"{path}:{line}: bad-row: a row is `NET power V` or `NET input MIN MAX`")
        values = [read_mv(token) for token in tokens[2:]]
        if None in values:
            raise KitError(f"{path}:{line}: bad-voltage: {shown(tokens[2 + values.index(None)])}")
        if values[0] > values[-1]:
            raise KitError(f"{path}:{line}: min-above-max")
        if tokens[0] in rows:
            raise KitError(f"{path}:{line}: twice-row: `{shown(tokens[0])}` stands at line {rows[tokens[0]].line}")
        rows[tokens[0]] = PowerRow(tokens[0], values[0], values[-1], line)
    return list(rows.values())


class Chooser:
    """The row that each device of a flat list takes."""

    def __init__(self, flat: Flat, rows: List[ModelRow], path: str) -> None:
        self.flat, self.path = flat, path
        self.rows: Dict[str, List[ModelRow]] = {}
        for row in rows:
            self.rows.setdefault(row.name, []).append(row)

    def row_of(self, node: Node, card: Device) -> ModelRow:
        """The first row of the device's model whose tests all hold."""
        where = f"{self.flat.netlist.path}:{card.line}"
        for row in self.rows.get(card.model, ()):
            if all(self.holds(node, card, test, where) for test in row.tests):
                if KINDS[row.kind] != card.letter:
                    raise KitError(f"{where}: wrong-kind: `{shown(card.model)}` is a {row.kind}")
                return row
        raise KitError(f"{where}: no-model: no row of `{shown(card.model)}` in {self.path} fits")

    def holds(self, node: Node, card: Device, test: Tuple[str, bool, int], where: str) -> bool:
        """Whether a row's test holds of a device."""
        name, less, number = test
        given, value = parameter(self.flat, node, card, name)
        if not given:
            return False
        if value is None:
            raise KitError(f"{where}: param-text: `{shown(name)}` is a word")
        return value < number if less else value >= number
