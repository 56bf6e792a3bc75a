"""Logical lines of a netlist and the cards that they are, by the rules of docs/FORMATS.md."""

import re
from dataclasses import dataclass, field
from typing import List, Optional, Tuple, Union

from .text import BAD_BYTE, CARD_LIMIT, Fault, lines_of, read_number, shown, too_long

Pair = Tuple[str, str]
QUOTES = ("'", '"', "{", "(")
IGNORED = (".MODEL", ".OPTION", ".OPTIONS", ".TEMP", ".END")
INCLUDES = (".INCLUDE", ".INC", ".LIB")
NETS_OF = {"M": 4, "D": 2, "R": 2, "C": 2, "L": 2, "Q": 3}
TOKENS = re.compile(r"=|[^ \t=]+")
LONE_DOLLAR = re.compile(r"(?:^|(?<=[ \t]))\$(?=[ \t]|\Z)")


@dataclass
class Line:
    """A card or directive with its continuations. `parts` are the numbers of its physical lines."""

    tokens: List[str]
    directive: bool
    parts: List[int]
    size: int = 0

    @property
    def first(self) -> int:
        return self.parts[0]


class CardFault(Exception):
    """A card that the checker refuses."""

    def __init__(self, word: str, about: str = "") -> None:
        super().__init__(word)
        self.word, self.about = word, about


@dataclass
class Device:
    """A device card. `extra` are the plain tokens behind its nets, `skipped` the tokens with `$` in front that say nothing."""

    letter: str
    name: str
    nets: List[str]
    model: str
    pairs: List[Pair]
    line: int
    extra: List[str] = field(default_factory=list)
    skipped: List[str] = field(default_factory=list)
    named: bool = False


@dataclass
class Instance:
    """An instance card; `nets` by order, or `by_name` the pairs of port and net."""

    name: str
    cell: str
    nets: List[str]
    by_name: Optional[List[Pair]]
    pairs: List[Pair]
    line: int
    skipped: List[str] = field(default_factory=list)


@dataclass
class Cell:
    """A cell of the file, or the main level, whose name is empty."""

    name: str
    ports: List[str]
    pairs: List[Pair]
    line: int
    items: List[Union[Device, Instance]] = field(default_factory=list)
    skipped: List[str] = field(default_factory=list)

    def own_nets(self) -> List[str]:
        """The names of nets that its cards use, each once, in order."""
        names = {}
        for item in self.items:
            for net in item.nets:
                names[net] = None
            for _, net in getattr(item, "by_name", None) or ():
                names[net] = None
        return list(names)


@dataclass
class Other:
    """A dot card: `kind` is ENDS, GLOBAL, PARAM or IGNORED."""

    kind: str
    names: List[str]
    pairs: List[Pair]


Card = Union[Device, Instance, Cell, Other]


def logical_lines(text: str) -> Tuple[List[Line], List[Fault], List[str]]:
    """The cards and directives, the faults of bytes and tokens, and the physical lines. Reading goes on behind a fault."""
    lines: List[Line] = []
    faults: List[Fault] = []
    physical = lines_of(text)
    for number, raw in enumerate(physical, 1):
        if BAD_BYTE.search(raw):
            faults.append(Fault(number, "bad-byte", "a control byte"))
            continue
        cut = LONE_DOLLAR.search(raw) if "$" in raw else None
        body = raw[: cut.start()] if cut else raw
        head = body.lstrip(" \t")
        if not head or (head[0] == "*" and not head.startswith("*.")):
            continue
        if head[0] == "+":
            if not lines:
                faults.append(Fault(number, "stray-plus", "a continuation before any card"))
                continue
            tokens, size = TOKENS.findall(head[1:]), len(body) - 1
            lines[-1].parts.append(number)
        else:
            tokens, size = TOKENS.findall(head), len(body)
            lines.append(Line([], head[0] == "*", [number]))
        last = lines[-1]
        if last.size <= CARD_LIMIT < last.size + size:
            faults.append(Fault(number, "long-line", f"a card of more than {CARD_LIMIT} bytes"))
        last.size += size
        last.tokens += tokens
        if any(map(too_long, tokens)):
            faults.append(Fault(number, "long-token", "a token of more than 1024 bytes"))
    return lines, faults, physical


@dataclass
class Parsed:
    """The tokens behind the first: plain ones, pairs, the model that is named, and what the checker passes over."""

    plain: List[str] = field(default_factory=list)
    pairs: List[Pair] = field(default_factory=list)
    ports: Optional[List[Pair]] = None
    model: Optional[str] = None
    skipped: List[str] = field(default_factory=list)
    plain_behind_pins: bool = False


def parse(tokens: List[str], letter: str) -> Parsed:
    """Reads the tokens behind the first from the left. `letter` is the device's, or `.` of a dot card."""
    parsed, k = Parsed(), 1
    while k < len(tokens):
        token = tokens[k]
        if token == "=":
            raise CardFault("bad-param", "a `=` without a name")
        if k + 1 < len(tokens) and tokens[k + 1] == "=":
            take_pair(parsed, token, tokens[k + 2 : k + 3], letter)
            k += 3
            continue
        take_single(parsed, token, letter)
        k += 1
    return parsed


def take_pair(parsed: Parsed, token: str, behind: List[str], letter: str) -> None:
    """One pair: a parameter, a connection behind `$PINS`, or the model's name."""
    name = token[1:] if token.startswith("$") else token
    if not name or not behind or behind[0] == "=":
        raise CardFault("bad-param", f"`{shown(token)} =` without a {'value' if name else 'name'}")
    value = behind[0]
    if value.startswith(QUOTES):
        raise CardFault("unsupported", f"the expression `{shown(value)}`")
    if parsed.ports is not None:
        parsed.ports.append((name, value))
    elif letter in NETS_OF and name.upper() == ".MODEL":
        parsed.model = value
    else:
        parsed.pairs.append((name, value))


def take_single(parsed: Parsed, token: str, letter: str) -> None:
    """One token that is no part of a pair."""
    if token.startswith(QUOTES):
        raise CardFault("unsupported", f"the expression `{shown(token)}`")
    if token.startswith("$["):
        if not token.endswith("]") or token == "$[]":
            raise CardFault("bad-param", f"`{shown(token)}` names no model")
        if letter in NETS_OF:
            parsed.model = token[2:-1]
    elif letter == "X" and token.upper() == "$PINS":
        parsed.ports = parsed.ports if parsed.ports is not None else []
    elif token.startswith("$"):
        parsed.skipped.append(token)
    elif token == "/" and letter != "X":
        pass
    elif token.upper() == "PARAMS:" and letter in ("X", ".SUBCKT"):
        pass
    else:
        parsed.plain_behind_pins |= parsed.ports is not None
        parsed.plain.append(token)


def read_card(line: Line) -> Card:
    """The card of a logical line; raises `CardFault` where the checker refuses it."""
    first = line.tokens[0]
    word, letter = first.upper(), first[:1].upper()
    if line.directive:
        if word != "*.GLOBAL":
            return Other("IGNORED", [], [])
        return read_dot(".GLOBAL", line)
    if word in IGNORED:
        return Other("IGNORED", [], [])
    if word in INCLUDES or letter in "VIJ":
        raise CardFault("unsupported", f"`{shown(first)}`")
    if word in (".SUBCKT", ".ENDS", ".GLOBAL", ".PARAM"):
        return read_dot(word, line)
    if letter in NETS_OF:
        return read_device(line, letter)
    if letter == "X":
        return read_instance(line)
    raise CardFault("unknown-card", f"`{shown(first)}`")


def read_dot(word: str, line: Line) -> Card:
    """`.SUBCKT`, `.ENDS`, `.GLOBAL` or `.PARAM`."""
    parsed = parse(line.tokens, word)
    if word == ".SUBCKT":
        if not parsed.plain:
            raise CardFault("short-card", "a cell without a name")
        return Cell(parsed.plain[0], parsed.plain[1:], parsed.pairs, line.first, skipped=parsed.skipped)
    names = parsed.plain
    if word == ".GLOBAL":
        names = [name for name in (name.split(":", 1)[0] for name in names) if name]
    return Other(word[1:], names, parsed.pairs)


def read_device(line: Line, letter: str) -> Device:
    """A device card."""
    parsed = parse(line.tokens, letter)
    count = NETS_OF[letter]
    nets, extra = parsed.plain[:count], parsed.plain[count:]
    if len(nets) < count:
        raise CardFault("short-card", f"{len(nets)} of {count} nets")
    pairs, model = parsed.pairs, parsed.model
    if model is None:
        model = model_of(letter, extra)
    if letter in "RCL":
        value = next((token for token in extra if read_number(token) is not None), None)
        if value is not None:
            pairs = [(letter, value)] + pairs
    if model is None:
        raise CardFault("short-card", "no model")
    return Device(letter, line.tokens[0], nets, model, pairs, line.first, extra, parsed.skipped, parsed.model is not None)


def model_of(letter: str, extra: List[str]) -> Optional[str]:
    """The model among the plain tokens behind the nets."""
    words = [token for token in extra if read_number(token) is None]
    if letter in "MD":
        return extra[0] if extra else None
    if letter == "Q":
        return words[-1] if words else None
    return words[0] if words else letter


def read_instance(line: Line) -> Instance:
    """An instance card."""
    parsed = parse(line.tokens, "X")
    if "/" in parsed.plain:
        at = parsed.plain.index("/")
        nets, behind = parsed.plain[:at], parsed.plain[at + 1 : at + 2]
    else:
        nets, behind = parsed.plain[:-1], parsed.plain[-1:]
    if parsed.ports is not None:
        names = [name for name, _ in parsed.ports]
        if nets or parsed.plain_behind_pins or len(set(names)) < len(names):
            raise CardFault("bad-pins", "`$PINS` beside nets, with a plain token behind it, or with one port twice")
    if not behind:
        raise CardFault("short-card", "no cell")
    return Instance(line.tokens[0], behind[0], nets, parsed.ports, parsed.pairs, line.first, parsed.skipped)
