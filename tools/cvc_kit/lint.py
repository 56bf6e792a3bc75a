"""`lint`: what the checker passes over in silence though it changes the circuit, and each line that it refuses."""

import argparse
from collections import defaultdict
from typing import Callable, Dict, Iterator, List, NamedTuple, Set

from .cards import Cell, Device, Instance, Line, Other
from .hints import hint
from .netlist import Netlist, from_above, own_counts, read_netlist
from .text import counted, read_number, shown
from .words import top_word

SUMMARY = "tells what the checker passes over though it changes the circuit, and what it refuses"
EXIT = "exit status: 0 clean, 1 warnings, 2 lines that the checker refuses, or no file to read"
MOST_OF_A_KIND = 10
JOINING = ("*.CONNECT", "*.JOIN", "*.EQUIV")
SIZE_NAMES = ("l", "w", "r", "c", "area", "pj")
SCALING = {
    "scale": "multiplies all sizes",
    "scalm": "multiplies the sizes of models",
    "geoshrink": "multiplies all sizes",
    "defl": "gives transistors without L a length",
    "defw": "gives transistors without W a width",
    "parhier": "says which of two parameters of a name counts",
}


class Warn(NamedTuple):
    """A warning at a line."""

    line: int
    code: str
    text: str


def configure(parser: argparse.ArgumentParser) -> None:
    """The words of the subcommand."""
    parser.add_argument("netlist", metavar="NETLIST")
    parser.add_argument("top", metavar="top=NAME", nargs="?", type=top_word, help="the cell that will be checked")
    parser.add_argument("--all", action="store_true", help=f"every line of a kind, not the first {MOST_OF_A_KIND}")


def run(args: argparse.Namespace) -> int:
    """Prints errors and warnings by line."""
    netlist = read_netlist(args.netlist)
    errors = [Warn(fault.line, fault.word, join_hint(fault.about, hint(netlist, fault))) for fault in netlist.faults]
    warnings = sorted({warning for check in CHECKS for warning in check(netlist)} | set(top_warnings(netlist, args.top)))
    tell(args.netlist, "error", errors, args.all)
    tell(args.netlist, "warning", warnings, args.all)
    print(f"{counted(len(errors), 'error')}, {counted(len(warnings), 'warning')}")
    return 2 if errors else 1 if warnings else 0


def join_hint(about: str, advice: str) -> str:
    """A cause and what to do about it."""
    return "; ".join(text for text in (about, advice) if text)


def tell(path: str, level: str, warnings: List[Warn], everything: bool) -> None:
    """Prints warnings, of each code the first few."""
    told: Dict[str, int] = defaultdict(int)
    for warning in warnings:
        told[warning.code] += 1
        if everything or told[warning.code] <= MOST_OF_A_KIND:
            print(f"{path}:{warning.line}: {level}: {warning.code}{': ' + warning.text if warning.text else ''}")
    for code, count in told.items():
        if not everything and count > MOST_OF_A_KIND:
            print(f"{path}: {level}: {code}: and {count - MOST_OF_A_KIND} more (--all prints them)")


def joining_lines(netlist: Netlist) -> List[Line]:
    """The directives that make one net of two, which the checker passes over."""
    return netlist.ignored(*JOINING)


def joined_nets(netlist: Netlist) -> Iterator[Warn]:
    """Directives that join nets."""
    for line in joining_lines(netlist):
        yield Warn(line.first, "joined-nets", f"`{shown(' '.join(line.tokens))}` is passed over: the nets stay apart")


def options(netlist: Netlist) -> Iterator[Warn]:
    """`.option` words that change sizes or parameters."""
    for line in netlist.ignored(".OPTION", ".OPTIONS"):
        for at, token in enumerate(line.tokens):
            meaning = SCALING.get(token.lower())
            value = line.tokens[at + 2] if line.tokens[at + 1 : at + 2] == ["="] and at + 2 < len(line.tokens) else ""
            if meaning and not (meaning.startswith("multiplies") and read_number(value) == 10**24):
                sized = sum(1 for card in devices(netlist) if has_size(card))
                effect = f"; {counted(sized, 'card')} with sizes, by which rows of models are chosen" if meaning.startswith("mult") else ""
                yield Warn(line.first, "option", f"`{shown(token)}={shown(value)}` {meaning} and is passed over{effect}")


def scales(netlist: Netlist) -> Iterator[Warn]:
    """`*.MEGA`, where a value ends in M, and `*.SCALE` other than meters."""
    for line in netlist.ignored("*.MEGA"):
        values = [value for card in devices(netlist) for _, value in card.pairs if is_milli(value)]
        if values:
            about = f"{counted(len(values), 'value')} such as `{shown(values[0])}` count as thousandths"
            yield Warn(line.first, "scale", f"`{line.tokens[0]}` is passed over: {about}")
    for line in netlist.ignored("*.SCALE"):
        if [token.upper() for token in line.tokens[1:] if token != "="] not in ([], ["METER"]):
            yield Warn(line.first, "scale", f"`{shown(' '.join(line.tokens))}` is passed over: sizes count as meters")


def is_milli(value: str) -> bool:
    """Whether a value ends in the letter that stands for mega or for milli."""
    return value[-1:] == "M" and read_number(value) is not None


def has_size(card: Device) -> bool:
    """Whether a device has a size that a row of a model may test."""
    return any(name.lower() in SIZE_NAMES and read_number(value) is not None for name, value in card.pairs)


def devices(netlist: Netlist) -> Iterator[Device]:
    """All device cards of the file."""
    for level in netlist.levels():
        for item in level.items:
            if isinstance(item, Device):
                yield item


def title(netlist: Netlist) -> Iterator[Warn]:
    """A first line that reads as a card, though nothing else knows its nets."""
    card = netlist.cards.get(1)
    if not isinstance(card, (Device, Instance)) or card not in netlist.main.items:
        return
    others = Cell("", [], [], 0, [item for item in netlist.main.items if item is not card]).own_nets()
    alone = len(netlist.main.items) == 1 and not netlist.cells
    if alone or set(card.nets) & (set(others) | set(netlist.globals)):
        return
    bare = isinstance(card, Instance) or not (card.pairs or card.named or any(read_number(token) is not None for token in card.extra))
    if bare or not any(byte.isdigit() for byte in card.name):
        kind = f"an instance of `{shown(card.cell)}`" if isinstance(card, Instance) else f"a device between {nets_text(card.nets)}"
        top = "" if len(netlist.main.items) > 1 else ", and the main level becomes the top"
        yield Warn(1, "title", f"no line is a title: this one is {kind}{top}; begin it with `*`, or use `cvc-kit prepare --title`")


def nets_text(nets: List[str]) -> str:
    """Names of nets for a message."""
    return " and ".join(f"`{shown(net, 20)}`" for net in nets[:2])


def comments(netlist: Netlist) -> Iterator[Warn]:
    """Comments in a form that the checker reads as tokens, and tokens with `$` that it passes over."""
    for line in netlist.lines:
        if any(token.startswith(";") for token in line.tokens[1:]) and not is_ignored(netlist, line):
            yield Warn(line.first, "semicolon", "`;` begins no comment: the words behind it are read as nets, models or ports; write a lone `$`")
    for number, text in enumerate(netlist.physical, 1):
        if text.lstrip(" \t").startswith("*+") and follows_global(netlist, number):
            yield Warn(number, "star-plus", "`*+` is a comment and continues nothing: the names of this line are no globals; write `+`")
    for first, card in netlist.cards.items():
        for token in getattr(card, "skipped", ())[:1]:
            yield Warn(first, "dollar", f"`{shown(token)}` is passed over, and what stands behind it is read; a comment's `$` stands alone")


def is_ignored(netlist: Netlist, line: Line) -> bool:
    """Whether the checker passes over a logical line, or refuses it."""
    card = netlist.cards.get(line.first)
    return card is None or (isinstance(card, Other) and card.kind == "IGNORED")


def follows_global(netlist: Netlist, number: int) -> bool:
    """Whether the nearest line above that is no such line belongs to a `*.GLOBAL` or to a directive that joins nets."""
    above = number - 1
    while above > 0 and netlist.physical[above - 1].lstrip(" \t").startswith(("*+", "+")):
        above -= 1
    words = netlist.physical[above - 1].split() if above > 0 else []
    return bool(words) and words[0].upper() in ("*.GLOBAL", *JOINING)


def behind_end(netlist: Netlist) -> Iterator[Warn]:
    """Cards behind `.END`, which the checker reads."""
    for line in netlist.ignored(".END")[:1]:
        behind = [other for other in netlist.lines if other.first > line.first and not is_ignored(netlist, other)]
        if behind:
            yield Warn(line.first, "end", f"`.END` is passed over: {counted(len(behind), 'card')} behind it count, the first at line {behind[0].first}")


def names(netlist: Netlist) -> Iterator[Warn]:
    """Names that mean another net to a simulator: the ground 0, names with `!`, and names that differ in case alone."""
    for level in netlist.levels():
        own = level.own_nets()
        local = [name for name in own if name not in netlist.globals and name not in level.ports]
        if level.name and "0" in local:
            yield Warn(level.line, "ground", f"the net `0` of `{shown(level.name)}` is a net of each instance, no ground; write `.GLOBAL 0`")
        for name in local if level.name else ():
            if name.endswith("!") and len(name) > 1:
                yield Warn(level.line, "bang", f"`{shown(name)}` of `{shown(level.name)}` is a net of each instance; no `*.GLOBAL` names it")
        yield from case_pairs(level, set(own) | set(level.ports) | set(netlist.globals), netlist)


def case_pairs(level: Cell, all_names: Set[str], netlist: Netlist) -> Iterator[Warn]:
    """Nets of a level that differ in case alone."""
    known: Dict[str, str] = {}
    for name in sorted(all_names):
        other = known.setdefault(name.lower(), name)
        if other != name and not (other in netlist.globals and name in netlist.globals and level.name):
            where = f" of `{shown(level.name)}`" if level.name else ""
            yield Warn(level.line or 1, "case", f"`{shown(other)}` and `{shown(name)}`{where} are two nets: names are compared byte by byte")


def bulk_terminals(netlist: Netlist) -> Iterator[Warn]:
    """Devices with a further net, which is read as the model or passed over."""
    for level in netlist.levels():
        nets = set(level.own_nets()) | set(level.ports) | set(netlist.globals)
        for card in level.items:
            if isinstance(card, Device) and card.letter != "Q" and has_further_net(card, nets):
                words = [token for token in card.extra if read_number(token) is None]
                meant = f", the model is probably `{shown(words[1])}`" if len(words) > 1 else ""
                yield Warn(card.line, "bulk-terminal", f"`{shown(card.model)}` is read as the model of `{shown(card.name)}`{meant}: {BULK_HINT}")


BULK_HINT = "the card has a net too many; `cvc-kit prepare --table` can move it to `$SUB=`"


def has_further_net(card: Device, nets: Set[str]) -> bool:
    """Whether a card has a net behind those of its letter."""
    words = [token for token in card.extra if read_number(token) is None]
    if card.named:
        return any(word in nets for word in words)
    return len(words) > 1 or (bool(words) and words[0] in nets)


def top_warnings(netlist: Netlist, top: object) -> Iterator[Warn]:
    """A top that is probably not the one that is meant."""
    if not netlist.cells or (top is not None and str(top) not in netlist.cells):
        if top is not None:
            netlist.top(str(top))
        return
    cell = netlist.top(None if top is None else str(top))
    used = netlist.used_cells()
    roots = [name for name in netlist.cells if name not in used and name != cell.name]
    if top is not None or not roots:
        return
    best = max(roots, key=lambda name: device_count(netlist, netlist.cells[name]))
    size, best_size = device_count(netlist, cell), device_count(netlist, netlist.cells[best])
    name = f"`{shown(cell.name)}`" if cell.name else "the main level"
    if cell.name in used and cell.name:
        yield Warn(cell.line, "top", f"the last cell {name} is the top, though others use it; write `top={shown(best)}`")
    elif best_size > size:
        more = f"`{shown(best)}` ({counted(best_size, 'device')}) is not reached"
        yield Warn(cell.line or 1, "top", f"{name} is the top ({counted(size, 'device')}), and {more}; write `top={shown(best)}`?")


def device_count(netlist: Netlist, top: Cell) -> int:
    """How many devices stand at and below a cell."""
    counts = own_counts(netlist, top)
    return sum(counts[cell.name] * sum(isinstance(item, Device) for item in cell.items) for cell in from_above(netlist, top))


CHECKS: List[Callable[[Netlist], Iterator[Warn]]] = [title, joined_nets, options, scales, comments, behind_end, names, bulk_terminals]
