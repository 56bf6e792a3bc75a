"""`prepare`: a netlist that the checker takes, where that can be had exactly. Line N of what it writes is line N of NETLIST.

Rows of the table, with `#` for comments:
  x CELL LETTER PLACE.. [sub=PLACE] [drop=PLACE]..   instances of CELL, which is no cell of the file, become cards LETTER with the model
                                                     CELL; PLACE counts the instance's nets from 1; `sub` becomes `$SUB=`, `drop` goes
  pins CELL PORT..                                   the ports of CELL in the order of these places, for instances that connect by `$PINS`
  bulk LETTER MODEL                                  cards R, C or L of MODEL have a bulk as their third net, which becomes `$SUB=`"""

import argparse
from dataclasses import dataclass, field
from typing import Dict, List, Optional, Set, Tuple

from .cards import NETS_OF, Cell, Device, Instance, Pair
from .hints import hint
from .lint import join_hint, joining_lines
from .netlist import Netlist, parse_netlist
from .rows import rows_of
from .text import Fault, KitError, NETLIST_LIMIT, counted, read_file, read_number, refuse_faults, shown, warn, write_file

SUMMARY = "turns titles, foundry instances and bulk terminals into what the checker takes"
EXIT = "exit status: 0 written, 2 something can't be done exactly, or the checker would refuse a line; nothing is written then"


@dataclass
class Table:
    """The rows by cell and by letter and model."""

    instances: Dict[str, "InstanceRow"] = field(default_factory=dict)
    pins: Dict[str, List[str]] = field(default_factory=dict)
    bulks: Set[Tuple[str, str]] = field(default_factory=set)


@dataclass
class InstanceRow:
    """How an instance becomes a device. Places count from 1."""

    letter: str
    places: List[int]
    sub: Optional[int] = None
    dropped: List[int] = field(default_factory=list)

    def count(self) -> int:
        """How many nets the instance has to have."""
        return len(self.places) + len(self.dropped) + (self.sub is not None)


class Inexact(Exception):
    """A card that can't be turned exactly."""


def configure(parser: argparse.ArgumentParser) -> None:
    """The words of the subcommand."""
    parser.add_argument("netlist", metavar="NETLIST")
    parser.add_argument("--title", action="store_true", help="the first line is a title: make it a comment")
    parser.add_argument("--table", metavar="FILE", help="which instances and which cards change")
    parser.add_argument("--out", metavar="FILE", help="where to write, in place of standard output")
    parser.add_argument("--map", metavar="FILE", help="write each changed line with its old and its new card")


def run(args: argparse.Namespace) -> int:
    """Reads, changes, reads again, and writes only what the checker will not refuse."""
    before = parse_netlist(args.netlist, read_file(args.netlist, NETLIST_LIMIT))
    physical, changes = list(before.physical), {}
    if args.title and physical:
        physical[0] = changes[1] = "* " + physical[0]
        before = parse_netlist(args.netlist, "\n".join(physical) + "\n")
    stop_at_joined(before)
    cards = changed_cards(before, read_table(args.table) if args.table else Table())
    for line in before.lines:
        if line.first in cards:
            physical[line.first - 1] = cards[line.first]
            for part in line.parts[1:]:
                physical[part - 1] = ""
    text = "".join(line + "\n" for line in physical)
    check_result(before, parse_netlist(args.netlist, text), cards)
    changes.update(cards)
    if args.map:
        write_file(args.map, map_text(args.netlist, changes))
    if args.out:
        write_file(args.out, text)
        print(f"wrote {args.out}, {counted(len(changes), 'card')} changed")
    else:
        print(text, end="")
    return 0


def stop_at_joined(netlist: Netlist) -> None:
    """Ends where a directive joins nets, since the circuit would be another."""
    about = "joins nets, and the checker passes it over: join them in the netlist"
    refuse_faults(netlist.path, [Fault(line.first, "joined-nets", f"`{shown(line.tokens[0])}` {about}") for line in joining_lines(netlist)])


def read_table(path: str) -> Table:
    """The rows of a table."""
    table = Table()
    for line, tokens in rows_of(path):
        if tokens[0] == "bulk" and len(tokens) == 3 and tokens[1] in ("R", "C", "L"):
            table.bulks.add((tokens[1], tokens[2]))
            continue
        if tokens[0] == "pins" and len(tokens) > 2 and tokens[1] not in table.pins and len(set(tokens[2:])) == len(tokens[2:]):
            table.pins[tokens[1]] = tokens[2:]
            continue
        row = instance_row(tokens)
        if row is None or tokens[1] in table.instances:
            forms = "`x CELL LETTER PLACE.. [sub=PLACE] [drop=PLACE]..`, `pins CELL PORT..`, each once for a cell, or `bulk R|C|L MODEL`"
            raise KitError(f"{path}:{line}: a row is {forms}")
        table.instances[tokens[1]] = row
    return table


def instance_row(tokens: List[str]) -> Optional[InstanceRow]:
    """A row of an instance, or None where it is none or where its places are not 1 to their number."""
    if tokens[0] != "x" or len(tokens) < 4 or tokens[2] not in NETS_OF:
        return None
    row = InstanceRow(tokens[2], [])
    for token in tokens[3:]:
        name, _, digits = token.rpartition("=")
        if not (digits.isascii() and digits.isdigit() and len(digits) < 4) or name not in ("", "sub", "drop") or (name == "sub" and row.sub):
            return None
        if name == "sub":
            row.sub = int(digits)
        else:
            (row.dropped if name else row.places).append(int(digits))
    used = row.places + row.dropped + ([row.sub] if row.sub is not None else [])
    return row if len(row.places) == NETS_OF[row.letter] and sorted(used) == list(range(1, len(used) + 1)) else None


def changed_cards(netlist: Netlist, table: Table) -> Dict[int, str]:
    """The new text of each card that changes, by its first line."""
    cards: Dict[int, str] = {}
    faults: List[Fault] = []
    used: Set[object] = set()
    for level in netlist.levels():
        taken = {item.name for item in level.items}
        for item in level.items:
            try:
                text = new_card(netlist, table, level, item, taken, used)
            except Inexact as fault:
                faults.append(Fault(item.line, "inexact", str(fault)))
                continue
            if text is not None:
                cards[item.line] = text
    refuse_faults(netlist.path, sorted(faults, key=lambda fault: fault.line))
    for key in [*table.instances, *(("pins", cell) for cell in table.pins), *table.bulks]:
        if key not in used:
            warn(f"the table's row of {key if isinstance(key, str) else ' '.join(key)} changes no card")
    return cards


def new_card(netlist: Netlist, table: Table, level: Cell, item: object, taken: Set[str], used: Set[object]) -> Optional[str]:
    """The new text of a card, or None where it stays."""
    if isinstance(item, Instance) and item.cell in table.instances:
        used.add(item.cell)
        if item.cell in netlist.cells:
            raise Inexact(f"`{shown(item.cell)}` is a cell of the file")
        if item.by_name is not None and item.cell in table.pins:
            used.add(("pins", item.cell))
        return device_of(item, table.instances[item.cell], table.pins.get(item.cell), taken)
    if isinstance(item, Device):
        model = next((model for letter, model in table.bulks if letter == item.letter and model in item.extra), None)
        if model is not None and not item.named:
            text = without_bulk(item, model)
            if text is not None:
                used.add((item.letter, model))
            return text
    return None


def device_of(item: Instance, row: InstanceRow, ports: Optional[List[str]], taken: Set[str]) -> str:
    """The device card in place of an instance. Its name is the old one behind the letter."""
    name = row.letter + item.name
    nets = item.nets if item.by_name is None else nets_by_name(item, ports)
    if len(nets) != row.count():
        raise Inexact(f"{counted(len(nets), 'net')}, and the table has {counted(row.count(), 'place')}")
    if name in taken:
        raise Inexact(f"there is a card `{shown(name)}` already")
    taken.add(name)
    sub = [("SUB", nets[row.sub - 1])] if row.sub is not None else []
    return card_text(name, [nets[place - 1] for place in row.places], item.cell, sub, item.pairs)


def nets_by_name(item: Instance, ports: Optional[List[str]]) -> List[str]:
    """The nets of an instance that connects by `$PINS`, in the order of the ports of its cell. Each port has to be connected."""
    if ports is None:
        raise Inexact(f"`$PINS` connects by name: give the table a row `pins {shown(item.cell)} PORT..`")
    connected = dict(item.by_name or [])
    for port in connected:
        if port not in ports:
            raise Inexact(f"the table's pins of `{shown(item.cell)}` have no `{shown(port)}`")
    for port in ports:
        if port not in connected:
            raise Inexact(f"the port `{shown(port)}` is not connected, and a device card needs its net")
    return [connected[port] for port in ports]


def without_bulk(item: Device, model: str) -> Optional[str]:
    """The card with its bulk behind `$SUB=`, or None where it has no bulk."""
    at = item.extra.index(model)
    front, behind = item.extra[:at], item.extra[at + 1 :]
    if not front:
        return None
    if len(front) == 1 and read_number(front[0]) is not None:
        raise Inexact(f"`{shown(front[0])}` may be the bulk or the value")
    numbers = [read_number(token) is not None for token in front[1:] + behind]
    if len(front) > 2 or not all(numbers):
        raise Inexact("the words behind the two nets are not BULK [VALUE] MODEL")
    pairs = item.pairs
    if read_number(front[0]) is not None:
        pairs = item.pairs[1:]
    elif front[1:] + behind:
        pairs = item.pairs[1:]
    values = (front[1:] + behind)[:1]
    return card_text(item.name, item.nets + values, model, [("SUB", front[0])], pairs)


def card_text(name: str, plain: List[str], model: str, sub: List[Pair], pairs: List[Pair]) -> str:
    """A device card that names its model in brackets."""
    names = [key.upper() for key, _ in pairs]
    if ".MODEL" in names or (sub and "SUB" in names):
        raise Inexact("a pair names the model or `SUB` already")
    return " ".join([name, *plain, f"$[{model}]", *(f"${key}={value}" for key, value in sub + pairs)])


def check_result(before: Netlist, after: Netlist, cards: Dict[int, str]) -> None:
    """Ends where the checker would refuse the result, or where a card moved that should have stayed."""
    faults = [Fault(fault.line, fault.word, join_hint(fault.about, hint(after, fault))) for fault in after.faults]
    refuse_faults(after.path, faults)
    for line, card in before.cards.items():
        same = after.cards.get(line) == card or isinstance(card, Cell)
        if not same and line not in cards:
            raise KitError(f"{before.path}:{line}: the card would change with its neighbours")


def map_text(path: str, changes: Dict[int, str]) -> str:
    """The changed lines, each with its new text."""
    rows = [f"# Line N of the result is line N of {path}; these begin anew:"]
    return "\n".join(rows + [f"{line} {text}" for line, text in sorted(changes.items())]) + "\n"
