"""A netlist file: its cells and its main level, its globals, and every line that the checker would refuse."""

from dataclasses import dataclass, field
from typing import Dict, List, Optional, Set

from .cards import Card, CardFault, Cell, Device, Instance, Line, Pair, logical_lines, read_card
from .text import Fault, KitError, NETLIST_LIMIT, read_file, refuse_faults, shown


@dataclass
class Netlist:
    """What a file holds. `faults` are in the order of lines; the checker stops at the first, this reader goes on."""

    path: str
    lines: List[Line]
    physical: List[str]
    faults: List[Fault]
    cells: Dict[str, Cell] = field(default_factory=dict)
    main: Cell = field(default_factory=lambda: Cell("", [], [], 0))
    globals: Dict[str, int] = field(default_factory=dict)
    cards: Dict[int, Card] = field(default_factory=dict)
    level_of: Dict[int, Cell] = field(default_factory=dict)

    def levels(self) -> List[Cell]:
        """The main level and all cells."""
        return [self.main, *self.cells.values()]

    def top(self, name: Optional[str] = None) -> Cell:
        """The cell that the checker takes as the top."""
        if name is not None:
            if name not in self.cells:
                raise KitError(f"{self.path}: no-top: there is no cell `{shown(name)}`")
            return self.cells[name]
        if self.main.items or not self.cells:
            return self.main
        return list(self.cells.values())[-1]

    def used_cells(self) -> Set[str]:
        """The cells that some instance names."""
        return {item.cell for level in self.levels() for item in level.items if isinstance(item, Instance)}

    def ignored(self, *words: str) -> List[Line]:
        """The logical lines whose first token is one of these words, without regard to case."""
        return [line for line in self.lines if line.tokens[0].upper() in words]


def read_netlist(path: str) -> Netlist:
    """Reads a file and gathers its faults."""
    return parse_netlist(path, read_file(path, NETLIST_LIMIT))


def parse_netlist(path: str, text: str) -> Netlist:
    """The netlist of a text; `path` stands in messages."""
    lines, faults, physical = logical_lines(text)
    netlist = Netlist(path, lines, physical, faults)
    open_cell: Optional[Cell] = None
    names: Dict[str, Set[str]] = {"": set()}
    for line in lines:
        level = open_cell or netlist.main
        netlist.level_of[line.first] = level
        try:
            card = read_card(line)
            netlist.cards[line.first] = card
            open_cell = add(netlist, card, line, open_cell, names)
        except CardFault as fault:
            faults.append(Fault(line.first, fault.word, fault.about))
    if open_cell is not None:
        faults.append(Fault(open_cell.line, "open-subckt", f"the cell `{shown(open_cell.name)}` has no .ENDS"))
    check_instances(netlist)
    faults.sort(key=lambda fault: fault.line)
    return netlist


def add(netlist: Netlist, card: Card, line: Line, open_cell: Optional[Cell], names: Dict[str, Set[str]]) -> Optional[Cell]:
    """Puts a card into the netlist and answers the cell that is open behind it."""
    level = open_cell or netlist.main
    if isinstance(card, Cell):
        if open_cell is not None:
            raise CardFault("nested-subckt", f"`{shown(card.name)}` begins in `{shown(open_cell.name)}`")
        if card.name in netlist.cells:
            raise CardFault("twice-cell", f"`{shown(card.name)}` stands at line {netlist.cells[card.name].line}")
        if len(set(card.ports)) < len(card.ports):
            raise CardFault("twice-port", "a port stands twice")
        netlist.cells[card.name] = card
        names[card.name] = set()
        return card
    if isinstance(card, (Device, Instance)):
        if card.name in names[level.name]:
            raise CardFault("twice-name", f"`{shown(card.name)}` stands twice on this level")
        names[level.name].add(card.name)
        level.items.append(card)
    elif card.kind == "ENDS":
        if open_cell is None:
            raise CardFault("stray-ends", "an .ENDS outside of cells")
        if card.names and card.names[0] != open_cell.name:
            raise CardFault("ends-name", f"`{shown(card.names[0])}` ends `{shown(open_cell.name)}`")
        return None
    elif card.kind == "GLOBAL":
        for name in card.names:
            netlist.globals.setdefault(name, line.first)
    elif card.kind == "PARAM":
        level.pairs = level.pairs + card.pairs
    return open_cell


def check_instances(netlist: Netlist) -> None:
    """Gathers the faults of instances: unknown cells, wrong ports, cells that contain themselves."""
    endless = endless_cells(netlist)
    for level in netlist.levels():
        for item in level.items:
            if isinstance(item, Instance):
                fault = instance_fault(netlist, item, endless)
                if fault is not None:
                    netlist.faults.append(fault)


def instance_fault(netlist: Netlist, item: Instance, endless: Set[str]) -> Optional[Fault]:
    """The fault of one instance by the cell that it names."""
    cell = netlist.cells.get(item.cell)
    if cell is None:
        return Fault(item.line, "unknown-cell", f"`{shown(item.cell)}`")
    if item.by_name is None and len(item.nets) != len(cell.ports):
        return Fault(item.line, "port-count", f"{len(item.nets)} nets for {len(cell.ports)} ports of `{shown(cell.name)}`")
    for port, _ in item.by_name or ():
        if port not in cell.ports:
            return Fault(item.line, "unknown-port", f"`{shown(port)}` of `{shown(cell.name)}`")
    if item.cell in endless:
        return Fault(item.line, "recursive", f"`{shown(cell.name)}` contains itself")
    return None


def endless_cells(netlist: Netlist) -> Set[str]:
    """The cells in which chains of instances never end."""
    below = {name: children(netlist, cell) for name, cell in netlist.cells.items()}
    above: Dict[str, List[str]] = {name: [] for name in below}
    for name, cells in below.items():
        for cell in cells:
            above[cell].append(name)
    left = {name: len(cells) for name, cells in below.items()}
    ready = [name for name, count in left.items() if count == 0]
    while ready:
        for name in above[ready.pop()]:
            left[name] -= 1
            if left[name] == 0:
                ready.append(name)
    return {name for name, count in left.items() if count > 0}


def children(netlist: Netlist, cell: Cell) -> Set[str]:
    """The cells of the file that a cell instantiates."""
    return {item.cell for item in cell.items if isinstance(item, Instance) and item.cell in netlist.cells}


def sound_netlist(path: str) -> Netlist:
    """A netlist that the checker takes; its faults end the subcommand."""
    netlist = read_netlist(path)
    refuse_faults(path, netlist.faults)
    return netlist


def own_counts(netlist: Netlist, top: Cell) -> Dict[str, int]:
    """How often each cell stands below the top, the top itself once."""
    counts = {top.name: 1}
    for cell in from_above(netlist, top):
        for item in cell.items:
            if isinstance(item, Instance) and item.cell in netlist.cells:
                counts[item.cell] = counts.get(item.cell, 0) + counts[cell.name]
    return counts


def from_above(netlist: Netlist, top: Cell) -> List[Cell]:
    """The cells at and below the top, each behind all that instantiate it. Cells that contain themselves are left out."""
    endless, order, seen = endless_cells(netlist), [], {top.name}
    stack = [(top, iter(sorted(children(netlist, top))))]
    while stack:
        cell, rest = stack[-1]
        name = next((name for name in rest if name not in seen and name not in endless), None)
        if name is None:
            order.append(cell)
            stack.pop()
        else:
            seen.add(name)
            stack.append((netlist.cells[name], iter(sorted(children(netlist, netlist.cells[name])))))
    return order[::-1]


def last_pair(pairs: List[Pair], name: str) -> Optional[str]:
    """The value of a name without regard to case; of several the last counts."""
    lower = name.lower()
    return next((value for key, value in reversed(pairs) if key.lower() == lower), None)
