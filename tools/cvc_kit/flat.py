"""The flat list of a netlist: its devices with their nets, in the order and under the names of the checker's report."""

from dataclasses import dataclass
from typing import Dict, Iterator, List, Optional, Set, Tuple

from .cards import Cell, Device, Instance
from .netlist import Netlist, last_pair
from .text import KitError, read_number

MOST_INSTANCES, MOST_DEVICES, MOST_NETS, MOST_DEPTH = 1_000_000, 500_000, 1_000_000, 64


@dataclass
class Node:
    """An instance, or the top, whose name is empty: where its ports lead, and its own nets."""

    cell: Cell
    name: str
    above: Optional["Node"]
    card: Optional[Instance]
    ports: Dict[str, Tuple["Node", str]]
    nets: Dict[str, int]
    depth: int

    def path(self, name: str) -> str:
        """The printed name of what stands in this instance."""
        names, node = [name], self
        while node.above is not None:
            names.append(node.name)
            node = node.above
        return "/".join(reversed(names))


@dataclass
class Flat:
    """Devices as an instance, a card and the numbers of their nets; of each net its instance and its name there."""

    netlist: Netlist
    top: Cell
    devices: List[Tuple[Node, Device, Tuple[int, ...]]]
    nets: List[Tuple[Node, str]]
    names: List[str]

    def device_path(self, number: int) -> str:
        node, card, _ = self.devices[number]
        return node.path(card.name)

    def outer_nets(self) -> List[str]:
        """The globals and the ports of the top, which stand first in the list."""
        return self.names[: self.outer]

    outer: int = 0


def flatten(netlist: Netlist, top: Cell) -> Flat:
    """Walks a sound netlist from its top."""
    root = Node(top, "", None, None, {}, {}, 0)
    flat = Flat(netlist, top, [], [], [])
    globals_: Dict[str, int] = {}
    for name in netlist.globals:
        globals_[name] = new_net(flat, root, name)
    for name in top.ports:
        if name not in globals_:
            root.nets[name] = new_net(flat, root, name)
    flat.outer = len(flat.nets)
    for node, card in walk(netlist, root):
        if len(flat.devices) >= MOST_DEVICES:
            raise KitError(f"{netlist.path}:{card.line}: too-many-devices")
        flat.devices.append((node, card, tuple(net_of(flat, globals_, node, name) for name in card.nets)))
    flat.names = [node.path(name) for node, name in flat.nets]
    return flat


def walk(netlist: Netlist, root: Node) -> Iterator[Tuple[Node, Device]]:
    """The devices by a walk from the top, each with its instance."""
    stack, count = [(root, iter(root.cell.items))], 0
    while stack:
        node, rest = stack[-1]
        item = next(rest, None)
        if item is None:
            stack.pop()
        elif isinstance(item, Device):
            yield node, item
        else:
            count += 1
            if count > MOST_INSTANCES:
                raise KitError(f"{netlist.path}:{item.line}: too-many-instances")
            if node.depth >= MOST_DEPTH:
                raise KitError(f"{netlist.path}:{item.line}: too-deep")
            below = enter(netlist, node, item)
            stack.append((below, iter(below.cell.items)))


def enter(netlist: Netlist, node: Node, item: Instance) -> Node:
    """The instance that a card makes in another."""
    cell = netlist.cells[item.cell]
    joined = item.by_name if item.by_name is not None else zip(cell.ports, item.nets)
    return Node(cell, item.name, node, item, {port: (node, net) for port, net in joined}, {}, node.depth + 1)


def net_of(flat: Flat, globals_: Dict[str, int], node: Node, name: str) -> int:
    """The number of the net of a name in an instance."""
    while name not in globals_:
        number = node.nets.get(name)
        if number is not None:
            return number
        upward = node.ports.get(name)
        if upward is None:
            node.nets[name] = new_net(flat, node, name)
            return node.nets[name]
        node, name = upward
    return globals_[name]


def new_net(flat: Flat, node: Node, name: str) -> int:
    """A further net of the list."""
    if len(flat.nets) >= MOST_NETS:
        raise KitError(f"{flat.netlist.path}: too-many-nets")
    flat.nets.append((node, name))
    return len(flat.nets) - 1


def value_of(flat: Flat, node: Node, text: str) -> Optional[int]:
    """The number that a device's text stands for in its instance, or None where it is a word or never ends."""
    seen: Set[Tuple[int, int, str]] = set()
    place: Optional[Node] = node
    while True:
        number = read_number(text)
        if number is not None:
            return number
        found = look_up(flat, place, text)
        if found is None:
            return None
        step, place, value = found
        key = (*step, text.lower())
        if key in seen:
            return None
        seen.add(key)
        text = value


def look_up(flat: Flat, node: Optional[Node], name: str) -> Optional[Tuple[Tuple[int, int], Optional[Node], str]]:
    """Where a parameter's name leads: by which list of which instance, where its value is looked up, and the value."""
    if node is not None:
        if node.card is not None:
            value = last_pair(node.card.pairs, name)
            if value is not None:
                return (id(node), 1), node.above, value
        if node.cell is not flat.netlist.main:
            value = last_pair(node.cell.pairs, name)
            if value is not None:
                return (id(node), 2), node, value
    value = last_pair(flat.netlist.main.pairs, name)
    return None if value is None else ((0, 3), None, value)


def parameter(flat: Flat, node: Node, card: Device, name: str) -> Tuple[bool, Optional[int]]:
    """Whether a device has a parameter, and its number in the instance, None where it is a word."""
    text = last_pair(card.pairs, name)
    return (False, None) if text is None else (True, value_of(flat, node, text))
