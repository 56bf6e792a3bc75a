"""What to write in place of a line that the checker refuses."""

from .cards import INCLUDES
from .netlist import Netlist
from .text import Fault, shown

BY_WORD = {
    "bad-byte": "a netlist is plain text; unpack a compressed file, and save without control bytes",
    "stray-plus": "the card that it continues is missing or was taken out",
    "bad-param": "write NAME=VALUE, and `$[MODEL]` with a name and a closing bracket",
    "short-card": "name all nets and the model of the card",
    "bad-pins": "connect either by order or by `$PINS`, each port once",
    "nested-subckt": "end the cell before the next one begins",
    "twice-cell": "keep one of the two cells",
    "twice-name": "give each card of a cell a name of its own",
    "open-subckt": "write .ENDS at the cell's end",
}


def hint(netlist: Netlist, fault: Fault) -> str:
    """What to do about a fault, or nothing."""
    first = first_token(netlist, fault.line)
    if fault.word == "unsupported":
        return unsupported_hint(first, fault.about)
    if fault.word == "unknown-card":
        return unknown_card_hint(first, fault.line)
    if fault.word == "unknown-cell":
        return unknown_cell_hint(netlist, fault.about.strip("`"), fault.line)
    return BY_WORD.get(fault.word, "")


def first_token(netlist: Netlist, line: int) -> str:
    """The first token of the logical line that begins at a line, or nothing."""
    text = netlist.physical[line - 1].split() if 0 < line <= len(netlist.physical) else []
    return text[0] if text else ""


def unsupported_hint(first: str, about: str) -> str:
    """What stands in place of an include, a source, a JFET or an expression."""
    if first.upper() in INCLUDES:
        return "write the text of that file in this place, or let the netlister write one file"
    if about.startswith("the expression"):
        return "write the value as a number, or as the name of one parameter"
    if first[:1].upper() == "J":
        return "there are no junction transistors: take the card out, and declare the nets that it drives in the power file"
    return "take the source out, and declare the net that it drives in the power file"


def unknown_card_hint(first: str, line: int) -> str:
    """What stands in place of a card that the checker doesn't know."""
    if first.startswith((";", "//", "#")):
        return "a comment begins with `*`"
    if line == 1 and not first.startswith("."):
        return "if this is a title, begin it with `*`, or use `cvc-kit prepare --title`"
    if first.startswith("."):
        return "take out what steers a simulation"
    return "take the card out; devices are M, D, R, C, L and Q, instances X"


def unknown_cell_hint(netlist: Netlist, cell: str, line: int) -> str:
    """What may have become of a cell that is not in the file."""
    alike = next((name for name in netlist.cells if name.lower() == cell.lower()), None)
    if alike is not None:
        return f"the file has `{shown(alike)}`, and names are compared byte by byte"
    if line == 1:
        return "if this is a title, begin it with `*`, or use `cvc-kit prepare --title`"
    return "add the cell, or, of a foundry's device, turn the instance into a device card (`cvc-kit prepare --table`)"
