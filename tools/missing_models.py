"""Tells the model of a refused card, and all further models that a netlist uses and a models file lacks, each with its first line."""

import sys
from pathlib import Path

sys.dont_write_bytecode = True
sys.path.insert(0, str(Path(__file__).resolve().parent))

from cvc_kit.cards import Device  # noqa: E402
from cvc_kit.netlist import read_netlist  # noqa: E402
from cvc_kit.rows import read_models  # noqa: E402


def main(netlist_path: str, models_path: str, line: int) -> None:
    """Prints a line for the card's model, and one for each other model without a row."""
    netlist = read_netlist(netlist_path)
    known = {row.name for row in read_models(models_path)}
    first = {}
    for level in netlist.levels():
        for item in level.items:
            if isinstance(item, Device):
                first[item.model] = min(item.line, first.get(item.model, item.line))
    card = netlist.cards.get(line)
    if isinstance(card, Device) and card.model in known:
        print(f"  the model is {card.model}, and the tests of none of its rows hold")
    missing = sorted((number, model) for model, number in first.items() if model not in known)
    for number, model in missing:
        print(f"  no row for {model}, which line {number} names first")


main(sys.argv[1], sys.argv[2], int(sys.argv[3]))
