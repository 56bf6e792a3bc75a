"""`start`: a models file and a power file to fill in. What is guessed by a name is marked, and each `?` is refused by the checker."""

import argparse
import os
import re
from collections import defaultdict
from typing import Dict, List, Optional, Set, Tuple

from .flat import Flat, flatten, parameter
from .netlist import Netlist, sound_netlist
from .text import KitError, UNITS, counted, write_file
from .words import top_or_name

SUMMARY = "writes a models file and a power file to fill in"
EXIT = "exit status: 0 written, 2 the netlist is refused, or a file stands there"
KIND_OF = {"D": "diode", "R": "resistor", "C": "capacitor", "L": "inductor", "Q": "bipolar"}
SUPPLY = re.compile(r"vdd|vcc|vpp|vbat|vin\b|avd|dvd|pwr|supply", re.I)
GROUND = re.compile(r"vss|gnd|vee|ground|\A0\Z", re.I)
MOST_SHOWN = 6
PREFIXES = ((12, "t"), (9, "g"), (6, "meg"), (3, "k"), (0, ""), (-3, "m"), (-6, "u"), (-9, "n"), (-12, "p"), (-15, "f"))


def configure(parser: argparse.ArgumentParser) -> None:
    """The words of the subcommand."""
    parser.add_argument("netlist", metavar="NETLIST")
    parser.add_argument("top", metavar="top=NAME", nargs="?", type=top_or_name, help="the cell that will be checked")
    parser.add_argument("--to", metavar="FOLDER", help="write the files `models` and `power` there, in place of standard output")


def run(args: argparse.Namespace) -> int:
    """Writes the two files."""
    netlist = sound_netlist(args.netlist)
    flat = flatten(netlist, netlist.top(args.top))
    texts = {"models": models_text(flat), "power": power_text(flat)}
    if args.to is None:
        print("\n".join(texts.values()), end="")
        return 0
    paths = {name: os.path.join(args.to, name) for name in texts}
    for path in paths.values():
        if os.path.lexists(path):
            raise KitError(f"{path}: stands there; it is not written over")
    for name, path in paths.items():
        write_file(path, texts[name])
        print(f"wrote {path}")
    return 0


def head(flat: Flat, what: str) -> List[str]:
    """The first lines of a file."""
    top = flat.top.name or "the main level"
    return [f"# {what} of {os.path.basename(flat.netlist.path)}, top {top}. Fill in each ?, in volts; the checker refuses a row with a ?."]


def models_text(flat: Flat) -> str:
    """The models file: a row for each model that a device of the top takes, with its devices."""
    sizes: Dict[Tuple[str, str], Dict[str, Set[Optional[int]]]] = {}
    counts: Dict[Tuple[str, str], int] = defaultdict(int)
    for node, card, _ in flat.devices:
        key = (card.model, card.letter)
        counts[key] += 1
        seen = sizes.setdefault(key, {"L": set(), "W": set()})
        for name in seen:
            given, value = parameter(flat, node, card, name)
            if given:
                seen[name].add(value)
    lines = head(flat, "Models")
    for (model, letter), count in counts.items():
        seen = "".join(f"; {name} {seen_text(values)}" for name, values in sizes[(model, letter)].items() if values)
        lines += ["", f"# {counted(count, 'device')} {letter}{seen}", model_row(model, letter)]
    models = [model for model, _ in counts]
    for model in sorted({model for model in models if models.count(model) > 1}):
        lines.append(f"# `{model}` stands on cards of several letters: a row with a test of a parameter tells them apart, or give them two names")
    return "\n".join(lines) + "\n"


def model_row(model: str, letter: str) -> str:
    """A row of a model, with guesses in its comment."""
    if letter != "M":
        return f"{model} {KIND_OF[letter]}{' Vf=?' if letter == 'D' else ''}"
    kind = guess_kind(model)
    volts = guess_volts(model)
    notes = ([f"{kind} by its name"] if kind else ["? is nmos or pmos"]) + ([f"{volts} V by its name"] if volts else [])
    return f"{model} {kind or '?'} Vth=? Vgs=? Vgd=? Vds=?  # guess: {', '.join(notes)}"


def guess_kind(model: str) -> Optional[str]:
    """The polarity that a model's name speaks of."""
    lower = model.lower()
    found = re.search(r"([np])(?:mos|fet|ch|hv|lv|vt|_)", lower) or re.match(r"([np])", lower) or re.search(r"([np])\d*\Z", lower)
    return f"{found.group(1)}mos" if found else None


def guess_volts(name: str) -> Optional[str]:
    """The voltage that a name speaks of: 1v8, 1p8, 3V3, 33, 12."""
    found = re.search(r"(\d)[vp](\d{1,2})", name, re.I) or re.search(r"(?<=[A-Za-z_])([1-9])([0-9])(?:v)?\Z", name, re.I)
    if found:
        return f"{found.group(1)}.{found.group(2)}"
    found = re.search(r"(?<![\d.])(\d)v\Z", name, re.I)
    return found.group(1) if found else None


def seen_text(values: Set[Optional[int]]) -> str:
    """The sizes that were seen, in order."""
    numbers = sorted(value for value in values if value is not None)
    texts = [size_text(number) for number in numbers]
    if len(texts) > MOST_SHOWN:
        texts = [f"{texts[0]} to {texts[-1]} ({len(texts)} values)"]
    return ", ".join(texts + (["a word"] if None in values else []))


def size_text(count: int) -> str:
    """A count of 10^-24 with a letter, exactly."""
    power = next((power for power, _ in PREFIXES if abs(count) >= 10 ** (power + UNITS)), 0)
    whole, rest = divmod(abs(count), 10 ** (power + UNITS))
    fraction = str(rest).zfill(power + UNITS).rstrip("0")
    return f"{'-' if count < 0 else ''}{whole}{'.' + fraction if fraction else ''}{dict(PREFIXES)[power]}"


def power_text(flat: Flat) -> str:
    """The power file: globals, ports of the top, and the nets of the main level that look like supplies or are only read."""
    ends, gates = touched(flat)
    directions = pin_directions(flat.netlist, flat.top.name)
    lines = head(flat, "Supplies and inputs")
    count = len(flat.netlist.globals)
    for title, numbers in (("globals", range(count)), ("ports of the top", range(count, flat.outer))):
        if numbers:
            lines += ["", f"# {title}"] + [power_row(flat.names[number], directions, number in ends) for number in numbers]
    inner = [number for number in range(flat.outer, len(flat.names)) if flat.nets[number][0].above is None]
    if not flat.top.name:
        rows = [number for number in inner if is_rail(flat.names[number]) or (number in gates and number not in ends)]
        lines += ["", "# nets of the main level that look like supplies or inputs"] + [power_row(flat.names[k], directions, k in ends) for k in rows]
    lost = [name for k, name in enumerate(flat.names) if k >= flat.outer and k in gates and k not in ends and (flat.top.name or k not in inner)]
    if lost:
        names = ", ".join(lost[:MOST_SHOWN]) + (", .." if lost[MOST_SHOWN:] else "")
        lines += ["", f"# {counted(len(lost), 'net')} inside that gates read and nothing drives: {names}"]
    return "\n".join(lines) + "\n"


def is_rail(name: str) -> bool:
    """Whether a name looks like a supply's or a ground's."""
    return bool(SUPPLY.search(name) or GROUND.search(name))


def touched(flat: Flat) -> Tuple[Set[int], Set[int]]:
    """The nets at an end of a device that hands on voltages, and the nets at gates."""
    ends: Set[int] = set()
    gates: Set[int] = set()
    for _, card, pins in flat.devices:
        if card.letter == "M":
            ends.update((pins[0], pins[2]))
            gates.add(pins[1])
        elif card.letter in "DRL":
            ends.update(pins)
    return ends, gates


def pin_directions(netlist: Netlist, top: str) -> Dict[str, str]:
    """The directions that `*.PININFO` gives to ports of the top: I, O or B."""
    directions: Dict[str, str] = {}
    for line in netlist.ignored("*.PININFO"):
        if netlist.level_of[line.first].name == top:
            for token in line.tokens[1:]:
                name, _, direction = token.rpartition(":")
                directions[name] = direction.upper()
    return directions


def power_row(name: str, directions: Dict[str, str], driven: bool) -> str:
    """A row of a net, with what is known of it and what is guessed."""
    direction = directions.get(name)
    if GROUND.search(name):
        return f"{name} power 0  # guess: a ground by its name"
    if SUPPLY.search(name):
        volts = guess_volts(name)
        return f"{name} power ?  # guess: a supply{f' of {volts} V' if volts else ''} by its name"
    if direction == "I":
        return f"{name} input ? ?  # an input by *.PININFO"
    if direction == "O":
        return f"# {name} input ? ?  # an output by *.PININFO: no row"
    if driven:
        return f"# {name} input ? ?  # guess: an output, since devices drive it; a row if it is driven from outside too"
    return f"{name} input ? ?  # guess: an input, since only gates read it"
