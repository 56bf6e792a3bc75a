"""Files, numbers, and what goes wrong with them."""

import os
import re
import sys
from dataclasses import dataclass
from typing import List, Optional

NETLIST_LIMIT = 134_217_728
ROWS_LIMIT = 16_777_216
TOKEN_LIMIT = 1_024
CARD_LIMIT = 1_048_576

UNITS = 24  # a number is kept as a whole count of 10^-24, as the checker keeps it
SCALES = {"f": -15, "p": -12, "n": -9, "u": -6, "m": -3, "k": 3, "g": 9, "t": 12}
NUMBER = re.compile(r"([+-]?)(?:(\d+)\.?(\d*)|\.(\d+))(?:[eE]([+-]?\d+))?([A-Za-z]*)\Z", re.ASCII)
BAD_BYTE = re.compile(r"[\x00-\x08\x0a-\x1f\x7f]")


class KitError(Exception):
    """What ends a subcommand with status 2; its text is one line or more for the user."""


@dataclass(frozen=True)
class Fault:
    """A line that the checker refuses, with the word of its refusal and what else is known of it."""

    line: int
    word: str
    about: str = ""


def read_file(path: str, limit: int) -> str:
    """The text of a file of at most `limit` bytes. Bytes that are no UTF-8 come back as they were when they are written."""
    if os.path.isdir(path):
        raise KitError(f"{path}: is a directory")
    try:
        with open(path, "rb") as file:
            data = file.read(limit + 1)
    except (OSError, ValueError) as fault:
        raise KitError(f"{path}: {getattr(fault, 'strerror', None) or fault}")
    if len(data) > limit:
        raise KitError(f"{path}:{data.count(10, 0, limit) + 1}: file-too-long: more than {limit} bytes")
    return data.decode("utf-8", "surrogateescape")


def write_file(path: str, text: str) -> None:
    """Writes a file whole, over what stood there."""
    try:
        with open(path, "wb") as file:
            file.write(text.encode("utf-8", "surrogateescape"))
    except (OSError, ValueError) as fault:
        raise KitError(f"{path}: {getattr(fault, 'strerror', None) or fault}")


def lines_of(text: str) -> List[str]:
    """The lines without LF and without one CR at their end."""
    lines = text.split("\n")
    if lines[-1] == "":
        lines.pop()
    return [line[:-1] if line.endswith("\r") else line for line in lines]


def too_long(token: str) -> bool:
    """Whether a token has more bytes than the checker takes."""
    return len(token) * 4 > TOKEN_LIMIT and len(token.encode("utf-8", "surrogateescape")) > TOKEN_LIMIT


def shown(text: str, width: int = 60) -> str:
    """A text for a message: cut where it is long."""
    return text if len(text) <= width else text[: width - 2] + ".."


def read_number(text: str) -> Optional[int]:
    """The value in units of 10^-24, or None where the text is no number or 10^12 or more."""
    match = NUMBER.match(text)
    if match is None:
        return None
    sign, whole, fraction, bare, exponent, letters = match.groups()
    scale = scale_of(letters.lower())
    if scale is None:
        return None
    fraction = bare if bare is not None else fraction
    digits = ((whole or "") + fraction).lstrip("0")
    if not digits:
        return 0
    shift = power_of(exponent) + scale - len(fraction)
    if len(digits) + shift > 12:
        return None
    if len(digits) + shift + UNITS < 1:
        return 0
    places = shift + UNITS
    count = int(digits) * 10**places if places >= 0 else int(digits[:places] or "0")
    return -count if sign == "-" else count


def scale_of(letters: str) -> Optional[int]:
    """The power of ten that the letters behind a number stand for."""
    if letters.startswith("meg"):
        return 6
    if letters.startswith(("mil", "a", "x")):
        return None
    return SCALES.get(letters[:1], 0)


def power_of(exponent: Optional[str]) -> int:
    """The exponent, cut to what can still make a difference to a text of any length."""
    if exponent is None:
        return 0
    digits = exponent.lstrip("+-").lstrip("0")
    power = 10**12 if len(digits) > 12 else int(digits or "0")
    return -power if exponent.startswith("-") else power


def read_mv(text: str) -> Optional[int]:
    """The millivolts of a voltage, or None where the checker refuses it."""
    count = read_number(text)
    if count is None or abs(count) > 1000 * 10**UNITS or count % 10 ** (UNITS - 3):
        return None
    return count // 10 ** (UNITS - 3)


def volts(mv: Optional[int]) -> str:
    """Millivolts as a report writes them, `?` where a bound is unknown."""
    return "?" if mv is None else str(mv)


def counted(count: int, noun: str, plural: str = "") -> str:
    """A count with its noun: `1 net`, `2 nets`."""
    return f"{count} {noun if count == 1 else plural or noun + 's'}"


def warn(text: str) -> None:
    """Lines on standard error."""
    for line in text.split("\n"):
        print(f"cvc-kit: {line}", file=sys.stderr)


def refuse_faults(path: str, faults: List[Fault], limit: int = 20) -> None:
    """Ends with the faults of a file, where there are any."""
    if not faults:
        return
    told = [f"{path}:{fault.line}: {fault.word}{': ' + fault.about if fault.about else ''}" for fault in faults[:limit]]
    if len(faults) > limit:
        told.append(f"{path}: and {len(faults) - limit} more")
    raise KitError("\n".join(told))
