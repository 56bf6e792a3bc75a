#!/usr/bin/env python3
"""Draws the schematics of the tutorial's circuits to docs/schematics, one SVG each. A drawing is a list of strokes on a grid of pixels."""

from pathlib import Path
from typing import List, Tuple

HEAD = '<svg xmlns="http://www.w3.org/2000/svg" viewBox="0 0 {0} {1}" width="{0}" height="{1}" font-family="sans-serif" font-size="12">'
STROKE = '<path d="{}" fill="none" stroke="#222" stroke-width="1.5"/>'
Point = Tuple[int, int]


class Drawing:
    """What was drawn so far."""

    def __init__(self, width: int, height: int) -> None:
        self.parts: List[str] = [HEAD.format(width, height), '<rect width="100%" height="100%" fill="#fff"/>']

    def path(self, text: str) -> None:
        """Strokes, in the words of SVG."""
        self.parts.append(STROKE.format(text))

    def wire(self, *points: Point) -> None:
        """A wire through these points."""
        self.path("M" + " L".join(f"{x} {y}" for x, y in points))

    def dot(self, x: int, y: int) -> None:
        """A place where wires meet."""
        self.parts.append(f'<circle cx="{x}" cy="{y}" r="2.5" fill="#222"/>')

    def text(self, x: int, y: int, words: str, anchor: str = "start", color: str = "#222") -> None:
        """Words that begin, end or are centred at a place."""
        self.parts.append(f'<text x="{x}" y="{y}" text-anchor="{anchor}" fill="{color}">{words}</text>')

    def supply(self, x: int, y: int, name: str) -> None:
        """A supply above its wire."""
        self.wire((x - 10, y), (x + 10, y))
        self.text(x, y - 5, name, "middle")

    def ground(self, x: int, y: int) -> None:
        """VSS below its wire."""
        self.path(f"M{x - 10} {y} h20 M{x - 6} {y + 4} h12 M{x - 2} {y + 8} h4")

    def mos(self, x: int, y: int, name: str, kind: str, side: int = -1) -> None:
        """A transistor with its upper end at (x, y - 25), its lower end at (x, y + 25) and its gate at (x + 30 * side, y)."""
        plate, channel = x + 16 * side, x + 10 * side
        self.path(f"M{x} {y - 25} V{y - 10} H{channel} M{x} {y + 25} V{y + 10} H{channel} M{channel} {y - 14} V{y + 14} M{plate} {y - 11} V{y + 11}")
        if kind == "p":
            self.parts.append(f'<circle cx="{plate + 4 * side}" cy="{y}" r="4" fill="#fff" stroke="#222" stroke-width="1.5"/>')
            self.wire((plate + 8 * side, y), (x + 30 * side, y))
        else:
            self.wire((plate, y), (x + 30 * side, y))
        self.text(x + 6 if side < 0 else x - 6, y + 4, name, "start" if side < 0 else "end", "#05c")

    def pass_mos(self, x: int, y: int, name: str, kind: str) -> None:
        """A transistor that lies: its ends at (x - 25, y) and (x + 25, y), its gate above an nmos and below a pmos, at a distance of 30."""
        up = -1 if kind == "n" else 1
        channel, plate = y + 10 * up, y + 16 * up
        self.path(f"M{x - 25} {y} H{x - 10} V{channel} M{x + 25} {y} H{x + 10} V{channel} M{x - 14} {channel} H{x + 14} M{x - 11} {plate} H{x + 11}")
        if kind == "p":
            self.parts.append(f'<circle cx="{x}" cy="{plate + 4}" r="4" fill="#fff" stroke="#222" stroke-width="1.5"/>')
            self.wire((x, plate + 8), (x, y + 30))
        else:
            self.wire((x, plate), (x, y - 30))
        self.text(x + 15, y + 22 * up + (4 if up < 0 else 6), name, "start", "#05c")

    def resistor(self, x: int, y: int, name: str) -> None:
        """A resistor that lies, with its ends at (x - 25, y) and (x + 25, y)."""
        self.path(f"M{x - 25} {y} H{x - 15} M{x + 15} {y} H{x + 25} M{x - 15} {y - 5} h30 v10 h-30 z")
        self.text(x, y - 9, name, "middle", "#05c")

    def diode(self, x: int, y: int, name: str) -> None:
        """A diode that conducts upwards, with its ends at (x, y - 25) and (x, y + 25)."""
        self.path(f"M{x} {y - 25} V{y - 7} M{x} {y + 25} V{y + 7} M{x - 8} {y - 7} h16 M{x - 8} {y + 7} h16 L{x} {y - 7} z")
        self.text(x + 12, y + 4, name, "start", "#05c")

    def inverter(self, x: int, y: int, name: str, supply: str) -> None:
        """An inverter from (x - 30, y) to (x + 30, y)."""
        self.path(f"M{x - 30} {y} H{x - 16} M{x - 16} {y - 16} V{y + 16} L{x + 10} {y} z M{x + 18} {y} H{x + 30}")
        self.parts.append(f'<circle cx="{x + 14}" cy="{y}" r="4" fill="#fff" stroke="#222" stroke-width="1.5"/>')
        self.text(x, y - 20, name, "middle", "#05c")
        self.text(x, y + 30, supply, "middle", "#777")

    def box(self, x: int, y: int, width: int, name: str, supply: str) -> None:
        """A cell as a box of a height of 40, from (x, y) to (x + width, y) in its middle."""
        self.path(f"M{x} {y - 20} h{width} v40 h{-width} z")
        self.text(x + width // 2, y + 4, name, "middle", "#05c")
        self.text(x + width // 2, y + 34, supply, "middle", "#777")

    def done(self, name: str) -> None:
        """Writes the drawing."""
        path = Path(__file__).resolve().parent.parent / "docs" / "schematics" / f"{name}.svg"
        path.parent.mkdir(exist_ok=True)
        path.write_text("\n".join([*self.parts, "</svg>"]) + "\n")


def level_shifter() -> None:
    """The cell SHIFT of examples/level_shifter."""
    d = Drawing(380, 255)
    for x, up, down in ((140, "MP1", "MN1"), (260, "MP2", "MN2")):
        side = -1 if x == 140 else 1
        d.supply(x, 30, "VDDH")
        d.wire((x, 30), (x, 45))
        d.mos(x, 70, up, "p", side)
        d.mos(x, 170, down, "n", side)
        d.wire((x, 95), (x, 145))
        d.ground(x, 195)
        d.dot(x, 120)
    d.wire((110, 70), (95, 70), (95, 105), (235, 105), (260, 120))
    d.wire((290, 70), (305, 70), (305, 112), (165, 112), (140, 120))
    d.wire((40, 170), (110, 170))
    d.text(20, 174, "IN")
    d.dot(70, 170)
    d.wire((70, 170), (70, 220), (170, 220))
    d.inverter(200, 220, "XI", "")
    d.text(195, 249, "VDDL", "middle", "#777")
    d.wire((230, 220), (310, 220), (310, 170), (290, 170))
    d.text(316, 200, "INB")
    d.wire((260, 130), (340, 130))
    d.text(344, 134, "OUT")
    d.wire((140, 130), (110, 130))
    d.text(106, 134, "OUTB", "end")
    d.done("level_shifter")


def io_pad() -> None:
    """The pad of examples/io_pad: the second pair of clamps leads to the core's supply."""
    d = Drawing(360, 200)
    d.text(10, 104, "PAD")
    d.wire((40, 100), (155, 100))
    for x, high in ((100, "VDDIO"), (260, "VDD")):
        d.supply(x, 35, high)
        d.wire((x, 35), (x, 45))
        d.diode(x, 70, "")
        d.wire((x, 95), (x, 105))
        d.diode(x, 130, "")
        d.ground(x, 155)
        d.dot(x, 100)
    d.text(274, 74, "XK/DH", "start", "#c00")
    d.resistor(180, 100, "RS")
    d.wire((205, 100), (310, 100))
    d.text(316, 104, "RIN")
    d.done("io_pad")


def certificate() -> None:
    """The circuit of examples/certificate."""
    d = Drawing(330, 190)
    d.text(10, 99, "A")
    d.wire((22, 95), (55, 95))
    d.pass_mos(80, 95, "MPASS", "n")
    d.text(80, 60, "EN", "middle")
    d.wire((105, 95), (150, 95))
    d.text(120, 90, "M")
    d.dot(150, 95)
    d.wire((190, 50), (150, 50), (150, 140), (190, 140))
    d.supply(220, 20, "VDD")
    d.wire((220, 20), (220, 25))
    d.mos(220, 50, "MP", "p")
    d.wire((220, 75), (220, 115))
    d.mos(220, 140, "MN", "n")
    d.ground(220, 165)
    d.dot(220, 95)
    d.wire((220, 95), (290, 95))
    d.text(296, 99, "Y")
    d.done("certificate")


def released_bus() -> None:
    """The two drivers of examples/released_bus."""
    d = Drawing(440, 300)
    for x, name, gate, color in ((120, "LINEA", "ENB = 3.3", "#222"), (330, "LINEB", "OEB = 1.2", "#c00")):
        d.supply(x, 25, "VDDH")
        d.wire((x, 25), (x, 30))
        black = "#222"
        pull_up = ((55, "MPA", "p", "DATA", black), (110, "MPE", "p", gate, color))
        pull_down = ((180, "MNE", "n", "EN = 0", black), (235, "MNA", "n", "DATA", black))
        for y, mos, kind, word, shade in pull_up + pull_down:
            d.mos(x, y, mos, kind)
            d.text(x - 34, y + 4, word, "end", shade)
        d.wire((x, 80), (x, 85))
        d.wire((x, 135), (x, 155))
        d.wire((x, 205), (x, 210))
        d.ground(x, 260)
        d.dot(x, 145)
        d.wire((x, 145), (x + 45, 145))
        d.text(x + 50, 149, name)
    d.done("released_bus")


def three_modes() -> None:
    """The chip of examples/three_modes."""
    d = Drawing(430, 190)
    d.text(10, 64, "DIN")
    d.wire((36, 60), (50, 60))
    d.inverter(80, 60, "XC", "VCORE")
    d.wire((110, 60), (180, 60))
    d.text(130, 55, "D")
    d.box(180, 60, 70, "XS shifter", "VCORE, VIO")
    d.wire((250, 60), (300, 60))
    d.text(265, 55, "UP")
    d.inverter(330, 60, "XP", "VIO")
    d.wire((360, 60), (375, 60))
    d.text(380, 64, "PAD")
    d.dot(150, 60)
    d.wire((150, 60), (150, 140), (300, 140))
    d.inverter(330, 140, "XW", "VAON")
    d.wire((360, 140), (375, 140))
    d.text(380, 144, "WAKE")
    d.done("three_modes")


def leak_hunt() -> None:
    """The monitor of examples/leak_hunt."""
    d = Drawing(450, 330)
    for y, supply, resistor, net, switch, on in ((60, "VUSB 5.0", "RU", "U", "X1", "S1"), (160, "VBAT 3.0", "RB", "B", "X2", "S2"), (260, "VCORE 1.2", "RC", "C", "X3", "S3")):
        d.text(70, y + 4, supply, "end")
        d.wire((75, y), (85, y))
        d.resistor(110, y, resistor)
        d.wire((135, y), (170, y))
        d.text(145, y - 5, net)
        d.dot(170, y)
        d.wire((170, y), (170, y - 15), (185, y - 15))
        d.pass_mos(210, y - 15, f"{switch}/MN", "n")
        d.wire((235, y - 15), (250, y - 15), (250, y))
        d.wire((170, y), (170, y + 15), (185, y + 15))
        d.pass_mos(210, y + 15, f"{switch}/MP", "p")
        d.wire((235, y + 15), (250, y + 15), (250, y))
        d.text(203, y - 39, on, "end")
        d.text(203, y + 45, f"{on}B", "end")
        d.dot(250, y)
        d.wire((250, y), (310, y))
    d.wire((310, 60), (310, 260))
    d.dot(310, 160)
    d.wire((310, 160), (360, 160))
    d.text(318, 155, "N")
    d.mos(390, 160, "MI", "n")
    d.wire((390, 135), (390, 110), (415, 110))
    d.text(420, 114, "OUT")
    d.ground(390, 185)
    d.mos(340, 225, "MC", "n", 1)
    d.wire((340, 200), (340, 160))
    d.dot(340, 160)
    d.text(374, 229, "CLEAR")
    d.ground(340, 250)
    d.done("leak_hunt")


for draw in (level_shifter, io_pad, certificate, released_bus, three_modes, leak_hunt):
    draw()
