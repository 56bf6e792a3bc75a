#!/usr/bin/env python3
"""Runs a program that takes the words of `bin/cvc` where the outside fails it, and at its limits.

- Under a limited address space, in steps: each run ends with status 9 and nothing written, or with the full text.
- With an output that takes no more: on a full disk, in files of limited size, on a pipe that nobody reads, and without an output.
- On files that can't be opened or read: a missing one, one that must not be read, a folder, and on unending ones.
- At each limit of docs/FORMATS.md and one past it, with the time and the memory.

Each case has a line, and what is wrong is marked.
"""

import argparse
import os
import resource
import shlex
import signal
import subprocess
import sys
import tempfile
import time

from compare import measured

NOT_LOADED = 127
wrong = 0


def told(name, right, what):
    """Prints a case."""
    global wrong
    wrong += not right
    print(f"{name:58} {what}{'' if right else '   WRONG'}", flush=True)


def write(path, *pieces):
    with open(path, "wb") as file:
        for piece in pieces:
            file.write(piece.encode())
    return path


def run(words, limit=120, **how):
    """The status and the bytes; a status below 0 is that of a signal, and None that of no end."""
    try:
        done = subprocess.run(words, stdin=subprocess.DEVNULL, stdout=how.pop("stdout", subprocess.PIPE), stderr=subprocess.DEVNULL, timeout=limit, **how)
    except subprocess.TimeoutExpired:
        return None, b""
    return done.returncode, done.stdout or b""


class Cases:
    """The files that the cases use, in one folder."""

    def __init__(self, program, folder):
        self.program, self.folder = program, folder
        self.netlist = write(self.path("netlist"), "R1 VDD n1 100\n")
        self.models = write(self.path("models"), "R resistor\nn nmos Vth=0.4\nd diode\n")
        self.power = write(self.path("power"), "VDD power 1.2\n")
        self.none = write(self.path("none"))

    def path(self, name):
        return os.path.join(self.folder, name)

    def check(self, netlist=None, models=None, power=None, options=("nets",), command="serial"):
        return [*self.program, command, netlist or self.netlist, models or self.models, power or self.power, *options]


def address_space(cases, steps):
    """From the least address space in which the program starts, in steps up to ample memory."""
    star = write(cases.path("star"), *(f"R{i} VDD n{i} 1k\n" for i in range(20_000)))
    runs = {
        "refused words": [*cases.program],
        "serial on one resistor": cases.check(),
        "check on one resistor": cases.check(command="check"),
        "serial on 20,000 resistors": cases.check(star),
        "check on 20,000 resistors": cases.check(star, command="check"),
        "check on 20,000 resistors, 64 workers": cases.check(star, command="check", options=("nets", "workers=64")),
        "gen 0 5000": [*cases.program, "gen", "0", "5000"],
    }
    for name, words in runs.items():
        full = run(words)

        def limited(size):
            try:
                return run(words, 20, preexec_fn=lambda: resource.setrlimit(resource.RLIMIT_AS, (size, size)))
            except (OSError, subprocess.SubprocessError):
                return NOT_LOADED, b""

        size = 1 << 20
        # Below some size the system can't load a program at all: it doesn't start it, or ends it by a signal.
        while limited(size)[0] in (NOT_LOADED, -signal.SIGSEGV, -signal.SIGKILL):
            size += 1 << 16
        begun, refused, full_ones, row, bad = size, 0, 0, 0, []
        while row < 12 and size < 1 << 36:
            status, text = limited(size)
            refused += (status, text) == (9, b"")
            full_ones += (status, text) == full
            row = row + 1 if (status, text) == full else 0
            if (status, text) not in (full, (9, b"")):
                bad.append((size // 1024, status, len(text)))
            size += max(size // steps, 1 << 16)
        what = f"{begun // 1024} to {size // 1024} KiB: {refused} runs with status 9, {full_ones} full"
        told(f"address space: {name}", not bad, what + "".join(f"; {kib} KiB status {status} and {count} bytes" for kib, status, count in bad[:5]))


def outputs(cases):
    """Outputs that take no more, or only a front."""
    long = cases.check(write(cases.path("long"), *(f"R{i} VDD n{i} 1k\n" for i in range(20_000))))
    status, text = run(long)
    told("output: 20,000 nets, all taken", status == 0, f"status {status}, {len(text)} bytes")
    refused = cases.check(cases.path("netlist"), cases.none)
    for name, words in (("a long report", long), ("a short report", cases.check()), ("a refusal", refused), ("a refusal of words", [*cases.program])):
        with open("/dev/full", "wb") as full:
            status, _ = run(words, stdout=full)
        told(f"output: {name} on a full disk", status == 8, f"status {status}")
        for ignored in (True, False):
            reader, writer = os.pipe()
            os.close(reader)
            status, _ = run(words, stdout=writer, restore_signals=not ignored)
            os.close(writer)
            told(f"output: {name} on a pipe that nobody reads{', SIGPIPE ignored' if ignored else ''}", status == 8, f"status {status}")
        # Without an output a system may hand in an empty one.
        status, _ = run(["/bin/sh", "-c", '"$@" >&-', "sh", *words])
        whole, _ = run(words)
        told(f"output: {name} without an output", status in (8, whole), f"status {status}")
    reader, writer = os.pipe()
    child = subprocess.Popen(long, stdout=writer)
    os.close(writer)
    front = os.read(reader, 100)
    os.close(reader)
    told("output: a pipe that is closed after 100 bytes", child.wait() == 8 and text.startswith(front), f"status {child.returncode}")
    status, text = run(long)
    bad = []
    sizes = [0, 1, 97, 4_095, 4_096, 65_535, 65_536, 65_537, 131_072, 200_000, len(text) - 1]
    for size in sizes:
        with open(cases.path("out"), "wb") as file:
            status, _ = run(long, stdout=file, restore_signals=False, preexec_fn=lambda: resource.setrlimit(resource.RLIMIT_FSIZE, (size, size)))
        with open(cases.path("out"), "rb") as file:
            if status != 8 or file.read() != text[:size]:
                bad.append(f"{size}: status {status}")
    told(f"output: files of {len(sizes)} limited sizes", not bad, "status 8 and the front" if not bad else "; ".join(bad))


def inputs(cases):
    """Files that can't be opened or read, in each place."""
    folder = cases.path("folder")
    os.mkdir(folder)
    locked = write(cases.path("locked"), "R resistor\n")
    os.chmod(locked, 0)
    os.chmod(cases.folder, 0o755)
    looped = cases.path("looped")
    os.symlink(looped, looped)
    user = {"user": 65_534} if os.geteuid() == 0 else {}
    bad_names = {"a missing file": cases.path("missing"), "a folder": folder, "a link to itself": looped, "a name of 5,000 bytes": "a" * 5_000}
    for what, path in {**bad_names, "a file that must not be read": locked}.items():
        for place in ("netlist", "models", "power"):
            for command in ("serial", "check"):
                status, text = run(cases.check(**{place: path}, command=command), **(user if path == locked else {}))
                told(f"input: {what} as {place}, {command}", (status, text) == (7, b""), f"status {status}, {len(text)} bytes")
    status, text = run([*cases.program, "serial", "", cases.models, cases.power])
    told("input: an empty name", (status, text) == (7, b""), f"status {status}, {len(text)} bytes")
    status, text = run(cases.check(write(cases.path("bad"), "E1 a\n"), models=cases.path("missing")))
    told("input: a refused netlist before a missing file", (status, text) == (3, b"refused netlist line 1 unknown-card\n"), f"status {status}")
    status, text = run(cases.check("/dev/null", "/dev/null", "/dev/null"))
    told("input: three empty devices", (status, text.splitlines()[-1:]) == (0, [b"errors 0"]), f"status {status}")
    started = time.perf_counter()
    for place, code in (("netlist", 3), ("models", 4), ("power", 5)):
        status, text = run(cases.check(**{place: "/dev/zero"}))
        wanted = (code, f"refused {place} line 1 file-too-long\n".encode())
        told(f"input: unending zeros as {place}", (status, text) == wanted, f"status {status}, {text!r}, {time.perf_counter() - started:.1f} s")
    pipe = cases.path("pipe")
    os.mkfifo(pipe)
    feeder = subprocess.Popen(["/bin/sh", "-c", f'printf "R1 VDD " >{shlex.quote(pipe)}; exit 0'])
    status, text = run(cases.check(pipe, options=()))
    feeder.wait()
    told("input: a pipe that ends within a card", (status, text) == (3, b"refused netlist line 1 short-card\n"), f"status {status}, {text!r}")
    status, text = run([*cases.program, b"serial", b"\xff", b"b", b"c"])
    told("input: a word that is no text", (status, text) in ((14, b""), (7, b"")), f"status {status}, {len(text)} bytes")


def limits(cases):
    """Each limit from both sides."""
    answer = cases.path("answer")

    def timed(words):
        status, seconds, _, peak = measured(300, answer, words)
        with open(answer, "rb") as file:
            return status, file.read(), f"status {status}, {seconds:6.2f} s, {peak / 1024:6.1f} MiB"

    x64 = [f".SUBCKT c{k} a\nX a / c{k - 1}\n.ENDS\n" for k in range(1, 66)]
    doubling = [f".SUBCKT c{k}\nX1 / c{k - 1}\nX2 / c{k - 1}\n.ENDS\n" for k in range(1, 21)]
    leaf = ".SUBCKT c0 a\nR1 a VSS 1\n.ENDS\n"
    line = "R0 VDD n1 1k" + " w=3" * 10
    card = [f"{line}\n", *("+" + (" w=3" * 255)[:1_020] + "\n" for _ in range(1_027))]
    count = len(line) + sum(len(it) - 2 for it in card[1:])
    card.append("+" + " " * (1_048_576 - count))
    netlists = {
        "500,000 devices": ((f"R{i} VDD n1 1k\n" for i in range(500_000)), (), b"devices 500000 nets 2"),
        "500,001 devices": ((f"R{i} VDD n1 1k\n" for i in range(500_001)), (), b"refused netlist line 500001 too-many-devices"),
        "1,000,000 nets of devices": ((f"D{i} {'VDD' if i == 0 else f'a{i}'} k{i} d\n" for i in range(500_000)), (), b"devices 500000 nets 1000000"),
        "1,000,001 nets of devices": (
            ("M0 VDD a0 b0 c0 n\n", *(f"D{i} a{i} k{i} d\n" for i in range(1, 499_998)), "M1 x y x y n\n", "R1 x last 1\n"),
            (),
            b"refused netlist line 500000 too-many-nets",
        ),
        "1,000,000 global nets": (("*.GLOBAL VDD\n", *(f"*.GLOBAL g{i}\n" for i in range(999_999))), (), b"devices 0 nets 1000000"),
        "1,000,001 global nets": (("*.GLOBAL VDD\n", *(f"*.GLOBAL g{i}\n" for i in range(1_000_000))), (), b"refused netlist line 1000001 too-many-nets"),
        "1,000,000 instances": ((".SUBCKT e\n.ENDS\n", *(f"X{i} / e\n" for i in range(1_000_000)), "*.GLOBAL VDD\n"), (), b"devices 0 nets 1"),
        "1,000,001 instances": ((".SUBCKT e\n.ENDS\n", *(f"X{i} / e\n" for i in range(1_000_001))), (), b"refused netlist line 1000003 too-many-instances"),
        "2^19 - 2 instances by doubling cells": ((".SUBCKT c0\n.ENDS\n", *doubling, "*.GLOBAL VDD\n"), ("top=c18",), b"devices 0 nets 1"),
        "2^20 - 2 instances by doubling cells": ((".SUBCKT c0\n.ENDS\n", *doubling), ("top=c19",), b"too-many-instances"),
        "64 names on a path": ((leaf, *x64), ("top=c64",), b"devices 1 nets 2"),
        "65 names on a path": ((leaf, *x64), ("top=c65",), b"refused netlist line 5 too-deep"),
        "a token of 1,024 bytes": (("R0 VDD " + "a" * 1_024 + " 1\n",), (), b"devices 1 nets 2"),
        "a token of 1,025 bytes": (("R0 VDD " + "a" * 1_025 + " 1\n",), (), b"refused netlist line 1 long-token"),
        "a card of 1,048,576 bytes": ((*card, "\n"), (), b"devices 1 nets 2"),
        "a card of 1,048,577 bytes": ((*card, " \n"), (), b"refused netlist line 1029 long-line"),
        "a netlist of 134,217,728 bytes": (("R0 VDD n1 1\n", *("*" * 1_023 + "\n" for _ in range(131_071)), "*" * 1_012), (), b"devices 1 nets 2"),
        "a netlist of 134,217,729 bytes": (
            ("R0 VDD n1 1\n", *("*" * 1_023 + "\n" for _ in range(131_071)), "*" * 1_013),
            (),
            b"refused netlist line 131073 file-too-long",
        ),
    }
    powers = {"64 names on a path": cases.none}
    for name, (lines, options, wanted) in netlists.items():
        netlist = write(cases.path("limit"), *lines)
        for command in ("serial", "check"):
            words = cases.check(netlist, power=powers.get(name), options=options, command=command)
            status, text, what = timed(words)
            lines = text.splitlines()
            first = lines[1 if status == 0 else 0] if lines else b""
            right = wanted in first and status == (0 if wanted.startswith(b"devices") else 3)
            told(f"limit: {name}, {command}", right, f"{what}: {first.decode()[:60]}")
    for place, rows in (("models", "R resistor\nd diode\nn nmos Vth=0\n"), ("power", "VDD power 1\n")):
        for over in (0, 1):
            path = write(cases.path("limit"), rows, "#" * (16_777_216 - len(rows) + over))
            status, text, what = timed(cases.check(**{place: path}))
            right = status == 0 if not over else text.endswith(b"file-too-long\n") and status in (4, 5)
            told(f"limit: {place} of {16_777_216 + over:,} bytes", right, what)
    for words, wanted in (("gen 0 200000", 1), ("gen 0 200001", 2), ("gen 18446744073709551615 10", 1), ("gen 18446744073709551616 1", 2), ("gen 0 0", 2)):
        status, _, what = timed([*cases.program, *words.split()])
        told(f"limit: {words}", status == wanted, what)
    for workers, wanted in ((64, 0), (65, 2), (0, 2)):
        status, _, what = timed(cases.check(command="check", options=(f"workers={workers}",)))
        told(f"limit: {workers} workers", status == wanted, what)


def main():
    parser = argparse.ArgumentParser(description=__doc__, formatter_class=argparse.RawDescriptionHelpFormatter)
    parser.add_argument("program", metavar="PROGRAM", type=shlex.split)
    parser.add_argument("--only", default="address,outputs,inputs,limits", help="some of these, with commas between them")
    parser.add_argument("--steps", type=int, default=64, help="how fine the address space is stepped: each step is the size by this")
    options = parser.parse_args()
    with tempfile.TemporaryDirectory() as folder:
        cases = Cases(options.program, folder)
        for name, part in (("address", lambda: address_space(cases, options.steps)), ("outputs", lambda: outputs(cases))):
            if name in options.only.split(","):
                part()
        for name, part in (("inputs", inputs), ("limits", limits)):
            if name in options.only.split(","):
                part(cases)
    print(f"{wrong} cases are wrong")
    sys.exit(1 if wrong else 0)


if __name__ == "__main__":
    main()
