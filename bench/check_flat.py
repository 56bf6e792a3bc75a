#!/usr/bin/env python3
"""Times `bin/cvc check` on flat netlists of resistors: chains, stars and random trees of three sizes.

Prints for each netlist its bytes, the seconds and the peak memory of the check, and the seconds of `wc -l` on the same file.
The first run builds the program.
"""

import os
import random
import subprocess
import tempfile
import time

SIZES = (1_000, 100_000, 400_000)
ROOT = os.path.dirname(os.path.dirname(os.path.abspath(__file__)))
PROGRAM = os.path.join(ROOT, "bin", "cvc")


def chain(size):
    """Each resistor hangs on the one before it."""
    return ((i, i + 1) for i in range(size))


def star(size):
    """All resistors hang on one net."""
    return ((0, i + 1) for i in range(size))


def tree(size):
    """Each resistor hangs on some net before it, by a fixed seed."""
    numbers = random.Random(1)
    return ((numbers.randrange(i + 1), i + 1) for i in range(size))


def measured(words):
    """Runs a command and answers its status, its seconds and its peak memory in KiB."""
    started = time.perf_counter()
    child = subprocess.Popen(words, stdout=subprocess.DEVNULL)
    _, status, usage = os.wait4(child.pid, 0)
    seconds = time.perf_counter() - started
    child.returncode = os.waitstatus_to_exitcode(status)
    return child.returncode, seconds, usage.ru_maxrss


def write(path, text):
    with open(path, "w", encoding="ascii") as file:
        file.write(text)
    return path


def main():
    with tempfile.TemporaryDirectory() as folder:
        models = write(os.path.join(folder, "models"), "R resistor\n")
        power = write(os.path.join(folder, "power"), "n0 power 1.2\n")
        small = write(os.path.join(folder, "small"), "R0 n0 n1 1k\n")
        subprocess.run([PROGRAM, "check", small, models, power], stdout=subprocess.DEVNULL, check=True)
        print(f"{'netlist':8} {'resistors':>9} {'bytes':>10} {'seconds':>8} {'peak MiB':>9} {'wc -l':>7}")
        for size in SIZES:
            for shape in (chain, star, tree):
                lines = (f"R{i} n{a} n{b} 1k\n" for i, (a, b) in enumerate(shape(size)))
                netlist = write(os.path.join(folder, "netlist"), "".join(lines))
                status, seconds, peak = measured([PROGRAM, "check", netlist, models, power])
                if status != 0:
                    raise SystemExit(f"{shape.__name__} of {size}: status {status}")
                _, counted, _ = measured(["wc", "-l", netlist])
                count = os.path.getsize(netlist)
                print(f"{shape.__name__:8} {size:9} {count:10} {seconds:8.3f} {peak / 1024:9.1f} {counted:7.3f}")


if __name__ == "__main__":
    main()
