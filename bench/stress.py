#!/usr/bin/env python3
"""Holds `check` with 1 to 64 workers against `serial` on random circuits, byte for byte and status.

The circuits have all kinds of devices, cells in cells, connections by order and by name, global nets, parameters and rows with tests. Their supplies
are put on nets that a first run lists. With --against, a second program has to answer the same as well. Each difference is printed with its files.
"""

import argparse
import collections
import concurrent.futures
import os
import random
import shlex
import subprocess
import tempfile
import time

BATCH = 50
MODELS = {
    "M": ("na", "nb", "nc", "pa", "pb", "pc"),
    "D": ("da", "db"),
    "R": ("R", "rp"),
    "C": ("C", "cm"),
    "L": ("L", "li"),
    "Q": ("qa",),
}
PINS = {"M": 4, "D": 2, "R": 2, "C": 2, "L": 2, "Q": 3}


def voltage(numbers, low, high):
    return f"{numbers.randrange(low, high + 1)}m" if numbers.random() < 0.5 else f"{numbers.randrange(low, high + 1) / 1000}"


def models_of(numbers):
    """Rows of each model, those of transistors sometimes several with tests, some with two corners and with limits."""
    lines = []
    for name in MODELS["M"]:
        sign = "" if name[0] == "n" else "-"
        for last in (False, False, True):
            if not last and numbers.random() < 0.6:
                continue
            corners = [f"{sign}0.{numbers.randrange(0, 9)}" for _ in range(numbers.choice((1, 1, 2)))]
            items = [f"Vth={':'.join(corners)}"]
            limits = ("Vgs", "Vgd", "Vds", "Vbs", "Vbd", "Vbg")
            items += [f"{key}={numbers.randrange(0, 4)}.{numbers.randrange(0, 9)}" for key in limits if numbers.random() < 0.3]
            items += [f"Vj=0.{numbers.randrange(0, 9)}"] * (numbers.random() < 0.3)
            if not last:
                items += [f"{numbers.choice('LW')}{numbers.choice(('<', '>='))}{numbers.randrange(1, 9)}u" for _ in range(numbers.choice((1, 2)))]
            numbers.shuffle(items)
            lines.append(f"{name} {'nmos' if name[0] == 'n' else 'pmos'} {' '.join(items)}\n")
    lines += [f"{name} diode Vf=0.{numbers.randrange(0, 9)}\n" for name in MODELS["D"]]
    lines += [f"{name} {kind}\n" for letter, kind in (("R", "resistor"), ("C", "capacitor"), ("L", "inductor"), ("Q", "bipolar")) for name in MODELS[letter]]
    if numbers.random() < 0.3:
        numbers.shuffle(lines)
    return lines


def device(numbers, index, letters, nets):
    letter = numbers.choice(letters)
    model = numbers.choice(MODELS[letter])
    pins = " ".join(numbers.choice(nets) for _ in range(PINS[letter]))
    named = f"$[{model}]" if numbers.random() < 0.3 else model
    pairs = [f"{name}={numbers.choice(('1u', '3u', '0.5u', 'w', 'l', '7u'))}" for name in ("W", "L", "m") if numbers.random() < 0.6]
    return f"{letter}{index} {pins} {named} {' '.join(pairs)}\n"


def instance(numbers, index, nets, cell, ports):
    pairs = " ".join(f"{name}={numbers.randrange(1, 9)}u" for name in ("w", "l") if numbers.random() < 0.3)
    if numbers.random() < 0.3:
        kept = [port for port in ports if numbers.random() < 0.8]
        return f"X{index} / {cell} {pairs} $PINS {' '.join(f'{port}={numbers.choice(nets)}' for port in kept)}\n"
    pins = " ".join(numbers.choice(nets) for _ in ports)
    return f"X{index} {pins} / {cell} {pairs}\n" if numbers.random() < 0.7 else f"X{index} {pins} {cell} {pairs}\n"


def body(numbers, devices, instances, nets, cells, letters):
    cards = [device(numbers, index, letters, nets) for index in range(devices)]
    cards += [instance(numbers, index, nets, *numbers.choice(cells)) for index in range(instances) if cells]
    numbers.shuffle(cards)
    return cards


def netlist_of(numbers, large):
    """Cells, each of those before it, and a main level of some devices and instances."""
    shared = [f"g{k}" for k in range(numbers.randrange(0, 4))]
    letters = "MMMMDRRLCQ" if numbers.random() < 0.7 else numbers.choice(("R", "M", "MR", "MD", "DR", "RL"))
    lines = ["*.GLOBAL " + " ".join(shared) + "\n"] if shared else []
    lines.append(f".PARAM w={numbers.randrange(1, 9)}u l={numbers.choice(('1u', 'w', '2u'))}\n")
    cells = []
    for k in range(numbers.randrange(0, 5)):
        ports = [f"p{i}" for i in range(numbers.randrange(0, 5))]
        inner = shared + ports + [f"n{i}" for i in range(numbers.randrange(1, 4))]
        lines.append(f".SUBCKT cell{k} {' '.join(ports)} {numbers.choice(('', 'w=2u', 'l=4u w=l'))}\n")
        lines += body(numbers, numbers.randrange(0, 7), numbers.randrange(0, 3), inner, cells, letters)
        lines.append(numbers.choice((".ENDS\n", f".ENDS cell{k}\n")))
        cells.append((f"cell{k}", ports))
    count = numbers.randrange(300, 4_000) if large else numbers.randrange(0, 25)
    pool = numbers.choice((2, 4, 12, max(2, count // 2), count + 1))
    nets = shared + [f"n{i}" for i in range(pool)]
    lines += body(numbers, count, numbers.randrange(0, count // 4 + 2), nets, cells, letters)
    return lines


def power_of(numbers, nets):
    """Supplies on some of the nets, of which few have a span or a voltage below 0."""
    rows = []
    for net in numbers.sample(nets, min(len(nets), numbers.choice((1, 2, 3, 4, 8, 20)))):
        if numbers.random() < 0.6:
            rows.append(f"{net} power {voltage(numbers, *numbers.choice(((0, 0), (1200, 1200), (3300, 3300), (0, 5000), (-2000, 2000))))}\n")
        else:
            low, high = sorted(numbers.randrange(*numbers.choice(((0, 1500), (-1000, 4000)))) for _ in range(2))
            rows.append(f"{net} input {low}m {high}m\n")
    return rows


def run(words, limit):
    """The status and the bytes, or None where the run didn't end."""
    try:
        done = subprocess.run(words, stdout=subprocess.PIPE, stderr=subprocess.DEVNULL, timeout=limit)
        return done.returncode, done.stdout
    except subprocess.TimeoutExpired:
        return None, b""


def write(path, lines):
    with open(path, "w", encoding="ascii") as file:
        file.writelines(lines)


def batch(task):
    """One batch of circuits. Answers what came how often, and the differences."""
    program, against, limit, keep, seed, number = task
    numbers = random.Random(f"{seed} {number}")
    counts, differences = collections.Counter(), []
    with tempfile.TemporaryDirectory(dir="/dev/shm" if os.path.isdir("/dev/shm") else None) as folder:
        paths = [os.path.join(folder, name) for name in ("netlist", "models", "power")]
        for index in range(BATCH):
            texts = [netlist_of(numbers, numbers.random() < 0.05), models_of(numbers), []]
            for path, lines in zip(paths, texts):
                write(path, lines)
            status, listed = run([*program, "serial", *paths, "nets"], limit)
            names = [line.split()[1].decode() for line in listed.splitlines() if line.startswith(b"net ")]
            if status in (0, 1) and names:
                texts[2] = power_of(numbers, names)
                write(paths[2], texts[2])
            options = ["nets"] * (numbers.random() < 0.8)
            wanted = run([*program, "serial", *paths, *options], limit)
            counts[f"status {wanted[0]}"] += 1
            for line in wanted[1].splitlines():
                word = line.split()[0].decode()
                if wanted[0] == 1 and word not in ("CVC", "top", "net", "errors"):
                    counts[f"findings: {word}"] += 1
            runs = [[*program, "check", *paths, f"workers={workers}", *options] for workers in (1, numbers.randrange(2, 9), numbers.randrange(9, 65))]
            runs += [[*against, "serial", *paths, *options]] if against else []
            for words in runs:
                found = run(words, limit)
                counts["runs held against serial"] += 1
                if found != wanted or wanted[0] not in range(7):
                    kept = os.path.join(keep, f"{number}-{index}")
                    os.makedirs(kept, exist_ok=True)
                    for name, lines in zip(("netlist", "models", "power"), texts):
                        write(os.path.join(kept, name), lines)
                    rest = " ".join(word for word in words if not word.startswith(folder))
                    differences.append(f"{rest}: status {found[0]}, of serial {wanted[0]}; {len(found[1])} and {len(wanted[1])} bytes; files in {kept}")
    return counts, differences


def main():
    parser = argparse.ArgumentParser(description=__doc__, formatter_class=argparse.RawDescriptionHelpFormatter)
    parser.add_argument("program", metavar="PROGRAM", type=shlex.split)
    parser.add_argument("--count", type=int, default=10_000)
    parser.add_argument("--seed", type=int, default=1)
    parser.add_argument("--limit", type=float, default=60, help="seconds in which a run has to end")
    parser.add_argument("--jobs", type=int, default=2, help="processes side by side")
    parser.add_argument("--against", type=shlex.split, metavar="PROGRAM", help="a program whose serial has to answer the same")
    parser.add_argument("--keep", help="where the files of differences go")
    options = parser.parse_args()
    keep = options.keep or tempfile.mkdtemp(prefix="cvc-stress-")
    batches = -(-options.count // BATCH)
    tasks = [(options.program, options.against, options.limit, keep, options.seed, number) for number in range(batches)]
    counts, differed = collections.Counter(), 0
    started = time.perf_counter()
    with concurrent.futures.ProcessPoolExecutor(options.jobs) as pool:
        for done, (some, differences) in enumerate(pool.map(batch, tasks), 1):
            counts += some
            differed += len(differences)
            for line in differences:
                print(line, flush=True)
            if done % 20 == 0:
                print(f"{done * BATCH} circuits, {time.perf_counter() - started:.0f} s, {differed} differences", flush=True)
    for what, count in sorted(counts.items()):
        print(f"{count:9} {what}")
    print(f"{batches * BATCH} circuits of seed {options.seed}, {time.perf_counter() - started:.0f} s, {differed} differences")
    raise SystemExit(1 if differed else 0)


if __name__ == "__main__":
    main()
