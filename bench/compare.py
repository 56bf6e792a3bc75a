#!/usr/bin/env python3
"""Times one or more programs that take the words of `bin/cvc` on the same large inputs, side by side.

Each COMMAND is a program, with words of its own after it if it is quoted. The runs of the programs are interleaved, and the medians are printed: the
seconds by the clock, the processor seconds of all threads, and the peak memory. Where several programs are given, they have to answer the same bytes
and status, and each is set beside the first. Peaks below that of the small process that starts the programs can't be seen; it is printed.
"""

import argparse
import filecmp
import json
import os
import random
import shlex
import statistics
import subprocess
import sys
import tempfile

# Runs a command with its output in a file, ends it after a limit, and prints its status, seconds, processor seconds and peak KiB.
# It is a process of its own, since a peak begins with that of the process that starts the command.
LAUNCHER = """
import os, signal, sys, time
limit, answer, words = float(sys.argv[1]), sys.argv[2], sys.argv[3:]
out = os.open(answer, os.O_WRONLY | os.O_CREAT | os.O_TRUNC, 0o600)
started = time.perf_counter()
child = os.fork()
if child == 0:
    os.dup2(out, 1)
    os.execvp(words[0], words)
signal.signal(signal.SIGALRM, lambda *_: os.kill(child, signal.SIGKILL))
signal.setitimer(signal.ITIMER_REAL, limit)
_, status, usage = os.wait4(child, 0)
seconds = time.perf_counter() - started
print([os.waitstatus_to_exitcode(status), seconds, usage.ru_utime + usage.ru_stime, usage.ru_maxrss])
"""

# The status of a run that was ended after the limit.
ENDED = -9


class Files:
    """The three files of a check in a folder."""

    def __init__(self, folder):
        self.netlist, self.models, self.power = (os.path.join(folder, name) for name in ("netlist", "models", "power"))

    def write(self, netlist, models, power):
        for path, lines in ((self.netlist, netlist), (self.models, models), (self.power, power)):
            with open(path, "w", encoding="ascii") as file:
                file.writelines(lines)

    def check(self, *options):
        return ["check", self.netlist, self.models, self.power, *options]

    def serial(self, *options):
        return ["serial", self.netlist, self.models, self.power, *options]

    def all_ways(self):
        """On one thread, and with 1, 2 and 4 workers."""
        return [self.serial(), *(self.check(f"workers={count}") for count in (1, 2, 4))]


def resistors(pairs):
    return (f"R{i} n{a} n{b} 1k\n" for i, (a, b) in enumerate(pairs))


def start(files, _):
    """One resistor: the time to start and to end."""
    files.write(["R0 n0 n1 1k\n"], ["R resistor\n"], ["n0 power 1.2\n"])
    return [files.serial(), files.check()]


def star(files, scale):
    """400,000 resistors on one net."""
    files.write(resistors((0, i + 1) for i in range(scale(400_000))), ["R resistor\n"], ["n0 power 1.2\n"])
    return files.all_ways()


def chain(files, scale):
    """400,000 resistors, each on the one before it."""
    files.write(resistors((i, i + 1) for i in range(scale(400_000))), ["R resistor\n"], ["n0 power 1.2\n"])
    return files.all_ways()


def tree(files, scale):
    """400,000 resistors, each on some net before it."""
    numbers = random.Random(1)
    files.write(resistors((numbers.randrange(i + 1), i + 1) for i in range(scale(400_000))), ["R resistor\n"], ["n0 power 1.2\n"])
    return files.all_ways()


def parts(files, scale):
    """100 rings of 4,000 resistors that meet nowhere, each with a supply of its own."""
    size = scale(4_000)
    pairs = ((size * ring + i, size * ring + (i + 1) % size) for ring in range(100) for i in range(size))
    files.write(resistors(pairs), ["R resistor\n"], (f"n{size * ring} input 0 {1 + ring % 3}\n" for ring in range(100)))
    return files.all_ways()


STAGE_CELLS = """*.GLOBAL VDD VSS
.SUBCKT INV A Y
MN Y A VSS VSS nch L=0.1u
MP Y A VDD VDD pch L=0.1u
.ENDS
.SUBCKT LINK A Y
R1 A Y 100
.ENDS
.SUBCKT LOST A Y
R1 A Y 100
MN Y F VSS VSS nch L=0.1u
.ENDS
"""
STAGE_MODELS = """nch nmos Vth=0.4 Vgs=1.32 Vgd=1.32 Vds=1.32
pch pmos Vth=-0.4 Vgs=1.32 Vgd=1.32 Vds=1.32
R resistor
"""
STAGE_POWER = "VDD power 1.2\nVSS power 0\nn0 input 0 1.2\n"


def stages_in_files(files, size):
    """The texts of `gen 0 SIZE`."""
    cells = ("INV", "INV", "INV", "LINK", "LOST")
    lines = (f"X{i} n{i} n{i + 1} / {cells[i % 5]}\n" for i in range(size))
    files.write([STAGE_CELLS, *lines], [STAGE_MODELS], [STAGE_POWER])


def stages(files, scale):
    """The texts of `gen 0 100000` from files."""
    stages_in_files(files, scale(100_000))
    return files.all_ways()


def generated(files, scale):
    """The largest generated circuit, which reads no file."""
    return [["gen", "0", str(scale(200_000))], ["gen", "0", str(scale(200_000)), "workers=1"]]


def deep(files, scale):
    """200,000 devices below 60 instances with names of 1,000 bytes."""
    name = "X" + 999 * "a"
    lines = [".SUBCKT c0 p\n", *(f"R{i} p VSS 1\n" for i in range(scale(200_000))), ".ENDS\n"]
    for level in range(1, 61):
        lines += [f".SUBCKT c{level} p\n", f"{name} p c{level - 1}\n", ".ENDS\n"]
    files.write(lines, ["R resistor\n"], [])
    return [files.serial("top=c60"), files.check("top=c60")]


def comments(files, scale):
    """64 MB of comment lines and one resistor."""
    line = "* a comment line of an extracted netlist, as long as such lines are, 12\n"
    files.write((line for _ in range(scale(64_000_000 // len(line)))), ["R resistor\n"], [])
    with open(files.netlist, "a", encoding="ascii") as file:
        file.write("R0 n0 n1 1k\n")
    return [files.serial()]


def continuations(files, scale):
    """64 MB of cards with continuation lines and comments between them."""
    card = "".join(f"+ $W{k}=1.5u $L{k}=60n $AD=0.0{k}p $ tail\n* between\n" for k in range(20))
    count = scale(64_000_000 // (len(card) + 16))
    files.write((f"R{i} n0 n1 1k\n{card}" for i in range(count)), ["R resistor\n"], ["n0 power 1.2\n"])
    return [files.serial(), files.check()]


STANDARD_CELLS = """*.GLOBAL vdd! vss!
.SUBCKT INV A Y wn=0.2u wp=0.4u
MN Y A vss! vss! nch W=wn L=60n
MP Y A vdd! vdd! pch W=wp L=60n
.ENDS
.SUBCKT NAND A B Y wn=0.3u wp=0.4u
MN1 Y A x vss! nch W=wn L=60n
MN2 x B vss! vss! nch W=wn L=60n
MP1 Y A vdd! vdd! pch W=wp L=60n
MP2 Y B vdd! vdd! pch W=wp L=60n
.ENDS
.SUBCKT NOR A B Y wn=0.2u wp=0.8u
MN1 Y A vss! vss! nch W=wn L=60n
MN2 Y B vss! vss! nch W=wn L=60n
MP1 Y A x vdd! pch W=wp L=60n
MP2 x B vdd! vdd! pch W=wp L=60n
.ENDS
.SUBCKT AOI A B C Y wn=0.3u wp=0.8u
MN1 Y A x vss! nch W=wn L=60n
MN2 x B vss! vss! nch W=wn L=60n
MN3 Y C vss! vss! nch W=wn L=60n
MP1 Y C z vdd! pch W=wp L=60n
MP2 z A vdd! vdd! pch W=wp L=60n
MP3 z B vdd! vdd! pch W=wp L=60n
.ENDS
"""
STANDARD_INPUTS = {"INV": 1, "NAND": 2, "NOR": 2, "AOI": 3}


def cells(files, scale):
    """50,000 standard cells in 500 blocks on three levels, with parameters on each device."""
    numbers = random.Random(1)
    blocks = scale(500)
    lines = [STANDARD_CELLS]
    for block in range(blocks):
        lines.append(f".SUBCKT BLOCK{block} in out drive=1.5u\n")
        for i in range(100):
            cell = numbers.choice(tuple(STANDARD_INPUTS))
            inputs = (f"w{numbers.randrange(i)}" if i > 0 and numbers.random() < 0.9 else "in" for _ in range(STANDARD_INPUTS[cell]))
            width = "drive" if numbers.random() < 0.3 else f"0.{numbers.randrange(1, 9)}u"
            lines.append(f"X{i} {' '.join(inputs)} {'out' if i == 99 else f'w{i}'} / {cell} wn={width}\n")
        lines.append(".ENDS\n")
    lines += (f"XB{block} s{block} s{block + 1} / BLOCK{block} drive={1 + block % 4}u\n" for block in range(blocks))
    models = [
        "nch nmos Vth=0.4 Vgs=1.32 Vgd=1.32 Vds=1.32 L<50n\n",
        "nch nmos Vth=0.45 Vgs=1.32 Vgd=1.32 Vds=1.32 W>=2u\n",
        "nch nmos Vth=0.4:0.5 Vgs=1.32 Vgd=1.32 Vds=1.32 Vj=0.3\n",
        "pch pmos Vth=-0.4 Vgs=1.32 Vgd=1.32 Vds=1.32 L<50n\n",
        "pch pmos Vth=-0.4:-0.5 Vgs=1.32 Vgd=1.32 Vds=1.32 Vj=0.3\n",
    ]
    files.write(lines, models, ["vdd! power 1.2\n", "vss! power 0\n", "s0 input 0 1.2\n"])
    return [files.serial(), files.check("workers=1"), files.check()]


def findings(files, scale):
    """A report with the nets and 100,000 findings, of two rules, in 50,000 instances."""
    lines = [".SUBCKT pad in out\n", "MH out in vss vss nhv W=1u\n", "MF out lost vss vss nlv W=1u\n", ".ENDS\n", "*.GLOBAL vss\n"]
    lines += (f"XPAD{i} in{i % 100} out{i} / pad\n" for i in range(scale(50_000)))
    power = ["vss power 0\n", *(f"in{i} input 0 3.3\n" for i in range(min(100, scale(50_000))))]
    files.write(lines, ["nhv nmos Vth=0.7 Vgs=1.98\n", "nlv nmos Vth=0.4\n"], power)
    return [files.serial("nets"), files.check("nets")]


def nets(files, scale):
    """A report with a million lines of nets."""
    files.write((f"D{i} a{i} c{i} esd\n" for i in range(scale(500_000))), ["esd diode Vf=0.6\n"], ["a0 power 1.2\n"])
    return [files.serial("nets"), files.check("nets")]


def hub(files, scale, size, ways):
    """One hub with resistors to supplies of falling voltage, so that each of them widens it."""
    count = scale(size)
    lines = (f"R{i} hub s{i} 1k\n" for i in range(count))
    files.write(lines, ["R resistor\n"], (f"s{i} power {count - i}m\n" for i in range(count)))
    return [files.serial(), files.check()][:ways]


def hub40(files, scale):
    """One hub with 40,000 resistors to supplies of falling voltage."""
    return hub(files, scale, 40_000, 2)


def hub80(files, scale):
    """One hub with 80,000 such resistors."""
    return hub(files, scale, 80_000, 1)


def hub160(files, scale):
    """One hub with 160,000 such resistors."""
    return hub(files, scale, 160_000, 1)


def rising(files, scale, size):
    """A chain of nets with a resistor to a supply of its own at each, each supply higher than the one before."""
    count = scale(size)
    lines = (f"R{i} n{i} n{i + 1} 1k\nRS{i} n{i} s{i} 1k\n" for i in range(count))
    files.write(lines, ["R resistor\n"], (f"s{i} power {i}m\n" for i in range(count)))
    return [files.serial(), files.check()]


def rising16(files, scale):
    """A chain of 16,000 nets with a rising supply at each."""
    return rising(files, scale, 16_000)


def rising32(files, scale):
    """A chain of 32,000 nets with a rising supply at each."""
    return rising(files, scale, 32_000)


def parameters(files, scale):
    """One card with 32,000 parameters under a model row of 32,000 tests."""
    count = scale(32_000)
    card = ["M0 d g s b n\n", *(f"+ p{i}={i}\n" for i in range(count))]
    row = ["n nmos Vth=0.4", *(f" p{i}>={i}" for i in range(count)), "\n"]
    files.write(card, row, ["g power 1\n"])
    return [files.serial()]


def equals(files, scale):
    """134 MB of `=`, which are refused at line 1."""
    files.write(("=" * 65_536 for _ in range(scale(2_048))), ["R resistor\n"], [])
    return [files.serial()]


WORKLOADS = (start, star, chain, tree, parts, stages, generated, deep, comments, continuations, cells, findings, nets, hub40, hub80, hub160)
WORKLOADS += (rising16, rising32, parameters, equals)


def measured(limit, answer, words):
    """Runs a command and answers its status, seconds, processor seconds and peak KiB."""
    launcher = [sys.executable, "-I", "-S", "-c", LAUNCHER, str(limit), answer, *words]
    return json.loads(subprocess.run(launcher, stdout=subprocess.PIPE, check=True).stdout)


def compared(commands, words, runs, limit, folder):
    """Interleaves the runs of the commands on some words. Answers the status and the medians of each, and whether all that ended answered the same."""
    answers = [os.path.join(folder, f"answer{k}") for k in range(len(commands))]
    samples = [[] for _ in commands]
    late = set()
    for run in range(runs):
        for k in (*range(run % len(commands), len(commands)), *range(run % len(commands))):
            if k not in late:
                samples[k].append(measured(limit, answers[k], commands[k] + words))
                if samples[k][-1][0] == ENDED:
                    late.add(k)
    ended = [k for k in range(len(commands)) if k not in late]
    same = len({sample[0] for k in ended for sample in samples[k]}) <= 1
    same = same and all(filecmp.cmp(answers[k], answers[ended[0]], shallow=False) for k in ended)
    medians = [[statistics.median(sample[i] for sample in taken) for i in range(1, 4)] for taken in samples]
    return [(ENDED if k in late else samples[k][0][0], *medians[k]) for k in range(len(commands))], same


def counted(report):
    """The number of findings of each rule in a report or a summary."""
    counts = {}
    with open(report, encoding="ascii") as file:
        for line in file:
            word, *rest = line.split()
            summed = len(rest) == 1
            if word not in ("CVC", "top", "net", "devices", "errors"):
                counts[word] = counts.get(word, 0) + (int(rest[0]) if summed else 1)
    return {rule: count for rule, count in counts.items() if count > 0}


def check_stages(command, limit, folder):
    """That the files of a generated circuit have the findings that the program counts in its own."""
    files = Files(folder)
    stages_in_files(files, 1_000)
    answers = os.path.join(folder, "report"), os.path.join(folder, "summary")
    measured(limit, answers[0], command + files.serial())
    measured(limit, answers[1], command + ["gen", "0", "1000"])
    if counted(answers[0]) != counted(answers[1]):
        raise SystemExit(f"the generated texts differ: {counted(answers[0])} and {counted(answers[1])}")


def shown(words, folder):
    return " ".join(word for word in words if not word.startswith(folder))


def main():
    parser = argparse.ArgumentParser(description=__doc__, formatter_class=argparse.RawDescriptionHelpFormatter)
    parser.add_argument("commands", metavar="COMMAND", nargs="*", type=shlex.split)
    parser.add_argument("--only", default="", help="the names of the workloads, with commas between them")
    parser.add_argument("--scale", type=float, default=1, help="the size of the inputs, as a share of the full one")
    parser.add_argument("--runs", type=int, default=5)
    parser.add_argument("--limit", type=float, default=60, help="seconds after which a run is ended")
    parser.add_argument("--folder", help="where the files are made")
    parser.add_argument("--list", action="store_true", help="lists the workloads and ends, as without a command")
    options = parser.parse_args()
    if options.list or not options.commands:
        for workload in WORKLOADS:
            print(f"{workload.__name__:14} {workload.__doc__.splitlines()[0]}")
        return
    chosen = options.only.split(",") if options.only else [workload.__name__ for workload in WORKLOADS]
    differences = 0
    with tempfile.TemporaryDirectory(dir=options.folder) as folder:
        check_stages(options.commands[0], options.limit, folder)
        least = measured(options.limit, os.path.join(folder, "none"), ["true"])[3]
        print(f"{os.cpu_count()} processors, load {os.getloadavg()[0]:.1f}; least peak that is seen: {least / 1024:.1f} MiB")
        head = f" |{'ms':>8} {'cpu ms':>8} {'MiB':>7}"
        others = f"{head} {'the first by it':>17}" * (len(options.commands) - 1)
        print(f"{'workload':14} {'words':20} {'st':>2}{head}{others}", flush=True)
        for workload in WORKLOADS:
            if workload.__name__ not in chosen:
                continue
            files = Files(folder)
            for words in workload(files, lambda size: max(1, int(size * options.scale))):
                medians, same = compared(options.commands, words, options.runs, options.limit, folder)
                line = f"{workload.__name__:14} {shown(words, folder):20} {medians[0][0]:2}"
                for k, (status, seconds, cpu, peak) in enumerate(medians):
                    ended = f"{seconds * 1000:8.1f} {cpu * 1000:8.1f}" if status != ENDED else f"{'> limit':>8} {'':8}"
                    line += f" |{ended} {peak / 1024:7.1f}"
                    if k > 0:
                        first = medians[0]
                        line += f" {first[1] / seconds:5.2f} {first[2] / max(cpu, 0.0001):5.2f} {first[3] / peak:5.2f}"
                print(line + ("" if same else "  DIFFERENT"), flush=True)
                differences += not same
    print(f"load {os.getloadavg()[0]:.1f}; {differences} differences")
    raise SystemExit(1 if differences else 0)


if __name__ == "__main__":
    main()
