#!/usr/bin/env python3
"""Times the further commands of a program that takes the words of `bin/cvc`, each beside what it is to be compared with.

COMMAND is the program, with words of its own after it if it is quoted. The runs are interleaved, and the medians are printed: the seconds by the clock, the
processor seconds of all threads, the peak memory, and the share of the first line of each part.
"""

import argparse
import os
import shlex
import shutil
import statistics
import tempfile

from compare import Files, chain, measured, parts, stages_in_files

# The voltages of VDD in the modes.
MODES = ("1.2", "1.1", "1.0", "0.9", "0.8", "0.7", "0.6", "0.5")


class Timer:
    """Runs of one program."""

    def __init__(self, command, runs, limit, folder):
        self.command, self.runs, self.limit, self.folder = command, runs, limit, folder

    def path(self, name):
        return os.path.join(self.folder, name)

    def write(self, name, text):
        with open(self.path(name), "w", encoding="ascii") as file:
            file.write(text)
        return self.path(name)

    def keep(self, words, name):
        """Runs the program, and keeps what it writes."""
        status = measured(self.limit, self.path(name), self.command + words)[0]
        if status not in (0, 1):
            raise SystemExit(f"{words[0]} ended with status {status}")
        return self.path(name)

    def table(self, title, rows):
        """Prints a line for each row: its name, and commands that are run one after another."""
        samples = {name: [] for name, _ in rows}
        for _ in range(self.runs):
            for name, commands in rows:
                taken = [measured(self.limit, self.path("answer"), command) for command in commands]
                if any(status not in (0, 1) for status, *_ in taken):
                    raise SystemExit(f"{title}, {name}: statuses {[status for status, *_ in taken]}")
                samples[name].append((sum(t[1] for t in taken), sum(t[2] for t in taken), max(t[3] for t in taken)))
        medians = {name: [statistics.median(sample[i] for sample in samples[name]) for i in range(3)] for name in samples}
        first = medians[rows[0][0]]
        print(f"{title}\n{'':36} {'ms':>8} {'cpu ms':>8} {'MiB':>7} {'share':>6} {'cpu':>6} {'memory':>6}")
        for name, (seconds, cpu, peak) in medians.items():
            shares = f"{seconds / first[0]:6.2f} {cpu / first[1]:6.2f} {peak / first[2]:6.2f}"
            print(f"{name:36} {seconds * 1000:8.1f} {cpu * 1000:8.1f} {peak / 1024:7.1f} {shares}", flush=True)


def certificates(timer, files, title):
    """A log and its verdict beside a check."""
    power = [files.netlist, files.models, files.power]
    log = timer.keep(["prove", *power], "log")
    report = timer.keep(["serial", *power], "report")
    commands = {"serial": ["serial", *power], "prove": ["prove", *power], "verify": ["verify", *power, log, report]}
    timer.table(f"{title}, {os.path.getsize(log) / 2**20:.1f} MiB of log", [(name, [timer.command + words]) for name, words in commands.items()])


def session(timer, files, title, net):
    """Ten rechecks, each behind an edit of one row, beside one check. The last check of a session with no edit behind a recheck is a recheck too."""
    edits = {
        "one check": [],
        "and 10 behind no edit": ["recheck\n"] * 10,
        "and 10 behind widening sets": ["recheck\n", *(f"set {net} input 0 {1.3 + k / 10:.1f}\nrecheck\n" for k in range(9)), f"set {net} input 0 3\n"],
        "and 10 behind narrowing sets": ["recheck\n", *(f"set {net} power {0.9 - k / 10:.1f}\nrecheck\n" for k in range(9)), f"set {net} power 0\n"],
    }
    power = files.serial()[1:]
    rows = [("serial", [timer.command + files.serial()])]
    for k, (name, lines) in enumerate(edits.items()):
        rows.append((name, [timer.command + ["session", *power, timer.write(f"edits{k}", "".join(lines))]]))
    timer.table(title, rows)


def modes(timer, files, title):
    """Eight modes at once beside eight checks, on 1 to 4 processors."""
    powers = [timer.write(f"power{k}", f"VDD power {volts}\nVSS power 0\nn0 input 0 {volts}\n") for k, volts in enumerate(MODES)]
    listed = timer.write("modes", "".join(f"m{k} {power}\n" for k, power in enumerate(powers)))
    together = ["modes", files.netlist, files.models, listed]
    for count in (1, 2, 4):
        if shutil.which("taskset") is None or count > (os.cpu_count() or 1):
            continue
        command = ["taskset", "-c", ",".join(map(str, range(count))), *timer.command]
        each = [[*command, "check", files.netlist, files.models, power] for power in powers]
        timer.table(f"{title}, {count} processors", [("8 runs of check", each), ("modes", [command + together])])


def main():
    parser = argparse.ArgumentParser(description=__doc__, formatter_class=argparse.RawDescriptionHelpFormatter)
    parser.add_argument("command", metavar="COMMAND", type=shlex.split)
    parser.add_argument("--scale", type=float, default=1, help="the size of the inputs, as a share of the full one")
    parser.add_argument("--runs", type=int, default=5)
    parser.add_argument("--limit", type=float, default=60, help="seconds after which a run is ended")
    parser.add_argument("--only", default="certificates,session,modes", help="the parts, with commas between them")
    options = parser.parse_args()
    chosen = options.only.split(",")

    def scale(size):
        return max(1, int(size * options.scale))

    print(f"{os.cpu_count()} processors, load {os.getloadavg()[0]:.1f}")
    with tempfile.TemporaryDirectory() as folder:
        timer, files = Timer(options.command, options.runs, options.limit, folder), Files(folder)
        if "certificates" in chosen:
            chain(files, scale)
            certificates(timer, files, "a chain of 400,000 resistors")
            stages_in_files(files, scale(200_000))
            certificates(timer, files, "the texts of gen 0 200000")
        if "session" in chosen:
            chain(files, scale)
            session(timer, files, "a chain of 400,000 resistors, all of whose bounds each edit changes", "n0")
            parts(files, scale)
            session(timer, files, "100 rings of 4,000 resistors, one of which each edit changes", "n0")
        if "modes" in chosen:
            stages_in_files(files, scale(55_556))
            modes(timer, files, "8 modes of 100,000 devices")
    print(f"load {os.getloadavg()[0]:.1f}")


if __name__ == "__main__":
    main()
