#!/usr/bin/env python3
"""Runs a program that takes the words of `bin/cvc` on mutated files, several processes side by side.

The files of examples/ and of the program's own stored run are changed: bytes flipped, pieces cut out, doubled or put elsewhere, lines doubled and
swapped, tokens swapped or replaced. Each run has to end by itself within the limit, with a status that stands in docs/REFUSALS.md, and with the text
that belongs to that status. With --against, a second program has to answer the same. Each failure is printed, and its files are kept.
"""

import argparse
import collections
import concurrent.futures
import os
import random
import re
import shlex
import signal
import tempfile
import time

ROOT = os.path.dirname(os.path.dirname(os.path.abspath(__file__)))
BATCH = 250
NAMES = ("netlist", "models", "power")
COMMON = "bad-byte file-too-long long-token"
WORDS = {
    "netlist": f"{COMMON} long-line stray-plus unknown-card unsupported bad-param bad-pins short-card nested-subckt stray-ends ends-name twice-cell twice-port"
    " twice-name open-subckt unknown-cell port-count unknown-port recursive no-top too-deep too-many-instances too-many-devices too-many-nets param-loop",
    "models": f"{COMMON} bad-row unknown-kind unknown-key bad-voltage negative missing-vth",
    "power": f"{COMMON} bad-row bad-voltage min-above-max twice-row",
}
BINDING = {"netlist": "no-model param-text wrong-kind", "power": "unknown-net same-net-twice"}
REPORT = re.compile(rb"CVC report\ntop \S+ devices \d+ nets \d+ declared \d+\n(?:[a-z-]+ \S.*\n)*errors (\d+)\n")
REFUSAL = re.compile(rb"refused (netlist|models|power) line \d+ ([a-z-]+)\n")
PIECES = (
    b"\n", b"\r\n", b"\r", b"\t", b" ", b"=", b"$", b" $ ", b"#", b"+", b"\n+ ", b"*", b"*.", b"/", b" / ", b":", b"<", b">=", b">", b"<=", b"\x00", b"\x7f",
    b"\x80", b"\xff", b"$PINS", b" $pins ", b"$[m]", b"$[]", b"$[", b"$.MODEL=R", b"PARAMS:", b"'", b"{", b"(", b'"', b".SUBCKT", b".subckt c a a", b".ENDS",
    b"\n.ENDS\n", b".GLOBAL", b"*.GLOBAL A", b".PARAM", b"\n.PARAM L=W W=L\n", b".MODEL", b".END", b".INCLUDE", b".LIB", b"V1", b"I1", b"J1", b"E1", b"X1",
    b"R1", b"M1", b"D1", b"C1", b"L1", b"Q1", b"VDD", b"VSS", b"nch", b"R", b"resistor", b"inductor", b"capacitor", b"bipolar", b"diode", b"nmos", b"pmos",
    b"Vth=", b"Vth=0.4:", b"Vth=-1:2:3", b"Vgs=1", b"Vj=0:1", b"Vf=0.6", b"L<50n", b"L>=foo", b"power", b"input", b"INPUT 1 0", b"0", b"-0", b"1e12", b"1000",
    b"1000.001", b"0.0005", b"-1000", b"1e99999", b"1e-99999", b"1e", b"1e+", b".", b".5", b"1.", b"1meg", b"1mil", b"1x", b"1t", b"9" * 40,
    b"1" + b"0" * 400 + b"e-400", b"a" * 1024, b"a" * 1025, b"a/b", b"//", b"X1/X2/X3", b"/VDD",
)  # fmt: skip
TOKEN = re.compile(rb"[^\s=]+|=")


def seeds():
    """The three files of each example and of the stored run."""
    folder = os.path.join(ROOT, "examples")
    found = [[os.path.join(folder, name, file) for file in ("netlist.cdl", "models", "power")] for name in sorted(os.listdir(folder))]
    found.append([os.path.join(ROOT, "crates", "cvc", "data", file) for file in "nmp"])
    return [[open(path, "rb").read() for path in paths] for paths in found]


def flipped(text, numbers, _):
    if not text:
        return text
    at = numbers.randrange(len(text))
    return text[:at] + bytes([text[at] ^ 1 << numbers.randrange(8)]) + text[at + 1 :]


def inserted(text, numbers, _):
    at = numbers.randrange(len(text) + 1)
    return text[:at] + numbers.choice(PIECES) + text[at:]


def cut(text, numbers, _):
    return text[: numbers.randrange(len(text) + 1)]


def dropped(text, numbers, _):
    at = numbers.randrange(len(text) + 1)
    return text[:at] + text[at + numbers.choice((1, 1, 2, 5, 20, 80)) :]


def repeated(text, numbers, _):
    at = numbers.randrange(len(text) + 1)
    end = at + numbers.randrange(60)
    return text[:end] + text[at:end] * numbers.choice((1, 1, 2, 30, 300)) + text[end:]


def moved(text, numbers, others):
    other = numbers.choice(others)
    at, end = sorted(numbers.randrange(len(other) + 1) for _ in range(2))
    place = numbers.randrange(len(text) + 1)
    return text[:place] + other[at:end] + text[place:]


def line_doubled(text, numbers, _):
    lines = text.splitlines(keepends=True) or [b""]
    at = numbers.randrange(len(lines))
    return b"".join(lines[: at + 1] + lines[at:])


def lines_swapped(text, numbers, _):
    lines = text.splitlines(keepends=True) or [b""]
    at, other = numbers.randrange(len(lines)), numbers.randrange(len(lines))
    lines[at], lines[other] = lines[other], lines[at]
    return b"".join(lines)


def tokens_swapped(text, numbers, _):
    tokens = [match.span() for match in TOKEN.finditer(text)]
    if len(tokens) < 2:
        return text
    first, second = sorted(numbers.sample(tokens, 2))
    return text[: first[0]] + text[slice(*second)] + text[first[1] : second[0]] + text[slice(*first)] + text[second[1] :]


def token_replaced(text, numbers, _):
    tokens = [match.span() for match in TOKEN.finditer(text)]
    if not tokens:
        return text
    start, end = numbers.choice(tokens)
    return text[:start] + (numbers.choice(PIECES) if numbers.random() < 0.5 else text[slice(*numbers.choice(tokens))]) + text[end:]


MUTATIONS = (flipped, inserted, cut, dropped, repeated, moved, line_doubled, lines_swapped, tokens_swapped, tokens_swapped, token_replaced, token_replaced)


def mutated(files, numbers, others):
    """Some mutations of one of the three files, or of several."""
    files = list(files)
    for _ in range(numbers.choice((1, 1, 1, 2, 2, 3, 6))):
        which = numbers.choice((0, 0, 0, 0, 1, 1, 2))
        files[which] = numbers.choice(MUTATIONS)(files[which], numbers, others)
    return files


def options_of(numbers):
    """A command and its options."""
    serial = numbers.random() < 0.6
    options = [] if serial or numbers.random() < 0.3 else [f"workers={numbers.choice((1, 2, 3, 4, 8, 64))}"]
    if numbers.random() < 0.5:
        options.append("nets")
    if numbers.random() < 0.1:
        options.append("top=" + numbers.choice(("CHIP", "INV", "DIV", "", "a=b", "\u00e9", "PADRING")))
    return "serial" if serial else "check", options


class Runner:
    """Runs commands one after the other, each within a limit."""

    def __init__(self, folder, limit):
        self.answer, self.limit = os.path.join(folder, "answer"), limit
        self.child, self.late = None, False
        signal.signal(signal.SIGALRM, self.end)

    def end(self, *_):
        self.late = True
        os.kill(self.child, signal.SIGKILL)

    def run(self, words):
        """The status, the text, and whether the run was ended."""
        out = (os.POSIX_SPAWN_OPEN, 1, self.answer, os.O_WRONLY | os.O_CREAT | os.O_TRUNC, 0o600)
        self.late = False
        self.child = os.posix_spawnp(words[0], words, os.environ, file_actions=[out])
        signal.setitimer(signal.ITIMER_REAL, self.limit)
        _, status = os.waitpid(self.child, 0)
        signal.setitimer(signal.ITIMER_REAL, 0)
        with open(self.answer, "rb") as file:
            return os.waitstatus_to_exitcode(status), file.read(), self.late


def fault(status, text):
    """What is wrong about a status and a text, or None."""
    if status in (0, 1):
        report = REPORT.fullmatch(text)
        return None if report and (int(report[1]) > 0) == (status == 1) else "no report of that status"
    if status == 2:
        return None if text == b"refused words bad-name\n" else "wrong refusal of words"
    refusal = REFUSAL.fullmatch(text)
    if status not in (3, 4, 5, 6) or refusal is None:
        return "no refusal of that status"
    file, word = refusal[1].decode(), refusal[2].decode()
    words = BINDING.get(file, "") if status == 6 else WORDS[file] if status == 3 + NAMES.index(file) else ""
    return None if word in words.split() else "a refusal of another status"


def batch(task):
    """One batch of inputs. Answers what came how often, the slowest run, and the failures."""
    program, against, limit, keep, seed, number = task
    numbers = random.Random(f"{seed} {number}")
    files = seeds()
    others = [text for three in files for text in three]
    counts, slowest, failures = collections.Counter(), 0, []
    with tempfile.TemporaryDirectory(dir="/dev/shm" if os.path.isdir("/dev/shm") else None) as folder:
        runner = Runner(folder, limit)
        paths = [os.path.join(folder, name) for name in NAMES]
        for index in range(BATCH):
            texts = mutated(numbers.choice(files), numbers, others)
            for path, text in zip(paths, texts):
                with open(path, "wb") as file:
                    file.write(text)
            command, options = options_of(numbers)
            words = [command, *paths, *options]
            started = time.perf_counter()
            status, text, late = runner.run(program + words)
            slowest = max(slowest, time.perf_counter() - started)
            wrong = "no end" if late else f"signal {-status}" if status < 0 else fault(status, text)
            if wrong is None and against:
                other = runner.run(against + words)
                wrong = None if other == (status, text, late) else f"the second program: {other[0]} {other[1][:200]!r}"
            refusal = REFUSAL.fullmatch(text)
            counts[f"{status} {refusal[1].decode()} {refusal[2].decode()}" if refusal else str(status)] += 1
            if wrong is not None:
                kept = os.path.join(keep, f"{number}-{index}")
                os.makedirs(kept, exist_ok=True)
                for name, text_of in zip(NAMES, texts):
                    with open(os.path.join(kept, name), "wb") as file:
                        file.write(text_of)
                failures.append(f"{wrong}: status {status}, {text[:200]!r}, {command} {' '.join(options)}, files in {kept}")
    return counts, slowest, failures


def main():
    parser = argparse.ArgumentParser(description=__doc__, formatter_class=argparse.RawDescriptionHelpFormatter)
    parser.add_argument("program", metavar="PROGRAM", type=shlex.split)
    parser.add_argument("--count", type=int, default=10_000)
    parser.add_argument("--seed", type=int, default=1)
    parser.add_argument("--limit", type=float, default=10, help="seconds in which a run has to end")
    parser.add_argument("--jobs", type=int, default=os.cpu_count(), help="processes side by side")
    parser.add_argument("--against", type=shlex.split, metavar="PROGRAM", help="a program that has to answer the same")
    parser.add_argument("--keep", help="where the files of failures go")
    options = parser.parse_args()
    keep = options.keep or tempfile.mkdtemp(prefix="cvc-mutate-")
    batches = -(-options.count // BATCH)
    tasks = [(options.program, options.against, options.limit, keep, options.seed, number) for number in range(batches)]
    counts, slowest, failed = collections.Counter(), 0, 0
    started = time.perf_counter()
    with concurrent.futures.ProcessPoolExecutor(options.jobs) as pool:
        for done, (some, slow, failures) in enumerate(pool.map(batch, tasks), 1):
            counts += some
            slowest = max(slowest, slow)
            failed += len(failures)
            for line in failures:
                print(line, flush=True)
            if done % 100 == 0:
                print(f"{done * BATCH} inputs, {time.perf_counter() - started:.0f} s, {failed} failures", flush=True)
    for answer, count in sorted(counts.items()):
        print(f"{count:9} status {answer}")
    print(f"{batches * BATCH} inputs of seed {options.seed}, {time.perf_counter() - started:.0f} s, slowest {slowest:.3f} s, {failed} failures")
    raise SystemExit(1 if failed else 0)


if __name__ == "__main__":
    main()
