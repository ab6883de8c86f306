"""What bench/window, bench/tally and bench/tenants have in common: they make an input of LINES lines, which is the first
argument, or 10,000,000, run each program over it once a round, over ROUNDS rounds, and print a table of ratios."""
import importlib.machinery, importlib.util, os, random, shutil, statistics, subprocess, sys

sys.dont_write_bytecode = True
HERE = os.path.dirname(os.path.abspath(__file__))
sys.path.insert(0, os.path.join(HERE, "..", "tests"))
import common
from common import SKETCHD


def script(name):
    """Another script of bench/ as a module."""
    loader = importlib.machinery.SourceFileLoader(name, os.path.join(HERE, name))
    module = importlib.util.module_from_spec(importlib.util.spec_from_loader(name, loader))
    loader.exec_module(module)
    return module


field, run = script("field"), script("run")
DATA, LINES = field.DATA, field.LINES
ROUNDS = int(os.environ.get("ROUNDS", "9"))
WC = ("wc -l", ["wc", "-l"])


def prepare(command):
    """Builds the plain C program, or ends if the program has not this command."""
    if common.unknown([command]):
        sys.exit(0)
    os.makedirs(DATA, exist_ok=True)
    os.environ["LC_ALL"] = "C"
    os.environ["PATH"] += ":/usr/sbin"
    subprocess.run(["cc", "-O3", "-o", run.LIMIT, os.path.join(HERE, "limit.c")], check=True)


def make(name, line):
    """A file of LINES lines, of which this makes the one of a number, from a fixed seed."""
    path = os.path.join(DATA, f"{name}_{LINES}")
    if not os.path.exists(path):
        random.seed(7)
        with open(path, "wb") as out:
            for start in range(0, LINES, 100_000):
                out.write(b"".join(line(i) for i in range(start, min(start + 100_000, LINES))))
    return path


def reads(words, path):
    """A measure of a program that reads this file: the seconds, the kilobytes, and what it wrote."""
    return lambda: field.timed(words, path, False)


def plain(path):
    """The plain C program over the lines of a file, and `wc`."""
    return [(run.PLAIN_C, reads([run.LIMIT], path)), (WC[0], reads(WC[1], path))]


def measured(rows):
    """The measures of each row by rounds."""
    results = {name: [] for name, _ in rows}
    for _ in range(ROUNDS):
        for name, measure in rows:
            results[name].append(measure())
    return results


def report(results, base):
    """A table of all rows, with the ratios to the base and to plain C. What each wrote last is returned."""
    seconds = {name: [took for took, *_ in rounds] for name, rounds in results.items()}
    least = {name: min(it) for name, it in seconds.items()}
    middle = {name: statistics.median(it) for name, it in seconds.items()}
    print(f"{LINES:,} lines, {ROUNDS} rounds; seconds; ratios A to {base}, C to {run.PLAIN_C}")
    print(f"  {'':38}{'least':>9} {'median':>9} {'A, least':>10} {'median':>8} {'C, least':>10} {'median':>8} {'peak MB':>9}")
    for name, rounds in results.items():
        ratios = " ".join(f"{least[name] / least[other]:10.2f} {middle[name] / middle[other]:8.2f}" for other in (base, run.PLAIN_C))
        peak = max(kilobytes for _, kilobytes, *_ in rounds) * 1024 / 1e6
        print(f"  {name:38}{least[name]:9.3f} {middle[name]:9.3f} {ratios} {peak:9.1f}", flush=True)
    return {name: rounds[-1][2] for name, rounds in results.items()}


def redis_is_here():
    return shutil.which("redis-server") and shutil.which("redis-cli")


def by_redis(prepare, requests, finish):
    """A measure of Redis: what is asked before, a file of requests by `--pipe`, and what is asked after them."""
    words = lambda folder, port: ["redis-server", "--port", str(port), "--bind", "127.0.0.1", "--save", "", "--appendonly", "no"]

    def measure():
        with field.serving(words, lambda *_: None, False) as (port, server):
            client = ["redis-cli", "-p", str(port)]
            field.wait_for([*client, "ping"])
            for request in prepare:
                field.answer([*client, *request])
            start = field.time.perf_counter()
            with open(requests) as source:
                said = field.answer([*client, "--pipe"], stdin=source)
            out = "".join(f"{field.answer([*client, *request])}\n" for request in finish)
            seconds = field.time.perf_counter() - start
            assert "errors: 0," in said, said
            return seconds, server.peak(), out

    return measure
