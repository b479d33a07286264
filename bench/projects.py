"""The projects of `bench/check`, `bench/rename` and `bench/script`, and the measure of a run: 10, 50 and 100 modules as the generator makes
them, one module of 1 MiB with its Main, and 200 modules that each import all before them."""
import os
import pathlib
import subprocess
import sys
import tempfile
import time

TOP = pathlib.Path(__file__).resolve().parent.parent
LIMIT = 1048576
RUNS = 5


def program():
    """The built program: the one that HARE names, or this repository's, which is built first where it has to be."""
    named = os.environ.get("HARE")
    if named:
        return named
    subprocess.run([TOP / "hare"], stdout=subprocess.DEVNULL)
    return TOP / "crates" / "hare" / "out" / "hare"


SCRIPT = "script"


def lines_of(number, size, limit=None):
    """The lines of a generated module, up to the limit of bytes where there is one."""
    digit = lambda i: (1 + number + i) % 10
    before = f"f{number - 1}_{size}" if number else "x +"
    yield f"module M{number} where"
    yield f"import M{number - 1}" if number else "-- first"
    yield f"f{number}_0 x = {before} x + {digit(0)}" if number else f"f0_0 x = x + {digit(0)}"
    taken = 100
    for i in range(1, size + 1):
        head = f"f{number}_{i} x = case x of "
        pair = (f"{head}0 -> {digit(i)}", f"{' ' * len(head)}y -> f{number}_{i - 1} (y - 1)")
        taken += sum(map(len, pair)) + 2
        if limit and taken > limit:
            return
        yield from pair


def generated(modules, size, limit=None):
    texts = {f"M{k}.hs": "\n".join(lines_of(k, size, limit)) + "\n" for k in range(modules)}
    last = texts[f"M{modules - 1}.hs"].rstrip("\n").split("\n")[-2].split(" ")[0]
    texts["Main.hs"] = f"module Main where\nimport M{modules - 1}\nmain s = show ({last} 3)\n"
    return texts


def chain(modules):
    texts = {}
    for k in range(modules - 1):
        imports = "".join(f"import M{j}\n" for j in range(k))
        texts[f"M{k}.hs"] = f"module M{k} where\n{imports}f{k} x = {'x' if k == 0 else f'f{k - 1} (f0 x)'}\n"
    imports = "".join(f"import M{j}\n" for j in range(modules - 1))
    texts["Main.hs"] = f"{imports}main s = show (f{modules - 2} 3)\n"
    return texts


# name, texts, and where M0 defines the name that is renamed
PROJECTS = [
    ("10 modules", generated(10, 20), "3:1"),
    ("50 modules", generated(50, 20), "3:1"),
    ("100 modules", generated(100, 20), "3:1"),
    ("one of 1 MiB", generated(1, 40000, LIMIT), "3:1"),
    ("200 in a chain", chain(200), "2:1"),
]


def seconds(command, folder, status, said=""):
    """The seconds of one run, and the most memory that it held, in bytes."""
    start = time.perf_counter()
    child = subprocess.Popen(command, cwd=folder, stdout=subprocess.PIPE)
    out = child.stdout.read().decode()
    _, ended, usage = os.wait4(child.pid, 0)
    taken = time.perf_counter() - start
    if os.waitstatus_to_exitcode(ended) != status or not out.startswith(said):
        sys.exit(f"{command[:6]}: {out[:200]!r}")
    return taken, usage.ru_maxrss * 1024


def report(command_at, status, said):
    """Measures a command on each project, by the least time of some runs."""
    hare, before = program(), None
    for name, texts, place in PROJECTS:
        size = sum(len(text.encode()) for text in texts.values())
        times, counts, peak = [], [], 0
        for _ in range(RUNS):
            with tempfile.TemporaryDirectory() as folder:
                for file, text in texts.items():
                    (pathlib.Path(folder) / file).write_text(text)
                (pathlib.Path(folder) / SCRIPT).write_text(f"{command_at(place)}\n")
                counts.append(seconds(["wc", *texts], folder, 0)[0])
                taken, held = seconds([hare, SCRIPT, *texts], folder, status, said)
                times.append(taken)
                peak = max(peak, held)
        took = min(times)
        row = f"{name:15} {size:8} bytes: {took * 1000:7.1f} ms, {took / min(counts):6.1f} times wc, peak {peak / size:5.1f} bytes a byte"
        if before:
            row += f", {took / before[0]:4.1f} times the time for {size / before[1]:4.1f} times the bytes"
        print(row)
        before = (took, size)
