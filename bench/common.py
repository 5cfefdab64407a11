"""What the benches share: their parts and jobs, the baselines, timed runs and tables."""
import contextlib
import math
import os
import subprocess
import sys
import tempfile
import time
import typing

BENCH = os.path.dirname(os.path.abspath(__file__))
ROOT = os.path.dirname(BENCH)
ROUNDS = 3


def decimal(units):
    """Units of 0.01 mm as a decimal of millimetres."""
    sign = "-" if units < 0 else ""
    return f"{sign}{abs(units) // 100}.{abs(units) % 100:02d}"


def height_field(path, count, step, height):
    """Writes a part over count times count squares of `step` units, two triangles each."""
    def row(j):
        return [" ".join(map(decimal, (i * step, j * step, height(i, j)))) for i in range(count + 1)]

    facet = "facet normal 0 0 1\nouter loop\nvertex %s\nvertex %s\nvertex %s\nendloop\nendfacet\n"
    with open(path, "w", encoding="utf-8") as file:
        file.write("solid part\n")
        low = row(0)
        for j in range(count):
            high = row(j + 1)
            for i in range(count):
                file.write(facet % (low[i], low[i + 1], high[i + 1]))
                file.write(facet % (low[i], high[i + 1], high[i]))
            low = high
        file.write("endsolid part\n")


def sample_height(i, j):
    """The sample part: a rough plate whose corners stand 100 to 139 units high."""
    return 100 + (7 * i * i + 13 * j * j + 5 * i * j) % 40


def bumps_height(i, j):
    """Round hills and a terrace, 100 to 1,500 units high, where a square is 25 units."""
    x, y = i / 4, j / 4
    z = 7 + 3 * math.sin(x / 6) * math.cos(y / 7.5)
    z += 2 * math.sin((x + y) / 11) + 0.6 * math.sin(x * 1.3) * math.sin(y * 1.1)
    if (x - 30) ** 2 + (y - 40) ** 2 < 144:
        z = 12
    return max(100, min(1500, round(z * 100)))


# Each part: squares along a side, the side of a square in units, and the height of a corner.
PARTS = {
    "sample 32": (32, 100, sample_height),
    "sample 100": (100, 100, sample_height),
    "bumps": (316, 25, bumps_height),
}


def triangles(part):
    return 2 * PARTS[part][0] ** 2


def side(part):
    """The length of a part's sides, in units."""
    count, step, _ = PARTS[part]
    return count * step


def make_part(folder, part):
    """The file of a part in the folder, which is written where it isn't there."""
    path = os.path.join(folder, part.replace(" ", "_") + ".stl")
    if not os.path.exists(path):
        height_field(path + ".new", *PARTS[part])
        os.rename(path + ".new", path)
    return path


@contextlib.contextmanager
def work_folder(words):
    """The folder that the word --folder=F names, which stays, or a new one for this run."""
    named = [word.partition("=")[2] for word in words if word.startswith("--folder=")]
    if named:
        os.makedirs(named[-1], exist_ok=True)
        yield os.path.abspath(named[-1])
    else:
        with tempfile.TemporaryDirectory(prefix="camtool-bench-") as folder:
            yield folder


def build_baselines(folder):
    """Compiles the baselines and gives the folder of their programs."""
    programs = os.path.join(folder, "bin")
    subprocess.run([os.path.join(BENCH, "baselines", "build"), programs], check=True)
    return programs


def note(text):
    print(text, file=sys.stderr, flush=True)


class Run(typing.NamedTuple):
    """A program's run: its seconds, the most memory that it held in MiB, and what it printed."""

    seconds: float
    mebibytes: float
    printed: str


def usage(about):
    """Ends with a script's first text, as where its words are none that it knows."""
    print(about.strip(), file=sys.stderr)
    sys.exit(2)


def run(words, processors=None, statuses=(0,)):
    """Runs a program, on so many processors at most."""
    def pin():
        if processors:
            os.sched_setaffinity(0, sorted(os.sched_getaffinity(0))[:processors])

    words = list(map(str, words))
    before = time.monotonic()
    with subprocess.Popen(words, stdout=subprocess.PIPE, text=True, preexec_fn=pin) as program:
        printed = program.stdout.read()
        _, status, usage = os.wait4(program.pid, 0)
        program.returncode = os.waitstatus_to_exitcode(status)
    seconds = time.monotonic() - before
    if program.returncode not in statuses:
        sys.exit(f"{' '.join(words)}: status {program.returncode}: {printed}")
    return Run(seconds, usage.ru_maxrss / 1024, printed)


def processors():
    return len(os.sched_getaffinity(0))


def machine():
    """A line on the machine."""
    with open("/proc/cpuinfo", encoding="utf-8") as file:
        names = [line.partition(":")[2].strip() for line in file if line.startswith("model name")]
    load = os.getloadavg()[0]
    return f"{names[0] if names else 'unknown processor'}, {processors()} processors, load {load:.1f} at the start"


def table(heads, rows):
    """Prints a table in Markdown."""
    print("| " + " | ".join(heads) + " |")
    print("|" + "---|" * len(heads))
    for row in rows:
        print("| " + " | ".join(row) + " |")
