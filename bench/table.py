#!/usr/bin/env python3
"""One table of what things cost, made in one run on a quiet machine; not in the gate.

    bench/table.py [ROUNDS]

Every command is run once a round, one after the other, so that what disturbs the machine disturbs
all of them alike, and the least time of each counts. Where a command does something N times, the
time of the same command that does it no time is taken off. bench/README.md says what the rows are.
"""
import datetime
import pathlib
import platform
import subprocess
import sys
import tempfile
import time

TOP = pathlib.Path(__file__).resolve().parent.parent
GRIDS = TOP / "crates/bench_grid/out/bench_grid"
LINES = TOP / "crates/bench_parse/out/bench_parse"
PROGRAM = TOP / "crates/geo_app/out/geo_app"
ROUNDS = int(sys.argv[1]) if len(sys.argv) > 1 else 7
POINTS = {"S1": 40 * 91_125, "S2": 8 * 455_625}
CERTIFICATES = {"S1": ("desargues", 91_125), "S2": ("pappus", 455_625)}
POSED = 20_000
SEARCHES = 8
WORKERS = (1, 2, 4, 16)
FORMS = [
    "point A{n} {x} -7", "line l{n} {x} 0", "fixpoint F{n} 1 {x} 2", "fixline g{n} 0 {x} 1",
    "on P{n} l{x} 5", "through t{n} A{x} -3", "along Q{n} A{x} B 2", "pencil p{n} l{x} m -1",
    "join j{n} A{x} B", "meet M{n} l{x} m", "drag A{n} {x}", "drag A{n} {x} 1", "drop A{n}",
    "claim null A{n}", "claim same A{n} B{x}", "claim on A{n} l{x}", "claim collinear A{n} B{x} C",
    "certify concurrent l{n} m{x} n", "dual", "undo", "redo", "screen", "conjectures", "ledger",
    "svg", "show {n}", "close {n}", "# comment {n}", "", "point A{n} 1 2", "point A{n}",
]

# A complete quadrilateral with its diagonal triangle and the joins of the diagonal points with the
# vertices, Desargues' figure with a fixed centre, and Pappus' with two fixed points: 103 conjectures,
# of which 98 hold, on grids of 420,386 points together, and 5 fail.
FIGURES = (
    "fixline a -1 0 1\nfixline b 0 -1 1\nline c 1 1\nline d 2 -1\nmeet AB a b\nmeet AC a c\n"
    "meet AD a d\nmeet BC b c\nmeet BD b d\nmeet CD c d\njoin p AB CD\njoin q AC BD\n"
    "join r AD BC\nmeet P q r\nmeet Q r p\nmeet R p q\njoin e P AB\njoin e2 P CD\njoin f Q AC\n"
    "join f2 Q BD\njoin g R BC\njoin g2 R AD\n"
    "fixpoint O 0 0 1\npoint A 1 0\npoint B 0 1\npoint C -1 -1\nalong D O A 1\nalong E O B 2\n"
    "along F O C 3\njoin ab A B\njoin de D E\nmeet X ab de\njoin bc B C\njoin ef E F\n"
    "meet Y bc ef\njoin ca C A\njoin fd F D\nmeet Z ca fd\njoin ax X Y\n"
    "fixpoint G 0 1 1\nfixpoint H 2 1 1\nalong I G H 1\npoint J 0 -1\npoint K 3 -2\n"
    "along L J K 2\njoin gk G K\njoin hj H J\nmeet U gk hj\njoin gl G L\njoin ij I J\n"
    "meet V gl ij\njoin hl H L\njoin ik I K\nmeet W hl ik\n"
)
FIGURE_POINTS = 420_386


def grown(count):
    """Twelve free points, and then so many joins of two of them and meets of two joins in turn."""
    lines = [f"point A{k} {k} {k * k % 17}" for k in range(12)]
    pairs = [(i, j) for j in range(12) for i in range(j)]
    for k in range(count):
        if k % 2 == 0 or k < 3:
            i, j = pairs[k]
            lines.append(f"join l{k} A{i} A{j}")
        else:
            lines.append(f"meet M{k} l{0 if k < 5 else k - 3} l{k - 1}")
    return "\n".join(lines) + "\n"


def coming(count):
    """The last of 64 elements, taken back and done again so many times."""
    return grown(52) + "undo\nredo\n" * count


def chain(count):
    """A script of 64 elements of which all but A and B hang on A."""
    lines = ["point A 1 2", "point B 3 1", "join l0 A B"]
    lines += [f"along P{k} A B {k + 1}" for k in range(31)]
    lines += [f"join l{k + 1} A P{k}" for k in range(30)]
    lines += [f"drag A {k % 1000} {k % 7}" for k in range(count)]
    return "\n".join(lines) + "\n"


def back_and_forth(count):
    return "point A 0 0\n" + "drag A 1 2\n" * count + "undo\n" * count


def mixed(count):
    return "".join(
        FORMS[n % len(FORMS)].format(n=n % 1000, x=n * 7 % 1000) + "\n" for n in range(count)
    )


class Jobs:
    """Commands by name, and the least time of each in nanoseconds."""

    def __init__(self, folder):
        self.folder = folder
        self.commands = {}
        self.least = {}

    def add(self, name, command, script=""):
        file = self.folder / f"{len(self.commands)}"
        file.write_text(script)
        self.commands[name] = ([str(word) for word in command], file)

    def run(self):
        for _ in range(ROUNDS):
            for name, (command, file) in self.commands.items():
                with open(file, "rb") as script:
                    begun = time.perf_counter_ns()
                    subprocess.run(command, stdin=script, stdout=subprocess.DEVNULL, check=False)
                    taken = time.perf_counter_ns() - begun
                self.least[name] = min(taken, self.least.get(name, taken))

    def each(self, name, count, none=None):
        """What one of so many takes, beside the job of none."""
        return (self.least[name] - self.least[none or name + " none"]) / count


def row(name, cost, ratio=""):
    print(f"| {name} | {cost} | {ratio} |")


def build(folder):
    for crate in ("bench_grid", "bench_parse"):
        subprocess.run(
            ["rt", "run"], cwd=TOP / "crates" / crate, stdin=subprocess.DEVNULL,
            stdout=subprocess.DEVNULL, check=False,
        )
    for bits, number in (("128", "__int128"), ("64", "int64_t")):
        subprocess.run(
            ["cc", "-O2", f"-DNUMBER={number}", "-o", folder / f"figures{bits}",
             TOP / "bench/figures.c"], check=True,
        )
    subprocess.run([TOP / "bukshena", "run"], stdin=subprocess.DEVNULL, check=True)


def add_all(jobs, folder):
    for figure, ways in (("S1", ("grid", "lane", "wide")), ("S1-far", ("grid",)),
                         ("S2", ("grid", "lane", "wide"))):
        for way in ways:
            points = POINTS[figure[:2]]
            jobs.add(f"{figure} {way}", [GRIDS], f"{figure} {way} {points}\n")
            jobs.add(f"{figure} {way} none", [GRIDS], f"{figure} {way} 0\n")
    for figure, points in POINTS.items():
        for bits in ("128", "64"):
            for variant in ("changed", "everything"):
                command = [folder / f"figures{bits}", figure, variant]
                jobs.add(f"{figure} {variant} {bits}", command + [points])
                jobs.add(f"{figure} {variant} {bits} none", command + [0])
    for figure, (name, _) in CERTIFICATES.items():
        text = (TOP / f"examples/certificates/{name}.json").read_text()
        jobs.add(f"{figure} check", [PROGRAM, "check"], text)
        jobs.add(f"{figure} check none", [PROGRAM, "check"])
    for workers in WORKERS:
        jobs.add(f"search {workers}", [GRIDS], f"S2 workers {workers}\n" * SEARCHES)
    jobs.add("search none", [GRIDS], "S2 pose 1\n" * SEARCHES)
    jobs.add("pose", [GRIDS], f"forty pose {POSED}\n")
    jobs.add("pose none", [GRIDS], "forty pose 0\n")
    for name, script in (("root", chain), ("history", back_and_forth)):
        jobs.add(f"{name} none", [PROGRAM, "run"], script(0))
        for count in (10_000, 100_000):
            jobs.add(f"{name} {count}", [PROGRAM, "run"], script(count))
    for count in (0, 1_000):
        jobs.add(f"coming {count}", [PROGRAM, "run"], coming(count))
    jobs.add("grown 52", [PROGRAM, "run"], grown(52))
    jobs.add("grown 0", [PROGRAM, "run"], grown(0))
    for name, lines in (("drawn", ""), ("noticed", "conjectures\n"), ("settled", "ledger\n"),
                        ("kept", "ledger\nledger\n")):
        jobs.add(f"figures {name}", [PROGRAM, "run"], FIGURES + lines)
    jobs.add("empty", [PROGRAM, "run"])
    for file in sorted((TOP / "examples").glob("*.txt")):
        jobs.add(file.name, [PROGRAM, "run"], file.read_text())
    examples = sorted((TOP / "examples").glob("*.txt"))
    jobs.add("python", ["python3", "-c", "pass"])
    jobs.add("picture", [TOP / "bukshena", "picture", TOP / "examples/desargues.txt", "-o", folder / "desargues.svg"])
    jobs.add("judge", [TOP / "bukshena", "judge", *examples])
    lines = mixed(1_000_000)
    jobs.add("lines", [LINES], lines)
    jobs.add("lines none", [LINES])
    jobs.add("words", ["env", "LC_ALL=C", "wc", "-w"], lines)
    jobs.add("words none", ["env", "LC_ALL=C", "wc", "-w"])


def print_points(jobs, figure):
    points = POINTS[figure]
    base = jobs.each(f"{figure} changed 128", points)

    def point(name, job):
        cost = jobs.each(job, points)
        row(name, f"{cost:.1f} ns", f"{cost / base:.2f}")

    point(f"a point of {figure}, by the cursor of a search", f"{figure} grid")
    point(f"a point of {figure}, in the lane of 64 bits", f"{figure} lane")
    if figure == "S1":
        point("a point of S1 with its centre at 1000 1000 1000", "S1-far grid")
    point(f"a point of {figure}, outside of the lane", f"{figure} wide")
    checked = jobs.each(f"{figure} check", CERTIFICATES[figure][1])
    wide = jobs.each(f"{figure} wide", points)
    row(f"a point of {figure}, by the checker of its certificate, to one outside of the lane", f"{checked:.1f} ns", f"{checked / wide:.2f}")
    for variant in ("changed", "everything"):
        for bits in ("128", "64"):
            what = "what changed" if variant == "changed" else "everything"
            point(f"{figure} in C, {bits} bits, {what}", f"{figure} {variant} {bits}")


def print_noticed(jobs):
    coming = jobs.each("coming 1000", 1_000, "coming 0")
    row("the last of 64 elements, taken back and done again", f"{coming / 1e3:.0f} µs")
    row("12 free points, and 52 joins and meets", f"{jobs.each('grown 52', 1, 'grown 0') / 1e6:.2f} ms")
    search = jobs.each("S1 grid", POINTS["S1"]) * FIGURE_POINTS
    ledger = jobs.each("figures settled", 1, "figures drawn")
    row("the ledger of 103 conjectures, to the points of its grids", f"{ledger / 1e6:.2f} ms",
        f"{ledger / search:.2f}")
    again = jobs.each("figures kept", 1, "figures settled")
    row("the same ledger again", f"{again / 1e6:.2f} ms", f"{again / ledger:.2f}")


def print_package(jobs):
    """Words of the Python package, to a Python that does nothing."""
    none = jobs.least["python"]
    row("`python3 -c pass`", f"{none / 1e6:.2f} ms", "1.00")
    for job, what in (("picture", "`bukshena picture` of examples/desargues.txt"),
                      ("judge", "`bukshena judge` of all examples")):
        row(what, f"{jobs.least[job] / 1e6:.2f} ms", f"{jobs.least[job] / none:.2f}")


def print_all(jobs):
    model = [line.split(":")[1].strip() for line in open("/proc/cpuinfo") if "model name" in line]
    print(f"{datetime.date.today()}, {len(model)} processors {model[0]}, "
          f"{platform.system()} {platform.release()}, {ROUNDS} rounds\n")
    print("| | | ratio |\n|---|---|---|")
    for figure in POINTS:
        print_points(jobs, figure)
    one = jobs.each("search 1", SEARCHES, "search none")
    for workers in WORKERS:
        cost = jobs.each(f"search {workers}", SEARCHES, "search none")
        row(f"the whole grid of S2, by {workers} worker{'s' * (workers > 1)}", f"{cost / 1e6:.2f} ms",
            f"{one / cost:.2f}")
    row("posing three free points of 40 elements", f"{jobs.each('pose', POSED) / 1e3:.1f} µs")
    for name, what, lines in (("root", "a drag at the root of 64 elements", 1),
                              ("history", "a drag of a free point, or its undo", 2)):
        short = jobs.each(f"{name} 10000", 10_000 * lines, f"{name} none")
        long = jobs.each(f"{name} 100000", 100_000 * lines, f"{name} none")
        row(f"{what}, of 100,000 to one of 10,000", f"{long / 1e3:.2f} µs, {1e9 / long:,.0f} lines a second",
            f"{long / short:.2f}")
    print_noticed(jobs)
    empty = jobs.least["empty"]
    row("an empty script", f"{empty / 1e6:.2f} ms", "1.00")
    for file in sorted((TOP / "examples").glob("*.txt")):
        cost = jobs.least[file.name]
        row(f"examples/{file.name}", f"{cost / 1e6:.2f} ms", f"{cost / empty:.2f}")
    print_package(jobs)
    line, word = jobs.each("lines", 1_000_000), jobs.each("words", 1_000_000)
    row("a line read, to `wc -w`", f"{line:.0f} ns, {1e9 / line:,.0f} lines a second", f"{line / word:.2f}")


def main():
    with tempfile.TemporaryDirectory() as name:
        folder = pathlib.Path(name)
        build(folder)
        jobs = Jobs(folder)
        add_all(jobs, folder)
        jobs.run()
        print_all(jobs)


main()
