"""Runs the programs over the modules of a folder and prints a table, or two: measure.sh calls it."""
import os
import pathlib
import re
import shutil
import subprocess
import sys

LAUNCH = os.environ["LAUNCH"]
RUNS = int(os.environ["RUNS"])
OMF = os.environ["OMF"]
BEFORE = os.environ["OMF_BEFORE"]
PLAIN = os.environ["PLAIN"]
FAST = os.environ["FAST"]
INSTRUCTIONS = os.environ["INSTRUCTIONS"]
LIMIT_SECONDS = 120


def run(command, source):
    """Processor time in milliseconds and peak in megabytes: the least of the runs; None where it took too long or failed."""
    times, peaks = [], []
    for _ in range(RUNS):
        with open(source, "rb") as given:
            try:
                done = subprocess.run(
                    ["taskset", "-c", "0", LAUNCH, *command],
                    stdin=given,
                    stdout=subprocess.DEVNULL,
                    stderr=subprocess.PIPE,
                    timeout=LIMIT_SECONDS,
                )
            except subprocess.TimeoutExpired:
                return None
        if done.returncode != 0:
            return None
        time, peak = done.stderr.split()[-2:]
        times.append(float(time))
        peaks.append(int(peak) / 1024)
        if times[-1] > 10_000:
            break
    return min(times), min(peaks)


def ratio(found, sha):
    return "-" if found is None else f"{found[0] / sha:.2f}"


def peak(found):
    return "-" if found is None else f"{found[1]:.1f}"


def printed(command, source):
    with open(source, "rb") as given:
        return subprocess.run(command, stdin=given, stdout=subprocess.PIPE, check=False).stdout


def must_agree(program, module):
    """A program without a proof prints what `omf check` prints, or the measurement ends."""
    if program and printed([program], module) != printed([OMF, "check"], module):
        sys.exit(f"{module}: {program} prints something else than omf check")


def instructions(command, module):
    """How many instructions a program takes, counted by callgrind; None if that fails."""
    with open(module, "rb") as given:
        counted = ["valgrind", "--tool=callgrind", "--callgrind-out-file=/dev/null", *command]
        said = subprocess.run(counted, stdin=given, stdout=subprocess.DEVNULL, stderr=subprocess.PIPE, errors="replace", check=False).stderr
    found = re.search(r"Collected : (\d+)", said)
    return int(found[1]) if found else None


def instructions_row(module):
    """The row of the second table: millions of instructions of `check` and of the two programs beside it."""
    check, plain, fast = (instructions(command, module) if command[0] else None for command in ([OMF, "check"], [PLAIN], [FAST]))
    times = f"{check / plain:.2f}" if check and plain else "-"
    cells = ["-" if it is None else f"{it / 1e6:.1f}" for it in (check, plain, fast)]
    return f"| {module.stem} | {cells[0]} | {cells[1]} | {times} | {cells[2]} |"


def beside(job, module):
    """Other programs that do much the same as a job, where they are installed: they list a module, or write it anew."""
    known = {
        "list": [
            ("rabin2 -R", ["rabin2", "-R", str(module)]),
            ("objconv -dfhsr", ["objconv", "-dfhsr", str(module)]),
        ],
        "canon": [("objconv -fomf", ["objconv", "-fomf", str(module), "/dev/null"])],
    }
    return [(name, command) for name, command in known.get(job, []) if shutil.which(command[0])]


def row(omf, name, module, both, sha):
    """The row of a program for a module: its ratios to sha256sum, and its peaks."""
    found = {job: run([omf, job], both if job == "reloc" else module) for job in ("check", "list", "reloc", "canon")}
    plain, fast = (run([program], module) if program else None for program in (PLAIN, FAST))
    times = "-" if plain is None or found["check"] is None else f"{found['check'][0] / plain[0]:.2f}"
    cells = [ratio(found["check"], sha), ratio(plain, sha), times, ratio(fast, sha), *(ratio(found[job], sha) for job in ("list", "reloc", "canon"))]
    return f"| {name} | {module.stat().st_size:,} | {sha:.1f} | {' | '.join(cells)} | {peak(found['check'])} | {peak(found['reloc'])} |"


def main():
    folder = pathlib.Path(sys.argv[1])
    modules = sorted(folder.glob("*.omf"))
    print("| Module | Bytes | sha256sum, ms | check | plain Rust | check to plain | C, AVX2 | list | reloc | canon | peak of check, MB | of reloc |")
    print("|---|---|---|---|---|---|---|---|---|---|---|---|")
    for module in modules:
        must_agree(PLAIN, module)
        must_agree(FAST, module)
        both = module.with_suffix(".both")
        both.write_bytes(module.read_bytes() + module.with_suffix(".place").read_bytes())
        sha = run(["sha256sum"], module)[0]
        print(row(OMF, module.stem, module, both, sha), flush=True)
        if BEFORE:
            print(row(BEFORE, f"{module.stem}, before", module, both, sha), flush=True)
        for job in "list", "canon":
            for name, command in beside(job, module):
                print(f"{module.stem}: {name} {ratio(run(command, module), sha)}", file=sys.stderr)
    if INSTRUCTIONS:
        print("\n| Module | check, millions of instructions | plain Rust | check to plain | C, AVX2 |")
        print("|---|---|---|---|---|")
        for module in modules:
            print(instructions_row(module), flush=True)


main()
