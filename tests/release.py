#!/usr/bin/env python3
"""Runs what .ci/run leaves out, one stage after another: release.py [STAGE ..]

Run it before a release, after `make build library page`. It builds none of these; a stage that does not find its program fails, with the command
that builds it. Where a stage's tool is not installed the stage is left out. STAGE is the front of a name (example, fuzz): only these run, and one
that is asked for by its whole name (page) fails where its tool is not installed.

Each stage has a line: done, failed or left out; its name; seconds; what was tried, or why not. The end of the output of a stage that failed is
below its line, and so is what a stage left out. All output is in build/release.log. The status is 1 where a stage failed, where one that ran tried
nothing, and where none is done; 2 where a name is of no stage. --help lists the stages, with their commands.

MINUTES      for each target of tests/fuzz, and for the campaign (10; 0 leaves them out). The inputs that broke a promise are in build/release-fuzz
             and build/campaign
MODULES      folders of more modules, for the stages that take some; examples/ is always there
PLANTED=1    runs tests/planted.sh too, which takes the prover for an hour or more
OMF, OMF_PLACE, OMF_LINK, OMF_DUMP, OMF_LIB, OMF_FIND, LIBRARY, LIBOMF, PAGE    name other files than crates/*/out and build/ have"""
import collections
import os
import pathlib
import re
import shlex
import shutil
import signal
import subprocess
import sys
import time

ROOT = pathlib.Path(__file__).resolve().parent.parent
LOG, BROKEN = ROOT / "build" / "release.log", ROOT / "build" / "release-fuzz"
PROGRAMS = {it.upper(): (f"crates/{it}/out/{it}", "make build") for it in ("omf", "omf_place", "omf_link", "omf_dump", "omf_lib", "omf_find")}
BUILT = PROGRAMS | {"LIBRARY": ("build/libomf.a", "make library"), "LIBOMF": ("build/libomf.so", "make library"), "PAGE": ("build/omf.html", "make page")}
FILES = {name: pathlib.Path(os.environ.get(name) or ROOT / path).absolute() for name, (path, _) in BUILT.items()}
MINUTES = float(os.environ.get("MINUTES") or 10)
FOLDERS = ["examples", *os.environ.get("MODULES", "").split()]
# What a script prints of a part that it left out.
PARTLY = re.compile(
    r"^(?:no .* here: .*|.* missing: passed over|there is no .*: .* passed over|not run: .*|skipped: .*|.*: not tried from growth .*"
    r"|OK \(skipped=.*|.*[1-9]\d* (?:cannot|not run)\b.*|.*(?<!\b0) left out\b.*)$",
    re.M,
)
# A stage: its command, the files and tools that it needs (of tools with a bar between, one), its limit in seconds, what a try looks like in its
# output (the number in it counts, less the second one), and variables.
Stage = collections.namedtuple("Stage", "name command files tools limit tried variables", defaults=({},))


def is_installed(tool):
    if tool == "python3-unicorn":
        return subprocess.run(["tests/executed.py", "--count", "0"], cwd=ROOT, capture_output=True, check=False).returncode == 0
    return any(shutil.which(it) for it in tool.split("|"))


def has_fuzzer():
    """Whether clang comes with libFuzzer."""
    words = [os.environ.get("CLANG", "clang"), "-fsanitize=fuzzer", "-x", "c", "-", "-o", "/dev/null"]
    source = b"int LLVMFuzzerTestOneInput(const unsigned char *bytes, unsigned long size) { return bytes && size && 0; }"
    try:
        return subprocess.run(words, input=source, capture_output=True, check=False).returncode == 0
    except OSError:
        return False


def conformance():
    call = {name: shlex.quote(str(FILES[name])) for name in PROGRAMS}
    right = r"^(\d+) right"
    run = ["conformance/run.py", "--seconds", "60"]
    yield Stage("conformance", [*run, f"omf={call['OMF']}", f"omf-link={call['OMF_LINK']}", f"omf-place={call['OMF_PLACE']}"], "OMF OMF_LINK OMF_PLACE", "", 1800, right)
    adapter = "conformance/adapters/program.py"
    makes = f"omf-lib make={adapter} {call['OMF_LIB']} make -o {{exe}} {{files}}"
    yield Stage("conformance libraries", [*run, "--cases", "conformance/libraries", f"omf-lib={call['OMF_LIB']}", makes], "OMF_LIB", "", 600, right)
    links, finds = f"omf-link={adapter} {call['OMF_LINK']} {{args}} -o {{exe}} {{files}}", f"omf-find={adapter} {call['OMF_FIND']} {{args}}"
    yield Stage("conformance programs", [*run, "--cases", "conformance/programs", links, finds], "OMF_LINK OMF_FIND", "", 600, right)
    sizes = ["conformance/run.py", "--seconds", "300", "--cases", "conformance/sizes", f"omf={call['OMF']}", f"omf-link={call['OMF_LINK']}"]
    yield Stage("conformance sizes", sizes, "OMF OMF_LINK", "", 1800, right)


def peers():
    script = "conformance/peers.py"
    for folder in FOLDERS:
        yield Stage(f"peers dump {folder}", [script, "dump", folder], "OMF OMF_DUMP", "", 1800, r"^(\d+) shown")
    yield Stage("peers lib", [script, "lib"], "OMF_LIB", "file|fpc", 1800, r"^(\d+) comparisons")
    yield Stage("peers rom", [script, "rom"], "OMF_LINK", "objcopy|srec_cat", 300, r"^(\d+) texts read")
    yield Stage("firmware texts", ["tests/firmware.sh"], "", "objcopy|srec_cat", 300, r"^\S+ reads ")


def package():
    name = f"omf-{(ROOT / 'VERSION').read_text().strip()}-x86_64-linux.tar.xz"
    released, built = ROOT / "dist" / name, ROOT / "build" / name
    yield Stage("package anew", ["dist/release.sh", "compare"], " ".join(BUILT), "rt objdump xz", 600, r"^(\d+) files of dist/")
    yield Stage("package used", ["tests/dist.sh", str(released if released.exists() else built)], "", "bwrap", 1800, r"^(\d+) tries")


def examples():
    ran = r"^it ran"
    yield Stage("example boot", ["examples/boot/run.sh"], "OMF", "qemu-system-i386", 300, ran)
    for name in ("link", "pair"):
        yield Stage(f"example {name}", [f"examples/{name}/run.sh"], "OMF_LINK", "qemu-system-i386", 300, ran, {"LINK": str(FILES["OMF_LINK"])})
    yield Stage("example firmware", ["examples/firmware/run.sh"], "OMF_LINK", "qemu-system-i386", 300, r"^\w+ boots: \S")
    for name in ("exe", "com", "order", "models"):
        yield Stage(f"example {name}", [f"examples/{name}/run.sh"], "OMF_LINK OMF_LIB", "dosbox", 300, ran)
    judge = 'out=$(mktemp -d) && trap "rm -rf $out" EXIT && examples/many/run.sh examples "$out"'
    yield Stage("example many", ["bash", "-c", judge], "OMF", "", 300, r"^(\d+) accepted, [1-9]\d* refused")


def fuzz():
    script, seconds = "tests/fuzz/run.sh", f"{60 * MINUTES:.0f}"
    for target in ("dump", "library", "exe", "com", "placement", "linktext", "find", "lower"):
        yield Stage(f"fuzz {target}", [script, seconds, target], " ".join(PROGRAMS), "", 120 * MINUTES + 600, r": (\d+) inputs", {"WORK": str(BROKEN)})
    yield Stage("fuzz sanitized", ["tests/sanitized.sh", seconds, *FOLDERS[1:]], "", "rt libFuzzer", 1800 * MINUTES + 7200, r"^(?:library|programs): (\d+) runs")
    for target in ("check", "canon", "reloc", "members", "link", "program", "shown"):
        units = r"number_of_executed_units: *(\d+)"
        yield Stage(f"fuzz {target}", [script, seconds, target], "LIBRARY", "rt libFuzzer", 180 * MINUTES + 3600, units, {"WORK": str(BROKEN)})


def stages():
    yield Stage("planted", ["tests/planted.sh"], "", "rt", 6 * 3600, r"refused, as it must be|(\d+) of its \d+ must-fail edits were tried")
    yield Stage("C library", ["tests/c/run.sh", *FOLDERS[1:]], "LIBRARY OMF OMF_DUMP", "gcc|clang", 3600, r"as the program, on (\d+) modules", {"LIBRARY": str(FILES["LIBRARY"])})
    yield Stage("Python package", ["python3", "-m", "unittest", "discover", "-s", "python/tests"], "LIBOMF", "", 600, r"^Ran (\d+) tests")
    yield Stage("page", ["tests/page.sh", *FOLDERS[1:]], "PAGE OMF OMF_DUMP OMF_PLACE OMF_LIB", "chromium|chromium-browser|google-chrome", 3600, r"^(\d+) tries")
    yield from package()
    yield from conformance()
    yield from peers()
    for folder in FOLDERS:
        yield Stage(f"modules {folder}", ["tests/modules.py", folder, "--", "--real"], "OMF OMF_PLACE", "", 1800, r"^(\d+) modules")
    yield Stage("growths", ["tests/devices/growths.sh"], "OMF OMF_PLACE OMF_LINK OMF_DUMP OMF_LIB", "cc", 3600, r"^(\d+) growths refused", {"LIMIT": "3000"})
    yield Stage("system calls", ["tests/devices/system_calls.py"], " ".join(PROGRAMS), "strace", 3600, r"(\d+) calls failed in turn")
    yield Stage("full disk", ["tests/devices/disk.py"], "OMF_LIB OMF_LINK", "", 1800, r"killed (?:at each of )?(\d+) ")
    yield Stage("outputs", ["tests/devices/outputs.py"], "OMF_LIB OMF_LINK", "", 600, r"(\d+) runs")
    yield Stage("results", ["tests/devices/results.py"], " ".join(PROGRAMS), "", 600, r"^(\d+) results refused")
    yield Stage("streams", ["tests/devices/streams.py"], "OMF OMF_LINK OMF_PLACE", "", 600, r"^(\d+) runs")
    yield Stage("mistakes", ["tests/mistakes.py"], "OMF_DUMP OMF_FIND OMF_LIB OMF_LINK OMF_PLACE", "", 600, r"^(\d+) mistakes told")
    yield Stage("searches", ["tests/searches.py"], "OMF_LINK", "", 600, r"^(\d+) searches")
    yield Stage("sandbox", ["tests/devices/sandbox.py"], " ".join(PROGRAMS), "bwrap", 600, r"^(\d+) runs in a sandbox")
    yield Stage("executed", ["tests/executed.py", "--count", "300", "--dosbox"], "OMF_LINK OMF_LIB", "nasm python3-unicorn", 1800, r"^(\d+) programs")
    yield Stage("names", ["tests/names.py"], "OMF_DUMP", "nasm", 600, r"^(\d+) lists")
    yield Stage("lowered", ["tests/lowered.py"], "OMF_LINK", "", 600, r"^(\d+) modules lowered")
    yield Stage("virtual", ["tests/virtual.py"], "OMF_LINK", "", 600, r"^(\d+) modules lowered")
    yield Stage("frames", ["tests/frames.py"], "OMF_LINK", "", 600, r"^(\d+) modules linked")
    yield Stage("taken", ["tests/taken.py"], "OMF_LINK", "", 600, r"^(\d+) files linked")
    yield Stage("chosen", ["tests/chosen.py"], "OMF_LINK", "", 600, r"^(\d+) links")
    yield Stage("rejoined", ["tests/rejoined.py"], "OMF_LINK", "", 600, r"^(\d+) joined files")
    yield Stage("keys", ["tests/keys.py"], "OMF OMF_LINK", "", 1800, r"^(\d+) links")
    yield Stage("flat", ["tests/flat.py"], "OMF_LINK", "gcc|clang qemu-system-i386", 1800, r"^(\d+) programs")
    yield Stage("find", ["tests/find.py"], "OMF_FIND OMF_LINK OMF_LIB", "", 600, r"^(\d+) runs")
    made = ["bench/find_programs.py", "--members", "500", "--code", "12000", "--own", "3000"]
    yield Stage("find programs", made, "OMF_FIND OMF_LINK OMF_LIB", "cc", 600, r"^(\d+) programs", {"RUNS": "1"})
    yield Stage("example find", ["examples/find/run.sh"], "OMF_FIND OMF_LINK OMF_LIB", "", 60, r"^each segment is where")
    yield from examples()
    pages = ["README.md", *sorted(str(it.relative_to(ROOT)) for it in (ROOT / "docs").glob("*.md"))]
    yield Stage("shown commands", ["tests/shown.sh", *pages], " ".join([*PROGRAMS, "LIBOMF"]), "", 1800, r"^(\d+) commands, \d+ failed, (\d+) left out")
    yield from fuzz()
    seeded = ["dump", "library", "exe", "com", "placement", "linktext", "find", "lower", "executed", "flat", "taken", "chosen", "keys", "frames", "virtual", "names", "found", "modules", "conformance"]
    yield Stage("campaign", ["tests/campaign.py", "--hours", f"{MINUTES / 60:.3f}", "--target", *seeded], " ".join(PROGRAMS), "", 120 * MINUTES + 3600, r"^(\d+) tries")


def why_not(stage):
    """Why a stage is left out, or None."""
    if stage.name == "planted" and os.environ.get("PLANTED") != "1":
        return "it takes the prover: PLANTED=1 runs it"
    if stage.name.startswith(("fuzz", "campaign")) and MINUTES == 0:
        return "MINUTES is 0"
    for tool in stage.tools.split():
        if not (has_fuzzer() if tool == "libFuzzer" else is_installed(tool)):
            return "clang has no libFuzzer" if tool == "libFuzzer" else f"{tool.replace('|', ' or ')} is not installed"
    return None


def end_session(leader):
    """Ends what a stage has left: the processes of its session, which also has those that made a group of their own."""
    for stat in pathlib.Path("/proc").glob("[0-9]*/stat"):
        try:
            if int(stat.read_text().rpartition(") ")[2].split()[3]) == leader:
                os.kill(int(stat.parent.name), signal.SIGKILL)
        except OSError:
            continue


def run(stage, log):
    """The status of a stage, None where it did not end in time, and its output. What it started ends with it."""
    variables = {name: str(path) for name, path in FILES.items() if name != "LIBRARY"} | stage.variables
    begun = log.tell()
    child = subprocess.Popen(stage.command, cwd=ROOT, env=os.environ | variables, stdin=subprocess.DEVNULL, stdout=log, stderr=subprocess.STDOUT, start_new_session=True)
    try:
        status = child.wait(stage.limit)
    except subprocess.TimeoutExpired:
        status = None
    finally:
        end_session(child.pid)
        child.wait()
    log.seek(begun)
    return status, log.read().decode(errors="replace")


def count(stage, output):
    """How much a stage tried."""
    found = [it.groups() for it in re.finditer(stage.tried, output, re.M)]
    return sum(int(first or 1) - sum(map(int, rest)) for first, *rest in ((*it, 1)[: max(1, len(it))] for it in found))


def outcome(stage, log, is_asked):
    """How a stage ended, in a word and a text, and the lines below. `is_asked`: by its whole name."""
    missing = [name for name in stage.files.split() if not FILES[name].exists()]
    left_out = why_not(stage)
    if left_out:
        return "failed" if is_asked else "left out", left_out, []
    if missing:
        return "failed", f"there is no {FILES[missing[0]]}: {BUILT[missing[0]][1]} builds it, or {missing[0]} names one", []
    status, output = run(stage, log)
    tried, partly = count(stage, output), list(dict.fromkeys(PARTLY.findall(output)))
    if status is None:
        return "failed", f"no end in {stage.limit:.0f} s", output.splitlines()[-8:]
    if status != 0:
        return "failed", f"status {status}", output.splitlines()[-8:]
    if tried == 0 and output.startswith("skipped: "):
        return "left out", output.splitlines()[0][9:], []
    return ("done", f"{tried} tries", partly) if tried else ("failed", "it tried nothing", output.splitlines()[-8:])


def main(asked):
    if {"-h", "--help"} & {*asked}:
        print(__doc__ + "\n\nThe stages:\n")
        print("\n".join(f"{it.name:22} {shlex.join(it.command)}" for it in stages()))
        return 0
    for name in asked:
        if not any(it.name.startswith(name) for it in stages()):
            print(f"there is no stage {name}: --help lists them", file=sys.stderr)
            return 2
    counts = collections.Counter()
    signal.signal(signal.SIGTERM, lambda number, frame: sys.exit(128 + number))
    LOG.parent.mkdir(exist_ok=True)
    shutil.rmtree(BROKEN, ignore_errors=True)
    with LOG.open("w+b") as log:
        for stage in stages():
            if asked and not any(stage.name.startswith(it) for it in asked):
                continue
            log.write(f"== {stage.name}: {shlex.join(stage.command)}\n".encode())
            log.flush()
            begun = time.monotonic()
            word, text, below = outcome(stage, log, stage.name in asked)
            counts[word] += 1
            lines = [f"{word:8}  {stage.name:22} {time.monotonic() - begun:6.0f} s  {text}", *(f"              {it}" for it in below)]
            print("\n".join(lines), flush=True)
            log.seek(0, os.SEEK_END)
            log.write((lines[0] + "\n").encode())
            log.flush()
        lines = [", ".join(f"{counts[it]} {it}" for it in ("done", "failed", "left out")), f"the output is in {LOG.relative_to(ROOT)}"]
        log.write((lines[0] + "\n").encode())
    print("\n".join(lines))
    return 1 if counts["failed"] or not counts["done"] else 0


if __name__ == "__main__":
    sys.exit(main(sys.argv[1:]))
