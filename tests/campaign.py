#!/usr/bin/env python3
"""Runs every generator of tests/ in turn, each for a slice of time, and goes on where it stopped: campaign.py --hours N [--target NAME ..]

The programs are in crates/*/out; OMF, OMF_PLACE, OMF_LINK, OMF_DUMP, OMF_LIB and OMF_FIND name others. A target is left out where one of its
programs, or a tool that it needs, is not there. Each slice of a target has the next seeds after its last slice (of conformance/ the next cases). A
target without seeds (what is written out, not made) runs once for the same programs. The targets that coverage guides, with libFuzzer, run where the library for C was built.

A difference is a line with its target and seed, and with the smallest input that still differs where the target has inputs; its files are in
build/campaign/kept, all lines in build/campaign/differences. The last line has the tries. The status is 1 where something differed.

--hours N       by the clock, as 0.1
--target NAME   the front of a name: only these
--slice S       seconds of a slice at most (60); less where a short campaign would else not come to each target
--jobs N        slices at a time (1)
--seed N        the first seed of the targets that have not run yet (1)
--list          the targets, with the next seeds and the counts
--again         runs the slices that differed once more, and forgets those that no longer do
--write         writes the counts by program, date and commit into the table of tests/RESULTS.md
--state FOLDER  in place of build/campaign"""
import argparse
import collections
import datetime
import hashlib
import json
import pathlib
import re
import shlex
import shutil
import signal
import subprocess
import sys
import threading
import time

import release
from release import FILES, ROOT

PAGE, MARK, END = ROOT / "tests" / "RESULTS.md", "<!-- campaign.py -->", "<!-- end -->"
HEAD = "| Program | Built | Date | Commit | Tries | Of these | Differ |\n|---|---|---|---|---|---|---|\n"
# What a difference looks like in the output of a target.
DIFFERENCE = re.compile(r"^(?:seed \d+: .*|line \d+: .*|failed: .*|FAILED.*|.*: not so\b.*|.*: (?:ERROR|SUMMARY): .*)$", re.M)
SEEDS = re.compile(r"^seeds \d+ to (\d+)$", re.M)
# The programs of each target of tests/fuzz/programs.py.
CHANGED = {"dump": "OMF_DUMP OMF", "library": "OMF_LIB OMF", "exe": "OMF_LINK OMF", "com": "OMF_LINK OMF", "placement": "OMF_PLACE OMF", "linktext": "OMF_LINK OMF", "find": "OMF_FIND OMF_LINK", "lower": "OMF_LINK OMF"}
GUIDED = ("check", "canon", "reloc", "members", "link", "program", "shown")
# A target: its programs, its tools (as in release.py), its command, in which a slice puts its own SEED and SECONDS, what a try looks like, whether it
# has no seeds, and the variables of its environment.
Target = collections.namedtuple("Target", "name programs tools command tried is_fixed variables", defaults=(False, {}))


def targets(folder):
    kept = str(folder / "kept")
    for name, programs in CHANGED.items():
        yield Target(name, programs, "", ["tests/fuzz/programs.py", "SECONDS", name, "--number", "SEED", "--keep", kept], r"^\w+: (\d+) inputs")
    timed = ["--first", "SEED", "--seconds", "SECONDS"]
    seeded = [*timed, "--keep", kept]
    yield Target("executed", "OMF_LINK OMF_LIB", "nasm python3-unicorn", ["tests/executed.py", *seeded, "--dosbox"], r"^(\d+) programs")
    yield Target("names", "OMF_DUMP", "", ["tests/names.py", *seeded], r"^(\d+) lists")
    yield Target("found", "OMF_FIND OMF_LINK", "nasm", ["tests/find.py", *seeded], r"^(\d+) runs")
    yield Target("flat", "OMF_LINK", "gcc|clang objcopy qemu-system-i386", ["tests/flat.py", *seeded], r"^(\d+) programs")
    yield Target("lowered", "OMF_LINK", "", ["tests/lowered.py", *timed], r"^(\d+) modules lowered")
    yield Target("lowered repeats", "OMF_LINK", "", ["tests/lowered.py", *timed, "--repeats"], r"^(\d+) modules lowered")
    yield Target("taken", "OMF_LINK", "", ["tests/taken.py", *timed], r"^(\d+) files linked")
    yield Target("frames", "OMF_LINK", "", ["tests/frames.py", *timed], r"^(\d+) modules linked")
    yield Target("virtual", "OMF_LINK", "", ["tests/virtual.py", *timed], r"^(\d+) modules lowered")
    yield Target("chosen", "OMF_LINK", "", ["tests/chosen.py", *timed], r"^(\d+) links")
    yield Target("keys", "OMF OMF_LINK", "", ["tests/keys.py", *timed], r"^(\d+) links")
    yield Target("modules", "OMF OMF_PLACE", "", ["tests/modules.py", "--made", "SEED", "SECONDS", kept, "--", "--real"], r"^(\d+) modules")
    for one in GUIDED:
        variables = {"WORK": str(folder / "guided"), "SEED": "SEED"}
        yield Target(f"guided {one}", "LIBRARY", "rt libFuzzer", ["tests/fuzz/run.sh", "SECONDS", one], r"number_of_executed_units: *(\d+)", False, variables)
    for stage in release.stages():
        if stage.name.startswith("conformance"):
            yield Target(stage.name, stage.files, stage.tools, [*stage.command, "--first", "SEED", "--slice", "SECONDS"], stage.tried)
        elif stage.name in ("names", "find", "example find") or stage.name.startswith(("peers ", "modules ")):
            yield Target(f"written {stage.name}", stage.files, stage.tools, stage.command, stage.tried, True)


def git(*words):
    return subprocess.run(["git", "-C", str(ROOT), *words], capture_output=True, text=True, check=False).stdout.strip()


def commit():
    """The commit of the sources, with a plus where they are changed."""
    changed = git("status", "--porcelain", "--untracked-files=no")
    return (git("rev-parse", "--short=8", "HEAD") or "none") + ("+" if changed else "")


def how_built(path):
    place = str(path)
    return "unproved" if "/unproved/" in place else "proved" if place.startswith(f"{ROOT}/crates/") else "named"


class State:
    """What a campaign keeps: the next seeds, the counts and the differences."""

    def __init__(self, folder):
        self.path = folder / "state.json"
        self.seeds, self.fixed, self.last, self.counts, self.open = {}, {}, "", [], []
        if self.path.exists():
            vars(self).update(json.loads(self.path.read_text()))

    def save(self):
        kept = {name: it for name, it in vars(self).items() if name != "path"}
        self.path.parent.mkdir(parents=True, exist_ok=True)
        new = self.path.with_suffix(".new")
        new.write_text(json.dumps(kept, indent=1))
        new.replace(self.path)

    def count(self, target, built, tries, differences):
        """Adds to the counts of a target on this day, of these sources."""
        key = {"target": target.name, "date": datetime.date.today().isoformat(), "commit": commit(), "built": built}
        row = next((it for it in self.counts if it.items() >= key.items()), None)
        if row is None:
            row = {**key, "tries": 0, "differences": 0}
            self.counts.append(row)
        row["tries"] += tries
        row["differences"] += differences


def why_not(target):
    """Why a target is left out, or None."""
    missing = [name for name in target.programs.split() if not FILES[name].exists()]
    if missing:
        return f"there is no {FILES[missing[0]]}"
    for tool in target.tools.split():
        if not (release.has_fuzzer() if tool == "libFuzzer" else release.is_installed(tool)):
            return f"{tool} is not installed"
    return None


class Slice:
    """One run of a target: its seed, its seconds, what it printed."""

    running = set()

    def __init__(self, target, seed, seconds):
        self.target, self.seed, self.seconds = target, seed, max(round(seconds), 1)
        words = {"SEED": str(seed), "SECONDS": str(self.seconds)}
        self.command = [words.get(it, it) for it in target.command]
        self.variables = {name: str(path) for name, path in FILES.items() if name != "LIBRARY"} | {key: words.get(it, it) for key, it in target.variables.items()}

    def run(self, log):
        """Runs it, and takes its output. What it started ends with it."""
        limit = 1800 if self.target.is_fixed else 3 * self.seconds + 900
        with log.open("w+b") as output:
            child = subprocess.Popen(self.command, cwd=ROOT, env={**release.os.environ, **self.variables}, stdin=subprocess.DEVNULL, stdout=output, stderr=subprocess.STDOUT, start_new_session=True)
            Slice.running.add(child.pid)
            try:
                self.status = child.wait(limit)
            except subprocess.TimeoutExpired:
                self.status = None
            finally:
                release.end_session(child.pid)
                child.wait()
                Slice.running.discard(child.pid)
            output.seek(0)
            self.output = output.read().decode(errors="replace")

    def tries(self):
        return sum(int(it.group(1) or 1) if it.re.groups else 1 for it in re.finditer(self.target.tried, self.output, re.M))

    def next_seed(self):
        """The seed after those that it had."""
        ended = SEEDS.search(self.output)
        return max(int(ended[1]), self.seed) + 1 if ended else self.seed + 1

    def differences(self):
        """A line of each difference, or of why the target failed, with its seed; where the target does not give one, the seed of the slice."""
        found = [] if self.status == 0 else self.lines()
        return [it if self.target.is_fixed or re.search(r"\bseed \d", it) else f"seed {self.seed}: {it}" for it in found]

    def lines(self):
        """The lines of the output that are of a difference, or one of why there are none."""
        if self.status is None:
            return [f"no end: {shlex.join(self.command)}"]
        found = DIFFERENCE.findall(self.output)
        return [it for it in found if it.startswith("seed ")] or found or [f"status {self.status}: {shlex.join(self.command)}: {' / '.join(self.output.splitlines()[-3:])}"]


class Campaign:
    """Slices of targets in turn, until a time."""

    def __init__(self, folder, state, asked):
        self.folder, self.state, self.lock, self.differ, self.tries = folder, state, threading.Lock(), 0, 0
        self.asked, self.end = asked, time.monotonic() + 3600 * asked.hours
        self.queue, self.slice = collections.deque(), asked.slice

    def fill(self, chosen):
        """The targets that can run, those after the last one first."""
        names = [it.name for it in chosen]
        begin = names.index(self.state.last) + 1 if self.state.last in names else 0
        for target in [*chosen[begin:], *chosen[:begin]]:
            why = why_not(target)
            if why:
                print(f"left out: {target.name}: {why}", flush=True)
            elif not target.is_fixed or self.state.fixed.get(target.name) != self.key(target):
                self.queue.append(target)
        self.slice = min(self.asked.slice, 3600 * self.asked.hours * self.asked.jobs / max(len(self.queue), 1))

    def key(self, target):
        """What the programs of a target are, by their bytes."""
        return " ".join(hashlib.sha256(FILES[it].read_bytes()).hexdigest()[:16] for it in target.programs.split())

    def take(self):
        with self.lock:
            return self.queue.popleft() if self.queue and time.monotonic() < self.end else None

    def work(self):
        while target := self.take():
            seed = self.state.seeds.get(target.name, self.asked.seed)
            self.look(Slice(target, seed, min(self.slice, self.end - time.monotonic())))
            with self.lock:
                self.queue.extend([] if target.is_fixed else [target])

    def look(self, one):
        """Runs a slice, prints a line of it and of each difference, and keeps the state."""
        target = one.target
        if target.name.startswith("guided "):
            self.renew_guided()
        one.run(self.folder / f"{target.name.replace(' ', '-').replace('/', '-')}.log")
        found, tries = one.differences(), one.tries()
        with self.lock:
            self.differ, self.tries = self.differ + len(found), self.tries + tries
            print(f"{target.name:22} seed {one.seed:<8} {tries:8} tries, {len(found)} differ", *(f"  {it[:600]}" for it in found), sep="\n" if found else "", flush=True)
            self.keep(one, found, tries)

    def keep(self, one, found, tries):
        state, name = self.state, one.target.name
        built = {it: how_built(FILES[it]) for it in one.target.programs.split()}
        state.count(one.target, built, tries, len(found))
        state.seeds[name], state.last = max(one.next_seed(), state.seeds.get(name, 0)), name
        if one.target.is_fixed and not found:
            state.fixed[name] = self.key(one.target)
        known = [(it["target"], it["seed"]) for it in state.open]
        if found and (name, one.seed) not in known:
            state.open.append({"target": name, "seed": one.seed, "seconds": one.seconds, "commit": commit(), "lines": found})
        state.save()
        with (self.folder / "differences").open("a", encoding="utf-8") as it:
            it.write("".join(f"{datetime.date.today()} {commit()} {name}: {line}\n" for line in found))

    def renew_guided(self):
        """Code that was built of other sources goes; the inputs that reach something stay."""
        made, here = self.folder / "guided" / "commit", commit()
        if made.exists() and made.read_text() == here:
            return
        for path in [*made.parent.glob("*.bc"), *made.parent.glob("*.ll")]:
            path.unlink()
        made.parent.mkdir(parents=True, exist_ok=True)
        made.write_text(here)

    def run(self):
        workers = [threading.Thread(target=self.work, daemon=True) for _ in range(self.asked.jobs)]
        try:
            for it in workers:
                it.start()
            for it in workers:
                it.join()
        finally:
            for leader in [*Slice.running]:
                release.end_session(leader)


def again(campaign, chosen):
    """Runs the slices that differed, and forgets those that no longer do."""
    by_name, left = {it.name: it for it in chosen}, []
    for old in [*campaign.state.open]:
        one = by_name.get(old["target"])
        if one is None or why_not(one):
            left.append(old)
            continue
        ran = Slice(one, old["seed"], 2 * old["seconds"])
        campaign.look(ran)
        left += [old] if ran.differences() else []
    campaign.state.open = left
    campaign.state.save()


def rows_of(state):
    """The rows of the table by program, how it was built, date and commit."""
    found = collections.defaultdict(lambda: collections.defaultdict(lambda: [0, 0]))
    for count in state.counts:
        for program, built in count["built"].items():
            word = "libomf" if program == "LIBRARY" else program.lower().replace("_", "-")
            sums = found[word, built, count["date"], count["commit"]][count["target"].split(" ")[0]]
            sums[0], sums[1] = sums[0] + count["tries"], sums[1] + count["differences"]
    for key, parts in found.items():
        tries, differ = (sum(it[at] for it in parts.values()) for at in (0, 1))
        of_these = ", ".join(f"{name} {it[0]:,}" for name, it in sorted(parts.items()))
        yield key, f"| {' | '.join(key)} | {tries:,} | {of_these} | {differ} |"


def write(state):
    """Writes the table; rows of other days and commits stay."""
    text = PAGE.read_text(encoding="utf-8")
    front, mark, rest = text.partition(MARK)
    if not mark:
        sys.exit(f"{PAGE} has no {MARK}")
    old, _, rest = rest.partition(END)
    rows = {tuple(it.strip() for it in line.split("|")[1:5]): line for line in old.splitlines() if line.startswith("| ") and not line.startswith("| Program")}
    rows.update(rows_of(state))
    PAGE.write_text(f"{front}{MARK}\n\n{HEAD}" + "".join(f"{rows[it]}\n" for it in sorted(rows, key=lambda it: (it[2], it[3], it[0], it[1]))) + f"\n{END}{rest}", encoding="utf-8")


def show(state, chosen):
    for target in chosen:
        tries, differ = (sum(it[key] for it in state.counts if it["target"] == target.name) for key in ("tries", "differences"))
        print(f"{target.name:22} next seed {state.seeds.get(target.name, 1):<8} {tries:10} tries, {differ} differ; {why_not(target) or shlex.join(target.command)}")
    for one in state.open:
        print(f"open: {one['target']} seed {one['seed']}, {one['commit']}: {one['lines'][0][:300]}")


def main():
    parser = argparse.ArgumentParser(usage=__doc__)
    for name, kind, default in (("hours", float, 0), ("slice", float, 60), ("jobs", int, 1), ("seed", int, 1), ("state", pathlib.Path, ROOT / "build" / "campaign")):
        parser.add_argument(f"--{name}", type=kind, default=default)
    parser.add_argument("--target", nargs="*", default=[])
    for name in ("list", "again", "write"):
        parser.add_argument(f"--{name}", action="store_true")
    asked = parser.parse_args()
    folder = asked.state.absolute()
    folder.mkdir(parents=True, exist_ok=True)
    state, every = State(folder), [*targets(folder)]
    chosen = [it for it in every if not asked.target or any(it.name.startswith(word) for word in asked.target)]
    if not chosen or not (asked.hours or asked.list or asked.again or asked.write):
        parser.error(f"--hours, --again, --list or --write is needed; the targets are {', '.join(it.name for it in every)}")
    signal.signal(signal.SIGTERM, lambda number, frame: sys.exit(128 + number))
    campaign = Campaign(folder, state, asked)
    if asked.again:
        again(campaign, chosen)
    if asked.hours:
        campaign.fill(chosen)
        campaign.run()
    if asked.list:
        show(state, chosen)
    if asked.write:
        write(state)
    if asked.hours or asked.again:
        print(f"{campaign.tries} tries, {campaign.differ} differ, {len(state.open)} open")
    return 1 if campaign.differ else 0


if __name__ == "__main__":
    sys.exit(main())
