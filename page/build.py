#!/usr/bin/env python3
"""Joins the parts of the page into one file: build.py FOLDER-OF-WASM PAGE.html proved|unproved

The reasons are those of docs/REASONS.md, the faults of a library those of docs/LIBRARIES.md, the examples those of examples/. The page's policy
(Content-Security-Policy) names its style and its script by their SHA-256, and allows nothing from outside.
"""
import base64
import gzip
import hashlib
import json
import pathlib
import re
import sys

HERE = pathlib.Path(__file__).resolve().parent
ROOT = HERE.parent
sys.path.insert(0, str(ROOT / "dist"))
import sources  # noqa: E402

PROGRAMS = ("omf", "omf_dump", "omf_place", "omf_lib")
SCRIPTS = ("bytes", "lists", "choices", "engine", "look", "fields", "words", "tree", "search", "hex", "picture", "images", "placing", "compare", "takeout",
           "libraries", "files", "main")
LABELS = (("means", r"\*\*Means\.\*\*"), ("cause", r"\*\*Usual cause\.\*\*"), ("todo", r"\*\*What to do\.\*\*"))
MODULES = (
    "first.omf", "first-long.omf", "boot/boot.omf", "firmware/rom.omf", "link/start.obj", "link/say.obj", "link/mark.obj", "pair/caller.obj",
    "pair/callee.obj",
)
LIBRARIES = ("library/small.lib",)
NOT_REACHED = (("first.omf", "target"), ("reasons/location.omf", "location"), ("reasons/distance.omf", "distance"), ("reasons/absolute.omf", "absolute"),
               ("first.omf", "line"), ("first.omf", "missing"), ("first.omf", "extra"))
POLICY = ("default-src 'none'; script-src {script} 'wasm-unsafe-eval'; worker-src blob:; style-src {style}; img-src data:; form-action 'none'; "
          "base-uri 'none'")


def plain(text):
    """A paragraph without links."""
    return re.sub(r"\[([^]]*)\]\([^)]*\)", r"\1", " ".join(text.split()))


def reasons():
    """By number, or by the name of a line of a placement: what it means, the usual cause, what to do."""
    text = (ROOT / "docs/REASONS.md").read_text()
    found, is_reach = {}, False
    for section in re.split(r"^(?=##)", text, flags=re.M):
        head = section.split("\n", 1)[0].lstrip("# ")
        is_reach = is_reach or head == "A placement that does not reach"
        parts = {}
        for paragraph in section.split("\n\n"):
            for key, label in LABELS:
                if re.match(label, paragraph):
                    parts[key] = plain(re.sub(label, "", paragraph))
        same = re.search(r"^\*\*Usual cause\*\* and \*\*what to do\*\*: (as with (\w+).*)", section, re.M)
        if same:
            other = next(it for it in found.values() if it["name"] == same[2])
            parts["cause"], parts["todo"] = (f"{same[1][0].upper()}{same[1][1:]} {other[key]}" for key in ("cause", "todo"))
        if not parts:
            continue
        numbered = re.fullmatch(r"(\d+) (\w+)", head)
        key = head if not numbered else numbered[2] if is_reach else numbered[1]
        found[key] = {"name": numbered[2] if numbered else head, **parts}
    missing = [str(n) for n in range(1, 34) if not found.get(str(n), {}).get("todo")]
    assert not missing, f"docs/REASONS.md has no advice for {missing}"
    return found


def faults():
    """The faults and notes of `omf-lib check`, by number: what it means, and the usual cause or what to do."""
    text = (ROOT / "docs/LIBRARIES.md").read_text()
    found, todo = {}, ""
    for number, name, means, cause in re.findall(r"^\| (\d+) \| (\w+) \| (.*?) \| (.*?) \|$", text, re.M):
        todo = todo if cause == "the same" else plain(cause)
        found[number] = {"name": name, "means": plain(means), "todo": todo}
    missing = [n for n in range(1, 23) if str(n) not in found and n != 20]   # 20 is no fault any more
    assert not missing, f"docs/LIBRARIES.md has no row for {missing}"
    return found


def example(group, path, placement=None, name=None):
    made = {"group": group, "name": name or path, "bytes": base64.b64encode((ROOT / "examples" / path).read_bytes()).decode()}
    if placement:
        made["placement"] = (ROOT / "examples" / placement).read_text()
    return made


def examples():
    all_of_them = []
    for path in MODULES:
        placement = path.rsplit(".", 1)[0] + ".place"
        all_of_them.append(example("Modules", path, placement if (ROOT / "examples" / placement).exists() else None))
    all_of_them += [example("Libraries", path) for path in LIBRARIES]
    for file in sorted((ROOT / "examples/reasons").glob("[0-9]*.omf")):
        all_of_them.append(example("Refused, by reason", f"reasons/{file.name}", name=file.stem))
    for path, word in NOT_REACHED:
        all_of_them.append(example("A placement that does not reach", path, f"reasons/{word}.place", f"{path} at {word}.place"))
    return all_of_them


def embedded(value):
    """JSON that may stand in a script element."""
    return json.dumps(value, separators=(",", ":")).replace("<", "\\u003c")


def made_of(is_proved):
    """The page's last line: the sources that it was made of, and whether the programs are proved."""
    how = "The programs were proved before." if is_proved else "The programs were built without proofs, with run-time checks in their place."
    return f"Version {(ROOT / 'VERSION').read_text().strip()}, made of the sources {sources.digest()}. {how}"


def digest(text):
    return f"'sha256-{base64.b64encode(hashlib.sha256(text.encode()).digest()).decode()}'"


def source(name):
    return (HERE / name).read_text().rstrip("\n")


def main(folder, page, how):
    wasm = {name: (pathlib.Path(folder) / f"{name}.wasm").read_bytes() for name in PROGRAMS}
    packed = {name: base64.b64encode(gzip.compress(code, 9, mtime=0)).decode() for name, code in wasm.items()}
    size = f"{sum(map(len, wasm.values())):,} bytes"
    script, style = "\n".join(source(f"{name}.js") for name in SCRIPTS), source("page.css")
    values = {"WASM": embedded(packed), "REASONS": embedded(reasons()), "FAULTS": embedded(faults()), "EXAMPLES": embedded(examples()), "SIZE": size,
              "MADE": made_of(how == "proved"), "SCRIPT": script, "POLICY": POLICY.format(script=digest(script), style=digest(style))}
    text = re.sub(r"@@([\w.]+)@@", lambda found: values.get(found[1]) or source(found[1]), (HERE / "page.html").read_text())
    pathlib.Path(page).write_text(text)
    print(f"{page}: {len(text):,} bytes; programs of {size}")


main(*sys.argv[1:])
