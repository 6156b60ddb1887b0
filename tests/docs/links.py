#!/usr/bin/env python3
"""Whether what the documents name exists: the target of each relative link with its heading, each file of this repository that is named in
code quotes or by its path, each crate, and each Rattle function that docs/RATTLE.md quotes. Status 1 where one is missing.

CHANGELOG.md, which names what was there at its time, is read for its links alone."""
import pathlib
import re
import sys

from tree import ROOT, needs

FOLDERS = "docs|examples|tests|bench|man|crates|include|\\.ci"
MADE = re.compile(r"(^|/)(out|build)/|libomf\.(a|so)|%s|\.\.$")
# Names of the C library and of programs that look like crates.
OTHERS = {"omf_answer", "omf_status", "omf_reach", "omf_kind", "omf_cause", "omf_reason"}


def slug(heading):
    """The anchor of a heading."""
    text = re.sub(r"[`*]", "", heading.strip().lower())
    return re.sub(r"[^\w\- ]", "", text).replace(" ", "-")


def anchors(path):
    return {slug(it) for it in re.findall(r"^#+ (.*)$", path.read_text(encoding="utf-8"), re.M)}


def missing_links(page, text):
    for shown in re.findall(r"\]\(([^)\s]+)\)", text):
        if re.match(r"[a-z]+:", shown):
            continue
        target, _, anchor = shown.partition("#")
        path = (page.parent / target).resolve() if target else page
        if not path.exists():
            yield f"link to {shown}"
        elif anchor and path.suffix == ".md" and slug(anchor) not in anchors(path):
            yield f"link to {shown}: no such heading"


def missing_files(text):
    for named in set(re.findall(rf"(?<![\w/.$-])((?:{FOLDERS})/[\w./*{{}},-]*[\w*/])", text)):
        if MADE.search(named) or "CRATE" in named or "NAME" in named:
            continue
        choices = re.search(r"\{([^}]*)\}", named)
        for it in [named.replace(choices[0], one) for one in choices[1].split(",")] if choices else [named]:
            it = re.sub(r"\*+", "*", it.rstrip("/."))
            if not (ROOT / it).exists() and not list(ROOT.glob(it)):
                yield f"file {it}"


def c_names():
    header = (ROOT / "include" / "omf.h").read_text(encoding="utf-8")
    return set(re.findall(r"\bomf_\w+", header)) | OTHERS


def missing_crates(text, own):
    for named in set(re.findall(r"\b(omf_[a-z_]+)\b", text)):
        if named not in own and named not in c_names() and f"{named}.rs" not in text:
            yield f"crate {named}"


def missing_code(text):
    """The functions of blocks ```rust that no source has so."""
    sources = [path.read_text(encoding="utf-8") for path in (ROOT / "crates").glob("*/src/*.rt")]
    for block in re.findall(r"^```rust\n(.*?)^```$", text, re.M | re.S):
        if re.search(r"^pub fn ", block, re.M) and not any(block.strip() in source for source in sources):
            yield "code that no source has: " + re.search(r"^pub fn (\w+)", block, re.M)[1]


def main():
    own, faults = set(needs()), []
    pages = [ROOT / "README.md", ROOT / "CONTRIBUTING.md", ROOT / "CHANGELOG.md", *sorted((ROOT / "docs").glob("*.md"))]
    for page in pages:
        text = page.read_text(encoding="utf-8")
        found = [*missing_links(page, text), *(missing_code(text) if page.name == "RATTLE.md" else [])]
        if page.name != "CHANGELOG.md":
            found += [*missing_files(text), *(missing_crates(text, own) if page.name != "CALLS.md" else [])]
        faults += [f"{page.relative_to(ROOT)}: {it}" for it in sorted(set(found))]
    for page in sorted((ROOT / "man").glob("*.1")):
        faults += [f"{page.relative_to(ROOT)}: {it}" for it in sorted(set(missing_files(page.read_text(encoding="utf-8"))))]
    if faults:
        sys.exit("\n".join(faults))


main()
