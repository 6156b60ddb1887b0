#!/usr/bin/env python3
"""Makes the tables of docs/INDEX.md from the sources.

house.py --write   writes each table between its two marks in the page: `<!-- house.py: NAME -->` and `<!-- end -->`
house.py --check   compares them: status 1 where one differs
house.py NAME      prints one: layers, files, lines, cited, laws, inner or costs

layers  the crates by the length of the chain below each
files   the files of specs/ that a reader has to believe, each with its first comment
lines   the lines of each crate. Empty lines, comments and imports are not counted. Believed are the definitions of specs/ without the
        worked examples (Rows.antt, Modules.antt), which count as tests; inner are those of specs/Inner/, which nobody has to believe;
        proofs are proofs/; code is src/ with its contracts; tests are the test functions and the records that they use
cited   how many lines of definitions contracts cite, followed to the end (believed.py)
laws    the laws of computed definitions. A file of specs/ may import a definition of an Inner only below a line that names the law which
        ties it to what is believed: `-- computed: LAW.` Where one does not, this ends with status 1
inner   the inner definitions in contracts of public calls
costs   the gate's cost by crate: functions, edits and the crates above are counted; the seconds are kept as the page has them, or
        taken from a file of lines `CRATE PROOF EDITS` (--times FILE with --write). Status 1 where they come to more than docs/GATE.md allows
"""
import re
import sys

import believed
from tree import CRATES, ROOT, code_files, crates, exported, first_sentence, is_for_tests, needs, spec_files, words_of

# Files of specs/ that import a computed definition without naming its law.
UNTIED = []
# Names of Inner files that compute nothing of a module: f of the value of a Result.
GENERIC = ("map_ok",)
KINDS = ["believed", "inner", "proofs", "code", "tests"]
TABLES = ("layers", "files", "lines", "cited", "laws", "inner", "costs")
PAGE = ROOT / "docs" / "INDEX.md"


def lines_of(path):
    """How many lines of a file are neither empty nor a comment nor an import."""
    count, inside = 0, False
    for line in path.read_text(encoding="utf-8").splitlines():
        text = line.strip()
        if inside:
            inside = not text.endswith((";", "}"))
        elif re.match(r"(ghost |pub )?use ", text):
            inside = path.suffix == ".rt" and not text.endswith(";")
        elif text and not text.startswith(("//", "--", "#![")):
            count += 1
    return count


def sources(crate):
    """The source files of a crate, without what a build leaves."""
    for path in sorted((CRATES / crate).rglob("*")):
        inside = path.relative_to(CRATES / crate).parts
        if path.suffix in (".rt", ".antt") and inside[0] in ("src", "specs", "proofs"):
            yield path, inside


def kind_of(crate, path, inside):
    if is_for_tests(crate) or path.stem in ("tests", "rows", "edges", "samples", "Rows", "Modules") or "tests" in inside:
        return "tests"
    if inside[:2] == ("specs", "Inner"):
        return "inner"
    return {"specs": "believed", "proofs": "proofs", "src": "code"}[inside[0]]


def lines():
    rows, sums = [], dict.fromkeys(KINDS, 0)
    for crate in crates():
        counts = dict.fromkeys(KINDS, 0)
        for path, inside in sources(crate):
            counts[kind_of(crate, path, inside)] += lines_of(path)
        rows.append((f"`{crate}`", counts))
        sums = {it: sums[it] + counts[it] for it in KINDS}
    table = ["| Crate | " + " | ".join(KINDS) + " |", "|---|" + "---|" * len(KINDS)]
    for name, counts in [*rows, ("all", sums)]:
        table.append(f"| {name} | " + " | ".join(f"{counts[it]:,}" for it in KINDS) + " |")
    return table


def below():
    """For each crate all crates of this repository that it needs, directly or not."""
    own = set(crates())
    direct = {name: [it for it in found if it in own] for name, found in needs().items() if name in own}

    def reach(name, seen):
        for it in direct.get(name, []):
            if it not in seen:
                seen.add(it)
                reach(it, seen)
        return seen

    return {name: reach(name, set()) for name in direct}


def layers():
    """Each crate with what it needs directly, without what that needs itself."""
    under = below()
    depth = {}
    for name in sorted(under, key=lambda it: len(under[it])):
        depth[name] = 1 + max((depth[it] for it in under[name]), default=0)
    table = ["| Layer | Crate | Built directly on |", "|---|---|---|"]
    for name in sorted(under, key=lambda it: (depth[it], is_for_tests(it), it)):
        nearest = [it for it in under[name] if not any(it in under[other] for other in under[name])]
        table.append(f"| {depth[name]} | `{name}` | {', '.join(f'`{it}`' for it in sorted(nearest)) or 'the kit'} |")
    return table


def files():
    """Each file of specs/ with the first sentence of its head, but for Inner, laws and worked examples."""
    table = ["| Crate | File of specs/ | What it defines |", "|---|---|---|"]
    for crate in crates():
        for module, path in spec_files(crate):
            head = []
            for line in path.read_text(encoding="utf-8").splitlines():
                if not line.startswith("--"):
                    break
                head.append(line[2:].strip())
            if head and "Inner" not in path.parts and path.stem not in ("Rows", "Modules") and not is_for_tests(crate):
                table.append(f"| `{crate}` | {module.replace('.', '/')} | {first_sentence(head)} |")
    return table


def joined(texts):
    """Names of laws, each text as `A, B and C of CRATE; D of CRATE`, in one such text with each law once."""
    by_crate = {}
    for part in "; ".join(sorted(texts)).split("; "):
        names, crate = part.rsplit(" of ", 1)
        found = by_crate.setdefault(crate, [])
        found += [it for it in re.split(r", | and ", names) if it not in found]
    return "; ".join(f"{' and '.join(filter(None, [', '.join(names[:-1]), names[-1]]))} of {crate}" for crate, names in by_crate.items())


def laws():
    tied, untied = {}, []
    for crate in crates():
        for module, path in spec_files(crate):
            if "Inner" in path.parts:
                continue
            law = None
            for line in path.read_text(encoding="utf-8").splitlines():
                named = re.match(r"-- computed(?:, [^:]*)?: (.*)\.$", line)
                used = re.match(r"use Rattle\.(omf_\w+)\.specs\.Inner\.([\w.]+)\.\{(.*)\}", line)
                if named:
                    law = named[1]
                elif used and used[3] not in GENERIC:
                    user = f"`{crate}` {module.replace('.', '/')}"
                    if law is None and path.stem not in ("Rows", "Modules"):
                        untied.append(user)
                    for word in used[3].split(", ") if law else []:
                        tied.setdefault((used[1], used[2], word), []).append((law, user))
                else:
                    law = None
    table = ["| Definition | Of | By the law | Used in |", "|---|---|---|---|"]
    for (crate, module, word), found in sorted(tied.items()):
        by = joined({law for law, _ in found})
        table.append(f"| `{word}` | `{crate}` {module} | {by} | {', '.join(sorted({user for _, user in found}))} |")
    UNTIED.extend(untied)
    return table


def contracts(path):
    """Each public function of a file: its type, if it is a method, its name, and its clauses."""
    owner, name, clauses = None, None, []
    for line in path.read_text(encoding="utf-8").splitlines():
        begins = re.match(r"impl(?:<[^>]*>)? (?:[^{]* for )?(\w+)", line)
        function = re.match(r" *pub (?:extern \"C\" )?fn (\w+)", line)
        if begins or line == "}":
            owner = begins[1] if begins else None
        if function:
            name, clauses = function[1], []
        elif name and re.match(r" *(ensures|requires)\b", line):
            clauses.append(line)
        if name and line.rstrip().endswith("{"):
            yield owner, name, " ".join(clauses)
            name = None


def inner():
    found = {}
    for crate in crates():
        if is_for_tests(crate):
            continue
        public, modules = exported(crate)
        for path in code_files(crate):
            words = words_of(path.read_text(encoding="utf-8"))
            words = {called: (of, module.removeprefix("Inner.")) for called, (of, module, _) in words.items() if module.startswith("Inner.")}
            for owner, name, clauses in contracts(path):
                if (owner or name) in public or path.stem in modules:
                    for word in words.keys() & set(re.findall(r"\w+", clauses)):
                        call = f"`{owner}::{name}`" if owner else f"`{name}`"
                        found.setdefault((*words[word], word), set()).add(call + f" of {crate}")
    table = ["| Definition | Of | In the contracts of |", "|---|---|---|"]
    for (crate, module, word), users in sorted(found.items()):
        table.append(f"| `{word}` | `{crate}` {module} | {', '.join(sorted(users))} |")
    return table


def functions(crate):
    """How many functions with a body a crate's src/ has, tests and worked examples among them."""
    return sum(len(re.findall(r"^ *(?:pub(?:\([a-z]+\))? )?(?:extern \"C\" )?fn \w+", path.read_text(encoding="utf-8"), re.M))
               for path in code_files(crate))


def marked(name):
    """The place of a table in the page: its two marks and what is between them."""
    return re.compile(rf"(<!-- house\.py: {name} -->\n).*?(\n<!-- end -->)", re.S)


def seconds(given):
    """Seconds of proof and of edits by crate: those that the page has, and over them those of a file."""
    kept = marked("costs").search(PAGE.read_text(encoding="utf-8"))
    rows = re.findall(r"^\| `(omf\w*)` \| [^|]* \| [^|]* \| ([^|]*) \| ([^|]*) \|", kept[0] if kept else "", re.M)
    found = {name: (proof, edits) for name, proof, edits in rows}
    for line in given.read_text(encoding="utf-8").splitlines() if given else []:
        parts = line.split()
        if len(parts) >= 2 and not line.startswith("#"):
            found[parts[0]] = (parts[1], parts[2] if len(parts) > 2 else "-")
    return found


def summed(values):
    return f"{sum(int(it.replace(',', '')) for it in values if it.replace(',', '').isdigit()):,}" if "NN" not in values else "NN"


def costs(given=None):
    under, kept = below(), seconds(given)
    table = ["| Crate | Functions | Edits | Proof, s | Edits, s | A change here proves anew |", "|---|---|---|---|---|---|"]
    totals = []
    for crate in crates():
        above = [it for it in crates() if crate in under[it]]
        edits = len(list((CRATES / crate / "must-fail").glob("*.edit")))
        proof, tried = kept.get(crate, ("NN", "NN"))
        tried = tried if edits else "-"
        libraries = [it for it in above if not is_for_tests(it)]
        anew = f"it and {len(above)} crates above, {len(above) - len(libraries)} of them for tests" if above else "it alone"
        totals.append((functions(crate), edits, proof, tried))
        table.append(f"| `{crate}` | {functions(crate)} | {edits} | {proof} | {tried} | {anew} |")
    table.append(f"| all | {sum(it[0] for it in totals):,} | {sum(it[1] for it in totals)} | {summed([it[2] for it in totals])} | {summed([it[3] for it in totals])} | |")
    return table


def over_budget(given=None):
    """What the seconds of the table costs come to, where that is more than docs/GATE.md allows."""
    allowed = re.search(r"may have ([\d,]+) seconds", (ROOT / "docs" / "GATE.md").read_text(encoding="utf-8"))
    if not allowed:
        return "docs/GATE.md: the budget of the gate is missing (may have N seconds)"
    kept, most = seconds(given), int(allowed[1].replace(",", ""))
    sums = [int(it.replace(",", "")) for crate in crates() for it in kept.get(crate, ()) if it.replace(",", "").isdigit()]
    return f"the gate costs {sum(sums):,} seconds by the table of docs/INDEX.md, {most:,} are allowed by docs/GATE.md" if sum(sums) > most else None


def with_table(text, name, table):
    """The page with the table of this name between its marks, and whether it has these marks."""
    place = marked(name)
    return place.sub(lambda found: f"{found[1]}\n" + "\n".join(table) + f"\n{found[2]}", text), bool(place.search(text))


def tables(given=None):
    return {"layers": layers(), "files": files(), "lines": lines(), "cited": believed.table(), "laws": laws(), "inner": inner(), "costs": costs(given)}


def main():
    words = sys.argv[1:]
    given = None
    if "--times" in words:
        at = words.index("--times")
        given = ROOT.__class__(words[at + 1])
        del words[at : at + 2]
    if len(words) == 1 and words[0] in TABLES:
        print("\n".join(tables(given)[words[0]]))
        return
    if words not in (["--write"], ["--check"]):
        sys.exit(__doc__)
    differing, text = [], PAGE.read_text(encoding="utf-8")
    for name, table in tables(given).items():
        before = text
        text, found = with_table(text, name, table)
        if not found:
            sys.exit(f"docs/INDEX.md has no marks for the table {name}")
        if text != before:
            differing.append(name)
    if words == ["--write"]:
        PAGE.write_text(text, encoding="utf-8")
        differing = []
    if UNTIED:
        print("computed definitions without a law (a line `-- computed: LAW.` above the import): " + ", ".join(UNTIED), file=sys.stderr)
    over = over_budget(given)
    if over:
        sys.exit(over)
    if differing:
        sys.exit("tables of docs/INDEX.md that are not as the sources have them, run tests/docs.py --write: " + ", ".join(differing))
    sys.exit(1 if UNTIED else 0)


main()
