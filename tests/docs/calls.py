#!/usr/bin/env python3
"""Writes docs/CALLS.md: each public call with its clauses, and a sentence for each.

A call's sentence is the first one of its doc comment. A clause's sentence is the comment of the definition that it cites, the first one of
its specs/; a clause that cites none is shown itself. What a program promises is in the ghosts of its `impl Program` and `impl Fault`; the
definitions of its usage, statuses and lines are shown with them. Laws and worked examples are listed by name.

calls.py          writes the page
calls.py --check  compares it with the sources, and docs/PROOFS.md with what there is: the calls, clauses, laws and files of its phrase table, and
                  each other name in code quotes. Status 1 where one differs
"""
import re
import sys

import believed
from tree import CRATES, ROOT, code_files, crates, exported, first_sentence, is_for_tests, root_file, spec_files, words_of

PAGE = ROOT / "docs" / "CALLS.md"
PROOFS, PHRASES = ROOT / "docs" / "PROOFS.md", "## The headline, phrase by phrase\n"
HEAD = """# The calls and their clauses

Made from the sources by `tests/docs.py calls`; the gate compares. docs/PROOFS.md explains the headline phrase by phrase, and lists what is only tested.

The row of a call shows the first sentence of its comment. A row for each clause of its contract follows: the clause's name (a dash if it has none);
the definition that it cites first, with the first sentence of that definition's comment; or the clause itself, if it cites no definition of
`specs/`. A definition is in `crates/CRATE/specs/FILE.antt`, as shown. A row `requires` is what the caller must have.

What a program does with its arguments, and what it prints for a fault, is in its `impl Program` and `impl Fault`: the task that arguments ask
for (`asks`), a run of a task (`performs`), the usage (`called`), and the status and line of a fault (`report`). `run_program`, `run_with`,
`run_on` and `run_in_memory` of omf_cmd promise these for each program but omf_dump. The definitions of the usage, statuses and lines are shown with their
equations.
"""
# The traits whose ghosts are what a program promises, and the ghosts whose definitions are shown whole.
PROMISING, WHOLE = ("Program", "Fault"), ("called", "report")
# Definitions of more equations are named, with their sentence.
MOST_EQUATIONS = 12


def paragraph(lines):
    """The lines of a comment up to its first empty line."""
    return lines[: lines.index("")] if "" in lines else lines


def definitions():
    """Each definition of specs/, by crate, module and name, with the first sentence of its comment."""
    found = {}
    for crate in crates():
        for module, path in spec_files(crate):
            comment = []
            for line in path.read_text(encoding="utf-8").splitlines():
                named = re.match(r"(?:abbrev |opaque |private |type |record |data )*(?:pub )?(?:abbrev |type |record |data )*(\w+)\b.* : ", line)
                if line.startswith("--"):
                    comment.append(line[2:].strip())
                else:
                    if named and comment and line.startswith(("abbrev", "pub", "type", "data", "record", "opaque")):
                        found.setdefault((crate, module, named[1]), first_sentence(paragraph(comment)))
                    comment = []
    return found


class Call:
    def __init__(self, owner, name, comment):
        self.title = f"{owner}::{name}" if owner else name
        self.owner, self.name, self.sentence, self.clauses = owner, name, first_sentence(paragraph(comment)), []


def calls_of(path):
    """Each function of a file with a body or in a trait, whether it is public, with its clauses."""
    owner, trait, call, comment, is_public = None, None, None, [], False
    for line in path.read_text(encoding="utf-8").splitlines():
        text = line.strip()
        begins = re.match(r"impl(?:<[^{]*?>)? (?:[^{]*? for )?(\w+)", line)
        is_trait_of = begins and " for " in line
        in_trait = re.match(r"pub trait (\w+)", line)
        if begins or in_trait or line == "}":
            owner = begins[1] if begins else in_trait[1] if in_trait else None
            trait = in_trait and in_trait[1]
            implemented = bool(is_trait_of)
        function = re.match(r"(pub )?(?:extern \"C\" )?fn (\w+)", text)
        if text.startswith("///"):
            comment.append(text[3:].strip())
        elif function and call is None:
            is_public = bool(function[1]) or bool(trait)
            call = Call(owner, function[2], comment)
        if call is not None:
            clause = re.match(r"(ensures|requires)\b ?(\w*) ?(\{.*)?", text)
            if clause:
                name = "requires" if clause[1] == "requires" else clause[2] or "-"
                call.clauses.append([name, clause[3] or ""])
            elif call.clauses and line[:8].isspace() and text.startswith(("→", "×", "⊎", "≡", "(")) and not text.endswith("{"):
                call.clauses[-1][1] += " " + text
            if line.rstrip().endswith(("{", "{}", ";")) and not text.startswith(("pub trait", "impl")) or text == "{}":
                if is_public:
                    yield call
                call, comment = None, []
        elif not text.startswith(("///", "#[")):
            comment = []


def body(clause):
    """A clause without its braces."""
    text = clause.strip().rstrip(";").strip()
    return text[1:-1].strip() if text.startswith("{") and text.endswith("}") else text.lstrip("{ ")


def place_of(crate, module):
    """A crate, and a file in its specs/."""
    return f"{crate} {module.replace('.', '/')}"


def clause_row(name, clause, words, defined):
    shown = body(clause)
    cited = [words[it] for it in re.findall(r"[\w']+", shown) if it in words and words[it] in defined]
    cited.sort(key=lambda it: not it[2][:1].isupper())
    if cited:
        crate, module, word = cited[0]
        return f"| | {name} | `{word}` ({place_of(crate, module)}): {defined[cited[0]]} |"
    shown = shown.replace("|", "\\|")
    return f"| | {name} | `{shown if len(shown) < 200 else shown[:200] + ' ..'}` |"


def promises_of(path):
    """Each `impl Program` and `impl Fault` of a file: the trait, its type, and the names and definitions of its ghosts."""
    text = path.read_text(encoding="utf-8")
    for trait, owner, inside in re.findall(rf"^impl ({'|'.join(PROMISING)}) for (\w+) {{\n(.*?)^}}", text, re.M | re.S):
        yield trait, owner, re.findall(r"^    ghost (\w+) = \{ (\w+) \};", inside, re.M)


def shown_whole(root, defined, all_definitions):
    """A row for a definition, and for each of its crate that it cites, to the end: with its equations, if they are few."""
    for crate, module, name in sorted(all_definitions.closed([root]), key=lambda it: (it != root, list(all_definitions.lines).index(it))):
        if crate != root[0] or module.startswith("Inner"):
            continue
        equations = all_definitions.lines[crate, module, name][1:]
        sentence = defined.get((crate, module, name), "").rstrip(".")
        shown = "; ".join("`" + it.strip().replace("|", "\\|") + "`" for it in equations) if len(equations) <= MOST_EQUATIONS else f"{len(equations)} equations"
        yield f"`{name}` ({place_of(crate, module)}): " + ". ".join(it for it in (sentence, shown) if it)


def promise_rows(trait, owner, ghosts, words, defined, all_definitions):
    yield f"| `impl {trait} for {owner}` | | |"
    for ghost, word in ghosts:
        if ghost in WHOLE:
            yield from (f"| | {ghost} | {it} |" for it in shown_whole(words[word], defined, all_definitions))
        else:
            yield clause_row(ghost, word, words, defined)


def laws_of(crate):
    """The laws of a crate with their sentences: public functions without parameters in files named for laws or listed beside them."""
    for path in code_files(crate):
        if path.stem.split("_")[-1] in ("rows", "edges") or "tests" in path.parts:
            continue
        for call in calls_of(path):
            if path.stem.split("_")[-1] == "laws" or path.parent.name == "laws":
                yield call


def page():
    """The page, with the clauses of each call and the laws: by the title of a call the names of its clauses, and the names of the laws."""
    defined, all_definitions, parts, clauses, all_laws = definitions(), believed.Definitions(), [HEAD], {}, set()
    for crate in crates():
        if is_for_tests(crate) or root_file(crate) is None:
            continue
        names, modules = exported(crate)
        rows = []
        for path in code_files(crate):
            if path.stem.split("_")[-1] in ("rows", "edges", "laws") or path.parent.name == "laws" or "tests" in path.parts or path.stem == "tests":
                continue
            text = path.read_text(encoding="utf-8")
            words = words_of(text)
            is_open = path.stem in modules
            for call in calls_of(path):
                if (call.owner or call.name) in names or is_open or 'extern "C"' in text and call.owner is None and f"fn {call.name}" in text and "no_mangle" in text:
                    clauses.setdefault(call.title, set()).update(name for name, _ in call.clauses)
                    rows.append(f"| `{call.title}` | | {call.sentence} |")
                    rows.extend(clause_row(*it, words, defined) for it in call.clauses)
            for trait, owner, ghosts in promises_of(path):
                if owner in names or is_open:
                    rows.extend(promise_rows(trait, owner, ghosts, words, defined, all_definitions))
        own = list(laws_of(crate))
        all_laws.update(law.name for law in own)
        laws = [f"- `{law.name}`: {law.sentence}" for law in own]
        if rows or laws:
            parts.append(f"\n## {crate}\n")
            if rows:
                parts.append("\n" + "\n".join(["| Call | Clause | Sentence |", "|---|---|---|", *rows]) + "\n")
            if laws:
                parts.append("\nLaws:\n\n" + "\n".join(laws) + "\n")
    return "".join(parts), clauses, all_laws


def phrase_parts():
    """The parts of the second cells of the phrase table of docs/PROOFS.md, which semicolons separate: each with its names in code quotes.

    `call`: `clause`, `clause`; law `law`; `specs/File` of a crate
    """
    table = PROOFS.read_text(encoding="utf-8").partition(PHRASES)[2].partition("\n## ")[0]
    for row in re.findall(r"^\|[^|]*\|([^|]*)\|", table, re.M):
        for part in row.split(";"):
            names = re.findall(r"`([^`]+)`", part)
            if names:
                yield part.strip(), names


def phrase_faults(clauses, laws):
    """What the phrase table names and the sources do not have: a call, a clause of a call, a law, or a file in specs/."""
    calls = 0
    for part, names in phrase_parts():
        if part.startswith("law"):
            yield from (f"there is no law {it}" for it in names if it not in laws)
        elif names[0].startswith("specs/"):
            crate = re.search(r" of (omf_\w+)$", part)
            yield from (f"there is no {it} of a crate that is named" for it in names if not crate or not (CRATES / crate[1] / f"{it}.antt").exists())
        else:
            call, calls = re.sub(r"^omf_\w+::", "", names[0]), calls + 1
            if call not in clauses:
                yield f"there is no call {call}"
            else:
                yield from (f"{call} has no clause {it}" for it in names[1:] if it not in clauses[call])
    if calls == 0:
        yield "it names no call"


def name_faults():
    """The names in code quotes of docs/PROOFS.md that no source has."""
    known = {"malloc", "realloc", "free"}
    for crate in crates():
        for path in [*code_files(crate), *(it for _, it in spec_files(crate))]:
            known.update(re.findall(r"\w+", path.read_text(encoding="utf-8")))
    for name in dict.fromkeys(re.findall(r"`(\w+(?:::\w+)*)`", PROOFS.read_text(encoding="utf-8"))):
        if not known.issuperset(name.split("::")):
            yield f"no source has {name}"


def main():
    made, clauses, laws = page()
    if sys.argv[1:] == ["--check"]:
        kept = PAGE.read_text(encoding="utf-8") if PAGE.exists() else ""
        faults = ["docs/CALLS.md differs from the sources: run tests/docs.py --write"] if kept != made else []
        faults += [f"docs/PROOFS.md, {PHRASES[3:-1]}: {it}" for it in phrase_faults(clauses, laws)]
        faults += [f"docs/PROOFS.md: {it}" for it in name_faults()]
        if faults:
            sys.exit("\n".join(faults))
        return
    PAGE.write_text(made, encoding="utf-8")


main()
