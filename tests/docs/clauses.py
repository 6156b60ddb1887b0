#!/usr/bin/env python3
"""Lists the functions without an `ensures`: those of which it is proved only that they are safe and return.

clauses.py          prints them, crate by crate: those that are `pub`, and those that the `main` of a program reaches
clauses.py --check  compares them with tests/docs/clauses.txt: status 1 where one is new, has no words there, or is gone
clauses.py --write  writes that file: words are kept, a new function gets `?`, which --check refuses

It reads the sources by names alone. A function reaches each function whose name its body has before a `(` or as an argument, in its crate or in
one that its crate uses. So the list may have some that no program reaches; those that a macro or a derive makes are not seen. A method of
`impl TRAIT for TYPE` counts as public, and has the clauses of its trait: of a trait of this repository those that are written there, of any
other those of the block's `ghost` items. Tests, and crates for tests, are left out."""
import collections
import re
import sys

from tree import CRATES, ROOT, code_files, crates, is_for_tests, needs

KEPT = ROOT / "tests" / "docs" / "clauses.txt"
HEAD = """# The functions without an `ensures` that are public or that a program reaches, by tests/docs.py clauses: crate, function, and what it does.
# 'only safe': a part of one that prints, reads or writes, or a function of which nothing more is claimed.
"""
FUNCTION = re.compile(r"( *)(pub(?:\(\w+\))? )?(?:const |unsafe |extern \"C\" )*fn (\w+)")
BLOCK = re.compile(r"impl(?:<.*?>)? (?:(.*) for )?(\w+)|(?:pub(?:\(\w+\))? )?trait (\w+)")
# A name before a `(`, perhaps with type arguments between; and a function that is passed by its name.
CALLED = re.compile(r"(\w+)(?:::<[^()]*>)?\(|(?<=[(, ])([a-z]\w*)(?=[,)])")
CLAUSE = re.compile(r" *(?:ensures|requires|invariant)\b")
Function = collections.namedtuple("Function", "crate module owner trait name is_public has_clause calls")


def title(function):
    return "::".join([function.crate, *function.module, *([function.owner] if function.owner else []), function.name])


def head_of(lines, at):
    """Whether the function that begins at a line has an `ensures`, whether it has a body after that, and where that begins."""
    line, has_clauses = lines[at], False
    while not (line.strip() in ("{", "{}") or line.endswith(";") or not has_clauses and line.endswith(("{", "{}"))):
        at += 1
        line = lines[at]
        if line.strip().startswith("ensures "):
            return True, not line.endswith(";"), at + 1
        has_clauses = has_clauses or CLAUSE.match(line) is not None
    return False, not line.endswith((";", "{}")), at + 1


def body_of(lines, at, indent):
    """The lines of a body, perhaps after more clauses, and where they end."""
    end = at
    while lines[end] not in (indent + "}", indent + "{}") and not (lines[end].strip().startswith("ensures ") and lines[end].endswith(";")):
        end += 1
    return [it for it in lines[at:end] if not CLAUSE.match(it)], end


def functions_of(crate, path):
    """The functions of a file but tests, those of traits too."""
    lines = path.read_text(encoding="utf-8").splitlines()
    module = [it for it in path.relative_to(CRATES / crate / "src").with_suffix("").parts if it not in ("lib", "main", "mod")]
    owner, trait, has_ghost, is_test, at = None, None, False, False, 0
    while at < len(lines):
        line = lines[at]
        block, function = BLOCK.match(line), FUNCTION.match(line)
        if block:
            owner, trait = block[2] or block[3], (block[1] or "").split("<")[0].split("::")[-1] or None
            has_ghost = any(it.startswith("    ghost ") for it in lines[at : lines.index("}", at) if "}" in lines[at:] else at])
        elif line == "}":
            owner, trait, has_ghost = None, None, False
        elif line.strip() == "#[test]":
            is_test = True
        if not function:
            at += 1
            continue
        has_ensures, has_body, at = head_of(lines, at)
        body, at = body_of(lines, at, function[1]) if has_body else ([], at)
        calls = {name for names in CALLED.findall("\n".join(body)) for name in names if name}
        if not is_test:
            is_public, is_promised = function[2] == "pub " or bool(trait), has_ensures or bool(trait) and has_ghost
            yield Function(crate, module, owner, trait, function[3], is_public, is_promised, calls)
        is_test = False


def functions():
    """All functions but tests, with the clauses that methods have from a trait of this repository."""
    found = []
    for crate in crates():
        for path in code_files(crate):
            if not is_for_tests(crate) and "tests" not in path.relative_to(CRATES).parts and path.stem not in ("tests", "rows", "edges"):
                found += functions_of(crate, path)
    promised = {(it.owner, it.name) for it in found if it.has_clause and it.owner}
    return [it._replace(has_clause=it.has_clause or (it.trait, it.name) in promised) for it in found]


def reached(found):
    """The functions that a `main` reaches, and those that methods of traits reach, which a crate below may call."""
    by_name, uses = collections.defaultdict(list), needs()
    for function in found:
        by_name[function.name].append(function)
    left = [it for it in found if it.trait or it.name == "main"]
    seen = {id(it) for it in left}
    while left:
        function = left.pop()
        yield function
        for name in function.calls:
            for it in by_name[name]:
                if id(it) not in seen and (it.crate == function.crate or it.crate in uses[function.crate]):
                    seen.add(id(it))
                    left.append(it)


def open_functions():
    """The titles of the functions to be listed, in the order of the sources."""
    found = functions()
    at_hand = {id(it) for it in reached(found)}
    return list(dict.fromkeys(title(it) for it in found if not it.has_clause and (it.is_public or id(it) in at_hand)))


def kept():
    lines = KEPT.read_text(encoding="utf-8").splitlines() if KEPT.exists() else []
    return dict(line.split(": ", 1) for line in lines if line and not line.startswith("#"))


def main():
    listed, words = open_functions(), kept()
    if sys.argv[1:] == ["--write"]:
        KEPT.write_text(HEAD + "".join(f"{it}: {words.get(it, '?')}\n" for it in listed), encoding="utf-8")
    elif sys.argv[1:] == ["--check"]:
        faults = [f"{it}: no ensures, and not in tests/docs/clauses.txt" for it in listed if words.get(it, "?") == "?"]
        faults += [f"{it}: in tests/docs/clauses.txt, but it has an ensures or is gone" for it in words if it not in listed]
        if faults:
            sys.exit("\n".join([*faults, "give it a clause, or run tests/docs.py clauses --write and put what it does in place of `?`"]))
    else:
        print("\n".join(f"{it}: {words.get(it, '?')}" for it in listed))


main()
