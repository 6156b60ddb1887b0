#!/usr/bin/env python3
"""Writes what dist/unproved_library.sh compiles, from the signatures of the calls: unproved_library.py calls|shim|names

calls  a program in Rattle that makes each call of omf_c once, so that the compiler keeps all of them
shim   the calls in C, as include/omf.h declares them: each hands the room for its answer to the function of omf_c
names  a line for each call: its name in the bitcode, and the name that the shim calls it by
"""
import pathlib
import re
import sys

ROOT = pathlib.Path(__file__).resolve().parent.parent
VALUES = (("Global", "alloc"), ("&[", "&[]"), ("&mut [", "&mut []"), ("bool", "false"), ("&Answer", "&answer"), ("&PlacementRows", "&placement"), ("&ProgramRow", "&asked"), ("u", "0"))


def calls():
    """The calls of omf_c: their module, their name, the types of their parameters."""
    for file in sorted((ROOT / "crates/omf_c/src").glob("*.rt")):
        for name, words in re.findall(r'extern "C" fn (\w+)\(([^)]*)\)', file.read_text()):
            yield file.stem, name, [it.split(":", 1)[1].strip() for it in words.split(",\n" if "\n" in words else ", ") if ":" in it]


def value(kind):
    return next(given for begin, given in VALUES if kind.strip(", ").startswith(begin))


def program():
    yield "use std::process::ExitCode;\n\nfn main(rt: HostRuntime) -> ExitCode {\n    let alloc = rt.alloc();"
    yield "    let answer = omf_c::omf_check(alloc, &[], false);\n    let mut sum = answer.status;"
    yield "    let asked = omf_c::ProgramRow { stack: 0, order: 0, is_com: false, ignore_case: false, allow_twice: false, allow_group: false, allow_near: false, allow_mixed: false };"
    yield "    let placement = omf_c::PlacementRows { segments: &[], groups: &[], externals: &[] };"
    for _, name, kinds in calls():
        call = f"omf_c::{name}({', '.join(map(value, kinds))})"
        yield f"    sum = sum.wrapping_add({call if name == 'omf_version' else call + '.status'});"
    yield "    if sum == 0 { ExitCode::FAILURE } else { ExitCode::SUCCESS }\n}"


def shim():
    header = re.sub(r"/\*.*?\*/", "", (ROOT / "include/omf.h").read_text(), flags=re.S)
    declared = dict(re.findall(r"^struct omf_answer (\w+)\(([^;]*)\);", header, re.M))
    yield '#include "omf.h"'
    for _, name, _ in calls():
        if name == "omf_version":
            yield "uint32_t rattle_omf_version(void);\nuint32_t omf_version(void) { return rattle_omf_version(); }"
            continue
        words = " ".join(declared[name].split())
        given = ", ".join(re.search(r"(\w+)$", word)[1] for word in words.split(","))
        yield f"void rattle_{name}(struct omf_answer *answer_, {words});"
        yield f"struct omf_answer {name}({words}) {{ struct omf_answer answer_; rattle_{name}(&answer_, {given}); return answer_; }}"


def names():
    return (f"omf_c::{module}::{name} rattle_{name}" for module, name, _ in calls())


print("\n".join({"calls": program, "shim": shim, "names": names}[sys.argv[1]]()))
