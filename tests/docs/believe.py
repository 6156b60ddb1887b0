#!/usr/bin/env python3
"""Writes docs/BELIEVE.md and docs/REFUSALS.md: the definitions that the theorem cites, followed to the end, each once, in the order of a
reading. BELIEVE.md has what an accepted module and its image are; REFUSALS.md has what only the reason and the place of another answer need.

believe.py          writes the pages
believe.py --check  compares them with the sources: status 1 where one differs, or where its key does not explain a word of the kit
believe.py --marks  prints the files whose definitions do not name the standard or this profile: file, line, name

A definition is in the first step whose words need it.
"""
import re
import sys

import believed
from tree import CRATES, ROOT, code_files

BELIEVE = ROOT / "docs" / "BELIEVE.md"
REFUSALS = ROOT / "docs" / "REFUSALS.md"
# A definition with one equation is written on one line up to this length, and text on lines up to the second.
WIDE, LONG = 180, 400
HEAD = """# What to believe

> {promise}

This page states that promise as definitions: the theorem, and every definition that it rests on, each once, in {count:,} lines (in the sources {written:,}, without comments and empty lines).
If these definitions describe OMF as you know it, the promise holds: the prover has done the rest, and `rt ci` repeats it. You need the
standard (TIS OMF 1.1) beside the page, and nothing else of this project. Which reason a refusal has, and where, is on a page of its own, [REFUSALS.md](REFUSALS.md);
everything about faults, their places and their reasons can be skipped here. `tests/docs.py believe` makes both pages from the sources, and `.ci/run` compares them.

"Well formed" is narrower than the standard. Modules with COMDAT, CEXTDEF, backpatch (BAKPAT, NBKPAT) or vendors' records are refused, and so are fixups on LIDATA blocks, frame methods F3, F6 and F7 and target methods T3 and T7; every such narrowing is marked "this profile's rule" at its definition.

Where the standard is silent or leaves a choice, this profile has its own rule, too. An index below 128 may have two bytes. A thread's number in a FIXUP is its bits 4 and 5, whatever bit 6 is. Index 0 as the name of a segment, a class or a group is no name. The combine type and the P bit of a SEGDEF are looked at by no rule. Of MODEND's type byte only bit 6 counts. A FIXUPP belongs to the last data record, also if other records are between them. A displacement is read as it is and then as a negative number; an offset that is out of range does not reach, and does not wrap. A repeat count may be 0. Of two data records that cover one byte the last counts, and of fixups that overlap each adds to what the ones before it left.

"""
NOTES = """The key to the notation is at the end. A definition with one equation is written with its arguments and their types: `is_end (kind : ℕ) : Bool = ..` is the function `is_end : ℕ → Bool` with `is_end kind = ..`. A struct is on one line if it has data only. All others are as in the sources. {twice}
"""
STEPS = [
    ("The theorem", "A profile, an input and a placement have one of three answers. `Refused`: the input begins with no well-formed module. `Relocated`: it begins with one, and the placement reaches; then each byte of the image, and the start, are the defined ones. `DoesNotReach`: it begins with one, and the placement does not reach. `records` are the module's records as bytes, and `typed_records` the same with the values that their contents encode; `IsAccepted` is in step 5, `image` and `start` in step 6, `AllReach` in step 7. `HasReason`, the reason of a refusal and why a placement does not reach, is on the other page. `AcceptedAreSafe` is a law of all modules that an input begins with: each index and each thread that is used is defined, and at each placement every patched byte is inside its data record and its segment (step 8)."),
    ("Bytes and fields", "Bits of a number and parts of a list. Then the four encodings of fields: `IsIndex n bytes` means that exactly these bytes encode the index n."),
    ("Records and modules", "The types of records that are read, and of those that are carried: kept, and not read. A record is a type byte, two length bytes, contents and a checksum byte (`Raw`). `IsFramed`: the bytes are records, one after another, with a THEADR or LHEADR first (more may follow), and a MODEND last and nowhere else."),
    ("What contents encode", "The contents of each record as a value (`Values`), and the layout that encodes it (`Records`): compare these two with the page of each record in the standard. `Layout` has the parts that layouts are built from, and `Entries` what records repeat. A layout has a second half, its faults, which is left out here; so `field_or` and `checked` have arguments that seem unused."),
    ("What must hold", "The blocks of an LIDATA; the tables that records define; the threads in force; and the rules of each record, given the records before it. A rule is a condition with the place and the reason of its fault, which do not matter here. Then `IsWellFormed`: the bytes are records, the contents of each encode a value, blocks are within the limits, and every record keeps its rules. `IsAccepted`: the input begins so. The index of a THREAD is looked up where the thread is used, so one that is never used may be any number. The limits are those of `profile_limits`: 64 levels of blocks, 256 MB."),
    ("What a placement makes of a module", "A placement (`Places`) has an address and a frame for each segment and external, and a frame for each group. `outcome`: what a fixup adds to the bytes of its location, or why it does not reach. `patched`: the data of an LEDATA after its fixups, in file order. `image`: at each place the byte of the last data record that covers it. `pieces` are the records with threads resolved. A thread that is not set counts as F5 or T0 0; no well-formed module uses one (`AcceptedAreSafe`). A reference whose frame or target has no entry does not reach."),
    ("Whether it reaches", "A placement fits if its lists are as long as the module's tables, and each absolute segment is where its SEGDEF puts it. It reaches if it fits, and every fixup, and the start, reaches."),
    ("What no module can do", "`uses`: each index that a record uses, with the number of entries of its table, and None for a thread that is not set; indices of overlay names and of types are looked at by no rule. `AllLieInside`: each patched byte is inside its data and its segment."),
]
ACCEPTED = '**This is what "accepted" means: `IsAccepted`.** If you want only that, stop here.\n'
CALL_TEXT = "The calls. `check_and_relocate` makes the answer; its other clauses, on how far it reads and on why there may be no answer, are in docs/CALLS.md. `accepted_are_safe` is the law, and `get` shows the bytes of an image:\n"
SEEN_TEXT = "A placement of the code is seen as `{view}`. What an image is seen as (`laid`, `self.now`) need not be known: `get` shows all that the theorem promises of it.\n"
# What the computed words are, and the laws that tie them to definitions.
COMPUTED = {
    "blocks_of": ("The blocks that the bytes are; none if they have a fault", "BlocksAreExpanded"),
    "expanded": ("The bytes that these blocks expand to", "BlocksAreExpanded"),
}
LAWS_TEXT = "\nThe law, with what it cites beyond this page ({count} lines). It is the contract of a function of its crate, and is proved; read it to see what the words mean. (`block_faults` are the faults of blocks, which do not matter here.)\n"
# The statements of these laws.
LAWS = [("omf_image", "Laws", "BlocksAreExpanded")]
END = """
## What need not be read

- `specs/Inner/`, but for the computed words above, and these only if you do not believe their laws: how the code computes what is defined here, and its invariants.
- Laws: they are proved, and show that the definitions fit together. Each input is accepted or refused, never both (`is_either` and `never_both` of omf_check); each input and placement have exactly one answer (`answers_are_there` and `answers_are_unique` of omf_reloc).
- What the calls that the theorem joins promise beyond it: how far a reader is read, when a failing reader is an answer, and the covered intervals of an image (docs/CALLS.md: `check`, `records`, `reach`, `relocate`, `start`, `run_at`, `run_bytes`).
- Worked examples (`specs/Rows.antt`, `specs/Modules.antt`, `src/rows.rt`): definitions and their values, evaluated by the prover. They help to see what a definition means.
- `proofs/`, `must-fail/`, and the code in `src/`.
- Every crate above omf_reloc. Their promises (canonical bytes, texts, programs, links) have definitions of their own; docs/CALLS.md has the calls.

## What is not proved

- That there is an answer. The theorem is about the three answers; a call may end with `Memory` or `Read` instead. `Read` comes only if the reader failed. That `Memory` comes only if an allocation failed is tested, not proved.
- Readers that do not report their bytes: for them the theorem has no claim.
- That a placement makes sense: only its fit and its reach are checked. It is the caller's: here no alignment, combine type, class or member of a group gives a segment its address, and no external is looked up by its name.
- Time and memory.
- That a linker adds, truncates and reads displacements as these definitions do, or that the standard is what you need.
- That what this profile refuses is wrong: a module with a COMDAT may be valid OMF, and is refused.
- The prover and compiler (the kit): its logic, its compiler and its library.
"""
REFUSALS_HEAD = """# Which refusal, and where

The theorem's second half, `HasReason`: the reason and the place of a refusal, and the first reason why a placement does not reach. This page has what that needs beyond [BELIEVE.md](BELIEVE.md), each definition once, in {count:,} lines (in the sources {written:,}, without comments and empty lines). If "refused" is all that you want to know of a refusal, skip it.

A record is judged in steps: six of framing, then layout and blocks, then the length of what the blocks expand to, then the rules. The refusal names the first record at fault and, of its faults, those of the first step that has one: the fault at the least offset, and at one offset the one of the least number. So a fault of layout late in a record comes before a broken rule early in it.
Nothing on this page is computed: the code's lists of faults are proved to have exactly these (omf_check, proofs/FirstLaws and RefusedLaws).

The notation is explained at the end of BELIEVE.md; at the end of this page are the words that only this page uses.
"""
REFUSAL_STEPS = [
    ("The theorem's second half", "`IsRefused` and `reach_fault` are the last definitions of steps 5 and 6."),
    ("The order of faults", "A fault is at an offset of its record. The first step that has any fault counts, and of its faults the least."),
    ("Framing", "The bytes of the record at the front of an input, of which perhaps not all are there (`present`), and its faults in six steps: `NoEnd`, the type byte, `Cut`, `EmptyRecord`, `Checksum`, `NoHeader`."),
    ("Layout", "The half of each layout that BELIEVE.md leaves out. `Faults at bytes e`: the bytes, from offset `at` of the record to its end, have the fault e. Of a sequence of fields each prefix that is spelled may have a fault after it."),
    ("A record, and an input", "Read `IsRefused`, the last definition, first: the input is records without a fault, none of them a MODEND, and then a record with one."),
    ("Why a placement does not reach", "First what does not fit, `misfits`: the first entry that is missing, the first that is extra, the lowest absolute segment that is misplaced. Then `far_faults`, in file order with the start last. The places of references and their causes are two lists in one order, since in a well-formed module each fixup follows its data record (law `faults_are_walked`)."),
]
# Rows of the key: the words of the kit that each entry explains, as written, and what it means. A row has the entries that a page uses.
KEY = [
    [("", "`f x y`", "`f(x, y)` of C; `f x` alone is a function of the argument that is left. Arguments bind first, then `*` `/` `%`, `+` `-`, `++` and `∷` (to the right), comparisons and `≡`, `&&`, `\\|\\|`, then `×`, `⊎`, and `→` last")],
    [("", "`λ x. e`", "a function without a name: of x, e")],
    [("", "`f : A → B → C`, and equations", "f takes an A and a B and gives a C. The equations below it are tried from the first; `_` is any value")],
    [("", "`x : A`, `{A : Type 0}`", "x is of the type A; a type as a parameter, left out in calls")],
    [("", "`Type 0`", "the type of statements: `IsRecord r` is a statement, true or false. Also the type of a struct or union (`Type 1`: of one that has statements in it)")],
    [("", "`mutual`, `infixl 10 ◌>>=◌`", "definitions that use one another; the sign between two arguments is a name")],
    [("", "`record R where`, `data D where`", "a struct: `r.field`, `record { field = .. }`, and `record r { field = .. }`, which is r with another field; a tagged union, with its cases. The fields of a struct that is a statement hold together")],
    [("ℕ", "`ℕ`", "the whole numbers from 0, without a limit; `a * b`, `a < b`, `a ≤ b` as usual; `a - b` is 0 if b is larger, `/` rounds down, `%` is the remainder, `^` a power"), ("+ - * / % ^ < ≤", "", "")],
    [("suc", "`zero`, `suc n`", "0, and n + 1"), ("zero", "", "")],
    [("≡", "`a ≡ b`", "a and b are equal"), ("≢", "`a ≢ b`", "they are not")],
    [("", "`(x : A) → P`", "for every x of A, P holds; `P → Q`: if P holds, so does Q"), ("↔", "`P ↔ Q`", "both ways")],
    [("", "`(x : A) × P`", "there is an x of A for which P holds; `P × Q`: both hold; also a pair or a triple, whose parts are `p.0`, `p.1` and `p.2`")],
    [("⊎", "`P ⊎ Q`", "P or Q holds"), ("⊥", "`⊥`", "what never holds"), ("⊤", "`⊤`", "what always holds")],
    [("Bool", "`Bool`: `true`, `false`", "truth values, which are computed"), ("==", "`a == b`", "equal"), ("nat_lt", "`nat_lt a b`", "less"), ("nat_le", "`nat_le a b`", "less or equal"), ("&&", "`&&`", "and"), ("||", "`\\|\\|`", "or"), ("not", "`not b`", "not"), ("IsTrue", "`IsTrue b`", "the statement that b is true"), ("true false", "", "")],
    [("if◌then◌else◌ cond", "`if b then x else y`, `cond b x y`", "x or y; the same"), ("", "`let x = e in y`", "y with the value of e for x")],
    [("List", "`List A`", "a list"), ("", "`[]`", "the empty one"), ("∷", "`x ∷ xs`", "x and then the list xs"), ("++", "`xs ++ ys`", "xs and then ys")],
    [("length", "`length xs`", "its length"), ("take", "`take n xs`", "its first n elements"), ("drop", "`drop n xs`", "all others"), ("filter", "`filter test xs`", "those that pass"), ("repeat", "`repeat n x`", "x, n times"), ("sum", "`sum xs`", "the sum of its numbers"), ("sum_by", "`sum_by f xs`", "the sum of f of each"), ("find", "`find test xs`", "the first element that passes, if there is one")],
    [("map", "`map f xs`", "f of each element"), ("filter_map", "`filter_map f xs`", "of an f that gives an Option, those values that are there"), ("flat_map", "`flat_map f xs`", "of an f that gives lists, all of them joined"), ("fold", "`fold f x ys`", "f of x and the first element, then f of that and the second, and so on"), ("zip", "`zip xs ys`", "pairs of the elements at one place"), ("enumerate_from", "`enumerate_from n xs`", "pairs of n, n + 1 and so on with the elements"), ("last_or", "`last_or None xs`", "the last element, if there is one")],
    [("slice_get", "`slice_get xs i`", "element i from 0, if there is one"), ("slice_index", "`slice_index xs i`", "of a list of numbers: element i, or 0 if there is none")],
    [("All", "`All P xs`", "P holds of each element"), ("AllZip", "`AllZip P xs ys`", "P holds of the two elements at each place, and the lists are as long"), ("list_any", "`list_any test xs`", "some element passes"), ("Contains", "`Contains xs x`", "x is an element")],
    [("max", "`max a b`", "the larger of two numbers"), ("little_number", "`little_number k bytes`", "the little-endian number in k bytes"), ("little_bytes", "`little_bytes k n`", "n as k bytes, little-endian")],
    [("codes", "`0x1A`, `codes \"TEXT\"`", "a hexadecimal number; the characters of a text as numbers")],
    [("Option", "`Option A`: `Some x`, `None`", "an A or nothing"), ("option_map", "`option_map f o`", "f of it, if it is there"), ("unwrap_or", "`unwrap_or o x`", "it, or else x"), ("option_or", "`option_or o p`", "o if it is there, else p"), ("option_and_then", "`option_and_then f o`", "f of it, or nothing"), ("option_map_or", "`option_map_or f o x`", "f of it, or else x"), ("option_zip", "`option_zip o p`", "the pair, if both are there"), ("option_to_list", "`option_to_list o`", "the list of it, or the empty one"), ("is_some", "`is_some o`", "it is there"), ("is_none", "`is_none o`", "it is not"), ("Some None", "", "")],
    [("Result", "`Result A E`: `Ok x`, `Err e`", "an A, or a fault"), ("ok_or", "`ok_or o e`", "Ok of what is there, or else Err e"), ("result_ok", "`result_ok r`", "the value, if it is there"), ("result_err", "`result_err r`", "the fault, if it is there"), ("result_map_both", "`result_map_both f g r`", "Ok of f of the value, or Err of g of the fault"), ("Ok Err", "", "")],
    [("tag_of", "`tag_of the_type x`", "the place of x among the cases of its enum as declared in the table above, from 0"), ("the_type", "", "")],
]
KEY_END = """| `Layout A`, `Spells` | how a value of A is encoded. `Spells at bytes x`: the bytes, from offset `at` of the record, are an encoding of x |
| `p >>= f` | the layout p, and then the layout f of its value: a sequence of fields |
| `do`, `x ← p` | the same, one field to a line: x is the value of the layout p |
| `requires {{ P }}`, `ensures name {{ P }}` | in contracts: what the caller must have; what holds when the call returns. `IfOk r P`, `IfErr r P`: if r is Ok (Err), P holds of its value |
| `x.old`, `x.new`, `x.now`, `result` | in contracts: what an argument refers to before the call, after it, and where it is only read; what is returned |
| `S.seen reader.old` | in contracts: the reader. Its `bytes` are those that remain, if they are known; its `failures` are counted |
"""
TYPES = """The code's own structs and enums are used as they are. In definitions their numbers are ℕ, not u8, u16 or u32. `F4` and `F5` are the cases `Location` and `Target` of `FrameMethod`. Cases are written with the prefix of the last column, or without one where a file means one type alone. The cases of `Reason` are in [REASONS.md](REASONS.md).

| Type | Cases in definitions |
|---|---|
{types}
"""
# The definitions of each step: of the files, or of what these definitions cite.
HEADLINE = [("omf_reloc", "Headline", name) for name in ("Headline", "IsAnswer", "HasImage")] + [("omf_reloc", "HeadlineLaws", "AcceptedAreSafe")]
REASONS = ("omf_reloc", "Headline", "HasReason")
CALLS = [("omf_reloc", "headline", "check_and_relocate"), ("omf_reloc", "headline/laws", "accepted_are_safe"), ("omf_image", "image", "get")]
FIRST = {2: [("omf_frame", "Bytes"), ("omf_frame", "Fields")], 3: [("omf_frame", "Types"), ("omf_frame", "Framing")], 4: [("omf_frame", "Fault")]}


def order(definitions):
    """Modules, each after those that it imports."""
    done = []

    def visit(one):
        if one in definitions.imports and one not in done:
            for crate, module, _ in definitions.imports[one].values():
                if crate.startswith("omf_") and (crate, module) != one and "declared" not in module:
                    visit((crate, module))
            if one not in done:
                done.append(one)

    for one in definitions.imports:
        visit(one)
    return done


class Pages:
    """What each page has: for each step its definitions, in the order of a reading."""

    def __init__(self):
        self.definitions = believed.Definitions()
        place = {one: at for at, one in enumerate(order(self.definitions))}
        at = {one: number for number, one in enumerate(self.definitions.lines)}
        self.by_order = lambda them: sorted(them, key=lambda one: (place[one[:2]], at[one]))
        image = ("omf_image", "Overlay", "byte_at")
        self.theorem = self.closed([*HEADLINE, image], {REASONS}, "Spells")
        accepted = self.closed([("omf_check", "WellFormed", "IsAccepted")], (), "Spells")
        imaged = self.closed([("omf_reloc", "Image", "image"), ("omf_reloc", "Image", "start"), image, ("omf_image", "Limits", "profile_limits")])
        reached = self.closed([("omf_reloc", "Laws", "AllReach")])
        self.steps = {number: [] for number in range(1, len(STEPS) + 1)}
        for one in self.theorem:
            number = 1 if one in HEADLINE else 5 if one in accepted or one[1] == "Limits" else 6 if one in imaged else 7 if one in reached else 8
            if number == 5:
                number = next((it for it, modules in FIRST.items() if one[:2] in modules), 4 if one[0] == "omf_records" else 5)
            if not one[1].startswith("Inner"):
                self.steps[number].append(one)
        self.steps = {number: self.by_order(them) for number, them in self.steps.items()}
        self.steps[1] = HEADLINE
        self.reasons = self.closed([REASONS, *self.theorem]) - self.theorem
        refused = self.closed([("omf_check", "Refusal", "IsRefused")])
        layouts = [one for one in self.by_order(self.closed([*self.theorem])) if one[:2] == ("omf_records", "Layout")]
        faults = [one for one in layouts if one not in self.theorem or has_faults(self.definitions.lines[one])]
        mine = [one for one in self.by_order(self.reasons) if not one[1].startswith("Inner")]
        self.refusal_steps = {
            1: [REASONS],
            2: [one for one in mine if one[:2] == ("omf_frame", "Fault") or one[2] == "IsLeastOf"],
            3: [one for one in mine if one[:2] == ("omf_frame", "Framing")],
            4: faults,
            5: [one for one in mine if one in refused and one[0] == "omf_check"],
            6: [one for one in mine if one[0] == "omf_reloc" and one != REASONS],
        }

    def closed(self, roots, without=(), kept=None):
        """What these definitions cite, and what that cites, to the end; of a layout with `kept`, only that half."""
        seen, left = set(), list(roots)
        while left:
            one = left.pop()
            if one not in seen and one not in without:
                seen.add(one)
                lines = self.definitions.lines[one]
                if not one[1].startswith("Inner"):
                    left += self.definitions.cited(one[0], one[1], "\n".join(half(lines, kept) if kept and has_faults(lines) else lines))
        return seen

    def shown(self):
        return [one for number in self.steps for one in self.steps[number]]


def parts_of(text):
    """A type's parts between its outermost arrows."""
    found, depth, last = [], 0, 0
    for at, letter in enumerate(text):
        depth += (letter in "({[") - (letter in ")}]")
        if letter == "→" and depth == 0:
            found.append(text[last:at].strip())
            last = at + 1
    return [*found, text[last:].strip()]


def in_line(lines):
    """A definition of a signature and one equation as one: its arguments, with their types, before the colon."""
    signature = re.match(r"abbrev pub (\S+) : (.*)$", lines[0])
    if not signature or len(lines) < 2 or not lines[1].startswith(signature[1] + " ") or any(line.startswith(signature[1] + " ") for line in lines[2:]):
        return lines
    equation = re.match(rf"{re.escape(signature[1])} ((?:[^\s=]+ )*?)=(?: (.*))?$", lines[1])
    if not equation:
        return lines
    names, types = equation[1].split(), parts_of(signature[2])
    implicit = types.pop(0) + " " if types[0].startswith("{") else ""
    names = [name for name in names if not name.startswith("{")]
    if any(not re.fullmatch(r"\w+", name) for name in names) or len(names) >= len(types) or any(it.startswith("(") and " : " in it.split(")")[0] for it in types):
        return lines
    groups = []
    for name, kind in zip(names, types):
        kind = kind[1:-1] if kind.startswith("(") and parts_of(kind) == [kind] and len(parts_of(kind[1:-1])) > 1 else kind
        if groups and groups[-1][1] == kind:
            groups[-1][0].append(name)
        else:
            groups.append(([name], kind))
    arguments = implicit + "".join(f"({' '.join(them)} : {kind}) " for them, kind in groups)
    head = f"{signature[1]} {arguments}: {' → '.join(types[len(names):])} ="
    if not equation[2]:
        return [head, *lines[2:]]
    return [f"{head} {equation[2]}", *lines[2:]] if len(head) + len(equation[2]) < WIDE else [head, f"    {equation[2]}", *lines[2:]]


def in_braces(lines):
    """A struct of data on one line, as Rust's are in the table of the code's types."""
    head = re.match(r"pub record (.*) : Type [01] where$", lines[0])
    fields = [re.match(r"  pub (\w+) : (.*)$", line) for line in lines[1:]]
    if not head or not all(fields) or "≡" in "".join(lines) or any(re.match(r"All\b|Is[A-Z]|Are[A-Z]|Has[A-Z]|\(", field[2]) or field[2].endswith("Type 0") for field in fields):
        return lines
    text = f"record {head[1]} = {{ {', '.join(f'{field[1]} : {field[2]}' for field in fields)} }}"
    return [text] if len(text) < WIDE else lines


def without(field, text):
    """A text without what it gives a field of a record."""
    begin = re.search(rf"\s*\b{field} = ", text)
    if not begin:
        return text
    depth, at = 0, begin.end()
    while at < len(text) and not (depth == 0 and text[at] in ";}"):
        depth += (text[at] in "({[") - (text[at] in ")}]")
        at += 1
    if text[at] == ";":
        return text[: begin.start()] + text[at + 1 :]
    return re.sub(r";?\s*$", " ", text[: begin.start()]) + text[at:]


def has_faults(lines):
    """Whether a definition is a layout with both halves."""
    return bool(re.search(r"\bFaults (=|:)", "\n".join(lines)))


def half(lines, kept):
    """A layout's definition without its other half."""
    other = {"Spells": "Faults", "Faults": "Spells"}[kept]
    text = without(other, "\n".join(lines))
    text = re.sub(rf"\n  -- [^\n]*\n  pub {other} : [^\n]*|\n  pub {other} : [^\n]*", "", text)
    text = re.sub(r"record \{\n  ([^\n]*?);?\n\}$", r"record { \1 }", text)
    return re.sub(r"  \}", " }", text.replace("record {;", "record {")).split("\n")


def written(definitions, one, kept=None):
    """The lines of a definition as a page has it: its comment, and its text."""
    text = list(definitions.texts[one])
    while text and not text[-1].strip():
        text.pop()
    if kept and has_faults(text):
        text = half(text, kept)
    fixed = text[0].startswith("infix")
    text = text[:1] * fixed + in_braces(in_line(text[fixed:]))
    return definitions.comments[one], [re.sub(r"^(\s*)(?:abbrev )?(?:pub )?(?=\S)", r"\1", line) if not line.lstrip().startswith("--") else line for line in text]


def lines_of(definitions, them, kept=None):
    """How many lines definitions have on a page, without comments and empty lines."""
    return sum(1 for one in them for line in written(definitions, one, kept)[1] if line.strip() and not line.lstrip().startswith("--"))


def code(definitions, them, kept=None):
    """The text of definitions, a block for each file, with their comments."""
    parts, last = [], None
    for one in them:
        comment, text = written(definitions, one, kept)
        if one[:2] != last:
            parts += (["```\n"] if last else []) + [f"`crates/{one[0]}/specs/{one[1].replace('.', '/')}.antt`\n", "```text"]
            last = one[:2]
        elif comment or len(text) > 1:
            parts.append("")
        parts += [*comment, *text]
    return parts + (["```\n"] if last else [])


def contract(crate, file, name):
    """A call's comment and signature with its clauses, and the view of its type."""
    lines = (CRATES / crate / "src" / f"{file}.rt").read_text(encoding="utf-8").splitlines()
    begin = next(at for at, line in enumerate(lines) if re.match(rf" *pub fn {name}\b", line))
    end = next(at for at in range(begin, len(lines)) if lines[at].strip() in ("{", "{}"))
    while lines[begin - 1].lstrip().startswith("///"):
        begin -= 1
    margin = len(lines[begin]) - len(lines[begin].lstrip())
    return [line[margin:] for line in lines[begin:end]]


def promise():
    """The promise in a sentence, as README.md has it."""
    readme = (ROOT / "README.md").read_text(encoding="utf-8")
    return re.search(r"^> (\*If the checker .*)$", readme, re.M)[1]


def view(crate, owner):
    """What a value of a type means."""
    for path in code_files(crate):
        for of, ghost, text in believed.contracts(path):
            if of == owner and ghost == "view":
                return text[2:-2]


def declaration(path, name):
    """A struct or an enum of the code on one line, without its comments."""
    lines = path.read_text(encoding="utf-8").splitlines()
    begin = next(at for at, line in enumerate(lines) if re.match(rf"pub (struct|enum) {name}\b", line))
    end = next(at for at in range(begin, len(lines)) if lines[at] == "}")
    kept = [re.sub(r"^pub ", "", line.strip()) for line in lines[begin : end + 1] if not line.strip().startswith(("//", "#", "ghost"))]
    if name == "Reason":
        return "enum Reason { .. }"
    return " ".join(kept).replace(", }", " }").replace(" = 1,", ",").rstrip(",")


def code_types(definitions, them, more=()):
    """The types of the code that the definitions name: the declaration of each, and how the definitions write its cases."""
    found, cases = {one: None for one in more}, {}
    for one in them:
        for name, (crate, module, given) in definitions.imports[one[:2]].items():
            if module.startswith("declared.") and crate != "std":
                path = module.split(".")
                if ".TheVariants" in module and name != given:
                    cases.setdefault((crate, path[1], path[2]), {})[name] = f"`{name}` is {given}"
                elif ".TheVariants" not in module and name in believed.WORD.findall("\n".join(definitions.lines[one])):
                    found[crate, path[1], given] = None
        text = (CRATES / one[0] / "specs" / (one[1].replace(".", "/") + ".antt")).read_text(encoding="utf-8")
        for crate, file, name, called in re.findall(r"^use Rattle\.(omf_\w+)\.specs\.declared\.(\w+)\.(\w+)\.TheVariants as (\w+)$", text, re.M):
            cases.setdefault((crate, file, name), {})[called] = f"`{called}.` and the case"
    for crate, file, name in sorted(found):
        path = CRATES / crate / "src" / f"{file}.rt"
        yield f"| `{declaration(path, name)}` | {', '.join(text for _, text in sorted(cases.get((crate, file, name), {}).items()))} |"


def named_twice(them):
    """The names that two files define, each in its own sense."""
    files = {}
    for crate, module, name in them:
        files.setdefault(name, []).append(f"`{module}` of {crate}")
    found = [f"`{name}` ({' and '.join(where)})" for name, where in sorted(files.items()) if len(where) > 1]
    return f"Defined twice, in two senses, are {', '.join(found)}; a file with a definition of its own means that one." if found else ""


def computed(pages, known):
    """The computed words, and then the laws that tie them to definitions, with what these cite beyond the page."""
    definitions = pages.definitions
    yield from ["| Word | Computed in | What it is | Laws |", "|---|---|---|---|"]
    for crate, module, word in sorted(one for one in pages.theorem if one[1].startswith("Inner")):
        meaning, by = COMPUTED[word]
        by = ", ".join(f"`{law}`" for law in by.split(", "))
        yield f"| `{word}` | {crate}, specs/{module.replace('.', '/')} | {meaning} | {by} |"
    cited = beyond(pages, LAWS, known)
    yield LAWS_TEXT.format(count=lines_of(definitions, cited))
    yield from code(definitions, cited)


def beyond(pages, laws, known):
    """Laws, and what they cite that no page has yet."""
    place = {one: at for at, one in enumerate(pages.definitions.lines)}
    return sorted((one for one in pages.closed(laws, (), "Spells") - set(known) if not one[1].startswith("Inner")), key=lambda one: place[one])


def words_of(definitions, them):
    """The words of the kit that definitions use."""
    for one in them:
        used = set(believed.WORD.findall("\n".join(definitions.lines[one])))
        for name, (crate, _, _) in definitions.imports[one[:2]].items():
            if not crate.startswith("omf_") and (name.strip("◌") in used or name == "if◌then◌else◌" and "if" in used):
                yield name.strip("◌") if name != "if◌then◌else◌" else name


def key(definitions, them, others=()):
    """The rows of the key that definitions need, and no others: none that these other definitions need already."""
    used, known = set(words_of(definitions, them)), set(words_of(definitions, others))
    for row in KEY:
        kept = [(text, meaning) for words, text, meaning in row if text and (not others if not words else set(words.split()) & (used - known))]
        if kept:
            yield f"| {', '.join(text for text, _ in kept)} | {'; '.join(meaning for _, meaning in kept)} |"


def believe(pages):
    definitions, them = pages.definitions, pages.shown()
    count = lines_of(definitions, them, "Spells")
    laws = beyond(pages, LAWS, them)
    parts = [HEAD.format(promise=promise(), count=count, written=definitions.count(them)) + NOTES.format(twice=named_twice(them))]
    for number, (title, text) in enumerate(STEPS, 1):
        parts += [f"## {number}. {title} ({lines_of(definitions, pages.steps[number], 'Spells')} lines)\n", f"{text}\n", *code(definitions, pages.steps[number], "Spells")]
        if number == 1:
            parts += [CALL_TEXT, "```text"]
            for call in CALLS:
                lines = contract(*call)
                clauses = [at for at, line in enumerate(lines) if re.match(r" *(ensures (?!headline)\w+ \{|//(?!/))", line)]
                parts += [*(line for at, line in enumerate(lines) if at not in clauses), ""]
            parts[-1] = "```\n"
            parts.append(SEEN_TEXT.format(view=view("omf_placement", "Placement")))
        if number == 5:
            parts.append(ACCEPTED)
    parts += ["## Computed words\n", "These are not defined above, but computed.\n", *computed(pages, them)]
    parts += ["## The code's types\n", TYPES.format(types="\n".join(code_types(definitions, them, [("omf_reloc", "headline", "NoAnswer")])))]
    parts += ["## Key to the notation\n", "| Written | Means |", "|---|---|", *key(definitions, [*them, *laws]), KEY_END.format()]
    return "\n".join(parts).rstrip() + "\n" + END


def refusals(pages):
    definitions, known = pages.definitions, pages.shown()
    mine = [one for number in pages.refusal_steps for one in pages.refusal_steps[number]]
    count = lines_of(definitions, mine, "Faults")
    parts = [REFUSALS_HEAD.format(count=count, written=definitions.count(pages.reasons))]
    for number, (title, text) in enumerate(REFUSAL_STEPS, 1):
        them = pages.refusal_steps[number]
        parts += [f"## {number}. {title} ({lines_of(definitions, them, 'Faults')} lines)\n", f"{text}\n", *code(definitions, them, "Faults")]
    rows = [*key(definitions, mine, known)]
    parts += ["## Words of this page alone\n", "| Written | Means |", "|---|---|", *rows, ""]
    types = [row for row in code_types(definitions, mine) if row not in {*code_types(definitions, known)}]
    parts += ["| Type of the code | Cases in definitions |", "|---|---|", *types]
    return "\n".join(parts).rstrip() + "\n"


def broken(page):
    """A page whose long lines of text are broken after sentences."""
    lines, inside = [], False
    for line in page.splitlines():
        inside ^= line.startswith("```")
        while len(line) > LONG and not inside and not line.startswith(("|", ">")):
            at = line.rindex(". ", 0, LONG) + 1
            lines.append(line[:at])
            line = line[at + 1 :]
        lines.append(line)
    return "\n".join(lines) + "\n"


def unexplained(pages):
    """The words of the kit that the pages use and the key has not."""
    explained = {word for row in KEY for words, _, _ in row for word in words.split()}
    mine = [one for number in pages.refusal_steps for one in pages.refusal_steps[number]]
    them = [*pages.shown(), *mine, *beyond(pages, LAWS, [])]
    return sorted(set(words_of(pages.definitions, them)) - explained)


def marks(pages):
    """Definitions on the pages that name neither the standard nor this profile, by file, where the file's head does not either."""
    rows = {}
    for one in [*pages.shown(), *(it for it in pages.by_order(pages.reasons) if not it[1].startswith("Inner"))]:
        path = CRATES / one[0] / "specs" / (one[1].replace(".", "/") + ".antt")
        text = " ".join(pages.definitions.comments[one])
        if not re.search(r"TIS OMF|profile", text):
            rows.setdefault(path, []).append((one[2], bool(text)))
    for path, names in rows.items():
        head = re.search(r"TIS OMF|profile", "\n".join(line for line in path.read_text(encoding="utf-8").split("\nuse ")[0].splitlines() if line.startswith("--")))
        bare = [name for name, has in names if not has]
        print(f"{path.relative_to(ROOT)}: {'head has it' if head else 'HEAD WITHOUT'}; {len(names)} definitions; without any comment: {', '.join(bare) or 'none'}")


def main():
    pages = Pages()
    if sys.argv[1:] == ["--marks"]:
        marks(pages)
        return
    made = {BELIEVE: broken(believe(pages)), REFUSALS: broken(refusals(pages))}
    if sys.argv[1:] == ["--check"]:
        for path, text in made.items():
            if not path.exists() or path.read_text(encoding="utf-8") != text:
                sys.exit(f"docs/{path.name} differs from the sources: run tests/docs.py --write")
        if missing := unexplained(pages):
            sys.exit(f"the key of docs/BELIEVE.md does not explain: {', '.join(missing)}")
        return
    for path, text in made.items():
        path.write_text(text, encoding="utf-8")


main()
