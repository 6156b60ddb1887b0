"""How many lines of definitions a reader has to believe: those that contracts cite, followed to the end. A contract is the clauses of a
function, or what an impl gives a trait as its ghosts (`asks`, `report`, `view`, ..), but for proofs and invariants. A computed definition
of specs/Inner is neither counted nor followed; a law ties it to a definition, which is counted where the law is."""
import re

from tree import code_files, crates, exported, imported, is_for_tests, spec_files, words_of

# Calls by crate. The ghosts of a type's impls count with it, also where only a function of it is named.
HEADLINE = {
    "omf_check": "check Checked::records Records",
    "omf_placement": "Placement",
    "omf_image": "Image::get Image::run_at Image::run_bytes",
    "omf_reloc": "reach relocate start check_and_relocate accepted_are_safe",
}
# The theorem: the call, the law of all accepted modules, and the call that shows the bytes of an image.
THEOREM = {"omf_reloc": "check_and_relocate accepted_are_safe", "omf_image": "Image::get"}
# The calls of the seven core crates; those of placements are in omf_placement, and omf_reloc gives them on.
CORE = {
    "omf_frame": "Reason::number Source Source::pull Sink Sink::push Reading::new Writing::new Script Script::new Script::failing_once Script::interrupted Script::in_pieces "
    "Taker Taker::new Taker::failing_once Taker::interrupted Taker::in_pieces Field::read_at Field::put Index Name Le16 Le32 CommunalLength checksum RawRecord "
    "Framer::new Framer::feed Framer::want Framer::raw Framer::next Framer::ended Framer::stop write_record",
    "omf_records": "view Rec::kind Items::iter Items::next Blocks put_rec",
    "omf_image": "Limits::profile expanded_len expand add_part Image::new Image::lay Image::get Image::run_at",
    "omf_check": "check Session::new Session::feed Session::want Session::ended Session::finish Checked::bytes Checked::profile Checked::records Records "
    "Checked::names Checked::segments Checked::groups Checked::externals Checked::name Checked::external Checked::segment Checked::group",
    "omf_placement": "Frame::real Placement::new Placement::push_segment Placement::push_group Placement::push_external Placement::segment Placement::group "
    "Placement::external real_group parse_placement Draft::resolve derive",
    "omf_reloc": "reach relocate start",
    "omf_canon": "canon canon_to",
    "omf_cmd": "run_list run_check run_canon run_reloc fault_line command main_with",
}
# Ghosts of an impl that are proved and promise nothing: invariants of a type, proofs that a trait asks for, bounds of loops.
PROVED = {"invariant", "inverse", "prefix_free", "is_shortest", "shrinks", "remaining"}
WORD = re.compile(r"[^\s(){}\[\],;.]+")


class Definitions:
    """The definitions of all specs/, by crate, module and name: the lines of each, its comment, and its text with the comments in it; and
    what each file imports. The definitions of a mutual block are one, as are a data type and its constructors."""

    def __init__(self):
        self.lines, self.comments, self.texts, self.imports, self.key = {}, {}, {}, {}, {}
        for crate in crates():
            for module, path in spec_files(crate):
                if path.stem not in ("Lib", "Inner"):
                    self.read(crate, module, path.read_text(encoding="utf-8").splitlines())

    def read(self, crate, module, lines):
        imports, current, comment, before, kind = {}, None, [], [], None
        for line in lines:
            used = re.match(r"use Rattle\.(\w+)\.specs\.([\w.]+)\.\{(.*)\}", line)
            begins = re.match(r"(?:abbrev |pub |unfoldable |reducible |record |data )*(\S+)(?: .*?)? :(?: |$)", line)
            if used:
                imports.update((called, (used[1], used[2], given)) for called, given in imported(used[3]))
            if line.startswith(("use ", "mod ", "pub mod ")):
                comment = []
            elif not line.strip() or line.lstrip() != line and line.lstrip().startswith("--"):
                if current:
                    self.texts[current].append(line)
            elif line.startswith("--"):
                comment.append(line)
            elif line.startswith("infix"):
                before = [line]
            else:
                is_mutual = bool(re.match(r"(?:abbrev |pub )*mutual$", line))
                # An equation may have a type within it: `HasDraft o text = (records : List Raw) × ..`.
                if is_mutual or begins and not line[0].isspace() and " = " not in begins[0]:
                    kind = "mutual" if is_mutual else "data" if re.match(r"(?:abbrev |pub )*data ", line) else None
                    current = (crate, module, f"mutual {len(self.lines)}" if is_mutual else begins[1])
                    self.lines[current], self.texts[current], self.comments[current], self.key[current] = [], before, comment, current
                    comment, before = [], []
                inside = re.match(r" +(?:(?:pub |data |record )+(\S+)(?: .*?)?|([A-Z]\w*)) :(?: |$)", line)
                if inside and (kind == "mutual" or kind == "data" and inside[2]):
                    self.key[crate, module, inside[1] or inside[2]] = current
                if current:
                    self.lines[current].append(line)
                    self.texts[current].append(line)
        self.imports[crate, module] = imports

    def cited(self, crate, module, text):
        """The definitions that a text of a module names."""
        for word in set(WORD.findall(text)):
            for name in {word, word.strip("◌"), f"◌{word}◌"}:
                found = self.key.get((crate, module, name)) or self.key.get(self.imports[crate, module].get(name))
                if found:
                    yield found

    def closed(self, roots):
        """What these definitions cite, and what that cites, to the end."""
        seen, left = set(), list(roots)
        while left:
            one = left.pop()
            if one not in seen:
                seen.add(one)
                if not one[1].startswith("Inner"):
                    left += self.cited(one[0], one[1], "\n".join(self.lines[one]))
        return seen

    def count(self, found):
        return sum(len(self.lines[one]) for one in found if not one[1].startswith("Inner") and one[1].split(".")[-1] not in ("Rows", "Modules"))


def contracts(path):
    """Each function of a file, and each ghost of an impl, with its type if it has one, and the text of its contract."""
    owner, name, text = None, None, []
    for line in path.read_text(encoding="utf-8").splitlines():
        ghost = re.match(r"    ghost (\w+)(?: =|:) (\{.*\});", line)
        if ghost and ghost[1] not in PROVED:
            yield owner, ghost[1], ghost[2]
        begins = re.match(r"impl(?:<[^{]*?>)? (?:[^{]*? for )?(\w+)|pub trait (\w+)", line)
        function = re.match(r" *(?:pub )?(?:extern \"C\" )?fn (\w+)", line)
        if begins or line == "}":
            owner = begins and (begins[1] or begins[2])
        if function:
            name, text = function[1], []
        if name:
            if text or re.match(r" *(ensures|requires)\b", line):
                text.append(line)
            if line.rstrip().endswith(("{", "{}")) and "ensures" not in line and "requires" not in line or line.rstrip().endswith("};"):
                yield owner, name, "\n".join(text)
                name = None


def named(calls):
    """Whether a contract is of one of these calls, or is what an impl gives a type of them as a ghost."""
    names = {crate: set(text.split()) for crate, text in calls.items()}
    owners = {crate: {it.split("::")[0] for it in found} for crate, found in names.items()}

    def wanted(crate, owner, name, contract, is_public, is_law):
        is_ghost = contract.startswith("{") and owner in owners.get(crate, ())
        is_named = (f"{owner}::{name}" if owner else name) in names.get(crate, ())
        return is_named if is_law else is_public and (is_ghost or is_named)

    return wanted


def roots(definitions, wanted):
    """The definitions that contracts cite of the functions for which wanted(crate, owner, name, contract, is_public, is_law) holds."""
    found = set()
    for crate in crates():
        if is_for_tests(crate):
            continue
        public, modules = exported(crate)
        for path in code_files(crate):
            if path.stem.split("_")[-1] in ("rows", "edges", "tests") or "tests" in path.parts:
                continue
            text = path.read_text(encoding="utf-8")
            words = {called: definitions.key.get(one) for called, one in words_of(text).items()}
            is_law = path.stem.split("_")[-1] == "laws" or path.parent.name == "laws"
            for owner, name, contract in contracts(path):
                is_public = (owner or name) in public or path.stem in modules or "no_mangle" in text
                if wanted(crate, owner, name, contract, is_public, is_law):
                    found |= {words[it] for it in WORD.findall(contract) if words.get(it)}
    return found


def table():
    definitions = Definitions()

    def cited(wanted):
        return definitions.closed(roots(definitions, wanted))

    theorem = cited(named(THEOREM))
    headline = cited(named(HEADLINE))
    core = cited(named(CORE))
    calls = cited(lambda crate, owner, name, contract, public, law: public and not law)
    laws = cited(lambda crate, owner, name, contract, public, law: law)
    return [
        "| Contracts of | Lines of definitions that they cite, followed to the end |",
        "|---|---|",
        f"| the theorem: `check_and_relocate`, `accepted_are_safe` and `Image::get` | {definitions.count(theorem):,} |",
        f"| the headline, that is also `check`, `records`, `reach`, `relocate`, `start`, `run_at`, `run_bytes` | {definitions.count(headline):,} |",
        f"| the calls of the seven core crates | {definitions.count(core):,} |",
        f"| all public calls | {definitions.count(calls):,} |",
        f"| laws, beyond these | {definitions.count(laws - calls):,} |",
    ]
