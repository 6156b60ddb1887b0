"""The sources of this repository, as the scripts of tests/ read them: crates, by the names of crates.txt, their files, and what these name."""
import pathlib
import re

ROOT = pathlib.Path(__file__).resolve().parent.parent.parent
CRATES = ROOT / "crates"
# Crates that only tests need: records to test with, and a program that runs cases. Crates of tests end in `_tests`.
FOR_TESTS = {"omf_samples", "omf_cases"}


def needs():
    """Each crate of crates.txt, in its order, with the crates that its line names."""
    found = {}
    for line in (ROOT / "crates.txt").read_text(encoding="utf-8").splitlines():
        named = re.match(r"(\w+)(?: \w+)*:(.*)", line)
        if named and not line.startswith("#"):
            found[named[1]] = named[2].split()
    return found


def crates():
    """The crates of crates.txt that have a folder, in its order."""
    return [name for name in needs() if (CRATES / name).is_dir()]


def is_for_tests(name):
    return name.endswith(("_tests", "_trials")) or name in FOR_TESTS


def code_files(name):
    """The files of src/ of a crate, in order."""
    return sorted((CRATES / name / "src").rglob("*.rt"))


def spec_files(name):
    """The files of specs/ of a crate, in order: each with its module, as `Inner.Frames`."""
    folder = CRATES / name / "specs"
    return [(".".join(path.relative_to(folder).with_suffix("").parts), path) for path in sorted(folder.rglob("*.antt"))]


def imported(names):
    """What an import of `A, B as C` calls each name, and the name itself."""
    for it in names.split(", "):
        given, _, called = it.partition(" as ")
        yield called or given, given


def words_of(text):
    """The definitions that a file of src/ takes from specs/ of this repository: each with its crate, its module and its name there."""
    found = {}
    for crate, module, names in re.findall(r"ghost use Rattle\.(omf_\w+)\.specs\.([\w.]+)\.\{([^}]*)\}", text):
        found.update((called, (crate, module, given)) for called, given in imported(names))
    return found


def first_sentence(lines):
    """The first sentence of a comment, as a cell of a table has it."""
    text = " ".join(line.strip() for line in lines).strip()
    ended = re.match(r"(.*?[.!?])(?= [A-Z`(]|$)", text)
    return (ended[1] if ended else text).replace("|", "\\|")


def root_file(name):
    """A crate's root file: lib.rt or main.rt; None where it has neither."""
    return next((path for it in ("lib.rt", "main.rt") if (path := CRATES / name / "src" / it).exists()), None)


def exported(name):
    """The names that a crate makes public by its root file and its public modules, and these modules, less those of laws and of worked
    examples."""
    names, modules, left = set(), set(), [root_file(name)] if root_file(name) else []
    while left:
        path = left.pop()
        text = path.read_text(encoding="utf-8")
        for use in re.findall(r"^pub use ([^;]*);", text, re.M):
            names.update(re.findall(r"\w+", use))
        for module in set(re.findall(r"^pub mod (\w+);", text, re.M)) - {"laws", "rows", "edges"}:
            folder = path.parent if path.stem in ("lib", "main", "mod") else path.with_suffix("")
            found = next((it for it in (folder / f"{module}.rt", folder / module / "mod.rt") if it.exists()), None)
            modules.add(module)
            left += [found] if found else []
    return names, modules
