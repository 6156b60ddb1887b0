"""Does what `omf-link exe` and `com` do, by the package: as_linker.py exe|com -o OUTPUT FILE.. [--allow KIND].. [--stack N] [--order dos|input] [--ignore-case]

tests/c/run.sh runs the cases of conformance/programs on it. A call that the package does not have, as with --map, ends with status 77, and so do modules
that ask for libraries: the package looks for no files.
"""
import argparse
import os
import sys
import warnings

sys.path.insert(0, os.path.join(os.path.dirname(__file__), ".."))
import omf  # noqa: E402

CANNOT = 77


def asks_for_library(data):
    """Whether one of the records is a comment of class 9FH or 81H."""
    at = 0
    while at + 5 <= len(data):
        if data[at] == 0x88 and data[at + 4] in (0x9F, 0x81):
            return True
        at += 3 + int.from_bytes(data[at + 1 : at + 3], "little")
    return False


parser = argparse.ArgumentParser()
parser.error = lambda _: sys.exit(CANNOT)
parser.add_argument("kind", choices=["exe", "com"])
parser.add_argument("-o", dest="output", required=True)
parser.add_argument("--allow", action="append", default=[])
parser.add_argument("--stack", type=int, default=0)
parser.add_argument("--order")
parser.add_argument("--ignore-case", action="store_true")
parser.add_argument("files", nargs="+")
asked = parser.parse_intermixed_args()
files = []
for path in asked.files:
    with open(path, "rb") as file:
        files.append((path, file.read()))
if any(asks_for_library(data) for _, data in files):
    sys.exit(CANNOT)
with warnings.catch_warnings(record=True) as caught:
    warnings.simplefilter("always")
    try:
        program = omf.link_exe(files, asked.stack, asked.order, asked.kind == "com", asked.ignore_case, asked.allow)
    except omf.NotLinked as fault:
        sys.exit("\n".join(f"omf-link: {line}" for line in str(fault).splitlines()))
    except ValueError:
        sys.exit(CANNOT)
for warning in caught:
    print(f"omf-link: {warning.message}", file=sys.stderr)
with open(asked.output, "wb") as file:
    file.write(program)
