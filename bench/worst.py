#!/usr/bin/env python3
"""Makes the inputs that cost a program the most, and measures it on them: worst.py omf|link|programs|find|strangers|all [PART|--write]

omf        check, list, canon and reloc of omf, and omf-place; the modules need 1.1 GB of room for the longest listing
link       omf-link, each input at two sizes
programs   omf-dump and omf-lib, each input at two sizes
find       omf-find, each input at two sizes
strangers  omf-link exe: COMDATs of one name, chains of aliases, LIDATAs with fixups, with limits of time and memory
all        all of these but `strangers`, and then the worst of each task; --write puts its ratio into the table of docs/HOSTILE.md. The status is 1 where an input takes
           over ten times `sha256sum` that bench/worst/hostile.py does not name
PART is a part of the names of the inputs that are wanted. OMF, OMF_PLACE, OMF_LINK, OMF_DUMP, OMF_LIB and OMF_FIND name the programs, RUNS how often each
runs (the least counts). bench/worst/ has the inputs, and what the columns of each table are."""
import pathlib
import sys

sys.path.insert(0, str(pathlib.Path(__file__).resolve().parent / "worst"))
import core  # noqa: E402
import finder  # noqa: E402
import hostile  # noqa: E402
import linker  # noqa: E402
import readers  # noqa: E402
import strangers  # noqa: E402

TABLES = {"omf": core.table, "link": linker.table, "programs": readers.table, "find": finder.table}


def main(words):
    if len(words) not in (1, 2) or words[0] not in (*TABLES, "strangers", "all"):
        sys.exit(__doc__)
    if words[0] == "strangers":
        strangers.table(words[1] if len(words) == 2 else "")
        return 0
    if words[0] != "all":
        TABLES[words[0]](words[1] if len(words) == 2 else "")
        return 0
    for name, table in TABLES.items():
        print(f"\n{name}:\n", flush=True)
        table("" if words[1:] in ([], ["--write"]) else words[1])
    return hostile.report(words[1:] == ["--write"])


if __name__ == "__main__":
    sys.exit(main(sys.argv[1:]))
