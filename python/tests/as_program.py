"""Prints what the program omf prints, by the package: as_program.py check|list|canon|reloc FILE..

The placement of a FILE is in FILE.place. tests/c/run.sh compares the output with the program's.
"""
import os
import sys

sys.path.insert(0, os.path.join(os.path.dirname(__file__), ".."))
import omf  # noqa: E402


def lines_of(image: omf.Image) -> str:
    lines = []
    for run in image.runs:
        for at in range(0, len(run.data), 16):
            lines.append(f"{run.segment:04X}:{run.offset + at:08X} {run.data[at:at + 16].hex(' ').upper()}\n")
    if image.start:
        lines.append("START {:04X}:{:08X}\n".format(*image.start))
    return "".join(lines)


def answer(job: str, path: str) -> bytes:
    with open(path, "rb") as file:
        module = omf.Module(file.read())
    if job == "canon":
        return module.canonical()
    if job == "list":
        return module.listing().encode()
    if job == "check":
        return f"OK {module.record_count} records, {module.size} bytes\n".encode()
    with open(path + ".place", "rb") as file:
        return lines_of(module.relocate(file.read())).encode()


for name in sys.argv[2:]:
    sys.stdout.buffer.write(f"== {name}\n".encode())
    try:
        sys.stdout.buffer.write(answer(sys.argv[1], name))
    except omf.Error as fault:
        sys.stdout.buffer.write(f"{fault}\n".encode())
