"""Shows an object module: show.py MODULE PLACEMENT. Its segments, its fixups with the names of their targets, and its image and start."""
import sys

import omf

try:
    module = omf.Module(open(sys.argv[1], "rb").read())
    image = module.relocate(open(sys.argv[2], "rb").read())
except omf.Error as fault:
    sys.exit(str(fault))
for index, segment in enumerate(module.segments, 1):
    print(f"segment {index} {segment.name or ''}: {segment.length} bytes")
for fixup in module.fixups:
    print(f"fixup {fixup.segment}:{fixup.offset:04X} type {fixup.location} of {module.target_name(fixup) or ''}")
for run in image.runs:
    for at in range(0, len(run.data), 16):
        print(f"{run.segment:04X}:{run.offset + at:08X} {run.data[at:at + 16].hex(' ').upper()}")
if image.start:
    print("START {:04X}:{:08X}".format(*image.start))
