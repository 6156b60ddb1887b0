"""A linker for real mode: link.py BASE SIZE OUTPUT MODULE.. lays the segments of the modules one after another from the address BASE on, each in the
frame of its address, and writes SIZE bytes of memory from there on; the numbers are hexadecimal. It prints the text by which `omf-link bin` does the same."""
import sys

import omf
from omf import Frame, Place, Placement

ALIGNED = (1, 1, 2, 16, 256, 4)


def lay(module, after):
    """The places of the segments from an address on, and the address after them."""
    places = []
    for segment in module.segments:
        if segment.absolute:
            number, offset = segment.absolute
            places.append(Place(16 * number + offset, Frame(16 * number, number)))
            continue
        address = -(-after // ALIGNED[segment.align]) * ALIGNED[segment.align]
        places.append(Place(address, Frame(address & ~15, address >> 4)))
        after = address + segment.length
    return places, after


def frames_of(module, places):
    """The frames of the groups: each has the frame of its lowest member."""
    return [min((places[index - 1] for index in group.segments), key=lambda place: place.address).frame for group in module.groups]


def place_of(public, placement):
    """Where a public is: in the frame of its group, or else of its segment."""
    if not public.segment:
        return Place(16 * public.frame + public.offset, Frame(16 * public.frame, public.frame))
    place = placement.segments[public.segment - 1]
    frame = placement.groups[public.group - 1] if public.group else place.frame
    return Place(place.address + public.offset, frame)


def resolve(module, external, placed):
    """The place of the public with the name of an external; of a local one in its own module."""
    found = [place_of(public, placement) for other, placement in placed for public in other.publics
             if public.name == external.name and public.is_local == external.is_local and (other is module or not public.is_local)]
    if len(found) != 1:
        sys.exit(f"{'defined twice' if found else 'not defined'}: {external.name}")
    return found[0]


def main(base, size, output, *paths):
    base, memory, after, placed = int(base, 16), bytearray(int(size, 16)), int(base, 16), []
    for path in paths:
        with open(path, "rb") as file:
            module = omf.Module(file.read())
        places, after = lay(module, after)
        placed.append((module, Placement(places, frames_of(module, places))))
    for number, (module, placement) in enumerate(placed, 1):
        image = module.relocate(placement._replace(externals=[resolve(module, external, placed) for external in module.externals]))
        for run in image.runs:
            at = placement.segments[run.segment - 1].address + run.offset - base
            if not 0 <= at <= len(memory) - len(run.data):
                sys.exit(f"outside the memory: {module.name}")
            memory[at:at + len(run.data)] = run.data
        print(f"M #{number}")
        for index, (address, frame) in enumerate(placement.segments, 1):
            print(f"S #{index} {address:X} {frame.base:X} {frame.selector:X}")
        for index, frame in enumerate(placement.groups, 1):
            print(f"G #{index} {frame.base:X} {frame.selector:X}")
    with open(output, "wb") as file:
        file.write(memory)


try:
    main(*sys.argv[1:])
except omf.Error as fault:
    sys.exit(str(fault))
