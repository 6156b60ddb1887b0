#!/usr/bin/env python3
"""Makes a raw image of what `omf reloc` prints: image.py PLACEMENT ADDRESS SIZE < listing > image

Each segment is at the address of its S line in the placement. The image begins at ADDRESS (hexadecimal) and has SIZE bytes
(decimal); a byte that no line covers is 0.
"""
import sys


def segment_addresses(placement):
    lines = (line.split(";")[0].split() for line in placement)
    return [int(words[1], 16) for words in lines if words and words[0] == "S"]


def main():
    placement, begin, size = sys.argv[1], int(sys.argv[2], 16), int(sys.argv[3])
    with open(placement) as lines:
        addresses = segment_addresses(lines)
    image = bytearray(size)
    for line in sys.stdin:
        place, _, data = line.partition(" ")
        if place == "START":
            continue
        segment, _, offset = place.partition(":")
        at = addresses[int(segment, 16) - 1] + int(offset, 16) - begin
        data = bytes.fromhex(data)
        if at < 0 or at + len(data) > size:
            sys.exit(f"outside the image: {line.strip()}")
        image[at:at + len(data)] = data
    sys.stdout.buffer.write(image)


main()
