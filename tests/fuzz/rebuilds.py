"""Libraries that omf-lib writes: `make` of the members that were taken, and `canon`."""
import os
import re

import libraries
from promises import promised, run


def is_whole(lib, file, folder):
    """`check` has no fault of a library that was written, and a second reader finds each of its entries."""
    status, text = run([lib, "check", file], folder=folder)
    promised(status == 0 and text.startswith(b"OK ") and all(it[:7] in (b"note 17", b"note 22") for it in text.splitlines()[1:]), f"check of {file}: {text[:200]}")
    bytes_ = (folder / file).read_bytes()
    promised(all(libraries.is_found(bytes_, it, keeps) for it, _ in libraries.entries(bytes_) for keeps in (False, True)), f"{file}: an entry is not found")
    return [bytes_[at:at + length] for at, length in libraries.members(bytes_)[0]]


def make_again(lib, members, folder):
    """The library of these members has exactly them; or a line has why there is none."""
    files = [f"m{number}.obj" for number in range(len(members))]
    for file, bytes_ in zip(files, members):
        (folder / file).write_bytes(bytes_)
    (folder / "made.lib").unlink(missing_ok=True)
    status, text = run([lib, "make", "-o", "made.lib", *files], folder=folder)
    promised((folder / "made.lib").exists() == (status == 0), f"make: status {status}, and the file")
    if status == 0:
        promised(is_whole(lib, "made.lib", folder) == members, "make: other members")
        entries = {name for name, _ in libraries.entries((folder / "made.lib").read_bytes())}
        promised(not entries & libraries.communals_alone(members), "make: an entry of a communal")
        promised({it for one in members for it in libraries.aliases(one)} <= entries, "make: an alias without an entry")
    else:
        promised(re.match(rb"(twice|refused|m\d+\.obj: refused)\b", text), f"make: {text[:200]}")
    promised(not any(it.endswith(".tmp") for it in os.listdir(folder)), "a .tmp file is left")


def canon_twice(lib, name, members, folder):
    """The canonical library of a library is its own, with as many members and no fault; or a line has why there is none."""
    for file in ("one.lib", "two.lib"):
        (folder / file).unlink(missing_ok=True)
    status, text = run([lib, "canon", "-o", "one.lib", name], folder=folder)
    promised((folder / "one.lib").exists() == (status == 0) and (status or text.count(b"\n") == 1), f"canon: status {status}, {text[:200]}")
    if status == 0:
        promised(len(is_whole(lib, "one.lib", folder)) == members, "canon: other members")
        run([lib, "canon", "-o", "two.lib", "one.lib"], folder=folder)
        promised((folder / "one.lib").read_bytes() == (folder / "two.lib").read_bytes(), "canonical bytes change")
