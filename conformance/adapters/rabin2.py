#!/usr/bin/env python3
"""radare2's rabin2: whether it opens the input as OMF.

It shows addresses of its own, and pieces of data in place of segments."""
import json

import peer


def fault(status, text):
    for line in text.splitlines():
        if line.startswith("ERROR"):
            return line
    if status:
        return f"status {status}"
    said = json.loads(text[text.index("{") :])
    return None if said["info"]["bintype"] == "omf" else "not taken as OMF"


peer.answer(["rabin2", "-j", "-I", "-S", "-s", "-i"], fault)
