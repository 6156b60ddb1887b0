"""What omf-dump shows of a module: its lines of JSON and of text against one another, the bytes, and the answers of `omf`."""
import json
import re
import struct

from promises import promised

# The numbers with a sign.
DELTAS = ("external-delta", "line-delta")
# Types with a name whose fields are not known.
OBSOLETE = "RHEADR REGINT REDATA RIDATA OVLDEF ENDREC BLKDEF BLKEND DEBSYM PEDATA PIDATA LOCSYM LIBHED LIBNAM LIBLOC LIBDIC".split()


def look_at_value(value, most):
    """Characters are bytes, no number but DELTAS is negative, and data are whole bytes, at most as many as were asked for."""
    if isinstance(value, dict):
        for key, one in value.items():
            if key in DELTAS:
                continue
            if key in ("data", "bytes", "left") and isinstance(one, str):
                promised(re.fullmatch("(?:[0-9A-F]{2})*", one), f"{key} {one}")
            look_at_value(one, most)
        left = value.get("left-out")
        promised(left is None or (left > 0 and most is not None), "left-out")
        promised(most is None or "refused" in value or len(value.get("data", "")) <= 2 * most, "more data than asked for")
    elif isinstance(value, list):
        for one in value:
            look_at_value(one, most)
    elif isinstance(value, str):
        promised(all(ord(it) < 256 for it in value), "a character that is no byte")
    else:
        promised(isinstance(value, bool) or (isinstance(value, int) and value >= 0), f"value {value}")


def deltas_of(body):
    """What an INCDEF adds to the counts of externals and of lines: two 16-bit numbers with a sign, as far as they are there."""
    return {name: struct.unpack_from("<h", body, at)[0] for name, at in zip(DELTAS, (3, 5)) if at + 2 <= len(body)}


def no_doubles(pairs):
    keys = [key for key, _ in pairs]
    promised(len(set(keys)) == len(keys), f"a key twice: {keys}")
    return dict(pairs)


def look_at_records(lines, bytes_, most):
    """The records of JSON: numbered from 0, one after another in the file; those after one at fault are not judged, nor are its fields. Returns them."""
    found, at, is_judged = [], 0, True
    for number, line in enumerate(lines):
        one = json.loads(line, object_pairs_hook=no_doubles)
        look_at_value(one, most)
        promised(one["number"] == number and one["start"] == at, f"record {number}: number or start")
        promised(("unjudged" not in one) == is_judged, "a record after the one at fault")
        is_judged = is_judged and "refused" not in one
        promised(("fields" in one) == ("refused" in one and one.get("record", "") not in ("", *OBSOLETE)), f"record {number}: fields beside a refusal")
        shown = one.get("fields", {}) if "refused" in one else one
        promised("refused" not in one or not shown or shown["unjudged"] is True, f"record {number}: judged fields of a record at fault")
        size = 3 + struct.unpack_from("<H", bytes_, at + 1)[0] if len(bytes_) - at >= 3 else len(bytes_) - at
        promised("type" not in one or one["type"] == bytes_[at], f"record {number}: type")
        deltas = deltas_of(bytes_[at + 3:at + size - 1]) if shown.get("subtype") == "INCDEF" else {}
        promised({it: shown[it] for it in DELTAS if it in shown} == deltas, f"record {number}: deltas {deltas}")
        promised(all(3 <= it["within"] < size for it in shown.get("items", ())), f"record {number}: within")
        if "refused" in one and "byte" in one:
            promised(one["byte"] == bytes_[at + one["within"]], "the byte at fault")
        found.append(one)
        at += size
    return found


def last_judged(found):
    """The record at fault; of an accepted module the last record."""
    return [it for it in found if "unjudged" not in it][-1]


def compare_verdict(answer, found, bytes_):
    """The answers of `omf check` and of omf-dump."""
    accepted = re.fullmatch(rb"OK (\d+) records, (\d+) bytes\n", answer)
    last = last_judged(found)
    if accepted:
        promised("refused" not in last and len(found) == int(accepted[1]), "accepted, but shown otherwise")
        promised(last["start"] + 3 + struct.unpack_from("<H", bytes_, last["start"] + 1)[0] == int(accepted[2]), "the module's length")
    else:
        shown = [last.get(it) for it in ("refused", "reason", "number", "start", "within")]
        promised(answer == "refused {} {} record {} at {} within {}\n".format(*shown).encode(), f"check {answer}, dump {shown}")


def compare_list(listed, found):
    rows = re.findall(r"^R (\d+) ([0-9A-F]+) ([0-9A-F]{2}) \d+ (\S+)$", listed.decode(), re.M)
    shown = [(str(it["number"]), f"{it['start']:08X}", f"{it['type']:02X}", it["record"]) for it in found]
    promised(rows == shown, "omf list has other records")


def compare_text(text, found):
    """The lines of records in the text, and the records of JSON. A record at fault has two lines, if its fields are shown."""
    rows = re.findall(r"^(\d+) ([0-9A-F]+) (?:([0-9A-F]{2}) (\S*))?", text.decode(), re.M)
    shown = [(str(it["number"]), f"{it['start']:08X}", f"{it['type']:02X}" if "type" in it else "", it.get("record", "")) for it in found for _ in range(1 + ("fields" in it))]
    promised(rows == shown, f"text {rows[-1:]}, JSON {shown[-1:]}")
