"""Opens each file and each example on the page: its sentences, its tree, and what is saved, byte for byte as the programs print it."""
import contextlib
import hashlib
import json
import re

from shared import ROOT, STATE, native, open_file, printed, text_of

MEMBERS = 20   # of a library, that are opened: the first ones, and as many that are refused
# Words of a script that went wrong, each with the name that it is a part of.
WORDS = ("undefined", "NaN", "null", "[object")
WRONG = re.compile(rf"[\w.$@?]*(?:{'|'.join(map(re.escape, WORDS))})[\w.$@?]*", re.ASCII)
# All that the page shows: its title, its text, titles and values. The bytes of the file as letters are left out.
SHOWN = """(() => {
  const whole = "#advice p, #said-a p, #said-b p, #library-findings li";
  const own = it => [...it.childNodes].filter(node => node.nodeType === 3).map(node => node.data).join(" ");
  const isShown = it => !it.closest("script, style, .letters") && it.closest("[hidden]") === null && !it.parentElement.closest(whole);
  const parts = [...document.querySelectorAll("body *")].filter(isShown);
  return [document.title, ...parts.map(it => [it.matches(whole) ? it.textContent : own(it), it.title, it.label, it.getAttribute("aria-label"), it.value].filter(Boolean).join(" "))].join("\\n");
})()"""
# Texts of docs/REASONS.md and docs/LIBRARIES.md, as the page shows them.
QUOTED = """[...Object.values(page.reasons), ...Object.values(page.library.faults)].flatMap(it => [it.means, it.cause, it.todo]).filter(Boolean)
  .map(text => text.replace(/`|\\*\\*/g, ""))"""
# Each item of a record ends where the next begins, and the last where its contents end.
TILED = """(() => {
  const { look, tree } = page;
  let wrong = 0;
  for (let record = 0; record + 1 < look.records.length && record < 400; record++) {
    const dump = tree.dumpOf(record), [from, to] = look.placeOf(record);
    if (!dump.items || !dump.items.length) continue;
    const items = recordTree(look.bytes, from, to, dump, look.dataBefore(record)).filter(row => row.within);
    items.forEach((item, i) => { if (item.to !== (i + 1 < items.length ? items[i + 1].from : to - 1)) wrong++; });
  }
  return wrong;
})()"""
# What the tree shows of all records and items, and the list of members, as they would be drawn.
TREE = """(() => {
  const { look, tree, library } = page, lines = library.shown.slice(0, 300).map((_, i) => library.row(i).map(it => it.textContent ?? it).join(""));
  for (let record = 0; record + 1 < look.dump.starts.length && record < 300; record++) {
    lines.push(tree.lineOf(record));
    const [from, to] = look.placeOf(record);
    for (const row of recordTree(look.bytes, from, to, tree.dumpOf(record), look.dataBefore(record))) lines.push(row.key + " " + row.value);
  }
  return lines.join("\\n");
})()"""
MARKED = """(() => {
  const it = document.querySelector("#hex .fault"), box = document.getElementById("hex").getBoundingClientRect();
  if (!it) return null;
  const at = it.getBoundingClientRect();
  return [it.dataset.at, at.top >= box.top && at.bottom <= box.bottom + 1];
})()"""


def wrong_words(text, own):
    """The words of a script that went wrong in a text, other than names of the file, whole or cut (`nullfi..`)."""
    names = set(WRONG.findall(own))
    found = [it.rstrip(".") for it in WRONG.findall(re.sub(r"\\x[0-9A-F]{2}", " ", text))]
    return [it for it in found if it not in names and (it in WORDS or not any(it in name for name in names))]


def no_wrong_words(tab, tries, name, data):
    own = f"{data.decode('latin-1')}\n{name}\n{printed('omf_dump', [], data).decode('latin-1')}"
    for what, script in (("page", SHOWN), ("tree", TREE)):
        text = tab.value(script)
        for quoted in filter(WRONG.search, tab.value(QUOTED)):
            text = text.replace(quoted, "")
        tries.see(f"{name}: words of the {what}", wrong_words(text, own), [])


def taken(tab, data):
    """What can be taken out, by its kind: what the programs print."""
    place = tab.value("document.getElementById('place-a').value").encode()
    wanted = {"dump": printed("omf_dump", [], data), "json": printed("omf_dump", ["--json"], data)}
    if tab.value("page.look.verdict.ok"):
        module = data[:tab.value("page.look.verdict.size")]
        wanted |= {"canon": printed("omf", ["canon"], module), "placement": place}
        if tab.value("!document.getElementById('take-image').hidden"):
            wanted["image"] = printed("omf", ["reloc"], module + place)
    return wanted


def saved(tab, tries, name, data):
    """What is saved is what the programs print."""
    for kind, wanted in taken(tab, data).items():
        got = tab.saved(f"[data-act=save-{kind}]")
        tries.see(f"{name}: saved {kind}", [len(got), hashlib.sha256(got).hexdigest()], [len(wanted), hashlib.sha256(wanted).hexdigest()])


def accepted(tab, tries, name, data, line):
    sentence, size = tab.value(text_of("verdict")), int(line[3])
    tries.see(f"{name}: accepted", sentence.startswith(f"{name} is a well-formed module: {int(line[1]):,} record"), True)
    tries.see(f"{name}: the rest", "not read" in sentence, size < len(data))
    tries.see(f"{name}: rows of the tree", tab.value("page.tree.count()"), int(line[1]))
    tries.see(f"{name}: places of items", tab.value(TILED), 0)
    tries.see(f"{name}: key", tab.value(text_of("key")).split()[0], hashlib.sha256(printed("omf", ["canon"], data)).hexdigest())
    base, kind, is_draft = tab.value("[document.getElementById('base').value, kind.value, page.placing.isDraft.a]")
    if not is_draft:
        return
    status, draft = native("omf_place", ("--base", base, *(["--real"] if kind == "real" else ["--flat", "8"])), data)
    tries.see(f"{name}: draft", tab.value("document.getElementById('place-a').value").encode(), draft if status == 0 else b"")
    tries.see(f"{name}: a good module has no red", tab.value("document.querySelectorAll('#said-a .bad, .arrow.bad, #verdict.bad').length"), 0)


def refused(tab, tries, name, data, line):
    sentence, record, fault = tab.value(text_of("verdict")), int(line[4]), int(line[6]) + int(line[8])
    lines = [json.loads(it) for it in printed("omf_dump", ["--json"], data).decode("latin-1").splitlines()]
    lines = lines[:next((at for at, it in enumerate(lines) if at and "number" not in it and "fault" not in it), len(lines))]  # of the first module, or a library's header
    last = next((it for it in lines if "refused" in it), None)
    means = f" is refused: {last['meaning']}" if last else " is no module: read as one, it is refused."
    tries.see(f"{name}: the sentence", sentence.startswith(name + means), True)
    tries.see(f"{name}: the reason", f"Reason {line[1]}, {line[2]}, in record {line[4]}" in sentence, True)
    tries.see(f"{name}: the byte", f"byte {fault} (" in sentence, True)
    tries.see(f"{name}: advice", tab.value("document.querySelectorAll('#advice p').length >= 2"), True)
    if fault < len(data):
        with contextlib.suppress(RuntimeError):  # the bytes are drawn with the next frame
            tab.until("!!document.querySelector('#hex .fault')", 2)
        tries.see(f"{name}: the marked byte in sight", tab.value(MARKED), [str(fault), True])
    if not data:
        return
    tries.see(f"{name}: the record at fault is chosen", tab.value("page.tree.rowAt(page.tree.at).record"), record)
    tries.see(f"{name}: records of the tree", tab.value("page.look.dump.starts.length - 1"), len(lines))
    own = re.split("^module ", printed("omf_dump", [], data).decode(), flags=re.M)[0]
    # Number, offset, type byte, and the type's name if it is known.
    head = lambda it: [word for word in it.split()[:4] if word not in ("checksum", "unjudged")]
    after = [head(it) for it in own.splitlines() if "  unjudged" in it and int(it.split()[0]) > record]
    rows = tab.value("[...page.look.records.keys()].slice(0, -1).filter(it => page.look.isUnjudged(it)).map(it => page.tree.make(page.tree.indexOf(it)).textContent)")
    tries.see(f"{name}: records after the fault", [head(it.lstrip("▸▾")) for it in rows], after)


def shown_name(name):
    return '"' + re.sub(rb'[^ -~]|["\\]', lambda found: b"\\x%02X" % found[0][0], name).decode() + '"'


def library(tab, tries, name, data):
    """A library: its head, its verdict, its members, a search."""
    listed, check = printed("omf_lib", ["list", "-"], data).decode(), printed("omf_lib", ["check", "-"], data).decode().splitlines()
    members = [it for it in listed.splitlines() if it.startswith("M ")]
    cut = any(" MemberCut " in it for it in check)
    many = len(members) + cut
    refused_words = [it.partition('" refused ')[2] or None for it in members]
    tries.see(f"{name}: members", tab.value("page.library.members.length"), many)
    marks = "page.library.shown.map((_, i) => page.library.row(i).find(it => it.className === 'bad')?.textContent ?? null)"
    tries.see(f"{name}: refused members", tab.value(marks)[:len(members)], [it and f"refused {it}" for it in refused_words])
    tries.see(f"{name}: head", tab.value(text_of("library-head")).startswith(f"{name} is a library {f'of {many:,} member' if many else 'without a member'}"), True)
    lines = [it for it in check if it.startswith(("fault ", "note "))]
    faults = sum(it.startswith("fault ") for it in lines)
    verdict = f"omf-lib check finds no fault: {check[0][3:]}." if check[0].startswith("OK ") else f"omf-lib check finds {faults:,} fault{'' if faults == 1 else 's'}:"
    tries.see(f"{name}: verdict", tab.value("[document.querySelector('#library-findings p').textContent, document.querySelectorAll('#library-findings p.bad').length]"), [verdict, int(faults > 0)])
    tries.see(f"{name}: lines of the check", tab.value("[...document.querySelectorAll('#library-findings li > b')].map(it => it.textContent)"), lines[:50])
    publics = [it.split(" ", 2) for it in listed.splitlines() if it.startswith("P ") and "\\" not in it]
    for _, number, public in publics[-1:]:
        typed = "(words => { const it = document.getElementById('members-search'); it.value = words; it.dispatchEvent(new Event('input')); return page.library.shown; })"
        tries.see(f"{name}: a search for {public}", int(number) in tab.value(f"{typed}({public[1:-1].upper()!r})"), True)
        tries.see(f"{name}: all members again", len(tab.value(f"{typed}('')")), many)


def each_member(tab, tries, name, data):
    """Opens the members of a library: the first ones, the refused ones, the last one."""
    spans = tab.value("page.library.members.map(it => [it.start, it.size, bytesOf(it.name).join(), Boolean(it.refused)])")
    bad = [i for i, it in enumerate(spans) if it[3]]
    for number in sorted({*range(min(MEMBERS, len(spans))), *bad[:MEMBERS], len(spans) - 1}):
        start, size, codes, _ = spans[number]
        tab.value(f"{STATE} = 'waiting'; page.library.choose({number}); 0")
        tab.until(f"['done', 'failed'].includes({STATE})")
        title = f"{shown_name(bytes(map(int, codes.split(',') if codes else [])))} in {name}"
        module(tab, tries, title, data[start:start + size])
        if number in (0, *bad[:1]):
            saved(tab, tries, title, data[start:start + size])


def module(tab, tries, name, data):
    """A module: its words, its sentence, its tree."""
    tries.see(f"{name}: the page is done", tab.value(STATE), "done")
    no_wrong_words(tab, tries, name, data)
    further = any(it.startswith(b'{"module":1,') for it in printed("omf_dump", ["--json"], data).splitlines())
    tries.see(f"{name}: a button for the next module", tab.value("!document.getElementById('next-button').hidden"), further)
    line = printed("omf", ["check"], data).decode().split()
    (accepted if line[0] == "OK" else refused)(tab, tries, name, data, line)


def look_at(tab, tries, name, data):
    """What is open: its sentences, its tree, what is saved."""
    tries.see(f"{name}: the name of the open file", tab.value(text_of("file-name")), name)
    if data[:1] == b"\xF0" and printed("omf_lib", ["list", "-"], data).startswith(b"LIBRARY"):
        library(tab, tries, name, data)
        if tab.value("page.library.members.length"):
            return each_member(tab, tries, name, data)
    module(tab, tries, name, data)
    return saved(tab, tries, name, data)


def examples(tab, tries):
    """The page's own examples, and the placements that do not reach."""
    for i, name in enumerate(tab.value("page.examples.map(example => example.name)")):
        tab.value(f"{STATE} = 'waiting'; page.example({i}); 0")
        tab.until(f"['done', 'failed'].includes({STATE})")
        data = bytes.fromhex(tab.value(f"hexOf(fromBase64(page.examples[{i}].bytes))"))
        look_at(tab, tries, name, data)
        if " at " not in name:
            continue
        tries.see(f"{name}: a fault with advice", tab.value("document.querySelectorAll('#said-a .bad').length"), 1)
        red = tab.value("document.querySelectorAll('#drawing .arrow.bad').length")
        tries.see(f"{name}: a red arrow", red, 1 if any(word in name for word in ("target", "location", "distance")) else 0)


def first_sight(tab, tries):
    """An example is open, and the last line names the sources that the page was made of."""
    tries.see("an example is open", tab.value(text_of("verdict")).startswith("boot/boot.omf is a well-formed module"), True)
    tries.see("its name", tab.value(text_of("file-name")), "boot/boot.omf")
    tries.see("no input with words of the browser", tab.value("[...document.querySelectorAll('input[type=file]')].filter(it => !it.hidden).length"), 0)
    tries.see("no red at first", tab.value("document.querySelectorAll('main .bad:not(.tip)').length"), 0)
    last = tab.value("document.body.innerText.trim().split('\\n').pop()")
    made = re.match(r"Version (\S+), made of the sources [0-9a-f]{16}\. ", last)
    tries.see("the last line", made and made[1], (ROOT / "VERSION").read_text().strip())


def file(tab, tries, path):
    open_file(tab, path)
    look_at(tab, tries, path.name, path.read_bytes())
