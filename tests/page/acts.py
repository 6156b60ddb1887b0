"""What a person does with the page: names that are HTML, libraries, several files, keys, a search, placements, a second file, a narrow screen."""
import base64
import random
import time

import opening
from chromium import Tab
from shared import ROOT, STATE, hostile, large, library, modules, named, open_file, record, text_of

CHANGED = 60   # files that are changed at random


def after(tab, act, until=f"{STATE} === 'done'"):
    """Does something that opens a module, and waits until it is shown."""
    tab.value(f"{STATE} = 'waiting'; {act}; 0")
    tab.until(until)


def names(tab, tries, folder):
    """Names that are HTML, or no text at all."""
    for i, name in enumerate((b"<img src=x onerror=alert(1)>", b"</script><script>alert(2)</script>", b"\"><svg onload=alert(3)>", bytes(range(1, 64)), b"\xFF\xFE\x80&lt;")):
        file = folder / f"hostile{i}.obj"
        file.write_bytes(hostile(name))
        open_file(tab, file)
        tries.see(f"hostile name {i}", tab.value(STATE), "done")
        for record_number in range(10):
            tab.value(f"page.tree.openRecord({record_number}).rows.length")
        tab.value("page.tree.choose(3); 0")
        tries.see(f"hostile name {i}: elements", tab.value("document.querySelectorAll('img, svg [onload], main script').length"), 0)
        copy = folder / "<img src=x onerror=alert(4)>.obj"
        copy.write_bytes(file.read_bytes())
        tab.choose("#second", copy)
        tab.until("/same key/.test(document.getElementById('compared').innerText)")
        tries.see(f"hostile name {i}: elements of the comparison", tab.value("document.querySelectorAll('img').length"), 0)


def libraries(tab, tries, folder):
    """A library: its verdict, its members by the mouse, by the keyboard and by a search, the refused one, the one that is cut."""
    first, boot = (ROOT / "examples/first.omf").read_bytes(), (ROOT / "examples/boot/boot.omf").read_bytes()
    bad = (ROOT / "examples/reasons/06-Checksum.omf").read_bytes()
    file = folder / "four.lib"
    file.write_bytes(library([first, boot, hostile(b"<b>"), bad]))
    open_file(tab, file)
    tries.see("library: head", "four.lib is a library of 4 members" in tab.value(text_of("library-head")), True)
    tries.see("library: the fault", "Member at" in tab.value(text_of("library-findings")), True)
    tries.see("library: the mark", tab.value("document.querySelectorAll('#members .bad').length"), 1)
    tries.see("library: first member", '"A" in four.lib is a well-formed module: 6 records' in tab.value(text_of("verdict")), True)
    after(tab, "document.querySelectorAll('#members .row')[1].click()")
    tries.see("library: second member", '"boot.asm" in four.lib is a well-formed module: 14 records' in tab.value(text_of("verdict")), True)
    tab.value(f"{STATE} = 'waiting'; document.getElementById('members').focus()")
    tab.press("ArrowDown")
    tab.until(f"{STATE} === 'done'")
    tries.see("library: third member by the keyboard", '"<b>" in four.lib is a well-formed module' in tab.value(text_of("verdict")), True)
    tab.value(f"{STATE} = 'waiting'")
    tab.press("n")
    tab.until(f"{STATE} === 'done'")
    tries.see("library: the next fault", "in four.lib is refused: the record's checksum is wrong" in tab.value(text_of("verdict")), True)
    tab.value("document.getElementById('members-search').focus(); 0")
    tab.type("boot.a")
    tries.see("library: a search", tab.value("[...document.querySelectorAll('#members .row')].map(it => it.innerText.includes('boot.asm'))"), [True])
    file.write_bytes(library([first]) [:16] + first + bytes(-len(first) % 16) + boot[:100])
    open_file(tab, file)
    tries.see("cut library: the fault", "MemberCut" in tab.value(text_of("library-findings")), True)
    after(tab, "document.querySelectorAll('#members .row')[1].click()")
    tries.see("cut library: the member", "is refused: the record is longer than the file" in tab.value(text_of("verdict")) or "Cut" in tab.value(text_of("verdict")), True)


def odd(tab, tries, folder):
    """Files that are hardly any: empty, cut, a text, libraries without a member, and a module that no draft fits."""
    boot = (ROOT / "examples/boot/boot.omf").read_bytes()
    made = {"empty.obj": b"", "one.obj": b"\x80", "text.obj": b"no module\r\n", "f0.lib": b"\xF0", "page.lib": b"\xF0\x05\0" + bytes(30), "end.lib": library([]),
            "no-end.lib": library([])[:16], "cut.lib": library([])[:16] + boot[:50],
            "full.obj": b"".join((record(0x80, named(b"a")), record(0x96, named(b"")), record(0x99, bytes([0x61, 0, 0, 0, 0xFF, 1, 1, 1])), record(0x8A, b"\0")))}
    for name, data in made.items():
        (folder / name).write_bytes(data)
        opening.file(tab, tries, folder / name)


def changed(tab, tries, folder):
    """Examples that are cut and changed at random, the same ones in each run. In some, checksums are mended: a checksum byte of 0 is not looked at."""
    chance, sources = random.Random(1), modules([ROOT / "examples"])
    for i in range(CHANGED):
        data = bytearray(chance.choice(sources).read_bytes()) or bytearray(b"\x80")
        for _ in range(chance.randint(1, 4)):
            data[chance.randrange(len(data))] = chance.choice((0, 1, 0x7F, 0x80, 0xFF, chance.randrange(256)))
        if chance.random() < 0.5:
            mended(data)
        file = folder / f"changed{i}.{'lib' if data[0] == 0xF0 else 'obj'}"
        file.write_bytes(data[:chance.randint(1, len(data))] if chance.random() < 0.2 else data)
        opening.file(tab, tries, file)


def mended(data):
    """Sets the checksum bytes of the records to 0, as long as their lengths lead to one."""
    at = 0
    while at + 3 <= len(data):
        end = at + 3 + data[at + 1] + 256 * data[at + 2]
        if not at + 3 < end <= len(data):
            return
        if data[at] not in (0xF0, 0xF1):
            data[end - 1] = 0
        at = end


def unread(tab, tries, folder):
    """A folder, a file that is gone, and one that is too long: each has a sentence, and the next file opens."""
    for script, wanted in (("{ name: 'gone.obj', size: 9, arrayBuffer: () => Promise.reject(new Error('not found')) }", "gone.obj cannot be read."),
                           ("{ name: 'long.obj', size: 70000000 }", "long.obj has 70,000,000 bytes; this page takes files of up to 64 MB.")):
        tab.value(f"{STATE} = 'waiting'; page.files.set([{script}])")
        tab.until(f"['done', 'failed'].includes({STATE})")
        tries.see("unread: the sentence", tab.value(text_of("verdict")), wanted)
        tries.see("unread: nothing else is shown", tab.value("['reading', 'placing', 'keys', 'library'].filter(it => !document.getElementById(it).hidden)"), [])
        open_file(tab, ROOT / "examples/first.omf")
        tries.see("unread: the next file", tab.value(text_of("verdict")).startswith("first.omf is a well-formed module"), True)
    tab.value("page.compare.file({ name: 'gone.obj', arrayBuffer: () => Promise.reject(new Error('not found')) })")
    tries.see("unread: the second file", tab.value(text_of("compared")), "gone.obj cannot be read.")


def files(tab, tries, folder):
    """Several files: a list with their verdicts."""
    three = [ROOT / "examples" / it for it in ("boot/boot.omf", "reasons/06-Checksum.omf", "library/small.lib")]
    open_file(tab, *three)
    tab.until("/3 judged/.test(document.getElementById('files-head').innerText)")
    tries.see("files: the head", tab.value(text_of("files-head")), "3 files, 3 judged, 1 with a fault:")
    tries.see("files: the first is open", tab.value(text_of("verdict")).startswith("boot.omf is a well-formed module"), True)
    said = tab.value("[...document.querySelectorAll('#files .row')].map(it => it.innerText)")
    for row, words in zip(said, ("well-formed: 14 records", "refused 6 Checksum", "library: OK 2 members")):
        tries.see(f"files: {words}", words in row, True)
    tab.value(f"{STATE} = 'waiting'; document.activeElement.blur()")
    tab.press("n")
    tab.until(f"{STATE} === 'done'")
    tries.see("files: the next fault", tab.value(text_of("verdict")).startswith("06-Checksum.omf is refused"), True)
    after(tab, "page.example(0)")
    tries.see("files: no list for one", tab.value("document.getElementById('files-part').hidden"), True)
    many = folder / "many"
    many.mkdir()
    data = base64.b64encode((ROOT / "examples/first.omf").read_bytes()).decode()
    after(tab, f"(() => {{ const it = new DataTransfer(); for (const name of ['a.obj', 'b.obj']) it.items.add(new File([fromBase64({data!r})], name)); "
          "document.body.dispatchEvent(new DragEvent('drop', { dataTransfer: it, bubbles: true, cancelable: true })); })()")
    tries.see("drop", tab.value(text_of("verdict")).startswith("a.obj is a well-formed module"), True)
    tries.see("drop: both are in the list", tab.value("document.querySelectorAll('#files .row').length"), 2)


def keys(tab, tries, folder):
    """The keys for FIXUPPs and faults, and the search."""
    open_file(tab, ROOT / "examples/boot/boot.omf")
    tab.value("document.activeElement.blur(); page.tree.choose(0); 0")
    at = "page.tree.rowAt(page.tree.at).record"
    fixupps = tab.value("[...page.look.records].slice(0, -1).map((_, i) => i).filter(i => page.look.typeOf(i) === 'FIXUPP')")
    for wanted in [*fixupps, fixupps[0]]:
        tab.press("f")
        tries.see("key f", tab.value(at), wanted)
    tab.press("F")
    tries.see("key F", tab.value(at), fixupps[-1])
    tab.press("/")
    tries.see("key /", tab.value("document.activeElement.id"), "search")
    tab.type("library")
    tab.press("Enter")
    tab.until("/Record/.test(document.getElementById('search-said').innerText)")
    found = []
    for _ in range(3):
        found.append(tab.value("page.tree.rowAt(page.tree.at).record + ' ' + (page.tree.rowAt(page.tree.at).key || '')"))
        tab.press("Enter")
        time.sleep(0.2)
    tries.see("search: three places", len(set(found)), 3)
    tab.value("document.getElementById('search').value = 'no such name'; page.search.go(1)")
    tab.until("document.getElementById('search-said').innerText === 'Nothing has it.'")
    open_file(tab, ROOT / "examples/reasons/26-OutsideSegment.omf")
    tab.value("page.tree.choose(0); document.activeElement.blur(); 0")
    tab.press("n")
    tries.see("key n", tab.value(at), 3)
    row = tab.value("document.getElementById('row' + page.tree.indexOf(3)).innerText.split(/\\s+/).join(' ')")
    tries.see("the record at fault", 'A0 LEDATA refused 26 OutsideSegment unjudged segment 1 "T" offset 0002H length 0004H' in row, True)
    rows = tab.value("page.tree.openRecord(3).rows.map(it => [it.key, it.value, it.from, it.to])")
    for wanted in (["within", "4", 27, 28], ["segment", '1 "T"', 26, 27], ["offset", "0002H", 27, 29], ["data", "B8 00 00 90", 29, 33]):
        tries.see("the record at fault: " + wanted[0], wanted in rows, True)
    row = tab.value("(() => { const i = page.tree.indexOf(4); page.tree.choose(i); return document.getElementById('row' + i).innerText; })()")
    tries.see("the record after the fault", "8A MODEND unjudged  flags 00H" in row, True)


def copied(tab, tries, folder):
    """What is copied is what the program prints, the canonical bytes in hexadecimal."""
    for name in ("first.omf", "boot/boot.omf", "reasons/26-OutsideSegment.omf"):
        file = ROOT / "examples" / name
        open_file(tab, file)
        for kind, wanted in opening.taken(tab, file.read_bytes()).items():
            button = f"document.querySelector('[data-act=copy-{kind}]')"
            label = tab.value(f"{button}.dataset.label")
            tab.until(f"{button}.innerText === {label!r}")
            tab.call("Runtime.evaluate", expression=f"navigator.clipboard.writeText('nothing').then(() => {button}.click())", awaitPromise=True, userGesture=True)
            tab.until(f"{button}.innerText !== {label!r}")
            seen = tab.call("Runtime.evaluate", expression="navigator.clipboard.readText()", awaitPromise=True, userGesture=True)["result"].get("value")
            tries.see(f"{name}: copied {kind}", seen, wanted.hex(" ").upper() if kind == "canon" else wanted.decode())


def typed(tab, tries, folder):
    """A placement that is being typed, and one of odd words: the picture has no word that went wrong, nor has the sentence."""
    open_file(tab, ROOT / "examples/pair/caller.obj")
    begun = tab.value("document.getElementById('place-a').value").splitlines()
    texts = ["", "S", "S 10020 ", "S 1 2 zz", "S -1 -2 -3", "S FFFFFFFF real", "S 123456789 real", "constructor 1", "G 1", "E x y z", "\u00e9 \u0000", *("\n".join(begun)[:n] for n in range(0, 60, 7))]
    for text in texts:
        tab.value(f"(async () => {{ const it = document.getElementById('place-a'); it.value = {text!r}; page.placing.isDraft.a = false; await page.placing.image('a'); }})()")
        words = tab.value(opening.SHOWN)
        tries.see(f"typed {text!r}", opening.wrong_words(words, ""), [])
        tries.see(f"typed {text!r}: a negative address", "-" in tab.value("[...document.querySelectorAll('#drawing .segment text')].map(it => it.textContent.match(/-[0-9A-F]+H/) || '').join('')"), False)


def links(tab, tries, folder):
    """Fields and bytes, and the keys that move over them."""
    open_file(tab, ROOT / "examples/first.omf")
    tab.value("document.getElementById('tree').focus(); page.tree.choose(3); 0")
    tab.press("ArrowRight")
    for _ in ("type", "checksum", "segment"):
        tab.press("ArrowDown")
    marks = "[...document.querySelectorAll('#hex .marked')].map(it => it.innerText).join(' ')"
    tries.see("the segment index of the LEDATA", tab.value(marks), "01")
    tab.value("document.querySelector('#hex [data-at=\"36\"]').click()")
    tries.see("the record of a byte", tab.value("page.tree.rowAt(page.tree.at).record"), 4)
    tab.value("document.querySelector('#hex [data-at=\"40\"]').click()")
    tries.see("the field of a byte", tab.value("page.tree.rowAt(page.tree.at).key"), "frame")
    tab.value("document.querySelector('#drawing .arrow').dispatchEvent(new MouseEvent('click', { bubbles: true }))")
    tries.see("the fixup of an arrow", tab.value("page.tree.rowAt(page.tree.at).key"), "+3")
    tries.see("the arrow of a fixup", tab.value("document.querySelectorAll('#drawing .arrow.chosen').length"), 1)


def placements(tab, tries, folder):
    """A placement that is edited, a second one beside it, addresses for a draft, and a draft that does not reach."""
    open_file(tab, ROOT / "examples/first.omf")
    typed = ("(() => {{ const it = document.getElementById('place-{}'); it.value = {!r}; it.dispatchEvent(new Event('input')); }})()").format
    tab.value(typed("a", "S 10020 10000 1000"))
    tab.until("document.getElementById('image-a').innerText.includes('B8 20 00 90')")
    tries.see("image", tab.value(text_of("image-a")).strip(), "0001:00000000 B8 20 00 90")
    tab.value("document.getElementById('two').click()")
    tab.until("document.getElementById('differ').innerText === 'The two images are the same.'")
    tab.value(typed("b", "S 10130 10000 1000"))
    tab.until("/differ, in/.test(document.getElementById('differ').innerText)")
    tries.see("two placements", tab.value(text_of("differ")), "2 bytes differ, in 1 line.")
    tries.see("marks", tab.value("[...document.querySelectorAll('#image-b mark')].map(it => it.innerText).join(' ')"), "30 01")
    tab.value(typed("a", "S 20000 10000 1000"))
    tab.until("document.querySelector('#said-a .bad') !== null")
    tries.see("does not reach", "the target is outside the offsets of its frame" in tab.value(text_of("said-a")), True)
    tab.value(typed("a", "S 10020 10000"))
    tab.until("/Line 1/.test(document.getElementById('said-a').innerText)")
    for asked, wanted in (("0x7C00", "S 7C00 real"), ("7c00h", "S 7C00 real"), ("zz", ""), ("123456789", "")):
        tab.value(f"document.getElementById('place-a').value = ''; document.getElementById('base').value = {asked!r}; page.placing.redraft()")
        tries.see(f"draft from {asked}", tab.value("document.getElementById('place-a').value")[:11], wanted)
    tries.see("no address", "123456789” is no address" in tab.value(text_of("said-a")), True)
    open_file(tab, ROOT / "examples/boot/boot.omf")
    tries.see("a draft that reaches is taken", [tab.value("kind.value"), tab.value("document.querySelectorAll('#said-a .good').length")], ["flat", 1])
    # The first fixup does not reach in real mode, since its frame begins after its target, and the second not in one frame of 64 KB.
    file = folder / "far.obj"
    file.write_bytes(b"".join((record(0x80, named(b"a")), record(0x96, named(b"") + named(b"A") + named(b"B")), record(0x98, bytes([0x60, 0xF0, 0xFF, 2, 1, 1])),
                               record(0x98, bytes([0x60, 4, 0, 3, 1, 1])), record(0xA0, bytes([1, 0, 0, 0, 0, 0, 0])),
                               record(0x9C, bytes([0xC4, 0, 4, 2, 1, 0xC4, 2, 4, 1, 2])), record(0x8A, b"\0"))))
    open_file(tab, file)
    seen = tab.value("[verdict.className, document.querySelectorAll('#said-a .warn').length, document.querySelectorAll('.arrow.warn').length, "
                     "document.querySelectorAll('#said-a .bad, .arrow.bad').length]")
    tries.see("a good module whose drafts do not reach", seen, ["good", 1, 1, 0])


def compared(tab, tries, folder):
    """A second file: the same key, another key, no key."""
    open_file(tab, ROOT / "examples/first.omf")
    said = text_of("compared")
    for file, wanted in (("first-long.omf", "first-long.omf has the same key"), ("boot/boot.omf", "The canonical forms differ first in record 0"),
                         ("reasons/06-Checksum.omf", "06-Checksum.omf has no key: refused 6 Checksum")):
        tab.choose("#second", ROOT / "examples" / file)
        tab.until(f"{said}.includes({wanted!r})", 20)
        tries.see(f"compared with {file}", wanted in tab.value(said), True)


def opened_large(tab, file):
    """Opens a large module and moves in it: milliseconds until its verdict, until all is shown, and the longest time for which the page was blocked."""
    tab.value("window.longest = window.judged = window.began = 0; window.last = performance.now(); clearInterval(window.beat); window.beat = setInterval(() => { "
              "const now = performance.now(); longest = Math.max(longest, now - last); last = now; }, 10); 0")
    tab.value("document.getElementById('file').addEventListener('change', () => { window.began = performance.now(); }, { once: true, capture: true }); "
              "new MutationObserver(() => { if (/well-formed/.test(verdict.innerText)) window.judged ||= performance.now(); }).observe(verdict, { childList: true, subtree: true }); 0")
    open_file(tab, file, seconds=300)
    times = tab.value("[window.judged - window.began, performance.now() - window.began]")
    tab.value("page.tree.choose(page.tree.count() - 1); page.hex.choose(page.look.bytes.length - 1)")
    last = tab.value("page.tree.rowAt(page.tree.at).record")
    tab.value("document.getElementById('tree').scrollTop = 0; page.tree.choose(5); 0")
    tab.value("document.getElementById('search').value = 'nowhere'; page.search.go(1)")
    time.sleep(0.3)
    return *times, tab.value("window.longest"), last


def size(tab, tries, folder):
    """A large module: the page is never blocked for a second, in one of three tries, since a busy machine blocks it too."""
    file = folder / "large.obj"
    file.write_bytes(large())
    for _ in range(3):
        judged, whole, longest, last = opened_large(tab, file)
        if longest < 1000:
            break
    tries.see("large: accepted", "well-formed" in tab.value(text_of("verdict")), True)
    tries.see("large: the last record", last, tab.value("page.look.records.length - 2"))
    tries.see(f"large: blocked for {longest:.0f} ms at most", longest < 1000, True)
    print(f"a module of {file.stat().st_size:,} bytes: verdict after {judged:.0f} ms, all after {whole:.0f} ms, the page blocked for {longest:.0f} ms at most")


WIDE = """[document.documentElement, ...document.querySelectorAll(".rows, #drawing")].filter(it => it.scrollWidth > it.clientWidth + 1).map(it => it.id || it.tagName)"""
CUT = """(() => {
  const box = document.getElementById("drawing").getBoundingClientRect();
  return [...document.querySelectorAll("#drawing text")].filter(it => { const at = it.getBoundingClientRect(); return at.left < box.left - 1 || at.right > box.right + 1; })
    .map(it => it.textContent);
})()"""


def narrow(tab, tries, folder):
    """On a screen of 360 pixels nothing is wider than it, lines wrap, and no text of the picture is cut; nor is one on a wide screen."""
    for width in (360, 1200):
        tab.resize(width, 740)
        for i, name in enumerate(tab.value("page.examples.map(example => example.name)")):
            after(tab, f"page.example({i})")
            tab.value("page.tree.openRecord(Math.min(2, page.look.records.length - 2)); 0")
            time.sleep(0.2)
            if width < 400:
                tries.see(f"{name} at {width} pixels: too wide", tab.value(WIDE), [])
            tries.see(f"{name} at {width} pixels: cut in the picture", tab.value(CUT), [])
        after(tab, "page.example(page.examples.findIndex(it => it.name === 'boot/boot.omf'))")
        line = tab.value("page.tree.choose(page.look.records.length - 3), parseFloat(getComputedStyle(document.querySelector('#tree .row')).lineHeight)")
        high = tab.value("Math.max(...[...document.querySelectorAll('#tree .row')].map(it => it.getBoundingClientRect().height))")
        tries.see(f"lines at {width} pixels wrap", high > 1.5 * line, width < 400)
    tab.resize(1200, 900)


def control(tab, tries, folder):
    """A page without a policy asks for two addresses: the log that shows no request of the page shows these."""
    file = folder / "control.html"
    file.write_text("<!doctype html><script>fetch('http://example.com/fetched').catch(() => 0)</script><img src='http://example.com/image'>")
    work = folder / "control"
    work.mkdir()
    with Tab(file.as_uri(), folder=work) as other:
        other.value("fetch('http://example.com/again').catch(() => 0).then(() => new Promise(take => setTimeout(take, 300)))")
    tries.see("control: what a page asks for is in the log", sorted({it for it in other.logged() if "example.com" in it}), [f"http://example.com/{it}" for it in ("again", "fetched", "image")])


def policy(tab, tries):
    """The page's policy allows nothing from outside."""
    asked = tab.value("fetch('https://example.com/').then(() => 'went', () => 'refused')")
    image = tab.value("new Promise(take => { const it = document.createElement('img'); it.onload = () => take('went'); it.onerror = () => take('refused'); "
                      "it.src = 'https://example.com/a.png'; })")
    script = tab.value("new Promise(take => { const it = document.createElement('script'); it.textContent = 'window.ran = 1'; document.body.append(it); "
                       "setTimeout(() => take(window.ran), 50); })")
    tries.see("policy: a request, an image, another script", [asked, image, script], ["refused", "refused", None])
    tab.value("""(() => {
      const add = (name, words) => document.body.append(Object.assign(document.createElement(name), words)), at = "https://example.com/";
      add("iframe", { src: at }); add("script", { src: at }); add("object", { data: at }); add("video", { src: at });
      for (const rel of ["stylesheet", "prefetch", "preload", "manifest"]) add("link", { rel, href: at, as: "font" });
      for (const act of [() => navigator.sendBeacon(at), () => new WebSocket("wss://example.com/"), () => new EventSource(at), () => import(at)]) {
        try { Promise.resolve(act()).catch(() => 0); } catch { }
      }
      return new Promise(take => setTimeout(take, 300));
    })()""")
    meta = tab.value("document.querySelector('meta[http-equiv=Content-Security-Policy]').content.split('; ').map(it => it.split(' ')[0] + (/\\*|http|:\\/\\/|unsafe-inline|'unsafe-eval'|self/.test(it) ? ' ' + it : ''))")
    tries.see("policy: nothing from outside", [meta[0], [it for it in meta if " " in it]], ["default-src", []])


def all_of(tab, tries, folder):
    for part in (names, libraries, odd, changed, unread, files, keys, copied, links, placements, typed, compared, narrow, size, control):
        try:
            part(tab, tries, folder)
        except RuntimeError as fault:
            tries.see(f"{part.__name__}: {fault}", "failed", "done")
