// The page: what is opened, and what each part shows of it.
"use strict";

const MOST_BYTES = 64 * 1024 * 1024;
const FIRST_EXAMPLE = "boot/boot.omf";

class Page {
  constructor() {
    this.engine = new Engine();
    this.look = null;
    this.reasons = JSON.parse($("reasons").textContent);
    this.examples = JSON.parse($("examples").textContent);
    this.files = new FileList(file => this.file(file));
    this.library = new LibraryView(JSON.parse($("faults").textContent), member => this.member(member));
    this.tree = new Tree($("tree"), row => this.fromTree(row));
    this.search = new Search(this.tree);
    this.hex = new Hex($("hex"), at => this.fromHex(at));
    this.picture = new Picture($("drawing"), $("drawn"), (record, within) => this.fromPicture(record, within));
    this.placing = new Placing(this);
    this.compare = new Compare(this);
    this.takeOut = new TakeOut(kind => this.bytesFor(kind), () => this.look.file);
    this.listen();
    this.engine.ready.then(() => this.begin(), fault => this.failed(fault));
  }

  // An example is open at first: the one that the address names, or FIRST_EXAMPLE.
  begin() {
    if (this.isTaken) return;
    const asked = this.examples.findIndex(example => location.hash === "#" + encodeURI(example.name));
    this.example(asked >= 0 ? asked : this.examples.findIndex(example => example.name === FIRST_EXAMPLE));
  }

  failed(fault) {
    this.stop(fault, "This browser cannot run the programs: they need WebAssembly with a 64-bit memory (Chrome or Edge 133, Firefox 134, or later).");
  }

  // Says that something is not shown, and the browser's words for why.
  stop(fault, ...words) {
    document.documentElement.dataset.state = "failed";
    this.say("bad", ...words);
    $("advice").replaceChildren(element("p", { class: "small" }, String(fault.message)));
  }

  listen() {
    const over = isOver => document.body.classList.toggle("over", isOver);
    document.addEventListener("dragover", event => { event.preventDefault(); over(true); });
    document.addEventListener("dragleave", event => { if (!event.relatedTarget) over(false); });
    document.addEventListener("drop", event => {
      event.preventDefault();
      over(false);
      if (event.dataTransfer.files.length) this.files.set([...event.dataTransfer.files]);
    });
    chooser("file", "file-button", files => this.files.set(files));
    const groups = new Map();
    this.examples.forEach((example, i) => {
      if (!groups.has(example.group)) groups.set(example.group, element("optgroup", { label: example.group }));
      groups.get(example.group).append(element("option", { value: i }, example.name));
    });
    $("examples-list").append(element("option", { value: "" }, "choose .."), ...groups.values());
    $("examples-list").addEventListener("change", event => { if (event.target.value) this.example(+event.target.value); });
    $("fault-button").addEventListener("click", () => this.toFault());
    $("next-button").addEventListener("click", () => this.nextModule());
    document.addEventListener("keydown", event => this.key(event));
  }

  // The keys that work wherever nothing is typed.
  key(event) {
    const acts = { "/": () => $("search").focus(), f: () => this.nextFixupp(1), F: () => this.nextFixupp(-1), n: () => this.nextFault() };
    const act = acts[event.key];
    if (!act || event.ctrlKey || event.altKey || event.metaKey || event.target.closest("input, textarea, select") || !this.look?.dump) return;
    event.preventDefault();
    act();
  }

  say(kind, ...words) {
    $("verdict").className = kind;
    $("verdict").replaceChildren(...words);
  }

  // Files, examples, libraries.
  async file(file) {
    this.isTaken = true;
    $("examples-list").value = "";
    $("file-kind").hidden = true;
    const isOld = this.close(file.name);
    if (file.size > MOST_BYTES) {
      this.say("bad", `${file.name} has ${count(file.size, "byte")}; this page takes files of up to 64 MB.`);
      document.documentElement.dataset.state = "done";
      return;
    }
    try {
      const bytes = new Uint8Array(await file.arrayBuffer());
      if (!isOld()) await this.open(file.name, bytes);
    } catch (fault) {   // a folder, or a file that is gone
      if (!isOld()) this.stop(fault, element("b", {}, file.name), " cannot be read.");
    }
  }

  example(i) {
    const example = this.examples[i];
    this.files.set([]);
    $("examples-list").value = i;
    $("file-kind").hidden = false;
    return this.open(example.name, fromBase64(example.bytes), example.placement);
  }

  // Shows nothing but the name of what will be open. Returns whether something else was opened since.
  close(name) {
    this.engine.renew();
    const turn = this.turn = Symbol(name);
    $("file-name").textContent = name;
    document.title = `${name}: omf`;
    this.library.clear();
    this.empty();
    return () => turn !== this.turn;
  }

  async open(name, bytes, placement) {
    const isOld = this.close(name), file = name.split("/").pop();
    document.documentElement.dataset.state = "busy";
    this.say("", `Reading ${name} ..`);
    if (bytes[0] !== 0xF0) return this.openModule(name, file, bytes, placement);
    return this.attempt(name, isOld, async () => {
      const library = await this.engine.ask("library", { bytes });
      if (isOld()) return;
      if (!library.list.startsWith("LIBRARY")) return this.openModule(name, file, bytes);
      this.opened = { name, file, bytes };
      this.library.set(name, bytes, library);
      return this.library.members.length ? this.library.choose(0) : this.openModule(name, file, bytes);
    });
  }

  member({ name, start, size }) {
    const { file, bytes } = this.opened, shown = shownName(name);
    return this.openModule(`${shown} in ${this.opened.name}`, `${file}.${shown.slice(1, -1).replace(/[\\/]/g, "_")}`, bytes.slice(start, start + size));
  }

  // One module; `whole` is the name of its file, where others are before it.
  async openModule(name, file, bytes, placement, whole) {
    this.engine.renew();
    const turn = this.turn = Symbol(name), isOld = () => turn !== this.turn;
    document.documentElement.dataset.state = "busy";
    this.say("", `Reading ${name} ..`);
    this.empty();
    return this.attempt(name, isOld, async () => {
      const { verdict, records } = await this.engine.ask("judge", { bytes });
      if (isOld()) return;
      this.look = Object.assign(new Look(name, file, bytes, verdict, records), { whole });
      this.showVerdict();
      const dump = await this.engine.ask("dump", { records, isWhole: verdict.ok });
      if (isOld()) return;
      this.showDump(dump);
      if (verdict.ok) await this.place(placement, isOld);
      if (!isOld()) document.documentElement.dataset.state = "done";
    });
  }

  // The module after this one in its file.
  nextModule() {
    const { look } = this, { offset, name = "" } = look.dump.next, whole = look.whole || look.name;
    return this.openModule(`${shownName(name)} in ${whole}`, look.file, look.bytes.slice(offset), undefined, whole);
  }

  // Does what needs the programs, and says so where it fails.
  async attempt(name, isOld, act) {
    try {
      await this.engine.ready;
    } catch (fault) {
      if (!isOld()) this.failed(fault);
      return;
    }
    try {
      if (!isOld()) await act();
    } catch (fault) {
      if (!isOld()) this.stop(fault, element("b", {}, name), " cannot be shown: a fault of this page.");
    }
  }

  empty() {
    this.look = null;
    for (const part of [this.tree, this.search, this.hex, this.picture, this.placing, this.compare]) part.clear();
    $("advice").replaceChildren();
    for (const id of ["reading", "placing", "fault-button", "next-button"]) $(id).hidden = true;
  }

  showVerdict() {
    const { look, reasons } = this, { name, verdict } = look;
    if (verdict.ok) this.say("good", ...acceptedWords(look));
    else if (!verdict.reason) this.say("bad", element("b", {}, name), ` was not judged: ${verdict.line}.`);
    else {
      this.say("bad", element("b", {}, name), " is refused.");
      $("advice").replaceChildren(...advice(reasons[verdict.reason]));
      $("fault-button").hidden = false;
    }
    $("reading").hidden = false;
    this.hex.set(look);
    if (look.fault >= 0) this.hex.mark(look.fault, look.fault + 1);
  }

  showDump(dump) {
    const { look } = this, { verdict } = look;
    look.dump = dump;
    look.seen = dump.seen;
    look.setRecords(dump.records);
    this.hex.count();
    this.tree.set(look);
    $("next-button").hidden = !dump.next;
    if (dump.next) $("next-button").textContent = `Open the next module of the file, ${shownName(dump.next.name || "")}`;
    if (verdict.ok || !verdict.reason) return;
    const last = dump.starts.length - 2;
    const isEmpty = this.library.isGood && !this.library.members.length;   // a good library without a member is no fault
    this.say(isEmpty ? "" : "bad", ...refusedWords(look, last < 0 ? {} : this.tree.dumpOf(Math.min(verdict.record, last))));
    this.toFault();
  }

  async place(placement, isOld) {
    $("placing").hidden = false;
    await this.placing.begin(placement, isOld);
    if (!isOld()) await this.compare.key(isOld);
  }

  // What is copied or saved.
  async bytesFor(kind) {
    if (kind === "placement") return new TextEncoder().encode($("place-a").value);
    if (kind === "image") return (await this.engine.ask("text", { program: "omf", words: ["reloc"], more: $("place-a").value })).bytes;
    if (kind === "canon") return (await this.engine.ask("canon")).bytes;
    return (await this.engine.ask("text", { program: "omf_dump", words: kind === "json" ? ["--json"] : [] })).bytes;
  }

  // The next fault: of the module, of its placement, of the library, of the files.
  nextFault() {
    const { look, tree, placing } = this, bad = look.fault >= 0 ? { record: look.verdict.record } : placing.bad;
    const isThere = bad && tree.rowAt(tree.at).record === bad.record;
    if (bad && !isThere) return bad.within === undefined ? this.toFault() : this.fromPicture(bad.record, bad.within);
    if (!this.library.nextFault() && !this.files.nextFault() && look.fault >= 0) this.toFault();
  }

  nextFixupp(step) {
    const { look, tree } = this, many = look.records.length - 1, from = tree.rowAt(tree.at).record;
    for (let i = 1; i <= many; i++) {
      const record = (from + step * i + many * 2) % many;
      if (look.typeOf(record) !== "FIXUPP") continue;
      tree.openRecord(record);
      return tree.choose(tree.indexOf(record));
    }
  }

  toFault() {
    const { verdict, fault, dump } = this.look;
    this.hex.mark(fault, fault + 1);
    if (dump && dump.starts.length > verdict.record + 1) this.tree.find(fault, verdict.record);
  }

  // Bytes and fields.
  fromTree(row) {
    this.hex.mark(row.from, row.to);
    if (this.look.seen) this.picture.mark(row.record, row.level === 1 ? null : this.tree.itemOf(row));
  }

  fromHex(at) {
    const { regions, dump } = this.look, region = Math.min(indexAt(regions, at), regions.length - 2);
    if (!dump || region + 1 >= dump.starts.length) return this.hex.mark(at, at + 1);
    const row = this.tree.find(at, region);
    this.hex.marked = row.level > 1 ? [row.from, row.to] : [at, at + 1];
    this.hex.list.show(this.hex.rowOf(at));
  }

  fromPicture(record, within) {
    const row = within === undefined ? this.tree.choose(this.tree.indexOf(record)) : this.tree.item(record, within);
    this.hex.mark(row.from, row.to);
    $("tree").scrollIntoView({ block: "nearest" });
  }
}

const page = new Page();
