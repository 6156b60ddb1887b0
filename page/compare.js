// The canonical key, and a second file that is compared with the first.
"use strict";

class Compare {
  constructor(page) {
    this.page = page;
    chooser("second", "second-button", files => this.file(files[0]));
  }

  clear() {
    for (const id of ["key", "compared", "second-name"]) $(id).replaceChildren();
    $("keys").hidden = true;
  }

  async key(isOld) {
    const { key, size, line } = await this.page.engine.ask("key");
    if (isOld()) return;
    $("key").replaceChildren(key ? element("code", {}, key) : line, key ? ` (SHA-256 of the ${count(size, "byte")} that omf canon prints)` : "");
    $("take-canon").hidden = !key;
    $("keys").hidden = false;
  }

  async file(file) {
    if (!file || !this.page.look) return;
    const { turn } = this.page, box = $("compared"), bad = (...words) => element("p", { class: "bad" }, ...words);
    $("second-name").textContent = file.name;
    box.replaceChildren("Comparing ..");
    const answer = await file.arrayBuffer().then(bytes => this.page.engine.ask("compare", { bytes: new Uint8Array(bytes) })).catch(() => null);
    if (turn !== this.page.turn) return;
    if (!answer) return box.replaceChildren(bad(`${file.name} cannot be read.`));
    const { verdict, key, difference, line } = answer;
    if (!verdict.ok) return box.replaceChildren(bad(`${file.name} has no key: ${verdict.line}.`));
    if (!key) return box.replaceChildren(bad(`${file.name} has no key: ${line || "the first file has none"}.`));
    if (!difference) return box.replaceChildren(element("p", { class: "good" }, `${file.name} has the same key: the two modules differ at most in their encoding.`));
    box.replaceChildren(bad(`${file.name} has another key: `, element("code", {}, key), `. The canonical forms differ first in record ${difference.number}:`),
      element("div", { class: "pair" }, this.side(this.page.look.name, difference.one, difference.two), this.side(file.name, difference.two, difference.one)));
  }

  // The record of one file, with the bytes that differ marked.
  side(name, it, other) {
    if (!it) return element("div", {}, element("b", {}, name), element("p", {}, "has no such record"));
    const byte = (value, i) => [other && value === other.bytes[i] ? hex(value, 2) : element("mark", {}, hex(value, 2)), i % 16 === 15 ? "\n" : " "];
    return element("div", {}, element("b", {}, name), element("p", {}, `${it.record.record || TYPES[it.bytes[0]] || ""}  ${recordSummary(it.record, it.bytes[0] & 1)}`),
      element("pre", {}, ...[...it.bytes.subarray(0, 256)].flatMap(byte)));
  }
}
