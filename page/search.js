// A search in the tree: the next record, or item of a record, that has some words as the tree shows them.
"use strict";

class Search {
  static SLICE = 25;   // milliseconds; then the page gets its turn

  constructor(tree) {
    this.tree = tree;
    this.turn = null;
    $("search").addEventListener("keydown", event => {
      if (event.key === "Enter") this.go(event.shiftKey ? -1 : 1);
      if (event.key === "Escape") this.tree.box.focus();
    });
    $("search-next").addEventListener("click", () => this.go(1));
    $("search-back").addEventListener("click", () => this.go(-1));
  }

  clear() {
    this.turn = null;
    $("search-said").textContent = "";
  }

  // The places of a record that can be found: {within} of an item, null for the record's own line.
  places(record, words) {
    const { look } = this.tree, [from, to] = look.placeOf(record), dump = this.tree.dumpOf(record), found = [];
    if (`${record} ${hex(from, 8)} ${this.tree.lineOf(record)}`.toLowerCase().includes(words)) found.push(null);
    if (!fieldsOf(dump).items) return found;
    for (const row of recordTree(look.bytes, from, to, dump, look.dataBefore(record))) {
      if (row.within !== undefined && row.value.toLowerCase().includes(words)) found.push(row.within);
    }
    return found;
  }

  // Where the tree is: a record, and the item in it or null.
  here() {
    const it = this.tree.rowAt(this.tree.at);
    return { record: it.record, within: it.level === 1 ? null : this.tree.itemOf(it) };
  }

  async go(step) {
    const words = $("search").value.trim().toLowerCase(), { look } = this.tree;
    if (!words || !look) return;
    const turn = this.turn = Symbol(words), many = look.dump.starts.length - 1, from = this.here(), order = within => within === null ? -1 : within;
    let began = performance.now();
    $("search-said").textContent = "Searching ..";
    for (let i = 0; i <= many; i++) {
      const record = (from.record + step * i + many * 2) % many, isWrapped = i === many || (record - from.record) * step < 0;
      let places = this.places(record, words);
      if (i === 0) places = places.filter(it => (order(it) - order(from.within)) * step > 0);
      if (places.length) return this.show(record, step > 0 ? places[0] : places[places.length - 1], isWrapped, step);
      if (performance.now() - began < Search.SLICE) continue;
      await new Promise(take => setTimeout(take));
      if (turn !== this.turn) return;
      began = performance.now();
    }
    $("search-said").textContent = "Nothing has it.";
  }

  show(record, within, isWrapped, step) {
    if (within === null) this.tree.choose(this.tree.indexOf(record));
    else this.tree.item(record, within);
    $("search-said").textContent = `Record ${record}${within === null ? "" : `, +${within}`}${isWrapped ? `, from the ${step > 0 ? "top" : "end"} again` : ""}.`;
  }
}
