// The bytes of the file, record by record.
"use strict";

class Hex {
  constructor(box, chosen) {
    this.box = box;
    this.chosen = chosen;   // called with the offset of the byte that was chosen
    this.per = 16;
    this.list = new Rows(box, i => this.make(i), false);
    box.addEventListener("click", event => {
      const at = event.target.dataset && event.target.dataset.at;
      if (at !== undefined) this.choose(+at);
    });
    box.addEventListener("keydown", event => this.key(event));
    new ResizeObserver(() => this.fit()).observe(box);
    this.clear();
  }

  clear() {
    this.look = null;
    this.marked = [0, 0];
    this.at = 0;
    this.list.set(0);
  }

  set(look) {
    this.clear();
    this.look = look;
    this.box.scrollTop = 0;
    this.count();
  }

  // 8 or 4 bytes to a row where 16 do not fit; then the offsets have no more digits than the file needs.
  fit() {
    if (!this.box.clientWidth) return;   // it is hidden
    const letter = parseFloat(getComputedStyle(this.box).fontSize) * 0.62;
    const letters = this.box.clientWidth / letter, per = letters >= 84 ? 16 : letters >= 39 ? 8 : 4;
    this.isShort = per < 16;
    if (per === this.per) return;
    this.per = per;
    this.count();
    if (this.look && this.marked[1]) this.list.show(this.rowOf(Math.min(this.at, this.look.bytes.length - 1)));
  }

  // The first row of each record, and the number of rows.
  count() {
    if (!this.look) return;
    const places = this.look.regions, first = new Uint32Array(places.length);
    for (let i = 0; i + 1 < places.length; i++) first[i + 1] = first[i] + Math.ceil((places[i + 1] - places[i]) / this.per);
    this.first = first;
    this.list.set(first[first.length - 1]);
  }

  rowOf(at) {
    const region = Math.min(indexAt(this.look.regions, at), this.look.regions.length - 2);
    return this.first[region] + Math.floor((at - this.look.regions[region]) / this.per);
  }

  // Marks bytes and scrolls to them.
  mark(from, to) {
    if (!this.look || !this.look.bytes.length) return;
    this.marked = [from, to];
    this.at = from;
    this.list.show(this.rowOf(Math.min(from, this.look.bytes.length - 1)));
  }

  choose(at) {
    this.at = Math.max(0, Math.min(at, this.look.bytes.length - 1));
    this.chosen(this.at);
  }

  key(event) {
    const moves = { ArrowRight: 1, ArrowLeft: -1, ArrowDown: this.per, ArrowUp: -this.per, PageDown: this.per * this.list.inSight,
      PageUp: -this.per * this.list.inSight, Home: -Infinity, End: Infinity };
    if (!this.look || !(event.key in moves)) return;
    event.preventDefault();
    this.choose(this.at + moves[event.key]);
  }

  make(i) {
    const { bytes, regions, fault, records } = this.look;
    const region = Math.min(indexAt(this.first, i), regions.length - 2);
    const start = regions[region], end = regions[region + 1], from = start + (i - this.first[region]) * this.per, to = Math.min(end, from + this.per);
    const isRecord = region + 1 < records.length, kind = isRecord ? colour(bytes[start]) : "k-rest";
    const row = element("div", { class: "row " + kind + (region % 2 ? " odd" : "") });
    const label = from > start ? "" : isRecord ? TYPES[bytes[start]] || hex(bytes[start], 2) + "?" : "not read", isUnjudged = isRecord && this.look.isUnjudged(region);
    const digits = this.isShort ? Math.max(4, hex(bytes.length, 1).length) : 8;
    row.append(element("span", { class: "offset" }, hex(from, digits)), element("span", { class: "label" }, label));
    const cells = element("span", { class: "cells" }), letters = element("span", { class: "letters" });
    for (let at = from; at < to; at++) {
      const names = [];
      if (isUnjudged) names.push("unjudged");
      if (isRecord && (at < start + 3 || at === end - 1)) names.push("frame");
      if (at >= this.marked[0] && at < this.marked[1]) names.push("marked");
      if (at === this.at && at < this.marked[1]) names.push("cursor");
      if (at === fault) names.push("fault");
      const byte = bytes[at];
      cells.append(element("span", { class: names.join(" "), "data-at": at, title: at === fault ? "the fault is here" : null }, hex(byte, 2)), " ");
      letters.append(byte >= 0x20 && byte <= 0x7E ? String.fromCharCode(byte) : ".");
    }
    if (to === bytes.length && fault === bytes.length) cells.append(element("span", { class: "fault", title: "the file ends here" }, "end"));
    cells.append(" ".repeat(3 * Math.max(0, this.per - (to - from))));
    row.append(cells, letters);
    return row;
  }
}
