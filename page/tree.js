// The dump as a tree: records, their fields and items, the fields of an item.
"use strict";

class Tree {
  constructor(box, chosen) {
    this.box = box;
    this.chosen = chosen;   // called with the row that was chosen
    this.list = new Rows(box, i => this.make(i));
    box.addEventListener("keydown", event => this.key(event));
    box.addEventListener("click", event => {
      const row = event.target.closest(".row");
      if (!row) return;
      const i = +row.dataset.row;
      if (event.target.closest(".twist")) this.toggle(i);
      else if (i === this.at && this.rowAt(i).level === 1) this.toggle(i);
      this.choose(i);
    });
    this.clear();
  }

  clear() {
    this.look = null;
    this.open = [];
    this.at = 0;
    this.list.set(0);
  }

  set(look) {
    this.clear();
    this.look = look;
    this.list.box.scrollTop = 0;
    this.list.set(look.dump.starts.length - 1);
  }

  dumpOf(record) {
    const { text, starts } = this.look.dump;
    return JSON.parse(textOf(text.subarray(starts[record], starts[record + 1])));
  }

  // The rows below an open record, with those of its open items.
  flat(opened) {
    return opened.rows.flatMap(row => row.isOpen ? [row, ...row.children] : [row]);
  }

  count() {
    return this.look.dump.starts.length - 1 + this.open.reduce((sum, opened) => sum + opened.flat.length, 0);
  }

  // The row i: {level, record} for a record, or a row of an open record.
  rowAt(i) {
    let before = 0;
    for (const opened of this.open) {
      const at = opened.record + before;
      if (i <= at) break;
      if (i <= at + opened.flat.length) return { ...opened.flat[i - at - 1], row: opened.flat[i - at - 1], record: opened.record, parent: at };
      before += opened.flat.length;
    }
    const record = i - before;
    const [from, to] = this.look.placeOf(record);
    return { level: 1, record, from, to, isOpen: this.open.some(opened => opened.record === record) };
  }

  // The place in the list of a record.
  indexOf(record) {
    return record + this.open.reduce((sum, opened) => sum + (opened.record < record ? opened.flat.length : 0), 0);
  }

  openRecord(record) {
    let opened = this.open.find(it => it.record === record);
    if (opened) return opened;
    const [from, to] = this.look.placeOf(record);
    opened = { record, rows: recordTree(this.look.bytes, from, to, this.dumpOf(record), this.look.dataBefore(record)) };
    opened.flat = this.flat(opened);
    this.open.push(opened);
    this.open.sort((a, b) => a.record - b.record);
    this.list.set(this.count());
    return opened;
  }

  toggle(i) {
    const it = this.rowAt(i);
    if (it.level === 1) {
      if (it.isOpen) this.open = this.open.filter(opened => opened.record !== it.record);
      else this.openRecord(it.record);
    } else if (it.children) {
      const opened = this.open.find(other => other.record === it.record);
      it.row.isOpen = !it.row.isOpen;
      opened.flat = this.flat(opened);
    }
    this.list.set(this.count());
  }

  goTo(i) {
    this.at = i;
    this.list.show(i);
    this.box.setAttribute("aria-activedescendant", "row" + i);
  }

  // Chooses row i, as a person does.
  choose(i) {
    this.goTo(Math.max(0, Math.min(i, this.count() - 1)));
    const it = this.rowAt(this.at);
    this.chosen(it);
    return it;
  }

  // The line of a record, without its number and offset.
  lineOf(record) {
    const dump = this.dumpOf(record), [from, to] = this.look.placeOf(record);
    const kind = this.look.bytes[from], words = [refusal(dump), recordSummary(dump, kind & 1)].filter(Boolean).join("  ");
    return from === to ? `end ${words}` : `${hex(kind, 2)} ${dump.record || TYPES[kind] || ""} ${words}`;
  }

  // The offset in its record of the item that a row is of, or null.
  itemOf({ record, row }) {
    const parent = this.openRecord(record).rows.find(it => it === row || it.children?.includes(row));
    return parent?.within ?? null;
  }

  // Opens the record of a byte and marks the field that the byte is of. Returns its row.
  find(at, record) {
    const opened = this.openRecord(record);
    const holds = row => row.from <= at && at < row.to;
    const size = row => row.to - row.from;
    let best = null;
    for (const row of opened.rows) {
      for (const it of [row, ...row.children || []]) {
        if (it.key === "bytes" || !holds(it) || (best && size(best.it) <= size(it))) continue;
        best = { it, row };
      }
    }
    if (best && best.it !== best.row && !best.row.isOpen) {
      best.row.isOpen = true;
      opened.flat = this.flat(opened);
      this.list.set(this.count());
    }
    this.goTo(this.indexOf(record) + (best ? 1 + opened.flat.indexOf(best.it) : 0));
    return this.rowAt(this.at);
  }

  // Chooses the item of a record that begins at this offset in it.
  item(record, within) {
    const opened = this.openRecord(record), i = opened.flat.findIndex(row => row.within === within);
    return this.choose(this.indexOf(record) + (i < 0 ? 0 : i + 1));
  }

  key(event) {
    if (!this.look) return;
    const it = this.rowAt(this.at), page = this.list.inSight - 1;
    const moves = { ArrowDown: 1, ArrowUp: -1, PageDown: page, PageUp: -page, Home: -this.count(), End: this.count() };
    if (event.key in moves) this.choose(this.at + moves[event.key]);
    else if (event.key === "ArrowRight" && (it.level === 1 || it.children) && !it.isOpen) { this.toggle(this.at); this.choose(this.at); }
    else if (event.key === "ArrowRight") this.choose(this.at + 1);
    else if (event.key === "ArrowLeft" && it.isOpen) { this.toggle(this.at); this.choose(this.at); }
    else if (event.key === "ArrowLeft" && it.level > 1) {
      let up = this.at - 1;
      while (this.rowAt(up).level >= it.level) up--;
      this.choose(up);
    } else if (event.key === "Enter" || event.key === " ") { this.toggle(this.at); this.choose(this.at); }
    else return;
    event.preventDefault();
  }

  make(i) {
    const it = this.rowAt(i), isParent = it.level === 1 || Boolean(it.children);
    const row = element("div", { class: `row level${it.level}`, role: "treeitem", id: "row" + i, "data-row": i, "aria-level": it.level,
      "aria-selected": i === this.at ? "true" : "false", "aria-expanded": isParent ? String(Boolean(it.isOpen)) : null });
    row.append(element("span", { class: "twist" }, isParent ? it.isOpen ? "▾" : "▸" : ""));
    if (it.level === 1) {
      const kind = this.look.bytes[it.from], dump = this.dumpOf(it.record), why = refusal(dump);
      row.append(element("span", { class: "number" }, String(it.record)), " ", element("span", { class: "offset" }, hex(it.from, 8)), " ",
        element("span", { class: "type " + colour(kind) }, it.from < it.to ? `${hex(kind, 2)} ${dump.record || TYPES[kind] || ""}` : "end"), " ",
        why ? element("span", { class: "bad" }, why) : "", why ? "  " : "", element("span", { class: "fault" in dump ? "bad" : "summary" }, recordSummary(dump, kind & 1)));
      if (dump.unjudged) row.classList.add("unjudged");
    } else row.append(element("span", { class: "name" }, it.key), " ", element("span", { class: "value" }, it.value));
    return row;
  }
}

// The class for the colour of a record.
function colour(kind) {
  const colours = { THEADR: "header", LHEADR: "header", LNAMES: "names", LLNAMES: "names", SEGDEF: "segment", GRPDEF: "group", EXTDEF: "extern",
    LEXTDEF: "extern", COMDEF: "extern", LCOMDEF: "extern", PUBDEF: "public", LPUBDEF: "public", LEDATA: "data", LIDATA: "data", FIXUPP: "fixup",
    MODEND: "end", COMENT: "comment" };
  return "k-" + (colours[TYPES[kind]] || "other");
}
