// A list to choose one row from, by the mouse or the arrow keys: the members of a library, the files that were dropped.
"use strict";

class Choices {
  // `make(i)` returns the parts of row i; `chosen(i)` is called with the row that a person chose.
  constructor(box, make, chosen) {
    Object.assign(this, { box, make, chosen, many: 0, at: -1 });
    this.list = new Rows(box, i => this.row(i));
    box.addEventListener("click", event => {
      const row = event.target.closest(".row");
      if (row) this.choose(+row.dataset.row);
    });
    box.addEventListener("keydown", event => this.key(event));
  }

  set(many, at = -1) {
    this.many = many;
    this.at = at;
    this.list.set(many);
    if (at >= 0) this.list.show(at);
  }

  row(i) {
    const id = `${this.box.id}-${i}`;
    return element("div", { class: "row", role: "option", id, "data-row": i, "aria-selected": String(i === this.at) }, ...this.make(i));
  }

  mark(i) {
    this.at = i;
    this.box.setAttribute("aria-activedescendant", `${this.box.id}-${i}`);
    this.list.show(i);
  }

  choose(i) {
    this.mark(i);
    return this.chosen(i);
  }

  key(event) {
    const moves = { ArrowDown: 1, ArrowUp: -1, PageDown: 10, PageUp: -10, Home: -Infinity, End: Infinity };
    if (!this.many || !(event.key in moves)) return;
    event.preventDefault();
    this.choose(Math.max(0, Math.min(this.many - 1, this.at + moves[event.key])));
  }
}
