// Lists of any length: only the rows in sight are in the document. On a narrow screen the lines of a row wrap.
"use strict";

const $ = id => document.getElementById(id);
const NARROW = matchMedia("(max-width: 40rem)");

const element = (name, attributes = {}, ...children) => {
  const made = document.createElement(name);
  for (const [key, value] of Object.entries(attributes)) {
    if (key === "class") made.className = value;
    else if (key.startsWith("on")) made[key] = value;
    else if (value !== undefined && value !== null && value !== false) made.setAttribute(key, value === true ? "" : value);
  }
  made.append(...children.filter(child => child !== null && child !== undefined));
  return made;
};

class Rows {
  static MOST = 8000000;   // pixels: browsers have no longer boxes
  static WRAPPED = 400;    // rows that wrap are drawn all together up to this number

  // `make(i)` makes the element of row i. Rows of text may wrap, rows of bytes may not.
  constructor(box, make, mayWrap = true) {
    Object.assign(this, { box, make, mayWrap, many: 0, height: 0, first: 0 });
    this.space = element("div", { class: "space" });
    this.shown = element("div", { class: "shown" });
    this.space.append(this.shown);
    box.replaceChildren(this.space);
    let waits = false;
    box.addEventListener("scroll", () => {
      if (waits || this.isWhole) return;
      waits = true;
      requestAnimationFrame(() => { waits = false; this.draw(); });
    });
    new ResizeObserver(() => { this.height = 0; this.draw(); }).observe(box);
  }

  set(many) {
    this.many = many;
    this.draw();
  }

  measure() {
    if (this.height) return;
    const probe = element("div", { class: "row" }, "0");
    this.shown.append(probe);
    this.height = probe.getBoundingClientRect().height || 20;
    probe.remove();
  }

  get isWrapped() { return this.mayWrap && NARROW.matches; }
  get isWhole() { return this.isWrapped && this.many <= Rows.WRAPPED; }
  get whole() { return this.many * this.height + (this.isWrapped ? this.box.clientHeight : 0); }
  get length() { return Math.min(this.whole, Rows.MOST); }
  get inSight() { return Math.max(1, Math.floor(this.box.clientHeight / this.height)); }

  // How far the list goes for each pixel that its box scrolls.
  get scale() {
    if (this.whole <= Rows.MOST) return 1;
    return (this.whole - this.box.clientHeight) / Math.max(1, this.length - this.box.clientHeight);
  }

  // Gives the box its length.
  stretch() {
    this.measure();
    this.box.classList.toggle("wrapped", this.isWrapped);
    this.box.classList.toggle("whole", this.isWhole);
    this.space.style.height = this.isWhole ? "" : this.length + "px";
  }

  draw() {
    this.stretch();
    if (this.isWhole) return this.drawRows(0, this.many, 0);
    const room = Math.max(1, this.length - this.box.clientHeight), { scale } = this;
    const top = Math.min(this.box.scrollTop, room) * scale, first = Math.max(0, Math.min(Math.floor(top / this.height), this.many - 1));
    this.drawRows(first, Math.min(this.many, first + this.inSight + 2), scale === 1 ? first * this.height : this.box.scrollTop);
  }

  drawRows(from, to, top) {
    const rows = [];
    for (let i = from; i < to; i++) rows.push(this.make(i));
    this.first = from;
    this.shown.style.transform = top ? `translateY(${top}px)` : "";
    this.shown.replaceChildren(...rows);
  }

  // Scrolls until row i is in sight, a little below the top if it was not.
  show(i) {
    this.stretch();
    if (this.isWrapped) return this.showWrapped(i);
    if (i < this.first || i >= this.first + this.inSight - 1 || !this.shown.childElementCount) {
      this.box.scrollTop = Math.max(0, i - Math.floor(this.inSight / 4)) * this.height / this.scale;
    }
    this.draw();
  }

  showWrapped(i) {
    this.draw();
    const row = this.shown.children[i - this.first], { box } = this;
    if (!row) { box.scrollTop = i * this.height / this.scale; return this.draw(); }
    const above = row.getBoundingClientRect().top - box.getBoundingClientRect().top;
    if (above < 0 || above + row.offsetHeight > box.clientHeight) {
      box.scrollTop = this.isWhole ? box.scrollTop + above - box.clientHeight / 4 : i * this.height / this.scale;
      if (!this.isWhole) this.draw();
    }
  }
}

// The last index whose start is at most `at`.
function indexAt(starts, at) {
  let low = 0, high = starts.length - 1;
  while (low < high) {
    const middle = (low + high + 1) >> 1;
    if (starts[middle] <= at) low = middle; else high = middle - 1;
  }
  return low;
}

// A button that opens a file input, which is hidden. `take` is called with the files that are chosen.
function chooser(input, button, take) {
  $(button).addEventListener("click", () => $(input).click());
  $(input).addEventListener("change", event => {
    const files = [...event.target.files];
    event.target.value = "";   // so that the same file can be chosen again
    if (files.length) take(files);
  });
}
