// The image of a placement: the lines of `omf reloc`, beside those of another placement.
"use strict";

class Image {
  constructor(box) {
    this.box = box;
    this.list = new Rows(box, i => this.make(i));
    this.text = null;
    this.other = null;
  }

  set(answer) {
    this.text = answer && answer.status === 0 ? answer.text : null;
    this.starts = answer && answer.starts;
    this.list.set(this.text ? this.starts.length - 1 : 0);
  }

  line(i) {
    return this.text && i + 1 < this.starts.length ? textOf(this.text.subarray(this.starts[i], this.starts[i + 1])).trimEnd() : null;
  }

  make(i) {
    const row = element("div", { class: "row" }), line = this.line(i) || "", other = this.other && this.other.text ? this.other.line(i) : line;
    if (line === other) {
      row.textContent = line;
      return row;
    }
    const words = line.split(" "), others = (other || "").split(" ");
    words.forEach((word, k) => row.append(k ? " " : "", word === others[k] ? word : element("mark", {}, word)));
    return row;
  }
}
