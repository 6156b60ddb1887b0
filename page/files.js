// The files that were chosen or dropped together. Each is judged in a worker of its own, one after another.
"use strict";

class FileList {
  // `open(file)` is called with the file that a person chose.
  constructor(open) {
    this.open = open;
    this.files = [];
    this.choices = new Choices($("files"), i => this.row(i), i => this.open(this.files[i].file));
  }

  // Takes files in the place of those before, and opens the first if there is one.
  set(files) {
    this.engine?.end();
    this.engine = null;
    this.files = files.map(file => ({ file, verdict: null }));
    $("files-part").hidden = files.length < 2;
    this.choices.set(files.length, files.length ? 0 : -1);
    if (files.length > 1) this.judge();
    if (files.length) this.open(files[0]);
  }

  async judge() {
    const { files } = this, engine = this.engine = new Engine();
    await engine.ready;
    for (const it of files) {
      if (this.engine !== engine) return;
      it.verdict = await this.verdictOf(engine, it.file);
      this.choices.list.draw();
      this.count();
    }
    engine.end();
  }

  async verdictOf(engine, file) {
    if (file.size > MOST_BYTES) return { isGood: false, words: "more than 64 MB: not read" };
    try {
      return await engine.ask("verdict", { bytes: new Uint8Array(await file.arrayBuffer()) });
    } catch (fault) {
      return { isGood: false, words: `not read: ${fault.message}` };
    }
  }

  count() {
    const judged = this.files.filter(it => it.verdict), bad = judged.filter(it => !it.verdict.isGood);
    $("files-head").textContent = `${count(this.files.length, "file")}, ${judged.length} judged, ${bad.length} with a fault:`;
  }

  row(i) {
    const { file, verdict } = this.files[i];
    return [element("span", { class: "name" }, file.name), " ", element("span", { class: "offset" }, count(file.size, "byte")), " ",
      element("span", { class: verdict ? verdict.isGood ? "good" : "bad" : "summary" }, verdict ? verdict.words : "..")];
  }

  // Opens the next file with a fault. Whether there is one.
  nextFault() {
    const many = this.files.length;
    for (let i = 1; i <= many; i++) {
      const at = (this.choices.at + i) % many;
      if (!this.files[at].verdict || this.files[at].verdict.isGood) continue;
      this.choices.choose(at);
      return true;
    }
    return false;
  }
}
