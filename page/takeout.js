// What can be taken out of the page: each is byte for byte what a program prints.
"use strict";

const TAKEN = {
  dump: { program: "omf-dump", ending: ".dump.txt" },
  json: { program: "omf-dump --json", ending: ".json" },
  placement: { program: "omf-place", ending: ".place" },
  image: { program: "omf reloc", ending: ".image.txt" },
  canon: { program: "omf canon", ending: ".canon.omf", isBinary: true },
};

class TakeOut {
  // `bytesFor(kind)` returns the bytes of a kind, `file()` the name of the file that is open.
  constructor(bytesFor, file) {
    Object.assign(this, { bytesFor, file });
    for (const box of document.querySelectorAll("[data-take]")) box.append(...this.buttons(box.dataset.take));
  }

  buttons(kind) {
    const { program, isBinary } = TAKEN[kind], what = `what ${program} prints${isBinary ? ", in hexadecimal" : ""}`;
    const button = (word, title, act) => {
      const label = kind === "json" ? `${word} JSON` : word;
      return element("button", { type: "button", class: "small", title, "data-act": `${word.toLowerCase()}-${kind}`, "data-label": label,
        onclick: event => this.act(event.target, () => act.call(this, kind)) }, label);
    };
    return [button("Copy", `Copy ${what}`, this.copy), " ", button("Save", `Save what ${program} prints`, this.save)];
  }

  // Does it, and shows for a moment in the button how it went.
  async act(button, act) {
    const { label } = button.dataset;
    try {
      button.textContent = await act();
    } catch (fault) {
      button.textContent = "failed";
      button.title = fault.message;
    }
    setTimeout(() => { button.textContent = label; }, 900);
  }

  async save(kind) {
    const bytes = await this.bytesFor(kind), address = URL.createObjectURL(new Blob([bytes], { type: "application/octet-stream" }));
    element("a", { href: address, download: this.file() + TAKEN[kind].ending }).click();
    setTimeout(() => URL.revokeObjectURL(address), 60000);
    return "saved";
  }

  async copy(kind) {
    const bytes = await this.bytesFor(kind);
    await navigator.clipboard.writeText(TAKEN[kind].isBinary ? hexOf(bytes) : new TextDecoder().decode(bytes));
    return "copied";
  }
}
