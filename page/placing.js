// Placements: a draft, or one that is edited, its image, and the picture of the module there.
"use strict";

class Placing {
  static KINDS = { real: "in real mode", flat: "with one frame from address 0" };

  constructor(page) {
    Object.assign(this, { page, wanted: {}, isDraft: { a: false, b: false }, texts: {} });
    this.images = { a: new Image($("image-a")), b: new Image($("image-b")) };
    this.images.a.other = this.images.b;
    this.images.b.other = this.images.a;
    for (const which of ["a", "b"]) {
      let timer = 0;
      $("place-" + which).addEventListener("input", () => {
        this.isDraft[which] = false;
        clearTimeout(timer);
        timer = setTimeout(() => this.image(which), 120);
      });
    }
    $("two").addEventListener("change", () => this.second());
    $("redraft").addEventListener("click", () => this.redraft());
    $("base").addEventListener("keydown", event => { if (event.key === "Enter") this.redraft(); });
    const [one, two] = [$("image-a"), $("image-b")];
    one.addEventListener("scroll", () => { two.scrollTop = one.scrollTop; });
    two.addEventListener("scroll", () => { one.scrollTop = two.scrollTop; });
  }

  clear() {
    this.wanted = {};
    this.bad = null;
    for (const which of ["a", "b"]) { this.images[which].set(null); $("place-" + which).value = ""; $("said-" + which).replaceChildren(); }
    $("two").checked = false;
    $("take-image").hidden = true;
    $("drafted").textContent = "";
    this.second();
  }

  // The first placement of a module: one that is given, or a draft that reaches if there is one.
  async begin(placement, isOld) {
    const wide = this.page.look.seen.segments.some(segment => segment.use === 32);
    const tries = wide ? [["10000", "flat"], ["10000", "real"]] : [["10000", "real"], ["100", "flat"], ["10000", "flat"]];
    this.isDraft.a = !placement;
    if (placement) {
      [[$("base").value, $("kind").value]] = tries;
      $("place-a").value = placement;
      return this.image("a");
    }
    const { at, isDrafted, reaches, text } = await this.page.engine.ask("draft", { tries: tries.map(it => this.wordsOf(...it)) });
    if (isOld()) return;
    [$("base").value, $("kind").value] = tries[at];
    if (!isDrafted) return this.notDrafted(text);
    if (reaches && at) $("drafted").textContent = `A draft ${Placing.KINDS[tries[0][1]]} does not reach; this one is ${Placing.KINDS[tries[at][1]]}.`;
    if (!reaches) $("drafted").textContent = `None of ${tries.length} drafts reaches: this one is ${Placing.KINDS[tries[at][1]]}.`;
    $("place-a").value = text;
    return this.image("a");
  }

  wordsOf(base, kind) {
    return ["--base", base, ...kind === "real" ? ["--real"] : ["--flat", "8"]];
  }

  // A draft that was asked for.
  async redraft() {
    const { page } = this, { turn } = page, asked = $("base").value.trim(), found = /^(?:0x)?([0-9a-f]{1,8})h?$/i.exec(asked);
    $("drafted").textContent = "";
    if (!found) return this.notDrafted(`“${asked}” is no address: it has 1 to 8 hexadecimal digits, such as 7C00.`);
    const { isDrafted, text } = await page.engine.ask("draft", { tries: [this.wordsOf(found[1].toUpperCase(), $("kind").value)] });
    if (turn !== page.turn) return;
    if (!isDrafted) return this.notDrafted(text);
    this.isDraft.a = true;
    $("place-a").value = text;
    return this.image("a");
  }

  notDrafted(why) {
    $("said-a").replaceChildren(element("p", { class: "warn" }, `There is no draft: ${why.replace(/^omf-place: /, "").trim()}`));
    this.page.picture.draw(this.page.look.seen, $("place-a").value, null);
  }

  // Makes the image of a placement, the last one that was typed.
  async image(which) {
    if (this.wanted[which]) { this.wanted[which] = "again"; return; }
    const { page } = this, { turn } = page;
    do {
      this.wanted[which] = "once";
      const answer = await page.engine.ask("image", { which, text: $("place-" + which).value });
      if (turn !== page.turn) return;
      if (this.wanted[which] === "once") await this.showImage(which, answer);
    } while (this.wanted[which] === "again");
    this.wanted[which] = null;
  }

  async showImage(which, answer) {
    const { page } = this, { turn } = page;
    this.images[which].set(answer);
    this.images[which === "a" ? "b" : "a"].list.draw();
    const bad = answer.status === 0 ? null : this.reachOf(answer.line);
    if (bad) bad.isDraft = this.isDraft[which];
    $("said-" + which).replaceChildren(...this.sentence(which, answer, bad));
    $("image-" + which).hidden = !answer.text.length;
    if (which === "a") $("take-image").hidden = answer.status !== 0;
    $("differ").textContent = this.differWords(answer.differ);
    await new Promise(take => setTimeout(take));   // the image is drawn before the picture
    if (which !== "a" || turn !== page.turn) return;
    this.bad = bad;
    page.picture.draw(page.look.seen, $("place-a").value, bad);
  }

  sentence(which, { status, line, text, starts }, bad) {
    if (status === 0) {
      const many = starts.length - 1;
      return [element("p", { class: "good" }, text.length ? `The placement reaches: ${count(many, "line")} of image.` : "The placement reaches. No segment has data.")];
    }
    const kind = bad && this.isDraft[which] ? "warn" : "bad";
    const part = bad ? element("button", { type: "button", onclick: () => this.page.fromPicture(bad.record, bad.within) }, "Show it") : null;
    return [element("p", { class: kind }, reachWords(line, bad, this.isDraft[which]), " ", part), ...reachAdvice(this.page.reasons, line)];
  }

  differWords(differ) {
    if (!$("two").checked || !differ) return "";
    if (differ.isSame) return "The two images are the same.";
    return `${count(differ.bytes, "byte")} differ${differ.bytes === 1 ? "s" : ""}, in ${count(differ.lines, "line")}.`;
  }

  // The fixup that a line of `omf reloc` names.
  reachOf(line) {
    const found = /^reach 4 TooFar (Target|Location|Distance) record (\d+) within (\d+)$/.exec(line);
    if (!found) return null;
    const { look, tree } = this.page, record = +found[2], within = +found[3], dump = tree.dumpOf(record);
    const item = (dump.items || []).find(it => it.within === within) || dump.items?.[0];
    const data = look.dataRecord(record), segment = data ? tree.dumpOf(data.record).segment : null;
    const what = { Target: "the target is outside the offsets of its frame", Location: "the location is outside the frame",
      Distance: "the target of the short jump is too far" }[found[1]];
    const place = segment ? `segment ${segment.index} ${shownName(segment.name || "")}` : "its segment";
    const which = dump.record === "MODEND" ? "the start" : item ? `the ${item.location} at ${hex(item.at, 4)}H of ${place}` : "the fixup";
    const target = item ? `, to ${[item.target.method, item.target.index, item.target.name === undefined ? "" : shownName(item.target.name)].filter(Boolean).join(" ")}` : "";
    return { record, within, fixup: item && item.location ? item : null, segment: segment && segment.index, short: `${found[1]}: does not reach`,
      words: `${which} (record ${record}, +${within})${target}: ${what}.` };
  }

  second() {
    const isOn = $("two").checked;
    $("pane-b").hidden = !isOn;
    $("panes").classList.toggle("two", isOn);
    if (isOn && this.page.look) {
      this.isDraft.b = this.isDraft.a;
      $("place-b").value = $("place-a").value;
      this.image("b");
    } else {
      this.images.b.set(null);
      $("differ").textContent = "";
      this.images.a.list.draw();
    }
  }
}
