// The picture: segments as bars in the order of their addresses, their data and gaps, and fixups as arrows.
"use strict";

const SVG = "http://www.w3.org/2000/svg";
const shape = (name, attributes, ...children) => {
  const made = document.createElementNS(SVG, name);
  for (const [key, value] of Object.entries(attributes)) if (value !== null && value !== undefined) made.setAttribute(key, value);
  made.append(...children);
  return made;
};
const titled = text => shape("title", {}, text);

// An entry of a placement, or null where its words are none, as while it is typed.
function entryOf(letter, words) {
  const isReal = words[words.length - 1] === "real", texts = isReal ? words.slice(0, -1) : words, many = (letter === "G" ? 2 : 3) - (isReal ? 2 : 0);
  if (texts.length !== many || !texts.every(text => /^[0-9A-F]{1,8}$/i.test(text))) return null;
  const [one, two, three] = texts.map(text => parseInt(text, 16));
  if (letter === "G") return isReal ? { isReal } : { base: one, selector: two };
  return isReal ? { address: one, base: one - one % 16, selector: one >>> 4 } : { address: one, base: two, selector: three };
}

// The entries of a placement text, as far as the picture needs them. Whether the text is right, `omf reloc` decides.
function entriesOf(text) {
  const entries = { S: [], G: [], E: [] };
  for (const line of text.split("\n")) {
    const [letter, ...words] = line.split(";")[0].trim().split(" ");
    if (/^[SGE]$/.test(letter)) entries[letter].push(entryOf(letter, words));
  }
  return entries;
}

const PICTURED = { segments: 60, arrows: 250, externals: 60 };

// Where things are in a picture of some width: the bars from `left`, `bar` long; groups and externals from `right`; the lines of a segment's
// text at `lines`. In a narrow picture the text is above the bar and below it.
function layoutOf(width, hasBoxes) {
  if (width >= 640) {
    const right = hasBoxes ? width - 240 : width;
    return { width, row: 54, left: 218, bar: right - 300, right, barTop: 4, lines: [12, 26, 40], letters: 22, box: 20 };
  }
  const right = hasBoxes ? Math.round(width * 0.64) : width;
  return { width, row: 72, left: 12, bar: right - 44, right, barTop: 30, lines: [10, 24, 64], letters: Math.floor(right / 8), box: 34 };
}

class Picture {
  constructor(box, note, chosen) {
    Object.assign(this, { box, note, chosen });   // chosen: called with the record and the offset in it of a fixup, or with a record
    this.clear();
    new ResizeObserver(() => { if (this.drawn && this.layout.width !== this.widthNow()) this.draw(...this.drawn); }).observe(box);
  }

  clear() {
    this.drawn = null;
    this.box.replaceChildren();
    this.note.textContent = "";
  }

  widthNow() { return Math.max(300, this.box.clientWidth); }

  name(text, most = this.layout.letters) {
    const shown = text === undefined ? "-" : shownName(text).slice(1, -1) || "(no name)";
    return shown.length > most ? shown.slice(0, most - 2) + ".." : shown;
  }

  // Draws the module at a placement. `bad` is {record, within, words, short, fixup, isDraft} where it does not reach.
  draw(seen, text, bad) {
    this.drawn = [seen, text, bad];
    const externals = this.externalsOf(seen);
    this.layout = layoutOf(this.widthNow(), externals.length + seen.groups.length > 0);
    const { width, row: rowHeight, left, right, box } = this.layout;
    const entries = entriesOf(text), at = new Map();
    const rows = seen.segments.map((segment, i) => ({ segment, index: i + 1, entry: entries.S[i] }));
    rows.sort((a, b) => (a.entry ? a.entry.address : Infinity) - (b.entry ? b.entry.address : Infinity) || a.index - b.index);
    const shown = rows.slice(0, PICTURED.segments), most = Math.max(1, ...shown.map(row => row.segment.length));
    const groupOf = index => seen.groups.findIndex(group => group.members.includes(index));
    this.colours = new Map();
    for (const segment of seen.segments) if (!this.colours.has(segment.class)) this.colours.set(segment.class, this.colours.size % 6);
    const height = 34 + Math.max(shown.length * rowHeight, (externals.length + seen.groups.length) * (box + 6) + 30);
    const svg = shape("svg", { viewBox: `0 0 ${width} ${height}`, role: "group", "aria-label": "the segments of the module at the placement, and its fixups" });
    svg.append(this.marks());
    const head = (x, words) => shape("text", { x, y: 16, class: "head" }, words);
    svg.append(head(8, "segment, class, group"));
    if (width >= 640) svg.append(head(left, "data and gaps"));
    if (right < width) svg.append(head(right, "groups, externals"));
    shown.forEach((row, i) => svg.append(this.segment(row, i, most, groupOf(row.index), at, seen)));
    this.boxes(svg, seen, externals, entries, at);
    const drawn = this.arrows(svg, seen, at, bad);
    if (seen.start) this.start(svg, seen.start, at);
    this.box.replaceChildren(svg);
    const notes = [];
    if (rows.length > shown.length) notes.push(`The first ${shown.length} of ${count(rows.length, "segment")} are drawn.`);
    const all = seen.fixups.length.toLocaleString("en") + (seen.more ? " or more" : "");
    if (!seen.fixups.length) notes.push("The module has no fixups.");
    else notes.push(drawn === seen.fixups.length && !seen.more ? `${count(drawn, "fixup is drawn", "fixups are drawn")}.` : `${drawn} of ${all} fixups are drawn.`);
    if (bad) notes.push(`${bad.isDraft ? "In orange" : "In red"}, what does not reach: ${bad.words}`);
    this.note.textContent = notes.join(" ");
  }

  // The externals that are drawn: those that a fixup names, or all if they are few.
  externalsOf(seen) {
    const used = new Set();
    for (const fixup of seen.fixups) for (const it of [fixup.target, fixup.frame]) if (it.method === "external") used.add(it.index);
    return seen.externals.map((external, i) => ({ external, index: i + 1 })).filter(it => used.has(it.index) || seen.externals.length <= 12)
      .slice(0, PICTURED.externals);
  }

  marks() {
    const gap = shape("pattern", { id: "gap", width: 6, height: 6, patternUnits: "userSpaceOnUse", patternTransform: "rotate(45)" },
      shape("line", { x1: 0, y1: 0, x2: 0, y2: 6, class: "hatch" }));
    const head = (id, name) => shape("marker", { id, viewBox: "0 0 6 6", refX: 5, refY: 3, markerWidth: 7, markerHeight: 7, orient: "auto" },
      shape("path", { d: "M0 0 L6 3 L0 6 z", class: name }));
    return shape("defs", {}, gap, head("tip", "tip"), head("tip-bad", "tip bad"), head("tip-warn", "tip warn"));
  }

  segment({ segment, index, entry }, i, most, group, at, seen) {
    const { row, left, bar, barTop, lines } = this.layout, y = 30 + i * row, top = y + barTop;
    const width = segment.length ? Math.max(8, segment.length / most * bar) : 2;
    const place = offset => left + Math.min(1, segment.length ? offset / segment.length : 0) * width;
    at.set("segment" + index, { y: top + 10, place, left, right: left + width });
    const last = entry && segment.length ? entry.address + segment.length - 1 : entry && entry.address;
    const where = entry ? `${hex(entry.address, 5)}H${segment.length ? ` to ${hex(last, 5)}H` : ", empty"}` : "not placed";
    const groupName = group < 0 ? "" : this.name(seen.groups[group].name);
    const kind = `${segment.class ? "class " + this.name(segment.class, 12) : "no class"}${groupName ? ", group " + groupName.slice(0, 12) : ""}`;
    const filled = segment.data.reduce((sum, [from, to]) => sum + to - from, 0);
    const words = `segment ${index} ${this.name(segment.name)}, class ${this.name(segment.class)}${groupName ? ", group " + groupName : ""}, ` +
      `${segment.align}, ${segment.combine}, use${segment.use}, ${hex(segment.length, 4)}H bytes, ${hex(filled, 4)}H of them data, ${where}` +
      (entry ? `, frame ${hex(entry.base, 5)}H, selector ${hex(entry.selector, 4)}H` : "");
    const made = shape("g", { class: "segment", tabindex: 0, role: "button" }, titled(words),
      shape("rect", { x: 2, y: y + 2, width: 5, height: 26, class: "stripe g" + (group < 0 ? "none" : group % 6) }),
      shape("text", { x: 12, y: y + lines[0] }, `${index} ${this.name(segment.name)}`),
      shape("text", { x: 12, y: y + lines[1], class: "small" }, kind),
      shape("rect", { x: left, y: top, width, height: 20, class: "bar" }), shape("rect", { x: left, y: top, width, height: 20, fill: "url(#gap)" }));
    let drawnTo = -1;
    for (const [from, to] of segment.data) {
      const x = place(from), end = Math.max(place(to), x + 0.7);
      if (end <= drawnTo) continue;
      made.append(shape("rect", { x: Math.max(x, drawnTo), y: top, width: end - Math.max(x, drawnTo), height: 20, class: "data c" + this.colours.get(segment.class) }));
      drawnTo = end;
    }
    made.append(shape("text", { x: 12, y: y + lines[2], class: "small" }, where));
    const choose = () => this.chosen(segment.record);
    made.addEventListener("click", choose);
    made.addEventListener("keydown", event => { if (event.key === "Enter") choose(); });
    return made;
  }

  boxes(svg, seen, externals, entries, at) {
    const { width, right, box: height } = this.layout, isLow = height < 30, letters = Math.floor((width - right - 20) / 7);
    let y = 30;
    const box = (key, name, where, title, style, record) => {
      const made = shape("g", { class: "entry" }, titled(title), shape("rect", { x: right, y, width: width - right - 6, height, rx: 3, class: style }));
      if (isLow) made.append(shape("text", { x: right + 8, y: y + 14 }, `${this.name(name, letters - where.length - 1)}  ${where}`));
      else made.append(shape("text", { x: right + 6, y: y + 14 }, this.name(name, letters)), shape("text", { x: right + 6, y: y + 28, class: "small" }, where));
      made.addEventListener("click", () => this.chosen(record));
      svg.append(made);
      at.set(key, { y: y + height / 2, place: () => right, left: right, right });
      y += height + 6;
    };
    seen.groups.forEach((group, i) => {
      const entry = entries.G[i], frame = !entry ? "not placed" : entry.isReal ? "real" : `frame ${hex(entry.base, 5)}H`;
      box("group" + (i + 1), `G${i + 1} ${group.name === undefined ? "-" : group.name}`, frame, `group ${i + 1} ${this.name(group.name)}: segments ${group.members.join(", ") || "none"}; ${frame}`,
        "group g" + i % 6, group.record);
    });
    for (const { external, index } of externals) {
      const entry = entries.E[index - 1], where = entry ? hex(entry.address, 5) + "H" : "not placed";
      box("external" + index, external.name, where, `external ${index} ${this.name(external.name)}, ${where}`, "external", external.record);
    }
  }

  // The end of an arrow: where its target is.
  target(fixup, at) {
    const place = at.get(fixup.target.method + fixup.target.index);
    if (!place) return null;
    const inPlace = fixup.bytes && /offset|pointer/.test(fixup.location) ? parseInt(fixup.bytes.slice(0, fixup.location.endsWith("32") ? 8 : 4)
      .replace(/../g, "$&,").split(",").reverse().join(""), 16) || 0 : 0;
    const offset = (fixup.displacement || 0) + (fixup["self-relative"] ? 0 : inPlace);
    return { x: place.place(offset), y: place.y };
  }

  arrows(svg, seen, at, bad) {
    const { left, right, width } = this.layout, fixups = seen.fixups.slice(0, PICTURED.arrows), kind = bad && (bad.isDraft ? "warn" : "bad");
    const isBad = fixup => bad && fixup.record === bad.record && fixup.within === bad.within;
    if (bad && bad.fixup && !fixups.some(isBad)) fixups.push({ ...bad.fixup, record: bad.record, segment: bad.segment });
    fixups.sort((a, b) => isBad(a) - isBad(b));
    let drawn = 0;
    for (const fixup of fixups) {
      const from = at.get("segment" + fixup.segment), to = from && this.target(fixup, at);
      if (!to) continue;
      drawn++;
      const x = from.place(fixup.at), down = to.y >= from.y, y = from.y + (down ? 8 : -8), same = Math.abs(to.y - from.y) < 1;
      const bend = same ? 26 : Math.max(14, Math.abs(to.y - y) / 2), endY = same ? y : to.y === at.get(fixup.target.method + fixup.target.index).y && to.x < right
        ? to.y + (down ? -10 : 10) : to.y;
      const path = to.x >= right ? `M${x} ${from.y + 10} C${x} ${from.y + 34} ${right - Math.min(110, width / 8)} ${endY} ${right - 2} ${endY}`
        : `M${x} ${y} C${x} ${y + (down ? bend : -bend)} ${to.x} ${endY - (same ? -bend : down ? bend : -bend)} ${to.x} ${endY}`;
      const wrong = isBad(fixup), target = `${fixup.target.method} ${fixup.target.index || ""} ${this.name(fixup.target.name)}`;
      const words = `fixup at +${fixup.within} of record ${fixup.record}: ${fixup.location}${fixup["self-relative"] ? ", self-relative" : ""} at ${hex(fixup.at, 4)}H of segment ` +
        `${fixup.segment}, to ${target}${fixup.displacement ? ` + ${hex(fixup.displacement, 4)}H` : ""}, frame ${fixup.frame.method} ${fixup.frame.index || ""}` + (wrong ? `. ${bad.words}` : "");
      const made = shape("g", { class: wrong ? `arrow ${kind}` : "arrow", "data-at": `${fixup.record}+${fixup.within}` }, titled(words),
        shape("path", { d: path, class: "near" }), shape("path", { d: path, class: "line", "marker-end": wrong ? `url(#tip-${kind})` : "url(#tip)" }));
      if (wrong) made.append(shape("text", { x: Math.max(left, Math.min(x - 4, right - 160)), y: from.y - 14, class: "reason" }, bad.short));
      made.addEventListener("click", () => this.chosen(fixup.record, fixup.within));
      svg.append(made);
    }
    return drawn;
  }

  // Marks the arrow of a fixup.
  mark(record, within) {
    for (const arrow of this.box.querySelectorAll(".arrow")) arrow.classList.toggle("chosen", arrow.dataset.at === `${record}+${within}`);
  }

  start(svg, start, at) {
    const to = this.target({ ...start, location: "" }, at);
    if (!to) return;
    svg.append(shape("path", { d: `M${to.x} ${to.y + 12} l-5 8 h10 z`, class: "start" }, titled("the start address")));
  }
}
