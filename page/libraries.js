// A library: what `omf-lib list` and `omf-lib check` say of it, and its members.
"use strict";

const unescaped = text => text.replace(/\\x(..)/g, (_, digits) => String.fromCharCode(parseInt(digits, 16)));

// The members of a text of `omf-lib list`: {start, size, name, refused, publics}.
function membersOf(list) {
  const members = [];
  for (const line of list.split("\n")) {
    let found = /^M \d+ \d+ (\w{8}) (\d+) "([^"]*)"(?: refused (.*))?$/.exec(line);
    if (found) members.push({ start: parseInt(found[1], 16), size: +found[2], name: unescaped(found[3]), refused: found[4], publics: [] });
    found = /^P (\d+) "([^"]*)"$/.exec(line);
    if (found) members[+found[1]].publics.push(unescaped(found[2]));
  }
  return members;
}

// The member in which a library is cut: `omf-lib` does not list it, since its end is not known.
function cutMember(members, check, bytes) {
  if (!/^fault \d+ MemberCut /m.test(check)) return [];
  const page = 3 + bytes[1] + 256 * bytes[2], last = members[members.length - 1], end = last ? last.start + last.size : page;
  const start = Math.ceil(end / page) * page, name = textOf(bytes.subarray(start + 4, start + 4 + (bytes[start + 3] || 0)));
  return [{ start, size: bytes.length - start, name, refused: "Cut: the file ends in it", publics: [] }];
}

// The lines of a text of `omf-lib check`: {line, isNote, number, member}.
function findingsOf(check) {
  return check.split("\n").map(line => /^(fault|note) (\d+) (\w+) (.*)$/.exec(line)).filter(Boolean)
    .map(([line, kind, number, , place]) => ({ line, isNote: kind === "note", number, member: /\bmember (\d+)/.exec(place)?.[1] }));
}

class LibraryView {
  static FINDINGS = 50;

  // `open(member)` is called with the member that a person chose.
  constructor(faults, open) {
    this.faults = faults;
    this.open = open;
    this.choices = new Choices($("members"), i => this.row(i), i => this.choose(this.shown[i]));
    $("members-search").addEventListener("input", () => this.filter());
    this.clear();
  }

  clear() {
    this.members = this.shown = [];
    this.at = 0;
    this.isGood = false;
    this.choices.set(0);
    $("library").hidden = true;
  }

  // Shows a library; its first member is chosen.
  set(name, bytes, { list, check }) {
    this.members = membersOf(list);
    this.members.push(...cutMember(this.members, check, bytes));
    const [, page, flags] = /^LIBRARY page (\d+) .* case (\w+)/.exec(list), many = this.members.length;
    $("library").hidden = false;
    $("library-head").replaceChildren(element("b", {}, name),
      ` is a library ${many ? `of ${count(many, "member")}` : "without a member"}, in pages of ${page} bytes; case ${flags}.`);
    this.showFindings(check);
    $("members-part").hidden = !this.members.length;
    $("members-search").value = "";
    this.filter();
  }

  showFindings(check) {
    const found = findingsOf(check), faults = found.filter(it => !it.isNote), ok = /^OK (.*)$/m.exec(check);
    this.isGood = Boolean(ok);
    const head = ok ? element("p", { class: "good" }, `omf-lib check finds no fault: ${ok[1]}.`)
      : element("p", { class: "bad" }, faults.length ? `omf-lib check finds ${count(faults.length, "fault")}:` : `omf-lib check has no answer: ${check}.`);
    const items = found.slice(0, LibraryView.FINDINGS).map(it => this.finding(it));
    if (found.length > items.length) items.push(element("li", {}, `and ${count(found.length - items.length, "line")} more`));
    $("library-findings").replaceChildren(head, ...items.length ? [element("ul", {}, ...items)] : []);
  }

  // A line of the check, and what it means. For a member that is refused, its own advice is below.
  finding({ line, isNote, number, member }) {
    const { name, means, todo } = this.faults[number] || {}, sentence = text => text ? text[0].toUpperCase() + text.slice(1) + ". " : "";
    const item = element("li", {}, element("b", { class: isNote ? "" : "bad" }, line), ". ", sentence(means), name === "Member" ? "" : sentence(todo));
    if (member !== undefined && this.members[+member]) item.append(element("button", { type: "button", onclick: () => this.choose(+member) }, "Open the member"));
    return item;
  }

  // The members whose name, or one of whose publics, has the words that are searched.
  filter() {
    const words = $("members-search").value.trim().toLowerCase(), has = name => name.toLowerCase().includes(words);
    this.shown = this.members.map((_, i) => i).filter(i => !words || has(this.members[i].name) || this.members[i].publics.some(has));
    $("members-found").textContent = words ? `${count(this.shown.length, "member has", "members have")} it.` : "";
    this.words = words;
    this.choices.set(this.shown.length, this.shown.indexOf(this.at));
  }

  row(i) {
    const { start, size, name, refused, publics } = this.members[this.shown[i]];
    const found = this.words ? publics.filter(it => it.toLowerCase().includes(this.words)) : publics;
    const named = found.slice(0, 4).map(shownName).join(" ") + (found.length > 4 ? " .." : "");
    return [element("span", { class: "offset" }, hex(start, 8)), " ", element("span", { class: "name" }, shownName(name)), " ",
      refused ? element("span", { class: "bad" }, `refused ${refused}`) : element("span", { class: "summary" }, `${count(size, "byte")}  ${named}`)];
  }

  choose(member) {
    this.at = member;
    const i = this.shown.indexOf(member);
    if (i >= 0) this.choices.mark(i);
    return this.open(this.members[member]);
  }

  // Opens the next member that is refused. Whether there is one.
  nextFault() {
    const many = this.members.length;
    for (let i = 1; i <= many; i++) {
      const member = (this.at + i) % many;
      if (!this.members[member].refused) continue;
      this.choose(member);
      return true;
    }
    return false;
  }
}
