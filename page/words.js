// Sentences: verdicts, and what docs/REASONS.md and docs/LIBRARIES.md say of reasons and faults.
"use strict";

// Text of the documents: `words` and **words** are the only marks.
function prose(label, text) {
  const made = element("p", {}, label ? element("b", {}, label + " ") : null);
  text.split(/(`[^`]+`|\*\*[^*]+\*\*)/).forEach(part => {
    if (part.startsWith("`")) made.append(element("code", {}, part.slice(1, -1)));
    else if (part.startsWith("**")) made.append(element("b", {}, part.slice(2, -2)));
    else made.append(part);
  });
  return made;
}

function advice(reason) {
  if (!reason) return [];
  return [["What it means.", reason.means], ["Usual cause.", reason.cause], ["What to do.", reason.todo]].filter(it => it[1]).map(it => prose(...it));
}

// What is said of a module that is accepted.
function acceptedWords({ name, bytes, verdict }) {
  const rest = bytes.length - verdict.size;
  return [element("b", {}, name), ` is a well-formed module: ${count(verdict.records, "record")}, ${count(verdict.size, "byte")}.`,
    rest ? ` The ${count(rest, "byte")} after it ${rest === 1 ? "is" : "are"} not read.` : ""];
}

// What is said of a module that is refused, from the line of its dump for the record at fault. A library without a member has no such line.
function refusedWords({ name, bytes, verdict, fault }, line) {
  const { reason, record, start, within } = verdict;
  const there = fault < bytes.length ? `, where ${hex(bytes[fault], 2)}H is` : ", its end";
  const looks = line["looks-like"] ? `; the file looks like ${line["looks-like"]}` : "";
  const why = line.meaning ? ` is refused: ${line.meaning}${looks}. ` : bytes[0] === 0xF0 ? " is no module: read as one, it is refused. " : " is refused. ";
  const type = line.record || TYPES[bytes[start]];
  return [element("b", {}, name), why, element("span", {}, `Reason ${reason}, ${verdict.name}, in record ${record}${type ? ` (${type})` : ""}, which begins at byte ` +
    `${start} (${hex(start, 1)}H). The fault is at byte ${within} of the record: byte ${fault} (${hex(fault, 1)}H) of the file${there}.`)];
}

// The advice for a line of `omf reloc` that is no image.
function reachAdvice(reasons, line) {
  const found = /^reach \d (\w+)( (Target|Location|Distance))?/.exec(line);
  if (found) return advice(reasons[found[1] === "TooFar" ? "TooFar " + found[3] : found[1]]);
  return advice(reasons[/^(placement line|placement too long|memory)/.exec(line)?.[1]]);
}

// The sentence for such a line. `bad` is the fixup that it names, if it names one.
function reachWords(line, bad, isDraft) {
  const found = /^placement line (\d+)$/.exec(line);
  if (found) return `Line ${found[1]} of the placement is no entry, or asks for the frame of a group that has none.`;
  if (!bad) return /^reach/.test(line) ? `The placement does not fit the module: ${line}.` : `No image: ${line}.`;
  if (!isDraft) return `The placement does not reach: ${bad.words}`;
  return `The module is well-formed, but this draft does not reach: ${bad.words} Change the lines above to the addresses and frames that the code was written for.`;
}
