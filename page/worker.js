// The worker: runs the programs, each run in an instance of its own, and keeps the module that is looked at.
"use strict";

const programs = {};
let current = null;   // {bytes, size}: the module
const images = {};    // the last text of `omf reloc` of each placement

async function inflate(base64) {
  const stream = new Blob([fromBase64(base64)]).stream().pipeThrough(new DecompressionStream("gzip"));
  return new Uint8Array(await new Response(stream).arrayBuffer());
}

// Runs a program with arguments on bytes: {status, output}; a trap is {status: -1, trap}.
function run(program, words, parts, most = 1 << 29) {
  const { exports } = new WebAssembly.Instance(programs[program], {});
  const memory = (at, size) => new Uint8Array(exports.memory.buffer, Number(at), size);
  const room = size => {
    const at = exports.page_take(BigInt(size || 1));
    if (!at) throw new RangeError("out of memory");
    return at;
  };
  try {
    for (const word of [program, ...words]) {
      const at = room(word.length + 1);
      memory(at, word.length + 1).set(bytesOf(word + "\0"));
      exports.page_argument(at);
    }
    const size = parts.reduce((sum, part) => sum + part.length, 0), at = room(size);
    let filled = 0;
    for (const part of parts) {
      memory(at, size).set(part, filled);
      filled += part.length;
    }
    exports.page_input(at, BigInt(size));
    exports.page_output_most(BigInt(most));
    const status = exports.page_main();
    return { status, output: memory(exports.page_output(), Number(exports.page_output_size())).slice() };
  } catch (trap) {
    return { status: -1, trap: String(trap), output: new Uint8Array(0) };
  }
}

const said = answer => answer.trap || textOf(answer.output).trimEnd();

// What `omf check` says of a module.
function judge(bytes) {
  const line = said(run("omf", ["check"], [bytes]));
  let found = /^OK (\d+) records, (\d+) bytes$/.exec(line);
  if (found) return { line, ok: true, records: +found[1], size: +found[2] };
  found = /^refused (\d+) (\w+) record (\d+) at (\d+) within (\d+)$/.exec(line);
  if (found) return { line, ok: false, reason: +found[1], name: found[2], record: +found[3], start: +found[4], within: +found[5] };
  return { line, ok: false, reason: 0 };
}

const lineAt = (text, starts, i) => JSON.parse(textOf(text.subarray(starts[i], starts[i + 1])));
const MOST_DATA = 200000, MOST_FIXUPS = 3000, MOST_FIXUPPS = 20000;

// What the picture needs of the dump: segments with their data, groups, externals, the first fixups, and the start.
function outline(text, starts, bytes, records) {
  const seen = { segments: [], groups: [], externals: [], publics: 0, fixups: [], more: false, start: null };
  let data = 0, fixupps = 0;
  const take = {
    SEGDEF: record => seen.segments.push({ name: record.name.name, class: record.class.name, length: record.length, use: record.use, big: record.big,
      absolute: "frame" in record, combine: record.combine, align: record.align, record: record.number, data: [] }),
    GRPDEF: record => seen.groups.push({ name: record.name.name, members: record.items.map(item => item.segment.index), record: record.number }),
    EXTDEF: record => record.items.forEach(item => seen.externals.push({ name: item.external.name, record: record.number })),
    DATA: record => {
      const segment = seen.segments[record.segment.index - 1];
      if (segment) segment.data.push([record.offset, record.offset + (record.length || 0)]);
    },
    FIXUPP: record => record.items.forEach(item => {
      if (!("location" in item)) return;
      if (seen.fixups.length < MOST_FIXUPS) seen.fixups.push({ ...item, record: record.number, segment: seen.last });
      else seen.more = true;
    }),
    MODEND: record => { seen.start = record.items[0] ? { ...record.items[0], record: record.number } : null; },
  };
  for (let i = 0; i + 1 < records.length && i + 1 < starts.length; i++) {
    const type = TYPES[bytes[records[i]]];
    if (type === "LEDATA" || type === "LIDATA") {
      if (data++ >= MOST_DATA) { seen.more = true; continue; }
      const record = lineAt(text, starts, i);
      seen.last = record.segment && record.segment.index;
      take.DATA(record);
    } else if (type === "FIXUPP") {
      if (seen.fixups.length >= MOST_FIXUPS || fixupps++ >= MOST_FIXUPPS) seen.more = true;
      else take.FIXUPP(lineAt(text, starts, i));
    } else if (type === "LEXTDEF" || type === "COMDEF" || type === "LCOMDEF" || type === "EXTDEF") take.EXTDEF(lineAt(text, starts, i));
    else if (take[type]) take[type](lineAt(text, starts, i));
  }
  for (const segment of seen.segments) segment.data = merged(segment.data);
  return seen;
}

// Intervals that overlap or touch, joined.
function merged(intervals) {
  const joined = [];
  for (const [from, to] of intervals.sort((a, b) => a[0] - b[0])) {
    const last = joined[joined.length - 1];
    if (last && from <= last[1]) last[1] = Math.max(last[1], to);
    else if (to > from) joined.push([from, to]);
  }
  return joined;
}

// The first draft of some that reaches, or else the first that there is.
function draft(tries) {
  const module = current.bytes.subarray(0, current.size), drafts = [];
  for (const [at, words] of tries.entries()) {
    const { status, output, trap } = run("omf_place", words, [module]);
    drafts.push({ at, isDrafted: status === 0, text: trap || textOf(output) });
    if (status === 0 && (tries.length === 1 || run("omf", ["reloc"], [module, output]).status === 0)) return { ...drafts[at], reaches: true };
  }
  return { ...drafts.find(it => it.isDrafted) || drafts[0], reaches: false };
}

// What a list of files shows of one.
function verdictOf(bytes) {
  const check = bytes[0] === 0xF0 ? said(run("omf_lib", ["check", "-"], [bytes])) : "";
  if (check && !/^fault [23] /.test(check)) return { isGood: check.startsWith("OK"), words: "library: " + check.split("\n")[0] };
  const verdict = judge(bytes);
  return { isGood: verdict.ok, words: verdict.ok ? `well-formed: ${count(verdict.records, "record")}` : verdict.line };
}

// The lines of the records of a file's first module, before a line of a further module or of bytes that are left; and that of the next module, or null.
function ownLines(text, starts) {
  const other = starts.findIndex(at => /^\{"(module|left)":/.test(textOf(text.subarray(at, at + 10))));
  if (other < 0) return { starts, next: null };
  const line = lineAt(text, starts, other);
  return { starts: starts.slice(0, other + 1), next: "module" in line ? line : null };
}

// The records of a dump: those after the one at fault are there too, as many as it has lines.
function recordsOf(records, lines, bytes) {
  const all = [...records];
  while (all.length - 1 < lines && all[all.length - 1] < bytes.length) all.push(recordEnd(bytes, all[all.length - 1]));
  return Uint32Array.from(all);
}

function keyOf(bytes) {
  const answer = run("omf", ["canon"], [bytes]);
  return answer.status === 0 ? { canonical: answer.output, key: sha256(answer.output) } : { line: said(answer) };
}

// The first record of two canonical forms that differs, with the lines of `omf-dump` for it.
function firstDifference(one, two) {
  const starts = [one, two].map(bytes => recordStarts(bytes, bytes.length));
  const record = (bytes, at, i) => bytes.subarray(at[i], at[i + 1]);
  for (let i = 0; ; i++) {
    const a = i + 1 < starts[0].length ? record(one, starts[0], i) : null, b = i + 1 < starts[1].length ? record(two, starts[1], i) : null;
    if (!a && !b) return null;
    if (a && b && a.length === b.length && a.every((byte, at) => byte === b[at])) continue;
    const shown = (bytes, raw) => {
      if (!raw) return null;
      const dump = run("omf_dump", ["--json", "--data", "16"], [bytes]).output, lines = lineStarts(dump);
      return { record: lineAt(dump, lines, i), bytes: raw.slice() };
    };
    return { number: i, one: shown(one, a), two: shown(two, b) };
  }
}

// How two texts of `omf reloc` for one module differ: lines, bytes.
function differences(a, b) {
  let lines = 0, bytes = 0, isSame = true;
  const starts = [lineStarts(a), lineStarts(b)], most = Math.min(starts[0].length, starts[1].length) - 1;
  for (let i = 0; i < most; i++) {
    const from = starts[0][i], to = starts[0][i + 1], other = starts[1][i] - from;
    let differs = starts[1][i + 1] - starts[1][i] !== to - from;
    for (let at = from; at < to; at++) if (a[at] !== b[at + other]) { differs = true; break; }
    if (!differs) continue;
    lines++;
    if (a[from] === 83) continue;   // START
    for (let at = from + 14; at < to; at += 3) if (a[at] !== b[at + other] || a[at + 1] !== b[at + 1 + other]) bytes++;
  }
  isSame = !lines && starts[0].length === starts[1].length;
  return { lines, bytes, isSame };
}

const jobs = {
  async init({ wasm }) {
    const names = Object.keys(wasm);
    await Promise.all(names.map(async name => { programs[name] = await WebAssembly.compile(await inflate(wasm[name])); }));
    return { names };
  },
  run({ program, words, bytes }) { return run(program, words, [bytes]); },
  judge({ bytes }) {
    current = { bytes, size: bytes.length };
    images.a = images.b = null;
    const verdict = judge(bytes);
    if (verdict.ok) current.size = verdict.size;
    const end = verdict.ok ? verdict.size : verdict.start || 0;
    let records = recordStarts(bytes, end);
    if (!verdict.ok && verdict.reason && end < bytes.length) records = Uint32Array.from([...records, recordEnd(bytes, end)]);
    return { verdict, records };
  },
  dump({ records, isWhole }) {
    const answer = run("omf_dump", ["--json", "--data", "16"], [current.bytes]);
    const { starts, next } = ownLines(answer.output, lineStarts(answer.output));
    const seen = isWhole ? outline(answer.output, starts, current.bytes, records) : null;
    return { status: answer.status, trap: answer.trap, text: answer.output, starts, next, seen, records: isWhole ? records : recordsOf(records, starts.length - 1, current.bytes) };
  },
  verdict({ bytes }) { return verdictOf(bytes); },
  library({ bytes }) { return { list: said(run("omf_lib", ["list", "-"], [bytes])), check: said(run("omf_lib", ["check", "-"], [bytes])) }; },
  text({ program, words, more }) {
    const module = more === undefined ? [current.bytes] : [current.bytes.subarray(0, current.size), new TextEncoder().encode(more)];
    return { bytes: run(program, words, module).output };
  },
  canon() { return { bytes: current.canonical.slice() }; },
  draft({ tries }) { return draft(tries); },
  key() {
    const { key, canonical, line } = keyOf(current.bytes);
    current.canonical = canonical;
    return { key, size: canonical && canonical.length, line };
  },
  compare({ bytes }) {
    const verdict = judge(bytes);
    if (!verdict.ok || !current.canonical) return { verdict };
    const { key, canonical, line } = keyOf(bytes);
    if (!canonical) return { verdict, line };
    return { verdict, key, difference: firstDifference(current.canonical, canonical) };
  },
  image({ which, text }) {
    const placement = new TextEncoder().encode(text);
    const answer = run("omf", ["reloc"], [current.bytes.subarray(0, current.size), placement]);
    images[which] = answer.status === 0 ? answer.output : null;
    const line = answer.status === 0 ? "" : said(answer) || "out of memory, or the image is longer than this page shows";
    const shown = answer.status === 0 ? answer.output.slice() : new Uint8Array(0);
    return { which, status: answer.status, line, text: shown, starts: lineStarts(shown), differ: images.a && images.b ? differences(images.a, images.b) : null };
  },
};

self.onmessage = async ({ data }) => {
  try {
    const answer = await jobs[data.job](data);
    const moved = Object.values(answer).filter(value => value instanceof Uint8Array || value instanceof Uint32Array).map(value => value.buffer);
    self.postMessage({ id: data.id, answer }, [...new Set(moved)]);
  } catch (error) {
    self.postMessage({ id: data.id, fault: String(error && error.stack || error) });
  }
};
