// Where the fields of a record's dump stand in the file. The fields and their values are those of `omf-dump --json`; their places are found here.
"use strict";

// A cursor over one record's contents.
class Cursor {
  constructor(bytes, at) { this.bytes = bytes; this.at = at; }
  take(size) { const from = this.at; this.at += size; return [from, this.at]; }
  index() { return this.take(this.bytes[this.at] & 0x80 ? 2 : 1); }
  isZero([from, to]) { return (this.bytes[from] & 0x7F) === 0 && (to - from === 1 || this.bytes[from + 1] === 0); }
  name() { return this.take(1 + this.bytes[this.at]); }
  communal() { return this.take({ 0x81: 3, 0x84: 4, 0x88: 5 }[this.bytes[this.at]] || 1); }
}

// The places of the datum of a frame or a target, by its method: an index, with method 3 a frame number, else none.
function datumPlaces(cursor, kind, method, byte) {
  if (method === 3) return { [kind + "-number"]: cursor.take(2) };
  return { [kind]: method < 3 ? cursor.index() : byte };
}

// The places of a reference: fix data, frame datum, target datum, displacement.
function referencePlaces(cursor, wide) {
  const fix = cursor.take(1), data = cursor.bytes[fix[0]];
  const frameThread = data & 0x80, targetThread = data & 0x08;
  const places = frameThread ? { frame: fix } : datumPlaces(cursor, "frame", data >> 4 & 7, fix);
  Object.assign(places, targetThread ? { target: fix } : datumPlaces(cursor, "target", data & 3, fix));
  if (!(data & 0x04)) places.displacement = cursor.take(wide ? 4 : 2);
  if (frameThread) places["frame-thread"] = fix;
  if (targetThread) places["target-thread"] = fix;
  return places;
}

// The places of a FIXUPP's subrecord. `data` is where the data of the last LEDATA begin.
function subrecordPlaces(cursor, wide, data) {
  const first = cursor.bytes[cursor.at];
  if (first & 0x80) {
    const locat = cursor.take(2), offset = (first & 3) * 256 + cursor.bytes[locat[0] + 1];
    const places = { at: locat, location: locat, "self-relative": locat };
    if (data !== null) places.bytes = [data + offset, data + offset];
    return Object.assign(places, referencePlaces(cursor, wide));
  }
  const byte = cursor.take(1), kind = first & 0x40 ? "frame" : "target", method = first >> 2 & (kind === "frame" ? 7 : 3);
  return { [kind + "-thread"]: byte, ...datumPlaces(cursor, kind, method, byte) };
}

// The places of a block of an LIDATA or a COMDAT: repeat count, block count, and the data if that is 0.
function blockPlaces(cursor, wide) {
  const repeat = cursor.take(wide ? 4 : 2), blocks = cursor.take(2);
  const isData = cursor.bytes[blocks[0]] === 0 && cursor.bytes[blocks[0] + 1] === 0;
  return { depth: repeat, repeat, blocks, bytes: isData ? cursor.name() : blocks };
}

// The places of a leaf of a TYPDEF: near (62H) or far (61H).
function leafPlaces(cursor) {
  const places = { leaf: cursor.take(1), variable: cursor.take(1) }, leaf = cursor.bytes[places.leaf[0]];
  if (leaf === 0x62) places.bits = cursor.communal();
  if (leaf === 0x61) { places.elements = cursor.communal(); places["element-type"] = cursor.index(); }
  return places;
}

// The places of one item of a record.
function itemPlaces(type, cursor, wide, data) {
  if (type === "LNAMES" || type === "LLNAMES") return { name: cursor.name() };
  if (type === "GRPDEF") {
    const component = cursor.take(1), index = cursor.index();
    return { component, segment: index, external: index };
  }
  if (type === "EXTDEF" || type === "LEXTDEF") return { external: cursor.name(), type: cursor.index() };
  if (type === "PUBDEF" || type === "LPUBDEF") return { public: cursor.name(), offset: cursor.take(wide ? 4 : 2), type: cursor.index() };
  if (type === "COMDEF" || type === "LCOMDEF") {
    const places = { external: cursor.name(), type: cursor.index(), communal: cursor.take(1) };
    const kind = cursor.bytes[places.communal[0]];
    places.kind = places.communal;
    if (kind === 0x61) return { ...places, count: cursor.communal(), size: cursor.communal() };
    return kind === 0x62 || kind > 0 && kind < 0x60 ? { ...places, length: cursor.communal() } : places;
  }
  if (type === "COMENT") { const index = cursor.index(); return { external: index, default: index }; }
  if (type === "LINNUM" || type === "LINSYM") return { line: cursor.take(2), offset: cursor.take(wide ? 4 : 2) };
  if (type === "ALIAS") return { alias: cursor.name(), substitute: cursor.name() };
  if (type === "TYPDEF") return leafPlaces(cursor);
  if (type === "CEXTDEF") return { name: cursor.index(), type: cursor.index() };
  if (type === "BAKPAT" || type === "NBKPAT") return { offset: cursor.take(wide ? 4 : 2), value: cursor.take(wide ? 4 : 2) };
  if (type === "LIDATA" || type === "COMDAT") return blockPlaces(cursor, wide);
  if (type === "FIXUPP") return subrecordPlaces(cursor, wide, data);
  if (type === "MODEND") return referencePlaces(cursor, wide);
  return {};
}

// The places of the fields of a COMDAT. Allocation 0 has a group and a segment.
function comdatPlaces(cursor, wide, end) {
  const flags = cursor.take(1), attributes = cursor.take(1), places = { flags, continued: flags, iterated: flags, local: flags, "in-code": flags };
  Object.assign(places, { selection: attributes, allocation: attributes, align: cursor.take(1), offset: cursor.take(wide ? 4 : 2), "type-index": cursor.index() });
  if ((cursor.bytes[attributes[0]] & 0x0F) === 0) {
    places.group = cursor.index();
    places.segment = cursor.index();
    if (cursor.isZero(places.segment)) places.frame = cursor.take(2);
  }
  places.public = cursor.index();
  return { ...places, data: [cursor.at, end - 1] };
}

// The places of a record's own fields.
function recordPlaces(type, cursor, wide, end) {
  const contents = [cursor.at, end - 1], places = {};
  if (type === "THEADR" || type === "LHEADR") places.name = cursor.name();
  else if (type === "COMENT") {
    places.flags = places["no-purge"] = places["no-list"] = cursor.take(1);
    places.class = places.meaning = cursor.take(1);
    places.subtype = [cursor.at, cursor.at + 1];
    places.text = [cursor.at, end - 1];
  } else if (type === "SEGDEF") {
    const attributes = cursor.take(1);
    places.segment = contents;
    places.attributes = places.align = places.combine = places.use = places.big = attributes;
    if (cursor.bytes[attributes[0]] >> 5 === 0) { places.frame = cursor.take(2); places.offset = cursor.take(1); }
    places.length = cursor.take(wide ? 4 : 2);
    places.name = cursor.index(); places.class = cursor.index(); places.overlay = cursor.index();
  } else if (type === "GRPDEF") { places.group = contents; places.name = cursor.index(); }
  else if (type === "PUBDEF" || type === "LPUBDEF") {
    places.group = cursor.index();
    places.segment = cursor.index();
    if (cursor.isZero(places.segment)) places.frame = cursor.take(2);
  } else if (type === "LEDATA" || type === "LIDATA") {
    places.segment = cursor.index();
    places.offset = cursor.take(wide ? 4 : 2);
    places.data = places.length = [cursor.at, end - 1];
  } else if (type === "TYPDEF") { places.name = cursor.name(); places.EN = cursor.take(1); }
  else if (type === "LINNUM") { places.group = cursor.index(); places.segment = cursor.index(); }
  else if (type === "LINSYM") { places.flags = places.continued = cursor.take(1); places.public = cursor.index(); }
  else if (type === "VERNUM") places.version = contents;
  else if (type === "COMDAT") Object.assign(places, comdatPlaces(cursor, wide, end));
  else if (type === "BAKPAT") { places.segment = cursor.index(); places.location = cursor.take(1); }
  else if (type === "NBKPAT") { places.location = cursor.take(1); places.public = cursor.index(); }
  else if (type === "VENDEXT") { places.vendor = cursor.take(2); places.data = [cursor.at, end - 1]; }
  else if (type === "library") { places.dictionary = cursor.take(4); places.blocks = cursor.take(2); places.flags = cursor.take(1); }
  else if (type === "MODEND") places.flags = places.main = places["has-start"] = cursor.take(1);
  else places.data = places.length = contents;
  return places;
}

const SIZES = { "low-byte": 1, offset16: 2, base: 2, "pointer16:16": 4, "high-byte": 1, "loader-offset16": 2, offset32: 4, "pointer16:32": 6,
  "loader-offset32": 4 };
const FRAME = new Set(["number", "start", "items", "within", "record"]);
const QUOTED = new Set(["name", "text", "public", "external", "alias", "substitute", "version", "meaning", "looks-like"]);
const NAME_ESCAPES = /[^\x20-\x7E]|["\\]/g;

// A name as omf-dump shows it.
const shownName = name => "\"" + name.replace(NAME_ESCAPES, character => "\\x" + hex(character.charCodeAt(0), 2)) + "\"";

// A value as omf-dump shows it in text.
function shownValue(key, value, type, wide, isOfItem) {
  const digits = wide ? 8 : 4;
  if (value === null) return "";
  if (typeof value === "object" && "method" in value) {
    return value.method + ("index" in value ? " " + shownValue(key, { index: value.index, name: value.name }) : "");
  }
  if (typeof value === "object") return (value.index || "-") + (value.name === undefined ? "" : " " + shownName(value.name));
  if (typeof value === "boolean") return value ? "yes" : "no";
  if (typeof value === "string") {
    if (["data", "bytes", "left"].includes(key)) return value.replace(/..(?=.)/g, "$& ");
    return QUOTED.has(key) && !(key === "meaning" && type === "COMENT") ? shownName(value) : value;
  }
  if (type === "COMENT" || ["flags", "attributes", "component", "kind", "EN", "byte"].includes(key) || (key === "offset" && type === "SEGDEF")) return hex(value, 2) + "H";
  if ((key === "type" || key === "checksum") && !isOfItem) return hex(value, 2) + "H";
  if (["offset", "at", "displacement", "length", "value"].includes(key)) return hex(value, digits) + "H";
  if (key === "dictionary") return hex(value, 8) + "H";
  if (["frame", "frame-number", "target-number", "count", "size", "bits", "elements"].includes(key)) return hex(value, 4) + "H";
  return String(value);
}

// Why a record is refused, in a line.
const refusal = dump => "refused" in dump ? `refused ${dump.refused} ${dump.reason}` : "";

// The fields of a record: in the dump of the record at fault they are apart.
const fieldsOf = dump => "refused" in dump ? dump.fields || {} : dump;

// The rows below a record in the tree: {level, key, value, from, to, children}.
function recordTree(bytes, from, to, dump, dataAt) {
  const rows = fieldRows(bytes, from, to, dump.record, fieldsOf(dump), dataAt);
  return "refused" in dump ? [...refusalRows(bytes, from, to, dump), ...rows] : rows;
}

// Why it is refused. The bytes around the fault are only for a record without fields.
function refusalRows(bytes, from, to, dump) {
  const wide = (bytes[from] & 1) === 1, at = Math.min(from + dump.within, bytes.length), rows = [];
  for (const [key, value] of Object.entries(dump)) {
    if ((FRAME.has(key) && key !== "within") || key === "fields" || (key === "data" && dump.fields)) continue;
    const place = key === "type" ? [from, from + 1] : key === "byte" || key === "within" ? [at, at + 1] : [from, to];
    rows.push({ level: 2, key, value: shownValue(key, value, "", wide), from: place[0], to: place[1] });
  }
  return rows;
}

// Its fields, and its items with theirs.
function fieldRows(bytes, from, to, type, shown, dataAt) {
  const wide = (bytes[from] & 1) === 1, cursor = new Cursor(bytes, from + 3), rows = [], places = recordPlaces(type, cursor, wide, to);
  places.type = [from, from + 1];
  places.checksum = [to - 1, to];
  const left = value => [to - 1 - value.length / 2, to - 1];
  for (const [key, value] of Object.entries(shown)) {
    if (FRAME.has(key)) continue;
    const [first, end] = key === "left" ? left(value) : places[key] || [from, to];
    const cut = key === "data" && shown["left-out"] ? " .." : "";
    rows.push({ level: 2, key, value: shownValue(key, value, type, wide) + cut, from: Math.min(first, end), to: end });
  }
  for (const item of shown.items || []) {
    cursor.at = from + item.within;
    const inside = itemPlaces(type, cursor, wide, dataAt), children = [];
    cursor.at = "left" in item || item.cut ? to - 1 : Math.min(cursor.at, to - 1);
    for (const [key, value] of Object.entries(item)) {
      if (key === "within") continue;
      let [first, end] = key === "left" ? left(value) : inside[key] || [from + item.within, cursor.at];
      if (key === "before" || key === "after") continue;
      if (key === "bytes" && type === "FIXUPP") end = first + (value.length / 2 || 0);
      children.push({ level: 3, key, value: shownValue(key, value, type, wide, true), from: first, to: end });
    }
    rows.push({ level: 2, key: "+" + item.within, within: item.within, value: children.filter(it => it.value !== "no").map(it => `${it.key} ${it.value}`).join("  "),
      from: from + item.within, to: cursor.at, children });
  }
  return rows;
}

// One line for a record: its fields as in omf-dump's text, without their data.
function recordSummary(dump, wide) {
  const shown = fieldsOf(dump), words = [];
  for (const [key, value] of Object.entries(shown)) {
    if (FRAME.has(key) || key === "type" || key === "checksum" || key === "data" || key === "left-out" || value === false) continue;
    words.push(value === true ? key : `${key} ${shownValue(key, value, dump.record, wide)}`);
  }
  const items = shown.items || [];
  if (items.length && dump.record !== "MODEND") words.push(count(items.length, "item"));
  return words.join("  ");
}
