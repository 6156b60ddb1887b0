// One module that is looked at: its bytes, its verdict, the places of its records, and its dump.
"use strict";

class Look {
  // `name` is shown, `file` begins the names of files that are saved.
  constructor(name, file, bytes, verdict, records) {
    Object.assign(this, { name, file, bytes, verdict, dump: null, seen: null });
    this.fault = verdict.ok || !verdict.reason ? -1 : Math.min(verdict.start + verdict.within, bytes.length);
    this.setRecords(records);
  }

  // The offsets of the records, and the end of the last. A region is a record, or the rest of the file.
  setRecords(records) {
    this.records = records;
    this.regions = records[records.length - 1] < this.bytes.length ? Uint32Array.from([...records, this.bytes.length]) : records;
  }

  // Whether a record comes after the one at fault, so that nothing has judged it.
  isUnjudged(record) {
    return !this.verdict.ok && record > this.verdict.record;
  }

  placeOf(record) {
    const end = this.bytes.length;
    return record + 1 < this.records.length ? [this.records[record], this.records[record + 1]] : [end, end];
  }

  typeOf(record) {
    return record + 1 < this.records.length ? TYPES[this.bytes[this.records[record]]] : undefined;
  }

  // The data record before a record: {record, at}, or null where none has plain data.
  dataRecord(record) {
    for (let i = record - 1; i >= 0; i--) {
      const type = this.typeOf(i);
      const from = this.records[i];
      if (type === "LIDATA" || (type === "COMDAT" && this.bytes[from + 3] & 2)) return null;
      if (type === "COMDAT") return { record: i, at: comdatPlaces(new Cursor(this.bytes, from + 3), this.bytes[from] & 1, this.records[i + 1]).data[0] };
      if (type !== "LEDATA") continue;
      const index = this.bytes[from + 3] & 0x80 ? 2 : 1;
      return { record: i, at: from + 3 + index + (this.bytes[from] & 1 ? 4 : 2) };
    }
    return null;
  }

  dataBefore(record) {
    const data = this.dataRecord(record);
    return data && data.at;
  }
}
