//! The verdict of `omf check`, in plain Rust without a proof. bench/measure.sh builds it by `rustc` and measures it beside `omf`.
//!
//! It reads a module from the standard input, keeps no byte of records that it has judged, and prints the line of `omf check`. It goes past
//! fixups that use no thread and have no fault without decoding them (`Passing`).
use std::fs::File;
use std::io::Read;
use std::os::fd::FromRawFd;
use std::process::ExitCode;

/// The names of the reasons, by number from 1.
const NAMES: [&str; 33] = [
    "NoEnd", "Cut", "UnknownType", "UnsupportedType", "EmptyRecord", "Checksum", "NoHeader", "Short", "Long", "Alignment", "BigLength",
    "GroupComponent", "CommunalType", "CommunalLength", "FrameMethod", "TargetMethod", "LocationType", "SelfRelative", "TooDeep",
    "DataTooLong", "UndefinedName", "UndefinedSegment", "UndefinedGroup", "UndefinedExternal", "UndefinedThread", "OutsideSegment",
    "OutsideRecord", "NoDataRecord", "FixupOnIterated", "TooMany", "OtherDialect", "VendorComment", "StartFrame",
];

/// The numbers of reasons that the code names.
mod reason {
    pub const NO_END: u8 = 1;
    pub const CUT: u8 = 2;
    pub const UNKNOWN_TYPE: u8 = 3;
    pub const UNSUPPORTED_TYPE: u8 = 4;
    pub const EMPTY_RECORD: u8 = 5;
    pub const CHECKSUM: u8 = 6;
    pub const NO_HEADER: u8 = 7;
    pub const SHORT: u8 = 8;
    pub const LONG: u8 = 9;
    pub const ALIGNMENT: u8 = 10;
    pub const BIG_LENGTH: u8 = 11;
    pub const GROUP_COMPONENT: u8 = 12;
    pub const COMMUNAL_TYPE: u8 = 13;
    pub const COMMUNAL_LENGTH: u8 = 14;
    pub const FRAME_METHOD: u8 = 15;
    pub const TARGET_METHOD: u8 = 16;
    pub const LOCATION_TYPE: u8 = 17;
    pub const SELF_RELATIVE: u8 = 18;
    pub const TOO_DEEP: u8 = 19;
    pub const DATA_TOO_LONG: u8 = 20;
    pub const UNDEFINED_NAME: u8 = 21;
    /// Of a segment; of a group and an external it is one and two more.
    pub const UNDEFINED: u8 = 22;
    pub const UNDEFINED_THREAD: u8 = 25;
    pub const OUTSIDE_SEGMENT: u8 = 26;
    pub const OUTSIDE_RECORD: u8 = 27;
    pub const NO_DATA_RECORD: u8 = 28;
    pub const FIXUP_ON_ITERATED: u8 = 29;
    pub const TOO_MANY: u8 = 30;
    pub const OTHER_DIALECT: u8 = 31;
    pub const START_FRAME: u8 = 33;
}

const TABLE_LIMIT: usize = 32_767;
const ITEM_LIMIT: u32 = 1_048_576;
const NESTING: u32 = 64;
const EXPANDED: u64 = 268_435_456;
/// Of a location type: its size (0: no such type), and whether a self-relative fixup may have it.
const LOCATIONS: [(usize, bool); 16] = {
    let mut table = [(0, false); 16];
    table[0] = (1, true);
    table[1] = (2, true);
    table[2] = (2, false);
    table[3] = (4, false);
    table[4] = (1, false);
    table[5] = (2, true);
    table[9] = (4, true);
    table[11] = (6, false);
    table[13] = (4, true);
    table
};

/// Of the bits 2 to 6 of a fixup's first byte (location type, and above it whether it is segment-relative): the size of the location, or
/// `NO_LOCATION` where there is no such type or where a self-relative fixup may not have it.
const SIZES: [usize; 32] = {
    let mut table = [NO_LOCATION; 32];
    let mut it = 0;
    while it < 32 {
        let (size, may_be_self_relative) = LOCATIONS[it % 16];
        if size != 0 && (it >= 16 || may_be_self_relative) {
            table[it] = size;
        }
        it += 1;
    }
    table
};
/// Longer than the data of any record.
const NO_LOCATION: usize = 1 << 16;

/// What a fix data byte announces, as bits of `FIXES`.
const FRAME_DATUM: u8 = 1;
const DISPLACEMENT: u8 = 2;
/// It uses a thread, or a method that does not exist.
const NOT_PLAIN: u8 = 4;
const FIXES: [u8; 256] = {
    let mut table = [0; 256];
    let mut it = 0;
    while it < 256 {
        let (frame, target) = (it >> 4 & 7, it & 3);
        if it & 0x88 != 0 || frame == 3 || frame > 5 || target == 3 {
            table[it] |= NOT_PLAIN;
        }
        if frame < 3 {
            table[it] |= FRAME_DATUM;
        }
        if it & 4 == 0 {
            table[it] |= DISPLACEMENT;
        }
        it += 1;
    }
    table
};
/// The length of the longest fixup: location, fix data byte, two indices of two bytes, a displacement of four.
const LONGEST_FIXUP: usize = 11;

/// A fault in a record: the offset of its byte, and the number of the reason. The first one counts, by offset and then by number.
#[derive(Clone, Copy, PartialEq, Eq, PartialOrd, Ord)]
struct Fault(u32, u8);

/// What a record of a type byte is.
fn is_read(kind: u8) -> bool {
    matches!(kind, 0x80 | 0x82 | 0x88 | 0x8A..=0x8C | 0x90 | 0x91 | 0x96 | 0x98..=0x9A | 0x9C | 0x9D | 0xA0..=0xA3 | 0xB0 | 0xB4..=0xB8 | 0xCA)
}

fn is_carried(kind: u8) -> bool {
    matches!(kind, 0x8E | 0x94 | 0x95 | 0xC4..=0xC6 | 0xCC)
}

fn is_refused(kind: u8) -> bool {
    matches!(kind, 0xB2 | 0xB3 | 0xBC | 0xC2 | 0xC3 | 0xC8 | 0xC9 | 0xCE | 0xF0 | 0xF1)
}

/// The fields of a record, from left to right. A field that cannot be read ends the record.
struct Fields<'a> {
    bytes: &'a [u8],
    at: usize,
    layout: Option<Fault>,
    meaning: Option<Fault>,
}

fn least(old: &mut Option<Fault>, at: u32, reason: u8) {
    let new = Fault(at, reason);
    *old = Some(old.map_or(new, |it| it.min(new)));
}

impl<'a> Fields<'a> {
    /// The offset in the record of the next field.
    fn here(&self) -> u32 {
        self.at as u32 + 3
    }

    fn is_at_end(&self) -> bool {
        self.at == self.bytes.len()
    }

    #[cold]
    fn spoils(&mut self, at: u32, reason: u8) {
        least(&mut self.layout, at, reason);
    }

    #[cold]
    fn breaks(&mut self, at: u32, reason: u8) {
        least(&mut self.meaning, at, reason);
    }

    #[cold]
    fn short<T>(&mut self) -> Option<T> {
        self.spoils(self.here(), reason::SHORT);
        None
    }

    fn byte(&mut self) -> Option<u8> {
        let Some(byte) = self.bytes.get(self.at) else { return self.short() };
        self.at += 1;
        Some(*byte)
    }

    fn number(&mut self, size: usize) -> Option<u32> {
        let Some(field) = self.bytes.get(self.at..self.at + size) else { return self.short() };
        self.at += size;
        Some(field.iter().rev().fold(0, |value, byte| value << 8 | u32::from(*byte)))
    }

    fn offset(&mut self, wide: bool) -> Option<u32> {
        if wide { self.number(4) } else { self.number(2) }
    }

    fn index(&mut self) -> Option<usize> {
        match self.bytes[self.at..] {
            [low, ..] if low < 0x80 => {
                self.at += 1;
                Some(usize::from(low))
            }
            [high, low, ..] => {
                self.at += 2;
                Some(usize::from(high & 0x7F) << 8 | usize::from(low))
            }
            _ => self.short(),
        }
    }

    fn name(&mut self) -> Option<usize> {
        let Some(length) = self.bytes.get(self.at).map(|it| usize::from(*it)) else { return self.short() };
        if self.at + 1 + length > self.bytes.len() {
            return self.short();
        }
        self.at += 1 + length;
        Some(length)
    }

    fn communal_length(&mut self) -> Option<()> {
        let at = self.here();
        let size = match self.byte()? {
            0..=0x80 => return Some(()),
            0x81 => 2,
            0x84 => 3,
            0x88 => 4,
            _ => {
                self.spoils(at, reason::COMMUNAL_LENGTH);
                return None;
            }
        };
        if self.at + size > self.bytes.len() {
            self.spoils(at, reason::SHORT);
            return None;
        }
        self.at += size;
        Some(())
    }

    fn rest(&mut self) -> usize {
        let left = self.bytes.len() - self.at;
        self.at = self.bytes.len();
        left
    }
}

/// An index, and its length, that begins with these two bytes.
#[inline(always)]
fn index_of(low: u8, next: u8) -> (u32, usize) {
    if low < 0x80 { (u32::from(low), 1) } else { (u32::from(low & 0x7F) << 8 | u32::from(next), 2) }
}

/// What fixups are compared with, so that those without a thread and without a fault need not be decoded.
struct Passing {
    /// The numbers of segments, groups and externals, by method.
    counts: [u32; 4],
    /// The length of the data of the last data record: 0 if there is none, or if it is iterated.
    data_length: usize,
    displacement_length: usize,
}

impl Passing {
    fn is_defined(&self, method: u8, index: u32) -> bool {
        index.wrapping_sub(1) < self.counts[usize::from(method & 3)]
    }

    /// The length of the fixup at the front of a window that is long enough for any; none if it uses a thread or has a fault.
    #[inline(always)]
    fn length_of(&self, window: &[u8; LONGEST_FIXUP]) -> Option<usize> {
        let [high, low, fix, ..] = *window;
        let end = (usize::from(high & 3) << 8 | usize::from(low)) + SIZES[usize::from(high >> 2 & 31)];
        let announced = FIXES[usize::from(fix)];
        if high < 0x80 || end > self.data_length || announced & NOT_PLAIN != 0 {
            return None;
        }
        let mut at = 3;
        if announced & FRAME_DATUM != 0 {
            let (index, length) = index_of(window[3], window[4]);
            if !self.is_defined(fix >> 4, index) {
                return None;
            }
            at += length;
        }
        let (index, length) = index_of(window[at], window[at + 1]);
        if !self.is_defined(fix, index) {
            return None;
        }
        at += length;
        Some(if announced & DISPLACEMENT != 0 { at + self.displacement_length } else { at })
    }
}

/// What a THREAD sets: a method, and its index.
type Thread = Option<(u8, usize)>;

/// What the records before define.
#[derive(Default)]
struct Tables {
    names: usize,
    segments: Vec<u64>,
    groups: usize,
    externals: usize,
    items: u32,
    frames: [Thread; 4],
    targets: [Thread; 4],
    /// Whether the last data record is iterated, and the length of its data.
    data: Option<(bool, usize)>,
}

impl Tables {
    fn has(&self, method: u8, index: usize) -> bool {
        let count = match method {
            0 => self.segments.len(),
            1 => self.groups,
            _ => self.externals,
        };
        1 <= index && index <= count
    }

    /// A record counts as one item, a FIXUPP as one for each subrecord.
    fn count(&mut self, fields: &mut Fields) {
        self.items += 1;
        if self.items > ITEM_LIMIT {
            fields.breaks(0, reason::TOO_MANY);
        }
    }

    fn thread(&self, fields: &mut Fields, at: u32, thread: Thread, is_start: bool) {
        match thread {
            None => fields.breaks(at, reason::UNDEFINED_THREAD),
            Some((4, _)) if is_start => fields.breaks(at, reason::START_FRAME),
            Some((method, index)) if method < 3 && !self.has(method, index) => fields.breaks(at, reason::UNDEFINED + method),
            Some(_) => {}
        }
    }

    fn datum(&self, fields: &mut Fields, method: u8) -> Option<()> {
        let at = fields.here();
        let index = fields.index()?;
        if method < 3 && !self.has(method, index) {
            fields.breaks(at, reason::UNDEFINED + method);
        }
        Some(())
    }

    fn reference(&self, fields: &mut Fields, wide: bool, is_start: bool) -> Option<()> {
        let at = fields.here();
        let fix = fields.byte()?;
        let (frame, target) = (fix >> 4 & 7, fix & 3);
        let (by_frame, by_target) = (fix & 0x80 == 0, fix & 8 == 0);
        if by_frame && (frame == 3 || frame > 5) {
            fields.spoils(at, reason::FRAME_METHOD);
        }
        if by_frame && is_start && frame == 4 {
            fields.breaks(at, reason::START_FRAME);
        }
        if !by_frame {
            self.thread(fields, at, self.frames[usize::from(frame & 3)], is_start);
        }
        if by_target && target == 3 {
            fields.spoils(at, reason::TARGET_METHOD);
        }
        if !by_target {
            self.thread(fields, at, self.targets[usize::from(target)], false);
        }
        if by_frame && frame < 3 {
            self.datum(fields, frame)?;
        }
        if by_target {
            self.datum(fields, target)?;
        }
        if fix & 4 == 0 {
            fields.offset(wide)?;
        }
        Some(())
    }

    fn set_thread(&mut self, fields: &mut Fields, at: u32, first: u8) -> Option<()> {
        let is_frame = first & 0x40 != 0;
        let method = if is_frame { first >> 2 & 7 } else { first >> 2 & 3 };
        if is_frame && (method == 3 || method > 5) {
            fields.spoils(at, reason::FRAME_METHOD);
        }
        if !is_frame && method == 3 {
            fields.spoils(at, reason::TARGET_METHOD);
        }
        let index = if method < 3 { fields.index()? } else { 0 };
        let threads = if is_frame { &mut self.frames } else { &mut self.targets };
        threads[usize::from(first & 3)] = Some((method, index));
        Some(())
    }

    fn fixup(&self, fields: &mut Fields, at: u32, high: u8, wide: bool) -> Option<()> {
        let Some(low) = fields.bytes.get(fields.at).copied() else {
            fields.spoils(at, reason::SHORT);
            return None;
        };
        fields.at += 1;
        let (size, may_be_self_relative) = LOCATIONS[usize::from(high >> 2 & 15)];
        if size == 0 {
            fields.spoils(at, reason::LOCATION_TYPE);
        } else if high & 0x40 == 0 && !may_be_self_relative {
            fields.spoils(at, reason::SELF_RELATIVE);
        }
        let offset = usize::from(high & 3) << 8 | usize::from(low);
        match self.data {
            None => fields.breaks(at, reason::NO_DATA_RECORD),
            Some((true, _)) => fields.breaks(at, reason::FIXUP_ON_ITERATED),
            Some((false, length)) if offset + size > length => fields.breaks(at, reason::OUTSIDE_RECORD),
            Some(_) => {}
        }
        self.reference(fields, wide, false)
    }

    fn passing(&self, wide: bool) -> Passing {
        let data_length = match self.data {
            Some((false, length)) => length,
            _ => 0,
        };
        Passing {
            counts: [self.segments.len() as u32, self.groups as u32, self.externals as u32, 0],
            data_length,
            displacement_length: if wide { 4 } else { 2 },
        }
    }

    /// Goes past fixups that use no thread and have no fault. It stops before the first other subrecord, and before the last bytes.
    fn pass_fixups(&mut self, fields: &mut Fields, passing: &Passing) {
        while self.items < ITEM_LIMIT {
            let Some(window) = fields.bytes[fields.at..].first_chunk() else { return };
            let Some(length) = passing.length_of(window) else { return };
            fields.at += length;
            self.items += 1;
        }
    }

    fn fixups(&mut self, fields: &mut Fields, wide: bool) -> Option<()> {
        if fields.is_at_end() {
            self.count(fields);
            return Some(());
        }
        let passing = self.passing(wide);
        loop {
            self.pass_fixups(fields, &passing);
            if fields.is_at_end() {
                return Some(());
            }
            let at = fields.here();
            if self.items == ITEM_LIMIT {
                fields.breaks(at, reason::TOO_MANY);
            }
            self.items += 1;
            let first = fields.byte()?;
            if first & 0x80 == 0 { self.set_thread(fields, at, first)? } else { self.fixup(fields, at, first, wide)? }
        }
    }

    fn block(fields: &mut Fields, wide: bool, levels: u32) -> Option<u64> {
        let at = fields.here();
        let repeat = u64::from(fields.offset(wide)?);
        if levels == 0 {
            fields.spoils(at, reason::TOO_DEEP);
            return None;
        }
        let count = fields.number(2)?;
        if count == 0 {
            return Some(repeat * fields.name()? as u64);
        }
        let mut sum = 0u64;
        for _ in 0..count {
            sum = sum.saturating_add(Self::block(fields, wide, levels - 1)?);
        }
        Some(repeat.saturating_mul(sum))
    }

    fn blocks(fields: &mut Fields, wide: bool) -> Option<u64> {
        let (at, mut sum) = (fields.here(), 0u64);
        while !fields.is_at_end() {
            sum = sum.saturating_add(Self::block(fields, wide, NESTING)?);
        }
        if sum > EXPANDED {
            fields.spoils(at, reason::DATA_TOO_LONG);
            return None;
        }
        Some(sum)
    }

    fn data(&mut self, fields: &mut Fields, is_iterated: bool, wide: bool) -> Option<()> {
        let segment = fields.index()?;
        let at = fields.here();
        let offset = u64::from(fields.offset(wide)?);
        let length = if is_iterated { Self::blocks(fields, wide)? } else { fields.rest() as u64 };
        if !self.has(0, segment) {
            fields.breaks(3, reason::UNDEFINED);
        } else if offset + length > self.segments[segment - 1] {
            fields.breaks(at, reason::OUTSIDE_SEGMENT);
        }
        self.data = Some((is_iterated, length as usize));
        Some(())
    }

    fn name_index(&self, fields: &mut Fields) -> Option<()> {
        let at = fields.here();
        if fields.index()? > self.names {
            fields.breaks(at, reason::UNDEFINED_NAME);
        }
        Some(())
    }

    fn segment(&mut self, fields: &mut Fields, wide: bool) -> Option<()> {
        let attributes = fields.byte()?;
        match attributes >> 5 {
            0 => {
                fields.number(2)?;
                fields.byte()?;
            }
            6 | 7 => fields.spoils(3, reason::ALIGNMENT),
            _ => {}
        }
        let (at, is_big) = (fields.here(), attributes & 2 != 0);
        let length = u64::from(fields.offset(wide)?);
        if is_big && length != 0 {
            fields.spoils(at, reason::BIG_LENGTH);
        }
        self.name_index(fields)?;
        self.name_index(fields)?;
        fields.index()?;
        if self.segments.len() == TABLE_LIMIT {
            fields.breaks(3, reason::TOO_MANY);
        }
        let whole = if wide { 1 << 32 } else { 1 << 16 };
        self.segments.push(if is_big { whole } else { length });
        Some(())
    }

    fn group(&mut self, fields: &mut Fields) -> Option<()> {
        if self.groups == TABLE_LIMIT {
            fields.breaks(3, reason::TOO_MANY);
        }
        self.name_index(fields)?;
        while !fields.is_at_end() {
            let at = fields.here();
            if fields.byte()? != 0xFF {
                fields.spoils(at, reason::GROUP_COMPONENT);
            }
            self.datum(fields, 0)?;
        }
        self.groups += 1;
        Some(())
    }

    fn names(&mut self, fields: &mut Fields) -> Option<()> {
        while !fields.is_at_end() {
            if self.names == TABLE_LIMIT {
                fields.breaks(fields.here(), reason::TOO_MANY);
            }
            fields.name()?;
            self.names += 1;
        }
        Some(())
    }

    fn externals(&mut self, fields: &mut Fields, are_communal: bool) -> Option<()> {
        while !fields.is_at_end() {
            if self.externals == TABLE_LIMIT {
                fields.breaks(fields.here(), reason::TOO_MANY);
            }
            fields.name()?;
            fields.index()?;
            if are_communal {
                let at = fields.here();
                match fields.byte()? {
                    0x61 => {
                        fields.communal_length()?;
                        fields.communal_length()?;
                    }
                    0x62 => fields.communal_length()?,
                    _ => {
                        fields.spoils(at, reason::COMMUNAL_TYPE);
                        return None;
                    }
                }
            }
            self.externals += 1;
        }
        Some(())
    }

    fn publics(&self, fields: &mut Fields, wide: bool) -> Option<()> {
        if fields.index()? > self.groups {
            fields.breaks(3, reason::UNDEFINED + 1);
        }
        let at = fields.here();
        let segment = fields.index()?;
        if segment > self.segments.len() {
            fields.breaks(at, reason::UNDEFINED);
        }
        if segment == 0 {
            fields.number(2)?;
        }
        while !fields.is_at_end() {
            fields.name()?;
            fields.offset(wide)?;
            fields.index()?;
        }
        Some(())
    }

    fn comment(fields: &mut Fields) -> Option<()> {
        fields.byte()?;
        if fields.byte()? == 0xAA {
            fields.breaks(4, reason::OTHER_DIALECT);
        }
        fields.rest();
        Some(())
    }

    fn take(&mut self, kind: u8, fields: &mut Fields) -> Option<()> {
        let wide = kind & 1 != 0;
        if kind & 0xFE != 0x9C {
            self.count(fields);
        }
        match kind {
            0x9C | 0x9D => self.fixups(fields, wide)?,
            0xA0..=0xA3 => self.data(fields, kind >= 0xA2, wide)?,
            0x80 | 0x82 => {
                fields.name()?;
            }
            0x88 => Self::comment(fields)?,
            0x96 | 0xCA => self.names(fields)?,
            0x98 | 0x99 => self.segment(fields, wide)?,
            0x9A => self.group(fields)?,
            0x8C | 0xB4 | 0xB5 => self.externals(fields, false)?,
            0xB0 | 0xB8 => self.externals(fields, true)?,
            0x90 | 0x91 | 0xB6 | 0xB7 => self.publics(fields, wide)?,
            0x8A | 0x8B => {
                if fields.byte()? & 0x40 != 0 {
                    self.reference(fields, wide, true)?;
                }
            }
            _ => {
                fields.rest();
            }
        }
        if !fields.is_at_end() {
            fields.spoils(fields.here(), reason::LONG);
        }
        Some(())
    }
}

/// What the front of the bytes at hand is.
enum Step {
    More,
    Record(usize),
    End(usize),
    Refused(Fault),
}

fn framing(bytes: &[u8], is_first: bool) -> Option<Fault> {
    let (kind, end) = (bytes[0], bytes.len() - 1);
    if is_first && kind != 0x80 && kind != 0x82 {
        return Some(Fault(0, reason::NO_HEADER));
    }
    if end < 3 {
        return Some(Fault(1, reason::EMPTY_RECORD));
    }
    let sum = bytes.iter().fold(0u8, |sum, byte| sum.wrapping_add(*byte));
    (bytes[end] != 0 && sum != 0).then_some(Fault(end as u32, reason::CHECKSUM))
}

fn step(tables: &mut Tables, bytes: &[u8], is_first: bool) -> Step {
    let Some(kind) = bytes.first().copied() else { return Step::More };
    if is_refused(kind) {
        return Step::Refused(Fault(0, reason::UNSUPPORTED_TYPE));
    }
    if !is_read(kind) && !is_carried(kind) {
        return Step::Refused(Fault(0, reason::UNKNOWN_TYPE));
    }
    let [_, low, high, ..] = *bytes else { return Step::More };
    let length = 3 + usize::from(u16::from_le_bytes([low, high]));
    let Some(record) = bytes.get(..length) else { return Step::More };
    if let Some(fault) = framing(record, is_first) {
        return Step::Refused(fault);
    }
    let mut fields = Fields { bytes: &record[3..length - 1], at: 0, layout: None, meaning: None };
    let _ = tables.take(kind, &mut fields);
    match fields.layout.or(fields.meaning) {
        Some(fault) => Step::Refused(fault),
        None if kind & 0xFE == 0x8A => Step::End(length),
        None => Step::Record(length),
    }
}

/// The numbers of records and bytes; or the number and the offset of the record at fault, and its fault.
fn check(mut input: impl Read) -> std::io::Result<Result<(u32, usize), (u32, usize, Fault)>> {
    let mut tables = Tables::default();
    let mut buffer = vec![0; 1 << 17];
    let (mut number, mut start, mut low, mut high) = (0, 0, 0, 0);
    loop {
        match step(&mut tables, &buffer[low..high], number == 0) {
            Step::Record(length) => {
                number += 1;
                start += length;
                low += length;
            }
            Step::End(length) => return Ok(Ok((number + 1, start + length))),
            Step::Refused(fault) => return Ok(Err((number, start, fault))),
            Step::More => {
                buffer.copy_within(low..high, 0);
                (low, high) = (0, high - low);
                let count = input.read(&mut buffer[high..])?;
                if count == 0 {
                    let fault = if high == 0 { Fault(0, reason::NO_END) } else { Fault(high as u32, reason::CUT) };
                    return Ok(Err((number, start, fault)));
                }
                high += count;
            }
        }
    }
}

fn main() -> std::io::Result<ExitCode> {
    // SAFETY: the standard input is open, and nothing else uses it.
    let input = unsafe { File::from_raw_fd(0) };
    match check(input)? {
        Ok((records, bytes)) => {
            println!("OK {records} records, {bytes} bytes");
            Ok(ExitCode::SUCCESS)
        }
        Err((record, at, Fault(within, reason))) => {
            println!("refused {reason} {} record {record} at {at} within {within}", NAMES[usize::from(reason) - 1]);
            Ok(ExitCode::FAILURE)
        }
    }
}
