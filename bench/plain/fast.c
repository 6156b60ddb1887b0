// The verdict of `omf check` in C with AVX2, written for speed alone. bench/measure.sh builds it and measures it beside `omf`.
//
// It reads a module from the standard input. For a well-formed one it prints the line of `omf check`; for any other `refused`, without the
// reason. It keeps no byte of records that it has judged. A field is read before it is known to be inside its record: the buffer goes on for
// LONGEST_ENTRY bytes after what is read into it, and a record whose fields do not end exactly at its checksum is refused.
#include <immintrin.h>
#include <stdbool.h>
#include <stdint.h>
#include <stdio.h>
#include <stdlib.h>
#include <string.h>
#include <unistd.h>

enum { TABLE_LIMIT = 32767, ITEM_LIMIT = 1048576, NESTING = 64, EXPANDED = 268435456 };
enum { BUFFER = 1 << 17 };
// A COMDEF entry has at most 269 bytes, and no loop reads two entries without looking whether the record has ended.
enum { LONGEST_ENTRY = 1024 };

// What a record of a type byte is.
enum kind { REFUSED, CARRIED, HEADER, COMMENT, MODULE_END, EXTERNALS, COMMUNALS, PUBLICS, NAMES, SEGMENT, GROUP, FIXUPS, DATA, ITERATED };

static const uint8_t KINDS[256] = {
    [0x80] = HEADER,    [0x82] = HEADER,    [0x88] = COMMENT,   [0x8A] = MODULE_END, [0x8B] = MODULE_END, [0x8C] = EXTERNALS, [0xB4] = EXTERNALS,
    [0xB5] = EXTERNALS, [0xB0] = COMMUNALS, [0xB8] = COMMUNALS, [0x90] = PUBLICS,    [0x91] = PUBLICS,    [0xB6] = PUBLICS,   [0xB7] = PUBLICS,
    [0x96] = NAMES,     [0xCA] = NAMES,     [0x98] = SEGMENT,   [0x99] = SEGMENT,    [0x9A] = GROUP,      [0x9C] = FIXUPS,    [0x9D] = FIXUPS,
    [0xA0] = DATA,      [0xA1] = DATA,      [0xA2] = ITERATED,  [0xA3] = ITERATED,   [0x8E] = CARRIED,    [0x94] = CARRIED,   [0x95] = CARRIED,
    [0xC4] = CARRIED,   [0xC5] = CARRIED,   [0xC6] = CARRIED,   [0xCC] = CARRIED,
};

// The size of a location, by bits 2 to 6 of the first byte of its fixup: its type, and above it whether it is segment-relative. NONE: there is no
// such type, or a self-relative fixup may not have it. No data are as long as that.
enum { NONE = 1 << 16 };
static const uint32_t SIZES[32] = {
    1, 2, NONE, NONE, NONE, 2, NONE, NONE, NONE, 4, NONE, NONE, NONE, 4, NONE, NONE,
    1, 2, 2,    4,    1,    2, NONE, NONE, NONE, 4, NONE, 6,    NONE, 4, NONE, NONE,
};

// What a fix data byte announces.
enum { FRAME_DATUM = 1, DISPLACEMENT = 2, NOT_PLAIN = 4 };
static uint8_t FIXES[256];

// What a THREAD sets.
struct thread {
    bool is_set;
    uint8_t method;
    uint32_t index;
};

// What the records before define. counts: the numbers of segments, groups and externals, by method.
static struct {
    uint64_t segments[TABLE_LIMIT];
    uint32_t counts[4], names, items;
    struct thread frames[4], targets[4];
    uint64_t data_length; // of the last data record; 0 if there is none, or if it is iterated
} tables;

static uint8_t buffer[BUFFER + LONGEST_ENTRY];

static _Noreturn void refuse(void) {
    puts("refused");
    exit(1);
}

static inline void require(bool holds) {
    if (__builtin_expect(!holds, 0)) refuse();
}

// The fields of a record: where the next one is, and where the last one has to end. is_wide: whether offsets have 4 bytes.
struct fields {
    const uint8_t *at, *end;
    bool is_wide;
};

static inline uint32_t byte_of(struct fields *fields) {
    return *fields->at++;
}

static inline uint32_t number(struct fields *fields, unsigned size) {
    uint32_t value = 0;
    memcpy(&value, fields->at, size);
    fields->at += size;
    return value;
}

static inline uint32_t offset(struct fields *fields) {
    return fields->is_wide ? number(fields, 4) : number(fields, 2);
}

static inline uint32_t index_at(const uint8_t **at) {
    uint32_t first = *(*at)++;
    return first < 0x80 ? first : (first & 0x7F) << 8 | *(*at)++;
}

static inline uint32_t index_of(struct fields *fields) {
    return index_at(&fields->at);
}

static inline uint32_t name(struct fields *fields) {
    uint32_t length = byte_of(fields);
    fields->at += length;
    return length;
}

static inline bool is_left(const struct fields *fields) {
    return fields->at < fields->end;
}

static inline bool is_defined(unsigned method, uint32_t index) {
    return index - 1 < tables.counts[method];
}

static inline void count(uint32_t items) {
    tables.items += items;
    require(tables.items <= ITEM_LIMIT);
}

// 255 from the 32nd byte on: a load from `MASKS + 32 - n` keeps all but the first n bytes.
static const uint8_t MASKS[64] = {[32] = 255, 255, 255, 255, 255, 255, 255, 255, 255, 255, 255, 255, 255, 255, 255, 255,
                                  255, 255, 255, 255, 255, 255, 255, 255, 255, 255, 255, 255, 255, 255, 255, 255};

static inline uint8_t byte_sum(__m128i bytes) {
    __m128i sums = _mm_sad_epu8(bytes, _mm_setzero_si128());
    return (uint8_t)(_mm_cvtsi128_si32(sums) + _mm_extract_epi16(sums, 4));
}

static inline __m128i load_16(const uint8_t *bytes) {
    return _mm_loadu_si128((const __m128i *)bytes);
}

static inline __m256i load_32(const uint8_t *bytes) {
    return _mm256_loadu_si256((const __m256i *)bytes);
}

// Of 32 bytes and more: blocks of 32, and then the last 32 bytes without those that were added already.
static uint8_t sum_of_long(const uint8_t *bytes, size_t length) {
    __m256i even = _mm256_setzero_si256(), odd = even;
    size_t done = 0;
    for (; done + 64 <= length; done += 64) {
        even = _mm256_add_epi8(even, load_32(bytes + done));
        odd = _mm256_add_epi8(odd, load_32(bytes + done + 32));
    }
    if (done + 32 <= length) {
        even = _mm256_add_epi8(even, load_32(bytes + done));
        done += 32;
    }
    __m256i last = _mm256_and_si256(load_32(bytes + length - 32), load_32(MASKS + length - done));
    __m256i all = _mm256_add_epi8(_mm256_add_epi8(even, odd), last);
    return byte_sum(_mm_add_epi8(_mm256_castsi256_si128(all), _mm256_extracti128_si256(all, 1)));
}

// The sum of at least 4 bytes, modulo 256.
static inline uint8_t sum(const uint8_t *bytes, size_t length) {
    uint64_t first, last;
    if (length >= 32) return sum_of_long(bytes, length);
    if (length >= 16) {
        __m128i rest = _mm_and_si128(load_16(bytes + length - 16), load_16(MASKS + length));
        return byte_sum(_mm_add_epi8(load_16(bytes), rest));
    }
    memcpy(&first, bytes, 8);
    if (length <= 8) {
        __m128i all = _mm_cvtsi64_si128((int64_t)(first << (64 - 8 * length)));
        return (uint8_t)_mm_cvtsi128_si32(_mm_sad_epu8(all, _mm_setzero_si128()));
    }
    memcpy(&last, bytes + length - 8, 8);
    last >>= 8 * (16 - length);
    return byte_sum(_mm_set_epi64x((int64_t)last, (int64_t)first));
}

static void thread_is_sound(struct thread thread, bool is_start) {
    require(thread.is_set && !(is_start && thread.method == 4));
    require(thread.method > 2 || is_defined(thread.method, thread.index));
}

// A fix data byte and what follows it, with threads: of a fixup, or of a start, whose frame may not be that of its location (F4).
static void reference(struct fields *fields, bool is_start) {
    uint32_t fix = byte_of(fields), frame = fix >> 4 & 7, target = fix & 3;
    if (fix & 0x80) {
        thread_is_sound(tables.frames[frame & 3], is_start);
    } else {
        require(frame != 3 && frame <= 5 && !(is_start && frame == 4));
        if (frame < 3) require(is_defined(frame, index_of(fields)));
    }
    if (fix & 8) {
        thread_is_sound(tables.targets[target], false);
    } else {
        require(target != 3 && is_defined(target, index_of(fields)));
    }
    if (!(fix & 4)) offset(fields);
}

static void set_thread(struct fields *fields) {
    uint32_t first = byte_of(fields);
    bool is_frame = first & 0x40;
    uint8_t method = first >> 2 & (is_frame ? 7 : 3);
    require(method != 3 && method <= 5);
    struct thread *threads = is_frame ? tables.frames : tables.targets;
    uint32_t index = method < 3 ? index_of(fields) : 0;
    threads[first & 3] = (struct thread){.is_set = true, .method = method, .index = index};
}

// A fixup without a thread is judged here, all its rules at once; of any other the rest is left to `reference`.
static inline void fixup(struct fields *fields) {
    const uint8_t *at = fields->at;
    uint32_t location = (at[0] & 3u) << 8 | at[1], fix = at[2];
    uint8_t announced = FIXES[fix];
    require(location + SIZES[at[0] >> 2 & 31] <= tables.data_length);
    if (__builtin_expect(announced & NOT_PLAIN, 0)) {
        fields->at += 2;
        reference(fields, false);
        return;
    }
    at += 3;
    bool is_sound = true;
    if (announced & FRAME_DATUM) is_sound = is_defined(fix >> 4 & 3, index_at(&at));
    is_sound &= is_defined(fix & 3, index_at(&at));
    if (announced & DISPLACEMENT) at += fields->is_wide ? 4 : 2;
    require(is_sound);
    fields->at = at;
}

static inline void fixups(struct fields fields) {
    uint32_t subrecords = 0;
    for (; is_left(&fields); subrecords++) {
        if (__builtin_expect(*fields.at & 0x80, 0x80)) {
            fixup(&fields);
        } else {
            set_thread(&fields);
        }
    }
    require(fields.at == fields.end);
    count(subrecords ? subrecords : 1);
}

static uint64_t added(uint64_t a, uint64_t b) {
    return a + b < a ? UINT64_MAX : a + b;
}

// How many bytes a block expands to, UINT64_MAX if that is too large. levels: how many it may nest.
static uint64_t expanded_block(struct fields *fields, int levels) {
    uint64_t repeat = offset(fields), total = 0, product;
    require(levels > 0);
    uint32_t blocks = number(fields, 2);
    if (blocks == 0) return repeat * name(fields);
    for (; blocks > 0; blocks--) {
        require(is_left(fields));
        total = added(total, expanded_block(fields, levels - 1));
    }
    return __builtin_mul_overflow(repeat, total, &product) ? UINT64_MAX : product;
}

static inline void set_data(uint32_t segment, uint64_t first, uint64_t length, bool is_iterated) {
    require(is_defined(0, segment) && first + length <= tables.segments[segment - 1]);
    tables.data_length = is_iterated ? 0 : length;
}

static inline void data(struct fields fields) {
    uint32_t segment = index_of(&fields);
    uint64_t first = offset(&fields);
    count(1);
    require(fields.at <= fields.end);
    set_data(segment, first, (uint64_t)(fields.end - fields.at), false);
}

static void iterated_data(struct fields *fields) {
    uint32_t segment = index_of(fields);
    uint64_t first = offset(fields), length = 0;
    while (is_left(fields)) length = added(length, expanded_block(fields, NESTING));
    require(length <= EXPANDED);
    set_data(segment, first, length, true);
}

static void segment(struct fields *fields) {
    uint32_t attributes = byte_of(fields), alignment = attributes >> 5;
    require(alignment < 6 && tables.counts[0] < TABLE_LIMIT);
    if (alignment == 0) fields->at += 3;
    bool is_big = attributes & 2;
    uint64_t length = offset(fields), whole = fields->is_wide ? 1ull << 32 : 1u << 16;
    require(!is_big || length == 0);
    require(index_of(fields) <= tables.names && index_of(fields) <= tables.names);
    index_of(fields);
    tables.segments[tables.counts[0]++] = is_big ? whole : length;
}

static void group(struct fields *fields) {
    require(tables.counts[1] < TABLE_LIMIT && index_of(fields) <= tables.names);
    while (is_left(fields)) require(byte_of(fields) == 0xFF && is_defined(0, index_of(fields)));
    tables.counts[1]++;
}

static void names(struct fields *fields) {
    for (; is_left(fields); name(fields)) require(tables.names++ < TABLE_LIMIT);
}

static void communal_length(struct fields *fields) {
    uint32_t first = byte_of(fields);
    if (first <= 0x80) return;
    require(first == 0x81 || first == 0x84 || first == 0x88);
    fields->at += first == 0x81 ? 2 : first == 0x84 ? 3 : 4;
}

static void externals(struct fields *fields, bool are_communal) {
    while (is_left(fields)) {
        require(tables.counts[2]++ < TABLE_LIMIT);
        name(fields);
        index_of(fields);
        if (!are_communal) continue;
        uint32_t type = byte_of(fields);
        require(type == 0x61 || type == 0x62);
        communal_length(fields);
        if (type == 0x61) communal_length(fields);
    }
}

static void publics(struct fields *fields) {
    require(index_of(fields) <= tables.counts[1]);
    uint32_t base = index_of(fields);
    require(base <= tables.counts[0]);
    if (base == 0) fields->at += 2;
    require(fields->at <= fields->end);
    while (is_left(fields)) {
        name(fields);
        offset(fields);
        index_of(fields);
    }
}

static void comment(struct fields *fields) {
    require(fields->end - fields->at >= 2 && fields->at[1] != 0xAA);
    fields->at = fields->end;
}

// Judges a record of any type but LEDATA and FIXUPP.
static void record(enum kind kind, struct fields fields) {
    count(1);
    switch (kind) {
    case ITERATED: iterated_data(&fields); break;
    case HEADER: name(&fields); break;
    case COMMENT: comment(&fields); break;
    case NAMES: names(&fields); break;
    case SEGMENT: segment(&fields); break;
    case GROUP: group(&fields); break;
    case EXTERNALS: externals(&fields, false); break;
    case COMMUNALS: externals(&fields, true); break;
    case PUBLICS: publics(&fields); break;
    case MODULE_END:
        if (byte_of(&fields) & 0x40) reference(&fields, true);
        break;
    default: fields.at = fields.end;
    }
    require(fields.at == fields.end);
}

static void make_fixes(void) {
    for (int fix = 0; fix < 256; fix++) {
        int frame = fix >> 4 & 7, target = fix & 3;
        bool is_plain = !(fix & 0x88) && frame != 3 && frame <= 5 && target != 3;
        FIXES[fix] = (is_plain ? 0 : NOT_PLAIN) | (frame < 3 ? FRAME_DATUM : 0) | (fix & 4 ? 0 : DISPLACEMENT);
    }
}

int main(void) {
    size_t low = 0, high = 0;
    uint64_t start = 0;
    uint32_t records = 0;
    make_fixes();
    for (;;) {
        while (high - low >= 3) {
            const uint8_t *bytes = buffer + low;
            enum kind kind = KINDS[bytes[0]];
            size_t length = 3 + (bytes[1] | (size_t)bytes[2] << 8);
            require(kind != REFUSED && length > 3);
            if (high - low < length) break;
            if (__builtin_expect(records == 0, 0)) require(kind == HEADER);
            const uint8_t *end = bytes + length - 1;
            require(*end == 0 || sum(bytes, length) == 0);
            struct fields fields = {.at = bytes + 3, .end = end, .is_wide = bytes[0] & 1};
            if (kind == FIXUPS) {
                fixups(fields);
            } else if (kind == DATA) {
                data(fields);
            } else {
                record(kind, fields);
            }
            records++;
            low += length;
            if (kind == MODULE_END) {
                printf("OK %u records, %llu bytes\n", records, (unsigned long long)(start + low));
                return 0;
            }
        }
        memmove(buffer, buffer + low, high - low);
        start += low;
        high -= low;
        low = 0;
        ssize_t more = read(0, buffer + high, BUFFER - high);
        require(more > 0);
        high += (size_t)more;
    }
}
