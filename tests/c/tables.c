/* Makes each call that hands out a table or an image, and compares every row and byte with those worked out by hand: tables
 *
 * It is C and C++. Each call is made with no room, one row too few, exactly enough and one row more, in a buffer of exactly that size, so that
 * valgrind sees a byte too many; and with each of its allocations refused in turn (the linker's --wrap). */
#include <omf.h>
#include <stdio.h>
#include <stdlib.h>
#include <string.h>

static int failures;

static void fail(const char *what, const char *how) {
    printf("%s: %s\n", what, how);
    failures++;
}

/* Names "", T, CODE and G; a segment T of class CODE with 4 bytes; a group G of it; an EXTDEF X, an LEXTDEF y, COMDEFs N (near, 6 bytes) and F
 * (far, 3 elements of 2 bytes); a public P and a local public q; data, and a self-relative fixup of the external X whose frame is a
 * thread's, that of the group. The comments have the offset of each record. Checksum bytes are 0, which is not checked. */
static const uint8_t tables[] = {
    0x80, 0x03, 0x00, 0x01, 0x41, 0x00,                                                             /* 0 THEADR */
    0x96, 0x0B, 0x00, 0x00, 0x01, 0x54, 0x04, 0x43, 0x4F, 0x44, 0x45, 0x01, 0x47, 0x00,             /* 6 LNAMES */
    0x98, 0x07, 0x00, 0x68, 0x04, 0x00, 0x02, 0x03, 0x01, 0x00,                                     /* 20 SEGDEF */
    0x9A, 0x04, 0x00, 0x04, 0xFF, 0x01, 0x00,                                                       /* 30 GRPDEF */
    0x8C, 0x04, 0x00, 0x01, 0x58, 0x07, 0x00,                                                       /* 37 EXTDEF */
    0xB4, 0x04, 0x00, 0x01, 0x79, 0x00, 0x00,                                                       /* 44 LEXTDEF */
    0xB0, 0x0C, 0x00, 0x01, 0x4E, 0x00, 0x62, 0x06, 0x01, 0x46, 0x00, 0x61, 0x03, 0x02, 0x00,       /* 51 COMDEF */
    0x90, 0x08, 0x00, 0x01, 0x01, 0x01, 0x50, 0x02, 0x00, 0x09, 0x00,                               /* 66 PUBDEF */
    0xB6, 0x08, 0x00, 0x00, 0x01, 0x01, 0x71, 0x03, 0x00, 0x00, 0x00,                               /* 77 LPUBDEF */
    0xA0, 0x08, 0x00, 0x01, 0x00, 0x00, 0xE8, 0x00, 0x00, 0x90, 0x00,                               /* 88 LEDATA */
    0x9C, 0x09, 0x00, 0x45, 0x01, 0x84, 0x01, 0x92, 0x01, 0x05, 0x00, 0x00,                         /* 99 FIXUPP */
    0x8A, 0x02, 0x00, 0x00, 0x00,                                                                   /* 111 MODEND */
};

/* An absolute segment at B800H:0010H, 32-bit, big, without a name; a public in the frame B800H; a second segment, with data at 4; fixups
 * in the frames of the location and of the target, the second with 32-bit fields, and one of the first segment after data of its own. */
static const uint8_t others[] = {
    0x80, 0x03, 0x00, 0x01, 0x41, 0x00,                                                             /* 0 THEADR */
    0x96, 0x02, 0x00, 0x00, 0x00,                                                                   /* 6 LNAMES */
    0x99, 0x0C, 0x00, 0x03, 0x00, 0xB8, 0x10, 0x00, 0x00, 0x00, 0x00, 0x00, 0x00, 0x00, 0x00,       /* 11 SEGDEF */
    0x98, 0x07, 0x00, 0x28, 0x08, 0x00, 0x01, 0x01, 0x00, 0x00,                                     /* 26 SEGDEF */
    0x90, 0x0A, 0x00, 0x00, 0x00, 0x00, 0xB8, 0x01, 0x58, 0x02, 0x00, 0x00, 0x00,                   /* 36 PUBDEF */
    0xA0, 0x08, 0x00, 0x02, 0x04, 0x00, 0x01, 0x02, 0x03, 0x04, 0x00,                               /* 49 LEDATA */
    0x9C, 0x05, 0x00, 0xC4, 0x02, 0x44, 0x01, 0x00,                                                 /* 60 FIXUPP */
    0x9D, 0x09, 0x00, 0xE4, 0x00, 0x50, 0x02, 0x78, 0x56, 0x34, 0x12, 0x00,                         /* 68 FIXUPP */
    0xA1, 0x07, 0x00, 0x01, 0x00, 0x00, 0x00, 0x80, 0x55, 0x00,                                     /* 80 LEDATA */
    0x9C, 0x06, 0x00, 0xC0, 0x00, 0x04, 0x01, 0x02, 0x00,                                           /* 90 FIXUPP */
    0x8A, 0x02, 0x00, 0x00, 0x00,                                                                   /* 99 MODEND */
};

/* A main module B with a comment of the class 9FH that is not purged, the segment T of 16 bytes, an LIDATA of three repeats of AA BB at 8, an LEDATA
 * with 32-bit fields, and a start 7 bytes after the external X, in the frame of the segment. */
static const uint8_t parts[] = {
    0x80, 0x03, 0x00, 0x01, 0x42, 0x00,                                                             /* 0 THEADR */
    0x88, 0x07, 0x00, 0x80, 0x9F, 0x63, 0x6C, 0x69, 0x62, 0x00,                                     /* 6 COMENT */
    0x96, 0x04, 0x00, 0x00, 0x01, 0x54, 0x00,                                                       /* 16 LNAMES */
    0x98, 0x07, 0x00, 0x28, 0x10, 0x00, 0x02, 0x01, 0x01, 0x00,                                     /* 23 SEGDEF */
    0x8C, 0x04, 0x00, 0x01, 0x58, 0x00, 0x00,                                                       /* 33 EXTDEF */
    0xA2, 0x0B, 0x00, 0x01, 0x08, 0x00, 0x03, 0x00, 0x00, 0x00, 0x02, 0xAA, 0xBB, 0x00,             /* 40 LIDATA */
    0xA1, 0x09, 0x00, 0x01, 0x04, 0x00, 0x00, 0x00, 0x11, 0x22, 0x33, 0x00,                         /* 54 LEDATA */
    0x8A, 0x07, 0x00, 0xC1, 0x02, 0x01, 0x01, 0x07, 0x00, 0x00,                                     /* 66 MODEND */
};

static const struct omf_record parts_records[] = {{{0, 6}, 0x80, 0}, {{6, 10}, 0x88, 1}, {{16, 7}, 0x96, 2}, {{23, 10}, 0x98, 3},
                                                  {{33, 7}, 0x8C, 4}, {{40, 14}, 0xA2, 5}, {{54, 12}, 0xA1, 6}, {{66, 10}, 0x8A, 7}};
static const struct omf_header parts_headers[] = {{{4, 1}, 0x80, 0}};
static const struct omf_comment parts_comments[] = {{{11, 4}, 0x9F, 0x80, 1, 0}};
static const struct omf_data parts_data[] = {{{46, 7}, 6, 8, 1, 0xA2, 5}, {{62, 3}, 3, 4, 1, 0xA1, 6}};
static const struct omf_start_reference parts_start[] = {{1, 1, 0, 1, 2, 1, 7, 16, 7, 4}};
static const struct omf_start_reference tables_start[] = {{0, 0, 0, 0, 0, 0, 0, 0, 11, 0}};

static const struct omf_segment tables_segments[] = {{{11, 1}, {13, 4}, {10, 0}, 4, 3, 2, 16, 0, 0, 0}};
static const struct omf_group tables_groups[] = {{{18, 1}, 1}};
static const struct omf_member tables_members[] = {{1}};
static const struct omf_external tables_externals[] = {
    {{41, 1}, 7, 0, 0, 0, 0, 0}, {{48, 1}, 0, 1, 0, 0, 0, 0}, {{55, 1}, 0, 0, 1, 1, 6, 0}, {{60, 1}, 0, 0, 2, 3, 2, 0}};
static const struct omf_public tables_publics[] = {{{72, 1}, 2, 1, 1, 0, 9, 0}, {{83, 1}, 3, 1, 0, 0, 0, 1}};
static const struct omf_fixup tables_fixups[] = {{1, 1, 1, 2, 1, 1, 1, 2, 1, 5, 16, 10, 5}};

static const struct omf_segment others_segments[] = {{{0, 0}, {0, 0}, {0, 0}, 4294967296, 0, 0, 32, 1, 0xB800, 0x10},
                                                     {{10, 0}, {10, 0}, {0, 0}, 8, 1, 2, 16, 0, 0, 0}};
static const struct omf_public others_publics[] = {{{44, 1}, 2, 0, 0, 0xB800, 0, 0}};
static const struct omf_fixup others_fixups[] = {{6, 2, 1, 2, 0, 4, 0, 0, 1, 0, 16, 6, 3},
                                                 {4, 2, 9, 4, 0, 5, 0, 0, 2, 0x12345678, 32, 7, 3},
                                                 {0x80000000, 1, 0, 1, 0, 0, 1, 0, 2, 0, 16, 9, 3}};

/* The linker sends the library's calls of malloc and realloc here: the one of this number, from 0, is refused, and all after it. */
static long refused_from = -1, allocations;

static bool is_refused(void) { return refused_from >= 0 && allocations++ >= refused_from; }

#ifdef __cplusplus
extern "C" {
#endif
void *__real_malloc(size_t size);
void *__real_realloc(void *at, size_t size);
void *__wrap_malloc(size_t size);
void *__wrap_realloc(void *at, size_t size);
void *__wrap_malloc(size_t size) { return is_refused() ? NULL : __real_malloc(size); }
void *__wrap_realloc(void *at, size_t size) { return is_refused() ? NULL : __real_realloc(at, size); }
#ifdef __cplusplus
}
#endif

static bool has(struct omf_answer is, uint32_t status, size_t size) {
    return is.status == status && is.reason == 0 && is.kind == 0 && is.index == 0 && is.number == 0 && is.within == 0 && is.start == 0
        && is.line == 0 && is.size == size && is.record_count == 0;
}

/* Makes the call with each room; `wanted` has `count` rows. */
#define WITH_ROWS(name, row, bytes, wanted, count)                                                                              \
    static void name(void) {                                                                                                    \
        const size_t size = sizeof(struct row), most = (count) + 1;                                                             \
        for (size_t room = 0; room <= most; room++) {                                                                           \
            struct row *out = (struct row *)malloc(room ? room * size : 1), *before = (struct row *)malloc(most * size);       \
            if (!out || !before) exit(2);                                                                                       \
            memset(out, 7, room ? room * size : 1);                                                                             \
            memset(before, 7, most * size);                                                                                     \
            struct omf_answer is = row##s(bytes, sizeof bytes, false, out, room);                                               \
            if (!has(is, room < (count) ? OMF_ROOM : OMF_DONE, (count))) fail(#name, "another answer");                         \
            if (room >= (count)) memcpy(before, wanted, (count) * size);                                                        \
            if (memcmp(out, before, room * size) != 0) fail(#name, "other rows");                                               \
            free(out);                                                                                                          \
            free(before);                                                                                                       \
        }                                                                                                                       \
        struct omf_answer is;                                                                                                   \
        long n = 0;                                                                                                             \
        do {                                                                                                                    \
            struct row out[8], before[8];                                                                                       \
            memset(out, 7, sizeof out);                                                                                         \
            memset(before, 7, sizeof before);                                                                                   \
            refused_from = n++;                                                                                                 \
            allocations = 0;                                                                                                    \
            is = row##s(bytes, sizeof bytes, false, out, 8);                                                                    \
            refused_from = -1;                                                                                                  \
            if (is.status == OMF_MEMORY && !(has(is, OMF_MEMORY, 0) && memcmp(out, before, sizeof out) == 0)) fail(#name, "memory"); \
        } while (is.status == OMF_MEMORY);                                                                                      \
        if (n < 2 || !has(is, OMF_DONE, (count))) fail(#name, "refused allocations");                                           \
        struct row out[1], before[1];                                                                                           \
        memset(out, 7, sizeof out);                                                                                             \
        memset(before, 7, sizeof before);                                                                                       \
        is = row##s(bytes, sizeof bytes - 4, false, out, 1);                                                                    \
        if (is.status != OMF_REFUSED || is.reason != OMF_CUT || memcmp(out, before, sizeof out) != 0) fail(#name, "cut");        \
    }

#define COUNT(rows) (sizeof(rows) / sizeof((rows)[0]))
#define omf_members omf_group_members
#define omf_datas omf_data
#define omf_start_references omf_start_reference

WITH_ROWS(records, omf_record, parts, parts_records, COUNT(parts_records))
WITH_ROWS(headers, omf_header, parts, parts_headers, COUNT(parts_headers))
WITH_ROWS(comments, omf_comment, parts, parts_comments, COUNT(parts_comments))
WITH_ROWS(data_records, omf_data, parts, parts_data, COUNT(parts_data))
WITH_ROWS(start_reference, omf_start_reference, parts, parts_start, COUNT(parts_start))
WITH_ROWS(no_start_reference, omf_start_reference, tables, tables_start, COUNT(tables_start))

WITH_ROWS(segments, omf_segment, tables, tables_segments, COUNT(tables_segments))
WITH_ROWS(groups, omf_group, tables, tables_groups, COUNT(tables_groups))
WITH_ROWS(members, omf_member, tables, tables_members, COUNT(tables_members))
WITH_ROWS(externals, omf_external, tables, tables_externals, COUNT(tables_externals))
WITH_ROWS(publics, omf_public, tables, tables_publics, COUNT(tables_publics))
WITH_ROWS(fixups, omf_fixup, tables, tables_fixups, COUNT(tables_fixups))
WITH_ROWS(other_segments, omf_segment, others, others_segments, COUNT(others_segments))
WITH_ROWS(other_publics, omf_public, others, others_publics, COUNT(others_publics))
WITH_ROWS(other_fixups, omf_fixup, others, others_fixups, COUNT(others_fixups))

/* The bytes of a data record, with each room and each allocation refused. */
static void bytes_of(uint32_t number, const uint8_t *wanted, size_t size) {
    struct omf_answer is;
    uint8_t out[8], before[8];
    long n = 0;
    for (size_t room = 0; room <= size + 1; room++) {
        memset(out, 7, sizeof out);
        memset(before, 7, sizeof before);
        if (!has(omf_data_bytes(parts, sizeof parts, false, number, out, room), room < size ? OMF_ROOM : OMF_DONE, size)) fail("data bytes", "another answer");
        if (room >= size && size) memcpy(before, wanted, size);
        if (memcmp(out, before, sizeof out) != 0) fail("data bytes", "other bytes");
    }
    memset(before, 7, sizeof before);
    do {
        memset(out, 7, sizeof out);
        refused_from = n++;
        allocations = 0;
        is = omf_data_bytes(parts, sizeof parts, false, number, out, 8);
        refused_from = -1;
        if (is.status == OMF_MEMORY && !(has(is, OMF_MEMORY, 0) && memcmp(out, before, sizeof out) == 0)) fail("data bytes", "memory");
    } while (is.status == OMF_MEMORY);
    if (n < 2 || !has(is, OMF_DONE, size)) fail("data bytes", "refused allocations");
}

static void data_bytes(void) {
    static const uint8_t repeated[] = {0xAA, 0xBB, 0xAA, 0xBB, 0xAA, 0xBB};
    bytes_of(5, repeated, sizeof repeated);
    bytes_of(6, parts + 62, 3);
    bytes_of(4, NULL, 0);
    bytes_of(8, NULL, 0);
    if (omf_data_bytes(parts, 70, false, 5, NULL, 0).status != OMF_REFUSED) fail("data bytes", "cut");
}

/* Segments of 4 and 2 bytes, with data at 0 and 3 of the first, and at 0 of the second; a fixup of the word at 1 by the first segment; and a
 * start at offset 2 of the first. At the addresses 10020H and 10030H in the frame 1000H the word is 20H, and the start 1000H:0022H. */
static const uint8_t placed[] = {
    0x80, 0x03, 0x00, 0x01, 0x41, 0x00, 0x96, 0x02, 0x00, 0x00, 0x00,                               /* THEADR, LNAMES */
    0x98, 0x07, 0x00, 0x28, 0x05, 0x00, 0x01, 0x01, 0x01, 0x00,                                     /* SEGDEF */
    0x98, 0x07, 0x00, 0x28, 0x02, 0x00, 0x01, 0x01, 0x01, 0x00,                                     /* SEGDEF */
    0xA0, 0x07, 0x00, 0x01, 0x00, 0x00, 0xB8, 0x00, 0x00, 0x00,                                     /* LEDATA */
    0x9C, 0x06, 0x00, 0xC4, 0x01, 0x04, 0x01, 0x01, 0x00,                                           /* FIXUPP */
    0xA0, 0x05, 0x00, 0x01, 0x04, 0x00, 0x90, 0x00, 0xA0, 0x06, 0x00, 0x02, 0x00, 0x00, 0xCD, 0x20, 0x00, /* LEDATA, LEDATA */
    0x8A, 0x07, 0x00, 0xC1, 0x00, 0x01, 0x01, 0x02, 0x00, 0x00,                                     /* MODEND */
};
static const char placement[] = "S 10020 10000 1000\nS 10030 10000 1000\n";
static const struct omf_run placed_runs[] = {{3, 1, 0}, {1, 1, 4}, {2, 2, 0}};
static const uint8_t placed_bytes[] = {0xB8, 0x20, 0x00, 0x90, 0xCD, 0x20};

/* The same placement as arrays. What is not used of a row is not read. */
static const struct omf_place places[] = {{0x10020, 0x10000, 0x1000, 7}, {0x10030, 0x10000, 0x1000, 0}};
static const struct omf_placement arrays = {places, 2, NULL, 0, NULL, 0};

/* The image by a text; or by the arrays, if there is none. */
static struct omf_answer image(const char *text, struct omf_run *runs, size_t run_room, uint8_t *out, size_t room) {
    if (!text) return omf_image_at(placed, sizeof placed, &arrays, false, runs, run_room, out, room);
    return omf_image(placed, sizeof placed, (const uint8_t *)text, strlen(text), false, runs, run_room, out, room);
}

static bool has_sizes(struct omf_answer is, uint32_t status) {
    return is.status == status && is.size == 6 && is.record_count == 3;
}

/* The image, with each number of runs and of bytes that is too small or enough. */
static void images(const char *text) {
    for (size_t run_room = 0; run_room <= 4; run_room++) {
        for (size_t room = 0; room <= 7; room++) {
            const size_t size = run_room * sizeof(struct omf_run);
            struct omf_run *runs = (struct omf_run *)malloc(size ? size : 1), run_before[4];
            uint8_t *out = (uint8_t *)malloc(room ? room : 1), before[7];
            if (!runs || !out) exit(2);
            memset(runs, 7, size ? size : 1);
            memset(run_before, 7, sizeof run_before);
            memset(out, 7, room ? room : 1);
            memset(before, 7, sizeof before);
            const bool fits = run_room >= 3 && room >= 6;
            if (!has_sizes(image(text, runs, run_room, out, room), fits ? OMF_DONE : OMF_ROOM)) fail("image", "another answer");
            if (fits) {
                memcpy(run_before, placed_runs, sizeof placed_runs);
                memcpy(before, placed_bytes, sizeof placed_bytes);
            }
            if (memcmp(runs, run_before, size) != 0 || memcmp(out, before, room) != 0) fail("image", "other bytes");
            free(runs);
            free(out);
        }
    }
}

/* The image with each allocation refused. */
static void image_memory(const char *text) {
    struct omf_answer is;
    struct omf_run runs[4], run_before[4];
    uint8_t out[8], before[8];
    long n = 0;
    memset(run_before, 7, sizeof run_before);
    memset(before, 7, sizeof before);
    do {
        memset(runs, 7, sizeof runs);
        memset(out, 7, sizeof out);
        refused_from = n++;
        allocations = 0;
        is = image(text, runs, 4, out, 8);
        refused_from = -1;
        if (is.status == OMF_MEMORY && (memcmp(runs, run_before, sizeof runs) != 0 || memcmp(out, before, sizeof out) != 0)) fail("image", "memory");
    } while (is.status == OMF_MEMORY);
    if (n < 3 || !has_sizes(is, OMF_DONE)) fail("image", "refused allocations");
}

/* Each fault of the text and the placement. */
static void image_faults(void) {
    struct omf_answer is;
    struct omf_run runs[4];
    uint8_t out[8];
    is = image("S 10020 10000 1000\nX\n", runs, 4, out, 8);
    if (is.status != OMF_LINE || is.line != 2) fail("image", "line");
    is = image("S 10020 10000 1000\n", runs, 4, out, 8);
    if (is.status != OMF_REACH || is.reason != OMF_MISSING || is.kind != OMF_SEGMENT || is.index != 2) fail("image", "missing segment");
    is = image("S 20000 10000 1000\nS 10030 10000 1000\n", runs, 4, out, 8);
    if (is.status != OMF_REACH || is.reason != OMF_TOO_FAR || is.kind != OMF_TARGET || is.number != 5) fail("image", "target");
}

/* The answer of both calls for a placement as arrays, which leave their buffers as they are. */
static struct omf_answer fault_at(const struct omf_placement *given, size_t length) {
    struct omf_run runs[4], run_before[4];
    uint8_t out[8], before[8];
    struct omf_start start[1], start_before[1];
    memset(runs, 7, sizeof runs);
    memset(run_before, 7, sizeof run_before);
    memset(out, 7, sizeof out);
    memset(before, 7, sizeof before);
    memset(start, 7, sizeof start);
    memset(start_before, 7, sizeof start_before);
    const struct omf_answer is = omf_image_at(placed, length, given, false, runs, 4, out, 8);
    const struct omf_answer as_is = omf_start_at(placed, length, given, false, start, 1);
    if (memcmp(runs, run_before, sizeof runs) != 0 || memcmp(out, before, sizeof out) != 0 || memcmp(start, start_before, sizeof start) != 0) fail("arrays", "a buffer");
    if (memcmp(&is, &as_is, sizeof is) != 0) fail("arrays", "two answers");
    return is;
}

static void array_faults(void) {
    static const struct omf_place far_places[] = {{0x20000, 0x10000, 0x1000, 0}, {0x10030, 0x10000, 0x1000, 0}};
    static const struct omf_frame frames[] = {{0x10000, 0x1000, 0}};
    struct omf_placement given = {places, 1, NULL, 0, NULL, 0};
    struct omf_answer is = fault_at(&given, sizeof placed);
    if (is.status != OMF_REACH || is.reason != OMF_MISSING || is.kind != OMF_SEGMENT || is.index != 2) fail("arrays", "missing segment");
    given.segment_count = 2;
    given.groups = frames;
    given.group_count = 1;
    is = fault_at(&given, sizeof placed);
    if (is.status != OMF_REACH || is.reason != OMF_EXTRA || is.kind != OMF_GROUP || is.index != 1) fail("arrays", "extra group");
    given.group_count = 0;
    given.externals = places;
    given.external_count = 2;
    is = fault_at(&given, sizeof placed);
    if (is.status != OMF_REACH || is.reason != OMF_EXTRA || is.kind != OMF_EXTERNAL || is.index != 1) fail("arrays", "extra external");
    given.external_count = 0;
    given.segments = far_places;
    is = fault_at(&given, sizeof placed);
    if (is.status != OMF_REACH || is.reason != OMF_TOO_FAR || is.kind != OMF_TARGET || is.number != 5) fail("arrays", "target");
    if (fault_at(&given, 40).reason != OMF_CUT) fail("arrays", "cut");
}

static void starts(void) {
    struct omf_start out[2], before[2];
    const uint8_t *text = (const uint8_t *)placement;
    memset(out, 7, sizeof out);
    memset(before, 7, sizeof before);
    if (!has(omf_start(placed, sizeof placed, text, strlen(placement), false, out, 0), OMF_ROOM, 1) || memcmp(out, before, sizeof out) != 0) fail("start", "no room");
    before[0].selector = 0x1000;
    before[0].offset = 0x22;
    if (!has(omf_start(placed, sizeof placed, text, strlen(placement), false, out, 2), OMF_DONE, 1) || memcmp(out, before, sizeof out) != 0) fail("start", "another one");
    if (!has(omf_start(placed, 11, NULL, 0, false, out, 2), OMF_REFUSED, 0) && memcmp(out, before, sizeof out) != 0) fail("start", "cut");
    static const uint8_t none[] = {0x80, 0x03, 0x00, 0x01, 0x41, 0x00, 0x8A, 0x02, 0x00, 0x00, 0x00};
    if (!has(omf_start(none, sizeof none, NULL, 0, false, out, 2), OMF_DONE, 0)) fail("start", "none");
    memset(out, 7, sizeof out);
    if (!has(omf_start_at(placed, sizeof placed, &arrays, false, out, 0), OMF_ROOM, 1)) fail("start", "no room, by arrays");
    if (!has(omf_start_at(placed, sizeof placed, &arrays, false, out, 2), OMF_DONE, 1) || memcmp(out, before, sizeof out) != 0) fail("start", "another one, by arrays");
    struct omf_answer is;
    long n = 0;
    do {
        refused_from = n++;
        allocations = 0;
        is = omf_start_at(placed, sizeof placed, &arrays, false, out, 2);
        refused_from = -1;
    } while (has(is, OMF_MEMORY, 0));
    if (n < 3 || !has(is, OMF_DONE, 1)) fail("start", "refused allocations, by arrays");
}

/* The image of an LIDATA and an LEDATA, and a start by an external: 7 bytes after 10030H, in the frame 1000H. */
static void repeats(void) {
    static const struct omf_place segment[] = {{0x10020, 0x10000, 0x1000, 0}}, external[] = {{0x10030, 0x10000, 0x1000, 0}};
    static const struct omf_run wanted_runs[] = {{3, 1, 4}, {6, 1, 8}};
    static const uint8_t wanted[] = {0x11, 0x22, 0x33, 0xAA, 0xBB, 0xAA, 0xBB, 0xAA, 0xBB};
    static const struct omf_placement given = {segment, 1, NULL, 0, external, 1};
    struct omf_run runs[2];
    uint8_t out[9];
    struct omf_start start[1];
    memset(start, 7, sizeof start);
    const struct omf_answer is = omf_image_at(parts, sizeof parts, &given, false, runs, 2, out, 9);
    if (is.status != OMF_DONE || is.size != 9 || is.record_count != 2) fail("repeats", "another answer");
    if (memcmp(runs, wanted_runs, sizeof runs) != 0 || memcmp(out, wanted, sizeof out) != 0) fail("repeats", "other bytes");
    if (!has(omf_start_at(parts, sizeof parts, &given, false, start, 1), OMF_DONE, 1) || start[0].selector != 0x1000 || start[0].offset != 0x37) fail("repeats", "another start");
}

/* A library with pages of 16 bytes and a dictionary of one block: hello.c with the public _hello from 16 on, gets.asm with _gets and _getc from
 * 64 on. */
static const uint8_t members_of_library[] = {
    0xF0, 0x0D, 0x00, 0x00, 0x02, 0x00, 0x00, 0x01, 0x00, 0x01, 0x00, 0x00, 0x00, 0x00, 0x00, 0x00,                   /* header */
    0x80, 0x09, 0x00, 0x07, 0x68, 0x65, 0x6C, 0x6C, 0x6F, 0x2E, 0x63, 0xCB,                                           /* 16 THEADR */
    0x90, 0x0F, 0x00, 0x00, 0x00, 0x00, 0x00, 0x06, 0x5F, 0x68, 0x65, 0x6C, 0x6C, 0x6F, 0x00, 0x00, 0x00, 0xE8,       /* PUBDEF */
    0x8A, 0x02, 0x00, 0x00, 0x74, 0, 0, 0, 0, 0, 0, 0, 0, 0, 0, 0, 0, 0,                                              /* MODEND */
    0x80, 0x0D, 0x00, 0x0B, 0x2E, 0x2E, 0x5C, 0x67, 0x65, 0x74, 0x73, 0x2E, 0x61, 0x73, 0x6D, 0x8E,                   /* 64 THEADR */
    0x90, 0x17, 0x00, 0x00, 0x00, 0x00, 0x00, 0x05, 0x5F, 0x67, 0x65, 0x74, 0x73, 0x00, 0x00, 0x00,                   /* PUBDEF */
    0x05, 0x5F, 0x67, 0x65, 0x74, 0x63, 0x10, 0x00, 0x00, 0x2B, 0x8A, 0x02, 0x00, 0x00, 0x74, 0x00, 0xF1, 0x8D, 0x01, /* MODEND, end */
};
static const uint8_t dictionary[] = {
    0x00, 0x00, 0x00, 0x00, 0x00, 0x13, 0x00, 0x00, 0x00, 0x00, 0x00, 0x00, 0x00, 0x00, 0x00, 0x00, 0x00, 0x00, 0x18, 0x00, /* buckets */
    0x00, 0x00, 0x00, 0x00, 0x00, 0x00, 0x00, 0x00, 0x00, 0x1C, 0x00, 0x00, 0x00, 0x00, 0x00, 0x00, 0x00, 0x20,
    0x06, 0x5F, 0x68, 0x65, 0x6C, 0x6C, 0x6F, 0x01, 0x00, 0x00,                                                             /* _hello, page 1 */
    0x05, 0x5F, 0x67, 0x65, 0x74, 0x73, 0x04, 0x00, 0x05, 0x5F, 0x67, 0x65, 0x74, 0x63, 0x04, 0x00,                         /* _gets, _getc */
};
static uint8_t library[1024];
static const struct omf_library_member library_members[] = {{16, 35}, {64, 47}};

static bool finds(const char *name, uint64_t offset) {
    const struct omf_answer is = omf_library_find(library, sizeof library, (const uint8_t *)name, strlen(name));
    return is.status == OMF_DONE && is.size == offset && is.record_count == (offset != 0);
}

static bool lacks(size_t length, uint32_t reason, uint64_t size, uint64_t count) {
    struct omf_library_member out[2];
    const struct omf_answer is = omf_library_members(library, length, false, out, 2);
    return is.status == OMF_NO_LIBRARY && is.reason == reason && is.size == size && is.record_count == count;
}

static void libraries(void) {
    struct omf_library_member out[3], before[3];
    struct omf_answer is;
    long n = 0;
    memcpy(library, members_of_library, sizeof members_of_library);
    memcpy(library + 512, dictionary, sizeof dictionary);
    memset(before, 7, sizeof before);
    for (size_t room = 0; room <= 3; room++) {
        memset(out, 7, sizeof out);
        is = omf_library_members(library, sizeof library, true, out, room);
        if (!has(is, room < 2 ? OMF_ROOM : OMF_DONE, 2)) fail("library", "another answer");
        if (room >= 2) memcpy(before, library_members, sizeof library_members);
        if (memcmp(out, before, sizeof out) != 0) fail("library", "other members");
    }
    do {
        refused_from = n++;
        allocations = 0;
        is = omf_library_members(library, sizeof library, false, out, 3);
        refused_from = -1;
    } while (has(is, OMF_MEMORY, 0));
    if (n < 2 || !has(is, OMF_DONE, 2)) fail("library", "refused allocations");
    if (!finds("_hello", 16) || !finds("_gets", 64) || !finds("_getc", 64) || !finds("_HELLO", 0) || !finds("", 0)) fail("library", "another member found");
    if (omf_library_find(library, 600, NULL, 0).reason != OMF_NO_DICTIONARY) fail("library", "a dictionary that is not there");
    if (!lacks(0, OMF_NO_LIBRARY_HEADER, 0, 0) || !lacks(15, OMF_LIBRARY_HEADER_CUT, 0, 0) || !lacks(112, OMF_NO_LIBRARY_END, 112, 2)) fail("library", "another fault");
    library[27] = 1;
    is = omf_library_members(library, sizeof library, false, out, 3);
    if (is.status != OMF_REFUSED || is.reason != OMF_CHECKSUM || is.size != 16 || is.record_count != 0 || is.number != 0 || is.start != 0) fail("library", "a member refused");
    library[1] = 0x0E;
    if (!lacks(sizeof library, OMF_PAGE_SIZE, 17, 0)) fail("library", "another page size");
}

/* A main module A with the segments T (4 bytes: mov ax, T and retf, with the selector of T at 1) and S (16 bytes without data), which is the stack
 * of a program; a start at offset 0 of T. */
static const uint8_t with_stack[] = {
    0x80, 0x03, 0x00, 0x01, 0x41, 0x3B, 0x96, 0x06, 0x00, 0x00, 0x01, 0x54, 0x01, 0x53, 0x00,                               /* THEADR, LNAMES */
    0x98, 0x07, 0x00, 0x28, 0x04, 0x00, 0x02, 0x01, 0x01, 0x00, 0x98, 0x07, 0x00, 0x74, 0x10, 0x00, 0x03, 0x01, 0x01, 0x00, /* SEGDEF, SEGDEF */
    0xA0, 0x08, 0x00, 0x01, 0x00, 0x00, 0xB8, 0x00, 0x00, 0xCB, 0x00, 0x9C, 0x05, 0x00, 0xC8, 0x01, 0x54, 0x01, 0x00,       /* LEDATA, FIXUPP */
    0x8A, 0x07, 0x00, 0xC1, 0x00, 0x01, 0x01, 0x00, 0x00, 0x00,                                                             /* MODEND */
};

/* A main module: mov bx, f in the segment T, where the offset of f counts from the frame of T. */
static const uint8_t framed[] = {
    0x80, 0x03, 0x00, 0x01, 0x41, 0x3B, 0x96, 0x04, 0x00, 0x00, 0x01, 0x54, 0x00, 0x98, 0x07, 0x00, 0x28, 0x03, 0x00, 0x02, 0x01, 0x01, 0x00, /* to SEGDEF */
    0x8C, 0x04, 0x00, 0x01, 0x66, 0x00, 0x00, 0xA0, 0x07, 0x00, 0x01, 0x00, 0x00, 0xBB, 0x00, 0x00, 0x00,                   /* 23 EXTDEF, LEDATA */
    0x9C, 0x06, 0x00, 0xC4, 0x01, 0x06, 0x01, 0x01, 0x00, 0x8A, 0x07, 0x00, 0xC1, 0x00, 0x01, 0x01, 0x00, 0x00, 0x00,       /* 40 FIXUPP, MODEND */
};

/* The public f at 0:1234H, in no segment. */
static const uint8_t absolute[] = {
    0x80, 0x03, 0x00, 0x01, 0x42, 0x00, 0x96, 0x04, 0x00, 0x00, 0x01, 0x54, 0x00,                               /* THEADR, LNAMES */
    0x90, 0x0A, 0x00, 0x00, 0x00, 0x00, 0x00, 0x01, 0x66, 0x34, 0x12, 0x00, 0x00, 0x8A, 0x02, 0x00, 0x00, 0x00, /* PUBDEF, MODEND */
};

/* The public f in a segment of one byte; and the same with a start at 0 and the byte CBH. */
static const uint8_t defines[] = {
    0x80, 0x03, 0x00, 0x01, 0x42, 0x00, 0x96, 0x04, 0x00, 0x00, 0x01, 0x54, 0x00, 0x98, 0x07, 0x00, 0x28, 0x01, 0x00, 0x02, 0x01, 0x01, 0x00, /* THEADR, LNAMES, SEGDEF */
    0x90, 0x08, 0x00, 0x00, 0x01, 0x01, 0x66, 0x00, 0x00, 0x00, 0x00, 0xA0, 0x05, 0x00, 0x01, 0x00, 0x00, 0x90, 0x00, /* PUBDEF, LEDATA */
    0x8A, 0x02, 0x00, 0x00, 0x00,                                                                                     /* MODEND */
};
static const uint8_t starts_f[] = {
    0x80, 0x03, 0x00, 0x01, 0x41, 0x00, 0x96, 0x04, 0x00, 0x00, 0x01, 0x54, 0x00, 0x98, 0x07, 0x00, 0x28, 0x01, 0x00, 0x02, 0x01, 0x01, 0x00, /* THEADR, LNAMES, SEGDEF */
    0x90, 0x08, 0x00, 0x00, 0x01, 0x01, 0x66, 0x00, 0x00, 0x00, 0x00, 0xA0, 0x05, 0x00, 0x01, 0x00, 0x00, 0xCB, 0x00, /* PUBDEF, LEDATA */
    0x8A, 0x07, 0x00, 0xC1, 0x00, 0x01, 0x01, 0x00, 0x00, 0x00,                                                       /* MODEND */
};

/* A 32-bit part of the segment T of one byte. */
static const uint8_t wide[] = {
    0x80, 0x03, 0x00, 0x01, 0x42, 0x00, 0x96, 0x04, 0x00, 0x00, 0x01, 0x54, 0x00, 0x98, 0x07, 0x00, 0x29, 0x01, 0x00, 0x02, 0x01, 0x01, 0x00, /* THEADR, LNAMES, SEGDEF */
    0xA0, 0x05, 0x00, 0x01, 0x00, 0x00, 0xC3, 0x00, 0x8A, 0x02, 0x00, 0x00, 0x00,                                      /* LEDATA, MODEND */
};

static const char addresses[] = "M \"A\"\nS \"T\" 7C00 real\nS \"S\" 7D00 real\n";
static const uint8_t memory[] = {0x90, 0x90, 0xB8, 0xC0, 0x07, 0xCB, 0x90, 0x90};
static const uint8_t program[] = {
    0x4D, 0x5A, 0x24, 0x00, 0x01, 0x00, 0x01, 0x00, 0x02, 0x00, 0x02, 0x00, 0xFF, 0xFF, 0x01, 0x00, 0x10, 0x00, 0x00, 0x00, 0x00, 0x00, /* header */
    0x00, 0x00, 0x1C, 0x00, 0x00, 0x00, 0x01, 0x00, 0x00, 0x00, 0xB8, 0x00, 0x00, 0xCB,                                     /* relocation, image */
};

static uint8_t input[256];
static size_t input_length;

/* Makes the input of two parts. */
static void joins(const void *first, size_t first_length, const void *second, size_t second_length) {
    memcpy(input, first, first_length);
    if (second_length) memcpy(input + first_length, second, second_length);
    input_length = first_length + second_length;
}

static const struct omf_program plain = {0, 0, false, false, false, false, false, false};

/* The program of the input as one file. */
static struct omf_answer program_of(const struct omf_program *asked, uint8_t *out, size_t room, uint8_t *lines, size_t line_room) {
    const struct omf_file file = {input, input_length, (const uint8_t *)"in.obj", 6};
    return omf_exe(&file, 1, asked, out, room, lines, line_room);
}

/* Links the input: the memory from an address on if there is one, or else the program. */
static struct omf_answer linked(uint32_t base, uint8_t *out, size_t room) {
    return base ? omf_link_image(input, input_length, base, 8, 0x90, out, room) : program_of(&plain, out, room, NULL, 0);
}

/* Makes the call with each room, and with each allocation refused. */
static void links(const char *name, uint32_t base, const uint8_t *wanted, size_t size) {
    struct omf_answer is;
    uint8_t before[64];
    long n = 0;
    for (size_t room = 0; room <= size + 1; room++) {
        uint8_t *out = (uint8_t *)malloc(room ? room : 1);
        if (!out) exit(2);
        memset(out, 7, room ? room : 1);
        memset(before, 7, sizeof before);
        if (!has(linked(base, out, room), room < size ? OMF_ROOM : OMF_DONE, size)) fail(name, "another answer");
        if (room >= size) memcpy(before, wanted, size);
        if (memcmp(out, before, room) != 0) fail(name, "other bytes");
        free(out);
    }
    memset(before, 7, sizeof before);
    do {
        uint8_t out[64];
        memset(out, 7, sizeof out);
        refused_from = n++;
        allocations = 0;
        is = linked(base, out, sizeof out);
        refused_from = -1;
        if (is.status == OMF_MEMORY && !(has(is, OMF_MEMORY, 0) && memcmp(out, before, sizeof out) == 0)) fail(name, "memory");
    } while (is.status == OMF_MEMORY);
    if (n < 2 || !has(is, OMF_DONE, size)) fail(name, "refused allocations");
}

/* Whether the call has this answer and leaves the buffer as it is. */
static bool unlinked(uint32_t base, struct omf_answer wanted) {
    uint8_t out[64], before[64];
    memset(out, 7, sizeof out);
    memset(before, 7, sizeof before);
    const struct omf_answer is = linked(base, out, sizeof out);
    return is.status == wanted.status && is.reason == wanted.reason && is.kind == wanted.kind && is.index == wanted.index && is.number == wanted.number
        && is.within == wanted.within && is.start == wanted.start && is.line == wanted.line && is.size == wanted.size
        && is.record_count == wanted.record_count && memcmp(out, before, sizeof out) == 0;
}

/* An answer: status, reason, kind, index, number, within, start, line, size, record_count. */
static struct omf_answer answer(uint32_t status, uint32_t reason, uint32_t kind, uint32_t index, uint32_t number, uint32_t within, uint64_t start,
                                uint64_t line, uint64_t size, uint64_t record_count) {
    const struct omf_answer is = {status, reason, kind, index, number, within, start, line, size, record_count};
    return is;
}

static void memories(void) {
    static const char unknown[] = "M \"A\"\nS \"U\" 7C00 real\n", one[] = "M \"A\"\nS \"T\" 7C00 real\n";
    static const uint8_t other[] = {0x01};
    joins(with_stack, sizeof with_stack, addresses, strlen(addresses));
    links("link", 0x7BFE, memory, sizeof memory);
    if (!unlinked(0x7C01, answer(OMF_NOT_LINKED, OMF_OUTSIDE, 0, 1, 0, 0, 0x7C00, 0, 0, 0))) fail("link", "outside");
    input_length = 0;
    if (!unlinked(1, answer(OMF_REFUSED, OMF_NO_END, 0, 0, 0, 0, 0, 0, 0, 0))) fail("link", "no modules");
    joins(with_stack, sizeof with_stack, other, sizeof other);
    if (!unlinked(1, answer(OMF_NOT_LINKED, OMF_NO_TEXT, 0, 0, 0, 0, 0, 0, sizeof with_stack, 0))) fail("link", "no text");
    joins(with_stack, sizeof with_stack, unknown, strlen(unknown));
    if (!unlinked(1, answer(OMF_LINE, 3, 0, 0, 0, 0, 0, 2, 0, 0))) fail("link", "line");
    joins(with_stack, sizeof with_stack, one, strlen(one));
    if (!unlinked(1, answer(OMF_REACH, OMF_MISSING, OMF_SEGMENT, 2, 0, 0, 0, 0, 0, 0))) fail("link", "missing segment");
    joins(absolute, sizeof absolute, framed, sizeof framed - 8);
    if (!unlinked(1, answer(OMF_REFUSED, OMF_CUT, 0, 0, 6, 2, 49, 0, 0, 1))) fail("link", "cut");
}

/* The input makes no program: the lines of why have this text in them. They are handed out if they fit, and nothing else. */
static void no_program(const char *text) {
    uint8_t out[64], before[64], lines[256], line_before[256];
    memset(before, 7, sizeof before);
    memset(line_before, 7, sizeof line_before);
    memset(out, 7, sizeof out);
    memset(lines, 7, sizeof lines);
    struct omf_answer is = program_of(&plain, out, sizeof out, lines, sizeof lines);
    const uint64_t size = is.start;
    if (is.status != OMF_NOT_LINKED || is.reason != OMF_NO_PROGRAM || is.size != 0 || size == 0 || size >= sizeof lines) fail(text, "another answer");
    if (memcmp(out, before, sizeof out) != 0 || lines[size] != 7 || lines[size - 1] != '\n') fail(text, "a buffer");
    lines[size] = 0;
    if (!strstr((const char *)lines, text)) fail(text, (const char *)lines);
    memset(lines, 7, sizeof lines);
    is = program_of(&plain, out, sizeof out, lines, size - 1);
    if (is.reason != OMF_NO_PROGRAM || is.start != size || memcmp(lines, line_before, sizeof lines) != 0) fail(text, "lines that do not fit");
    long n = 0;
    do {
        refused_from = n++;
        allocations = 0;
        is = program_of(&plain, out, sizeof out, lines, sizeof lines);
        refused_from = -1;
    } while (has(is, OMF_MEMORY, 0));
    if (n < 2 || is.reason != OMF_NO_PROGRAM || is.start != size) fail(text, "refused allocations");
}

static void programs(void) {
    joins(with_stack, sizeof with_stack, NULL, 0);
    links("program", 0, program, sizeof program);
    joins(with_stack, sizeof with_stack, with_stack, sizeof with_stack);
    no_program("start");
    joins(framed, sizeof framed, absolute, sizeof absolute);
    no_program("in.obj");
    joins(framed, sizeof framed, NULL, 0);
    no_program("undefined \"f\"");
    joins(absolute, sizeof absolute, NULL, 0);
    no_program("start");
    joins(starts_f, sizeof starts_f, defines, sizeof defines);
    no_program("twice \"f\"");
    joins(starts_f, sizeof starts_f, wide, sizeof wide);
    no_program("mixed: ");
    joins(with_stack, sizeof with_stack, addresses, strlen(addresses));
    no_program("neither a module nor padding");
    joins(absolute, sizeof absolute, framed, sizeof framed - 8);
    no_program("Cut");
}

/* What is allowed is a program with lines, and both are handed out or none; and a program may have no stack. */
static void allowed(void) {
    static const struct omf_program twice = {0, 0, false, false, true, false, false, false};
    uint8_t out[64], lines[256], before[256];
    joins(starts_f, sizeof starts_f, defines, sizeof defines);
    memset(before, 7, sizeof before);
    memset(out, 7, sizeof out);
    memset(lines, 7, sizeof lines);
    struct omf_answer is = program_of(&twice, out, sizeof out, NULL, 0);
    const uint64_t size = is.size, told = is.start;
    if (is.status != OMF_ROOM || size == 0 || told == 0 || is.record_count != 1 || memcmp(out, before, sizeof out) != 0) fail("allowed", "no room for lines");
    is = program_of(&twice, out, size - 1, lines, sizeof lines);
    if (is.status != OMF_ROOM || is.size != size || is.start != told || memcmp(lines, before, sizeof lines) != 0) fail("allowed", "no room for the program");
    is = program_of(&twice, out, size, lines, told);
    if (is.status != OMF_DONE || is.size != size || is.start != told || out[0] != 'M' || out[size] != 7 || lines[told] != 7) fail("allowed", "another answer");
    if (memcmp(lines, "twice \"f\"", 9) != 0) fail("allowed", "other lines");
    if (omf_exe(NULL, 0, &plain, NULL, 0, NULL, 0).reason != OMF_NO_PROGRAM) fail("allowed", "no files");
}

/* Parts of 16 and 32 bits that are allowed are the program CBH C3H, with their line. */
static void mixed(void) {
    static const struct omf_program asked = {0, 0, false, false, false, false, false, true};
    uint8_t out[64], lines[256];
    joins(starts_f, sizeof starts_f, wide, sizeof wide);
    const struct omf_answer is = program_of(&asked, out, sizeof out, lines, sizeof lines);
    if (is.status != OMF_DONE || is.size < 2 || out[is.size - 2] != 0xCB || out[is.size - 1] != 0xC3) fail("mixed", "another program");
    if (is.start < 7 || memcmp(lines, "mixed: ", 7) != 0) fail("mixed", "other lines");
}

int main(void) {
    images(placement);
    images(NULL);
    image_memory(placement);
    image_memory(NULL);
    image_faults();
    array_faults();
    data_bytes();
    records();
    headers();
    comments();
    data_records();
    start_reference();
    no_start_reference();
    starts();
    repeats();
    segments();
    groups();
    members();
    externals();
    publics();
    fixups();
    other_segments();
    other_publics();
    other_fixups();
    libraries();
    memories();
    programs();
    allowed();
    mixed();
    if (omf_groups(others, sizeof others, false, NULL, 0).status != OMF_DONE) fail("no groups", "another answer");
    if (failures == 0) printf("every table has its rows, every image and every link its bytes\n");
    return failures > 0;
}
