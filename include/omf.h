/* omf.h - checks, lists and relocates object modules in OMF (TIS OMF 1.1), makes their canonical bytes, links them, and reads libraries of them.
 *
 * The functions are written in Rattle, which is Rust with contracts. What this file states about results and about the buffer `out` is
 * proved, with one exception, which is tested: that OMF_MEMORY is returned only if memory ran out. The caller keeps to C's rules: each
 * pointer is valid for the length that follows it, in bytes (with length 0 it may be NULL), and the buffer `out` overlaps no other
 * argument. The functions keep no state between calls, so any number of threads may call them at once. Memory comes from malloc and is
 * freed before a call returns. The only memory of the caller that is written is `out`.
 *
 * Link with -lomf.
 */
#ifndef OMF_H
#define OMF_H

#include <stdbool.h>
#include <stddef.h>
#include <stdint.h>

#ifdef __cplusplus
extern "C" {
#endif

/* The version of this header. omf_version() returns that of the library. Calls and fields are only added: a program that was compiled with
 * an older header runs with a newer library. */
#define OMF_VERSION "1.0.0"
#define OMF_VERSION_NUMBER 10000 /* 10,000 for the first number, 100 for the second, 1 for the third */

uint32_t omf_version(void);

/* The statuses. The program omf uses 2 and 3 for failed input and output, which cannot occur here. */
enum omf_status {
    OMF_DONE = 0,      /* done; the first `size` bytes or rows of `out` are the text or the table */
    OMF_MEMORY = 1,    /* out of memory */
    OMF_REFUSED = 4,   /* the bytes do not begin with a well-formed module: `reason`, `number`, `start`, `within` */
    OMF_LINE = 5,      /* line `line` of the placement is no entry, or it asks for the frame of a group that has none */
    OMF_TOO_LONG = 6,  /* the placement has more than 4,194,304 bytes */
    OMF_REACH = 7,     /* the placement does not reach: `reason`, an enum omf_reach */
    OMF_ROOM = 8,      /* the text or the table does not fit `out`, which is unchanged; `size` is the size needed, in bytes or rows */
    OMF_NO_LIBRARY = 9, /* the bytes are no library: `reason`, an enum omf_no_library */
    OMF_NOT_LINKED = 10 /* the modules are not linked: `reason`, an enum omf_not_linked */
};

/* `reason` at OMF_REACH: the first of these that applies. */
enum omf_reach {
    OMF_MISSING = 1,   /* entry `index` of kind `kind` is missing */
    OMF_EXTRA = 2,     /* the module has no `index` of kind `kind`, but the placement has */
    OMF_ABSOLUTE = 3,  /* absolute segment `index` is not placed where its SEGDEF says */
    OMF_TOO_FAR = 4    /* the fixup, or the start, at offset `within` of record `number` does not reach: `kind`, an enum omf_cause */
};

/* `reason` at OMF_NO_LIBRARY: the first of these that applies. */
enum omf_no_library {
    OMF_NO_LIBRARY_HEADER = 1,  /* the bytes do not begin with F0H */
    OMF_LIBRARY_HEADER_CUT = 2, /* the bytes end in the header */
    OMF_PAGE_SIZE = 3,          /* the header's length, in `size`, is no page size: a power of two from 16 to 32,768 */
    OMF_NO_LIBRARY_END = 4,     /* the bytes end at `size`, after `record_count` members, where a member or F1H must begin */
    OMF_NO_DICTIONARY = 5       /* omf_library_find: the dictionary is not in the bytes */
};

/* `reason` at OMF_NOT_LINKED. Modules count from 0; `record_count` is the module, and `index` the segment or the external, from 1. */
enum omf_not_linked {
    OMF_NO_TEXT = 1,       /* what follows the modules from offset `size` on is no module and no text */
    OMF_NO_MODULES = 2,    /* there is no module */
    OMF_UNDEFINED = 3,     /* no module has a public of the external's name */
    OMF_TWICE = 4,         /* two have */
    OMF_PUBLIC_HIGH = 5,   /* its address is 2^32 or more */
    OMF_STARTS = 6,        /* two main modules name a start: `record_count` and `size` */
    OMF_BEYOND = 7,        /* a segment has a byte beyond the last address */
    OMF_OVERLAP = 8,       /* two segments have a byte at address `start`: that of `record_count`, `index`, and segment `within` of module `number` */
    OMF_OUTSIDE = 9,       /* a byte is at address `start`, which is not one of those asked for; `index` is 0 if no segment has it */
    OMF_HIGH = 10,         /* the program does not end below 2^20 */
    OMF_NO_PROGRAM = 11    /* omf_exe: the lines of why, of `start` bytes, are in its last buffer if they fit */
};

/* A kind: `kind` at OMF_MISSING and OMF_EXTRA, and a frame or target method of a fixup and of a start. The last two are frame methods alone: the frame of
 * the location's segment, and of the target. */
enum omf_kind { OMF_SEGMENT = 0, OMF_GROUP = 1, OMF_EXTERNAL = 2, OMF_OF_LOCATION = 4, OMF_OF_TARGET = 5 };

/* `kind` at OMF_TOO_FAR: the target, or the location of a self-relative fixup, is outside the offsets of the frame; or a short jump is
 * too long. */
enum omf_cause { OMF_TARGET = 1, OMF_LOCATION = 2, OMF_DISTANCE = 3 };

/* `reason` at OMF_REFUSED. docs/REASONS.md explains each. */
enum omf_reason {
    OMF_NO_END = 1, OMF_CUT, OMF_UNKNOWN_TYPE, OMF_UNSUPPORTED_TYPE, OMF_EMPTY_RECORD, OMF_CHECKSUM, OMF_NO_HEADER, OMF_SHORT, OMF_LONG,
    OMF_ALIGNMENT, OMF_BIG_LENGTH, OMF_GROUP_COMPONENT, OMF_COMMUNAL_TYPE, OMF_COMMUNAL_LENGTH, OMF_FRAME_METHOD, OMF_TARGET_METHOD,
    OMF_LOCATION_TYPE, OMF_SELF_RELATIVE, OMF_TOO_DEEP, OMF_DATA_TOO_LONG, OMF_UNDEFINED_NAME, OMF_UNDEFINED_SEGMENT,
    OMF_UNDEFINED_GROUP, OMF_UNDEFINED_EXTERNAL, OMF_UNDEFINED_THREAD, OMF_OUTSIDE_SEGMENT, OMF_OUTSIDE_RECORD, OMF_NO_DATA_RECORD,
    OMF_FIXUP_ON_ITERATED, OMF_TOO_MANY, OMF_OTHER_DIALECT, OMF_VENDOR_COMMENT, OMF_START_FRAME
};

/* The result of a call. A field is 0 unless it is described for the status. */
struct omf_answer {
    uint32_t status;       /* an enum omf_status */
    uint32_t reason;       /* OMF_REFUSED: an enum omf_reason; OMF_REACH: an enum omf_reach; OMF_NO_LIBRARY: an enum omf_no_library; OMF_NOT_LINKED: an
                              enum omf_not_linked */
    uint32_t kind;         /* OMF_MISSING, OMF_EXTRA: an enum omf_kind; OMF_TOO_FAR: an enum omf_cause */
    uint32_t index;        /* OMF_MISSING, OMF_EXTRA, OMF_ABSOLUTE: the index, from 1 */
    uint32_t number;       /* OMF_REFUSED, OMF_TOO_FAR: the number of the record, from 0 */
    uint32_t within;       /* the same: the offset in the record, whose type byte is at 0; at OMF_NO_END and OMF_CUT, the number of its bytes present */
    uint64_t start;        /* OMF_REFUSED: the record's offset in `bytes` */
    uint64_t line;         /* OMF_LINE: the number of the line, from 1 */
    uint64_t size;         /* OMF_DONE, OMF_ROOM: the size of the text in bytes, or the number of rows; omf_check at OMF_DONE: the size of the
                              module; a library's members and faults: omf_library_members, omf_library_find */
    uint64_t record_count; /* omf_check at OMF_DONE: the number of records in the module; omf_image at OMF_DONE, OMF_ROOM: that of runs; of
                              libraries as with `size` */
};

/* Each call but those for libraries and links reads the module at the start of `bytes`; bytes after its MODEND are ignored. With
 * `refuse_vendor_comments`, comments of the classes C0H to FFH are refused. `out` has a size of `room` bytes. At OMF_DONE the whole text is at its start and the bytes after the text
 * are unchanged; at every other status all of `out` is unchanged. A text is not followed by a zero byte. To find the size needed, call with
 * `room` 0: OMF_ROOM returns it in `size`. */

/* Checks that the bytes begin with a well-formed module. Returns OMF_DONE, OMF_REFUSED or OMF_MEMORY. */
struct omf_answer omf_check(const uint8_t *bytes, size_t length, bool refuse_vendor_comments);

/* Lists the module's records, segments, groups, externals and publics, in lines, as `omf list` prints them. Returns OMF_DONE, OMF_REFUSED,
 * OMF_ROOM or OMF_MEMORY. */
struct omf_answer omf_list(const uint8_t *bytes, size_t length, bool refuse_vendor_comments, uint8_t *out, size_t room);

/* Relocates the module at the placement that a text gives, and lists the covered bytes of each segment and the start, in lines, as
 * `omf reloc` prints them. README.md describes the placement text. Returns OMF_DONE, OMF_REFUSED, OMF_TOO_LONG, OMF_LINE, OMF_REACH,
 * OMF_ROOM or OMF_MEMORY. */
struct omf_answer omf_reloc(const uint8_t *bytes, size_t length, const uint8_t *placement, size_t placement_length,
                            bool refuse_vendor_comments, uint8_t *out, size_t room);

/* Makes the module's canonical bytes. They are the same for all modules that differ only in encodings, checksums, threads or the division
 * of fixups into FIXUPPs. Returns OMF_DONE, OMF_REFUSED, OMF_ROOM or OMF_MEMORY. */
struct omf_answer omf_canon(const uint8_t *bytes, size_t length, bool refuse_vendor_comments, uint8_t *out, size_t room);

/* The tables of a module. Each call fills `out`, an array of `room` rows, and returns the number of rows in `size`. As with a text, all rows
 * are handed out or none: at OMF_ROOM and at every fault the whole array is unchanged, and at OMF_ROOM `size` is the number needed. Each
 * returns OMF_DONE, OMF_REFUSED, OMF_ROOM or OMF_MEMORY. Indices count from 1, as in the records; the entry with index i is in row i - 1, and
 * an index of 0 is none. Names are in the module's own bytes, and may have any bytes. */

/* Where a name is: `size` bytes, 0 to 255, at bytes + `offset`. An offset of 0 is no name. */
struct omf_name {
    uint64_t offset;
    uint64_t size;
};

/* Where bytes are: `size` bytes at bytes + `offset`. */
struct omf_span {
    uint64_t offset;
    uint64_t size;
};

/* A record, in file order: the one with number n is in row n. */
struct omf_record {
    struct omf_span bytes; /* its type, length, contents and checksum */
    uint32_t type_byte;    /* 80H is a THEADR, 8AH and 8BH a MODEND */
    uint32_t number;       /* from 0 */
};

/* A header. The first is the module's, with its name; a module may have others. */
struct omf_header {
    struct omf_name name;
    uint32_t type_byte;    /* 80H is a THEADR, 82H an LHEADR */
    uint32_t number;       /* of its record, from 0 */
};

/* A comment (COMENT), in file order. */
struct omf_comment {
    struct omf_span text;  /* the bytes after the class */
    uint32_t class_byte;   /* the comment class: 9FH is a library to search, A0H an OMF extension */
    uint32_t flags;        /* the comment type: 80H is no purge, 40H is no list */
    uint32_t number;       /* of its record, from 0 */
    uint32_t unused;       /* 0 */
};

/* A data record (LEDATA, LIDATA), in file order, before relocation. */
struct omf_data {
    struct omf_span stored; /* the data of an LEDATA; the repeated blocks of an LIDATA, which omf_data_bytes expands */
    uint64_t size;         /* of its data in bytes; those that the blocks of an LIDATA expand to */
    uint32_t offset;       /* of its first byte in `segment`, in bytes */
    uint32_t segment;      /* an index */
    uint32_t type_byte;    /* A0H and A1H are an LEDATA, A2H and A3H an LIDATA; the odd ones have fields of 32 bits */
    uint32_t number;       /* of its record, from 0 */
};

/* A segment (SEGDEF). */
struct omf_segment {
    struct omf_name name;
    struct omf_name class_name;
    struct omf_name overlay_name;
    uint64_t size;         /* in bytes, 0 to 2^32 */
    uint32_t align;        /* the A field: 0 absolute, 1 byte, 2 word, 3 paragraph, 4 page, 5 double word */
    uint32_t combine;      /* the C field: 0 private, 2, 4 and 7 public, 5 stack, 6 common */
    uint32_t bits;         /* 16, or 32 with Use32 */
    uint32_t is_absolute;  /* 1 or 0 */
    uint32_t frame;        /* absolute: the number of its frame */
    uint32_t frame_offset; /* absolute: its offset in the frame, in bytes, 0 to 255 */
};

/* A group (GRPDEF), and a member of one. The members of all groups are in one table, group after group. */
struct omf_group {
    struct omf_name name;
    uint64_t members;      /* how many */
};
struct omf_member {
    uint32_t segment;      /* an index */
};

/* An external name (EXTDEF, COMDEF, LEXTDEF, LCOMDEF). */
struct omf_external {
    struct omf_name name;
    uint32_t type_index;
    uint32_t is_local;     /* 1: of a LEXTDEF or an LCOMDEF */
    uint32_t communal;     /* 0 no communal, 1 near, 2 far */
    uint32_t elements;     /* a communal: the number of elements, 1 if it is near */
    uint32_t element_size; /* a communal: the size of an element in bytes */
    uint32_t unused;       /* 0 */
};

/* A public name (PUBDEF, LPUBDEF), in file order. */
struct omf_public {
    struct omf_name name;
    uint32_t offset;       /* in bytes, in `segment`, or in the frame `frame` if `segment` is 0 */
    uint32_t segment;      /* an index, or 0 */
    uint32_t group;        /* an index, or 0 */
    uint32_t frame;        /* the number of the base frame if `segment` is 0 */
    uint32_t type_index;
    uint32_t is_local;     /* 1: of an LPUBDEF */
};

/* A fixup (FIXUPP), in file order, with its threads resolved. */
struct omf_fixup {
    uint64_t offset;       /* of the first byte of its location in `segment`, in bytes */
    uint32_t segment;      /* an index: the segment of the LEDATA that it changes */
    uint32_t location;     /* the LOCATION field: 0 low byte, 1 offset of 16 bits, 2 base, 3 pointer of 16:16 bits, 4 high byte, 5 loader
                              offset of 16 bits, 9 offset of 32 bits, 11 pointer of 16:32 bits, 13 loader offset of 32 bits */
    uint32_t size;         /* of the location in bytes: 1, 2, 4 or 6 */
    uint32_t is_self_relative;
    uint32_t frame_method; /* an enum omf_kind */
    uint32_t frame_index;  /* of the segment, group or external; 0 with OMF_OF_LOCATION and OMF_OF_TARGET */
    uint32_t target_method; /* an enum omf_kind */
    uint32_t target_index;
    uint32_t displacement; /* in bytes; 0 if the FIXUP has none */
    uint32_t bits;         /* of the displacement's field: 16 or 32 */
    uint32_t number;       /* of its record, from 0 */
    uint32_t within;       /* the offset of its first byte in the record, whose type byte is at 0 */
};

/* The end of a module (MODEND), with its start before relocation: its threads are resolved. There is one row. */
struct omf_start_reference {
    uint32_t is_main;      /* 1: a main module */
    uint32_t has_start;    /* 1: it names a start; else each field up to `bits` is 0 */
    uint32_t frame_method; /* an enum omf_kind, but never OMF_OF_LOCATION */
    uint32_t frame_index;
    uint32_t target_method; /* an enum omf_kind */
    uint32_t target_index;
    uint32_t displacement; /* in bytes; 0 if the record has none */
    uint32_t bits;         /* of the displacement's field: 16 or 32 */
    uint32_t number;       /* of its record, from 0 */
    uint32_t within;       /* the offset of the start's first byte in the record, or 0 */
};

struct omf_answer omf_records(const uint8_t *bytes, size_t length, bool refuse_vendor_comments, struct omf_record *out, size_t room);
struct omf_answer omf_headers(const uint8_t *bytes, size_t length, bool refuse_vendor_comments, struct omf_header *out, size_t room);
struct omf_answer omf_comments(const uint8_t *bytes, size_t length, bool refuse_vendor_comments, struct omf_comment *out, size_t room);
struct omf_answer omf_data(const uint8_t *bytes, size_t length, bool refuse_vendor_comments, struct omf_data *out, size_t room);
struct omf_answer omf_start_reference(const uint8_t *bytes, size_t length, bool refuse_vendor_comments, struct omf_start_reference *out, size_t room);
struct omf_answer omf_segments(const uint8_t *bytes, size_t length, bool refuse_vendor_comments, struct omf_segment *out, size_t room);
struct omf_answer omf_groups(const uint8_t *bytes, size_t length, bool refuse_vendor_comments, struct omf_group *out, size_t room);
struct omf_answer omf_group_members(const uint8_t *bytes, size_t length, bool refuse_vendor_comments, struct omf_member *out, size_t room);
struct omf_answer omf_externals(const uint8_t *bytes, size_t length, bool refuse_vendor_comments, struct omf_external *out, size_t room);
struct omf_answer omf_publics(const uint8_t *bytes, size_t length, bool refuse_vendor_comments, struct omf_public *out, size_t room);
struct omf_answer omf_fixups(const uint8_t *bytes, size_t length, bool refuse_vendor_comments, struct omf_fixup *out, size_t room);

/* The bytes of the data record with this number, before relocation: the data of an LEDATA, or what the blocks of an LIDATA expand to. Nothing if that
 * record is no data record, or if there is none. Returns OMF_DONE, OMF_REFUSED, OMF_ROOM or OMF_MEMORY. */
struct omf_answer omf_data_bytes(const uint8_t *bytes, size_t length, bool refuse_vendor_comments, uint32_t number, uint8_t *out, size_t room);

/* A run of bytes of a relocated segment. No byte next to it is covered. */
struct omf_run {
    uint64_t size;         /* in bytes */
    uint32_t segment;      /* an index */
    uint32_t offset;       /* of its first byte in the segment, in bytes */
};

/* Relocates the module as omf_reloc does. At OMF_DONE the runs of its image are at the start of `runs`, an array of `run_room` rows, by
 * segment and in rising order; and the bytes of all runs, one after another, are at the start of `out`. `size` is the number of bytes, and
 * `record_count` the number of runs. If the runs or the bytes do not fit, OMF_ROOM has both numbers, and both buffers are unchanged. Returns
 * OMF_DONE, OMF_REFUSED, OMF_TOO_LONG, OMF_LINE, OMF_REACH, OMF_ROOM or OMF_MEMORY. */
struct omf_answer omf_image(const uint8_t *bytes, size_t length, const uint8_t *placement, size_t placement_length,
                            bool refuse_vendor_comments, struct omf_run *runs, size_t run_room, uint8_t *out, size_t room);

/* The start address of the module relocated as omf_reloc does it: a table of one row, or of none if its MODEND names no start. */
struct omf_start {
    uint32_t selector;     /* of the frame */
    uint32_t offset;       /* in the frame, in bytes */
};
struct omf_answer omf_start(const uint8_t *bytes, size_t length, const uint8_t *placement, size_t placement_length,
                            bool refuse_vendor_comments, struct omf_start *out, size_t room);

/* A placement as arrays: the entry for index i is in row i - 1. With no rows, a pointer may be NULL. */

/* The place of a segment or an external: its address, and the frame that it is addressed by. */
struct omf_place {
    uint32_t address;
    uint32_t base;         /* the address of the frame's first byte: 16 times the selector in real mode */
    uint16_t selector;
    uint16_t unused;       /* not read */
};

/* The frame of a group. */
struct omf_frame {
    uint32_t base;
    uint16_t selector;
    uint16_t unused;       /* not read */
};

struct omf_placement {
    const struct omf_place *segments;
    size_t segment_count;
    const struct omf_frame *groups;
    size_t group_count;
    const struct omf_place *externals;
    size_t external_count;
};

/* omf_image and omf_start at such a placement, with the same results. They return OMF_DONE, OMF_REFUSED, OMF_REACH, OMF_ROOM or OMF_MEMORY. */
struct omf_answer omf_image_at(const uint8_t *bytes, size_t length, const struct omf_placement *placement, bool refuse_vendor_comments,
                               struct omf_run *runs, size_t run_room, uint8_t *out, size_t room);
struct omf_answer omf_start_at(const uint8_t *bytes, size_t length, const struct omf_placement *placement, bool refuse_vendor_comments,
                               struct omf_start *out, size_t room);

/* A library of modules (TIS OMF 1.1, appendix 2), as omf-lib and LIB make them. The calls read all of `bytes`. */

/* A member. It is a well-formed module, of `size` bytes at bytes + `offset`. */
struct omf_library_member {
    uint64_t offset;       /* in bytes from the start of the library; a multiple of the page size */
    uint64_t size;         /* in bytes */
};

/* The table of the members, in order. Returns OMF_DONE, OMF_NO_LIBRARY, OMF_REFUSED, OMF_ROOM or OMF_MEMORY. At OMF_REFUSED a member is not well
 * formed: `size` is its offset in the library and `record_count` the number of members before it; `reason`, `number`, `start` and `within` are
 * those of omf_check on the bytes from there on. */
struct omf_answer omf_library_members(const uint8_t *bytes, size_t length, bool refuse_vendor_comments, struct omf_library_member *out, size_t room);

/* Looks up a name in the library's dictionary, wherever its hash is. Returns OMF_DONE: `record_count` is 1 and `size` the offset of the member that
 * the first entry of the name points to, or both are 0 if the name has no entry; or OMF_NO_LIBRARY. A damaged dictionary may point to an offset that
 * is no member's: compare it with the table. */
struct omf_answer omf_library_find(const uint8_t *bytes, size_t length, const uint8_t *name, size_t name_length);

/* Links modules. `input` has them one after another, each with padding after it (bytes of one value, 00H or 1AH) or none, and after them the text
 * with their addresses, by names (docs/ADDRESSES.md). Hands out the memory of `size` addresses from `base` on, `fill` where the modules have no byte.
 * Returns OMF_DONE, OMF_NOT_LINKED, OMF_ROOM, OMF_MEMORY; OMF_REFUSED or OMF_REACH with the module in `record_count`; or OMF_LINE with `line` and in
 * `reason` why: 1 not understood, 2 no M line before it, 3 names nothing, 4 names more than one, 5 a second line for the same, 6 no line before
 * it gives the frame, 7 no C or P line before it, 8 no room. */
struct omf_answer omf_link_image(const uint8_t *input, size_t length, uint32_t base, uint32_t size, uint8_t fill, uint8_t *out, size_t room);

/* A file of a program: modules one after another, or a library (its first byte is F0H), of which the members take part that are needed. The lines of
 * a fault show its name. */
struct omf_file {
    const uint8_t *bytes;
    size_t length;
    const uint8_t *name;
    size_t name_length;
};

/* What is asked of a program, as by the options of `omf-link exe`. All of it 0 is an .EXE file with none of them. */
struct omf_program {
    uint16_t stack;       /* --stack: the bytes of the stack, 1 to 65,534; 0 for as many as the modules' own */
    uint16_t order;       /* --order: 1 dos, 2 input; any other number: DOS order if a module asks for it */
    bool is_com;          /* a .COM file, as of `omf-link com` */
    bool ignore_case;     /* --ignore-case */
    bool allow_twice;     /* --allow twice, group, near, mixed: what is found is no fault, and its line is in `lines` */
    bool allow_group;
    bool allow_near;
    bool allow_mixed;
};

/* Makes a DOS program of files, exactly as `omf-link exe` and `com` do (docs/DOS.md): communals, needed members and looks with it. Default libraries are
 * not looked for: give them as files. At OMF_DONE the program is at the start of `out`, `size` its size; the lines of what is found and allowed are at
 * the start of `lines`, `start` their size; `record_count` is 1 if an .EXE file has no stack. If either does not fit, OMF_ROOM has the same numbers, and
 * both buffers are unchanged. If there is no program, the answer is OMF_NOT_LINKED with OMF_NO_PROGRAM: the lines that `omf-link` prints then are at the
 * start of `lines`, `start` is their size; if they do not fit, `lines` is unchanged. Returns OMF_MEMORY if memory ran out. */
struct omf_answer omf_exe(const struct omf_file *files, size_t file_count, const struct omf_program *asked, uint8_t *out, size_t room, uint8_t *lines,
                          size_t line_room);

/* The name and the sentence of a reason, 1 to 33, as `Cut` and `the input ends inside a record`; nothing for any other number. They return
 * OMF_DONE or OMF_ROOM. */
struct omf_answer omf_reason_name(uint32_t reason, uint8_t *out, size_t room);
struct omf_answer omf_reason_sentence(uint32_t reason, uint8_t *out, size_t room);

/* The line that the programs print for the fault in `answer`, as `refused 2 Cut record 4 at 34 within 2`, without a line feed; nothing for
 * an answer that is OMF_DONE or OMF_ROOM. Returns OMF_DONE, OMF_ROOM or OMF_MEMORY. */
struct omf_answer omf_fault_line(const struct omf_answer *answer, uint8_t *out, size_t room);

#ifdef __cplusplus
}
#endif

#endif
