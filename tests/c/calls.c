/* Goes through every call of the library and every status: calls [check|list|canon|reloc FILE..]
 *
 * Without words it makes each call on modules that are written out below, and compares the whole answer and the whole buffer with what
 * is expected. With a job and files it prints for each file what the program would print for that job: run.sh compares the two. A buffer
 * is exactly as large as the room that is reported, so that valgrind sees a byte too many. */
#include <omf.h>
#include <stdio.h>
#include <stdlib.h>
#include <string.h>

static int failures;

static void expect(const char *what, struct omf_answer is, struct omf_answer wanted) {
    if (is.status != wanted.status || is.reason != wanted.reason || is.kind != wanted.kind || is.index != wanted.index
        || is.number != wanted.number || is.within != wanted.within || is.start != wanted.start || is.line != wanted.line
        || is.size != wanted.size || is.record_count != wanted.record_count) {
        printf("%s: status %u reason %u kind %u index %u number %u within %u start %llu line %llu size %llu records %llu\n", what, is.status,
               is.reason, is.kind, is.index, is.number, is.within, (unsigned long long)is.start, (unsigned long long)is.line,
               (unsigned long long)is.size, (unsigned long long)is.record_count);
        failures++;
    }
}

static void expect_bytes(const char *what, const uint8_t *is, const void *wanted, size_t length) {
    if (memcmp(is, wanted, length) != 0) {
        printf("%s: the buffer is not as expected\n", what);
        failures++;
    }
}

/* A header, a name T, a segment of 4 bytes, its data, a fixup of them, and the end. */
#define HEADER 0x80, 0x03, 0x00, 0x01, 0x41, 0x3B
#define NAMES 0x96, 0x04, 0x00, 0x00, 0x01, 0x54, 0x11
#define SEGMENT 0x98, 0x07, 0x00, 0x28, 0x04, 0x00, 0x02, 0x01, 0x01, 0x31
#define DATA 0xA0, 0x08, 0x00, 0x01, 0x00, 0x00, 0xB8, 0x00, 0x00, 0x90, 0x0F
#define LONG_DATA 0xA0, 0x09, 0x00, 0x80, 0x01, 0x00, 0x00, 0xB8, 0x00, 0x00, 0x90, 0x8E
#define FIXUP 0x9C, 0x06, 0x00, 0xC4, 0x01, 0x04, 0x01, 0x01, 0x93
#define END 0x8A, 0x02, 0x00, 0x00, 0x74

static const uint8_t first[] = {HEADER, NAMES, SEGMENT, DATA, FIXUP, END};
static const uint8_t spelled[] = {HEADER, NAMES, SEGMENT, LONG_DATA, FIXUP, END, 0xDE, 0xAD};
static const uint8_t vendor[] = {HEADER, 0x88, 0x03, 0x00, 0x00, 0xE9, 0x8C, END};

/* A short jump to an external, and a self-relative word. */
static const uint8_t jump[] = {HEADER, NAMES, SEGMENT, 0x8C, 0x04, 0x00, 0x01, 0x58, 0x00, 0x17, 0xA0, 0x08, 0x00, 0x01, 0x00, 0x00,
                               0xEB, 0x00, 0x00, 0x90, 0xDC, 0x9C, 0x06, 0x00, 0x80, 0x01, 0x06, 0x01, 0x01, 0xD5, END};
static const uint8_t self_relative[] = {HEADER, NAMES, SEGMENT, 0xA0, 0x08, 0x00, 0x01, 0x00, 0x00, 0xE8, 0x00, 0x00, 0x90, 0xDF,
                                        0x9C, 0x06, 0x00, 0x84, 0x01, 0x04, 0x01, 0x01, 0xD3, END};

/* An absolute segment at B800H:0000H. */
static const uint8_t absolute[] = {HEADER, NAMES, 0x98, 0x0A, 0x00, 0x08, 0x00, 0xB8, 0x00, 0x04, 0x00, 0x02, 0x01, 0x01, 0x96, END};

static const char listing[] = "R 0 00000000 80 2 THEADR\n"
                              "R 1 00000006 96 3 LNAMES\n"
                              "R 2 0000000D 98 6 SEGDEF\n"
                              "R 3 00000017 A0 7 LEDATA\n"
                              "R 4 00000022 9C 5 FIXUPP\n"
                              "R 5 0000002B 8A 1 MODEND\n"
                              "S 1 4 \"T\"\n";
static const char relocated[] = "0001:00000000 B8 20 00 90\n";

static struct omf_answer reloc(const uint8_t *bytes, size_t length, const char *placement, uint8_t *out, size_t room) {
    return omf_reloc(bytes, length, (const uint8_t *)placement, strlen(placement), false, out, room);
}

static void check_calls(void) {
    expect("check", omf_check(first, sizeof first, false), (struct omf_answer){.size = 48, .record_count = 6});
    expect("check: bytes after the module", omf_check(spelled, sizeof spelled, false), (struct omf_answer){.size = 49, .record_count = 6});
    expect("check: nothing", omf_check(NULL, 0, false), (struct omf_answer){.status = OMF_REFUSED, .reason = OMF_NO_END});
    expect("check: cut", omf_check(first, 36, false),
           (struct omf_answer){.status = OMF_REFUSED, .reason = OMF_CUT, .number = 4, .start = 34, .within = 2});
    expect("check: vendor", omf_check(vendor, sizeof vendor, false), (struct omf_answer){.size = 17, .record_count = 3});
    expect("check: vendor refused", omf_check(vendor, sizeof vendor, true),
           (struct omf_answer){.status = OMF_REFUSED, .reason = OMF_VENDOR_COMMENT, .number = 1, .start = 6, .within = 4});
}

/* Makes the call at no room, at one byte too few, at exactly the room and at ten bytes more. */
#define AT_EACH_ROOM(what, text, length, call)                                                                                  \
    do {                                                                                                                        \
        const size_t rooms[] = {0, (length)-1, (length), (length) + 10};                                                        \
        for (size_t i = 0; i < 4; i++) {                                                                                        \
            const size_t room = rooms[i];                                                                                       \
            uint8_t *out = malloc(room ? room : 1), *before = malloc(room ? room : 1);                                          \
            if (!out || !before) exit(2);                                                                                       \
            memset(out, 7, room ? room : 1);                                                                                    \
            memset(before, 7, room ? room : 1);                                                                                 \
            expect(what, call, (struct omf_answer){.status = room < (length) ? OMF_ROOM : OMF_DONE, .size = (length)});         \
            if (room >= (length)) memcpy(before, text, length);                                                                 \
            expect_bytes(what, out, before, room);                                                                              \
            free(out);                                                                                                          \
            free(before);                                                                                                       \
        }                                                                                                                       \
    } while (0)

static void text_calls(void) {
    AT_EACH_ROOM("list", listing, sizeof listing - 1, omf_list(first, sizeof first, false, out, room));
    AT_EACH_ROOM("reloc", relocated, sizeof relocated - 1, reloc(first, sizeof first, "S 10020 10000 1000", out, room));
    AT_EACH_ROOM("canon", first, sizeof first, omf_canon(spelled, sizeof spelled, false, out, room));
}

/* Each fault of each call leaves the buffer as it was. */
static void fault_calls(void) {
    uint8_t out[64], before[64];
    memset(out, 7, sizeof out);
    memset(before, 7, sizeof before);
    const struct omf_answer cut = {.status = OMF_REFUSED, .reason = OMF_CUT, .number = 4, .start = 34, .within = 2};
    expect("list: cut", omf_list(first, 36, false, out, sizeof out), cut);
    expect("canon: cut", omf_canon(first, 36, false, out, sizeof out), cut);
    expect("reloc: cut", reloc(first, 36, "S 10020 10000 1000", out, sizeof out), cut);
    expect("reloc: line", reloc(first, sizeof first, "\nS 100000 real\n", out, sizeof out), (struct omf_answer){.status = OMF_LINE, .line = 2});
    expect("reloc: missing segment", reloc(first, sizeof first, "", out, sizeof out),
           (struct omf_answer){.status = OMF_REACH, .reason = OMF_MISSING, .kind = OMF_SEGMENT, .index = 1});
    expect("reloc: missing external", reloc(jump, sizeof jump, "S 10020 10000 1000", out, sizeof out),
           (struct omf_answer){.status = OMF_REACH, .reason = OMF_MISSING, .kind = OMF_EXTERNAL, .index = 1});
    expect("reloc: extra group", reloc(first, sizeof first, "S 10020 10000 1000\nG 0 0", out, sizeof out),
           (struct omf_answer){.status = OMF_REACH, .reason = OMF_EXTRA, .kind = OMF_GROUP, .index = 1});
    expect("reloc: absolute", reloc(absolute, sizeof absolute, "S B8010 real", out, sizeof out),
           (struct omf_answer){.status = OMF_REACH, .reason = OMF_ABSOLUTE, .index = 1});
    expect("reloc: target", reloc(first, sizeof first, "S 20000 10000 1000", out, sizeof out),
           (struct omf_answer){.status = OMF_REACH, .reason = OMF_TOO_FAR, .kind = OMF_TARGET, .number = 4, .within = 3});
    expect("reloc: location", reloc(self_relative, sizeof self_relative, "S 1FFFF 10000 1000", out, sizeof out),
           (struct omf_answer){.status = OMF_REACH, .reason = OMF_TOO_FAR, .kind = OMF_LOCATION, .number = 4, .within = 3});
    expect("reloc: distance", reloc(jump, sizeof jump, "S 10020 10000 1000\nE 100A2 10000 1000", out, sizeof out),
           (struct omf_answer){.status = OMF_REACH, .reason = OMF_TOO_FAR, .kind = OMF_DISTANCE, .number = 5, .within = 3});
    static uint8_t lines[4194305];
    memset(lines, '\n', sizeof lines);
    expect("reloc: too long", omf_reloc(first, sizeof first, lines, sizeof lines, false, out, sizeof out), (struct omf_answer){.status = OMF_TOO_LONG});
    expect("reloc: not too long", omf_reloc(first, sizeof first, lines, sizeof lines - 1, false, out, sizeof out),
           (struct omf_answer){.status = OMF_REACH, .reason = OMF_MISSING, .kind = OMF_SEGMENT, .index = 1});
    expect_bytes("faults", out, before, sizeof out);
}

/* The linker sends the library's calls of malloc and realloc here (--wrap): the one of this number, from 0, is refused, and all after it. */
static long refused_from = -1, allocations;
void *__real_malloc(size_t size);
void *__real_realloc(void *at, size_t size);

static bool is_refused(void) { return refused_from >= 0 && allocations++ >= refused_from; }

void *__wrap_malloc(size_t size) { return is_refused() ? NULL : __real_malloc(size); }
void *__wrap_realloc(void *at, size_t size) { return is_refused() ? NULL : __real_realloc(at, size); }

/* Refuses each allocation of a call in turn: it answers OMF_MEMORY and leaves the buffer as it was, until it has all that it wants. */
#define AT_EACH_REFUSAL(what, done, call)                                                                                       \
    do {                                                                                                                        \
        struct omf_answer is = {.status = OMF_MEMORY};                                                                          \
        for (long n = 0; is.status == OMF_MEMORY; n++) {                                                                        \
            uint8_t out[512], before[512];                                                                                      \
            memset(out, 7, sizeof out);                                                                                         \
            memset(before, 7, sizeof before);                                                                                   \
            refused_from = n;                                                                                                   \
            allocations = 0;                                                                                                    \
            is = call;                                                                                                          \
            refused_from = -1;                                                                                                  \
            if (n == 0 || is.status == OMF_MEMORY) {                                                                            \
                expect(what, is, (struct omf_answer){.status = OMF_MEMORY});                                                    \
                expect_bytes(what, out, before, sizeof out);                                                                    \
            }                                                                                                                   \
            (void)out;                                                                                                          \
        }                                                                                                                       \
        expect(what, is, done);                                                                                                 \
    } while (0)

static void memory_calls(void) {
    AT_EACH_REFUSAL("check: memory", ((struct omf_answer){.size = 48, .record_count = 6}), omf_check(first, sizeof first, false));
    AT_EACH_REFUSAL("list: memory", (struct omf_answer){.size = sizeof listing - 1}, omf_list(first, sizeof first, false, out, sizeof out));
    AT_EACH_REFUSAL("reloc: memory", (struct omf_answer){.size = sizeof relocated - 1},
                    reloc(first, sizeof first, "S 10020 10000 1000", out, sizeof out));
    AT_EACH_REFUSAL("canon: memory", (struct omf_answer){.size = sizeof first}, omf_canon(spelled, sizeof spelled, false, out, sizeof out));
}

/* Answers, and the line that is handed out for each. */
static const struct {
    struct omf_answer is;
    const char *text;
} lines[] = {
    {{.status = OMF_MEMORY}, "memory"},
    {{.status = 2}, "read"},
    {{.status = 3}, "write"},
    {{.status = OMF_LINE, .line = 2}, "placement line 2"},
    {{.status = OMF_TOO_LONG}, "placement too long"},
    {{.status = OMF_REACH, .reason = OMF_MISSING, .kind = OMF_SEGMENT, .index = 1}, "reach 1 Missing segment 1"},
    {{.status = OMF_REACH, .reason = OMF_EXTRA, .kind = OMF_GROUP, .index = 3}, "reach 2 Extra group 3"},
    {{.status = OMF_REACH, .reason = OMF_ABSOLUTE, .index = 1}, "reach 3 Absolute 1"},
    {{.status = OMF_REACH, .reason = OMF_TOO_FAR, .kind = OMF_LOCATION, .number = 4, .within = 3}, "reach 4 TooFar Location record 4 within 3"},
};

static void reason_calls(void) {
    static const char sentence[] = "the input ends inside a record", line[] = "refused 2 Cut record 4 at 34 within 2";
    const struct omf_answer cut = omf_check(first, 36, false), done = omf_check(first, sizeof first, false);
    const struct omf_answer room = {.status = OMF_ROOM, .size = 5}, no_segment = {.status = OMF_REACH, .reason = OMF_ABSOLUTE, .index = 65536};
    if (omf_version() != OMF_VERSION_NUMBER) {
        printf("version: %u\n", omf_version());
        failures++;
    }
    AT_EACH_ROOM("name", "Cut", (size_t)3, omf_reason_name(OMF_CUT, out, room));
    AT_EACH_ROOM("sentence", sentence, sizeof sentence - 1, omf_reason_sentence(OMF_CUT, out, room));
    AT_EACH_ROOM("line", line, sizeof line - 1, omf_fault_line(&cut, out, room));
    for (size_t at = 0; at < sizeof lines / sizeof lines[0]; at++)
        AT_EACH_ROOM(lines[at].text, lines[at].text, strlen(lines[at].text), omf_fault_line(&lines[at].is, out, room));
    expect("no name", omf_reason_name(0, NULL, 0), (struct omf_answer){.size = 0});
    expect("no sentence", omf_reason_sentence(34, NULL, 0), (struct omf_answer){.size = 0});
    expect("no fault", omf_fault_line(&done, NULL, 0), (struct omf_answer){.size = 0});
    expect("no room is no fault", omf_fault_line(&room, NULL, 0), (struct omf_answer){.size = 0});
    expect("no such segment", omf_fault_line(&no_segment, NULL, 0), (struct omf_answer){.size = 0});
    AT_EACH_REFUSAL("line: memory", (struct omf_answer){.size = sizeof line - 1}, omf_fault_line(&cut, out, sizeof out));
}

static uint8_t *contents(const char *path, size_t *length) {
    FILE *file = fopen(path, "rb");
    if (!file || fseek(file, 0, SEEK_END) != 0) return NULL;
    const long end = ftell(file);
    rewind(file);
    uint8_t *bytes = malloc(end > 0 ? (size_t)end : 1);
    if (!bytes || fread(bytes, 1, (size_t)end, file) != (size_t)end) return NULL;
    fclose(file);
    *length = (size_t)end;
    return bytes;
}

/* The line that the program prints of a fault. */
static void print_fault(struct omf_answer is) {
    uint8_t line[200];
    const struct omf_answer shown = omf_fault_line(&is, line, sizeof line);
    if (shown.status != OMF_DONE || shown.size == 0) failures++;
    printf("%.*s\n", (int)shown.size, (char *)line);
}

enum job { CHECK, LIST, CANON, RELOC };

static struct omf_answer call(enum job job, const uint8_t *bytes, size_t length, const uint8_t *place, size_t place_length, uint8_t *out, size_t room) {
    switch (job) {
    case LIST: return omf_list(bytes, length, false, out, room);
    case CANON: return omf_canon(bytes, length, false, out, room);
    case RELOC: return omf_reloc(bytes, length, place, place_length, false, out, room);
    default: return omf_check(bytes, length, false);
    }
}

/* Prints what the program prints for a job: first the room is asked for, then the text. */
static void print_job(enum job job, const uint8_t *bytes, size_t length, const uint8_t *place, size_t place_length) {
    struct omf_answer is = call(job, bytes, length, place, place_length, NULL, 0);
    if (job == CHECK && is.status == OMF_DONE) {
        printf("OK %llu records, %llu bytes\n", (unsigned long long)is.record_count, (unsigned long long)is.size);
    } else if (is.status == OMF_ROOM) {
        uint8_t *out = malloc(is.size);
        if (!out) exit(2);
        const struct omf_answer whole = call(job, bytes, length, place, place_length, out, is.size);
        expect("the same call with the room that it needs", whole, (struct omf_answer){.size = is.size});
        fwrite(out, 1, is.size, stdout);
        free(out);
    } else if (is.status != OMF_DONE) {
        print_fault(is);
    }
}

/* Does a job on a file; its placement is the file of the same name with .place at its end. */
static void do_job(enum job job, const char *path) {
    size_t length = 0, place_length = 0;
    uint8_t *bytes = contents(path, &length), *place = NULL;
    if (job == RELOC) {
        char name[4096];
        snprintf(name, sizeof name, "%s.place", path);
        place = contents(name, &place_length);
    }
    if (!bytes || (job == RELOC && !place)) {
        printf("cannot be read\n");
        failures++;
    } else {
        print_job(job, bytes, length, place, place_length);
    }
    free(bytes);
    free(place);
}

int main(int argc, char **argv) {
    static const char *const jobs[] = {"check", "list", "canon", "reloc"};
    if (argc < 2) {
        check_calls();
        text_calls();
        fault_calls();
        memory_calls();
        reason_calls();
        if (failures == 0) printf("every call answers as expected\n");
        return failures != 0;
    }
    for (enum job job = CHECK; job <= RELOC; job++) {
        for (int i = 2; strcmp(argv[1], jobs[job]) == 0 && i < argc; i++) {
            printf("== %s\n", argv[i]);
            do_job(job, argv[i]);
        }
    }
    return failures != 0;
}
