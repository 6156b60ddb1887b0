/* What the fuzzers share. A promise that does not hold ends the run: libFuzzer then keeps the input.
 *
 * The library's memory is limited: a growth is refused once MOST bytes were asked for since `begin`. So no input takes long, and each
 * call may answer OMF_MEMORY, but only where a growth was refused in it. */
#ifndef FUZZ_H
#define FUZZ_H

#include <omf.h>
#include <stdbool.h>
#include <stdio.h>
#include <stdlib.h>
#include <string.h>

/* The library asks for memory by these (-Wl,--wrap). */
void *__real_malloc(size_t size);
void *__real_realloc(void *old, size_t size);

enum { MOST = 8 << 20 };
static size_t asked;
static bool refused, inside;

static inline void begin(void) {
    asked = 0;
    refused = false;
    inside = true;
}

static inline void end(void) {
    inside = false;
}

static inline bool is_refused(size_t size) {
    if (!inside) {
        return false;
    }
    if (size <= MOST - asked) {
        asked += size;
        return false;
    }
    refused = true;
    return true;
}

void *__wrap_malloc(size_t size) {
    return is_refused(size) ? NULL : __real_malloc(size);
}

void *__wrap_realloc(void *old, size_t size) {
    return is_refused(size) ? NULL : __real_realloc(old, size);
}

#define PROMISED(holds) \
    do { \
        if (!(holds)) { \
            fprintf(stderr, "%s:%d: not so: %s\n", __FILE__, __LINE__, #holds); \
            abort(); \
        } \
    } while (0)

static inline bool are_same(struct omf_answer a, struct omf_answer b) {
    return a.status == b.status && a.reason == b.reason && a.kind == b.kind && a.index == b.index && a.number == b.number
        && a.within == b.within && a.start == b.start && a.line == b.line && a.size == b.size && a.record_count == b.record_count;
}

/* A call's answer, and its text where it is done. */
struct text {
    struct omf_answer answer;
    uint8_t *bytes;
    size_t size;
};

enum job { LIST, CANON, RELOC };

static inline struct omf_answer ask(enum job job, const uint8_t *bytes, size_t length, const uint8_t *placement, size_t placement_length,
                                    uint8_t *out, size_t room) {
    begin();
    struct omf_answer answer = job == LIST  ? omf_list(bytes, length, false, out, room)
                             : job == CANON ? omf_canon(bytes, length, false, out, room)
                                            : omf_reloc(bytes, length, placement, placement_length, false, out, room);
    end();
    PROMISED(answer.status != OMF_MEMORY || refused);
    return answer;
}

/* Asks for the room, and then for the text, which has exactly that size and is alone in the buffer. */
static inline struct text text_of(enum job job, const uint8_t *bytes, size_t length, const uint8_t *placement, size_t placement_length) {
    struct text text = {ask(job, bytes, length, placement, placement_length, NULL, 0), NULL, 0};
    if (text.answer.status != OMF_ROOM) {
        return text;
    }
    text.size = text.answer.size;
    text.bytes = __real_malloc(text.size + 1);
    PROMISED(text.bytes != NULL);
    text.bytes[text.size] = 0xA5;
    text.answer = ask(job, bytes, length, placement, placement_length, text.bytes, text.size);
    PROMISED(text.answer.status == OMF_DONE && text.answer.size == text.size && text.bytes[text.size] == 0xA5);
    return text;
}

static inline bool has_same_bytes(struct text a, struct text b) {
    return a.size == b.size && (a.size == 0 || memcmp(a.bytes, b.bytes, a.size) == 0);
}

static inline struct omf_answer verdict(const uint8_t *bytes, size_t length, bool refuse_vendor_comments) {
    begin();
    struct omf_answer answer = omf_check(bytes, length, refuse_vendor_comments);
    end();
    PROMISED(answer.status == OMF_DONE || answer.status == OMF_REFUSED || (answer.status == OMF_MEMORY && refused));
    return answer;
}

#endif
