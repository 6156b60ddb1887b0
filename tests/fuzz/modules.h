/* Modules one after another, each with padding after it, as omf_link_image reads them, and omf_exe each file. */
#ifndef MODULES_H
#define MODULES_H

#include "fuzz.h"

enum { MOST_MODULES = 64 };

struct module {
    const uint8_t *bytes;
    size_t size;
    uint64_t record_count;
};

struct modules {
    struct module rows[MOST_MODULES];
    size_t count, end;       /* the offset of what follows the last module and its padding */
    struct omf_answer fault; /* done; or the answer for the first module that is refused, or memory */
};

static inline size_t after_padding(const uint8_t *bytes, size_t length, size_t at) {
    uint8_t value = at < length && bytes[at] == 0x1A ? 0x1A : 0;
    while (at < length && bytes[at] == value) {
        at++;
    }
    return at;
}

/* The first module is expected, and a further one where the next byte is the type of a THEADR or an LHEADR. */
static inline struct modules modules_in(const uint8_t *bytes, size_t length) {
    struct modules in = {.count = 0};
    while (in.count == 0 || (in.end < length && (bytes[in.end] == 0x80 || bytes[in.end] == 0x82))) {
        in.fault = verdict(bytes + in.end, length - in.end, false);
        if (in.fault.status != OMF_DONE || in.count == MOST_MODULES) {
            in.fault.status = in.fault.status == OMF_DONE ? OMF_MEMORY : in.fault.status;
            in.fault.record_count = in.count;
            return in;
        }
        in.rows[in.count++] = (struct module){bytes + in.end, in.fault.size, in.fault.record_count};
        in.end = after_padding(bytes, length, in.end + in.fault.size);
    }
    in.fault = (struct omf_answer){.status = OMF_DONE};
    return in;
}

/* The canonical bytes of the modules, one after another, and then the rest of the input; or that memory ran out. */
static inline struct text canonical_input(const uint8_t *bytes, size_t length, const struct modules *in) {
    size_t rest = length - in->end;
    struct text all = {{.status = OMF_DONE}, __real_malloc(rest + 1), 0};
    for (size_t number = 0; number < in->count && all.answer.status == OMF_DONE; number++) {
        struct text own = text_of(CANON, in->rows[number].bytes, in->rows[number].size, NULL, 0);
        PROMISED(own.answer.status == OMF_DONE || own.answer.status == OMF_MEMORY);
        all.answer.status = own.answer.status;
        if (own.bytes != NULL) {
            all.bytes = __real_realloc(all.bytes, all.size + own.size + rest + 1);
            memcpy(all.bytes + all.size, own.bytes, own.size);
            all.size += own.size;
        }
        free(own.bytes);
    }
    if (rest > 0) {
        memcpy(all.bytes + all.size, bytes + in->end, rest);
    }
    all.size += rest;
    return all;
}

/* The record and the offset in it that an answer names are in its module. */
static inline void look_at_place(struct omf_answer answer, const struct modules *in, bool has_start) {
    PROMISED(answer.record_count < in->count);
    const struct module *module = &in->rows[answer.record_count];
    PROMISED(answer.number < module->record_count);
    if (has_start) {
        PROMISED(answer.start + 3 <= module->size);
        size_t record = 3 + module->bytes[answer.start + 1] + 256u * module->bytes[answer.start + 2];
        PROMISED(answer.within < record && answer.start + record <= module->size);
    }
}

#endif
