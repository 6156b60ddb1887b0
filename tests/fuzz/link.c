/* Modules and a link text. The same memory is handed out at each range that holds it, its bytes are those that do not depend on the filling, and each
 * shorter range is refused for the first byte that is outside. The canonical bytes of the modules give the same memory. A module with a placement, as for
 * reloc, gives the bytes of omf_image at its addresses. */
#include "modules.h"

int LLVMFuzzerTestOneInput(const uint8_t *bytes, size_t length);

enum { WINDOW = 1 << 16, MOST_SEGMENTS = 1024 };
static const uint64_t TOP = (uint64_t)1 << 32;

static struct omf_answer link_image(const uint8_t *bytes, size_t length, uint32_t base, uint32_t size, uint8_t fill, uint8_t *out, size_t room) {
    begin();
    struct omf_answer answer = omf_link_image(bytes, length, base, size, fill, out, room);
    end();
    PROMISED(answer.status != OMF_MEMORY || refused);
    return answer;
}

/* The memory from `base` on, exactly as large as it is asked for; or the answer. */
static struct text memory_at(const uint8_t *bytes, size_t length, uint32_t base, uint32_t size, uint8_t fill) {
    struct text memory = {link_image(bytes, length, base, size, fill, NULL, 0), NULL, size};
    if (memory.answer.status != OMF_ROOM) {
        PROMISED(memory.answer.status != OMF_DONE || (size == 0 && memory.answer.size == 0));
        return memory;
    }
    PROMISED(memory.answer.size == size && size > 0);
    memory.bytes = __real_malloc((size_t)size + 1);
    PROMISED(memory.bytes != NULL);
    memset(memory.bytes, 0x5A, (size_t)size + 1);
    PROMISED(are_same(link_image(bytes, length, base, size, fill, memory.bytes, size - 1), memory.answer) || refused);
    PROMISED(memory.bytes[0] == 0x5A && memory.bytes[size - 1] == 0x5A);
    memory.answer = link_image(bytes, length, base, size, fill, memory.bytes, size);
    PROMISED((memory.answer.status == OMF_DONE && memory.answer.size == size) || memory.answer.status == OMF_MEMORY);
    PROMISED(memory.bytes[size] == 0x5A);
    return memory;
}

/* The index of a segment is in its module's table. */
static void look_at_segment(const struct modules *in, uint64_t number, uint64_t index) {
    PROMISED(number < in->count);
    begin();
    struct omf_answer answer = omf_segments(in->rows[number].bytes, in->rows[number].size, false, NULL, 0);
    end();
    PROMISED(answer.status == OMF_MEMORY || (index >= 1 && index <= answer.size));
}

/* An answer that is no memory and no byte outside. */
static void look_at_fault(struct omf_answer answer, size_t length, const struct modules *in) {
    if (in->fault.status != OMF_DONE) {
        PROMISED(in->fault.status == OMF_MEMORY || are_same(answer, in->fault));
    } else if (answer.status == OMF_LINE) {
        PROMISED(answer.reason >= 1 && answer.reason <= 8 && answer.line >= 1 && answer.line <= length - in->end + 1);
    } else if (answer.status == OMF_REACH) {
        PROMISED(answer.record_count < in->count && answer.reason >= OMF_MISSING && answer.reason <= OMF_TOO_FAR && answer.reason != OMF_EXTRA);
        if (answer.reason == OMF_TOO_FAR) {
            look_at_place(answer, in, false);
        }
    } else {
        PROMISED(answer.status == OMF_NOT_LINKED && answer.reason != OMF_OUTSIDE && answer.reason != OMF_NO_MODULES && answer.reason <= OMF_OVERLAP);
        PROMISED(answer.reason != OMF_NO_TEXT || (answer.size == in->end && answer.size < length));
        PROMISED(answer.reason != OMF_STARTS || (answer.record_count < answer.size && answer.size < in->count));
        if (answer.reason == OMF_BEYOND || answer.reason == OMF_OVERLAP) {
            look_at_segment(in, answer.record_count, answer.index);
        }
        if (answer.reason == OMF_OVERLAP) {
            look_at_segment(in, answer.number, answer.within);
            PROMISED(answer.start < TOP && (answer.record_count != answer.number || answer.index != answer.within));
        }
    }
}

/* A range that does not hold all bytes. */
static void look_at_outside(struct omf_answer answer, const struct modules *in, uint64_t address) {
    PROMISED(answer.status == OMF_MEMORY || (answer.status == OMF_NOT_LINKED && answer.reason == OMF_OUTSIDE && answer.start == address));
    if (answer.status != OMF_MEMORY) {
        look_at_segment(in, answer.record_count, answer.index);
    }
}

/* The memory from the lowest byte on. Bytes that differ between two fillings are none of a module. */
static void look_at_memory(const uint8_t *bytes, size_t length, const struct modules *in, uint32_t low) {
    uint32_t size = TOP - low < WINDOW ? (uint32_t)(TOP - low) : WINDOW;
    struct text zeros = memory_at(bytes, length, low, size, 0), ones = memory_at(bytes, length, low, size, 0xFF);
    if (zeros.answer.status == OMF_DONE && ones.answer.status == OMF_DONE) {
        uint32_t last = 0;
        for (uint32_t at = 0; at < size; at++) {
            bool is_gap = zeros.bytes[at] != ones.bytes[at];
            PROMISED(!is_gap || (zeros.bytes[at] == 0 && ones.bytes[at] == 0xFF));
            last = is_gap ? last : at;
        }
        PROMISED(zeros.bytes[0] == ones.bytes[0]);
        struct text exact = memory_at(bytes, length, low, last + 1, 0x77);
        for (uint32_t at = 0; exact.answer.status == OMF_DONE && at <= last; at++) {
            PROMISED(exact.bytes[at] == (zeros.bytes[at] == ones.bytes[at] ? zeros.bytes[at] : 0x77));
        }
        PROMISED(exact.answer.status == OMF_DONE || exact.answer.status == OMF_MEMORY);
        look_at_outside(link_image(bytes, length, low, last, 0, NULL, 0), in, (uint64_t)low + last);
        if (last > 0) {
            look_at_outside(link_image(bytes, length, low + 1, last, 0, NULL, 0), in, low);
        }
        struct text form = canonical_input(bytes, length, in);
        if (form.answer.status == OMF_DONE) {
            struct text same = memory_at(form.bytes, form.size, low, size, 0);
            PROMISED(same.answer.status == OMF_MEMORY || (same.answer.status == OMF_DONE && has_same_bytes(same, zeros)));
            free(same.bytes);
        }
        free(form.bytes);
        free(exact.bytes);
    } else if (zeros.answer.status == OMF_NOT_LINKED) {
        PROMISED(zeros.answer.start >= (uint64_t)low + size);
        look_at_outside(zeros.answer, in, zeros.answer.start);
        PROMISED(ones.answer.status == OMF_MEMORY || are_same(ones.answer, zeros.answer));
    } else {
        PROMISED(zeros.answer.status == OMF_MEMORY || ones.answer.status == OMF_MEMORY);
    }
    free(zeros.bytes);
    free(ones.bytes);
}

/* Returns the answer for no address at all: done where the modules have no byte, and else the lowest byte. */
static struct omf_answer look_at_input(const uint8_t *bytes, size_t length) {
    struct omf_answer answer = link_image(bytes, length, 0, 0, 0, NULL, 0);
    if (answer.status == OMF_MEMORY) {
        return answer;
    }
    struct omf_answer again = link_image(bytes, length, 0, 0, 0, NULL, 0);
    PROMISED(again.status == OMF_MEMORY || are_same(again, answer));
    struct modules in = modules_in(bytes, length);
    if (answer.status == OMF_DONE) {
        PROMISED(answer.size == 0);
    } else if (answer.status == OMF_NOT_LINKED && answer.reason == OMF_OUTSIDE) {
        PROMISED(in.fault.status != OMF_REFUSED && answer.start < TOP);
        if (in.fault.status == OMF_DONE) {
            look_at_outside(answer, &in, answer.start);
            look_at_memory(bytes, length, &in, (uint32_t)answer.start);
        }
    } else {
        look_at_fault(answer, length, &in);
    }
    return answer;
}

/* The link text of a placement for one module, after its bytes: each line names its entry by its number. The addresses of the segments are kept. */
struct linked {
    uint8_t *bytes;
    size_t size, count;
    uint64_t addresses[MOST_SEGMENTS];
};

static void add(struct linked *to, const uint8_t *bytes, size_t size) {
    to->bytes = __real_realloc(to->bytes, to->size + size + 1);
    PROMISED(to->bytes != NULL);
    if (size > 0) {
        memcpy(to->bytes + to->size, bytes, size);
    }
    to->size += size;
}

/* A line that is an entry: its letter, its number, and the words after the letter up to a comment. */
static void add_line(struct linked *to, const uint8_t *line, size_t size, size_t counts[3]) {
    const uint8_t *comment = size > 0 ? memchr(line, ';', size) : NULL;
    size = comment == NULL ? size : (size_t)(comment - line);
    size_t at = 0;
    while (at < size && line[at] == ' ') {
        at++;
    }
    const char *letters = "SGE", *letter = at < size && line[at] != 0 ? strchr(letters, line[at]) : NULL;
    if (letter == NULL) {
        return;
    }
    size_t kind = (size_t)(letter - letters);
    char front[32], number[32] = {0};
    int written = snprintf(front, sizeof front, "%c #%zu", "SGX"[kind], ++counts[kind]);
    if (kind == 0 && to->count < MOST_SEGMENTS) {
        for (size_t from = at + 2, digits = 0; from < size && digits + 1 < sizeof number && line[from] > ' '; from++) {
            number[digits++] = (char)line[from];
        }
        to->addresses[to->count++] = strtoull(number, NULL, 16);
    }
    add(to, (const uint8_t *)front, (size_t)written);
    add(to, line + at + 1, size - at - 1);
    add(to, (const uint8_t *)"\n", 1);
}

static struct linked linked_text(const uint8_t *module, size_t size, const uint8_t *placement, size_t length) {
    struct linked to = {.count = 0};
    size_t counts[3] = {0, 0, 0}, start = 0;
    add(&to, module, size);
    add(&to, (const uint8_t *)"M #1\n", 5);
    for (size_t at = 0; at <= length; at++) {
        if (at == length || placement[at] == '\n') {
            add_line(&to, placement + start, at - start, counts);
            start = at + 1;
        }
    }
    return to;
}

/* The runs of the module's image, and their bytes. */
struct image {
    struct omf_answer answer;
    struct omf_run *runs;
    uint8_t *bytes;
};

static struct omf_answer image_in(const uint8_t *module, size_t size, const uint8_t *placement, size_t length, struct image *to, struct omf_answer room) {
    begin();
    struct omf_answer answer = omf_image(module, size, placement, length, false, to->runs, room.record_count, to->bytes, room.size);
    end();
    PROMISED(answer.status != OMF_MEMORY || refused);
    return answer;
}

static struct image image_of(const uint8_t *module, size_t size, const uint8_t *placement, size_t length) {
    struct image image = {.runs = NULL};
    image.answer = image_in(module, size, placement, length, &image, image.answer);
    if (image.answer.status == OMF_ROOM) {
        image.runs = __real_malloc(image.answer.record_count * sizeof *image.runs + 1);
        image.bytes = __real_malloc(image.answer.size + 1);
        PROMISED(image.runs != NULL && image.bytes != NULL);
        image.answer = image_in(module, size, placement, length, &image, image.answer);
        PROMISED(image.answer.status == OMF_DONE || image.answer.status == OMF_MEMORY);
    }
    return image;
}

/* The memory of the linked module from `low` on has the bytes of the image; of two segments with a byte at one address the last. */
static void compare(const struct linked *text, const struct image *image, uint32_t low) {
    uint32_t size = TOP - low < WINDOW ? (uint32_t)(TOP - low) : WINDOW;
    struct text memory = memory_at(text->bytes, text->size, low, size, 0xFF);
    if (memory.answer.status == OMF_DONE) {
        uint8_t *wanted = __real_malloc(size);
        PROMISED(wanted != NULL);
        memset(wanted, 0xFF, size);
        const uint8_t *from = image->bytes;
        for (size_t run = 0; run < image->answer.record_count; run++) {
            struct omf_run one = image->runs[run];
            PROMISED(one.segment >= 1 && one.segment <= text->count);
            uint64_t at = text->addresses[one.segment - 1] + one.offset;
            PROMISED(at >= low && at - low <= size && one.size <= size - (at - low));
            memcpy(wanted + (at - low), from, one.size);
            from += one.size;
        }
        PROMISED(memcmp(wanted, memory.bytes, size) == 0);
        free(wanted);
    }
    free(memory.bytes);
}

/* A module and its placement are the same module and a link text. */
static void look_at_placed(const uint8_t *bytes, size_t length) {
    struct omf_answer answer = verdict(bytes, length, false);
    if (answer.status != OMF_DONE) {
        return;
    }
    const uint8_t *placement = bytes + answer.size;
    struct image image = image_of(bytes, answer.size, placement, length - answer.size);
    if (image.answer.status == OMF_DONE) {
        struct linked text = linked_text(bytes, answer.size, placement, length - answer.size);
        struct omf_answer linked = look_at_input(text.bytes, text.size);
        if (linked.status == OMF_NOT_LINKED && linked.reason == OMF_OUTSIDE) {
            PROMISED(image.answer.size > 0);
            compare(&text, &image, (uint32_t)linked.start);
        } else if (linked.status == OMF_DONE) {
            PROMISED(image.answer.size == 0);
        } else {
            PROMISED(linked.status == OMF_MEMORY || (linked.status == OMF_NOT_LINKED && (linked.reason == OMF_BEYOND || linked.reason == OMF_OVERLAP)));
        }
        free(text.bytes);
    }
    free(image.runs);
    free(image.bytes);
}

int LLVMFuzzerTestOneInput(const uint8_t *bytes, size_t length) {
    look_at_input(bytes, length);
    look_at_placed(bytes, length);
    return 0;
}
