/* Canonical bytes: of each accepted module there are some, they are accepted, they are their own, and they have the same segments,
 * groups, externals and publics. */
#include "fuzz.h"

int LLVMFuzzerTestOneInput(const uint8_t *bytes, size_t length);

/* The part of a list after the lines of the records. */
static struct text tables(struct text list) {
    size_t at = 0;
    while (at < list.size && list.bytes[at] == 'R') {
        while (list.bytes[at++] != '\n') {
        }
    }
    struct text rest = {list.answer, list.bytes + at, list.size - at};
    return rest;
}

static void compare(const uint8_t *bytes, size_t length, struct text form, uint64_t record_count) {
    struct omf_answer formed = verdict(form.bytes, form.size, false);
    if (formed.status == OMF_MEMORY) {
        return;
    }
    PROMISED(formed.status == OMF_DONE && formed.size == form.size && formed.record_count <= record_count);
    struct text again = text_of(CANON, form.bytes, form.size, NULL, 0);
    PROMISED(again.answer.status == OMF_MEMORY || (again.answer.status == OMF_DONE && has_same_bytes(again, form)));
    struct text list = text_of(LIST, bytes, length, NULL, 0), other = text_of(LIST, form.bytes, form.size, NULL, 0);
    if (list.answer.status == OMF_DONE && other.answer.status == OMF_DONE) {
        PROMISED(has_same_bytes(tables(list), tables(other)));
    }
    free(again.bytes);
    free(list.bytes);
    free(other.bytes);
}

int LLVMFuzzerTestOneInput(const uint8_t *bytes, size_t length) {
    struct omf_answer answer = verdict(bytes, length, false);
    struct text form = text_of(CANON, bytes, length, NULL, 0);
    if (answer.status != OMF_MEMORY && form.answer.status != OMF_MEMORY) {
        PROMISED(answer.status == OMF_DONE ? form.answer.status == OMF_DONE : are_same(form.answer, answer));
        if (form.answer.status == OMF_DONE) {
            compare(bytes, answer.size, form, answer.record_count);
        }
    }
    free(form.bytes);
    return 0;
}
