/* A module, and after it a placement text, as the program reads them: a listing, or a fault that is one of those of the call. The
 * canonical bytes have the same listing at that placement, or the same fault but for the record and the place of what does not reach. */
#include "fuzz.h"

int LLVMFuzzerTestOneInput(const uint8_t *bytes, size_t length);

/* A line is at most `SSSS:OOOOOOOO`, 16 times a space and two digits, and its end; the last one names the start. */
static void look_at(struct text listing) {
    size_t in_line = 0;
    for (size_t at = 0; at < listing.size; at++) {
        in_line = listing.bytes[at] == '\n' ? 0 : in_line + 1;
        PROMISED(in_line <= 13 + 16 * 3);
    }
    PROMISED(in_line == 0);
}

static void look_at_fault(struct omf_answer answer, size_t placement_length, uint64_t record_count) {
    PROMISED(answer.status == OMF_LINE || answer.status == OMF_REACH);
    if (answer.status == OMF_LINE) {
        PROMISED(answer.line >= 1 && answer.line <= placement_length + 1);
    } else {
        PROMISED(answer.reason >= OMF_MISSING && answer.reason <= OMF_TOO_FAR);
        PROMISED(answer.reason == OMF_TOO_FAR ? answer.number < record_count : answer.index >= 1);
    }
}

static void compare(struct text one, struct text form, const uint8_t *placement, size_t placement_length) {
    struct text other = text_of(RELOC, form.bytes, form.size, placement, placement_length);
    if (other.answer.status != OMF_MEMORY) {
        struct omf_answer answer = other.answer;
        if (answer.status == OMF_REACH && answer.reason == OMF_TOO_FAR) {
            answer.number = one.answer.number;
            answer.within = one.answer.within;
        }
        PROMISED(are_same(answer, one.answer) && has_same_bytes(other, one));
    }
    free(other.bytes);
}

int LLVMFuzzerTestOneInput(const uint8_t *bytes, size_t length) {
    struct omf_answer answer = verdict(bytes, length, false);
    if (answer.status != OMF_DONE) {
        return 0;
    }
    const uint8_t *placement = bytes + answer.size;
    size_t placement_length = length - answer.size;
    struct text listing = text_of(RELOC, bytes, answer.size, placement, placement_length);
    if (listing.answer.status != OMF_MEMORY) {
        if (listing.answer.status == OMF_DONE) {
            look_at(listing);
        } else {
            look_at_fault(listing.answer, placement_length, answer.record_count);
        }
        struct text form = text_of(CANON, bytes, answer.size, NULL, 0);
        if (form.answer.status == OMF_DONE) {
            compare(listing, form, placement, placement_length);
        }
        free(form.bytes);
    }
    free(listing.bytes);
    return 0;
}
