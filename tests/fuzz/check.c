/* One verdict: what was read decides it, whatever follows it; with the flag a module is accepted, or refused for a comment or as
 * without it; what is accepted is listed. */
#include "fuzz.h"

int LLVMFuzzerTestOneInput(const uint8_t *bytes, size_t length);

/* How many bytes decide a refusal: the whole input at the first two reasons, the record's type byte at the next two, its length at the
 * next, and else the record. */
static size_t decides(const uint8_t *bytes, size_t length, struct omf_answer at) {
    PROMISED(at.start <= length);
    size_t rest = length - at.start;
    if (at.reason <= OMF_CUT) {
        PROMISED(at.within == rest);
        return length;
    }
    PROMISED(rest >= 1);
    if (at.reason <= OMF_UNSUPPORTED_TYPE) {
        PROMISED(at.within == 0);
        return at.start + 1;
    }
    PROMISED(rest >= 3);
    size_t record = 3 + bytes[at.start + 1] + 256u * bytes[at.start + 2];
    PROMISED(record <= rest && at.within < record);
    return at.start + record;
}

int LLVMFuzzerTestOneInput(const uint8_t *bytes, size_t length) {
    struct omf_answer answer = verdict(bytes, length, false);
    if (answer.status == OMF_MEMORY) {
        return 0;
    }
    PROMISED(answer.status == OMF_DONE || (answer.reason >= OMF_NO_END && answer.reason <= OMF_START_FRAME));
    PROMISED(answer.reason != OMF_VENDOR_COMMENT);
    size_t read = answer.status == OMF_DONE ? answer.size : decides(bytes, length, answer);
    PROMISED(read <= length && are_same(verdict(bytes, read, false), answer));
    if (answer.status == OMF_DONE) {
        PROMISED(answer.record_count >= 2 && read > 0);
        PROMISED(verdict(bytes, read - 1, false).reason == OMF_CUT);
    }
    struct omf_answer strict = verdict(bytes, length, true);
    PROMISED(are_same(strict, answer) || strict.reason == OMF_VENDOR_COMMENT);
    struct text list = text_of(LIST, bytes, length, NULL, 0);
    if (list.answer.status != OMF_MEMORY) {
        PROMISED(answer.status == OMF_DONE ? list.answer.status == OMF_DONE : are_same(list.answer, answer));
    }
    free(list.bytes);
    return 0;
}
