/* A library: its members, and what it is refused for, are those that a walk from page to page by omf_check finds; they lie in it, apart and in rising
 * order; and the first entry of a name is that which a walk over all buckets finds. */
#include "fuzz.h"

int LLVMFuzzerTestOneInput(const uint8_t *bytes, size_t length);

enum { BLOCK = 512, BUCKETS = 37, MOST_NAMES = 48 };

struct table {
    struct omf_answer answer;
    struct omf_library_member *rows;
};

static struct omf_answer members_of(const uint8_t *bytes, size_t length, bool strict, struct omf_library_member *out, size_t room) {
    begin();
    struct omf_answer answer = omf_library_members(bytes, length, strict, out, room);
    end();
    PROMISED(answer.status != OMF_MEMORY || refused);
    return answer;
}

/* Asks for the room, and then for the rows, which are exactly as many. */
static struct table table_of(const uint8_t *bytes, size_t length, bool strict) {
    struct table table = {members_of(bytes, length, strict, NULL, 0), NULL};
    PROMISED(are_same(members_of(bytes, length, strict, NULL, 0), table.answer) || refused);
    if (table.answer.status != OMF_ROOM) {
        return table;
    }
    size_t count = table.answer.size, size = count * sizeof *table.rows;
    PROMISED(count > 0 && count <= length / 16);
    table.rows = __real_malloc(size + 1);
    PROMISED(table.rows != NULL);
    ((uint8_t *)table.rows)[size] = 0xA5;
    PROMISED(are_same(members_of(bytes, length, strict, table.rows, count - 1), table.answer) || refused);
    struct omf_answer answer = members_of(bytes, length, strict, table.rows, count);
    PROMISED(answer.status == OMF_MEMORY || (answer.status == OMF_DONE && answer.size == count));
    PROMISED(((uint8_t *)table.rows)[size] == 0xA5);
    table.answer = answer;
    return table;
}

/* The answer for the header, which is done if it is whole; and the page size. */
static struct omf_answer look_at_header(const uint8_t *bytes, size_t length, size_t *page) {
    struct omf_answer answer = {.status = OMF_NO_LIBRARY, .reason = OMF_NO_LIBRARY_HEADER};
    *page = 3u + (length > 1 ? bytes[1] : 0) + 256u * (length > 2 ? bytes[2] : 0);
    if (length > 0 && bytes[0] == 0xF0) {
        answer.reason = OMF_LIBRARY_HEADER_CUT;
        if (length >= *page) {
            answer.reason = OMF_PAGE_SIZE;
            answer.size = *page;
            if (*page >= 16 && *page <= 32768 && (*page & (*page - 1)) == 0) {
                return (struct omf_answer){.status = OMF_DONE};
            }
        }
    }
    return answer;
}

/* Goes from page to page. Each member that is found is compared with its row, if there are rows. */
static struct omf_answer walk(const uint8_t *bytes, size_t length, bool strict, const struct omf_library_member *rows) {
    size_t page, count = 0;
    struct omf_answer answer = look_at_header(bytes, length, &page);
    if (answer.status != OMF_DONE) {
        return answer;
    }
    size_t at = page;
    while (at < length && bytes[at] != 0xF1) {
        struct omf_answer member = verdict(bytes + at, length - at, strict);
        if (member.status != OMF_DONE) {
            member.size = at;
            member.record_count = count;
            return member;
        }
        PROMISED(rows == NULL || (rows[count].offset == at && rows[count].size == member.size));
        count++;
        at = (at + member.size + page - 1) / page * page;
    }
    if (at >= length) {
        return (struct omf_answer){.status = OMF_NO_LIBRARY, .reason = OMF_NO_LIBRARY_END, .size = at, .record_count = count};
    }
    return (struct omf_answer){.status = OMF_DONE, .size = count};
}

/* Whether two names are one: letters of another case are the same, unless the flag is set. */
static bool is_one_name(const uint8_t *a, const uint8_t *b, size_t size, bool is_case_sensitive) {
    for (size_t at = 0; at < size; at++) {
        uint8_t c = a[at], d = b[at];
        if (!is_case_sensitive) {
            c += c >= 'A' && c <= 'Z' ? 32 : 0;
            d += d >= 'A' && d <= 'Z' ? 32 : 0;
        }
        if (c != d) {
            return false;
        }
    }
    return true;
}

struct dictionary {
    const uint8_t *blocks;
    size_t count, page;
    bool is_case_sensitive;
};

/* The entry of a bucket, of which `size` is the length of the name; NULL if there is none, or if it passes the end of the block. */
static const uint8_t *entry_of(struct dictionary in, size_t bucket) {
    const uint8_t *block = in.blocks + bucket / BUCKETS * BLOCK;
    size_t at = 2u * block[bucket % BUCKETS];
    return at > 0 && at + block[at] + 3 <= BLOCK ? block + at : NULL;
}

/* The first entry of a name over all blocks and buckets. */
static struct omf_answer first_entry(struct dictionary in, const uint8_t *name, size_t size) {
    for (size_t bucket = 0; bucket < in.count * BUCKETS; bucket++) {
        const uint8_t *entry = entry_of(in, bucket);
        if (entry != NULL && *entry == size && is_one_name(entry + 1, name, size, in.is_case_sensitive)) {
            size_t number = entry[1 + size] + 256u * entry[2 + size];
            return (struct omf_answer){.status = OMF_DONE, .size = number * in.page, .record_count = 1};
        }
    }
    return (struct omf_answer){.status = OMF_DONE};
}

/* Asks for a name twice. */
static void look_up(const uint8_t *bytes, size_t length, const uint8_t *name, size_t size, struct omf_answer wanted) {
    PROMISED(are_same(omf_library_find(bytes, length, name, size), wanted));
    PROMISED(are_same(omf_library_find(bytes, length, name, size), wanted));
}

/* The names of the dictionary's entries, each also in the other case and cut, and a name that is some bytes of the input. */
static void look_up_names(const uint8_t *bytes, size_t length) {
    struct dictionary in = {NULL, 0, 0, false};
    struct omf_answer answer = look_at_header(bytes, length, &in.page);
    const uint8_t *own = bytes + (length > 40 ? length - 40 : 0);
    size_t own_size = length > 40 ? *own % 40u : 0;
    if (answer.status == OMF_DONE) {
        size_t start = bytes[3] + 256u * bytes[4] + 65536u * bytes[5] + 16777216u * bytes[6];
        in.count = bytes[7] + 256u * bytes[8];
        in.is_case_sensitive = bytes[9] % 2 == 1;
        if (start + BLOCK * in.count > length) {
            answer = (struct omf_answer){.status = OMF_NO_LIBRARY, .reason = OMF_NO_DICTIONARY};
        } else {
            in.blocks = bytes + start;
        }
    }
    if (in.blocks == NULL) {
        look_up(bytes, length, own, own_size, answer);
        return;
    }
    look_up(bytes, length, own, own_size, first_entry(in, own, own_size));
    for (size_t bucket = 0, names = 0; bucket < in.count * BUCKETS && names < MOST_NAMES; bucket++) {
        const uint8_t *entry = entry_of(in, bucket);
        if (entry == NULL) {
            continue;
        }
        names++;
        uint8_t turned[256];
        for (size_t at = 0; at < *entry; at++) {
            turned[at] = entry[1 + at] ^ (entry[1 + at] >= 'A' ? 32 : 0);
        }
        PROMISED(first_entry(in, entry + 1, *entry).record_count == 1);
        look_up(bytes, length, entry + 1, *entry, first_entry(in, entry + 1, *entry));
        look_up(bytes, length, turned, *entry, first_entry(in, turned, *entry));
        if (*entry > 0) {
            look_up(bytes, length, entry + 1, *entry - 1u, first_entry(in, entry + 1, *entry - 1u));
        }
    }
}

int LLVMFuzzerTestOneInput(const uint8_t *bytes, size_t length) {
    for (int strict = 0; strict < 2; strict++) {
        struct table table = table_of(bytes, length, strict);
        if (table.answer.status != OMF_MEMORY) {
            struct omf_answer wanted = walk(bytes, length, strict, table.rows);
            PROMISED(wanted.status == OMF_MEMORY || are_same(wanted, table.answer));
        }
        free(table.rows);
    }
    look_up_names(bytes, length);
    return 0;
}
