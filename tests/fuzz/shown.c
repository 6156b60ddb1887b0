/* omf-dump as a function: its main, on a standard input that is the input, with its standard output kept. Text and JSON end with the status that the
 * library's verdict gives; each line of JSON is an object; both have the same records; nothing but printable characters is written. */
#include "fuzz.h"

#include <errno.h>
#include <sys/types.h>

int LLVMFuzzerTestOneInput(const uint8_t *bytes, size_t length);
int omf_dump_main(int count, char **words);

/* Its system calls, by these (-Wl,--wrap). */
ssize_t __real_read(int file, void *to, size_t size);
ssize_t __real_write(int file, const void *from, size_t size);
ssize_t __wrap_read(int file, void *to, size_t size);
ssize_t __wrap_write(int file, const void *from, size_t size);
int64_t __wrap_rattle_arg(size_t number, uint8_t *to, size_t room);

static const uint8_t *left;
static size_t left_size;
static struct text shown;
static size_t room;
static const char *const *arguments;

ssize_t __wrap_read(int file, void *to, size_t size) {
    if (!inside) {
        return __real_read(file, to, size);
    }
    PROMISED(file == 0);
    size_t taken = size < left_size ? size : left_size;
    if (taken > 0) {
        memcpy(to, left, taken);
    }
    left += taken;
    left_size -= taken;
    return (ssize_t)taken;
}

ssize_t __wrap_write(int file, const void *from, size_t size) {
    if (!inside) {
        return __real_write(file, from, size);
    }
    PROMISED(file == 1);
    if (size > room - shown.size) {
        room = 2 * room + size;
        shown.bytes = __real_realloc(shown.bytes, room);
        PROMISED(shown.bytes != NULL);
    }
    memcpy(shown.bytes + shown.size, from, size);
    shown.size += size;
    return (ssize_t)size;
}

/* The length of an argument; -1 past the last one, -2 where there is too little room. */
int64_t __wrap_rattle_arg(size_t number, uint8_t *to, size_t space) {
    size_t at = 0;
    while (at <= number) {
        if (arguments[at++] == NULL) {
            return -1;
        }
    }
    size_t size = strlen(arguments[number]);
    if (size > space) {
        return -2;
    }
    memcpy(to, arguments[number], size);
    return (int64_t)size;
}

static struct text dump(const uint8_t *bytes, size_t length, const char *const *words) {
    left = bytes;
    left_size = length;
    room = 0;
    shown = (struct text){.bytes = NULL};
    arguments = words;
    begin();
    shown.answer.status = (uint32_t)omf_dump_main(1, (char *[]){"omf-dump", NULL});
    end();
    PROMISED(shown.answer.status <= 1 || (shown.answer.status == 3 && refused));
    for (size_t at = 0; at < shown.size; at++) {
        PROMISED(shown.bytes[at] == '\n' || (shown.bytes[at] >= 0x20 && shown.bytes[at] < 0x7F));
    }
    PROMISED(shown.size == 0 || shown.answer.status == 3 || shown.bytes[shown.size - 1] == '\n');
    return shown;
}

/* Returns the end of a JSON value; NULL if there is none. */
static const char *value(const char *at, const char *end, int depth);

static const char *string(const char *at, const char *end) {
    for (at++; at < end && *at != '"'; at++) {
        if (*at == '\\' && ++at < end && *at == 'u') {
            for (int digit = 0; digit < 4; digit++) {
                if (++at >= end || !strchr("0123456789ABCDEF", *at)) {
                    return NULL;
                }
            }
        } else if (at < end && at[-1] == '\\' && !strchr("\"\\/bfnrt", *at)) {
            return NULL;
        }
    }
    return at < end ? at + 1 : NULL;
}

/* The members of an object or a list, after its opening. */
static const char *members(const char *at, const char *end, char closing, int depth) {
    if (at < end && *at == closing) {
        return at + 1;
    }
    for (;;) {
        if (closing == '}') {
            at = at < end && *at == '"' ? string(at, end) : NULL;
            if (at == NULL || at >= end || *at++ != ':') {
                return NULL;
            }
        }
        at = value(at, end, depth + 1);
        if (at == NULL || at >= end || (*at != ',' && *at != closing)) {
            return NULL;
        }
        if (*at++ == closing) {
            return at;
        }
    }
}

static const char *value(const char *at, const char *end, int depth) {
    if (at >= end || depth > 100) {
        return NULL;
    }
    if (*at == '{' || *at == '[') {
        return members(at + 1, end, *at == '{' ? '}' : ']', depth);
    }
    if (*at == '"') {
        return string(at, end);
    }
    if (end - at >= 4 && memcmp(at, "true", 4) == 0) {
        return at + 4;
    }
    if (end - at >= 5 && memcmp(at, "false", 5) == 0) {
        return at + 5;
    }
    at += *at == '-';
    const char *first = at;
    while (at < end && *at >= '0' && *at <= '9') {
        at++;
    }
    return at > first && (*first != '0' || at == first + 1) ? at : NULL;
}

/* The end of the line at an offset. */
static size_t line_end(struct text text, size_t at) {
    while (text.bytes[at] != '\n') {
        at++;
    }
    return at;
}

/* The first line of a record at an offset or after it: one that begins with a digit. */
static size_t record_line(struct text text, size_t at) {
    while (at < text.size && (text.bytes[at] < '0' || text.bytes[at] > '9')) {
        at = line_end(text, at) + 1;
    }
    return at;
}

/* Reads two numbers from a text, which no zero byte ends. */
static bool numbers(struct text text, size_t at, const char *format, unsigned long long *number, unsigned long long *start) {
    char front[80] = {0};
    memcpy(front, text.bytes + at, text.size - at < sizeof front - 1 ? text.size - at : sizeof front - 1);
    return sscanf(front, format, number, start) == 2;
}

/* Whether the line at an offset is of the record with this number and offset. */
static bool is_of(struct text text, size_t at, unsigned long long number, unsigned long long start) {
    unsigned long long other_number, other_start;
    return at < text.size && numbers(text, at, "%llu %llx", &other_number, &other_start) && number == other_number && start == other_start;
}

/* Each line of JSON is one object, and the records in them are those of the lines of the text that begin with a digit: one line, or for a record at
 * fault also one with its unjudged fields before it. */
static void compare(struct text json, struct text text) {
    size_t in_text = record_line(text, 0);
    for (size_t at = 0, next = 0; at < json.size; at = next + 1) {
        next = line_end(json, at);
        const char *line = (const char *)json.bytes + at, *end = (const char *)json.bytes + next;
        PROMISED(*line == '{' && value(line, end, 0) == end);
        unsigned long long number, start;
        if (numbers(json, at, "{\"number\":%llu,\"start\":%llu", &number, &start)) {
            PROMISED(is_of(text, in_text, number, start));
            in_text = record_line(text, line_end(text, in_text) + 1);
            if (is_of(text, in_text, number, start)) {
                in_text = record_line(text, line_end(text, in_text) + 1);
            }
        }
    }
    PROMISED(in_text >= text.size);
}

/* Whether a line begins with this word. */
static bool has_line(struct text text, const char *word) {
    for (size_t at = 0; at < text.size; at = line_end(text, at) + 1) {
        if (text.size - at >= strlen(word) && memcmp(text.bytes + at, word, strlen(word)) == 0) {
            return true;
        }
    }
    return false;
}

/* Whether the input begins with a module that is accepted, or is a library of such modules; 2 where memory ran out. */
static int accepted(const uint8_t *bytes, size_t length) {
    struct omf_answer answer = verdict(bytes, length, false);
    if (answer.status == OMF_REFUSED && length > 0 && bytes[0] == 0xF0) {
        begin();
        answer = omf_library_members(bytes, length, false, NULL, 0);
        end();
    }
    return answer.status == OMF_MEMORY ? 2 : answer.status == OMF_DONE || answer.status == OMF_ROOM;
}

int LLVMFuzzerTestOneInput(const uint8_t *bytes, size_t length) {
    char most[8];
    snprintf(most, sizeof most, "%d", length > 0 ? bytes[length - 1] % 40 : 0);
    struct text text = dump(bytes, length, (const char *const[]){"omf-dump", NULL});
    struct text again = dump(bytes, length, (const char *const[]){"omf-dump", NULL});
    struct text json = dump(bytes, length, (const char *const[]){"omf-dump", "--json", NULL});
    struct text shorter = dump(bytes, length, (const char *const[]){"omf-dump", "--json", "--data", most, NULL});
    if (text.answer.status != 3 && again.answer.status != 3 && json.answer.status != 3 && shorter.answer.status != 3) {
        int is_accepted = accepted(bytes, length);
        /* The status is also 1 where a later module of the file is refused, or a library has no end. */
        bool has_more = text.answer.status == 1 && (has_line(text, "module ") || has_line(text, "fault "));
        PROMISED(is_accepted == 2 || text.answer.status == !is_accepted || has_more);
        PROMISED(json.answer.status == text.answer.status && shorter.answer.status == text.answer.status);
        PROMISED(again.answer.status == text.answer.status && has_same_bytes(again, text));
        compare(json, text);
        compare(shorter, text);
    }
    free(text.bytes);
    free(again.bytes);
    free(json.bytes);
    free(shorter.bytes);
    return 0;
}
