/* Modules as a DOS program: its MZ header fits the file, the relocation words are in the image and apart, the program ends below 2^20; and padding
 * between the modules, or their canonical bytes in their place, give the same file. If there is none, the lines of why are handed out whole or not. */
#include "modules.h"

int LLVMFuzzerTestOneInput(const uint8_t *bytes, size_t length);

enum { HEADER = 28, PARAGRAPH = 16, TOP = 1 << 20 };

static struct omf_answer told(const uint8_t *bytes, size_t length, uint8_t *out, size_t room, uint8_t *lines, size_t line_room) {
    static const struct omf_program plain = {0};
    const struct omf_file file = {bytes, length, (const uint8_t *)"in.obj", 6};
    begin();
    struct omf_answer answer = omf_exe(&file, 1, &plain, out, room, lines, line_room);
    end();
    PROMISED(answer.status != OMF_MEMORY || refused);
    return answer;
}

static struct omf_answer exe(const uint8_t *bytes, size_t length, uint8_t *out, size_t room) {
    return told(bytes, length, out, room, NULL, 0);
}

/* Asks for the room, and then for the file, which has exactly that size. */
static struct text program_of(const uint8_t *bytes, size_t length) {
    struct text file = {exe(bytes, length, NULL, 0), NULL, 0};
    PROMISED(file.answer.status != OMF_DONE);
    if (file.answer.status != OMF_ROOM) {
        return file;
    }
    file.size = file.answer.size;
    PROMISED(file.size >= HEADER);
    file.bytes = __real_malloc(file.size + 1);
    PROMISED(file.bytes != NULL);
    memset(file.bytes, 0xA5, file.size + 1);
    PROMISED(are_same(exe(bytes, length, file.bytes, file.size - 1), file.answer) || refused);
    PROMISED(file.bytes[0] == 0xA5 && file.bytes[file.size - 1] == 0xA5);
    file.answer = exe(bytes, length, file.bytes, file.size);
    PROMISED((file.answer.status == OMF_DONE && file.answer.size == file.size && file.answer.start == 0) || file.answer.status == OMF_MEMORY);
    PROMISED(file.bytes[file.size] == 0xA5);
    return file;
}

static size_t word(const uint8_t *bytes, size_t at) {
    return bytes[at] + 256u * bytes[at + 1];
}

/* Each word is in the image, and no byte is in two. */
static void look_at_words(const uint8_t *file, size_t count, size_t table, size_t size) {
    uint8_t *taken = calloc(size + 1, 1);
    PROMISED(taken != NULL);
    for (size_t number = 0; number < count; number++) {
        size_t at = word(file, table + 4 * number) + PARAGRAPH * word(file, table + 4 * number + 2);
        PROMISED(at + 2 <= size && !taken[at] && !taken[at + 1]);
        taken[at] = taken[at + 1] = 1;
    }
    free(taken);
}

static void look_at_file(struct text file) {
    const uint8_t *head = file.bytes;
    size_t last = word(head, 2), pages = word(head, 4), count = word(head, 6), front = PARAGRAPH * word(head, 8), least = PARAGRAPH * word(head, 10);
    size_t table = word(head, 24);
    PROMISED(head[0] == 'M' && head[1] == 'Z' && last < 512 && file.size == 512 * pages - (last == 0 ? 0 : 512 - last));
    PROMISED(table >= HEADER && table + 4 * count <= front && front <= file.size && word(head, 10) <= word(head, 12));
    PROMISED(word(head, 18) == 0 && word(head, 26) == 0);
    size_t size = file.size - front;
    PROMISED(size + least <= TOP + PARAGRAPH);
    look_at_words(head, count, table, size);
    /* Without a stack SS:SP is 0:0. */
    size_t stack = PARAGRAPH * word(head, 14) + word(head, 16);
    PROMISED(stack <= size + least + (word(head, 16) == 0 ? 65536u : 0u));
    /* The frame of the start is in the first megabyte. CS:IP may be after the program's end, since the start's displacement may be any. */
    PROMISED(PARAGRAPH * word(head, 22) < TOP);
}

/* Asks for the lines of a fault, with a byte too little, and with exactly their size. */
static void look_at_fault(struct omf_answer fault, const uint8_t *bytes, size_t length) {
    PROMISED(fault.status == OMF_NOT_LINKED && fault.reason == OMF_NO_PROGRAM && fault.size == 0 && fault.start > 0);
    const size_t size = (size_t)fault.start;
    uint8_t *lines = __real_malloc(size + 1);
    PROMISED(lines != NULL);
    memset(lines, 0xA5, size + 1);
    PROMISED(are_same(told(bytes, length, NULL, 0, lines, size - 1), fault) || refused);
    PROMISED(lines[0] == 0xA5 && lines[size - 1] == 0xA5);
    struct omf_answer answer = told(bytes, length, NULL, 0, lines, size);
    PROMISED(answer.status == OMF_MEMORY || (are_same(answer, fault) && lines[size - 1] == '\n'));
    PROMISED(lines[size] == 0xA5);
    free(lines);
}

/* The modules as they are, but with other padding after each. */
static struct text padded_input(const struct modules *in) {
    struct text all = {{.status = OMF_DONE}, __real_malloc(1), 0};
    for (size_t number = 0; number < in->count; number++) {
        size_t padding = number % 4;
        all.bytes = __real_realloc(all.bytes, all.size + in->rows[number].size + padding + 1);
        PROMISED(all.bytes != NULL);
        memcpy(all.bytes + all.size, in->rows[number].bytes, in->rows[number].size);
        all.size += in->rows[number].size;
        memset(all.bytes + all.size, number % 3 == 0 ? 0x1A : 0, padding);
        all.size += padding;
    }
    return all;
}

static void compare(struct text input, struct text file) {
    if (input.answer.status == OMF_DONE) {
        struct text other = program_of(input.bytes, input.size);
        PROMISED(other.answer.status == OMF_MEMORY || (other.answer.status == OMF_DONE && has_same_bytes(other, file)));
        free(other.bytes);
    }
    free(input.bytes);
}

int LLVMFuzzerTestOneInput(const uint8_t *bytes, size_t length) {
    struct text file = program_of(bytes, length);
    if (file.answer.status != OMF_MEMORY) {
        struct modules in = modules_in(bytes, length);
        struct omf_answer again = exe(bytes, length, NULL, 0);
        if (file.answer.status == OMF_DONE) {
            PROMISED(again.status == OMF_MEMORY || (again.status == OMF_ROOM && again.size == file.size));
            look_at_file(file);
            /* A module that is refused was lowered. */
            PROMISED(in.fault.status == OMF_REFUSED || in.fault.status == OMF_MEMORY || in.end == length);
            if (in.fault.status == OMF_DONE) {
                compare(padded_input(&in), file);
                compare(canonical_input(bytes, length, &in), file);
            }
        } else {
            PROMISED(again.status == OMF_MEMORY || are_same(again, file.answer));
            look_at_fault(file.answer, bytes, length);
        }
    }
    free(file.bytes);
    return 0;
}
