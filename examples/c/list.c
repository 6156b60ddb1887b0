/* Lists an object module: list FILE, or list < FILE. It prints what `omf list` prints, or why the file is refused. */
#include <omf.h>
#include <stdio.h>
#include <stdlib.h>

/* All bytes of a file, and how many; NULL when out of memory or where reading fails. */
static uint8_t *read_all(FILE *file, size_t *length) {
    size_t room = 65536;
    uint8_t *bytes = malloc(room);
    *length = 0;
    while (bytes) {
        *length += fread(bytes + *length, 1, room - *length, file);
        if (*length < room) break;
        uint8_t *larger = realloc(bytes, room *= 2);
        if (!larger) free(bytes);
        bytes = larger;
    }
    if (bytes && ferror(file)) {
        free(bytes);
        return NULL;
    }
    return bytes;
}

int main(int argc, char **argv) {
    FILE *file = argc > 1 ? fopen(argv[1], "rb") : stdin;
    if (!file) return 2;
    size_t length;
    uint8_t *module = read_all(file, &length);
    if (!module) return 3;

    struct omf_answer is = omf_list(module, length, false, NULL, 0);
    if (is.status == OMF_ROOM) {
        uint8_t *text = malloc(is.size);
        if (!text) return 3;
        is = omf_list(module, length, false, text, is.size);
        fwrite(text, 1, is.size, stdout);
        free(text);
    } else if (is.status == OMF_REFUSED) {
        printf("refused for reason %u in record %u, at byte %llu\n", is.reason, is.number, (unsigned long long)(is.start + is.within));
    }
    free(module);
    return (int)is.status;
}
