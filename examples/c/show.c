/* Shows an object module: show MODULE PLACEMENT. Its segments, its fixups with the names of their targets, and its image and start. */
#include <omf.h>
#include <stdio.h>
#include <stdlib.h>
static uint8_t *bytes[2]; /* of the module, and of the placement */
static size_t length[2];

static int read_all(int n, const char *path) {
    FILE *file = fopen(path, "rb");
    if (!file || fseek(file, 0, SEEK_END) != 0) return 0;
    const long size = ftell(file);
    rewind(file);
    bytes[n] = malloc(size > 0 ? (size_t)size : 1);
    length[n] = bytes[n] && size > 0 ? fread(bytes[n], 1, (size_t)size, file) : 0;
    fclose(file);
    return bytes[n] && (long)length[n] == size;
}

static int report(struct omf_answer fault) {
    uint8_t line[128];
    const struct omf_answer is = omf_fault_line(&fault, line, sizeof line);
    fprintf(stderr, "%.*s\n", is.status == OMF_DONE ? (int)is.size : 0, line);
    return 1;
}

/* All rows of a table; the module is well formed. */
#define TABLE(row, rows, count)                                                   \
    const size_t count = omf_##rows(bytes[0], length[0], false, NULL, 0).size;    \
    struct row *rows = calloc(count + 1, sizeof *rows);                           \
    if (!rows || omf_##rows(bytes[0], length[0], false, rows, count).status != OMF_DONE) return 3

int main(int argc, char **argv) {
    if (argc != 3 || !read_all(0, argv[1]) || !read_all(1, argv[2])) return 2;
    const struct omf_answer checked = omf_check(bytes[0], length[0], false);
    if (checked.status != OMF_DONE) return report(checked);
    TABLE(omf_segment, segments, segment_count);
    TABLE(omf_group, groups, group_count);
    TABLE(omf_external, externals, external_count);
    TABLE(omf_fixup, fixups, fixup_count);
    for (size_t i = 0; i < segment_count; i++)
        printf("segment %zu %.*s: %llu bytes\n", i + 1, (int)segments[i].name.size, bytes[0] + segments[i].name.offset, (unsigned long long)segments[i].size);
    for (size_t i = 0; i < fixup_count; i++) {
        const size_t at = fixups[i].target_index - 1;
        const struct omf_name name = fixups[i].target_method == OMF_SEGMENT ? segments[at].name : fixups[i].target_method == OMF_GROUP ? groups[at].name : externals[at].name;
        printf("fixup %u:%04llX type %u of %.*s\n", fixups[i].segment, (unsigned long long)fixups[i].offset, fixups[i].location, (int)name.size, bytes[0] + name.offset);
    }
    struct omf_answer is = omf_image(bytes[0], length[0], bytes[1], length[1], false, NULL, 0, NULL, 0);
    struct omf_run *runs = calloc(is.record_count + 1, sizeof *runs);
    uint8_t *image = malloc(is.size + 1), *next = image;
    if (!runs || !image) return 3;
    is = omf_image(bytes[0], length[0], bytes[1], length[1], false, runs, is.record_count, image, is.size);
    if (is.status != OMF_DONE) return report(is);
    for (size_t i = 0; i < is.record_count; i++)
        for (uint64_t k = 0; k < runs[i].size; k++) {
            if (k % 16 == 0) printf("%04X:%08llX", runs[i].segment, (unsigned long long)(runs[i].offset + k));
            printf(k % 16 == 15 || k + 1 == runs[i].size ? " %02X\n" : " %02X", *next++);
        }
    struct omf_start start;
    if (omf_start(bytes[0], length[0], bytes[1], length[1], false, &start, 1).size == 1) printf("START %04X:%08X\n", start.selector, start.offset);
}
