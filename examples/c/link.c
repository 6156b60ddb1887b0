/* A linker for real mode: link BASE SIZE OUTPUT MODULE.. lays the segments of the modules one after another from the address BASE on, each in the frame
 * of its address, and writes SIZE bytes of memory from there on; the numbers are hexadecimal. It prints the text by which `omf-link bin` does the same. */
#include <omf.h>
#include <stdio.h>
#include <stdlib.h>
#include <string.h>

struct module {
    uint8_t *bytes;
    size_t length, segments_count, groups_count, group_members_count, externals_count, publics_count;
    struct omf_segment *segments;
    struct omf_group *groups;
    struct omf_member *group_members;
    struct omf_external *externals;
    struct omf_public *publics;
    struct omf_place *places, *external_places; /* of the segments, of the externals */
    struct omf_frame *frames;                   /* of the groups */
};

static void stop(const char *what, const char *name, int size) {
    fprintf(stderr, "%s %.*s\n", what, size, name);
    exit(1);
}

static void *room_for(size_t count, size_t size) {
    void *room = calloc(count + 1, size);
    if (!room) stop("memory ran out", "", 0);
    return room;
}

static void fault(const char *path, struct omf_answer is) {
    uint8_t line[128];
    const struct omf_answer text = omf_fault_line(&is, line, sizeof line);
    fprintf(stderr, "%s: ", path);
    stop("", (const char *)line, text.status == OMF_DONE ? (int)text.size : 0);
}

#define TABLE(m, row, rows)                                                            \
    (m)->rows##_count = omf_##rows((m)->bytes, (m)->length, false, NULL, 0).size;      \
    (m)->rows = (struct row *)room_for((m)->rows##_count, sizeof *(m)->rows);          \
    if (omf_##rows((m)->bytes, (m)->length, false, (m)->rows, (m)->rows##_count).status != OMF_DONE) stop("memory ran out", "", 0)

static void read_module(struct module *m, const char *path) {
    FILE *file = fopen(path, "rb");
    if (!file || fseek(file, 0, SEEK_END) != 0) stop("cannot read", path, (int)strlen(path));
    const long size = ftell(file);
    rewind(file);
    m->bytes = (uint8_t *)room_for((size_t)size, 1);
    m->length = fread(m->bytes, 1, (size_t)size, file);
    fclose(file);
    const struct omf_answer is = omf_check(m->bytes, m->length, false);
    if (is.status != OMF_DONE) fault(path, is);
    TABLE(m, omf_segment, segments);
    TABLE(m, omf_group, groups);
    TABLE(m, omf_member, group_members);
    TABLE(m, omf_external, externals);
    TABLE(m, omf_public, publics);
}

/* Lays the segments from an address on, and gives each group the frame of its lowest member. Returns the address after them. */
static uint32_t lay(struct module *m, uint32_t next) {
    static const uint32_t aligned[] = {1, 1, 2, 16, 256, 4};
    m->places = (struct omf_place *)room_for(m->segments_count, sizeof *m->places);
    m->frames = (struct omf_frame *)room_for(m->groups_count, sizeof *m->frames);
    for (size_t i = 0; i < m->segments_count; i++) {
        const struct omf_segment *s = &m->segments[i];
        const uint32_t to = aligned[s->align], at = s->is_absolute ? 16 * s->frame + s->frame_offset : (next + to - 1) / to * to;
        const struct omf_place real = {at, at & ~15u, (uint16_t)(at >> 4), 0}, own = {at, 16 * s->frame, (uint16_t)s->frame, 0};
        m->places[i] = s->is_absolute ? own : real;
        if (!s->is_absolute) next = at + (uint32_t)s->size;
    }
    const struct omf_member *member = m->group_members;
    for (size_t i = 0; i < m->groups_count; i++) {
        const struct omf_place *lowest = NULL;
        for (uint64_t k = 0; k < m->groups[i].members; k++, member++) {
            const struct omf_place *place = &m->places[member->segment - 1];
            if (!lowest || place->address < lowest->address) lowest = place;
        }
        if (lowest) m->frames[i].base = lowest->base, m->frames[i].selector = lowest->selector;
    }
    return next;
}

/* Where a public is: in the frame of its group, or else of its segment. */
static struct omf_place place_of(const struct module *m, const struct omf_public *p) {
    const struct omf_place absolute = {16 * p->frame, 16 * p->frame, (uint16_t)p->frame, 0};
    struct omf_place place = p->segment ? m->places[p->segment - 1] : absolute;
    place.address += p->offset;
    if (p->group) place.base = m->frames[p->group - 1].base, place.selector = m->frames[p->group - 1].selector;
    return place;
}

/* Gives each external the place of the public with its name; a local one is in its own module. */
static void resolve(struct module *m, const struct module *all, size_t count) {
    m->external_places = (struct omf_place *)room_for(m->externals_count, sizeof *m->external_places);
    for (size_t i = 0; i < m->externals_count; i++) {
        const struct omf_name name = m->externals[i].name;
        const char *text = (const char *)m->bytes + name.offset;
        size_t found = 0;
        for (const struct module *other = all; other < all + count; other++)
            for (const struct omf_public *p = other->publics; p < other->publics + other->publics_count; p++) {
                if (p->is_local != m->externals[i].is_local || (p->is_local && other != m)) continue;
                if (p->name.size != name.size || memcmp(other->bytes + p->name.offset, text, name.size) != 0) continue;
                m->external_places[i] = place_of(other, p);
                found++;
            }
        if (found != 1) stop(found ? "defined twice:" : "not defined:", text, (int)name.size);
    }
}

/* Relocates a module, and lays its bytes into the memory. */
static void load(const struct module *m, const char *path, uint32_t base, uint32_t size, uint8_t *memory) {
    const struct omf_placement placement = {m->places, m->segments_count, m->frames, m->groups_count, m->external_places, m->externals_count};
    struct omf_answer is = omf_image_at(m->bytes, m->length, &placement, false, NULL, 0, NULL, 0);
    struct omf_run *runs = (struct omf_run *)room_for(is.record_count, sizeof *runs);
    uint8_t *image = (uint8_t *)room_for(is.size, 1), *next = image;
    is = omf_image_at(m->bytes, m->length, &placement, false, runs, is.record_count, image, is.size);
    if (is.status != OMF_DONE) fault(path, is);
    for (size_t i = 0; i < is.record_count; next += runs[i++].size) {
        const uint64_t at = (uint64_t)m->places[runs[i].segment - 1].address + runs[i].offset;
        if (at < base || at + runs[i].size > (uint64_t)base + size) stop("outside the memory:", path, (int)strlen(path));
        memcpy(memory + (at - base), next, runs[i].size);
    }
    free(runs);
    free(image);
}

int main(int argc, char **argv) {
    if (argc < 5) return 2;
    const uint32_t base = (uint32_t)strtoul(argv[1], NULL, 16), size = (uint32_t)strtoul(argv[2], NULL, 16);
    const size_t count = (size_t)argc - 4;
    struct module *all = (struct module *)room_for(count, sizeof *all);
    uint8_t *memory = (uint8_t *)room_for(size, 1);
    uint32_t next = base;
    for (size_t i = 0; i < count; i++) {
        read_module(&all[i], argv[i + 4]);
        next = lay(&all[i], next);
    }
    for (size_t i = 0; i < count; i++) {
        resolve(&all[i], all, count);
        load(&all[i], argv[i + 4], base, size, memory);
        printf("M #%zu\n", i + 1);
        for (size_t k = 0; k < all[i].segments_count; k++) printf("S #%zu %X %X %X\n", k + 1, all[i].places[k].address, all[i].places[k].base, all[i].places[k].selector);
        for (size_t k = 0; k < all[i].groups_count; k++) printf("G #%zu %X %X\n", k + 1, all[i].frames[k].base, all[i].frames[k].selector);
    }
    FILE *output = fopen(argv[3], "wb");
    if (!output || fwrite(memory, 1, size, output) != size || fclose(output) != 0) stop("cannot write", argv[3], (int)strlen(argv[3]));
}
