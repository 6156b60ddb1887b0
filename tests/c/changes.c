/* Cuts modules to every length, and replaces each of their bytes by each other value: changes
 *
 * A module that is cut is refused: between two records it has no end, in a record it is cut. Of one with another byte the verdict is
 * a refusal or a module; its canonical bytes are their own, and have the same image and start, or the same cause why the placement does not reach. The same
 * is done with all checksum bytes 0, which are right whatever the sums: then the other bytes are judged. No call runs out of memory. */
#include <omf.h>
#include <stdio.h>
#include <string.h>

static int failures;

/* A module in hexadecimal, and a placement at which it reaches. */
static const struct {
    const char *name, *module, *placement;
} modules[] = {
    {"one fixup", "80030001413B 96040000015411 98070028040002010131 A00800010000B80000900F 9C0600C40104010193 8A02000074", "S 10020 10000 1000"},
    {"threads",
     "80030001413B 96040000015411 98070028040002010131 98070028020002010133 A008000100000000000057 9C0900500001C4008C0002B8 9C0400C4028C0E"
     " A0060002000000 0058 9C0400C4008C10 8A02000074",
     "S 20 10 1\nS 50 40 4"},
    {"a near call", "80030001413B 96040000015411 98070028040002010131 A00800010000E8000090DF 9C06008401040101D3 8A02000074", "S 10020 10000 1000"},
    {"a short jump", "80030001413B 96040000015411 98070028040002010131 8C040001580017 A00800010000EB000090DC 9C06008001060101D5 8A02000074",
     "S 10020 10000 1000\nE 100A1 10000 1000"},
    {"a flat group",
     "80030001413B 96090000015404464C4154E1 990900A90A000000020101A7 9A02000361 A110000100000000000000000000000000004E"
     " 9D0F00EC00140101E406100101040000 0052 8A02000074",
     "S 401000 0 1B\nG 0 23"},
    {"nested blocks", "80030001413B 96040000015411 980700280C0002010129 A21500010000030002000200000001AA0100000002BBCC0C 8A02000074", "S 10020 10000 1000"},
    {"a start", "80030001413B 96040000015411 98070028040002010131 9A040002FF0160 9C030046011A 8A0600C1A00102000C", "S 10020 10000 1000\nG 10010 1001"},
    {"a start in real mode", "80030001413B 96040000015411 98070028040002010131 9A040002FF0160 9C030046011A 8A0600C1A00102000C", "S 10020 real\nG real"},
    {"an index of two bytes", "80030001413B 96040000015411 98070028040002010131 A0090080010000B80000908E 9C0600C40104010193 8A02000074", "S 10020 10000 1000"},
    {"local records",
     "80030001413B CA03000155DD 98070028040001000034 B40400015800EF B50400015900ED B8080001 5A0062818000 82 B60800000101500200 00EE"
     " B70A000001015102000000 00EA A00800010000EB000090DC 9C06008001060101D5 8A02000074",
     "S 10020 10000 1000\nE 100A1 10000 1000\nE 0 0 0\nE 0 0 0"},
};

/* The bytes of a module, and for each byte its record: the number, the offset of its first byte, and the length. */
static uint8_t bytes[256];
static size_t length, record_count;
static struct {
    uint32_t number;
    size_t start, length;
} records[256];

static unsigned digit(char it) { return it <= '9' ? (unsigned)(it - '0') : (unsigned)(it - 'A' + 10); }

static void read_module(const char *text) {
    length = record_count = 0;
    for (; *text; text++) {
        if (*text == ' ') continue;
        bytes[length++] = (uint8_t)(16 * digit(text[0]) + digit(text[1]));
        text++;
    }
    for (size_t at = 0; at < length; record_count++) {
        const size_t size = 3 + bytes[at + 1] + 256 * bytes[at + 2];
        for (size_t it = at; it < at + size; it++) {
            records[it].number = (uint32_t)record_count;
            records[it].start = at;
            records[it].length = size;
        }
        at += size;
    }
}

static void fail(const char *name, const char *what, size_t at, unsigned value) {
    printf("%s: byte %zu, value %02X: %s\n", name, at, value, what);
    failures++;
}

static void cut(const char *name) {
    for (size_t at = 0; at < length; at++) {
        const size_t within = at - records[at].start;
        const struct omf_answer is = omf_check(bytes, at, false);
        if (is.status != OMF_REFUSED || is.reason != (within ? OMF_CUT : OMF_NO_END) || is.number != records[at].number || is.start != records[at].start || is.within != within)
            fail(name, "cut here it has another verdict", at, bytes[at]);
    }
}

static bool same(struct omf_answer one, struct omf_answer other) {
    const bool is_far = one.status == OMF_REACH && one.reason == OMF_TOO_FAR;
    return one.status == other.status && one.reason == other.reason && one.kind == other.kind && one.index == other.index && one.line == other.line
        && one.size == other.size && (is_far || (one.number == other.number && one.within == other.within));
}

/* Judges the module. Returns whether it is relocated. */
static bool judged(const char *name, const char *placement, size_t at) {
    static uint8_t canonical[1024], again[1024], text[65536], other[65536];
    const uint8_t *place = (const uint8_t *)placement;
    struct omf_answer is = omf_check(bytes, length, false);
    if (is.status == OMF_REFUSED) return false;
    const struct omf_answer form = omf_canon(bytes, length, false, canonical, sizeof canonical);
    if (is.status != OMF_DONE || form.status != OMF_DONE) {
        fail(name, "neither refused nor accepted", at, bytes[at]);
        return false;
    }
    is = omf_canon(canonical, form.size, false, again, sizeof again);
    if (is.status != OMF_DONE || is.size != form.size || memcmp(canonical, again, form.size) != 0) fail(name, "canonical bytes are not their own", at, bytes[at]);
    is = omf_reloc(bytes, length, place, strlen(placement), false, text, sizeof text);
    const struct omf_answer as_is = omf_reloc(canonical, form.size, place, strlen(placement), false, other, sizeof other);
    if (!same(is, as_is) || (is.status == OMF_DONE && memcmp(text, other, is.size) != 0)) fail(name, "canonical bytes have another meaning", at, bytes[at]);
    if (is.status != OMF_DONE && is.status != OMF_LINE && is.status != OMF_REACH) fail(name, "neither relocated nor out of reach", at, bytes[at]);
    return is.status == OMF_DONE;
}

/* Replaces each byte by each other value. With a checksum of 0, or another name in the header, the module is relocated. */
static void change(const char *name, const char *placement, size_t least) {
    size_t relocated = 0;
    for (size_t at = 0; at < length; at++) {
        const uint8_t was = bytes[at];
        for (unsigned value = 0; value < 256; value++) {
            bytes[at] = (uint8_t)value;
            relocated += value != was && judged(name, placement, at);
        }
        bytes[at] = was;
    }
    if (relocated < least) fail(name, "too few are relocated", 0, 0);
}

int main(void) {
    for (size_t it = 0; it < sizeof modules / sizeof modules[0]; it++) {
        read_module(modules[it].module);
        if (!judged(modules[it].name, modules[it].placement, 0)) fail(modules[it].name, "not relocated as it is", 0, 0);
        cut(modules[it].name);
        change(modules[it].name, modules[it].placement, record_count);
        for (size_t at = 0; at < length; at++)
            if (at + 1 == records[at].start + records[at].length) bytes[at] = 0;
        change(modules[it].name, modules[it].placement, 255);
    }
    if (failures == 0) printf("every module that is cut or changed is refused, or is what its canonical bytes are\n");
    return failures != 0;
}
