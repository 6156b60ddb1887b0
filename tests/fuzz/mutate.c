/* Half of the changes are made inside one record, whose length is then mended; or a record is left out, doubled or exchanged with the next.
 * Half of the time the checksum bytes of a changed input are set to 00, which is right whatever the sums: so layout and meaning are reached,
 * and not checksums alone. Modules after the first are found too: in a library at the next page, else after padding. */
#include <stddef.h>
#include <stdint.h>
#include <string.h>

size_t LLVMFuzzerMutate(uint8_t *data, size_t size, size_t most);
size_t LLVMFuzzerCustomMutator(uint8_t *data, size_t size, size_t most, unsigned int seed);

enum { RECORDS = 1024, HEAD = 3 };

static size_t length_at(const uint8_t *data, size_t start) {
    return HEAD + data[start + 1] + 256u * data[start + 2];
}

/* The offset at which the record after the one at `start` begins. */
static size_t next_after(const uint8_t *data, size_t size, size_t start, size_t page) {
    size_t next = start + length_at(data, start);
    if (data[start] != 0x8A && data[start] != 0x8B) {
        return next;
    }
    if (page >= 16) {
        return (next + page - 1) / page * page;
    }
    while (next < size && (data[next] == 0 || data[next] == 0x1A)) {
        next++;
    }
    return next;
}

/* The offsets of the whole records, one after another. */
static size_t find_records(const uint8_t *data, size_t size, size_t *starts) {
    size_t count = 0, start = 0, page = size >= HEAD && data[0] == 0xF0 ? length_at(data, 0) : 0;
    while (count < RECORDS && start < size && size - start > HEAD) {
        size_t length = length_at(data, start);
        if (length == HEAD || length > size - start) {
            break;
        }
        starts[count++] = start;
        start = next_after(data, size, start, page);
    }
    return count;
}

/* Puts `length` other bytes, at most as many as fit, in the place of the `old` bytes at `start`. */
static size_t replace(uint8_t *data, size_t size, size_t most, size_t start, size_t old, const uint8_t *bytes, size_t length) {
    if (length > old && length - old > most - size) {
        return size;
    }
    memmove(data + start + length, data + start + old, size - start - old);
    memcpy(data + start, bytes, length);
    return size - old + length;
}

static size_t change_contents(uint8_t *data, size_t size, size_t most, size_t start) {
    static uint8_t record[1 << 16];
    size_t old = length_at(data, start), room = old + 16 < sizeof record ? old + 16 : sizeof record;
    memcpy(record, data + start, old < room ? old : room);
    if (old > room) {
        return size;
    }
    size_t length = HEAD + LLVMFuzzerMutate(record + HEAD, old - HEAD, room - HEAD);
    record[1] = (length - HEAD) & 255;
    record[2] = (uint8_t)((length - HEAD) >> 8);
    return replace(data, size, most, start, old, record, length);
}

static size_t change_order(uint8_t *data, size_t size, size_t most, const size_t *starts, size_t count, unsigned int seed) {
    static uint8_t records[1 << 17];
    size_t at = seed / 4 % count, start = starts[at], length = length_at(data, start);
    if (size > sizeof records) {
        return size;
    }
    if (seed % 4 == 0) {
        return replace(data, size, most, start, length, records, 0);
    }
    if (seed % 4 == 1 || at + 1 == count || starts[at + 1] != start + length) {
        memcpy(records, data + start, length);
        return replace(data, size, most, starts[seed / 4096 % count], 0, records, length);
    }
    size_t other = length_at(data, starts[at + 1]);
    memcpy(records, data + starts[at + 1], other);
    memcpy(records + other, data + start, length);
    return replace(data, size, most, start, length + other, records, length + other);
}

size_t LLVMFuzzerCustomMutator(uint8_t *data, size_t size, size_t most, unsigned int seed) {
    size_t starts[RECORDS], count = find_records(data, size, starts);
    if (count > 0 && seed / 2 % 8 < 4) {
        size = change_contents(data, size, most, starts[seed / 16 % count]);
    } else if (count > 0 && seed / 2 % 8 == 4) {
        size = change_order(data, size, most, starts, count, seed / 16);
    } else {
        size = LLVMFuzzerMutate(data, size, most);
    }
    count = find_records(data, size, starts);
    for (size_t at = 0; seed % 2 == 0 && at < count; at++) {
        data[starts[at] + length_at(data, starts[at]) - 1] = 0;
    }
    return size;
}
