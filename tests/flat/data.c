/* Data: pointers to data of this and of other modules, before and after what they are in, and to code. */
#include "flat.h"

u32 counts[4] = {10, 20, 30, 40};
u8 page[600] __attribute__((aligned(32)));
static u32 table[256];
static u8 bytes[10] = {1, 2, 3, 4, 5, 6, 7, 8, 9, 10};
const u8 *const middle = bytes + 5;

const struct node tree[] = {
    {"root", 1, &tree[1], &tree[2]},
    {"left", 20, &tree[3], &tree[4]},
    {"right", 300, &tree[5], &tree[6]},
    {"a", 4000, 0, 0},
    {"b", 50000, 0, 0},
    {digits + 3, 600000, 0, 0},
    {&digits[8], 7000000, 0, 0},
};

static u32 plus(u32 a, u32 b) { return a + b; }
static u32 times(u32 a, u32 b) { return a * b; }
static u32 rotated(u32 a, u32 b) { return a << b | a >> (32 - b); }
static u32 digit(u32 a, u32 b) { return (u8)digits[(a ^ b) & 15]; }
static u32 kind(u32 a, u32 b) { return (u8)kind_of((a + b) % 10)[0]; }

const struct verb verbs[] = {
    {"plus", plus, &counts[0]},   {"times", times, &counts[1]}, {"rotated", rotated, &counts[3]},
    {"digit", digit, &counts[2]}, {"kind", kind, &counts[1]},   {"crossed", times, counts + 3},
};
const u32 verb_count = sizeof verbs / sizeof *verbs;

u32 sum_of(const struct node *node)
{
    return node ? node->weight + sum_of(node->left) + 3 * sum_of(node->right) + (u8)node->name[0] : 0;
}

u32 crc_of(const u8 *from, u32 length)
{
    u32 crc = ~0u;
    for (u32 i = 0; i < 256; i++) {
        table[i] = i;
        for (u32 bit = 0; bit < 8; bit++)
            table[i] = table[i] & 1 ? 0xEDB88320u ^ table[i] >> 1 : table[i] >> 1;
    }
    while (length--)
        crc = table[(crc ^ *from++) & 255] ^ crc >> 8;
    return ~crc;
}
