/* The program: it shows what three modules have and compute, so that each kind of reference between them is followed. */
#include "flat.h"

static u32 random_state = 1;
static u32 seen[300];
static const char *const titles[] = {"first", "second", "third", "fourth"};
static void (*const shows[])(u32) = {0};

static u32 next(void)
{
    random_state = random_state * 1664525u + 1013904223u;
    return random_state >> 8;
}

static void sort(u32 *numbers, u32 count, int (*is_less)(u32, u32))
{
    for (u32 i = 1; i < count; i++) {
        u32 one = numbers[i], at = i;
        for (; at > 0 && is_less(one, numbers[at - 1]); at--)
            numbers[at] = numbers[at - 1];
        numbers[at] = one;
    }
}

static int rises(u32 a, u32 b) { return a < b; }
static int falls(u32 a, u32 b) { return a > b; }
static int by_digit(u32 a, u32 b) { return a % 10 != b % 10 ? a % 10 < b % 10 : a < b; }
static int (*const orders[])(u32, u32) = {rises, falls, by_digit};

static void show_sorted(void)
{
    for (u32 at = 0; at < sizeof orders / sizeof *orders; at++) {
        for (u32 i = 0; i < 300; i++)
            seen[i] = next() % 1000;
        sort(seen, 300, orders[at]);
        show(titles[at]);
        for (u32 i = 0; i < 300; i += 29) {
            put(' ');
            show_number(seen[i], 10);
        }
        put('\n');
    }
}

static void show_verbs(void)
{
    for (u32 i = 0; i < verb_count; i++) {
        const struct verb *verb = &verbs[i];
        *verb->count += 1;
        show_line(verb->name, verb->of(0x12345, 7 + i));
    }
    for (u32 i = 0; i < 4; i++)
        show_line(titles[i], counts[i]);
}

static void show_long(void)
{
    u64 product = 1;
    for (u32 i = 0; i < 40; i++)
        product = product * (next() | 1) + i;
    show_line("low", (u32)product);
    show_line("high", (u32)(product >> 32));
}

void program(void)
{
    show("A flat program of C.\n");
    show_sorted();
    show_verbs();
    show_long();
    for (u32 i = 0; i < 9; i++)
        show_line(kind_of(i), sum_of(&tree[i % 7]));
    for (u32 i = 0; i < sizeof page; i++)
        page[i] = (u8)(next() ^ digits[i % 16]);
    show_line("page", crc_of(page, sizeof page));
    show_line("middle", middle[0] + 256u * middle[-1]);
    show_line("made", made());
    show_line("empty", shows[0] == 0);
    show_line("shown", shown);
}
