/* Text: strings, a table that a switch jumps by, and a count of what is shown. */
#include "flat.h"

const char digits[] = "0123456789ABCDEF";
u32 shown;

static void put_counted(int byte)
{
    shown++;
    put(byte);
}

void show(const char *text)
{
    while (*text)
        put_counted(*text++);
}

void show_number(u32 number, u32 base)
{
    char text[33], *at = text + 32;
    *at = 0;
    do
        *--at = digits[number % base];
    while (number /= base);
    show(at);
}

void show_line(const char *name, u32 number)
{
    show(name);
    show(": ");
    show_number(number, 10);
    show(" ");
    show_number(number, 16);
    show("\n");
}

const char *kind_of(u32 number)
{
    switch (number) {
    case 0: show("[none] "); return "zero";
    case 1: show("[unit] "); return "one";
    case 2: shown += 2; return "prime";
    case 3: shown += 3; show("[odd] "); return "prime";
    case 4: return digits + 4;
    case 5: shown ^= 5; return "five";
    case 6: show("[even] "); return "six";
    case 7: shown -= 7; return "seven";
    default: return digits + 10;
    }
}
