/* What compilers call where a program does not. The host has its own. */
void *memset(void *to, int byte, unsigned int length)
{
    for (unsigned char *at = to; length--; at++)
        *at = (unsigned char)byte;
    return to;
}

void *memcpy(void *to, const void *from, unsigned int length)
{
    unsigned char *at = to;
    for (const unsigned char *one = from; length--; one++)
        *at++ = *one;
    return to;
}
