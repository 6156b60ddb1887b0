/* Reads the standard input and keeps it, as `omf list`, `omf canon` and `omf reloc` do, and does nothing else: the least time that a program
   which keeps its input can take. It prints the number of bytes. */
#include <stdio.h>
#include <stdlib.h>
#include <string.h>
#include <unistd.h>

static char piece[327680]; /* as much as `omf` reads at once */

int main(void) {
    char *kept = NULL;
    size_t room = 0, size = 0;
    ssize_t count;
    while ((count = read(STDIN_FILENO, piece, sizeof piece)) > 0) {
        if (size + count > room) {
            room = 2 * room > size + count ? 2 * room : size + count;
            kept = realloc(kept, room);
            if (kept == NULL) return 3;
        }
        memcpy(kept + size, piece, count);
        size += count;
    }
    printf("%zu\n", size);
    return count < 0 ? 3 : 0;
}
