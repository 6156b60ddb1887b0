/* Runs a command, and writes to standard error: the processor time that it took, in milliseconds, and the most memory
   that it held, in kilobytes. This process is small, so that the peak is the command's own. */
#include <stdio.h>
#include <stdlib.h>
#include <sys/resource.h>
#include <sys/wait.h>
#include <unistd.h>

static double milliseconds(struct timeval time) {
    return time.tv_sec * 1e3 + time.tv_usec / 1e3;
}

int main(int count, char **words) {
    if (count < 2) {
        fprintf(stderr, "usage: launch COMMAND [WORD ..]\n");
        return 2;
    }
    pid_t child = fork();
    if (child == 0) {
        execvp(words[1], words + 1);
        perror(words[1]);
        _exit(127);
    }
    int status;
    struct rusage usage;
    if (child < 0 || wait4(child, &status, 0, &usage) < 0) {
        perror("launch");
        return 2;
    }
    fprintf(stderr, "\n%.3f %ld\n", milliseconds(usage.ru_utime) + milliseconds(usage.ru_stime), usage.ru_maxrss);
    return WIFEXITED(status) ? WEXITSTATUS(status) : 128;
}
