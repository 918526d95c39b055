/* Runs a program and writes the most memory that it held, in KiB, to a file descriptor:
 *
 *     measured DESCRIPTOR PROGRAM WORD..
 *
 * The system counts a program from what the process held that becomes it, so this one is small. It ends as the program
 * did. HOSTILE_PRELOAD, where it is given, is LD_PRELOAD for the program alone. */
#define _DEFAULT_SOURCE
#include <signal.h>
#include <stdio.h>
#include <stdlib.h>
#include <sys/resource.h>
#include <sys/types.h>
#include <sys/wait.h>
#include <unistd.h>

int main(int count, char **words) {
    if (count < 3) return 126;
    int out = atoi(words[1]);
    pid_t child = fork();
    if (child == 0) {
        const char *library = getenv("HOSTILE_PRELOAD");
        close(out);
        if (library && setenv("LD_PRELOAD", library, 1)) _exit(126);
        execv(words[2], words + 2);
        _exit(127);
    }
    int status = 0;
    struct rusage usage;
    if (child < 0 || wait4(child, &status, 0, &usage) != child) return 126;
    if (dprintf(out, "%ld", usage.ru_maxrss) < 0) return 126;
    if (!WIFSIGNALED(status)) return WEXITSTATUS(status);
    signal(WTERMSIG(status), SIG_DFL);
    raise(WTERMSIG(status));
    return 126;
}
