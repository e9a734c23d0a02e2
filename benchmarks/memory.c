/* Runs a program, and behind what it writes to standard error tells the most memory that it had, in kilobytes.
 *
 *     memory PROGRAM WORD..
 *
 * A process is counted with the memory of the one that it was forked from, up to its exec: so one as small as this has to start it.
 */
#include <stdio.h>
#include <sys/resource.h>
#include <sys/wait.h>
#include <unistd.h>

int main(int count, char **words) {
    struct rusage used;
    int status;
    pid_t child = count < 2 ? -1 : fork();
    if (child == 0) {
        execv(words[1], words + 1);
        _exit(127);
    }
    if (child < 0 || wait4(child, &status, 0, &used) < 0) return 126;
    fprintf(stderr, "%ld\n", used.ru_maxrss);
    return WIFEXITED(status) ? WEXITSTATUS(status) : 125;
}
