/* launch SECONDS COMMAND WORD..: runs a command for at most so many processor seconds, and writes to standard
 * error its processor seconds, its peak memory in KiB and its status (-1: ended by a signal). A program started
 * by a script inherits the script's peak; started by this one it doesn't. */
#include <stdio.h>
#include <stdlib.h>
#include <sys/resource.h>
#include <sys/wait.h>
#include <unistd.h>

static double seconds(struct timeval time) { return time.tv_sec + time.tv_usec / 1e6; }

int main(int count, char **words)
{
    if (count < 3)
        return 2;
    pid_t child = fork();
    if (child == 0) {
        rlim_t most = strtoul(words[1], NULL, 10);
        struct rlimit limit = {most, most};
        setrlimit(RLIMIT_CPU, &limit);
        execvp(words[2], words + 2);
        _exit(127);
    }
    int status;
    struct rusage used;
    if (child < 0 || wait4(child, &status, 0, &used) < 0)
        return 2;
    fprintf(stderr, "\n%f %ld %d\n", seconds(used.ru_utime) + seconds(used.ru_stime), used.ru_maxrss,
            WIFEXITED(status) ? WEXITSTATUS(status) : -1);
    return 0;
}
