// Runs a command, and writes its processor time in nanoseconds and its peak memory in KB at the end of a file:
//   measure FILE COMMAND..
#include <stdio.h>
#include <sys/resource.h>
#include <sys/wait.h>
#include <unistd.h>

static long nanoseconds_of(struct timeval t) { return t.tv_sec * 1000000000L + t.tv_usec * 1000L; }

int main(int argc, char **argv) {
    if (argc < 3) return 2;
    pid_t child = fork();
    if (child < 0) return 3;
    if (child == 0) {
        execvp(argv[2], argv + 2);
        _exit(127);
    }
    int status;
    struct rusage used;
    if (wait4(child, &status, 0, &used) != child) return 4;
    FILE *out = fopen(argv[1], "a");
    if (!out) return 5;
    fprintf(out, "%ld %ld\n", nanoseconds_of(used.ru_utime) + nanoseconds_of(used.ru_stime), used.ru_maxrss);
    if (fclose(out)) return 5;
    return WIFEXITED(status) ? WEXITSTATUS(status) : 1;
}
