// Runs a program with its words, and writes to the file of the first word how many seconds it took, the most
// kilobytes of memory that it had, and how many calls that read it made. The memory of what begins a program counts
// for it too, so this is small.
#define _GNU_SOURCE
#include <stdio.h>
#include <string.h>
#include <sys/resource.h>
#include <sys/wait.h>
#include <time.h>
#include <unistd.h>

// How many calls that read a program made that has ended and wasn't waited for yet; -1 where the system doesn't say.
static long reads(pid_t child) {
    char line[128];
    long found = -1;
    snprintf(line, sizeof line, "/proc/%d/io", (int)child);
    FILE *in = fopen(line, "r");
    if (!in) return -1;
    while (fgets(line, sizeof line, in))
        if (!strncmp(line, "syscr:", 6)) sscanf(line + 6, "%ld", &found);
    fclose(in);
    return found;
}

int main(int count, char **words) {
    struct timespec begin, end;
    struct rusage used;
    siginfo_t ended;
    int status;
    if (count < 3) return 2;
    clock_gettime(CLOCK_MONOTONIC, &begin);
    pid_t child = vfork();
    if (child == 0) {
        execv(words[2], words + 2);
        _exit(127);
    }
    if (child < 0 || waitid(P_PID, child, &ended, WEXITED | WNOWAIT)) return 1;
    clock_gettime(CLOCK_MONOTONIC, &end);
    long read = reads(child);
    if (wait4(child, &status, 0, &used) != child) return 1;
    FILE *out = fopen(words[1], "w");
    if (!out) return 1;
    fprintf(out, "%.3f %ld %ld\n", (end.tv_sec - begin.tv_sec) + (end.tv_nsec - begin.tv_nsec) / 1e9, used.ru_maxrss, read);
    fclose(out);
    return WIFEXITED(status) ? WEXITSTATUS(status) : 1;
}
