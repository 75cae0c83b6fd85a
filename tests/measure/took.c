// Runs a command and writes into a file what it took: microseconds of the processor, and the most memory in kilobytes. The first
// word is the file, and the others are the command, whose status it ends with.
#include <stdio.h>
#include <sys/resource.h>
#include <sys/wait.h>
#include <unistd.h>

static long microseconds(struct timeval time) {
    return time.tv_sec * 1000000L + time.tv_usec;
}

int main(int count, char **words) {
    struct rusage usage;
    int status;
    pid_t child = count > 2 ? fork() : -1;
    if (child == 0) {
        execvp(words[2], words + 2);
        _exit(127);
    }
    if (child < 0 || wait4(child, &status, 0, &usage) < 0) {
        return 127;
    }
    FILE *file = fopen(words[1], "w");
    if (!file) {
        return 127;
    }
    fprintf(file, "%ld %ld\n", microseconds(usage.ru_utime) + microseconds(usage.ru_stime), usage.ru_maxrss);
    fclose(file);
    return WIFEXITED(status) ? WEXITSTATUS(status) : 128 + WTERMSIG(status);
}
