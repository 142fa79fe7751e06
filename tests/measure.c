// Runs a program, ends with its status, and writes what the run took into a file: microseconds of the
// processor, and the most memory that it held, in KB.
//
// usage: measure FILE PROGRAM ARGUMENT..
//
// The program is started by this small one, since a process counts the memory of the one that starts it.
#include <stdio.h>
#include <sys/resource.h>
#include <sys/wait.h>
#include <unistd.h>

static long microseconds(struct timeval time) {
    return time.tv_sec * 1000000 + time.tv_usec;
}

int main(int count, char **arguments) {
    int status;
    struct rusage used;
    FILE *out;
    pid_t child;

    if (count < 3)
        return 127;
    child = fork();
    if (child == 0) {
        execv(arguments[2], arguments + 2);
        _exit(127);
    }
    out = fopen(arguments[1], "w");
    if (!out || wait4(child, &status, 0, &used) != child)
        return 127;
    fprintf(out, "%ld %ld\n", microseconds(used.ru_utime) + microseconds(used.ru_stime), used.ru_maxrss);
    fclose(out);
    return WIFEXITED(status) ? WEXITSTATUS(status) : 128 + WTERMSIG(status);
}
