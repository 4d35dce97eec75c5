/* Runs a program and writes its user and system seconds and its greatest memory in megabytes to a file.
   A program of its own, since a child's greatest memory includes that of the process which started it.

   measure FILE PROGRAM [WORD..]; the exit status is the program's, and 125 where it didn't end by itself. */

#include <stdio.h>
#include <sys/resource.h>
#include <sys/wait.h>
#include <unistd.h>

int main(int count, char **words) {
    if (count < 3) return 125;
    pid_t child = fork();
    if (child == 0) {
        execv(words[2], words + 2);
        _exit(127);
    }
    int status;
    struct rusage use;
    if (child < 0 || wait4(child, &status, 0, &use) < 0) return 125;
    FILE *file = fopen(words[1], "w");
    if (!file) return 125;
    double seconds = (double)(use.ru_utime.tv_sec + use.ru_stime.tv_sec)
        + 1e-6 * (double)(use.ru_utime.tv_usec + use.ru_stime.tv_usec);
    fprintf(file, "%.6f %.3f\n", seconds, (double)use.ru_maxrss / 1024);
    if (fclose(file)) return 125;
    return WIFEXITED(status) ? WEXITSTATUS(status) : 125;
}
