/* one_run INPUT OUTPUT PROGRAM ARGS..: runs the program, its standard input and output these files, and writes a line: user time and
   system time in microseconds, the largest resident memory in KB, and the status of its end. It is a small process of its own, since
   a child's largest resident memory begins with that of the process that it was forked from. */
#include <fcntl.h>
#include <stdio.h>
#include <sys/resource.h>
#include <sys/wait.h>
#include <unistd.h>

int main(int count, char **words) {
    if (count < 4) return 64;
    pid_t child = fork();
    if (child == 0) {
        int input = open(words[1], O_RDONLY), output = open(words[2], O_WRONLY | O_CREAT | O_TRUNC, 0600);
        if (input < 0 || output < 0 || dup2(input, 0) < 0 || dup2(output, 1) < 0) _exit(126);
        close(input), close(output);
        execvp(words[3], words + 3);
        _exit(127);
    }
    int status;
    struct rusage used;
    if (child < 0 || wait4(child, &status, 0, &used) != child) return 71;
    printf("%ld %ld %ld %d\n", used.ru_utime.tv_sec * 1000000L + used.ru_utime.tv_usec,
           used.ru_stime.tv_sec * 1000000L + used.ru_stime.tv_usec, used.ru_maxrss, WIFEXITED(status) ? WEXITSTATUS(status) : -1);
    return 0;
}
