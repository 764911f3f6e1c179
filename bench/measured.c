/* Runs a program over a file as its input, and says its status, its processor time in microseconds
   and its greatest memory in kilobytes. A child's greatest memory begins with that of the process
   it was forked from, and this one is small.

       measured FILE PROGRAM WORD.. */
#include <fcntl.h>
#include <stdio.h>
#include <sys/resource.h>
#include <sys/wait.h>
#include <unistd.h>

static long microseconds(struct timeval t) { return t.tv_sec * 1000000L + t.tv_usec; }

int main(int count, char **words) {
    struct rusage used;
    int status;
    pid_t child;
    if (count < 3) return 2;
    child = fork();
    if (child == 0) {
        dup2(open(words[1], O_RDONLY), 0);
        dup2(open("/dev/null", O_WRONLY), 1);
        execv(words[2], words + 2);
        _exit(127);
    }
    if (child < 0 || wait4(child, &status, 0, &used) < 0) return 1;
    printf("%d %ld %ld\n", WIFEXITED(status) ? WEXITSTATUS(status) : 128, microseconds(used.ru_utime) + microseconds(used.ru_stime),
           used.ru_maxrss);
    return 0;
}
