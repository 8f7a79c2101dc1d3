/*
 * measure FILE PROGRAM WORD..: runs the program with these words and with the streams as they are, and writes into
 * FILE how many kilobytes of memory it had at most. The status is that of the program; 127 if it could not be
 * run, and 128 plus the number of a signal if that ended it.
 */
#include <stdio.h>
#include <sys/resource.h>
#include <sys/types.h>
#include <sys/wait.h>
#include <unistd.h>

int main(int count, char **words)
{
    struct rusage used;
    FILE *file;
    int status;
    pid_t child;

    if (count < 3 || (child = fork()) < 0)
        return 127;
    if (child == 0) {
        execv(words[2], words + 2);
        _exit(127);
    }
    if (wait4(child, &status, 0, &used) != child || (file = fopen(words[1], "w")) == NULL)
        return 127;
    fprintf(file, "%ld\n", used.ru_maxrss);
    if (fclose(file) != 0)
        return 127;
    return WIFEXITED(status) ? WEXITSTATUS(status) : 128 + WTERMSIG(status);
}
