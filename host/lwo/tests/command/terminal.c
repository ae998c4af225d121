/*
 * Runs a command with standard output and standard error on a terminal, prints what
 * comes out of it, and exits with the command's status.
 */
#define _XOPEN_SOURCE 600
#include <fcntl.h>
#include <stdio.h>
#include <stdlib.h>
#include <sys/types.h>
#include <sys/wait.h>
#include <unistd.h>

static int failed(const char *what)
{
    perror(what);
    return 99;
}

int main(int count, char **words)
{
    int ours = posix_openpt(O_RDWR | O_NOCTTY);
    if (count < 2 || ours < 0 || grantpt(ours) != 0 || unlockpt(ours) != 0) {
        return failed("no terminal");
    }
    int theirs = open(ptsname(ours), O_RDWR | O_NOCTTY);
    if (theirs < 0) {
        return failed("no terminal");
    }
    pid_t child = fork();
    if (child == 0) {
        dup2(theirs, 1);
        dup2(theirs, 2);
        close(theirs);
        close(ours);
        execv(words[1], words + 1);
        _exit(99);
    }
    close(theirs);
    char bytes[4096];
    for (ssize_t got; (got = read(ours, bytes, sizeof bytes)) > 0;) {
        if (write(1, bytes, (size_t)got) != got) {
            return failed("not printed");
        }
    }
    int status = 0;
    waitpid(child, &status, 0);
    return WIFEXITED(status) ? WEXITSTATUS(status) : 98;
}
