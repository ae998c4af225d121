/*
 * Stands between the command and the C library (LD_PRELOAD), so that what a system
 * does on a bad day happens at a known time.
 *
 *   SIGNAL_AT_SYNC=N  the signal N comes when a file is put on the disk
 *   ENDED_BY=N        the signal N ends the command, even where it was started to
 *                     pass it over, as tests under nohup are
 *   TELL_MODE=1       the mode that a file had before it is changed is told
 *   NO_LINKS=1        the file system has no hard links
 *   TAKEN=1           another program takes a name just before it is given
 */
#define _GNU_SOURCE
#include <errno.h>
#include <fcntl.h>
#include <signal.h>
#include <stdio.h>
#include <stdlib.h>
#include <sys/stat.h>
#include <sys/syscall.h>
#include <unistd.h>

__attribute__((constructor)) static void begin(void)
{
    const char *number = getenv("ENDED_BY");
    if (number != NULL) {
        signal(atoi(number), SIG_DFL);
    }
}

int fsync(int file)
{
    const char *number = getenv("SIGNAL_AT_SYNC");
    if (number != NULL) {
        kill(getpid(), atoi(number));
    }
    return (int)syscall(SYS_fsync, file);
}

int fchmod(int file, mode_t mode)
{
    struct stat status;
    if (getenv("TELL_MODE") != NULL && fstat(file, &status) == 0) {
        fprintf(stderr, "mode %o\n", (unsigned)status.st_mode & 07777u);
    }
    return (int)syscall(SYS_fchmod, file, mode);
}

int linkat(int from_folder, const char *from, int to_folder, const char *to,
           int flags)
{
    if (getenv("TAKEN") != NULL) {
        int file = openat(to_folder, to, O_CREAT | O_WRONLY, 0666);
        if (file < 0 || write(file, "taken", 5) != 5 || close(file) != 0) {
            abort();
        }
    }
    if (getenv("NO_LINKS") != NULL) {
        errno = EPERM;
        return -1;
    }
    return (int)syscall(SYS_linkat, from_folder, from, to_folder, to, flags);
}
