/* Loaded before the C library (LD_PRELOAD): a read or a write moves at most PIECE bytes, and FAULTS, a list of `CALL N ERROR`, makes call N
 * on standard input or standard output fail with that errno, or answer 0 where ERROR is 0. */
#define _GNU_SOURCE
#include <errno.h>
#include <stdio.h>
#include <stdlib.h>
#include <string.h>
#include <sys/syscall.h>
#include <unistd.h>

/* Whether FAULTS names this call, counted from 1; then errno and the answer are as it says. */
static int is_faulty(const char *call, int nth, int *answer) {
    const char *rest = getenv("FAULTS");
    char name[8];
    int at, error, length;
    while (rest && sscanf(rest, "%7s %d %d%n", name, &at, &error, &length) == 3) {
        if (strcmp(name, call) == 0 && at == nth) {
            errno = error;
            *answer = error ? -1 : 0;
            return 1;
        }
        rest += length;
    }
    return 0;
}

static size_t cut(size_t count) {
    const char *piece = getenv("PIECE");
    size_t most = piece ? strtoul(piece, NULL, 10) : count;
    return count < most ? count : most;
}

ssize_t read(int fd, void *bytes, size_t count) {
    static int calls;
    int answer;
    if (fd == STDIN_FILENO && is_faulty("read", ++calls, &answer))
        return answer;
    return syscall(SYS_read, fd, bytes, cut(count));
}

ssize_t write(int fd, const void *bytes, size_t count) {
    static int calls;
    int answer;
    if (fd == STDOUT_FILENO && is_faulty("write", ++calls, &answer))
        return answer;
    return syscall(SYS_write, fd, bytes, cut(count));
}

int close(int fd) {
    static int calls;
    int answer;
    if (fd == STDOUT_FILENO && is_faulty("close", ++calls, &answer))
        return answer;
    return syscall(SYS_close, fd);
}
