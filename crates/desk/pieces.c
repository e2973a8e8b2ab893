/* Copies standard input to standard output, a pipe, in pieces of SIZE bytes.
   Each is written when the one before has been read, so that the reader never
   gets more than SIZE bytes at a time. Once nobody reads any more it ends.

   usage: pieces SIZE */
#define _POSIX_C_SOURCE 200809L
#include <poll.h>
#include <stdio.h>
#include <stdlib.h>
#include <sys/ioctl.h>
#include <time.h>
#include <unistd.h>

enum { LONGEST = 512 };

/* Waits until nothing is left in the pipe; 0 if nobody reads it. */
static int wait_until_read(void)
{
    const struct timespec moment = {0, 50000};
    struct pollfd pipe = {STDOUT_FILENO, 0, 0};
    int left = 1;
    while (left > 0) {
        if (ioctl(STDOUT_FILENO, FIONREAD, &left) != 0
            || poll(&pipe, 1, 0) != 0) {
            return 0;
        }
        if (left > 0) {
            nanosleep(&moment, NULL);
        }
    }
    return 1;
}

int main(int count, char **arguments)
{
    char piece[LONGEST];
    int size = count == 2 ? atoi(arguments[1]) : 0;
    if (size < 1 || size > LONGEST) {
        fprintf(stderr, "usage: pieces SIZE, from 1 to %d\n", LONGEST);
        return 2;
    }
    size_t length = fread(piece, 1, (size_t)size, stdin);
    while (length > 0) {
        if (write(STDOUT_FILENO, piece, length) != (ssize_t)length
            || !wait_until_read()) {
            return 1;
        }
        length = fread(piece, 1, (size_t)size, stdin);
    }
    return 0;
}
