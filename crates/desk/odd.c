/* Makes standard input odd, for the test of the desk.

   usage: odd unblock              from now on it answers at once where it would
                                   have to wait, for whoever else holds it too
          odd fail PROGRAM ARG..   becomes PROGRAM, whose standard input has the
                                   bytes of this one and then fails */
#define _POSIX_C_SOURCE 200809L
#include <fcntl.h>
#include <stdio.h>
#include <string.h>
#include <sys/socket.h>
#include <unistd.h>

enum { LONGEST = 4096 };

static int unblock(void)
{
    int flags = fcntl(STDIN_FILENO, F_GETFL);
    return flags < 0 || fcntl(STDIN_FILENO, F_SETFL, flags | O_NONBLOCK) < 0;
}

/* One end of a connection is closed with a byte in it that it has not read:
   the other end reads what was sent, and then an error. */
static int fail(char **program)
{
    int ends[2];
    char bytes[LONGEST];
    size_t length = fread(bytes, 1, LONGEST, stdin);
    if (socketpair(AF_UNIX, SOCK_STREAM, 0, ends) != 0
        || write(ends[0], "", 1) != 1
        || write(ends[1], bytes, length) != (ssize_t)length
        || close(ends[1]) != 0
        || dup2(ends[0], STDIN_FILENO) != STDIN_FILENO) {
        return 1;
    }
    execvp(program[0], program);
    return 1;
}

int main(int count, char **arguments)
{
    if (count == 2 && strcmp(arguments[1], "unblock") == 0) {
        return unblock();
    }
    if (count > 2 && strcmp(arguments[1], "fail") == 0) {
        return fail(arguments + 2);
    }
    fprintf(stderr, "usage: odd unblock, or odd fail PROGRAM ARG..\n");
    return 2;
}
